/* strokes_crew.h: threads that paint a desk of strokes.h, for C, C++ and other languages that call C.
 *
 * A crew owns an open desk, a lock for it, and threads that take the desk's work, do it and return it. The program locks the
 * crew, feeds or reads the desk, and unlocks the crew, which notices what was fed and wakes its threads. The program learns
 * what to redraw as news. docs/embedding-c.md has a complete program; paint.c and window.c are examples.
 *
 * If memory runs out, no work is lost: the crew keeps it, and its threads try again after 20 milliseconds, then after twice as
 * long each time, up to a second.
 *
 * Rules for the program:
 *
 *  1. Any thread may make any of these calls, several of them at once, also on one crew. Only strokes_crew_start,
 *     strokes_crew_stop and strokes_crew_close need the handle for themselves.
 *  2. A handle begins as zeros, which means empty: `strokes_crew crew = {0};`. After that only these calls write it.
 *  3. From strokes_crew_lock to strokes_crew_unlock the thread has the desk, and may make any call of strokes.h on it except
 *     strokes_close, strokes_take and strokes_give. All other threads wait meanwhile. Of the calls below it may then make only
 *     strokes_crew_news.
 *  4. A thread that calls strokes_crew_settle works: its stack has at least 256 KiB.
 *  5. The rules of strokes.h hold here too: valid pointers, no call in a signal handler or in the child of a fork.
 *
 * Each call lists its results, without STROKES_. If several apply, it returns the first one listed. */
#ifndef STROKES_CREW_H
#define STROKES_CREW_H

#include "strokes.h"

#ifdef __cplusplus
extern "C" {
#endif

/* A handle. Zeros mean empty. */
typedef struct strokes_crew { void *at; } strokes_crew;

enum { STROKES_CREW_MOST_THREADS = 16 };

/* Milliseconds that mean no limit. */
#define STROKES_CREW_NO_LIMIT UINT32_MAX

/* The options of a crew. Zeros are valid for all of them. */
typedef struct strokes_crew_options {
    uint32_t threads;          /* 1 to 16; 0: one less than the number of processors, at least 1 and at most 8 */
    uint32_t zero;             /* 0 */
    void (*news)(void *whose); /* NULL, or the function that a thread calls when there is news */
    void *whose;               /* the argument of `news` */
} strokes_crew_options;

/* Moves an open desk into a crew, and starts its threads. Give the desk one slot more than threads, so that all of them and a
 * settling thread can work. If some threads can't be started, the others do the work. The threads have stacks of 256 KiB, and
 * all signals are blocked in them.
 *
 * One of the threads, or a thread in strokes_crew_settle, calls `news` without the crew's lock: once, and then not again before
 * the program has asked for the news. The function should only wake the program's own thread. A program that calls
 * strokes_crew_settle, _stop or _close must not hold a lock that `news` takes.
 * OK: the desk's handle is empty; IN_USE: the crew's handle isn't empty; SHUT: the desk is empty; OUT_OF_RANGE: the threads, or
 * `zero`; NO_MEMORY: no thread could be started. Except at OK both handles are unchanged. */
strokes_answer strokes_crew_start(strokes_crew *crew, strokes_desk *desk, const strokes_crew_options *options);

/* Waits for the lock, and lends the desk until strokes_crew_unlock. NULL: the crew is empty. */
strokes_desk *strokes_crew_lock(strokes_crew *crew);

/* Releases the lock, and wakes a thread if commands were fed. */
void strokes_crew_unlock(strokes_crew *crew);

/* Returns the news since the last call. `redraw` receives the rectangle of the canvas to redraw: outside it no pixel of the
 * root's picture changed. It is empty if there is nothing to redraw. With the lock held, news and desk are of one moment: a shot
 * taken then has what the rectangle reports.
 * OK; NO_MEMORY: a thread needs memory and tries again; `redraw` is written too; SHUT. */
strokes_answer strokes_crew_news(strokes_crew *crew, strokes_rect *redraw);

/* Returns the news, as strokes_crew_news does, but waits for news if there is none, for at most `milliseconds`. */
strokes_answer strokes_crew_wait(strokes_crew *crew, uint32_t milliseconds, strokes_rect *redraw);

/* Works with the threads until nothing can be done before more is fed, for at most `milliseconds`: after that it begins no
 * work, and with 0 it only checks. Several calls at once take turns.
 * OK: strokes_take has just returned SETTLED; STROKE_LEFT: a stroke is open, and everything else is done; NO_MEMORY: memory ran
 * out in this thread or another one; AGAIN: the time is up; SHUT. After NO_MEMORY and AGAIN the threads continue, and the program
 * may make the same call again. */
strokes_answer strokes_crew_settle(strokes_crew *crew, uint32_t milliseconds);

/* Ends the threads, once each has returned its work, and moves the desk to an empty handle. Work that can't be returned for
 * lack of memory then waits for strokes_settle. The news is lost: redraw the whole canvas.
 * OK: the crew's handle is empty; SHUT: it was empty; IN_USE: the desk's handle isn't empty, and nothing happens. */
strokes_answer strokes_crew_stop(strokes_crew *crew, strokes_desk *desk);

/* Ends the threads, and closes the desk. An empty handle stays empty. */
void strokes_crew_close(strokes_crew *crew);

#ifdef __cplusplus
}
#endif
#endif

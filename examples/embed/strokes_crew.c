/* The threads of strokes_crew.h: C11 with POSIX threads.
 *
 * Who has found work wakes one more thread, which looks for more; who has changed the desk looks at it next. So a thread may
 * sleep where it finds nothing: if there is more to do, another one is awake. A piece with work is always with one thread or on
 * the board, and whoever looks for work looks there first. */
#ifndef _POSIX_C_SOURCE
#define _POSIX_C_SOURCE 200809L
#endif
#include "strokes_crew.h"
#include <pthread.h>
#include <signal.h>
#include <string.h>
#include <time.h>
#include <unistd.h>

enum {
    MOST_THREADS = STROKES_CREW_MOST_THREADS,
    MOST_CHOSEN = 8,
    MOST_PIECES = MOST_THREADS + 1, /* one for each thread, and one for whoever settles */
    STACK_BYTES = 256 * 1024,
    FIRST_PAUSE = 20, /* milliseconds before a thread for which memory ended tries again */
    LONGEST_PAUSE = 1000
};

/* What the program is told. */
struct news {
    pthread_mutex_t lock; /* for the next three; it is taken last */
    strokes_rect redraw;
    bool lacks;   /* memory ended for a thread */
    bool is_told; /* the program was called, and hasn't asked since */
    pthread_cond_t came;
    void (*call)(void *whose);
    void *whose;
};

struct crew {
    pthread_mutex_t lock; /* for all up to `is_over` */
    strokes_desk desk;
    uint64_t commands;                /* how many the desk had when the program took the lock */
    strokes_piece board[MOST_PIECES]; /* pieces with work that no thread has, the oldest first */
    int on_board;
    int at_work;          /* how many pieces threads have */
    int asleep;           /* how many threads wait for `work` */
    int woken;            /* how many of these were woken, and don't have the lock yet */
    bool is_settling;     /* a thread of the program works along */
    bool settler_sleeps;  /* it waits for `rest`, and wasn't woken */
    uint64_t lacks;       /* how often memory ended */
    bool is_over;         /* the threads are to end */
    pthread_cond_t work;  /* a thread was woken */
    pthread_cond_t rest;  /* whoever settles was woken, or has left */
    struct news news;
    pthread_t threads[MOST_THREADS];
    int thread_count;
};

/* ---- Time */

/* The time so many milliseconds from now, written to `at`; NULL where there is no limit. */
static const struct timespec *time_in(uint32_t milliseconds, struct timespec *at) {
    if (milliseconds == STROKES_CREW_NO_LIMIT) return NULL;
    clock_gettime(CLOCK_MONOTONIC, at);
    at->tv_sec += milliseconds / 1000;
    at->tv_nsec += milliseconds % 1000 * 1000000l;
    if (at->tv_nsec >= 1000000000) at->tv_nsec -= 1000000000, at->tv_sec++;
    return at;
}

static bool is_past(const struct timespec *until) {
    struct timespec now;
    if (!until) return false;
    clock_gettime(CLOCK_MONOTONIC, &now);
    return now.tv_sec != until->tv_sec ? now.tv_sec > until->tv_sec : now.tv_nsec >= until->tv_nsec;
}

/* Waits for a signal. False where the time came first. */
static bool wait_until(pthread_cond_t *signal, pthread_mutex_t *lock, const struct timespec *until) {
    return !(until ? pthread_cond_timedwait(signal, lock, until) : pthread_cond_wait(signal, lock));
}

/* ---- News, which has a lock of its own */

static strokes_rect joined(strokes_rect a, strokes_rect b) {
    if (a.w == 0) return b;
    if (b.w == 0) return a;
    int32_t x = a.x < b.x ? a.x : b.x, y = a.y < b.y ? a.y : b.y;
    int32_t a_right = a.x + (int32_t)a.w, b_right = b.x + (int32_t)b.w;
    int32_t a_bottom = a.y + (int32_t)a.h, b_bottom = b.y + (int32_t)b.h;
    int32_t right = a_right > b_right ? a_right : b_right, bottom = a_bottom > b_bottom ? a_bottom : b_bottom;
    return (strokes_rect){x, y, (uint32_t)(right - x), (uint32_t)(bottom - y)};
}

static bool is_news(const struct news *news) { return news->redraw.w > 0 || news->lacks; }

/* Adds to the news, and wakes who waits for it. Whether the program is to be called. */
static bool add_news(struct news *news, strokes_rect redraw, bool lacks) {
    pthread_mutex_lock(&news->lock);
    news->redraw = joined(news->redraw, redraw);
    news->lacks |= lacks;
    bool calls = news->call && is_news(news) && !news->is_told;
    news->is_told |= calls;
    if (is_news(news)) pthread_cond_signal(&news->came);
    pthread_mutex_unlock(&news->lock);
    return calls;
}

/* Waits for news, and takes what there is. */
static strokes_answer take_news(struct news *news, const struct timespec *until, strokes_rect *redraw) {
    pthread_mutex_lock(&news->lock);
    while (!is_news(news) && wait_until(&news->came, &news->lock, until)) {
    }
    strokes_answer told = news->lacks ? STROKES_NO_MEMORY : STROKES_OK;
    *redraw = news->redraw;
    news->redraw = (strokes_rect){0};
    news->lacks = news->is_told = false;
    pthread_mutex_unlock(&news->lock);
    return told;
}

/* ---- Sleeping and waking. All that follows is called with the crew's lock, where it doesn't say otherwise. */

static void wake_settler(struct crew *crew) {
    if (!crew->settler_sleeps) return;
    crew->settler_sleeps = false;
    pthread_cond_broadcast(&crew->rest);
}

/* Wakes one of those that sleep, and weren't woken, if there is one. */
static void wake(struct crew *crew) {
    if (crew->woken == crew->asleep) {
        wake_settler(crew);
        return;
    }
    crew->woken++;
    pthread_cond_signal(&crew->work);
}

/* Sleeps until there may be work. A thread that wakes for another reason looks in place of one that was woken. */
static void doze(struct crew *crew, const struct timespec *until) {
    crew->asleep++;
    while (crew->woken == 0 && !crew->is_over && wait_until(&crew->work, &crew->lock, until)) {
    }
    crew->asleep--;
    if (crew->woken > 0) crew->woken--;
}

/* The same for whoever settles. */
static void doze_settling(struct crew *crew, const struct timespec *until) {
    crew->settler_sleeps = true;
    while (crew->settler_sleeps && wait_until(&crew->rest, &crew->lock, until)) {
    }
    crew->settler_sleeps = false;
}

/* Tells the program what is to be drawn anew, and whether memory ended. The lock is let go where the program is called. */
static void tell(struct crew *crew, strokes_rect redraw, bool lacks) {
    if (redraw.w == 0 && !lacks) return;
    if (!add_news(&crew->news, redraw, lacks)) return;
    pthread_mutex_unlock(&crew->lock);
    crew->news.call(crew->news.whose);
    pthread_mutex_lock(&crew->lock);
}

/* ---- Work */

/* Takes what can be done next: the oldest piece of the board, or work of the desk. */
static strokes_answer take(struct crew *crew, strokes_piece *piece) {
    strokes_answer told = STROKES_OK;
    if (crew->on_board > 0) {
        *piece = crew->board[0];
        memmove(crew->board, crew->board + 1, (size_t)--crew->on_board * sizeof *piece);
    } else
        told = strokes_take(&crew->desk, piece);
    if (told == STROKES_OK) crew->at_work++;
    return told;
}

/* Puts back what was taken. */
static void keep(struct crew *crew, const strokes_piece *piece) {
    crew->at_work--;
    crew->board[crew->on_board++] = *piece;
}

/* Puts parts of a piece on the board, for those that sleep. */
static void share(struct crew *crew, strokes_piece *piece) {
    for (int shares = 1 + crew->asleep + crew->settler_sleeps - crew->on_board; shares > 1; shares--) {
        strokes_piece part = {0};
        if (strokes_share(piece, (uint32_t)shares, &part) != STROKES_OK) return;
        crew->board[crew->on_board++] = part;
        wake(crew);
    }
}

/* Does what was taken, and gives it back or keeps it. The lock is let go meanwhile, and one more thread looks whether there is
 * more: what comes of its own piece a thread takes itself. */
static strokes_answer work(struct crew *crew, strokes_piece *piece, strokes_rect *redraw) {
    share(crew, piece);
    wake(crew);
    pthread_mutex_unlock(&crew->lock);
    strokes_answer told = strokes_work(piece);
    pthread_mutex_lock(&crew->lock);
    if (told == STROKES_OK) told = strokes_give(&crew->desk, piece, redraw);
    switch (told) {
    case STROKES_STRANGER: /* strokes_settle has done it meanwhile */
        strokes_close_piece(piece);
        told = STROKES_OK;
        /* fall through */
    case STROKES_OK: crew->at_work--; break;
    default: keep(crew, piece);
    }
    return told;
}

/* Does what can be done next. What is taken when the time is past stays on the board. */
static strokes_answer turn(struct crew *crew, const struct timespec *until) {
    strokes_piece piece = {0};
    strokes_rect redraw = {0};
    strokes_answer told = take(crew, &piece);
    if (told == STROKES_OK && is_past(until)) {
        keep(crew, &piece);
        return STROKES_AGAIN;
    }
    if (told == STROKES_OK) told = work(crew, &piece, &redraw);
    if (told == STROKES_NO_MEMORY) {
        crew->lacks++;
        wake_settler(crew);
    }
    tell(crew, redraw, told == STROKES_NO_MEMORY);
    return told;
}

/* Whether nothing can be done before more is fed, by what a thread was answered that wanted to take. */
static bool is_at_rest(const struct crew *crew, strokes_answer told) {
    return told == STROKES_SETTLED || (told == STROKES_IDLE && crew->at_work == 0);
}

static uint32_t after_pause(uint32_t pause) {
    return pause == 0 ? FIRST_PAUSE : 2 * pause < LONGEST_PAUSE ? 2 * pause : LONGEST_PAUSE;
}

/* What a thread of the crew does, called without the lock. */
static void *paint(void *at) {
    struct crew *crew = at;
    struct timespec until;
    uint32_t pause = 0;
    pthread_mutex_lock(&crew->lock);
    while (!crew->is_over) {
        strokes_answer told = turn(crew, NULL);
        pause = told == STROKES_NO_MEMORY ? after_pause(pause) : 0;
        if (is_at_rest(crew, told)) wake_settler(crew);
        if (pause > 0)
            doze(crew, time_in(pause, &until));
        else if (told == STROKES_IDLE || told == STROKES_SETTLED)
            doze(crew, NULL);
    }
    pthread_mutex_unlock(&crew->lock);
    return NULL;
}

/* Settles the desk where the crew is at rest. There is something to do if somebody had let a piece go before the desk was the
 * crew's, and no stroke is open. */
static strokes_answer settle_rest(struct crew *crew) {
    strokes_canvas canvas;
    strokes_answer told = strokes_settle(&crew->desk);
    if (told == STROKES_OK && strokes_canvas_of(&crew->desk, &canvas) == STROKES_OK)
        tell(crew, (strokes_rect){0, 0, canvas.w, canvas.h}, false);
    return told;
}

/* Works with the threads. */
static strokes_answer settle(struct crew *crew, const struct timespec *until) {
    uint64_t lacks = crew->lacks;
    for (;;) {
        strokes_answer told = turn(crew, until);
        if (told == STROKES_SETTLED) return STROKES_OK;
        if (is_at_rest(crew, told)) told = settle_rest(crew);
        if (told == STROKES_STROKE_LEFT) return told;
        if (told == STROKES_NO_MEMORY || crew->lacks != lacks) return STROKES_NO_MEMORY;
        if (is_past(until)) return STROKES_AGAIN;
        if (told == STROKES_IDLE) doze_settling(crew, until);
    }
}

/* ---- Starting and ending, called without the lock */

/* The three waits tell the time by a clock that nobody sets. None of this allocates with the C libraries of Linux, so that
 * nothing is left where it fails. */
static bool open_locks(struct crew *crew) {
    pthread_condattr_t clock;
    return !pthread_condattr_init(&clock) && !pthread_condattr_setclock(&clock, CLOCK_MONOTONIC) &&
           !pthread_cond_init(&crew->work, &clock) && !pthread_cond_init(&crew->rest, &clock) &&
           !pthread_cond_init(&crew->news.came, &clock) && !pthread_condattr_destroy(&clock) &&
           !pthread_mutex_init(&crew->lock, NULL) && !pthread_mutex_init(&crew->news.lock, NULL);
}

static void free_crew(struct crew *crew) {
    pthread_mutex_destroy(&crew->news.lock);
    pthread_mutex_destroy(&crew->lock);
    pthread_cond_destroy(&crew->news.came);
    pthread_cond_destroy(&crew->rest);
    pthread_cond_destroy(&crew->work);
    strokes_heap_free(crew);
}

/* Starts as many of these threads as can be. They have the signals that this one has at the moment. */
static void start_threads(struct crew *crew, int count) {
    pthread_attr_t form;
    if (pthread_attr_init(&form)) return;
    if (!pthread_attr_setstacksize(&form, STACK_BYTES))
        while (crew->thread_count < count && !pthread_create(&crew->threads[crew->thread_count], &form, paint, crew))
            crew->thread_count++;
    pthread_attr_destroy(&form);
}

static void start_without_signals(struct crew *crew, int count) {
    sigset_t all, before;
    sigfillset(&all);
    if (pthread_sigmask(SIG_SETMASK, &all, &before)) return;
    start_threads(crew, count);
    pthread_sigmask(SIG_SETMASK, &before, NULL);
}

static void end_threads(struct crew *crew) {
    pthread_mutex_lock(&crew->lock);
    crew->is_over = true;
    pthread_cond_broadcast(&crew->work);
    pthread_mutex_unlock(&crew->lock);
    while (crew->thread_count > 0) pthread_join(crew->threads[--crew->thread_count], NULL);
}

/* Does what is left on the board, as far as there is memory. */
static void clear_board(struct crew *crew) {
    strokes_rect redraw;
    while (crew->on_board > 0) {
        strokes_piece *piece = &crew->board[--crew->on_board];
        if (strokes_work(piece) == STROKES_OK) strokes_give(&crew->desk, piece, &redraw);
        strokes_close_piece(piece);
    }
}

static uint32_t chosen_threads(void) {
    long others = sysconf(_SC_NPROCESSORS_ONLN) - 1;
    return others < 1 ? 1 : others > MOST_CHOSEN ? MOST_CHOSEN : (uint32_t)others;
}

/* ---- The calls */

strokes_answer strokes_crew_start(strokes_crew *handle, strokes_desk *desk, const strokes_crew_options *options) {
    if (handle->at) return STROKES_IN_USE;
    if (!desk->full) return STROKES_SHUT;
    if (options->threads > MOST_THREADS || options->zero != 0) return STROKES_OUT_OF_RANGE;
    strokes_block block = strokes_heap_alloc(sizeof(struct crew), _Alignof(struct crew));
    if (!block.ok) return STROKES_NO_MEMORY;
    struct crew *crew = memset(block.at, 0, sizeof *crew);
    if (!open_locks(crew)) {
        strokes_heap_free(crew);
        return STROKES_NO_MEMORY;
    }
    crew->desk = *desk;
    crew->news.call = options->news;
    crew->news.whose = options->whose;
    start_without_signals(crew, (int)(options->threads ? options->threads : chosen_threads()));
    if (crew->thread_count == 0) {
        free_crew(crew);
        return STROKES_NO_MEMORY;
    }
    *desk = (strokes_desk){0};
    handle->at = crew;
    return STROKES_OK;
}

static uint64_t commands_of(strokes_desk *desk) {
    strokes_count count = {0};
    strokes_count_of(desk, &count);
    return count.commands;
}

strokes_desk *strokes_crew_lock(strokes_crew *handle) {
    struct crew *crew = handle->at;
    if (!crew) return NULL;
    pthread_mutex_lock(&crew->lock);
    crew->commands = commands_of(&crew->desk);
    return &crew->desk;
}

void strokes_crew_unlock(strokes_crew *handle) {
    struct crew *crew = handle->at;
    if (!crew) return;
    if (commands_of(&crew->desk) != crew->commands) wake(crew);
    pthread_mutex_unlock(&crew->lock);
}

strokes_answer strokes_crew_wait(strokes_crew *handle, uint32_t milliseconds, strokes_rect *redraw) {
    struct crew *crew = handle->at;
    struct timespec at;
    return crew ? take_news(&crew->news, time_in(milliseconds, &at), redraw) : STROKES_SHUT;
}

strokes_answer strokes_crew_news(strokes_crew *handle, strokes_rect *redraw) { return strokes_crew_wait(handle, 0, redraw); }

strokes_answer strokes_crew_settle(strokes_crew *handle, uint32_t milliseconds) {
    struct crew *crew = handle->at;
    if (!crew) return STROKES_SHUT;
    struct timespec at;
    const struct timespec *until = time_in(milliseconds, &at);
    strokes_answer told = STROKES_AGAIN;
    pthread_mutex_lock(&crew->lock);
    while (crew->is_settling && wait_until(&crew->rest, &crew->lock, until)) {
    }
    if (!crew->is_settling) {
        crew->is_settling = true;
        told = settle(crew, until);
        crew->is_settling = false;
        pthread_cond_broadcast(&crew->rest);
        if (told == STROKES_NO_MEMORY || told == STROKES_AGAIN) wake(crew); /* to look in place of this thread */
    }
    pthread_mutex_unlock(&crew->lock);
    return told;
}

strokes_answer strokes_crew_stop(strokes_crew *handle, strokes_desk *desk) {
    struct crew *crew = handle->at;
    if (!crew) return STROKES_SHUT;
    if (desk->full) return STROKES_IN_USE;
    end_threads(crew);
    clear_board(crew);
    *desk = crew->desk;
    free_crew(crew);
    handle->at = NULL;
    return STROKES_OK;
}

void strokes_crew_close(strokes_crew *handle) {
    strokes_desk desk = {0};
    if (strokes_crew_stop(handle, &desk) == STROKES_OK) strokes_close(&desk);
}

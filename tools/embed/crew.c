/* A crew for which memory ends: each allocation of a run is refused in turn, and
 * then all of them for a while. No thread lets go of work, strokes_crew_settle
 * answers OK of a settled desk alone, the picture is the same, and at the end all
 * memory is free. Beside these there are threads that can't be started, a crew
 * that is stopped at work, and one that is asked at the wrong time.
 *
 *     crew [EACH]    each EACHth allocation alone (1)
 *
 * Link it with --wrap for the three functions that stand in for others below. */
#include "check.h"
#include "heap.h"
#include "strokes_crew.h"
#include <pthread.h>
#include <stdatomic.h>
#include <time.h>

enum { THREADS = 3, SLOTS = THREADS + 1, SECOND = 1000 };

static const char *const script[] = {
    "group 9 0 0",
    "layer 1 9 0",
    "layer 2 0 1",
    "stroke 1 1",
    "fill 1 seq 0 10 300 160 2060a0ff over 200",
    "end 1",
    "stroke 2 2",
    "dab 2 con 20 20 12 soft ffcc00ff over 255",
    "dab 2 con 200 20 12 hard ffcc00ff over 200",
    "dab 2 con 264 160 11 soft 20ff00ff over 200",
    "blur 2 seq 0 0 300 160 3",
    "move 2 bar 0 0 64 64 30 4",
    "end 2",
    "stroke 3 2",
    "dab 3 con 20 20 12 soft ffcc00ff over 255",
    "cancel 3",
    "look 2 220 multiply on",
    "undo",
    "redo",
    "purge 3",
    "export",
};

/* ---- What stands in for functions that the crew calls */

static atomic_long shared;           /* how many parts were shared */
static atomic_bool may_close;        /* pieces with work may be closed */
static atomic_int startable = 9999;  /* how many threads can be started */

strokes_answer __real_strokes_share(strokes_piece *piece, uint32_t shares, strokes_piece *other);
strokes_answer __wrap_strokes_share(strokes_piece *piece, uint32_t shares, strokes_piece *other);
void __real_strokes_close_piece(strokes_piece *piece);
void __wrap_strokes_close_piece(strokes_piece *piece);
int __real_pthread_create(pthread_t *id, const pthread_attr_t *form, void *(*does)(void *), void *of);
int __wrap_pthread_create(pthread_t *id, const pthread_attr_t *form, void *(*does)(void *), void *of);

strokes_answer __wrap_strokes_share(strokes_piece *piece, uint32_t shares, strokes_piece *other) {
    strokes_answer told = __real_strokes_share(piece, shares, other);
    if (told == STROKES_OK) atomic_fetch_add(&shared, 1);
    return told;
}

void __wrap_strokes_close_piece(strokes_piece *piece) {
    CHECK(!piece->full || atomic_load(&may_close), "a piece with work is closed");
    __real_strokes_close_piece(piece);
}

int __wrap_pthread_create(pthread_t *id, const pthread_attr_t *form, void *(*does)(void *), void *of) {
    return atomic_fetch_sub(&startable, 1) > 0 ? __real_pthread_create(id, form, does, of) : 1;
}

/* ---- A run */

static long told;  /* how many calls of a run answered NO_MEMORY */
static long asked; /* for how many allocations it asked */

static bool lacks(strokes_answer answer) {
    if (answer == STROKES_NO_MEMORY) told++;
    return answer == STROKES_NO_MEMORY;
}

static void open_desk(strokes_desk *desk) {
    const strokes_canvas canvas = {300, 170, 0xf0f4ff};
    strokes_answer answer;
    while (lacks(answer = strokes_open(desk, &canvas, SLOTS))) {
    }
    CHECK_OK(answer);
}

static void start(strokes_crew *crew, strokes_desk *desk) {
    strokes_answer answer;
    while (lacks(answer = strokes_crew_start(crew, desk, &(strokes_crew_options){.threads = THREADS}))) {
    }
    CHECK_OK(answer);
    CHECK(!desk->full, "the desk is still the program's");
}

static strokes_answer feed_line(strokes_crew *crew, const char *line) {
    strokes_answer answer = strokes_feed(strokes_crew_lock(crew), line, strlen(line));
    strokes_crew_unlock(crew);
    return answer;
}

/* Feeds the lines of the script from one to another. */
static void feed(strokes_crew *crew, size_t from, size_t to) {
    strokes_answer answer;
    for (size_t i = from; i < to; i++) {
        while (lacks(answer = feed_line(crew, script[i]))) {
        }
        CHECK_OK(answer);
    }
}

enum { LINES = sizeof script / sizeof *script, OPEN_STROKE = 9, ENTRIES = 11 };

/* The sum of what a settled desk shows, which is closed then. */
static uint64_t close_desk(strokes_desk *desk) {
    strokes_piece piece = {0};
    asked = heap_asked();
    heap_refuse(-1);
    strokes_answer answer = strokes_take(desk, &piece);
    CHECK(answer == STROKES_SETTLED, "it was told to be settled, and take answers: %s", strokes_answer_text(answer));
    uint64_t sum = check_sum(desk);
    strokes_close(desk);
    CHECK(heap_out() == 0, "%ld blocks are left", heap_out());
    return sum;
}

static uint64_t stop(strokes_crew *crew) {
    strokes_desk desk = {0};
    CHECK_OK(strokes_crew_stop(crew, &desk));
    CHECK(!crew->at, "the crew's handle isn't shut");
    return close_desk(&desk);
}

/* Settles, in a call that is made until there is memory. */
static void settle(strokes_crew *crew) {
    strokes_answer answer;
    while (lacks(answer = strokes_crew_settle(crew, STROKES_CREW_NO_LIMIT))) {
    }
    CHECK_OK(answer);
}

static uint64_t run(void) {
    strokes_crew crew = {0};
    strokes_desk desk = {0};
    told = 0;
    open_desk(&desk);
    start(&crew, &desk);
    feed(&crew, 0, LINES);
    settle(&crew);
    return stop(&crew);
}

static void sleep_for(long milliseconds) { nanosleep(&(struct timespec){0, 1000000 * milliseconds}, NULL); }

/* Waits until the threads alone have done all entries. */
static void wait_done(strokes_crew *crew) {
    strokes_count count = {0};
    for (int turns = 0; count.outcomes < ENTRIES; turns++) {
        CHECK(turns < 60 * SECOND, "the threads don't go on");
        sleep_for(1);
        strokes_count_of(strokes_crew_lock(crew), &count);
        strokes_crew_unlock(crew);
    }
}

/* ---- Tests */

static void refuse_each(uint64_t want, long each) {
    long runs = 0, silent = 0, all = asked;
    for (long i = 0; i < all; i += each, runs++) {
        heap_refuse(i);
        CHECK(run() == want, "the picture is another one after the allocation %ld", i);
        silent += told == 0;
    }
    printf("crew: an allocation failed in each of %ld runs; in %ld no answer told of it; all had the same picture\n", runs,
           silent);
}

/* Memory ends after so many allocations more, comes back, and the threads go on by themselves. */
static void end_memory(uint64_t want, long each) {
    long runs = 0, all = asked, seen = 0;
    for (long i = 0; i < all; i += 9 * each, runs++) {
        strokes_crew crew = {0};
        strokes_desk desk = {0};
        strokes_rect redraw;
        open_desk(&desk);
        start(&crew, &desk);
        feed(&crew, 0, LINES);
        heap_end(i);
        strokes_answer answer = strokes_crew_settle(&crew, STROKES_CREW_NO_LIMIT);
        CHECK(answer == STROKES_OK || answer == STROKES_NO_MEMORY, "settle: %s", strokes_answer_text(answer));
        if (answer == STROKES_NO_MEMORY) {
            CHECK(strokes_crew_news(&crew, &redraw) == STROKES_NO_MEMORY, "no news of it");
            seen++;
        }
        heap_refuse(-1);
        wait_done(&crew);
        settle(&crew);
        CHECK(stop(&crew) == want, "the picture is another one");
    }
    CHECK(seen > 0, "memory never ended");
    printf("crew: memory ended for a while in %ld runs, which was told in %ld; the threads went on\n", runs, seen);
}

/* Nobody but the threads works. */
static void leave_alone(uint64_t want) {
    strokes_crew crew = {0};
    strokes_desk desk = {0};
    open_desk(&desk);
    start(&crew, &desk);
    sleep_for(50); /* so that they sleep, too */
    feed(&crew, 0, LINES);
    wait_done(&crew);
    settle(&crew);
    CHECK(stop(&crew) == want, "the picture is another one");
}

/* A crew is stopped at work; its desk is settled, or another crew goes on. */
static void stop_at_work(uint64_t want) {
    for (int i = 0; i < 60; i++) {
        strokes_crew crew = {0};
        strokes_desk desk = {0};
        open_desk(&desk);
        start(&crew, &desk);
        feed(&crew, 0, LINES);
        if (i % 3 == 2) {
            heap_end(i);
            strokes_crew_settle(&crew, STROKES_CREW_NO_LIMIT);
        }
        atomic_store(&may_close, true);
        CHECK_OK(strokes_crew_stop(&crew, &desk));
        atomic_store(&may_close, false);
        heap_refuse(-1);
        if (i % 2 == 0) {
            CHECK_OK(strokes_settle(&desk));
            CHECK(close_desk(&desk) == want, "the picture is another one");
        } else {
            start(&crew, &desk);
            settle(&crew);
            CHECK(stop(&crew) == want, "the picture is another one");
        }
    }
}

/* Somebody has let a piece go before the desk was the crew's. */
static void lose_piece(uint64_t want) {
    strokes_crew crew = {0};
    strokes_desk desk = {0};
    strokes_piece piece = {0};
    strokes_answer answer;
    open_desk(&desk);
    for (size_t i = 0; i < LINES; i++) CHECK_OK(strokes_feed(&desk, script[i], strlen(script[i])));
    while ((answer = strokes_take(&desk, &piece)) == STROKES_AGAIN) {
    }
    CHECK_OK(answer);
    atomic_store(&may_close, true);
    strokes_close_piece(&piece);
    atomic_store(&may_close, false);
    start(&crew, &desk);
    settle(&crew);
    CHECK(stop(&crew) == want, "the picture is another one");
}

static void *settle_too(void *crew) {
    for (int i = 0; i < 20; i++) CHECK_OK(strokes_crew_settle(crew, STROKES_CREW_NO_LIMIT));
    return NULL;
}

/* A stroke is open, or several threads settle. */
static void settle_otherwise(uint64_t want) {
    strokes_crew crew = {0};
    strokes_desk desk = {0};
    pthread_t others[3];
    open_desk(&desk);
    start(&crew, &desk);
    feed(&crew, 0, OPEN_STROKE);
    strokes_answer answer = strokes_crew_settle(&crew, STROKES_CREW_NO_LIMIT);
    CHECK(answer == STROKES_STROKE_LEFT, "settle: %s", strokes_answer_text(answer));
    answer = strokes_crew_settle(&crew, 0);
    CHECK(answer == STROKES_STROKE_LEFT, "settle: %s", strokes_answer_text(answer));
    feed(&crew, OPEN_STROKE, LINES);
    answer = strokes_crew_settle(&crew, 0);
    CHECK(answer == STROKES_AGAIN || answer == STROKES_OK, "settle: %s", strokes_answer_text(answer));
    for (int i = 0; i < 3; i++) CHECK(!pthread_create(&others[i], NULL, settle_too, &crew), "no thread");
    settle(&crew);
    for (int i = 0; i < 3; i++) pthread_join(others[i], NULL);
    CHECK(stop(&crew) == want, "the picture is another one");
}

/* Threads can't be started, or there is no memory for the crew. */
static void start_none(uint64_t want) {
    const strokes_crew_options options = {.threads = THREADS};
    for (int threads = 1; threads < THREADS; threads++) {
        atomic_store(&startable, threads);
        CHECK(run() == want, "the picture is another one with %d threads", threads);
    }
    strokes_crew crew = {0};
    strokes_desk desk = {0};
    open_desk(&desk);
    atomic_store(&startable, 0);
    strokes_answer answer = strokes_crew_start(&crew, &desk, &options);
    CHECK(answer == STROKES_NO_MEMORY && !crew.at && desk.full, "start: %s", strokes_answer_text(answer));
    atomic_store(&startable, 9999);
    heap_refuse(0);
    answer = strokes_crew_start(&crew, &desk, &options);
    CHECK(answer == STROKES_NO_MEMORY && !crew.at && desk.full, "start: %s", strokes_answer_text(answer));
    heap_refuse(-1);
    start(&crew, &desk);
    feed(&crew, 0, LINES);
    settle(&crew);
    CHECK(stop(&crew) == want, "the picture is another one");
}

/* Handles that are shut or in use, and options that aren't any. */
static void misuse(void) {
    strokes_crew crew = {0}, none = {0};
    strokes_desk desk = {0};
    strokes_rect redraw;
    const strokes_crew_options many = {.threads = STROKES_CREW_MOST_THREADS + 1}, odd = {.zero = 1}, zeros = {0};
    CHECK(!strokes_crew_lock(&none), "a shut crew lends a desk");
    strokes_crew_unlock(&none);
    CHECK(strokes_crew_news(&none, &redraw) == STROKES_SHUT, "news");
    CHECK(strokes_crew_wait(&none, 0, &redraw) == STROKES_SHUT, "wait");
    CHECK(strokes_crew_settle(&none, 0) == STROKES_SHUT, "settle");
    CHECK(strokes_crew_stop(&none, &desk) == STROKES_SHUT, "stop");
    strokes_crew_close(&none);
    CHECK(strokes_crew_start(&crew, &desk, &zeros) == STROKES_SHUT, "a shut desk");
    open_desk(&desk);
    CHECK(strokes_crew_start(&crew, &desk, &many) == STROKES_OUT_OF_RANGE, "too many threads");
    CHECK(strokes_crew_start(&crew, &desk, &odd) == STROKES_OUT_OF_RANGE, "a number that is to be 0");
    CHECK_OK(strokes_crew_start(&crew, &desk, &zeros));
    open_desk(&desk);
    CHECK(strokes_crew_start(&crew, &desk, &zeros) == STROKES_IN_USE, "a crew in use");
    CHECK(strokes_crew_stop(&crew, &desk) == STROKES_IN_USE, "a desk in use");
    CHECK_OK(strokes_crew_settle(&crew, STROKES_CREW_NO_LIMIT));
    CHECK_OK(strokes_crew_wait(&crew, 1, &redraw));
    CHECK(redraw.w == 0, "news of nothing");
    strokes_crew_close(&crew);
    strokes_close(&desk);
    CHECK(heap_out() == 0, "%ld blocks are left", heap_out());
}

int main(int argc, char **argv) {
    long each = argc > 1 ? atol(argv[1]) : 1;
    CHECK(each > 0, "usage: crew [EACH]");
    heap_refuse(-1);
    uint64_t want = run();
    misuse();
    start_none(want);
    settle_otherwise(want);
    leave_alone(want);
    lose_piece(want);
    stop_at_work(want);
    CHECK(run() == want, "the picture is another one");
    refuse_each(want, each);
    CHECK(run() == want, "the picture is another one");
    end_memory(want, each);
    CHECK(atomic_load(&shared) > 0, "no piece was shared");
    return 0;
}

/* Refuses each allocation of a run in turn, at each call that takes memory. The
 * answer is NO_MEMORY or what it would have been; the same call goes on once
 * there is memory; the picture is the same, no work is lost, and at the end all
 * memory is free. A run works by pieces, or settles the desk by itself at its
 * end.
 *
 *     fail [EACH]    each EACHth allocation alone (1) */
#include "check.h"
#include "heap.h"

enum { SLOTS = 3 };

static const char *const script[] = {
    "canvas 130 70 f0f4ff",
    "group 9 0 0",
    "layer 1 9 0",
    "layer 2 0 1",
    "stroke 1 1",
    "fill 1 seq 0 10 130 60 2060a0ff over 200",
    "end 1",
    "stroke 2 2",
    "dab 2 con 20 20 12 soft ffcc00ff over 255",
    "dab 2 con 100 20 12 hard ffcc00ff over 200",
    "dab 2 con 64 60 11 soft 20ff00ff over 200",
    "blur 2 seq 0 0 100 60 3",
    "move 2 bar 0 0 64 64 30 4",
    "end 2",
    "stroke 3 2",
    "dab 3 con 20 20 12 soft ffcc00ff over 255",
    "cancel 3",
    "look 2 220 multiply on",
    "undo",
    "redo",
    "purge 3",
    "export",
};

static long told;  /* how many calls of a run answered NO_MEMORY */
static long asked; /* for how many allocations it asked */

/* Whether a call is to be made again. */
static bool lacks(strokes_answer answer) {
    if (answer == STROKES_NO_MEMORY) told++;
    return answer == STROKES_NO_MEMORY;
}

#define UNTIL_MEMORY(answer, call)                                                                                             \
    do {                                                                                                                       \
        answer = (call);                                                                                                       \
    } while (lacks(answer))

static void feed(strokes_desk *desk, const char *line) {
    strokes_answer answer;
    strokes_count before, after;
    do {
        CHECK_OK(strokes_count_of(desk, &before));
        answer = strokes_feed(desk, line, strlen(line));
        CHECK_OK(strokes_count_of(desk, &after));
        CHECK(after.commands == before.commands + (answer == STROKES_OK), "%s: %s", line, strokes_answer_text(answer));
    } while (lacks(answer));
    CHECK(answer == STROKES_OK, "%s: %s", line, strokes_answer_text(answer));
}

/* A path by itself: of one for which memory ended the first jobs may be fed, so
 * its stroke is cancelled and made anew. */
static uint32_t feed_path(strokes_desk *desk, uint32_t stroke) {
    static const strokes_point points[] = {{10, 40}, {40, 12}, {60, 50}, {120, 20}};
    static const strokes_brush brush = {0x2060a040, 9, 1, STROKES_OVER, 255};
    strokes_answer answer, fed;
    for (;; stroke++) {
        UNTIL_MEMORY(answer, strokes_begin(desk, stroke, 2, false));
        CHECK(answer == STROKES_OK, "begin: %s", strokes_answer_text(answer));
        fed = strokes_path(desk, stroke, 2, points, 4, &brush);
        lacks(fed);
        UNTIL_MEMORY(answer, fed == STROKES_OK ? strokes_end(desk, stroke) : strokes_cancel(desk, stroke));
        CHECK(answer == STROKES_OK, "end: %s", strokes_answer_text(answer));
        if (fed == STROKES_OK) return stroke;
        CHECK(fed == STROKES_NO_MEMORY, "path: %s", strokes_answer_text(fed));
    }
}

/* Works until nothing can be done before more is fed. Two pieces are out at
 * once, where there are two, or one can be shared. */
static strokes_answer work(strokes_desk *desk) {
    strokes_piece pieces[2] = {{0}, {0}};
    for (;;) {
        strokes_answer first, second, answer;
        UNTIL_MEMORY(first, strokes_take(desk, &pieces[0]));
        if (first == STROKES_AGAIN) continue;
        if (first != STROKES_OK) return first;
        UNTIL_MEMORY(second, strokes_take(desk, &pieces[1]));
        if (second != STROKES_OK) UNTIL_MEMORY(second, strokes_share(&pieces[0], 2, &pieces[1]));
        for (int i = 0; i < (second == STROKES_OK ? 2 : 1); i++) {
            strokes_rect drawn;
            UNTIL_MEMORY(answer, strokes_work(&pieces[i]));
            CHECK(answer == STROKES_OK, "work: %s", strokes_answer_text(answer));
            UNTIL_MEMORY(answer, strokes_give(desk, &pieces[i], &drawn));
            CHECK(answer == STROKES_OK, "give: %s", strokes_answer_text(answer));
            CHECK(!pieces[i].full, "a piece that was given is still there");
        }
    }
}

/* A sum of all that is shown. Calls that only ask may want memory too: they are
 * made until there is some. */
static uint64_t run(bool settles) {
    strokes_desk desk = {0};
    strokes_shot shot = {0};
    strokes_rect dirty;
    strokes_answer answer;
    uint32_t line = 0;
    told = 0;
    UNTIL_MEMORY(answer, strokes_open_script(&desk, script[0], strlen(script[0]), SLOTS, &line));
    CHECK(answer == STROKES_OK, "open: %s", strokes_answer_text(answer));
    for (size_t i = 1; i < sizeof script / sizeof *script; i++) {
        feed(&desk, script[i]);
        if (i == 13) feed_path(&desk, 100);
        if (!settles) CHECK(work(&desk) <= STROKES_SETTLED, "take");
    }
    if (settles) {
        UNTIL_MEMORY(answer, strokes_settle(&desk));
        CHECK(answer == STROKES_OK, "settle: %s", strokes_answer_text(answer));
    }
    CHECK(work(&desk) == STROKES_SETTLED, "some work was lost");
    UNTIL_MEMORY(answer, strokes_shoot(&desk, &shot, &dirty));
    CHECK(answer == STROKES_OK && dirty.w == 0, "shoot: %s", strokes_answer_text(answer));
    char piece[256];
    uint64_t next = 0;
    size_t written;
    do {
        UNTIL_MEMORY(answer, strokes_text(&desk, &next, piece, sizeof piece, &written));
        CHECK(answer == STROKES_OK, "text: %s", strokes_answer_text(answer));
    } while (written > 0);
    asked = heap_asked();
    heap_refuse(-1);
    uint64_t sum = check_sum(&desk);
    strokes_close_shot(&shot);
    strokes_close(&desk);
    strokes_close(&desk);
    CHECK(heap_out() == 0, "%ld blocks are left", heap_out());
    return sum;
}

int main(int argc, char **argv) {
    long each = argc > 1 ? atol(argv[1]) : 1, runs = 0, silent = 0;
    CHECK(each > 0, "usage: fail [EACH]");
    for (int settles = 0; settles < 2; settles++) {
        heap_refuse(-1);
        uint64_t want = run(settles);
        long all = asked;
        for (long i = 0; i < all; i += each, runs++) {
            heap_refuse(i);
            CHECK(run(settles) == want, "the picture is another one after the allocation %ld", i);
            silent += told == 0;
        }
    }
    printf("fail: an allocation failed in each of %ld runs; in %ld no answer "
           "told of it; all had the same picture\n",
           runs, silent);
    return 0;
}

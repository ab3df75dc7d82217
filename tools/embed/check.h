/* check.h: what the tests of the library have in common. */
#ifndef CHECK_H
#define CHECK_H

#include "strokes.h"
#include <stdio.h>
#include <stdlib.h>
#include <string.h>

/* Ends the test where a fact doesn't hold. */
#define CHECK(fact, ...)                                                                                                       \
    do {                                                                                                                       \
        if (!(fact)) {                                                                                                         \
            fprintf(stderr, "%s:%d: %s: ", __FILE__, __LINE__, #fact);                                                         \
            fprintf(stderr, __VA_ARGS__);                                                                                      \
            fprintf(stderr, "\n");                                                                                             \
            abort();                                                                                                           \
        }                                                                                                                      \
    } while (0)

#define CHECK_OK(call)                                                                                                         \
    do {                                                                                                                       \
        strokes_answer check_told = (call);                                                                                    \
        CHECK(check_told == STROKES_OK, "%s: %s", #call, strokes_answer_text(check_told));                                     \
    } while (0)

/* A sum of all bytes of a shot of the desk, and of its frames. */
static inline uint64_t check_sum(strokes_desk *desk) {
    strokes_shot shot = {0};
    strokes_rect dirty;
    strokes_canvas canvas;
    strokes_count count;
    CHECK_OK(strokes_canvas_of(desk, &canvas));
    CHECK_OK(strokes_count_of(desk, &count));
    CHECK_OK(strokes_shoot(desk, &shot, &dirty));
    uint8_t *row = malloc(3ul * canvas.w);
    CHECK(row, "no memory for the test");
    uint64_t sum = 14695981039346656037u;
    for (uint64_t k = 0; k <= count.frames; k++)
        for (uint32_t y = 0; y < canvas.h; y++) {
            size_t bytes = 3ul * canvas.w;
            uint16_t w = (uint16_t)canvas.w, at = (uint16_t)y;
            CHECK_OK(k == 0 ? strokes_shot_row(&shot, 0, at, w, row, bytes)
                            : strokes_frame_row(desk, k - 1, at, row, bytes));
            for (size_t i = 0; i < bytes; i++) sum = (sum ^ row[i]) * 1099511628211u;
        }
    free(row);
    strokes_close_shot(&shot);
    return sum;
}

/* What was fed, as a script, which is the caller's to free. */
static inline char *check_text(strokes_desk *desk, size_t *len) {
    size_t room = 1 << 14, written = 1;
    char *text = malloc(room);
    uint64_t next = 0;
    for (*len = 0; written > 0; *len += written) {
        if (room - *len < 4096) text = realloc(text, room *= 2);
        CHECK(text, "no memory for the test");
        CHECK_OK(strokes_text(desk, &next, text + *len, 4096, &written));
    }
    return text;
}

/* Settles a desk whose strokes are closed, and compares it with one that is
 * opened by its text. */
static inline void check_settled(strokes_desk *desk) {
    strokes_desk other = {0};
    uint32_t line;
    size_t len;
    CHECK_OK(strokes_settle(desk));
    char *text = check_text(desk, &len);
    CHECK_OK(strokes_open_script(&other, text, len, 3, &line));
    CHECK_OK(strokes_settle(&other));
    CHECK(check_sum(desk) == check_sum(&other), "a desk and one that is opened by its text differ");
    strokes_count here, there;
    CHECK_OK(strokes_count_of(desk, &here));
    CHECK_OK(strokes_count_of(&other, &there));
    CHECK(!memcmp(&here, &there, sizeof here), "they have other counts");
    for (uint64_t i = 0; i < here.outcomes; i++) {
        strokes_outcome one, another;
        CHECK_OK(strokes_outcome_at(desk, i, &one));
        CHECK_OK(strokes_outcome_at(&other, i, &another));
        CHECK(!memcmp(&one, &another, sizeof one), "they have other outcomes");
    }
    strokes_close(&other);
    free(text);
}

#endif

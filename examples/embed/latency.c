/* How long a dab takes from feeding to clean pixels, without a window.
 *
 *     latency [-l LAYERS] [-t THREADS] [-n DABS] [-e] [-s]
 *
 * On a canvas of 2,048 by 2,048 with 1, 20 and 200 layers (-l: with so many alone) a soft dab of radius 50 is laid on the bottom,
 * the middle and the top layer, DABS times each (400), by one thread and by four (-t: by so many alone). Half of the layers
 * are laid `over`, the others `multiply` and `screen`; all have pixels of mixed alphas in a middle part of 512 by 512, and the
 * dabs stand at drawn places in it. A time runs from feeding a dab until nothing is left to do and the rectangle that was told
 * for drawing is copied to a screen's bytes. One thread works by the calls alone, and paints small jobs in place; N are the
 * caller and a crew of N - 1.
 *
 * Told are the median, the 95th of a hundred and the most, in milliseconds, as rows of a table. A stroke has 25 dabs. It is
 * begun, and cancelled after the last one, out of time, so that each of them finds the same picture; the first on a tile
 * copies it for the history. With -e each dab is a stroke of its own that is begun, painted and ended in its time.
 *
 * With -s no time is told: the script is written of what -e lays on the middle layer, for other engines. Its dabs are the
 * strokes from 1000 on. */
#include "strokes_crew.h"
#include <stdio.h>
#include <stdlib.h>
#include <string.h>
#include <time.h>
#include <unistd.h>

enum { SIDE = 2048, PART = 512, EDGE = (SIDE - PART) / 2, RADIUS = 50, OF_A_STROKE = 25, MOST_DABS = 4000 };

struct bench {
    strokes_desk desk; /* of one thread; else the crew has it */
    strokes_crew crew;
    strokes_rect redraw; /* of one thread: what is to be drawn anew */
    strokes_shot shot;
    uint8_t *screen; /* three bytes a pixel of the canvas */
    uint32_t stroke;
    unsigned dice;
    bool is_each; /* each dab is a stroke */
};

struct times {
    double median, most_of_them, most;
};

static double now(void) {
    struct timespec at;
    clock_gettime(CLOCK_MONOTONIC, &at);
    return 1e3 * (double)at.tv_sec + 1e-6 * (double)at.tv_nsec;
}

static void want(bool it, const char *what, const char *told) {
    if (it) return;
    fprintf(stderr, "latency: %s: %s\n", what, told);
    exit(1);
}

static void want_ok(strokes_answer told, const char *what) { want(told == STROKES_OK, what, strokes_answer_text(told)); }

static int32_t least(int32_t a, int32_t b) { return a < b ? a : b; }
static int32_t most(int32_t a, int32_t b) { return a > b ? a : b; }

/* The least rectangle round both. */
static strokes_rect joined(strokes_rect a, strokes_rect b) {
    if (a.w == 0) return b;
    if (b.w == 0) return a;
    int32_t x = least(a.x, b.x), y = least(a.y, b.y);
    int32_t right = most(a.x + (int32_t)a.w, b.x + (int32_t)b.w), bottom = most(a.y + (int32_t)a.h, b.y + (int32_t)b.h);
    return (strokes_rect){x, y, (uint32_t)(right - x), (uint32_t)(bottom - y)};
}

/* The same draws each time. */
static int drawn(struct bench *b, int most) {
    b->dice = b->dice * 1664525u + 1013904223u;
    return (int)((b->dice >> 8) % (unsigned)most);
}

/* A colour with an alpha from `least` to `most`. */
static uint32_t drawn_colour(struct bench *b, int least, int most) {
    uint32_t colour = (uint32_t)drawn(b, 1 << 24) << 8;
    return colour | (uint32_t)(least + drawn(b, most - least + 1));
}

/* ---- Work */

/* Does all that can be done, by the caller alone. */
static void work_alone(struct bench *b) {
    strokes_piece piece = {0};
    strokes_rect redraw;
    for (;;) {
        strokes_answer told = strokes_small(&b->desk);
        if (told == STROKES_OK) continue;
        told = strokes_take(&b->desk, &piece);
        if (told == STROKES_IDLE || told == STROKES_SETTLED) return;
        if (told == STROKES_AGAIN) continue;
        want_ok(told, "take");
        want_ok(strokes_work(&piece), "work");
        want_ok(strokes_give(&b->desk, &piece, &redraw), "give");
        b->redraw = joined(b->redraw, redraw);
    }
}

/* Does all that can be done before more is fed. */
static void rest(struct bench *b) {
    if (!b->crew.at) {
        work_alone(b);
        return;
    }
    strokes_answer told = strokes_crew_settle(&b->crew, STROKES_CREW_NO_LIMIT);
    want(told == STROKES_OK || told == STROKES_STROKE_LEFT, "settle", strokes_answer_text(told));
}

static strokes_desk *locked(struct bench *b) {
    strokes_desk *desk = strokes_crew_lock(&b->crew);
    return desk ? desk : &b->desk;
}

/* Ends a call that fed something. The lock is held before. */
static void fed(struct bench *b, strokes_answer told, const char *what) {
    strokes_crew_unlock(&b->crew);
    want_ok(told, what);
}

static void feed(struct bench *b, const char *line) { fed(b, strokes_feed(locked(b), line, strlen(line)), line); }

/* What is to be drawn anew since it was asked last. */
static strokes_rect redraw_of(struct bench *b) {
    strokes_rect redraw = b->redraw;
    b->redraw = (strokes_rect){0};
    if (b->crew.at) want_ok(strokes_crew_news(&b->crew, &redraw), "news");
    return redraw;
}

/* Copies what is to be drawn anew, as a screen does. How many pixels these are. */
static size_t copy_redraw(struct bench *b) {
    strokes_rect dirty;
    strokes_desk *desk = locked(b);
    strokes_rect rect = redraw_of(b);
    want_ok(strokes_shoot(desk, &b->shot, &dirty), "shoot");
    strokes_crew_unlock(&b->crew);
    want(dirty.w == 0, "shoot", "some pixels are still to be composed");
    size_t bytes = 3ul * rect.w;
    for (int y = rect.y; y < rect.y + (int)rect.h; y++) {
        uint8_t *to = b->screen + 3ul * ((size_t)y * SIDE + (size_t)rect.x);
        want_ok(strokes_shot_row(&b->shot, (uint16_t)rect.x, (uint16_t)y, (uint16_t)rect.w, to, bytes), "row");
    }
    return (size_t)rect.w * rect.h;
}

/* ---- The picture */

/* A layer above all, with pixels of many alphas in the middle part. */
static void add_layer(struct bench *b, uint16_t id) {
    static const char *const ops[] = {"over", "over", "multiply", "screen"};
    char line[80];
    snprintf(line, sizeof line, "layer %u 0 %u", id, id - 1u);
    feed(b, line);
    snprintf(line, sizeof line, "look %u %d %s on", id, 100 + drawn(b, 156), ops[(id - 1) % 4]);
    feed(b, line);
    fed(b, strokes_begin(locked(b), ++b->stroke, id, false), "begin");
    snprintf(line, sizeof line, "fill %u seq %d %d %d %d %08x over 255", b->stroke, EDGE, EDGE, PART, PART,
             drawn_colour(b, 16, 255));
    feed(b, line);
    for (int i = 0; i < 4; i++) {
        strokes_brush brush = {drawn_colour(b, 64, 255), PART / 4, 1, STROKES_OVER, 255};
        int x = EDGE + PART / 4 + i % 2 * PART / 2, y = EDGE + PART / 4 + i / 2 * PART / 2;
        fed(b, strokes_dab(locked(b), b->stroke, STROKES_SEQ, x, y, &brush), "dab");
    }
    fed(b, strokes_end(locked(b), b->stroke), "end");
}

/* Opens a desk with so many layers, for so many threads. */
static void begin(struct bench *b, int layers, int threads, bool is_each) {
    strokes_canvas canvas = {SIDE, SIDE, 0xffffff};
    *b = (struct bench){.dice = 1, .is_each = is_each, .screen = malloc(3ul * SIDE * SIDE)};
    want(b->screen, "screen", "out of memory");
    memset(b->screen, 255, 3ul * SIDE * SIDE);
    want_ok(strokes_open(&b->desk, &canvas, (uint8_t)threads), "open");
    if (threads > 1) {
        const strokes_crew_options options = {.threads = (uint32_t)threads - 1};
        want_ok(strokes_crew_start(&b->crew, &b->desk, &options), "crew");
    }
    for (int id = 1; id <= layers; id++) add_layer(b, (uint16_t)id);
    rest(b);
    copy_redraw(b);
    b->stroke = 999;
}

static void end(struct bench *b) {
    strokes_crew_close(&b->crew);
    strokes_close_shot(&b->shot);
    strokes_close(&b->desk);
    free(b->screen);
}

/* ---- Dabs */

/* Lays a dab wholly in the middle part, and gives the time until its pixels are copied. It is thin, so that many of them leave
 * no layer opaque. */
static double one_dab(struct bench *b, uint16_t layer) {
    strokes_brush brush = {drawn_colour(b, 16, 31), RADIUS, 1, STROKES_OVER, 255};
    int x = EDGE + RADIUS + drawn(b, PART - 2 * RADIUS), y = EDGE + RADIUS + drawn(b, PART - 2 * RADIUS);
    double begun = now();
    if (b->is_each) fed(b, strokes_begin(locked(b), ++b->stroke, layer, false), "begin");
    fed(b, strokes_dab(locked(b), b->stroke, STROKES_SEQ, x, y, &brush), "dab");
    if (b->is_each) fed(b, strokes_end(locked(b), b->stroke), "end");
    rest(b);
    size_t pixels = copy_redraw(b);
    double took = now() - begun;
    want(pixels >= (2 * RADIUS + 1) * (2 * RADIUS + 1), "dab", "too little is to be drawn");
    return took;
}

/* Lays dabs, the strokes of which are begun and cancelled out of time unless each is one. */
static void lay_dabs(struct bench *b, uint16_t layer, int dabs, double *took) {
    for (int i = 0; i < dabs; i++) {
        if (!b->is_each && i % OF_A_STROKE == 0) fed(b, strokes_begin(locked(b), ++b->stroke, layer, false), "begin");
        took[i] = one_dab(b, layer);
        if (b->is_each || ((i + 1) % OF_A_STROKE != 0 && i + 1 < dabs)) continue;
        fed(b, strokes_cancel(locked(b), b->stroke), "cancel");
        rest(b);
        copy_redraw(b);
    }
}

static int by_size(const void *a, const void *b) {
    double x = *(const double *)a, y = *(const double *)b;
    return (x > y) - (x < y);
}

static struct times measured(struct bench *b, uint16_t layer, int dabs) {
    static double took[MOST_DABS];
    lay_dabs(b, layer, OF_A_STROKE, took); /* not counted */
    lay_dabs(b, layer, dabs, took);
    qsort(took, (size_t)dabs, sizeof *took, by_size);
    return (struct times){took[dabs / 2], took[dabs * 95 / 100], took[dabs - 1]};
}

/* ---- The table */

static const char *const places[] = {"bottom", "middle", "top"};

static uint16_t layer_at(int place, int layers) { return (uint16_t)(place == 0 ? 1 : place == 1 ? (layers + 1) / 2 : layers); }

/* Measures with so many layers, and writes a row for each place; of one layer there is one place. */
static void write_rows(int layers, const int *threads, int many, int dabs, bool is_each) {
    struct times times[3][2];
    int rows = layers == 1 ? 1 : 3;
    for (int k = 0; k < many; k++) {
        struct bench b;
        begin(&b, layers, threads[k], is_each);
        for (int place = 0; place < rows; place++) times[place][k] = measured(&b, layer_at(place, layers), dabs);
        end(&b);
    }
    for (int place = 0; place < rows; place++) {
        printf("| %d | %s |", layers, rows == 1 ? "only" : places[place]);
        for (int k = 0; k < many; k++) {
            struct times *it = &times[place][k];
            printf(" %.2f, %.2f, %.2f |", it->median, it->most_of_them, it->most);
        }
        printf("\n");
    }
    fflush(stdout);
}

static void write_head(const int *threads, int many) {
    printf("| Layers | Dabs on |");
    for (int k = 0; k < many; k++) printf(" %d thread%s: median, 95 of 100, most |", threads[k], threads[k] == 1 ? "" : "s");
    printf("\n|---|---|");
    for (int k = 0; k < many; k++) printf("---|");
    printf("\n");
}

/* The script of what is laid on the middle layer, by strokes of one dab. */
static void write_script(int layers, int dabs) {
    static double took[MOST_DABS];
    struct bench b;
    begin(&b, layers, 1, true);
    lay_dabs(&b, layer_at(1, layers), dabs, took);
    char piece[4096];
    uint64_t next = 0;
    size_t written;
    do {
        want_ok(strokes_text(&b.desk, &next, piece, sizeof piece, &written), "text");
        fwrite(piece, 1, written, stdout);
    } while (written > 0);
    end(&b);
}

struct words {
    int layers[3], threads[2], layer_counts, thread_counts, dabs;
    bool is_each, is_script;
};

/* What the command's words ask for. False where they aren't known. */
static bool read_words(struct words *w, int argc, char **argv) {
    *w = (struct words){{1, 20, 200}, {1, 4}, 3, 2, 400, false, false};
    for (int word; (word = getopt(argc, argv, "l:t:n:es")) != -1;) {
        switch (word) {
        case 'l': w->layers[0] = atoi(optarg), w->layer_counts = 1; break;
        case 't': w->threads[0] = atoi(optarg), w->thread_counts = 1; break;
        case 'n': w->dabs = atoi(optarg); break;
        case 'e': w->is_each = true; break;
        case 's': w->is_script = true; break;
        default: return false;
        }
    }
    return optind == argc && w->layers[0] >= 1 && w->layers[0] <= 250 && w->threads[0] >= 1 &&
           w->threads[0] <= STROKES_CREW_MOST_THREADS + 1 && w->dabs >= !w->is_script && w->dabs <= MOST_DABS;
}

int main(int argc, char **argv) {
    struct words w;
    if (!read_words(&w, argc, argv)) {
        fprintf(stderr, "usage: latency [-l LAYERS] [-t THREADS] [-n DABS] [-e] [-s]\n");
        return 2;
    }
    if (w.is_script)
        write_script(w.layer_counts == 1 ? w.layers[0] : 20, w.dabs);
    else
        write_head(w.threads, w.thread_counts);
    for (int i = 0; i < w.layer_counts && !w.is_script; i++)
        write_rows(w.layers[i], w.threads, w.thread_counts, w.dabs, w.is_each);
    return fflush(stdout) ? 1 : 0;
}

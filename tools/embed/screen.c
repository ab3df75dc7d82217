/* A screen that reads shots without the lock, while a crew paints, and that
 * puts together what it shows of the rectangles that are told: at the end that
 * is the picture of a settled desk, pixel by pixel.
 *
 *     screen THREADS < SCRIPT */
#include "check.h"
#include "strokes_crew.h"
#include <pthread.h>
#include <stdatomic.h>

enum { MOST = 2048 };

struct screen {
    strokes_crew crew;
    atomic_int calls; /* how often the crew has told of news */
    atomic_bool is_over;
    strokes_canvas canvas;
    uint8_t *shown; /* the screen's own */
    bool has_drawn; /* something was drawn anew */
};

static void note_news(void *whose) {
    struct screen *s = whose;
    atomic_fetch_add(&s->calls, 1);
}

static void copy(struct screen *s, strokes_shot *shot, strokes_rect rect) {
    CHECK(rect.x >= 0 && rect.y >= 0 && (uint32_t)rect.x + rect.w <= s->canvas.w && (uint32_t)rect.y + rect.h <= s->canvas.h,
          "a rectangle outside");
    for (uint32_t i = 0; i < rect.h; i++) {
        uint32_t y = (uint32_t)rect.y + i;
        uint8_t *to = s->shown + 3 * ((size_t)y * s->canvas.w + (uint32_t)rect.x);
        CHECK_OK(strokes_shot_row(shot, (uint16_t)rect.x, (uint16_t)y, (uint16_t)rect.w, to, 3ul * rect.w));
    }
}

/* Shows what is to be drawn anew. */
static void show(struct screen *s, strokes_shot *shot) {
    strokes_rect redraw, dirty;
    CHECK_OK(strokes_shoot(strokes_crew_lock(&s->crew), shot, &dirty));
    CHECK_OK(strokes_crew_news(&s->crew, &redraw));
    strokes_crew_unlock(&s->crew);
    if (redraw.w == 0) return;
    copy(s, shot, redraw);
    s->has_drawn = true;
}

static void *look_on(void *it) {
    struct screen *s = it;
    strokes_shot shot = {0};
    while (!atomic_load(&s->is_over)) show(s, &shot);
    show(s, &shot);
    strokes_close_shot(&shot);
    return NULL;
}

/* The paper everywhere, as a desk shows at first. */
static void clear(struct screen *s) {
    for (size_t i = 0; i < (size_t)s->canvas.w * s->canvas.h; i++)
        for (int k = 0; k < 3; k++) s->shown[3 * i + (size_t)k] = (uint8_t)(s->canvas.paper >> (16 - 8 * k));
}

/* Opens a desk by the first line of the script that says something. */
static void open_desk(strokes_desk *desk, int threads) {
    char line[4096];
    uint32_t at;
    do {
        CHECK(fgets(line, sizeof line, stdin), "no script");
    } while (line[0] == '#' || line[0] == '\n');
    CHECK_OK(strokes_open_script(desk, line, strlen(line), (uint8_t)(threads + 1), &at));
}

/* Feeds the rest of the script. */
static void feed(strokes_crew *crew) {
    char line[4096];
    while (fgets(line, sizeof line, stdin)) {
        CHECK_OK(strokes_feed(strokes_crew_lock(crew), line, strlen(line)));
        strokes_crew_unlock(crew);
    }
}

/* Compares what the screen shows with the picture of the settled desk. */
static void check_shown(struct screen *s, strokes_desk *desk) {
    strokes_shot last = {0};
    strokes_rect dirty;
    uint8_t row[3 * MOST];
    CHECK_OK(strokes_shoot(desk, &last, &dirty));
    CHECK(dirty.w == 0, "a settled desk has something to compose");
    for (uint32_t y = 0; y < s->canvas.h; y++) {
        CHECK_OK(strokes_shot_row(&last, 0, (uint16_t)y, (uint16_t)s->canvas.w, row, sizeof row));
        CHECK(!memcmp(row, s->shown + 3ul * s->canvas.w * y, 3ul * s->canvas.w), "the screen shows another row %u", y);
    }
    strokes_close_shot(&last);
}

int main(int argc, char **argv) {
    static struct screen s;
    strokes_desk desk = {0};
    pthread_t looks;
    int threads = argc > 1 ? atoi(argv[1]) : 4;
    open_desk(&desk, threads);
    CHECK_OK(strokes_canvas_of(&desk, &s.canvas));
    s.shown = malloc(3ul * s.canvas.w * s.canvas.h);
    CHECK(s.shown, "no memory for the test");
    clear(&s);
    CHECK_OK(strokes_crew_start(&s.crew, &desk, &(strokes_crew_options){(uint32_t)threads, 0, note_news, &s}));
    CHECK(!pthread_create(&looks, NULL, look_on, &s), "no thread");
    feed(&s.crew);
    CHECK_OK(strokes_crew_settle(&s.crew, STROKES_CREW_NO_LIMIT));
    atomic_store(&s.is_over, true);
    pthread_join(looks, NULL);
    CHECK_OK(strokes_crew_stop(&s.crew, &desk));
    check_shown(&s, &desk);
    CHECK(!s.has_drawn || atomic_load(&s.calls) > 0, "the crew has told of nothing");
    strokes_close(&desk);
    free(s.shown);
    puts("screen: it shows the picture");
    return 0;
}

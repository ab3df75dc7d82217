/* A window to paint in, with SDL2.
 *
 *     window [WIDTH HEIGHT [THREADS [LOG]]]
 *
 * Left button: paint; Escape meanwhile: the stroke leaves nothing. P, E: pen, eraser. C: the next colour. [ and ]: a smaller, a
 * larger brush. Z, Y: undo, redo. N: a layer above all; Page up, Page down: paint on the next one above, below; V: hide it or
 * show it. Wheel: zoom; right button: move the picture. S: save what was fed as picture.strokes. X: write the picture to
 * picture-1.ppm and so on. Q: end. LOG is a file that gets a line for each dab: the microseconds from the event of the mouse to
 * the screen. */
#include "strokes_crew.h"
#include <SDL.h>
#include <stdarg.h>
#include <stdio.h>
#include <stdlib.h>
#include <string.h>

#define OUT_OF_MEMORY "out of memory: it goes on once there is some"

enum { MOST_LAYERS = 256, WAITING = 256, KEPT_CHANGES = 200, MOST_CHANGES = 400 };

/* A change that can be undone: by it a layer was painted on, added above all, or hidden or shown. */
struct change {
    enum { PAINTED, ADDED, TURNED } what;
    int layer;
};

struct window {
    strokes_crew crew;
    strokes_canvas canvas;
    Uint32 news; /* the event that wakes the window */

    SDL_Window *window;
    SDL_Renderer *renderer;
    SDL_Texture *texture; /* the picture on the paper */
    bool is_shown;        /* the texture has the picture */
    strokes_shot shot;
    uint8_t *row, *pixels;
    float zoom, left, top; /* where the picture stands in the window */

    /* The layers and the changes as they will be once all that was fed has had its turn. A layer's id is one more than its
     * place from the bottom. */
    bool is_hidden[MOST_LAYERS];
    int layer_count, layer; /* the one that is painted on */
    struct change changes[MOST_CHANGES];
    int done, known; /* how many can be undone, and with those that can be made again */
    strokes_brush brush;
    uint32_t colour;
    bool erases, is_down;
    uint32_t stroke; /* the number of the last one */
    int x, y;        /* where its last dab stands */
    int pictures;

    FILE *log;
    Uint64 since[WAITING]; /* when the dabs were made that aren't on the screen */
    int waiting;
};

static void say(struct window *w, const char *form, ...) {
    char text[160];
    va_list words;
    va_start(words, form);
    vsnprintf(text, sizeof text, form, words);
    va_end(words);
    SDL_SetWindowTitle(w->window, text);
}

static int least(int a, int b) { return a < b ? a : b; }
static int most(int a, int b) { return a > b ? a : b; }

/* ---- The screen */

/* Copies a rectangle of the shot to the texture. */
static void upload(struct window *w, strokes_rect rect) {
    for (uint32_t i = 0; i < rect.h; i++) {
        strokes_shot_row(&w->shot, (uint16_t)rect.x, (uint16_t)(rect.y + (int)i), (uint16_t)rect.w, w->row, 3ul * rect.w);
        uint8_t *to = w->pixels + 4ul * rect.w * i;
        for (uint32_t k = 0; k < rect.w; k++) {
            memcpy(to + 4 * k, w->row + 3 * k, 3);
            to[4 * k + 3] = 255;
        }
    }
    SDL_Rect where = {rect.x, rect.y, (int)rect.w, (int)rect.h};
    SDL_UpdateTexture(w->texture, &where, w->pixels, 4 * (int)rect.w);
}

static void present(struct window *w) {
    SDL_FRect where = {w->left, w->top, w->zoom * (float)w->canvas.w, w->zoom * (float)w->canvas.h};
    SDL_SetRenderDrawColor(w->renderer, 64, 64, 64, 255);
    SDL_RenderClear(w->renderer);
    SDL_RenderCopyF(w->renderer, w->texture, NULL, &where);
    SDL_RenderPresent(w->renderer);
}

static void log_dabs(struct window *w) {
    Uint64 now = SDL_GetPerformanceCounter();
    for (int i = 0; i < w->waiting && w->log; i++)
        fprintf(w->log, "%.0f\n", 1e6 * (double)(now - w->since[i]) / (double)SDL_GetPerformanceFrequency());
    w->waiting = 0;
}

/* Called by any thread when there is something to draw. */
static void wake(void *whose) {
    struct window *w = whose;
    SDL_Event event = {.type = w->news};
    SDL_PushEvent(&event);
}

/* Takes a shot, and asks which part of it is to be drawn: at first all. False where there is no memory. The lock is held for
 * the shot alone. */
static bool shoot(struct window *w, strokes_rect *redraw) {
    strokes_rect dirty;
    strokes_answer told = strokes_shoot(strokes_crew_lock(&w->crew), &w->shot, &dirty);
    if (told == STROKES_OK && strokes_crew_news(&w->crew, redraw) == STROKES_NO_MEMORY) say(w, "%s", OUT_OF_MEMORY);
    strokes_crew_unlock(&w->crew);
    if (told != STROKES_OK) return false;
    if (!w->is_shown) *redraw = (strokes_rect){0, 0, w->canvas.w, w->canvas.h};
    w->is_shown = true;
    return true;
}

/* Brings to the screen what was painted since. */
static void draw(struct window *w) {
    strokes_rect redraw;
    bool has_all = w->waiting > 0 && strokes_crew_settle(&w->crew, 0) != STROKES_AGAIN;
    if (!shoot(w, &redraw)) {
        say(w, "%s", OUT_OF_MEMORY);
        SDL_Delay(20);
        wake(w);
        return;
    }
    if (redraw.w > 0) upload(w, redraw);
    present(w);
    if (has_all) log_dabs(w);
}

/* ---- Commands */

/* Ends a call that fed something, and tells a refusal. The lock is held before. */
static bool is_fed(struct window *w, strokes_answer told) {
    strokes_crew_unlock(&w->crew);
    if (told != STROKES_OK) say(w, "%s", strokes_answer_text(told));
    return told == STROKES_OK;
}

static bool feed(struct window *w, const char *form, ...) {
    char line[200];
    va_list words;
    va_start(words, form);
    int len = vsnprintf(line, sizeof line, form, words);
    va_end(words);
    return is_fed(w, strokes_feed(strokes_crew_lock(&w->crew), line, (size_t)len));
}

/* ---- What can be undone
 *
 * Commands take effect in the order of feeding, so the window knows which layers there will be at the turn of the next one. */

static void forget_changes(struct window *w, int count) {
    w->done = w->known = w->done - count;
    memmove(w->changes, w->changes + count, (size_t)w->done * sizeof *w->changes);
}

/* Notes a change that was fed. What can be undone is kept in memory, so only so many of the newest changes are. */
static void note_change(struct window *w, struct change change) {
    if (w->done == MOST_CHANGES) forget_changes(w, 1);
    w->changes[w->done++] = change;
    w->known = w->done;
    if (w->done == MOST_CHANGES && feed(w, "purge %d", KEPT_CHANGES)) forget_changes(w, MOST_CHANGES - KEPT_CHANGES);
}

/* What undoing or making again, by -1 or 1, does to the layers. */
static void turn_change(struct window *w, struct change change, int by) {
    if (change.what == ADDED) w->layer_count += by;
    if (change.what == TURNED) w->is_hidden[change.layer] = !w->is_hidden[change.layer];
    w->layer = least(w->layer, w->layer_count - 1);
}

static void undo(struct window *w) {
    if (w->done == 0)
        say(w, "nothing to undo");
    else if (is_fed(w, strokes_undo(strokes_crew_lock(&w->crew))))
        turn_change(w, w->changes[--w->done], -1);
}

static void redo(struct window *w) {
    if (w->done == w->known)
        say(w, "nothing to redo");
    else if (is_fed(w, strokes_redo(strokes_crew_lock(&w->crew))))
        turn_change(w, w->changes[w->done++], 1);
}

/* ---- Strokes and layers */

static uint16_t id_of(int layer) { return (uint16_t)(layer + 1); }

static void begin_stroke(struct window *w) {
    w->brush.op = w->erases ? STROKES_ERASE : STROKES_OVER;
    w->brush.colour = w->erases ? 0x000000ff : w->colour;
    w->is_down = is_fed(w, strokes_begin(strokes_crew_lock(&w->crew), w->stroke + 1, id_of(w->layer), false));
    if (w->is_down) w->stroke++;
}

/* Where memory ended the stroke is still open. */
static void end_stroke(struct window *w, bool is_cancelled) {
    if (!w->is_down) return;
    strokes_desk *desk = strokes_crew_lock(&w->crew);
    w->is_down = !is_fed(w, is_cancelled ? strokes_cancel(desk, w->stroke) : strokes_end(desk, w->stroke));
    if (!w->is_down && !is_cancelled) note_change(w, (struct change){PAINTED, w->layer});
}

/* Where a stroke has all the jobs that it may have, another one goes on. */
static void dab(struct window *w, int x, int y, Uint64 since) {
    strokes_answer told = strokes_dab(strokes_crew_lock(&w->crew), w->stroke, STROKES_SEQ, x, y, &w->brush);
    if (told == STROKES_TOO_MANY_JOBS) {
        strokes_crew_unlock(&w->crew);
        end_stroke(w, false);
        if (!w->is_down) begin_stroke(w);
        told = strokes_dab(strokes_crew_lock(&w->crew), w->stroke, STROKES_SEQ, x, y, &w->brush);
    }
    if (is_fed(w, told) && w->waiting < WAITING) w->since[w->waiting++] = since;
    w->x = x, w->y = y;
}

/* Dabs from the last one to the point, a third of the radius apart. */
static void dab_to(struct window *w, int x, int y, Uint64 since) {
    int dx = x - w->x, dy = y - w->y, steps = most(abs(dx), abs(dy)), gap = most(1, w->brush.radius / 3);
    int from_x = w->x, from_y = w->y;
    for (int at = gap; at <= steps && w->is_down; at += gap) dab(w, from_x + dx * at / steps, from_y + dy * at / steps, since);
}

/* A layer above all, with this pixel at every point. */
static bool add_layer(struct window *w, uint32_t ground) {
    int layer = w->layer_count;
    if (layer == MOST_LAYERS || !feed(w, "layer %u 0 %d %08x", id_of(layer), layer, ground)) return false;
    w->is_hidden[layer] = false;
    w->layer_count++;
    w->layer = layer;
    say(w, "layer %u", id_of(layer));
    return true;
}

static void choose_layer(struct window *w, int step) {
    w->layer = most(0, least(w->layer_count - 1, w->layer + step));
    say(w, "layer %u%s", id_of(w->layer), w->is_hidden[w->layer] ? ", hidden" : "");
}

static void hide_layer(struct window *w) {
    struct change change = {TURNED, w->layer};
    if (!feed(w, "look %u 255 over %s", id_of(w->layer), w->is_hidden[w->layer] ? "on" : "off")) return;
    note_change(w, change);
    turn_change(w, change, 1);
    choose_layer(w, 0);
}

/* ---- Files */

/* What was fed, as a script. The command paints it, as far as it has 1,048,576 bytes; strokes_open_script takes it all. */
static void save(struct window *w) {
    FILE *file = fopen("picture.strokes", "w");
    if (!file) {
        say(w, "picture.strokes can't be written");
        return;
    }
    char piece[4096];
    uint64_t next = 0;
    size_t written;
    strokes_answer told;
    do {
        told = strokes_text(strokes_crew_lock(&w->crew), &next, piece, sizeof piece, &written);
        strokes_crew_unlock(&w->crew);
        if (told == STROKES_OK) fwrite(piece, 1, written, file);
    } while (told == STROKES_OK && written > 0);
    bool is_whole = told == STROKES_OK && !ferror(file);
    is_whole &= !fclose(file);
    say(w, is_whole ? "picture.strokes is saved" : "picture.strokes isn't whole");
}

/* A row of the picture: of the newest frame, or of the shot. */
static strokes_answer row_of(struct window *w, bool is_shot, uint64_t frame, uint16_t y) {
    if (is_shot) return strokes_shot_row(&w->shot, 0, y, (uint16_t)w->canvas.w, w->row, 3ul * w->canvas.w);
    strokes_answer told = strokes_frame_row(strokes_crew_lock(&w->crew), frame, y, w->row, 3ul * w->canvas.w);
    strokes_crew_unlock(&w->crew);
    return told;
}

static bool write_rows(struct window *w, FILE *file, bool is_shot, uint64_t frame) {
    fprintf(file, "P6\n%u %u\n255\n", w->canvas.w, w->canvas.h);
    bool is_whole = true;
    for (uint32_t y = 0; is_whole && y < w->canvas.h; y++)
        is_whole = row_of(w, is_shot, frame, (uint16_t)y) == STROKES_OK && fwrite(w->row, 3, w->canvas.w, file) == w->canvas.w;
    return is_whole;
}

/* The picture, by `export`. A desk exports 64 times; after that the same pixels come from a shot of the settled desk. */
static void write_picture(struct window *w) {
    strokes_rect dirty;
    strokes_count count;
    bool is_shot = !feed(w, "export");
    strokes_answer told = strokes_crew_settle(&w->crew, STROKES_CREW_NO_LIMIT);
    strokes_desk *desk = strokes_crew_lock(&w->crew);
    if (told == STROKES_OK) told = is_shot ? strokes_shoot(desk, &w->shot, &dirty) : strokes_count_of(desk, &count);
    strokes_crew_unlock(&w->crew);
    char name[40];
    snprintf(name, sizeof name, "picture-%d.ppm", ++w->pictures);
    FILE *file = told == STROKES_OK ? fopen(name, "wb") : NULL;
    bool is_whole = file && write_rows(w, file, is_shot, is_shot ? 0 : count.frames - 1);
    is_whole &= !(file && fclose(file));
    say(w, is_whole ? "%s is written" : "%s can't be written", name);
}

/* ---- Events */

/* The point of the canvas that lies under one of the window. */
static int on_canvas(float at, float from, float zoom) {
    float point = (at - from) / zoom;
    return point < -8192 ? -8192 : point > 8191 ? 8191 : (int)(point < 0 ? point - 1 : point);
}

/* The point under the mouse stays where it is. */
static void zoom_by(struct window *w, float by, int x, int y) {
    float zoom = w->zoom * by;
    if (zoom < 0.125f || zoom > 32) return;
    SDL_SetTextureScaleMode(w->texture, zoom < 1 ? SDL_ScaleModeLinear : SDL_ScaleModeNearest);
    w->left = (float)x - ((float)x - w->left) * by;
    w->top = (float)y - ((float)y - w->top) * by;
    w->zoom = zoom;
    say(w, "%d of 100", (int)(100 * zoom));
    present(w);
}

static void next_colour(struct window *w) {
    static const uint32_t colours[] = {0x202020c0, 0xc83020c0, 0xe0a020c0, 0x309040c0, 0x2060c0c0, 0x8040a0c0};
    static unsigned next;
    w->colour = colours[++next % (sizeof colours / sizeof *colours)];
    say(w, "#%06x", w->colour >> 8);
}

static void choose_tool(struct window *w, bool erases) {
    w->erases = erases;
    say(w, erases ? "eraser" : "pen");
}

static void resize_brush(struct window *w, int by) {
    w->brush.radius = (uint8_t)most(0, least(128, w->brush.radius + by));
    say(w, "radius %u", w->brush.radius);
}

/* What may be pressed also while the hand paints. */
static void press_brush(struct window *w, SDL_Keycode key) {
    switch (key) {
    case SDLK_ESCAPE: end_stroke(w, true); break;
    case SDLK_p: choose_tool(w, false); break;
    case SDLK_e: choose_tool(w, true); break;
    case SDLK_c: next_colour(w); break;
    case SDLK_LEFTBRACKET: resize_brush(w, -2); break;
    case SDLK_RIGHTBRACKET: resize_brush(w, 2); break;
    default: break;
    }
}

static void press_between(struct window *w, SDL_Keycode key) {
    switch (key) {
    case SDLK_z: undo(w); break;
    case SDLK_y: redo(w); break;
    case SDLK_n:
        if (add_layer(w, 0)) note_change(w, (struct change){ADDED, w->layer});
        break;
    case SDLK_PAGEUP: choose_layer(w, 1); break;
    case SDLK_PAGEDOWN: choose_layer(w, -1); break;
    case SDLK_v: hide_layer(w); break;
    case SDLK_s: save(w); break;
    case SDLK_x: write_picture(w); break;
    default: break;
    }
}

static void go_down(struct window *w, int x, int y, Uint64 since) {
    begin_stroke(w);
    if (w->is_down) dab(w, on_canvas((float)x, w->left, w->zoom), on_canvas((float)y, w->top, w->zoom), since);
}

static void go_to(struct window *w, const SDL_MouseMotionEvent *event, Uint64 since) {
    if (event->state & SDL_BUTTON_RMASK) {
        w->left += (float)event->xrel;
        w->top += (float)event->yrel;
        present(w);
    } else if (w->is_down)
        dab_to(w, on_canvas((float)event->x, w->left, w->zoom), on_canvas((float)event->y, w->top, w->zoom), since);
}

/* False where the window is to close. */
static bool answer_event(struct window *w, const SDL_Event *event) {
    Uint64 since = SDL_GetPerformanceCounter();
    int x, y;
    switch (event->type) {
    case SDL_QUIT: return false;
    case SDL_KEYDOWN:
        press_brush(w, event->key.keysym.sym);
        if (!w->is_down) press_between(w, event->key.keysym.sym);
        return event->key.keysym.sym != SDLK_q;
    case SDL_MOUSEBUTTONDOWN:
        if (event->button.button == SDL_BUTTON_LEFT && !w->is_down) go_down(w, event->button.x, event->button.y, since);
        break;
    case SDL_MOUSEMOTION: go_to(w, &event->motion, since); break;
    case SDL_MOUSEBUTTONUP:
        if (event->button.button == SDL_BUTTON_LEFT) end_stroke(w, false);
        break;
    case SDL_MOUSEWHEEL:
        SDL_GetMouseState(&x, &y);
        if (event->wheel.y) zoom_by(w, event->wheel.y > 0 ? 2.0f : 0.5f, x, y);
        break;
    case SDL_WINDOWEVENT:
        if (event->window.event == SDL_WINDOWEVENT_EXPOSED) present(w);
        break;
    default:
        if (event->type == w->news) draw(w);
    }
    return true;
}

static bool open_window(struct window *w) {
    if (SDL_Init(SDL_INIT_VIDEO)) return false;
    w->news = SDL_RegisterEvents(1);
    int columns = (int)w->canvas.w, rows = (int)w->canvas.h, anywhere = SDL_WINDOWPOS_CENTERED;
    w->window = SDL_CreateWindow("strokes", anywhere, anywhere, least(1280, columns), least(800, rows), SDL_WINDOW_RESIZABLE);
    if (!w->window) return false;
    w->renderer = SDL_CreateRenderer(w->window, -1, 0);
    if (!w->renderer) return false;
    w->texture = SDL_CreateTexture(w->renderer, SDL_PIXELFORMAT_RGBA32, SDL_TEXTUREACCESS_STREAMING, columns, rows);
    w->row = malloc(3ul * w->canvas.w);
    w->pixels = malloc(4ul * w->canvas.w * w->canvas.h);
    return w->texture && w->row && w->pixels;
}

static void paint(struct window *w) {
    SDL_Event event;
    add_layer(w, 0xffffffff);
    add_layer(w, 0);
    feed(w, "purge 0"); /* so that these two layers can't be undone */
    draw(w);
    while (SDL_WaitEvent(&event) && answer_event(w, &event)) {
    }
    end_stroke(w, false);
}

int main(int argc, char **argv) {
    struct window w = {.zoom = 1, .colour = 0x202020c0, .brush = {.radius = 12, .soft = 1, .strength = 255}};
    int threads = argc > 3 ? atoi(argv[3]) : 4;
    w.canvas.w = argc > 2 ? (uint32_t)atoi(argv[1]) : 1024;
    w.canvas.h = argc > 2 ? (uint32_t)atoi(argv[2]) : 768;
    w.canvas.paper = 0xffffff;
    threads = most(1, least(STROKES_CREW_MOST_THREADS, threads));
    strokes_desk desk = {0};
    strokes_answer told = strokes_open(&desk, &w.canvas, (uint8_t)(threads + 1));
    if (told != STROKES_OK) {
        fprintf(stderr, "window: %s\nusage: window [WIDTH HEIGHT [THREADS [LOG]]]\n", strokes_answer_text(told));
        return 2;
    }
    w.log = argc > 4 ? fopen(argv[4], "w") : NULL;
    bool is_open = open_window(&w);
    if (!is_open)
        fprintf(stderr, "window: %s\n", SDL_GetError());
    else if ((told = strokes_crew_start(&w.crew, &desk, &(strokes_crew_options){(uint32_t)threads, 0, wake, &w})) == STROKES_OK)
        paint(&w);
    else
        fprintf(stderr, "window: %s\n", strokes_answer_text(told));
    strokes_crew_close(&w.crew);
    strokes_close_shot(&w.shot);
    strokes_close(&desk);
    if (w.log) fclose(w.log);
    free(w.row);
    free(w.pixels);
    SDL_Quit();
    return is_open && told == STROKES_OK ? 0 : 1;
}

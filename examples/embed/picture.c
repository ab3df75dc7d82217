/* Paints two dabs, takes the second back, and saves the picture as picture.ppm.
 *
 *     cc picture.c $(pkg-config --cflags --libs strokes-crew) -o picture && ./picture */
#include <stdio.h>
#include <stdlib.h>
#include <strokes_crew.h>

static strokes_answer dab(strokes_desk *desk, uint32_t stroke, int32_t x) {
    const strokes_brush brush = {0x2060a0ff, 60, 1, STROKES_OVER, 255};
    strokes_answer told = strokes_begin(desk, stroke, 1, false);
    if (told == STROKES_OK) told = strokes_dab(desk, stroke, STROKES_SEQ, x, 240, &brush);
    return told == STROKES_OK ? strokes_end(desk, stroke) : told;
}

static strokes_answer feed(strokes_desk *desk) {
    strokes_answer told = strokes_feed(desk, "layer 1 0 0", 11);
    if (told == STROKES_OK) told = dab(desk, 1, 200);
    if (told == STROKES_OK) told = dab(desk, 2, 440);
    return told == STROKES_OK ? strokes_undo(desk) : told;
}

static strokes_answer save(strokes_desk *desk, const strokes_canvas *canvas, const char *name) {
    strokes_shot shot = {0};
    strokes_rect dirty;
    uint8_t row[3 * 640];
    strokes_answer told = strokes_shoot(desk, &shot, &dirty);
    FILE *file = told == STROKES_OK ? fopen(name, "wb") : NULL;
    if (file) fprintf(file, "P6\n%u %u\n255\n", canvas->w, canvas->h);
    for (unsigned y = 0; file && told == STROKES_OK && y < canvas->h; y++) {
        told = strokes_shot_row(&shot, 0, (uint16_t)y, (uint16_t)canvas->w, row, sizeof row);
        fwrite(row, 3, canvas->w, file);
    }
    strokes_close_shot(&shot);
    if (told == STROKES_OK && (!file || ferror(file) | fclose(file))) {
        perror(name);
        exit(1);
    }
    return told;
}

int main(void) {
    const strokes_canvas canvas = {640, 480, 0xffffff};
    const strokes_crew_options options = {0};
    strokes_desk desk = {0};
    strokes_crew crew = {0};
    strokes_answer told = strokes_open(&desk, &canvas, 9);
    if (told == STROKES_OK) told = strokes_crew_start(&crew, &desk, &options);
    if (told == STROKES_OK) {
        told = feed(strokes_crew_lock(&crew));
        strokes_crew_unlock(&crew);
    }
    if (told == STROKES_OK) told = strokes_crew_settle(&crew, STROKES_CREW_NO_LIMIT);
    strokes_crew_stop(&crew, &desk);
    if (told == STROKES_OK) told = save(&desk, &canvas, "picture.ppm");
    strokes_close(&desk);
    if (told != STROKES_OK) fprintf(stderr, "picture: %s\n", strokes_answer_text(told));
    return told != STROKES_OK;
}

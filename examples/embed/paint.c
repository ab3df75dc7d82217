/* Paints a script as the command does, with threads of its own.
 *
 *     paint THREADS [picture|whole|live|script] < SCRIPT > PICTURES
 *
 * With `picture`, or without, the script is fed line by line while the threads paint, and each frame is written; with `whole`
 * the desk is opened by all of it. With `live` the picture of the document that it makes is written in place of the frames,
 * and with `script` what was fed. A crew of 1 to 16 threads paints, and the caller helps at the end. The exit codes are the
 * command's. */
#include "strokes_crew.h"
#include <stdio.h>
#include <stdlib.h>
#include <string.h>

enum { REFUSED = 1, NO_WORDS = 2, BAD_SCRIPT = 3, NO_READING = 4, NO_WRITING = 5, NO_MEMORY = 6 };

/* Tells what is wrong, at a line or (0) with the whole. */
static int fault(unsigned line, strokes_answer told) {
    if (line > 0 && told != STROKES_NO_MEMORY)
        fprintf(stderr, "paint: line %u: %s\n", line, strokes_answer_text(told));
    else
        fprintf(stderr, "paint: %s\n", strokes_answer_text(told));
    return told == STROKES_NO_MEMORY ? NO_MEMORY : BAD_SCRIPT;
}

/* Opens the desk by the script's first line that says something, and moves on to the next line. */
static int open_by_line(strokes_desk *desk, char **text, const char *end, unsigned *number, int slots) {
    while (*text < end) {
        char *line = *text, *stop = memchr(line, '\n', (size_t)(end - line));
        size_t len = (size_t)((stop ? stop : end) - line);
        uint32_t at = 1;
        *text = stop ? stop + 1 : (char *)end;
        ++*number;
        size_t blanks = 0;
        while (blanks < len && strchr(" \t\r", line[blanks])) blanks++;
        if (blanks == len || line[blanks] == '#') continue;
        strokes_answer told = strokes_open_script(desk, line, len, (uint8_t)slots, &at);
        return told == STROKES_OK ? 0 : fault(*number, told);
    }
    return fault(1, STROKES_CANVAS_MISSING);
}

static strokes_answer feed(strokes_crew *crew, const char *line, size_t line_len) {
    strokes_answer told = strokes_feed(strokes_crew_lock(crew), line, line_len);
    strokes_crew_unlock(crew);
    return told;
}

static int feed_lines(strokes_crew *crew, char *text, const char *end, unsigned number) {
    while (text < end) {
        char *stop = memchr(text, '\n', (size_t)(end - text));
        size_t len = (size_t)((stop ? stop : end) - text);
        strokes_answer told = feed(crew, text, len);
        number++;
        if (told != STROKES_OK) return fault(number, told);
        text = stop ? stop + 1 : (char *)end;
    }
    return 0;
}

static bool write_header(const strokes_canvas *canvas) { return printf("P6\n%u %u\n255\n", canvas->w, canvas->h) > 0; }

/* Writes each frame as a portable pixmap. `row` has room for a row of it. */
static strokes_answer write_frames(strokes_desk *desk, const strokes_canvas *canvas, uint8_t *row) {
    strokes_count count;
    strokes_answer told = strokes_count_of(desk, &count);
    for (uint64_t frame = 0; told == STROKES_OK && frame < count.frames; frame++) {
        write_header(canvas);
        for (unsigned y = 0; told == STROKES_OK && y < canvas->h; y++) {
            told = strokes_frame_row(desk, frame, (uint16_t)y, row, 3ul * canvas->w);
            fwrite(row, 3, canvas->w, stdout);
        }
    }
    return told;
}

/* Writes the picture of the document as a portable pixmap. */
static strokes_answer write_shot(strokes_desk *desk, const strokes_canvas *canvas, uint8_t *row) {
    strokes_shot shot = {0};
    strokes_rect dirty;
    strokes_answer told = strokes_shoot(desk, &shot, &dirty);
    if (told == STROKES_OK) write_header(canvas);
    for (unsigned y = 0; told == STROKES_OK && y < canvas->h; y++) {
        told = strokes_shot_row(&shot, 0, (uint16_t)y, (uint16_t)canvas->w, row, 3ul * canvas->w);
        fwrite(row, 3, canvas->w, stdout);
    }
    strokes_close_shot(&shot);
    return told;
}

/* Writes what was fed as a script. */
static strokes_answer write_script(strokes_desk *desk) {
    char piece[4096];
    uint64_t next = 0;
    size_t written = 0;
    strokes_answer told;
    while ((told = strokes_text(desk, &next, piece, sizeof piece, &written)) == STROKES_OK && written > 0)
        fwrite(piece, 1, written, stdout);
    return told;
}

/* Whether some entry was refused. */
static bool was_refused(strokes_desk *desk) {
    strokes_outcome outcome;
    for (uint64_t entry = 0; strokes_outcome_at(desk, entry, &outcome) == STROKES_OK; entry++)
        if (outcome.what != STROKES_DONE && outcome.what != STROKES_CANCELLED) return true;
    return false;
}

/* Writes what is asked for of a settled desk, which no thread has any more, and gives the exit code. */
static int write_all(strokes_desk *desk, const char *what) {
    strokes_canvas canvas;
    strokes_canvas_of(desk, &canvas);
    uint8_t *row = malloc(3ul * canvas.w);
    if (!row) return fault(0, STROKES_NO_MEMORY);
    strokes_answer told = !strcmp(what, "live")     ? write_shot(desk, &canvas, row)
                          : !strcmp(what, "script") ? write_script(desk)
                                                    : write_frames(desk, &canvas, row);
    free(row);
    if (told != STROKES_OK) return fault(0, told);
    if (fflush(stdout) || ferror(stdout)) {
        fprintf(stderr, "paint: writing failed\n");
        return NO_WRITING;
    }
    return was_refused(desk) ? REFUSED : 0;
}

/* All bytes of standard input, which are the caller's to free; NULL where they can't be had. */
static char *read_all(size_t *len) {
    size_t room = 1 << 16;
    char *text = malloc(room);
    *len = 0;
    while (text) {
        *len += fread(text + *len, 1, room - *len, stdin);
        if (*len < room) break;
        char *more = realloc(text, room *= 2);
        if (!more) free(text);
        text = more;
    }
    return text;
}

/* Feeds and paints what is left of the text behind the lines so far, and gives the exit code. */
static int paint_rest(strokes_desk *desk, int threads, char *rest, const char *end, unsigned number) {
    strokes_crew crew = {0};
    strokes_answer told = strokes_crew_start(&crew, desk, &(strokes_crew_options){.threads = (uint32_t)threads});
    if (told != STROKES_OK) return fault(0, told);
    int code = feed_lines(&crew, rest, end, number);
    if (!code) told = strokes_crew_settle(&crew, STROKES_CREW_NO_LIMIT);
    strokes_crew_stop(&crew, desk);
    return told == STROKES_OK ? code : fault(0, told);
}

static bool is_known(const char *what) {
    return !strcmp(what, "picture") || !strcmp(what, "whole") || !strcmp(what, "live") || !strcmp(what, "script");
}

int main(int argc, char **argv) {
    int threads = argc > 1 ? atoi(argv[1]) : 0;
    const char *what = argc == 3 ? argv[2] : "picture";
    if (threads < 1 || threads > STROKES_CREW_MOST_THREADS || argc > 3 || !is_known(what)) {
        fprintf(stderr, "usage: paint THREADS [picture|whole|live|script] < SCRIPT > PICTURES\n");
        return NO_WORDS;
    }
    size_t len;
    char *text = read_all(&len), *rest = text;
    if (!text) return fault(0, STROKES_NO_MEMORY);
    if (ferror(stdin)) {
        fprintf(stderr, "paint: reading failed\n");
        return NO_READING;
    }
    strokes_desk desk = {0};
    int slots = threads + 1;
    unsigned number = 0;
    int code;
    if (!strcmp(what, "whole")) {
        strokes_answer told = strokes_open_script(&desk, text, len, (uint8_t)slots, &number);
        code = told == STROKES_OK ? 0 : fault(number, told);
        rest = text + len;
    } else
        code = open_by_line(&desk, &rest, text + len, &number, slots);
    if (!code) code = paint_rest(&desk, threads, rest, text + len, number);
    if (!code) code = write_all(&desk, what);
    strokes_close(&desk);
    free(text);
    return code;
}

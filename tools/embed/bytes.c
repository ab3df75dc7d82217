/* Bytes as a script, and as lines that are fed. What is read is painted and
 * compared with what its text makes; what is refused changes nothing. A target
 * of libFuzzer; with -DALONE a program that takes files.
 *
 * The first byte says how many of the others are a script, in 255ths. The rest
 * are lines, each to the next byte 0xff. */
#include "check.h"
#include "heap.h"

enum { POINTS = 300000 };

/* Whether a text asks for so much that it would take long: large numbers of a
 * `blur`, a `move` or a `fill` do. */
static bool is_heavy(const char *text, size_t len) {
    size_t digits = 0, long_numbers = 0;
    for (size_t i = 0; i < len; i++) {
        digits = text[i] >= '0' && text[i] <= '9' ? digits + 1 : 0;
        long_numbers += digits == 4;
    }
    return long_numbers > 4;
}

static void feed(strokes_desk *desk, const char *line, size_t len) {
    strokes_count before, after;
    CHECK_OK(strokes_count_of(desk, &before));
    strokes_answer answer = is_heavy(line, len) ? STROKES_NOTHING : strokes_feed(desk, line, len);
    CHECK_OK(strokes_count_of(desk, &after));
    CHECK(answer == STROKES_OK || after.commands == before.commands, "%s", strokes_answer_text(answer));
    CHECK(answer == STROKES_OK || answer == STROKES_NOTHING || answer >= STROKES_UNKNOWN_WORD, "%s",
          strokes_answer_text(answer));
}

/* Closes the strokes that a desk's own text says are open. */
static void close_strokes(strokes_desk *desk) {
    size_t len;
    char *text = check_text(desk, &len), *end = text + len;
    for (char *line = text; line < end && strokes_all_closed(desk) == STROKES_STROKE_LEFT;) {
        char *stop = memchr(line, '\n', (size_t)(end - line));
        if (!strncmp(line, "stroke ", 7)) strokes_end(desk, (uint32_t)strtoul(line + 7, NULL, 10));
        line = stop ? stop + 1 : end;
    }
    free(text);
}

int LLVMFuzzerTestOneInput(const uint8_t *data, size_t len);

int LLVMFuzzerTestOneInput(const uint8_t *data, size_t len) {
    if (len < 1) return 0;
    const char *text = (const char *)data + 1, *end = (const char *)data + len;
    size_t script = (len - 1) * data[0] / 255;
    strokes_desk desk = {0};
    strokes_canvas canvas = {0, 0, 0};
    uint32_t line = 0;
    strokes_answer answer = is_heavy(text, script) ? STROKES_NOTHING : strokes_open_script(&desk, text, script, 2, &line);
    CHECK(desk.full == (answer == STROKES_OK), "open");
    CHECK(answer == STROKES_OK || answer == STROKES_NOTHING || (answer >= STROKES_UNKNOWN_WORD && line > 0), "%s",
          strokes_answer_text(answer));
    if (!desk.full) {
        canvas = (strokes_canvas){200, 100, 0xffffff};
        CHECK_OK(strokes_open(&desk, &canvas, 2));
    }
    CHECK_OK(strokes_canvas_of(&desk, &canvas));
    for (text += script; text < end;) {
        const char *stop = memchr(text, 0xff, (size_t)(end - text));
        feed(&desk, text, (size_t)((stop ? stop : end) - text));
        text = stop ? stop + 1 : end;
    }
    close_strokes(&desk);
    CHECK_OK(strokes_all_closed(&desk));
    if (canvas.w * canvas.h <= POINTS) check_settled(&desk);
    strokes_close(&desk);
    CHECK(heap_out() == 0, "%ld blocks are left", heap_out());
    return 0;
}

#ifdef ALONE
int main(int argc, char **argv) {
    static uint8_t data[1 << 20];
    for (int i = 1; i < argc; i++) {
        FILE *file = fopen(argv[i], "rb");
        CHECK(file, "%s can't be read", argv[i]);
        size_t len = fread(data, 1, sizeof data, file);
        fclose(file);
        LLVMFuzzerTestOneInput(data, len);
    }
    printf("bytes: %d files\n", argc - 1);
    return 0;
}
#endif

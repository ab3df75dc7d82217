/* What strokes.h says of single calls, each by its own words: the lines that calls without text feed, what becomes of
 * entries, shut handles, open strokes, places of tiles and frames, when a piece can be shared and given back. */
#include "check.h"

#define COUNT(rows) (sizeof(rows) / sizeof(rows)[0])

/* A canvas that one piece composes. */
enum { SIDE = 256 };

/* Opens a desk by a script's text. */
static void open_text(strokes_desk *desk, const char *text) {
    uint32_t line;
    strokes_answer told = strokes_open_script(desk, text, strlen(text), 3, &line);
    CHECK(told == STROKES_OK, "line %u: %s", line, strokes_answer_text(told));
}

/* Compares the text of a desk, fetched in pieces that have room for one line or a few, with these lines. */
static void check_lines(strokes_desk *desk, const char *lines) {
    char text[2048], piece[256];
    size_t len = 0, written;
    uint64_t next = 0;
    do {
        CHECK_OK(strokes_text(desk, &next, piece, sizeof piece, &written));
        CHECK(len + written < sizeof text, "a longer text");
        memcpy(text + len, piece, written);
        len += written;
    } while (written > 0);
    text[len] = 0;
    CHECK(!strcmp(text, lines), "the text is\n%sfor\n%s", text, lines);
}

/* Each call feeds the line that docs/language.md has for it. */
static void check_feeding(void) {
    static const strokes_canvas canvas = {300, 20, 0x102030};
    static const strokes_brush hard = {0xff0000ff, 0, 0, STROKES_OVER, 255}, soft = {0x2060a080, 9, 1, STROKES_SCREEN, 70};
    strokes_desk desk = {0};
    CHECK_OK(strokes_open(&desk, &canvas, 1));
    CHECK_OK(strokes_feed(&desk, "layer 1 0 0\n", 12));
    CHECK_OK(strokes_feed(&desk, "# a remark", 10));
    CHECK_OK(strokes_begin(&desk, 1, 1, false));
    CHECK_OK(strokes_dab(&desk, 1, STROKES_CON, 1, 2, &hard));
    CHECK_OK(strokes_dab(&desk, 1, STROKES_SEQ, 299, -3, &soft));
    CHECK_OK(strokes_dab(&desk, 1, STROKES_BAR, 4, 5, &hard));
    CHECK_OK(strokes_dab(&desk, 1, STROKES_UNI, 6, 7, &hard));
    CHECK_OK(strokes_end(&desk, 1));
    CHECK_OK(strokes_begin(&desk, 70000, 65535, true));
    CHECK_OK(strokes_cancel(&desk, 70000));
    CHECK_OK(strokes_undo(&desk));
    CHECK_OK(strokes_redo(&desk));
    CHECK_OK(strokes_feed(&desk, "look 1 128 multiply off", 23));
    check_lines(&desk, "canvas 300 20 102030\n"
                       "layer 1 0 0\n"
                       "stroke 1 1\n"
                       "dab 1 con 1 2 0 hard ff0000ff over 255\n"
                       "dab 1 seq 299 -3 9 soft 2060a080 screen 70\n"
                       "dab 1 bar 4 5 0 hard ff0000ff over 255\n"
                       "dab 1 uni 6 7 0 hard ff0000ff over 255\n"
                       "end 1\n"
                       "stroke 70000 65535 exclusive\n"
                       "cancel 70000\n"
                       "undo\n"
                       "redo\n"
                       "look 1 128 multiply off\n");
    strokes_close(&desk);
}

/* What becomes of each entry. */
static void check_outcomes(void) {
    static const strokes_outcome want[] = {
        {STROKES_DONE, 0, 0},      {STROKES_ID_TAKEN, 1, 0},  {STROKES_DONE, 0, 0},      {STROKES_OVERLAP, 2, 3},
        {STROKES_NO_LAYER, 9, 0},  {STROKES_NOT_PAINT, 2, 0}, {STROKES_CANCELLED, 0, 0}, {STROKES_NO_NODE, 7, 0},
        {STROKES_BAD_PLACE, 5, 0}, {STROKES_NO_REDO, 0, 0},   {STROKES_DONE, 0, 0},      {STROKES_DONE, 0, 0},
        {STROKES_NO_UNDO, 0, 0},
    };
    strokes_desk desk = {0};
    open_text(&desk, "canvas 4 4\nlayer 1 0 0\nlayer 1 0 0\ngroup 2 0 0\n"
                     "stroke 1 1\nfill 1 con 0 0 1 1 ff0000ff over 255\nfill 1 con 1 1 2 2 ff0000ff over 255\n"
                     "fill 1 con 2 2 2 2 ff0000ff over 255\nend 1\n"
                     "stroke 2 9\nend 2\nstroke 3 2\nend 3\nstroke 4 1\ncancel 4\n"
                     "remove 7\nlayer 3 0 5\nredo\nundo\nundo\nundo\n");
    CHECK_OK(strokes_settle(&desk));
    for (uint64_t k = 0; k < COUNT(want); k++) {
        strokes_outcome told;
        CHECK_OK(strokes_outcome_at(&desk, k, &told));
        CHECK(!memcmp(&told, &want[k], sizeof told), "the entry %d has %u %u %u for %u %u %u", (int)k, told.what, told.first,
              told.second, want[k].what, want[k].first, want[k].second);
    }
    CHECK(strokes_outcome_at(&desk, COUNT(want), &(strokes_outcome){0}) == STROKES_OUTSIDE, "there is one outcome more");
    strokes_close(&desk);
}

/* Each call answers SHUT for a shut handle, and IN_USE for one that has a desk. */
static void check_handles(void) {
    strokes_desk desk = {0};
    strokes_piece piece = {0}, other = {0};
    strokes_shot shot = {0};
    strokes_rect rect;
    strokes_canvas canvas = {1, 1, 0};
    strokes_count count;
    uint8_t row[3];
    uint64_t next = 0;
    size_t written;
    strokes_answer told[] = {
        strokes_feed(&desk, "undo", 4),
        strokes_begin(&desk, 1, 1, false),
        strokes_dab(&desk, 1, STROKES_SEQ, 0, 0, &(strokes_brush){0}),
        strokes_path(&desk, 1, 1, (strokes_point[]){{0, 0}, {1, 1}}, 2, &(strokes_brush){0}),
        strokes_end(&desk, 1),
        strokes_cancel(&desk, 1),
        strokes_undo(&desk),
        strokes_redo(&desk),
        strokes_take(&desk, &piece),
        strokes_share(&piece, 2, &other),
        strokes_work(&piece),
        strokes_give(&desk, &piece, &rect),
        strokes_small(&desk),
        strokes_all_closed(&desk),
        strokes_settle(&desk),
        strokes_shoot(&desk, &shot, &rect),
        strokes_shot_row(&shot, 0, 0, 1, row, sizeof row),
        strokes_canvas_of(&desk, &canvas),
        strokes_count_of(&desk, &count),
        strokes_outcome_at(&desk, 0, &(strokes_outcome){0}),
        strokes_frame_row(&desk, 0, 0, row, sizeof row),
        strokes_text(&desk, &next, (char[256]){0}, 256, &written),
    };
    for (size_t k = 0; k < COUNT(told); k++)
        CHECK(told[k] == STROKES_SHUT, "call %d: %s", (int)k, strokes_answer_text(told[k]));
    CHECK_OK(strokes_open(&desk, &canvas, 1));
    CHECK(strokes_open(&desk, &canvas, 1) == STROKES_IN_USE, "a desk was opened twice");
    strokes_close(&desk);
    CHECK(strokes_undo(&desk) == STROKES_SHUT, "a closed desk isn't shut");
}

/* An open stroke has to be closed before a desk settles. */
static void check_open_strokes(void) {
    strokes_desk desk = {0};
    open_text(&desk, "canvas 1 1\n");
    CHECK_OK(strokes_all_closed(&desk));
    CHECK_OK(strokes_begin(&desk, 1, 1, false));
    CHECK(strokes_all_closed(&desk) == STROKES_STROKE_LEFT, "an open stroke is told closed");
    CHECK(strokes_settle(&desk) == STROKES_STROKE_LEFT, "a desk settles with an open stroke");
    CHECK_OK(strokes_end(&desk, 1));
    CHECK_OK(strokes_all_closed(&desk));
    CHECK_OK(strokes_settle(&desk));
    strokes_close(&desk);
}

/* Tiles and frames are told at their places. */
static void check_places(void) {
    static uint8_t tile[64 * 64 * 4];
    uint8_t row[3 * 65];
    strokes_desk desk = {0};
    strokes_rect dirty;
    open_text(&desk, "canvas 65 1 ffffff\nexport\nlayer 1 0 0\nstroke 1 1\nfill 1 seq 64 0 1 1 102030ff over 255\n"
                     "fill 1 seq 0 0 1 1 405060ff over 255\nend 1\nexport\n");
    CHECK_OK(strokes_settle(&desk));
    CHECK_OK(strokes_tile(&desk, 1, 0, tile, sizeof tile, &dirty));
    CHECK(!memcmp(tile, "\x10\x20\x30\xff\0\0\0\0", 8), "the tile to the right has another first pixel");
    CHECK(strokes_tile(&desk, 0, 1, tile, sizeof tile, &dirty) == STROKES_OUTSIDE, "there is a tile below the canvas");
    CHECK_OK(strokes_frame_row(&desk, 0, 0, row, sizeof row));
    CHECK(!memcmp(row, "\xff\xff\xff\xff\xff\xff", 6), "the first frame isn't of the paper");
    CHECK_OK(strokes_frame_row(&desk, 1, 0, row, sizeof row));
    CHECK(!memcmp(row, "\x40\x50\x60\xff\xff\xff", 6), "the second frame has other pixels");
    CHECK(strokes_frame_row(&desk, 2, 0, row, sizeof row) == STROKES_OUTSIDE, "there is a third frame");
    CHECK(strokes_frame_row(&desk, 1, 1, row, sizeof row) == STROKES_OUTSIDE, "there is a second row");
    CHECK(strokes_frame_row(&desk, 1, 0, row, sizeof row - 1) == STROKES_NO_ROOM, "a row fits into less than its bytes");
    strokes_close(&desk);
}

/* Takes what can be done next. */
static strokes_answer take(strokes_desk *desk, strokes_piece *piece) {
    strokes_answer told;
    while ((told = strokes_take(desk, piece)) == STROKES_AGAIN) {
    }
    return told;
}

/* A piece that composes is shared before any of it is done, and each part is given back. */
static void check_sharing(void) {
    strokes_desk desk = {0};
    strokes_piece piece = {0}, other = {0}, third = {0};
    strokes_rect drawn;
    CHECK_OK(strokes_open(&desk, &(strokes_canvas){SIDE, SIDE, 0xffffff}, 1));
    CHECK_OK(strokes_feed(&desk, "layer 1 0 0 102030ff", 20));
    CHECK_OK(take(&desk, &piece));
    CHECK(strokes_share(&piece, 1, &other) == STROKES_NOTHING, "one share is shared");
    CHECK_OK(strokes_share(&piece, 2, &other));
    CHECK(strokes_share(&piece, 2, &other) == STROKES_IN_USE, "a piece is shared into one that has work");
    CHECK(strokes_give(&desk, &piece, &drawn) == STROKES_UNDONE, "a piece is given back before its work");
    CHECK_OK(strokes_work(&piece));
    CHECK(strokes_share(&piece, 2, &third) == STROKES_NOTHING, "work that is done is shared");
    CHECK_OK(strokes_give(&desk, &piece, &drawn));
    CHECK(drawn.w > 0, "nothing was drawn");
    CHECK(strokes_give(&desk, &piece, &drawn) == STROKES_SHUT, "a piece that was given back isn't shut");
    CHECK(take(&desk, &piece) == STROKES_IDLE, "the desk doesn't wait for the other piece");
    CHECK_OK(strokes_work(&other));
    CHECK_OK(strokes_give(&desk, &other, &drawn));
    CHECK(take(&desk, &piece) == STROKES_SETTLED, "the desk isn't settled");
    strokes_close(&desk);
}

/* The desk takes back each piece that it waits for, and one whose work was done meanwhile is a stranger. */
static void check_giving(void) {
    strokes_desk desk = {0};
    strokes_piece job = {0}, walk = {0};
    strokes_rect drawn;
    open_text(&desk, "canvas 65 1\nlayer 1 0 0\nstroke 1 1\nfill 1 seq 0 0 65 1 ff0000ff over 255\n"
                     "fill 1 seq 0 0 1 1 ff0000ff over 255\nend 1\n");
    CHECK_OK(take(&desk, &job));
    CHECK(strokes_give(&desk, &job, &drawn) == STROKES_UNDONE, "a job's piece is given back before its work");
    CHECK_OK(strokes_work(&job));
    CHECK_OK(strokes_give(&desk, &job, &drawn));
    CHECK_OK(take(&desk, &job));
    CHECK_OK(strokes_work(&job));
    CHECK_OK(strokes_settle(&desk));
    CHECK(strokes_give(&desk, &job, &drawn) == STROKES_STRANGER, "a job's piece is no stranger");
    strokes_close_piece(&job);
    CHECK_OK(strokes_undo(&desk));
    CHECK_OK(take(&desk, &walk));
    CHECK_OK(strokes_work(&walk));
    CHECK_OK(strokes_settle(&desk));
    CHECK(strokes_give(&desk, &walk, &drawn) == STROKES_STRANGER, "a walk's piece is no stranger");
    strokes_close_piece(&walk);
    strokes_close(&desk);
}

int main(void) {
    check_feeding();
    check_outcomes();
    check_handles();
    check_open_strokes();
    check_places();
    check_sharing();
    check_giving();
    puts("answers: each call answers as strokes.h says");
    return 0;
}

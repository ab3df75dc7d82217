/* Sequences of calls that bytes draw, with shut handles, stale ones and
 * strangers' pieces among them, on two desks. Each answer is to be one that
 * strokes.h tells for that call, a refusal is to change nothing, and at the end
 * each desk has the picture of a desk that is opened by its text, and all
 * memory is free.
 *
 * With -DALONE it is a program that draws the bytes itself: calls [RUNS
 * [SEED]]. Else it is a target of libFuzzer. */
#include "check.h"
#include "heap.h"

enum { DESKS = 2, PIECES = 4, SHOTS = 2, STROKES_MOST = 6, SIDE = 150 };

struct bytes {
    const uint8_t *at, *end;
};

struct play {
    strokes_desk desks[DESKS];
    strokes_piece pieces[PIECES];
    strokes_shot shots[SHOTS];
    struct bytes bytes;
};

static uint8_t byte(struct bytes *b) { return b->at < b->end ? *b->at++ : 0; }

static int number(struct bytes *b, int least, int most) {
    unsigned drawn = byte(b) << 8;
    drawn |= byte(b);
    return least + (int)(drawn % (unsigned)(most - least + 1));
}

/* Whether the answer is one of those, of which -1 is the last. */
static bool is_one(strokes_answer answer, const int *of) {
    for (; *of >= 0; of++)
        if ((int)answer == *of) return true;
    return false;
}

#define IS_ONE(answer, ...) CHECK(is_one(answer, (const int[]){__VA_ARGS__, -1}), "answer %s", strokes_answer_text(answer))

/* How much there is of a desk; all ones of a shut one. */
static strokes_count count_of(strokes_desk *desk) {
    strokes_count count = {~0ull, ~0ull, ~0ull};
    bool was_full = desk->full;
    strokes_answer answer = strokes_count_of(desk, &count);
    CHECK(answer == (was_full ? STROKES_OK : STROKES_SHUT), "count");
    return count;
}

static void same(strokes_desk *desk, strokes_count before, const char *call) {
    strokes_count after = count_of(desk);
    CHECK(!memcmp(&before, &after, sizeof before), "%s changed the desk", call);
}

static const char *const lines[] = {
    "layer %d 0 0",
    "group %d 0 0",
    "remove %d",
    "place %d 0 0",
    "look %d 128 over on",
    "fill %d con 3 3 40 9 2060a0c0 over 200",
    "fill %d seq -5 -5 90 90 a0602080 multiply 255",
    "blur %d seq 0 0 50 50 2",
    "move %d bar 0 0 30 30 8 -3",
    "track %d seq 0 0 5 soft 20ff20c0 over 255 3 5 5 60 40",
    "path %d 5 hard ff2020c0 screen 255 4 5 5 140 60",
    "purge %d",
    "export",
    "undo",
    "redo",
    "end %d",
    "cancel %d",
    "",
    "# %d",
    "canvas 3 3",
    "nonsense",
    "fill %d con",
    "layer %d 0 0\nundo",
    "stroke %d 1 exclusive",
};

static void feed_line(struct play *p, strokes_desk *desk) {
    char line[120];
    const char *form = lines[number(&p->bytes, 0, (int)(sizeof lines / sizeof *lines) - 1)];
    int len = snprintf(line, sizeof line, form, number(&p->bytes, 0, STROKES_MOST));
    strokes_count before = count_of(desk);
    strokes_answer answer = strokes_feed(desk, line, (size_t)len);
    if (answer == STROKES_OK) {
        strokes_count after = count_of(desk);
        CHECK(after.commands >= before.commands, "commands went");
        CHECK((after.commands == before.commands) == (line[0] == 0 || line[0] == '#'), "%s: nothing was fed", line);
        return;
    }
    IS_ONE(answer, STROKES_SHUT, STROKES_NO_MEMORY, STROKES_UNKNOWN_WORD, STROKES_FIELD_COUNT, STROKES_OUT_OF_RANGE,
           STROKES_UNKNOWN_STROKE, STROKES_CLOSED_STROKE, STROKES_USED_AGAIN, STROKES_CANVAS_AGAIN, STROKES_TOO_MANY_JOBS,
           STROKES_TOO_MANY_EXPORTS, STROKES_SECOND_LINE);
    if (answer != STROKES_NO_MEMORY) same(desk, before, line);
}

static void feed_typed(struct play *p, strokes_desk *desk) {
    struct bytes *b = &p->bytes;
    uint32_t stroke = (uint32_t)number(b, 0, STROKES_MOST);
    strokes_brush brush = {0x2060a000u + byte(b), (uint8_t)number(b, 0, 140), (uint8_t)number(b, 0, 2),
                           (uint8_t)number(b, 0, 5), byte(b)};
    strokes_point points[9];
    for (int i = 0; i < 9; i++) points[i] = (strokes_point){number(b, -40, SIDE), number(b, -40, SIDE)};
    strokes_count before = count_of(desk);
    strokes_answer answer;
    switch (byte(b) % 6) {
    case 0: answer = strokes_begin(desk, stroke, (uint16_t)number(b, 0, 4), byte(b) % 4 == 0); break;
    case 1:
        answer = strokes_dab(desk, stroke, (uint32_t)number(b, 0, 4), number(b, -33000, 33000), number(b, -40, SIDE), &brush);
        break;
    case 2: answer = strokes_dab(desk, stroke, STROKES_SEQ, points[0].x, points[0].y, &brush); break;
    case 3: answer = strokes_path(desk, stroke, byte(b), points, (size_t)number(b, 0, 9), &brush); break;
    case 4: answer = byte(b) % 2 ? strokes_end(desk, stroke) : strokes_cancel(desk, stroke); break;
    default: answer = byte(b) % 2 ? strokes_undo(desk) : strokes_redo(desk);
    }
    if (answer == STROKES_OK) {
        CHECK(count_of(desk).commands > before.commands, "a call fed nothing and answered OK");
        return;
    }
    IS_ONE(answer, STROKES_SHUT, STROKES_NO_MEMORY, STROKES_OUT_OF_RANGE, STROKES_OUT_OF_WORLD, STROKES_UNKNOWN_STROKE,
           STROKES_CLOSED_STROKE, STROKES_USED_AGAIN, STROKES_TOO_MANY_JOBS, STROKES_FIELD_COUNT, STROKES_TOO_MANY_DABS);
    if (answer != STROKES_NO_MEMORY) same(desk, before, "a call that feeds");
}

static void share(struct play *p, strokes_piece *piece, strokes_piece *other) {
    if (other == piece) return; /* a host owes that */
    bool had = piece->full, other_had = other->full;
    strokes_answer answer = strokes_share(piece, (uint32_t)number(&p->bytes, 0, 5), other);
    IS_ONE(answer, STROKES_OK, STROKES_SHUT, STROKES_IN_USE, STROKES_NO_MEMORY, STROKES_NOTHING);
    CHECK((answer == STROKES_SHUT) == !had, "share told %s", strokes_answer_text(answer));
    CHECK(!had || (answer == STROKES_IN_USE) == other_had, "share told %s", strokes_answer_text(answer));
    CHECK(piece->full == had, "share lost a piece");
    CHECK(other->full == (other_had || answer == STROKES_OK), "share told %s", strokes_answer_text(answer));
}

static void work(struct play *p, strokes_desk *desk, strokes_piece *piece) {
    strokes_rect drawn = {-1, -1, 7, 7};
    strokes_count before = count_of(desk);
    bool had = piece->full, is_open = desk->full;
    strokes_answer answer;
    switch (byte(&p->bytes) % 5) {
    case 0:
        answer = strokes_take(desk, piece);
        CHECK(piece->full == (had || answer == STROKES_OK), "take told %s", strokes_answer_text(answer));
        CHECK(!is_open || !had || answer == STROKES_IN_USE, "take wrote over a piece");
        IS_ONE(answer, STROKES_OK, STROKES_AGAIN, STROKES_IDLE, STROKES_SETTLED, STROKES_SHUT, STROKES_IN_USE,
               STROKES_NO_MEMORY);
        CHECK(count_of(desk).commands == before.commands, "take fed something");
        break;
    case 1:
        answer = strokes_work(piece);
        IS_ONE(answer, had ? STROKES_OK : STROKES_SHUT, STROKES_NO_MEMORY);
        CHECK(piece->full == had, "work lost a piece");
        break;
    case 2:
        answer = strokes_give(desk, piece, &drawn);
        IS_ONE(answer, STROKES_OK, STROKES_SHUT, STROKES_UNDONE, STROKES_STRANGER, STROKES_NO_MEMORY);
        CHECK(piece->full == (had && answer != STROKES_OK), "give told %s", strokes_answer_text(answer));
        CHECK((answer == STROKES_SHUT) == !(had && is_open), "give told %s", strokes_answer_text(answer));
        if (answer != STROKES_OK) CHECK(drawn.x == -1 && drawn.w == 7, "give wrote a rectangle");
        if (answer == STROKES_OK) CHECK(drawn.w <= SIDE && drawn.h <= SIDE, "give told a rectangle outside");
        same(desk, before, "give");
        break;
    case 3: share(p, piece, &p->pieces[byte(&p->bytes) % PIECES]); break;
    default:
        if (byte(&p->bytes) % 4 == 0) strokes_close_piece(piece);
    }
}

static void look(struct play *p, strokes_desk *desk, strokes_shot *shot) {
    struct bytes *b = &p->bytes;
    static uint8_t out[16384];
    strokes_rect dirty;
    strokes_outcome outcome;
    size_t room = (size_t)number(b, 1, sizeof out), written = 0;
    uint64_t next = (uint64_t)number(b, 0, 40);
    bool had = shot->full;
    strokes_answer answer;
    switch (byte(b) % 8) {
    case 0: answer = strokes_tile(desk, byte(b) % 4, byte(b) % 4, out, byte(b) % 2 ? sizeof out : room, &dirty); break;
    case 1:
        answer = strokes_shoot(desk, shot, &dirty);
        CHECK(shot->full == (had || answer == STROKES_OK), "shoot told %s", strokes_answer_text(answer));
        break;
    case 2:
        answer = strokes_shot_row(shot, (uint16_t)number(b, 0, SIDE), byte(b), (uint16_t)number(b, 0, SIDE), out, room);
        break;
    case 3: answer = strokes_outcome_at(desk, byte(b), &outcome); break;
    case 4: answer = strokes_frame_row(desk, byte(b) % 4, byte(b), out, room); break;
    case 5: answer = strokes_text(desk, &next, (char *)out, room, &written); break;
    case 6: answer = strokes_all_closed(desk); break;
    default: strokes_close_shot(shot); return;
    }
    IS_ONE(answer, STROKES_OK, STROKES_SHUT, STROKES_OUTSIDE, STROKES_NO_ROOM, STROKES_NO_MEMORY, STROKES_STROKE_LEFT);
    CHECK(written <= room, "more was written than there is room for");
}

static void open_or_close(struct play *p, strokes_desk *desk) {
    static const char small[] = "canvas 90 70\nlayer 1 0 0\nstroke 1 1\nfill 1 seq 0 0 99 50 2060a0c0 "
                                "over 255\nend 1\nexport\n";
    struct bytes *b = &p->bytes;
    strokes_canvas canvas = {(uint32_t)number(b, 1, SIDE), (uint32_t)number(b, 0, SIDE), byte(b)};
    uint32_t line = 77;
    bool was_full = desk->full;
    uint8_t slots = (uint8_t)number(b, 0, 5);
    strokes_answer answer;
    switch (byte(b) % 4) {
    case 0: strokes_close(desk); return;
    case 1: answer = strokes_open_script(desk, small, sizeof small - 1, slots, &line); break;
    case 2: answer = strokes_open_script(desk, small, byte(b) % sizeof small, slots, &line); break;
    default: answer = strokes_open(desk, &canvas, slots);
    }
    CHECK(desk->full == (was_full || answer == STROKES_OK), "open told %s", strokes_answer_text(answer));
    CHECK(!was_full || answer == STROKES_IN_USE, "open wrote over a desk");
}

static void settle(strokes_desk *desk) {
    strokes_answer closed = strokes_all_closed(desk), answer = strokes_settle(desk);
    if (answer != STROKES_NO_MEMORY) CHECK(answer == closed, "settle told %s", strokes_answer_text(answer));
}

/* Closes what is open, and compares the desk with its text. */
static void end(strokes_desk *desk) {
    for (uint32_t stroke = 0; desk->full && stroke <= STROKES_MOST; stroke++)
        IS_ONE(strokes_end(desk, stroke), STROKES_OK, STROKES_UNKNOWN_STROKE, STROKES_CLOSED_STROKE);
    if (desk->full) check_settled(desk);
    strokes_close(desk);
    CHECK(!desk->full, "a closed desk is full");
}

int LLVMFuzzerTestOneInput(const uint8_t *data, size_t len);

int LLVMFuzzerTestOneInput(const uint8_t *data, size_t len) {
    static struct play play; /* (large, and zeros at first) */
    struct play *p = &play;
    memset(p, 0, sizeof *p);
    p->bytes = (struct bytes){data, data + len};
    heap_refuse(-1);
    while (p->bytes.at < p->bytes.end) {
        strokes_desk *desk = &p->desks[byte(&p->bytes) % 5 == 0];
        strokes_piece *piece = &p->pieces[byte(&p->bytes) % PIECES];
        strokes_shot *shot = &p->shots[byte(&p->bytes) % SHOTS];
        uint8_t what = byte(&p->bytes);
        if (what < 10)
            open_or_close(p, desk);
        else if (!desk->full && what < 200) {
            strokes_canvas canvas = {SIDE, SIDE, 0xffffff};
            CHECK(strokes_open(desk, &canvas, 3) <= STROKES_NO_MEMORY, "open");
        } else if (what < 80)
            feed_line(p, desk);
        else if (what < 130)
            feed_typed(p, desk);
        else if (what < 200)
            work(p, desk, piece);
        else if (what < 240)
            look(p, desk, shot);
        else if (what < 246)
            settle(desk);
        else if (what < 250)
            heap_refuse(byte(&p->bytes) % 32);
        else
            IS_ONE(strokes_small(desk), STROKES_OK, STROKES_NOTHING, STROKES_SHUT, STROKES_NO_MEMORY);
    }
    heap_refuse(-1);
    for (int i = 0; i < DESKS; i++) end(&p->desks[i]);
    for (int i = 0; i < PIECES; i++) strokes_close_piece(&p->pieces[i]);
    for (int i = 0; i < SHOTS; i++) strokes_close_shot(&p->shots[i]);
    CHECK(heap_out() == 0, "%ld blocks are left", heap_out());
    return 0;
}

#ifdef ALONE
int main(int argc, char **argv) {
    long runs = argc > 1 ? atol(argv[1]) : 1000;
    uint64_t dice = argc > 2 ? strtoull(argv[2], NULL, 10) : 1;
    static uint8_t data[4096];
    for (long run = 0; run < runs; run++) {
        size_t len = 0;
        do {
            dice = dice * 6364136223846793005u + 1442695040888963407u;
            data[len++] = (uint8_t)(dice >> 56);
        } while (len < sizeof data && (dice >> 33) % 1500 > 0);
        LLVMFuzzerTestOneInput(data, len);
    }
    printf("calls: %ld sequences\n", runs);
    return 0;
}
#endif

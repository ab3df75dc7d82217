/* strokes.h: the painting engine for C, C++ and other languages that call C.
 *
 * A desk holds a document: its canvas, its layers and groups, the strokes on them, and the undo history. The program feeds it
 * commands, which are the lines of docs/language.md. Threads of the program take work from the desk, do it in parallel, and
 * return it; a screen displays the picture meanwhile. docs/embedding-c.md is the guide; paint.c and window.c are examples.
 *
 * Rules for the program. No call can check these, and every promise below depends on them:
 *
 *  1. Make one call at a time on a desk, under a lock of the program; also on a piece, and on a shot. Any thread may make any
 *     call. Calls on different handles may run in parallel: a piece and a shot don't need the desk's lock.
 *  2. A handle begins as zeros, which means empty: `strokes_desk desk = {0};`, in C++ `{}`. After that only these calls write
 *     it. Pass it by its address. You may move it: copy it, and use only the copy from then on. Don't read or move it while a
 *     call on it runs.
 *  3. Pointers are valid: not NULL, even at a length of 0, and with as many items as their length says. What a call writes
 *     overlaps nothing else that it is passed.
 *  4. Make no call in a signal handler, or in the child of a fork of a process that has threads.
 *  5. A program with an allocator of its own defines all three functions at the end of this header.
 *  6. Close every desk, piece and shot. Pieces and shots may be closed after their desk.
 *
 * Every other misuse is reported: an empty handle, a foreign piece, a position out of bounds, lack of memory, an error in a
 * line. Each call lists its results, without their STROKES_. If several apply, it returns the first one listed. Unless stated
 * otherwise, a result other than STROKES_OK leaves the desk unchanged, and nothing is written through the pointers. No call ends
 * the process, waits, starts a thread, takes a lock, reads a clock or opens a file, and nothing has to be set up before the
 * first. Give threads a stack of at least 256 KiB.
 *
 * What is promised. Whatever calls were made, by whichever threads and in whatever order: once strokes_take returns
 * STROKES_SETTLED, layers, history, frames and outcomes are those of the commands taken one after another, and the root's
 * picture is that of the document. Cancelled and refused entries leave nothing; undo and redo restore every pixel. Nothing is
 * promised about the time or memory of a call.
 */
#ifndef STROKES_H
#define STROKES_H

#include <stdbool.h>
#include <stddef.h>
#include <stdint.h>

#ifdef __cplusplus
extern "C" {
#endif

/* ---- Results */

typedef enum strokes_answer {
    STROKES_OK = 0,

    /* From strokes_take, which then took no work. */
    STROKES_AGAIN = 1,   /* the call itself did something: call again at once */
    STROKES_IDLE = 2,    /* nothing can be done until work is returned or commands are fed */
    STROKES_SETTLED = 3, /* every entry has its outcome, and no work is running or pending */

    /* From strokes_small and strokes_share. */
    STROKES_NOTHING = 4, /* no small job comes next; there is nothing to share */

    /* From many calls: memory ran out, or misuse. */
    STROKES_NO_MEMORY = 16, /* make the same call again once there is memory */
    STROKES_SHUT = 17,      /* a handle of the call is empty */
    STROKES_IN_USE = 18,    /* the handle that the call would fill isn't empty */
    STROKES_UNDONE = 19,    /* the piece's work is unfinished: call strokes_work first */
    STROKES_STRANGER = 20,  /* the desk doesn't wait for this piece: it is another desk's, or its work was done meanwhile */
    STROKES_OUTSIDE = 21,   /* out of bounds: no such tile, row, frame or entry */
    STROKES_NO_ROOM = 22,   /* the buffer `out` is too small */
    STROKES_FULL = 23,      /* the desk was fed 4,294,967,294 commands */

    /* From calls that feed: the error of a line, or of an argument. docs/language.md explains them. */
    STROKES_UNKNOWN_WORD = 32,
    STROKES_FIELD_COUNT = 33,
    STROKES_BAD_NUMBER = 34,
    STROKES_OUT_OF_RANGE = 35,
    STROKES_TOO_MANY_DABS = 36,
    STROKES_OUT_OF_WORLD = 37,
    STROKES_UNKNOWN_STROKE = 38,
    STROKES_CLOSED_STROKE = 39,
    STROKES_USED_AGAIN = 40,
    STROKES_CANVAS_MISSING = 41,
    STROKES_CANVAS_AGAIN = 42,
    STROKES_TOO_MANY_JOBS = 43,
    STROKES_TOO_MANY_EXPORTS = 44,
    STROKES_STROKE_LEFT = 45,
    STROKES_SECOND_LINE = 46 /* there is more after the line's end */
} strokes_answer;

typedef char strokes_answer_has_four_bytes[sizeof(strokes_answer) == 4 ? 1 : -1];

/* The result in words. For errors of a line they are those of the command. The text is never NULL, and never freed. */
const char *strokes_answer_text(strokes_answer answer);

/* ---- Arguments */

/* Handles. Zeros mean empty. */
typedef struct strokes_desk { void *at; bool full; } strokes_desk;
typedef struct strokes_piece { void *at; bool full; } strokes_piece;
typedef struct strokes_shot { void *at; bool full; } strokes_shot;

/* Pixels from (x, y) to the right and down; none if w is 0. */
typedef struct strokes_rect { int32_t x, y; uint32_t w, h; } strokes_rect;

typedef struct strokes_point { int32_t x, y; } strokes_point;

/* 1 to 2048 columns and rows, and the paper's colour as 0xRRGGBB. */
typedef struct strokes_canvas { uint32_t w, h, paper; } strokes_canvas;

/* A dab: its colour as 0xRRGGBBAA, not premultiplied; its radius, 0 to 128; 1 for a soft edge, 0 for a hard one; its blend mode,
 * one of STROKES_OVER .. below; its strength, 0 to 255. With the alpha 00 the colour is the clear pixel. */
typedef struct strokes_brush { uint32_t colour; uint8_t radius, soft, op, strength; } strokes_brush;

enum { STROKES_OVER = 0, STROKES_ERASE = 1, STROKES_MULTIPLY = 2, STROKES_SCREEN = 3, STROKES_ADDITION = 4 };

/* Kinds of jobs: which neighbours in the stroke may be painted in parallel. STROKES_SEQ never conflicts. */
enum { STROKES_CON = 0, STROKES_SEQ = 1, STROKES_BAR = 2, STROKES_UNI = 3 };

/* The number of commands fed, of outcomes, and of exported frames so far. */
typedef struct strokes_count { uint64_t commands, outcomes, frames; } strokes_count;

/* The outcome of an entry. `first` and `second` are 0 unless a comment below gives them a meaning. */
typedef struct strokes_outcome { uint32_t what, first, second; } strokes_outcome;

enum {
    STROKES_DONE = 0,
    STROKES_CANCELLED = 1,
    STROKES_OVERLAP = 2,   /* the jobs `first` and `second` of the stroke, from 1, conflict */
    STROKES_NO_LAYER = 3,  /* `first`: the id, which no node has */
    STROKES_NOT_PAINT = 4, /* `first`: the id of a group */
    STROKES_ID_TAKEN = 5,    /* `first`: the id, also for the next three */
    STROKES_NO_NODE = 6,
    STROKES_NOT_GROUP = 7,
    STROKES_INTO_ITSELF = 8,
    STROKES_TREE_FULL = 9,  /* `first`: the number of nodes besides the root */
    STROKES_TOO_DEEP = 10,  /* `first`: the greatest number of levels below the root */
    STROKES_BAD_PLACE = 11, /* `first`: the place */
    STROKES_NO_UNDO = 12,
    STROKES_NO_REDO = 13
};

/* ---- Opening and closing a desk */

/* Opens a new desk into an empty handle. `slots`, 1 to 17, is the number of pieces that may be outstanding at once: use the
 * number of threads that take work.
 * OK; IN_USE; OUT_OF_RANGE: a side, the paper or the slots; NO_MEMORY. Except at OK the handle is unchanged. */
strokes_answer strokes_open(strokes_desk *desk, const strokes_canvas *canvas, uint8_t slots);

/* Opens a desk for the canvas of a script, and feeds it all of the script's commands. A `canvas` line alone is a script. The
 * script is read completely first, by all rules of docs/language.md except the command's limit of 1,048,576 bytes.
 * OK; IN_USE; OUT_OF_RANGE: the slots, and 0 is written to `line`; NO_ROOM: 4,294,967,295 bytes or more; UNKNOWN_WORD to
 * STROKE_LEFT: the first cause of the first bad line, whose number, from 1, is written to `line`; NO_MEMORY. Except at OK the
 * handle is unchanged. */
strokes_answer strokes_open_script(strokes_desk *desk, const char *text, size_t text_len, uint8_t slots, uint32_t *line);

/* Frees a desk and everything in it. The handle is empty then; an empty one stays so. Pieces and shots stay, but the pieces
 * can't be returned any more. */
void strokes_close(strokes_desk *desk);

/* ---- Feeding
 *
 * Each of these calls feeds commands. They take effect in the order of feeding, as threads take and return work. So wake all
 * sleeping threads after each call that returns OK. The result of an entry is its outcome, which comes later: a stroke on a
 * missing layer, for example, isn't an error of the line. Each of these calls may also return SHUT, which takes precedence over
 * the results that it lists, and FULL and NO_MEMORY, which come after them. */

/* Feeds a line: any command of docs/language.md except `canvas`. The line may end with a line feed or without one. An empty line
 * and a comment feed nothing.
 * OK; SECOND_LINE; UNKNOWN_WORD to TOO_MANY_EXPORTS: the first cause of the line after the commands fed, CANVAS_AGAIN for a
 * `canvas` line. After NO_MEMORY everything is unchanged, except for a `path`: see strokes_path. Paths aren't limited to 65,536
 * jobs together here, since strokes_text writes `track` lines in their place. */
strokes_answer strokes_feed(strokes_desk *desk, const char *line, size_t line_len);

/* Begins a stroke: `stroke STROKE LAYER`, or `stroke STROKE LAYER exclusive`. Each stroke needs a new number.
 * OK; OUT_OF_RANGE: the layer is 0; USED_AGAIN. */
strokes_answer strokes_begin(strokes_desk *desk, uint32_t stroke, uint16_t layer, bool exclusive);

/* Adds a dab to an open stroke: `dab STROKE KIND X Y ..`.
 * OK; OUT_OF_RANGE: the kind, a coordinate that isn't from -32768 to 32767, or a field of the brush; OUT_OF_WORLD;
 * UNKNOWN_STROKE; CLOSED_STROKE; TOO_MANY_JOBS: the stroke has 4,096. Then end it, and begin another one. */
strokes_answer strokes_dab(strokes_desk *desk, uint32_t stroke, uint32_t kind, int32_t x, int32_t y,
                           const strokes_brush *brush);

/* Adds the dabs along a line of 2 to 8 points, one every `gap` steps, 1 to 255: `path STROKE ..`. They are a job of kind `con`
 * for each tile that the dabs meet. Two paths of one stroke conflict if they share a tile and no `seq` or `bar` is between them,
 * and a stroke with a conflict is refused: give each path a stroke of its own, or feed dabs.
 * OK: all jobs were fed; FIELD_COUNT: fewer than 2 points or more than 8; OUT_OF_RANGE; TOO_MANY_DABS: more than 4,096;
 * OUT_OF_WORLD; UNKNOWN_STROKE; CLOSED_STROKE; TOO_MANY_JOBS; at these errors none was fed. NO_MEMORY: a prefix of the jobs may
 * be fed, but not all; strokes_count_of returns the new number of commands. Then cancel the stroke, or end it as it is. */
strokes_answer strokes_path(strokes_desk *desk, uint32_t stroke, uint8_t gap, const strokes_point *points,
                            size_t points_len, const strokes_brush *brush);

/* Close an open stroke. strokes_end lets it take effect at its turn, strokes_cancel lets it leave nothing.
 * OK; UNKNOWN_STROKE; CLOSED_STROKE. */
strokes_answer strokes_end(strokes_desk *desk, uint32_t stroke);
strokes_answer strokes_cancel(strokes_desk *desk, uint32_t stroke);

/* `undo` and `redo`. OK, even if there will be nothing to undo: the entry's outcome reports that. */
strokes_answer strokes_undo(strokes_desk *desk);
strokes_answer strokes_redo(strokes_desk *desk);

/* ---- Work
 *
 * A painting thread does this, under the lock unless stated otherwise; paint.c is an example:
 *
 *     take:  OK         unlock; strokes_work; lock; strokes_give; wake all; take again
 *            AGAIN      wake all; take again
 *            IDLE       sleep until another thread has fed, has returned work, or got AGAIN; take again
 *            SETTLED    sleep until another thread has fed; take again
 *            NO_MEMORY  sleep until another thread has returned work, but only for a limited time; take again
 *
 * Sleep on a condition variable that goes with the lock. At IDLE without an outstanding piece the stroke whose turn it is is
 * still open, and only feeding helps. Sleeping longer costs only time. */

/* Takes the next work into an empty piece.
 * OK: the piece has work; AGAIN, IDLE, SETTLED, as above, and the piece stays empty; SHUT: the desk is empty; IN_USE: the piece
 * has work, so return or close it first; NO_MEMORY: nothing was taken, and desk and piece are unchanged. Whatever the result, no
 * pixel of the root's picture changes. */
strokes_answer strokes_take(strokes_desk *desk, strokes_piece *piece);

/* Moves 1/`shares` of the piece's work to `other`, an empty piece, for a thread without work, or more if that is too little to
 * be worth a thread. To spread a piece over n threads, call it with `shares` = n, n - 1, .., 2. Only work that recomposes the
 * picture can be shared, before any of it is done. The last tiles go to `other`: those of the share, but at least those for
 * which 15,000 pixels are composited, by an estimate made when the work was taken. Work on each of the pieces and return it, in
 * any order; together they use one slot of the desk. No lock is needed.
 * OK: the other piece has work; SHUT: the piece is empty; IN_USE: the other one has work; NO_MEMORY; NOTHING: `shares` is 0 or
 * 1, or the other piece would have more than half of the tiles, or some of the work is done, or it is a job, or there was no
 * memory for splitting it when it was taken. Except at OK both pieces are unchanged. */
strokes_answer strokes_share(strokes_piece *piece, uint32_t shares, strokes_piece *other);

/* Does a piece's work: paints the tiles of a job, or recomposes the picture where something changed. No lock is needed.
 * OK: the work is done, now or before; SHUT; NO_MEMORY: the same call continues from what is done so far. */
strokes_answer strokes_work(strokes_piece *piece);

/* Returns a piece whose work is done.
 * OK: the desk has the work, the piece is empty, and the rectangle of the canvas to redraw is written to `drawn`: outside it no
 * pixel of the root's picture changed. It is empty if there is nothing to redraw.
 * SHUT: the desk or the piece is empty; UNDONE; nothing changed. STRANGER: close the piece, unless it is another desk's; of a
 * recomposition, the tiles before the first one that the desk isn't waiting for may be stored; of a job, none is. NO_MEMORY: some
 * of it may be stored, and the same call continues: if the desk waited for the piece, it waits for what the piece has now. At
 * all of these results the piece keeps its work, and outside the rectangle that OK would have written no pixel of the root's
 * picture changed, at NO_MEMORY only if the desk waits for the piece. */
strokes_answer strokes_give(strokes_desk *desk, strokes_piece *piece, strokes_rect *drawn);

/* Frees a piece, with any work in it. The work's entry then waits for strokes_settle. An empty piece stays empty. */
void strokes_close_piece(strokes_piece *piece);

/* Paints a few small jobs of the stroke whose turn it is, in the call. Use it before each take in a host of one thread.
 * OK: some were painted, so call again; NOTHING; SHUT; NO_MEMORY. Whatever the result, no pixel of the root's picture changes:
 * what was painted waits to be composed. */
strokes_answer strokes_small(strokes_desk *desk);

/* Checks that all strokes are closed.
 * OK: they are; STROKE_LEFT: some stroke is open; SHUT. */
strokes_answer strokes_all_closed(strokes_desk *desk);

/* Does everything that is left, in the call, including work of pieces that are outstanding or were closed; outstanding pieces
 * are stale then. Redraw the whole canvas.
 * OK: the desk is settled, and the root's picture is that of the document; STROKE_LEFT: some stroke is open, and nothing
 * changed; SHUT; NO_MEMORY: some of it may be done, and the same call continues. */
strokes_answer strokes_settle(strokes_desk *desk);

/* ---- Reading
 *
 * The root's picture is that of the composed layers, four bytes a pixel: red, green, blue, alpha, not premultiplied. On the
 * paper it is opaque, three bytes a pixel, as in an `export`. Each of these calls returns SHUT if its handle is empty, and
 * changes no desk. */

/* Copies a tile of the root's picture: 64 rows of 64 pixels from column 64 * col and row 64 * row on, 16,384 bytes. Pixels
 * beyond the canvas are copied too. `dirty` receives a rectangle of the tile's canvas pixels. Outside it, every pixel is that of
 * the document as it is now. Inside it, pending or running work will recompose some pixels. Commands that haven't had their turn
 * don't count as either: redraw what strokes_give reports.
 * OK; OUTSIDE: the canvas has no pixel in that tile; NO_ROOM. */
strokes_answer strokes_tile(strokes_desk *desk, uint8_t col, uint8_t row, uint8_t *out, size_t out_len, strokes_rect *dirty);

/* Takes a shot, which is a snapshot of the whole root picture: it stays the same whatever happens to the desk. The call copies
 * no pixel, since tiles are shared, and makes a list of at most 1,024 tiles. A screen can read the shot without the lock, and a
 * program gets a picture of the document without an `export`, as often as it likes. The handle's previous shot is freed. `dirty`
 * is as for strokes_tile, for the whole canvas.
 * OK; NO_MEMORY: the shot is unchanged. */
strokes_answer strokes_shoot(strokes_desk *desk, strokes_shot *shot, strokes_rect *dirty);

/* Copies `w` pixels, 1 or more, of a shot from (x, y) to the right, on the paper, three bytes each. If the shot's `dirty` was
 * empty, these are the bytes that an `export` would have written then. No lock is needed.
 * OK; OUTSIDE: some of them are outside the canvas; NO_ROOM. */
strokes_answer strokes_shot_row(strokes_shot *shot, uint16_t x, uint16_t y, uint16_t w, uint8_t *out, size_t out_len);

/* Frees a shot. An empty one stays empty. No lock is needed. */
void strokes_close_shot(strokes_shot *shot);

/* Returns the canvas. OK. */
strokes_answer strokes_canvas_of(strokes_desk *desk, strokes_canvas *out);

/* Returns the number of items for the calls below. OK. */
strokes_answer strokes_count_of(strokes_desk *desk, strokes_count *out);

/* Returns the outcome of an entry. Entries are numbered from 0 in the order of feeding; a stroke is fed when it begins.
 * OK; OUTSIDE: the entry hasn't had its turn, or wasn't fed. */
strokes_answer strokes_outcome_at(strokes_desk *desk, uint64_t entry, strokes_outcome *out);

/* Copies a row of a frame, on the paper: three bytes for each column. Frames and rows are numbered from 0.
 * OK; OUTSIDE: no such frame or row; NO_ROOM. */
strokes_answer strokes_frame_row(strokes_desk *desk, uint64_t frame, uint16_t y, uint8_t *out, size_t out_len);

/* Writes what was fed as the text of a script, a part with each call. Set `next` to 0 before the first call; each call advances
 * it to the next line: the canvas is line 0, the commands are lines 1 and up. The call writes as many whole lines as fit into
 * `out`, and their number of bytes to `written`: 0 once everything was written. Commands that are fed meanwhile are written too.
 * Once all strokes are closed, the parts together are a script that paints the same document: strokes_open_script reads it, and
 * so does the command, up to 1,048,576 bytes.
 * OK; OUTSIDE: `next` is beyond all lines; NO_ROOM: fewer than 256 bytes, which suffice for any line; NO_MEMORY. */
strokes_answer strokes_text(strokes_desk *desk, uint64_t *next, char *out, size_t out_len, size_t *written);

/* ---- Memory
 *
 * The library, and that of strokes_crew.h, allocate only through these three functions. They come with the library, and call
 * malloc, realloc and free. If a program defines all three, its own are called instead, with the archive and with the shared
 * object; it must not define only some of them. Every thread that makes calls calls them, several at once. They make no call of
 * this header. tools/embed/heap.c is an example. */

/* A block of memory. If there is none, `ok` is false, and `at` is any address except NULL. */
typedef struct strokes_block { bool ok; void *at; } strokes_block;

/* Allocates a block that is aligned to `align`, a power of two up to 16. A block of 0 bytes is a block, too. */
strokes_block strokes_heap_alloc(size_t bytes, size_t align);

/* Makes a block larger or smaller. It keeps its first `kept` bytes, and may move. If there is no memory, the block stays. */
strokes_block strokes_heap_realloc(void *at, size_t kept, size_t bytes, size_t align);

/* Frees a block. */
void strokes_heap_free(void *at);

#ifdef __cplusplus
}
#endif
#endif

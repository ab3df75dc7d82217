//! What `strokes.h` and `strokes_crew.h` declare. `tools/header-check --write` writes this file; don't edit it.
#![allow(dead_code)]

use std::ffi::c_void;
use std::mem::{align_of, size_of};
use std::os::raw::c_char;

/// A number of the enumeration `strokes_answer`: one of the constants, or one that a newer library has.
#[repr(transparent)]
#[derive(Clone, Copy, PartialEq, Eq, Hash)]
pub struct Answer(pub u32);

impl Answer {
    pub const OK: Answer = Answer(0);
    /// The call itself did something: call again at once
    pub const AGAIN: Answer = Answer(1);
    /// Nothing can be done until work is returned or commands are fed
    pub const IDLE: Answer = Answer(2);
    /// Every entry has its outcome, and no work is running or pending
    pub const SETTLED: Answer = Answer(3);
    /// No small job comes next; there is nothing to share
    pub const NOTHING: Answer = Answer(4);
    /// Make the same call again once there is memory
    pub const NO_MEMORY: Answer = Answer(16);
    /// A handle of the call is empty
    pub const SHUT: Answer = Answer(17);
    /// The handle that the call would fill isn't empty
    pub const IN_USE: Answer = Answer(18);
    /// The piece's work is unfinished: call strokes_work first
    pub const UNDONE: Answer = Answer(19);
    /// The desk doesn't wait for this piece: it is another desk's, or its work was done meanwhile
    pub const STRANGER: Answer = Answer(20);
    /// Out of bounds: no such tile, row, frame or entry
    pub const OUTSIDE: Answer = Answer(21);
    /// The buffer `out` is too small
    pub const NO_ROOM: Answer = Answer(22);
    /// The desk was fed 4,294,967,294 commands
    pub const FULL: Answer = Answer(23);
    pub const UNKNOWN_WORD: Answer = Answer(32);
    pub const FIELD_COUNT: Answer = Answer(33);
    pub const BAD_NUMBER: Answer = Answer(34);
    pub const OUT_OF_RANGE: Answer = Answer(35);
    pub const TOO_MANY_DABS: Answer = Answer(36);
    pub const OUT_OF_WORLD: Answer = Answer(37);
    pub const UNKNOWN_STROKE: Answer = Answer(38);
    pub const CLOSED_STROKE: Answer = Answer(39);
    pub const USED_AGAIN: Answer = Answer(40);
    pub const CANVAS_MISSING: Answer = Answer(41);
    pub const CANVAS_AGAIN: Answer = Answer(42);
    pub const TOO_MANY_JOBS: Answer = Answer(43);
    pub const TOO_MANY_EXPORTS: Answer = Answer(44);
    pub const STROKE_LEFT: Answer = Answer(45);
    /// There is more after the line's end
    pub const SECOND_LINE: Answer = Answer(46);
}

pub const OVER: u32 = 0;
pub const ERASE: u32 = 1;
pub const MULTIPLY: u32 = 2;
pub const SCREEN: u32 = 3;
pub const ADDITION: u32 = 4;
pub const CON: u32 = 0;
pub const SEQ: u32 = 1;
pub const BAR: u32 = 2;
pub const UNI: u32 = 3;
pub const DONE: u32 = 0;
pub const CANCELLED: u32 = 1;
/// The jobs `first` and `second` of the stroke, from 1, conflict
pub const OVERLAP: u32 = 2;
/// `first`: the id, which no node has
pub const NO_LAYER: u32 = 3;
/// `first`: the id of a group
pub const NOT_PAINT: u32 = 4;
/// `first`: the id, also for the next three
pub const ID_TAKEN: u32 = 5;
pub const NO_NODE: u32 = 6;
pub const NOT_GROUP: u32 = 7;
pub const INTO_ITSELF: u32 = 8;
/// `first`: the number of nodes besides the root
pub const TREE_FULL: u32 = 9;
/// `first`: the greatest number of levels below the root
pub const TOO_DEEP: u32 = 10;
/// `first`: the place
pub const BAD_PLACE: u32 = 11;
pub const NO_UNDO: u32 = 12;
pub const NO_REDO: u32 = 13;
pub const CREW_MOST_THREADS: u32 = 16;
/// Milliseconds that mean no limit.
pub const CREW_NO_LIMIT: u32 = 4294967295;

/// Handles. Zeros mean empty.
#[repr(C)]
#[derive(Debug)]
pub struct Desk {
    pub at: *mut c_void,
    pub full: bool,
}

const _: () = assert!(size_of::<Desk>() == 16 && align_of::<Desk>() == 8);

#[repr(C)]
#[derive(Debug)]
pub struct Piece {
    pub at: *mut c_void,
    pub full: bool,
}

const _: () = assert!(size_of::<Piece>() == 16 && align_of::<Piece>() == 8);

#[repr(C)]
#[derive(Debug)]
pub struct Shot {
    pub at: *mut c_void,
    pub full: bool,
}

const _: () = assert!(size_of::<Shot>() == 16 && align_of::<Shot>() == 8);

/// Pixels from (x, y) to the right and down; none if w is 0.
#[repr(C)]
#[derive(Clone, Copy, Debug, Default, PartialEq, Eq)]
pub struct Rect {
    pub x: i32,
    pub y: i32,
    pub w: u32,
    pub h: u32,
}

const _: () = assert!(size_of::<Rect>() == 16 && align_of::<Rect>() == 4);

#[repr(C)]
#[derive(Clone, Copy, Debug, Default, PartialEq, Eq)]
pub struct Point {
    pub x: i32,
    pub y: i32,
}

const _: () = assert!(size_of::<Point>() == 8 && align_of::<Point>() == 4);

/// 1 to 2048 columns and rows, and the paper's colour as 0xRRGGBB.
#[repr(C)]
#[derive(Clone, Copy, Debug, Default, PartialEq, Eq)]
pub struct Canvas {
    pub w: u32,
    pub h: u32,
    pub paper: u32,
}

const _: () = assert!(size_of::<Canvas>() == 12 && align_of::<Canvas>() == 4);

/// A dab: its colour as 0xRRGGBBAA, not premultiplied; its radius, 0 to 128; 1 for a soft edge, 0 for a hard one; its
/// blend mode, one of STROKES_OVER .. below; its strength, 0 to 255. With the alpha 00 the colour is the clear pixel.
#[repr(C)]
#[derive(Clone, Copy, Debug, Default, PartialEq, Eq)]
pub struct Brush {
    pub colour: u32,
    pub radius: u8,
    pub soft: u8,
    pub op: u8,
    pub strength: u8,
}

const _: () = assert!(size_of::<Brush>() == 8 && align_of::<Brush>() == 4);

/// The number of commands fed, of outcomes, and of exported frames so far.
#[repr(C)]
#[derive(Clone, Copy, Debug, Default, PartialEq, Eq)]
pub struct Count {
    pub commands: u64,
    pub outcomes: u64,
    pub frames: u64,
}

const _: () = assert!(size_of::<Count>() == 24 && align_of::<Count>() == 8);

/// The outcome of an entry. `first` and `second` are 0 unless a comment below gives them a meaning.
#[repr(C)]
#[derive(Clone, Copy, Debug, Default, PartialEq, Eq)]
pub struct Outcome {
    pub what: u32,
    pub first: u32,
    pub second: u32,
}

const _: () = assert!(size_of::<Outcome>() == 12 && align_of::<Outcome>() == 4);

/// A block of memory. If there is none, `ok` is false, and `at` is any address except NULL.
#[repr(C)]
#[derive(Debug)]
pub struct Block {
    pub ok: bool,
    pub at: *mut c_void,
}

const _: () = assert!(size_of::<Block>() == 16 && align_of::<Block>() == 8);

/// A handle. Zeros mean empty.
#[repr(C)]
#[derive(Debug)]
pub struct Crew {
    pub at: *mut c_void,
}

const _: () = assert!(size_of::<Crew>() == 8 && align_of::<Crew>() == 8);

/// The options of a crew. Zeros are valid for all of them.
#[repr(C)]
#[derive(Debug)]
pub struct CrewOptions {
    pub threads: u32,
    pub zero: u32,
    pub news: Option<unsafe extern "C" fn(*mut c_void)>,
    pub whose: *mut c_void,
}

const _: () = assert!(size_of::<CrewOptions>() == 24 && align_of::<CrewOptions>() == 8);

extern "C" {
    pub fn strokes_answer_text(answer: Answer) -> *const c_char;
    pub fn strokes_open(desk: *mut Desk, canvas: *const Canvas, slots: u8) -> Answer;
    pub fn strokes_open_script(
        desk: *mut Desk,
        text: *const u8,
        text_len: usize,
        slots: u8,
        line: *mut u32,
    ) -> Answer;
    pub fn strokes_close(desk: *mut Desk);
    pub fn strokes_feed(desk: *mut Desk, line: *const u8, line_len: usize) -> Answer;
    pub fn strokes_begin(desk: *mut Desk, stroke: u32, layer: u16, exclusive: bool) -> Answer;
    pub fn strokes_dab(
        desk: *mut Desk,
        stroke: u32,
        kind: u32,
        x: i32,
        y: i32,
        brush: *const Brush,
    ) -> Answer;
    pub fn strokes_path(
        desk: *mut Desk,
        stroke: u32,
        gap: u8,
        points: *const Point,
        points_len: usize,
        brush: *const Brush,
    ) -> Answer;
    pub fn strokes_end(desk: *mut Desk, stroke: u32) -> Answer;
    pub fn strokes_cancel(desk: *mut Desk, stroke: u32) -> Answer;
    pub fn strokes_undo(desk: *mut Desk) -> Answer;
    pub fn strokes_redo(desk: *mut Desk) -> Answer;
    pub fn strokes_take(desk: *mut Desk, piece: *mut Piece) -> Answer;
    pub fn strokes_share(piece: *mut Piece, shares: u32, other: *mut Piece) -> Answer;
    pub fn strokes_work(piece: *mut Piece) -> Answer;
    pub fn strokes_give(desk: *mut Desk, piece: *mut Piece, drawn: *mut Rect) -> Answer;
    pub fn strokes_close_piece(piece: *mut Piece);
    pub fn strokes_small(desk: *mut Desk) -> Answer;
    pub fn strokes_all_closed(desk: *mut Desk) -> Answer;
    pub fn strokes_settle(desk: *mut Desk) -> Answer;
    pub fn strokes_tile(
        desk: *mut Desk,
        col: u8,
        row: u8,
        out: *mut u8,
        out_len: usize,
        dirty: *mut Rect,
    ) -> Answer;
    pub fn strokes_shoot(desk: *mut Desk, shot: *mut Shot, dirty: *mut Rect) -> Answer;
    pub fn strokes_shot_row(
        shot: *mut Shot,
        x: u16,
        y: u16,
        w: u16,
        out: *mut u8,
        out_len: usize,
    ) -> Answer;
    pub fn strokes_close_shot(shot: *mut Shot);
    pub fn strokes_canvas_of(desk: *mut Desk, out: *mut Canvas) -> Answer;
    pub fn strokes_count_of(desk: *mut Desk, out: *mut Count) -> Answer;
    pub fn strokes_outcome_at(desk: *mut Desk, entry: u64, out: *mut Outcome) -> Answer;
    pub fn strokes_frame_row(
        desk: *mut Desk,
        frame: u64,
        y: u16,
        out: *mut u8,
        out_len: usize,
    ) -> Answer;
    pub fn strokes_text(
        desk: *mut Desk,
        next: *mut u64,
        out: *mut u8,
        out_len: usize,
        written: *mut usize,
    ) -> Answer;
    pub fn strokes_heap_alloc(bytes: usize, align: usize) -> Block;
    pub fn strokes_heap_realloc(at: *mut c_void, kept: usize, bytes: usize, align: usize) -> Block;
    pub fn strokes_heap_free(at: *mut c_void);
    pub fn strokes_crew_start(
        crew: *mut Crew,
        desk: *mut Desk,
        options: *const CrewOptions,
    ) -> Answer;
    pub fn strokes_crew_lock(crew: *mut Crew) -> *mut Desk;
    pub fn strokes_crew_unlock(crew: *mut Crew);
    pub fn strokes_crew_news(crew: *mut Crew, redraw: *mut Rect) -> Answer;
    pub fn strokes_crew_wait(crew: *mut Crew, milliseconds: u32, redraw: *mut Rect) -> Answer;
    pub fn strokes_crew_settle(crew: *mut Crew, milliseconds: u32) -> Answer;
    pub fn strokes_crew_stop(crew: *mut Crew, desk: *mut Desk) -> Answer;
    pub fn strokes_crew_close(crew: *mut Crew);
}

"""What `strokes.h` and `strokes_crew.h` declare. `tools/header-check --write` writes this file; don't edit it."""
import ctypes as c
import enum
from typing import Any

CALLED = c.CFUNCTYPE(None, c.c_void_p)


class Answer(enum.IntEnum):
    """The numbers of `strokes_answer`."""

    OK = 0
    AGAIN = 1
    IDLE = 2
    SETTLED = 3
    NOTHING = 4
    NO_MEMORY = 16
    SHUT = 17
    IN_USE = 18
    UNDONE = 19
    STRANGER = 20
    OUTSIDE = 21
    NO_ROOM = 22
    FULL = 23
    UNKNOWN_WORD = 32
    FIELD_COUNT = 33
    BAD_NUMBER = 34
    OUT_OF_RANGE = 35
    TOO_MANY_DABS = 36
    OUT_OF_WORLD = 37
    UNKNOWN_STROKE = 38
    CLOSED_STROKE = 39
    USED_AGAIN = 40
    CANVAS_MISSING = 41
    CANVAS_AGAIN = 42
    TOO_MANY_JOBS = 43
    TOO_MANY_EXPORTS = 44
    STROKE_LEFT = 45
    SECOND_LINE = 46


OVER = 0
ERASE = 1
MULTIPLY = 2
SCREEN = 3
ADDITION = 4
CON = 0
SEQ = 1
BAR = 2
UNI = 3
DONE = 0
CANCELLED = 1
OVERLAP = 2
NO_LAYER = 3
NOT_PAINT = 4
ID_TAKEN = 5
NO_NODE = 6
NOT_GROUP = 7
INTO_ITSELF = 8
TREE_FULL = 9
TOO_DEEP = 10
BAD_PLACE = 11
NO_UNDO = 12
NO_REDO = 13
CREW_MOST_THREADS = 16
CREW_NO_LIMIT = 4294967295


class Desk(c.Structure):
    """Handles. Zeros mean empty."""

    at: Any
    full: bool
    _fields_ = [("at", c.c_void_p), ("full", c.c_bool)]


class Piece(c.Structure):
    at: Any
    full: bool
    _fields_ = [("at", c.c_void_p), ("full", c.c_bool)]


class Shot(c.Structure):
    at: Any
    full: bool
    _fields_ = [("at", c.c_void_p), ("full", c.c_bool)]


class Rect(c.Structure):
    """Pixels from (x, y) to the right and down; none if w is 0."""

    x: int
    y: int
    w: int
    h: int
    _fields_ = [("x", c.c_int32), ("y", c.c_int32), ("w", c.c_uint32), ("h", c.c_uint32)]


class Point(c.Structure):
    x: int
    y: int
    _fields_ = [("x", c.c_int32), ("y", c.c_int32)]


class Canvas(c.Structure):
    """1 to 2048 columns and rows, and the paper's colour as 0xRRGGBB."""

    w: int
    h: int
    paper: int
    _fields_ = [("w", c.c_uint32), ("h", c.c_uint32), ("paper", c.c_uint32)]


class Brush(c.Structure):
    """A dab: its colour as 0xRRGGBBAA, not premultiplied; its radius, 0 to 128; 1 for a soft edge, 0 for a hard one;
    its blend mode, one of STROKES_OVER .. below; its strength, 0 to 255. With the alpha 00 the colour is the clear
    pixel."""

    colour: int
    radius: int
    soft: int
    op: int
    strength: int
    _fields_ = [
        ("colour", c.c_uint32),
        ("radius", c.c_uint8),
        ("soft", c.c_uint8),
        ("op", c.c_uint8),
        ("strength", c.c_uint8),
    ]


class Count(c.Structure):
    """The number of commands fed, of outcomes, and of exported frames so far."""

    commands: int
    outcomes: int
    frames: int
    _fields_ = [("commands", c.c_uint64), ("outcomes", c.c_uint64), ("frames", c.c_uint64)]


class Outcome(c.Structure):
    """The outcome of an entry. `first` and `second` are 0 unless a comment below gives them a meaning."""

    what: int
    first: int
    second: int
    _fields_ = [("what", c.c_uint32), ("first", c.c_uint32), ("second", c.c_uint32)]


class Block(c.Structure):
    """A block of memory. If there is none, `ok` is false, and `at` is any address except NULL."""

    ok: bool
    at: Any
    _fields_ = [("ok", c.c_bool), ("at", c.c_void_p)]


class Crew(c.Structure):
    """A handle. Zeros mean empty."""

    at: Any
    _fields_ = [("at", c.c_void_p)]


class CrewOptions(c.Structure):
    """The options of a crew. Zeros are valid for all of them."""

    threads: int
    zero: int
    news: Any
    whose: Any
    _fields_ = [("threads", c.c_uint32), ("zero", c.c_uint32), ("news", CALLED), ("whose", c.c_void_p)]


# What each function gives, and what it is passed.
FUNCTIONS: dict[str, tuple[Any, list[Any]]] = {
    "strokes_answer_text": (c.c_char_p, [c.c_uint32]),
    "strokes_open": (c.c_uint32, [c.POINTER(Desk), c.POINTER(Canvas), c.c_uint8]),
    "strokes_open_script": (c.c_uint32, [c.POINTER(Desk), c.c_char_p, c.c_size_t, c.c_uint8, c.POINTER(c.c_uint32)]),
    "strokes_close": (None, [c.POINTER(Desk)]),
    "strokes_feed": (c.c_uint32, [c.POINTER(Desk), c.c_char_p, c.c_size_t]),
    "strokes_begin": (c.c_uint32, [c.POINTER(Desk), c.c_uint32, c.c_uint16, c.c_bool]),
    "strokes_dab": (c.c_uint32, [c.POINTER(Desk), c.c_uint32, c.c_uint32, c.c_int32, c.c_int32, c.POINTER(Brush)]),
    "strokes_path": (
        c.c_uint32,
        [c.POINTER(Desk), c.c_uint32, c.c_uint8, c.POINTER(Point), c.c_size_t, c.POINTER(Brush)],
    ),
    "strokes_end": (c.c_uint32, [c.POINTER(Desk), c.c_uint32]),
    "strokes_cancel": (c.c_uint32, [c.POINTER(Desk), c.c_uint32]),
    "strokes_undo": (c.c_uint32, [c.POINTER(Desk)]),
    "strokes_redo": (c.c_uint32, [c.POINTER(Desk)]),
    "strokes_take": (c.c_uint32, [c.POINTER(Desk), c.POINTER(Piece)]),
    "strokes_share": (c.c_uint32, [c.POINTER(Piece), c.c_uint32, c.POINTER(Piece)]),
    "strokes_work": (c.c_uint32, [c.POINTER(Piece)]),
    "strokes_give": (c.c_uint32, [c.POINTER(Desk), c.POINTER(Piece), c.POINTER(Rect)]),
    "strokes_close_piece": (None, [c.POINTER(Piece)]),
    "strokes_small": (c.c_uint32, [c.POINTER(Desk)]),
    "strokes_all_closed": (c.c_uint32, [c.POINTER(Desk)]),
    "strokes_settle": (c.c_uint32, [c.POINTER(Desk)]),
    "strokes_tile": (
        c.c_uint32,
        [c.POINTER(Desk), c.c_uint8, c.c_uint8, c.POINTER(c.c_uint8), c.c_size_t, c.POINTER(Rect)],
    ),
    "strokes_shoot": (c.c_uint32, [c.POINTER(Desk), c.POINTER(Shot), c.POINTER(Rect)]),
    "strokes_shot_row": (
        c.c_uint32,
        [c.POINTER(Shot), c.c_uint16, c.c_uint16, c.c_uint16, c.POINTER(c.c_uint8), c.c_size_t],
    ),
    "strokes_close_shot": (None, [c.POINTER(Shot)]),
    "strokes_canvas_of": (c.c_uint32, [c.POINTER(Desk), c.POINTER(Canvas)]),
    "strokes_count_of": (c.c_uint32, [c.POINTER(Desk), c.POINTER(Count)]),
    "strokes_outcome_at": (c.c_uint32, [c.POINTER(Desk), c.c_uint64, c.POINTER(Outcome)]),
    "strokes_frame_row": (c.c_uint32, [c.POINTER(Desk), c.c_uint64, c.c_uint16, c.POINTER(c.c_uint8), c.c_size_t]),
    "strokes_text": (
        c.c_uint32,
        [c.POINTER(Desk), c.POINTER(c.c_uint64), c.POINTER(c.c_uint8), c.c_size_t, c.POINTER(c.c_size_t)],
    ),
    "strokes_heap_alloc": (Block, [c.c_size_t, c.c_size_t]),
    "strokes_heap_realloc": (Block, [c.c_void_p, c.c_size_t, c.c_size_t, c.c_size_t]),
    "strokes_heap_free": (None, [c.c_void_p]),
    "strokes_crew_start": (c.c_uint32, [c.POINTER(Crew), c.POINTER(Desk), c.POINTER(CrewOptions)]),
    "strokes_crew_lock": (c.POINTER(Desk), [c.POINTER(Crew)]),
    "strokes_crew_unlock": (None, [c.POINTER(Crew)]),
    "strokes_crew_news": (c.c_uint32, [c.POINTER(Crew), c.POINTER(Rect)]),
    "strokes_crew_wait": (c.c_uint32, [c.POINTER(Crew), c.c_uint32, c.POINTER(Rect)]),
    "strokes_crew_settle": (c.c_uint32, [c.POINTER(Crew), c.c_uint32]),
    "strokes_crew_stop": (c.c_uint32, [c.POINTER(Crew), c.POINTER(Desk)]),
    "strokes_crew_close": (None, [c.POINTER(Crew)]),
}

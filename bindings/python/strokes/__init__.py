"""A layered painting engine: layers, groups, strokes painted by many threads, cancel and undo.

    import strokes

    with strokes.Crew(strokes.Desk(640, 480)) as crew:
        with crew.lock() as desk:
            desk.feed("layer 1 0 0")
            with desk.stroke(1, layer=1) as stroke:
                stroke.dab(300, 200, strokes.Brush(0x2060A0FF, radius=20))
        crew.settle()
        with crew.lock() as desk, desk.shoot() as shot:
            open("picture.ppm", "wb").write(shot.ppm())

These are the types of the C headers strokes.h and strokes_crew.h, and a call does what they say of the one of its name. Each
object closes itself at the end of its `with`, or when it is collected. A call that the library answers otherwise than the
call is for raises Error. Calls let go of Python's own lock, so other threads go on meanwhile; two calls on one object wait for
each other.
"""
from ._raw import (
    ADDITION, BAD_PLACE, BAR, CANCELLED, CON, CREW_MOST_THREADS, DONE, ERASE, ID_TAKEN, INTO_ITSELF, MULTIPLY, NO_LAYER, NO_NODE,
    NO_REDO, NO_UNDO, NOT_GROUP, NOT_PAINT, OVER, OVERLAP, SCREEN, SEQ, TOO_DEEP, TREE_FULL, UNI, Answer,
)
from ._strokes import MOST_SLOTS, Crew, Desk, Document, Locked, Piece, Shot, Stroke
from ._values import Brush, Canvas, Count, Error, News, NoMemory, Outcome, Rect

__version__ = "1.0.0"
__all__ = [
    "ADDITION", "BAD_PLACE", "BAR", "CANCELLED", "CON", "CREW_MOST_THREADS", "DONE", "ERASE", "ID_TAKEN", "INTO_ITSELF",
    "MOST_SLOTS", "MULTIPLY", "NOT_GROUP", "NOT_PAINT", "NO_LAYER", "NO_NODE", "NO_REDO", "NO_UNDO", "OVER", "OVERLAP", "SCREEN",
    "SEQ", "TOO_DEEP", "TREE_FULL", "UNI", "Answer", "Brush", "Canvas", "Count", "Crew", "Desk", "Document", "Error", "Locked",
    "News", "NoMemory", "Outcome", "Piece", "Rect", "Shot", "Stroke",
]  # fmt: skip

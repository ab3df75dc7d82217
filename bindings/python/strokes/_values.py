"""What calls are passed and give: values, and the errors that they raise."""
from typing import NamedTuple

from . import _library, _raw


class Error(Exception):
    """An answer of the library other than those that a call is for; `line` is the line of a script that is at fault, from 1,
    or None."""

    def __init__(self, answer: int, line: "int | None" = None) -> None:
        text: str = _library.strokes_answer_text(answer).decode()
        super().__init__(f"line {line}: {text}" if line else text)
        self.answer = answer
        self.line = line


class NoMemory(Error, MemoryError):
    """Memory ended. The same call may be made again."""


def want_ok(answer: int, line: "int | None" = None) -> None:
    """Raises an answer that isn't OK."""
    if answer == _raw.Answer.NO_MEMORY:
        raise NoMemory(answer)
    if answer != _raw.Answer.OK:
        raise Error(answer, line)


class Rect(NamedTuple):
    """Points from (x, y) on, to the right and downwards; none where w is 0."""

    x: int
    y: int
    w: int
    h: int

    def __bool__(self) -> bool:
        """Whether it has points."""
        return self.w > 0


class Canvas(NamedTuple):
    """Columns and rows, 1 to 2,048, and the paper as 0xRRGGBB."""

    w: int
    h: int
    paper: int = 0xFFFFFF


class Brush(NamedTuple):
    """A colour as 0xRRGGBBAA, a radius of 0 to 128, whether it is soft, one of OVER .. ADDITION, a strength of 0 to 255."""

    colour: int
    radius: int
    soft: bool = True
    op: int = _raw.OVER
    strength: int = 255


class Count(NamedTuple):
    """How many commands were fed, outcomes came, and frames were exported."""

    commands: int
    outcomes: int
    frames: int


class Outcome(NamedTuple):
    """What became of an entry: DONE, CANCELLED or why it was refused. `first` and `second` are 0 unless that has a use for them."""

    what: int
    first: int
    second: int

    @property
    def was_refused(self) -> bool:
        return self.what not in (_raw.DONE, _raw.CANCELLED)


class News(NamedTuple):
    """What is to be drawn anew, and whether memory ended for a thread, which tries again."""

    redraw: Rect
    lacks_memory: bool

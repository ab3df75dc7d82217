"""Desks, pieces, shots and crews."""
import ctypes as c
import threading
from collections.abc import Callable, Iterable
from types import TracebackType
from typing import Any, TypeVar

from . import _library, _raw
from ._raw import Answer
from ._values import Brush, Canvas, Count, Error, News, Outcome, Rect, want_ok

MOST_SLOTS = 17  # as many pieces of a desk as may be out at once
TILE_BYTES = 64 * 64 * 4

Self = TypeVar("Self", bound="Handle")


def rect_of(raw: _raw.Rect) -> Rect:
    return Rect(raw.x, raw.y, raw.w, raw.h)


def within(number: int, bits: int) -> int:
    """A number that is passed in so many bits: ctypes would cut off the others."""
    if not 0 <= number < 1 << bits:
        raise Error(Answer.OUT_OF_RANGE)
    return number


def signed(number: int) -> int:
    if not -(1 << 31) <= number < 1 << 31:
        raise Error(Answer.OUT_OF_RANGE)
    return number


def raw_brush(brush: Brush) -> _raw.Brush:
    bytes_of = [within(it, 8) for it in (brush.radius, int(brush.soft), brush.op, brush.strength)]
    return _raw.Brush(within(brush.colour, 32), *bytes_of)


def milliseconds(limit: "float | None") -> int:
    """Seconds as the crew's calls take them; None is no limit."""
    if limit is None:
        return _raw.CREW_NO_LIMIT
    return min(max(int(limit * 1000), 0), _raw.CREW_NO_LIMIT - 1)


def called_by(news: "Callable[[], None]") -> Any:
    """What the crew's threads call, which is to stay as long as they do."""
    return _raw.CALLED(lambda _: news())


class Handle:
    """What an object has of the library, with a lock: the library wants one call at a time on each handle."""

    _close: str

    def __init__(self, raw: Any) -> None:
        self._raw = raw
        self._alone = threading.RLock()

    def _call(self, name: str, *passed: Any) -> int:
        with self._alone:
            return getattr(_library, name)(self._raw, *passed)  # type: ignore[no-any-return]

    def close(self) -> None:
        """Lets go of what it has. It may be called again."""
        self._call(self._close)

    def __enter__(self: Self) -> Self:
        return self

    def __exit__(self, kind: "type[BaseException] | None", error: "BaseException | None", trace: "TracebackType | None") -> None:
        self.close()

    def __del__(self) -> None:
        if hasattr(self, "_alone"):
            self.close()


class Piece(Handle):
    """Work of a desk, which a thread does: a job's tiles, or tiles of the picture to be composed anew."""

    _close = "strokes_close_piece"

    def __init__(self) -> None:
        super().__init__(_raw.Piece())

    def work(self) -> None:
        """Does the work. After NoMemory the same call goes on."""
        want_ok(self._call("strokes_work"))

    def share(self, shares: int) -> "Piece | None":
        """Takes a part of the work off, for one of so many threads. None where there is nothing to share."""
        other = Piece()
        answer = self._call("strokes_share", within(shares, 32), other._raw)
        if answer == Answer.NOTHING:
            return None
        want_ok(answer)
        return other


class Shot(Handle):
    """The root's picture as it was when the shot was taken. `dirty` is the rectangle in which something was still to be composed."""

    _close = "strokes_close_shot"

    def __init__(self, canvas: Canvas) -> None:
        super().__init__(_raw.Shot())
        self.canvas = canvas
        self.dirty = Rect(0, 0, 0, 0)

    @property
    def size(self) -> "tuple[int, int]":
        return self.canvas.w, self.canvas.h

    def read(self, rect: "Rect | None" = None, out: Any = None) -> Any:
        """The pixels of a rectangle, or of all, row by row: red, green, blue. They are written into `out`, a writable buffer
        with room for them, such as an array of numpy, and that is given; without it a new bytearray is."""
        rect = rect or Rect(0, 0, *self.size)
        row_bytes = 3 * within(rect.w, 16)
        if out is None:
            out = bytearray(row_bytes * rect.h)
        with memoryview(out).cast("B") as room:
            if len(room) < row_bytes * rect.h:
                raise Error(Answer.NO_ROOM)
            for row in range(rect.h):
                into = (c.c_uint8 * row_bytes).from_buffer(room, row * row_bytes)
                at = within(rect.x, 16), within(rect.y + row, 16)
                want_ok(self._call("strokes_shot_row", *at, rect.w, into, row_bytes))
        return out

    def ppm(self) -> bytes:
        """The picture as a portable pixmap."""
        return b"P6\n%d %d\n255\n" % self.size + bytes(self.read())


class Stroke:
    """An open stroke. As a context it is ended with the block, or cancelled by an exception."""

    def __init__(self, document: "Document", number: int) -> None:
        self._document = document
        self.number = number

    def dab(self, x: int, y: int, brush: Brush, kind: int = _raw.SEQ) -> None:
        """Adds a dab."""
        self._document._feed("strokes_dab", self.number, within(kind, 32), signed(x), signed(y), raw_brush(brush))

    def path(self, points: "Iterable[tuple[int, int]]", gap: int, brush: Brush) -> None:
        """Adds the dabs along a line of 2 to 8 points, one each `gap` steps. After NoMemory a part may be fed: cancel it."""
        pairs = [_raw.Point(signed(x), signed(y)) for x, y in points]
        passed = (_raw.Point * max(len(pairs), 1))(*pairs)
        self._document._feed("strokes_path", self.number, within(gap, 8), passed, len(pairs), raw_brush(brush))

    def end(self) -> None:
        """Closes it: it takes effect at its turn."""
        self._document._feed("strokes_end", self.number)

    def cancel(self) -> None:
        """Closes it: it leaves nothing."""
        self._document._feed("strokes_cancel", self.number)

    def __enter__(self) -> "Stroke":
        return self

    def __exit__(self, kind: "type[BaseException] | None", error: "BaseException | None", trace: "TracebackType | None") -> None:
        if kind is None:
            self.end()
        else:
            self.cancel()


class Document:
    """The calls of a desk, whether a program owns it (Desk) or a crew lends it (Locked)."""

    def _call(self, name: str, *passed: Any) -> int:
        raise NotImplementedError

    def _feed(self, name: str, *passed: Any) -> None:
        want_ok(self._call(name, *passed))

    def feed(self, line: "str | bytes") -> None:
        """Feeds what a line says: any command but `canvas`."""
        text = line.encode() if isinstance(line, str) else line
        self._feed("strokes_feed", text, len(text))

    def stroke(self, number: int, layer: int, exclusive: bool = False) -> Stroke:
        """Begins a stroke on a layer, with a number that no stroke had."""
        self._feed("strokes_begin", within(number, 32), within(layer, 16), exclusive)
        return Stroke(self, number)

    def undo(self) -> None:
        """Feeds an undo. Its outcome tells whether there was something to undo."""
        self._feed("strokes_undo")

    def redo(self) -> None:
        """Feeds a redo."""
        self._feed("strokes_redo")

    def small(self) -> bool:
        """Paints a few small jobs of the stroke whose turn it is. Whether some were painted."""
        answer = self._call("strokes_small")
        if answer != Answer.NOTHING:
            want_ok(answer)
        return answer == Answer.OK

    @property
    def all_closed(self) -> bool:
        """Whether all strokes are closed."""
        answer = self._call("strokes_all_closed")
        if answer != Answer.STROKE_LEFT:
            want_ok(answer)
        return answer == Answer.OK

    def settle(self) -> None:
        """Does all that is left, in the call. Error with STROKE_LEFT: a stroke is open, and nothing changed."""
        want_ok(self._call("strokes_settle"))

    def tile(self, col: int, row: int) -> "tuple[bytearray, Rect]":
        """A tile of 64 by 64 pixels of the root's picture, four bytes each, and what of it is still to be composed."""
        out, dirty = bytearray(TILE_BYTES), _raw.Rect()
        into = (c.c_uint8 * TILE_BYTES).from_buffer(out)
        want_ok(self._call("strokes_tile", within(col, 8), within(row, 8), into, TILE_BYTES, dirty))
        return out, rect_of(dirty)

    def shoot(self, shot: "Shot | None" = None) -> Shot:
        """Takes a shot, the root's picture as it is now; in the place of another one, where that is passed."""
        shot = shot or Shot(self.canvas)
        dirty = _raw.Rect()
        with shot._alone:
            want_ok(self._call("strokes_shoot", shot._raw, dirty))
            shot.canvas, shot.dirty = self.canvas, rect_of(dirty)
        return shot

    @property
    def canvas(self) -> Canvas:
        raw = _raw.Canvas()
        want_ok(self._call("strokes_canvas_of", raw))
        return Canvas(raw.w, raw.h, raw.paper)

    @property
    def count(self) -> Count:
        raw = _raw.Count()
        want_ok(self._call("strokes_count_of", raw))
        return Count(raw.commands, raw.outcomes, raw.frames)

    def outcome(self, entry: int) -> Outcome:
        """What became of an entry, from 0 on in the order of feeding. Error with OUTSIDE: it has had no turn."""
        raw = _raw.Outcome()
        want_ok(self._call("strokes_outcome_at", within(entry, 64), raw))
        return Outcome(raw.what, raw.first, raw.second)

    def frame(self, number: int) -> bytearray:
        """An exported frame, from 0 on: row by row, red, green, blue."""
        canvas = self.canvas
        row_bytes = 3 * canvas.w
        out = bytearray(row_bytes * canvas.h)
        for y in range(canvas.h):
            into = (c.c_uint8 * row_bytes).from_buffer(out, y * row_bytes)
            want_ok(self._call("strokes_frame_row", within(number, 64), y, into, row_bytes))
        return out

    def text(self) -> str:
        """What was fed, as the text of a script."""
        following, written, part = c.c_uint64(), c.c_size_t(1), (c.c_uint8 * 4096)()
        text = bytearray()
        while written.value:
            want_ok(self._call("strokes_text", following, part, len(part), written))
            text += memoryview(part)[: written.value]
        return text.decode("ascii")


class Desk(Handle, Document):
    """A desk that the program owns: one document. `slots` is how many pieces may be out at once."""

    _close = "strokes_close"

    def __init__(self, w: int, h: int, paper: int = 0xFFFFFF, slots: int = MOST_SLOTS) -> None:
        super().__init__(_raw.Desk())
        canvas = _raw.Canvas(within(w, 32), within(h, 32), within(paper, 32))
        want_ok(self._call("strokes_open", canvas, within(slots, 8)))

    @classmethod
    def of_script(cls, text: "str | bytes", slots: int = MOST_SLOTS) -> "Desk":
        """A desk for the canvas of a script, which is fed with all of its commands. Error has the first bad line."""
        desk = cls.__new__(cls)
        Handle.__init__(desk, _raw.Desk())
        bytes_of, line = text.encode() if isinstance(text, str) else text, c.c_uint32()
        want_ok(desk._call("strokes_open_script", bytes_of, len(bytes_of), within(slots, 8), line), line.value)
        return desk

    def take(self, piece: Piece) -> Answer:
        """Takes what can be done next into a piece. OK: the piece has work; AGAIN, IDLE or SETTLED."""
        with piece._alone:
            answer = self._call("strokes_take", piece._raw)
        if answer > Answer.SETTLED:
            want_ok(answer)
        return Answer(answer)

    def give(self, piece: Piece) -> Rect:
        """Gives a piece back whose work is done. What is to be drawn anew."""
        drawn = _raw.Rect()
        with piece._alone:
            want_ok(self._call("strokes_give", piece._raw, drawn))
        return rect_of(drawn)


class Locked(Document):
    """A crew's desk, between lock and unlock; a context."""

    def __init__(self, crew: "Crew") -> None:
        self._crew = crew
        self._desk: Any = None

    def __enter__(self) -> "Locked":
        self._desk = _library.strokes_crew_lock(self._crew._raw)
        if not self._desk:
            raise Error(Answer.SHUT)
        return self

    def __exit__(self, kind: "type[BaseException] | None", error: "BaseException | None", trace: "TracebackType | None") -> None:
        self._desk = None
        _library.strokes_crew_unlock(self._crew._raw)

    def _call(self, name: str, *passed: Any) -> int:
        if not self._desk:
            raise Error(Answer.SHUT)
        return getattr(_library, name)(self._desk, *passed)  # type: ignore[no-any-return]


class Crew(Handle):
    """Threads that paint a desk, which is theirs until they are stopped: 1 to 16, or with 0 as many as suit the machine. One of
    them calls `news` when there is news, once until it is asked for; it is to wake the program's own thread, and no more."""

    _close = "strokes_crew_close"

    def __init__(self, desk: Desk, threads: int = 0, news: "Callable[[], None] | None" = None) -> None:
        super().__init__(_raw.Crew())
        self._news = called_by(news) if news else _raw.CALLED(0)
        options = _raw.CrewOptions(within(threads, 32), 0, self._news, None)
        with desk._alone:
            want_ok(self._call("strokes_crew_start", desk._raw, options))

    def lock(self) -> Locked:
        """The crew's lock, as a context, which lends the desk. Of the crew's calls a thread may make news() alone meanwhile."""
        return Locked(self)

    def news(self) -> News:
        """The news since it was asked for last. With the lock held it and the desk are of one moment."""
        redraw = _raw.Rect()
        return self._told(_library.strokes_crew_news(self._raw, redraw), redraw)

    def wait(self, seconds: "float | None" = None) -> News:
        """The same, but where there is no news it waits for some."""
        redraw = _raw.Rect()
        return self._told(_library.strokes_crew_wait(self._raw, milliseconds(seconds), redraw), redraw)

    def settle(self, seconds: "float | None" = None) -> bool:
        """Works with the threads until the desk is settled, or the time is up. Whether it is settled."""
        answer = _library.strokes_crew_settle(self._raw, milliseconds(seconds))
        if answer != Answer.AGAIN:
            want_ok(answer)
        return answer == Answer.OK  # type: ignore[no-any-return]

    def stop(self) -> Desk:
        """Ends the threads, and gives the desk back."""
        desk = Desk.__new__(Desk)
        Handle.__init__(desk, _raw.Desk())
        want_ok(self._call("strokes_crew_stop", desk._raw))
        return desk

    @staticmethod
    def _told(answer: int, redraw: _raw.Rect) -> News:
        if answer != Answer.NO_MEMORY:
            want_ok(answer)
        return News(rect_of(redraw), answer == Answer.NO_MEMORY)

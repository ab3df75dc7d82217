#!/usr/bin/env python3
"""Paints a script as the command does.

    paint.py THREADS [picture|live|script] < SCRIPT > PICTURES

A crew of 1 to 16 threads paints, and the caller helps at the end. With `live` the picture of the document is written in place
of the frames, and with `script` what was fed. The exit codes are the command's. The package `strokes` is the one installed, or
that of this checkout, which finds the library in the folder that STROKES_LIB_DIR names.
"""
import pathlib
import sys

sys.path.append(str(pathlib.Path(__file__).resolve().parents[2] / "bindings/python"))
import strokes  # noqa: E402


class BadLine(Exception):
    """An error at a line of the script."""

    def __init__(self, number, error):
        super().__init__(f"line {number}: {error}")


def says_nothing(line):
    line = line.lstrip(b" \t\r")
    return not line or line.startswith(b"#")


def at_line(number, call, *passed):
    """Makes a call for a line of the script."""
    try:
        return call(*passed)
    except strokes.NoMemory:
        raise
    except strokes.Error as error:
        # (a line by itself is a script whose line is 1)
        raise BadLine(number, strokes.Error(error.answer)) from None


def feed(crew, line):
    with crew.lock() as desk:
        desk.feed(line)


def painted(text, threads):
    """The settled desk of a script."""
    lines = iter(enumerate(text.split(b"\n"), 1))
    number, first = next(((n, line) for n, line in lines if not says_nothing(line)), (1, b""))
    if not first:
        raise BadLine(1, strokes.Error(strokes.Answer.CANVAS_MISSING))
    desk = at_line(number, strokes.Desk.of_script, first, threads + 1)
    with strokes.Crew(desk, threads) as crew:
        for number, line in lines:
            at_line(number, feed, crew, line)
        crew.settle()
        return crew.stop()


def frames(desk):
    w, h, _ = desk.canvas
    for number in range(desk.count.frames):
        yield b"P6\n%d %d\n255\n" % (w, h) + bytes(desk.frame(number))


def live(desk):
    with desk.shoot() as shot:
        yield shot.ppm()


def script(desk):
    yield desk.text().encode()


def was_refused(desk):
    return any(desk.outcome(entry).was_refused for entry in range(desk.count.outcomes))


def paint(threads, written, out):
    """Paints the script of standard input, and gives the exit code."""
    with painted(sys.stdin.buffer.read(), threads) as desk:
        for part in written(desk):
            out.write(part)
        out.flush()
        return int(was_refused(desk))


def main():
    words = sys.argv[1:] + ["picture"] * (len(sys.argv) == 2)
    ways = {"picture": frames, "live": live, "script": script}
    is_known = len(words) == 2 and words[0].isdigit() and words[1] in ways
    if not is_known or not 1 <= int(words[0]) <= strokes.CREW_MOST_THREADS:
        print(__doc__, file=sys.stderr)
        return 2
    try:
        return paint(int(words[0]), ways[words[1]], sys.stdout.buffer)
    except (strokes.Error, BadLine) as error:
        print(f"paint.py: {error}", file=sys.stderr)
        return 6 if isinstance(error, strokes.NoMemory) else 3


if __name__ == "__main__":
    sys.exit(main())

"""Runs the tests of the repository. ./test starts it, and describes its arguments."""
import contextlib
import fcntl
import os
import resource
import shutil
import signal
import sys
import tempfile

import parts
import processes
import programs
from whole import Run

BAD_ARGUMENT, NOTHING_BUILT = 2, 70
ROOMS = "strokes-test"


class Stopped(Exception):
    """A signal asked this program to end; its number is the argument."""


def say(text):
    print(f"test: {text}", file=sys.stderr, flush=True)


def stop(status, text):
    say(text)
    sys.exit(status)


def selected(words, tests):
    """The tests whose name contains one of the words. A word that is a complete name selects only that test."""
    names = {test.name for test in tests}
    return [it for it in tests if not words or any(word == it.name if word in names else word in it.name for word in words)]


@contextlib.contextmanager
def kept_alone():
    """Keeps out/tests for this call alone, until it ends."""
    try:
        os.makedirs(programs.KEPT, exist_ok=True)
        with tempfile.TemporaryFile(dir=programs.KEPT):
            folder = os.open(programs.KEPT, os.O_RDONLY)
    except OSError as error:
        stop(NOTHING_BUILT, f"nothing can be built, as out/tests can't be written: {error.strerror}")
    try:
        fcntl.flock(folder, fcntl.LOCK_EX | fcntl.LOCK_NB)
    except BlockingIOError:
        say("another ./test is running; waiting for it")
        fcntl.flock(folder, fcntl.LOCK_EX)
    try:
        yield
    finally:
        os.close(folder)


@contextlib.contextmanager
def room():
    """A folder for temporary files, outside the checkout, since rt ci refuses sources elsewhere in it."""
    sweep()
    made = tempfile.mkdtemp(prefix=f"{ROOMS}.{os.getpid()}.")
    try:
        yield made
    finally:
        shutil.rmtree(made, ignore_errors=True)


def sweep():
    """Removes the rooms of calls that were killed."""
    for name in os.listdir(tempfile.gettempdir()):
        if name.startswith(f"{ROOMS}.") and not os.path.exists(f"/proc/{name.split('.')[1]}"):
            shutil.rmtree(f"{tempfile.gettempdir()}/{name}", ignore_errors=True)


def stopped(number, _frame):
    listen(signal.SIG_IGN)
    raise Stopped(number)


def listen(handler):
    for number in (signal.SIGINT, signal.SIGTERM, signal.SIGHUP):
        signal.signal(number, handler)


def run(tests):
    """Runs these tests, and returns the status."""
    kit = programs.Kit()
    if not kit.is_there:
        stop(NOTHING_BUILT, "nothing can be built: rt isn't on the PATH")
    listen(stopped)
    # (a test that fails aborts)
    resource.setrlimit(resource.RLIMIT_CORE, (0, 0))
    try:
        with kept_alone(), room() as made:
            it = Run(tests, kit, made)
            status = it.go()
            return NOTHING_BUILT if it.is_nothing_built else status
    except Stopped as number:
        say("interrupted")
        return 128 + number.args[0]
    except OSError as error:
        stop(NOTHING_BUILT, f"not everything could be built: {error}")


def main(words):
    tests = parts.everything()
    if words == ["--list"]:
        print("\n".join(test.name for test in tests))
        return 0
    tests = selected(words, tests)
    if not tests:
        stop(BAD_ARGUMENT, f"no test has {' or '.join(words)} in its name; ./test --list prints all names")
    return run(tests)


sys.exit(main(sys.argv[1:]))

"""Runs other programs, each in a session of its own, so that all that it starts can be ended."""
import os
import signal
import subprocess
import threading
import time
from dataclasses import dataclass

from crates import TOP

_running = set()
_lock = threading.Lock()
_broken_off = threading.Event()


@dataclass
class Ended:
    """How a program ended: its status (a signal's is negative), what it wrote on both streams, and the seconds it took."""

    status: int
    out: bytes
    said: str
    seconds: float
    is_late: bool = False


class BrokenOff(Exception):
    """The whole run is being ended."""


def run(words, folder=TOP, given=b"", seconds=None, **environment):
    begun = time.monotonic()
    with _lock:
        if _broken_off.is_set():
            raise BrokenOff
        process = subprocess.Popen(
            words, cwd=folder, env={**os.environ, **environment}, start_new_session=True,
            stdin=subprocess.PIPE, stdout=subprocess.PIPE, stderr=subprocess.PIPE,
        )
        _running.add(process)
    is_late = False
    try:
        out, said = process.communicate(given, seconds)
    except subprocess.TimeoutExpired:
        is_late = True
        end_sessions({process.pid})
        out, said = process.communicate()
    except BaseException:
        end_sessions({process.pid})
        raise
    finally:
        with _lock:
            _running.discard(process)
    if _broken_off.is_set():
        raise BrokenOff
    return Ended(process.returncode, out, said.decode(errors="replace"), time.monotonic() - begun, is_late)


def end_all():
    """Ends all that is running, and whatever would be started from now on."""
    with _lock:
        _broken_off.set()
        leaders = {process.pid for process in _running}
    end_sessions(leaders)


def end_sessions(leaders):
    """Ends the programs of these sessions, which have three seconds to do so."""
    for number, seconds in ((signal.SIGTERM, 3), (signal.SIGKILL, 1)):
        until = time.monotonic() + seconds
        for process in members(leaders):
            send(process, number)
        while members(leaders) and time.monotonic() < until:
            time.sleep(0.05)


def send(process, number):
    try:
        os.kill(process, number)
    except ProcessLookupError:
        pass


def members(leaders):
    """The programs of these sessions that haven't ended."""
    return [int(name) for name in os.listdir("/proc") if name.isdigit() and session_of(name) in leaders]


def session_of(process):
    try:
        with open(f"/proc/{process}/stat", encoding="utf-8", errors="replace") as it:
            state, _, _, session = it.read().rpartition(")")[2].split()[:4]
    except OSError:
        return None
    return None if state == "Z" else int(session)

"""The result of each test, and its report: progress on standard error, failures and the count on standard output."""
import sys
import threading
import time
from dataclasses import dataclass

from crates import Test


@dataclass
class Result:
    """The result of a test: `passed`, `failed` or `skipped`; the text of its report, and its seconds."""

    test: Test
    how: str
    told: str = ""
    place: str = ""
    more: str = ""
    seconds: float = 0


class Board:
    """Keeps the results of all tests, and reports them as they come."""

    def __init__(self, tests):
        self.begun = time.monotonic()
        self.results = []
        self.left = {}
        self.of = 0
        self.said = set()
        self.lock = threading.RLock()
        for test in tests:
            self.expect(test)

    def expect(self, test):
        self.left[test.part] = self.left.get(test.part, 0) + 1
        self.of += 1

    def say(self, text):
        with self.lock:
            print(f"test: {time.monotonic() - self.begun:.0f} s: {text}", file=sys.stderr, flush=True)

    def add(self, *results, told=None):
        """Adds results, and reports those that aren't passes, one by one or all by one text."""
        with self.lock:
            self.results += results
            for text in [told] if told else [block(it) for it in results if it.how != "passed"]:
                print(text, flush=True)
            for part in [it.test.part for it in results]:
                self.left[part] -= 1
                if not self.left[part]:
                    self.tell(part)

    def add_unbuilt(self, name, tests, said):
        """Adds the tests of a program that couldn't be built as failed, and prints the build's output once."""
        lines = [f"FAILED {len(tests)} tests, since this couldn't be built: {name}", *said.rstrip("\n").split("\n")]
        if said in self.said:
            lines[1:] = ["(as above)"]
        self.said.add(said)
        self.add(*[Result(test, "failed") for test in tests], told="\n    ".join(lines))

    def tell(self, part):
        """Reports a part that is done."""
        mine = [it for it in self.results if it.test.part == part]
        self.say(f"{part}: {counted(mine)} ({len(self.results)} of {self.of} tests so far)")

    def end(self):
        """Prints the count, and returns the status."""
        print("This proves nothing: ./prove proves the program that paints, and rt ci the whole repository.")
        print(counted(self.results, always=("passed", "failed")), flush=True)
        return 1 if any(it.how == "failed" for it in self.results) else 0


def counted(results, always=()):
    """How many passed, failed and were skipped, without zeros, except those that are always printed."""
    counts = {how: sum(it.how == how for it in results) for how in ("passed", "failed", "skipped")}
    return ", ".join(f"{count} {how}" for how, count in counts.items() if count or how in always)


def block(result):
    """A result that isn't a pass, in several lines."""
    lines = [f"{result.how.upper()} {result.test.name}"]
    if result.how == "skipped":
        return f"{lines[0]}: {result.told}"
    lines.append(f"at {result.place or result.test.place}")
    lines += result.told.rstrip("\n").split("\n")
    lines += [result.more] if result.more else []
    lines.append(f"alone: ./test {result.test.name}")
    return "\n    ".join(lines)

"""The crates of the repository, by crates.txt, and the tests that their sources have."""
import functools
import hashlib
import os
import re
from dataclasses import dataclass

TOP = os.path.dirname(os.path.dirname(os.path.dirname(os.path.abspath(__file__))))
TEST = re.compile(r"^\s*#\[test\][^{]*?\bfn (\w+)", re.M)


@dataclass(frozen=True)
class Test:
    """A test by its name, as `pixel_tests::masks::chords`, with the part that it belongs to and its place."""

    name: str
    part: str
    place: str

    @property
    def name_in_crate(self):
        return self.name.partition("::")[2]


def text_of(path):
    with open(path, encoding="utf-8") as it:
        return it.read()


@functools.lru_cache(None)
def lines():
    """The lines of crates.txt, by the crate's name."""
    found = [line for line in text_of(f"{TOP}/crates.txt").split("\n") if ":" in line and not line.startswith("#")]
    return {re.match(r"\w+", line)[0]: line for line in found}


def named_by(crate):
    """What a crate's line names: crates of the repository, and of the kit."""
    return lines()[crate].partition(":")[2].split()


@functools.lru_cache(None)
def with_below(crate):
    """A crate, and all those of the repository that it stands on."""
    found = {crate}
    for name in named_by(crate):
        if name in lines():
            found |= with_below(name)
    return frozenset(found)


def sources(crate):
    """The files of a crate's src, by their paths from the top."""
    found = []
    for folder, _, names in os.walk(f"{TOP}/crates/{crate}/src"):
        found += [os.path.relpath(f"{folder}/{name}", TOP) for name in names]
    return sorted(found)


@functools.lru_cache(None)
def sum_of(crate):
    """A sum of a crate's code, and of its line."""
    told = hashlib.sha256(lines()[crate].encode())
    for path in sources(crate):
        with open(f"{TOP}/{path}", "rb") as it:
            told.update(f"\n{path}\n".encode() + it.read())
    return told.hexdigest()


def weight(crate):
    """How much a program of this crate has to read: bytes of code."""
    return sum(os.path.getsize(f"{TOP}/{path}") for name in with_below(crate) for path in sources(name))


def module_of(path):
    """The module that a file of a src has, as `masks::`, and nothing for the root."""
    inside = path.partition("/src/")[2][: -len(".rt")]
    return "" if inside in ("lib", "main") else inside.replace("/", "::") + "::"


@functools.lru_cache(None)
def tests_of(crate):
    found = []
    for path in sources(crate):
        text = text_of(f"{TOP}/{path}")
        for it in TEST.finditer(text):
            line = text.count("\n", 0, it.end()) + 1
            found.append(Test(f"{crate}::{module_of(path)}{it[1]}", crate, f"{path}:{line}"))
    return found


def crates_of_tests():
    """The crates that have tests, the one that reads least first."""
    return sorted((crate for crate in lines() if tests_of(crate)), key=weight)


def programs():
    """The crates of programs, which have a main."""
    return [crate for crate in lines() if os.path.isfile(f"{TOP}/crates/{crate}/src/main.rt")]

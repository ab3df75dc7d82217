"""Builds the programs of tests, natively and without proofs, and keeps them in out/tests by the sums of their code."""
import hashlib
import json
import os
import re
import shutil
from dataclasses import dataclass

import crates
import joined
import processes
from crates import TOP, text_of

KEPT = f"{TOP}/out/tests"
# What decides how a program is built, beside the code of its crates.
TOOLS = [f"tools/{name}" for name in ("building.sh", "unproved", "testing/joined.py")]
# Of what was tried, a program that is compiled so is built and run soonest.
FOR_TESTS = ["-mllvm", "-inline-threshold=0"]
# (those that paint one small picture)
FOR_MAINS = ["-O0"]


@dataclass(frozen=True)
class Program:
    """A program of the tests of these crates; or, where it has no tests, of the one crate of a program."""

    name: str
    crates: tuple
    is_of_tests: bool = True

    @property
    def path(self):
        return f"{KEPT}/{self.name}"

    @property
    def is_joined(self):
        return len(self.crates) > 1

    @property
    def options(self):
        """The words for tools/unproved."""
        return ["test", *FOR_TESTS] if self.is_of_tests else FOR_MAINS

    @property
    def label(self):
        return f"the tests of {', '.join(self.crates)}" if self.is_of_tests else self.name

    def below(self):
        return sorted(set().union(*map(crates.with_below, self.crates)))


@dataclass
class Built:
    """How a build ended: with the status of tools/unproved, what it said, and the seconds it took, none where the program was
    there."""

    status: int = 0
    said: str = ""
    seconds: float = 0

    @property
    def is_done(self):
        return self.status == 0

    @property
    def is_slow_kit(self):
        """Whether only `rt try` runs the program."""
        return self.status == 2


class Kit:
    """The toolchain, as far as the programs depend on it."""

    def __init__(self):
        asks = '. "$1/tools/building.sh"; kit && processor'
        answer = processes.run(["sh", "-c", asks, "test", TOP]).out.decode().splitlines()
        self.folder, self.processor = answer if len(answer) == 2 else (None, None)

    @property
    def is_there(self):
        return self.folder is not None

    def key(self):
        version = f"{self.folder}/KIT-ID"
        return [self.folder, self.processor, text_of(version) if os.path.isfile(version) else ""]


def groups():
    """The programs in which all crates of tests are built: reading takes most of the time, and each program is read whole. So
    it is one, but for the crate of tests that reads most: read beside the others it ends as soon as they do."""
    *lower, last = crates.crates_of_tests()
    others = [Program("joined_tests" if len(lower) > 1 else lower[0], tuple(lower))] if lower else []
    return [*others, alone(last)]


def alone(crate):
    return Program(crate, (crate,))


def of_main(crate):
    return Program(crate, (crate,), is_of_tests=False)


def key_of(program, kit):
    """What a program was built of: where the same stands here, it needn't be built again."""
    tools = {path: hashlib.sha256(text_of(f"{TOP}/{path}").encode()).hexdigest() for path in TOOLS}
    tools["options"] = program.options
    return {"kit": kit.key(), "tools": tools, "crates": {name: crates.sum_of(name) for name in program.below()}}


def key_kept(program):
    """The key that the program which stands there was built of."""
    try:
        return json.loads(text_of(f"{program.path}.of")) if os.access(program.path, os.X_OK) else {}
    except (OSError, ValueError):
        return {}


def is_kept(program, kit):
    """Whether a program stands there that was built in this way, of whatever code."""
    kept, now = key_kept(program), key_of(program, kit)
    return all(kept.get(part) == now[part] for part in ("kit", "tools"))


def stale(program, kit):
    """Those of a program's crates whose code, with all below, isn't what the program that stands there was built of."""
    if not is_kept(program, kit):
        return set(program.crates)
    kept, now = key_kept(program)["crates"], key_of(program, kit)["crates"]
    changed = {name for name in now if now[name] != kept.get(name)}
    return {crate for crate in program.crates if crates.with_below(crate) & changed}


def build(program, kit, room):
    """Builds a program in a room, a folder outside the checkout."""
    before = key_of(program, kit)
    os.makedirs(f"{room}/work")
    tree = f"{room}/tree" if program.is_joined else TOP
    if program.is_joined:
        joined.write_tree(tree, program.name, program.crates)
    words = [f"{TOP}/tools/unproved", "program", f"{tree}/crates/{program.name}", f"{room}/work", *program.options]
    ended = processes.run(words)
    said = ended.said + text_of(f"{room}/work/said")
    if ended.status == 0:
        crates.sum_of.cache_clear()
        keep(program, f"{room}/work/program", before if before == key_of(program, kit) else {})
    shutil.rmtree(room)
    return Built(ended.status, in_repository(said, program, tree), ended.seconds)


def keep(program, made, key):
    """(A key that nothing has is that of sources that were changed meanwhile: the next call builds it again.)"""
    if os.path.exists(f"{program.path}.of"):
        os.remove(f"{program.path}.of")
    shutil.move(made, program.path)
    with open(f"{program.path}.of", "w", encoding="utf-8") as it:
        json.dump(key, it)


def in_repository(text, program, tree=TOP):
    """A text with the places of the repository in place of those that the program was built from."""
    text = text.replace(f"{tree}/", "").replace(f"{TOP}/", "")
    if program.is_joined:
        return joined.in_repository(text.replace(f"crates/{program.name}/src/", "src/"))
    return re.sub(r"(?<![\w/])src/(?=[\w/]+\.rt\b)", f"crates/{program.name}/src/", text)

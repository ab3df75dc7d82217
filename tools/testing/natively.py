"""Runs the tests of a crate: natively, each in a process of its own, or by `rt try` where the kit knows no quicker way."""
import re
import signal

import crates
import processes
import programs
from crates import TOP, Test
from results import Result

# A test that takes longer hangs: the longest take some ten seconds, and a minute beside other work.
SECONDS = 300
CHECKS = "a run-time check stopped it (an overflow, a wrong index, a failed unwrap, a cast that loses bits ..)"


def result(test, program):
    """Runs one test of a program."""
    name = test.name if program.is_joined else test.name_in_crate
    ended = processes.run([program.path, name], seconds=SECONDS)
    if ended.status == 0:
        return Result(test, "passed", seconds=ended.seconds)
    told = programs.in_repository(ended.said + ended.out.decode(errors="replace"), program)
    stopped = re.search(r"^test stopped at (.*)\n?", told, re.M)
    told = told.replace(stopped[0], "") if stopped else told
    return Result(test, "failed", told + how_it_ended(ended), stopped[1] if stopped else "", more(test, ended), ended.seconds)


def unlisted(program, mine):
    """The tests of these crates in a program that aren't found in the text of its crates, so that none is left out in silence."""
    names = re.findall(r"^(\S+): test$", processes.run([program.path, "--list"]).out.decode(), re.M)
    names = names if program.is_joined else [f"{program.name}::{name}" for name in names]
    known = {test.name for crate in mine for test in crates.tests_of(crate)}
    found = [Test(name, name.partition("::")[0], f"crates/{name.partition('::')[0]}") for name in names if name not in known]
    return [test for test in found if test.part in mine]


def how_it_ended(ended):
    if ended.is_late:
        return f"still running after {SECONDS} seconds"
    if ended.status == -signal.SIGILL:
        return CHECKS
    if ended.status == -signal.SIGABRT:
        return ""
    return f"killed by signal {-ended.status}" if ended.status < 0 else f"status {ended.status}"


def more(test, ended):
    """The command that says more of a fault than the native program does."""
    return f"more: {command(test)}" if ended.status < 0 and ended.status != -signal.SIGABRT else ""


def command(test):
    return f"(cd crates/{test.part} && rt try --test -- {test.name_in_crate}), which takes a minute or two"


def by_rt(crate, tests):
    """Runs these tests of a crate by `rt try`, which builds them for this call alone: what it says, and results where it built
    any."""
    ended = processes.run(["rt", "try", "--test"], folder=f"{TOP}/crates/{crate}", RT_SECONDS="600")
    told = programs.in_repository(ended.said + ended.out.decode(errors="replace"), programs.alone(crate))
    found = {it[1]: it for it in re.finditer(r"^test (\S+) \.\.\. (\w+)\n((?: .*\n)*)", told, re.M)}
    return told, [result_in(found.get(test.name_in_crate), test) for test in tests] if found else []


def result_in(line, test):
    """The result that a line of `rt try` and those after it tell."""
    if line and line[2] == "ok":
        return Result(test, "passed")
    return Result(test, "failed", line[3] if line else "rt try didn't run it", more=f"more: {command(test)}")

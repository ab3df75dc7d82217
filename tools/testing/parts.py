"""The tests that are none of a crate: programs with what they are to write, scripts of tools/, hosts and bindings of the C
library, its installation, refused growths."""
import os
import shutil

import crates
import processes
from crates import TOP, Test
from programs import Built
from results import Result

# How many random scripts the hosts paint, and when a script is too late.
SCRIPTS = "5"
SECONDS = 900
# The command that nothing has proved, which ./strokes builds.
COMMAND = f"{TOP}/out/unproved/strokes"
# The hosts, with their compilers.
COMPILERS = {"paint": "cc", "paint_cpp": "c++", "paint_rs": "rustc", "paint_py": "cc"}
# The tests in which growths of memory are refused, each with a number: of so many growths one is.
REFUSING = {
    "settled_desk": ("desk_tests::scripts::a_settled_desk_has_the_pixmaps_of_its_script", "10"),
    "two_artists": ("crew_tests::together::artists_lose_no_command", "1"),
}
# The languages of the bindings, with what each needs.
LANGUAGES = {"cpp": ["c++"], "rust": ["cargo", "rustc"], "python": []}


def other(part, name, place):
    return Test(f"{part}::{name}", part, place)


def scripts():
    return [other("tools", name, f"tools/{name}") for name in ("launcher-test", "docs-check", "header-check")]


def pages():
    """What the pages show: scripts and errors of the language, and programs in C; each with what has to be built for it."""
    return {other("pages", "language-check", "tools/language-check"): {"strokes"}, other("pages", "snippets-check", "tools/snippets-check"): {"hosts"}}


def embed():
    """Single calls of the C library, the bindings, and the installed library; each with what has to be built for it."""
    bindings = {other("embed", language, "tools/bindings-test"): {"hosts"} for language in LANGUAGES}
    return {
        other("embed", "answers", "tools/embed-test"): {"hosts"},
        other("embed", "install", "tools/install-test"): {"hosts", "strokes"},
        **bindings,
    }


def needs_builds():
    """The scripts that are run once something is built, with what that is."""
    return {**pages(), **embed()}


def of_main(crate):
    return other("programs", crate, f"crates/{crate}/src/main.rt")


def of_programs():
    return [of_main(crate) for crate in sorted(crates.programs(), key=crates.weight, reverse=True)]


def hosts():
    return [other("hosts", name, f"examples/embed/{name.replace('_py', '.py')}") for name in COMPILERS]


def refusing():
    return [other("memory", name, "tools/fail-alloc.sh") for name in REFUSING]


def crate_refused(test):
    """The crate of the test in which this one refuses growths."""
    return REFUSING[test.name_in_crate][0].partition("::")[0]


def everything():
    of_crates = [test for crate in crates.crates_of_tests() for test in crates.tests_of(crate)]
    return [*of_crates, *of_programs(), *scripts(), *needs_builds(), *hosts(), *refusing()]


def missing(test):
    """What a test needs that isn't there, if so."""
    of_library = test.part == "hosts" or "hosts" in needs_builds().get(test, ())
    needs = ["cc", "ar", "ld", "objcopy"] if of_library else ["cc"] if test.part == "memory" else []
    if test.part == "hosts":
        needs = [*needs, COMPILERS[test.name_in_crate]]
    if test.part == "embed":
        needs = [*needs, *LANGUAGES.get(test.name_in_crate, ["pkg-config"])]
    words = {"cc": os.environ.get("CC"), "c++": os.environ.get("CXX")}
    words = [words.get(it) or it for it in needs]
    gone = [it for it in words if not shutil.which(it.split()[0])]
    return f"{gone[0]} isn't installed" if gone else None


def result_of(test, ended, told=None, **more):
    """The result of a test that is a program's whole run."""
    how = "passed" if ended.status == 0 and not told else "failed"
    late = f"still running after {ended.seconds:.0f} seconds\n" if ended.is_late else ""
    told = late + (told or f"status {ended.status}\n{ended.out.decode(errors='replace')}{ended.said}")
    return Result(test, how, "" if how == "passed" else told.replace(f"{TOP}/", ""), seconds=ended.seconds, **more)


def of_script(test):
    """Runs a script, or the part of it that has the test's name."""
    words = [test.name_in_crate] if test.name_in_crate in (*LANGUAGES, "answers") else []
    return result_of(test, processes.run([f"{TOP}/{test.place}", *words], seconds=SECONDS, PROGRAM=COMMAND))


def bytes_of(path, missing=b""):
    if not os.path.isfile(path):
        return missing
    with open(path, "rb") as it:
        return it.read()


def of_program(test, words, **how):
    """Whether a program writes for the crate's stdin what its stdout has, and ends with its status."""
    folder = f"{TOP}/crates/{test.name_in_crate}"
    ended = processes.run(words, given=bytes_of(f"{folder}/stdin"), **how)
    want = bytes_of(f"{folder}/stdout")
    status = int(bytes_of(f"{folder}/status", b"0"))
    if ended.status == status and ended.out == want:
        return Result(test, "passed", seconds=ended.seconds)
    told = f"status {ended.status}, expected {status}; wrote {shown(ended.out)}\nexpected {shown(want)}\n{ended.said}"
    return result_of(test, ended, told, place=f"crates/{test.name_in_crate}/stdout")


def shown(text):
    return repr(text if len(text) <= 200 else text[:200] + b"..")[1:]


def built_hosts():
    """Builds the C library, unless it is there, and the hosts."""
    ended = processes.run([f"{TOP}/examples/embed/build.sh"])
    return Built(min(ended.status, 1), ended.said, ended.seconds)


def of_hosts(tests):
    """Compares what the hosts paint with what the command does, and tells which of them painted something else."""
    words = [f"{TOP}/examples/embed/compare.sh", SCRIPTS]
    ended = processes.run(words, seconds=SECONDS, PROGRAM=COMMAND)
    odd = {}
    for it in ended.out.decode(errors="replace").split("ODD ")[1:]:
        odd[host_of(it)] = odd.get(host_of(it), "") + f"ODD {it}"
    if ended.status != 0 and not odd:
        return [result_of(test, ended) for test in tests]
    return [result_of(test, ended, odd[name]) if (name := test.name_in_crate) in odd else Result(test, "passed") for test in tests]


def host_of(told):
    """The host of which a line of compare.sh tells."""
    words = told.split(": code")[0]
    return next((name for name in ("paint_cpp", "paint_rs") if f"/{name} " in words), "paint_py" if "paint.py" in words else "paint")


def words_refusing(test):
    return [f"{TOP}/{test.place}", "test", *REFUSING[test.name_in_crate]]


def of_refusing(test, program):
    """Refuses growths of memory in a test of a program, each in a run of its own."""
    return result_of(test, processes.run(words_refusing(test), seconds=SECONDS, TESTS=program.path))

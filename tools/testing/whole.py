"""One run: what has to be built for the tests, and in which order all is done."""
import json
import os
from concurrent.futures import FIRST_COMPLETED, ThreadPoolExecutor, wait

import crates
import natively
import parts
import processes
import programs
from crates import TOP, text_of
from programs import Built
from results import Board, Result

TIMES = f"{programs.KEPT}/times"
MEMORY_OF_A_BUILD = 2 * 1024**3
# How often the programs that are being built are reported, in seconds.
WORD_EACH = 20


def processors():
    return len(os.sched_getaffinity(0))


def builds_at_once():
    """As many as there are processors, and room in memory."""
    lines = text_of("/proc/meminfo").splitlines()
    free = next((int(line.split()[1]) * 1024 for line in lines if line.startswith("MemAvailable")), MEMORY_OF_A_BUILD)
    return max(1, min(processors(), free // MEMORY_OF_A_BUILD))


def times_of_last_run():
    try:
        return json.loads(text_of(TIMES))
    except (OSError, ValueError):
        return {}


class Run:
    """What is to be tested, what was built for it so far, and what came of it."""

    def __init__(self, tests, kit, room):
        self.skipped = {test: parts.missing(test) for test in tests if parts.missing(test)}
        self.tests = [test for test in tests if test not in self.skipped]
        self.kit = kit
        self.room = room
        self.board = Board(tests)
        self.chosen = dict(self.choose())
        self.early = self.soonest()
        self.early_tests = self.of_parts(self.early.name) if self.early else []
        self.built = {}
        self.at_work = set()

    def of_parts(self, *names):
        return [test for test in self.tests if test.part in names]

    # First everything is built, beside the tests that need no building; then the others are run, since threads that wait for
    # one another are slow beside builds.
    def go(self):
        self.board.say(f"{len(self.tests)} tests, on unproved programs")
        self.board.add(*[Result(test, "skipped", why) for test, why in self.skipped.items()])
        with ThreadPoolExecutor(builds_at_once()) as builders, ThreadPoolExecutor(processors()) as runners:
            try:
                light = [runners.submit(self.run_script, test) for test in self.of_parts("tools")]
                self.wait_for([builders.submit(*it) for it in self.builds()])
                self.wait_for(light + [runners.submit(*it) for it in self.runs()])
            except BaseException:
                processes.end_all()
                raise
        self.keep_times()
        done = {it.test for it in self.board.results}
        self.board.add(*[Result(test, "failed", "it wasn't run") for test in self.tests if test not in done])
        return self.board.end()

    def wait_for(self, left):
        while left:
            done, left = wait(left, WORD_EACH, FIRST_COMPLETED)
            for it in done:
                it.result()
            if not done and self.at_work:
                self.board.say(f"building: {', '.join(sorted(self.at_work))}")

    @property
    def is_nothing_built(self):
        return bool(self.built) and not any(it.is_done or it.is_slow_kit for it in self.built.values())

    def builds(self):
        """What is to be built, the longest first, each as a function and its arguments. (Where there is room for all at
        once, the order is of no matter.)"""
        if self.early:
            yield self.run_early, self.early
        for program in self.chosen:
            yield self.build_tests, program
        mains = self.of_parts("programs")
        needed = set().union(*(parts.needs_builds()[test] for test in self.of_parts("pages", "embed")))
        if parts.of_main("strokes") in mains or self.of_parts("hosts") or "strokes" in needed:
            yield self.build_strokes,
        if self.of_parts("hosts") or "hosts" in needed:
            yield self.build_hosts,
        for test in mains:
            if test != parts.of_main("strokes"):
                yield self.build_and_run, test

    def runs(self):
        """What is to be run once all is built, the longest first."""
        if self.of_parts("hosts") and self.built["hosts"].is_done:
            yield self.run_hosts,
        for test in self.of_parts("memory"):
            yield self.run_refusing, test
        for test in self.of_parts("embed", "pages"):
            yield self.run_after_builds, test
        for program, mine in self.chosen.items():
            if self.built[program.name].is_done:
                self.expect(natively.unlisted(program, mine))
        times = times_of_last_run()
        for test in sorted(self.tests, key=lambda it: -times.get(it.name, 0)):
            program = self.program_of(test.part)
            if program and self.built[program.name].is_done and test not in self.early_tests:
                yield self.run_test, test, program
        for program, mine in self.chosen.items():
            for crate in mine if self.built[program.name].is_slow_kit else []:
                yield self.run_by_rt, crate

    def build(self, name, label, making):
        """Builds the program of this name by this function, and reports it."""
        self.at_work.add(label)
        built = making()
        self.at_work.discard(label)
        self.built[name] = built
        if built.seconds:
            self.board.say(f"{'built' if built.is_done else 'NOT built'} in {built.seconds:.0f} s: {label}")
        return built

    def build_program(self, program):
        """Builds a program, unless what stands there is of the code that it is to run."""
        if not programs.stale(program, self.kit) & self.chosen.get(program, set(program.crates)):
            self.built[program.name] = Built()
            return Built()
        room = f"{self.room}/{program.name}"
        return self.build(program.name, program.label, lambda: programs.build(program, self.kit, room))

    # Tests of crates.

    def choose(self):
        """The programs of tests that are wanted, each with the crates whose tests it is to run. A crate that was changed, or
        is wanted, alone of those in one program gets one of its own; for the others what was built before still does."""
        wanted = {test.part for test in self.tests}
        wanted |= {parts.crate_refused(test) for test in self.of_parts("memory")}
        for group in programs.groups():
            mine = wanted & set(group.crates)
            stale = programs.stale(group, self.kit) & mine
            has_own = {crate for crate in stale if not programs.stale(programs.alone(crate), self.kit)}
            own = has_own if len(stale - has_own) != 1 else stale
            for crate in sorted(own) if group.is_joined else []:
                yield programs.alone(crate), {crate}
                mine.remove(crate)
            if mine:
                yield group, mine

    def soonest(self):
        """The program that is built beside the others and run first: after a change, that of the lowest crate of tests above
        it, where others would be built with it. (A library's own tests come with the others.)"""
        for program, mine in self.chosen.items():
            if program.is_joined and programs.is_kept(program, self.kit):
                stale = programs.stale(program, self.kit) & mine
                lowest = [crate for crate in program.crates if crate in stale and crate.endswith("_tests") and self.of_parts(crate)]
                return programs.alone(lowest[0]) if lowest else None
        return None

    def program_of(self, crate):
        return next((program for program, mine in self.chosen.items() if crate in mine), None)

    def expect(self, unlisted):
        """Adds tests that --list doesn't print, if all tests of their crate are wanted."""
        for test in unlisted:
            if set(crates.tests_of(test.part)) <= set(self.tests):
                self.tests.append(test)
                self.board.expect(test)

    def run_early(self, program):
        built = self.build_program(program)
        if built.is_done:
            for test in self.early_tests:
                self.run_test(test, program)
        elif not built.is_slow_kit:
            self.board.add_unbuilt(program.label, self.early_tests, built.said)

    def build_tests(self, program):
        built = self.build_program(program)
        if not built.is_done and not built.is_slow_kit:
            tests = [test for test in self.of_parts(*self.chosen[program]) if test not in self.early_tests]
            self.board.add_unbuilt(program.label, tests, built.said)

    def run_test(self, test, program):
        self.board.add(natively.result(test, program))

    def run_by_rt(self, crate):
        self.board.say(f"this toolchain can't build tests quickly, so rt try runs {crate}, slowly")
        tests = self.of_parts(crate)
        told, results = natively.by_rt(crate, tests)
        if results:
            self.board.add(*results)
        else:
            self.board.add_unbuilt(f"the tests of {crate}", tests, told)

    # The other parts.

    def run_script(self, test):
        self.board.add(parts.of_script(test))

    def build_strokes(self):
        """Has ./strokes build the program, and paint the crate's script."""
        test = parts.of_main("strokes")
        results = []

        def paint():
            results.append(parts.of_program(test, [f"{TOP}/strokes"], STROKES="unproved"))
            return Built(0 if results[0].how == "passed" else 1, results[0].told, results[0].seconds)

        self.build("strokes", "strokes", paint)
        self.board.add(*[it for it in results if test in self.tests])

    def build_and_run(self, test):
        program = programs.of_main(test.name_in_crate)
        built = self.build_program(program)
        if built.is_done:
            self.board.add(parts.of_program(test, [program.path], seconds=parts.SECONDS))
        elif built.is_slow_kit:
            self.board.add(parts.of_program(test, ["rt", "try"], folder=f"{TOP}/crates/{program.name}"))
        else:
            self.board.add_unbuilt(program.label, [test], built.said)

    def build_hosts(self):
        built = self.build("hosts", "the C library and its hosts", parts.built_hosts)
        if not built.is_done:
            self.board.add_unbuilt("the C library and its hosts", self.of_parts("hosts"), built.said)

    def run_hosts(self):
        tests = self.of_parts("hosts")
        if self.built["strokes"].is_done:
            self.board.add(*parts.of_hosts(tests))
        else:
            self.board.add_unbuilt("strokes", tests, "there is no right ./strokes to compare them with")

    def run_after_builds(self, test):
        missing = [name for name in sorted(parts.needs_builds()[test]) if not self.built[name].is_done]
        if missing:
            self.board.add_unbuilt(missing[0], [test], "")
        else:
            self.board.add(parts.of_script(test))

    def run_refusing(self, test):
        program = self.program_of(parts.crate_refused(test))
        if self.built[program.name].is_done:
            self.board.add(parts.of_refusing(test, program))
        else:
            self.board.add_unbuilt(program.label, [test], "")

    def keep_times(self):
        times = {**times_of_last_run(), **{it.test.name: it.seconds for it in self.board.results if it.seconds}}
        with open(TIMES, "w", encoding="utf-8") as it:
            json.dump(times, it)

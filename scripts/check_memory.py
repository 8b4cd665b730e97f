#!/usr/bin/env python3
"""Refuses each allocation of tests and of runs of the program, one at a time. Prints what each refusal did that did harm, for each call that
asks for memory what it answered, how many allocations were refused, and at last 'N passed, M failed'.

usage: NCROUTE=PATH scripts/check_memory.py [NAME..]
       (NAMEs: `calls` for the tests of tests/calls/ that are swept, `runs` for runs of the program; without them both)
       TEST_CALLS=PATH   where the tests are, or are to be built without proofs if they are not there

Swept are the tests of the modules `memory` and `memory_routers`, and those of the lock.

A test that meets a refused allocation ends with the error that it was handed (at once, by `some` or `done` of its module `asserts`, or after it made
the refused call again; then it also says what the call answered). A test that passes all the same did without the memory.
Anything else is a fault: a wrong answer (a failed assertion, or an expectation, which is told without `error: `), a bad access, a test that does not
end within five minutes.

Tests and program run under a small library that is loaded before the C library and refuses one allocation: all of them are tried in a minute.
`rt try --test --fail-alloc` takes one number a run, and a run takes half a minute.

A run of the program that meets one ends with status 1 and the code of what was refused, and has written the first lines of its whole answer,
each whole; or it did without, and ended as ever. `net` meets a refusal also where its threads have ended and it replays what came of them.
"""
import collections
import concurrent.futures
import itertools
import os
import re
import resource
import signal
import subprocess
import sys
import tempfile

from lib.calls import NotBuilt, built, listed
from lib.counts import Counts, NotRun
from lib.processes import preloaded
from lib.program import TOP, named

AT_ONCE = max(2, os.cpu_count() or 1)
# Seconds: each test and each run ends sooner, on any machine.
LONGEST = 300
# The modules whose tests are swept.
MODULES = ("memory", "memory_routers", "lock")

# The calls that these tests make and that answer refused memory. `close` is made too, and asks for none.
CALLS = """build read_code write_code parse check compile compile_mapped verify compile_text read_file read_hexadecimal verify_code Tables::open
Tables::restore Tables::apply Journal::open Journal::apply replay answer_lines run_script run_saved_script Router::open try_call call
run_sessions""".split()

# How a program ends that was refused memory: in any call of most commands, and in `net` also in those of a lock, a session or a channel.
# Each of these ends has to come about.
MEMORY = {b"ncroute: E3\n"}
MEMORY_OF_NETWORK = {b"ncroute: %s\n" % code for code in (b"E3", b"J2", b"L3", b"X1", b"X2")}

# How often a run is swept at most, until each of its ends has come about.
SWEEPS = 5

# How often `net` asks for memory at least, once its threads have ended: 48 to 55 times were seen, 16 and more for the replay of each of its three
# histories.
LEAST_OF_REPLAYS = 45


class Sweep:
    """Runs commands without their Nth allocation, by a small library that is loaded before the C library."""

    def __init__(self, folder):
        self.folder, self.marks, self.refusing = folder, itertools.count(), preloaded("fail_nth_allocation.c", folder)

    def without(self, nth, words, given=b"", **more):
        """How the command ends without its Nth allocation: status, output and errors; `None` where it asks less often. It is not waited for
        without end."""
        mark = os.path.join(self.folder, f"refused.{next(self.marks)}")
        told = {**os.environ, "NTH_ALLOCATION": str(nth), "REFUSED_FILE": mark, **self.refusing, **more}
        try:
            ran = subprocess.run(words, input=given, capture_output=True, env=told, timeout=LONGEST)
            ended = ran.returncode, ran.stdout, ran.stderr
        except subprocess.TimeoutExpired:
            ended = None, b"", b"it did not end within five minutes"
        if not os.path.exists(mark):
            return None
        os.remove(mark)
        return ended

    def all(self, pool, words, given=b""):
        """All ends of a command, each with the number of the allocation that was refused, until one asks less often."""
        first = 1
        while True:
            block = range(first, first + 4 * AT_ONCE)
            for nth, ended in zip(block, pool.map(lambda nth: self.without(nth, words, given), block)):
                if ended is None:
                    return
                yield nth, ended
            first = block.stop


def is_refusal(status, errors):
    """Whether a test ended with the error that it was handed, or that a call in it answered."""
    return status == -signal.SIGABRT and re.search(rb"(?m)^error: ", errors)


def sweep_tests(sweep, pool, counts):
    """Sweeps each test of the modules, and then says how often each of the calls was refused memory and what it answered. Each has to be."""
    tests, answers = built("test_calls", sweep.folder), collections.defaultdict(collections.Counter)
    all_refused = without = 0
    for name in listed(tests):
        if name.split("::")[-2] not in MODULES:
            continue
        faults = []
        for nth, (status, output, errors) in sweep.all(pool, [tests, name]):
            told = output + errors
            all_refused += 1
            if status == 0:
                without += 1
            elif is_refusal(status, told):
                for call, answer in re.findall(r"(?m)^error: (\S+) answered (.+)$", told.decode(errors="replace")):
                    answers[call][answer] += 1
            else:
                faults.append(f"without allocation {nth}: status {status}\n{told.decode(errors='replace')}")
        counts.judge(name, "\n".join(faults))
    print(f"tests: {all_refused} allocations refused, {without} of them in tests that did without")
    for call in CALLS:
        told = ", ".join(f"{answer} ({times})" for answer, times in sorted(answers[call].items()))
        print(f"{call}: {told}")
        counts.judge(call, not told and "was never refused memory")


def runs_of(ncroute):
    """The runs of the program: its words and its input, and how it ends where memory is refused."""
    examples = TOP / "examples"
    yield ["eval"], (examples / "up_two.eval").read_bytes(), MEMORY
    for file in sorted(examples.glob("*.filter")):
        yield ["check", "--size", "16"], file.read_bytes(), MEMORY
    for file in sorted(examples.glob("*.script")):
        yield ["run"], file.read_bytes(), MEMORY
    checked = subprocess.run([ncroute, "check", "--size", "16", examples / "no_bogons.filter"], capture_output=True, check=True)
    yield ["check", "--size", "16", "--code"], re.search(rb"(?m)^code (.*\n)", checked.stdout)[1], MEMORY
    yield ["net"], b"", MEMORY_OF_NETWORK


def begins_whole(output, whole):
    """Whether what was written is the first lines of the whole answer, each whole."""
    return whole.startswith(output) and (not output or output.endswith(b"\n"))


def sweep_runs(sweep, pool, counts):
    ncroute, all_refused = named() or f"{TOP}/crates/ncroute/out/ncroute", 0
    for words, given, ends in runs_of(ncroute):
        ever = subprocess.run([ncroute, *words], input=given, capture_output=True)
        faults, came = [], set()
        # Which call of a thread is refused is another one each time.
        for _ in range(SWEEPS):
            for nth, (status, output, errors) in sweep.all(pool, [ncroute, *words], given):
                if (status, output, errors) == (ever.returncode, ever.stdout, ever.stderr):
                    continue
                all_refused += 1
                came.add(errors)
                if status != 1 or errors not in ends or not begins_whole(output, ever.stdout):
                    faults.append(f"without allocation {nth}: status {status}, {errors.decode(errors='replace')!r}, {len(output)} bytes written")
            if ends <= came:
                break
        faults += [f"no refusal ended it with {end.decode()!r}" for end in sorted(ends - came)]
        counts.judge(" ".join(words), "; ".join(faults))
    print(f"runs: {all_refused} allocations refused that ended a run")
    # `net` replays three histories once its threads have ended: it asks for memory then, and each refusal ends it.
    numbers = range(1, LEAST_OF_REPLAYS + 1)
    ended = pool.map(lambda nth: sweep.without(nth, [ncroute, "net"], BEHIND_THREADS="1"), numbers)
    wrong = [f"without allocation {nth}: {end}" for nth, end in zip(numbers, ended) if end not in [(1, b"", errors) for errors in MEMORY]]
    counts.judge("net, behind its threads", "; ".join(wrong))


def main():
    names = sys.argv[1:] or ["calls", "runs"]
    if not set(names) <= {"calls", "runs"}:
        sys.exit(__doc__)
    counts = Counts()
    # Thousands of tests end by an abort, and are not to leave a core each.
    resource.setrlimit(resource.RLIMIT_CORE, (0, resource.getrlimit(resource.RLIMIT_CORE)[1]))
    with tempfile.TemporaryDirectory() as folder, concurrent.futures.ThreadPoolExecutor(AT_ONCE) as pool:
        for name in names:
            try:
                (sweep_runs if name == "runs" else sweep_tests)(Sweep(folder), pool, counts)
            except NotRun as why:
                counts.skip(f"allocations of {name}", str(why))
            except NotBuilt as why:
                counts.judge(f"allocations of {name}", str(why))
    counts.finish()


if __name__ == "__main__":
    main()

#!/usr/bin/env python3
"""Builds the tests of tests/calls/ and the program of bench/parts/ without proofs, and runs them. Prints each test that failed with what it said, and
at last 'N passed, M failed'.

usage: scripts/check_calls.py [WORD..]     (WORDs: only the tests whose names have one of them)
       TEST_CALLS=PATH, BENCH_PARTS=PATH   where the two programs are, or are to be built if they are not there
       scripts/check_calls.py --format     gives their sources the layout that `rt fmt` has, and runs nothing

- Each source is in the layout of `rt fmt`, and is a module of its root.
- The tests that are built are those of the sources.
- Each test passes. It is a process of its own, as many at a time as there are processors. One that fails says why and ends by a signal; one that does
  not end within five minutes has failed.
- `bench_parts` counts the events of bench/parts/events as bench/parts/answer says, and so by each of its parts.
"""
import concurrent.futures
import os
import re
import resource
import shutil
import subprocess
import sys
import tempfile

from build_unproved import UNPROVED, Kit, copied
from lib.calls import NotBuilt, built, listed
from lib.counts import Counts, NotRun, lack_of
from lib.program import TOP

# Seconds: each test and each run ends sooner, on any machine.
LONGEST = 300
# The parts of `bench_parts` that answer each event of its input once a round, for one caller.
ONE_CALLER = ("tables", "journal", "endless", "callers1", "mutex1", "timed_callers1", "timed_mutex1")


def formatted(name, word):
    """Has the kit's formatter read the sources of `test_calls` or `bench_parts`, or write them, by its word: what it says, with the names that the
    files have here."""
    with tempfile.TemporaryDirectory() as folder:
        copies = copied(name, folder)
        ran = subprocess.run([Kit().path("bin/rattle"), "fmt", word, *copies], capture_output=True, text=True)
        said = ran.stdout + ran.stderr
        for copy in copies:
            here = TOP / UNPROVED[name] / f"{os.path.splitext(os.path.basename(copy))[0]}.rattle"
            said = said.replace(copy, os.path.relpath(here, TOP))
            if word == "--write":
                shutil.copyfile(copy, here)
    return ran.returncode, said


def check_sources(counts):
    for name, folder in UNPROVED.items():
        paths = sorted((TOP / folder).glob("*.rattle"))
        root = next(path for path in paths if path.stem in ("lib", "main"))
        modules = re.findall(r"(?m)^mod (\w+);$", root.read_text(encoding="utf-8"))
        lost = {path.stem for path in paths} - {root.stem, *modules}
        counts.judge(f"{folder}: modules", lost and f"{os.path.basename(root)} does not name {', '.join(sorted(lost))}")
        if why := lack_of("rt"):
            counts.skip(f"{folder}: layout", why)
            continue
        status, said = formatted(name, "--check")
        counts.judge(f"{folder}: layout", status and f"run scripts/check_calls.py --format\n{said}")


def written():
    """The names of the tests in the sources."""
    for path in sorted((TOP / UNPROVED["test_calls"]).glob("*.rattle")):
        for test in re.findall(r"(?m)^ *#\[test\]\n(?: *(?://|#\[).*\n)* *(?:pub )?fn (\w+)", path.read_text(encoding="utf-8")):
            yield f"{path.stem}::{test}"


def outcome(words, given=b""):
    """How a run ends: its status, and what it says; no status where it does not end."""
    try:
        ran = subprocess.run(words, input=given, stdout=subprocess.PIPE, stderr=subprocess.STDOUT, timeout=LONGEST)
    except subprocess.TimeoutExpired as it:
        return None, (it.stdout or b"").decode(errors="replace") + "it did not end within five minutes"
    return ran.returncode, ran.stdout.decode(errors="replace")


def check_tests(counts, folder, words):
    tests = built("test_calls", folder)
    names, sources = listed(tests), list(written())
    odd = set(names) ^ set(sources)
    counts.judge("tests", not names and "there are none" or odd and f"in the sources or built, but not both: {', '.join(sorted(odd))}")
    names = [name for name in names if not words or any(word in name for word in words)]
    with concurrent.futures.ThreadPoolExecutor(os.cpu_count()) as pool:
        for name, (status, said) in zip(names, pool.map(lambda name: outcome([tests, name]), names)):
            counts.judge(name, status != 0 and f"status {status}\n{said}")
    if words and not names:
        counts.judge("tests", f"none has {' or '.join(words)} in its name")


def check_benches(counts, folder):
    program, parts = built("bench_parts", folder), TOP / UNPROVED["bench_parts"]
    events, answer = (parts / "events").read_bytes(), (parts / "answer").read_text(encoding="utf-8")
    for part in ONE_CALLER:
        status, said = outcome([program, part, "2"], events)
        # A time, which is another one each time.
        told = re.sub(r"(?m)^tail \d+\n", "", said) if part.startswith("timed_") else said
        counts.judge(f"bench_parts {part} 2", (status or told != answer) and f"status {status}\n{said}")


def main(words):
    if words == ["--format"]:
        for name in UNPROVED:
            status, said = formatted(name, "--write")
            if status:
                sys.exit(said)
        return
    if any(word.startswith("-") for word in words):
        sys.exit(__doc__)
    # A test that fails ends by a signal, and is not to leave a core.
    resource.setrlimit(resource.RLIMIT_CORE, (0, resource.getrlimit(resource.RLIMIT_CORE)[1]))
    counts = Counts()
    with tempfile.TemporaryDirectory() as folder:
        if not words:
            check_sources(counts)
        for name, check in (("test_calls", lambda: check_tests(counts, folder, words)), ("bench_parts", lambda: check_benches(counts, folder))):
            try:
                if name == "test_calls" or not words:
                    check()
            except NotRun as why:
                counts.skip(name, str(why))
            except NotBuilt as why:
                counts.judge(name, str(why))
    counts.finish()


if __name__ == "__main__":
    main(sys.argv[1:])

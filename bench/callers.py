#!/usr/bin/env python3
"""Compares calls through the lock with calls through a Mutex, by 1, 2 and 4 threads, and prints a table.

usage: callers.py BENCH_PARTS PLAIN RUNS INPUT..

  passes  the router, called by passes
  Mutex   the same journal, under the Mutex of the kit's standard library
  plain   the plain router with its history, under Rust's std::sync::Mutex

Each thread enters the events of an input's round again and again, until the history has nearly 1,000,000 entries. Where the
sums of the replies differ, that is said and the status is 1; nothing is measured then. Otherwise each is run RUNS times
with all rounds and RUNS times with none, by turns. The calls a second are those of the least time with all rounds, less the
least time with none, and in brackets those of the time that a quarter of the runs are within. The times are those of a clock,
since a thread that waits may use no processor time: run it on a machine that has nothing else to do.

The tail is a time that at most one call in a thousand is above, in microseconds: the least of RUNS runs in which the time of each
call is taken, and in brackets what half of them are within.
"""
import os
import subprocess
import sys
import time

from router import words_said

EVENTS = {"show": "looks", "no_changes": "no change"}


def elapsed(command, path):
    """The seconds of one run."""
    with open(path, "rb") as given, open(os.devnull, "wb") as null:
        begun = time.perf_counter()
        subprocess.run(command, stdin=given, stdout=null, check=True)
        return time.perf_counter() - begun


def within(times, part):
    """The time that this part of the runs are within."""
    return sorted(times)[int((len(times) - 1) * part)]


def rates(parts, calls, rounds, path, runs):
    """Millions of calls a second of each, at the best and in the best quarter of the runs."""
    taken = {name: ([], []) for name in parts}
    for _ in range(runs):
        for name, command in parts.items():
            for times, count in zip(taken[name], (rounds, 0)):
                times.append(elapsed(command(count), path))
    return {name: [calls / (within(full, part) - min(none)) / 1e6 for part in (0, 0.25)] for name, (full, none) in taken.items()}


def tails(proved, name, callers, rounds, path, runs):
    """The tail of the calls in microseconds, at the best and in half of the runs."""
    times = [int(words_said([proved, f"timed_{name}{callers}", str(rounds)], path)[-1]) / 1e3 for _ in range(runs)]
    return within(times, 0), within(times, 0.5)


def row(proved, plain, callers, path, runs):
    """A row of the table."""
    parts = {
        "passes": lambda rounds: [proved, f"callers{callers}", str(rounds)],
        "mutex": lambda rounds: [proved, f"mutex{callers}", str(rounds)],
        "plain": lambda rounds: [plain, "callers", str(callers), str(rounds)],
    }
    name = os.path.basename(path)
    said = {part: words_said(command(3), path) for part, command in parts.items()}
    if not said["passes"] == said["mutex"] == said["plain"]:
        sys.exit(f"{name}: the routers differ: {said}")
    first = int(words_said(parts["plain"](0), path)[1])
    calls_of = int(words_said(parts["plain"](1), path)[1]) - first
    rounds = (1_000_000 - first) // calls_of
    shown = [f"{best:.1f} ({quarter:.1f})" for best, quarter in rates(parts, rounds * calls_of, rounds, path, runs).values()]
    shown += [f"{best:.1f} ({half:.1f})" for best, half in (tails(proved, part, callers, rounds, path, runs) for part in ("callers", "mutex"))]
    return " | ".join([EVENTS.get(name, name), str(callers), *shown])


def main(words):
    if len(words) < 4:
        sys.exit(__doc__)
    proved, plain = map(os.path.abspath, words[:2])
    print("| Events | threads | passes, million calls a second | Mutex | plain | passes, tail in microseconds | Mutex, tail |")
    print("|---|---|---|---|---|---|---|")
    for path in words[3:]:
        for callers in (1, 2, 4):
            print(f"| {row(proved, plain, callers, path, int(words[2]))} |", flush=True)


if __name__ == "__main__":
    main(sys.argv[1:])

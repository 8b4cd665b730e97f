#!/usr/bin/env python3
"""Compares a router without end with one that keeps its whole history, both called by one caller, and prints a table.

usage: endless.py BENCH_PARTS RUNS INPUT..

  keeps    the router that keeps each entry: as many rounds of an input as fit into a history of 1,000,000
  endless  the router without end, with room for 10,000 entries, of which it forgets 5,000 at a time: 10,000,000 events

Both have to answer the same sums after 3 rounds, or the status is 1 and nothing is measured. Then each is run RUNS times with all rounds and RUNS
times with none. The least processor time with none is subtracted from the least with all, and the rest is printed for an event; and the most memory
that a run with all rounds had.
"""
import os
import re
import subprocess
import sys
import time

from router import alone, events_of, words_said

EVENTS = 10_000_000


def most_memory(command, path):
    """The most memory that a command has at a time, in bytes, as it is looked at while it runs. What the system says of a process that has ended is
    at least what the one had that started it, which is more than a router without end has."""
    most = 0
    with open(path, "rb") as given:
        started = subprocess.Popen(command, stdin=given, stdout=subprocess.DEVNULL)
        while started.poll() is None:
            with open(f"/proc/{started.pid}/status") as told:
                if found := re.search(r"VmHWM:\s*(\d+)", told.read()):
                    most = max(most, int(found[1]) * 1024)
            time.sleep(0.002)
    return most


def main(words):
    if len(words) < 3:
        sys.exit(__doc__)
    proved, runs = os.path.abspath(words[0]), int(words[1])
    parts = {"keeps": lambda rounds: [proved, "callers1", str(rounds)], "endless": lambda rounds: [proved, "endless", str(rounds)]}
    print("| Events | keeps: ns an event, memory | endless: ns an event, memory | Ratio |\n|---|---|---|---|")
    for path in words[2:]:
        said = {name: words_said(command(3), path) for name, command in parts.items()}
        if said["keeps"] != said["endless"]:
            sys.exit(f"{os.path.basename(path)}: the routers differ: {said}")
        first = events_of(parts["keeps"](0), path)
        round_of = events_of(parts["keeps"](1), path) - first
        rounds = {"keeps": (1_000_000 - first) // round_of, "endless": EVENTS // round_of}
        took = {name: alone(command, rounds[name], path, runs) * 1e9 / rounds[name] / round_of for name, command in parts.items()}
        memory = {name: most_memory(command(rounds[name]), path) / 1e6 for name, command in parts.items()}
        cells = [f"{took[name]:.0f}, {memory[name]:.1f} MB" for name in parts]
        print(f"| {os.path.basename(path)} | {' | '.join(cells)} | {took['endless'] / took['keeps']:.2f} |", flush=True)


if __name__ == "__main__":
    main(sys.argv[1:])

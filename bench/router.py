#!/usr/bin/env python3
"""Compares the router of the product with the plain one on the same events: first what they say, and then their time.

usage: router.py BENCH_PARTS PLAIN RUNS INPUT=ROUNDS..

The tables, the journal and the plain router each answer the events of an input, and where their sums differ, that is
said and the status is 1; nothing is measured then. Otherwise each is run RUNS times with ROUNDS rounds and RUNS times
with none, by turns. The least time with none is subtracted from the least time with all, and the rest is printed for an
event, with its ratio to the plain router's. A journal takes no more than 1,000,000 entries, so it has as many rounds as fit.
After that come the replay of such a journal, and the memory that an entry takes.
"""
import os
import subprocess
import sys

from compare import answer, seconds


def words_said(command, path):
    output, status = answer(command, path)
    if status != 0:
        sys.exit(f"{' '.join(command)}: status {status}")
    return output.split()


def events_of(command, path):
    return int(words_said(command, path)[1])


def alone(command_of, rounds, path, runs):
    """The least time of so many rounds, less the least time of none, in seconds."""
    taken = [(seconds(command_of(rounds), path), seconds(command_of(0), path)) for _ in range(runs)]
    return min(row[0] for row in taken) - min(row[1] for row in taken)


def most_memory(command, path):
    """The most memory that a command has at a time, in bytes."""
    with open(path, "rb") as given, open(os.devnull, "wb") as null:
        started = subprocess.Popen(command, stdin=given, stdout=null)
        _, _, used = os.wait4(started.pid, 0)
        return used.ru_maxrss * 1024


def main(words):
    if len(words) < 4:
        sys.exit(__doc__)
    proved, plain = map(os.path.abspath, words[:2])
    runs = int(words[2])
    parts = {
        "tables": lambda rounds: [proved, "tables", str(rounds)],
        "journal": lambda rounds: [proved, "journal", str(rounds)],
        "plain": lambda rounds: [plain, "router", str(rounds)],
    }
    for path, rounds in (word.rsplit("=", 1) for word in words[3:]):
        said = {name: words_said(command(3), path) for name, command in parts.items()}
        if not said["tables"] == said["journal"] == said["plain"]:
            sys.exit(f"{os.path.basename(path)}: the routers differ: {said}")
        first, round_of = events_of(parts["tables"](0), path), events_of(parts["tables"](1), path)
        round_of -= first
        fitting = min(int(rounds), (1_000_000 - first) // round_of)
        of = {"tables": int(rounds), "journal": fitting, "plain": int(rounds)}
        took = {name: alone(command, of[name], path, runs) * 1e9 / of[name] / round_of for name, command in parts.items()}
        print(f"{os.path.basename(path)}, {round_of} events a round")
        for name, nanoseconds in took.items():
            print(f"  {name:<8} {nanoseconds:8.1f} ns an event   ratio {nanoseconds / took['plain']:.2f}", flush=True)
        grown = most_memory(parts["journal"](fitting), path) - most_memory(parts["journal"](0), path)
        print(f"  memory   {grown / fitting / round_of:8.1f} bytes an entry, of {fitting * round_of} entries", flush=True)
        replays = max(1, 1_000_000 // (first + round_of))
        replayed = alone(lambda count: [proved, "replay", str(count)], replays, path, runs)
        print(f"  replay   {replayed * 1e9 / replays / (first + round_of):8.1f} ns an entry", flush=True)


if __name__ == "__main__":
    main(sys.argv[1:])

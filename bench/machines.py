#!/usr/bin/env python3
"""Compares the machines of the product with plain ones on the same routes: first what they say, and then their time.

usage: machines.py BENCH_PARTS PLAIN C RUNS INPUT=ROUNDS..
       machines.py BENCH_PARTS PLAIN C instructions INPUT=ROUNDS..

C is the program of `baseline/machines.c`, or `none`. Each of the machines (`run` for verified code, `run_checked`, the
plain one in Rust, and the two in C) takes the routes of an input through its code ROUNDS times, in a process of its own
with the input as its standard input. Where the numbers of accepted routes or
the sums of their metrics differ, that is said and the status is 1; nothing is measured then. Otherwise each is run RUNS
times with ROUNDS rounds and RUNS times with none, by turns. The least time with none, in which the input is read, is
subtracted from the least time with all. The rest is printed for a run of the machine and for a step of it, with its
ratio to the plain machine's. In place of time, `instructions` counts by valgrind, with one round.
"""
import os
import sys

from compare import instructions, seconds
from router import words_said


def commands(programs, rounds):
    proved, plain, in_c = programs
    machines = {
        "run": [proved, "verified", str(rounds)],
        "run_checked": [proved, "checked", str(rounds)],
        "plain": [plain, "rounds", str(rounds)],
    }
    if in_c is not None:
        machines["C switch"] = [in_c, "switch", str(rounds)]
        machines["C threaded"] = [in_c, "threaded", str(rounds)]
    return machines


def a_round(programs, path):
    """How many runs and how many steps a round has. None where the machines say different things."""
    said = {name: words_said(command, path) for name, command in commands(programs, 1).items()}
    # accepted N rejected N metrics SUM, and after that the steps of verified code
    if any(words[:6] != said["plain"][:6] for words in said.values()):
        print(f"{os.path.basename(path)}: the machines differ", file=sys.stderr)
        return None
    return int(said["run"][1]) + int(said["run"][3]), int(said["run"][7])


def nanoseconds_alone(programs, runs, path, rounds):
    whole, none = commands(programs, rounds), commands(programs, 0)
    taken = [{name: (seconds(whole[name], path), seconds(none[name], path)) for name in whole} for _ in range(runs)]
    return {name: (min(row[name][0] for row in taken) - min(row[name][1] for row in taken)) * 1e9 / rounds for name in whole}


def instructions_alone(programs, path):
    whole, none = commands(programs, 1), commands(programs, 0)
    return {name: instructions(whole[name], path) - instructions(none[name], path) for name in whole}


def report(path, runs, steps, unit, of_a_round):
    print(f"{os.path.basename(path)}, {steps / runs:.1f} steps a run")
    for name, measured in of_a_round.items():
        ratio = measured / of_a_round["plain"]
        print(f"  {name:<11}  {measured / runs:9.1f} {unit} a run  {measured / steps:7.2f} a step   ratio {ratio:.2f}", flush=True)


def main(words):
    if len(words) < 5:
        sys.exit(__doc__)
    programs = [None if word == "none" else os.path.abspath(word) for word in words[:3]]
    inputs = [word.rsplit("=", 1) for word in words[4:]]
    known = [a_round(programs, path) for path, _ in inputs]
    if None in known:
        sys.exit(1)
    counting = words[3] == "instructions"
    print(f"the machines say the same; {'instructions' if counting else words[3] + ' runs of each by turns'}")
    for (path, rounds), (runs, steps) in zip(inputs, known):
        if counting:
            report(path, runs, steps, "instructions", instructions_alone(programs, path))
        else:
            report(path, runs, steps, "ns", nanoseconds_alone(programs, int(words[3]), path, int(rounds)))


if __name__ == "__main__":
    main(sys.argv[1:])

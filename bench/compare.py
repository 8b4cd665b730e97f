#!/usr/bin/env python3
"""Compares two programs on the same inputs: first their output, byte for byte, and then their time.

usage: compare.py PROVED PLAIN COMMAND ROUNDS INPUT..

Each program is started with the words of COMMAND (`eval`, `run`, `domain` or `check --size N`) and an input file as its standard
input. Where the two differ in output or exit status, that is said and the status is 1; nothing is timed then. Otherwise they are
run ROUNDS times each, by turns, and the least and the median time of each are printed with the ratio PROVED / PLAIN. A time is the
processor time of the whole process, with its output to the null device. Where valgrind is installed, their instructions are
printed too.
"""
import os
import re
import shutil
import statistics
import subprocess
import sys


def answer(command, path):
    """What a command, a list of words, answers to an input, and its exit status."""
    with open(path, "rb") as given:
        ran = subprocess.run(command, stdin=given, stdout=subprocess.PIPE)
    return ran.stdout, ran.returncode


def seconds(command, path):
    """The processor time that a command takes, so that other work on the machine counts little."""
    with open(path, "rb") as given, open(os.devnull, "wb") as null:
        # Standard error too: on a terminal `ncroute` would say there why each line is refused, and the plain program would not.
        actions = [(os.POSIX_SPAWN_DUP2, file.fileno(), at) for at, file in enumerate((given, null, null))]
        started = os.posix_spawn(command[0], command, os.environ, file_actions=actions)
        _, _, used = os.wait4(started, 0)
        return used.ru_utime + used.ru_stime


def instructions(command, path):
    """The number of instructions that a command carries out, as valgrind counts them: the same in each run."""
    counting = ["valgrind", "--tool=callgrind", "--callgrind-out-file=/dev/null", *command]
    with open(path, "rb") as given:
        ran = subprocess.run(counting, stdin=given, stdout=subprocess.DEVNULL, stderr=subprocess.PIPE, text=True)
    return int(re.search(r"Collected : (\d+)", ran.stderr)[1])


def agree(proved, plain, path):
    first, second = answer(proved, path), answer(plain, path)
    if first == second:
        return True
    print(f"{os.path.basename(path)}: the two programs differ, in output or exit status", file=sys.stderr)
    return False


def report(path, proved, plain):
    print(os.path.basename(path))
    for name, of in (("best", min), ("median", statistics.median)):
        first, second = of(proved), of(plain)
        print(
            f"  {name:<6}  proved {first * 1000:7.2f} ms   plain {second * 1000:7.2f} ms   ratio {first / second:.2f}",
            flush=True,
        )


def report_instructions(proved, plain, path):
    first, second = instructions(proved, path), instructions(plain, path)
    print(f"  count   proved {first / 1e6:7.2f} M    plain {second / 1e6:7.2f} M    ratio {first / second:.2f}", flush=True)


def main(words):
    if len(words) < 5:
        sys.exit(__doc__)
    proved, plain = ([os.path.abspath(word), *words[2].split()] for word in words[:2])
    rounds, paths = int(words[3]), words[4:]
    if not all([agree(proved, plain, path) for path in paths]):
        sys.exit(1)
    print(f"outputs are the same; {rounds} runs of each program by turns")
    for path in paths:
        taken = [(seconds(proved, path), seconds(plain, path)) for _ in range(rounds)]
        report(path, *zip(*taken))
        if shutil.which("valgrind"):
            report_instructions(proved, plain, path)


if __name__ == "__main__":
    main(sys.argv[1:])

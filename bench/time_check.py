#!/usr/bin/env python3
"""Checks a crate from nothing, in one job, and prints how much processor time each function took, in seconds.

usage: bench/time_check.py CRATE [--test] [--only FUNCTION ..] > TABLE
       (--test: its tests too; the checker's own output goes to standard error)

First `rt check` in the crate's folder, which builds the libraries below it. The checker makes several modules of a function, of its code,
lifetimes, goals and proof, and with ANTT_CACHE_DEBUG it says of each when it begins and ends; the table names those that took longest. What
belongs to no function is in a row of its own: reading the crate, and loading what lies below it. It needs Linux.
"""
import collections
import os
import re
import subprocess
import sys

TICKS = os.sysconf("SC_CLK_TCK")
TOP = os.path.realpath(os.path.join(os.path.dirname(os.path.abspath(__file__)), ".."))
BEGINS = re.compile(r"antt: cache: Rattle-\w+-(?:proofs|specs)\.(\S+): elaborating")
ENDS = re.compile(r"antt: cache: Rattle-\w+-(?:proofs|specs)\.(\S+): artifact encoded")
OTHER = "(reading and loading)"


def command_of(name, flags):
    """The checker's command line for a crate, as `rt check` makes it."""
    kit = os.path.dirname(os.path.realpath(subprocess.check_output(["rt", "doc"], text=True).strip()))
    sys.path.insert(0, f"{kit}/bin")
    import rtlib

    folder = f"{TOP}/crates/{name}"
    os.chdir(folder)
    crate = rtlib.Crate(folder, TOP, {})
    return [rtlib.RATTLE, "check", *crate.words(["--jobs", "1", *flags], keeps=False)]


def processor_time(process):
    """What a process has used so far, in seconds; None once it has ended."""
    try:
        with open(f"/proc/{process}/stat") as f:
            return sum(map(int, f.read().rsplit(")", 1)[1].split()[11:15])) / TICKS
    except OSError:
        return None


def parts_of(words):
    """How long each module took, by its name, and the checker's exit status."""
    took, doing, last = collections.Counter(), [], 0.0
    how = {"stdout": subprocess.PIPE, "stderr": subprocess.STDOUT, "stdin": subprocess.DEVNULL, "text": True, "errors": "replace"}
    checker = subprocess.Popen(words, env={**os.environ, "ANTT_CACHE_DEBUG": "1"}, **how)
    for line in checker.stdout:
        now = processor_time(checker.pid)
        now = last if now is None else now
        took[doing[-1] if doing else OTHER] += now - last
        last = now
        begins, ends = BEGINS.search(line), ENDS.search(line)
        if begins:
            doing.append(begins[1])
        elif ends and ends[1] in doing:
            doing.remove(ends[1])
        if "antt: cache:" not in line:
            print(line, end="", file=sys.stderr)
    return took, checker.wait()


def main(name, *flags):
    took, status = parts_of(command_of(name, flags))
    rows = collections.defaultdict(dict)
    for module, seconds in took.items():
        function, _, part = module.rpartition(".")
        is_part = bool(function) and part[:1].isupper()
        rows[function if is_part else module][part if is_part else ""] = seconds
    print("| Function | Seconds | Longest parts |\n|---|---|---|")
    for function, parts in sorted(rows.items(), key=lambda row: -sum(row[1].values())):
        longest = sorted(parts.items(), key=lambda part: -part[1])[:3]
        shown = ", ".join(f"{part} {seconds:.1f}" for part, seconds in longest if part and seconds >= 0.05)
        if sum(parts.values()) >= 0.05:
            print(f"| `{function}` | {sum(parts.values()):.1f} | {shown} |")
    print(f"| in all | {sum(took.values()):.1f} | |")
    sys.exit(status)


if __name__ == "__main__":
    if len(sys.argv) < 2:
        sys.exit(__doc__)
    main(*sys.argv[1:])

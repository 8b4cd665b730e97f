#!/usr/bin/env python3
"""Times `ncroute diff` and `ncroute lint` on long lists of patterns, and prints a table: the least processor time of each, and what was said last.

usage: diff.py NCROUTE RUNS

A list has patterns of 12 to 24 bits with some of the longer prefixes below them, as lists of customers have. Its filter accepts what it matches,
as it comes or with a greater metric.
"""
import os
import resource
import subprocess
import sys
import tempfile

from generate import Numbers

ACCEPT, ADD, FLOOR = "accept;", "rip_metric = rip_metric + 2; accept;", "if rip_metric < 3 then rip_metric = 3; accept;"


def patterns(numbers, count):
    """A list of so many patterns."""
    for _ in range(count):
        length = 12 + numbers.below(13)
        address = numbers.below(2**length) << (32 - length)
        longer = ("", "+", f"{{{length},{min(length + 4, 32)}}}")[numbers.below(3)]
        yield "{}.{}.{}.{}/{}".format(*address.to_bytes(4, "big"), length) + longer


def text(members, then):
    return f"filter list\n{{\n  if net ~ [\n    {f',{chr(10)}    '.join(members)}\n  ] then {{ {then} }}\n  reject;\n}}\n"


def taken(words):
    """The processor time of one run, in seconds, and the last line that it writes."""
    before = resource.getrusage(resource.RUSAGE_CHILDREN)
    ran = subprocess.run(words, stdout=subprocess.PIPE, check=False)
    after = resource.getrusage(resource.RUSAGE_CHILDREN)
    lines = ran.stdout.decode().splitlines()
    return after.ru_utime + after.ru_stime - before.ru_utime - before.ru_stime, lines[-1] if lines else "(nothing)"


def main():
    if len(sys.argv) != 3:
        sys.exit(__doc__)
    program, runs = os.path.abspath(sys.argv[1]), int(sys.argv[2])
    numbers = Numbers(7)
    short, other, long = (list(patterns(numbers, count)) for count in (290, 290, 1024))
    changed = [*long[:500], "10.20.0.0/16+", *long[501:]]
    rows = [
        ("`diff` of two lists of 290", 16, "diff", [text(short, ACCEPT), text(other, ACCEPT)]),
        ("`diff` of 290, and 2 or 3 more for the metric", 16, "diff", [text(short, ADD), text(short, ADD.replace("2", "3"))]),
        ("`diff` of 1,024, one of them changed", 64, "diff", [text(long, ACCEPT), text(changed, ACCEPT)]),
        ("`diff` of 1,024, one of them changed, and 2 more for the metric", 64, "diff", [text(long, ADD), text(changed, ADD)]),
        ("`lint` of 1,024, and 2 more for the metric", 64, "lint", [text(long, ADD)]),
        ("`lint` of 290, and a least metric", 16, "lint", [text(short, FLOOR)]),
        ("`lint` of 1,024, and a least metric", 64, "lint", [text(long, FLOOR)]),
    ]
    print("| What | size | ms | the last line |\n|---|---|---|---|")
    with tempfile.TemporaryDirectory() as folder:
        for name, size, command, texts in rows:
            paths = [f"{folder}/{number}.filter" for number in range(len(texts))]
            for path, its in zip(paths, texts):
                with open(path, "w") as file:
                    file.write(its)
            said = [taken([program, command, "--size", str(size), *paths]) for _ in range(runs)]
            print(f"| {name} | {size} | {min(said)[0] * 1000:,.0f} | `{said[0][1].replace(folder + '/', '')}` |", flush=True)


if __name__ == "__main__":
    main()

#!/usr/bin/env python3
"""Times the lookup of an int in a set of ranges and the match of a prefix in a set of patterns, and prints a table of each: how long it takes
beyond a comparison of two ints.

usage: lookup.py NCROUTE RUNS

Each filter multiplies the metric and the length of a route to an int and ends at one test: `k < NUMBER`, or `k ~ [ .. ]` with that many
ranges, spread over all ints with gaps between them, or `net ~ [ .. ]` with that many patterns, of which about half of the routes match one.
`ncroute filter` takes 400,000 routes through each, RUNS times by turns. The time of a lookup or a match is the least processor time less that
of the comparison on the same routes, by the number of routes.
"""
import os
import resource
import subprocess
import sys
import tempfile

from generate import Numbers, net_near, pattern, written_address

ROUTES = 400_000
RANGES = (3, 8, 9, 64, 256, 1024)
PATTERNS = (12, 13, 64, 290, 1024)
TEXT = "filter one_test\nint k;\n{\n  k = rip_metric * 16843009 + net.len * 7;\n  if %s then accept;\n  reject;\n}\n"
COMPARISON = "k < 2000000000"


def ranges(numbers, count):
    """This many ranges, each in a part of its own of all ints."""
    part = 2**32 // count
    for at in range(count):
        low = at * part + numbers.below(part // 4)
        yield f"{low}..{low + numbers.below(part // 2)}"


def routes(numbers):
    """Route lines of lengths from 8 to 32, and metrics from 0 to 250."""
    for _ in range(ROUTES):
        length = 8 + numbers.below(25)
        address = numbers.below(2**length) << (32 - length)
        yield f"{written_address(address)}/{length} {numbers.below(251)}\n"


def written(patterns):
    """The patterns as a filter writes them."""
    for address, length, low, high in patterns:
        lengths = "-" if low < length else f"{{{low},{high}}}"
        yield f"{written_address(address)}/{length}{lengths}"


def routes_near(numbers, patterns):
    """Route lines, of which about half match the patterns."""
    net = net_near(patterns)
    for _ in range(ROUTES):
        yield f"{net(numbers)} {numbers.below(251)}\n"


def taken(words, path):
    """The processor time of one run, in seconds."""
    before = resource.getrusage(resource.RUSAGE_CHILDREN)
    with open(path) as lines:
        subprocess.run(words, stdin=lines, stdout=subprocess.DEVNULL, check=True)
    after = resource.getrusage(resource.RUSAGE_CHILDREN)
    return after.ru_utime + after.ru_stime - before.ru_utime - before.ru_stime


def least_times(program, runs, folder, inputs):
    """The least times of filters on routes. An input is the name of its routes, and its test."""
    least = dict.fromkeys(inputs, float("inf"))
    for at, (_, test) in enumerate(inputs):
        with open(f"{folder}/{at}.filter", "w") as text:
            text.write(TEXT % test)
    for _ in range(runs):
        for at, (lines, test) in enumerate(inputs):
            words = [program, "filter", "--size", "250", f"{folder}/{at}.filter"]
            least[lines, test] = min(least[lines, test], taken(words, f"{folder}/{lines}"))
    return least


def report(unit, rows, least):
    """Prints a table: for each row how many there are, the name of its routes, and its test."""
    print(f"| {unit} | ns more than a comparison |")
    print("|---|---|")
    for count, lines, test in rows:
        print(f"| {count:,} | {(least[lines, test] - least[lines, COMPARISON]) / ROUTES * 1e9:.0f} |")


def main():
    if len(sys.argv) != 3:
        sys.exit(__doc__)
    program, runs = os.path.abspath(sys.argv[1]), int(sys.argv[2])
    numbers = Numbers(32)
    with tempfile.TemporaryDirectory() as folder:
        with open(f"{folder}/routes", "w") as lines:
            lines.writelines(routes(numbers))
        of_ranges = [(count, "routes", f"k ~ [{', '.join(ranges(numbers, count))}]") for count in RANGES]
        of_patterns = []
        for count in PATTERNS:
            patterns = [pattern(numbers) for _ in range(count)]
            with open(f"{folder}/routes_near_{count}", "w") as lines:
                lines.writelines(routes_near(numbers, patterns))
            of_patterns.append((count, f"routes_near_{count}", f"net ~ [{', '.join(written(patterns))}]"))
        inputs = [(lines, test) for _, lines, own in of_ranges + of_patterns for test in (COMPARISON, own)]
        least = least_times(program, runs, folder, list(dict.fromkeys(inputs)))
    report("Ranges", of_ranges, least)
    print()
    report("Patterns", of_patterns, least)


if __name__ == "__main__":
    main()

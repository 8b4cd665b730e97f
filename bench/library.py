#!/usr/bin/env python3
"""Compares calls of the library for C with the same runs in Rattle, on the filters and routes of `bird.py`: what both accept, and then their time.

usage: library.py LIBRARY BENCH_PARTS NCROUTE RUNS [ROUTES]     (LIBRARY: library.c, built over the library)

Of each filter a line: the nanoseconds of a route through gomthau_filter_run, through gomthau_filter_run_all, and through `run` by `bench_parts
verified`, the least of RUNS each, by turns. The loop of the last reads no route, and the first two have the filters of bird.py that only accept or
only reject, too: so a call by itself is seen.
"""
import os
import subprocess
import sys
import tempfile

import bird
from compare import seconds
from generate import Numbers

ROUNDS = 20


def in_c(program, path, routes):
    with open(routes, "rb") as given:
        ran = subprocess.run([program, str(bird.SIZE), path, str(ROUNDS)], stdin=given, stdout=subprocess.PIPE, check=True)
    accepted, one, many = ran.stdout.split()
    return int(accepted), float(one), float(many)


def in_rattle(bench_parts, path, count):
    whole, none = (seconds([bench_parts, "verified", str(rounds)], path) for rounds in (ROUNDS * 5, 0))
    return (whole - none) / (ROUNDS * 5) / count * 1e9


def main(words):
    if len(words) < 4:
        sys.exit(__doc__)
    library, bench_parts, ncroute = (os.path.abspath(word) for word in words[:3])
    numbers = Numbers(1)
    texts, net = bird.filters(numbers)
    routes = bird.routes_near(numbers, net, int(words[4]) if len(words) > 4 else 20_000)
    alike = True
    with tempfile.TemporaryDirectory() as folder:
        lines = os.path.join(folder, "routes")
        with open(lines, "w") as out:
            out.writelines(f"{prefix} {metric}\n" for prefix, metric in routes.items())
        for name, text in texts.items():
            path, code = os.path.join(folder, name), os.path.join(folder, f"{name}.code")
            with open(path, "w") as out:
                out.write(text)
            bird.write_input(code, bird.code_of(ncroute, text), routes)
            accepted, steps = bird.round_of(bench_parts, code, len(routes))
            turns = [(in_c(library, path, lines), in_rattle(bench_parts, code, len(routes))) for _ in range(int(words[3]))]
            alike &= all(of_c[0] == accepted for of_c, _ in turns)
            one, many, here = min(of_c[1] for of_c, _ in turns), min(of_c[2] for of_c, _ in turns), min(of_rattle for _, of_rattle in turns)
            times = f"a call {one:.1f} ns, in an array {many:.1f}, in Rattle {here:.1f}"
            print(f"{name}, {accepted} of {len(routes)} accepted, {steps:.1f} steps a run: {times}")
    if not alike:
        print("not all accept the same routes", file=sys.stderr)
    sys.exit(not alike)


if __name__ == "__main__":
    main(sys.argv[1:])

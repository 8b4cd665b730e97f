#!/usr/bin/env python3
"""Compares the machine for verified code with BIRD on the same filters and routes: first what both accept, and then their time.

usage: bird.py BENCH_PARTS NCROUTE RUNS [ROUTES]

Needs BIRD 2.0 (`bird`, `birdc`); as a daemon of its own it is given ROUTES static routes (20,000), each with a metric, and
the filters below. For each filter it is asked to show the number of routes that the filter accepts, and the daemon's processor
time for the answer is taken. The text of each filter is compiled by `ncroute check` and the code taken through
`bench_parts verified`, with the same routes. This is done RUNS times with all filters by turns, and of each the least time
counts. From both times that for a filter that only rejects is subtracted, and again that for one that only accepts: the walk
over the routes, and the question. The first leaves what a filter does beside beginning and ending; the second leaves more, since
`run` deals with code that begins with ACCEPT before it makes ready for any other. In BIRD the walk takes as long as a match, and
its time varies by itself; so its least time wants many turns. Where the two accept different numbers of routes, that is said and
the status is 1.
"""
import os
import subprocess
import sys
import tempfile

from compare import seconds
from generate import PATTERNS, Numbers, cut, net_near, pattern, written_address

sys.path.append(os.path.join(os.path.dirname(os.path.abspath(__file__)), "..", "scripts"))
from lib import bird  # noqa: E402

SIZE = 64
STATEMENTS = 100
ROUNDS = 20
INTS = "abcdefgh"


def written_pattern(word, length, low, high):
    return f"{written_address(word)}/{length}{{{low},{high}}}"


def set_of_1024(patterns):
    members = ",\n    ".join(written_pattern(*of) for of in patterns)
    return f"filter set_of_1024 {{\n  if net ~ [{members}] then accept;\n  reject;\n}}\n"


def sum_of(numbers):
    """A sum, a difference, a product, or a quotient by a number from 1 up."""
    first, second = numbers.one_of(INTS), numbers.one_of(INTS)
    sign = numbers.one_of("+-*/")
    return f"{first} / {numbers.within(1, 64)}" if sign == "/" else f"{first} {sign} {second}"


def arithmetic(numbers):
    """Assignments of ints, every third under an `if`; about half of the routes are accepted."""
    text = "filter arithmetic\n" + "".join(f"int {name};\n" for name in INTS) + "{\n"
    for name in INTS:
        text += f"  {name} = rip_metric * {numbers.below(2**20)} + {numbers.below(2**32)};\n"
    for index in range(STATEMENTS):
        assigned = f"{numbers.one_of(INTS)} = {sum_of(numbers)};"
        if index % 3 == 0:
            assigned = f"if {numbers.one_of(INTS)} < {sum_of(numbers)} then {assigned}"
        text += f"  {assigned}\n"
    return text + f"  if ({' + '.join(INTS)}) < {2**31} then accept;\n  reject;\n}}\n"


def filters(numbers):
    patterns = [pattern(numbers) for _ in range(PATTERNS)]
    texts = {
        "reject_alone": "filter reject_alone { reject; }\n",
        "accept_alone": "filter accept_alone { accept; }\n",
        "set_of_1024": set_of_1024(patterns),
        "arithmetic": arithmetic(numbers),
    }
    return texts, net_near(patterns)


def routes_near(numbers, net, count):
    """Different prefixes that BIRD takes (none of loopback, multicast or network 0), each with a metric from 0 to 63."""
    found = {}
    while len(found) < count:
        address, length = net(numbers).split("/")
        word = int.from_bytes(bytes(int(group) for group in address.split(".")), "big")
        word = cut(word, int(length))
        if word >> 24 in range(1, 224) and word >> 24 != 127:
            found[f"{written_address(word)}/{length}"] = numbers.below(SIZE)
    return found


class Daemon(bird.Daemon):
    """A BIRD whose processor time is counted."""

    def count(self, question):
        """An answer's first word that is a number, and the processor time that it took, in seconds."""
        before = self.used()
        said = self.ask(question)
        return int(next(word for word in said.split() if word.isdigit())), self.used() - before

    def used(self):
        with open(f"/proc/{self.process.pid}/schedstat") as spent:
            return int(spent.read().split()[0]) / 1e9


def code_of(ncroute, text):
    said = subprocess.run([ncroute, "check", "--size", str(SIZE)], input=text, stdout=subprocess.PIPE, text=True, check=True)
    return said.stdout.split()[1]


def round_of(bench_parts, path, count):
    """How many routes are accepted, and the steps of a run."""
    with open(path, "rb") as given:
        said = subprocess.run([bench_parts, "verified", "1"], stdin=given, stdout=subprocess.PIPE, check=True).stdout.split()
    return int(said[1]), int(said[7]) / count


def write_input(path, code, routes):
    with open(path, "w") as out:
        out.write(code + "\n")
        out.writelines(f"{net} {metric} {SIZE}\n" for net, metric in routes.items())


def a_turn(bench_parts, daemon, name, path):
    """The seconds of ROUNDS rounds and of none here, how many routes BIRD accepts, and its seconds."""
    here = (seconds([bench_parts, "verified", str(rounds)], path) for rounds in (ROUNDS, 0))
    return *here, *daemon.count(f"show route filter {name} count")


def measured(programs, daemon, runs, texts, routes, folder):
    """For each filter: what both accept, the steps of a run, the seconds here and in BIRD."""
    bench_parts, ncroute = programs
    paths = {name: os.path.join(folder, name) for name in texts}
    for name, text in texts.items():
        write_input(paths[name], code_of(ncroute, text), routes)
    turns = [{name: a_turn(bench_parts, daemon, name, path) for name, path in paths.items()} for _ in range(runs)]
    for name, path in paths.items():
        accepted, steps = round_of(bench_parts, path, len(routes))
        whole, none, by_bird, there = zip(*(turn[name] for turn in turns))
        yield name, (accepted, by_bird[0]), steps, (min(whole) - min(none)) / ROUNDS, min(there)


def report(rows, count):
    """Prints the rows after the first two, less the times of each of these; whether all accept the same routes."""
    alike = True
    least = {}
    for name, (accepted, by_bird), steps, here, there in rows:
        if accepted != by_bird:
            print(f"{name}: {accepted} routes accepted here, {by_bird} by BIRD", file=sys.stderr)
            alike = False
        elif name.endswith("_alone"):
            least[name] = here, there
        else:
            print(f"{name}, {accepted} of {count} routes accepted, {steps:.1f} steps a run")
            for base, (least_here, least_there) in least.items():
                run, bird = ((took - least) / count * 1e9 for took, least in ((here, least_here), (there, least_there)))
                print(f"  less {base}: run {run:.1f} ns a route, BIRD {bird:.1f} ns, ratio {run / bird:.2f}")
    return alike


def main(words):
    if len(words) < 3:
        sys.exit(__doc__)
    programs, runs = [os.path.abspath(word) for word in words[:2]], int(words[2])
    numbers = Numbers(1)
    texts, net = filters(numbers)
    routes = routes_near(numbers, net, int(words[3]) if len(words) > 3 else 20_000)
    with tempfile.TemporaryDirectory() as folder:
        daemon = Daemon(folder, texts.values(), routes)
        try:
            rows = list(measured(programs, daemon, runs, texts, routes, folder))
        finally:
            daemon.end()
    sys.exit(not report(rows, len(routes)))


if __name__ == "__main__":
    main(sys.argv[1:])

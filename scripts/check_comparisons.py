#!/usr/bin/env python3
"""Compares what `ncroute domain --compare` says of random changes with a plain program, which cuts each link and each node by itself in the domain
before and in the one after. Prints a line for each change of which they say different things, and at last 'N passed, M failed'.

usage: NCROUTE=PATH scripts/check_comparisons.py [PAIRS [SEED]]        (PATH: the program; PAIRS: how many changes, 1,000 where none is said)

A domain has 2 to 9 nodes. A change makes and cuts links, and sets filters; some change nothing, and some everything. Each is compared as lines and
as JSON, with the exit status. Then come scripts that cannot be compared.
"""
import concurrent.futures
import itertools
import json
import os
import pathlib
import random
import subprocess
import sys
import tempfile

import domain_oracle
from check_domains import FILTERS, NAMES
from lib.counts import Counts
from lib.program import built


# ---- random changes


class Change:
    """Two random scripts of domains of as many nodes."""

    def __init__(self, numbers):
        self.numbers, self.size = numbers, numbers.randint(2, 9)
        self.prefixes = [f"prefix {v} 10.{v % 4}.{v}.0/24" for v in range(self.size) if numbers.randrange(4) == 0]
        self.filters = [f"load {name} filter {name} {{ {numbers.choice(FILTERS)} }}" for name in NAMES]
        share = numbers.choice((30, 50, 70))
        links = {pair for pair in itertools.combinations(range(self.size), 2) if numbers.randrange(100) < share}
        uses = dict(self.use() for _ in range(numbers.randrange(self.size)))
        self.before = self.script(links, uses)
        self.after = self.script(self.other_links(links), {**uses, **dict(self.use() for _ in range(numbers.choice((0, 0, 1, 3))))})

    def use(self):
        u, w = self.numbers.sample(range(self.size), 2)
        return (self.numbers.choice(("import", "export")), u, w), self.numbers.choice(NAMES)

    def other_links(self, links):
        if self.numbers.randrange(12) == 0:
            return {pair for pair in itertools.combinations(range(self.size), 2) if self.numbers.randrange(2)}
        pairs = list(itertools.combinations(range(self.size), 2))
        turned = set(self.numbers.sample(pairs, min(len(pairs), self.numbers.randrange(4))))
        return links ^ turned

    def script(self, links, uses):
        made = [f"link {u} {w}" for u, w in sorted(links)]
        used = [f"{kind} {u} {w} {name}" for (kind, u, w), name in uses.items()]
        return "\n".join([f"domain {self.size}", *self.prefixes, *self.filters, *made, *used]) + "\n"


# ---- the plain program


def domain_of(script):
    """The domain that a script leaves behind."""
    carried_out = domain_oracle.Script()
    for number, line in enumerate(script.splitlines(), 1):
        if line and not line.startswith("#"):
            carried_out.answer(number, line)
    return carried_out.domain


def routes_without(domain, cut):
    """All routes where these links have failed, by source and destination: a distance and a next hop, or nothing."""
    links = domain.links
    domain.links = links - cut
    columns = domain.all_routes()
    domain.links = links
    return {(u, v): columns[v][u] for u in range(domain.size) for v in range(domain.size) if columns[v][u][0] < domain.size}


def failing(before, after):
    """What may fail in either domain: its name, the links that it cuts, and the node that is gone with it."""
    links = before.links | after.links
    yield from ((("link", u, w), {(u, w), (w, u)}, None) for u, w in sorted(links) if u < w)
    yield from ((("node", x), {pair for pair in links if x in pair}, x) for x in range(before.size))


def compared(before, after):
    """What the change of one domain to another does."""
    old, new = routes_without(before, set()), routes_without(after, set())
    harms = []
    for what, cut, gone in failing(before, after):
        was, is_now = routes_without(before, cut), routes_without(after, cut)
        told = [pair for pair in itertools.product(range(before.size), repeat=2) if gone not in pair]
        loses = sum(pair in new and pair not in is_now and pair in was for pair in told)
        keeps = sum(pair in old and pair not in was and pair in is_now for pair in told)
        if loses or keeps:
            harms.append((what, loses, keeps))
    return {
        "lost": sorted(old.keys() - new.keys()), "gained": sorted(new.keys() - old.keys()),
        "changed": sorted(pair for pair in old.keys() & new.keys() if old[pair] != new[pair]), "harms": harms,
    }


def in_lines(found):
    lines = [" ".join([word, *(f"{u}:{v}" for u, v in found[word])]) for word in ("lost", "gained", "changed")]
    harms = [f"{' '.join(map(str, what))} loses {loses} keeps {keeps}" for what, loses, keeps in found["harms"]]
    return "\n".join([*lines, f"failures {len(harms)}", *harms]) + "\n"


def in_json(found, size):
    def harm(what, loses, keeps):
        kind, *nodes = what
        return {kind: nodes if kind == "link" else nodes[0], "loses": loses, "keeps": keeps}

    data = {word: [list(pair) for pair in found[word]] for word in ("lost", "gained", "changed")}
    data |= {"failures": [harm(*it) for it in found["harms"]], "size": size}
    return json.dumps(data, separators=(",", ":"), sort_keys=True) + "\n"


def status_of(found):
    return int(bool(found["lost"] or any(loses for _, loses, _ in found["harms"])))


# ---- the program


def run(program, folder, scripts, *words):
    """What the program says of two scripts, standard error too, and its status."""
    paths = [pathlib.Path(folder, f"{name}.domain") for name in ("before", "after")]
    for path, script in zip(paths, scripts):
        path.write_text(script)
    ran = subprocess.run([program, "domain", "--compare", *paths, *words], capture_output=True, text=True)
    return ran.stdout, ran.stderr.replace(f"{folder}/", ""), ran.returncode


def look_at_change(program, seed, number):
    """What is wrong with what the program says of a random change."""
    change = Change(random.Random(f"{seed} {number}"))
    found = compared(domain_of(change.before), domain_of(change.after))
    wanted = (in_lines(found), "", status_of(found)), (in_json(found, change.size), "", status_of(found))
    with tempfile.TemporaryDirectory() as folder:
        said = tuple(run(program, folder, (change.before, change.after), *words) for words in ((), ("--format", "json")))
    return "" if said == wanted else f"{said} in place of {wanted}\n-- before\n{change.before}-- after\n{change.after}"


# Scripts that cannot be compared, what is told of them, and the status; one of them is right and says nothing.
UNLIKE = (
    ("domain 3\n", "domain 4\n", "after.domain: this domain has not as many nodes as the one before it\n", 3),
    ("# nothing\n", "domain 4\n", "before.domain: this script sets up no domain\n", 3),
    ("domain 3\n", "", "after.domain: this script sets up no domain\n", 3),
    ("domain 3\nlink 0 3\n", "domain 3\n", "before.domain: a line of this script is refused, so nothing is compared\n", 3),
    ("domain 3\n", "domain 3\nroute 0\n", "after.domain: a line of this script is refused, so nothing is compared\n", 3),
    ("domain 3\nmark\nsettle\n", "domain 3\nfailures\n", "", 0),
)


def look_at_unlike(counts, program):
    for before, after, told, status in UNLIKE:
        with tempfile.TemporaryDirectory() as folder:
            said, errors, ended = run(program, folder, (before, after), "--explain", "never")
        counts.expect(f"{(before, after)}", (errors, ended, bool(said)) == (told, status, status == 0), (said, errors, ended))


def main(words):
    pairs, seed = int(words[0]) if words else 1000, words[1] if len(words) > 1 else "comparisons"
    program, counts = os.path.abspath(built()), Counts()
    look_at_unlike(counts, program)
    with concurrent.futures.ThreadPoolExecutor() as pool:
        for number, wrong in enumerate(pool.map(lambda it: look_at_change(program, seed, it), range(pairs))):
            counts.judge(f"change {number} of {seed}", wrong)
    counts.finish()


if __name__ == "__main__":
    main(sys.argv[1:])

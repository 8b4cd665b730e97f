#!/usr/bin/env python3
"""Has `ncroute domain` and the slow program answer random scripts of a domain, and compares every answer. The last line is 'N passed, M failed'.

usage: scripts/check_domains.py [SCRIPTS [SEED]]        (100 scripts; NCROUTE=PATH: the program; without it, the sources as they are, by `rt try`)

A script has 2 to 9 nodes and 20 to 80 lines: links, cuts, filters, nodes that begin anew, questions about rest, `settle`, and now and then a node or
a name that is none.
Of `load` only the first word of the answer is compared: the slow program verifies no filter. Before each `settle` stands `reach`, and more rounds
than it says phases are a failure. A script that the two answer differently is written to
standard error with its number, and the exit status is 1.

With NCROUTE=PATH four more things are looked at. What `failures` says of each link is what `changes` and `reach` say once it is cut. What `changes`
and `draw V changes` say to stand still does: after a random `mark` links are made and cut, filters are set and nodes begin anew, and the routers of a
plain model, which are at rest as they were at the `mark`, do all that again and again, at one end before the other and among messages in a random
order, of which some are lost. Small plans of 2 to 4 nodes: of all distances that there could be, just one choice is a fixed point of Bellman's
equation, and it is the one that is answered, with the least next hops. And domains whose routers are runs of `ncroute run`: in whatever order they
send and receive their messages, they come to the routes that `ncroute domain` computes.
"""
import contextlib
import itertools
import random
import re
import subprocess
import sys

import domain_oracle
from lib import netchange
from lib.counts import Counts
from lib.processes import Process
from lib.program import Program, named

FILTERS = (
    "accept;",
    "reject;",
    "rip_metric = rip_metric + 1; accept;",
    "rip_metric = rip_metric + 3; accept;",
    "if net ~ [10.0.0.0/15+] then rip_metric = rip_metric + 2; accept;",
    "if net ~ [10.2.0.0/15+] then reject; accept;",
    "if net.len > 20 then reject; accept;",
    "if rip_metric > 2 then reject; accept;",
    "if rip_metric = 1 then rip_metric = rip_metric + 4; accept;",
)
NAMES = ("a", "b", "c")
QUESTIONS = ("route", "path", "table", "draw", "reach", "mark", "changes", "failures", "settle")


class Lines:
    """Random lines of a script for a domain of one size."""

    def __init__(self, numbers, size):
        self.numbers, self.size = numbers, size

    def node(self):
        return self.numbers.randrange(self.size + 1 if self.numbers.randrange(20) == 0 else self.size)

    def name(self):
        return self.numbers.choice(NAMES)

    def line(self):
        chosen = self.numbers.randrange(100)
        if chosen < 35:
            return f"link {self.node()} {self.node()}"
        if chosen < 45:
            return f"cut {self.node()} {self.node()}"
        if chosen < 60:
            return f"{self.numbers.choice(('import', 'export'))} {self.node()} {self.node()} {self.name()}"
        if chosen < 68:
            return f"load {self.name()} filter f {{ {self.numbers.choice(FILTERS)} }}"
        if chosen < 72:
            return f"anew {self.node()}"
        if chosen < 74:
            return f"prefix {self.node()} 10.{self.numbers.randrange(4)}.{self.numbers.randrange(3)}.0/24"
        verb = self.numbers.choice(QUESTIONS)
        words = [str(self.node()) for _ in range({"route": 2, "path": 2, "table": 1, "draw": 1}.get(verb, 0))]
        if verb == "draw" and self.numbers.randrange(2):
            words.append("changes")
        if verb == "failures" and self.numbers.randrange(2):
            words.append("nodes")
        return " ".join(["reach\nsettle" if verb == "settle" else verb, *words])

    def script(self):
        yield from (f"prefix {self.node()} 10.{self.numbers.randrange(4)}.7.0/24" for _ in range(self.numbers.randrange(2)))
        yield f"domain {self.size}"
        yield from (f"prefix {v} 10.{v % 4}.{v}.0/24" for v in range(self.size) if self.numbers.randrange(4) == 0)
        yield f"load a filter a {{ {self.numbers.choice(FILTERS)} }}"
        yield from (self.line() for _ in range(self.numbers.randint(20, 80)))
        yield from ("reach", "settle")
        yield from (f"table {u}" for u in range(self.size))


# ---- small plans, by all distances that there could be

# The filters of small plans, and what a distance from a node comes to under each.
SMALL_FILTERS = (
    ("same", "accept;", lambda size, node, dist: dist),
    ("up1", "rip_metric = rip_metric + 1; accept;", lambda size, node, dist: min(dist + 1, size)),
    ("up2", "rip_metric = rip_metric + 2; accept;", lambda size, node, dist: min(dist + 2, size)),
    ("not1", "if net ~ [10.1.0.0/16] then reject; accept;", lambda size, node, dist: size if node == 1 else dist),
    ("near", "if rip_metric > 1 then reject; accept;", lambda size, node, dist: size if dist > 1 else dist),
)


class SmallPlan:
    """A random plan of a few nodes."""

    def __init__(self, size, number):
        numbers = random.Random(f"{size} {number}")
        self.size, self.nodes = size, range(size)
        self.links = [pair for pair in itertools.combinations(self.nodes, 2) if numbers.randrange(4)]
        self.filters = {(kind, *pair): numbers.choice((None, None, None, *SMALL_FILTERS))
                        for kind in ("import", "export") for pair in itertools.permutations(self.nodes, 2)}

    def script(self):
        yield f"domain {self.size}"
        yield from (f"load {name} filter f {{ {body} }}" for name, body, _ in SMALL_FILTERS)
        yield from (f"link {u} {w}" for u, w in self.links)
        yield from (f"{kind} {u} {w} {used[0]}" for (kind, u, w), used in self.filters.items() if used)
        yield from (f"route {u} {v}" for v in self.nodes for u in self.nodes)

    def toll(self, u, w, node, dist):
        """What a distance of w comes to at u."""
        for used in (self.filters["export", w, u], self.filters["import", u, w]):
            dist = used[2](self.size, node, dist) if used else dist
        return dist

    def routes(self, node, dists):
        """The routes to a node where all are at these distances."""
        near = {u: [w for w in self.nodes if (min(u, w), max(u, w)) in self.links] for u in self.nodes}
        return [netchange.best(self.size, u == node, ((w, self.toll(u, w, node, dists[w])) for w in near[u])) for u in self.nodes]

    def answers(self):
        """The routes at rest, as they are told; nothing where there is not just one rest."""
        told = []
        for node in self.nodes:
            rests = []
            for dists in itertools.product(range(self.size + 1), repeat=self.size):
                routes = self.routes(node, dists)
                if all(dist == route[0] for dist, route in zip(dists, routes)):
                    rests.append(routes)
            if len(rests) != 1:
                return None
            told += [netchange.in_words(route, u == node) for u, route in enumerate(rests[0])]
        return told


def small_plans(ncroute):
    """How the routes of a small plan differ from those of its one rest, for each plan."""
    for size, count in ((2, 40), (3, 60), (4, 30)):
        for number in range(count):
            plan = SmallPlan(size, number)
            given = "".join(line + "\n" for line in plan.script()).encode()
            said = subprocess.run([ncroute, "domain"], input=given, capture_output=True).stdout.decode().splitlines()
            wanted = plan.answers()
            yield None if wanted is not None and said[-len(wanted):] == wanted else f"plan {size} {number}: {said}, and not {wanted}"


# ---- failures, by cutting one link after another


def asked_of(ncroute, script):
    """The answers to the lines of a script, of which just one is `failures`: its lines are one answer."""
    output = subprocess.run([ncroute, "domain"], input="\n".join(script).encode(), capture_output=True).stdout.decode().split("\n")
    answers = iter(output)
    return [[answer, *itertools.islice(answers, int(answer.split()[1]))] if answer.startswith("failures ") else answer for answer in answers]


def failures(ncroute, number):
    """How what `failures` says of the links of a random domain differs from what is said where each of them is cut."""
    numbers = random.Random(f"failures {number}")
    size = numbers.randint(2, 9)
    nodes = range(size)
    links = [pair for pair in itertools.combinations(nodes, 2) if numbers.randrange(3) == 0]
    script = [f"domain {size}", *(f"load {name} filter f {{ {numbers.choice(FILTERS)} }}" for name in NAMES), *(f"link {u} {w}" for u, w in links),
              *(f"{numbers.choice(('import', 'export'))} {u} {w} {numbers.choice(NAMES)}"
                for u, w in itertools.permutations(nodes, 2) if numbers.randrange(5) == 0), "mark", *(f"table {u}" for u in nodes)]
    begun = len(script) - size
    for u, w in links:
        script += ["mark", f"cut {u} {w}", "changes", "reach", *(f"table {node}" for node in nodes), f"link {u} {w}"]
    said = asked_of(ncroute, [*script, "failures"])
    wanted = [f"failures {len(links)}"]
    for place, (u, w) in enumerate(links):
        at = begun + size + place * (5 + size)
        changed, still = (answer.split() for answer in said[at + 2].removeprefix("changes").split(" still"))
        bounds = [int(word.split(":")[1]) for word in still]
        reached = [[int(word.split(":")[1]) < size for table in said[first:first + size] for word in table.split()[1:]] for first in (begun, at + 4)]
        lost = sum(before > after for before, after in zip(*reached))
        rounds = said[at + 3].split()[2]
        wanted.append(f"link {u} {w} changed {len(changed)} lost {lost} moved {len(bounds)} rounds {rounds} still {min(bounds, default=size)}")
    return None if said[len(script)] == wanted else f"failures {number}: {script}: {said[len(script)]}, and not {wanted}"


# ---- what stands still, in routers that do in any order what was done


class Changing:
    """A random domain that is marked, and what is done to it then, as lines of a script; and its routers, as they are at rest at the mark."""

    def __init__(self, numbers):
        self.numbers, self.size = numbers, numbers.randint(2, 8)
        pairs = list(itertools.combinations(range(self.size), 2))
        self.links = {pair for pair in pairs if numbers.randrange(5) < 2}
        set_up = [f"domain {self.size}", *(f"load {name} filter f {{ {numbers.choice(FILTERS)} }}" for name in NAMES),
                  *(f"link {u} {w}" for u, w in sorted(self.links)), *(self.new_filter() for _ in range(numbers.randrange(self.size)))]
        self.model = domain_oracle.Script()
        for number, line in enumerate([*set_up, "settle", "mark"], 1):
            self.model.answer(number, line)
        # What came or went, where filters were set, by who is told and who tells, and who began anew.
        self.loose, self.replaced, self.restarts = set(), set(), set()
        self.script = [*set_up, "mark", *(self.change(pairs) for _ in range(numbers.randint(1, 3)))]

    def new_filter(self):
        u, w = self.numbers.sample(range(self.size), 2)
        return f"{self.numbers.choice(('import', 'export'))} {u} {w} {self.numbers.choice(NAMES)}"

    def change(self, pairs):
        chosen = self.numbers.randrange(6)
        if chosen < 3:
            u, w = pair = self.numbers.choice(pairs)
            self.links ^= {pair}
            self.loose |= {pair, (w, u)}
            return f"{'link' if pair in self.links else 'cut'} {u} {w}"
        if chosen < 5:
            line = self.new_filter()
            u, w = (int(word) for word in line.split()[1:3])
            self.loose |= {(u, w), (w, u)}
            self.replaced.add((u, w) if line.startswith("import") else (w, u))
            return line
        u = self.numbers.randrange(self.size)
        self.restarts.add(u)
        self.loose |= {way for pair in self.links if u in pair for way in (pair, pair[::-1])}
        return f"anew {u}"

    def happens(self, domain):
        """A node begins anew, with the filters that it had; one end of a link comes up or goes down; a filter is replaced; messages are lost; or some
        are sent, or one is received."""
        numbers, chosen = self.numbers, self.numbers.randrange(12)
        if chosen == 0 and self.restarts:
            u = numbers.choice(sorted(self.restarts))
            for w in list(domain.routers[u].queues):
                domain.flight[w, u] = []
            new = netchange.Router(self.size, u)
            new.imports, new.exports = domain.routers[u].imports, domain.routers[u].exports
            domain.routers[u] = new
        elif chosen in (1, 2) and self.loose:
            u, w = numbers.choice(sorted(self.loose))
            (domain.down if w in domain.routers[u].queues else domain.up)(u, w)
        elif chosen == 3 and self.replaced:
            told, tells = numbers.choice(sorted(self.replaced))
            used = domain.under(domain_oracle.Filter(f"filter f {{ {numbers.choice(FILTERS)} }}"))
            if numbers.randrange(2):
                domain.routers[told].set_import(tells, used)
            else:
                domain.routers[tells].set_export(told, used)
        elif chosen == 4 and any(domain.flight.values()):
            way = numbers.choice([way for way, messages in sorted(domain.flight.items()) if messages])
            domain.flight[way] = domain.flight[way][:numbers.randrange(3)]
        else:
            waiting = [(way, True) for way in domain.ways() if domain.routers[way[0]].queues[way[1]]]
            steps = waiting + [(way, False) for way, messages in sorted(domain.flight.items()) if messages]
            if steps:
                (u, w), is_sent = numbers.choice(steps)
                if is_sent:
                    domain.send(u, w, numbers.randint(1, self.size))
                else:
                    domain.receive(u, w)


def stands_still(ncroute, number, moved):
    """Which route is another than it was, and was said to stand still; or none. Counts to `moved` the routes that changed at a bound."""
    changing = Changing(random.Random(f"still {number}"))
    nodes, size = range(changing.size), changing.size
    said = asked_of(ncroute, [*changing.script, "changes", *(f"draw {v} changes" for v in nodes)])
    # Behind the pictures there is an empty line.
    bounds = dict.fromkeys(nodes, size)
    bounds.update((int(v), int(bound)) for v, bound in (word.split(":") for word in said[-size - 2].split(" still")[1].split()))
    pictures = said[-size - 1:-1]
    kept = [["color=red" not in node for node in picture.split("]; ")[:size]] for picture in pictures]
    domain = changing.model.domain
    first = [[router.route(v) for v in nodes] for router in domain.routers]
    for _ in range(150):
        changing.happens(domain)
        for u, v in itertools.product(nodes, nodes):
            was, now = first[u][v], domain.routers[u].route(v)
            if now[0] != was[0] and (was[0] < bounds[v] or now[0] < bounds[v] or bounds[v] == size):
                return f"still {number}: {changing.script}: {u} to {v} at {now[0]}, and not at {was[0]}, below {bounds[v]}"
            if now != was and kept[v][u]:
                return f"still {number}: {changing.script}: {u} to {v} by {now[1]}, and not by {was[1]}"
            moved[0] += now[0] != was[0] and bounds[v] == min(was[0], now[0])
    return None


# ---- routers whose messages come in any order


def play(numbers, nodes, links):
    """Lets nodes send all that waits for another, and messages be received, in random order until nothing is left to do."""
    ways = [way for u, w in links for way in ((u, w), (w, u))]
    sent = {way: [] for way in ways}
    while True:
        waiting = [way for way in ways if sent[way]]
        if waiting and numbers.randrange(3):
            u, w = numbers.choice(waiting)
            node, dist = sent[u, w].pop(0)
            nodes[w].ask(f"recv {u} {node} {dist}")
            continue
        for u, w in [numbers.choice(ways)] if waiting else ways:
            sent[u, w] += [word.split(":") for word in nodes[u].ask(f"take {w}").split()[1:]]
        if not any(sent.values()):
            return


def any_order(ncroute, number):
    """How the routes of routers that were played in a random order differ from those of their domain."""
    numbers = random.Random(f"order {number}")
    size = numbers.randint(2, 6)
    links = [pair for pair in itertools.combinations(range(size), 2) if numbers.randrange(3)]
    loads = [f"load {name} filter f {{ {body} }}" for name, body, _ in SMALL_FILTERS]
    uses = [(numbers.choice(("import", "export")), u, w, numbers.choice(SMALL_FILTERS)[0])
            for u, w in itertools.permutations(range(size), 2) if numbers.randrange(4) == 0]
    asked = [f"route {u} {v}" for u in range(size) for v in range(size)]
    script = [f"domain {size}", *loads, *(f"link {u} {w}" for u, w in links), *(f"{kind} {u} {w} {name}" for kind, u, w, name in uses), *asked]
    wanted = subprocess.run([ncroute, "domain"], input="\n".join(script).encode(), capture_output=True).stdout.decode().splitlines()[-len(asked):]
    with contextlib.ExitStack() as stack:
        nodes = [stack.enter_context(Process([ncroute, "run", "--explain", "never"])) for _ in range(size)]
        for me, node in enumerate(nodes):
            for line in [f"network {size} {me}", *loads, *(f"{kind} {w} {name}" for kind, u, w, name in uses if u == me)]:
                node.ask(line)
        for u, w in links:
            nodes[u].ask(f"up {w}")
            nodes[w].ask(f"up {u}")
        if links:
            play(numbers, nodes, links)
        said = [node.ask(f"show {v}") for node in nodes for v in range(size)]
    return None if said == wanted else f"order {number}: {script}: {said}, and not {wanted}"


def without_numbers(text):
    """Answers, without what was found of a filter."""
    return re.sub(r"(?m)^verified .*$", "verified", text)


def row_of(nodes):
    """Nodes in a row, which take as many rounds to come to rest, and its last link cut, which takes as many again."""
    links = "".join(f"link {node} {node + 1}\n" for node in range(nodes - 1))
    return f"domain {nodes}\n{links}reach\nsettle\ncut 0 1\nreach\nsettle\n".encode()


def late_rounds(output):
    """The answers to `settle` that say more rounds than the answer to `reach` before them says phases."""
    lines = output.decode().split("\n")
    return [f"{before}: {line}" for before, line in zip(lines, lines[1:])
            if line.startswith("settled ") and int(line.split()[1]) > int(before.removeprefix("reach ").split()[1])]


def main(words):
    if len(words) > 2:
        sys.exit(__doc__)
    count, seed = (int(word) for word in (words + ["100", "1"][len(words):]))
    numbers, counts = random.Random(seed), Counts()
    scripts = [("\n".join(Lines(numbers, numbers.randint(2, 9)).script()) + "\n").encode() for _ in range(count)]
    scripts.append(row_of(56))
    asked = Program()
    said = asked.runs([("ncroute domain", script) for script in scripts])
    asked.close()
    for number, (script, (output, _)) in enumerate(zip(scripts, said)):
        answered, slow = without_numbers(output.decode()), "".join(domain_oracle.answers(script.decode().splitlines()))
        is_wrong = answered != slow or late_rounds(output)
        counts.judge(f"script {number}", is_wrong and f"\n{script.decode()}\nanswered\n{answered}\nslowly\n{slow}")
    if ncroute := named():
        moved = [0]
        for wrong in itertools.chain(small_plans(ncroute), (failures(ncroute, number) for number in range(1000)),
                                     (stands_still(ncroute, number, moved) for number in range(400)),
                                     (any_order(ncroute, number) for number in range(100))):
            counts.judge("routes", wrong)
        counts.expect("bounds", moved[0], "no route changed at a bound")
    counts.finish()


if __name__ == "__main__":
    main(sys.argv[1:])

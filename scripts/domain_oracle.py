#!/usr/bin/env python3
"""Answers the script of a domain slowly and plainly, from the definitions alone, to compare `ncroute domain` with.

usage: domain_oracle.py [FILE]        (without FILE, standard input)

Distances at rest are found by iteration: every node but the destination starts out of reach, and each takes one more than the least of what its
neighbours' distances come to, until no distance changes. `settle` plays Netchange, message by message. Filters are limited to
`filter NAME { STATEMENTS }` of `accept;`, `reject;`, `rip_metric = rip_metric + N;` and `if TEST then STATEMENT`, where a test compares `net.len` or
`rip_metric` with a number by `=`, `<` or `>`, or is `net ~ [ADDRESS/LENGTH+]`. Of `load` only the first word of the answer is written, `verified`;
there is no `code`. Scripts are taken to have no mistakes of words (O1, O2, O3, O7, O8), and no filter that is refused.
"""
import re
import sys

from lib import netchange
from lib.prefixes import masked, parsed


class Filter:
    """A filter of a few shapes, taken word by word."""

    def __init__(self, text):
        body = re.fullmatch(r"\s*filter\s+\w+\s*\{(.*)\}\s*", text).group(1)
        self.words = re.findall(r"\[[^]]*\]|[\w.]+|[^\s\w]", body)

    def apply(self, net, metric, size):
        """The metric that a route is accepted with, or the size of the domain."""
        if metric == size:
            return size
        at = 0
        while True:
            at, metric, verdict = self.statement(at, net, metric, size, True)
            if verdict is not None:
                return metric if verdict == "accept" else size

    def statement(self, at, net, metric, size, is_taken):
        word = self.words[at]
        if word in ("accept", "reject"):
            return at + 2, metric, word if is_taken else None
        if word == "if":
            left, compares, right = self.words[at + 1:at + 4]
            holds = self.holds(left, compares, right, net, metric)
            return self.statement(at + 5, net, metric, size, is_taken and holds)
        added = int(self.words[at + 4])
        return at + 6, min(size, metric + added) if is_taken else metric, None

    @staticmethod
    def holds(left, compares, right, net, metric):
        if compares == "~":
            address, length = parsed(right.strip("[] +"))
            return net[1] >= length and masked(net[0], length) == masked(address, length)
        value = net[1] if left == "net.len" else metric
        return {"=": value == int(right), "<": value < int(right), ">": value > int(right)}[compares]


class Domain(netchange.Domain):
    """A domain with prefixes."""

    def __init__(self, size):
        super().__init__(size)
        self.links = set()
        self.prefixes = [((10 << 24) + (v << 16), 16) for v in range(size)]

    def under(self, named):
        """What a distance becomes under a filter."""
        return lambda v, dist: named.apply(self.prefixes[v], dist, self.size)

    def routes_to(self, v):
        """The route of each node to one."""
        return netchange.rest(self.size, v, self.links, lambda u, w, dist: self.toll(u, w, v, dist))

    def all_routes(self):
        return [self.routes_to(v) for v in range(self.size)]


class Script:
    """What is answered to each line."""

    def __init__(self):
        self.domain, self.filters, self.marked, self.begun = None, {}, None, False
        # The links that came or went since the last `mark`, in both directions, and where filters were set, by who is told and who tells; before
        # any, None.
        self.loose, self.replaced = None, None

    def answer(self, number, line):
        verb, *words = line.split()
        domain = self.domain
        if verb == "domain":
            if domain:
                return f"refused O5 {number}"
            self.domain = Domain(int(words[0]))
            self.marked = self.domain.all_routes()
            return "ok"
        if domain is None:
            return f"refused O4 {number}"
        if verb == "prefix":
            if self.begun:
                return f"refused O5 {number}"
            if int(words[0]) >= domain.size:
                return f"refused O2 {number}"
            domain.prefixes[int(words[0])] = parsed(words[1])
            return "ok"
        if verb == "load":
            self.filters[words[0]] = Filter(line.split(None, 2)[2])
            return "verified"
        if verb in ("import", "export") and words[2] not in self.filters:
            return f"refused O6 {number}"
        self.begun = True
        nodes = [int(word) for word in words[:2] if word.isdigit()]
        pair = verb in ("link", "cut", "import", "export")
        if any(node >= domain.size for node in nodes) or pair and nodes[0] == nodes[1]:
            return f"refused D1 {number}"
        if verb == "link" and tuple(nodes) in domain.links:
            return f"refused D2 {number}"
        if verb == "cut" and tuple(nodes) not in domain.links:
            return f"refused D3 {number}"
        return getattr(self, verb)(*nodes, *words[len(nodes):])

    def loosen(self, u, w):
        if self.loose is not None:
            self.loose |= {(u, w), (w, u)}

    def replace(self, told, tells):
        self.loosen(told, tells)
        if self.replaced is not None:
            self.replaced.add((told, tells))

    def link(self, u, w):
        self.loosen(u, w)
        self.domain.links |= {(u, w), (w, u)}
        self.domain.up(u, w)
        self.domain.up(w, u)
        return "ok"

    def cut(self, u, w):
        self.loosen(u, w)
        self.domain.links -= {(u, w), (w, u)}
        self.domain.down(u, w)
        self.domain.down(w, u)
        return "ok"

    def export(self, u, w, name):
        self.replace(w, u)
        self.domain.routers[u].set_export(w, self.domain.under(self.filters[name]))
        return "ok"

    def anew(self, u):
        near = [w for w in range(self.domain.size) if (u, w) in self.domain.links]
        for change in (self.domain.down, self.domain.up):
            for w in near:
                self.loosen(u, w)
                change(u, w)
                change(w, u)
        return "ok"

    def route(self, u, v):
        return netchange.in_words(self.domain.routes_to(v)[u], u == v)

    def path(self, u, v):
        routes, on = self.domain.routes_to(v), [u]
        while on[-1] != v:
            if routes[on[-1]][1] is None:
                return "path none"
            on.append(routes[on[-1]][1])
        return "path " + " ".join(map(str, on))

    def table(self, u):
        rows = [routes[u] for routes in self.domain.all_routes()]
        return "table " + " ".join(f"{v}:{dist}" + (f":{via}" if via is not None else "") for v, (dist, via) in enumerate(rows))

    def both(self, v):
        """The routes to a node with each link that there was since the last `mark`, and without a filter where one was set; and those with the
        links alone to which nothing was done."""
        domain = self.domain

        def toll(u, w, dist):
            return dist if (u, w) in self.replaced else domain.toll(u, w, v, dist)

        return [netchange.rest(domain.size, v, links, toll) for links in (domain.links | self.loose, domain.links - self.loose)]

    def still_below(self, v):
        """Below which distance both have the same routes to a node: the size, if no distance is another."""
        return min((min(one, other) for (one, _), (other, _) in zip(*self.both(v)) if one != other), default=self.domain.size)

    def is_still(self, v, u):
        if self.loose is None:
            return False
        most, least = self.both(v)
        return most[u][0] < self.still_below(v) and most[u][1] == least[u][1]

    def looks(self, v, u, route, is_shown):
        """How a node looks in a picture of the routes to another."""
        looks = [f'label="{u} at {route[0]}"' if route[0] < self.domain.size else "style=dotted"]
        return ", ".join(looks + (["color=red"] if is_shown and not self.is_still(v, u) else []))

    def draw(self, v, *options):
        routes = self.domain.routes_to(v)
        nodes = [f"{u} [{self.looks(v, u, route, bool(options))}];" for u, route in enumerate(routes)]
        hops = [(u, via) for u, (_, via) in enumerate(routes) if via is not None]
        idle = [(u, w) for u, w in sorted(self.domain.links) if u < w and (u, w) not in hops and (w, u) not in hops]
        arrows = [f"{u} -> {w};" for u, w in hops] + [f"{u} -> {w} [dir=none, style=dotted];" for u, w in idle]
        return "digraph { " + " ".join(nodes + arrows) + " }"

    def reach(self):
        size, dists = self.domain.size, [dist for routes in self.domain.all_routes() for dist, _ in routes]
        return f"reach {max(dist for dist in dists if dist < size)} {min(max(dists) + 1, size)}"

    def mark(self):
        self.marked, self.loose, self.replaced = self.domain.all_routes(), set(), set()
        return "ok"

    def changes(self):
        now, size = self.domain.all_routes(), self.domain.size
        said = "changes" + "".join(f" {u}:{v}" for u in range(size) for v in range(size) if now[v][u] != self.marked[v][u])
        if self.loose is None:
            return said
        bounds = [(v, self.still_below(v)) for v in range(size)]
        return said + " still" + "".join(f" {v}:{bound}" for v, bound in bounds if bound < size)

    def failure(self, name, cut, gone=None):
        """The line that tells what changes where these links are cut. A node that is gone neither loses others nor is lost."""
        domain, size, links = self.domain, self.domain.size, self.domain.links
        before = domain.all_routes()
        domain.links = links - cut
        after = domain.all_routes()
        domain.links = links
        told = [node for node in range(size) if node != gone]
        pairs = [(before[v][u], after[v][u]) for v in told for u in told]
        both = [[{before[v][u][0], after[v][u][0]} for u in told] for v in told]
        bounds = [min((min(two) for two in dists if len(two) == 2), default=size) for dists in both]
        numbers = {
            "changed": sum(old != new for old, new in pairs),
            "lost": sum(old[0] < size == new[0] for old, new in pairs),
            "moved": sum(bound < size for bound in bounds),
            "rounds": min(max(dist for routes in after for dist, _ in routes) + 1, size),
            "still": min(bounds),
        }
        return " ".join([name, *(f"{word} {number}" for word, number in numbers.items())])

    def failures(self, *of_nodes):
        if of_nodes:
            lines = [self.failure(f"node {x}", {pair for pair in self.domain.links if x in pair}, x) for x in range(self.domain.size)]
        else:
            lines = [self.failure(f"link {u} {w}", {(u, w), (w, u)}) for u, w in sorted(self.domain.links) if u < w]
        return "\n".join([f"failures {len(lines)}", *lines])

    def settle(self):
        rounds = received = 0
        while count := self.domain.play_round():
            rounds, received = rounds + 1, received + count
        return f"settled {rounds} {received}"


def importing(script, u, w, name):
    script.replace(u, w)
    script.domain.routers[u].set_import(w, script.domain.under(script.filters[name]))
    return "ok"


# `import` is a word of Python's.
setattr(Script, "import", importing)


def answers(lines):
    """The answers to the lines of a script, each with its line feed."""
    script = Script()
    for number, line in enumerate(lines, 1):
        line = line.rstrip("\r\n")
        if line and not line.startswith("#"):
            yield script.answer(number, line) + "\n"


def main(words):
    with open(words[0], encoding="utf-8") if words else sys.stdin as text:
        for answer in answers(text):
            print(answer, end="", flush=True)


if __name__ == "__main__":
    main(sys.argv[1:])

#!/usr/bin/env python3
"""Holds a plain model of Netchange to the bounds that docs/DOMAIN.md gives: how soon routes are right, and what a failure cannot touch. It uses
nothing of the program. The last line is 'N passed, M failed'.

usage: scripts/check_phases.py [DOMAINS [SEED]]        (600 domains; 100000 take some minutes)

A model has 2 to 7 nodes, one destination, and filters that are any tables of metrics that never lower one. Each domain is brought into a random
state by links that come and go, by new filters, and by messages that are sent and received in a random order. Then nothing else happens, and four
things are looked at, each in a copy:
- phases: in a phase all is received that waited or was on its way at its start, in a random order; and now and then a link leaves out a message
  that a later one follows, which is then awaited in its place. After j phases each node that is at most j away has its distance and its next hop,
  and every other one is farther than j; after D + 1 phases, D being the longest distance, and after as many as there are nodes, nothing waits.
- rounds, as `settle` plays them: not more than either of both.
- limits: import filters let through nothing beyond a metric. After one phase more than that each distance is that of rest, and after one more
  nothing waits.
- failures far away: some links come and go, some routers begin anew, with the filters that they had or others, and some filters are replaced, and
  messages are lost anywhere. No distance below K changes where K is the least distance on which the state of rest with all of that and the one with
  nothing of it differ, nor a next hop that both have.

In a domain of its own whose filters keep order links are added, while messages are sent, received and left out: no distance rises, and what is
forwarded arrives. The same with any filters shows that it needs them.

That a bound is never reached fails too.
"""
import copy
import itertools
import random
import sys

from lib import netchange
from lib.counts import Counts


class Domain(netchange.Domain):
    """One destination, node 0, and any filters between each two nodes."""

    def __init__(self, numbers, size, keeps_order=False):
        super().__init__(size, nodes=(0,))
        self.keeps_order = keeps_order
        self.numbers, self.pairs = numbers, [(u, w) for u in range(size) for w in range(u + 1, size)]
        for u, router in enumerate(self.routers):
            for w in range(size):
                if u != w:
                    router.imports[w], router.exports[w] = self.any_filter(), self.any_filter()

    def any_filter(self):
        """What each metric becomes: never less, and at most the size; where filters keep order, never less than a lesser one does."""
        kind = self.numbers.randrange(3)
        if kind == 0:
            return None
        become = [x if kind == 1 and self.numbers.randrange(3) else self.numbers.randint(x, self.size) for x in range(self.size + 1)]
        if self.keeps_order:
            become = list(itertools.accumulate(become, max))
        return lambda _, dist: become[dist]

    def dists(self):
        return [router.dist[0] for router in self.routers]

    def routes(self):
        return [router.route(0) for router in self.routers]

    def are_up(self, u, w):
        return w in self.routers[u].queues

    def rest(self, links):
        """The routes at rest over some links."""
        return netchange.rest(self.size, 0, links, self.toll_to_0)

    def toll_to_0(self, u, w, dist):
        return self.toll(u, w, 0, dist)

    def pending(self, u, w):
        return len(self.flight.get((u, w), [])) + len(self.routers[u].queues[w])

    def random_step(self):
        """One that is possible, of sending some and receiving one; the way of what was received, if it is one, and whether there was a step."""
        waiting = [(way, True) for way in self.ways() if self.routers[way[0]].queues[way[1]]]
        steps = waiting + [(way, False) for way, messages in self.flight.items() if messages]
        if not steps:
            return None, False
        (u, w), is_sent = self.numbers.choice(steps)
        if is_sent:
            self.send(u, w, self.numbers.randint(1, len(self.routers[u].queues[w])))
            return None, True
        self.receive(u, w)
        return (u, w), True


def random_domain(numbers):
    """A domain in a state that links, filters and messages of before have left."""
    domain = Domain(numbers, numbers.randint(2, 7))
    events = numbers.randint(1, 30)
    for event in range(events):
        u, w = numbers.choice(domain.pairs)
        chosen = numbers.randrange(10)
        if chosen < 6 and not domain.are_up(u, w):
            domain.up(u, w)
            domain.up(w, u)
        elif chosen == 5:
            domain.down(u, w)
            domain.down(w, u)
        elif chosen in (6, 7):
            u, w = numbers.choice(((u, w), (w, u)))
            router = domain.routers[u]
            (router.set_export if chosen == 6 else router.set_import)(w, domain.any_filter())
        # It may come to rest between two of them, or be left in the midst.
        while event < events - 2 and numbers.randrange(40) and domain.random_step()[1]:
            pass
    return domain


class Reached:
    """How often a bound was reached."""

    def __init__(self):
        bounds = "routes", "longest route", "number of nodes", "rounds", "limits", "far failures", "filters that do not keep order"
        self.counts = dict.fromkeys(bounds, 0)

    def count(self, bound, when=True):
        self.counts[bound] += bool(when)


def leave_one_out(domain):
    """Leaves out a message that a later one follows, if there are two on some link: its link, its place and that of the later one."""
    flying = [way for way, ms in domain.flight.items() if len(ms) > 1]
    if not flying:
        return None
    way = domain.numbers.choice(flying)
    at = domain.numbers.randrange(len(domain.flight[way]) - 1)
    later = domain.numbers.randrange(at + 1, len(domain.flight[way]))
    domain.flight[way].pop(at)
    return way, at, later


def phase(domain, drops):
    """Steps until all is received, or replaced by what is received, that was pending at the start."""
    awaited = {way: domain.pending(*way) for way in domain.ways()}
    while any(awaited.values()):
        if drops and domain.numbers.randrange(4) == 0 and (left_out := leave_one_out(domain)):
            way, at, later = left_out
            if at < awaited[way]:
                awaited[way] = max(awaited[way] - 1, later)
            continue
        way, _ = domain.random_step()
        if way:
            awaited[way] = max(awaited[way] - 1, 0)


def check_phases(domain, drops, reached):
    size, wanted = domain.size, domain.rest(domain.ways())
    dists = [dist for dist, _ in wanted]
    longest = max(dists)
    was_right = domain.dists() == dists
    for number in range(size + 2):
        right = all(mine == route if route[0] <= number else mine[0] > number for mine, route in zip(domain.routes(), wanted))
        if not right:
            return f"after {number} phases {domain.dists()}, and not {dists}"
        if number == longest and not was_right:
            reached.count("routes", longest < size)
        was_right = domain.dists() == dists
        bound = min(longest + 1, size)
        if number == bound - 1 and not domain.is_quiet():
            reached.count("longest route" if longest + 1 <= size else "number of nodes")
        if number >= bound and not domain.is_quiet():
            return f"not quiet after {number} phases, distances {dists}"
        phase(domain, drops)
    return None


def check_rounds(domain, reached):
    longest, rounds = max(dist for dist, _ in domain.rest(domain.ways())), 0
    bound = min(longest + 1, domain.size)
    # What is on its way counts to the first round.
    while not domain.is_quiet():
        rounds += 1
        domain.play_round()
    reached.count("rounds", rounds == bound)
    return None if rounds <= bound else f"{rounds} rounds, the longest distance {longest}"


def check_limits(domain, drops, reached):
    """Each router rejects what it would take in at more than a limit."""
    limit = domain.numbers.randrange(domain.size)
    for u, w in itertools.permutations(range(domain.size), 2):
        domain.routers[u].set_import(w, limited(domain.routers[u].imports.get(w), limit, domain.size))
    dists = [dist for dist, _ in domain.rest(domain.ways())]
    for number in range(limit + 3):
        if number == limit and domain.dists() != dists:
            reached.count("limits")
        if number > limit and domain.dists() != dists:
            return f"after {number} phases with limit {limit} {domain.dists()}, and not {dists}"
        if number == limit + 2 and not domain.is_quiet():
            return f"not quiet after {number} phases with limit {limit}"
        phase(domain, drops)
    return None


def limited(used, limit, size):
    def filtered(node, dist):
        become = used(node, dist) if used else dist
        return become if become <= limit else size
    return filtered


def check_gains(numbers, keeps_order):
    """A domain at rest gains links; which node's distance rose, or what looped."""
    domain = Domain(numbers, numbers.randint(3, 7), keeps_order)
    for u, w in domain.pairs:
        if numbers.randrange(3) == 0:
            domain.up(u, w)
            domain.up(w, u)
    while domain.random_step()[1]:
        pass
    before = domain.dists()
    for _ in range(80):
        u, w = numbers.choice(domain.pairs)
        if numbers.randrange(12) == 0 and not domain.are_up(u, w):
            domain.up(u, w)
            domain.up(w, u)
        elif numbers.randrange(6) or not leave_one_out(domain):
            domain.random_step()
        dists, routes = domain.dists(), domain.routes()
        if risen := [node for node, (now, then) in enumerate(zip(dists, before)) if now > then]:
            return f"new links raise the distances of {risen} from {before} to {dists}"
        for node in range(domain.size):
            at, hops = node, 0
            while dists[at] < domain.size and at != 0 and hops <= dists[node]:
                at, hops = routes[at][1], hops + 1
            if dists[node] < domain.size and (at != 0 or hops > dists[node]):
                return f"what {node} forwards does not arrive: {routes}"
        before = dists
    return None


def check_failures(domain, reached):
    """Links, routers and filters far away change, in a domain that is quiet at the start."""
    numbers, size = domain.numbers, domain.size
    while domain.random_step()[1]:
        pass
    links = set(domain.ways())
    loose = {pair for pair in domain.pairs if numbers.randrange(4) == 0}
    restarts = [u for u in range(size) if numbers.randrange(8) == 0]
    loose |= {pair for pair in domain.pairs if pair[0] in restarts or pair[1] in restarts}
    # Of those that keep their filters the links alone that they have.
    keepers = [u for u in range(size) if numbers.randrange(8) == 0]
    loose |= {pair for pair in domain.pairs if (pair[0] in keepers or pair[1] in keepers) and pair in links}
    loose |= {(w, u) for u, w in loose}
    # Who is told, and who tells: where the filters between them may be replaced.
    replaced = {(u, w) for u, w in loose if numbers.randrange(4) == 0 or u in restarts or w in restarts}
    most = netchange.rest(size, 0, links | loose, lambda u, w, dist: dist if (u, w) in replaced else domain.toll_to_0(u, w, dist))
    least = domain.rest(links - loose)
    bound = min([size] + [min(a, b) for (a, _), (b, _) in zip(most, least) if a != b])
    near = [u for u, (dist, _) in enumerate(most) if dist < bound]
    for _ in range(60):
        change(domain, restarts, keepers, sorted(loose), sorted(replaced))
        for u in near:
            dist, hop = domain.routers[u].route(0)
            if dist != most[u][0] or most[u] == least[u] and hop != most[u][1]:
                return f"node {u} at {dist} by {hop}, with all {most}, with none {least}"
    reached.count("far failures", bound < size and any(domain.dists()[u] != bound for u, (dist, _) in enumerate(most) if dist == bound))
    return None


def begin_anew(domain, u, keeps):
    """A router ends, and another one is there, which has no session yet."""
    new = netchange.Router(domain.size, u, nodes=(0,))
    if keeps:
        new.imports, new.exports = domain.routers[u].imports, domain.routers[u].exports
    domain.routers[u] = new
    domain.flight = {(v, w): [] if w == u else messages for (v, w), messages in domain.flight.items()}


def change(domain, restarts, keepers, loose, replaced):
    """A router begins anew, a session that may comes or goes, a filter is replaced, messages are lost, or one is sent or received."""
    numbers, chosen = domain.numbers, domain.numbers.randrange(10)
    if chosen == 0 and restarts + keepers:
        u = numbers.choice(restarts + keepers)
        begin_anew(domain, u, keeps=u not in restarts)
    elif chosen == 1 and loose:
        u, w = numbers.choice(loose)
        (domain.down if domain.are_up(u, w) else domain.up)(u, w)
    elif chosen == 2 and replaced:
        u, w = numbers.choice(replaced)
        domain.routers[u].set_import(w, domain.any_filter())
    elif chosen == 3 and replaced:
        u, w = numbers.choice(replaced)
        domain.routers[w].set_export(u, domain.any_filter())
    elif chosen == 4:
        u, w = numbers.choice(domain.pairs)
        domain.flight[u, w] = domain.flight.get((u, w), [])[:numbers.randrange(3)]
    else:
        domain.random_step()


def check_domain(seed, number, reached):
    numbers = random.Random(f"{seed} {number}")
    domain = random_domain(numbers)
    return (check_phases(copy.deepcopy(domain), number % 2 == 1, reached)
            or check_rounds(copy.deepcopy(domain), reached)
            or check_limits(copy.deepcopy(domain), number % 2 == 1, reached)
            or check_gains(numbers, keeps_order=True)
            or reached.count("filters that do not keep order", check_gains(numbers, keeps_order=False))
            or check_failures(copy.deepcopy(domain), reached))


def main(words):
    if len(words) > 2 or not all(word.isdigit() for word in words):
        sys.exit(__doc__)
    count, seed = (int(word) for word in (words + ["600", "1"][len(words):]))
    reached, judged = Reached(), Counts()
    for number in range(count):
        judged.judge(f"domain {number}", check_domain(seed, number, reached))
    print("reached:", ", ".join(f"{bound} {times}" for bound, times in reached.counts.items()))
    if never := [bound for bound, times in reached.counts.items() if not times]:
        judged.judge("bounds", f"never reached: {', '.join(never)}")
    judged.finish()


if __name__ == "__main__":
    main(sys.argv[1:])

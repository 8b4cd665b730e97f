"""A plain model of Netchange, worked out from its rules: the tables of a router, the routers of a domain with what is on its way between them, and
the routes of a domain at rest.

A filter is a function of a node and of a distance to it that is less than the size of the domain: what the distance becomes. The size, or more, says
that the node is out of reach.
"""


def best(size, is_here, ways):
    """A route: its distance, and the least neighbour through whom it is had, or `None`. `ways` has each neighbour with its distance as it counts."""
    return (0, None) if is_here else min(((dist + 1, w) for w, dist in ways if dist + 1 < size), default=(size, None))


def in_words(route, is_here):
    """A route as the program writes it."""
    dist, hop = route
    return f"route {dist} " + ("local" if is_here else "none" if hop is None else f"via {hop}")


def rest(size, destination, links, toll):
    """The route of each node to a destination, at rest: every node but the destination starts out of reach, and each takes the best of what its
    neighbours' distances come to, which `toll` says, until no distance changes."""
    near = [[w for w in range(size) if (u, w) in links] for u in range(size)]
    routes, found = None, [best(size, u == destination, ()) for u in range(size)]
    while found != routes:
        routes = found
        found = [best(size, u == destination, ((w, toll(u, w, routes[w][0])) for w in near[u])) for u in range(size)]
    return routes


class Router:
    """The tables of a router: what each neighbour told, its distances to nodes (all of the domain, if none are named), and what waits for each
    neighbour. What changes distances answers how many it changed."""

    def __init__(self, size, me, nodes=None):
        self.size, self.me, self.nodes = size, me, range(size) if nodes is None else nodes
        self.told, self.queues, self.imports, self.exports = {}, {}, {}, {}
        self.dist = {v: 0 if v == me else size for v in self.nodes}

    def imported(self, w, v, dist):
        return self.filtered(self.imports.get(w), v, dist)

    def exported(self, w, v, dist):
        return self.filtered(self.exports.get(w), v, dist)

    def filtered(self, used, v, dist):
        return min(used(v, dist), self.size) if used and dist < self.size else dist

    def route(self, v):
        return best(self.size, v == self.me, ((w, self.imported(w, v, told[v])) for w, told in self.told.items() if v in told))

    def tell(self, w, nodes):
        self.queues[w] += [(v, self.exported(w, v, self.dist[v])) for v in nodes]

    def recompute(self, nodes):
        """Finds the distances to some nodes again, in which all are that may have changed, and tells each neighbour of those that did."""
        found = {v: self.route(v)[0] for v in sorted(nodes)}
        changed = {v: dist for v, dist in found.items() if dist != self.dist[v]}
        self.dist.update(changed)
        for w in self.queues:
            self.tell(w, changed)
        return len(changed)

    def up(self, w):
        self.told[w], self.queues[w] = {}, []
        self.tell(w, self.nodes)

    def down(self, w):
        del self.queues[w]
        return self.recompute(self.told.pop(w))

    def receive(self, w, v, dist):
        self.told[w][v] = dist
        return self.recompute([v])

    def take(self, w, most=None):
        """The messages that wait for a neighbour, or so many of them; they wait no more."""
        taken = self.queues[w][:most]
        del self.queues[w][:most]
        return taken

    def set_import(self, w, used):
        self.imports[w] = used
        return self.recompute(self.told.get(w, ()))

    def set_export(self, w, used):
        self.exports[w] = used
        if w in self.queues:
            self.tell(w, self.nodes)
        return 0


class Domain:
    """The routers of a domain, and the messages that are on their way: those from u to w are `flight[u, w]`."""

    def __init__(self, size, nodes=None):
        self.size, self.routers, self.flight = size, [Router(size, u, nodes) for u in range(size)], {}

    def ways(self):
        """The sessions: the router of each first node is up with the other one."""
        return [(u, w) for u, router in enumerate(self.routers) for w in router.queues]

    def up(self, u, w):
        """A session of u with w begins, for which the messages are new that u sends."""
        self.flight[u, w] = []
        self.routers[u].up(w)

    def down(self, u, w):
        """It ends, and what w sent to u is lost."""
        self.flight[w, u] = []
        self.routers[u].down(w)

    def send(self, u, w, most=None):
        self.flight.setdefault((u, w), []).extend(self.routers[u].take(w, most))

    def receive(self, u, w):
        """w receives what is first on its way from u, if its session with u is not over."""
        message = self.flight[u, w].pop(0)
        if u in self.routers[w].told:
            self.routers[w].receive(u, *message)

    def is_quiet(self):
        return not any(self.flight.values()) and not any(self.routers[u].queues[w] for u, w in self.ways())

    def play_round(self):
        """Sends all that waits, and then has all received that is on its way, in the order of the nodes: how many messages that are."""
        for way in self.ways():
            self.send(*way)
        count = sum(map(len, self.flight.values()))
        for way in sorted(self.flight):
            for _ in range(len(self.flight[way])):
                self.receive(*way)
        return count

    def toll(self, u, w, v, dist):
        """What a distance of w to a node comes to at u, under the filters between them."""
        return self.routers[u].imported(w, v, self.routers[w].exported(u, v, dist))

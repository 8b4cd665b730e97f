// The routes of a domain, and those where links or nodes have failed.
//
// The page has the routes at rest as the program found them. For each failure it would need as many again, so those are found here, by the links and
// by what each filter makes of each distance. What the program says of a failure is compared with what is found; see `Domain.differs`.

"use strict";

// Nothing has failed.
const NOTHING = { links: [], nodes: [] };

class Domain {
  constructor(data) {
    this.data = data;
    this.size = data.size;
    this.links = data.links.map((known) => known.link);
    this.tables = data.tables;
    // For each filter and destination the distances that each distance comes to.
    this.effects = data.filters.map((filter) => byNode(filter.effects, this.size));
    this.neighbours = this.findNeighbours();
  }

  // Of each node its neighbours, by number: the link to each, and the filters that what the node tells it passes, in their order.
  findNeighbours() {
    const neighbours = Array.from({ length: this.size }, () => []);
    this.data.links.forEach(({ link: [u, w], imports, exports }, number) => {
      neighbours[u].push({ node: w, link: number, filters: [exports[0], imports[1]] });
      neighbours[w].push({ node: u, link: number, filters: [exports[1], imports[0]] });
    });
    return neighbours.map((all) => all.sort((a, b) => a.node - b.node));
  }

  // What a distance from a node comes to, under filters that follow one another. The size says that there is no route: no filter sees it.
  under(filters, node, distance) {
    for (const filter of filters) {
      if (filter !== null && distance < this.size) {
        distance = this.effects[filter][node][distance];
      }
    }
    return distance;
  }

  // The neighbours of each node that are left where links and nodes have failed.
  left(failed) {
    const isLeft = (node) => !failed.nodes.includes(node);
    return this.neighbours.map((all, node) =>
      isLeft(node) ? all.filter((it) => isLeft(it.node) && !failed.links.includes(it.link)) : []);
  }

  // The route of each node to a destination, as the program finds them: no filter makes a distance less, so the nearest node that is not done has its
  // route for good, and its neighbours are offered the way through it.
  routesTo(destination, neighbours) {
    const routes = Array.from({ length: this.size }, () => [this.size, null]);
    const waiting = new Set(routes.keys());
    routes[destination] = [0, null];
    while (waiting.size) {
      let nearest = null;
      for (const node of waiting) {
        if (nearest === null || routes[node][0] < routes[nearest][0]) {
          nearest = node;
        }
      }
      waiting.delete(nearest);
      if (routes[nearest][0] === this.size) {
        break;
      }
      for (const { node, filters } of neighbours[nearest]) {
        const length = this.under(filters, destination, routes[nearest][0]) + 1;
        if (comesBefore(length, nearest, routes[node])) {
          routes[node] = [length, nearest];
        }
      }
    }
    return routes;
  }

  // The route of each node to each other where something has failed: a table of tables, as the data has them.
  tablesWithout(failed) {
    const neighbours = this.left(failed);
    const columns = Array.from({ length: this.size }, (_, node) => this.routesTo(node, neighbours));
    return columns.map((_, node) => columns.map((routes) => routes[node]));
  }

  // What a failure changes. The routes of nodes that fail do not count, nor those to them.
  failure(failed) {
    const tables = this.tablesWithout(failed);
    const told = [...tables.keys()].filter((node) => !failed.nodes.includes(node));
    const still = Array(this.size).fill(this.size);
    const changes = [];
    for (const from of told) {
      for (const to of told) {
        const before = this.tables[from][to];
        const after = tables[from][to];
        if (before[0] !== after[0]) {
          still[to] = Math.min(still[to], before[0], after[0]);
        }
        if (before[0] !== after[0] || before[1] !== after[1]) {
          changes.push({ from, to, before, after });
        }
      }
    }
    return { failed, tables, changes, still, counts: this.counts(changes, still, tables) };
  }

  // The numbers that the program says of a failure, too.
  counts(changes, still, tables) {
    const farthest = Math.max(...tables.map((table) => Math.max(...table.map(([distance]) => distance))));
    return {
      changed: changes.length,
      lost: changes.filter((it) => this.isLost(it)).length,
      moved: still.filter((bound) => bound < this.size).length,
      rounds: Math.min(farthest + 1, this.size),
      still: Math.min(...still),
    };
  }

  isLost({ before, after }) {
    return before[0] < this.size && after[0] === this.size;
  }

  // What the program says of a failure, where it says something: of one link, or of one node.
  known({ links, nodes }) {
    if (links.length + nodes.length !== 1) {
      return null;
    }
    const { failures } = this.data;
    return links.length ? failures.links[links[0]] : failures.nodes[nodes[0]];
  }

  // Whether what was found of a failure is not what the program says of it. Then one of both is wrong, and the page says so.
  differs({ failed, counts }) {
    const known = this.known(failed);
    return known !== null && Object.keys(counts).some((word) => counts[word] !== known[word]);
  }

  // The number of the link between two nodes; -1 where there is none.
  linkBetween(u, w) {
    return this.links.findIndex(([a, b]) => (a === u && b === w) || (a === w && b === u));
  }

  // How many links there are from a node to each other, at least; Infinity where no links lead there.
  hopsFrom(root) {
    const hops = Array(this.size).fill(Infinity);
    const queue = [root];
    hops[root] = 0;
    for (const node of queue) {
      for (const next of this.neighbours[node]) {
        if (hops[next.node] === Infinity) {
          hops[next.node] = hops[node] + 1;
          queue.push(next.node);
        }
      }
    }
    return hops;
  }
}

// Whether a way comes before a route: it is shorter, or as short through a lesser neighbour.
function comesBefore(length, hop, [distance, via]) {
  return length < distance || (length === distance && via !== null && hop < via);
}

// The distances of each node's group.
function byNode(groups, size) {
  const found = Array(size);
  for (const { distances, nodes } of groups) {
    for (const node of nodes) {
      found[node] = distances;
    }
  }
  return found;
}

// What is said in words: of links and routes, of failures, and of what filters do.

"use strict";

// What stands between the two ends of a link.
const LINKED = "\u2013";

class Words {
  constructor(domain) {
    this.domain = domain;
  }

  link(link) {
    return this.domain.links[link].join(LINKED);
  }

  failed({ links, nodes }) {
    const names = [...links.map((link) => `the link ${this.link(link)}`), ...nodes.map((node) => `node ${node}`)];
    return [...(names.length > 1 ? [names.slice(0, -1).join(", ")] : []), names.at(-1)].join(" and ");
  }

  ifFails(failed) {
    const isOne = failed.links.length + failed.nodes.length === 1;
    return `If ${this.failed(failed)} ${isOne ? "fails" : "fail"}`;
  }

  // A route: how far it is, and through whom.
  route([distance, via]) {
    return distance === this.domain.size ? "none" : via === null ? "here" : `${distance} via ${via}`;
  }

  routes(before, after) {
    return this.isSame(before, after) ? this.route(before) : `${this.route(before)} \u2192 ${this.route(after)}`;
  }

  isSame(before, after) {
    return before[0] === after[0] && before[1] === after[1];
  }

  // What a filter makes of distances, in runs of those that become as much more, or the same.
  effect(distances) {
    const { size } = this.domain;
    const runs = [];
    distances.forEach((to, from) => {
      const last = runs.at(-1);
      const isMore = last && to < size && last.to.at(-1) < size && to - from === last.to.at(-1) - (from - 1);
      const isAsMuch = last && to === last.to.at(-1) && (last.to.length === 1 || last.to[0] === to);
      if (isMore && (last.to.length === 1 || last.to[0] !== last.to.at(-1)) || isAsMuch) {
        last.to.push(to);
      } else {
        runs.push({ from, to: [to] });
      }
    });
    return runs.map(({ from, to }) => {
      const range = to.length === 1 ? `${from}` : `${from}\u2013${from + to.length - 1}`;
      const more = to[0] - from;
      const isSum = to.length === 1 || to[0] !== to.at(-1);
      const becomes = to[0] === size ? "rejected" : !isSum ? `become ${to[0]}` : more === 0 ? "kept" : `+${more}`;
      return `${range} ${becomes}`;
    }).join(", ");
  }

  nodes(nodes) {
    return nodes.length === this.domain.size ? "all nodes" : `${nodes.length === 1 ? "node" : "nodes"} ${ranges(nodes)}`;
  }
}

// Numbers in ascending order, those that follow one another as a range.
function ranges(numbers) {
  const found = [];
  for (const number of numbers) {
    const last = found.at(-1);
    if (last && last[1] === number - 1) {
      last[1] = number;
    } else {
      found.push([number, number]);
    }
  }
  return found.map(([first, last]) => (first === last ? `${first}` : `${first}\u2013${last}`)).join(", ");
}

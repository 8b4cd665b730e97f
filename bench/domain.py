#!/usr/bin/env python3
"""Writes an input of `ncroute domain`, as the plain program answers it too: a domain with random links and filters at both ends of each, for
what is received and for what is told; then `table U` for each node.

usage: domain.py [NODES [LINKS [SEED]]]

NODES is 2 to 250 (250), LINKS how many links there are (1,000, or all that there can be where these are fewer), SEED the seed of
the generator (1). The nodes are in one ring, so that all can be reached, and the other links are between random nodes. The same
words give the same bytes on every machine.
"""
import sys

from generate import Numbers

NODES = 250
LINKS = 1_000
SEED = 1

# The code files of two filters, whose runs take at most 11 and 10 instructions. One adds to the metric where it is small:
# `if rip_metric < 9 then rip_metric = rip_metric + 1; accept;`. One refuses a few prefixes' routes that are long:
# `if net ~ [ 10.7.0.0/16, 10.9.0.0/16 ] && rip_metric > 99 then reject; accept;`.
FILTERS = {
    "near": "4e4346310000000c13010000000931610006130100000001201424157071",
    "far": "4e434631000100020a0700001010100a090000101010000d12510061000513010000006332336000010200610001717071",
}


def links_of(nodes, count, numbers):
    """Links, each with its lesser node first, in the order in which they were chosen."""
    links = {}
    for u in range(nodes):
        w = (u + 1) % nodes
        links[min(u, w), max(u, w)] = None
    while len(links) < min(count, nodes * (nodes - 1) // 2):
        u, w = numbers.below(nodes), numbers.below(nodes)
        if u != w:
            links[min(u, w), max(u, w)] = None
    return list(links)


def lines_of(nodes, count, seed):
    numbers = Numbers(seed)
    yield f"domain {nodes}"
    for name, text in FILTERS.items():
        yield f"code {name} {text}"
    names = list(FILTERS)
    for u, w in links_of(nodes, count, numbers):
        yield f"link {u} {w}"
        for one, other in ((u, w), (w, u)):
            yield f"import {one} {other} {numbers.one_of(names)}"
            yield f"export {one} {other} {numbers.one_of(names)}"
    for u in range(nodes):
        yield f"table {u}"


def main(words):
    given = [int(word) for word in words[1:4]]
    nodes, links, seed = given + [NODES, LINKS, SEED][len(given):]
    if not 2 <= nodes <= 250:
        sys.exit("domain.py: NODES is 2 to 250")
    for line in lines_of(nodes, links, seed):
        print(line)


if __name__ == "__main__":
    main(sys.argv)

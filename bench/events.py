#!/usr/bin/env python3
"""Writes events for a router, as `bench_parts` and the plain program read them.

usage: events.py KIND SIZE

The router is node 0 of a domain of SIZE nodes, with the neighbours 1 to 4. KIND is
  changes     each message changes a route, and the neighbours' queues are emptied after every SIZE - 1 messages
  no_changes  no message changes a route
  show        looks at routes
  down_up     a neighbour goes down, comes back, tells all its distances, and the queues are emptied
  imports     a neighbour's import filter of 20 instructions is replaced by another, which changes each route through it
"""
import sys

NEIGHBOURS = range(1, 5)


def filter_of(added):
    """The file of a code of 20 instructions that adds a number to the metric three times."""
    adding = f"1301{added:08x}20142415"
    return f"4e43463100000014{adding * 3}1370"


def taken(neighbours=NEIGHBOURS):
    return [f"take {neighbour}" for neighbour in neighbours]


def told(neighbour, size, distance):
    return [f"recv {neighbour} {node} {distance(node)}" for node in range(1, size)]


def changes(size):
    return [], told(1, size, lambda node: 0) + taken() + told(1, size, lambda node: 5) + taken()


def no_changes(size):
    once = told(1, size, lambda node: 0) + taken()
    return once, [line for distance in (3, 4) for neighbour in (2, 3, 4) for line in told(neighbour, size, lambda node: distance)]


def show(size):
    return told(1, size, lambda node: node % 7), [f"show {node}" for node in range(size)]


def down_up(size):
    once = [line for neighbour in NEIGHBOURS for line in told(neighbour, size, lambda node: (node + neighbour) % 7)] + taken()
    return once, ["down 1"] + taken(NEIGHBOURS[1:]) + ["up 1"] + told(1, size, lambda node: (node + 1) % 7) + taken()


def imports(size):
    once = told(1, size, lambda node: 1) + told(2, size, lambda node: 6) + taken()
    return once, ["import 1 0"] + taken() + ["import 1 1"] + taken()


KINDS = {kind.__name__: kind for kind in (changes, no_changes, show, down_up, imports)}


def main(words):
    if len(words) != 2 or words[0] not in KINDS:
        sys.exit(__doc__)
    size = int(words[1])
    once, again = KINDS[words[0]](size)
    head = [f"network {size} 0", f"filter {filter_of(0)}", f"filter {filter_of(1)}"]
    print("\n".join(head + [f"up {neighbour}" for neighbour in NEIGHBOURS] + taken() + once + ["begin"] + again))


if __name__ == "__main__":
    main(sys.argv[1:])

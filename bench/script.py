#!/usr/bin/env python3
"""Writes an operator's script, as `ncroute run` and the plain program answer it.

usage: script.py KIND SIZE [LINES [SEED]]

The router is node 0 of a domain of SIZE nodes (2 to 250), and LINES lines follow the first ones. The same words give the same bytes on
every machine. KIND says what the lines are, of a hundred about:

  mixed     (200,000 lines) four neighbours, and a hundred filters loaded by `code`, each of which adds another number to the metric: 55 tell
            a distance (`recv`), 30 look at a route, 10 empty a queue, 2 replace a filter in force, 2 take a neighbour down and up again, and
            1 loads another code under a filter's name
  messages  (200,000) eight neighbours and no filters: 80 tell a distance, 10 look, 10 empty a queue
  dense     (40,000) each other node is a neighbour, and there are no filters: 80 tell a distance, 10 empty a queue, 10 take a neighbour down
            or up again
  case      (200,000) eight neighbours, each with the filter that is a `case` of 64 parts as its import filter: 80 tell a distance, 10 look,
            10 empty a queue
  imports   (20,000) eight neighbours, and the filters of `mixed`: 50 tell a distance, 40 replace an import filter, 10 empty a queue
"""
import sys

from generate import Numbers, case_of_64

LINES = {"mixed": 200_000, "messages": 200_000, "case": 200_000, "dense": 40_000, "imports": 20_000}
SEED = 1
FILTERS = 100


def code_line(filter_number, added):
    """A filter that adds a number to the metric, by the name `f` and its number."""
    return f"code f{filter_number} 4e4346310000000813" + f"01{added:08x}" + "201424157071"


class Script:
    """A script as far as it has come: which neighbours are up, and the numbers that its choices are made of."""

    def __init__(self, size, numbers, neighbours):
        self.size, self.numbers = size, numbers
        self.neighbours = range(1, min(size, neighbours + 1))
        self.is_up = dict.fromkeys(self.neighbours, True)

    def first_lines(self, filters):
        yield f"network {self.size} 0"
        for filter_number in range(filters):
            yield code_line(filter_number, filter_number % 3)
        for neighbour in self.neighbours:
            yield f"up {neighbour}"

    def message(self, neighbour):
        return f"recv {neighbour} {self.numbers.within(1, self.size - 1)} {self.numbers.below(self.size)}"

    def filter_name(self):
        return f"f{self.numbers.below(FILTERS)}"

    def turn(self, neighbour):
        """Takes a neighbour down, or up again."""
        self.is_up[neighbour] = not self.is_up[neighbour]
        return f"{'up' if self.is_up[neighbour] else 'down'} {neighbour}"

    def mixed_line(self, chosen, neighbour):
        if chosen < 30:
            return f"show {self.numbers.below(self.size)}"
        if not self.is_up[neighbour]:
            return self.turn(neighbour)
        if chosen < 86:
            return self.message(neighbour)
        if chosen < 96:
            return f"take {neighbour}"
        if chosen < 98:
            return f"{self.numbers.one_of(('import', 'export'))} {neighbour} {self.filter_name()}"
        if chosen < 99:
            return self.turn(neighbour)
        return code_line(self.numbers.below(FILTERS), self.numbers.below(3))

    def messages_line(self, chosen, neighbour):
        if chosen < 80:
            return self.message(neighbour)
        return f"show {self.numbers.below(self.size)}" if chosen < 90 else f"take {neighbour}"

    case_line = messages_line

    def dense_line(self, chosen, neighbour):
        if chosen < 10 or not self.is_up[neighbour]:
            return self.turn(neighbour)
        return f"take {neighbour}" if chosen < 20 else self.message(neighbour)

    def imports_line(self, chosen, neighbour):
        if chosen < 50:
            return self.message(neighbour)
        return f"import {neighbour} {self.filter_name()}" if chosen < 90 else f"take {neighbour}"


def script(kind, size, lines, numbers):
    made = Script(size, numbers, {"mixed": 4, "dense": size}.get(kind, 8))
    yield from made.first_lines(FILTERS if kind in ("mixed", "imports") else 0)
    if kind == "case":
        yield f"code parts {case_of_64()}"
        yield from (f"import {neighbour} parts" for neighbour in made.neighbours)
    line = getattr(made, f"{kind}_line")
    for _ in range(lines):
        yield line(numbers.below(100), numbers.one_of(made.neighbours))


def main(words):
    if not 2 <= len(words) <= 4 or words[0] not in LINES:
        sys.exit(__doc__)
    size, lines, seed = map(int, words[1:] + [LINES[words[0]], SEED][len(words) - 2:])
    print("\n".join(script(words[0], size, lines, Numbers(seed))))


if __name__ == "__main__":
    main(sys.argv[1:])

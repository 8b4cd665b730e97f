#!/usr/bin/env python3
"""Writes filters that look random, each with the routes that it is to be asked about, as `ask_bird.py` and `check_bird.py` read them.

usage: make_bird_filters.py THEME [FILTERS [SEED]]     (FILTERS: how many, 43; THEME: one of sets, prefixes, arithmetic, conditions, variables,
                                                         metrics, cases, whole)

Both Gomthau and BIRD 2.0.12 take these texts, and mean the same by them: a variable is declared before the brace and assigned before it is read, no
divisor is 0, no metric is assigned that is lower than the one received or higher than the size, which is 250, and no number is in two labels of a
`case`. What the two read differently is in `tests/bird/differences.filters`, which was written by hand.
"""
import random
import sys

from lib.prefixes import ALL, dotted, masked, written

FILTERS, SEED = 43, 1
THEMES = ("sets", "prefixes", "arithmetic", "conditions", "variables", "metrics", "cases", "whole")
ROUTES_OF_A_THEME, ROUTES_OF_A_FILTER = 160, 20
VARIABLES = {"int": "abc", "bool": "uv", "ip": "ij", "prefix": "pq"}
# How much one assignment raises the metric at most, of metrics of at most 100; a filter has at most eight.
MOST_RAISED = 15


class Writer:
    """Writes a filter of a theme."""

    def __init__(self, numbers, theme, nets):
        self.numbers, self.theme, self.nets, self.raised = numbers, theme, nets, 0
        # Only these themes read variables.
        self.has_variables = theme in ("variables", "whole")

    def one_of(self, some):
        return some[self.numbers.randrange(len(some))]

    def is_one_in(self, count):
        return self.numbers.randrange(count) == 0

    # -- operands

    def near(self):
        """An address near one of the routes, and the length of that route."""
        address, length = self.one_of(self.nets)
        return address ^ (1 << self.numbers.randrange(32) if self.is_one_in(4) else 0), length

    def length_near(self, length):
        return min(max(length + self.one_of((-8, -4, -2, -1, 0, 0, 0, 1, 2, 8)), 0), 32)

    def prefix(self):
        address, length = self.near()
        return written(address, self.length_near(length))

    def pattern(self):
        prefix, kind = self.prefix(), self.numbers.randrange(6)
        if kind < 3:
            return prefix + ("", "+", "-")[kind]
        length = int(prefix.split("/")[1])
        low = self.one_of((0, length, self.numbers.randrange(33)))
        return f"{prefix}{{{low},{self.one_of((low, 32, self.numbers.randrange(low, 33)))}}}"

    def set(self):
        return "[ " + ", ".join(self.pattern() for _ in range(self.one_of((1, 2, 3, 5, 14)))) + " ]"

    def number(self):
        found = self.one_of((0, 1, 2, 3, 8, 16, 24, 32, self.numbers.randrange(101), self.numbers.randrange(2**32), ALL))
        return hex(found) if self.is_one_in(8) else str(found)

    def int(self, depth):
        if depth == 0 or self.is_one_in(4):
            return self.one_of(("rip_metric", "net.len", self.number(), self.variable("int") or self.number()))
        sign = self.one_of("++--**/")
        left = self.int(depth - 1)
        if sign == "/":
            right = self.one_of((str(self.numbers.randrange(1, 300)), "(net.len + 1)", "(rip_metric + 3)"))
        else:
            right = self.int(depth - 1)
        return f"({left} {sign} {right})"

    def ip(self, depth):
        if depth > 0 and self.is_one_in(2):
            return f"{self.one_of(('net.ip', self.variable('ip') or 'net.ip'))}.mask({self.numbers.randrange(33)})"
        return self.one_of(("net.ip", dotted(self.near()[0]), self.variable("ip") or "net.ip"))

    def prefix_value(self):
        return self.one_of(("net", self.prefix(), self.variable("prefix") or "net"))

    def variable(self, kind):
        return self.one_of(VARIABLES[kind]) if self.has_variables else None

    def bool(self, depth):
        if depth > 0 and self.is_one_in(2):
            return self.compound(depth)
        return self.test()

    def compound(self, depth):
        if self.is_one_in(4):
            return f"!({self.bool(depth - 1)})"
        sign = self.one_of((" && ", " || "))
        parts = (self.bool(depth - 1) for _ in range(self.one_of((2, 2, 3))))
        return sign.join(f"({part})" if "&&" in part or "||" in part else part for part in parts)

    def test(self):
        kinds = {
            "sets": ("set",),
            "prefixes": ("prefix", "prefix", "ip", "length"),
            "arithmetic": ("int",),
            "metrics": ("int", "set"),
            "cases": ("number_set", "number_set", "set"),
        }.get(self.theme, ("set", "prefix", "ip", "int", "length", "bool", "alike"))
        return getattr(self, f"{self.one_of(kinds)}_test")()

    def set_test(self):
        return f"net {self.one_of(('~', '~', '!~'))} {self.set()}"

    def number_set_test(self):
        ranges = ", ".join(self.range(low, high) for low, high in self.ranges(self.one_of((1, 2, 3))))
        return f"{self.argument()} {self.one_of(('~', '~', '!~'))} [ {ranges} ]"

    def argument(self):
        return self.one_of(("net.len", "net.len", "rip_metric", "rip_metric", f"({self.int(1)})"))

    def ranges(self, count):
        """Ranges of small numbers, in any order, of which none shares a number with another."""
        ends = sorted(self.numbers.sample(range(102), 2 * count))
        ranges = [(low, low if self.is_one_in(3) else high) for low, high in zip(ends[::2], ends[1::2])]
        self.numbers.shuffle(ranges)
        return ranges

    def range(self, low, high):
        return str(low) if low == high else f"{low}..{high}"

    def prefix_test(self):
        return f"{self.prefix_value()} {self.one_of(('~', '!~', '=', '!='))} {self.prefix_value()}"

    def ip_test(self):
        if self.is_one_in(2):
            return f"{self.ip(1)} {self.one_of(('~', '!~'))} {self.prefix_value()}"
        return f"{self.ip(1)} {self.one_of(('=', '!=', '<', '<=', '>', '>='))} {self.ip(1)}"

    def length_test(self):
        return f"net.len {self.one_of(('=', '!=', '<', '<=', '>', '>='))} {self.numbers.randrange(33)}"

    def int_test(self):
        return f"{self.int(2)} {self.one_of(('=', '!=', '<', '<=', '>', '>='))} {self.int(2)}"

    def bool_test(self):
        return self.one_of(("true", "false", "defined(net)", "defined(rip_metric)", self.variable("bool") or "true"))

    def alike_test(self):
        """Two bools, compared."""
        return f"({self.test_of_two()}) {self.one_of(('=', '!='))} ({self.test_of_two()})"

    def test_of_two(self):
        return self.one_of((self.length_test, self.set_test, self.int_test))()

    # -- commands

    def verdict(self):
        return self.one_of(("accept", "accept", "reject")) + self.one_of(("", "", "", ' "as written"')) + ";"

    def assignment(self):
        if self.theme in ("metrics", "whole", "arithmetic", "cases") and self.raised < 8 and self.is_one_in(2):
            self.raised += 1
            return f"rip_metric = {self.raise_of_metric()};"
        if not self.has_variables:
            return None
        kind = self.one_of(tuple(VARIABLES))
        value = {"int": lambda: self.int(2), "bool": lambda: self.bool(1), "ip": lambda: self.ip(1), "prefix": self.prefix_value}[kind]()
        return f"{self.one_of(VARIABLES[kind])} = {value};"

    def raise_of_metric(self):
        by = self.numbers.randrange(MOST_RAISED + 1)
        return self.one_of((f"rip_metric + {by}", f"{by} + rip_metric", f"rip_metric + net.len / {self.numbers.randrange(3, 9)}",
                            f"rip_metric + {by} - {self.numbers.randrange(by + 1)}"))

    def case(self, depth):
        """A `case`. Each part has a command: BIRD ends where one has none."""
        labels, ranges = [], self.ranges(self.one_of((1, 2, 3, 5)))
        while ranges:
            count = self.one_of((1, 1, 2))
            labels.append(", ".join(self.range(low, high) for low, high in ranges[:count]))
            ranges = ranges[count:]
        if not self.is_one_in(3):
            labels.insert(self.numbers.randrange(len(labels) + 1), "else")
        parts = (f"{label}: " + " ".join(self.command(depth - 1) for _ in range(self.one_of((1, 1, 1, 2)))) for label in labels)
        return f"case {self.argument()} {{ {' '.join(parts)} }}"

    def command(self, depth):
        if self.theme == "cases" and depth > 0 and self.is_one_in(4 - depth):
            return self.case(depth)
        if depth == 0 or self.is_one_in(3):
            return self.assignment() or self.verdict()
        text = f"if {self.bool(2)} then {self.branch(depth - 1)}"
        return text + (f" else {self.branch(depth - 1)}" if self.is_one_in(2) else "")

    def branch(self, depth):
        """What a condition leads to. In braces, so that no `else` can be taken for another `if`'s."""
        return "{ " + " ".join(self.command(depth) for _ in range(self.one_of((1, 1, 2)))) + " }"

    def filter(self, name):
        lines = [f"filter {name}"]
        if self.has_variables:
            lines += [f"{kind} {letter};" for kind, letters in VARIABLES.items() for letter in letters]
        lines.append("{")
        if self.has_variables:
            lines += self.first_values()
        lines += [f"  {self.command(2)}" for _ in range(self.one_of((1, 2, 3, 5)))]
        if not self.is_one_in(6):
            lines.append(f"  {self.verdict()}")
        return "\n".join(lines + ["}"])

    def first_values(self):
        was, self.has_variables = self.has_variables, False
        values = {"int": lambda: self.int(1), "bool": self.length_test, "ip": lambda: self.ip(1), "prefix": self.prefix_value}
        lines = [f"  {letter} = {values[kind]()};" for kind, letters in VARIABLES.items() for letter in letters]
        self.has_variables = was
        return lines


def routes_of_theme(numbers):
    """Prefixes that BIRD takes (none of network 0, loopback and multicast), each with a metric; many of them lie within others."""
    found = {}
    while len(found) < ROUTES_OF_A_THEME:
        length = numbers.randrange(33)
        network = numbers.randrange(1, 6) * 37 << 24 | numbers.randrange(4) << 20
        address = masked(network | numbers.randrange(2**32) >> numbers.randrange(8, 32), length)
        if length == 0 or address >> 24 in range(1, 224) and address >> 24 != 127:
            found[address, length] = numbers.randrange(101)
    return found


def main(words):
    if not 1 <= len(words) <= 3 or words[0] not in THEMES:
        sys.exit(__doc__)
    count, seed = map(int, words[1:] + [FILTERS, SEED][len(words) - 1:])
    numbers = random.Random(f"{words[0]} {seed}")
    routes = routes_of_theme(numbers)
    print(f"# Filters on {words[0]}, and what BIRD answers to routes (scripts/ask_bird.py).")
    for number in range(count):
        asked = numbers.sample(sorted(routes), ROUTES_OF_A_FILTER)
        print("\n" + Writer(numbers, words[0], asked).filter(f"{words[0]}_{number}"))
        for net in asked:
            print(f"# {written(*net)} {routes[net]}:")


if __name__ == "__main__":
    main(sys.argv[1:])

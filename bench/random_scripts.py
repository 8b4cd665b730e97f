#!/usr/bin/env python3
"""Has the proved program and the plain one answer random scripts, most of them with mistakes, and compares every byte.

usage: random_scripts.py NCROUTE PLAIN SCRIPTS [SEED]

A script has 3 to 200 lines: known and unknown commands, with numbers, names, prefixes and code files that fit and others that do not, now and then
with a word too many or too few, other blanks, CR, comments, and no line feed at the end. There is no `load`, as the plain program has no compiler.
A script that the two answer differently, or end with another status, is written to standard error with its number, and the exit status is 1.
"""
import subprocess
import sys

from generate import Numbers

SIZES = (2, 3, 4, 8, 64, 250)
CODES = ("4e43463100000008130100000002201424157071", "4e4346310000000170", "4E4346310000000171", "4e434631000000017000", "4e4346", "zz", "4e4")
NAMES = ("A", "B", "a", "_x", "x1", "1A", "a-b", "A" * 63, "A" * 64, "A" * 65)
NUMBERS = ("65535", "65536", "x", "-1", "+1", "", "4294967296", "99999999999999999999", "1x")
PREFIXES = ("10.0.0.0/8", "1.2.3.4/32", "0.0.0.0/0", "10.0.0.0/33", "10.0.0.0", "1.2.3/8", "10.0.0.300/8", "010.0.0.0/08")
COMMANDS = (
    "network", "prefix", "code", "import", "export", "up", "up", "down", "recv", "recv", "recv", "recv", "take", "take", "show", "show",
    "Up", "jump", "", "# c", " # c", "up1",
)


class Lines:
    """Random lines of scripts for a domain of one size."""

    def __init__(self, numbers, size):
        self.numbers, self.size = numbers, size

    def is_one_in(self, count):
        return self.numbers.below(count) == 0

    def number(self, most):
        if self.is_one_in(25):
            return self.numbers.one_of(NUMBERS)
        return "0" * (self.numbers.below(50) if self.is_one_in(20) else 0) + str(self.numbers.below(most + 2))

    def words(self, command):
        one_of, size = self.numbers.one_of, min(self.size, 4)
        if command == "network":
            return [self.number(self.size), self.number(size - 2)] + ([self.number(9)] if self.is_one_in(3) else [])
        if command == "prefix":
            return [self.number(size), one_of(PREFIXES)]
        if command == "code":
            return [one_of(NAMES), one_of(CODES)]
        if command in ("import", "export"):
            return [self.number(size), one_of(NAMES)]
        return [self.number(size) for _ in range({"up": 1, "down": 1, "take": 1, "show": 1, "recv": 3}.get(command, 0))]

    def line(self):
        one_of = self.numbers.one_of
        command = one_of(COMMANDS)
        words = [command] + self.words(command)
        if self.is_one_in(20):
            words = words + ["x"] if self.is_one_in(2) else words[:-1]
        blank = one_of((" ", " ", " ", "\t", "  ", " \t "))
        front, end = one_of(("", "", "", "", "", "", " ", "\t")), one_of(("", "", "", "", "", "", " ", "\t \t"))
        return front + blank.join(words) + end + one_of(("\n",) * 9 + ("\r\n",))


def script(numbers):
    size = numbers.one_of(SIZES)
    lines = Lines(numbers, size)
    text = []
    if numbers.below(10) > 0:
        text.append(f"network {size} {numbers.below(size)}{numbers.one_of(('',) * 5 + (' 7', ' 30'))}\n")
    if numbers.below(10) > 2:
        text += [f"code {name} {numbers.one_of(CODES[:3])}\n" for name in NAMES[:3]]
    text += [f"up {node}\n" for node in range(1, 4) if numbers.below(2)]
    text += [lines.line() for _ in range(numbers.one_of((3, 20, 200)))]
    whole = "".join(text)
    return whole if numbers.below(3) else whole.rstrip("\n")


def main(words):
    if len(words) not in (3, 4):
        sys.exit(__doc__)
    numbers = Numbers(int(words[3]) if len(words) > 3 else 1)
    lines = refused = 0
    for at in range(int(words[2])):
        given = script(numbers).encode()
        first, second = (subprocess.run([program, "run"], input=given, capture_output=True) for program in words[:2])
        if (first.stdout, first.returncode) != (second.stdout, second.returncode):
            sys.stderr.write(f"script {at} is answered differently:\n{given.decode()}\n")
            sys.exit(1)
        lines += first.stdout.count(b"\n")
        refused += first.stdout.count(b"refused")
    print(f"{words[2]} scripts are answered alike: {lines} answers, {refused} of them refusals")


if __name__ == "__main__":
    main(sys.argv[1:])

#!/usr/bin/env python3
"""Counts what `ncroute run` takes for scripts that name filters, and prints a table: the instructions of each script, and their ratio to the first.

usage: names.py NCROUTE

A script names 9,000 filters, and the later 2,000 of them twenty times more. Names are as they come; or collide, so that a table by std's hash,
which has no secret, would look for all of them at one place; or begin alike, for 56 of their 64 letters. An answer that is wrong is said, and the
status is 1. valgrind counts.
"""
import itertools
import os
import subprocess
import sys
import tempfile

from compare import instructions

CODE = b"4e434632000000000170"
NAMES, AGAIN, TIMES = 9000, 2000, 20

# What std's hash multiplies by and begins with, the letters of names, and how many bits of a hash choose a place.
MULTIPLIER, SEED = 0x9E3779B97F4A7C15, 0x243F6A8885A308D3
LETTERS = b"ABCDEFGHIJKLMNOPQRSTUVWXYZ_abcdefghijklmnopqrstuvwxyz0123456789"
BITS = 10


def folded(number, by):
    product = number * by
    return product & 2**64 - 1 ^ product >> 64


def colliding():
    """Names of 8 letters whose hashes agree in the bits that choose a place."""
    step = MULTIPLIER ^ 2
    letters = [letter * 0x010101 for letter in LETTERS]
    for front in itertools.product(letters[:53], *[letters] * 6):
        state = folded(SEED ^ 8, MULTIPLIER ^ 16)
        for letter in front:
            state = folded(state ^ letter, step)
        for letter in letters:
            product = (state ^ letter) * step
            hashed = product & 2**64 - 1 ^ product >> 64
            if not (hashed ^ hashed >> 32) & 2**BITS - 1:
                yield bytes(it & 255 for it in front + (letter,))


def script(names):
    """The lines of a script, of which each names a filter, and its answers."""
    lines = [b"code %s %s\n" % (name, CODE) for name in names + names[-AGAIN:] * TIMES]
    return b"network 4 0\n" + b"".join(lines), b"ok\n" + b"verified 1 0\n" * len(lines)


def main():
    if len(sys.argv) != 2:
        sys.exit(__doc__)
    command = [os.path.abspath(sys.argv[1]), "run"]
    kinds = [
        ("as they come", [b"N%07d" % (number * 7919 % 10_000_000) for number in range(NAMES)]),
        ("that collide", list(itertools.islice(colliding(), NAMES))),
        ("of 64 letters, 56 of them alike", [b"n" * 56 + b"%08d" % number for number in range(NAMES)]),
    ]
    print("| Names | M instructions | ratio |\n|---|---|---|")
    first = None
    with tempfile.TemporaryDirectory() as folder:
        for kind, names in kinds:
            given, wanted = script(names)
            path = f"{folder}/script"
            with open(path, "wb") as out:
                out.write(given)
            with open(path, "rb") as lines:
                if subprocess.run(command, stdin=lines, stdout=subprocess.PIPE, check=False).stdout != wanted:
                    sys.exit(f"names {kind}: a name was not taken")
            count = instructions(command, path)
            first = first or count
            print(f"| {kind} | {count / 1e6:.1f} | {count / first:.2f} |", flush=True)


if __name__ == "__main__":
    main()

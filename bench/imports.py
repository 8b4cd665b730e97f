#!/usr/bin/env python3
"""Counts what `ncimport` takes for configurations of more and more filters, and prints a table: the instructions of each, and those of a
filter.

usage: imports.py NCIMPORT

Each filter has a set of 250 prefixes, a line each. What is not imported is said, and the status is 1. valgrind counts.
"""
import os
import subprocess
import sys
import tempfile

from compare import instructions

COUNTS = (100, 200, 400, 800)
PREFIXES = 250


def configuration(count):
    """A configuration of so many filters."""
    filters = []
    for number in range(count):
        prefixes = ",\n".join(f"    10.{(number * 7 + at) % 256}.{at}.0/24" for at in range(PREFIXES))
        filters.append(f"filter f{number} {{\n  if net ~ [\n{prefixes}\n  ] then accept;\n  reject;\n}}\n")
    return "".join(filters).encode()


def main():
    if len(sys.argv) != 2:
        sys.exit(__doc__)
    command = [os.path.abspath(sys.argv[1]), "--size", "16"]
    print("| Filters | MB | M instructions | of a filter |\n|---|---|---|---|")
    with tempfile.TemporaryDirectory() as folder:
        for count in COUNTS:
            path = f"{folder}/configuration"
            with open(path, "wb") as out:
                size = out.write(configuration(count))
            with open(path, "rb") as given:
                lines = subprocess.run(command, stdin=given, stdout=subprocess.PIPE, check=False).stdout.splitlines()
            if len(lines) != count or not all(b" verified " in line for line in lines):
                sys.exit(f"{count} filters: one was not imported")
            taken = instructions(command, path) / 1e6
            print(f"| {count} | {size / 1e6:.2f} | {taken:,.1f} | {taken / count:.3f} |", flush=True)


if __name__ == "__main__":
    main()

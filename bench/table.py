#!/usr/bin/env python3
"""Prints how many instructions `ncroute` and the plain program take on each input: the first table of README.md, in Markdown.

usage: table.py NCROUTE PLAIN ROUNDS FOLDER [COMMAND]

With COMMAND, `eval`, `check` or `run`, the rows of that command alone. FOLDER is where the inputs are written, by `generate.py` and `script.py`.
Where the two programs differ on one, in output or exit status, that is said and the status is 1; nothing is counted then. Instructions are
counted by valgrind, those of the program's start among them. With ROUNDS over 0 each program is also run so many times on each input, by turns,
and the table has the least processor time of each.
"""
import os
import subprocess
import sys

from compare import agree, instructions, seconds

HERE = os.path.dirname(os.path.realpath(__file__))
SIZES = (16, 64, 250)

# What an input is, and the words that write it.
EVAL = (
    ("200,000 routes through ACCEPT alone", "accept_alone"),
    ("200,000 routes through a filter that adds 2 to the metric", "add_two_and_clip"),
    ("200,000 routes through a test for a set of 1,024 patterns", "set_of_1024"),
    ("200,000 routes through a `case` of 64 parts", "case_of_64"),
    ("100,000 routes through 1,000 instructions of arithmetic and branches", "straight_filter"),
    ("the same, all routes of a domain of 64 nodes", "straight_filter 100000 1 64"),
)
CHECK = (
    ("61 KB of tests for sets of 100 patterns each", "text_of_sets"),
    ("60 KB of arithmetic, refused for its length", "text_of_expressions"),
    ("2 KB: a `case` of 64 parts, three ranges a label", "text_of_case"),
    ("60 KB: a `case` of 64 parts, 58 ranges a label", "text_of_labels"),
)
RUN = (
    ("200,000 lines of all sorts, with filters that change", "mixed"),
    ("200,000 lines without filters, eight neighbours", "messages"),
    ("200,000 lines, what eight neighbours tell goes through a `case` of 64 parts", "case"),
    ("40,000 lines without filters, all other nodes are neighbours", "dense"),
    ("20,000 lines, two in five replace an import filter", "imports"),
)


def rows():
    """For each row its command, what its input is, the words that write it, and its file's name."""
    for label, words in EVAL:
        yield "eval", label, ["generate.py", *words.split()], words.replace(" ", "_")
    for label, name in CHECK:
        yield "check --size 64", label, ["generate.py", name], name
    for label, kind in RUN:
        for size in SIZES:
            yield "run", f"{label}; {size} nodes", ["script.py", kind, str(size)], f"{kind}_{size}"
    for size in SIZES:
        label = f"990,000 lines without filters, eight neighbours; {size} nodes"
        yield "run", label, ["script.py", "messages", str(size), "990000"], f"million_{size}"


def written(words, path):
    """The path of an input, which is written there."""
    with open(path, "wb") as out:
        subprocess.run([sys.executable, os.path.join(HERE, words[0]), *words[1:]], stdout=out, check=True)
    return path


def in_millions(count):
    return f"{count / 1e6:,.2f} M" if count < 1e8 else f"{count / 1e6:,.1f} M"


def compared(show, proved, plain):
    """Three cells: both numbers and their ratio."""
    return f"{show(proved)} | {show(plain)} | {proved / plain:.2f}"


def cells(programs, rounds, path):
    counted = compared(in_millions, *(instructions(program, path) for program in programs))
    if rounds == 0:
        return counted
    taken = [[seconds(program, path) for program in programs] for _ in range(rounds)]
    return f"{counted} | {compared(lambda least: f'{least * 1000:,.1f} ms', *map(min, zip(*taken)))}"


def main(words):
    if not 4 <= len(words) <= 5:
        sys.exit(__doc__)
    programs, rounds, folder = [os.path.abspath(word) for word in words[:2]], int(words[2]), words[3]
    print(f"| Command | Input | proved, instructions | plain | ratio |{' proved, time | plain | ratio |' if rounds else ''}")
    print("|---|---|---|---|---|" + ("---|---|---|" if rounds else ""))
    for command, label, generator, name in rows():
        if words[4:] not in ([], command.split()[:1]):
            continue
        path = written(generator, os.path.join(folder, name))
        started = [[program, *command.split()] for program in programs]
        if not agree(*started, path):
            sys.exit(1)
        print(f"| `{command.split()[0]}` | {label} | {cells(started, rounds, path)} |", flush=True)
        os.remove(path)


if __name__ == "__main__":
    main(sys.argv[1:])

#!/usr/bin/env python3
"""Runs each example of the documents that takes a filter from a file into a router or a domain, in a copy of the repository where each
filter in `examples/` has a mistake: no neighbour comes up, and no route is found. In a copy without a mistake one does, or one is. Prints a
line for each example where that is not so, and at last 'N passed, M failed'.

usage: NCROUTE=PATH scripts/check_broken_filters.py     (PATH: the program)
"""
import os
import pathlib
import re
import shutil
import tempfile

from lib import documents
from lib.counts import Counts
from lib.program import TOP, Program, built

# A filter of a file that gets into a script.
TAKES_FILTER = re.compile(r"examples/\w+\.filter.*\bncroute (run|domain)\b|\bncroute run\b.*examples/\w+\.filter")
IN_FORCE = re.compile(r"^(opened \d+|done [1-9]\d*|route \d+ via \d+|path \d.*)$", re.M)
MISTAKES = {"a word that is none": ("accept;", "acept;"), "a division by zero": ("accept;", "rip_metric = 1 / 0; accept;")}
NO_MISTAKE = {"no mistake": ("accept;", "accept;")}


def examples():
    """The examples that take a filter from a file, each with the document that has it."""
    return [(page, command) for page in documents.names() for command, _ in documents.examples(documents.read(page)) if TAKES_FILTER.search(command)]


def mistaken(folder, right, wrong):
    """A copy of the examples, where each filter has the mistake."""
    shutil.copytree(TOP / "examples", os.path.join(folder, "examples"))
    for path in pathlib.Path(folder).glob("examples/*.filter"):
        text = path.read_text(encoding="utf-8")
        assert right in text, path
        path.write_text(text.replace(right, wrong), encoding="utf-8")


def main():
    built()
    ncroute, counts = Program(), Counts()
    with tempfile.TemporaryDirectory() as folder:
        for name, mistake in {**NO_MISTAKE, **MISTAKES}.items():
            copy = os.path.join(folder, name)
            mistaken(copy, *mistake)
            for page, command in examples():
                wrote = ncroute.shell(command, where=copy)[0].decode()
                found = IN_FORCE.search(wrote)
                wrong = bool(found) != (name in NO_MISTAKE)
                counts.judge(page, wrong and f"with {name} `{command}` answers {found[0] if found else wrote!r}")
    ncroute.close()
    counts.finish()


if __name__ == "__main__":
    main()

#!/usr/bin/env python3
"""Asks BIRD what it answers to the filters of `tests/bird/`, and compares that with what stands there. Prints each block that differs, and at last
'N passed, M failed'.

usage: ask_bird.py [--write] [FILE..]     (FILE: in place of all; --write: writes what BIRD answers where no answer stands yet)

Needs BIRD 2.0 (`bird`, `birdc`, as Debian's package bird2 has them). Each file has a daemon of its own, without any interface, which gets the routes
as static ones with their metrics, and is asked which of them each filter accepts.
"""
import os
import sys
import tempfile

from lib import bird
from lib.counts import Counts


def asked(blocks):
    """What BIRD answers to each block; None where it does not take the text."""
    with tempfile.TemporaryDirectory() as folder:
        taken = [bird.is_taken(folder, block.filter) for block in blocks]
        routes = dict(route for block in blocks for route in block.routes)
        daemon = bird.Daemon(folder, [block.filter for block, is_one in zip(blocks, taken) if is_one], routes)
        try:
            return [daemon.verdicts(block.name(), block.routes) if is_one else None for block, is_one in zip(blocks, taken)]
        finally:
            daemon.end()


def note(block, said):
    """Puts BIRD's answers where none stand."""
    if said is None:
        block.refusals = block.refusals or [bird.BIRD_REFUSES]
    else:
        block.said = [old or new for old, new in zip(block.said, said)]


def main(words):
    is_written = words[:1] == ["--write"]
    counts = Counts()
    for path in words[is_written:] or bird.files():
        head, blocks = bird.read(path)
        for block, said in zip(blocks, asked(blocks)):
            if is_written:
                note(block, said)
            counts.judge(f"{os.path.basename(path)}: {block.name()}", said != block.birds() and f"BIRD answers {said}")
        if is_written:
            with open(path, "w") as it:
                it.write("\n\n".join([head] + [block.written() for block in blocks]) + "\n")
    counts.finish()


if __name__ == "__main__":
    main(sys.argv[1:])

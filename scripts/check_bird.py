#!/usr/bin/env python3
"""Has the program answer the filters of `tests/bird/`, and compares its answers with those of BIRD that stand there. Prints each block that differs,
and at last 'N passed, M failed'. BIRD itself is not needed: `ask_bird.py` asks it.

usage: NCROUTE=PATH scripts/check_bird.py     (PATH: the program as it is built)
"""
import os
import pathlib
import subprocess
import tempfile

from lib import bird
from lib.counts import Counts
from lib.program import built

SIZE = "250"


def answers(ncroute, path, block):
    """What is answered to the block's routes; a text that is not taken has its refusal in their place."""
    path.write_text(block.filter)
    routes = "".join(f"{net} {metric}\n" for net, metric in block.routes)
    said = subprocess.run([ncroute, "filter", "--size", SIZE, "--explain", "never", path], input=routes, capture_output=True, text=True)
    return said.stdout.splitlines()


def main():
    ncroute = built()
    counts = Counts()
    with tempfile.TemporaryDirectory() as folder:
        for path in bird.files():
            for block in bird.read(path)[1]:
                said = answers(ncroute, pathlib.Path(folder, "filter"), block)
                counts.judge(f"{os.path.basename(path)}: {block.name()}", said != block.ours() and f"answered {said}")
    counts.finish()


if __name__ == "__main__":
    main()

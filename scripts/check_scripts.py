#!/usr/bin/env python3
"""Has `pyflakes3` and `pycodestyle` read each Python file of the repository, and `shellcheck` each shell script; `setup.cfg` says how.
Prints what they find, and at last 'N passed, M failed', where each file counts with each linter. A linter that is not there is not run: a line says
so, and it counts as skipped.

usage: scripts/check_scripts.py
"""
import glob
import subprocess

from lib.counts import Counts, lack_of
from lib.program import TOP

PYTHON = ("scripts/**/*.py", "docs/*.py", "bench/*.py", "bindings/**/*.py", "examples/**/*.py", "tests/**/*.py", "tools/ncroute-*")
SHELL = ("scripts/*.sh", "bench/*.sh", ".ci/run")

# What each linter is called by, and the files that it reads. It begins a line with the name of the file in which it finds something.
LINTERS = ((["pyflakes3"], PYTHON), (["pycodestyle"], PYTHON), (["shellcheck", "-f", "gcc"], SHELL))


def main():
    counts = Counts()
    for words, patterns in LINTERS:
        if why := lack_of(words[0]):
            counts.skip(words[0], why)
            continue
        paths = sorted(path for pattern in patterns for path in glob.glob(pattern, root_dir=TOP, recursive=True))
        ran = subprocess.run([*words, *paths], cwd=TOP, stdout=subprocess.PIPE, stderr=subprocess.STDOUT, text=True)
        ill = {line.partition(":")[0] for line in ran.stdout.splitlines()} & set(paths)
        # One that ends with an error and names no file has judged none.
        counts.add(len(paths) - len(ill) if ill or not ran.returncode else 0, len(ill) or bool(ran.returncode))
        print(ran.stdout, end="")
    counts.finish()


if __name__ == "__main__":
    main()

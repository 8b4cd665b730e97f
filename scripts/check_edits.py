#!/usr/bin/env python3
"""Tries wrong bodies: each is an edit that turns the meaning of a function, and the checker has to refuse it. Prints what became of each, and at last
'N passed, M failed'.

usage: scripts/check_edits.py NAME..           those of these crates (crates/NAME/wrong-bodies/)
       scripts/check_edits.py --since COMMIT   those of the crates whose src/ or specs/ differ from a commit's
       scripts/check_edits.py --all [--write]  those of all crates; --write puts a line on the run into bench/GATE.md

Each is tried over what is proved of its crate, by scripts/prove.py: a crate is proved first, if it is not yet, and then an edit takes the time of
what it changes. As many are tried side by side as there are processors. One that the checker does not refuse has failed, and one that it could not
read.
"""
import argparse
import concurrent.futures
import datetime
import os
import pathlib
import re
import subprocess
import sys
import time

import prove
from lib.counts import Counts

PAGE = f"{prove.TOP}/bench/GATE.md"
LINE = re.compile(r"(?m)^The last run of all wrong bodies: .*$")


def edits_of(crate):
    return sorted(str(it) for it in pathlib.Path(crate.folder, "wrong-bodies").glob("*.edit"))


def changed_since(commit):
    """The crates whose sources or definitions differ from a commit's."""
    told = subprocess.run(["git", "diff", "--name-only", commit, "--", "crates"], cwd=prove.TOP, capture_output=True, text=True, check=True).stdout
    return sorted({match[1] for match in re.finditer(r"(?m)^crates/(\w+)/(?:src|specs)/", told)})


def try_all(shelf, names, counts):
    """Tries the wrong bodies of these crates, each crate once what stands below it is there, and says what became of each."""
    rt = shelf.rt
    with concurrent.futures.ThreadPoolExecutor(min(rt.processors(), prove.LANES)) as pool:
        for name in names:
            crate = shelf.crates[name]
            edits = edits_of(crate)
            if not edits:
                continue
            begun = time.time()
            lacking = shelf.look(crate.below())
            if lacking and not shelf.make_all(lacking) or shelf.warm(crate, prove.idle(rt)):
                counts.judge(name, "it is not proved, so its wrong bodies were not tried")
                continue
            for edit, (kind, said) in zip(edits, pool.map(lambda edit: prove.try_edit(shelf, crate, edit), edits)):
                if kind in (rt.REFUSED, rt.AT_LIMIT):
                    print(said.replace("must-fail ", ""), flush=True)
                counts.judge(f"{name}/{os.path.basename(edit)}", kind not in (rt.REFUSED, rt.AT_LIMIT) and said.replace("must-fail ", ""))
            print(f"{name}: {len(edits)} wrong bodies, {time.time() - begun:.0f} s", flush=True)


def write(counts, minutes):
    """Puts a line on a run of all wrong bodies into the page on the gate."""
    commit = subprocess.check_output(["git", "rev-parse", "--short", "HEAD"], cwd=prove.TOP, text=True).strip()
    kit = subprocess.check_output(["rt", "version"], text=True).strip()
    said = f"{counts.passed} refused, {counts.failed} not, in {minutes:.0f} minutes"
    line = f"The last run of all wrong bodies: {datetime.date.today()}, over {commit}, by `{kit}`: {said}."
    with open(PAGE, encoding="utf-8") as f:
        page = f.read()
    if not LINE.search(page):
        sys.exit(f"{PAGE} has no line on the last run")
    with open(PAGE, "w", encoding="utf-8") as f:
        f.write(LINE.sub(line, page))


def main():
    parser = argparse.ArgumentParser(usage=__doc__, add_help=False)
    parser.add_argument("names", nargs="*")
    parser.add_argument("--since")
    parser.add_argument("--all", action="store_true")
    parser.add_argument("--write", action="store_true")
    asked = parser.parse_args()
    if bool(asked.names) + bool(asked.since) + asked.all != 1 or asked.write and not asked.all:
        sys.exit(__doc__)
    os.chdir(prove.TOP)
    shelf, counts, begun = prove.Shelf(prove.kit(), prove.TOP), Counts(), time.time()
    names = [*shelf.crates] if asked.all else changed_since(asked.since) if asked.since else asked.names
    lacking = [it for it in asked.names if it not in shelf.crates]
    if lacking:
        sys.exit(f"crates.txt has no crate {lacking[0]}")
    with shelf.alone():
        try_all(shelf, [it for it in shelf.crates if it in names], counts)
    if asked.write:
        write(counts, (time.time() - begun) / 60)
    counts.finish()


if __name__ == "__main__":
    main()

#!/usr/bin/env python3
"""Runs the rows of `tests/rows/`: what the programs read and what they answer. Prints each row that differs, and at last 'N passed, M failed'.

usage: scripts/check_rows.py [[--without] NAME..]
       (NAMEs: of files, as `eval`; --without: all files but these; NCROUTE=PATH: the program; without it, the sources as they are, by `rt try`:
       rows with files or other streams, on a terminal or with lines on standard error are left out then)

`lib/rows.py` says how a file of rows is laid out.
"""
import os
import pathlib
import sys
import tempfile

from lib.counts import Counts
from lib.program import TOP, Program, named
from lib.rows import FOLDER, rows_of

# What ends an input that is typed.
CTRL_D = b"\4"


class Place:
    """Where a row is run: a folder with its files, and beside it what standard error and the exit status were."""

    def __init__(self, outer, number, row):
        self.folder, self.errors, self.status, self.given = (pathlib.Path(outer, str(number), name) for name in ("here", "errors", "status", "given"))
        self.folder.mkdir(parents=True)
        (self.folder / "examples").symlink_to(TOP / "examples")
        for name, text in [*row.files.items(), ("../given", row.given)]:
            path = self.folder / name
            path.parent.mkdir(parents=True, exist_ok=True)
            path.write_bytes(text)
        self.row = row

    def line(self, redirections):
        """The line of a shell that runs the row. What is behind a `|` of its words has another standard input and error."""
        return f"cd {self.folder} && {self.row.before} && {redirections} {self.row.command()}"

    def read(self, name):
        """The bytes of a file; none where it is not there."""
        path = self.folder / name
        return path.read_bytes() if path.exists() else None

    def on_terminal(self, ncroute):
        """What is written, and the exit status, where a terminal is among the streams."""
        typed = self.row.given + CTRL_D if "input" in self.row.terminals else b""
        redirections = ("" if typed else f"<{self.given} ") + ("" if "errors" in self.row.terminals else f"2>{self.errors}")
        output, shown = ncroute.on_terminal(f"({self.line(redirections)}); echo $? >{self.status}", typed)
        if "errors" in self.row.terminals:
            self.errors.write_bytes(shown)
        return output, int(self.read(self.status))

    def differences(self, output, status, looks_at_errors):
        """How what the program did differs from what the row says."""
        row = self.row
        if not row.output.is_met(output):
            yield f"wrote {output!r}, and not {row.output}"
        if looks_at_errors and not row.errors.is_met(self.read(self.errors)):
            yield f"told {self.read(self.errors)!r}, and not {row.errors}"
        if status != row.wanted_status():
            yield f"ended with {status}, and not {row.wanted_status()}"
        for name, wanted in row.left.items():
            if self.read(name) is None or not wanted.is_met(self.read(name)):
                yield f"left {self.read(name)!r} in {name}, and not {wanted}"
        found = {os.path.relpath(os.path.join(path, name), self.folder) for path, _, names in os.walk(self.folder) for name in names}
        if more := found - {"examples", *map(os.path.normpath, [*row.files, *row.left])}:
            yield f"left {sorted(more)} too"


def main(names):
    is_built, is_without = bool(named()), not names or names[0] == "--without"
    paths = [path for path in sorted(FOLDER.glob("*.rows")) if (path.stem in names) != is_without]
    rows = [row for path in paths for row in rows_of(path)]
    if not is_built:
        print(f"{sum(bool(row.needs_program()) for row in rows)} rows are left out: they need the program, NCROUTE=PATH")
        rows = [row for row in rows if not row.needs_program()]
    ncroute, outer, counts = Program(), tempfile.TemporaryDirectory(), Counts()
    places = [Place(outer.name, number, row) for number, row in enumerate(rows)]
    plain = [place for place in places if not place.row.terminals]
    said = dict(zip(plain, ncroute.runs([(place.line(f"2>{place.errors}"), place.row.given) for place in plain])))
    for place in places:
        output, status = said[place] if place in said else place.on_terminal(ncroute)
        counts.judge(f"{place.row.place}: {place.row.command()}", "; ".join(place.differences(output, status, is_built)))
    outer.cleanup()
    ncroute.close()
    counts.finish()


if __name__ == "__main__":
    main(sys.argv[1:])

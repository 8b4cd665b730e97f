#!/usr/bin/env python3
"""Writes the script of a domain of ROWS x COLUMNS nodes, as examples/fifty_nodes.domain.

The nodes are a grid, numbered row by row. The links between rows are longer: what is received over one of them counts two links more. The script then
cuts the link in the middle of the first row, asks what changed, and plays the routers. With --limit each node rejects what it receives from a
neighbour with a greater metric, and what the two links more would bring over it; so what a failure puts out of reach counts up to METRIC, and not to
the number of nodes. METRIC is at least the longest distance that is wanted.
"""
import argparse
import sys


def script(rows, columns, limit=None):
    words = f"{rows} {columns}" + (f" --limit {limit}" if limit is not None else "")
    yield f"# {rows} rows of {columns} routers, made by scripts/make_domain.py {words}. Links between rows count two links more."
    yield f"domain {rows * columns}"
    within = "" if limit is None else f"if rip_metric > {limit} then reject; "
    yield f"load longer filter longer {{ rip_metric = rip_metric + 2; {within}accept; }}"
    if limit is not None:
        yield f"load near filter near {{ {within}accept; }}"
    for row in range(rows):
        for node in range(row * columns, (row + 1) * columns):
            if node + 1 < (row + 1) * columns:
                yield f"link {node} {node + 1}"
                if limit is not None:
                    yield from (f"import {node} {node + 1} near", f"import {node + 1} {node} near")
            if row + 1 < rows:
                below = node + columns
                yield from (f"link {node} {below}", f"import {node} {below} longer", f"import {below} {node} longer")
    last, middle = rows * columns - 1, columns // 2
    yield from ("settle", f"path 0 {last}", f"path 0 {columns - 1}", "mark")
    yield from (f"cut {middle - 1} {middle}", "changes", f"path 0 {columns - 1}", "settle")


def main(words):
    parser = argparse.ArgumentParser(description=__doc__, formatter_class=argparse.RawDescriptionHelpFormatter)
    parser.add_argument("rows", type=int, metavar="ROWS")
    parser.add_argument("columns", type=int, metavar="COLUMNS")
    parser.add_argument("--limit", type=int, metavar="METRIC")
    given = parser.parse_args(words)
    print("\n".join(script(given.rows, given.columns, given.limit)))


if __name__ == "__main__":
    main(sys.argv[1:])

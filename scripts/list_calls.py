#!/usr/bin/env python3
"""Prints docs/CALLS.md: each public call of each crate, the first sentence of its comment, and the names of the clauses that it meets.

usage: scripts/list_calls.py > docs/CALLS.md

The rows are read from the sources, so none can be stale: check_documents.py compares the page with what this script prints.
"""
import re

from lib.program import TOP

HEAD = """# Every public call

What each public call is for, in the first sentence of its comment, and the clauses of its contract, which the checker has proved of it for every
input. The clauses themselves stand in the source, at the call, in the words of the definitions of `crates/NAME/specs/`. `the clause` is one without a
name. [PROMISES.md](PROMISES.md) says in sentences what the most important ones come to, and what is only tested.

A crate's wrong bodies are edits that turn the meaning of one of its functions, which the checker has to refuse: `scripts/test.sh --edits NAME` tries
them ([what they show](PROMISES.md#wrong-bodies)).

`scripts/list_calls.py` makes this page from the sources."""
NAME = r"[A-Za-z_]\w*"


def crates():
    """The crates in the order of crates.txt, each after those that it stands on."""
    lines = (TOP / "crates.txt").read_text(encoding="utf-8").split("\n")
    return [re.match(r"(\w+)[^:]*:", line)[1] for line in lines if re.match(r"\w", line)]


def exported(library):
    """The names that a crate's lib.rt hands out."""
    found = set()
    for body in re.findall(r"(?s)\bpub use [^;]*?([\w{][^;{]*(?:\{[^}]*\})?);", library):
        found |= set(re.findall(NAME, body.rsplit("{", 1)[-1].rsplit("::", 1)[-1]))
    return found | set(re.findall(rf"(?m)^pub (?:extern \"C\" )?(?:fn|struct|enum|trait|type|const) ({NAME})", library))


def sentence(comment):
    """The first sentence of a comment, as a cell of a table has it."""
    text = " ".join(comment).strip()
    first = re.match(r".+?[.:;](?=\s+[A-Z`]|$)", text)
    return (first[0] if first else text).rstrip(".:;").replace("|", "\\|")


def clauses(contract):
    """The names of a contract's clauses."""
    names = re.findall(rf"(?m)^\s*ensures(?: ({NAME}))? \{{", contract)
    return ", ".join(f"`{name}`" if name else "the clause" for name in names)


def calls(source, names):
    """The public calls of a file: each with its owner, if it has one, its name, its comment and its clauses."""
    owner, is_open, comment = None, False, []
    lines = source.split("\n")
    for at, line in enumerate(lines):
        block = re.match(r"(?:pub )?(?:impl|trait)\b(?:<[^{]*?>)?\s*(.*?)\s*\{?$", line)
        if re.match(r"(pub(\([^)]*\))? )?(unsafe )?(impl|trait)\b", line):
            words = re.sub(r"<.*?>(?=\s|$|\{)|<[^<>]*>", "", block[1] if block else "")
            of_trait = re.match(rf"({NAME})(?:<.*?>)? for ({NAME})", words)
            owner = None if of_trait else re.match(NAME, words)
            owner = owner[0] if owner else None
            is_open = line.startswith(("pub trait", "trait"))
        elif of_lines := re.match(rf"> ({NAME})(?:<.*>)? \{{$", line):
            owner = of_lines[1]
        elif line.startswith("}"):
            owner, is_open = None, False
        if line.lstrip().startswith("///"):
            comment.append(line.lstrip()[3:].strip())
            continue
        if line.lstrip().startswith("#["):
            continue
        call = re.match(rf"(\s*)(pub )?(?:const )?(?:unsafe )?(?:extern \"C\" )?fn ({NAME})", line)
        if call and (call[2] or is_open) and (owner in names if call[1] else call[3] in names):
            rest = "\n".join(lines[at:])
            body = rf"^{call[1]}\{{\}}?$|^{call[1]}(?:pub |const |fn |\)).*\{{$" + ("|;$" if is_open else "")
            end = re.search(f"(?m){body}", rest)
            contract = rest[: end.start()] if end else rest
            yield owner if call[1] else None, call[3], sentence(comment), clauses(contract)
        comment = []


def rows(name):
    """The rows of a crate."""
    folder = TOP / "crates" / name / "src"
    names = exported((folder / "lib.rt").read_text(encoding="utf-8"))
    for path in sorted(folder.rglob("*.rt")):
        for owner, call, meaning, contract in calls(path.read_text(encoding="utf-8"), names):
            yield f"| `{owner + '::' if owner else ''}{call}` | {meaning} | {contract} |"


def wrong_bodies(name):
    """How many wrong bodies a crate has."""
    return len(list((TOP / "crates" / name / "wrong-bodies").glob("*.edit")))


def page():
    """The whole page."""
    parts = [HEAD]
    for name in crates():
        library = TOP / "crates" / name / "src" / "lib.rt"
        if not library.exists():
            continue
        about = re.match(r"//! (.*(?:\n//! .*)*)", library.read_text(encoding="utf-8"))
        table = list(rows(name))
        parts.append(f"## {name}\n\n{sentence(about[1].replace(chr(10) + '//!', '').split()) if about else ''}. Wrong bodies: {wrong_bodies(name)}.")
        if table:
            parts.append("\n".join(["| Call | What it does | Clauses |", "|---|---|---|", *table]))
    return "\n\n".join(parts) + "\n"


if __name__ == "__main__":
    print(page(), end="")

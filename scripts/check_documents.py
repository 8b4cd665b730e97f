#!/usr/bin/env python3
"""Runs what the documents show, and compares. Prints a line for each document, and at last 'N passed, M failed'.

usage: scripts/check_documents.py        (NCROUTE=PATH: the program; without it, the sources as they are, by `rt try`)

- Each example: a line `    $ COMMAND` of README.md or docs/*.md, run where the examples of the repository are, writes the indented lines below it.
  One that looks at standard error (`2>&1`), names the output of a command (`<(`), or the file of a filter or a history other than behind `<` (as
  `ncroute filter` and `ncroute lint` do), or runs a router (`ncroute router`) or `ncimport` needs the programs, and is left out without NCROUTE=PATH.
- Each block of several terminals (`    one$ COMMAND`, `    one> LINE`, `    one: LINE`), played as lib/terminals.py says, needs the program too.
- Each example that hands a filter from `ncroute check` on to another `ncroute` does nothing, and fails, with a filter that is refused.
- The table of the examples in docs/LANGUAGE.md: each filter of examples/ answers the route so.
- Each row of a table of codes says what `ncroute explain CODE` says, and each example of `ncroute explain` writes what it shows.
- Each listing of docs/VERIFIER.md (`    0 METRIC`, `    1 INT 2`, ..), as a code file with as many variables and sets as it names: `check --code`
  refuses it as the listing says (`V3 at 6`), or verifies it. If a line of hexadecimal follows, it is that file.
- Each link of a document to a file of the repository, or to a heading of a document, leads there.
- docs/CALLS.md is what `list_calls.py` makes of the sources.
- The examples in Rattle of docs/SESSIONS.md and docs/EMBEDDING.md are what the tests run.
- Each name of a call, a clause, a definition, a wrong body or a crate that docs/PROMISES.md mentions is there.
"""
import collections
import os
import re

import list_calls
from lib import documents, terminals
from lib.counts import Counts, lack_of
from lib.documents import examples, read
from lib.program import TOP, Program, named

# The document whose table has the codes of a letter, and the column of their meaning.
TABLES = {
    "P": ("LANGUAGE", 1), "Y": ("LANGUAGE", 1), "V": ("VERIFIER", 1), "C": ("CODE_FILE", 1), "K": ("MACHINE", 1), "E": ("LINES", 1),
    "O": ("SCRIPT", 1), "N": ("ROUTER", 1), "D": ("DOMAIN", 1), "J": ("ROUTER", 1), "H": ("HISTORY", 1), "L": ("LOCK", 2), "X": ("SESSIONS", 1),
    "W": ("LINT", 1),
}
OTHER_CODES = ["G1", "G2", "G3"]
# What documents show in Rattle: the document, how far it is indented there, its text, and the test that has it word for word.
SHOWN = (
    ("docs/SESSIONS.md", "", r"(?ms)^/// A link over two streams\..*?^}\n\nimpl.*?^}\n", "tests/calls/channels.rattle"),
    ("docs/EMBEDDING.md", "    ", r"(?ms)^/// The metric that a filter gives a route .*?^}\n", "tests/calls/embedding_tests.rattle"),
)
# What docs/PROMISES.md names beside what the sources define: commands and programs, a mark, a variable, a field, and traits of Rust and of the kit.
OTHER_NAMES = set("changes diff eval failures history json kill lint socat test NCF2 NCROUTE_SIZE unsent Send Wait".split())
# A filter that is refused.
MISTAKE = "filter mistake { acept; }"
SIZE = 8
SET = "0001" + "01000000" + "080f11"


def with_mistake(command):
    """A command that checks a filter and hands it on to another `ncroute`, with a filter that is refused; none of any other command."""
    if not re.search(r"ncroute check .*ncroute (run|eval)", command):
        return None
    return re.sub(r"< *examples/\w+\.filter", f"<<< '{MISTAKE}'", re.sub(r"echo 'filter [^']*'", f"echo '{MISTAKE}'", command))


def answers(text):
    """The rows of the table of the examples: a filter's file, a route, and its answer in a domain of 16 nodes."""
    name = None
    for row in re.findall(r"(?m)^\| (?:`([\w.]+\.filter)`[^|]*)?\| `([\d./]+)` (\d+) \| `([^`]*)` \|$", text):
        name = row[0] or name
        route = f"{row[1]} {row[2]} 16"
        command = f"(ncroute check --size 16 < examples/{name} | sed -n 's/^code //p'; echo {route}) | ncroute eval"
        yield command, row[3] + "\n"


def meanings():
    """The rows of the tables of codes: the document, a code and what it means."""
    for letter, (name, column) in TABLES.items():
        for row in re.findall(rf"(?m)^\| ({letter}\d+ \| .*) \|$", read(f"docs/{name}.md")):
            cells = re.split(r"(?<!\\) \| ?", row)
            yield f"docs/{name}.md", cells[0], cells[column].replace("\\|", "|")


def opcodes():
    """The opcode of each instruction, and the bytes of its operand, from the table of docs/MACHINE.md."""
    rows = re.findall(r"(?m)^\| ([0-9a-f]{2}) \| ([A-Z]+)[^|]*\| (?:(\d) bytes?)?", read("docs/MACHINE.md"))
    return {name: (code, int(width or 0)) for code, name, width in rows}


def listings(text):
    """The listings of the verifier's document: the code file, the hexadecimal line if there is one, and the refusal that is stated."""
    table = opcodes()
    for block in re.findall(r"(?m)(?:^    \d+ [A-Z]+.*\n)+(?:    [0-9a-f]{16,}\n)?", text):
        rows = re.findall(r"(?m)^    \d+ ([A-Z]+)(?: (\d+))?(?: +(.*))?$", block)
        code = "".join(table[name][0] + (f"{int(operand):0{2 * table[name][1]}x}" if operand else "") for name, operand, _ in rows)
        used = [int(operand) for name, operand, _ in rows if name in ("LOAD", "STORE")]
        has_set = any(name == "MEMBER" for name, _, _ in rows)
        file = f"4e434632{max(used, default=-1) + 1:02x}{has_set:02x}{SET if has_set else ''}00{len(rows):04x}{code}"
        shown = re.search(r"(?m)^    ([0-9a-f]{16,})$", block)
        refusal = re.search(r"\b(V\d+) at (\d+)", block)
        yield file, shown and shown.group(1), refusal and f"refused {refusal.group(1)} {refusal.group(2)}"


def listed(text):
    for file, shown, refusal in listings(text):
        command = f"echo {shown or file} | ncroute check --size {SIZE} --code | sed 1d"
        yield command, refusal and refusal + "\n", shown in (None, file)


def needs_program(command):
    """`rt try --cases` tells no standard error, runs in a folder without the files of the repository, and runs no other program."""
    words = ("2>&1", "<(", "ncimport", "ncroute filter", "ncroute lint", "ncroute router", ".history")
    return any(word in command for word in words) or ".filter" in re.sub(r"< *[\w/.]+", "", command)


def more_patient(command):
    """A command that sleeps ten times as long, for what goes on meanwhile; none of one that does not sleep."""
    slower = re.sub(r"\bsleep (\d+)", lambda found: f"sleep {10 * int(found[1])}", command)
    return slower if slower != command else None


def explained(ncroute, tell):
    """Compares the tables of codes with `ncroute explain`, and runs the examples of its pages."""
    rows = list(meanings())
    codes = sorted({code for _, code, _ in rows} | set(OTHER_CODES))
    said = ncroute.runs([(f"ncroute explain {code}", b"") for code in codes])
    pages = {code: wrote.decode() for code, (wrote, _) in zip(codes, said)}
    tell("ncroute explain", "pages", [(code, not pages[code].startswith(code + ": ") and "has no page") for code in codes])
    tell("docs", "rows of codes as explained", [(f"{name} {code}", meaning not in pages[code] and f"not said by `ncroute explain {code}`: {meaning}")
                                                for name, code, meaning in rows])
    shown = [(code, *row) for code in codes for row in examples(pages[code]) if named() or not needs_program(row[0])]
    said = ncroute.runs([(command, b"") for _, command, _ in shown])
    tell("ncroute explain", "examples", [(command, wrote.decode() != wanted and f"{code}: wrote {wrote.decode()!r}, and not {wanted!r}")
                                         for (code, command, wanted), (wrote, _) in zip(shown, said)])


def played(ncroute, tell, counts):
    """Plays what the documents show of several terminals. A block that needs a command that is not there is skipped."""
    if not named():
        return
    for name in documents.names():
        blocks = []
        for block in terminals.blocks(read(name)):
            if why := lack_of(*needs(block)):
                counts.skip(f"{name}: {' '.join(block[-1])}", why)
            else:
                blocks.append(block)
        if blocks:
            tell(name, "blocks of terminals", [(" ".join(block[-1]), terminals.play(block, ncroute.environment())) for block in blocks])


def shown_elsewhere():
    """What is shown in Rattle, and what is wrong with it: the test has it in other words."""
    for name, indent, form, test in SHOWN:
        found = re.search(form, re.sub(rf"(?m)^{indent}", "", read(name)))
        yield f"{name}: {test}", not (found and found[0] in read(test)) and "the test has it otherwise"


def defined():
    """The names that the sources define: calls, types, clauses, definitions, wrong bodies and crates."""
    found = set(re.findall(r"\w+", read("crates.txt") + read("include/gomthau_filter.h")))
    for path in TOP.glob("crates/*/src/**/*.rt"):
        found |= set(re.findall(r"\b(?:ensures|fn|struct|enum|trait|type|const) (\w+)", path.read_text(encoding="utf-8")))
    for path in TOP.glob("crates/*/specs/**/*.antt"):
        found |= set(re.findall(r"(?m)^ *(?:unfoldable )?(?:pub )?(?:data |record )?(\w+)", path.read_text(encoding="utf-8")))
    return found | {path.stem for path in TOP.glob("crates/*/*/*.edit")}


def named_in(text):
    """The names that a document mentions."""
    return sorted(set(re.findall(r"`([A-Za-z_]\w*(?:::\w+)*)`", without_code_blocks(text))))


def without_code_blocks(text):
    text = re.sub(r"^```.*?^```", "", text, flags=re.M | re.S)
    return "\n".join(line for line in text.split("\n") if not line.startswith("    "))


def without_code(text):
    """A document less what it shows as code, which has no links."""
    return re.sub(r"`[^`\n]*`", "", without_code_blocks(text))


def anchors(text):
    """The names of a document's headings, as links write them."""
    found, times = [], collections.Counter()
    for heading in re.findall(r"^#+ +(.*)$", re.sub(r"^```.*?^```", "", text, flags=re.M | re.S), flags=re.M):
        name = re.sub(r"[^\w\- ]", "", heading.strip().lower()).replace(" ", "-")
        found.append(f"{name}-{times[name]}" if times[name] else name)
        times[name] += 1
    return found


def linked(name):
    """The links of a document, and what is wrong with each: there is no such file, or no such heading in it."""
    for target in re.findall(r"\]\(([^)\s]+)\)", without_code(read(name))):
        if re.match(r"[a-z]+:", target):
            continue
        path, _, heading = target.partition("#")
        file = os.path.normpath(os.path.join(os.path.dirname(name), path)) if path else name
        if not (TOP / file).exists():
            yield target, f"there is no {file}"
        else:
            yield target, heading and heading not in anchors(read(file)) and f"{file} has no heading #{heading}"


def needs(block):
    """What a block needs of the system."""
    return {word for _, kind, words in block if kind == "$" for word in re.findall(r"\b(?:mkfifo|socat)\b", words)}


def main():
    ncroute, counts = Program(), Counts()

    def tell(name, kind, rows):
        rows = rows or [(kind, "there are none")]
        wrong = [row for row in rows if row[1]]
        counts.add(len(rows) - len(wrong), len(wrong))
        print(f"{name}: {len(rows) - len(wrong)} {kind} passed, {len(wrong)} failed")
        for what, why in wrong:
            print(f"  {what}\n    {why}")

    shown = [(name, examples(read(name))) for name in documents.names()]
    if not named():
        left_out = sum(needs_program(command) for _, rows in shown for command, _ in rows)
        shown = [(name, [row for row in rows if not needs_program(row[0])]) for name, rows in shown]
        print(f"{left_out} examples are left out: they need the program, NCROUTE=PATH")
    closed = [(name, command) for name, rows in shown for command in (with_mistake(row[0]) for row in rows) if command]
    table, codes = list(answers(read("docs/LANGUAGE.md"))), list(listed(read("docs/VERIFIER.md")))
    lines = [command for _, rows in shown for command, _ in rows]
    lines += [row[0] for row in table] + [row[0] for row in codes] + [row[1] for row in closed]
    said = iter(ncroute.runs([(line, b"") for line in lines]))

    def compare(command, wanted):
        wrote, _ = next(said)
        if wrote != wanted.encode() and (slower := more_patient(command)):
            wrote, _ = ncroute.shell(slower)
        return command, wrote != wanted.encode() and f"wrote {wrote.decode()!r}, and not {wanted!r}"

    for name, rows in shown:
        if rows:
            tell(name, "examples", [compare(*row) for row in rows])
    tell("docs/LANGUAGE.md", "routes under examples/", [compare(*row) for row in table])
    judged = []
    for command, wanted, is_shown in codes:
        wrote = next(said)[0].decode()
        well = wrote == wanted if wanted else wrote.startswith("verified ")
        wrong = not well and f"wrote {wrote!r}, and not {wanted or 'verified ..'!r}"
        judged.append((command, not is_shown and "the hexadecimal is not the listing's" or wrong))
    tell("docs/VERIFIER.md", "listings", judged)
    shut = []
    for _, command in closed:
        wrote, status = next(said)
        wrong = wrote and f"wrote {wrote.decode()!r}" or not status and "ends with status 0"
        shut.append((command, MISTAKE not in command and "has no filter of its own" or wrong))
    tell("docs", "pipelines closed on a refused filter", shut)
    for name in documents.names():
        rows = list(linked(name))
        if rows:
            tell(name, "links", rows)
    tell("docs/CALLS.md", "page", [("docs/CALLS.md", read("docs/CALLS.md") != list_calls.page() and "scripts/list_calls.py prints another one")])
    tell("docs", "examples in Rattle", list(shown_elsewhere()))
    there = defined() | OTHER_NAMES
    tell("docs/PROMISES.md", "names", [(name, not set(name.split("::")) <= there and "no source defines it")
                                       for name in named_in(read("docs/PROMISES.md"))])
    explained(ncroute, tell)
    played(ncroute, tell, counts)
    ncroute.close()
    counts.finish()


if __name__ == "__main__":
    main()

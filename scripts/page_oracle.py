#!/usr/bin/env python3
"""Writes the data of a domain, or its page, by what `ncroute domain` answers to questions: one after another, and put together here.

usage: NCROUTE=PATH scripts/page_oracle.py FILE            (writes a line of JSON: the domain behind the last line of the script FILE)
       NCROUTE=PATH scripts/page_oracle.py FILE --page     (writes the page of it)

docs/DOMAIN.md says what the members of the JSON are. `pages/` has the page, of which this puts the parts together.
"""
import argparse
import base64
import hashlib
import json
import os
import re
import subprocess
import sys

from lib.program import TOP, built

PAGES = TOP / "pages"

# The files of the script of a page, in the order in which they stand in it.
SCRIPTS = ("routes.js", "drawing.js", "tables.js", "words.js", "domain.js")


def asked(program, command, text):
    """The lines that a command of the program answers to a text."""
    ran = subprocess.run([program, *command], input=text, stdout=subprocess.PIPE, stderr=subprocess.DEVNULL)
    return ran.stdout.decode(errors="replace").split("\n")[:-1]


class Domain:
    """What the lines of a script did, by the answers to them."""

    def __init__(self, program, script):
        self.program, self.script = program, script
        self.size, self.prefixes, self.links, self.filters, self.named, self.uses = 0, [], set(), [], {}, {}
        answers = iter(asked(program, ["domain"], script))
        for number, line in enumerate(script.decode(errors="replace").split("\n"), 1):
            line = line.removesuffix("\r")
            words = re.split(r"[ \t]+", line.lstrip(" \t"), maxsplit=2)
            if line and not line.startswith("#"):
                answer = next(answers)
                if answer.startswith("failures "):
                    for _ in range(int(answer.split()[1])):
                        next(answers)
                elif not answer.startswith("refused "):
                    self.carry_out(number, words, answer)

    def carry_out(self, number, words, answer):
        verb = words[0]
        if verb == "domain":
            self.size = int(words[1])
            self.prefixes = [f"10.{v}.0.0/16" for v in range(self.size)]
        elif verb == "prefix":
            self.prefixes[int(words[1])] = cleared(words[2].strip())
        elif verb in ("load", "code"):
            self.named[words[1]] = len(self.filters)
            self.filters.append(self.filter(number, verb, words[1], words[2], answer))
        elif verb in ("link", "cut"):
            (self.links.add if verb == "link" else self.links.discard)(tuple(sorted(map(int, words[1:3]))))
        elif verb in ("import", "export"):
            w, name = words[2].split()
            self.uses[verb, int(words[1]), int(w)] = self.named[name]

    def filter(self, number, verb, name, source, answer):
        _, budget, depth = answer.split()
        text = source if verb == "load" else None
        code = asked(self.program, ["check", "--size", str(self.size)], source.encode())[0].removeprefix("code ") if text is not None else source
        listing = asked(self.program, ["list"] if text is not None else ["list", "--code"], source.encode())
        return {"budget": int(budget), "code": code, "depth": int(depth), "line": number, "listing": listing, "name": name, "text": text}

    def effects(self, code):
        """What each distance from a node comes to under a filter, for all nodes for which it comes to the same."""
        routes = [f"{prefix} {dist} {self.size}" for prefix in self.prefixes for dist in range(self.size)]
        said = asked(self.program, ["eval"], "\n".join([code, *routes]).encode())
        results = [int(line.split()[1]) if line.startswith("accept") else self.size for line in said]
        groups = {}
        for node in range(self.size):
            groups.setdefault(tuple(results[node * self.size:(node + 1) * self.size]), []).append(node)
        return [{"distances": list(distances), "nodes": nodes} for distances, nodes in groups.items()]

    def ask(self, *questions):
        """The answers to questions that are asked behind the last line."""
        said = asked(self.program, ["domain"], self.script.rstrip(b"\n") + b"\n" + "\n".join(["mark", *questions]).encode())
        return said[len(said) - said[::-1].index("ok"):]

    def table(self, answer):
        """The routes of a node: each a distance and a next hop, which is none at the node itself and where there is no route."""
        rows = [list(map(int, word.split(":"))) for word in answer.split()[1:]]
        return [[row[1], row[2] if len(row) > 2 else None] for row in rows]

    def failures(self, verb):
        found = []
        for line in self.ask(verb)[1:]:
            what, *words = line.split()
            nodes = 2 if what == "link" else 1
            failure = {word: int(number) for word, number in zip(words[nodes::2], words[nodes + 1::2])}
            found.append({**failure, what: list(map(int, words[:2])) if what == "link" else int(words[0])})
        return found

    def used(self, verb, u, w):
        return [self.uses.get((verb, u, w)), self.uses.get((verb, w, u))]

    def data(self):
        """It as JSON has it."""
        _, longest, phases = self.ask("reach")[0].split()
        filters = [{**known, "effects": self.effects(known["code"])} for known in self.filters]
        for known in filters:
            del known["code"]
        return {
            "failures": {"links": self.failures("failures"), "nodes": self.failures("failures nodes")},
            "filters": filters,
            "links": [{"exports": self.used("export", u, w), "imports": self.used("import", u, w), "link": [u, w]} for u, w in sorted(self.links)],
            "prefixes": self.prefixes,
            "reach": {"longest": int(longest), "phases": int(phases)},
            "size": self.size,
            "tables": [self.table(answer) for answer in self.ask(*(f"table {u}" for u in range(self.size)))],
        }


def cleared(prefix):
    """A prefix, with the bits behind its length cleared."""
    groups, length = re.fullmatch(r"(\S+)/(\d+)", prefix).groups()
    number = int.from_bytes(bytes(map(int, groups.split("."))), "big") >> 32 - int(length) << 32 - int(length)
    return ".".join(map(str, number.to_bytes(4, "big"))) + f"/{int(length)}"


def in_json(value):
    """A value as a line of JSON, without its line feed."""
    return json.dumps(value, separators=(",", ":"), sort_keys=True, ensure_ascii=False)


def in_page(value):
    """The same as it stands in a page. Within strings alone a `<` can stand, so no byte of it begins or ends an element."""
    return in_json(value).replace("<", "\\u003c")


def source_hash(text):
    """How a page names a script, or a style, that it may use."""
    return "sha256-" + base64.b64encode(hashlib.sha256(text.encode()).digest()).decode()


def shell():
    """The page without its data: what stands before that and behind it."""
    style = "\n" + (PAGES / "domain.css").read_text(encoding="utf-8")
    script = "\n" + "".join((PAGES / name).read_text(encoding="utf-8") for name in SCRIPTS)
    page = (PAGES / "domain.html").read_text(encoding="utf-8")
    for mark, text in (("STYLE-HASH", source_hash(style)), ("SCRIPT-HASH", source_hash(script)), ("/* STYLE */", style), ("/* SCRIPT */", script)):
        before, behind = page.split(mark)
        page = before + text + behind
    return page.split("<!-- DATA -->\n")


def element(name, value):
    """A value in an element of this name."""
    return f'<script type="application/json" id="{name}">{in_page(value)}</script>\n'


def page(name, data):
    """The page of a domain, whose script is in a file of this name."""
    before, behind = shell()
    return before + element("file", name) + element("domain", data) + behind


def main(words):
    parser = argparse.ArgumentParser(description=__doc__, formatter_class=argparse.RawDescriptionHelpFormatter)
    parser.add_argument("file", metavar="FILE")
    parser.add_argument("--page", action="store_true")
    given = parser.parse_args(words)
    with open(given.file, "rb") as script:
        data = Domain(os.path.abspath(built()), script.read()).data()
    print(page(given.file, data) if given.page else in_json(data), end="" if given.page else "\n")


if __name__ == "__main__":
    main(sys.argv[1:])

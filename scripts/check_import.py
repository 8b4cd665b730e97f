#!/usr/bin/env python3
"""Tries `ncimport` at many sizes: variables, lengths, numbers of filters; names that would steer a terminal; and random configurations that
are made of the filters in `tests/bird/`, whose import must have the tokens of the filter itself. Where BIRD takes a filter that is refused here, what
is imported must answer as BIRD did. Prints what fails, and at last 'N passed, M failed'. Each rewrite, files that include files, and what is left
out and at which place, are in `tests/rows/ncimport.rows`.

usage: NCROUTE=PATH [SEED=N] scripts/check_import.py     (PATH: `ncroute` as it is built, with `ncimport` beside it; N: the seed of the random
                                                          configurations, 1)
"""
import functools
import os
import pathlib
import random
import re
import resource
import signal
import subprocess
import tempfile

from lib import bird
from lib.counts import Counts
from lib.program import beside, built
from lib.tokens import words

SIZE = "250"
# A name that steers a terminal where it is not shown: it has a title, a line that is written over, and text that runs the other way.
STEERING = "a\x1b]0;x\x07\r\u202e\u2028b"
SHOWN = "a ]0;x  \ufffd\ufffdb"
HIDDEN = re.compile("[\x00-\x08\x0b-\x1f\x7f-\x9f\u061c\u200e\u200f\u2028-\u202e\u2066-\u2069]")

# Each place of a configuration of which something is told: how often such a name is told that stands there.
ECHOED = [
    ("a filter's name", "filter '{}' {{ accept; }}", 2),
    ("one that is not UTF-8", "filter '\udc80{}' {{ accept; }}", 2),
    ("a variable's name", "filter f int '{}'; {{ accept; }}", 1),
    ("a variable in the body", "filter f {{ int '{}' = 4; accept; }}", 1),
    ("a name that is read", "filter f {{ if net.len > '{}' then accept; }}", 1),
    ("a name that is assigned", "filter f {{ '{}' = 4; accept; }}", 1),
    ("a name in a set", "filter f {{ if net.len ~ [ 8, '{}' ] then accept; }}", 1),
    ("a label", "filter f {{ case net.len {{ '{}': accept; }} }}", 1),
    ("a part of a value", "filter f {{ if net.'{}' then accept; }}", 1),
    ("what is printed", "filter f {{ print '{}'; accept; }}", 0),
    ("a set's name", "filter f prefix set '{}'; {{ accept; }}", 0),
    ("a name that is defined", "define '{0}' = 8;\nfilter f {{ if net.len = '{0}' then accept; }}", 1),
    ("what a name is defined as", "define A = '{}';\nfilter f {{ if net.len = A then accept; }}", 1),
    ("a function's name", "function '{0}'() {{ accept; }}\nfilter f {{ '{0}'(); }}", 1),
    ("a function's argument", "function g(int '{0}') {{ accept; }}\nfilter f {{ g('{0}'); }}", 0),
    ("a name in a function", "function g() {{ return '{}'; }}\nfilter f {{ if g() then accept; }}", 1),
    ("a protocol's name", "protocol rip '{}' {{ ipv4 {{ import filter {{ accept; }}; export where '{}'; }}; }}", 2),
    ("a file that is included", "include \"{}.bird\";\nfilter f {{ accept; }}", 2),
    ("files that are included", "include \"{}*.bird\";\nfilter f {{ accept; }}", 1),
    ("a text", "filter f {{ reject \"{}\"; }}\nfilter g {{ accept \"{}\" \"{}\"; }}\nfilter h {{ if \"{}\" then accept; }}", 0),
    ("a comment", "filter f # {}\n{{ /* {} */ accept /* {} */ }}\n# {}", 0),
    ("a text that does not end", "filter f {{ accept; }}\nlog \"{}", 0),
    ("a name that does not end", "filter f {{ '{} }}", 0),
    ("no words", "{}\nfilter f {{ {} accept; }}", 0),
]


class Trial:
    """Configurations that are imported in a folder of their own."""

    def __init__(self, ncroute, folder):
        self.ncroute, self.ncimport, self.folder = ncroute, beside(ncroute), folder
        self.counts, self.number = Counts(), 0

    def check(self, name, holds, told=""):
        self.counts.expect(name, holds, told)

    def run(self, config):
        """What is printed, the exit status, and the text of each filter that was written, by its name."""
        here, ran = self.imported([("bird.conf", config)])
        return ran.stdout.decode(), ran.returncode, {path.stem: path.read_text() for path in here.glob("out/*")}

    def imported(self, files, folder="out", **more):
        """A new folder, and how the import of the first of some files ended there. They may have any names and bytes."""
        self.number += 1
        here = pathlib.Path(self.folder, str(self.number))
        (here / folder).mkdir(parents=True)
        for name, text in files:
            (here / name).write_bytes(text.encode("utf-8", "surrogateescape"))
        words = [self.ncimport, "--size", SIZE, "--out", folder, files[0][0]]
        return here, subprocess.run(words, cwd=here, capture_output=True, **more)

    def taken(self, name, config, filters):
        said, status, written = self.run(config)
        wanted = {filter: words(f"filter {filter} {body}") for filter, body in filters.items()}
        got = {filter: words(text) for filter, text in written.items()}
        self.check(name, got == wanted and status == 0, f"status {status}\n{said}{written}")

    def left_out(self, name, config, place, words):
        said, status, written = self.run(config)
        lines = said.splitlines()
        is_told = any(line.startswith(f"bird.conf:{place} ") and words in line for line in lines)
        taken = [line for line in lines if " verified " in line]
        self.check(name, status == 1 and is_told and len(taken) == len(written), f"status {status}\n{said}{written}")

    def printed(self, config, name="bird.conf", folder="out", files=()):
        """What is printed on both streams."""
        _, ran = self.imported([(name, config), *files], folder)
        return ran.stdout + ran.stderr


def shown(trial):
    """Names that would steer a terminal, in each place of which something is told: they are shown, and nothing else of them is printed."""

    def check(name, said, times):
        text = said.decode("utf-8", "surrogateescape")
        is_text = not any("\ud800" <= c <= "\udfff" for c in text)
        trial.check(f"{name} is shown", is_text and not HIDDEN.search(text) and text.count(SHOWN) == times and text.endswith("\n"), repr(text))

    for name, config, times in ECHOED:
        check(name, trial.printed(config.format(*[STEERING] * 4)), times)
    check("the name of the configuration", trial.printed("filter f { accept; }\n$", name=STEERING), 2)
    check("the folder", trial.printed("filter f { accept; }", folder=STEERING), 1)
    file = (f"{STEERING}.bird", "filter f { accept; }\n$")
    check("the name of an included file", trial.printed(f"include \"{STEERING}.bird\";", files=[file]), 2)


def full(trial):
    """A file that takes 200 bytes and no more: it is named, it has the beginning of the filter, and the next filter is imported."""
    def limit():
        signal.signal(signal.SIGXFSZ, signal.SIG_IGN)
        resource.setrlimit(resource.RLIMIT_FSIZE, (200, 200))

    members = ", ".join(f"10.{n}.0.0/16" for n in range(40))
    config = f"filter f {{ if net ~ [{members}] then accept; reject; }}\nfilter g {{ accept; }}\n"
    here, ran = trial.imported([("bird.conf", config)], preexec_fn=limit)
    held = (here / "out" / "f.filter").read_text()
    is_told = ran.stderr == b"out/f.filter: could not be written to its end (E2)\n"
    is_next = ran.stdout.startswith(b"bird.conf:2:1 filter g -> out/g.filter verified ")
    trial.check("a file that is not written to its end", is_told and is_next and ran.returncode == 1 and len(held) == 200, f"{ran} {held}")


def place(text, part, number=0):
    """The line and the column at which a part of a configuration begins, of several the one of this number."""
    at = -1
    for _ in range(number + 1):
        at = text.index(part, at + 1)
    return f"{text.count(chr(10), 0, at) + 1}:{at - text.rfind(chr(10), 0, at)}"


def variables(trial):
    """Filters of up to 16 variables: all assigned, one that is not, and one that is on a condition only, each of them read."""
    for count in range(1, 17):
        names = [f"v{n}" for n in range(count)]
        head = "".join(f" int {name};" for name in names)
        reads = " + ".join(names)
        for unset in sorted({0, count // 2, count - 1}):
            name = names[unset]
            others = "".join(f" {other} = 1;" for other in names if other != name)
            told = f"f: `{name}` may be read before it is assigned"
            each = f"filter f{head} {{{others} if net.len > 8 then {name} = 1; else {{ {name} = 2; }} if net.len > {reads} then accept; reject; }}"
            trial.taken(f"{count} variables, of which both ways assign {unset}", each, {"f": each[len("filter f"):]})
            none = f"filter f{head} {{{others} if net.len > {reads} then accept; reject; }}"
            trial.left_out(f"{count} variables without {unset}", none, place(none, name, 1), told)
            for way, one in [("an if", f"if net.len > 8 then {name} = 1;"), ("the other way of an if", f"if net.len > 8 then ; else {name} = 1;"),
                             ("a part of a case", f"case net.len {{ 8: {name} = 1; 9: {name} = 2; }}"),
                             ("each part of a case but one", f"case net.len {{ 8: {name} = 1; 9: ; else: {name} = 2; }}")]:
                some = f"filter f{head} {{{others} {one} if net.len > {reads} then accept; reject; }}"
                trial.left_out(f"{count} variables, of which {way} assigns {unset}", some, place(some, name, 1 + one.count(name)), told)
    for count in (1, 10, 100):
        filler = "if net.len = 9 then reject;\n" * count
        late = (f"filter f int a; int k;\n{{ a = 1;\n{filler}if net.len > k then reject;\n"
                f"{filler}k = 2; if net.len > k then accept; a = k;\n{filler}reject; }}")
        trial.left_out(f"the place of a variable between {2 * count} commands", late, place(late, "k", 1), "f: `k` may be read before it is assigned")
        two = f"filter f int a; int b;\n{{ {filler}if net.len > b then reject;\nif net.len > a then reject;\n{filler}accept; }}"
        trial.left_out(f"the first of two variables behind {count} commands", two, place(two, "b then"), "f: `b` may be read")


def chain(count):
    """So many definitions, each but the first the sum of two of the one before."""
    return "define d0 = 1;\n" + "".join(f"define d{n} = d{n - 1} + d{n - 1};\n" for n in range(1, count))


def lengths(trial):
    """Definitions, names, labels and filters of many lengths."""
    value = functools.reduce(lambda value, _: f"( {value} + {value} )", range(7), "1")
    trial.taken("a chain of definitions", chain(8) + "filter f { rip_metric = d7; accept; }", {"f": f"{{ rip_metric = {value}; accept; }}"})
    trial.left_out("definitions that are too long", chain(17) + "filter f { rip_metric = d16; accept; }", "18:1",
                   "f: it is longer than 65536 bytes with all definitions in place, or takes too many steps")
    for count in range(1, 33):
        value = " + ".join(["1"] * count)
        written = value if count == 1 else f"( {value} )"
        trial.taken(f"a definition of {2 * count - 1} words beside an operator",
                    f"define A = {value};\nfilter f {{ if rip_metric * A > 9 then accept; reject; }}",
                    {"f": f"{{ if rip_metric * {written} > 9 then accept; reject; }}"})
        members = ", ".join(f"10.{n}.0.0/16" for n in range(count))
        trial.taken(f"a set of {count}", f"define A = [ {members} ];\nfilter f {{ if net ~ A then accept; reject; }}",
                    {"f": f"{{ if net ~ [ {members} ] then accept; reject; }}"})
    for count in range(1, 65):
        name = "n" * count
        twice = f"define {name} = 8;\ndefine other = 7;\ndefine {name} = 9;\nfilter f {{ if net.len = {name} then accept; reject; }}"
        trial.left_out(f"two definitions of a name of {count} letters", twice, "4:25", f"f: `{name}` has two definitions")
    for count in (0, 1, 2, 5, 10, 20):
        labels = [f"10.1.{n}.0" for n in range(count)]
        parts = " ".join(f"{label}: rip_metric = 3;" for label in labels)
        for last in ("10.9.9.9", "10.9.0.0..10.9.9.9", "10.9.9.9..10.9.10.0", "10.8.0.0, 10.9.9.9", "10.9.9.0..10.9.10.0"):
            shared = f"filter f {{ case net.ip {{ 10.9.9.9: accept; {parts} {last}: reject; }} reject; }}"
            trial.left_out(f"a label that shares an address with {last} behind {count} parts", shared, "1:12", "f: the labels")
        first = f"filter f {{ case net.ip {{ 10.9.9.9: accept; 10.9.9.8..10.9.9.10: reject; {parts} }} reject; }}"
        trial.left_out(f"labels that share an address before {count} parts", first, "1:12", "f: the labels")
        apart = f"filter f {{ case net.ip {{ 10.9.9.9: accept; {parts} 10.9.9.0..10.9.9.8: reject; }} reject; }}"
        tests = "".join(f"else if net.ip = {label} then {{ rip_metric = 3; }} " for label in labels)
        last = "else if ( net.ip >= 10.9.9.0 && net.ip <= 10.9.9.8 ) then { reject; }"
        trial.taken(f"labels that share no address, with {count} parts between", apart,
                    {"f": f"{{ if net.ip = 10.9.9.9 then {{ accept; }} {tests}{last} reject; }}"})
    for count in (1, 5, 30, 60, 100, 150):
        filler = "if net.len = 9 then reject; " * count
        words = 8 * count
        trial.taken(f"mixed operators behind {words} words", f"filter f {{ {filler}if true || true && false then accept; reject; }}",
                    {"f": f"{{ {filler}if ( true || true ) && false then accept; reject; }}"})
        trial.taken(f"mixed operators before {words} words", f"filter f {{ if true || true && false then accept; {filler}reject; }}",
                    {"f": f"{{ if ( true || true ) && false then accept; {filler}reject; }}"})
        trial.taken(f"a missing semicolon behind {words} words", f"filter f {{ {filler}if net.len > 8 then rip_metric = 4 else reject }}",
                    {"f": f"{{ {filler}if net.len > 8 then rip_metric = 4; else reject; }}"})
        for part, wanted in [("net.ip.mask(FAR) = 10.0.0.0", "FAR"), ("net.len ~ [ FAR ]", "FAR"), ("net ~ [ 10.0.0.0/8{FAR,24} ]", "FAR")]:
            masked = f"define FAR = 2 + 3;\nfilter f {{ {filler}if {part} then accept; reject; }}"
            trial.left_out(f"{part} behind {words} words", masked, place(masked, wanted, 1), "f: `FAR` is defined by more than one word")
        masked = f"define FAR = 8;\nfilter f {{ {filler}if net.ip.mask(FAR) = 10.0.0.0 then accept; reject; }}"
        trial.taken(f"a mask by a name behind {words} words", masked, {"f": f"{{ {filler}if net.ip.mask(8) = 10.0.0.0 then accept; reject; }}"})


def counts(trial):
    """Configurations of each number of filters and functions up to 100: each filter is told at its place, and the places that its words come
    from stand above it."""
    for count in range(1, 101):
        lines, wanted, heads = ["define FAR = 20 + 4;"], [], {}
        for n in range(count):
            line, indent = len(lines) + 1, n % 7
            if n % 5 == 1:
                lines.append(" " * indent + f"function g{n}() {{ if net.len = {n % 33} then reject; }}")
                called = (f"g{n}", f"bird.conf:{line}:{lines[-1].index('if') + 1}")
            elif n % 5 == 3:
                lines.append(" " * indent + f"protocol rip p{n} {{ import filter {{ if net.len > FAR then reject; accept; }}; }}")
                wanted.append(f"bird.conf:{line}:{lines[-1].index('import') + 1} filter p{n}_import -> ")
                heads[f"p{n}_import"] = [f"# From {wanted[-1].split()[0]}", "# and bird.conf:1:14"]
            else:
                call = f" {called[0]}();" if n > 1 else ""
                lines.append(" " * indent + f"filter f{n} {{{call} if net.len > FAR then reject; accept; }}")
                wanted.append(f"bird.conf:{line}:{indent + 1} filter f{n} -> ")
                heads[f"f{n}"] = [f"# From bird.conf:{line}:{indent + 1}"] + ([f"# and {called[1]}"] if n > 1 else []) + ["# and bird.conf:1:14"]
        said, status, written = trial.run("\n".join(lines))
        told = said.splitlines()
        is_told = status == 0 and len(told) == len(wanted) and all(line.startswith(it) for line, it in zip(told, wanted))
        got = {name: [line for line in text.splitlines() if line.startswith("#")] for name, text in written.items()}
        trial.check(f"{count} filters and functions", is_told and got == heads, f"status {status}\n{said}{got}")


def constants(text, dice):
    """A configuration with definitions for some constants of a filter."""
    defined, written = [], []
    for piece in re.split(r"(\[[^\[\]]*\]|\"[^\"]*\"|\d+\.\d+\.\d+\.\d+(?:/\d+)?|0x[0-9a-fA-F]+|\b\d+\b|[A-Za-z_]\w*)", text):
        if piece and (piece[0] == "[" or piece[0].isdigit()) and dice.random() < 0.4:
            name = f"C{len(defined)}_{dice.choice(['X', 'OF', 'IT'])}"
            if piece[0] == "[" and dice.random() < 0.5:
                defined.append(f"define {name}_ = {piece};  # a set")
                defined.append(f"define {name} = {name}_;")
            else:
                defined.append(f"define {name} = {piece};")
            written.append(name)
        else:
            written.append(piece)
    return "\n".join(defined), "".join(written)


def randoms(trial, seed, count):
    dice = random.Random(seed)
    blocks = [block for path in bird.files() if "differences" not in path for block in bird.read(path)[1]]
    for block in dice.sample(blocks, min(count, len(blocks))):
        defined, body = constants(block.filter, dice)
        before, end = f"log syslog all;\n{defined}\nprotocol kernel {{ learn; }}\n/* {block.name()} */\n", dice.choice(["", ";"])
        config = f"{before}{body.rstrip()}{end}\ntemplate bgp t {{ local as 1; }}\n"
        said, status, written = trial.run(config)
        text = written.get(block.name(), "")
        trial.check(block.name(), status == 0 and words(text) == words(block.filter), f"{said}{config}")


def verdicts(trial):
    """What BIRD takes and is refused here: what is imported answers as BIRD did."""
    for path in bird.files():
        for block in bird.read(path)[1]:
            refused = any(refusal.startswith("refused ") for refusal in block.refusals)
            if not refused or block.birds() is None:
                continue
            said, _, written = trial.run(block.filter)
            text = written.get(block.name())
            if text is None:
                trial.check(block.name(), "was left out" in said, said)
                continue
            routes = "".join(f"{net} {metric}\n" for net, metric in block.routes)
            path = pathlib.Path(trial.folder, "filter")
            path.write_text(text)
            ran = subprocess.run([trial.ncroute, "filter", "--size", SIZE, path], input=routes, capture_output=True, text=True)
            trial.check(block.name(), ran.stdout.splitlines() == block.birds(), f"{text}{ran.stdout}{block.birds()}")


def main():
    ncroute = built()
    seed = int(os.environ.get("SEED", "1"))
    with tempfile.TemporaryDirectory() as folder:
        trial = Trial(ncroute, folder)
        shown(trial)
        full(trial)
        variables(trial)
        lengths(trial)
        counts(trial)
        randoms(trial, seed, 300)
        verdicts(trial)
    trial.counts.finish()


if __name__ == "__main__":
    main()

#!/usr/bin/env python3
"""Starts routers from files of their whole domain, and compares what they say of it: the digest in their greetings and in their status, which is
the same for files that are one domain, and another one for each that is not; and what two of them tell that were started from the same file, and from
others, and where one of them read the file again and the other one was started anew. One comes up with a neighbour of a version that knows no
digests, also where that is in session already. The last line is 'N passed, M failed'.

usage: NCROUTE=PATH scripts/check_domain_files.py     (PATH: the program as it is built)
"""
import json
import os
import pathlib
import re
import subprocess
import tempfile

from lib.controls import Control
from lib.counts import Counts
from lib.processes import PATIENCE, Process, awaited
from lib.program import built

NEAR = "filter near { if rip_metric > 2 then reject; accept; }"
SLOW = "filter slow { rip_metric = rip_metric + 2; accept; }"
DOMAIN = ["domain 4", "prefix 2 192.0.2.0/24", f"load near {NEAR}", f"load slow {SLOW}", "link 0 1", "link 1 2", "import 0 1 near", "export 1 2 slow"]

# What a file is in place of DOMAIN: each of these is the same domain.
SAME = {
    "comments and questions": ["# A domain", *DOMAIN, "", "table 0", "settle"],
    "another order of links": [*DOMAIN[:4], "link 2 1", "link 1 0", *DOMAIN[6:]],
    "links that are cut and made again": [*DOMAIN, "cut 0 1", "link 0 1", "link 2 3", "cut 3 2"],
    "another name of a filter": [line.replace("near", "close") for line in DOMAIN],
    "another text of the same code": [line.replace("then reject;", "then { reject; }") for line in DOMAIN],
    "a filter that nobody uses": [*DOMAIN, "load none filter none { reject; }"],
    "a use that another one takes the place of": [*DOMAIN[:6], "import 0 1 slow", *DOMAIN[6:]],
    "included filters": [*DOMAIN[:2], "include near near.filter", "include slow slow.filter", *DOMAIN[4:]],
    "a prefix that is said, and the usual one": [DOMAIN[0], "prefix 3 10.3.0.0/16", *DOMAIN[1:]],
}

# The file of a domain that is read again.
AGAIN = ["domain 2", f"load near {NEAR}", "link 0 1", "import 0 1 near"]

# And each of these another one.
OTHERS = {
    "more nodes": ["domain 5", *DOMAIN[1:]],
    "another prefix": [line.replace("192.0.2.0/24", "192.0.2.0/25") for line in DOMAIN],
    "the usual prefix": [DOMAIN[0], *DOMAIN[2:]],
    "a link more": [*DOMAIN, "link 2 3"],
    "a link less": [*DOMAIN, "cut 1 2"],
    "another filter": [line.replace("> 2", "> 3") for line in DOMAIN],
    "a filter less": DOMAIN[:-1],
    "a filter at the other end": [*DOMAIN[:6], "import 1 0 near", DOMAIN[7]],
    "a filter in the other direction": [*DOMAIN[:6], "export 0 1 near", DOMAIN[7]],
}


# What an end says that hears the greeting of another domain.
MISTAKEN = re.compile(r"link \d: line \d+ is not its greeting: the neighbour's domain has the digest [0-9a-f]{16}, and this one [0-9a-f]{16}: closed")

GREETING = re.compile(rb"netchange 2 \d+ 0 9 (\d+) (\d+)( [0-9a-f]{16})?\n")


def fifos_in(folder, *names):
    """New FIFOs of these names."""
    paths = [os.path.join(folder, name) for name in names]
    for path in paths:
        os.mkfifo(path)
    return paths


def digest_of(operator):
    """The digest that a router says its domain has."""
    return json.loads(operator.ask("status json"))["domain"]


class Older:
    """A neighbour of a version before digests, node 1 of two, by the rules of docs/SESSIONS.md: a greeting with a digest says nothing to it. It may
    be in session at first, as an end of a line that outlived the router."""

    def __init__(self, heard, told, is_up):
        self.heard, self.told, self.number, self.last, self.is_up, self.lines = heard, told, 7, 0, is_up, []
        if not is_up:
            self.greet()

    def greet(self):
        self.say(f"{self.number} {self.last}")

    def say(self, attempt, digest=""):
        self.told.write(f"netchange 2 2 1 0 {attempt}{digest and ' ' + digest}\n".encode())

    def begin(self):
        """Its session is over: it begins anew."""
        self.number, self.is_up = self.number + 1, False

    def hear(self):
        line = self.heard.readline()
        self.lines.append(line)
        found = GREETING.fullmatch(line)
        if found and not found[3]:
            if self.is_up:
                self.begin()
            number, repeats = int(found[1]), int(found[2])
            has_said, self.last, self.is_up = self.last == number, number, repeats == self.number
            if not (self.is_up and has_said):
                self.greet()
        elif not re.fullmatch(rb"(\d+ \d+)?\n", line) and self.is_up:
            self.begin()
            self.greet()

    def digests(self):
        """Which of the greetings that it heard have a digest."""
        return [bool(found[3]) for found in map(GREETING.fullmatch, self.lines) if found]


class Domains:
    """Files of domains in a folder, and routers that are started from them."""

    def __init__(self, program, folder, counts):
        self.program, self.folder, self.counts, self.statuses = program, folder, counts, []
        for name, text in (("near", NEAR), ("slow", SLOW)):
            self.write(f"{name}.filter", [text.replace("{ ", "{ # in a file\n")])

    def path(self, name):
        return os.path.join(self.folder, name)

    def write(self, name, lines):
        pathlib.Path(self.path(name)).write_text("\n".join([*lines, ""]), encoding="utf-8")
        return self.path(name)

    def greeting(self, lines):
        """What node 0 greets by, where these lines are its domain."""
        file = self.write("the.domain", lines)
        with tempfile.TemporaryDirectory(dir=self.folder) as folder:
            fifos = fifos_in(folder, "in", "out")
            words = [self.program, "router", "--domain", file, "--node", "0", "--link", f"1={fifos[0]},{fifos[1]}"]
            with Process(words, errors=subprocess.DEVNULL) as router, open(fifos[1], "rb") as said, open(fifos[0], "wb"):
                greeting, self.statuses = said.readline().decode(), [router.ask(line) for line in ("status json", "status")]
                return greeting

    def digest(self, what, lines):
        """The digest in that greeting."""
        greeting = self.greeting(lines)
        found = re.fullmatch(r"netchange 2 \d 0 9 \d+ 0 ([0-9a-f]{16})\n", greeting)
        self.counts.expect(f"greeting: {what}", found, repr(greeting))
        as_object, line = self.statuses
        told = found and json.loads(as_object)["domain"] == found[1] and f" domain {found[1]} version " in line
        self.counts.expect(f"status: {what}", told, (greeting, self.statuses))
        return found and found[1]

    def digests(self):
        own = self.digest("the domain", DOMAIN)
        for what, lines in SAME.items():
            self.counts.expect(f"same digest: {what}", (found := self.digest(what, lines)) == own, f"{found}, and not {own}")
        others = {what: self.digest(what, lines) for what, lines in OTHERS.items()}
        for what, found in others.items():
            self.counts.expect(f"another digest: {what}", found != own and list(others.values()).count(found) == 1, found)

    def meet(self, what, files, options, is_up):
        """Nodes 0 and 1, each with its words: whether both come up, or neither does, and an end says why. The other may be closed before it heard a
        greeting, each time."""
        with tempfile.TemporaryDirectory(dir=self.folder) as folder:
            there, back = fifos_in(folder, "there", "back")
            links = [["--link", f"1={back},{there}"], ["--link", f"0={there},{back}"]]
            errors = [os.path.join(folder, f"{node}.errors") for node in (0, 1)]
            with open(errors[0], "wb") as first, open(errors[1], "wb") as second:
                with self.start(0, files[0], links[0], options[0], first) as zero, self.start(1, files[1], links[1], options[1], second) as one:
                    def told():
                        return [MISTAKEN.findall(pathlib.Path(path).read_text(encoding="utf-8")) for path in errors]

                    def seen():
                        return zero.ask("neighbours"), one.ask("neighbours"), told()

                    def is_right(it):
                        up = re.fullmatch(r"neighbours 1:\d+", it[0]) and re.fullmatch(r"neighbours 0:\d+", it[1])
                        return up and it[2] == [[], []] if is_up else it[:2] == ("neighbours", "neighbours") and any(it[2])
                    found = awaited(seen, is_right, PATIENCE, 0.1)
                    self.counts.expect(f"two routers: {what}", is_right(found), found)

    def start(self, node, file, link, options, errors):
        words = ["--domain", file] if file else ["--size", "2"]
        return Process([self.program, "router", "--node", str(node), *words, *link, *options], errors=errors)

    def older(self, is_up):
        """Node 0 with a file, and an older neighbour, which is in session at first or not: what is said, and what once it knows digests."""
        what = "an older neighbour in session" if is_up else "an older neighbour"
        file = self.write("older.domain", ["domain 2", "link 0 1"])
        with tempfile.TemporaryDirectory(dir=self.folder) as folder:
            fifos = fifos_in(folder, "in", "out")
            words = [self.program, "router", "--domain", file, "--node", "0", "--link", f"1={fifos[0]},{fifos[1]}"]
            errors = os.path.join(folder, "errors")
            with open(errors, "wb") as told, Process(words, errors=told) as router, \
                    open(fifos[1], "rb", buffering=0) as said, open(fifos[0], "wb", buffering=0) as back:
                older = Older(said, back, is_up)
                while not older.lines or not older.is_up:
                    older.hear()
                up = awaited(lambda: router.ask("neighbours"), lambda it: it.startswith("neighbours 1:"), PATIENCE, 0.1)
                # The router may hear a greeting before it writes its first one. From a neighbour in session none comes before that.
                digests = older.digests()
                begins = digests[0] or not is_up
                self.counts.expect(f"{what} comes up", re.fullmatch(r"neighbours 1:\d+", up), (up, older.lines))
                self.counts.expect(f"{what} hears no digest once it greeted", begins and not any(digests[1:]) and not digests[-1], older.lines)
                # Another program takes its place on the same streams.
                older.is_up, before = False, len(older.lines)
                older.say("99 0", "00" * 8)
                text = awaited(lambda: pathlib.Path(errors).read_text(encoding="utf-8"), lambda it: "digest 0000000000000000" in it, PATIENCE, 0.1)
                self.counts.expect(f"{what} that says another digest is refused", "is not its greeting: the neighbour's domain has the digest "
                                   "0000000000000000, and this one " in text, (text, older.lines[before:]))

    def reload(self, control):
        """Node 0 reads its file again, which has another filter."""
        before = digest_of(control)
        self.write("again.domain", [line.replace("> 2", "> 3") for line in AGAIN])
        answer = control.ask("reload")
        self.counts.expect("reload", answer == "reloaded | import 1 near" and digest_of(control) != before, answer)

    def started_anew(self):
        """Node 0 reads its file again while its link is up, and node 1 is started anew, from that file, and from the one that it was."""
        files = [self.write(f"{name}.domain", AGAIN) for name in ("again", "before")]
        with tempfile.TemporaryDirectory(dir=self.folder) as folder:
            there, back = fifos_in(folder, "there", "back")
            control, errors = Control(folder, "zero"), os.path.join(folder, "errors")
            links = [["--link", f"1={back},{there}", "--retry", "1"], ["--link", f"0={there},{back}", "--retry", "1"]]

            def is_up(it):
                return all(re.fullmatch(rf"neighbours {node}:\d+", line) for node, line in zip((1, 0), it))

            def comes_up(what, one):
                found = awaited(lambda: (zero.ask("neighbours"), one.ask("neighbours")), is_up, PATIENCE, 0.1)
                self.counts.expect(what, is_up(found), found)
                return found
            with open(errors, "wb") as told, self.start(0, files[0], links[0], control.option(), told) as zero, control:
                with self.start(1, files[0], links[1], [], subprocess.DEVNULL) as one:
                    before = comes_up("one file before it is read again", one)
                    self.reload(control)
                    found = zero.ask("neighbours"), one.ask("neighbours")
                    self.counts.expect("a session goes on", found == before, (found, before))
                with self.start(1, files[0], links[1], [], subprocess.DEVNULL) as one:
                    comes_up("one that read the file again, and one that was started anew", one)
                said = pathlib.Path(errors).read_text(encoding="utf-8")
                self.counts.expect("no other domain", not MISTAKEN.search(said), said)
                # Either end may be closed before it heard the other's greeting, and says nothing then.
                others = pathlib.Path(folder, "errors of the other")
                with others.open("wb") as theirs, self.start(1, files[1], links[1], [], theirs) as one:
                    def texts():
                        return pathlib.Path(errors).read_text(encoding="utf-8") + others.read_text(encoding="utf-8")
                    said = awaited(texts, MISTAKEN.search, PATIENCE, 0.1)
                    self.counts.expect("the file before is another domain", MISTAKEN.search(said) and one.ask("neighbours") == "neighbours", said)

    def begun_anew(self):
        """Node 0 reads its file again while its link is up, whose neighbour begins anew over the same streams: the new digest is said, and wanted."""
        file = self.write("again.domain", AGAIN)
        with tempfile.TemporaryDirectory(dir=self.folder) as folder:
            fifos, control = fifos_in(folder, "in", "out"), Control(folder, "zero")
            link = ["--link", f"1={fifos[0]},{fifos[1]}"]
            with self.start(0, file, link, control.option(), subprocess.DEVNULL) as router, control, \
                    open(fifos[1], "rb", buffering=0) as said, open(fifos[0], "wb", buffering=0) as back:
                def meet(heard, number, digest, session):
                    """Answers the router's greeting that repeats a number, by one of another number."""
                    greeting = next(found for line in iter(said.readline, b"") if (found := GREETING.fullmatch(line)) and int(found[2]) == heard)
                    back.write(f"netchange 2 2 1 0 {number} {greeting[1].decode()} {digest}\n".encode())
                    up = awaited(lambda: router.ask("neighbours"), lambda it: it == f"neighbours 1:{session}", PATIENCE, 0.1)
                    told = greeting[3] and greeting[3].decode().strip()
                    found = up, told
                    self.counts.expect(f"session {session} over the same streams", found == (f"neighbours 1:{session}", digest), (found, digest))
                meet(0, 7, digest_of(control), 1)
                self.reload(control)
                back.write(f"netchange 2 2 1 0 8 0 {digest_of(control)}\n".encode())
                meet(8, 8, digest_of(control), 2)

    def meetings(self):
        two = ["domain 2", "link 0 1"]
        same, other = self.write("same.domain", two), self.write("other.domain", [two[0], "prefix 1 10.9.0.0/16", *two[1:]])
        allow = ["--allow-other-domain"]
        self.meet("one file", (same, same), ([], []), True)
        # An end may hear that the other went before it hears a greeting: then it hears that of the next time.
        again = ["--retry", "1"]
        self.meet("two files", (same, other), (again, again), False)
        self.meet("two files, allowed", (same, other), (allow, allow), True)
        self.meet("one without a file", (same, None), ([], []), True)
        self.meet("none with a file", (None, None), ([], []), True)


def main():
    counts = Counts()
    with tempfile.TemporaryDirectory() as folder:
        domains = Domains(built(), folder, counts)
        domains.digests()
        domains.meetings()
        domains.started_anew()
        domains.begun_anew()
        for is_up in (False, True):
            domains.older(is_up)
    counts.finish()


if __name__ == "__main__":
    main()

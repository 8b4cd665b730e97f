#!/usr/bin/env python3
"""Starts a router for each node of a domain as a service, all from one file of the domain, with FIFOs between them, and compares what they find
with what `ncroute domain` computes.

usage: scripts/lab.py [--keep] [--idle SECONDS] [TOPOLOGY..]        (a script of `ncroute domain`; without one, examples/ring_of_five.domain and
                                                    examples/grid_of_sixteen.domain; NCROUTE=PATH: the program, without which nothing is run)

Of a topology the lines `domain`, `prefix`, `load`, `link`, `import` and `export` count. They are the file of the domain, which includes each filter
from a file of its own. A node has a file of options besides, and its router is started, started again and stopped by the commands of its systemd
unit, as a process of this script (lib/units.py). An operator asks at the FIFOs of its unit. Between the files of two neighbours stands a `cat` in
each direction, so that a link can be cut by ending both. For each topology the lab

  1. starts the routers, waits until all is quiet, and compares `routes` of each with `table` of `ncroute domain`;
  2. looks at the idle routers for 2 seconds, or for as long as `--idle` says: no entry is made, and hardly any processor time is used;
  3. cuts a link, and compares again; mends it, and compares again;
  4. replaces the import filter of a node by one that counts one link more, and compares again;
  5. kills a router (SIGKILL), of which all that it answered of its history a while before has to be saved, and cuts its links; its service starts it
     again; compares all, mends the links, and compares again;
  6. stops all services, and replays each history that was saved: in it each session has its Down.

The last line is 'N passed, M failed'. With --keep the folder with the files, FIFOs and histories stays, and standard error says where it is.
"""
import argparse
import os
import pathlib
import re
import shutil
import signal
import subprocess
import sys
import tempfile
import time
import traceback

from lib.controls import Control
from lib.counts import Counts
from lib.histories import entries_of, open_sessions, replayed, segments_of
from lib.processes import PATIENCE, Router, awaited, open_files
from lib.program import TOP, built
from lib.units import PLACES, Service, Unit

TOPOLOGIES = ("examples/ring_of_five.domain", "examples/grid_of_sixteen.domain")
SETUP = ("domain", "prefix", "load", "link", "import", "export")

# Seconds: what is quiet makes no entry for so long; how long idle routers are looked at, if no option says otherwise.
QUIET, IDLE = 0.5, 2.0

# Seconds of a processor that an idle router may take in a minute, for its empty lines, and in any time.
MOST_IN_A_MINUTE, MOST_AT_ALL = 0.05, 0.02


class Topology:
    """A domain, by the lines that set it up."""

    def __init__(self, path):
        lines = [line.strip() for line in pathlib.Path(path).read_text().splitlines()]
        self.lines = [line for line in lines if line.split(" ")[0] in SETUP]
        self.cuts = [tuple(map(int, line.split()[1:3])) for line in lines if line.startswith("cut ")]
        words = [line.split() for line in self.lines]
        self.size = next(int(w[1]) for w in words if w[0] == "domain")
        self.links = [tuple(sorted(map(int, w[1:3]))) for w in words if w[0] == "link"]
        self.prefixes = [(int(w[1]), w[2]) for w in words if w[0] == "prefix"]
        self.filters = {line.split()[1]: line.split(None, 2)[2] for line in self.lines if line.startswith("load ")}
        self.uses = [(w[0], int(w[1]), int(w[2]), w[3]) for w in words if w[0] in ("import", "export")]

    def neighbours(self, node):
        return [w for link in self.links if node in link for w in link if w != node]

    def tables(self, program, more):
        """The routes of each node, as `ncroute domain` computes them with more lines."""
        asked = [f"table {node}" for node in range(self.size)]
        script = "\n".join([*self.lines, *more, *asked, ""])
        said = subprocess.run([program, "domain"], input=script.encode(), capture_output=True, check=False).stdout.decode().split("\n")
        tables = ["routes" + line[len("table"):] for line in said if line.startswith("table ")]
        if len(tables) != self.size:
            raise ValueError(f"`ncroute domain` answered {len(tables)} tables of {self.size}: {said}")
        return tables


class Node(Router):
    """A node, whose router is a service. What it is asked, an operator asks at the FIFOs of its unit."""

    def __init__(self, lab, number):
        self.program, self.number, self.root = lab.program, number, lab.folder
        runs = f"{lab.folder}/run/ncroute/{number}"
        lines = ["domain net.domain", f"node {number}", "retry 1", f"control {runs}/in {runs}/out"]
        lines += [f"link {other} {lab.fifo(other, number, 'in')} {lab.fifo(number, other, 'out')}" for other in lab.topology.neighbours(number)]
        pathlib.Path(lab.folder, f"etc/ncroute/{number}.conf").write_text("\n".join([*lines, ""]))
        self.control = Control(runs, "", is_made=True)
        self.service = Service(lab.unit, str(number), lab.folder)

    @property
    def process(self):
        return self.service.process

    def starts(self):
        """The folders of its histories, one of each start."""
        return sorted(pathlib.Path(self.root, f"var/lib/ncroute/{self.number}").glob("*"))

    @property
    def history(self):
        return self.starts()[-1]

    def ask(self, line):
        def answer():
            try:
                return self.control.asked(line)[0]
            except (BrokenPipeError, FileNotFoundError):
                # Its router ends, or begins.
                return ""
        return awaited(answer, bool, PATIENCE)

    def saved_bytes(self):
        """How many bytes of its histories are saved."""
        return sum(file.stat().st_size for start in self.starts() for file in start.glob("*.history"))

    @staticmethod
    def saved_in(history):
        """The entries of one of its histories, as far as their lines are whole."""
        return [entry.decode() for segment in segments_of(history) for entry in entries_of(segment.read_bytes())]

    def starts_again(self):
        """Waits until its service has started another router: whether it has."""
        before = len(self.starts())
        return awaited(lambda: len(self.starts()) > before, bool, PATIENCE)


class Lab:
    """The routers of a domain, and the streams between them."""

    def __init__(self, program, path, idle):
        self.program, self.name, self.idle = program, os.path.basename(path), idle
        self.topology = Topology(path)
        self.folder = tempfile.mkdtemp(prefix="lab.")
        self.unit = Unit(TOP / "packaging" / "systemd" / "system" / "ncroute@.service", program)
        self.counts = Counts()
        self.cats = {}
        for place in (*PLACES, "/streams"):
            os.makedirs(self.folder + place)
        for u, w in self.topology.links:
            for a, b in ((u, w), (w, u)):
                for end in ("out", "in"):
                    os.mkfifo(self.fifo(a, b, end))
        # All routers are started from this file, which includes each filter from another one.
        options = pathlib.Path(self.folder, "etc", "ncroute")
        for name, text in self.topology.filters.items():
            (options / f"{name}.filter").write_text(text)
        lines = [f"include {line.split()[1]} {line.split()[1]}.filter" if line.startswith("load ") else line for line in self.topology.lines]
        (options / "net.domain").write_text("\n".join([*lines, ""]))
        self.nodes = [Node(self, number) for number in range(self.topology.size)]

    def fifo(self, a, b, end):
        """What `a` tells `b`: the end where it is written, or where it is read."""
        return os.path.join(self.folder, "streams", f"{a}-{b}.{end}")

    def connect(self, link):
        for a, b in (link, link[::-1]):
            words = 'exec cat "$0" > "$1"', self.fifo(a, b, "out"), self.fifo(a, b, "in")
            self.cats[a, b] = subprocess.Popen(["sh", "-c", *words], stderr=subprocess.DEVNULL)

    def cut(self, link):
        for way in (link, link[::-1]):
            cat = self.cats.pop(way, None)
            if cat:
                cat.kill()
                cat.wait()

    def judge(self, what, holds, told=""):
        self.counts.expect(f"{self.name}: {what}", holds, told)

    def sizes(self):
        return [node.saved_bytes() for node in self.nodes]

    def await_quiet(self, quiet=QUIET):
        """Waits until no history grows for so long: the seconds until then, or None."""
        begun = last = time.monotonic()
        sizes = self.sizes()
        while time.monotonic() - begun < PATIENCE:
            time.sleep(0.02)
            now = self.sizes()
            if now != sizes:
                sizes, last = now, time.monotonic()
            elif time.monotonic() - last > quiet:
                return last - begun
        return None

    def compare(self, what, more):
        """Waits for the routes that `ncroute domain` computes, and compares them when all is quiet."""
        wanted = self.topology.tables(self.program, more)
        begun = time.monotonic()
        found = None
        rest = None
        while time.monotonic() - begun < PATIENCE:
            quiet = self.await_quiet()
            rest = None if quiet is None else time.monotonic() - begun - QUIET
            found = [node.ask("routes") for node in self.nodes]
            if found == wanted:
                break
            # A link that was closed is opened again after a second.
            time.sleep(0.3)
        for node, (a, b) in enumerate(zip(found, wanted)):
            self.judge(f"{what}: node {node}", a == b, f"\n  {a}\n  {b}")
        print(f"{self.name}: {what}: " + ("not at rest" if rest is None else f"at rest after {rest:.2f} s"), file=sys.stderr)

    def look_at_idle(self):
        # The tables may be right before the last message is entered, which on a loaded machine comes late.
        self.await_quiet(IDLE)
        before = [(node.saved_bytes(), node.processor_time()) for node in self.nodes]
        time.sleep(self.idle)
        after = [(node.saved_bytes(), node.processor_time()) for node in self.nodes]
        most = max(t - s for (_, s), (_, t) in zip(before, after))
        print(f"{self.name}: idle for {self.idle:g} s: at most {most:.2f} s of processor time", file=sys.stderr)
        allowed = max(MOST_AT_ALL, MOST_IN_A_MINUTE * self.idle / 60)
        for node, ((a, s), (b, t)) in enumerate(zip(before, after)):
            self.judge(f"idle: node {node}", a == b and t - s < allowed, f"{b - a} bytes, {t - s:.2f} s")

    def run(self):
        for link in self.topology.links:
            self.connect(link)
        for node in self.nodes:
            node.service.start()
        self.compare("begun", [])
        self.look_at_idle()
        most, number = max((node.kilobytes("VmRSS"), node.number) for node in self.nodes)
        print(f"{self.name}: at most {most} kB, of node {number}", file=sys.stderr)
        link = tuple(sorted((self.topology.cuts or self.topology.links)[0]))
        u, w = link
        self.cut(link)
        self.compare("cut", [f"cut {u} {w}"])
        self.connect(link)
        self.compare("mended", [])
        text = "filter farther { rip_metric = rip_metric + 1; accept; }"
        more = [f"load farther {text}", f"import {u} {w} farther"]
        self.judge("load", self.nodes[u].ask(more[0]).startswith("verified "))
        self.judge("import", self.nodes[u].ask(f"import {w} farther").startswith("done "))
        self.compare("filtered", more)
        mine = [tuple(sorted((w, other))) for other in self.topology.neighbours(w)]
        self.kill(self.nodes[w], mine)
        self.compare("killed", more + [f"cut {a} {b}" for a, b in mine])
        for one in mine:
            self.connect(one)
        self.compare("started again", more)
        for node in self.nodes:
            self.stop(node)

    def kill(self, victim, links):
        """Kills a router, a while after it answered its history, and cuts its links before its service starts it again."""
        answered, history = victim.entries(), victim.history
        _, took = victim.has_saved(answered)
        print(f"{self.name}: killed: all was saved after {took:.2f} s", file=sys.stderr)
        victim.service.signal(signal.SIGKILL)
        for link in links:
            self.cut(link)
        self.judge("killed: is started again", victim.starts_again())
        self.judge("killed: results", victim.service.results == [-signal.SIGKILL], victim.service.results)
        self.replay(victim, history, may_be_cut=True)
        saved = victim.saved_in(history)
        self.judge("killed: all is saved", saved[:len(answered)] == answered, f"{len(saved)} entries of {len(answered)}")

    def stop(self, node):
        """Stops a service: its router ends well, and enters the Down of each session before."""
        status, seconds = node.service.stop()
        self.judge(f"stopped: node {node.number}", status == 0, f"{status} after {seconds:.1f} s")
        self.replay(node, node.history)
        left = open_sessions(node.saved_in(node.history))
        self.judge(f"Downs: node {node.number}", not left, left)

    def replay(self, node, history, may_be_cut=False):
        said, _ = replayed(node.program, segments_of(history))
        right = said.startswith("replay ok ") or may_be_cut and re.fullmatch(r"(file \d+ )?cut \d+\n", said)
        self.judge(f"replay: node {node.number}", right, said)

    def close(self, keep):
        for node in self.nodes:
            node.service.signal(signal.SIGKILL)
            node.service.stop()
        for cat in self.cats.values():
            cat.kill()
            cat.wait()
        if keep:
            print(f"{self.name}: {self.folder}", file=sys.stderr)
        else:
            shutil.rmtree(self.folder)


def main(words):
    parser = argparse.ArgumentParser(usage=__doc__)
    parser.add_argument("--keep", action="store_true")
    parser.add_argument("--idle", type=float, default=IDLE)
    parser.add_argument("paths", nargs="*", default=[str(TOP / path) for path in TOPOLOGIES])
    asked = parser.parse_args(words)
    program = built()
    # A router has two files open for each link, and inherits this limit.
    open_files(4096)
    counts = Counts()
    for path in asked.paths:
        lab = Lab(program, path, asked.idle)
        begun = time.monotonic()
        try:
            lab.run()
        except Exception as why:
            traceback.print_exc()
            lab.judge("runs", False, str(why))
        finally:
            lab.close(asked.keep)
        print(f"{lab.name}: {lab.counts.passed} passed, {lab.counts.failed} failed, {time.monotonic() - begun:.1f} s", file=sys.stderr)
        counts.add(lab.counts.passed, lab.counts.failed)
    counts.finish()


if __name__ == "__main__":
    main(sys.argv[1:])

#!/usr/bin/env python3
"""Looks that routers notice a neighbour that is silent, and stay in step over any line. The last line is 'N passed, M failed, K skipped'.

usage: scripts/check_hold.py [--starts N] [--minutes N] [--seed N] [ROW..]     (NCROUTE=PATH: the program, without which nothing is run)
       --starts: how many starts of routers there are over each kind of line, 100 if it is left out
       --minutes: how long idle routers are looked at, 1 if it is left out

Two routers are stopped and continued, killed and started again, in any order, at random times and with different `--retry`: over FIFOs, and over two
pairs of FIFOs or two pseudo-terminals with a relay between them that keeps what nobody reads, or drops it. In other rows one neighbour is no router,
and falls silent in the middle of a line. And a ring of four routers, with network namespaces and TCP between them, loses a wire in each of the ways
in which wires are lost; what the other routers then say is compared with what `ncroute domain` computes. Where namespaces cannot be made this row
says why, and counts as skipped. Standard error says how long everything took.

A silence is to be noticed within the HOLD and a second, and the end of a stream within half a second. On a busy machine that may take longer: what
takes ten seconds more has failed, and is tried again where the machine was as busy as that.
"""
import argparse
import contextlib
import os
import pathlib
import random
import re
import shutil
import signal
import sys
import tempfile
import time

from lab import Topology
from lib.lines import Pipes, Relayed, Straight, Terminal, Unread, fifos, has_open
from lib.processes import PATIENCE, Router, awaited
from lib.program import built
from lib.routers import Run, RunRows
from lib.spaces import Spaces, Wire

# The nodes of a domain of two routers, and of one whose routers are a ring.
SIZE, RING = 4, 16

# Seconds: the HOLD that a router has if nothing else is said; how long a close may take beyond it, as this script judges.
HOLD, LATE = 9, 10

# Seconds: where a stream ends, and where a HOLD is 1, nobody waits for a HOLD of 9. A router says something each third of it, so a neighbour finds it
# silent after two thirds at the earliest.
SOON = 5

# Seconds that two ends have to come up over a line, and over FIFOs, where a link whose sessions are short is opened again after a minute at most.
COME_UP, LONGEST_WAIT = 60.0, 130.0

# Seconds: what two routers that are up have still to hear of one another is heard.
MOMENT = 0.05

# Seconds that a slow line takes: there and back it is less than a third of the HOLD.
DELAY = 1.0

# Seconds: a HOLD, and what a slower line takes: there and back it is more than two thirds of this HOLD, and less than all of it. Within how many
# seconds two ends are up for good, and for how long they stay so here.
SLOW_HOLD, SLOWER, FOR_GOOD, STAYS = 5, 1.75, 75, 12

# How many sessions of a neighbour are over while standard error takes nothing: more than there is room for to tell.
MANY_SESSIONS = 2500

# Seconds of a processor that an idle router may take in a minute.
IDLE_TIME = 0.05

# What a neighbour with much to tell has said in a session, and a line has kept.
LEFT_OVER = b"3 1\n\n3 2\n" * (1 << 17)

# The neighbours of the largest domain, and the seconds of their HOLD; for how long they say that they are there.
MOST_LINKS, SHORT_HOLD, ALIVE = 249, 3, 12


class End:
    """One of two routers, which may be started again."""

    def __init__(self, program, node, files, folder, options=()):
        self.program, self.node, self.other, self.files, self.options = program, node, 1 - node, files, options
        self.errors = pathlib.Path(folder, f"errors.{node}")
        self.router = None

    def start(self):
        with open(self.errors, "ab") as errors:
            self.router = Router(self.program, SIZE, self.node, {self.other: self.files}, None, self.options, errors=errors)
        return self

    def kill(self):
        self.router.kill()
        self.router.close()

    def listens(self):
        """Whether it runs and has opened what it reads."""
        return self.router is not None and has_open(self.router.process.pid, self.files[0])

    def is_up(self):
        return f" {self.other}:1:{self.other}" in self.router.ask("routes") + " "

    def goes_down(self, patience):
        """How many seconds it takes until it is down; None where it stays up."""
        begun = time.monotonic()
        down = awaited(lambda: not self.is_up(), bool, patience)
        return time.monotonic() - begun if down else None

    def said(self):
        return self.errors.read_text()

    def says(self, line):
        """Whether standard error says a line. A session is over a moment before that is told."""
        return awaited(lambda: line in self.said(), bool, PATIENCE)


class Pair:
    """Two routers, and a line between them: FIFOs, or a relay between two ends of a kind, which keeps or drops what comes while nobody listens."""

    def __init__(self, program, options=((), ()), kind=None, keeps=True, delay=0):
        self.folder = tempfile.mkdtemp(prefix="hold.")
        self.ends = []
        self.line = Relayed(self.folder, kind, lambda end: keeps or self.ends[end].listens(), delay) if kind else Straight(self.folder)
        self.ends += [End(program, node, self.line.files[node], self.folder, options[node]) for node in (0, 1)]

    def __enter__(self):
        return self

    def __exit__(self, *_):
        for end in self.ends:
            if end.router:
                end.router.close()
        self.line.close()
        shutil.rmtree(self.folder)

    def start(self):
        for end in self.ends:
            end.start()

    def are_up(self):
        return all(end.is_up() for end in self.ends)

    def stay_up(self):
        """Whether both are up, and still so a moment later: an end that is up with an older attempt of the other one would not be."""
        return self.are_up() and (time.sleep(MOMENT) or self.are_up())

    def come_up_for_good(self, patience):
        """How many seconds it takes until both are up and stay so, for a while; None where it does not come to that."""
        begun = changed = time.monotonic()
        before = None
        while time.monotonic() < begun + patience + STAYS:
            sessions = [end.router.ask("neighbours") for end in self.ends]
            if sessions != before or not all(" " in session for session in sessions):
                before, changed = sessions, time.monotonic()
            if time.monotonic() > changed + STAYS:
                return changed - begun
            time.sleep(0.05)
        return None

    def come_up(self, patience=COME_UP, begun=None):
        """How many seconds it takes until both are up, from some time on; None where they do not come up."""
        begun = begun or time.monotonic()
        both = awaited(self.stay_up, bool, patience)
        return time.monotonic() - begun - MOMENT if both else None


class Played:
    """A router, and its neighbour over FIFOs, which is played here."""

    def __init__(self, program):
        self.folder = tempfile.mkdtemp(prefix="hold.")
        there, back = fifos(self.folder, "there", "back")
        self.end = End(program, 0, (there, back), self.folder).start()
        self.reads, self.writes = os.open(back, os.O_RDONLY), os.open(there, os.O_WRONLY)
        self.heard = b""
        # The number of the router's attempt, as its greeting has it.
        self.number = int(self.greeting()[5])

    def __enter__(self):
        return self

    def __exit__(self, *_):
        self.end.kill()
        os.close(self.reads)
        os.close(self.writes)
        shutil.rmtree(self.folder)

    def greeting(self):
        """The words of the next greeting. The router greets again where it is not answered for a while."""
        while True:
            while b"\n" not in self.heard:
                came = os.read(self.reads, 4096)
                if not came:
                    raise BrokenPipeError("the router ended before it greeted")
                self.heard += came
            line, _, self.heard = self.heard.partition(b"\n")
            if line.startswith(b"netchange "):
                return line.split()

    def answer(self, wanted):
        """The words of the first greeting that repeats a number, or of the last one of some."""
        for _ in range(5):
            words = self.greeting()
            if words[6:] == [wanted]:
                break
        return words

    def say(self, text):
        os.write(self.writes, text)

    def greet(self, hold, heard):
        self.say(b"netchange 2 %d 1 %d 77 %d\n" % (SIZE, hold, heard))

    def comes_up(self):
        """Whether the router takes what it is told. It may be down again by now, which its history does not forget."""
        return awaited(lambda: any(" recv 1 1 0 done " in entry for entry in self.end.router.entries()), bool, COME_UP)


class Ring:
    """Four routers in a ring of network namespaces: `socat` hands on their bytes over TCP."""

    LINKS = ((0, 1), (1, 2), (2, 3), (0, 3))

    def __init__(self, program, spaces, folder):
        self.program, self.spaces, self.folder, self.routers = program, spaces, folder, []
        # The wire between two nodes; the routes that each router that was asked said last.
        self.wires, self.routes = {}, {}
        self.topology = Topology(self.write_topology())

    def write_topology(self):
        path = pathlib.Path(self.folder, "ring.domain")
        path.write_text("".join([f"domain {RING}\n", *(f"link {a} {b}\n" for a, b in self.LINKS)]))
        return path

    def __enter__(self):
        with contextlib.ExitStack() as stack:
            stack.callback(self.__exit__)
            for number, ends in enumerate(self.LINKS):
                self.wires[ends] = Wire(self.spaces, self.folder, number, ends)
                self.wires[ends].join()
            self.routers += map(self.start, range(4))
            stack.pop_all()
        return self

    def start(self, node):
        near = {ends[0] + ends[1] - node: wire.files[ends.index(node)] for ends, wire in self.wires.items() if node in ends}
        links = {other: (file, file) for other, file in near.items()}
        with open(self.errors(node), "wb") as errors:
            return Router(self.program, RING, node, links, None, ("--retry", "1"), errors=errors)

    def __exit__(self, *_):
        for router in self.routers:
            router.close()
        for wire in self.wires.values():
            wire.close()

    def errors(self, node):
        return os.path.join(self.folder, f"errors.{node}")

    def said(self):
        return [pathlib.Path(self.errors(node)).read_text()[-300:] for node in range(4)]

    def watch(self, cut, lost, patience):
        """How many seconds it takes until no router at a cut link has a session over it, and until all have the routes that `ncroute domain`
        computes; None for what does not come. A router that is lost is not asked."""
        begun = time.monotonic()
        wanted = self.topology.tables(self.program, [f"cut {a} {b}" for a, b in cut])
        asked = [node for node in range(4) if node != lost]
        ups = [(node, a + b - node) for a, b in cut for node in (a, b) if node != lost]
        down = None
        while time.monotonic() < begun + patience:
            sessions = {node: self.routers[node].ask("neighbours") for node in asked}
            if down is None and not any(f" {other}:" in sessions[node] for node, other in ups):
                down = time.monotonic() - begun
            self.routes = {node: self.routers[node].ask("routes") for node in asked}
            if down is not None and all(self.routes[node] == wanted[node] for node in asked):
                return down, time.monotonic() - begun
            time.sleep(0.01)
        return down, None


class Rows(RunRows):
    """What a neighbour does, and how soon it is noticed."""

    WAITING = ("errors_are_full", "half_a_line", "hold", "hold_of_none", "idle", "line_is_cut", "line_keeps_a_megabyte", "old_answer", "ring",
               "slow_line", "slower_line", "starts_over_a_line_that_drops", "starts_over_a_line_that_keeps", "starts_over_fifos",
               "starts_over_terminals_that_drop", "starts_over_terminals_that_keep", "stopped", "stopped_for_less")

    TIMED = ("half_a_line", "hold", "idle", "line_is_cut", "line_keeps_a_megabyte", "most_links", "ring", "slow_line", "stopped", "stopped_for_less")

    def __init__(self, program, starts, minutes, seed):
        super().__init__(program)
        self.starts, self.minutes, self.seed, self.random = starts, minutes, seed, None
        self.LONGEST = 1200 + 60 * minutes + 10 * starts

    def anew(self):
        return type(self)(self.program, self.starts, self.minutes, self.seed)

    def run_row(self, name):
        self.random = random.Random(f"{self.seed} {name}")
        super().run_row(name)

    def comes_up(self, pair, what="come up"):
        took = pair.come_up()
        self.judge(what, took is not None, [end.said() for end in pair.ends])
        return took

    def tell(self, text):
        print(f"{self.name}: {text}", file=sys.stderr)

    def row_stopped(self):
        """A router is stopped and continued: the other one closes within its HOLD and a second, and comes back."""
        with Pair(self.program, (("--retry", "1"), ("--retry", "1"))) as pair:
            pair.start()
            self.comes_up(pair)
            one, other = pair.ends
            other.router.process.send_signal(signal.SIGSTOP)
            took = one.goes_down(HOLD + LATE)
            other.router.process.send_signal(signal.SIGCONT)
            self.judge("goes down", took is not None and took > SOON, took)
            self.judge("says why", one.says(f"link 1: nothing heard for {HOLD} s: closed\n"), one.said())
            back = self.comes_up(pair, "comes back")
            self.tell(f"down after {took} s, back after {back} s")

    def row_stopped_for_less(self):
        """A router is stopped for half a HOLD, and continued: neither end closes."""
        with Pair(self.program) as pair:
            pair.start()
            self.comes_up(pair)
            before = [end.router.ask("neighbours") for end in pair.ends]
            pair.ends[1].router.process.send_signal(signal.SIGSTOP)
            time.sleep(HOLD / 2)
            pair.ends[1].router.process.send_signal(signal.SIGCONT)
            time.sleep(HOLD / 2)
            after = [end.router.ask("neighbours") for end in pair.ends]
            self.judge("both stay up", after == before, (before, after, [end.said() for end in pair.ends]))

    def row_half_a_line(self):
        """A neighbour says half a line and falls silent: it is closed after its HOLD, which is shorter than the router's own."""
        with Played(self.program) as played:
            played.greet(1, played.number)
            played.say(b"1 0\n3 ")
            self.judge("up", played.comes_up())
            took = played.end.goes_down(SOON)
            self.judge("down", took is not None, played.end.said())
            self.judge("says why", played.end.says("link 1: nothing heard for 1 s: closed\n"), played.end.said())
            self.tell(f"down after {took} s")

    def row_hold_of_none(self):
        """A neighbour whose HOLD is 0 may be silent."""
        with Played(self.program) as played:
            played.greet(0, played.number)
            played.say(b"1 0\n")
            self.judge("up", played.comes_up())
            time.sleep(2 * HOLD)
            self.judge("stays up", played.end.is_up(), played.end.said())

    def row_old_answer(self):
        """A greeting that repeats another number is answered, and brings nobody up; nor does what was said before a greeting."""
        with Played(self.program) as played:
            played.say(b"3 1\n\nnothing\n")
            played.greet(HOLD, played.number % 4294967295 + 1)
            answer = played.answer(b"77")
            self.judge("answers", answer[5:] == [str(played.number).encode(), b"77"], answer)
            time.sleep(0.5)
            self.judge("stays down", not played.end.is_up())
            played.greet(HOLD, played.number)
            played.say(b"1 0\n")
            self.judge("comes up", played.comes_up(), played.end.said())

    def row_idle(self):
        """Two idle routers make no entry in a minute, and take little time of a processor."""
        with Pair(self.program) as pair:
            pair.start()
            self.comes_up(pair)
            time.sleep(2)
            before = [(len(end.router.rests()), end.router.processor_time()) for end in pair.ends]
            time.sleep(60 * self.minutes)
            for end, (entries, spent) in zip(pair.ends, before):
                took = (end.router.processor_time() - spent) / self.minutes
                self.tell(f"{took:.3f} s of a processor in a minute")
                self.judge("no entry", len(end.router.entries()) == entries, end.router.entries()[entries:])
                self.judge("idle", took < IDLE_TIME, took)
                self.judge("says nothing", "link" not in end.said(), end.said())

    def starts_over(self, kind, keeps, patience):
        """Two routers are killed and started again at random times, one of them or both, and each time come up with one another."""
        slowest, count, begun = 0, 0, None
        with Pair(self.program, (("--retry", "1"), ("--retry", "3")), kind, keeps) as pair:
            for end in self.random.sample(pair.ends, 2):
                end.start()
                time.sleep(self.random.uniform(0, 1))
            while True:
                took = pair.come_up(patience, begun)
                if took is None:
                    self.judge(f"come up after {count} starts", False, [end.said()[-500:] for end in pair.ends])
                    return
                slowest = max(slowest, took)
                if count >= self.starts:
                    break
                for end in self.random.choices((0, 1), k=self.random.randint(1, 3)):
                    begun = self.start_again(pair, end, keeps)
                    count += 1
        self.judge("all starts", True)
        self.tell(f"{count} starts: the slowest was up after {slowest:.2f} s")

    def start_again(self, pair, number, keeps):
        """Kills a router, and starts it again: when. What lies there for it may be gone then, if the line drops."""
        end = pair.ends[number]
        time.sleep(self.random.choice((0, self.random.uniform(0, 0.5))))
        end.kill()
        time.sleep(self.random.choice((0, self.random.uniform(0, 1))))
        if not keeps and self.random.random() < 0.5:
            pair.line.ends[number].flush()
        end.start()
        return time.monotonic()

    def row_starts_over_fifos(self):
        self.starts_over(None, True, LONGEST_WAIT)

    def row_starts_over_a_line_that_keeps(self):
        self.starts_over(Pipes, True, COME_UP)

    def row_starts_over_a_line_that_drops(self):
        self.starts_over(Pipes, False, COME_UP)

    def row_starts_over_terminals_that_keep(self):
        self.starts_over(Terminal, True, COME_UP)

    def row_starts_over_terminals_that_drop(self):
        self.starts_over(Terminal, False, COME_UP)

    def row_line_is_cut(self):
        """A line loses all, and is mended: both ends close, and come up again."""
        with Pair(self.program, kind=Terminal) as pair:
            pair.start()
            self.comes_up(pair)
            pair.line.cut(True)
            took = [end.goes_down(HOLD + LATE) for end in pair.ends]
            self.judge("both go down", None not in took, took)
            pair.line.cut(False)
            back = self.comes_up(pair, "come back")
            self.tell(f"down after {took[0]} s, back after {back} s")

    def row_line_keeps_a_megabyte(self):
        """A line hands over nothing for longer than the HOLD, and then all that it has kept: more than a megabyte of messages and empty lines of the
        session that is over. Both ends come up again, without `--retry`."""
        with Pair(self.program, (("--hold", str(SHORT_HOLD)),) * 2, Pipes) as pair:
            pair.start()
            self.comes_up(pair)
            pair.line.keep(True)
            took = [end.goes_down(SHORT_HOLD + LATE) for end in pair.ends]
            self.judge("both go down", None not in took, took)
            for relay in pair.line.relays:
                relay.coming.appendleft((0, LEFT_OVER))
            pair.line.keep(False)
            back = self.comes_up(pair, "come back")
            for end in pair.ends:
                said = end.said()
                self.judge("says that alone", "did not greet" not in said, said)
            self.tell(f"down after {took[0]} s, back after {back} s")

    def row_slow_line(self):
        """A line takes a second in each direction, and one router comes later than the other: both come up, and stay so."""
        with Pair(self.program, kind=Terminal, delay=DELAY) as pair:
            pair.ends[0].start()
            time.sleep(HOLD / 3 + 1)
            pair.ends[1].start()
            took = self.comes_up(pair)
            # What is on its way when both are up has arrived.
            time.sleep(2 * DELAY)
            before = [end.router.ask("neighbours") for end in pair.ends]
            time.sleep(HOLD)
            after = [end.router.ask("neighbours") for end in pair.ends]
            self.judge("both stay up", after == before, (before, after, [end.said() for end in pair.ends]))
            self.tell(f"up after {took} s")

    def row_slower_line(self):
        """A line takes longer there and back than two thirds of the HOLD, so that greetings are said again before they are answered: in the end both
        are up, and stay so."""
        with Pair(self.program, (("--hold", str(SLOW_HOLD)),) * 2, Terminal, delay=SLOWER) as pair:
            pair.ends[0].start()
            time.sleep(SLOW_HOLD / 2)
            pair.ends[1].start()
            took = pair.come_up_for_good(FOR_GOOD)
            said = [end.said() for end in pair.ends]
            self.judge("both stay up", took is not None, [text[-300:] for text in said])
            self.tell(f"up for good after {took} s, and {max(text.count(': closed') for text in said)} sessions before")

    def row_errors_are_full(self):
        """Standard error is a full pipe: who falls silent is down in time all the same, one after the other, and who does not hears that the router
        is there. Once it is read it tells of all; and `quit` waits for nobody."""
        more = ("--hold", str(SHORT_HOLD))
        errors = Unread()
        with contextlib.closing(errors), Run(self.program, nodes=(1, 2, 3), more=more, saves=False, errors=errors.writes) as run:
            holds = {1: 1, 2: SHORT_HOLD, 3: 0}
            for node, neighbour in run.neighbours.items():
                neighbour.open()
                neighbour.greet(hold=holds[node])
            up = run.asks_until("neighbours", " 1:.* 2:.* 3:")
            self.judge("all are up", up.count(":") == 3, up)
            errors.fill()
            for node in (1, 2):
                down = awaited(lambda: run.ask("neighbours"), lambda said, node=node: f" {node}:" not in said, holds[node] + LATE)
                self.judge(f"{node} is down", f" {node}:" not in down, down)
            third = run.neighbours[3]
            heard = len(third.told)
            third.listen(lambda: third.told[heard:].endswith(b"\n\n"), 2 * SHORT_HOLD)
            self.judge("the third hears empty lines", third.told[heard:].endswith(b"\n\n"), third.told[heard:])
            said = awaited(errors.text, lambda text: text.count(": closed") > 1, SOON)
            wanted = [f"link {node}: nothing heard for {holds[node]} s: closed\n" for node in (1, 2)]
            self.judge("tells of both", all(line in said for line in wanted), said)
            errors.fill()
            begun = time.monotonic()
            ended = run.quit()
            self.judge("quits", ended == ("ok", 0) and time.monotonic() < begun + SOON, ended)

    def row_errors_are_left_out(self):
        """Standard error is a full pipe, and more is to be told than there is room for: it is told how much was left out."""
        errors = Unread()
        with contextlib.closing(errors), Run(self.program, nodes=(1,), saves=False, errors=errors.writes) as run:
            one, = run.neighbours.values()
            one.come()
            self.judge("says that it is not saved", "history: not saved" in awaited(errors.text, bool, SOON), errors.text())
            errors.fill()
            for _ in range(MANY_SESSIONS):
                one.told, one.before = one.told[one.told.rindex(b"netchange"):], 0
                one.meet()
            told = awaited(errors.text, lambda text: "left out" in text, COME_UP)
            ends = told.count("link 1: the neighbour began anew: closed\n")
            left = re.findall(r"(?m)^standard error: lines left out, since too many waited: (\d+)$", told)
            self.judge("all are told or counted", ends + sum(map(int, left)) == MANY_SESSIONS, (ends, left, told[-300:]))
            one.close()
            said = awaited(errors.text, lambda text: "ended its stream" in text, SOON)
            self.judge("goes on", said.endswith("link 1: the neighbour ended its stream: closed\n"), said[-300:])

    def row_most_links(self):
        """249 neighbours with a HOLD of 3 seconds, on one processor: all stay up as long as they say that they are there, and then none."""
        nodes, processor = range(1, MOST_LINKS + 1), min(os.sched_getaffinity(0))
        with Run(self.program, nodes=nodes, size=MOST_LINKS + 1, saves=False, prepare=lambda: os.sched_setaffinity(0, {processor})) as run:
            ones = list(run.neighbours.values())
            for one in ones:
                one.open()
            # Once it greets, a neighbour has to say something in time, so all are greeted before.
            for one in ones:
                one.listen(one.greetings)
            for one in ones:
                one.greet(MOST_LINKS + 1, hold=SHORT_HOLD)
            begun, spent = time.monotonic(), run.processor_time()
            while time.monotonic() < begun + ALIVE:
                for one in ones:
                    one.say(b"\n")
                quiet = time.monotonic()
                time.sleep(SHORT_HOLD / 4)
            spent = run.processor_time() - spent
            up = run.ask("neighbours")
            self.judge("all are up", up.count(":") == MOST_LINKS, up[-100:])
            self.judge("none is closed", "link" not in run.errors.read_text(), run.errors.read_text()[-300:])
            down = awaited(lambda: run.ask("neighbours"), lambda said: ":" not in said, SHORT_HOLD + LATE)
            self.tell(f"all down {time.monotonic() - quiet:.1f} s after the last line; {spent:.2f} s of a processor in {ALIVE} s before")
            self.judge("all are down", ":" not in down, down[-100:])

    def row_hold(self):
        """The HOLD that `--hold` says is the one that a neighbour goes by; 0 is for any time."""
        for hold, closes in ((1, True), (0, False)):
            # A router that gets no processor for a second is silent for longer than a HOLD of 1, and comes back.
            with Pair(self.program, (("--retry", "1"), ("--retry", "1", "--hold", str(hold)))) as pair:
                pair.start()
                self.comes_up(pair)
                one, other = pair.ends
                other.router.process.send_signal(signal.SIGSTOP)
                took = one.goes_down(SOON if closes else HOLD + 2)
                other.router.process.send_signal(signal.SIGCONT)
                self.judge(f"--hold {hold}", (took is not None) == closes, took)

    def row_ring(self):
        """Of a ring of four a wire goes, in each of the ways in which wires go, or a router: the others route around it, until it is mended."""
        with contextlib.ExitStack() as stack:
            folder = stack.enter_context(tempfile.TemporaryDirectory())
            spaces = stack.enter_context(Spaces(4))
            spaces.need_interfaces()
            ring = stack.enter_context(Ring(self.program, spaces, folder))
            wire = ring.wires[0, 1]
            stopped = ring.routers[2].process
            self.judge_ring(ring, "begun", (), None, COME_UP)
            breaks = (
                ("interface down", lambda: wire.set_interface(1, "down"), lambda: wire.set_interface(1, "up"), ((0, 1),), None, HOLD + LATE),
                ("packets dropped", wire.swallow, wire.pass_on, ((0, 1),), None, HOLD + LATE),
                ("router stopped", lambda: stopped.send_signal(signal.SIGSTOP), lambda: stopped.send_signal(signal.SIGCONT), ((1, 2), (2, 3)), 2,
                 HOLD + LATE),
                ("socat killed", lambda: wire.kill(1), wire.join, ((0, 1),), None, SOON),
            )
            for what, does, mends, cut, lost, patience in breaks:
                does()
                self.judge_ring(ring, what, cut, lost, patience)
                mends()
                self.judge_ring(ring, f"{what}, and mended", (), None, COME_UP)

    def judge_ring(self, ring, what, cut, lost, patience):
        down, right = ring.watch(cut, lost, patience)
        self.judge(f"{what}: goes down", down is not None, ring.said())
        self.judge(f"{what}: routes as `ncroute domain` has them", right is not None, (ring.routes, ring.said()))
        if right is not None:
            self.tell(f"{what}: " + (f"down after {down:.2f} s, " if cut else "") + f"all routes right after {right:.2f} s")


def main():
    words = argparse.ArgumentParser(description=__doc__, formatter_class=argparse.RawDescriptionHelpFormatter)
    words.add_argument("--starts", type=int, default=100)
    words.add_argument("--minutes", type=int, default=1)
    words.add_argument("--seed", type=int, default=1)
    words.add_argument("rows", nargs="*")
    asked = words.parse_args()
    rows = Rows(built(), asked.starts, asked.minutes, asked.seed)
    rows.run(asked.rows)
    rows.counts.finish()


if __name__ == "__main__":
    main()

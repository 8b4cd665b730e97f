#!/usr/bin/env python3
"""Has several operators speak to one `ncroute router`, each at FIFOs of their own, and looks at its log and its status. The last line is 'N passed, M
failed'.

usage: scripts/check_operators.py [--long [TIMES]] [ROW..]        (NCROUTE=PATH: the program, without which nothing is run)

Eight operators change filters and ask at the same time: each answer is one of those that there may be, and the history that is saved replays and has
each of their calls once, in the order of its operator. In one row sessions come and go meanwhile, another operator changes the files and has them
read again, and the router is killed and started again and again: then each of its histories is such a whole, but for calls that were not answered,
which it may have, and for the last calls before a kill: all that it said were saved are there, and in most of its lives all but those of the last
second. That row takes a few seconds; with --long it alone is run, for a minute, and so 20 times, or TIMES.
"""
import collections
import concurrent.futures
import contextlib
import json
import math
import os
import pathlib
import random
import re
import subprocess
import sys
import tempfile
import threading
import time

from lib.controls import Control
from lib.histories import entries_of, replayed, segments_of
from lib.processes import PATIENCE, Delays, Router, awaited
from lib.program import TOP, built
from lib.routers import Neighbour, Run, RunRows

OPERATORS, SIZE = 8, 16

# Seconds for which they speak, in which each has so many turns or goes on until then; and seconds before a router is killed.
LONG, TURNS, SHORT = 4.0, 4, 1.0

# Seconds for which operators speak to routers that are killed, in the gate and by --long, and how often --long has it so; how long a router lives, at
# least and at most; and what a router has saved that was answered so long before.
KILLS, MINUTE, TIMES, LIVES, LATE = 6.0, 60.0, 20, (1.0, 4.0), 1.0

# A line of the log.
LOGGED = re.compile(r"(\d{4}-\d\d-\d\dT\d\d:\d\d:\d\dZ) (\S.*)")

# What each of them may be answered.
ROUTES = re.compile(r"routes( \d+:\d+(:\d+)?){%d}" % SIZE)
FILTER = r" (\w+|-) budget \d+ accepted \d+ rejected \d+"
STATUS = re.compile(r"status node 0 size \d+ up \d+ entries \d+ forgotten \d+ room \d+( saved \d+ segments \d+ bytes \d+)?( domain [0-9a-f]{16})?"
                    r" version [^|]*( \| link \d+ (up \d+|open|closed) since \d+ sessions \d+ received \d+ sent \d+ waiting \d+"
                    rf"( import{FILTER})?( export{FILTER})?( unheard \d+)?( ended [^|]*)?)*")

# What the object of a status has.
MEMBERS = "bytes domain entries forgotten links node room saved segments size up version".split()

CTL = TOP / "tools" / "ncroute-ctl"


def filter_of(length):
    """The text of a filter that rejects longer prefixes."""
    return f"filter f {{ if net.len > {length} then reject; accept; }}"


def codes_of(program):
    """Codes of filters that differ, as lines of a script have them."""
    found = []
    for length in range(33):
        text = filter_of(length)
        ran = subprocess.run([program, "check", "--size", str(SIZE)], input=text, capture_output=True, text=True, check=True)
        found.append(re.search(r"^code (\S+)$", ran.stdout, re.M)[1])
    return found


def calls_in(entries):
    """The calls of each operator, who is known by a node, as a history has them."""
    found = collections.defaultdict(list)
    for entry in entries:
        _, kind, node, *more = entry.split(None, 4)
        if kind in ("import", "export"):
            found[node].append(f"{kind} {node} {more[1].split()[0]}")
        elif kind == "show":
            found[node].append(f"{kind} {node}")
    return found


def entries_in(history):
    """The entries of a history, as far as their lines are whole."""
    return [entry.decode() for segment in segments_of(history) for entry in entries_of(segment.read_bytes())]


# The file of a domain of eight nodes, of which node 0 is the router and has links to nodes 1 and 2; and the filters that it includes.
DOMAIN = ["domain 8", "include near near.filter", "include far far.filter", "link 0 1", "link 0 2", "import 0 1 near", "import 0 2 far",
          "export 0 2 near"]
FILTERS = {"near": "filter near { accept; }", "far": "filter far { if rip_metric > 5 then reject; accept; }"}
FARTHER = "filter far {\n  rip_metric = rip_metric + 2;\n  accept;\n}"

# What a reload refuses: the file that is written anew, and what is said of it.
REFUSED = [
    ("far.filter", "filter far {\n  accept\n}", r"\S*far\.filter:3:1: .*"),
    ("far.filter", "filter far { if rip_metric > net.len then accept; metric = 2; }", r"\S*far\.filter:1:\d+: .*"),
    ("the.domain", "\n".join([*DOMAIN[:2], "include far none.filter", *DOMAIN[3:]]), r"\S*none\.filter: No such file or directory \(E1\)"),
    ("the.domain", "\n".join([*DOMAIN, "import 0 1 nobody"]), r"\S*the\.domain:9:12: .*"),
    ("the.domain", "\n".join(["domain 9", *DOMAIN[1:]]), r"needs a restart: the domain has 9 nodes, and not 8"),
    ("the.domain", "\n".join([DOMAIN[0], "prefix 3 192.0.2.0/24", *DOMAIN[1:3], DOMAIN[4], "link 3 0", *DOMAIN[6:]]),
     r"needs a restart: node 3 has the prefix 192\.0\.2\.0/24, and not 10\.3\.0\.0/16"),
    ("the.domain", "\n".join([*DOMAIN, "link 3 0"]), r"error: the file of the domain has a link to node 3, and no --link says where its streams are"),
]


def until_answer(control, line, wanted):
    """Asks an operator's question until the answer has this pattern: whether it comes to have it."""
    return re.search(wanted, awaited(lambda: control.ask(line), lambda answer: re.search(wanted, answer), PATIENCE))


def all_is_told(links):
    """Whether nothing waits for any neighbour, by what a status says of the links. Once all that they said has come in, no entry comes by itself."""
    return all(link["waiting"] == 0 for link in links)


class DomainFiles:
    """The files of a domain, in a folder."""

    def __init__(self, folder):
        self.folder = folder
        self.write("the.domain", "\n".join(DOMAIN))
        for name, text in FILTERS.items():
            self.write(f"{name}.filter", text)

    def path(self, name):
        return os.path.join(self.folder, name)

    def write(self, name, text):
        pathlib.Path(self.path(name)).write_text(text + "\n", encoding="utf-8")

    def write_links(self, neighbours, *links):
        """Has the domain and the file of options say links to these nodes, or to a node at the files of another neighbour."""
        links = [link if isinstance(link, tuple) else (link, link) for link in links]
        uses = [line for line in DOMAIN if not line.startswith("link ")]
        self.write("the.domain", "\n".join([uses[0], *(f"link 0 {node}" for node, _ in links), *uses[1:]]))
        streams = [f"link {node} {neighbours[at].there} {neighbours[at].back}" for node, at in links]
        self.write("r.conf", "\n".join(["node 0", "stay", "retry 1", "domain the.domain", *streams]))

    def read(self, name):
        return pathlib.Path(self.path(name)).read_text(encoding="utf-8").rstrip("\n")


class Speaker:
    """An operator who puts filters of node W in force, in both directions, and asks in between. Their calls are known by that node."""

    def __init__(self, control, node, codes):
        self.control, self.node, self.codes = control, node, codes
        self.calls, self.wrong, self.count = [], [], 0

    def expect(self, line, pattern):
        answer = self.control.ask(line)
        if not re.fullmatch(pattern, answer):
            self.wrong.append((line[:60], answer[:60]))
        return answer

    def turn(self):
        code = self.codes[self.count % len(self.codes)]
        self.count += 1
        self.expect(f"code mine {code}", r"verified \d+ \d+")
        for direction in ("import", "export"):
            if self.expect(f"{direction} {self.node} mine", r"done \d+").startswith("done "):
                self.calls.append(f"{direction} {self.node} {code}")
        self.expect("routes", ROUTES)
        if self.expect(f"show {self.node}", r"route \d+ (local|none|via \d+)"):
            self.calls.append(f"show {self.node}")
        self.expect("status", STATUS)
        self.expect(f"history {self.count}", r"history( .*)?")

    def speak(self, seconds):
        end = time.monotonic() + seconds
        with self.control:
            while time.monotonic() < end or self.count < TURNS:
                self.turn()
        return self


class Said:
    """A call of an operator, as the history has it; when it was answered, if it was."""

    def __init__(self, call, answered=None):
        self.call, self.answered = call, answered


class Visitor:
    """An operator who speaks to one router after another at the same FIFOs: each of its calls belongs to a life of the router."""

    # How long it rests after each turn.
    REST = 0.005

    def __init__(self, lives, control, node, codes):
        self.lives, self.control, self.node, self.codes = lives, control, node, codes
        self.said, self.wrong, self.count, self.longest = {}, [], 0, 0.0
        # How many entries each router said were saved.
        self.told = {}

    def expect(self, line, pattern, *calls):
        """Says a line that is answered by a pattern; what it enters is noted before. The answer."""
        said = [Said(call) for call in calls]
        self.said[self.lives.of(self)] += said
        begun = time.monotonic()
        answer = self.control.ask(line)
        self.longest = max(self.longest, time.monotonic() - begun)
        if not answer:
            raise BrokenPipeError
        if not re.fullmatch(pattern, answer):
            self.wrong.append((line[:60], answer[:60]))
        for each in said:
            each.answered = time.monotonic()
        return answer

    def begin(self):
        """What it knows of a router before it speaks to it."""
        self.said.setdefault(self.lives.of(self), [])

    def turn(self):
        code = self.codes[self.count % len(self.codes)]
        self.count += 1
        self.expect(f"code mine {code}", r"verified \d+ \d+")
        for direction in ("import", "export"):
            self.expect(f"{direction} {self.node} mine", r"done \d+", f"{direction} {self.node} {code}")
        self.expect("routes", ROUTES)
        self.expect(f"show {self.node}", r"route \d+ (local|none|via \d+)", f"show {self.node}")
        if saved := re.search(r" saved (\d+) ", self.expect("status", STATUS)):
            self.told[self.lives.of(self)] = int(saved[1])
        self.expect(f"history {self.count}", r"history( .*)?|refused O10 \d+")

    def visit(self, is_over):
        """Speaks to one router until it is over, or the router ends."""
        self.control.open()
        if self.lives.enter(self) is not None:
            self.begin()
            while not is_over():
                self.turn()
                time.sleep(self.REST)
            self.control.finish()

    def speak(self, is_over):
        while not is_over():
            try:
                self.visit(is_over)
            except (BrokenPipeError, ConnectionResetError):
                # The router was killed.
                pass
            finally:
                # The next router does not read what was said to this one: it is started once all have closed their FIFOs, and these are cleared.
                self.control.close()
                self.lives.leave(self)
        return self


class Reloader(Visitor):
    """An operator who changes the filter of node 1 in its file, and now and then has both files say the link to node 2 or not, and has them read
    again. Of each turn the router enters both uses of the filter. `write` writes the files for the longest prefix that passes, and with that link or
    not."""

    # How long it rests, and in which of its turns the link changes.
    REST, LINKS = 0.1, 12

    def __init__(self, lives, control, codes, write):
        super().__init__(lives, control, 1, codes)
        self.write, self.has_link = write, True
        self.write(0, self.has_link)

    def calls(self):
        return [f"{direction} 1 {self.codes[self.count % len(self.codes)]}" for direction in ("import", "export")]

    def begin(self):
        """The router was started by the files."""
        super().begin()
        for call in self.calls():
            self.said[self.lives.of(self)].append(Said(call, time.monotonic()))

    def turn(self):
        self.count += 1
        links = ""
        if self.count % self.LINKS == 0:
            self.has_link = not self.has_link
            links = r" \| link 2 is " + ("new" if self.has_link else "gone")
        length = self.count % len(self.codes)
        self.write(length, self.has_link)
        lengths, verdicts = (f"{length},{length}", "reject | accept") if length else (f"1,{len(self.codes) - 1}", "accept | reject")
        differs = re.escape(f" | differ 0.0.0.0/0{{{lengths}}}, metrics 0..{SIZE}: {verdicts} | same on all other routes of a domain of {SIZE} nodes")
        self.expect("reload check", rf"reload \| import 1 near{differs} \| export 1 near{differs}{links}")
        self.expect("reload", rf"reloaded \| import 1 near \| export 1 near{links}", *self.calls())


class Lives:
    """The lives of a router that is killed and started again and again, and who speaks to it in each: nobody does who has anything open of the life
    before."""

    def __init__(self):
        self.lock, self.number, self.speakers = threading.Condition(), None, {}

    def enter(self, who):
        """The life in which somebody speaks; none where the router is about to be killed."""
        with self.lock:
            if self.number is not None:
                self.speakers[who] = self.number
            return self.number

    def leave(self, who):
        with self.lock:
            self.speakers.pop(who, None)
            self.lock.notify_all()

    def of(self, who):
        return self.speakers[who]

    def begin(self, number):
        with self.lock:
            self.number = number

    def end(self, kill):
        """Ends a life, and waits until nobody speaks in it any more: when it ended."""
        with self.lock:
            self.number = None
            kill()
            when = time.monotonic()
            if not self.lock.wait_for(lambda: not self.speakers, PATIENCE):
                raise TimeoutError("an operator does not notice that the router ended")
            return when


def reached(said, found):
    """How far in the calls of an operator the last of these entries may stand, where those before it stand there, too, each once and in order, and
    none that was answered is left out between them."""
    places = {0}
    for entry in found:
        after = set()
        for place in places:
            while place < len(said):
                if said[place].call == entry:
                    after.add(place + 1)
                if said[place].answered is not None:
                    break
                place += 1
        places = after
    return places


def is_whole(said, found, known=math.inf):
    """Whether entries are calls of an operator, once each and in order: all that were answered, or all that were answered before a time."""
    return any(all(it.answered is None or it.answered >= known for it in said[place:]) for place in reached(said, found))


class Killed:
    """Two routers with a link, of which the first is started by files, has a neighbour that comes and goes, eight operators, and one who changes the
    files and has them read again. Each is killed now and then, and started again with another history."""

    def __init__(self, program, folder):
        self.program, self.folder, self.lives, self.is_over = program, folder, Lives(), threading.Event()
        self.histories, self.others, self.killed, self.ends, self.sessions = [], [], [], [], 0
        codes = codes_of(program)
        # The files speak of nodes 1 and 2.
        self.visitors = [Visitor(self.lives, Control(folder, f"control{at}"), at + 3, codes) for at in range(OPERATORS)]
        self.visitors.append(Reloader(self.lives, Control(folder, "reloads"), codes, self.write))
        for name in ("there", "back", "2.in", "2.out"):
            os.mkfifo(self.path(name))
        self.first = self.second = None

    def path(self, name):
        return os.path.join(self.folder, name)

    def write(self, length, has_link):
        """Writes the files of the first router: the filter of node 1 lets prefixes of this length pass, and the link to node 2 is said or not."""
        links = {1: "link 1 back there"} | ({2: "link 2 2.in 2.out"} if has_link else {})
        texts = {
            "near.filter": [filter_of(length)],
            "the.domain": [f"domain {SIZE}", "include near near.filter", *(f"link 0 {node}" for node in links), "import 0 1 near", "export 0 1 near"],
            "first.conf": ["domain the.domain", "node 0", "allow-other-domain", "retry 1", *links.values()],
        }
        for name, lines in texts.items():
            pathlib.Path(self.path(name)).write_text("".join(f"{line}\n" for line in lines), encoding="utf-8")

    def start(self, histories, size, node, links, options):
        """A router with another folder for its history."""
        histories.append(self.path(f"history{node or 0}.{len(histories)}"))
        return Router(self.program, size, node, links, histories[-1], options, errors=subprocess.DEVNULL)

    def start_first(self):
        self.lives.begin(len(self.histories))
        controls = [word for one in self.visitors for word in one.control.option()]
        self.first = self.start(self.histories, None, None, {}, ["--config", self.path("first.conf"), *controls])

    def start_second(self):
        self.second = self.start(self.others, SIZE, 1, {0: (self.path("there"), self.path("back"))}, ["--retry", "1"])

    def kill_first(self):
        self.killed.append(self.lives.end(self.first.kill))
        self.first.close()
        for visitor in self.visitors:
            visitor.control.clear()

    def kill_second(self):
        self.second.kill()
        self.second.close()

    def come_and_go(self):
        """A router of its own for each session of the neighbour, which forgets all."""
        while not self.is_over.is_set():
            words = [self.program, "router", "--size", str(SIZE), "--node", "2", "--link", f"0={self.path('2.out')},{self.path('2.in')}"]
            with Router.__new__(Router) as neighbour:
                neighbour.process = subprocess.Popen(words, stdin=subprocess.PIPE, stdout=subprocess.PIPE, stderr=subprocess.DEVNULL)
                if awaited(lambda one=neighbour: self.is_over.is_set() or one.ask("neighbours") != "neighbours", bool, PATIENCE, 0.05):
                    self.sessions += 1
                self.is_over.wait(SHORT)

    def speak(self, seconds):
        """Has all of them speak for so many seconds, and the routers end well then."""
        chosen = random.Random(seconds)
        self.start_first()
        self.start_second()
        with concurrent.futures.ThreadPoolExecutor(len(self.visitors) + 1) as pool:
            spoken = [pool.submit(one.speak, self.is_over.is_set) for one in self.visitors]
            spoken.append(pool.submit(self.come_and_go))
            try:
                self.kill_them(time.monotonic() + seconds, chosen)
            finally:
                self.is_over.set()
            for each in spoken:
                each.result()
        self.ends = [self.first.quit(), self.second.quit()]

    def kill_them(self, end, chosen):
        """Kills one of the two after the other, each once it has lived a while, until it is over."""
        while time.monotonic() < end:
            time.sleep(chosen.uniform(*LIVES))
            if chosen.random() < 2 / 3 or not self.killed:
                self.kill_first()
                self.start_first()
            else:
                self.kill_second()
                self.start_second()
        if len(self.others) == 1:
            self.kill_second()
            self.start_second()
        time.sleep(SHORT)

    def __enter__(self):
        return self

    def __exit__(self, *_):
        for one in (self.first, self.second):
            if one:
                one.close()


class Rows(RunRows):
    """What operators do, and what is to come of it."""

    WAITING = ("eight_operators", "killed_while_operators_speak", "log_that_nobody_reads", "routers_are_killed")

    TIMED = ("reader_is_gone",)

    # How long the operators of `routers_are_killed` speak.
    KILLS = KILLS

    def speakers(self, folder):
        codes = codes_of(self.program)
        return [Speaker(Control(folder, f"control{at}"), at + 1, codes) for at in range(OPERATORS)]

    def row_eight_operators(self):
        """They speak at the same time, while a neighbour comes and goes; then one of them ends the router, whose standard input stays open."""
        with tempfile.TemporaryDirectory() as folder:
            speakers = self.speakers(folder)
            more = [word for one in speakers for word in one.control.option()]
            with Run(self.program, nodes=(1, 2), size=SIZE, more=more) as run:
                two = run.neighbours[2]
                two.come(SIZE)
                with concurrent.futures.ThreadPoolExecutor(OPERATORS) as pool:
                    done = list(pool.map(lambda one: one.speak(LONG), speakers))
                for one in done:
                    self.judge(f"answers of {one.node}", not one.wrong and one.count, one.wrong[:3])
                self.judge("all speak", min(one.count for one in done) >= TURNS, [one.count for one in done])
                answer = speakers[3].control.asked("quit")
                self.judge("quit", answer == ["ok"], answer)
                status = run.process.wait(timeout=PATIENCE)
                self.judge("status", status == 0, status)
                self.ends_well(run)
                calls = calls_in(run.saved())
                for one in done:
                    found = calls[str(one.node)]
                    self.judge(f"calls of {one.node}", found == one.calls, (len(found), len(one.calls)))
                print(f"eight operators: {sum(one.count for one in done)} turns, {len(run.saved())} entries", file=sys.stderr)

    def row_killed_while_operators_speak(self):
        """What is saved replays, and is what they did first."""
        with tempfile.TemporaryDirectory() as folder:
            speakers = self.speakers(folder)
            more = [word for one in speakers for word in one.control.option()]
            with Run(self.program, nodes=(1,), size=SIZE, more=more) as run:
                with concurrent.futures.ThreadPoolExecutor(OPERATORS) as pool:
                    spoken = [pool.submit(one.speak, PATIENCE) for one in speakers]
                    time.sleep(SHORT)
                    run.kill()
                    for each in spoken:
                        with contextlib.suppress(BrokenPipeError, OSError):
                            each.result()
                said, _ = replayed(self.program, segments_of(run.history))
                self.judge("replay", re.fullmatch(r"(replay ok|cut) \d+\n", said), said)
                calls = calls_in(run.saved())
                for one in speakers:
                    found = calls[str(one.node)]
                    self.judge(f"calls of {one.node}", found == one.calls[:len(found)] or found[:-1] == one.calls, (found[-1:], one.calls[-1:]))

    def row_routers_are_killed(self):
        """Two routers have a link, and each is killed now and then; eight operators of the first one, and one neighbour that comes and goes."""
        with tempfile.TemporaryDirectory() as folder:
            with Delays() as delays, Killed(self.program, folder) as killed:
                killed.speak(self.KILLS)
            # The router's threads wait, too, where there is more to do than can be done: for as long as answers took, and sleeps were late.
            late = LATE + delays.longest + max(visitor.longest for visitor in killed.visitors)
            for visitor in killed.visitors:
                self.judge(f"answers of {visitor.node}", not visitor.wrong and visitor.count, visitor.wrong[:3])
            for number, history in enumerate(killed.histories):
                self.judge_life(killed, number, history)
            # How soon a disk has taken what is written is no matter of the router: so most of its lives are judged by that, and not each.
            in_time = [self.is_in_time(killed, number, late) for number in range(len(killed.killed))]
            self.judge("a second before", 2 * sum(in_time) >= len(in_time), in_time)
            for history in killed.others:
                self.replays(history, is_killed=history != killed.others[-1])
            self.judge("quit", killed.ends == [("ok", 0)] * 2, killed.ends)
            self.judge("lives", len(killed.histories) > 1 and len(killed.others) > 1, (len(killed.histories), len(killed.others)))
            calls = sum(len(said) for visitor in killed.visitors for said in visitor.said.values())
            entries = [sum(len(entries_in(history)) for history in histories) for histories in (killed.histories, killed.others)]
            print(f"routers are killed: {len(killed.histories)} and {len(killed.others)} lives, {killed.sessions} sessions of the neighbour, "
                  f"{killed.visitors[-1].count} reloads, {calls} calls, {entries[0]} and {entries[1]} entries, "
                  f"late by {delays.longest:.2f} s at most", file=sys.stderr)

    def replays(self, history, is_killed):
        said, _ = replayed(self.program, segments_of(history))
        self.judge("replay", re.fullmatch(r"replay ok \d+\n" + (r"|(file \d+ )?cut \d+\n" if is_killed else ""), said), said)

    def judge_life(self, killed, number, history):
        """A history of the first router: the calls of each operator in it are those of that life, the first of them where the router was killed; and
        it has as many entries as were said to be saved."""
        is_killed = number < len(killed.killed)
        self.replays(history, is_killed)
        entries = entries_in(history)
        told = max(visitor.told.get(number, 0) for visitor in killed.visitors)
        self.judge(f"life {number}: all is there that was said to be saved", len(entries) >= told, (len(entries), told))
        calls = calls_in(entries)
        for visitor in killed.visitors:
            found, said = calls[str(visitor.node)], visitor.said.get(number, [])
            holds = is_whole(said, found, -math.inf if is_killed else math.inf)
            self.judge(f"life {number}: calls of {visitor.node}", holds, (len(found), len(said), found[-1:], [it.call for it in said[-1:]]))

    def is_in_time(self, killed, number, late):
        """Whether the history of a router that was killed has all calls that were answered so many seconds before."""
        calls = calls_in(entries_in(killed.histories[number]))
        return all(is_whole(visitor.said.get(number, []), calls[str(visitor.node)], killed.killed[number] - late) for visitor in killed.visitors)

    def row_looks_alone(self):
        """Who may look alone is answered looks, and refused all else; what they say makes no entry."""
        with tempfile.TemporaryDirectory() as folder:
            control = Control(folder, "look", looks=True)
            with Run(self.program, more=control.option()) as run:
                before = run.rests()
                with control:
                    for line in ("routes", "neighbours", "history 0", "status", "status json", "routes json"):
                        answer = control.ask(line)
                        self.judge(line, answer and not answer.startswith("refused"), answer)
                    refused = ("show 1", "import 1 f", "export 1 f", "load f filter f { accept; }", "code f 4e43", "down 3", "quit")
                    for at, line in enumerate(refused, 7):
                        answer = control.ask(line)
                        wanted = f"refused O3 {at}" if line.startswith("code") and answer.startswith("refused O3") else f"refused O11 {at}"
                        self.judge(line, answer == wanted, answer)
                    answer = control.ask("jump")
                    self.judge("jump", answer == "refused O1 14", answer)
                self.judge("no entry", run.entries() == before, run.entries())
                self.end(run)

    def row_reader_is_gone(self):
        """Who says much and reads nothing keeps nobody waiting, nor the router from its end; and is served when they come back."""
        with tempfile.TemporaryDirectory() as folder:
            one, other = Control(folder, "one"), Control(folder, "other")
            with Run(self.program, more=one.option() + other.option()) as run:
                # Nobody opens what is answered.
                one.open_output()
                one.say(b"routes\n" * 100)
                begun = time.monotonic()
                answer = other.asked("routes", "show 1")
                self.judge("another one", answer[0].startswith("routes ") and answer[1].startswith("route "), answer)
                self.judge("soon", time.monotonic() - begun < 5, time.monotonic() - begun)
                self.serve_two(run)
                one.close()
                # What was said is answered to whoever comes next.
                with open(one.back, "rb") as it:
                    lines = it.read().splitlines()
                self.judge("answers", len(lines) == 100, len(lines))
                answer = one.asked("neighbours")
                self.judge("comes back", answer == ["neighbours 2:1"], answer)
                # One whose answers fill the FIFO, and who does not read.
                one.open()
                writer = concurrent.futures.ThreadPoolExecutor(1)
                full = writer.submit(lambda: one.say(b"history 0\nroutes\n" * 20000))
                time.sleep(SHORT)
                answer = other.asked("routes")
                self.judge("another one again", answer[0].startswith("routes "), answer)
                answer = run.quit()
                self.judge("quit", answer == ("ok", 0), answer)
                self.ends_well(run)
                one.close()
                with contextlib.suppress(OSError):
                    full.result()

    def row_reader_comes_back(self):
        """A control is opened again each time that it ends, and keeps the names of filters; another one does not have them."""
        with tempfile.TemporaryDirectory() as folder:
            one, other = Control(folder, "one"), Control(folder, "other")
            with Run(self.program, more=one.option() + other.option()) as run:
                answer = one.asked("load near filter near { accept; }")
                self.judge("load", answer == ["verified 1 0"], answer)
                for _ in range(20):
                    answer = one.asked("routes")
                    self.judge("asks", answer[0].startswith("routes "), answer)
                answer = one.asked("import 1 near")
                self.judge("its name", answer == ["done 0"], answer)
                answer = other.asked("import 1 near")
                self.judge("another's name", answer == ["refused O6 1"], answer)
                self.end(run)

    def row_control_is_made_later(self):
        """People are told that it is not there, once; it is served as soon as it is."""
        with tempfile.TemporaryDirectory() as folder:
            there, back = (os.path.join(folder, name) for name in ("late.in", "late.out"))
            with Run(self.program, more=["--control", f"{there},{back}"]) as run:
                wanted = f"control: {there}: No such file or directory (os error 2)\n"
                self.says(run, wanted)
                time.sleep(SHORT)
                self.judge("once", run.said("").count("control: ") == 1, run.said(""))
                late = Control(folder, "late")
                answer = late.asked("neighbours")
                self.judge("served", answer == ["neighbours"], answer)
                self.end(run)

    def row_file_as_control(self):
        """A regular file is read once."""
        with tempfile.TemporaryDirectory() as folder:
            there, back = pathlib.Path(folder, "commands"), pathlib.Path(folder, "answers")
            there.write_text("show 1\nneighbours\nload near filter near { accept; }\n", encoding="utf-8")
            back.touch()
            with Run(self.program, more=["--control", f"{there},{back}"]) as run:
                text = awaited(back.read_text, lambda text: text.count("\n") == 3, PATIENCE)
                time.sleep(SHORT)
                self.judge("answers", back.read_text() == text == "route 8 none\nneighbours\nverified 1 0\n", text)
                self.judge("entries", run.entries() == ["0 show 1 route 8 none"], run.entries())
                self.end(run)

    def row_quit_at_a_control(self):
        """It ends a router that has no standard input, and one whose standard input is open; what stands there without a line feed counts."""
        for stays in (True, False):
            with tempfile.TemporaryDirectory() as folder:
                control = Control(folder, "one")
                history = os.path.join(folder, "history")
                words = [self.program, "router", "--size", "4", "--node", "0", "--save", history, *control.option()] + ["--stay"] * stays
                with subprocess.Popen(words, stdin=subprocess.DEVNULL if stays else subprocess.PIPE, stdout=subprocess.PIPE) as process:
                    if not stays:
                        process.stdin.write(b"neighbours\n")
                        process.stdin.flush()
                        line = process.stdout.readline()
                        self.judge("standard input", line == b"neighbours\n", line)
                    answer = control.asked("show 1", "quit")
                    self.judge("quit", answer == ["route 4 none", "ok"], answer)
                    status = process.wait(timeout=PATIENCE)
                    self.judge("status", status == 0, status)
                    said, _ = replayed(self.program, segments_of(history))
                    self.judge("replay", said == "replay ok 1\n", said)

    def row_log(self):
        """The log has each event with its time, and goes on in a new file once it was renamed."""
        with tempfile.TemporaryDirectory() as folder:
            log, old = pathlib.Path(folder, "log"), pathlib.Path(folder, "log.1")
            begun = time.time()
            with Run(self.program, more=["--log", str(log)]) as run:
                self.serve_two(run)
                answer = run.ask("load near filter near { accept; }"), run.ask("import 2 near")
                self.judge("import", answer == ("verified 1 0", "done 0"), answer)
                text = awaited(log.read_text, lambda text: "import" in text, PATIENCE)
                lines = [LOGGED.fullmatch(line) for line in text.splitlines()]
                self.judge("lines", all(lines), text)
                words = [line[2] for line in lines if line]
                self.judge("begins", words and words[0].startswith("router: begins, version "), words)
                self.judge("events", words[1:] == ["link 2: up in session 1", "operator: import 2 near"], words)
                times = [time.strptime(line[1], "%Y-%m-%dT%H:%M:%SZ") for line in lines if line]
                seconds = [int(time.mktime(each) - time.timezone) for each in times]
                self.judge("times", all(begun - 2 <= each <= time.time() + 2 for each in seconds) and seconds == sorted(seconds), seconds)
                os.rename(log, old)
                run.neighbours[2].close()
                text = awaited(lambda: log.read_text() if log.exists() else "", lambda text: "closed\n" in text, PATIENCE)
                # How many messages are left out depends on how busy the machine is.
                left_out = r"(link 2: messages left out, since later ones replaced them: \d+\n)?"
                wanted = left_out + r"link 2: the neighbour ended its stream: closed\n" + left_out
                self.judge("renamed", re.fullmatch(wanted, LOGGED.sub(r"\2", text)), text)
                said = run.said("closed\n")
                self.judge("standard error", re.fullmatch(wanted, said), said)
                self.end(run)
                text = log.read_text()
                self.judge("ends", text.endswith(" router: ends\n"), text)

    def row_log_that_is_not_there(self):
        with Run(self.program, more=["--log", "/no/such/folder/log"]) as run:
            self.says(run, "log: /no/such/folder/log: No such file or directory (os error 2)\n")
            self.serve_two(run)
            self.end(run)

    def row_log_that_nobody_reads(self):
        """It is a FIFO: nobody waits; whoever reads it later is told what there was room for, and how much there was none for."""
        with tempfile.TemporaryDirectory() as folder:
            log, control = os.path.join(folder, "log"), Control(folder, "one")
            os.mkfifo(log)
            with Run(self.program, more=["--log", log, *control.option()]) as run:
                with control:
                    control.ask("load near filter near { accept; }")
                    for _ in range(4000):
                        answer = control.ask("import 1 near")
                        if answer != "done 0":
                            break
                self.judge("answers", answer == "done 0", answer)
                self.serve_two(run)
                reads = os.open(log, os.O_RDONLY | os.O_NONBLOCK)
                text = b""
                end = time.monotonic() + PATIENCE
                while b"left out" not in text and time.monotonic() < end:
                    try:
                        text += os.read(reads, 1 << 16)
                    except BlockingIOError:
                        pass
                    time.sleep(0.01)
                lines = text.decode().splitlines()
                said = re.search(r" log: lines left out, since too many waited: (\d+)\n", text.decode())
                self.judge("left out", said and int(said[1]) > 1000, said)
                self.judge("lines", all(map(LOGGED.fullmatch, lines)), lines[:3])
                os.close(reads)
                self.end(run)

    def row_status(self):
        """The line and the object say the same, and what happened."""
        with Run(self.program, more=["--retry", "1"]) as run:
            self.serve_two(run)
            line, text = run.ask("status"), run.ask("status json")
            self.judge("line", STATUS.fullmatch(line), line)
            found = json.loads(text)
            links = {link["node"]: link for link in found["links"]}
            self.judge("names", sorted(found) == MEMBERS and found["domain"] is None, found)
            self.judge("router", (found["size"], found["node"], found["room"]) == (8, 0, 1000000), found)
            entries = len(run.entries())
            self.judge("entries", found["entries"] == entries and found["forgotten"] == 0, (found, entries))
            found = awaited(lambda: json.loads(run.ask("status json")), lambda found: found["saved"] == entries, PATIENCE)
            sizes = [segment.stat().st_size for segment in segments_of(run.history)]
            self.judge("saved", (found["saved"], found["segments"], found["bytes"]) == (entries, len(sizes), sum(sizes)), (found, sizes))
            two = links[2]
            self.judge("up", (two["state"], two["session"], two["sessions"], two["received"]) == ("up", 1, 1, 1), two)
            self.judge("sent", two["sent"] == 9 and two["waiting"] == 0, two)
            self.judge("never up", (links[1]["state"], links[1]["sessions"], links[1]["ended"]) == ("closed", 0, None), links[1])
            words = dict(zip(line.split(" version")[0].split()[1::2], map(int, line.split(" version")[0].split()[2::2])))
            self.judge("same", all(found[name] == words[name] for name in ("node", "size", "entries", "forgotten", "room")), (words, found))
            run.neighbours[2].close()
            self.says(run, "closed")
            found = awaited(lambda: json.loads(run.ask("status json")), lambda found: found["links"][1]["state"] == "closed", PATIENCE)
            two = found["links"][1]
            self.judge("down", (two["state"], two["session"], two["ended"]) == ("closed", None, "the neighbour ended its stream"), two)
            run.neighbours[2].come()
            found = awaited(lambda: json.loads(run.ask("status json")), lambda found: found["links"][1]["state"] == "up", PATIENCE)
            self.judge("up again", (found["links"][1]["session"], found["links"][1]["sessions"]) == (2, 2), found["links"][1])
            self.end(run)

    def row_monitor(self):
        """docs/monitor.py tells all numbers of `status json` in the form that Prometheus reads: a name, labels, a number."""
        with Run(self.program) as run:
            self.serve_two(run)
            for line in ("load all filter all { accept; }", "import 2 all", "export 1 all"):
                self.judge(line, run.ask(line).split()[0] in ("verified", "done"), line)
            text = run.ask("status json")
            said = subprocess.run([sys.executable, TOP / "docs" / "monitor.py"], input=text, capture_output=True, text=True, check=True).stdout
            status = json.loads(text)
            found = dict(re.findall(r'(?m)^([a-z_]+(?:\{[a-z]+="[^"]*"(?:,[a-z]+="[^"]*")*\})?) (\d+)$', said))
            self.judge("lines", len(found) == said.count("\n") == 1 + 6 + 5 * 2 + 3, said)
            self.judge("info", found[f'ncroute_info{{version="{status["version"]}",domain=""}}'] == "1", said)
            numbers = ("up", "entries", "forgotten", "saved", "segments", "bytes")
            self.judge("router", all(found[f"ncroute_{name}"] == str(status[name] or 0) for name in numbers), said)
            for link in status["links"]:
                wanted = {**{name: link[name] for name in ("sessions", "received", "sent", "waiting")}, "up": int(link["node"] == 2)}
                told = {name: int(found[f'ncroute_link_{name}{{node="{link["node"]}"}}']) for name in wanted}
                self.judge(f"link {link['node']}", told == wanted, (told, wanted))
            for name in ("accepted", "rejected", "budget"):
                told = found[f'ncroute_filter_{name}{{node="2",direction="import",filter="all"}}']
                self.judge(name, told == str(status["links"][1]["import"][name]), (told, status))
            self.end(run)

    def row_filters(self):
        """What the filters of a link do with the routes of the moment, and what they are called."""
        with Run(self.program) as run:
            self.serve_two(run)

            def told():
                return json.loads(run.ask("status json"))["links"][1]
            two = told()
            self.judge("none", two["import"] is None and two["export"] is None, two)
            texts = {"near": "if rip_metric > 2 then reject; accept;", "far": "if rip_metric > 4 then reject; accept;", "all": "accept;"}
            budgets = {name: int(run.ask(f"load {name} filter {name} {{ {text} }}").split()[1]) for name, text in texts.items()}
            for line in ("import 2 near", "export 2 near"):
                self.judge(line, run.ask(line).startswith("done "), line)
            run.neighbours[2].say(b"3 1\n4 2\n5 3\n6 4\n7 8\n")
            self.judge("4", run.routes_until(4, "3:2"))
            run.neighbours[2].say(b"2 0\n")
            found = awaited(told, lambda link: link["received"] == 7, PATIENCE)
            # Of what it tells 2, 3 and 4 pass, at 0, 1 and 2. Of the routes to 0, 2, 3 and 4, at 0, 1, 2 and 3, the last one does not.
            wanted = {"accepted": 3, "budget": budgets["near"], "name": "near", "rejected": 2}
            self.judge("import", found["import"] == wanted, found)
            wanted = {"accepted": 3, "budget": budgets["near"], "name": "near", "rejected": 1}
            self.judge("export", found["export"] == wanted, found)
            line = run.ask("status")
            shown = f" import near budget {budgets['near']} accepted 3 rejected 2 export near budget {budgets['near']} accepted 3 rejected 1 "
            self.judge("line", shown in line and STATUS.fullmatch(line), line)
            run.neighbours[2].say(b"5 2\n")
            wanted = {"accepted": 4, "budget": budgets["near"], "name": "near", "rejected": 1}
            found = awaited(lambda: told()["import"], lambda found: found == wanted, PATIENCE)
            self.judge("of the moment", found == wanted, found)
            # The same filter comes into force once more: no count begins anew.
            self.judge("import 2 near again", run.ask("import 2 near").startswith("done "))
            self.judge("not reset", told()["import"] == wanted, told())
            # A name that is given to another filter is no name of the one in force, which keeps the one by which it came.
            self.judge("loaded again", run.ask(f"load near filter near {{ {texts['all']} }}").startswith("verified "))
            found = told()
            self.judge("still in force", found["import"] == wanted, found)
            self.judge("import 2 far", run.ask("import 2 far").startswith("done "))
            wanted = {"accepted": 5, "budget": budgets["far"], "name": "far", "rejected": 0}
            found = told()["import"]
            self.judge("replaced", found == wanted, found)
            run.neighbours[2].close()
            self.says(run, "closed")
            found = awaited(told, lambda link: link["state"] == "closed", PATIENCE)
            self.judge("closed", found["import"] is None and found["export"] is None, found)
            self.end(run)

    def row_filters_of_the_command_line(self):
        """Filters that a router begins with have the names of `--filter`, also for operators who may look alone."""
        with tempfile.TemporaryDirectory() as folder:
            path, control = os.path.join(folder, "near.filter"), Control(folder, "look", looks=True)
            pathlib.Path(path).write_text("filter near { if rip_metric > 2 then reject; accept; }", encoding="utf-8")
            more = ["--filter", f"near={path}", "--import", "2=near", "--export", "1=near", *control.option()]
            with Run(self.program, more=more) as run:
                self.serve_two(run)
                found = json.loads(control.asked("status json")[0])["links"]
                self.judge("names", (found[0]["import"], found[1]["import"]["name"]) == (None, "near"), found)
                # The neighbour at 1 is not up, so its filter does nothing now.
                self.judge("not up", found[0]["export"] is None, found)
                for line in ("load far filter far { accept; }", "export 2 far"):
                    self.judge(line, run.ask(line).split()[0] in ("verified", "done"), line)
                found = json.loads(control.asked("status json")[0])["links"][1]["export"]
                self.judge("of another operator", found["name"] == "far" and found["accepted"] == 2, found)
                self.end(run)

    def row_routes_json(self):
        with Run(self.program) as run:
            self.serve_two(run)
            found = json.loads(run.ask("routes json"))["routes"]
            line = run.ask("routes")
            told = [f"{route['node']}:{route['distance']}" + (f":{route['via']}" if route["via"] is not None else "") for route in found]
            self.judge("same", "routes " + " ".join(told) == line, (told, line))
            self.judge("prefixes", [route["prefix"] for route in found] == [f"10.{node}.0.0/16" for node in range(8)], found)
            self.judge("reachable", [route["reachable"] for route in found] == [True, False, True] + [False] * 5, found)
            self.end(run)

    def begin_of(self, operator):
        """What is to stay where nothing changes: the sessions, the routes and the history, once no entry comes by itself any more."""
        links = awaited(lambda: json.loads(operator.ask("status json"))["links"], all_is_told, PATIENCE)
        self.judge("all is told", all_is_told(links), links)
        return operator.ask("neighbours"), operator.ask("routes"), operator.ask("history 0")

    @contextlib.contextmanager
    def in_domain(self, *more):
        """A router that is started from the file of its domain, both neighbours of which are up and say that they are there; an operator of it; and
        the files."""
        with tempfile.TemporaryDirectory() as folder:
            files, control = DomainFiles(folder), Control(folder, "one")
            with Run(self.program, size=None, more=["--domain", files.path("the.domain"), *more, *control.option()]) as run, control:
                for node, neighbour in run.neighbours.items():
                    neighbour.come()
                    neighbour.say(b"%d 0\n" % node)
                    self.judge(f"{node} is served", run.routes_until(node, f"1:{node}"))
                yield run, control, files
                answer = control.ask("quit")
                self.judge("quit", answer == "ok", answer)
                self.ends_well(run)

    def row_reload(self):
        """One of the filters changes, and one of the uses goes: these alone are set, by events, and no session ends."""
        with self.in_domain() as (run, control, files):
            before, digest = self.begin_of(run), self.digest_of(control)
            answer = control.ask("reload")
            self.judge("nothing changed", answer == "reloaded" and self.begin_of(run) == before, answer)
            files.write("far.filter", FARTHER)
            answer = control.ask("reload check")
            differs = re.escape(" | ".join(self.differences(FILTERS["far"], FARTHER)))
            self.judge("check", re.fullmatch(rf"reload \| import 2 far \| {differs}", answer) and self.begin_of(run) == before, answer)
            self.judge("digest as it was", self.digest_of(control) == digest)
            answer = control.ask("reload")
            self.judge("reload", answer == "reloaded | import 2 far", answer)
            self.judge("another digest", self.digest_of(control) != digest)
            neighbours, routes, entries = self.begin_of(run)
            self.judge("sessions", neighbours == before[0], (neighbours, before[0]))
            self.judge("routes", " 1:1:1 2:3:2 " in routes, routes)
            more = [entry.split()[1:3] for entry in entries.removeprefix(f"{before[2]} | ").split(" | ")]
            self.judge("entries", entries.startswith(before[2]) and more[0] == ["import", "2"] and ["import", "1"] not in more, more)
            answer = control.ask("import 1 far")
            self.judge("its names", answer == "done 1", answer)
            answer = control.ask("reload")
            self.judge("as the file says", answer == "reloaded | import 1 near", answer)
            files.write("the.domain", "\n".join(line for line in DOMAIN if line != "import 0 2 far"))
            answer = control.ask("reload")
            self.judge("a use is gone", answer == "reloaded | import 2 -", answer)
            self.judge("routes again", run.routes_until(2, "1:2"))
            self.judge("sessions again", run.ask("neighbours") == before[0])

    def digest_of(self, control):
        """The digest that the router says its domain has."""
        return json.loads(control.ask("status json"))["domain"]

    def differences(self, old, new):
        """What `ncroute diff` tells of two filters."""
        with tempfile.TemporaryDirectory() as folder:
            paths = [pathlib.Path(folder, name) for name in ("old", "new")]
            for path, text in zip(paths, (old, new)):
                path.write_text(text)
            ran = subprocess.run([self.program, "diff", "--size", "8", *paths], capture_output=True, text=True, check=False)
        return ran.stdout.splitlines()

    @contextlib.contextmanager
    def by_options(self):
        """A router whose file of options says its links to nodes 1 and 2, which are up; an operator of it; the files; and neighbours 1 to 3."""
        with tempfile.TemporaryDirectory() as folder:
            files, control = DomainFiles(folder), Control(folder, "one")
            neighbours = {node: Neighbour(folder, node) for node in (1, 2, 3)}
            files.write_links(neighbours, 1, 2)
            with Run(self.program, nodes=(), size=None, node=None, more=["--config", files.path("r.conf"), *control.option()]) as run, control:
                for node in (1, 2):
                    neighbours[node].come()
                    neighbours[node].say(b"%d 0\n" % node)
                    self.judge(f"{node} is served", until_answer(control, "routes", rf" {node}:1:{node}( |$)"))
                yield run, control, files, neighbours
                answer = control.ask("quit")
                self.judge("quit", answer == "ok" and run.process.wait(timeout=PATIENCE) == 0, answer)
                self.ends_well(run)
                for neighbour in neighbours.values():
                    neighbour.close()

    def row_reload_links(self):
        """One link goes and one comes: the first has its Down in the history, the other one comes up, and the third keeps its session."""
        with self.by_options() as (run, control, files, neighbours):
            before = self.begin_of(control)
            files.write_links(neighbours, 2, 3)
            told, digests = " | link 1 is gone | link 3 is new", [self.digest_of(control)]
            answer = control.ask("reload check")
            self.judge("check", answer == "reload" + told, answer)
            self.judge("nothing changed", self.begin_of(control) == before)
            answer = control.ask("reload")
            self.judge("reload", answer == "reloaded" + told, answer)
            answer = control.ask("neighbours")
            self.judge("1 is gone", answer == "neighbours 2:2", answer)
            answer = control.ask("history 0")
            self.judge("its Down", answer.startswith(f"{before[2]} | ") and re.search(r"\| \S+ down 1 ", answer[len(before[2]):]), answer)
            self.judge("its stream ends", neighbours[1].is_ended())
            neighbours[3].come()
            neighbours[3].say(b"3 0\n")
            self.judge("3 is served", until_answer(control, "routes", r" 3:1:3( |$)"))
            answer = control.ask("neighbours")
            self.judge("2 stays", answer == "neighbours 2:2 3:3", answer)
            for operator in (control, run):
                answer = operator.ask("down 3")
                self.judge("a link alone", answer.startswith("refused O9 "), answer)
            answer = [link["node"] for link in json.loads(control.ask("status json"))["links"]]
            self.judge("status", answer == [2, 3], answer)
            digests.append(self.digest_of(control))
            found = [re.search(rb"^netchange( \d+){6} (\S+)", neighbours[node].told, re.M)[2].decode() for node in (2, 3)]
            self.judge("digests", found == digests and digests[0] != digests[1], (found, digests))
            neighbours[1].close()
            files.write_links(neighbours, 1, 2)
            answer = control.ask("reload")
            self.judge("back again", re.fullmatch(r"reloaded \| link 1 is new \| link 3 is gone", answer), answer)
            neighbours[1].come()
            neighbours[1].say(b"1 0\n")
            self.judge("1 is served", until_answer(control, "routes", r" 1:1:1( |$)"))
            found = {link["node"]: link for link in json.loads(control.ask("status json"))["links"]}
            counts = {node: (link["sessions"], link["received"]) for node, link in found.items()}
            self.judge("counts go on", counts == {1: (2, 2), 2: (1, 1)}, counts)
            neighbours[3].close()

    def row_reload_other_files(self):
        """A link that has other files is opened there, and its session at the files before is over."""
        with self.by_options() as (run, control, files, neighbours):
            neighbours[4] = Neighbour(files.folder, "other")
            files.write_links(neighbours, 2, (1, 4))
            answer = control.ask("reload")
            self.judge("reload", answer == "reloaded | link 1 has other files", answer)
            answer = control.ask("neighbours")
            self.judge("1 is closed", answer == "neighbours 2:2", answer)
            self.judge("its stream ends", neighbours[1].is_ended())
            neighbours[1].close()
            neighbours[4].node = 1
            neighbours[4].come()
            neighbours[4].say(b"1 0\n")
            self.judge("1 is served", until_answer(control, "routes", r" 1:1:1( |$)"))

    def row_refused_links(self):
        """A link that is not as it is to be is refused as at the start, and no link changes."""
        with self.by_options() as (run, control, files, neighbours):
            before = self.begin_of(control)
            domain, options = files.read("the.domain"), files.read("r.conf")
            wanted = [
                (domain + "\nlink 0 3", options, r"error: the file of the domain has a link to node 3, and no --link says where its streams are"),
                (domain, options + "\nlink 3 a b", r"\S*/a: No such file or directory \(E1\)"),
                (domain, options + f"\nlink 3 {neighbours[3].there} {neighbours[3].back}",
                 r"\S*r\.conf:\d+:6: the file of the domain has no link to node 3"),
                (domain, options + f"\nlink 2 {neighbours[3].there} {neighbours[3].back}", r"\S*r\.conf:\d+:\d+: .*"),
                (domain, options + "\nhold 12", r"needs a restart: \S*r\.conf: `hold 12` is new"),
            ]
            for domain_text, options_text, words in wanted:
                files.write("the.domain", domain_text)
                files.write("r.conf", options_text)
                for line in ("reload check", "reload"):
                    answer = control.ask(line)
                    self.judge(f"{line}: {words}", re.fullmatch(rf"refused O12 \d+ {words}", answer), answer)
                self.judge(f"nothing changed: {words}", self.begin_of(control) == before)

    def row_refused_reload(self):
        """Something is wrong with the files, or the running router cannot take it: it is told in words, and nothing changes."""
        with self.in_domain() as (run, control, files):
            before = self.begin_of(run)
            for name, text, wanted in REFUSED:
                was = files.read(name)
                files.write(name, text)
                for line in ("reload check", "reload"):
                    answer = control.ask(line)
                    self.judge(f"{line}: {wanted}", re.fullmatch(rf"refused O12 \d+ {wanted}", answer), answer)
                self.judge(f"nothing changed: {wanted}", self.begin_of(run) == before)
                files.write(name, was)
            answer = control.ask("reload")
            self.judge("right again", answer == "reloaded" and self.begin_of(run) == before, answer)

    def row_reload_with_options(self):
        """A line of the file of options that is another one, new or gone is refused, and a comment is not."""
        with tempfile.TemporaryDirectory() as folder:
            files, control = DomainFiles(folder), Control(folder, "one")
            options = ["node 0", "stay", "domain the.domain", "hold 9"]
            files.write("r.conf", "\n".join(options))
            with Run(self.program, size=None, node=None, more=["--config", files.path("r.conf"), *control.option()]) as run, control:
                files.write("r.conf", "\n".join([*options, "# a comment"]))
                answer = control.ask("reload")
                self.judge("comment", answer == "reloaded", answer)
                files.write("r.conf", "\n".join([*options[:3], "hold 12", "retry 1"]))
                answer = control.ask("reload")
                wanted = (r"refused O12 2 needs a restart: \S*r\.conf: `hold 12` is new \| \S*r\.conf: `retry 1` is new"
                          r" \| \S*r\.conf: `hold 9` is gone")
                self.judge("lines", re.fullmatch(wanted, answer), answer)
                files.write("r.conf", "\n".join([*options, "hodl 1"]))
                answer = control.ask("reload")
                self.judge("wrong line", re.fullmatch(r"refused O12 3 \S*r\.conf:5:1: no option has this name", answer), answer)
                answer = control.ask("quit")
                self.judge("quit", answer == "ok" and run.process.wait(timeout=PATIENCE) == 0, answer)

    def row_read(self):
        """A name gets the filter of a file beside the domain's; a file that is refused leaves the name its filter, and each use its own."""
        with self.in_domain() as (run, control, files):
            files.write("more.filter", FARTHER)
            answer = control.ask("read near more.filter")
            self.judge("read", re.fullmatch(r"verified \d+ \d+", answer), answer)
            self.judge("not in use yet", run.routes_until(1, "1:1"))
            answer = control.ask("import 1 near")
            self.judge("in use", answer == "done 1" and run.routes_until(1, "3:1"), answer)
            files.write("more.filter", "filter near {\n  if net.len > then accept;\n}")
            before = self.begin_of(run)
            answer = control.ask("read near more.filter")
            self.judge("refused", re.fullmatch(r"refused O12 \d+ \S*more\.filter:2:\d+: .*", answer), answer)
            self.judge("nothing changed", self.begin_of(run) == before)
            answer = control.ask("import 2 near")
            self.judge("the name keeps its filter", answer == "done 1" and run.routes_until(2, "3:2"), answer)
            answer = control.ask("read near /no/such.filter")
            self.judge("not there", re.fullmatch(r"refused O12 \d+ /no/such\.filter: No such file or directory \(E1\)", answer), answer)
            for line in ("read", "read near", "read 1near more.filter", "read near more.filter more", "reload it", "reload check it"):
                answer = control.ask(line)
                self.judge(line, re.fullmatch(r"refused O1 \d+", answer), answer)

    def ctl(self, config, *words, text=None):
        ran = subprocess.run([CTL, "-c", config, *words], input=text, capture_output=True, text=True, check=False, timeout=2 * PATIENCE)
        return ran.returncode, ran.stdout, ran.stderr

    def on_a_terminal(self, folder, config, *words):
        """The same where standard error is a terminal, and `ncroute` is found by its name."""
        os.symlink(self.program, os.path.join(folder, "ncroute"))
        shows, terminal = os.openpty()
        try:
            ran = subprocess.run([CTL, "-c", config, *words], stdout=subprocess.PIPE, stderr=terminal, text=True, check=False, timeout=2 * PATIENCE,
                                 env={**os.environ, "PATH": f"{folder}{os.pathsep}{os.environ['PATH']}"})
        finally:
            os.close(terminal)
        with contextlib.closing(os.fdopen(shows, "rb", buffering=0)) as shown, contextlib.suppress(OSError):
            return ran.returncode, ran.stdout, shown.read(4096).decode()
        return ran.returncode, ran.stdout, ""

    def together(self, config):
        """Many who speak at the same time are answered what each of them asked."""
        asked = [(f"show {node}", f"route {0 if node == 0 else 8} {'local' if node == 0 else 'none'}\n") for node in range(8)] * 3
        with concurrent.futures.ThreadPoolExecutor(OPERATORS) as pool:
            answers = list(pool.map(lambda each: self.ctl(config, "-w", str(PATIENCE), *each[0].split()), asked))
        wrong = [(each, answer) for each, answer in zip(asked, answers) if answer != (0, each[1], "")]
        self.judge("at the same time", not wrong, wrong[:3])

    def row_ncroute_ctl(self):
        """It finds the control in the router's file, and its answers do not mix."""
        with tempfile.TemporaryDirectory() as folder:
            for name in ("look", "all"):
                Control(folder, name)
            config = os.path.join(folder, "r.conf")
            lines = ("# a router", "size 8", "node 0", "stay", "control look.in look.out look", "control all.in all.out   # all")
            pathlib.Path(config).write_text("\n".join(lines), encoding="utf-8")
            absent = self.ctl(config, "-w", "0.3", "routes")
            self.judge("no router", absent == (3, "", "ncroute-ctl: the router does not answer\n"), absent)
            absent = self.ctl(config, "-w", "0.3", text=f"show {'0' * 100000}\n")
            self.judge("no router for a long line", absent == (3, "", "ncroute-ctl: the router does not answer\n"), absent)
            with Router.__new__(Router) as router:
                router.process = subprocess.Popen([self.program, "router", "--config", config], stdin=subprocess.PIPE, stdout=subprocess.PIPE,
                                                  stderr=subprocess.DEVNULL)
                found = self.ctl(config, "routes")
                self.judge("routes", found == (0, "routes 0:0 1:8 2:8 3:8 4:8 5:8 6:8 7:8\n", ""), found)
                found = self.ctl(config, "show", "0")
                self.judge("show", found == (0, "route 0 local\n", ""), found)
                found = self.ctl(config, "status")
                self.judge("status", found[0] == 0 and found[1].startswith("status node 0 size 8 "), found)
                found = self.ctl(config, "status", "json")
                self.judge("json", found[0] == 0 and json.loads(found[1])["size"] == 8, found)
                found = self.ctl(config, "jump")
                self.judge("refused", found == (1, "refused O1 1\n", ""), found)
                found = self.on_a_terminal(folder, config, "import", "1", "near")
                self.judge("refused, on a terminal", found == (1, "refused O6 1\n", "O6: no filter has this NAME\r\n"), found)
                found = self.ctl(config, text="# not said\n\nload near filter near { accept; }\nimport 1 near\nneighbours\n")
                self.judge("lines", found == (0, "verified 1 0\ndone 0\nneighbours\n", ""), found)
                self.together(config)
                found = self.ctl(config, "quit")
                self.judge("quit", found == (0, "ok\n", ""), found)
                self.judge("ends", router.process.wait(timeout=PATIENCE) == 0, router.process.returncode)
            for words, wanted in ((["-c", "/no/such/file", "routes"], "No such file"), (["-c", os.devnull, "routes"], "no line says")):
                ran = subprocess.run([CTL, *words], capture_output=True, text=True, check=False)
                self.judge("wrong words", ran.returncode == 2 and wanted in ran.stderr, ran)


class LongRows(Rows):
    """The row whose routers are killed, for a minute."""

    KILLS = MINUTE


def main(words):
    if words[:1] == ["--long"]:
        rows = LongRows(built())
        for _ in range(int(words[1]) if words[1:] else TIMES):
            rows.run(["routers_are_killed"])
    else:
        rows = Rows(built())
        rows.run(words)
    rows.counts.finish()


if __name__ == "__main__":
    main(sys.argv[1:])

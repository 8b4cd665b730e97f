#!/usr/bin/env python3
"""Kills `ncroute router --save FOLDER` 200 times at random moments, while one neighbour talks, one comes and goes, and the operator asks and
replaces a filter; and sees what is left in FOLDER: `ncroute replay` finds all replies right, but for the front of a line at the end of the last
file; as many entries are there as the router's `status` said were saved; and of the operator's calls all that were answered before the last of them
was entered. Some more runs are longer: there segments are begun and the oldest are removed. Prints a line for each run where this does not hold, and
at last 'N passed, M failed'.

What was known a second before is saved, but how soon a disk has taken what is written is no matter of the router: a run alone is not judged by that.
In at least half of all runs it has to be so, where on a machine that lets this script wait, what was known that much sooner has to be there. Each run
of the longer half goes on until something is saved, however long that takes, up to a minute.

usage: NCROUTE=PATH scripts/check_kills.py [RUNS [LONG [SEED]]]     (PATH: the program; 200 runs and 10 long ones, of seed 1)
"""
import concurrent.futures
import random
import re
import sys
import time

from lib import histories
from lib.counts import Counts
from lib.histories import STATE_END, first_of, replay_ok, wrong_of
from lib.processes import PATIENCE, Delays
from lib.program import built
from lib.routers import Run
from lib.traffic import BLOCK, FILTERS, Churn, Drain, Flood, end_all, end_of

SIZE = 8
# Seconds: what was answered so long before is saved.
LATE = 1.0
# So many runs are beside one another, since each mostly waits.
BESIDE = 4
# What the talking neighbour says at a time, and how long it rests, where it does not flood.
FEW, REST = b"3 0\n4 2\n3 1\n4 3\n" * 20, 0.005
# Seconds: no long run takes longer.
LONGEST = 90.0
# Seconds: a short run lasts for so long at most; one that lasts for half of it goes on until something is saved.
SHORT = 2.5


class Look:
    """What the operator knew at a time: how many entries there were, and how many of them it had had made."""

    def __init__(self, when, entries, made):
        self.when, self.entries, self.made = when, entries, made


class Operator:
    """Asks, replaces a filter, and remembers what it knew when, and how many entries it was told are saved."""

    def __init__(self, run, delays):
        self.run, self.delays, self.begun, self.longest, self.rounds = run, delays, time.monotonic(), 0.0, 0
        self.made, self.saved, self.looks = 0, 0, [Look(self.begun, 0, 0)]

    def seconds(self):
        """How long it has worked."""
        return time.monotonic() - self.begun

    def delay(self):
        """How late this machine is: the longest time from one look to the next, and by which a sleep was late. The router's threads wait, too, where
        there is more to do than can be done."""
        return self.longest + self.delays.longest

    def work(self, is_over):
        """Works until it is over."""
        while not is_over(self):
            self.rounds += 1
            lines = ["show 0"] * 3
            if self.rounds % 5 == 1:
                lines += [f"load far {FILTERS[self.rounds % 2]}", "import 1 far"]
            for line in lines:
                answer = self.run.ask(line)
                self.made += answer.startswith(("route ", "done "))
            self.look()

    def look(self):
        """Sees how many entries there are, among which are all that it had made before, and how many are saved."""
        last, made = self.looks[-1], self.made
        entries = end_of(self.run, last.entries)
        self.looks.append(Look(time.monotonic(), entries, made))
        self.longest = max(self.longest, self.looks[-1].when - last.when)
        if told := re.search(r" saved (\d+) ", self.run.ask("status")):
            self.saved = int(told[1])

    def known(self, when):
        """How many entries it knew of before a time."""
        return max((look.entries for look in self.looks if look.when < when), default=0)

    def made_among(self, entries):
        """How many entries it had had made when there were no more than so many in all: these are among them."""
        return max(look.made for look in self.looks if look.entries <= entries)


class Folder:
    """The segments that a router left."""

    def __init__(self, run):
        self.program, self.files = run.program, run.segments()
        self.texts = [file.read_bytes() for file in self.files]
        # After the last line feed of the last file comes the front of a line, if anything does.
        self.is_cut = bool(self.texts) and self.texts[-1][-1:] != b"\n"

    def first(self):
        return first_of(self.files[0]) if self.files else 0

    def end(self):
        """How many entries the history has up to the last that is saved whole."""
        return histories.end_of(self.files[-1], self.texts[-1]) if self.are_whole() and self.files else 0

    def are_whole(self):
        """Whether each segment has all of the state that it begins with."""
        return all(STATE_END in text for text in self.texts)

    def made(self):
        """How many entries there are that only an operator makes."""
        return sum(len(re.findall(rb"(?m)^\d+ (?:show|import) .*\n", text)) for text in self.texts)

    def replayed(self):
        """The verdict on all segments."""
        return histories.replayed(self.program, self.files)

    def fault(self):
        """What is wrong with the segments, if anything is. The front of a line is cut off."""
        if not self.files:
            return None
        if not self.are_whole():
            return "a segment has no whole state"
        if self.is_cut:
            which = f"file {len(self.files)} " if len(self.files) > 1 else ""
            lines = self.texts[-1].count(b"\n")
            if wrong := wrong_of(self.replayed(), f"{which}cut {lines + 1}\n"):
                return wrong
            self.files[-1].write_bytes(self.texts[-1][: self.texts[-1].rfind(b"\n") + 1])
        return wrong_of(self.replayed(), replay_ok(self.end() - self.first(), self.first()), 0)


def begin(run, block, pause, stays):
    """Has the neighbours of a router talk."""
    one, two, three = (run.neighbours[node] for node in (1, 2, 3))
    one.come(SIZE)
    three.come(SIZE)
    threads = [Flood(one, block, pause), Churn(run, two.node, SIZE, stays), Drain(one), Drain(three)]
    for thread in threads:
        thread.start()
    return threads


class Left:
    """What a killed router left: what is wrong with it, how many entries are saved, of how many it had said so, and how many were known a second
    before."""

    def __init__(self, folder, operator, known, has_removed):
        self.wrong, self.saved, self.told, self.known = folder.fault(), folder.end(), operator.saved, known
        self.is_cut, self.first = folder.is_cut, folder.first()
        if not self.wrong and self.saved < self.told:
            self.wrong = f"`status` said that {self.told} entries are saved, and {self.saved} are"
        # Where segments are removed, entries of the operator are, too.
        made = 0 if has_removed else operator.made_among(self.saved)
        if not self.wrong and folder.made() < made:
            self.wrong = f"{made} entries of the operator were answered before the last that is saved, and {folder.made()} are there"


def killed(program, is_over, more=(), talk=(FEW, REST, 0.05)):
    """What a router left that is killed once it is over."""
    run, threads = Run(program, nodes=(1, 2, 3), size=SIZE, more=("--limit", "50000", "--retry", "1", *more)), []
    try:
        with Delays() as delays:
            threads, operator = begin(run, *talk), Operator(run, delays)
            operator.work(is_over)
            when = time.monotonic() - LATE - operator.delay()
            run.kill()
        return Left(Folder(run), operator, operator.known(when), bool(more))
    finally:
        run.kill()
        end_all(threads)
        run.close()


def short_run(program, seconds):
    """One that is killed after so many seconds, and after as many more as the machine is late; of the longer half each once something is saved."""
    needs_saved = seconds > SHORT / 2

    def is_over(operator):
        has_saved = operator.saved > 0 or operator.seconds() > seconds + PATIENCE
        return operator.seconds() >= seconds + operator.delay() and (has_saved or not needs_saved)

    left = killed(program, is_over)
    if needs_saved and not left.wrong and not left.told:
        left.wrong = "nothing was saved within a minute"
    return left


def long_run(program, entries):
    """One that is killed after so many entries, or after a minute and more."""
    return killed(program, lambda operator: operator.looks[-1].entries >= entries or operator.seconds() > LONGEST, ("--segments", "2"),
                  (BLOCK, 0.0, 0.5))


def main(runs=200, long_runs=10, seed=1):
    program, counts, chosen = built(), Counts(), random.Random(seed)
    times = [chosen.uniform(0, SHORT) for _ in range(runs)]
    ends = [chosen.randrange(500_000, 3_500_000) for _ in range(long_runs)]
    found = []
    with concurrent.futures.ThreadPoolExecutor(BESIDE) as pool:
        for number, left in enumerate(pool.map(lambda seconds: short_run(program, seconds), times)):
            counts.judge(f"run {number}, after {times[number]:.3f} s", left.wrong)
            found.append(left)
    for number, entries in enumerate(ends):
        found.append(long_run(program, entries))
        counts.judge(f"long run {number}, after {entries} entries", found[-1].wrong)
    # Where nothing was known so long before, nothing has to be there. Of the short runs that is so in about half.
    telling, late = (sum(it) for it in zip((0, 0), *((left.known > 0, left.saved < left.known) for left in found)))
    counts.judge("all runs", telling < len(found) // 8 and f"only in {telling} of {len(found)} something was known a second before")
    counts.judge("a second before", 2 * late > telling and f"in {late} of {telling} runs not all was saved that was known so long before")
    cut, told = (sum(it) for it in zip((0, 0), *((left.is_cut, left.told > 0) for left in found)))
    later, removed = (sum(it) for it in zip((0, 0), *((left.saved > 1_000_000, left.first > 0) for left in found[runs:])))
    print(f"{cut} of {len(found)} were cut within a line, and in {told} the router had said that something is saved; in {telling} something was "
          f"known a second before, and not all of it was saved in {late}; of the long ones {later} had a second segment, {removed} had removed one")
    counts.finish()


if __name__ == "__main__":
    main(*map(int, sys.argv[1:]))

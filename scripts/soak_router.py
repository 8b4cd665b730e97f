#!/usr/bin/env python3
"""Runs a router for as long as it takes to enter many events, and prints what memory it has meanwhile. At last 'N passed, M failed'.

usage: NCROUTE=PATH scripts/soak_router.py [--entries COUNT] [--limit ROOM] [--save FOLDER]

The router has three neighbours. One floods it with messages, some of which change distances, one comes and goes, and one reads what it is told; the
operator replaces the flooding neighbour's filter, and asks for routes. COUNT is 100,000,000 if it is left out, and ROOM 10,000. With `--save` the
router keeps its last two segments in FOLDER, which must not be there yet.

- Once a minute has passed, its resident memory is never more than a tenth above what it was then.
- The flooding link stays up: no message is taken for the end of a session, and none is lost, as the last distances show.
- Old entries are forgotten (O10), and the last ones are shown.
- With `--save` each segment is replayed, alone and behind the one before it, the removed ones too; and the last one has the last entry.
"""
import argparse
import os
import pathlib
import subprocess
import tempfile
import threading
import time

from lib import histories
from lib.counts import Counts
from lib.histories import first_of, replay_ok, segments_of
from lib.processes import PATIENCE, awaited
from lib.program import named
from lib.routers import Run
from lib.traffic import FILTERS, Churn, Drain, Flood, end_of

SIZE = 8
MINUTE = 60.0


class Replays(threading.Thread):
    """Replays each segment with the one that follows it, as soon as that is complete. It keeps names of its own for the files, since the router
    removes them."""

    def __init__(self, program, folder):
        super().__init__(daemon=True)
        self.program, self.folder = program, pathlib.Path(folder)
        self.links = pathlib.Path(tempfile.mkdtemp(prefix="segments.", dir=self.folder.parent))
        self.files, self.last, self.count, self.wrong, self.is_over = [], "", 0, [], False
        # The replay that runs, and what it has to say.
        self.replay, self.wanted = None, ""

    def find(self):
        """Names the files that are new."""
        for segment in segments_of(self.folder):
            if segment.name > self.last:
                os.link(segment, self.links / segment.name)
                self.files.append(self.links / segment.name)
                self.last = segment.name

    def begin(self, end):
        """Begins to replay the first segment and the one that follows it, if there is one: they go up to an end."""
        files, first = self.files[:2], first_of(self.files[0])
        self.wanted = replay_ok(end - first, first)
        self.replay = subprocess.Popen([self.program, "replay", *files], stdout=subprocess.PIPE, text=True)

    def judge(self):
        """Judges a replay, waiting for its end, and forgets the first segment."""
        said = self.replay.communicate()[0]
        first = self.files.pop(0)
        if said != self.wanted:
            self.wrong.append(f"{first.name}: {said!r} in place of {self.wanted!r}")
        first.unlink()
        self.replay, self.count = None, self.count + 1

    def run(self):
        try:
            while not self.is_over:
                self.find()
                if self.replay and self.replay.poll() is not None:
                    self.judge()
                if not self.replay and len(self.files) > 2:
                    self.begin(first_of(self.files[2]))
                time.sleep(0.1)
        except OSError as why:
            self.wrong.append(str(why))

    def finish(self):
        """Replays what is left once the router has ended: how many entries the history has."""
        self.is_over = True
        self.join()
        self.find()
        end = histories.end_of(self.files[-1], self.files[-1].read_bytes())
        while self.files:
            if not self.replay:
                self.begin(first_of(self.files[2]) if len(self.files) > 2 else end)
            self.judge()
        self.links.rmdir()
        return end


def is_told_closed(run):
    """Whether the link of the neighbour that floods was closed."""
    return "link 1: " in run.errors.read_text()


def soak(run, counts, entries):
    """Runs until the history has so many entries."""
    one, two, three = (run.neighbours[node] for node in (1, 2, 3))
    one.come(SIZE)
    three.come(SIZE)
    flood, churn = Flood(one), Churn(run, two.node, SIZE)
    threads = [flood, churn, Drain(one), Drain(three)]
    for thread in threads:
        thread.start()
    begun, known, sizes, rounds = time.monotonic(), 0, [], 0
    print("seconds entries resident_kilobytes")
    while known < entries and run.is_running() and not is_told_closed(run):
        time.sleep(1)
        rounds += 1
        for line in (f"load far {FILTERS[rounds % 2]}", "import 1 far", "routes"):
            answer = run.ask(line)
            counts.expect(line, answer.startswith(("verified ", "done ", "routes ")), answer)
        known = end_of(run, known)
        passed = time.monotonic() - begun
        sizes.append((passed, run.kilobytes("VmRSS")))
        if rounds % 10 == 1:
            print(f"{passed:.0f} {known} {sizes[-1][1]}", flush=True)
    flood.is_over = churn.is_over = True
    flood.join()
    taken = time.monotonic() - begun
    counts.expect("the last distance is known", run.routes_until(7, "[23]:1"), run.ask("routes"))
    late = [size for passed, size in sizes if passed >= MINUTE]
    if late:
        counts.expect("memory is flat after a minute", max(late) <= 1.1 * late[0], late)
    else:
        print(f"not judged: memory after a minute, since the run took {taken:.0f} s")
    counts.expect("old entries are forgotten", run.ask("history 0").startswith("refused O10"), run.ask("history 0"))
    counts.expect("the flooding link stayed up", not is_told_closed(run), run.errors.read_text()[-400:])
    counts.expect("the other one came and went", churn.times >= 3, churn.times)
    print(f"{known} entries in {taken:.0f} s, {flood.lines} messages of one neighbour, {churn.times} sessions of another; "
          f"resident: {sizes[0][1]} kB at first, {max(size for _, size in sizes)} kB at most, {sizes[-1][1]} kB at last; "
          f"processor time {run.processor_time():.0f} s")
    return known


def main():
    words = argparse.ArgumentParser()
    words.add_argument("--entries", type=int, default=100_000_000)
    words.add_argument("--limit", type=int, default=10_000)
    words.add_argument("--save")
    chosen, counts = words.parse_args(), Counts()
    # More messages may wait than usual: on a machine with much else to do this script reads what its neighbours are told only now and then.
    more = ["--limit", str(chosen.limit), "--queue", "100000", "--retry", "1", *(["--save", chosen.save, "--segments", "2"] if chosen.save else [])]
    run, replays = Run(named(), nodes=(1, 2, 3), size=SIZE, saves=False, more=more), None
    try:
        if chosen.save:
            awaited(lambda: os.path.exists(chosen.save), bool, PATIENCE)
            replays = Replays(run.program, chosen.save)
            replays.start()
        known = soak(run, counts, chosen.entries)
        answer = run.quit()
        counts.expect("quit", answer == ("ok", 0), answer)
        if replays:
            end = replays.finish()
            counts.judge("segments", replays.wrong)
            counts.expect("the last entry is saved", end >= known, (end, known))
            print(f"{replays.count} segments were replayed, of {end} entries")
    finally:
        run.close()
    counts.finish()


if __name__ == "__main__":
    main()

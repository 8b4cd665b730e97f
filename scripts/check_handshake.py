#!/usr/bin/env python3
"""Plays two ends of a link that greet one another by version 2, over a line that loses at random, and looks that they stay in step. It uses
nothing of the program. The last line is 'N passed, M failed'.

usage: scripts/check_handshake.py [RUNS [SEED]]        (20000 runs; 100000 take half a minute)

The rules are those of crates/link_handshake, written a second time. In each run the ends do what they may in any order: they hear, write
messages and greetings, begin anew and are started again, write empty lines and parts of lines, and the first lines on their way are lost. After
each step it is looked at that
- a message that is taken was written in the attempt that the end is in session with, and is the next one of it that left the line;
- no message of an attempt left the line before the end that hears came up with it;
- two ends that are up are in session with one another, and nothing older than its attempt is on its way from an end that is up;
- hearing makes no more greetings than there were, but where a part of a line ends a session.
Then nothing is lost any more, and no end begins by itself: all that is on its way is heard, in any order; where nothing is, an end without a
session greets again. Both come up, after at most two such greetings. It is told how many greetings were heard at most until none was left, for
each number of them that was on its way.

Some ends have the digest of a domain, which they say in their greetings until they hear one without, and some are of a version that knows no digests,
and takes a greeting with one for a part of a line. Where both meet, a greeting that says again what is not understood counts as none.
"""
import random
import sys
from collections import Counter, deque

from lib.counts import Counts


class Fault(Exception):
    """A law that does not hold."""


def need(holds, text):
    if not holds:
        raise Fault(text)


GREETINGS = ("greeting", "digest")

# What an end is: of a version before digests; without a digest; with one.
KINDS = ("older", "plain", "digest")


class End:
    """One end, and what it wrote: lines are ("greeting", number, heard), ("digest", number, heard), which is a greeting with a digest,
    ("message", number, count), ("empty",) and ("broken",)."""

    def __init__(self, draw, kind):
        self.draw, self.kind, self.way, self.left = draw, kind, deque(), Counter()
        self.begin(0)

    def begin(self, heard):
        """Begins an attempt, and greets. One that heard nothing before is started anew, and says its digest."""
        if not heard:
            self.is_plain = False
        self.number, self.heard, self.is_up, self.told = self.draw(), heard, False, 0
        self.greet()

    def says_digest(self):
        return self.kind == "digest" and not self.is_plain

    def greet(self):
        self.way.append(("digest" if self.says_digest() else "greeting", self.number, self.heard))

    def understands(self, line):
        """Whether a line that it hears says something to it."""
        return line[0] != "broken" and (line[0] != "digest" or self.kind != "older")

    def tell(self):
        self.told += 1
        self.way.append(("message", self.number, self.told))

    def lose(self, count):
        """The first lines of what it wrote are lost."""
        for _ in range(min(count, len(self.way))):
            line = self.way.popleft()
            if line[0] == "message":
                self.left[line[1]] += 1

    def hear(self, other):
        """Hears the first line of the other end."""
        line = other.way.popleft()
        if not self.understands(line):
            if self.is_up:
                self.begin(self.heard)
        elif line[0] in GREETINGS:
            self.is_plain = line[0] == "greeting"
            self.hear_greeting(other, line[1], line[2])
        elif line[0] == "message":
            other.left[line[1]] += 1
            if self.is_up:
                need(line[1] == self.heard, "a message of another attempt was taken")
                need(line[2] == other.left[line[1]], "a message was left out, or taken twice")

    def hear_greeting(self, other, number, repeats):
        if self.is_up:
            self.number, self.is_up, self.told = self.draw(), False, 0
        said = self.heard == number
        self.heard, self.is_up = number, repeats == self.number
        if self.is_up:
            need(other.left[number] == 0, "a message of the attempt left the line before the session")
        if not (self.is_up and said):
            self.greet()


def greetings(ends):
    return sum(line[0] in GREETINGS for end in ends for line in end.way)


def look(ends):
    """What holds after each step."""
    for end, other in (ends, ends[::-1]):
        if end.is_up:
            need(all(line[1] == end.number for line in end.way if len(line) > 1), "an older line is on its way from an end that is up")
            need(not other.is_up or end.heard == other.number, "two sessions that do not belong together")


def step(random_from, ends):
    """Something happens."""
    end, other = ends if random_from.random() < 0.5 else ends[::-1]
    what = random_from.random()
    if what < 0.45 and other.way:
        before = greetings(ends)
        was_up = end.is_up
        unheard = not end.understands(other.way[0])
        end.hear(other)
        need(greetings(ends) <= before + (unheard and was_up), "hearing made greetings")
    elif what < 0.65 and end.is_up:
        end.tell()
    elif what < 0.72 and not end.is_up:
        end.greet()
    elif what < 0.76:
        end.way.append(("empty",))
    elif what < 0.78:
        end.way.append(("broken",))
    elif what < 0.80:
        end.begin(0)
    elif what < 0.82:
        end.begin(end.heard)
    elif what < 0.86:
        end.lose(random_from.randrange(1, 4))
    elif what < 0.87:
        end.lose(len(end.way))


def settle(random_from, ends, most):
    """Nothing is lost any more, and no end begins by itself: both come up."""
    again = 0
    for _ in range(100):
        count, steps = greetings(ends), 0
        while ends[0].way or ends[1].way:
            end, other = ends if random_from.random() < 0.5 else ends[::-1]
            if other.way:
                steps += other.way[0][0] in GREETINGS
                need(steps <= 4 * (count + 1) ** 2, "hearing what is on its way does not end")
                end.hear(other)
                look(ends)
        most[count] = max(most[count], steps)
        if ends[0].is_up and ends[1].is_up:
            return again
        end, other = random_from.choice([pair for pair in (ends, ends[::-1]) if not pair[0].is_up])
        end.greet()
        again += other.is_up or other.understands(end.way[-1])
        need(again < 3, "two greetings more did not bring both up")
    raise Fault("no greeting was understood")


def play(random_from, most):
    """One run: how many greetings more it took, and what is wrong."""
    numbers = iter(random_from.sample(range(1, 2**32), 400))
    ends = tuple(End(lambda: next(numbers), random_from.choice(KINDS)) for _ in range(2))
    try:
        for _ in range(random_from.randrange(60)):
            step(random_from, ends)
            look(ends)
        for end in ends:
            end.way = deque(line for line in end.way if line[0] != "broken")
        return settle(random_from, ends, most), None
    except Fault as fault:
        return None, str(fault)


def main(words):
    if len(words) > 2 or not all(word.isdigit() for word in words):
        sys.exit(__doc__)
    count, seed = (int(word) for word in (words + ["20000", "1"][len(words):]))
    judged, most, again = Counts(), Counter(), Counter()
    for number in range(count):
        more, wrong = play(random.Random(f"{seed} {number}"), most)
        again[more] += 1
        judged.judge(f"run {number} of seed {seed}", wrong)
    print("greeted again:", ", ".join(f"{times} times in {again[times]} runs" for times in range(3)))
    print("greetings heard until none was left, at most:", ", ".join(f"{most[count]} of {count}" for count in sorted(most)))
    judged.finish()


if __name__ == "__main__":
    main(sys.argv[1:])

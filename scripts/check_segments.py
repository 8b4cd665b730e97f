#!/usr/bin/env python3
"""Cuts histories of `ncroute run --save` into segments at random positions, with the states that a plain model of the router computes, and sees what
`ncroute replay` says: of all of them, of those from each one on, of each alone; and that no file follows in which something of the state is another,
and no reply is taken that is another. Prints a line for each answer that is not as it should be, and at last 'N passed, M failed'.

usage: NCROUTE=PATH scripts/check_segments.py [HISTORIES [SEED]]     (PATH: the program; 8 histories, of seed 1)
"""
import pathlib
import random
import re
import subprocess
import sys
import tempfile

from lib.counts import Counts
from lib.histories import replay_ok, replayed, wrong_of
from lib.netchange import Router
from lib.program import TOP, built

# What bench/script.py writes, without the filters that are more than a number added, and how many lines.
KINDS = {"messages": 400, "mixed": 400, "dense": 150, "imports": 300}
MUTATIONS = 40


def added_by(code):
    """The filter that adds a number to the distance, by its code in hexadecimal."""
    more = int(re.search(r"1301([0-9a-f]{8})2014", code)[1], 16)
    return lambda _, dist: dist + more


class State:
    """The state of a router as the entries of its history change it, whose distances and queues a plain model has."""

    def __init__(self, first):
        self.opening = first.split(" ")[1:]
        self.size, me = int(self.opening[0]), int(self.opening[1])
        self.router, self.count, self.sessions, self.codes = Router(self.size, me), 0, {}, {}

    def enter(self, line):
        """What the event of an entry does. The reply says whether it is refused."""
        _, event, *words = line.split(" ")
        if "refused" in words:
            return
        if event == "up":
            self.count += 1
            self.sessions[int(words[0])] = self.count
            self.router.up(int(words[0]))
        elif event in ("import", "export"):
            node, _, code = int(words[0]), words[1], words[2]
            self.codes[node, event] = " ".join(words[1:3])
            (self.router.set_import if event == "import" else self.router.set_export)(node, added_by(code))
        elif event != "show":
            node = next(w for w, session in self.sessions.items() if session == int(words[0]))
            if event == "recv":
                self.router.receive(node, int(words[1]), int(words[2]))
            elif event == "take":
                self.router.take(node, int(words[1]))
            else:
                del self.sessions[node]
                self.router.down(node)

    def text(self, at):
        """The lines of the state, which stands after so many entries."""
        table, nodes = {}, []
        for node in range(self.size):
            words = ["node", str(node)]
            for way in ("import", "export"):
                if code := self.codes.get((node, way)):
                    words += [way, str(table.setdefault(code, len(table)))]
            if node not in self.sessions:
                nodes.append(" ".join([*words, "down"]))
                continue
            told = self.router.told[node]
            nodes.append(" ".join([*words, "up", str(self.sessions[node]), *(str(told.get(v, self.size)) for v in range(self.size))]))
            if queue := self.router.queues[node]:
                nodes.append(" ".join(["queue", *(f"{v}:{dist}" for v, dist in queue)]))
        filters = [f"filter {number} {code}" for code, number in table.items()]
        return ["NCH2 " + " ".join(self.opening), f"at {at} sessions {self.count}", *filters, *nodes, "."]


def segments_of(lines, cuts):
    """The segments of a history that begin at these positions: of each its state's lines and its entries' lines."""
    state, segments = State(lines[0]), []
    for at, line in enumerate(lines[1:]):
        if at in cuts:
            segments.append((state.text(at), []))
        segments[-1][1].append(line)
        state.enter(line)
    return segments


def history_of(program, folder, kind, size, seed):
    """The lines of a history."""
    script, kept = folder / "script", folder / "kept"
    with open(script, "wb") as it:
        words = [kind, str(size), str(KINDS[kind]), str(seed)]
        subprocess.run([sys.executable, TOP / "bench" / "script.py", *words], stdout=it, check=True)
    subprocess.run([program, "run", "--save", kept, script], stdout=subprocess.DEVNULL)
    lines = kept.read_text().splitlines()
    kept.unlink()
    return lines


def mutated(chosen, state):
    """Lines of a state in which something is another: a number, or a line is left out, or doubled, or two are changed with one another."""
    lines = list(state)
    k = chosen.randrange(1, len(lines))
    kind = chosen.randrange(4)
    if kind == 0:
        places = [m.span() for m in re.finditer(r"\b\d+\b", lines[k])]
        if places:
            begin, end = chosen.choice(places)
            lines[k] = lines[k][:begin] + str(int(lines[k][begin:end]) + chosen.choice((1, 2, 255))) + lines[k][end:]
        else:
            lines[k] += " 0"
    elif kind == 1:
        del lines[k]
    elif kind == 2:
        lines.insert(k, lines[k])
    else:
        other = chosen.randrange(1, len(lines))
        lines[k], lines[other] = lines[other], lines[k]
    return lines


def put(path, state, entries):
    path.write_text("".join(line + "\n" for line in [*state, *entries]))


def check_history(program, counts, chosen, folder, name, lines):
    """Cuts a history, and judges what is said of its segments."""
    entries = len(lines) - 1
    cuts = sorted({0, *chosen.sample(range(1, entries), 5)})
    segments = segments_of(lines, set(cuts))
    files = [folder / f"{at:020}.history" for at in cuts]
    for path, (state, told) in zip(files, segments):
        put(path, state, told)
    for k, at in enumerate(cuts):
        counts.judge(f"{name} from {at}", wrong_of(replayed(program, files[k:]), replay_ok(entries - at, at), 0))
        counts.judge(f"{name} at {at}", wrong_of(replayed(program, files[k : k + 1]), replay_ok(len(segments[k][1]), at), 0))
    for k in range(1, len(cuts) - 1):
        found = replayed(program, [*files[:k], *files[k + 1 :]])
        counts.judge(f"{name} without the one at {cuts[k]}", wrong_of(found, f"file {k + 1} refused H3 2\n"))
    spare = folder / "spare"
    for _ in range(MUTATIONS):
        k = chosen.randrange(len(cuts))
        state, told = segments[k]
        other = mutated(chosen, state)
        put(spare, other, told)
        said, status = replayed(program, [*files[:k], spare, *files[k + 1 :]])
        wrong = other != state and (status != 1 or not said.startswith(f"file {k + 1} "))
        counts.judge(f"{name}, another state", wrong and f"{said!r} of {other}")
        at = chosen.randrange(len(told))
        entry = told[at].rsplit(" ", 1)
        put(spare, state, [*told[:at], " ".join([*entry[:-1], entry[-1] + "1"]), *told[at + 1 :]])
        said, status = replayed(program, [*files[:k], spare, *files[k + 1 :]])
        counts.judge(f"{name}, another entry", (status != 1 or not said.startswith(f"file {k + 1} ")) and f"{said!r} at {at}")


def main(histories=8, seed=1):
    program, counts, chosen = built(), Counts(), random.Random(seed)
    with tempfile.TemporaryDirectory() as name:
        folder = pathlib.Path(name)
        for run in range(histories):
            kind = list(KINDS)[run % len(KINDS)]
            lines = history_of(program, folder, kind, chosen.choice((4, 16, 40)), run + 1)
            check_history(program, counts, chosen, folder, f"{kind} {run}", lines)
    counts.finish()


if __name__ == "__main__":
    main(*map(int, sys.argv[1:]))

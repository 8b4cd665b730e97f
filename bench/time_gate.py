#!/usr/bin/env python3
"""Times a gate by crate and by function as it runs, at no cost to it, and writes the tables of bench/GATE.md.

usage: bench/time_gate.py [--anew] [--write]    runs `rt ci`, with --anew from nothing
       bench/time_gate.py --beside [--write]    looks at each `rt ci` that runs now, until none is left
       (--write: puts the tables into bench/GATE.md; without it they go to standard output)

It looks at the gate's processes every second: what each is for, and what it has used of a processor. What a checker has checked of a crate stands in
files, each written as a module of it ends, so the times of these files say what each function took. What ended since the last look is not seen. It
needs Linux. Other work beside the gate shows up as more seconds: compare rows of one run alone.
"""
import bisect
import collections
import datetime
import os
import re
import subprocess
import sys
import time

TOP = os.path.realpath(os.path.join(os.path.dirname(os.path.abspath(__file__)), ".."))
sys.path.insert(0, f"{TOP}/scripts")
from lib import checkers  # noqa: E402 (the path comes first)

TICKS = os.sysconf("SC_CLK_TCK")
PAGE = f"{TOP}/bench/GATE.md"
PARTS = {"check": "Proof", "edits": "Edits", "built": "Built and run"}
GATE = "(the gate itself)"
# So many functions are listed, and the parts of a function that took at least so many seconds.
DEAREST, SHOWN = 60, 1


def processes():
    """All processes, each with what the system tells of it: from its parent on, as in `man proc_pid_stat`."""
    found = {}
    for name in filter(str.isdigit, os.listdir("/proc")):
        try:
            with open(f"/proc/{name}/stat") as f:
                found[int(name)] = f.read().rsplit(")", 1)[1].split()[1:]
        except OSError:
            pass  # it has ended
    return found


def is_of(gates, process, found):
    """Whether one of the gates started a process, or what started it. A program that a gate runs has a session of its own."""
    while process in found:
        if process in gates or int(found[process][2]) in gates:
            return True
        process = int(found[process][0])
    return False


def work_of(process):
    """The crate and the part of the work that a process is for, or None once it has ended so far that it tells neither."""
    try:
        words, folder = checkers.words_of(process), os.path.realpath(os.readlink(f"/proc/{process}/cwd"))
    except OSError:
        return None
    if words == [""]:
        return None
    ran = re.search(r"/rt-run-[^/]*/bin/(\w+)", " ".join(words))
    if ran:
        return ran[1], "built"
    if "--crate-name" in words:
        part = "edits" if "rt-edit" in folder else "built" if "--crate-checked" in words else "check"
        return words[words.index("--crate-name") + 1], part
    # What is compiled, linked or laid out in the folder of a crate.
    below = re.search(r"/crates/(\w+)", folder) or re.search(r"/crates/(\w+)/", " ".join(words))
    return (below[1], "built") if below else (GATE, "check")


class Watch:
    """What was seen of one or more gates."""

    def __init__(self):
        self.works = {}
        self.used = collections.defaultdict(list)
        self.written, self.crates, self.checkers = {}, {}, checkers.Checkers()

    def look(self, gates):
        """Notes of each process of the gates what it is for, and its seconds so far. One that is ending keeps what it was seen to be for."""
        found, now = processes(), time.time()
        for process, fields in found.items():
            if is_of(gates, process, found):
                key = process, fields[18]
                work = work_of(process) or self.works.get(key, (GATE, "check"))
                self.works[key] = work
                self.used[key].append((now, (int(fields[10]) + int(fields[11])) / TICKS))
        for folder, crate in self.checkers.folders():
            listed = checkers.modules(folder)
            if listed:
                self.crates[folder] = crate
                self.written.setdefault(folder, {}).update((name, written) for name, _, written in listed)

    def crate_rows(self):
        sums = collections.defaultdict(collections.Counter)
        for key, (crate, part) in self.works.items():
            sums[crate][part] += self.used[key][-1][1]
        return sums

    def seconds_at(self, folder):
        """What the checker of a folder had used by a time."""
        process = int(checkers.FOLDER.fullmatch(os.path.basename(folder))[1])
        looks = next(looks for (number, _), looks in self.used.items() if number == process)
        times = [at for at, _ in looks]

        def at(when):
            index = bisect.bisect(times, when)
            if index == 0:
                return looks[0][1]
            if index == len(looks):
                return looks[-1][1]
            (before, less), (after, more) = looks[index - 1], looks[index]
            return less + (more - less) * (when - before) / (after - before)

        return at

    def function_rows(self):
        """Each function of each crate, with what its parts took."""
        rows = collections.defaultdict(collections.Counter)
        for folder, written in self.written.items():
            try:
                seconds, last = self.seconds_at(folder), None
            except StopIteration:
                continue
            for name, when in sorted(written.items(), key=lambda it: it[1]):
                used = seconds(when)
                took, last = (0 if last is None else used - last), used
                module = re.sub(r"^Rattle-\w+-(?:proofs|specs)\.|\.oantt$", "", name)
                function, _, part = module.rpartition(".")
                is_part = bool(function) and part[:1].isupper()
                rows[self.crates[folder], function if is_part else module][part if is_part else "all"] += took
        return rows


def table(watch, minutes):
    """The text of both tables."""
    sums = watch.crate_rows()
    whole = collections.Counter()
    for parts in sums.values():
        whole.update(parts)
    shown = [part for part in PARTS if whole[part] >= 1]
    lines = [f"Measured on {datetime.date.today()} ({processor()}), in {minutes:.0f} minutes by the clock. {kit()}", ""]
    lines += ["| Crate | " + " | ".join(PARTS[it] for it in shown) + " | In all |", "|" + "---|" * (len(shown) + 2)]
    rows = [*sorted(sums.items(), key=lambda it: -sum(it[1].values())), ("in all", whole)]
    for name, parts in rows:
        cells = [f"{parts[it]:.0f}" if parts[it] >= 1 else "" for it in shown]
        lines.append(f"| {f'`{name}`' if name.isidentifier() else name} | " + " | ".join(cells) + f" | {sum(parts.values()):.0f} |")
    functions = sorted(watch.function_rows().items(), key=lambda it: -sum(it[1].values()))
    lines += ["", f"The {DEAREST} functions, types and files of lemmas that took longest:", "", "| In | Seconds | Longest parts |", "|---|---|---|"]
    for (crate, function), parts in functions[:DEAREST]:
        longest = ", ".join(f"{part} {took:.0f}" for part, took in parts.most_common(3) if part != "all" and took >= SHOWN)
        lines.append(f"| `{crate}::{function.replace('.', '::')}` | {sum(parts.values()):.0f} | {longest} |")
    return "\n".join(lines) + "\n"


def processor():
    with open("/proc/cpuinfo", encoding="utf-8") as f:
        model = re.search(r"^model name\s*: (.*)$", f.read(), re.M)
    return f"{len(os.sched_getaffinity(0))} processors, {model[1] if model else 'of a model that the system does not tell'}"


def kit():
    return f"Kit: `{subprocess.check_output(['rt', 'version'], text=True).strip()}`."


def write(text):
    """Puts the tables where the page keeps them."""
    with open(PAGE, encoding="utf-8") as f:
        page = f.read()
    begin, end = "<!-- times: bench/time_gate.py writes these lines -->\n", "<!-- end of times -->"
    before, found, rest = page.partition(begin)
    if not found or end not in rest:
        sys.exit(f"{PAGE} has no place for the tables")
    with open(PAGE, "w", encoding="utf-8") as f:
        f.write(f"{before}{begin}\n{text}\n{rest[rest.index(end):]}")


def main(words):
    if not set(words) <= {"--anew", "--beside", "--write"} or {"--anew", "--beside"} <= set(words):
        sys.exit(__doc__)
    start, watch, status = time.time(), Watch(), 0
    if "--beside" in words:
        while gates := checkers.gates():
            watch.look(set(map(int, gates)))
            time.sleep(1)
    else:
        gate = subprocess.Popen(["rt", "ci", *(["--anew"] if "--anew" in words else [])], cwd=TOP, stdout=sys.stderr, start_new_session=True)
        while gate.poll() is None:
            watch.look({gate.pid})
            time.sleep(1)
        status = gate.returncode
    text = table(watch, (time.time() - start) / 60)
    if "--write" in words and not status:
        write(text)
    else:
        print(text, end="")
    sys.exit(status)


if __name__ == "__main__":
    main(sys.argv[1:])

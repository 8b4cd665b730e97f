#!/usr/bin/env python3
"""Kills `ncroute run --save` 200 times at random moments, and sees what is left: each line of the file but the last is whole, each event that
was answered is there, and `ncroute replay` finds all replies right up to the last whole line. Two more runs come to
their end, with as many entries as events. Prints a line for each run where this does not hold, and at last 'N passed, M failed'.

usage: NCROUTE=PATH scripts/check_histories.py [RUNS [SEED]]     (PATH: the program; 200 runs, of seed 1)
"""
import pathlib
import random
import signal
import subprocess
import sys
import tempfile
import time

from lib.counts import Counts
from lib.program import TOP, built

# The words with which the answers to events begin, whether the router refuses them or not.
REPLIES = (b"opened ", b"done ", b"messages", b"route ", b"refused N")
LINES = 20_000


def seconds_of(program, script, kept):
    """How long the program takes to its end."""
    begun = time.monotonic()
    subprocess.run([program, "run", "--save", kept, script], stdout=subprocess.DEVNULL)
    took = time.monotonic() - begun
    kept.unlink(missing_ok=True)
    return took


def fault_at_end(program, script, kept):
    """What is wrong with a run to its end, if anything is: each line is answered and each event saved, the status says whether a line was
    refused, and no fault is told."""
    ran = subprocess.run([program, "run", "--save", kept, script], capture_output=True)
    lines = script.read_bytes().count(b"\n")
    answers = ran.stdout.splitlines()
    if len(answers) != lines:
        return f"of {lines} lines {len(answers)} are answered, and told is {ran.stderr[-100:]!r}"
    status = int(any(answer.startswith(b"refused ") for answer in answers))
    if ran.returncode != status:
        return f"the status is {ran.returncode} in place of {status}"
    saved = kept.read_bytes()
    kept.unlink()
    events, entries = sum(answer.startswith(REPLIES) for answer in answers), saved.count(b"\n") - 1
    if entries != events:
        return f"{events} events are answered, and {entries} are saved"
    return fault_in(program, ran.stdout, saved)


def written_by(program, script, kept, seconds):
    """What the program had answered when it was killed, after so many seconds, and what it had saved."""
    with open(script, "rb") as given, tempfile.TemporaryFile() as answers:
        run = subprocess.Popen([program, "run", "--save", kept], stdin=given, stdout=answers, stderr=subprocess.DEVNULL)
        time.sleep(seconds)
        run.send_signal(signal.SIGKILL)
        run.wait()
        answers.seek(0)
        answered = answers.read()
    if not kept.exists():
        return answered, b""
    saved = kept.read_bytes()
    kept.unlink()
    return answered, saved


def replayed(program, text):
    """The verdict on a text."""
    return subprocess.run([program, "replay"], input=text, stdout=subprocess.PIPE, stderr=subprocess.DEVNULL).stdout


def fault_in(program, answered, saved):
    """What is wrong with what a run left, if anything is."""
    whole = saved[: saved.rfind(b"\n") + 1]
    entries = max(whole.count(b"\n") - 1, 0)
    events = sum(line.startswith(REPLIES) for line in answered[: answered.rfind(b"\n") + 1].splitlines())
    if events > entries:
        return f"{events} events are answered, and {entries} are saved"
    if not whole:
        return None if replayed(program, saved) == b"cut 1\n" else "the front of a first line is not told as such"
    verdict = replayed(program, whole)
    if verdict != b"replay ok %d\n" % entries:
        return f"the whole lines are answered {verdict!r}"
    verdict = replayed(program, saved)
    wanted = b"replay ok %d\n" % entries if whole == saved else b"cut %d\n" % (entries + 2)
    return None if verdict == wanted else f"the text is answered {verdict!r} in place of {wanted!r}"


def main(runs=200, seed=1):
    program, counts, chosen = built(), Counts(), random.Random(seed)
    with tempfile.TemporaryDirectory() as folder:
        script, whole = pathlib.Path(folder, "script"), pathlib.Path(folder, "all")
        # The first of them refuses no line, so that its status is 0. The last is the one that is killed.
        for kind in ("messages", "mixed"):
            with open(script, "wb") as it:
                subprocess.run([sys.executable, TOP / "bench" / "script.py", kind, "16", str(LINES)], stdout=it, check=True)
            counts.judge(f"{kind}, to its end", fault_at_end(program, script, whole))
        cut = 0
        for run in range(runs):
            # A machine that has more to do than before takes longer, and would be killed before the first entry each time.
            if run % 20 == 0:
                longest = seconds_of(program, script, whole)
            answered, saved = written_by(program, script, pathlib.Path(folder, str(run)), chosen.uniform(0, longest))
            cut += bool(saved)
            counts.judge(f"run {run}", fault_in(program, answered, saved))
        # A run of which every moment comes before the first entry would show nothing.
        counts.judge("all runs", cut < runs // 4 and f"only {cut} of {runs} had saved something")
    counts.finish()


if __name__ == "__main__":
    main(*map(int, sys.argv[1:]))

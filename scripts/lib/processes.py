"""Programs that run beside a script and answer its lines, `ncroute router` among them."""
import os
import pathlib
import re
import resource
import select
import signal
import subprocess
import threading
import time

from lib.counts import NotRun, lack_of
from lib.histories import entries_of, replayed, segments_of
from lib.program import TOP

# Seconds: what is awaited and comes, comes sooner on any machine. Nothing that a script judges takes so long where all is well.
PATIENCE = 60.0

# Seconds: a router saves what was answered a second before. On a machine with much else to do it may take longer, but far less than a minute.
SAVED = 20.0


class Delays(threading.Thread):
    """Sees how late a machine is that has more to do than it can: the longest time by which a short sleep took longer than it was to, in seconds."""

    SLEEP = 0.02

    def __init__(self):
        super().__init__(daemon=True)
        self.longest, self.is_over = 0.0, False

    def __enter__(self):
        self.start()
        return self

    def __exit__(self, *_):
        self.is_over = True
        self.join()

    def run(self):
        before = time.monotonic()
        while not self.is_over:
            time.sleep(self.SLEEP)
            now = time.monotonic()
            self.longest, before = max(self.longest, now - before - self.SLEEP), now


def awaited(look, is_enough, patience, pause=0.01):
    """Looks until what is seen is enough, or patience is over: what was seen last."""
    until = time.monotonic() + patience
    while not is_enough(seen := look()) and time.monotonic() < until:
        time.sleep(pause)
    return seen


class Process:
    """A program that answers each line with a line."""

    def __init__(self, words, errors=None, **more):
        self.process = subprocess.Popen(words, stdin=subprocess.PIPE, stdout=subprocess.PIPE, stderr=errors, **more)

    def __enter__(self):
        return self

    def __exit__(self, *_):
        self.close()

    def say(self, text):
        self.process.stdin.write(text)
        self.process.stdin.flush()

    def ask(self, line):
        """The answer to a line, without its line feed; nothing where the program has ended. One that does not answer is not waited for."""
        self.say(line.encode() + b"\n")
        # Each answer is one line, so that none is left in the buffer. `select` takes no file above 1,023.
        answered = select.poll()
        answered.register(self.process.stdout, select.POLLIN)
        if not answered.poll(PATIENCE * 1000):
            raise TimeoutError(f"{line!r} is not answered")
        return self.process.stdout.readline().decode().rstrip("\n")

    def is_running(self):
        return self.process.poll() is None

    def end(self, patience=PATIENCE):
        """Ends the input, and waits for the program's end: its exit status."""
        self.process.stdin.close()
        return self.process.wait(timeout=patience)

    def kill(self):
        self.process.send_signal(signal.SIGKILL)
        self.process.wait()

    def close(self):
        """Kills what still runs, and lets its streams go. What was written to one that nobody reads any more is lost."""
        if self.is_running():
            self.kill()
        for stream in (self.process.stdin, self.process.stdout):
            try:
                stream.close()
            except BrokenPipeError:
                pass

    def status(self, name):
        """What the system says of the process."""
        return re.search(name + r":\s*(.*)", pathlib.Path(f"/proc/{self.process.pid}/status").read_text())[1]

    def kilobytes(self, name):
        """So many kilobytes the system says: VmHWM is the most memory that it had at a time, VmRSS what it has, VmSize its addresses."""
        return int(self.status(name).split()[0])

    def processor_time(self):
        """The seconds that it took of processors. /proc/PID/stat has them in hundredths, of which an idle process takes few: so this is the clock
        of the process, whose number Linux makes of its PID."""
        return time.clock_gettime(~self.process.pid << 3 | 2)


class Router(Process):
    """A process of `ncroute router`. `links` has the files that it reads and writes for each neighbour, `history` is the folder where it saves. Where
    no size is given here, the file of its domain says it, and its file of options says a node that is not given."""

    def __init__(self, program, size, node, links, history=None, options=(), **more):
        self.program, self.history = program, history
        words = [program, "router", *(["--size", str(size)] if size else []), *([] if node is None else ["--node", str(node)]), *options]
        if history:
            words += ["--save", history]
        for other, (there, back) in links.items():
            words += ["--link", f"{other}={there},{back}"]
        super().__init__(words, **more)

    def quit(self):
        """What is answered to `quit`, and the exit status."""
        return self.ask("quit"), self.end()

    def entries(self):
        """All entries of its history, in the words that the file has for them. To ask makes no entry."""
        found = []
        while (answer := self.ask(f"history {len(found)}")).startswith("history "):
            found += answer[len("history "):].split(" | ")
        if answer != "history":
            raise ValueError(f"`history {len(found)}` is answered {answer!r}")
        return found

    def rests(self):
        """The entries of the history, once they are the same twice."""
        before, found = None, self.entries()
        until = time.monotonic() + PATIENCE
        while before != found and time.monotonic() < until:
            time.sleep(0.2)
            before, found = found, self.entries()
        return found

    def segments(self):
        return segments_of(self.history)

    def saved(self):
        """The entries in the segments of the history, as far as their lines are whole."""
        return [entry.decode() for segment in self.segments() for entry in entries_of(segment.read_bytes())]

    def has_saved(self, entries):
        """Waits until these entries are saved, first of all: whether they are, and how many seconds that took."""
        begun = time.monotonic()
        is_saved = awaited(lambda: self.saved()[:len(entries)] == entries, bool, SAVED, 0.02)
        return is_saved, time.monotonic() - begun

    def replays(self):
        """The verdict of `ncroute replay` on the segments of the history, and that there are none."""
        segments = self.segments()
        return replayed(self.program, segments)[0].strip() if segments else "no segments"


def open_files(most):
    """Lets this script, and what it starts, have so many files open, if that is allowed."""
    soft, hard = resource.getrlimit(resource.RLIMIT_NOFILE)
    allowed = most if hard == resource.RLIM_INFINITY else min(most, hard)
    resource.setrlimit(resource.RLIMIT_NOFILE, (max(soft, allowed), hard))


def preloaded(source, folder):
    """The environment that has a program load a small library of the scripts before the C library."""
    if why := lack_of("cc"):
        raise NotRun(why)
    library = os.path.join(folder, source.replace(".c", ".so"))
    subprocess.run(["cc", "-shared", "-fPIC", "-O1", "-o", library, TOP / "scripts" / source, "-ldl"], check=True)
    return {"LD_PRELOAD": library}

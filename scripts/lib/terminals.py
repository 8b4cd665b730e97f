"""Plays what a document shows of several terminals side by side, and says where it goes otherwise.

A block of lines, each behind four spaces and the name of a terminal:

    one$ COMMAND      is given to a shell of that terminal, once the command before it has ended there, or runs in the background by `&`
    one> LINE         is typed into the command that runs there
    one: LINE         is shown there next, on standard output or on standard error

A command that only looks (`routes`, `neighbours`, `show`, `told`) is typed again until its answer is the one that is shown: what a neighbour says
takes a while to come. All of a block runs in one new folder. What a terminal's shell has assigned to a name its later commands have, and a port that
a block listens at is another one here, which nobody has.
"""
import os
import re
import select
import shutil
import signal
import socket
import subprocess
import tempfile
import time

from lib.processes import PATIENCE

# Seconds between what is shown and the next line that changes something: nobody types it at once. A router that is told to quit while its neighbour
# still tells it something ends the link by another fault than one that is told when all is quiet.
PAUSE = 0.2
LOOKS = ("routes", "neighbours", "show", "told")
LINE = re.compile(r"    (\w+)([$>:]) (.*)")
ASSIGNED = re.compile(r"(?:^|; )(\w+=[^\s;]+)(?=;|$)")
# A router says now and then to each neighbour that it is there. If it does so at the very moment at which one ends, it tells that end by another
# fault than the document, and the block is played again, so often at most.
OTHER_END = re.compile(r"\w+: shows 'link \d+: .*: closed', and not 'link \d+: .*: closed'")
PLAYS = 3
# How many messages a router leaves out depends on how busy the machine is: a document that shows none is not wrong where this is told.
LEFT_OUT = re.compile(r"link \d+: messages left out, since later ones replaced them: \d+")


def blocks(text):
    """The blocks of a document: lists of (terminal, kind, words)."""
    found, inside = [], False
    for line in text.split("\n"):
        match = LINE.fullmatch(line)
        if not match or match[2] != "$" and not inside:
            inside = False
            continue
        if not inside:
            found.append([])
        inside = True
        found[-1].append(match.groups())
    return found


class Terminal:
    """A terminal, and the command that runs in it."""

    def __init__(self, folder, environment):
        self.folder, self.environment = folder, environment
        self.process, self.shown, self.typed, self.processes, self.assigned = None, b"", None, [], ""

    def start(self, command):
        if self.process:
            self.process.stdin.close()
            self.process.wait(timeout=PATIENCE)
        alone = "exec " if re.match(r"ncroute\b", command) and "|" not in command else ""
        started = subprocess.Popen(["bash", "-c", f"{self.assigned}{alone}{command}"],
                                   cwd=self.folder, env=self.environment, stdin=subprocess.PIPE, stdout=subprocess.PIPE, stderr=subprocess.STDOUT,
                                   start_new_session=True)
        self.assigned += "".join(f"{it}; " for it in ASSIGNED.findall(command))
        self.processes.append(started)
        self.process, self.shown, self.typed = started, b"", None

    def type(self, line):
        if line.split(" ")[0] not in LOOKS:
            time.sleep(PAUSE)
        self.typed = line
        self.process.stdin.write(line.encode() + b"\n")
        self.process.stdin.flush()

    def read_line(self, until):
        """The next line that is shown, or what there is of one when the time is over."""
        while b"\n" not in self.shown and time.monotonic() < until:
            if select.select([self.process.stdout], [], [], 0.05)[0]:
                came = os.read(self.process.stdout.fileno(), 65536)
                if not came:
                    break
                self.shown += came
        line, _, self.shown = self.shown.partition(b"\n")
        return line.decode()

    def expect(self, wanted):
        """Why the next line is another one, if it is."""
        until = time.monotonic() + PATIENCE
        while (line := self.read_line(until)) != wanted:
            if LEFT_OUT.fullmatch(line):
                continue
            if time.monotonic() > until or not self.typed or self.typed.split(" ")[0] not in LOOKS:
                return f"shows {line!r}, and not {wanted!r}"
            time.sleep(0.05)
            self.type(self.typed)
        return None

    def close(self):
        for process in self.processes:
            try:
                os.killpg(process.pid, signal.SIGKILL)
            except ProcessLookupError:
                pass
            process.wait()
            process.stdin.close()
            process.stdout.close()


def free_port():
    """A port that nobody has."""
    with socket.socket() as it:
        it.bind(("", 0))
        return str(it.getsockname()[1])


def with_free_ports(block):
    """A block with other ports."""
    ports = {port: free_port() for _, kind, words in block if kind == "$" for port in re.findall(r"\bTCP-LISTEN:(\d+)", words)}
    return [(name, kind, re.sub(r"(?<=:)\d+\b", lambda found: ports.get(found[0], found[0]), words)) for name, kind, words in block]


def play(block, environment):
    """Plays a block: what is wrong with it, if anything is."""
    for _ in range(PLAYS):
        why = play_once(with_free_ports(block), environment)
        if not why or not OTHER_END.fullmatch(why):
            break
    return why


def play_once(block, environment):
    """What is wrong with the first line that is. Those behind it are not played."""
    folder = tempfile.mkdtemp(prefix="terminals.")
    terminals = {}
    try:
        for name, kind, words in block:
            terminal = terminals.setdefault(name, Terminal(folder, environment))
            if kind == "$":
                terminal.start(words)
            elif kind == ">":
                terminal.type(words)
            elif why := terminal.expect(words):
                return f"{name}: {why}"
        return None
    except (OSError, subprocess.TimeoutExpired, ValueError) as why:
        return f"{name}{kind} {words}: {why}"
    finally:
        for terminal in terminals.values():
            terminal.close()
        shutil.rmtree(folder)

#!/usr/bin/env python3
"""Looks that a line over TCP, and one over TLS, come back whatever becomes of them. The last line is 'N passed, M failed'.

usage: scripts/check_lines.py [--silent SECONDS] [--times N] [--hold SECONDS]     (NCROUTE=PATH: the program, without which nothing is run)
       --silent: for how long nothing passes over the lines, 75 if it is left out; --times: how often they fall silent for a moment besides, 1
       --hold: the HOLD of the routers, 9

Two namespaces with a wire between them are the machines `north` and `east`. Between two routers there is the line of docs/RUNNING.md, over TCP, and
between two others that of docs/NETWORK.md, over TLS with keys that are made as it shows: by the command of the unit `ncroute-link@` and the files of
the documents, with other addresses. Each of the lines comes up, and does so again

  1. after a silence that lasts until both routers know of it: how long that takes, and how long they are down after it, is told;
  2. after a longer one, in which whoever connects has given up many times: no try leaves a socket behind;
  3. while a stranger connects again and again, and says nothing;
  4. after a neighbour who connected, said nothing, and was cut off.

Where namespaces cannot be made, or a program is not there, a line says so, and that counts as skipped.
"""
import argparse
import contextlib
import os
import pathlib
import random
import re
import signal
import subprocess
import sys
import tempfile
import time
import traceback

from lib import documents
from lib.counts import Counts, NotRun, lack_of
from lib.processes import PATIENCE, Router, awaited
from lib.program import TOP, built
from lib.spaces import Spaces, Wire
from lib.units import PLACES, Service, Unit

UNIT = TOP / "packaging" / "systemd" / "system" / "ncroute-link@.service"
# The machines by their nodes; each of them has its line under the name of the other.
NAMES = ("north", "east")
SIZE = 4
# Seconds: a link whose sessions are short is opened again after a minute at most, and its neighbour may have to be, too.
UP = 240.0
# `socat` has two sockets of its own and one for the try that goes on. With each try that leaves one there would be some twenty.
MOST_SOCKETS = 4


class Line:
    """A line of a document: the services at both of its ends, and a router behind each."""

    def __init__(self, lines, what, document):
        self.lines, self.what, self.folder = lines, what, os.path.join(lines.folder, what)
        for place in PLACES:
            os.makedirs(self.folder + place)
        text = documents.read(document)
        files = documents.shown_files(text)
        for name in NAMES:
            self.write(f"{name}.link", self.placed(files[f"{name}.link"]))
        self.port = re.search(r"LISTEN:(\d+)", files["east.link"])[1]
        for command in re.findall(r"(?m)^ {4}north# ((?:openssl|cat) .*)", text):
            self.make_keys(command.partition(" && ")[0])
        self.services, self.routers = [None, None], []
        for end in (0, 1):
            self.start(end)
        self.routers += [self.router(end) for end in (0, 1)]

    def write(self, name, text):
        pathlib.Path(f"{self.folder}/etc/ncroute/{name}").write_text(text, encoding="utf-8")

    def placed(self, text):
        """A text of the document with the addresses of the wire."""
        return re.sub(r"\b192\.0\.2\.([12])\b", lambda it: self.lines.wire.addresses[int(it[1]) - 1], text)

    def make_keys(self, command):
        """Gives a command of the document at both machines."""
        for name in NAMES:
            subprocess.run(["sh", "-c", command.replace("north", name)], cwd=f"{self.folder}/etc/ncroute", check=True, capture_output=True)

    def start(self, end):
        """Starts the service of the line at an end."""
        self.services[end] = Service(self.lines.unit, NAMES[1 - end], self.folder, inside=self.lines.spaces.inside(end))
        self.services[end].start()

    def router(self, end):
        tty = f"{self.folder}/run/ncroute/link-{NAMES[1 - end]}/tty"
        options = ("--retry", "1", "--hold", str(self.lines.asked.hold))
        return Router(self.lines.program, SIZE, end, {1 - end: (tty, tty)}, None, options, errors=subprocess.DEVNULL)

    def is_up(self, end):
        return f" {1 - end}:" in self.routers[end].ask("neighbours")

    def judge(self, what, holds, told=""):
        self.lines.counts.expect(f"{self.what}: {what}", holds, told)

    def told(self):
        """What is known of a line that is not as it should be."""
        return [router.ask("status") for router in self.routers] + [service.lines()[-3:] for service in self.services]

    def sockets(self):
        """How many sockets whoever connects has."""
        folder = pathlib.Path(f"/proc/{self.services[1].process.pid}/fd")
        with contextlib.suppress(FileNotFoundError):
            return sum(os.readlink(it).startswith("socket:") for it in folder.iterdir())
        return 0

    def caller(self, address):
        """Somebody who connects from an address, says nothing and stays, over and over, and writes a line whenever the connection has ended."""
        target = f"TCP:{self.lines.wire.addresses[0]}:{self.port},bind={address},forever,interval=0.1"
        words = ["sh", "-c", 'while :; do socat -u "$0" OPEN:/dev/null; echo; done', target]
        return subprocess.Popen([*self.lines.spaces.inside(1), *words], stdout=subprocess.PIPE, stderr=subprocess.DEVNULL, start_new_session=True)

    def close(self):
        for service in self.services:
            service.stop()
        for router in self.routers:
            router.close()


def end(caller):
    os.killpg(caller.pid, signal.SIGKILL)
    caller.communicate()


class Lines:
    """The two namespaces, and all lines between them."""

    def __init__(self, program, spaces, folder, asked, counts):
        self.program, self.spaces, self.folder, self.asked, self.counts = program, spaces, folder, asked, counts
        self.unit, self.wire, self.all = Unit(UNIT), Wire(spaces, folder, 0, (0, 1)), []
        # The stranger has another address of the same network.
        self.stranger = self.wire.addresses[1].rpartition(".")[0] + ".77"
        self.wire.ip(1, "address", "add", f"{self.stranger}/24", "dev", self.wire.interfaces[1])

    def tell(self, text):
        print(text, file=sys.stderr, flush=True)

    def become(self, is_up, what, lines=None):
        """Waits until both routers of each line are up, or are not: after how many seconds it was so with the line over TCP, and that over TLS."""
        begun, after = time.monotonic(), dict.fromkeys(lines or self.all)

        def look():
            for line in after:
                if all(line.is_up(end) == is_up for end in (0, 1)):
                    after[line] = after[line] or time.monotonic() - begun
                else:
                    after[line] = None
            return all(after.values())
        awaited(look, bool, UP)
        for line, seconds in after.items():
            line.judge(what, seconds, line.told() if not seconds else "")
        return ", ".join(f"{line.what} {seconds:.1f} s" for line, seconds in after.items() if seconds)

    def run(self):
        self.all.append(Line(self, "TCP", "docs/RUNNING.md"))
        self.all.append(Line(self, "TLS", "docs/NETWORK.md"))
        self.become(True, "begun")
        for _ in range(self.asked.times):
            self.silent_for_a_moment()
        self.silent_for_long()
        for line in self.all:
            self.stranger_calls(line)
            self.cut_off(line)

    def silent_for_a_moment(self):
        """How soon a silence is noticed depends on when the routers say something next."""
        time.sleep(random.random() * self.asked.hold / 3)
        self.wire.swallow()
        down = self.become(False, "a silence is noticed")
        self.wire.pass_on()
        up = self.become(True, "after a silence")
        self.tell(f"silent: down after {down}; up after it, {up}")

    def silent_for_long(self):
        self.wire.swallow()
        self.become(False, "a long silence is noticed")
        time.sleep(self.asked.silent)
        for line in self.all:
            line.judge("no try leaves a socket", line.sockets() <= MOST_SOCKETS, line.sockets())
        self.wire.pass_on()
        up = self.become(True, "after a long silence")
        self.tell(f"silent for {self.asked.silent} s more: up after it, {up}")

    def stranger_calls(self, line):
        line.services[1].stop()
        self.become(False, "without its other end", [line])
        caller = line.caller(self.stranger)
        try:
            # Whoever is kept waiting writes nothing.
            os.set_blocking(caller.stdout.fileno(), False)
            turned_away = awaited(caller.stdout.read, bool, PATIENCE, 0.1)
            line.judge("a stranger is turned away", turned_away)
            line.start(1)
            self.become(True, "while a stranger calls", [line])
        finally:
            end(caller)

    def cut_off(self, line):
        line.services[1].stop()
        self.become(False, "without its other end again", [line])
        caller, ends = line.caller(self.wire.addresses[1]), len(line.services[0].results)
        try:
            taken = awaited(lambda: self.connections(line), bool, PATIENCE, 0.1)
            line.judge("a neighbour is let in", taken)
            self.wire.swallow()
            ended = awaited(lambda: len(line.services[0].results) > ends, bool, PATIENCE, 0.1)
            line.judge("whoever is cut off is let go", ended)
        finally:
            end(caller)
        self.wire.pass_on()
        line.start(1)
        self.become(True, "after a neighbour who was cut off")

    def connections(self, line):
        """What `north` has established at the port of a line."""
        words = [*self.spaces.inside(0), "ss", "-Htn", "state", "established", "sport", "=", line.port]
        return subprocess.run(words, capture_output=True, text=True, check=False).stdout

    def close(self):
        for line in self.all:
            line.close()


def main():
    words = argparse.ArgumentParser(description=__doc__, formatter_class=argparse.RawDescriptionHelpFormatter)
    words.add_argument("--silent", type=int, default=75)
    words.add_argument("--times", type=int, default=1)
    words.add_argument("--hold", type=int, default=9)
    asked = words.parse_args()
    program, counts = built(), Counts()
    with contextlib.ExitStack() as stack:
        folder = stack.enter_context(tempfile.TemporaryDirectory(prefix="lines."))
        try:
            if why := lack_of("openssl", "socat", "ss"):
                raise NotRun(why)
            spaces = stack.enter_context(Spaces(2))
            spaces.need_interfaces()
        except NotRun as why:
            counts.skip("lines", str(why))
            counts.finish()
        lines = Lines(program, spaces, folder, asked, counts)
        try:
            lines.run()
        except Exception as why:
            traceback.print_exc()
            counts.expect("lines: run", False, str(why))
        finally:
            lines.close()
    counts.finish()


if __name__ == "__main__":
    main()

"""Runs the services of systemd's unit files as processes of a script, without systemd and without its rights: the commands, folders and signals that
a unit names, when systemd would. Users, hardening and dependencies are left out, and every folder is one below a folder of the script's own.
"""
import collections
import contextlib
import os
import pathlib
import re
import shutil
import signal
import subprocess
import threading
import time

from lib.processes import PATIENCE, awaited

# Where a unit's files are, each of them a folder of this name below the script's.
PLACES = ("/run/ncroute", "/var/lib/ncroute", "/var/log/ncroute", "/etc/ncroute")
# The program as the units of the sources name it.
INSTALLED = "/usr/local/bin/ncroute "
SECONDS = {"ms": 0.001, "s": 1.0}
# What systemd takes for a clean end, beside what a unit says.
CLEAN = (0, -signal.SIGTERM, -signal.SIGINT, -signal.SIGHUP, -signal.SIGPIPE)
# Seconds from the end of a service's main process to that of its folder.
PAUSE = 0.1
# What systemd takes in a setting: a word in quotes may have blanks.
PART = re.compile(r"""(?P<quote>["'])(?P<quoted>.*?)(?P=quote)|(?P<plain>[^\s"']+)|(?P<blank>\s+)""")


class Unit:
    """A template of units, as its file has it: the values of each setting, in order. Of the sources' own one `program` is what it runs."""

    def __init__(self, path, program=None):
        self.name, self.settings = os.path.basename(path), collections.defaultdict(list)
        text = pathlib.Path(path).read_text(encoding="utf-8")
        for line in (text.replace(INSTALLED, f"{program} ") if program else text).splitlines():
            if not re.match(r"$|[#;]|\[\w+\]$", line):
                key, value = re.fullmatch(r"(\w+)=(.*[^\\]|)", line).groups()
                self.settings[key].append(value)

    def last(self, key, default=""):
        return self.settings[key][-1] if self.settings[key] else default

    def seconds(self, key, default):
        number, unit = re.fullmatch(r"(\d+)(ms|s)", self.last(key, default)).groups()
        return int(number) * SECONDS[unit]


def words_of(line):
    """The words of a command, as systemd takes them from a setting."""
    words, at, is_open = [], 0, False
    while at < len(line):
        part = PART.match(line, at)
        if part["blank"]:
            is_open = False
        else:
            text = part["plain"] or part["quoted"] or ""
            if not is_open:
                words.append("")
            words[-1] += re.sub(r"\\(.)", lambda it: {"n": "\n", "\\": "\\"}[it[1]], text)
            is_open = True
        at = part.end()
    return words


class Service:
    """A service of a unit, by the name behind `@`. Whatever it writes is in `log`, as in a journal. `prepare` is what its main process does first,
    and `inside` the words before its command that have it run elsewhere, as in a namespace."""

    def __init__(self, unit, name, root, prepare=None, inside=()):
        self.unit, self.name, self.root, self.prepare, self.inside = unit, name, root, prepare, inside
        self.log = os.path.join(root, f"{unit.name}.{name}.log")
        self.process, self.results, self.is_stopped, self.starting = None, [], threading.Event(), threading.Lock()
        self.thread = threading.Thread(target=self.run, daemon=True)

    def start(self):
        self.thread.start()

    def named(self, text):
        """A setting with the name in it."""
        return re.sub("%(.)", lambda it: {"i": self.name, "%": "%"}[it[1]], text)

    def placed(self, text):
        return re.sub("|".join(map(re.escape, PLACES)), lambda it: self.root + it[0], text)

    def environment(self):
        """What the files of a unit have for the environment of its processes."""
        found = {}
        for path in self.unit.settings["EnvironmentFile"]:
            for line in pathlib.Path(self.placed(self.named(path))).read_text(encoding="utf-8").splitlines():
                if line and not line.startswith("#"):
                    key, _, value = line.partition("=")
                    found[key] = value
        return found

    def command(self, line):
        """The words of a command with what their variables stand for."""
        environment, found = self.environment(), []
        for word in words_of(self.named(line)):
            if re.fullmatch(r"\$\w+", word):
                found += environment.get(word[1:], "").split()
            else:
                found.append(re.sub(r"\$\$|\$\{(\w+)\}", lambda it: environment.get(it[1], "") if it[1] else "$", word))
        return [self.placed(word) for word in found]

    def folders(self, key, place):
        return [self.root + os.path.join(place, self.named(path)) for value in self.unit.settings[key] for path in value.split()]

    def do(self, key, log):
        """Runs the commands of a setting, one after another: whether all went well. Those that root is to run whatever comes of them are left out."""
        return all(subprocess.run(self.command(line), stdin=subprocess.DEVNULL, stdout=log, stderr=log, timeout=PATIENCE, check=False).returncode == 0
                   for line in self.unit.settings[key] if not line.startswith("-+"))

    def run(self):
        """Runs it until it is stopped, or ends so that it is not to be started again."""
        while True:
            self.results.append(self.run_once())
            if self.is_stopped.is_set() or not self.begins_again(self.results[-1]):
                return
            if self.is_stopped.wait(self.unit.seconds("RestartSec", "100ms")):
                return

    def is_clean(self, status):
        """Whether systemd takes a result for a clean end. After another one that ends a service it calls it failed."""
        return status in CLEAN or str(status) in self.unit.last("SuccessExitStatus").split()

    def begins_again(self, status):
        if str(status) in self.unit.last("RestartPreventExitStatus").split():
            return False
        return {"always": True, "on-failure": not self.is_clean(status)}[self.unit.last("Restart")]

    def run_once(self):
        """The status of its main process, or the number of the signal that ended it, with a minus; none where there was no such process."""
        runtime = self.folders("RuntimeDirectory", "/run")
        for path in [*runtime, *self.folders("StateDirectory", "/var/lib"), *self.folders("LogsDirectory", "/var/log")]:
            os.makedirs(path, exist_ok=True)
        with open(self.log, "ab") as log:
            status = self.process.wait() if self.do("ExecStartPre", log) and self.begin(log) else None
        # As with systemd whoever read a FIFO of it has seen its end by then, and may have opened that again.
        time.sleep(PAUSE)
        for path in runtime:
            shutil.rmtree(path)
        return status

    def begin(self, log):
        """Starts its main process, unless it was stopped: whether there is one."""
        words, environment = [*self.inside, *self.command(self.unit.last("ExecStart"))], {**os.environ, **self.environment()}
        with self.starting:
            if not self.is_stopped.is_set():
                self.process = subprocess.Popen(words, stdin=subprocess.DEVNULL, stdout=log, stderr=log, start_new_session=True, env=environment,
                                                preexec_fn=self.prepare)
            return not self.is_stopped.is_set()

    def reload(self):
        """Has it read its files again, as `systemctl reload` does: whether its unit says how, and that went well."""
        with open(self.log, "ab") as log:
            return bool(self.unit.settings["ExecReload"]) and self.do("ExecReload", log)

    def stop(self):
        """Stops it, as `systemctl stop` does: its last result, and how many seconds that took."""
        begun, stops = time.monotonic(), self.unit.seconds("TimeoutStopSec", "90s")
        with self.starting:
            self.is_stopped.set()
        if self.is_running():
            with open(self.log, "ab") as log:
                self.do("ExecStop", log)
            self.signal(getattr(signal, self.unit.last("KillSignal", "SIGTERM")))
            self.thread.join(stops)
            self.signal(signal.SIGKILL)
        self.thread.join(PATIENCE)
        return self.results[-1] if self.results else None, time.monotonic() - begun

    def signal(self, number):
        """Sends a signal to all of its processes, if there are any."""
        with contextlib.suppress(ProcessLookupError):
            if self.is_running():
                os.killpg(self.process.pid, number)

    def words(self):
        """The words of its main process."""
        return pathlib.Path(f"/proc/{self.process.pid}/cmdline").read_text(encoding="utf-8").split("\0")[:-1]

    def is_running(self):
        return self.process is not None and self.process.poll() is None

    def is_over(self):
        """Whether it has ended, and is not started again."""
        return not awaited(self.thread.is_alive, lambda runs: not runs, PATIENCE)

    def lines(self):
        """What it wrote, by whole lines."""
        try:
            return pathlib.Path(self.log).read_text(encoding="utf-8").split("\n")[:-1]
        except FileNotFoundError:
            return []

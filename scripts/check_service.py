#!/usr/bin/env python3
"""Installs the program with its systemd units in a temporary folder, has systemd's own tools judge them, and runs two routers as services by the
commands of the units, each as a process of this script (lib/units.py): they find each other over TCP, are killed and hang, and end in order. Their
files are those that docs/RUNNING.md shows, what it starts is started, and what it has `ncroute-ctl` say is answered as it shows. Prints what is
wrong, and at last 'N passed, M failed'. What needs a program that is not there is not run: a line says so, and it counts as skipped.

usage: NCROUTE=PATH scripts/check_service.py     (PATH: the program as it is built)
"""
import os
import pathlib
import re
import resource
import signal
import subprocess
import tempfile
import time
import traceback

from lib import documents
from lib.controls import Control
from lib.counts import Counts, lack_of
from lib.histories import entries_of, open_sessions, replayed, segments_of
from lib.processes import PATIENCE, awaited
from lib.program import TOP, built
from lib.terminals import free_port
from lib.units import PLACES, Service, Unit, words_of

# How much systemd finds a service exposed to, in tenths: 0 is nothing, 100 all. Who changes the kernel's table is exposed to more than the others.
MOST_EXPOSED = {"ncroute@.service": 10, "ncroute-link@.service": 15, "ncroute-kernel@.service": 20}

# Seconds: a link whose sessions are short is opened again after a minute at most, and its neighbour may have to be, too.
UP = 240.0

# What is there when both routers are up, in a domain of four nodes.
ROUTES = {"north": "routes 0:0 1:1:1 2:4 3:4", "east": "routes 0:1:0 1:0 2:4 3:4"}
INSTALLS = "route append 10.1.0.0/16 via 192.0.2.2 dev eth1 src 10.0.0.1 proto 77 metric 201 table 254"
AWAY = "the router has ended: what the kernel has stays until it is back"


# Options of routers that do not go on as the two of the document, and of one that it has within a sentence.
FILES = {
    "refused.conf": "size 4\nnode 0\nhodl 3\n",
    "full.conf": "size 4\nnode 0\nsegments 3 # and not as many as the unit says\ncontrol /run/ncroute/full/in /run/ncroute/full/out\n",
    "east.kernel": "# As it is tried\nOPTIONS=--dry-run --via 0=192.0.2.1%eth1\n",
    "mute.conf": "size 4\nnode 0\ncontrol /run/ncroute/mute/in /run/ncroute/mute/out\n",
}
# Files of earlier starts of one of them, and for how many days nobody wrote there: whether its next start leaves them.
HISTORIES = (("20250101T000000.000Z", 31, False), ("20250201T000000.000Z", 29, True))
# Seconds for which a router is away: whoever waits for it has looked for it meanwhile.
AWAY_FOR = 2.5
# Bytes that a file may have where a disk is full.
MOST_BYTES = 4096


def ran(*words, **more):
    done = subprocess.run(words, capture_output=True, text=True, check=False, stdin=subprocess.DEVNULL, **more)
    return done.returncode, (done.stdout + done.stderr).strip()


def units_in(prefix):
    return sorted(pathlib.Path(prefix, "lib", "systemd", "system").iterdir())


# ---- what is installed, and what systemd says of it


def files_differ(prefix):
    """What is installed is packaging/, with other paths of the program."""
    there, source = pathlib.Path(prefix, "lib"), TOP / "packaging"
    for path in filter(pathlib.Path.is_file, source.rglob("*")):
        wanted = path.read_text(encoding="utf-8").replace("/usr/local/", f"{prefix}/")
        if (to := there / path.relative_to(source)).read_text(encoding="utf-8") != wanted:
            return f"{to} is another file than {path}"
    return None


def is_elsewhere(prefix):
    """What comes into another root, where DESTDIR names one: the same files, with the paths that they have below it."""
    with tempfile.TemporaryDirectory() as root:
        status, said = ran(TOP / "scripts" / "install.sh", "--service", "/usr", env={**os.environ, "DESTDIR": root})
        if status:
            return said
        listed = [sorted(str(path.relative_to(top)) for path in pathlib.Path(top).rglob("*") if path.is_file()) for top in (f"{root}/usr", prefix)]
        if listed[0] != listed[1]:
            return f"{set(listed[0]) ^ set(listed[1])}"
        unit = pathlib.Path(root, "usr/lib/systemd/system/ncroute@.service").read_text(encoding="utf-8")
        return None if "exec /usr/bin/ncroute router" in unit and root not in unit else "a unit has another path of the program"


def made_by(unit):
    """The FIFOs that a unit makes before it starts."""
    found = []
    for line in unit.settings["ExecStartPre"]:
        if folder := re.search(r"cd (\S+) && mkfifo", line):
            found += [f"{folder[1]}/{name}" for names in re.findall(r"mkfifo -m \d+ ([\w. ]+)", line) for name in names.split()]
    return found


def parts_missing(prefix):
    """The user, the folders and the man pages that the units name are made by the other files, and installed."""
    text = pathlib.Path(prefix, "lib/sysusers.d/ncroute.conf").read_text(encoding="utf-8")
    users, groups = (re.findall(rf"(?m)^{kind} (\S+) ", text) for kind in "ug")
    folders = re.findall(r"(?m)^d (\S+) ", pathlib.Path(prefix, "lib/tmpfiles.d/ncroute.conf").read_text(encoding="utf-8"))
    for path in units_in(prefix):
        unit = Unit(path)
        if unit.settings["User"] != users:
            return f"{unit.name}: it runs as {unit.settings['User']}"
        given = [words_of(line) for line in unit.settings["ExecStartPre"] if "chgrp" in line]
        if any(words[2] not in groups or not all(map(made_by(unit).count, words[3:])) for words in given):
            return f"{unit.name}: {given} are not of {groups}, or not FIFOs of its own"
        named = [*unit.settings["EnvironmentFile"], *(f"/run/{it}" for it in unit.settings["RuntimeDirectory"])]
        if not named or any(os.path.dirname(it) not in folders for it in named):
            return f"{unit.name}: {named} are not all in a folder of {folders}"
        for page, section in re.findall(r"man:(ncroute[\w-]*)\((\d)\)", unit.last("Documentation")):
            if not pathlib.Path(prefix, f"share/man/man{section}/{page}.{section}").exists():
                return f"{unit.name}: there is no page {page}({section})"
    return None


def units_refused(prefix):
    for path in units_in(prefix):
        if (found := ran("systemd-analyze", "verify", "--man=no", path)) != (0, ""):
            return f"{path.name}: {found}"
    return None


def units_exposed(prefix):
    for path in units_in(prefix):
        status, said = ran("systemd-analyze", "security", "--offline=yes", f"--threshold={MOST_EXPOSED[path.name]}", path)
        if status:
            return f"{path.name}: {said}"
    return None


def user_missing(prefix):
    with tempfile.TemporaryDirectory() as root:
        os.mkdir(f"{root}/etc")
        found = ran("systemd-sysusers", f"--root={root}", f"{prefix}/lib/sysusers.d/ncroute.conf")
        lines = "".join(pathlib.Path(root, "etc", name).read_text(encoding="utf-8") for name in ("passwd", "group")) if found[0] == 0 else ""
        wanted = r"ncroute:x:\d+:\d+:[^:]*:/var/lib/ncroute:\S*/nologin\n((ncroute|ncroute-look):x:\d+:\n){2}"
        return None if re.fullmatch(wanted, lines) else f"{found}: {lines!r}"


def folders_missing(prefix):
    with tempfile.TemporaryDirectory() as root:
        for name in ("etc", "run"):
            os.mkdir(f"{root}/{name}")
        users = ran("systemd-sysusers", f"--root={root}", f"{prefix}/lib/sysusers.d/ncroute.conf")
        lines = pathlib.Path(prefix, "lib/tmpfiles.d/ncroute.conf").read_text(encoding="utf-8")
        # Who is not root gives no folder to a group.
        pathlib.Path(root, "lines.conf").write_text(lines.replace(" root ncroute ", " - - ") if os.geteuid() else lines, encoding="utf-8")
        found = ran("systemd-tmpfiles", "--create", f"--root={root}", f"{root}/lines.conf")
        modes = [oct(os.stat(f"{root}{path}").st_mode) for path in ("/run/ncroute", "/etc/ncroute") if os.path.isdir(root + path)]
        return None if (found, modes) == ((0, ""), ["0o40751", "0o40750"]) else f"{users}, {found}: {modes}"


CHECKS = (
    ("the files", None, files_differ),
    ("another root", None, is_elsewhere),
    ("what the units name", None, parts_missing),
    ("systemd-analyze verify", "systemd-analyze", units_refused),
    ("systemd-analyze security", "systemd-analyze", units_exposed),
    ("systemd-sysusers", "systemd-sysusers", user_missing),
    ("systemd-tmpfiles", "systemd-tmpfiles", folders_missing),
)


# ---- two routers by the commands of the units


class Guide:
    """What docs/RUNNING.md shows of two machines: their files, and the commands that are typed on each with what they print."""

    def __init__(self):
        text = documents.read("docs/RUNNING.md")
        self.files, self.commands, shown = documents.shown_files(text), [], None
        for line in text.split("\n"):
            if found := re.fullmatch(r" {4}(north|east)# (.*)", line):
                shown = []
                self.commands.append((*found.groups(), shown))
            elif line.startswith("    ") and shown is not None:
                shown.append(line[4:])
            else:
                shown = None

    def starts(self):
        """The services that are started, by their unit and the name behind `@`."""
        return [tuple(word.split("@")) for _, command, _ in self.commands if "systemctl enable --now" in command
                for word in command.rpartition("--now ")[2].split()]

    def runs(self, program):
        """The commands that begin with a program, and what they print, in order."""
        return [(name, command.partition(" && ")[0], shown) for name, command, shown in self.commands if command.startswith(f"{program} ")]

    def steps(self):
        """What is typed while the routers run, in order: what asks a router, changes a file or has a service reload, and what it prints."""
        parts = [(name, part, shown) for name, command, shown in self.commands for part in command.split(" && ")
                 if re.match(r"sed |ncroute-ctl |systemctl reload ", part)]
        return [(name, part, shown if part.startswith("ncroute-ctl") else []) for name, part, shown in parts]


class Lab:
    """The routers `north` and `east`, the line between them, and who installs the routes of `north`: services below a folder."""

    def __init__(self, program, prefix, folder, counts):
        self.program, self.prefix, self.folder, self.counts, self.services = program, prefix, folder, counts, {}
        self.units = {path.name.partition("@")[0]: Unit(path) for path in units_in(prefix)}
        for place in PLACES:
            os.makedirs(folder + place)
        self.guide, self.port = Guide(), free_port()
        for name, text in {**self.guide.files, **FILES}.items():
            pathlib.Path(f"{folder}/etc/ncroute/{name}").write_text(self.placed(text), encoding="utf-8")

    def placed(self, text):
        """A text of the guide, with the folders, the address and the port that are taken here. Nothing is done to the kernel."""
        for place in PLACES:
            text = text.replace(place, self.folder + place)
        text = re.sub(r"192\.0\.2\.\d(?=[:,])|(?<=bind=)192\.0\.2\.\d|(?<=range=)192\.0\.2\.\d", "127.0.0.1", text)
        return text.replace(":17900", f":{self.port}").replace("/usr/local/", f"{self.prefix}/").replace("--close", "--dry-run")

    def judge(self, what, holds, told=""):
        self.counts.expect(f"services: {what}", holds, told)

    def start(self, unit, name, prepare=None):
        service = self.services[unit, name] = Service(self.units[unit], name, self.folder, prepare)
        service.start()
        return service

    def types(self, command):
        """What a command of the document prints here, and its status."""
        environment = {**os.environ, "PATH": f"{self.prefix}/bin{os.pathsep}{os.environ['PATH']}", "LC_ALL": "C"}
        status, said = ran("bash", "-o", "pipefail", "-c", self.placed(command), cwd=f"{self.folder}/etc/ncroute", env=environment)
        return status, said.splitlines()

    def looks_as_shown(self, what, command, shown):
        """Whether a command prints what the document shows, if it shows something; one that is given while its router begins is given again. A status
        has other numbers each time, and tells of the end of a link's last session if there was one."""
        def is_right(found):
            status, lines = found
            if command.endswith(" status"):
                fronts = [re.escape(line.partition(" ended ")[0].partition(" (")[0]) for line in shown]
                wanted = [re.sub(r"\d+", r"\\d+", front) + r"( \(.*\)| ended .*)?" for front in fronts]
                return status == 0 and len(lines) == len(wanted) > 0 and all(map(re.fullmatch, wanted, lines))
            return status == 0 and (not shown or lines == shown)
        found = awaited(lambda: self.types(command), is_right, UP, 0.2)
        self.judge(f"{what}: {command}", is_right(found), found)

    def operate(self, name, *lines):
        """What the router of a service answers to an operator at the FIFOs of its unit, once they are there."""
        folder = f"{self.folder}/run/ncroute/{name}"
        if not awaited(lambda: os.path.exists(f"{folder}/out"), bool, PATIENCE):
            raise TimeoutError(f"{folder}/out is not there")
        return Control(folder, "", is_made=True).asked(*lines)

    def say(self, name, text):
        """Writes to the FIFO of a router's commands, as its operators do, once it is there."""
        path = f"{self.folder}/run/ncroute/{name}/control"
        if not awaited(lambda: os.path.exists(path), bool, PATIENCE):
            raise TimeoutError(f"{path} is not there")
        with open(os.open(path, os.O_RDWR), "wb") as fifo:
            fifo.write(text.encode())

    def answer(self, name, command):
        """The newest answer of a router to a command that makes no entry. One that is given while it begins may be lost."""
        service = self.services["ncroute", name]
        before = len(service.lines())
        self.say(name, command + "\n")
        found = awaited(lambda: [line for line in service.lines()[before:] if line.startswith(command)], bool, 1.0)
        return found[-1] if found else None

    def answers(self, what, name, command, is_right):
        found = awaited(lambda: self.answer(name, command), lambda it: it is not None and is_right(it), UP, 0.1)
        self.judge(what, found is not None and is_right(found), f"{found}: {self.services['ncroute', name].lines()}")

    def are_up(self, what):
        for name, routes in ROUTES.items():
            self.answers(f"{what}: routes of {name}", name, "routes", lambda it, wanted=routes: it == wanted)

    def histories(self, name):
        return sorted(pathlib.Path(f"{self.folder}/var/lib/ncroute/{name}").iterdir())

    def ended_in_order(self, what, name, result):
        """A router that was stopped: its status, and that the session which was open is closed by the last entry of its history."""
        status, seconds = result
        segments = segments_of(self.histories(name)[-1])
        entries = [line.decode() for segment in segments for line in entries_of(segment.read_bytes())]
        is_closed = re.match(r"\d+ down \d+ done ", entries[-1]) and not open_sessions(entries)
        self.judge(f"{what}: {name} ends", status == 0 and is_closed, f"{status} after {seconds:.1f} s: {entries[-3:]}")
        said, _ = replayed(self.program, segments)
        self.judge(f"{what}: history of {name}", said.startswith("replay ok "), said)
        path = f"{self.folder}/run/ncroute/{name}"
        self.judge(f"{what}: FIFOs of {name}", not os.path.exists(path), f"{path} is still there")

    def begun(self):
        """In any order: here the routers come before their lines."""
        for _, command, shown in self.guide.runs("ncroute router"):
            self.looks_as_shown("begun", command, shown)
        for unit, name in sorted(self.guide.starts()):
            self.start(unit, name)
        self.judge("what is started", len(self.services) == 6, sorted(self.services))
        self.are_up("begun")
        words = self.services["ncroute", "north"].words()
        self.judge("segments as the unit says", words[words.index("--segments") + 1:][:1] == ["10"] if "--segments" in words else False, words)
        self.installs("begun", 0)
        answers = Control(f"{self.folder}/run/ncroute/north", "look", is_made=True).asked("routes", "import 1 near")
        self.judge("who may look", answers == [ROUTES["north"], "refused O11 2"], answers)
        log = pathlib.Path(f"{self.folder}/var/log/ncroute/north.log").read_text(encoding="utf-8")
        self.judge("log", re.fullmatch(r"(\S+Z .*\n)*\S+Z link 1: up in session 1\n(\S+Z .*\n)*", log), log)

    def installs(self, what, ends):
        """Who installs the routes of `north` has said so of each of its router's ends, and installs what it says since the last one."""
        installer = self.services["ncroute-kernel", "north"]

        def parts():
            """What it says up to its router's first end, from there to the second, and so on; how often it says that a FIFO is not there."""
            text = "\n".join(installer.lines())
            return text.split(AWAY), text.count("No such file")
        found = awaited(parts, lambda it: INSTALLS in it[0][-1] and len(it[0]) == ends + 1, PATIENCE)
        self.judge(f"{what}: routes are installed", INSTALLS in found[0][-1] and len(found[0]) == ends + 1 and found[1] <= 1, installer.lines())

    def lines_end(self):
        """A line that is killed: its terminal's name goes, and it is started again."""
        line, tty = self.services["ncroute-link", "east"], f"{self.folder}/run/ncroute/link-east/tty"
        before = os.readlink(tty)
        line.signal(signal.SIGKILL)
        awaited(lambda: line.results, bool, PATIENCE, 0.001)
        self.judge("a line is killed", not os.path.lexists(tty) or os.readlink(tty) != before or line.is_running(), f"{tty} is still there")
        self.answers("a line is started again", "north", "neighbours", lambda it: re.fullmatch(r"neighbours 1:([2-9]|\d\d+)", it))
        self.are_up("a line is started again")

    def routers_end(self):
        """A router that is killed is started again, with another history; one that an operator ends is not."""
        self.services["ncroute", "north"].signal(signal.SIGKILL)
        self.judge("a router is started again", len(awaited(lambda: self.histories("north"), lambda it: len(it) == 2, PATIENCE)) == 2)
        self.are_up("a router is started again")
        self.judge("a router was killed", self.services["ncroute", "north"].results == [-signal.SIGKILL], self.services["ncroute", "north"].results)
        self.installs("a router is started again", 1)
        self.ends_asked_for()
        refused = self.start("ncroute", "refused")
        self.judge("refused options", refused.is_over() and refused.results == [2], f"{refused.results}: {refused.lines()}")
        self.judge("refused options are told", "refused.conf:3:1: no option has this name" in "\n".join(refused.lines()), refused.lines())

    def ends_asked_for(self):
        """One whose disk is full and one whose standard output is: each has a status of its own when an operator ends it, and stays down."""
        def fill():
            signal.signal(signal.SIGXFSZ, signal.SIG_IGN)
            resource.setrlimit(resource.RLIMIT_FSIZE, (MOST_BYTES, MOST_BYTES))

        def mute():
            os.dup2(os.open("/dev/full", os.O_WRONLY), 1)
        before = f"{self.folder}/var/lib/ncroute/full"
        for start, days, _ in HISTORIES:
            path = pathlib.Path(before, start, "00000000000000000000.history")
            path.parent.mkdir(parents=True)
            path.touch()
            os.utime(path, (then := time.time() - days * 86400, then))
        full, mute = self.start("ncroute", "full", fill), self.start("ncroute", "mute", mute)
        answers = self.operate("full", "neighbours")
        self.judge("segments as the file says", "--segments" not in full.words(), full.words())
        left = [(start, days, os.path.exists(f"{before}/{start}")) for start, days, _ in HISTORIES]
        self.judge("histories of long ago", answers == ["neighbours"] and tuple(left) == HISTORIES, (answers, left))
        answers = self.operate("full", *["show 0"] * MOST_BYTES, "quit")
        self.judge("a full disk", answers[-1] == "ok" and full.is_over() and full.results == [4], (answers[-1], full.results))
        self.judge("a full disk is told", "its end is not saved" in "\n".join(full.lines()), full.lines())
        self.operate("mute", "neighbours")
        self.say("mute", "neighbours\n")
        told = awaited(mute.lines, lambda it: any("operator: E2" in line for line in it), PATIENCE)
        answers = self.operate("mute", "quit")
        self.judge("no standard output", answers == ["ok"] and mute.is_over() and mute.results == [3], (answers, mute.results, told))

    def stopped(self):
        """Each router is stopped: one whose operator has left half a line, and one that hangs. One that has ended is stopped at once."""
        self.say("north", "rout")
        north = self.services["ncroute", "north"]
        self.ended_in_order("stopped", "north", north.stop())
        self.judge("is stopped once", len(north.results) == 2, north.results)
        time.sleep(AWAY_FOR)
        north = self.start("ncroute", "north")
        self.are_up("started anew")
        self.installs("started anew", 2)
        self.ended_in_order("restarted", "north", north.stop())
        north = self.start("ncroute", "north")
        self.are_up("restarted")
        self.installs("restarted", 3)
        self.services["ncroute", "east"].signal(signal.SIGSTOP)
        self.ended_in_order("hangs", "east", self.services["ncroute", "east"].stop())
        self.say("north", "quit\n")
        self.judge("quit", north.is_over() and north.results == [0], north.results)
        self.judge("is stopped when it has ended", north.stop()[1] < PATIENCE)
        for unit in ("ncroute-link", "ncroute-kernel"):
            service = self.services[unit, "north"]
            service.stop()
            self.judge(f"{unit} is stopped", service.is_over() and not service.is_running(), service.results)
            self.judge(f"{unit} has not failed", service.is_clean(service.results[-1]), service.results)
        self.judge("ncroute-kernel ends", service.results == [0], service.results)

    def operated(self):
        """What an operator types is answered as the document shows. A filter that is changed in its file comes into force, and no session ends. A
        file that is refused changes nothing, and the journal says why."""
        near, sessions = pathlib.Path(f"{self.folder}/etc/ncroute/near.filter"), self.answer("north", "neighbours")
        before, steps, reloads = near.read_text(encoding="utf-8"), self.guide.steps(), []
        for name, command, shown in steps:
            if command.startswith("systemctl"):
                reloads.append(command)
                self.judge(f"{name}: {command}", self.services["ncroute", name].reload(), self.services["ncroute", name].lines()[-3:])
            else:
                self.looks_as_shown(name, command, shown)
        self.judge("what is typed", len(steps) > 6 and sum(bool(shown) for _, _, shown in steps) > 4, steps)
        self.judge("what is reloaded", reloads == [f"systemctl reload ncroute@{name}" for name in ROUTES], reloads)
        # Here both machines have the same file.
        after, north = near.read_text(encoding="utf-8"), self.services["ncroute", "north"]
        self.judge("a file is changed", after != before, before)
        near.write_text(after.replace("accept", "acept"), encoding="utf-8")
        told = "near.filter:3:3: `acept` is no command"
        self.judge("a wrong file is not reloaded", not north.reload() and told in "\n".join(north.lines()), north.lines()[-3:])
        near.write_text(after, encoding="utf-8")
        self.judge("the files are reloaded", north.reload(), north.lines()[-3:])
        found = self.types("ncroute-ctl -c east.conf reload check")
        self.judge("nothing is left to reload", found == (0, ["reload"]), found)
        self.are_up("reloaded")
        self.judge("a reload ends no session", self.answer("north", "neighbours") == sessions, sessions)

    def run(self):
        self.begun()
        self.operated()
        self.lines_end()
        self.routers_end()
        self.stopped()

    def close(self):
        for service in self.services.values():
            service.signal(signal.SIGCONT)
            service.stop()


def main():
    environment, counts, program = {**os.environ, "NCROUTE": built()}, Counts(), built()
    # Names of terminals and FIFOs in a link are told by the words of an option, which have no blanks.
    with tempfile.TemporaryDirectory(prefix="service.") as folder:
        prefix = f"{folder}/prefix"
        subprocess.run([TOP / "scripts" / "install.sh", "--service", prefix], env=environment, check=True, capture_output=True)
        for name, needed, differs in CHECKS:
            if why := lack_of(*filter(None, [needed])):
                counts.skip(name, why)
            else:
                counts.judge(name, differs(prefix))
        if why := lack_of("ip", "mkfifo", "sh", "socat"):
            counts.skip("services", why)
        else:
            lab = Lab(program, prefix, f"{folder}/root", counts)
            try:
                lab.run()
            except Exception as why:
                traceback.print_exc()
                lab.judge("run", False, str(why))
            finally:
                lab.close()
    counts.finish()


if __name__ == "__main__":
    main()

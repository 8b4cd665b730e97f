"""How the scripts run `ncroute` and `ncimport`: a shell finds them as commands, the first one whether or not it is built.

With NCROUTE=PATH that program runs, and `ncimport` beside it. Without, there is no `ncimport`, and `rt try --cases` builds the sources of `ncroute`
as they are, unproved and with checks, and runs them on all inputs at once: a command that was not run yet stands for each input that the shell
gave, and the shell runs again with its answers.
"""
import concurrent.futures
import os
import pathlib
import pty
import re
import subprocess
import sys
import tempfile
import termios

from lib.counts import Counts

TOP = pathlib.Path(__file__).resolve().parents[2]
NOT_RUN = 125

# What of the repository the commands read.
READ = ("README.md", "docs", "examples", "tests")

# Where the settings of a terminal have the flags of its output and of its lines.
OUTPUT_MODES, LOCAL_MODES = 1, 3

# The command that stands for the program: it answers what it was told, or leaves its words and input for the next round.
STAND_IN = """#!{python} -S
import hashlib, os, sys
words, given = sys.argv[1:], sys.stdin.buffer.read()
name = hashlib.sha256("\\0".join([*words, ""]).encode() + given).hexdigest()[:16]
answer = os.path.join("{answers}", name)
if not os.path.exists(answer):
    with open(os.path.join("{asked}", name), "wb") as it:
        it.write(given)
    with open(os.path.join("{asked}", name + ".args"), "w") as it:
        it.write("".join(word + "\\n" for word in words))
    sys.exit({not_run})
with open(answer, "rb") as it:
    sys.stdout.buffer.write(it.read())
with open(answer + ".status") as it:
    sys.exit(int(it.read()))
"""


class Program:
    """The commands `ncroute`, `ncimport` and `ncroute-ctl`, in a folder that is the first of the PATH of what `shell` runs."""

    def __init__(self):
        # It goes when the script ends, however that is.
        self.holder = tempfile.TemporaryDirectory()
        folders = [pathlib.Path(self.holder.name, name) for name in ("bin", "asked", "answers", "here")]
        for folder in folders:
            folder.mkdir()
        self.bin, self.asked, self.answers, self.here = folders
        # Some examples make files where they run. In the repository those of a run that was ended would be in the way of the next one.
        for name in READ:
            (self.here / name).symlink_to(TOP / name)
        (self.bin / "ncroute-ctl").symlink_to(TOP / "tools" / "ncroute-ctl")
        command = self.bin / "ncroute"
        if path := named():
            command.symlink_to(path)
            (self.bin / "ncimport").symlink_to(beside(path))
        else:
            command.write_text(STAND_IN.format(python=sys.executable, answers=self.answers, asked=self.asked, not_run=NOT_RUN))
            command.chmod(0o755)

    def close(self):
        self.holder.cleanup()

    def shell(self, line, given=b"", where=None):
        """What a line writes and its status, in a folder that has what is read of the repository, or in another one."""
        words = ["bash", "-o", "pipefail", "-c", line]
        ran = subprocess.run(words, cwd=where or self.here, env=self.environment(), input=given, capture_output=True)
        return ran.stdout, ran.returncode

    def environment(self):
        """The environment in which a shell finds the program. Of a locale that is not there bash would warn on standard error."""
        return {**os.environ, "LC_ALL": "C", "PATH": f"{self.bin}{os.pathsep}{os.environ['PATH']}"}

    def on_terminal(self, line, typed):
        """What a line writes on standard output, and on standard error, which is a terminal. So is standard input where something is typed."""
        terminal, side = pty.openpty()
        settings = termios.tcgetattr(side)
        settings[LOCAL_MODES] &= ~termios.ECHO
        settings[OUTPUT_MODES] &= ~termios.OPOST
        termios.tcsetattr(side, termios.TCSANOW, settings)
        os.write(terminal, typed)
        given = side if typed else subprocess.DEVNULL
        ran = subprocess.Popen(["bash", "-c", line], cwd=self.here, env=self.environment(), stdin=given, stdout=subprocess.PIPE, stderr=side)
        os.close(side)
        output, shown = ran.stdout.read(), b""
        while part := read_terminal(terminal):
            shown += part
        os.close(terminal)
        ran.wait()
        return output, shown

    def runs(self, lines):
        """What `shell` answers to many lines, each with its input."""
        while True:
            with concurrent.futures.ThreadPoolExecutor() as pool:
                said = list(pool.map(lambda it: self.shell(*it), lines))
            if not os.listdir(self.asked):
                return said
            self.answer()

    def answer(self):
        """Runs the program on all that was asked."""
        words = ["rt", "try", "--cases", self.asked]
        tried = subprocess.run(words, cwd=TOP / "crates" / "ncroute", stdin=subprocess.DEVNULL, capture_output=True)
        status = dict(re.findall(r"(?m)^case=(\w+) run=ended status=(\d+)", tried.stderr.decode()))
        parts = re.split(rb"(?m)^== (\w+)\n", tried.stdout)[1:]
        for name, text in zip(parts[::2], parts[1::2]):
            (self.answers / name.decode()).write_bytes(text)
            (self.answers / f"{name.decode()}.status").write_text(status.get(name.decode(), str(NOT_RUN)))
        for path in self.asked.iterdir():
            if path.suffix != ".args" and not (self.answers / path.name).exists():
                sys.exit(f"'rt try' gave no answer:\n{tried.stderr.decode()}")
            path.unlink()


def read_terminal(terminal):
    """What a terminal shows next; nothing where no program has it open any more."""
    try:
        return os.read(terminal, 65536)
    except OSError:
        return b""


def named():
    """The path of the program that NCROUTE names; nothing where it names none."""
    path = os.environ.get("NCROUTE")
    return os.path.realpath(path) if path else None


def beside(path):
    """The path of `ncimport`, beside that of `ncroute`."""
    return os.path.join(os.path.dirname(path), "ncimport")


def built():
    """The path of `ncroute`, for a script that runs nothing else: where NCROUTE names none, the script ends and has not passed."""
    if path := named():
        return path
    print("nothing is run: NCROUTE=PATH names the program")
    counts = Counts()
    counts.failed = 1
    return counts.finish()

"""The checkers that a gate has started, and the modules that each has checked so far.

A checker writes each module that it has checked into a folder of its own among the temporary files, and removes the folder at its end. That rests on
no page of the kit, and on Linux: where it is no longer so, nothing is found.
"""
import os
import re
import tempfile

FOLDER = re.compile(r"rattle-logic-built-locked-(\d+)-\d+")


def words_of(process):
    with open(f"/proc/{process}/cmdline", encoding="utf-8", errors="replace") as f:
        return f.read().split("\0")


def is_gate(process):
    """Whether a process is an `rt ci`."""
    try:
        words = words_of(process)
    except OSError:
        return False
    return any(os.path.basename(it) == "rt" for it in words[:2]) and "ci" in words[1:4]


def gates():
    """The processes that are an `rt ci`."""
    return [it for it in os.listdir("/proc") if it.isdigit() and is_gate(it)]


def crate_of(process):
    """The crate that a checker of a gate proves; None for any other process, for tests and for wrong bodies."""
    try:
        with open(f"/proc/{process}/stat", encoding="utf-8") as f:
            parent = f.read().rsplit(")", 1)[1].split()[1]
        words, folder = words_of(process), os.readlink(f"/proc/{process}/cwd")
    except OSError:
        return None
    if not is_gate(parent) or "--crate-name" not in words or "--test" in words or "--incremental" in words or "rt-edit" in folder:
        return None
    return words[words.index("--crate-name") + 1]


class Checkers:
    """The folders of modules of all checkers that were seen, by the crate that each proves."""

    def __init__(self):
        self.known = {}

    def folders(self):
        """Each folder that is there now: its path and its crate."""
        for name in os.listdir(tempfile.gettempdir()):
            found = FOLDER.fullmatch(name)
            if not found:
                continue
            if name not in self.known:
                self.known[name] = crate_of(found[1])
            if self.known[name]:
                yield f"{tempfile.gettempdir()}/{name}", self.known[name]


def modules(folder):
    """The modules that a checker has written by now: each with its file and the time of it. None once the checker has ended."""
    try:
        found = [it for it in os.scandir(folder) if re.fullmatch(r"Rattle-.*\.oantt", it.name) and not it.is_symlink()]
        return [(it.name, it.path, it.stat().st_mtime) for it in found]
    except OSError:
        return None

"""The rows of `tests/rows/`: what the program reads and what it answers.

A file has rows with empty lines between them. A row is lines that begin with a sign and a blank:

    $ WORDS     the words of the command line behind `ncroute`, as a shell takes them; or a command line that begins with `ncimport`
    < LINE      a line of standard input
    > LINE      a line of standard output
    ! LINE      a line of standard error, which has no other
    = STATUS    the exit status; without this line 0
    - LINE      a line of standard input of a further run of the same words, which the lines below belong to. Without a `=`, it ends with 1 where
                the last line that it writes begins with `refused`, and with 0 otherwise
    ~ WORDS     what is a terminal: `input`, `errors`, or both
    @ NAME      a file; `<` below it are the lines that the row finds there, `>` those that it leaves. It leaves no other files
    % LINE      what a shell does in the row's folder before it runs the program, as `ulimit -f 1`
    # TEXT      a comment

The lines of a sign belong together, whatever stands between them: so each answer may stand below its line of the input. `>...` and `!...` stand
for any lines, or none. Files that stand by themselves, without a `$`, are there for every row below them, and `examples/` is there for all.

In a line `\\t`, `\\r`, `\\n`, `\\xHH` and `\\\\` are bytes, and `\\(N TEXT\\)` is the text so many times. A line that ends with `\\` has no line
feed.
"""
import os
import re
import sys

from lib.program import TOP

FOLDER = TOP / "tests" / "rows"
SPECIAL = re.compile(r"\\(?:x([0-9a-f]{2})|([\\tnr])|\((\d+) (.*?)\\\))")
NAMED = {"\\": b"\\", "t": b"\t", "r": b"\r", "n": b"\n"}
ANY_LINES = rb"(?:[^\n]*\n)*"


def spelled(text):
    """The bytes of a text with its escapes."""
    out, end = b"", 0
    for found in SPECIAL.finditer(text):
        byte, name, times, part = found.groups()
        out += text[end:found.start()].encode()
        out += bytes.fromhex(byte) if byte else NAMED[name] if name else spelled(part) * int(times)
        end = found.end()
    return out + text[end:].encode()


def bytes_of(line):
    """The bytes of a line: those of its text, and a line feed unless it ends with a backslash of its own."""
    is_open = (len(line) - len(line.rstrip("\\"))) % 2 == 1
    return spelled(line[:-1]) if is_open else spelled(line) + b"\n"


class Wanted:
    """The lines that are wanted of a stream or a file."""

    def __init__(self):
        self.parts = [b""]

    def add(self, line):
        self.parts[-1] += line

    def add_any(self):
        self.parts.append(b"")

    def is_met(self, text):
        return text == self.parts[0] if len(self.parts) == 1 else bool(re.fullmatch(ANY_LINES.join(map(re.escape, self.parts)), text))

    def last_line(self):
        """The last line that is wanted."""
        return self.parts[-1].rstrip(b"\n").rpartition(b"\n")[2]

    def __repr__(self):
        return " ... ".join(map(repr, self.parts))


class Row:
    """What the program is run on, and what it must answer."""

    def __init__(self, place, files):
        self.place, self.words, self.files = place, None, dict(files)
        self.given, self.output, self.errors, self.left = b"", Wanted(), Wanted(), {}
        self.status, self.terminals, self.looks_at_errors, self.has_files = None, set(), False, bool(files)
        self.is_further, self.before = False, ":"

    def further(self, place, text):
        """A further run of the same words, on this line."""
        row = Row(place, self.files)
        row.words, row.before, row.is_further = self.words, self.before, True
        row.take("<", text, None)
        return row

    def take(self, sign, text, file):
        """Takes a line of the row, below the line of a file if there is one. Returns the file that the next line is below."""
        if sign == "@":
            self.has_files, file = True, os.fsdecode(spelled(text))
            self.left[file] = Wanted()
            return file
        if sign == "$":
            self.words = text
        elif sign == "<" and file is None:
            self.given += bytes_of(text)
        elif sign == "<":
            # Nothing is said of how such a file is left, unless it is below.
            if self.left.pop(file, None):
                self.files[file] = b""
            self.files[file] += bytes_of(text)
        elif sign in ">!":
            self.wanted(sign, file).add(bytes_of(text))
        elif sign == "=":
            self.status = int(text)
        elif sign == "%":
            self.before, self.has_files = text, True
        else:
            self.terminals = set(text.split())
            if not self.terminals or self.terminals - {"input", "errors"}:
                sys.exit(f"{self.place}: behind `~` stand `input`, `errors`, or both")
        return file

    def wanted(self, sign, file):
        """The lines of which one stands behind a sign, below the line of a file if there is one."""
        if sign == "!":
            self.looks_at_errors = True
            return self.errors
        return self.output if file is None else self.left.setdefault(file, Wanted())

    def command(self):
        """The command line: the words, with the name of the program before them."""
        return self.words if self.is_import() else f"ncroute {self.words}"

    def is_import(self):
        """Whether the program is `ncimport`."""
        return self.words.split(" ")[0] == "ncimport"

    def is_files_alone(self):
        """Whether no line says what a program is given or what it must do."""
        has_more = self.given or self.left or self.looks_at_errors or self.terminals or self.output.parts != [b""]
        return bool(self.files) and not has_more and self.status is None

    def wanted_status(self):
        """The exit status that is wanted."""
        if self.status is None and self.is_further:
            return int(self.output.last_line().startswith(b"refused"))
        return self.status or 0

    def needs_program(self):
        """`rt try` tells no standard error, and has no other streams, no files and no other program."""
        return self.is_import() or self.has_files or self.looks_at_errors or self.terminals or re.search(r"examples|[<>]&|<\(|/dev/full", self.words)


def rows_of(path):
    """The rows of a file."""
    name = os.path.relpath(path, TOP)
    files, row, file = {}, None, None
    with open(path, encoding="utf-8", newline="\n") as it:
        lines = it.read().split("\n") + [""]
    for number, line in enumerate(lines, 1):
        if line.startswith("#"):
            continue
        if not line:
            if row and row.words is None:
                if not row.is_files_alone():
                    sys.exit(f"{row.place}: a row needs a line `$ WORDS`")
                files = row.files
            elif row:
                yield row
            row = file = None
            continue
        row = row or Row(f"{name}:{number}", files)
        if line in (">...", "!..."):
            row.wanted(line[0], file).add_any()
        elif line[0] == "-" and line[1:2] in ("", " ") and row.words:
            if row.is_further:
                yield row
            row, file = row.further(f"{name}:{number}", line[2:]), None
        elif line[0] in "$<>!=~@%" and line[1:2] in ("", " "):
            file = row.take(line[0], line[2:], file)
        else:
            sys.exit(f"{name}:{number}: a line begins with a sign and a blank")

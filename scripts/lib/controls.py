"""Operators of `ncroute router` at FIFOs of their own."""
import contextlib
import os
import select

from lib.processes import PATIENCE


class Control:
    """A pair of FIFOs at which an operator is served. It is made, unless it is another one's."""

    def __init__(self, folder, name, looks=False, is_made=False):
        self.there, self.back = (os.path.join(folder, f"{name}.{end}" if name else end) for end in ("in", "out"))
        self.looks, self.writes, self.reads, self.came = looks, None, None, b""
        if not is_made:
            for path in (self.there, self.back):
                os.mkfifo(path)

    def option(self):
        """The words by which a router serves it."""
        return ["--control", f"{self.there},{self.back}" + (",look" if self.looks else "")]

    def open(self):
        """Opens both files, as the router does: each waits until its other end is opened."""
        self.writes = os.open(self.there, os.O_WRONLY)
        self.reads = os.open(self.back, os.O_RDONLY)
        self.came = b""

    def open_output(self):
        """Opens what the router reads alone."""
        self.writes = os.open(self.there, os.O_WRONLY)

    def say(self, text):
        while text:
            text = text[os.write(self.writes, text):]

    def hear(self):
        """The next line; nothing where the router has closed its end."""
        while b"\n" not in self.came:
            if not select.select([self.reads], [], [], PATIENCE)[0]:
                raise TimeoutError("nothing is answered")
            more = os.read(self.reads, 1 << 16)
            if not more:
                return ""
            self.came += more
        line, _, self.came = self.came.partition(b"\n")
        return line.decode()

    def ask(self, line):
        self.say(line.encode() + b"\n")
        return self.hear()

    def finish(self):
        """Ends what is said, and reads on until the router has closed both files."""
        os.close(self.writes)
        self.writes = None
        while self.hear():
            pass
        self.close()

    def close(self):
        """Lets go of both files, whatever the router has to say still."""
        for name in ("writes", "reads"):
            if getattr(self, name) is not None:
                with contextlib.suppress(OSError):
                    os.close(getattr(self, name))
                setattr(self, name, None)

    def clear(self):
        """Takes what lies in both FIFOs. It may lie there though all who had them open are gone: a process that this script just forks has them open
        until it is another program."""
        for path in (self.there, self.back):
            file = os.open(path, os.O_RDONLY | os.O_NONBLOCK)
            with contextlib.suppress(BlockingIOError):
                while os.read(file, 1 << 16):
                    pass
            os.close(file)

    def __enter__(self):
        self.open()
        return self

    def __exit__(self, kind, *_):
        if kind is None:
            self.finish()
        self.close()

    def asked(self, *lines):
        """What is answered to lines, in an opening of their own."""
        with self:
            return [self.ask(line) for line in lines]

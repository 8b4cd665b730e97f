"""Lines between two routers: FIFOs, or a relay between two ends that outlive the routers, which keeps what nobody reads, or drops it."""
import collections
import contextlib
import os
import select
import termios
import threading
import time
import tty


def fifos(folder, *names):
    """Makes FIFOs in a folder: their paths."""
    paths = [os.path.join(folder, name) for name in names]
    for path in paths:
        os.mkfifo(path)
    return paths


def has_open(process, path):
    """Whether a process has a file open."""
    real = os.path.realpath(path)
    with contextlib.suppress(OSError):
        for handle in os.listdir(f"/proc/{process}/fd"):
            with contextlib.suppress(OSError):
                if os.readlink(f"/proc/{process}/fd/{handle}") == real:
                    return True
    return False


class Unread:
    """A pipe that is not read until it is asked what it took, and can be filled, so that it takes nothing more."""

    def __init__(self):
        self.reads, self.writes = os.pipe()
        os.set_blocking(self.reads, False)
        # It is filled by a file of its own: others who write there have to wait.
        self.fills = os.open(f"/proc/self/fd/{self.writes}", os.O_WRONLY | os.O_NONBLOCK)
        self.took = b""

    def fill(self):
        with contextlib.suppress(BlockingIOError):
            while True:
                os.write(self.fills, b"~" * 4096)
        with contextlib.suppress(BlockingIOError):
            while True:
                os.write(self.fills, b"~")

    def text(self):
        """What was written there, but for what it was filled with."""
        with contextlib.suppress(BlockingIOError):
            while came := os.read(self.reads, 65536):
                self.took += came.replace(b"~", b"")
        return self.took.decode()

    def close(self):
        for handle in (self.reads, self.writes, self.fills):
            os.close(handle)


class Pipes:
    """An end of a relay: two FIFOs, which stay open here, so that no router sees an end of its stream."""

    def __init__(self, folder, name):
        there, back = fifos(folder, f"{name}.in", f"{name}.out")
        self.files = (there, back)
        self.writes, self.reads = (os.open(path, os.O_RDWR | os.O_NONBLOCK) for path in self.files)

    def flush(self):
        """Drops what lies there for the router."""
        with contextlib.suppress(BlockingIOError):
            while os.read(self.writes, 65536):
                pass

    def close(self):
        os.close(self.writes)
        os.close(self.reads)


class Terminal:
    """An end of a relay: a pseudo-terminal, whose both sides stay open here."""

    def __init__(self, _folder, _name):
        self.reads, self.side = os.openpty()
        self.writes = self.reads
        tty.setraw(self.side)
        os.set_blocking(self.reads, False)
        self.files = (os.ttyname(self.side),) * 2

    def flush(self):
        """Drops what lies there for the router, as a line does whose last user closes it."""
        termios.tcflush(self.side, termios.TCIFLUSH)

    def close(self):
        os.close(self.reads)
        os.close(self.side)


class Relay:
    """Hands on what comes from one end to the other, after a while, as long as it runs; but for what arrives while nobody listens there."""

    def __init__(self, near, far, listens, delay):
        self.near, self.far, self.listens, self.delay = near, far, listens, delay
        self.is_cut = self.is_over = self.is_kept = False
        # What is on its way, and when each part arrives.
        self.coming = collections.deque()
        self.thread = threading.Thread(target=self.run, daemon=True)
        self.thread.start()

    def run(self):
        asked = select.poll()
        asked.register(self.near.reads, select.POLLIN)
        while not self.is_over:
            if asked.poll(5 if self.coming else 50):
                with contextlib.suppress(BlockingIOError):
                    self.coming.append((time.monotonic() + self.delay, os.read(self.near.reads, 65536)))
            while self.coming and not self.is_kept and self.coming[0][0] <= time.monotonic():
                self.hand_on(self.coming.popleft()[1])

    def hand_on(self, text):
        while text and not self.is_over and not self.is_cut and self.listens():
            try:
                text = text[os.write(self.far.writes, text):]
            except BlockingIOError:
                time.sleep(0.01)

    def close(self):
        self.is_over = True
        self.thread.join()


class Straight:
    """Two FIFOs: each router sees the end of its stream when the other one ends."""

    def __init__(self, folder):
        there, back = fifos(folder, "there", "back")
        self.files, self.relays = ((back, there), (there, back)), ()

    def close(self):
        """Nothing of it is open here."""


class Relayed:
    """Two ends, `Pipes` or `Terminal`, with a relay in each direction, which takes so many seconds. It is told by number which routers listen."""

    def __init__(self, folder, kind, listens, delay):
        self.ends = [kind(folder, name) for name in ("0", "1")]
        self.files = [end.files for end in self.ends]
        ways = ((0, 1), (1, 0))
        self.relays = [Relay(self.ends[near], self.ends[far], lambda far=far: listens(far), delay) for near, far in ways]

    def keep(self, is_kept):
        """Keeps what comes, and hands it over later."""
        for relay in self.relays:
            relay.is_kept = is_kept

    def cut(self, is_cut):
        for relay in self.relays:
            relay.is_cut = is_cut

    def close(self):
        for relay in self.relays:
            relay.close()
        for end in self.ends:
            end.close()

"""Neighbours that never rest, and the operator of a router that they talk to: for scripts that let a router run for long."""
import math
import os
import threading
import time

from lib.processes import awaited

# The filter that an operator puts in force, and the one that it is replaced by, over and over.
FILTERS = ("filter far { rip_metric = rip_metric + 1; accept; }", "filter far { accept; }")
# Distances to five nodes, each of which is told 200 times before it changes. What changes is queued for the neighbours, and one that is told of a
# million changes a second cannot read them all: its queue would grow, which is another matter.
BLOCK = "".join(f"{node} {distance}\n" for distance in (2, 3, 4, 5) for _ in range(200) for node in (3, 4, 5, 6, 7)).encode() * 2


class Flood(threading.Thread):
    """A neighbour that says all it can until it is told to stop, and then what its distances are at last. With a pause between any two blocks
    it says less."""

    def __init__(self, neighbour, block=BLOCK, pause=0.0):
        super().__init__(daemon=True)
        self.neighbour, self.block, self.pause, self.is_over, self.lines = neighbour, block, pause, False, 0

    def run(self):
        try:
            while not self.is_over:
                self.neighbour.say(self.block)
                self.lines += self.block.count(b"\n")
                time.sleep(self.pause)
            self.neighbour.say(b"7 1\n")
        except OSError:
            # The router ended meanwhile: nobody reads the link any more.
            pass


class Drain(threading.Thread):
    """Reads what a neighbour is told, and drops it."""

    def __init__(self, neighbour):
        super().__init__(daemon=True)
        self.reads = neighbour.reads
        os.set_blocking(self.reads, True)

    def run(self):
        try:
            while os.read(self.reads, 1 << 16):
                pass
        except OSError:
            # Whoever started it has closed the file.
            pass


class Churn(threading.Thread):
    """A neighbour of a router that comes and goes."""

    def __init__(self, run, node, size, stays=0.5):
        super().__init__(daemon=True)
        self.router, self.neighbour, self.size, self.stays, self.is_over, self.times = run, run.neighbours[node], size, stays, False, 0

    def comes(self):
        """Waits until the router opens the link, which it does later each time, and greets: whether it came."""
        awaited(lambda: self.is_over or self.neighbour.is_opened(), bool, math.inf, 0.001)
        if not self.is_over:
            self.neighbour.meet(self.size)
        return not self.is_over

    def goes(self):
        self.neighbour.close()
        self.times += 1
        awaited(lambda: self.is_over or self.router.has_let_go(self.neighbour.node), bool, math.inf)

    def run(self):
        try:
            while self.comes():
                self.neighbour.say(b"2 0\n")
                time.sleep(self.stays)
                self.goes()
        except OSError:
            # The router ended meanwhile, and nobody reads the link any more.
            pass


def end_all(threads):
    """Ends them, once their router has ended."""
    for thread in threads:
        thread.is_over = True
    for thread in threads:
        thread.join()


def end_of(run, known):
    """How many entries the history has at least, where it had so many before. To ask makes no entry."""
    step, low = 1, known - 1
    while not (answer := run.ask(f"history {low + step}")) == "history":
        if not answer.startswith(("history ", "refused O10")):
            raise ValueError(f"`history {low + step}` is answered {answer!r}")
        low, step = low + step, 2 * step
    high = low + step
    while high - low > 1:
        middle = (low + high) // 2
        low, high = (low, middle) if run.ask(f"history {middle}") == "history" else (middle, high)
    return high

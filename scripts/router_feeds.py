"""What `ncroute router` tells of its routes, by `--routes`, to whoever reads them; `check_router.py` runs these rows."""
import contextlib
import os
import pathlib
import re
import tempfile
import time

from lib.lines import has_open
from lib.processes import awaited
from lib.routers import PATIENCE, Run, RunRows

# The largest domain: all its routes are more than 8 kilobytes of lines.
NODES = 250

# Seconds: a router tells nothing for so long at least where nothing changes, and for so long at most; no answer takes longer, whoever reads slowly.
REST, SILENCE, PROMPT = 1.0, 2.0, 1.0

# How often all distances change while a reader reads nothing.
CHANGES = 40

# A feed: blocks, and a part of another one.
BLOCK = re.compile(rb"begin (\d+)( whole)?\n((?:route [\d./]+ via \d+ metric \d+\n|unreachable [\d./]+\n)*)end \1\n")


class Feed:
    """Reads the routes that a router tells."""

    def __init__(self, path):
        self.path, self.text, self.reads = path, b"", None

    def open(self):
        """Opens the FIFO, which the router waits for, or comes to."""
        self.text, self.reads = b"", os.open(self.path, os.O_RDONLY | os.O_NONBLOCK)

    def close(self):
        if self.reads is not None:
            os.close(self.reads)
            self.reads = None

    def take(self):
        """Reads what is there."""
        with contextlib.suppress(BlockingIOError):
            while came := os.read(self.reads, 1 << 16):
                self.text += came

    def blocks(self):
        """Of each block its position, whether it is the whole table, and where packets for each of its prefixes go."""
        found = []
        for at, whole, lines in BLOCK.findall(self.text):
            words = [line.split() for line in lines.decode().splitlines()]
            found.append((int(at), bool(whole), {word[1]: (int(word[3]), int(word[5])) if word[0] == "route" else None for word in words}))
        return found

    def is_sound(self):
        """Whether there are blocks alone, and a part of one at most: the first is whole and no other is, and positions do not fall."""
        blocks, rest = self.blocks(), BLOCK.sub(b"", self.text)
        positions = [at for at, _, _ in blocks]
        return rest.count(b"begin") <= 1 and b"end" not in rest and [b[1] for b in blocks] == [at == 0 for at in range(len(blocks))] \
            and positions == sorted(positions)

    def table(self):
        """What is gathered from the blocks: where packets for each prefix go."""
        found = {}
        for _, whole, changes in self.blocks():
            found = {net: hop for net, hop in {**({} if whole else found), **changes}.items() if hop}
        return found

    def last(self):
        """What the last block told that told anything."""
        return next((changes for _, _, changes in reversed(self.blocks()) if changes), None)

    def until(self, is_enough, patience=PATIENCE):
        """Reads until what was told is enough: whether it is."""
        return awaited(lambda: (self.take(), is_enough())[1], bool, patience)

    def gathers(self, wanted, patience=PATIENCE):
        """Reads until this table is told: whether it is."""
        return self.until(lambda: self.blocks() and self.table() == wanted, patience)


class Kept(Feed):
    """Reads the file that a router tells its routes to, from its beginning each time."""

    def open(self):
        """Nothing waits for it."""

    def take(self):
        self.text = pathlib.Path(self.path).read_bytes()


def net(node):
    return f"10.{node}.0.0/16"


class FeedRows(RunRows):
    """Rows of the feed of routes."""

    WAITING = ("feed_first_rest", "feed_silence", "feed_reader_again", "feed_no_file", "feed_to_a_file")

    TIMED = ("feed_slow_reader",)

    @contextlib.contextmanager
    def feeding(self, more=(), make=os.mkfifo, kind=Feed, config=None, **options):
        """A router that tells its routes, and who is to read them. A file of options of this text is beside the file that they are told to."""
        with tempfile.TemporaryDirectory(prefix="feed.") as folder, contextlib.ExitStack() as stack:
            feed = kind(os.path.join(folder, "routes"))
            make(feed.path)
            stack.callback(feed.close)
            words = ("--routes", feed.path)
            if config is not None:
                words = ("--config", os.path.join(folder, "router.conf"))
                pathlib.Path(words[1]).write_text(config)
            yield stack.enter_context(Run(self.program, more=(*words, *more), **options)), feed

    def come_both(self, run, size=8):
        """Both neighbours come, and say that they are there: the table that is to be told."""
        for node, neighbour in run.neighbours.items():
            neighbour.come(size)
            neighbour.say(b"%d 0\n" % node)
        return {net(node): (node, 1) for node in run.neighbours}

    def begin(self, run, feed, size=8):
        """Both come, and the whole table is told: that."""
        feed.open()
        table = self.come_both(run, size)
        self.judge("the whole table", feed.gathers(table), feed.text[-300:])
        return table

    def tells(self, feed, table, told):
        """The table becomes this one, by a block that tells this alone."""
        table = {to: hop for to, hop in {**table, **told}.items() if hop}
        self.judge("tells", feed.gathers(table) and feed.last() == told, feed.text[-300:])
        return table

    def row_feed_tells(self):
        """What changes is told, and nothing else."""
        with self.feeding() as (run, feed):
            table = self.begin(run, feed)
            one = run.neighbours[1]
            for text, told in ((b"3 1\n", {net(3): (1, 2)}), (b"3 4\n", {net(3): (1, 5)}), (b"3 8\n", {net(3): None})):
                one.say(text)
                table = self.tells(feed, table, told)
            self.judge("sound", feed.is_sound(), feed.text[-300:])
            self.judge("positions", feed.blocks()[-1][0] <= len(run.entries()), feed.text[-100:])
            one.close()
            self.tells(feed, table, {net(1): None})
            self.end(run)

    def row_feed_first_rest(self):
        """A router that is started anew tells nothing before each of its links has come up: nobody takes away what is right. Then the whole table."""
        with self.feeding(more=("--retry", "1", "--settle", "60")) as (run, feed):
            feed.open()
            one, two = run.neighbours[1], run.neighbours[2]
            one.come()
            one.say(b"1 0\n")
            time.sleep(2)
            feed.take()
            self.judge("nothing is told", feed.text == b"", feed.text[-300:])
            two.come()
            two.say(b"2 0\n5 1\n")
            wanted = {net(1): (1, 1), net(2): (2, 1), net(5): (2, 2)}
            self.judge("the whole table", feed.gathers(wanted), feed.text[-300:])
            self.judge("in one block", feed.blocks()[0][1:] == (True, wanted), feed.text[-300:])

    def row_feed_settles(self):
        """A neighbour that stays away is not waited for longer than that."""
        begun = time.monotonic()
        with self.feeding(more=("--retry", "1", "--settle", "2")) as (run, feed):
            feed.open()
            run.neighbours[1].come()
            run.neighbours[1].say(b"1 0\n")
            self.judge("the whole table", feed.gathers({net(1): (1, 1)}), feed.text[-300:])
            self.judge("not before", time.monotonic() - begun >= 2)

    def row_feed_of_a_file_of_options(self):
        """A file of options says where the routes are told, beside it, and when."""
        begun = time.monotonic()
        with self.feeding(config="retry 1\nroutes routes\nsettle 2\n") as (run, feed):
            feed.open()
            run.neighbours[1].come()
            run.neighbours[1].say(b"1 0\n")
            self.judge("the whole table", feed.gathers({net(1): (1, 1)}), feed.text[-300:])
            self.judge("not before", time.monotonic() - begun >= 2)

    def row_feed_link_that_fails(self):
        """Nor is a link that failed, and is not opened again."""
        with self.feeding(more=("--settle", "60")) as (run, feed):
            feed.open()
            one, two = run.neighbours[1], run.neighbours[2]
            one.open()
            one.greet(size=9)
            two.come()
            two.say(b"2 0\n")
            self.judge("the whole table", feed.gathers({net(2): (2, 1)}), feed.text[-300:])

    def row_feed_reader_again(self):
        """A reader that comes later, and one that comes again, are told the whole table first."""
        with self.feeding() as (run, feed):
            table = self.come_both(run)
            run.neighbours[1].say(b"3 1\n")
            table[net(3)] = (1, 2)
            self.judge("3 is reached", run.routes_until(3, "2:1"))
            for text, told in ((b"3 2\n4 2\n", {net(3): (1, 3), net(4): (1, 3)}), (b"3 8\n4 1\n", {net(3): None, net(4): (1, 2)}), (b"", {})):
                self.judge("notices that nobody reads", awaited(lambda: not has_open(run.process.pid, feed.path), bool, PATIENCE))
                feed.open()
                self.judge("the whole table", feed.until(feed.blocks) and feed.blocks()[0][1:] == (True, table), feed.text[-300:])
                feed.close()
                run.neighbours[1].say(text)
                table = {to: hop for to, hop in {**table, **told}.items() if hop}

    def row_feed_slow_reader(self):
        """A reader that reads nothing keeps nobody waiting, and is told the newest table in the end, not each step."""
        with self.feeding(more=("--queue", "1000000"), size=NODES) as (run, feed):
            self.begin(run, feed, NODES)
            one, longest = run.neighbours[1], 0
            for change in range(CHANGES):
                one.say(b"".join(b"%d %d\n" % (node, change + 1) for node in range(3, NODES)))
                self.judge_once("goes on", run.routes_until(NODES - 1, f"{change + 2}:1"))
                begun = time.monotonic()
                run.ask("routes")
                longest = max(longest, time.monotonic() - begun)
            self.judge("all is told to the router", run.routes_until(NODES - 1, f"{CHANGES + 1}:1"))
            self.judge("answers", longest < PROMPT, longest)
            wanted = {net(1): (1, 1), net(2): (2, 1), **{net(node): (1, CHANGES + 1) for node in range(3, NODES)}}
            self.judge("the newest table", feed.gathers(wanted), (len(feed.text), len(feed.blocks())))
            told = [changes for _, _, changes in feed.blocks() if changes]
            self.judge("not each step", len(told) < CHANGES, len(told))
            self.judge("sound", feed.is_sound(), len(feed.text))
            self.end(run)

    def judge_once(self, what, holds):
        """What has to hold many times is judged where it does not."""
        if not holds:
            self.judge(what, False)

    def row_feed_two_of_a_prefix(self):
        """Of nodes that have one prefix the nearest counts, of equally near ones the least; and none for the router's own prefix."""
        more = ("--prefix", f"3={net(9)}", "--prefix", f"4={net(9)}", "--prefix", f"5={net(0)}")
        with self.feeding(more=more) as (run, feed):
            table = self.begin(run, feed)
            one, two = run.neighbours[1], run.neighbours[2]
            one.say(b"4 1\n")
            table = self.tells(feed, table, {net(9): (1, 2)})
            # Node 3 is farther: nothing changes, and the next block tells of node 6 alone.
            two.say(b"3 3\n6 1\n")
            table = self.tells(feed, table, {net(6): (2, 2)})
            one.say(b"4 5\n")
            table = self.tells(feed, table, {net(9): (2, 4)})
            # As near as node 3.
            one.say(b"4 3\n6 0\n")
            table = self.tells(feed, table, {net(6): (1, 1)})
            two.say(b"3 8\n")
            table = self.tells(feed, table, {net(9): (1, 4)})
            one.say(b"5 0\n4 8\n")
            self.tells(feed, table, {net(9): None})
            self.judge("its own is not told", net(0).encode() not in feed.text, feed.text[-300:])

    def row_feed_silence(self):
        """Where nothing changes, that is told: a block without routes, so often that a reader that is gone is noticed."""
        with self.feeding() as (run, feed):
            begun = time.monotonic()
            self.begin(run, feed)
            feed.until(lambda: len(feed.blocks()) > 2)
            later, most = feed.blocks()[1:], (time.monotonic() - begun) / REST
            self.judge("says so", 2 <= len(later) <= most and not any(changes for _, _, changes in later), (most, feed.text[-300:]))
            self.judge("sound", feed.is_sound(), feed.text[-300:])

    def row_feed_no_file(self):
        """Where there is no file that is told once, and the router serves all others; when there is one, it is told the table."""
        with self.feeding(make=lambda path: None) as (run, feed):
            table = self.come_both(run)
            says = f"routes: {feed.path}: "
            self.says(run, says)
            time.sleep(1)
            text = run.said(says)
            self.judge("once", text.count(says) == 1, text)
            os.mkfifo(feed.path)
            feed.open()
            self.judge("the whole table", feed.gathers(table), feed.text[-300:])

    def row_feed_to_a_file(self):
        """A file has what changed, and nothing of what was in it before."""
        def make(path):
            pathlib.Path(path).write_text("route of another time\n" * 1000)
        with self.feeding(make=make, kind=Kept) as (run, feed):
            table = self.begin(run, feed)
            run.neighbours[2].say(b"3 1\n")
            table = self.tells(feed, table, {net(3): (2, 2)})
            time.sleep(2 * SILENCE)
            feed.take()
            self.judge("nothing else", len(feed.blocks()) == 2 and not BLOCK.sub(b"", feed.text), feed.text[-300:])

    def row_feed_quit(self):
        """A router ends whether its routes are read, or slowly, or by nobody."""
        for what in ("nobody reads", "somebody does"):
            with self.feeding() as (run, feed):
                if what == "somebody does":
                    feed.open()
                self.come_both(run)
                time.sleep(0.5)
                self.end(run)

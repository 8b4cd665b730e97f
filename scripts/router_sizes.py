"""What `ncroute router` does at real sizes and times: many entries, sessions and links, kills, filters that are set while it runs, and waits."""
import contextlib
import re
import sys
import time

from lib.processes import PATIENCE
from lib.routers import SIZE, Run, RunRows
from lib.traffic import end_of

# The largest domain, in which a router has a link to each other node.
NODES = 250

# Seconds: what is to be told is told.
PROMPT = 1.0

# How often a neighbour comes and goes, and how many times less long a router sleeps meanwhile: a minute then takes 4 milliseconds.
SESSIONS, QUICKER = 1_010, 15_000

# How many lines a link carries in each direction.
LINES = 70_000

# Seconds, for `--retry`, and how much later than that a link may be opened again.
RETRIES, LATE = (1, 2, 3), 1.0

# How many seconds a link waits each time with `--retry 1`, while its sessions are short, and how many times quicker that goes in a run.
WAITS, FASTER = (1, 2, 4, 8, 16, 32, 60, 60), 20

# How often a router is ended while its neighbours greet it, and how many they are.
GREETED_QUITS, GREETING = 20, 70

# So many messages may wait for a neighbour that does not read what it is told while another one says all at once.
MAY_WAIT = ("--queue", "100000")

FAR = "load far filter far { rip_metric = rip_metric + 2; accept; }"

# How many lines a neighbour says to a router that has room for as few entries as a router can have, and how many are always kept of these. How many
# kilobytes more memory the router may have after all lines than after a quarter of them.
FLOOD, ROOM, KEPT, MOST_GROWN = 1_000_000, 2_048, 512, 512

# How many entries a router has at least, when it is killed, and in how many parts they come.
MANY, PARTS = 12_000, 4


def say_much(run):
    """Node 2 says many messages, in parts between which the history rests and is saved; behind them comes one entry more."""
    for part in range(PARTS):
        run.neighbours[2].say(b"3 0\n3 1\n" * (MANY // PARTS // 2) + b"4 %d\n" % part)
        run.routes_until(4, f"{part + 1}:2")
        run.rests()
    run.ask("show 2")


# What a router enters at last before it is killed. Node 1 and node 2 are up.
LAST_ENTRIES = {
    "many messages": say_much,
    "a message that changes nothing": lambda run: run.neighbours[2].say(b"3 9\n"),
    "the end of a session": lambda run: run.neighbours[1].close(),
    "a route that is asked for": lambda run: run.ask("show 2"),
    "a down that is refused": lambda run: run.ask("down 5"),
    "an import filter": lambda run: run.ask("import 5 far"),
    "an export filter": lambda run: run.ask("export 5 far"),
}


class SizeRows(RunRows):
    """Rows of sizes and times."""

    WAITING = ("comes_a_thousand_times", "killed", "retries", "waits_longer")

    TIMED = ("exports", "retries", "waits_longer")

    def row_killed(self):
        """A router is killed a while after its last entry, whichever that is: its file has all that it answered of its history."""
        with contextlib.ExitStack() as stack:
            runs = {what: stack.enter_context(Run(self.program, more=MAY_WAIT)) for what in LAST_ENTRIES}
            answered = {}
            for what, run in runs.items():
                self.bring_up(run)
                run.ask(FAR)
                run.rests()
                LAST_ENTRIES[what](run)
                answered[what] = run.rests()
            self.judge("there are many", max(map(len, answered.values())) > MANY)
            latest = max(run.has_saved(answered[what])[1] for what, run in runs.items())
            print(f"killed: the last was saved after {latest:.2f} s", file=sys.stderr)
            for what, run in runs.items():
                run.kill()
                saved, wanted = run.saved(), answered[what]
                self.judge(f"{what}: is saved", saved[:len(wanted)] == wanted, (len(saved), len(wanted), wanted[-1]))
                said = run.replays()
                self.judge(f"{what}: replay", said == f"replay ok {len(saved)}", said)

    def row_forgets(self):
        """A router without a file, with the least room: node 2 floods it. It goes on, its memory stays, and its last entries are there."""
        with Run(self.program, more=("--limit", str(ROOM)), saves=False) as run:
            says = "history: not saved: only its last entries are kept\n"
            self.says(run, says, is_all=True)
            self.serve_two(run)
            memory = []
            for part in range(4):
                # Neither line changes a distance, so that nothing waits for node 2.
                run.neighbours[2].say(b"3 8\n3 9\n" * (FLOOD // 8) + b"4 %d\n" % part)
                self.judge("goes on", run.routes_until(4, f"{part + 1}:2"), part)
                memory.append(run.kilobytes("VmRSS"))
            print(f"forgets: {memory} kB after each quarter of {FLOOD} lines", file=sys.stderr)
            self.judge("memory", memory[-1] - memory[0] <= MOST_GROWN, memory)
            self.judge_last_entries(run)
            self.judge("2 is served", run.ask("neighbours") == "neighbours 2:1", run.ask("neighbours"))
            self.says(run, says, is_all=True)
            answer = run.quit()
            self.judge("quit", answer == ("ok", 0), answer)

    def judge_last_entries(self, run):
        """The last entries are shown at their positions, and those before them are refused."""
        # Once node 2 was told the last distance, and nothing is entered for a while, no writer makes an entry any more.
        self.judge("2 hears the last", run.neighbours[2].hear(b"\n4 4\n"), run.neighbours[2].told[-100:])
        before, end = 0, end_of(run, 1)
        while before != end:
            time.sleep(0.2)
            before, end = end, end_of(run, end)
        self.judge("show", run.ask("show 7") == "route 8 none")
        answer = run.ask("history 0")
        first = int((re.fullmatch(r"refused O10 (\d+)", answer) or [0, 0])[1])
        self.judge("forgot", FLOOD - ROOM < first, answer)
        self.judge("forgot the one before", run.ask(f"history {first - 1}") == f"refused O10 {first}")
        found = []
        while (answer := run.ask(f"history {first + len(found)}")).startswith("history "):
            found += answer[len("history "):].split(" | ")
        self.judge("ends", answer == "history", answer)
        self.judge("keeps", KEPT <= len(found) <= ROOM, len(found))
        numbers = [int(entry.split()[0]) for entry in found]
        self.judge("positions", numbers == list(range(first, first + len(found))), (first, numbers[:3], numbers[-3:]))
        self.judge("the last one", found[-1].endswith(" show 7 route 8 none"), found[-3:])

    def bring_up(self, run, size=SIZE):
        """All neighbours come up: each is told that the last node of the domain cannot be reached."""
        for neighbour in run.neighbours.values():
            neighbour.come(size)
            self.judge(f"{neighbour.node} is up", neighbour.hear(b"\n%d %d\n" % (size - 1, size)), neighbour.told)

    def row_comes_a_thousand_times(self):
        """Node 1 comes and goes, 1,010 times: each session begins and ends, with its routes."""
        with Run(self.program, more=("--retry", "1"), quicker=QUICKER) as run:
            self.serve_two(run)
            one = run.neighbours[1]
            for times in range(1, SESSIONS + 1):
                one.come()
                one.say(b"1 0\n")
                came = run.routes_until(1, "1:1")
                one.close()
                run.lets_go(1)
                went = run.routes_until(1, str(SIZE))
                if not (came and went):
                    break
            self.judge("comes and goes each time", (came, went, times) == (True, True, SESSIONS), (came, went, times))
            wanted = {node: {0: 0, 2: 1}.get(node, SIZE) for node in range(SIZE)}
            self.judge("2 hears at last", run.neighbours[2].hear_distances(wanted), run.neighbours[2].distances())
            self.judge_newest(run, 2)
            self.end(run)
            self.judge_sessions(run, {1: SESSIONS, 2: 1})

    def judge_newest(self, run, node):
        """A neighbour was told what the Takes of its one session brought, of each the newest, in order, and ends. Standard error says how many others
        there were, if there were any: how many."""
        neighbour = run.neighbours[node]
        # What comes last is what an export filter makes of all distances: once that is heard, all was taken that waited.
        routes = [route.split(":") for route in run.ask("routes").split()[1:]]
        run.ask(FAR)
        run.ask(f"export {node} far")
        self.judge(f"{node} hears the last", neighbour.hear_distances({int(v): min(int(dist) + 2, SIZE) for v, dist, *_ in routes}), routes)
        newest, taken = self.newest_of_takes(run, node)
        self.judge(f"{node} is told the newest of each Take", neighbour.messages() == newest, (len(neighbour.messages()), len(newest)))
        # Who quits does not wait for what is told of the sessions that end then.
        neighbour.close()
        left_out = taken - len(newest)
        says = f"link {node}: messages left out, since later ones replaced them: {left_out}\n"
        told = [line for line in run.said(says if left_out else f"link {node}: ").splitlines(True) if line.startswith(f"link {node}: ")]
        self.judge("the others are counted", says in told if left_out else not any("left out" in line for line in told), (left_out, told))
        return left_out

    def newest_of_takes(self, run, node):
        """Of each Take of a node's first session the newest message about each node; and how many messages all of them brought."""
        entries = run.entries()
        session = next(up[1] for entry in entries if (up := re.search(rf" up {node} opened (\d+)$", entry)))
        takes = [re.findall(r"(\d+):(\d+)", entry) for entry in entries if f" take {session} 16 messages" in entry]
        newest = [(int(at), int(dist)) for take in takes for k, (at, dist) in enumerate(take) if at not in {later for later, _ in take[k + 1:]}]
        return newest, sum(map(len, takes))

    def judge_sessions(self, run, wanted):
        """The history that was saved has so many sessions of each node, each of them after the one before, and the Down of each."""
        begun, sessions, faults = {}, dict.fromkeys(wanted, 0), []
        for entry in run.saved():
            if up := re.search(r"^\d+ up (\d+) opened (\d+)$", entry):
                node = int(up[1])
                if node in begun.values() or node not in sessions:
                    faults.append(entry)
                else:
                    begun[up[2]] = node
                    sessions[node] += 1
            elif (down := re.search(r"^\d+ down (\d+) done \d+$", entry)) and begun.pop(down[1], None) is None:
                faults.append(entry)
        self.judge("each session ends, once", not faults and not begun, (faults[:3], len(begun)))
        self.judge("sessions", sessions == wanted, sessions)

    def row_long_links(self):
        """Node 1 changes its mind 70,000 times: each line is entered. Node 2 is told the newest of each Take, and the others are counted."""
        with Run(self.program, more=MAY_WAIT) as run:
            self.bring_up(run)
            one, two = run.neighbours.values()
            one.say(b"3 0\n3 1\n" * (LINES // 2) + b"4 0\n")
            self.judge("the last line is entered", run.routes_until(4, "1:1"))
            # What is told last stands for what was left out before it.
            self.judge("2 hears the last", two.hear(b"\n4 1\n"), two.told[-100:])
            self.judge("both are up", run.ask("neighbours") == "neighbours 1:1 2:2")
            self.judge("many are left out", self.judge_newest(run, 2) > LINES // 2)
            self.end(run)
            received = sum(" recv 1 3 " in entry for entry in run.saved())
            self.judge("each is saved", received == LINES, received)

    def row_retries(self):
        """A link that was closed is opened again after as many seconds as `--retry` says: not before, and not much later. Without it, it is not."""
        with contextlib.ExitStack() as stack:
            options = {**{seconds: ("--retry", str(seconds)) for seconds in RETRIES}, None: ()}
            runs = {seconds: stack.enter_context(Run(self.program, nodes=(1,), more=more, saves=False)) for seconds, more in options.items()}
            closed, took = {}, {}
            for seconds, run in runs.items():
                self.bring_up(run)
                closed[seconds] = time.monotonic()
                run.neighbours[1].close()
                run.lets_go(1)
            until = time.monotonic() + max(RETRIES) + PATIENCE
            while not took.keys() >= set(RETRIES) and time.monotonic() < until:
                for seconds, run in runs.items():
                    if seconds not in took and run.neighbours[1].is_opened():
                        took[seconds] = time.monotonic() - closed[seconds]
                time.sleep(0.005)
            for seconds in RETRIES:
                waited = took.get(seconds)
                self.judge(f"--retry {seconds}", waited is not None and seconds <= waited <= seconds + LATE, waited)
            self.judge("no --retry", None not in took, took.get(None))

    def row_waits_longer(self):
        """A link whose sessions are short is opened again later each time, up to a minute; and after a long one as soon as at first."""
        with Run(self.program, nodes=(1,), more=("--retry", "1"), saves=False, quicker=FASTER) as run:
            one = run.neighbours[1]
            one.open()
            for times, seconds in enumerate((*WAITS, 1), 1):
                one.meet()
                self.judge("1 is up", one.listen(lambda: one.told.count(b"\n7 8\n") == times), one.told)
                if times > len(WAITS):
                    # This session is the only one that lasts longer than a minute of the router's.
                    time.sleep(61 / FASTER)
                closed = time.monotonic()
                one.close()
                run.lets_go(1)
                one.open()
                waited = time.monotonic() - closed
                self.judge(f"waits {seconds} s", seconds / FASTER <= waited <= seconds / FASTER + LATE, waited)
            self.judge("quit", run.quit() == ("ok", 0))

    def row_exports(self):
        """An export filter that the operator sets while the router runs: its neighbour hears the new distances at once, and no other does."""
        with Run(self.program, nodes=(1, 2, 3, 4)) as run:
            self.bring_up(run)
            run.ask(FAR)
            farther = {node: min(distance + 2, SIZE) for node, distance in run.neighbours[1].distances().items()}
            for node in (1, 4, 2):
                answer = run.ask(f"export {node} far")
                self.judge(f"export {node}", answer == "done 0", answer)
                neighbour = run.neighbours[node]
                self.judge(f"{node} hears", neighbour.hear_distances(farther, PROMPT), neighbour.told)
            last = run.neighbours[3]
            self.judge("3 hears nothing", not last.listen(lambda: last.distances() == farther, 0.1), last.told)
            self.end(run)

    def row_twenty_links(self):
        self.serve_many(20, 40)

    def row_most_links(self):
        """A router has a link to each other node of the largest domain."""
        self.serve_many(NODES - 1, NODES)

    def serve_many(self, count, size):
        """Each of so many neighbours comes up, says that it is there, and hears of all. One that is far behind goes, the last one is told other
        distances, and at the end each session has its Down."""
        nodes = range(1, count + 1)
        with Run(self.program, nodes=nodes, size=size) as run:
            self.bring_up(run, size)
            self.judge("all are up", run.ask("neighbours").count(":") == count)
            for node, neighbour in run.neighbours.items():
                neighbour.say(b"%d 0\n" % node)
            distances = {node: 0 if node == 0 else 1 if node in nodes else size for node in range(size)}
            self.judge_heard(run, distances)
            print(f"{count} links: {run.status('VmRSS')}, {run.status('Threads')} threads", file=sys.stderr)
            gone = count * 4 // 5
            # It reads still when it ends, so that the router, which says something now and then, does not find out by that.
            run.neighbours[gone].close_one("writes")
            self.says(run, f"link {gone}: the neighbour ended its stream: closed\n", is_all=True)
            self.judge_heard(run, {**distances, gone: size}, gone)
            run.ask(FAR)
            answer = run.ask(f"export {count} far")
            self.judge(f"export {count}", answer == "done 0", answer)
            farther = {node: min(distance + 2, size) for node, distance in distances.items()}
            self.judge(f"{count} hears", run.neighbours[count].hear_distances({**farther, gone: size}), run.neighbours[count].told)
            self.end(run)
            self.judge_sessions(run, dict.fromkeys(nodes, 1))

    def judge_heard(self, run, distances, gone=None):
        """Each neighbour but one that is gone has heard these distances."""
        until = time.monotonic() + PATIENCE
        deaf = [node for node, neighbour in run.neighbours.items()
                if node != gone and not neighbour.hear_distances(distances, max(0, until - time.monotonic()))]
        self.judge("each hears of all", not deaf, deaf)

    def row_quits_while_neighbours_greet(self):
        """`quit` comes while sessions begin: the history that is saved has the Down of each of them."""
        for turn in range(GREETED_QUITS):
            with Run(self.program, nodes=range(1, GREETING + 1), size=80) as run:
                neighbours = list(run.neighbours.values())
                for neighbour in neighbours:
                    neighbour.open()
                self.quit_behind(run, neighbours, turn * GREETING // (GREETED_QUITS - 1))
                text = "\n".join(run.saved())
                opened, closed = (sorted(re.findall(pattern, text, re.MULTILINE)) for pattern in (r" up \d+ opened (\d+)$", r" down (\d+) done \d+$"))
                self.judge("each session has its Down", opened == closed, (turn, len(opened), len(closed)))

    def quit_behind(self, run, neighbours, count):
        """Neighbours greet, and behind so many of them comes `quit`."""
        for neighbour in neighbours[:count]:
            neighbour.greet(size=80)
        run.say(b"quit\n")
        with contextlib.suppress(BrokenPipeError):
            for neighbour in neighbours[count:]:
                neighbour.greet(size=80)
        self.judge("ends", run.end() == 0)

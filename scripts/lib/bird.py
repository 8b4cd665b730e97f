"""BIRD, and the files of `tests/bird/`: filters, each with routes and what is answered to them.

A file is blocks with an empty line between them. The first one is a comment on all. Each other one is the text of a filter, and then lines
`# PREFIX METRIC: ANSWER`, where ANSWER is `accept D` or `reject`. Where BIRD answers something else, both stand there: `ANSWER, BIRD ANSWER`.
A text that is not taken has one line in their place: `# refused CODE AT`, `# BIRD refuses`, or both of them.
"""
import os
import pathlib
import re
import subprocess
import time

from lib.program import TOP

ROUTE = re.compile(r"# (\d+\.\d+\.\d+\.\d+/\d+) (\d+):(.*)")
BIRD_REFUSES = "BIRD refuses"


class Block:
    """A filter with its answers, as the file has them."""

    def __init__(self, text):
        lines = text.split("\n")
        self.routes, self.said, self.refusals, filter_lines = [], [], [], []
        for line in lines:
            if route := ROUTE.fullmatch(line):
                self.routes.append((route[1], int(route[2])))
                self.said.append(route[3].strip())
            elif line.startswith(("# refused ", f"# {BIRD_REFUSES}")):
                self.refusals.append(line[len("# "):])
            else:
                filter_lines.append(line)
        self.filter = "\n".join(filter_lines) + "\n"

    def name(self):
        return re.search(r"filter\s+(\w+)", self.filter)[1]

    def ours(self):
        """What is answered here, a line for each route; or the refusal of the text."""
        refusals = [refusal for refusal in self.refusals if refusal != BIRD_REFUSES]
        return refusals or [said.split(", BIRD ")[0] for said in self.said]

    def birds(self):
        """The same of BIRD; None where it does not take the text."""
        return None if BIRD_REFUSES in self.refusals else [said.split(", BIRD ")[-1] for said in self.said]

    def written(self):
        answers = [f"# {net} {metric}: {said}".rstrip() for (net, metric), said in zip(self.routes, self.said)]
        return self.filter + "\n".join([f"# {refusal}" for refusal in self.refusals] + answers)


def read(path):
    """The comment on all, and the blocks."""
    head, *blocks = pathlib.Path(path).read_text().rstrip("\n").split("\n\n")
    return head, [Block(block) for block in blocks]


def files():
    return sorted(map(str, TOP.glob("tests/bird/*.filters")))


def is_taken(folder, text):
    """Whether BIRD takes a filter's text."""
    path = os.path.join(folder, "one.conf")
    configure(path, [text], {})
    return subprocess.run(["bird", "-p", "-c", path], capture_output=True).returncode == 0


def configure(path, filters, routes):
    """Writes a configuration of filters, and of static routes with their metrics."""
    with open(path, "w") as it:
        it.write(f'log "{path}.log" all;\nrouter id 1.2.3.4;\n')
        it.writelines(filters)
        it.write("protocol static {\n  ipv4;\n")
        it.writelines(f"  route {net} blackhole {{ rip_metric = {metric}; }};\n" for net, metric in routes.items())
        it.write("}\n")


class Daemon:
    """A BIRD of our own with some filters and routes, without any interface."""

    def __init__(self, folder, filters, routes):
        self.control, path = os.path.join(folder, "control"), os.path.join(folder, "bird.conf")
        configure(path, filters, routes)
        self.process = subprocess.Popen(["bird", "-f", "-c", path, "-s", self.control, "-P", os.path.join(folder, "pid")])
        while not os.path.exists(self.control) and self.process.poll() is None:
            time.sleep(0.05)

    def ask(self, question):
        return subprocess.run(["birdc", "-s", self.control, question], capture_output=True, text=True, check=True).stdout

    def verdicts(self, name, routes):
        """What a filter answers to routes. BIRD prints a metric as a number with a sign."""
        said = self.ask(f"show route filter {name} all")
        accepted = {net: int(metric) % 2**32 for net, metric in re.findall(r"(?m)^(\d\S+) .*\n(?:\t.*\n)*?\tRIP\.metric: (-?\d+)", said)}
        return [f"accept {accepted[net]}" if net in accepted else "reject" for net, _ in routes]

    def end(self):
        self.process.terminate()
        self.process.wait()

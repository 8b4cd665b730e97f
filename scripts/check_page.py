#!/usr/bin/env python3
"""Looks at pages of domains in Chromium, without a screen: clicks, types and reads them, and compares what they find of failures with what
`ncroute domain` says. Names and texts of filters are hostile ones too. Prints a line for each check that fails, and at last 'N passed, M failed'.

usage: NCROUTE=PATH scripts/check_page.py [DOMAINS [SEED]]        (PATH: the program; DOMAINS: how many random ones, 40 where none is said)
"""
import itertools
import json
import os
import pathlib
import random
import re
import subprocess
import sys
import tempfile

import make_shell
import page_oracle
from check_domains import FILTERS, NAMES
from lib.chromium import Chromium
from lib.counts import Counts, NotRun
from lib.program import TOP, built

EXAMPLES = ("fifty_nodes", "grid_of_sixteen", "office", "ring_of_five", "ring_with_backup")
LIMIT = 2_000_000

SHIFT = 8

# What no script of a page may say: it would have texts read as elements, run them, or ask for something elsewhere.
NEVER = (
    "innerHTML", "outerHTML", "insertAdjacentHTML", "document.write", "eval(", "Function(", "fetch(", "XMLHttpRequest", "import(", "setHTML",
)

# Each would set `ran` if it were run, or end the element in which it stands.
HOSTILE = (
    "</script><script>window.ran = 1</script>", "<img src=x onerror=window.ran=1>", "<!--<script>", "]]>", "\"'`${window.ran=1}", "\\u003cscript>",
    "<svg onload=window.ran=1>", "javascript:window.ran=1", "</title><body onload=window.ran=1>", "&lt;b&gt;", "\x00\x1b[31m", "__proto__",
    "\u202egnp.exe", "\u2028\u2029",
)


# ---- the files of the page


def sources(counts):
    """What stands in the files of pages/."""
    text = {path.name: path.read_text(encoding="utf-8") for path in page_oracle.PAGES.iterdir()}
    for name, source in text.items():
        for word in NEVER:
            counts.expect(f"{name} without {word}", word not in source)
        found = re.findall(r"\w+://[^\s\"'`]+", source)
        counts.expect(f"{name} names nothing elsewhere", set(found) <= {"http://www.w3.org/2000/svg"}, found)
        counts.expect(f"{name} is in whole lines", source.endswith("\n") and "\t" not in source and max(map(len, source.split("\n"))) <= 150)
    shell = (TOP / "crates" / "domain_reports" / "src" / "shell.rt").read_text(encoding="utf-8")
    counts.expect("the program has this page: make_shell.py writes it", shell == make_shell.source())
    ends = [name for name, source in text.items() if "</s" in source.lower() and not name.endswith(".html")]
    counts.expect("no script or style ends its element", not ends, ends)
    counts.expect("each script is joined", sorted(page_oracle.SCRIPTS) == sorted(name for name in text if name.endswith(".js")))
    contrasts(counts, text["domain.css"])


def channel(value):
    value /= 255
    return value / 12.92 if value <= 0.04045 else ((value + 0.055) / 1.055) ** 2.4


def luminance(colour):
    return sum(share * channel(int(colour[at:at + 2], 16)) for share, at in ((0.2126, 1), (0.7152, 3), (0.0722, 5)))


def contrast(one, other):
    """How two colours contrast, as the guidelines for accessible content (WCAG) count it."""
    high, low = sorted((luminance(one), luminance(other)), reverse=True)
    return (high + 0.05) / (low + 0.05)


def contrasts(counts, style):
    """Texts have a contrast of 4.5 with what is behind them, and lines of 3."""
    for theme, block in zip(("light", "dark"), re.findall(r"(?s):root(?:\[[^]]*\])? \{(.*?)\}", style)):
        colours = dict(re.findall(r"--([\w-]+): (#\w{6});", block))
        pairs = [(text, ground, 4.5) for text in ("text", "quiet", "accent", "changed", "lost", "still") for ground in ("ground", "panel")]
        pairs += [("changed", "changed-ground", 4.5), ("lost", "lost-ground", 4.5), ("text", "lost-ground", 4.5), ("text", "changed-ground", 4.5)]
        pairs += [("ground", "accent", 4.5), ("wire", "ground", 3)]
        for text, ground, least in pairs:
            found = contrast(colours[text], colours[ground])
            counts.expect(f"{theme}: {text} on {ground}", found >= least, f"{found:.2f}")


# ---- pages


class Place:
    """A folder for pages, and the Chromium that shows them."""

    def __init__(self, folder, chromium, counts, program):
        self.folder, self.chromium, self.counts, self.program = pathlib.Path(folder), chromium, counts, program

    def write(self, name, data):
        path = self.folder / "page.html"
        path.write_text(page_oracle.page(name, data), encoding="utf-8")
        return path.as_uri()

    def show(self, name, data, behind=""):
        self.chromium.open("about:blank")
        self.chromium.open(self.write(name, data) + behind)
        self.wait()

    def wait(self):
        """Lets the page do what it does once it is seen, or once something has changed."""
        self.run("new Promise((done) => setTimeout(done, 100))")

    def run(self, script):
        return self.chromium.run(script)

    def text(self, selector):
        return self.run(f"document.querySelector({json.dumps(selector)})?.textContent ?? null")

    def texts(self, selector):
        return self.run(f"[...document.querySelectorAll({json.dumps(selector)})].map((it) => it.textContent)")

    def expect(self, name, holds, told=""):
        self.counts.expect(name, holds, told)

    def quiet(self, name):
        """Nothing was written on the console, no error came, and nothing was asked for."""
        self.expect(f"{name}: no error", not self.chromium.told, self.chromium.told)
        self.chromium.told.clear()


def example(place, name):
    """An example: its page finds what the program says, of routes and of each failure, and has what it should for those who do not see it."""
    script = (TOP / "examples" / f"{name}.domain").read_bytes()
    data = page_oracle.Domain(place.program, script).data()
    by_program(place, name, script, data)
    text = page_oracle.page(f"examples/{name}.domain", data)
    place.expect(f"{name}: at most {LIMIT} bytes", len(text.encode()) <= LIMIT, len(text.encode()))
    place.show(f"examples/{name}.domain", data)
    place.expect(f"{name}: routes are found", place.text("#check").startswith("This page finds all"), place.text("#check"))
    place.expect(f"{name}: failures are found", place.run(f"{DIFFERING}(readJson('domain'))") == [])
    rows = [[cell.strip() for cell in row] for row in place.run(ROWS)]
    wanted = [failure_row(data, it) for it in sorted(data["failures"]["links"], key=lambda it: (-it["lost"], -it["changed"]))]
    place.expect(f"{name}: the table of failures", rows == wanted, f"{rows} and {wanted}")
    place.expect(f"{name}: a node for each", sorted(map(int, place.texts("#map .number"))) == list(range(data["size"])))
    place.expect(f"{name}: a line for each link", place.run("document.querySelectorAll('#map .link').length") == len(data["links"]))
    nodes_have_room(place, name)
    nameless(place, name)
    place.quiet(name)
    return data


# The single failures of a domain of which the page finds other numbers than its data has.
DIFFERING = """((data) => {
  const domain = new Domain(data);
  const all = [...domain.links.map((_, it) => ({ links: [it], nodes: [] })), ...domain.tables.map((_, it) => ({ links: [], nodes: [it] }))];
  return all.filter((it) => domain.differs(domain.failure(it)));
})"""

ROWS = "[...document.querySelectorAll('#failure-table tbody tr')].map((row) => [...row.cells].map((cell) => cell.textContent))"


def failure_row(data, failure):
    still = "all" if failure["still"] == data["size"] else f"< {failure['still']}"
    numbers = [f"{failure[word]:,}" for word in ("lost", "changed", "moved", "rounds")]
    return ["\u2013".join(map(str, failure["link"])) if "link" in failure else str(failure["node"]), *numbers, still]


def by_program(place, name, script, data):
    """What the program writes as JSON is what its answers come to."""
    said = page_oracle.asked(place.program, ["domain"], script.rstrip(b"\n") + b"\njson\n")[-1]
    place.expect(f"{name}: json", said == page_oracle.in_json(data), said)
    (place.folder / "script").write_bytes(script)
    (place.folder / "out.html").unlink(missing_ok=True)
    ran = subprocess.run([place.program, "domain", "script", "--page", "out.html"], cwd=place.folder, capture_output=True)
    is_same = ran.returncode == 0 and (place.folder / "out.html").read_text(encoding="utf-8") == page_oracle.page("script", data)
    place.expect(f"{name}: page", is_same, ran.stderr)


def nodes_have_room(place, name):
    """No two nodes of a picture overlap, in each of the orders in which they may stand."""
    for layout in ("layers", "prefix", "map"):
        choose(place, "layout", layout)
        near = place.run("""(() => {
          const nodes = [...document.querySelectorAll("#map .node")];
          const places = nodes.map((it) => it.getAttribute("transform").match(/-?[\\d.]+(?:e-?\\d+)?/g).map(Number));
          return Math.min(...places.flatMap(([x, y], i) => places.slice(0, i).map(([a, b]) => Math.hypot(x - a, y - b))));
        })()""")
        place.expect(f"{name}: nodes have room, {layout}", near > 24, near)


def nameless(place, name):
    """Each thing that takes keys has a name, and no two things have one id."""
    tree = place.chromium.ask("Accessibility.getFullAXTree")["nodes"]
    seen = [it for it in tree if not it["ignored"] and it["role"]["value"] != "RootWebArea"]
    focusable = [it for it in seen if any(entry["name"] == "focusable" and entry["value"]["value"] for entry in it["properties"])]
    without = [it["role"]["value"] for it in focusable if not it["name"]["value"]]
    place.expect(f"{name}: all has names", len(focusable) > 10 and not without, without)
    ids = place.run("[...document.querySelectorAll('[id]')].map((it) => it.id)")
    place.expect(f"{name}: ids are of one thing each", len(ids) == len(set(ids)))


def choose(place, name, value):
    place.run(f"(() => {{ const it = document.getElementById('{name}'); it.value = '{value}'; it.dispatchEvent(new Event('change')); }})()")


# ---- what is clicked and typed


def clicks(place, data):
    """The page of fifty nodes, as somebody uses it."""
    show, press, click = place.show, place.chromium.press, place.chromium.click
    show("fifty", data)
    click("#failure-table tbody tr:nth-child(3) button")
    known = sorted(data["failures"]["links"], key=lambda it: (-it["lost"], -it["changed"]))[2]
    u, w = known["link"]
    place.expect("a row is clicked", place.run("location.hash") == f"#fail={u}-{w}" and place.text("#detail h2") == f"If the link {u}\u2013{w} fails")
    place.expect("its row is marked", place.run(f"{ROWS.replace('tr', 'tr[aria-selected=true]', 1)}")[0][0] == f"{u}\u2013{w}")
    numbers = [str(known[word]) for word in ("changed", "lost", "moved", "rounds", "still")]
    place.expect("its numbers", place.texts("#detail dd") == numbers, place.texts("#detail dd"))
    place.expect("its link is crossed", place.run("document.querySelectorAll('#map .cross').length") == 1)
    told = f"If the link {u}\u2013{w} fails, {known['changed']} routes change"
    place.expect("it is told", place.text("#said").startswith(told), place.text("#said"))
    changes = changes_of(place, data, f"cut {u} {w}")
    shown = [tuple(map(int, pair)) for pair in place.run(SHOWN_CHANGES)]
    place.expect("the routes that change", shown == changes[:200], f"{shown} and {changes}")
    click("#map .node[data-node='27']")
    place.expect("a node is clicked", place.run("location.hash") == f"#fail={u}-{w}&node=27", place.run("location.hash"))
    routes_of_node(place, data, 27, f"cut {u} {w}")
    click("#map .link[data-link='0'] .reach", SHIFT)
    place.expect("one more fails", place.run("document.querySelectorAll('#map .cross').length") == 2, place.run("location.hash"))
    routes_of_node(place, data, 27, f"cut {u} {w}", "cut {} {}".format(*data["links"][0]["link"]))
    place.run("history.back()")
    place.wait()
    place.expect("the way back", place.run("location.hash") == f"#fail={u}-{w}&node=27")
    press("Escape")
    place.expect("nothing is chosen", place.run("location.hash") == "" and place.text("#detail h2") == "At a glance")
    sorting(place, data)
    searching(place, data)
    keys(place, data)
    looks(place)
    place.quiet("clicks")


SHOWN_CHANGES = "[...document.querySelectorAll('#detail tbody tr')].map((row) => [row.cells[0].textContent, row.cells[1].textContent])"


def script_of(data):
    """A script of a domain with these links, prefixes and filters."""
    yield f"domain {data['size']}"
    yield from (f"prefix {node} {prefix}" for node, prefix in enumerate(data["prefixes"]))
    for number, known in enumerate(data["filters"]):
        yield f"load f{number} {known['text']}"
    for link in data["links"]:
        ends = link["link"]
        yield f"link {ends[0]} {ends[1]}"
        for verb, word in (("export", "exports"), ("import", "imports")):
            yield from (f"{verb} {ends[end]} {ends[1 - end]} f{used}" for end, used in enumerate(link[word]) if used is not None)


def tables_after(place, data, *cuts):
    """The tables that the program has once links are cut."""
    script = [*script_of(data), *cuts, *(f"table {node}" for node in range(data["size"]))]
    said = page_oracle.asked(place.program, ["domain"], "\n".join(script).encode())[-data["size"]:]
    rows = [[list(map(int, word.split(":"))) for word in line.split()[1:]] for line in said]
    return [[[row[1], row[2] if len(row) > 2 else None] for row in table] for table in rows]


def changes_of(place, data, *cuts):
    """Between which nodes routes are others once links are cut."""
    pairs = itertools.product(range(data["size"]), repeat=2)
    before, after = data["tables"], tables_after(place, data, *cuts)
    return [(u, v) for u, v in pairs if before[u][v] != after[u][v]]


def still_nodes(place, data, node, *cuts):
    """The other nodes that keep their routes to a node however often links come and go: in a picture of the changes they are not red."""
    script = [*script_of(data), "mark", *cuts, f"draw {node} changes"]
    said = page_oracle.asked(place.program, ["domain"], "\n".join(script).encode())[-1]
    looks = re.findall(r"(\d+) \[([^]]*)\];", said)[:data["size"]]
    return [int(other) for other, look in looks if "color=red" not in look and int(other) != node]


def in_words(data, route):
    return "none" if route[0] == data["size"] else "here" if route[1] is None else f"{route[0]} via {route[1]}"


def routes_of_node(place, data, node, *cuts):
    """The table of a node that is shown, and who reaches it, once links are cut."""
    before, after = data["tables"], tables_after(place, data, *cuts)

    def both(u, v):
        texts = [in_words(data, tables[u][v]) for tables in (before, after)]
        return texts[0] if before[u][v] == after[u][v] else " \u2192 ".join(texts)
    still = still_nodes(place, data, node, *cuts)
    shown = sorted(place.run("[...document.querySelectorAll('#map .node.still')].map((it) => Number(it.dataset.node))"))
    place.expect(f"who keeps a route to node {node}, {cuts}", shown == still, f"{shown} and {still}")
    wanted = sorted([str(other), data["prefixes"][other], both(node, other), both(other, node)] for other in range(data["size"]) if other != node)
    shown = place.run("[...document.querySelectorAll('#detail tbody tr')].map((row) => [...row.cells].map((cell) => cell.textContent))")
    place.expect(f"the routes of node {node}, {cuts}", sorted(shown) == wanted, f"{sorted(shown)} and {wanted}")
    arrows = sum(after[other][node][1] is not None for other in range(data["size"]))
    drawn = place.run("document.querySelectorAll('#map .arrow:not(.before)').length")
    place.expect(f"the arrows to node {node}, {cuts}", drawn == arrows, f"{drawn} and {arrows}")


def sorting(place, data):
    for column, word in ((2, "changed"), (3, "moved"), (4, "rounds")):
        for order in ("descending", "ascending"):
            place.chromium.click(f"#failure-table thead th:nth-child({column + 1}) button")
            numbers = [int(row[column].replace(",", "")) for row in place.run(ROWS)]
            wanted = sorted((it[word] for it in data["failures"]["links"]), reverse=order == "descending")
            place.expect(f"sorted by {word}, {order}", numbers == wanted)
            said = place.run(f"document.querySelector('#failure-table [aria-sort={order}]').cellIndex")
            place.expect(f"it is said of {word}, {order}", said == column)
    place.chromium.click("#kind-nodes")
    place.expect("failures of nodes", sorted(int(row[0]) for row in place.run(ROWS)) == list(range(data["size"])))
    place.chromium.click("#failure-table tbody tr:first-child button")
    place.expect("a node fails", re.fullmatch(r"If node \d+ fails", place.text("#detail h2")) is not None, place.text("#detail h2"))
    place.chromium.click("#kind-links")
    place.chromium.press("Escape")


def searching(place, data):
    """What is found of some words, and what Enter chooses."""
    u, w = data["links"][5]["link"]
    for sought, first, hash_of in (
        ("27", f"node 27, {data['prefixes'][27]}", "#node=27"), ("10.33.7.9", f"node 33, {data['prefixes'][33]}", "#node=33"),
        (f"{u}-{w}", f"link {u}\u2013{w}", f"#fail={u}-{w}"), (f"{w} {u}", f"link {u}\u2013{w}", f"#fail={u}-{w}"),
    ):
        place.chromium.press("/")
        place.chromium.type(sought)
        found = place.texts("#found li")
        place.expect(f"{sought!r} is found", found[:1] == [first], found)
        place.chromium.press("Enter")
        place.expect(f"{sought!r} is chosen", place.run("location.hash") == hash_of, place.run("location.hash"))
        place.run("document.activeElement.blur()")
        place.chromium.press("Escape")
    name = data["filters"][0]["name"]
    place.chromium.press("/")
    place.chromium.type(name)
    place.chromium.press("Enter")
    is_open = place.run("document.querySelector('#filter-0').open")
    place.expect("a filter is opened", is_open and place.text("#filter-0 pre") == data["filters"][0]["text"], is_open)
    place.chromium.press("/")
    place.chromium.type("nothing of that name")
    place.expect("nothing is found", place.texts("#found li") == ["nothing is found"])
    place.chromium.press("Escape")
    place.run("document.activeElement.blur()")


def keys(place, data):
    """The picture by keys alone."""
    place.run("document.querySelector('#map [tabindex=\"0\"]').focus()")
    place.expect("one node is in the order of the page", place.run("document.querySelectorAll('#map [tabindex=\"0\"]').length") == 1)
    visited = set()
    for key in ["ArrowRight"] * 9 + ["ArrowDown"] * 4 + ["ArrowLeft"] * 3:
        place.chromium.press(key)
        visited.add(place.run("document.activeElement.dataset.node"))
    place.expect("arrow keys lead on", len(visited) >= 8, visited)
    place.chromium.press("Enter")
    node = place.run("document.activeElement.dataset.node")
    place.expect("Enter chooses", place.run("location.hash") == f"#node={node}" and place.text("#detail h2") == f"Node {node}")
    place.expect("what is chosen is said", place.run("document.activeElement.getAttribute('aria-pressed')") == "true")
    for key, factor in (("+", 1 / 1.4), ("-", 1.4)):
        before = place.run("document.getElementById('map').viewBox.baseVal.width")
        place.chromium.press(key)
        now = place.run("document.getElementById('map').viewBox.baseVal.width")
        place.expect(f"{key} zooms", abs(now / before - factor) < 0.01, f"{before} {now}")
    place.chromium.press("Escape")


def looks(place):
    """Light and dark, and paper."""
    grounds = []
    for theme in ("light", "dark"):
        place.chromium.media("", theme)
        place.wait()
        grounds.append(place.run("getComputedStyle(document.body).backgroundColor"))
        place.expect(f"{theme} as the system has it", place.run("document.documentElement.dataset.theme") == theme)
    place.expect("two grounds", grounds[0] == "rgb(255, 255, 255)" and grounds[1] != grounds[0], grounds)
    place.chromium.media("print", "dark")
    place.expect("paper is light", place.run("getComputedStyle(document.body).backgroundColor") == grounds[0])
    place.expect("no tools on paper", place.run("getComputedStyle(document.querySelector('.tools')).display") == "none")
    place.chromium.media("", "light")
    place.chromium.click("#theme")
    place.expect("the button", place.run("document.documentElement.dataset.theme") == "dark")
    place.chromium.click("#theme")


def folded(place):
    """A star of many nodes with one link each, and a branch: what is folded, opened, and found all the same."""
    star, branch = [(0, node) for node in range(1, 101)], [(100, 101), (101, 102), (102, 103)]
    ring = [(node, node + 1) for node in range(104, 119)] + [(104, 119)]
    script = "\n".join(["domain 120", *(f"link {u} {w}" for u, w in star + branch + ring)])
    data = page_oracle.Domain(place.program, script.encode()).data()
    place.show("star", data)

    def count():
        return place.run("document.querySelectorAll('#map .node').length")
    place.expect("leaves are folded", count() == 20 and place.texts("#map .folded text") == ["+99", "+1"], place.texts("#map .folded text"))
    choose(place, "fold", "branches")
    place.expect("branches are folded", count() <= 18, count())
    choose(place, "fold", "leaves")
    place.chromium.click("#map .node[data-node='102'] .folded")
    place.expect("what is folded is opened", count() == 21, count())
    place.run("location.hash = '#node=57'")
    place.wait()
    place.expect("what is chosen is not folded", count() == 120 and place.run("document.querySelector('[data-node=\"57\"]') !== null"), count())
    choose(place, "fold", "none")
    place.expect("nothing is folded", count() == 120)
    place.quiet("folded")


# ---- routes that the page finds, and those of the program


# What is said of each effect of a domain's filters.
EFFECTS = "((data) => data.filters.map((it) => it.effects.map(({ distances }) => new Words(new Domain(data)).effect(distances))))"


def distances_of(words, size):
    """The distances that words say, such as `0-2 kept, 3-4 +2, 5 become 9, 6-7 rejected`."""
    found = []
    for run in words.split(", "):
        range_of, _, becomes = run.partition(" ")
        first, _, last = range_of.partition("\u2013")
        for distance in range(int(first), int(last or first) + 1):
            more = {"kept": distance, "rejected": size}
            found.append(more[becomes] if becomes in more else distance + int(becomes) if becomes[0] == "+" else int(becomes.removeprefix("become ")))
    return found


# The tables of a domain without some links and nodes, for many choices of these.
TABLES = """((data, all) => {
  const domain = new Domain(data);
  return all.map(([links, nodes]) => domain.tablesWithout({ links, nodes }));
})"""


def random_domain(numbers):
    """A script of a domain without questions."""
    size = numbers.randint(2, 9)
    yield f"domain {size}"
    yield from (f"prefix {v} 10.{v % 4}.{v}.0/24" for v in range(size) if numbers.randrange(4) == 0)
    yield from (f"load {name} filter f {{ {numbers.choice(FILTERS)} }}" for name in NAMES)
    yield from (f"link {u} {w}" for u, w in itertools.combinations(range(size), 2) if numbers.randrange(5) < 2)
    # A route may pass two filters on its way over a link.
    yield from (f"{kind} {u} {w} {numbers.choice(NAMES)}"
                for kind in ("import", "export") for u, w in itertools.permutations(range(size), 2) if numbers.randrange(3) == 0)


def failures(place, number, seed):
    """The page finds of a random domain where something fails what the program finds where it is cut: one link, two of them, a node."""
    numbers = random.Random(f"page {seed} {number}")
    script = "\n".join(random_domain(numbers))
    data = page_oracle.Domain(place.program, script.encode()).data()
    links, size = [it["link"] for it in data["links"]], data["size"]
    fails = [([], [])] + [([one], []) for one in range(len(links))]
    fails += [(sorted(numbers.sample(range(len(links)), 2)), []) for _ in range(3) if len(links) > 1] + [([], [numbers.randrange(size)])]
    found = place.run(f"{TABLES}({json.dumps(data)}, {json.dumps(fails)})")
    for (cut, nodes), tables in zip(fails, found):
        gone = [pair for place_of, pair in enumerate(links) if place_of in cut or set(pair) & set(nodes)]
        wanted = tables_after(place, data, *(f"cut {u} {w}" for u, w in gone))
        place.expect(f"domain {number} without {gone}", tables == wanted, f"{script}: {tables} and {wanted}")
    for known, words in zip(data["filters"], place.run(f"{EFFECTS}({json.dumps(data)})")):
        effects = [effect["distances"] for effect in known["effects"]]
        told = [distances_of(it, size) for it in words]
        place.expect(f"domain {number}: what filter {known['name']} makes of distances", told == effects, f"{words} and {effects}")
    differing = place.run(f"{DIFFERING}({json.dumps(data)})")
    place.expect(f"domain {number}: the numbers of its failures", differing == [], f"{script}: {differing}")


# ---- hostile texts


def hostile(place, data):
    """Nothing of a text is run or read as an element, wherever it stands; and it is shown as it is."""
    elements = None
    for text in ("plain", *HOSTILE):
        filters = [{**known, "name": text, "text": text, "listing": [text]} for known in data["filters"]]
        place.show(text, {**data, "filters": filters, "prefixes": [text] + data["prefixes"][1:]}, "#fail=0-1&node=0")
        place.run("document.querySelectorAll('details').forEach((it) => it.open = true)")
        names = place.run("[...document.querySelectorAll('*')].map((it) => it.localName).join(' ')")
        elements = elements or names
        place.expect(f"{text!r} is not run", place.run("window.ran === undefined"))
        place.expect(f"{text!r} is no element", names == elements, names)
        shown = [place.text("#name"), place.text("#filter-0 strong"), place.text("#filter-0 pre"), place.text("#map .node[data-node='0'] .prefix")]
        place.expect(f"{text!r} is shown", shown == [text] * 4, shown)
        title = place.run("document.title")
        place.expect(f"{text!r} is in the title", "\x00" in text or title == f"{text}: routing domain", title)
        place.run(f"document.getElementById('search').value = {json.dumps(text)}")
        place.run("document.getElementById('search').dispatchEvent(new Event('input'))")
        place.expect(f"{text!r} is searched for", text.isspace() or place.texts("#found li"))
        place.quiet(repr(text))


def addresses(place, data):
    """Odd words behind `#` choose nothing."""
    odd = "node=<img src=x onerror=window.ran=1>"
    for words in (odd, "node=-1", "node=50", "node=1.5", "fail=0-0", "fail=0-99", "fail=a,b,,-", "fail=__proto__", "%", "node=%00"):
        place.show("fifty", data, f"#{words}")
        place.expect(f"#{words}", place.text("#detail h2") == "At a glance" and place.run("window.ran === undefined"), place.text("#detail h2"))
        place.quiet(f"#{words}")


def by_files(place):
    """The same of a script's own file, whose name and comments are hostile."""
    name = "<img src=x onerror=window.ran=1>'\".domain"
    text = "domain 3\nload a filter a { /* </script><script>window.ran=1</script> \" \\ */ accept; }\nlink 0 1\nimport 0 1 a\nlink 1 2\n"
    path = place.folder / name
    path.write_text(text)
    words = [sys.executable, TOP / "scripts" / "page_oracle.py", path, "--page"]
    ran = subprocess.run(words, capture_output=True, env={**os.environ, "NCROUTE": place.program})
    page = ran.stdout.decode()
    blocks = [part.split("</script>")[0] for part in page.split('type="application/json"')[1:]]
    place.expect("the data of a page has no bracket that opens", len(blocks) == 2 and not any("<" in block for block in blocks))
    (place.folder / "page.html").write_text(page)
    place.chromium.open("about:blank")
    place.chromium.open((place.folder / "page.html").as_uri())
    place.expect("a hostile file is shown", place.text("#name") == str(path) and "</script>" in place.text("#filter-0 pre"), ran.stderr)
    place.expect("a hostile file is not run", place.run("window.ran === undefined && document.querySelectorAll('script').length === 3"))
    place.quiet("a hostile file")
    # What a page was not made with is not run, even if it gets into it.
    place.run("document.body.append(Object.assign(document.createElement('script'), { textContent: 'window.ran = 1' }))")
    place.run("document.body.insertAdjacentHTML('beforeend', '<img src=x onerror=window.ran=1>')")
    place.wait()
    is_refused = "Content Security Policy" in " ".join(place.chromium.told)
    place.expect("no other script is run", place.run("window.ran === undefined") and is_refused, place.chromium.told)
    place.chromium.told.clear()


def main(words):
    if len(words) > 2:
        sys.exit(__doc__)
    count, seed = (int(word) for word in (words + ["40", "1"][len(words):]))
    counts, program = Counts(), os.path.abspath(built())
    sources(counts)
    with tempfile.TemporaryDirectory() as folder:
        try:
            chromium = Chromium()
        except NotRun as why:
            counts.skip("pages", why)
            counts.finish()
        with chromium:
            place = Place(folder, chromium, counts, program)
            data = {name: example(place, name) for name in EXAMPLES}
            clicks(place, data["fifty_nodes"])
            folded(place)
            hostile(place, data["fifty_nodes"])
            addresses(place, data["fifty_nodes"])
            by_files(place)
            place.show("ring", data["ring_of_five"])
            for number in range(count):
                failures(place, number, seed)
            place.quiet("random domains")
    counts.finish()


if __name__ == "__main__":
    main(sys.argv[1:])

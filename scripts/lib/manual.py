"""Which documents of `docs/` are man pages, and how their Markdown becomes roff. `make_manual.py` puts the pages together.

A document about one command, or about `ncimport`, is the last section of its page, in place of the running text of its help; each other one is a
page of its own, in section 5 (formats), 7, or 8 (programs beside the router).
A link to another page becomes that page's name and section, and a link to anything else its text alone. A form of Markdown that no document
has used yet ends the script with a message, so that nothing is left out unseen.
"""
import pathlib
import re
import sys

from lib.program import TOP

DOCS = TOP / "docs"
NAME = "ncroute"

# The page and the section of each document. That of ROUTER.md is named after its title, since `ncroute router` has a page.
PAGES = {
    "CHECK": ("ncroute-check", 1), "DIFF": ("ncroute-diff", 1), "DOMAIN": ("ncroute-domain", 1),
    "FILTER": ("ncroute-filter", 1), "IMPORT": ("ncimport", 1), "LINT": ("ncroute-lint", 1), "LIST": ("ncroute-list", 1),
    "DAEMON": ("ncroute-router", 1), "TESTING": ("ncroute-test", 1),
    "CONTROL": ("ncroute-ctl", 8), "KERNEL": ("ncroute-kernel", 8),
    "CODE_FILE": ("ncroute-code-file", 5), "HISTORY": ("ncroute-history", 5), "SCRIPT": ("ncroute-script", 5),
    "CI": ("ncroute-ci", 7), "LANGUAGE": ("ncroute-language", 7), "LINES": ("ncroute-lines", 7),
    "MACHINE": ("ncroute-machine", 7), "NETWORK": ("ncroute-network", 7), "OPERATORS": ("ncroute-operators", 7),
    "ROUTER": ("ncroute-tables", 7), "RUNNING": ("ncroute-running", 7), "SESSIONS": ("ncroute-sessions", 7), "VERIFIER": ("ncroute-verifier", 7),
}
# Those for people who change the program or build on it.
NO_PAGES = {"ARCHITECTURE", "CALLS", "DECISIONS", "EMBEDDING", "LOCK", "PROMISES"}

# The columns that a table can take: 80, less the page's indentation and what `man` keeps free at the right.
COLUMNS = 71
CODE = "    "

INLINE = re.compile(r"""
    `(?P<code>[^`]+)` | \*\*(?P<strong>.+?)\*\* | \*(?P<emphasis>[^*\s][^*]*)\* | (?<!!)\[(?P<text>(?:`[^`]*`|[^][`])+)\]\((?P<target>[^)\s]+)\)
""", re.VERBOSE)
UNKNOWN_INLINE = re.compile(r"`|\*\S|\S\*|(?<!\w)_\w|\\|\]\(|\]\[|<\w|&#?\w+;|~~|https?:")
UNKNOWN_BLOCK = re.compile(r"[>+<]|\* |1\. |\d+\) |[-*_]{3,}$|={3,}$|\[\w+\]:|.*  $")


# ---- text


def roff(text):
    """A text as roff has it: no sign means anything else, and no line is a request."""
    escaped = text.replace("\\", "\\e").replace("-", "\\-").replace("'", "\\(aq").replace("`", "\\(ga").replace("^", "\\(ha").replace("~", "\\(ti")
    escaped = re.sub(r"[^\x00-\x7f]", lambda sign: f"\\[u{ord(sign[0]):04X}]", escaped)
    return re.sub(r"(?m)^([.'])", r"\\&\1", escaped)


def columns(text):
    """How many columns a text takes that is roff."""
    return len(re.sub(r"\\\(..|\\\[\w+\]|\\[-e]", "x", re.sub(r"\\f.|\\&", "", text)))


def reference(page):
    name, section = page
    return f"\\fB{roff(name)}\\fR({section})"


class Document:
    """A document: the page and section that it is on, its title, its text as roff, and the pages that it refers to."""

    def __init__(self, name, folder=DOCS):
        self.name, self.page, self.references = name, PAGES[name], set()
        title, *self.rest = pathlib.Path(folder, f"{name}.md").read_text(encoding="utf-8").split("\n")
        if not title.startswith("# "):
            self.stop(title)
        self.title = re.sub(rf"^`{NAME}[ -]\w+`: ", "", title[2:])
        # On a command's page the whole document is one section.
        self.headings = {"##": ".SS"} if self.page[1] == 1 else {"##": ".SH", "###": ".SS"}
        self.lines = [line for block in self.blocks() for line in self.block(block)]

    def stop(self, form):
        sys.exit(f"docs/{self.name}.md has a form that no man page is made of yet: {form}")

    # ---- inline

    def inline(self, text, font="R"):
        """Running text as roff; `font` is the one around it."""
        parts, at = [], 0
        for found in INLINE.finditer(text):
            parts += [self.plain(text[at : found.start()]), self.span(found, font)]
            at = found.end()
        return re.sub(r"^([.'])", r"\\&\1", "".join([*parts, self.plain(text[at:])]))

    def plain(self, text):
        if UNKNOWN_INLINE.search(text):
            self.stop(text)
        return roff(text)

    def span(self, found, font):
        if found["code"]:
            self.names(found["code"])
            return f"\\fB{roff(found['code'])}\\f{font}"
        if found["strong"]:
            return f"\\fB{self.inline(found['strong'], 'B')}\\f{font}"
        if found["emphasis"]:
            return f"\\fI{self.inline(found['emphasis'], 'I')}\\f{font}"
        return self.link(found["text"], found["target"], font)

    def names(self, code):
        """A command that has no document of its own is not linked to, but named."""
        command = re.match(rf"{NAME} (\w+)", code)
        if command and (page := (f"{NAME}-{command[1]}", 1)) not in PAGES.values():
            self.references.add(page)

    def link(self, text, target, font):
        path = target.partition("#")[0]
        if ":" in path:
            self.stop(target)
        page = PAGES.get(path.removesuffix(".md"))
        if not page or page == self.page:
            return self.inline(text, font)
        self.references.add(page)
        named = reference(page).replace("\\fR", f"\\f{font}")
        command = page[0].removeprefix(f"{NAME}-")
        return named if text in (path, f"`{command}`", f"`{NAME} {command}`") else f"{self.inline(text, font)} ({named})"

    # ---- blocks

    def blocks(self):
        """The lines of each block: what stands between blank lines, or between the fences of code."""
        block, fenced = [], False
        for line in [*self.rest, ""]:
            if line.startswith("```"):
                fenced = not fenced
            if fenced or line.startswith(CODE) or line.strip():
                block.append(line)
            elif block:
                yield block
                block = []
        if fenced:
            self.stop(block[0])

    def block(self, lines):
        first = lines[0]
        if first.startswith("```"):
            return self.code(lines[1:-1]) if lines[-1] == "```" else self.stop(lines[-1])
        if first.startswith(CODE):
            return self.code([line[len(CODE) :] if line.startswith(CODE) else self.stop(line) for line in lines])
        if first.startswith("#") and len(lines) == 1:
            return self.heading(first)
        if first.startswith("|"):
            return self.table(lines)
        if re.match(r"- |\d+\. ", first):
            return self.list(lines)
        if picture := re.fullmatch(r"!\[([^]]*)\]\(([^)\s]+)\)", first):
            return [".PP", self.inline(f"Picture `docs/{picture[2]}`: {picture[1]}")] if len(lines) == 1 else self.stop(lines[1])
        return self.paragraph(lines)

    def paragraph(self, lines):
        for line in lines:
            if UNKNOWN_BLOCK.match(line) or line.startswith((" ", "- ", "|", "#", "```")):
                self.stop(line)
        return [".PP", self.inline(" ".join(lines))]

    def heading(self, line):
        mark, _, text = line.partition(" ")
        macro = self.headings.get(mark) or self.stop(line)
        return [f"{macro} {self.heading_text(text, macro)}"]

    def heading_text(self, text, macro):
        """A heading; one of `.SH` is in capitals, but for code in it."""
        if macro == ".SH":
            text = "".join(part if part.startswith("`") else part.upper() for part in re.split(r"(`[^`]*`)", text))
        return self.inline(text, "B").replace('"', "\\(dq")

    def code(self, lines):
        return [".PP", ".RS 4", ".nf", *(roff(line.expandtabs()) for line in lines), ".fi", ".RE"]

    def list(self, lines):
        items = []
        for line in lines:
            mark, text = re.fullmatch(r"(- |\d+\. | *)(.*)", line).groups()
            if mark.strip():
                items.append([mark, text])
            elif len(mark) == len(items[-1][0]):
                items[-1].append(text)
            else:
                self.stop(line)
        if any(UNKNOWN_BLOCK.match(text) or re.match(r"[-|#] |\d+\. ", text) for _, *texts in items for text in texts):
            self.stop(lines[0])
        return [line for mark, *texts in items for line in (".IP \\(bu 2" if mark == "- " else f".IP {mark.strip()} 4", self.inline(" ".join(texts)))]

    def table(self, lines):
        """A table for `tbl`. Cells of the columns that are too wide are text blocks; the last such column takes what a wide page has left."""
        if len(lines) < 3 or not re.fullmatch(r"\|(-+\|)+", lines[1]):
            self.stop(lines[0])
        head, *rows = [self.cells(line) for line in [lines[0], *lines[2:]]]
        if any(len(row) != lines[1].count("|") - 1 for row in [head, *rows]):
            self.stop(lines[0])
        widths = fitting([[[columns(word) for word in cell.split()] for cell in row] for row in [head, *rows]]) or self.stop(lines[0])
        wraps = [any(columns(row[at]) > width for row in [head, *rows]) for at, width in enumerate(widths)]
        last = max((at for at, wrapped in enumerate(wraps) if wrapped), default=None)
        formats = ["l" if not wrapped else "lx" if at == last else f"lw({widths[at]}n)" for at, wrapped in enumerate(wraps)]
        drawn = ["\t".join(f"T{{\n{cell}\nT}}" if wrapped else cell for cell, wrapped in zip(row, wraps)) for row in [head, *rows]]
        return [".PP", ".TS", "allbox;", " ".join(["lB"] * len(head)), " ".join(formats) + ".", *drawn, ".TE", ".sp"]

    def cells(self, line):
        if not re.fullmatch(r"\|.*\|", line):
            self.stop(line)
        return [self.inline(cell.strip().replace("\\|", "|")) for cell in re.split(r"(?<!\\)\|", line[1:-1])]


def fitting(rows):
    """The widths of a table's columns, by the lengths of the words in the cells of its rows: the columns are made narrower, always the one that adds
    least to the height of the table, until it fits. Nothing if it never does."""
    at_all = range(len(rows[0]))
    least = [max(max(row[at], default=1) for row in rows) for at in at_all]
    widths = [max(sum(row[at]) + len(row[at]) - 1 for row in rows) for at in at_all]
    heights = [[1] * len(widths) for _ in rows]

    def narrower(at):
        column = [height(row[at], widths[at] - 1) for row in rows]
        return sum(max([it, *others[:at], *others[at + 1 :]]) for it, others in zip(column, heights)), -widths[at], at, column

    while sum(widths) + 3 * len(widths) + 1 > COLUMNS:
        choices = [narrower(at) for at in at_all if widths[at] > least[at]]
        if not choices:
            return None
        _, _, chosen, column = min(choices)
        widths[chosen] -= 1
        for it, others in zip(column, heights):
            others[chosen] = it
    return widths


def height(words, width):
    """How many lines some words take, by their lengths."""
    count, used = 1, -1
    for word in words:
        used += 1 + word
        if used > width:
            count, used = count + 1, word
    return count


def documents():
    """The documents that are pages or parts of pages."""
    names = {path.stem for path in DOCS.glob("*.md")}
    if wrong := names ^ (set(PAGES) | NO_PAGES):
        sys.exit(f"scripts/lib/manual.py says which documents are man pages, and does not fit docs/: {', '.join(sorted(wrong))}")
    return [Document(name) for name in sorted(names - NO_PAGES)]

"""The documents, README.md and those of `docs/`, and the examples in them."""
import re

from lib.program import TOP


def names():
    """The documents, by their names from the top of the repository."""
    return ["README.md", *sorted(f"docs/{path.name}" for path in TOP.glob("docs/*.md"))]


def read(name):
    return (TOP / name).read_text(encoding="utf-8")


def examples(text):
    """The commands of a document, lines `    $ COMMAND`, and what they write, the indented lines below."""
    found = []
    for line in text.split("\n"):
        if line.startswith("    $ "):
            found.append((line[6:], []))
        elif line.startswith("    ") and found and found[-1][1] is not None:
            found[-1][1].append(line[4:] + "\n")
        elif found and not line.startswith("    "):
            found.append(("", None))
    return [(command, "".join(wanted)) for command, wanted in found if wanted is not None]


def shown_files(text):
    """The files of `/etc/ncroute` that a document shows, by their names: each of them below the paragraph that names it last."""
    found = {}
    for paragraph, block in re.findall(r"(?m)^((?:\S.*\n)+)\n((?: {4}(?!\w+[$#>:] ).*\n)+)", text):
        if named := re.findall(r"`/etc/ncroute/([\w.]+)`", paragraph):
            found[named[-1]] = re.sub("(?m)^ {4}", "", block)
    return found

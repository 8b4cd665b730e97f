#!/usr/bin/env python3
"""Installs the programs in a temporary folder, and looks at what came there: the programs, the man pages, the completions, and the syntax files, by
which each token of the filters in `examples/` is read. Prints what is wrong, and at last 'N passed, M failed'. What needs a program that is not there
(`groff`, `vim`, `zsh`, `fish`) is not run: a line says so, and it counts as skipped.

usage: NCROUTE=PATH scripts/check_install.py     (PATH: `ncroute` as it is built, with `ncimport` beside it)
"""
import collections
import itertools
import json
import os
import pathlib
import re
import subprocess
import tempfile

from lib import documents, manual
from lib.counts import Counts, lack_of
from lib.program import TOP, built
from lib.tokens import tokens

# Those that are made of the sources.
PROGRAMS = ("ncroute", "ncimport")

# The words of BIRD that are refused by name.
LEFT_OUT = """function define print printn return include string pair quad ec lc bgppath bgpmask clist eclist lclist set from proto preference
source""".split()

# What a word is.
WORDS = {
    "statement": "filter if then else case accept reject", "kind": "int bool ip prefix", "truth": "true false",
    "route": "net rip_metric defined", "left out": " ".join(LEFT_OUT),
}
WORD_KINDS = {word: kind for kind, words in WORDS.items() for word in words.split()}
# More tokens than the examples have.
MORE = f"""filter more int a; {{ a = 0x1F * 2; if !(net.ip.mask(8) != 10.0.0.0) || true then /* two
lines */ accept "as is"; print "no"; }}
{" ".join(LEFT_OUT)}
"""

VIM = {
    "comment": "ncrouteComment", "text": "ncrouteText", "net": "ncrouteNet", "number": "ncrouteNumber", "part": "ncroutePart",
    "statement": "ncrouteStatement", "kind": "ncrouteKind", "truth": "ncrouteTruth", "route": "ncrouteRoute", "left out": "ncrouteLeftOut",
    "sign": "ncrouteSign", "name": "", "mark": "",
}
TEXTMATE = {
    "comment": "comment", "text": "string", "net": "constant.other", "number": "constant.numeric", "part": "support.function",
    "statement": "keyword.control", "kind": "storage.type", "truth": "constant.language", "route": "variable.language",
    "left out": "invalid", "sign": "keyword.operator", "name": "variable.other", "mark": "",
}


def kinds_of_tokens(text):
    """The place of each token in a text, and what it is; of a name what the word is, or that it is a part of what stands before it."""
    for token in tokens(text):
        is_part = token.text in ("ip", "len", "mask") and text[token.at - 1] == "."
        yield token.at, "part" if is_part else WORD_KINDS.get(token.text, "name") if token.kind == "name" else token.kind


def texts():
    yield from (path.read_text() for path in sorted(TOP.glob("examples/*.filter")))
    yield MORE


# ---- TextMate: the first pattern that matches earliest, as editors take it


def scopes(grammar, text):
    """The scope of each byte's token, as far as patterns give one."""
    rules = [(rule["name"], re.compile(rule.get("match") or f"{rule['begin']}.*?{rule['end']}", re.DOTALL if "begin" in rule else re.MULTILINE))
             for rule in grammar["patterns"]]
    found, at = {}, 0
    while at < len(text):
        matches = [(match.start(), index, match.end()) for index, (_, rule) in enumerate(rules) if (match := rule.search(text, at)) and match[0]]
        if not matches:
            break
        start, index, end = min(matches)
        found.update(dict.fromkeys(range(start, end), rules[index][0]))
        at = end
    return found


def textmate_differs(prefix):
    grammar = json.loads(pathlib.Path(prefix, "share/ncroute/vscode/syntaxes/ncroute.tmLanguage.json").read_text())
    for text in texts():
        found = scopes(grammar, text)
        for at, kind in kinds_of_tokens(text):
            if not found.get(at, "").startswith(TEXTMATE[kind]) or (not TEXTMATE[kind] and at in found):
                return f"{text[at:at + 20]!r} is {found.get(at)}, and not {TEXTMATE[kind] or 'nothing'}"
    return None


# ---- vim: it says itself what it takes each token for


def vim_differs(prefix):
    with tempfile.TemporaryDirectory() as folder:
        for text in texts():
            path, said, script = (pathlib.Path(folder, name) for name in ("it.filter", "said", "script.vim"))
            path.write_text(text)
            wanted = list(kinds_of_tokens(text))
            places = [(text.count("\n", 0, at) + 1, at - text.rfind("\n", 0, at)) for at, _ in wanted]
            kinds = "map(places, {_, p -> synIDattr(synID(p[0], p[1], 1), 'name')})"
            script.write_text(f"let places = {json.dumps(places)}\ncall writefile({kinds}, '{said}')\nqall!\n")
            subprocess.run(["vim", "-N", "-u", "NONE", "-es", "--cmd", f"set runtimepath^={prefix}/share/vim/vimfiles", "-c", "filetype on",
                            "-c", "syntax on", "-c", f"edit {path}", "-S", script], stdin=subprocess.DEVNULL, capture_output=True)
            names = said.read_text().split("\n")[:-1]
            said.unlink()
            if len(names) != len(wanted):
                return f"it says what {len(names)} tokens are, and not {len(wanted)}"
            for (at, kind), name in zip(wanted, names):
                if name != VIM[kind]:
                    return f"{text[at:at + 20]!r} is {name!r}, and not {VIM[kind]!r}"
    return None


# ---- completions


def completed(prefix, words):
    """What bash completes the last of some words to."""
    given = f'COMP_WORDS=({" ".join(words)}); COMP_CWORD={len(words) - 1}'
    line = f'. {prefix}/share/bash-completion/completions/{words[0]}; {given}; _{words[0]}; echo "${{COMPREPLY[@]}}"'
    return subprocess.run(["bash", "-c", line], capture_output=True, text=True, cwd=TOP).stdout.split()


def bash_differs(prefix):
    rows = (
        (["ncroute", "ch"], ["check"]),
        (["ncroute", "check", "--s"], ["--size"]),
        (["ncroute", "check", "--explain", "a"], ["auto", "always"]),
        (["ncroute", "filter", "--size", "16", "examples/no"], ["examples/no_bogons.filter"]),
        (["ncroute", "diff", "examples/no"], ["examples/no_bogons.filter"]),
        (["ncroute", "test", "examples/customer_list.t"], ["examples/customer_list.test"]),
        (["ncroute", "eval", "--e"], ["--explain"]),
        (["ncroute", "rewrite", "--e"], []),
        (["ncimport", "--o"], ["--out"]),
        (["ncimport", "--out", "exam"], ["examples"]),
        (["ncimport", "--size", "16", "examples/edge"], ["examples/edge_router.bird"]),
        (["ncroute", "run", "--save", "examples/no"], ["examples/no_bogons.filter"]),
    )
    for words, wanted in rows:
        if (found := completed(prefix, words)) != wanted:
            return f"{' '.join(words)}: {found}, and not {wanted}"
    return None


def zsh_differs(prefix):
    """What keeps zsh from reading its completions."""
    for name in PROGRAMS:
        ran = subprocess.run(["zsh", "-n", os.path.join(prefix, f"share/zsh/site-functions/_{name}")], capture_output=True, text=True)
        if ran.returncode:
            return ran.stderr
    return None


def fish_differs(prefix):
    for line, wanted in (("ncimport --o", ["--out"]), ("ncimport examples/edge", ["examples/edge_router.bird"]),
                         ("ncroute che", ["check"]), ("ncroute run --exp", ["--explain"]), ("ncroute check --explain ne", ["never"]),
                         ("ncroute run --save examples/no", ["examples/no_bogons.filter"])):
        path = os.path.join(prefix, f"share/fish/vendor_completions.d/{line.split()[0]}.fish")
        said = subprocess.run(["fish", "--no-config", "-c", f"source {path}; complete -C '{line}'"], capture_output=True, text=True).stdout
        if (found := [words.split("\t")[0] for words in said.splitlines()]) != wanted:
            return f"{line}: {found}, and not {wanted}"
    return None


# ---- programs


def programs_missing(prefix):
    """The programs run, and tell how they are called."""
    for name in (*PROGRAMS, "ncroute-ctl", "ncroute-kernel"):
        ran = subprocess.run([os.path.join(prefix, "bin", name), "--help"], capture_output=True, text=True, check=False)
        if ran.returncode or f"usage: {name} " not in ran.stdout.replace("Usage", "usage"):
            return f"{name}: {ran}"
    return None


# ---- man pages: shown by groff, and compared with the documents, which are read here by other means than those of `lib/manual.py`, which makes them


def pages_missing(prefix):
    """One page for each command, and the one that each document is on, as that of `ncimport`; no others."""
    said = subprocess.run([os.path.join(prefix, "bin", "ncroute"), "--help"], capture_output=True, text=True, check=True).stdout
    commands = re.findall(r"(?m)^  (\w+) ", said.partition("Commands:")[2].partition("Options:")[0])
    wanted = {("ncroute", 1)} | {(f"ncroute-{name}", 1) for name in commands if name != "help"} | set(manual.PAGES.values())
    if different := {f"man{section}/{name}.{section}" for name, section in wanted} ^ set(installed(prefix)):
        return f"there are others or too few: {sorted(different)}"
    return None


def installed(prefix):
    folder = pathlib.Path(prefix, "share", "man")
    return sorted(str(path.relative_to(folder)) for path in folder.glob("man*/*"))


def shown(prefix, page):
    """A page as `man` shows it on a terminal of 80 columns, and what groff says of it. The first line tells that it has tables."""
    path = pathlib.Path(prefix, "share", "man", page)
    tables = ["-t"] if path.read_text().startswith("'\\\" t\n") else []
    ran = subprocess.run(["groff", *tables, "-man", "-Tutf8", "-ww", "-rLL=78n", "-P-cbou", path], capture_output=True)
    return "\n".join(line.rstrip() for line in ran.stdout.decode().split("\n")), ran.stderr.decode()


def pages_differ(prefix):
    pages = installed(prefix)
    texts = {}
    for page in pages:
        texts[page], warnings = shown(prefix, page)
        if warnings:
            return f"{page}: {warnings}"
        if page.startswith("man1/") and not re.search(r"\nSYNOPSIS\n(?:.*\n)*OPTIONS\n(?:.*\n)* +Print help\n", texts[page]):
            return f"{page}: no synopsis or no options"
    if why := references_differ(texts):
        return why
    for name, (page, section) in manual.PAGES.items():
        if why := document_differs(name, (page, section), texts.get(f"man{section}/{page}.{section}", "")):
            return f"{page}({section}): {why}"
    return None


def references(text):
    """The pages that a text names."""
    return [(name, int(section)) for name, section in re.findall(r"(ncroute[\w-]*|ncimport)\((\d)\)", text)]


def references_differ(texts):
    """Each page names others at its end: all that it names before, and all that name it before theirs."""
    named, ends = {}, {}
    for file, text in texts.items():
        name, _, section = os.path.basename(file).rpartition(".")
        before, _, end = text.partition("\nSEE ALSO\n")
        named[name, int(section)], ends[name, int(section)] = references(before), references(end)
    for page, others in named.items():
        if not ends[page]:
            return f"{page}: it names no other page"
        for other in {*others, *ends[page]}:
            if other not in ends:
                return f"{page}: there is no page {other}"
            if other in others and other != page and (other not in ends[page] or page not in ends[other]):
                return f"{page} refers to {other}, and at the end of one of them the other is not named"
    return None


def document_differs(name, page, whole):
    """What a page lacks of the document that it has to show: a heading, code, a reference, a cell of a table, or words."""
    text = documents.read(f"docs/{name}.md")
    headings = [heading.replace("`", "") for heading in re.findall(r"(?m)^#+ (.*)$", re.sub(r"(?ms)^```.*?^```", "", text))]
    title = re.sub(r"^ncroute[ -]\w+: ", "", headings[0])
    if page[1] != 1 and f"{page[0]} - {title}\n" not in whole:
        return f"its description is not {title!r}"
    wanted = [title if page[1] == 1 else "DESCRIPTION", *headings[1:], "SEE ALSO"]
    found = re.findall(r"(?m)^(?: {3})?\S.*", whole)[1:-1]
    if [heading.strip().lower() for heading in found[-len(wanted) :]] != [heading.lower() for heading in wanted]:
        return f"the headings are {found}, and not {wanted}"
    part = whole.partition(f"\n{found[-len(wanted)]}\n")[2].partition("\nSEE ALSO\n")[0]
    links = [manual.PAGES.get(target, page) for target in re.findall(r"\]\((\w+)\.md[)#]", text)]
    if missing := collections.Counter(it for it in links if it != page) - collections.Counter(references(part)):
        return f"these references are lost: {sorted(missing)}"
    if missing := lost(text.partition("\n")[2], part):
        return f"these words are lost: {missing}"
    if (items := len(re.findall(r"(?m)^- ", text))) != (bullets := len(re.findall(r"(?m)^ {7}• ", part))):
        return f"it has {bullets} items of lists, and not {items}"
    return code_differs(text, part) or tables_differ(text, part)


def code_differs(text, part):
    at = 0
    for block in code(text):
        lines = "\n".join(" " * 11 + line.expandtabs() if line else "" for line in block)
        found = f"\n{part}\n".find(f"\n{lines}\n", at)
        if found < 0:
            return f"it does not show in its place\n{lines}"
        at = found + len(lines)
    return None


def tables_differ(text, part):
    for wanted, drawn in itertools.zip_longest(tables(text), drawn_tables(part), fillvalue=[]):
        if [len(row) for row in wanted] != [len(row) for row in drawn] or any(map(lost, itertools.chain(*wanted), itertools.chain(*drawn))):
            return f"a table is {drawn}, and not {wanted}"
    return None


def lost(text, part):
    """The words of a text of a document that the part of a page does not have which shows it."""
    return sorted(collections.Counter(words_of(text)) - collections.Counter(words_of(part)))


def code(text):
    """The blocks of code of a document."""
    for fenced, indented in re.findall(r"(?m)^```\w*\n((?:.*\n)*?)```$|((?:^    .*\n)+)", text):
        yield fenced.split("\n")[:-1] if fenced else [line[4:] for line in indented.split("\n")[:-1]]


def tables(text):
    """The cells of each row of each table of a document."""
    for head, rows in re.findall(r"(?m)^(\|.*\|\n)\|[-|]+\|\n((?:\|.*\|\n)*)", text):
        yield [re.split(r"(?<!\\)\|", row[1:-1]) for row in (head + rows).split("\n")[:-1]]


def drawn_tables(page):
    """The same of a page, whose cells take several lines."""
    for table in re.findall(r"(?m)^ +┌.*\n((?: +[│├].*\n)*) +└", page):
        rows = [[line.strip()[1:-1].split("│") for line in row.split("\n") if line] for row in re.split(r" +├.*\n", table)]
        yield [[" ".join(cell) for cell in zip(*lines)] for lines in rows]


def words_of(text):
    """The words of a text, but for where its links lead and the names of other documents that stand for their pages."""
    text = re.sub(r"\]\([^)\s]+\)", "]", re.sub(rf"\[({'|'.join(manual.PAGES)})\.md\]\([^)]+\)", "", text))
    return re.findall(r"\w+", re.sub(r"(?m)^```\w*$", "", text).replace("`", "").lower())


# Forms of Markdown that no document has, each of which has to end the script that makes the pages.
UNKNOWN_FORMS = (
    "> quoted", "* item", "+ item", "- a\n  - b", "1. a\n   1. b", "1) a", "a\n- b", "a\n1. b", "a  \nb", "a <b>word</b>", "<br>", "a &amp; b", "a\\",
    "[a][b]", "[a]: b", "see https://a.b", "[a](https://b.c)", "a _b_", "~~a~~", "a\nb\n====", "***", "#### deep", "# again", "| a |",
    "| a | b |\n|---|---|\n| c |", "| a |\n|:--|\n| b |", "| a |\n|---|\n| " + "b" * 80 + " |", "![a](b) c", "a ![b](c)", "a \\* b",
    "``a``", "`a", "**a", "~~~\na\n~~~", "```\na", "    a\nb", "a\n    b",
)


def forms_taken(_):
    """The first of these forms that is taken, and comes out as something else or not at all."""
    for form in UNKNOWN_FORMS:
        with tempfile.TemporaryDirectory() as folder:
            pathlib.Path(folder, "LANGUAGE.md").write_text(f"# Title\n\n## Heading\n\nText.\n\n{form}\n")
            try:
                manual.Document("LANGUAGE", folder)
            except SystemExit:
                continue
        return f"{form!r} is taken"
    return None


def signs_lost(_):
    """A line of code that is shown as another one: each begins with another sign, which may make a request of it."""
    lines = [f"{chr(sign)}B {chr(sign)}x{chr(sign)}" for sign in (*range(33, 127), ord("²"), ord("λ"))]
    page = ".TH SIGNS 7\n.nf\n" + manual.roff("\n".join(lines))
    ran = subprocess.run(["groff", "-man", "-Tutf8", "-ww", "-P-cbou"], input=page, capture_output=True, text=True)
    found = {line.strip() for line in ran.stdout.split("\n")}
    return ran.stderr or next((f"{line!r} is not shown" for line in lines if line not in found), None)


CHECKS = (
    ("the programs", None, programs_missing),
    ("the TextMate grammar", None, textmate_differs),
    ("the syntax file of vim", "vim", vim_differs),
    ("the files of the man pages", None, pages_missing),
    ("the forms of the documents", None, forms_taken),
    ("the signs of the man pages", "groff", signs_lost),
    ("the man pages", "groff", pages_differ),
    ("the completions of bash", "bash", bash_differs),
    ("the completions of zsh", "zsh", zsh_differs),
    ("the completions of fish", "fish", fish_differs),
)


def main():
    environment, counts = {**os.environ, "NCROUTE": built()}, Counts()
    with tempfile.TemporaryDirectory() as prefix:
        subprocess.run([TOP / "scripts" / "install.sh", prefix], env=environment, check=True, capture_output=True)
        for name, needed, differs in CHECKS:
            if why := lack_of(*filter(None, [needed])):
                counts.skip(name, why)
            else:
                counts.judge(name, differs(prefix))
    counts.finish()


if __name__ == "__main__":
    main()

#!/usr/bin/env python3
"""Times the commands on inputs that are made to take long, and prints a table: the bytes of each, the processor time and that of a byte.

usage: hostile.py NCROUTE NCIMPORT [COMMAND]

What is listed is the worst that was found for each command, its size doubled until it takes a second or meets a limit of the language. COMMAND, as
`diff`, has it print the rows of that command alone. A run ends after LIMIT seconds of the clock, and that is said.
"""
import os
import resource
import subprocess
import sys
import tempfile

LIMIT = 120
# The longest text of a filter, and the longest configuration that is tried.
LONGEST, LONGEST_CONFIG = 65_536, 1_048_576


def filter_of(body):
    return f"filter f {{ {body} }}\n"


def pair(before, after):
    """A comparison of two filters that differ in this. A number among the words stands for the file of that number."""
    return ["diff", "--size", "16", 0, 1], [filter_of(before), filter_of(after)]


def tested(body, tests):
    """Tests of a filter."""
    return ["test", 1], [filter_of(body), f"filter 0.filter\nsize 16\n{tests}"]


def lint(text):
    return ["lint", "--size", "16", 0], [text]


def imported(text):
    return ["ncimport", "--size", "16", 0], [text]


def repeated(front, middle, back, size):
    """A text of about so many bytes, with the middle as often as there is room."""
    return front + middle * ((size - len(front) - len(back)) // len(middle)) + back


def numbered(middle, size):
    """Pieces with their numbers, up to so many bytes."""
    pieces, taken = [], 0
    while taken < size:
        pieces.append(middle.format(len(pieces), len(pieces) + 1))
        taken += len(pieces[-1])
    return "".join(pieces)


def defined(size):
    """Definitions, each of the one before, and a filter with the last."""
    definitions = numbered("define A{1} = A{0};\n", size)
    return f"define A0 = 1;\n{definitions}filter f {{ if net.len > A{definitions.count('=')} then accept; reject; }}\n"


def histories():
    """A script whose first hundred events open sessions and take all that is to be told in them, and that asks for them many times."""
    events = [f"up {node}\ntake {node}\n" for node in range(1, 51)]
    return ["run", 0], ["network 250 0\n" + "".join(events) + "history 0\n" * 500]


def included(depth, width):
    """A configuration that includes so many files, each of which includes as many, so deep."""
    files = [f'include "{at + 1}.filter";\n' * width for at in range(depth)]
    return ["ncimport", "--size", "16", 0], [*files, "define A = 1;\n"]


# Rows of one size: the command, what the input is, and its words and files.
FIXED = [
    ("an address in a prefix that is longer than what is known", pair(
        "if net.ip ~ 1.2.0.0/16 then ; accept;",
        "if net.ip ~ 1.2.0.0/16 then ; reject;")),
    ("a mask of 16 bits in no prefix of 32, beside a metric", pair(
        "if rip_metric = 2 then accept; rip_metric = rip_metric + 1; if net.ip.mask(16) !~ 0.0.0.0/32 then accept; reject;",
        "if rip_metric = 2 then reject; rip_metric = rip_metric + 1; if net.ip.mask(16) !~ 0.0.0.0/32 then accept; reject;")),
    ("two masks, with another metric where they are equal", pair(
        "if net.ip.mask(24) = net.ip.mask(25) then rip_metric = rip_metric + 1; accept;",
        "if net.ip.mask(24) = net.ip.mask(25) then rip_metric = rip_metric + 2; accept;")),
    ("`every` that is undecided", tested("if net.ip.mask(24) = net.ip.mask(25) then accept; accept;", "every 0.0.0.0/0+ -> accept\n" * 8)),
    ("`history 0` of a hundred sessions and what is told in them", histories()),
    ("files that include the next one six times, six deep", included(6, 6)),
]

# Rows of growing inputs: the command, what the input is, its longest size, and what makes the words and files of one size.
GROWING = [
    ("prefixes with host bits, on one line", LONGEST, lambda size: lint(
        "filter f { " + f"if net ~ [ {numbered('9.{0}.0.1/16, ', 1_024)} 10.0.0.0/8 ] then accept; " * (size // 1_100) + "reject; }")),
    ("`(` that are not closed", LONGEST_CONFIG, lambda size: imported(repeated("filter f { print ", "(", "", size))),
    ("declarations", LONGEST_CONFIG, lambda size: imported("filter f { " + numbered("int a{} = 1; ", size) + "accept; }")),
    ("`&&` and `||` by turns", LONGEST_CONFIG, lambda size: imported(
        repeated("filter f { if true", " && true || true", " then accept; reject; }", size))),
    ("a function of many `return`s", LONGEST_CONFIG, lambda size: imported(
        repeated("function g() { ", "if net.len > 24 then return true; ", "return false; } filter f { if g() then accept; reject; }", size))),
    ("labels of a `case` of addresses", LONGEST_CONFIG, lambda size: imported(
        "filter f { case net.ip { " + numbered("1.0.{0}.0: accept; ", min(size, 4_000)) + "else: reject; } }")),
    ("pipes with tables of their own", LONGEST_CONFIG, lambda size: imported(
        numbered("ipv4 table t{0}; protocol pipe p{0} {{ table t{0}; peer table t{0}; import filter {{ accept; }}; }}\n", size))),
    ("definitions, each of the one before, and a filter with the last", LONGEST_CONFIG, lambda size: imported(defined(size))),
    ("definitions, and a filter with each of them", LONGEST_CONFIG, lambda size: imported(
        numbered("define A{0} = 1.0.1.0/24;\n", size) + "filter f { if net ~ [ "
        + numbered("A{0}, ", size // 4) + "2.0.0.0/8 ] then accept; reject; }\n")),
    ("filters", LONGEST_CONFIG, lambda size: imported(numbered("filter f{} {{ accept; }}\n", size))),
]


def run(programs, words, texts):
    """The processor time of a run in seconds, or nothing where it did not end."""
    with tempfile.TemporaryDirectory() as folder:
        names = [os.path.join(folder, f"{at}.filter") for at in range(len(texts))]
        for name, text in zip(names, texts):
            with open(name, "w", encoding="ascii") as out:
                out.write(text)
        before = resource.getrusage(resource.RUSAGE_CHILDREN)
        try:
            line = [names[word] if isinstance(word, int) else word for word in words]
            line = [programs[1], *line[1:]] if line[0] == "ncimport" else [programs[0], *line]
            subprocess.run(line, stdout=subprocess.DEVNULL, stderr=subprocess.DEVNULL, check=False, timeout=LIMIT)
        except subprocess.TimeoutExpired:
            return None
        after = resource.getrusage(resource.RUSAGE_CHILDREN)
    return after.ru_utime + after.ru_stime - before.ru_utime - before.ru_stime


def show(what, words, texts, seconds):
    size = sum(len(text) for text in texts)
    if seconds is None:
        print(f"| `{words[0]}` | {what} | {size:,} | more than {LIMIT} of the clock | |", flush=True)
    else:
        print(f"| `{words[0]}` | {what} | {size:,} | {seconds:.2f} | {seconds / size * 1e6:,.1f} |", flush=True)


def main():
    if len(sys.argv) not in (3, 4):
        sys.exit(__doc__)
    programs, wanted = [os.path.abspath(word) for word in sys.argv[1:3]], sys.argv[3:]
    print("| Command | Input | bytes | s | µs a byte |\n|---|---|---|---|---|")
    for what, (words, texts) in FIXED:
        if not wanted or wanted == words[:1]:
            show(what, words, texts, run(programs, words, texts))
    for what, longest, made in GROWING:
        size, last = 8_192, None
        while size <= longest:
            words, texts = made(size)
            if wanted and wanted != words[:1]:
                break
            last = words, texts, run(programs, words, texts)
            if last[2] is None or last[2] > 1:
                break
            size *= 2
        if last is not None:
            show(what, *last)


if __name__ == "__main__":
    main()

#!/usr/bin/env python3
"""Compares what `check`, `diff`, `lint` and `test` write in JSON and in JUnit's XML, as Python reads it, with what they say to people: of files with
odd names, in which odd words stand. Prints a line for each that differs, and at last 'N passed, M failed'.

usage: NCROUTE=PATH scripts/check_formats.py [COUNT]     (PATH: the program; COUNT: of names, 150 where none is said)
"""
import json
import os
import pathlib
import random
import re
import subprocess
import sys
import tempfile
import xml.etree.ElementTree

from lib.counts import Counts
from lib.program import built

SEED = 11
MEMBERS = {"code", "column", "file", "line", "severity", "words"}
CLASS_MEMBERS = {"after", "before", "greatest", "least", "longest", "prefix", "severity", "shortest", "words"}
SEVERITIES = {"ok", "warning", "error", "undecided"}
WORDS = [
    "<a>", "&amp;", "]]>", '"', "'", "\\u0000", "\\", "</testcase>", "<!--", "é", "漢字", "🙂", "\u202e", "\u2028", "\ufffe", "\uffff", "\x7f", "\x85",
    "\x1b[31m",
]
TEXTS = [
    "filter f { accept; } WORD", "WORD", "filter WORD { accept; }", "filter f { if net = WORD then reject; accept; }", "# WORD\nfilter f { accept; ",
    'filter f { accept "WORD"; reject; }', "filter f { # WORD\n if net.len > 32 then reject; accept; }", "filter f int WORD; { accept; }",
    "filter f { if net ~ [ 10.1.2.3/8+ ] then reject; accept; }", "filter f int k; { k = net.len - 9; if k > 1 then reject; accept; }",
]
FILTERS = [
    "filter f { accept; }", "filter f { reject; }", "filter f { if net ~ [ 10.0.0.0/8{9,24} ] then reject; accept; }",
    "filter f { if net ~ [ 10.0.0.0/8+, 8.0.0.0/5- ] then { rip_metric = rip_metric + 1; accept; } reject; }",
    "filter f { if rip_metric > 3 then reject; accept; }", "filter f { if net.ip.mask(24) = net.ip then ; accept; }", "filter f { accept",
    "filter f { if rip_metric < 5 then rip_metric = 5; accept; }",
    "filter f { if net.len > 8 then { case rip_metric { 4..9: rip_metric = 9; 10: rip_metric = 11; } } accept; }",
]
TESTS = [
    "10.1.0.0/16 4 -> accept 4", "10.1.0.0/16 4 -> reject", "every 10.0.0.0/8+ -> accept", "every 0.0.0.0/0+ -> reject", "0.0.0.0/0 16 -> accept",
]


def some_text(chance):
    """A short text of odd characters, in which neither a slash nor a byte 0 is, as in the name of a file."""
    odd = [*WORDS, *" a\t\n\r\x01<>&", chr(chance.randrange(32, 1280)), chr(chance.randrange(0xe000, 9 ** 6))]
    return "".join(chance.choice(odd) for _ in range(chance.randrange(1, 7))).replace("/", "|")


class Place:
    """A folder with files of odd names, in which the program is run."""

    def __init__(self, folder, program):
        self.folder, self.program = folder, program

    def write(self, name, text):
        pathlib.Path(self.folder, name).write_bytes(text.encode())

    def run(self, *words):
        """The lines of standard output and of standard error, and the status."""
        ran = subprocess.run([self.program, *words], cwd=self.folder, capture_output=True)
        return ran.stdout.decode(), ran.stderr.decode(), ran.returncode

    def reports(self, *words):
        """The objects that are written with `--format json`, what is told beside them, and the status."""
        output, told, status = self.run(words[0], "--format", "json", *words[1:])
        return [json.loads(line) for line in output.split("\n")[:-1]], told, status


def lines(text):
    return text.split("\n")[:-1]


def misfits(found, name, members=frozenset(MEMBERS)):
    """What is wrong with the form of a report on a file of this name."""
    if set(found) != members:
        yield f"has the members {sorted(found)}"
    if found["severity"] not in SEVERITIES:
        yield f"has the severity {found['severity']!r}"
    if members == MEMBERS and found["file"] != name:
        yield f"names {found['file']!r}"


def place_and_words(found):
    """How a line for people ends that says what a report says."""
    place = f":{found['line']}:{found['column']}" if found["line"] else ""
    return f"{place}: {found['words']}" + (f" ({found['code']})" if found["code"] else "")


def judge_lint(place, name):
    """How the reports of `lint` differ from its lines."""
    reports, told, status = place.reports("lint", "--size", "16", "--", name)
    shown, explained, same = place.run("lint", "--size", "16", "--explain", "always", "--", name)
    for found in reports:
        yield from misfits(found, name)
    said = [line for line in lines(shown)] or lines(explained)[:1]
    if status != same or told or len(said) != len(reports):
        yield f"status {status} and {same}, {said} and {reports}, told {told!r}"
    for line, found in zip(said, reports):
        if not line.endswith(place_and_words(found)):
            yield f"{line!r} and {found}"


def judge_check(place, name):
    """The same of `check`."""
    reports, told, status = place.reports("check", "--size", "16", "--explain", "never", "--", name)
    shown, explained, same = place.run("check", "--size", "16", "--explain", "always", "--", name)
    for found in reports:
        yield from misfits(found, name)
    verdict = "ok" if "verified" in shown else "error"
    if status != same or told or [found["severity"] for found in reports] != [verdict]:
        yield f"status {status} and {same}, {shown!r} and {reports}, told {told!r}"
    elif verdict == "error" and not lines(explained)[0].endswith(place_and_words(reports[0])):
        yield f"{explained!r} and {reports}"


def judge_diff(place, old, new):
    """The same of `diff`."""
    reports, told, status = place.reports("diff", "--size", "16", "--limit", "1000", "--", old, new)
    shown, explained, same = place.run("diff", "--size", "16", "--limit", "1000", "--explain", "always", "--", old, new)
    if status != same or told:
        yield f"status {status} and {same}, told {told!r}"
    if not shown:
        if [found["severity"] for found in reports] != ["error"] * len(reports) or not explained:
            yield f"{explained!r} and {reports}"
        return
    if lines(shown) != [found["words"] for found in reports]:
        yield f"{shown!r} and {reports}"
    for found in reports:
        if "prefix" in found:
            yield from misfits(found, new, CLASS_MEMBERS)
            routes = f"{found['prefix']}{{{found['shortest']},{found['longest']}}}, metrics {found['least']}..{found['greatest']}"
            verdicts = f"differ {routes}: {found['before']} | {found['after']}" if found["before"] else f"undecided {routes}"
            if verdicts != found["words"]:
                yield f"{verdicts!r} and {found}"
        else:
            yield from misfits(found, new)


def tap_tests(shown):
    """The tests of a stream for people: whether each holds, its line, and what is shown of it."""
    tests = []
    for line in lines(shown)[1:-1]:
        if line.startswith("# "):
            tests[-1][2] = line[2:]
        else:
            holds, text = re.match(r"(ok|not ok) \d+ - (.*)", line).groups()
            tests.append([holds == "ok", text, None])
    return tests


def kept_in_xml(text):
    """A text without what XML cannot have."""
    return "".join("\ufffd" if ord(c) < 32 or 127 <= ord(c) < 160 or c in "\ufffe\uffff" else c for c in text)


def unescaped(text):
    """What stands in a line of a file whose tests were not run, without the backslash before a `#` and before a backslash."""
    return re.sub(r"\\([\\#])", r"\1", text)


def judge_test(place, name):
    """The same of `test`, whose stream has a test for each report and each element."""
    reports, told, status = place.reports("test", "--limit", "1000", "--", name)
    shown, told_too, same = place.run("test", "--limit", "1000", "--", name)
    document, told_again, last = place.run("test", "--limit", "1000", "--format", "junit", "--", name)
    if not status == same == last or not told == told_too == told_again:
        yield f"status {status}, {same} and {last}, told {told!r}, {told_too!r} and {told_again!r}"
    cases = xml.etree.ElementTree.fromstring(document.encode()).findall("./testsuite/testcase")
    tests = tap_tests(shown)
    if not len(tests) == len(reports) == len(cases):
        yield f"{tests}, {reports} and {document!r}"
    kept = kept_in_xml(name)
    for (holds, text, found), report, case in zip(tests, reports, cases):
        yield from misfits(report, name)
        is_run = ": not run: " not in text
        severity = "ok" if holds else "error" if is_run and found != "undecided" else "undecided"
        said = "" if holds else f": does not hold: {found}" if severity == "error" else ": undecided"
        if report["severity"] != severity or (report["words"] != text + said if is_run else not unescaped(text).endswith(": " + report["words"])):
            yield f"{text!r} and {report}"
        children = {child.tag: child.get("message") for child in case}
        why = found or kept_in_xml(report["words"])
        expected = {} if holds else {"failure": f"does not hold: {found}"} if severity == "error" else {"error": why}
        if case.get("classname") != kept or case.get("name") != (text if is_run else kept) or children != expected:
            yield f"{text!r} and {case.attrib} with {children}"


def main():
    count = int(sys.argv[1]) if len(sys.argv) > 1 else 150
    chance, program, counts = random.Random(SEED), os.path.abspath(built()), Counts()
    with tempfile.TemporaryDirectory() as folder:
        place = Place(folder, program)
        for n, text in enumerate(FILTERS):
            place.write(f"{n}.filter", text)
        for n in range(count):
            name = some_text(chance) + str(n)
            place.write(name, chance.choice(TEXTS).replace("WORD", some_text(chance)))
            counts.judge(f"lint {name!r}", [*judge_lint(place, name)])
            counts.judge(f"check {name!r}", [*judge_check(place, name)])
            place.write(name, chance.choice(FILTERS))
            other = f"{chance.randrange(len(FILTERS))}.filter"
            counts.judge(f"diff {other} {name!r}", [*judge_diff(place, other, name)])
            place.write(name, "\n".join([f"filter {other}", "size 16", *chance.choices(TESTS, k=3), some_text(chance) if n % 5 == 0 else ""]))
            counts.judge(f"test {name!r}", [*judge_test(place, name)])
    counts.finish()


if __name__ == "__main__":
    main()

#!/usr/bin/env python3
"""Has the proved program and the plain one check random texts of filters, most of them with mistakes, and compares every byte.

usage: random_texts.py NCROUTE PLAIN TEXTS [SEED]

A text is a filter of `examples/`, or one of those below, in which up to six tokens are left out, put in, replaced or exchanged; some end too early.
It is checked for a domain of 1, 16, 64, 250 or 251 nodes. A text that the two answer differently, or end with another status, is written to
standard error with its number, and the exit status is 1.
"""
import glob
import os
import re
import subprocess
import sys

from generate import Numbers

SIZES = (1, 16, 64, 250, 251)
TEXTS = (
    "filter f { if 1 = true then ; }",
    "filter q { if net ~ [1.0.0.0/8{3,9}, 2.0.0.0/9+ ] && rip_metric > 3 || true then accept \"x\"; else reject; }",
    "filter c bool long; ip first; { long = net.len > 24 || net ~ 192.168.0.0/16; first = net.ip.mask(8); if long then reject; }",
    "filter d { if 8 / (rip_metric + 1) >= 2 then if defined(net) then accept; else reject; else { rip_metric = 3 - 0x1F; } int a; }",
    "filter n int a; bool b; prefix p; ip i; { a = a + 1 * 2 / 3 - 4; b = !b; p = net; i = p.ip; if i < 1.2.3.4 then accept; "
    "if a <= 3 && b && true then reject \"no\"; # c\n /* x */ b = (((b))); }",
    "filter k int a; { case rip_metric + a { 1, 3..5: a = 2; else: if net.len ~ [8, 16..24] then accept; 2, 6..9: reject; } reject; }",
    "filter m int a; { case a { else: case rip_metric { 0..3: if a !~ [1] then accept; 4: ; } } case 1 { } "
    "if true then case a { 1: if true then reject; else: accept; } else accept; }",
)
TOKENS = (
    *"filter int bool ip prefix if then else case accept reject true false defined net rip_metric a b p i x len mask 0 1 33 4294967295".split(),
    *"4294967296 0x 0xff 1.2.3.4 1.2.3 1.2.3.256 10.0.0.0/8 10.0.0.0/33 10.0.0.0/ \" \"t\" && || != !~ <= >= ( ) { } [ ] ; : , . .. else:".split(),
    *"1: 2..3 3..2 0..4294967295 1..2..3 [1] case".split(),
    *"= < > ~ ! + - * / # /* */ & | ' $ print é".split(),
    "\n", " ", "a" * 64, "b" * 65, "!" * 31, "!" * 33, "(" * 32, "{" * 33, "if a then " * 33,
)


def changed(numbers, tokens):
    """Tokens of which one is left out, put in, replaced, or exchanged with another."""
    at, other = numbers.below(len(tokens)), numbers.below(len(tokens))
    new = list(tokens)
    what = numbers.below(4)
    if what == 0:
        del new[at]
    elif what == 1:
        new.insert(at, numbers.one_of(TOKENS))
    elif what == 2:
        new[at] = numbers.one_of(TOKENS)
    else:
        new[at], new[other] = new[other], new[at]
    return new or [" "]


def text(numbers, texts):
    tokens = re.findall(r"\s+|\w+|.", numbers.one_of(texts), re.DOTALL)
    for _ in range(numbers.one_of((0, 1, 1, 1, 2, 3, 6))):
        tokens = changed(numbers, tokens)
    whole = "".join(tokens)
    return whole[: numbers.below(len(whole))] if numbers.below(20) == 0 else whole


def main(words):
    if len(words) not in (3, 4):
        sys.exit(__doc__)
    numbers = Numbers(int(words[3]) if len(words) > 3 else 1)
    examples = os.path.join(os.path.dirname(os.path.realpath(__file__)), "..", "examples", "*.filter")
    texts = TEXTS + tuple(open(name).read() for name in sorted(glob.glob(examples)))
    refused = 0
    for at in range(int(words[2])):
        given, size = text(numbers, texts).encode(), str(numbers.one_of(SIZES))
        first, second = (subprocess.run([program, "check", "--size", size], input=given, capture_output=True) for program in words[:2])
        if (first.stdout, first.returncode) != (second.stdout, second.returncode):
            sys.stderr.write(f"text {at} is answered differently for {size} nodes:\n{given.decode()}\n")
            sys.exit(1)
        refused += first.stdout.count(b"refused")
    print(f"{words[2]} texts are answered alike, {refused} of them with a refusal")


if __name__ == "__main__":
    main(sys.argv[1:])

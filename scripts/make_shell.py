#!/usr/bin/env python3
"""Puts the files of pages/ together to the page of a domain without its data, and prints it as the source in which the program has it.

usage: scripts/make_shell.py > crates/domain_reports/src/shell.rt
"""
import page_oracle

HEAD = """//! The page of a domain without its data. It is made by `scripts/make_shell.py` from the files of `pages/`, which say what it does.

use crate::page::Shell;

/// What is the same in the page of each domain.
pub fn page_shell() -> Shell<'static> {
    Shell {
        before: BEFORE,
        behind: BEHIND,
    }
}
"""

PART = '''
/// What stands {where} the data.
const {name}: &str = "\\
{lines}";
'''

PLACES = (("BEFORE", "before"), ("BEHIND", "behind"))


def escaped(line):
    """A line as a part of a text, whose lines are joined without the blanks at their beginning: so the first one of these is written as a number."""
    text = "".join(c if 32 <= ord(c) < 127 and c not in '"\\' else f"\\{c}" if c in '"\\' else f"\\u{{{ord(c):x}}}" for c in line)
    return "\\x20" + text[1:] if text.startswith(" ") else text


def source():
    """The source of the module that has the page."""
    text = HEAD
    for (name, where), part in zip(PLACES, page_oracle.shell()):
        text += PART.format(name=name, where=where, lines="\\n\\\n".join(escaped(line) for line in part.split("\n")))
    return text


if __name__ == "__main__":
    print(source(), end="")

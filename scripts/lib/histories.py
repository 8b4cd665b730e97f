"""Histories that are saved in segments: their files, and what `ncroute replay` says of them."""
import pathlib
import re
import subprocess

# What ends the state that a segment begins with: its entries come behind it.
STATE_END = b"\n.\n"


def segments_of(folder):
    """The files of a history's segments, in order. One that is being made is none of them: it has a name with a dot until it is whole."""
    return sorted(pathlib.Path(folder).glob("[0-9]*.history"))


def first_of(segment):
    """How many entries come before a segment."""
    return int(segment.name[:20])


def entries_of(text):
    """The lines of a segment's entries, as far as they are whole."""
    return text[text.index(STATE_END) + len(STATE_END):].split(b"\n")[:-1]


def end_of(segment, text):
    """How many entries the history has up to the last whole one of a segment."""
    return first_of(segment) + text.count(b"\n", text.index(STATE_END) + len(STATE_END))


def replayed(program, segments):
    """What `ncroute replay` says of segments, and its exit status."""
    ran = subprocess.run([program, "replay", *segments], capture_output=True, check=False)
    return ran.stdout.decode(), ran.returncode


def replay_ok(count, first=0):
    """What it says of so many entries that are right, which come behind so many others."""
    return f"replay ok {count}" + (f" from {first}" if first else "") + "\n"


def wrong_of(found, said, status=1):
    """What is wrong with what it said and its exit status, if anything is. The status is that of what is cut or refused, if no other is named."""
    return None if found == (said, status) else f"{found!r} in place of {(said, status)!r}"


def open_sessions(entries):
    """The sessions that entries open, and of which they have no Down, by the words that a history has for them."""
    found = set()
    for entry in entries:
        if match := re.match(r"\d+ (?:up \d+ opened (\d+)|down (\d+) done )", entry):
            found = found | {match[1]} if match[1] else found - {match[2]}
    return found

"""The programs that are made of what carries no promise: the tests of tests/calls/ and the benches of bench/parts/. They are built without proofs,
once for all parts of the test command."""
import os
import re
import subprocess

from lib.counts import NotRun, lack_of
from lib.program import TOP

# What of the environment says where a program is, or is to be built.
PLACES = {"test_calls": "TEST_CALLS", "bench_parts": "BENCH_PARTS"}


class NotBuilt(Exception):
    """What is said of sources that do not compile, or by what is no program of them."""


def built(name, folder):
    """The path of `test_calls` or `bench_parts`. It is built where its variable of the environment says, unless it is there already, or else in this
    folder."""
    path = os.path.abspath(os.environ.get(PLACES[name]) or os.path.join(folder, name))
    if os.path.exists(path):
        return path
    if why := lack_of("rt"):
        raise NotRun(why)
    ran = subprocess.run([TOP / "scripts" / "build_unproved.py", name, path], stdin=subprocess.DEVNULL, capture_output=True, text=True)
    if ran.returncode:
        raise NotBuilt(ran.stdout + ran.stderr)
    return path


def listed(tests):
    """The names of the built tests."""
    ran = subprocess.run([tests, "--list"], stdin=subprocess.DEVNULL, stdout=subprocess.PIPE, stderr=subprocess.STDOUT)
    said = ran.stdout.decode(errors="replace")
    if ran.returncode:
        raise NotBuilt(f"{tests} does not list its tests: status {ran.returncode}\n{said}")
    return re.findall(r"(?m)^(.+): test$", said)

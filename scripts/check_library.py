#!/usr/bin/env python3
"""Installs the library of filters for C in a temporary folder, builds the examples of `examples/c/` and the rows of `tests/c/` over it, and compares
them and the Python module with `ncroute filter`: on random routes and all filters of `examples/`, and on texts that are refused. Runs the examples of
docs/EMBEDDING.md too, in C, in Python and as a process. Most of these programs run under valgrind once more: no error, and no memory that is left.
Calls with arguments that are exchanged, or of another type, are compiled beside the right ones: the compiler has to refuse them, and says why.
Prints what differs, and at last 'N passed, M failed'. What needs a program that is not there (`cc`, `g++`, `pkg-config`, `valgrind`, pip) is not run:
a line says so, and it counts as skipped.

usage: NCROUTE=PATH scripts/check_library.py     (PATH: the program as it is built)
  FILTER_C=PATH   an archive of the crate filter_c that is built already; else one is built without proofs
  ROUTES=N        the number of random routes for each filter (100,000)
"""
import os
import pathlib
import random
import re
import shutil
import subprocess
import sys
import tempfile

from lib import documents
from lib.counts import Counts, lack_of
from lib.prefixes import written
from lib.program import TOP, Program, built

MOST_BYTES = 1_000_000
CALLS = {f"gomthau_filter_{name}" for name in ("open", "open_code", "run", "run_all", "bounds", "share", "close")}
SIZES = (16, 64, 250)
# How many routes a program takes under valgrind.
FEW = 2_000
MEMCHECK = ["valgrind", "-q", "--error-exitcode=99", "--leak-check=full", "--show-leak-kinds=all", "--errors-for-leak-kinds=all"]
HELGRIND = ["valgrind", "-q", "--tool=helgrind", "--error-exitcode=99"]
# Prefixes that the examples speak of, or that are near.
BASES = (0x0A000000, 0xC0A80000, 0xAC100000, 0xC6336400, 0xCB007100, 0xC0002000, 0x7F000000, 0xE0000000, 0x08080800)
REFUSED = (
    ("", 16), ("filter q { accept; }", 251), ("filter q { accept; }", 1), ("filter q {\n  print 1;\n}", 16), ("filter q { if 1 then accept; }", 16),
    ("filter q { zzz = 1; }", 16), ("filter q { reject", 16), ("filter q { rip_metric = 9 / rip_metric; accept; }", 16),
    ("filter q {\n  # ä\n  if net ~ [ 10.0.0.0/8{9,7} ] then accept;\n}", 16), ("filter \u00fc { accept; }", 16),
)

# What compiles a call; each name says what it is.
CALLER = """#include <gomthau_filter.h>
void caller(gomthau_filter *filter, gomthau_filter *other, gomthau_refused *refused, gomthau_bounds *bounds, const char *text, char *room,
            const void *code, const int *ints, gomthau_route *routes, gomthau_answer *answers, size_t count, uint32_t size, uint32_t address,
            uint8_t length, uint32_t metric) {
    CALL;
}
"""
TEXT, CODE, ROOM = "(gomthau_text){text, count}", "(gomthau_code){code, count}", "(gomthau_words){room, count}"
ROUTES, ANSWERS = "(gomthau_routes){routes, count}", "(gomthau_answers){answers, count}"
OPEN, OPEN_CODE = (f"gomthau_filter_{call}({source}, size, filter, refused, {ROOM})" for call, source in (("open", TEXT), ("open_code", CODE)))
RUN = "gomthau_filter_run(filter, (gomthau_route){.address = address, .length = length, .metric = metric})"
RUN_ALL = f"gomthau_filter_run_all(filter, {ROUTES}, {ANSWERS})"
# What is refused by each compiler, also by one that was told to warn of nothing.
OTHER_TYPE, TOO_MANY = "incompatible type", "too many arguments"
# What older compilers only warn of.
OTHER_POINTER, CONSTANT, NUMBER = "incompatible pointer type", "discards .*qualifier", "pointer.* integer|integer.* pointer"
# A right call, what is exchanged in it, the call that this makes, and what the compiler says of it.
WRONG_CALLS = (
    (OPEN, "text and words", f"gomthau_filter_open({ROOM}, size, filter, refused, {TEXT})", OTHER_TYPE),
    (OPEN, "text and size", f"gomthau_filter_open(size, {TEXT}, filter, refused, {ROOM})", OTHER_TYPE),
    (OPEN, "a text and a code file", OPEN.replace(TEXT, CODE), OTHER_TYPE),
    (OPEN_CODE, "a code file and a text", OPEN_CODE.replace(CODE, TEXT), OTHER_TYPE),
    (OPEN, "filter and refusal", f"gomthau_filter_open({TEXT}, size, refused, filter, {ROOM})", OTHER_POINTER),
    (OPEN, "integers for a text", OPEN.replace("{text,", "{ints,"), OTHER_POINTER),
    (OPEN, "a text for the room of words", OPEN.replace("{room,", "{text,"), CONSTANT),
    (OPEN, "a text and its length", OPEN.replace("{text, count}", "{count, text}"), NUMBER),
    (RUN, "numbers for a route", "gomthau_filter_run(filter, metric, length, address)", TOO_MANY),
    (RUN, "filter and route", "gomthau_filter_run(routes[0], filter)", OTHER_TYPE),
    (RUN, "numbers without their names", "gomthau_filter_run(filter, (gomthau_route){address, length, metric})", "positional"),
    (RUN_ALL, "routes and answers", f"gomthau_filter_run_all(filter, {ANSWERS}, {ROUTES})", OTHER_TYPE),
    (RUN_ALL, "the addresses of routes and answers", "gomthau_filter_run_all(filter, (gomthau_routes){answers, count}, "
     "(gomthau_answers){routes, count})", OTHER_POINTER),
    ("gomthau_filter_bounds(filter, bounds)", "filter and bounds", "gomthau_filter_bounds(bounds, filter)", OTHER_POINTER),
    ("*other = gomthau_filter_share(filter)", "two handles", "gomthau_filter_share(other, filter)", TOO_MANY),
)


class Library:
    """The library as it is installed in a folder, and what is built and run over it."""

    def __init__(self, counts, folder):
        self.counts, self.folder, self.prefix = counts, folder, folder / "prefix"
        self.environment = {
            **os.environ, "LD_LIBRARY_PATH": str(self.prefix / "lib"), "PYTHONPATH": str(folder / "python"), "PYTHONDONTWRITEBYTECODE": "1",
        }

    def without_path(self, **more):
        """The environment of a program to which nobody says where the library is."""
        return {name: text for name, text in {**self.environment, **more}.items() if name != "LD_LIBRARY_PATH"}

    def run(self, words, given=""):
        return subprocess.run(words, input=given.encode(), capture_output=True, env=self.environment, cwd=TOP)

    def install(self):
        """Installs it; whether that went well."""
        how = [] if os.environ.get("FILTER_C") else ["--unproved"]
        ran = self.run([TOP / "scripts" / "install.sh", "--library", *how, self.prefix])
        self.counts.judge("install.sh --library", ran.returncode and ran.stderr.decode(errors="replace")[-2000:])
        return not ran.returncode

    def build(self, source, *flags, is_static=False):
        """A program of a C file, over the shared object or over the archive."""
        out = self.folder / (source.stem + "_static" * is_static)
        library = "-l:libgomthau_filter.a" if is_static else "-lgomthau_filter"
        words = ["cc", "-std=c11", "-O2", "-g", "-Wall", "-Wextra", "-Werror", *flags, "-o", out, source]
        ran = self.run([*words, f"-I{self.prefix}/include", f"-L{self.prefix}/lib", library, "-pthread"])
        self.counts.judge(f"building {source.name}", ran.returncode and ran.stderr.decode())
        # Without optimisation a compiler warns of other things: it does not see what a call of the header does with its arguments.
        words = ["cc", "-std=c11", "-O0", "-Wall", "-Wextra", "-Werror", "-c", "-o", self.folder / "plain.o", source]
        ran = self.run([*words, f"-I{self.prefix}/include"])
        self.counts.judge(f"building {source.name} without optimisation", ran.returncode and ran.stderr.decode())
        return out

    def errors_of(self, call, *flags):
        """What the C compiler says is wrong with a call."""
        ran = self.run(["cc", "-std=c11", *flags, f"-I{self.prefix}/include", "-fsyntax-only", "-x", "c", "-"], CALLER.replace("CALL", call))
        return [line for line in ran.stderr.decode(errors="replace").splitlines() if "error:" in line] if ran.returncode else []

    def expect_ok(self, name, words):
        """Runs a program that writes a row for each thing that it looks at, and `ok` at the row's end where that is as it should be."""
        ran = self.run(words)
        rows = ran.stdout.decode(errors="replace").splitlines()
        wrong = [row for row in rows if not re.search(r"(^|: )ok$", row)]
        told = ran.stderr.decode(errors="replace")[-1500:]
        self.counts.expect(name, rows and not wrong and not ran.returncode, f"{wrong} status {ran.returncode}: {told}")


def files_differ(library):
    """What is wrong with the files that are installed."""
    archive, shared = (library.prefix / "lib" / f"libgomthau_filter.{end}" for end in ("a", "so"))
    print(f"the archive has {archive.stat().st_size} bytes, the shared object {shared.stat().st_size}")
    if archive.stat().st_size > MOST_BYTES:
        return f"the archive has more than {MOST_BYTES} bytes"
    shown = set(library.run(["nm", "-D", "--defined-only", shared]).stdout.decode().split()[2::3])
    declared = set(re.findall(r"^\w+ (gomthau_filter_\w+)\(", (TOP / "include" / "gomthau_filter.h").read_text(), re.MULTILINE))
    return (shown != CALLS and f"the calls are {sorted(shown)}") or (declared != CALLS and f"the header declares {sorted(declared)}")


def flags_differ(library):
    """What is wrong with what `pkg-config` says."""
    environment = {**library.environment, "PKG_CONFIG_PATH": f"{library.prefix}/lib/pkgconfig"}
    ran = subprocess.run(["pkg-config", "--cflags", "--libs", "gomthau_filter"], capture_output=True, env=environment, text=True)
    wanted = [f"-I{library.prefix}/include", f"-L{library.prefix}/lib", f"-Wl,-rpath,{library.prefix}/lib", "-lgomthau_filter"]
    if ran.stdout.split() != wanted:
        return ran.stdout or ran.stderr
    # What these flags build starts by itself, also where nobody said to the system where the shared object is.
    program = library.folder / "by_flags"
    compiled = library.run(["cc", "-o", program, TOP / "examples" / "c" / "filter_routes.c", *wanted])
    if compiled.returncode:
        return compiled.stderr.decode()
    words = [program, "16", TOP / "examples" / "no_bogons.filter"]
    ran = subprocess.run(words, input=b"10.0.0.0/8 3\n", capture_output=True, env=library.without_path())
    return ran.stdout != b"reject\n" and f"{ran.stdout!r} {ran.stderr.decode()}"


def versions_differ(library, ncroute):
    """Which of the versions that are told is another one than that of the header."""
    python, shared = TOP / "bindings" / "python", library.prefix / "lib" / "libgomthau_filter.so"
    version = re.search(r'VERSION "([\d.]+)"', (library.prefix / "include" / "gomthau_filter.h").read_text())[1]
    told = {"ncroute": library.run([ncroute, "--version"]).stdout.decode().split()[1]}
    for path, line in (
        (library.prefix / "lib" / "pkgconfig" / "gomthau_filter.pc", r"Version: (.*)"), (python / "one_wheel.py", r'NAME, VERSION = .*"(.*)"'),
        (python / "pyproject.toml", r'version = "(.*)"'), (python / "gomthau_filter" / "__init__.py", r'__version__ = "(.*)"'),
    ):
        told[path.name] = re.search(f"(?m)^{line}$", path.read_text())[1]
    others = {name: one for name, one in told.items() if one != version}
    name = f"libgomthau_filter.so.{version.partition('.')[0]}"
    is_named = re.search(rf"SONAME +{re.escape(name)}$", library.run(["objdump", "-p", shared]).stdout.decode(), re.MULTILINE)
    return (others and f"{others}, and not {version}") or (not is_named and f"the shared object has not the name {name}")


def check_wrong_calls(library):
    """Calls that must not compile, for their reason, beside right ones that must."""
    knows_names = not library.errors_of("\n#if !__has_attribute(designated_init)\n#error\n#endif\n")
    for right, name, wrong, said in WRONG_CALLS:
        flags = ["-w"] if said in (OTHER_TYPE, TOO_MANY) else ["-Wall", "-Werror"]
        if said == "positional" and not knows_names:
            library.counts.skip(f"a wrong call: {name}", "this compiler takes fields without their names")
            continue
        library.counts.expect(f"a right call beside: {name}", not library.errors_of(right, "-Wall", "-Werror"), right)
        errors = library.errors_of(wrong, *flags)
        library.counts.expect(f"a wrong call: {name}", any(re.search(said, line) for line in errors), f"{wrong}: {errors or 'it compiles'}")


def cxx_differs(library):
    """What a compiler of C++ says of the header."""
    words = ["g++", "-Wall", "-Wextra", "-Wold-style-cast", "-Wcast-qual", "-Wconversion", "-Werror", "-x", "c++", "-fsyntax-only"]
    return library.run([*words, TOP / "include" / "gomthau_filter.h"]).stderr.decode()


# ---- answers


def random_routes(count, size):
    """Lines of routes: most of them in the prefixes that the examples speak of, of all lengths and metrics."""
    numbers, lines = random.Random(size), []
    for _ in range(count):
        word = numbers.getrandbits(32) if numbers.random() < 0.4 else numbers.choice(BASES) | numbers.getrandbits(numbers.choice((8, 16, 24)))
        length = numbers.randint(0, 32)
        lines.append(f"{written(word, length)} {numbers.randint(0, size)}\n")
    return lines


def answers_differ(library, words, routes, wanted):
    """What a program answers to routes otherwise than is wanted."""
    ran = library.run(words, "".join(routes))
    got = ran.stdout.decode(errors="replace")
    if got != wanted:
        rows = zip(routes, got.split("\n"), wanted.split("\n"))
        return next((f"{route.strip()}: {one}, and not {other}" for route, one, other in rows if one != other), repr(got[:200]))
    return ran.returncode and f"status {ran.returncode}: {ran.stderr.decode(errors='replace')[-1500:]}"


def check_answers(library, ncroute, programs, watched):
    """All examples with random routes, and the same with a few of them under valgrind. A program is the words before its size and its file."""
    count = int(os.environ.get("ROUTES", "100000")) // len(SIZES) + 1
    for size in SIZES:
        routes = random_routes(count, size)
        for path in sorted(TOP.glob("examples/*.filter")):
            asked = subprocess.run([ncroute, "filter", "--size", str(size), path], input="".join(routes).encode(), capture_output=True)
            wanted, name = asked.stdout.decode(), f"{path.name} of {size}"
            library.counts.judge(f"{name}: ncroute", len(wanted.splitlines()) != count and wanted[:200])
            for program, words in programs.items():
                library.counts.judge(f"{name}: {program}", answers_differ(library, [*words(size, path)], routes, wanted))
            if size == SIZES[0]:
                few = "".join(wanted.splitlines(keepends=True)[:FEW])
                for program, words in watched.items():
                    library.counts.judge(f"{name}: {program}", answers_differ(library, [*words(size, path)], routes[:FEW], few))


def check_refusals(library, ncroute, programs):
    """Texts that are refused: the answer of `ncroute filter`, and the first line of its words."""
    for index, (text, size) in enumerate(REFUSED):
        path = library.folder / f"refused_{index}.filter"
        path.write_text(text, encoding="utf-8")
        asked = subprocess.run([ncroute, "filter", "--size", str(size), "--explain", "always", path], input=b"", capture_output=True)
        told = asked.stderr.decode().split("\n")[0]
        for program, words in programs.items():
            ran = library.run([*words(size, path)])
            said = ran.stderr.decode().strip()
            holds = asked.stdout.startswith(b"refused ") and (ran.stdout, said) == (asked.stdout, told)
            answers = f"{ran.stdout!r} and {said!r}, and not {asked.stdout!r} and {told!r}"
            library.counts.expect(f"{text!r} of {size}: {program}", holds, answers)


# ---- Python


def check_python(library, has_valgrind):
    """The module as pip installs it from its folder, and its calls."""
    source = library.folder / "python_source"
    shutil.copytree(TOP / "bindings" / "python", source)
    pip = [sys.executable, "-m", "pip", "install", "-q", "--no-index", "--disable-pip-version-check"]
    ran = library.run([*pip, "--target", library.folder / "python", source])
    library.counts.judge("pip install", ran.returncode and ran.stderr.decode()[-1500:])
    calls = [sys.executable, TOP / "tests" / "python" / "module_calls.py"]
    library.expect_ok("module_calls.py", calls)
    check_finding(library)
    if has_valgrind:
        # Of the interpreter's own memory nothing is said here: what counts is that nothing comes from the library.
        library.environment["PYTHONMALLOC"] = "malloc"
        ran = library.run(["valgrind", "-q", "--leak-check=full", "--show-leak-kinds=definite,indirect", *calls])
        del library.environment["PYTHONMALLOC"]
        told = ran.stderr.decode(errors="replace")
        library.counts.judge("module_calls.py under valgrind", (ran.stdout != b"ok\n" or "libgomthau_filter" in told) and told[-1500:])


def check_finding(library):
    """That the module finds its library in the prefix of its Python, and says how it is found where it is in no place."""
    text = f"import sys; sys.prefix = {str(library.prefix)!r}; import gomthau_filter"
    ran = subprocess.run([sys.executable, "-c", text], capture_output=True, env=library.without_path(), text=True)
    library.counts.judge("the library in the prefix of Python", ran.returncode and ran.stderr)
    nowhere = str(library.folder / "nowhere.so")
    environment = library.without_path(GOMTHAU_FILTER_LIBRARY=nowhere)
    ran = subprocess.run([sys.executable, "-c", "import gomthau_filter"], capture_output=True, env=environment, text=True)
    told = ran.stderr.splitlines()[-1:]
    holds = told and told[0].startswith("ImportError: ") and all(word in told[0] for word in (nowhere, "GOMTHAU_FILTER_LIBRARY", "ldconfig"))
    library.counts.expect("a library that is not there", ran.returncode and holds, ran.stderr)


# ---- the document


def example(begin):
    """The example of docs/EMBEDDING.md that begins with a line, and what is said to be printed by it."""
    _, _, behind = documents.read("docs/EMBEDDING.md").partition(f"\n    {begin}\n")
    lines = [f"    {begin}", *behind.split("\n")]
    end = next(index for index, line in enumerate(lines) if line and not line.startswith("    "))
    told = re.findall(r"`([^`]*)`", " ".join(lines[end:]).partition(".")[0])
    return "".join(f"{line[4:]}\n" for line in lines[:end]), told


def check_document(library):
    """The examples of the page on filters in other programs; that in Rattle is a test of tests/calls/."""
    source, command = library.folder / "it.c", Program()
    source.write_text(example("#include <gomthau_filter.h>")[0])
    library.environment["PATH"] = command.environment()["PATH"]
    for begin in ("#include <gomthau_filter.h>", "from gomthau_filter import Filter, Refused", "import subprocess"):
        text, told = example(begin)
        ran = library.run([library.build(source)] if begin.startswith("#") else [sys.executable, "-c", text])
        said = ran.stdout.decode().splitlines()
        holds = not ran.returncode and said and said == told[: len(said)]
        library.counts.expect(f"the example that begins with {begin}", holds, f"{said}, and not {told}")
    command.close()
    library.environment["PATH"] = os.environ["PATH"]


def check(counts, ncroute, folder):
    library = Library(counts, folder)
    if not library.install():
        return
    counts.judge("the files", files_differ(library))
    counts.judge("the versions", versions_differ(library, ncroute))
    check_wrong_calls(library)
    for name, needed, differs in (("the file of pkg-config", "pkg-config", flags_differ), ("the header in C++", "g++", cxx_differs)):
        if why := lack_of(needed):
            counts.skip(name, why)
        else:
            counts.judge(name, differs(library))
    why = lack_of("valgrind")
    if why:
        counts.skip("under valgrind", why)
    has_valgrind = not why
    sources = TOP / "examples" / "c"
    one, many = (library.build(sources / name) for name in ("filter_routes.c", "many_threads.c"))
    static = library.build(sources / "filter_routes.c", is_static=True)
    hostile = library.build(TOP / "tests" / "c" / "hostile.c")
    refused = library.build(TOP / "tests" / "c" / "refused_memory.c", "-Wl,--wrap=malloc,--wrap=realloc,--wrap=free", is_static=True)
    wraps = ",".join(f"--wrap=gomthau_filter_{name}" for name in ("open", "open_code", "bounds"))
    handed = library.build(TOP / "tests" / "c" / "handed_over.c", f"-Wl,{wraps}", is_static=True)
    for program in (hostile, refused, handed):
        library.expect_ok(program.name, [program])
        if has_valgrind:
            library.expect_ok(f"{program.name} under valgrind", [*MEMCHECK, program])
    programs = {
        "C": lambda size, path: [one, str(size), path], "C over the archive": lambda size, path: [static, str(size), path],
        "eight threads": lambda size, path: [many, str(size), path, "8"],
    }
    watched = {}
    if has_valgrind:
        watched = {
            "C under valgrind": lambda size, path: [*MEMCHECK, one, str(size), path],
            "eight threads under valgrind": lambda size, path: [*MEMCHECK, many, str(size), path, "8"],
            "eight threads under helgrind": lambda size, path: [*HELGRIND, many, str(size), path, "8"],
        }
    refusing = {"C": programs["C"]}
    if subprocess.run([sys.executable, "-m", "pip", "--version"], capture_output=True).returncode:
        counts.skip("the Python module", "there is no pip here")
    else:
        check_python(library, has_valgrind)
        check_document(library)
        in_python = TOP / "examples" / "python" / "filter_routes.py"
        programs["Python"] = refusing["Python"] = lambda size, path: [sys.executable, in_python, str(size), path]
    check_refusals(library, ncroute, refusing)
    check_answers(library, ncroute, programs, watched)


def main():
    ncroute, counts = built(), Counts()
    if why := lack_of("cc"):
        counts.skip("the library", why)
    else:
        with tempfile.TemporaryDirectory() as folder:
            check(counts, ncroute, pathlib.Path(folder))
    counts.finish()


if __name__ == "__main__":
    main()

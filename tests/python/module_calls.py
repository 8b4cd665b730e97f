#!/usr/bin/env python3
"""Calls of the Python module `gomthau_filter`: what each answers, what is refused, what is closed, and several threads. Prints `ok` at its end.

usage: tests/python/module_calls.py     (the module is installed, and finds its library)
"""
import concurrent.futures
import copy
import ctypes
import multiprocessing
import os
import pickle
import sys
import threading

import gomthau_filter
from gomthau_filter import Filter, Refused

UP = "filter up { rip_metric = rip_metric + 2; accept; }"
WRONG = "filter q {\n  rip_metric = 1;\n  print 1;\n}"


def expect(holds, name):
    if not holds:
        raise AssertionError(name)


def raises(kind, call, *words):
    """What a call raises, which has to be of a kind."""
    try:
        call(*words)
    except kind as raised:
        return raised
    raise AssertionError(f"{words}: no {kind.__name__}")


def check_answers():
    with Filter(UP, 16) as up, Filter(b"filter no { reject; }", 2) as no:
        expect(up.run("10.0.0.0/8", 3) == 5 and up.run("10.0.0.7/8", 16) == 16, "run")
        expect(no.run("10.0.0.0/8", 1) is None, "a rejected route")
        expect(up.run_all([]) == [] and up.run_all([("0.0.0.0/0", 0), ("1.2.3.4/32", 1)]) == [2, 3], "run_all")
        routes = [(f"10.0.{third}.0/24", metric) for third in range(64) for metric in range(17)]
        expect(up.run_all(routes) == [up.run(*route) for route in routes], "run_all and run")
        bounds = up.bounds
        expect(bounds.size == 16 and bounds.depth == 2 and bounds.reads_metric and not bounds.reads_prefix, "bounds")
        for wrong in (("10.0.0.0/33", 3), ("10.0.0.0/8", 17), ("10.0.0.0/8", -1), ("10.0.0.0/8", 1 << 32), ("::/0", 3), ("", 3)):
            raises(ValueError, up.run, *wrong)
        raises(ValueError, up.run_all, [("10.0.0.0/8", 3), ("10.0.0.0/8", 17)])


def check_refusals():
    why = raises(Refused, Filter, WRONG, 16)
    expect((why.code, why.place, why.line, why.column) == ("P10", 31, 3, 3), f"a refusal: {why.code} {why.place} {why.line} {why.column}")
    expect(str(why) == f"3:3: {why.words}" and why.words.endswith("(P10)"), f"its words: {why}")
    # The same, where the words need more room than the module makes at first.
    whole, gomthau_filter._WORDS = why.words, 8
    expect(raises(Refused, Filter, WRONG, 16).words == whole, "words in a buffer that is too short at first")
    gomthau_filter._WORDS = 512
    why = raises(Refused, lambda: Filter(b"no code", 16, is_code=True))
    expect(why.code[0] == "C" and why.line is None and why.column is None, f"a refused code file: {why}")
    for size in (0, 1, 251, (1 << 32) - 1):
        expect(raises(Refused, Filter, UP, size).code == "V8", f"size {size}")
    for size in (-1, 1 << 32):
        raises(ValueError, Filter, UP, size)


def parts(why):
    """All that a refusal has."""
    return type(why), str(why), why.code, why.place, why.line, why.column, why.words


def check_pickling():
    """A refusal comes whole from where it was pickled, also from a process of a pool."""
    whys = raises(Refused, Filter, WRONG, 16), raises(Refused, lambda: Filter(b"no code", 16, is_code=True))
    for why in whys:
        for again in (pickle.loads(pickle.dumps(why)), copy.copy(why)):
            expect(parts(again) == parts(why), f"a refusal that was pickled: {parts(again)}")
    with concurrent.futures.ProcessPoolExecutor(1, multiprocessing.get_context("spawn")) as pool:
        again = raises(Refused, pool.submit(Filter, WRONG, 16).result)
    expect(parts(again) == parts(whys[0]), f"a refusal of another process: {parts(again)}")


def check_copies():
    """A copy is closed by itself."""
    for made in (copy.copy, copy.deepcopy):
        with Filter(UP, 16) as up:
            first, second = made(up), made(up)
            del first
            expect(up.run("10.0.0.0/8", 3) == 5, f"what was copied by {made.__name__}, and the copy is gone")
            up.close()
            expect(second.run("10.0.0.0/8", 3) == 5, f"a copy by {made.__name__}")
            second.close()
            raises(ValueError, made, up)


def check_finding():
    """Where the module looks for its library: in the one place that is named, or in each of some others until it is there."""
    tried, there, named = [], None, os.environ.pop("GOMTHAU_FILTER_LIBRARY", None)

    def load(place):
        tried.append(place)
        if place == there:
            return "the library"
        raise OSError(f"{place}: not there")

    loads, ctypes.CDLL = ctypes.CDLL, load
    try:
        places = ["libgomthau_filter.so.0", f"{sys.prefix}/lib/libgomthau_filter.so.0", "/usr/local/lib/libgomthau_filter.so.0"]
        why = raises(ImportError, gomthau_filter._find)
        expect(tried == places, f"places: {tried}")
        told = [f"{place}: not there" for place in places]
        expect(all(word in str(why) for word in (*told, "GOMTHAU_FILTER_LIBRARY", "ldconfig")), f"a library that is nowhere: {why}")
        for count, there in enumerate(places, 1):
            tried.clear()
            expect(gomthau_filter._find() == "the library" and tried == places[:count], f"{there}: {tried}")
        tried.clear()
        os.environ["GOMTHAU_FILTER_LIBRARY"] = "/its/own.so"
        why = raises(ImportError, gomthau_filter._find)
        expect(tried == ["/its/own.so"] and "/its/own.so: not there" in str(why), f"a library that is named: {tried} {why}")
    finally:
        ctypes.CDLL = loads
        os.environ.pop("GOMTHAU_FILTER_LIBRARY", None)
        if named:
            os.environ["GOMTHAU_FILTER_LIBRARY"] = named


def check_closing():
    up = Filter(UP, 16)
    first, second = up.share(), up.share()
    up.close()
    up.close()
    raises(ValueError, up.run, "10.0.0.0/8", 3)
    raises(ValueError, up.run_all, [])
    raises(ValueError, up.share)
    raises(ValueError, lambda: up.bounds)
    del first
    expect(second.run("10.0.0.0/8", 3) == 5, "what was shared")


def check_threads():
    """Eight threads with one `Filter`, and eight with one each."""
    with Filter(UP, 16) as up:
        found = []
        work = [up] * 8 + [up.share() for _ in range(8)]
        threads = [threading.Thread(target=lambda it=it: found.extend(it.run("10.0.0.0/8", metric) for metric in range(15))) for it in work]
        for thread in threads:
            thread.start()
        for thread in threads:
            thread.join()
        expect(sorted(found) == sorted([metric + 2 for metric in range(15)] * 16), "threads")


if __name__ == "__main__":
    check_answers()
    check_refusals()
    check_pickling()
    check_copies()
    check_finding()
    check_closing()
    check_threads()
    print("ok")

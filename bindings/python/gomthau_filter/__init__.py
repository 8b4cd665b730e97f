"""Verified route filters, over the shared library that `scripts/install.sh --library` installs.

    from gomthau_filter import Filter

    with Filter("filter up { rip_metric = rip_metric + 2; accept; }", 16) as up:
        up.run("10.0.0.0/8", 3)  # 5

The library is the file that GOMTHAU_FILTER_LIBRARY names. Without that variable it is `libgomthau_filter.so.0`, where the system looks for libraries,
in `lib` of this Python's own prefix, or in /usr/local/lib. Where it is in none of these, the import raises ImportError, which says so.
"""
import ctypes
import ipaddress
import os
import sys
import threading
from typing import Iterable, List, NamedTuple, Optional, Tuple, Union

__all__ = ["Bounds", "Filter", "Refused"]
__version__ = "0.1.0"

_DONE, _REFUSED = 0, 1
_ACCEPTED, _NO_ROUTE = 1, 2
_WORDS = 512
_NAMED, _LIBRARY = "GOMTHAU_FILTER_LIBRARY", "libgomthau_filter.so.0"


class _Handle(ctypes.Structure):
    _fields_ = [("at", ctypes.c_void_p)]


class _Refused(ctypes.Structure):
    _fields_ = [(name, ctypes.c_uint64) for name in ("place", "line", "column", "words_size")] + [("code", ctypes.c_char * 4)]


class _Route(ctypes.Structure):
    _fields_ = [("address", ctypes.c_uint32), ("metric", ctypes.c_uint32), ("length", ctypes.c_uint8)]


class _Answer(ctypes.Structure):
    _fields_ = [(name, ctypes.c_uint32) for name in ("verdict", "metric", "steps")]


class _Bounds(ctypes.Structure):
    _fields_ = [("code_size", ctypes.c_uint64), *[(name, ctypes.c_uint32) for name in ("size", "budget", "depth")],
                ("reads_prefix", ctypes.c_bool), ("reads_metric", ctypes.c_bool)]


def _find() -> ctypes.CDLL:
    """The library, from the first place that has it."""
    named = os.environ.get(_NAMED)
    # A name without a folder is looked for by the system. Python's prefix may be a virtual environment, and /usr/local is where it is installed
    # unless a prefix is named; the system finds it there as soon as `ldconfig` was run.
    places = [named] if named else [_LIBRARY, *(os.path.join(prefix, "lib", _LIBRARY) for prefix in (sys.prefix, "/usr/local"))]
    found = []
    for place in places:
        try:
            return ctypes.CDLL(place)
        except OSError as why:
            found.append(str(why))
    raise ImportError(
        f"the library of gomthau_filter is not loaded: {'; '.join(found)}. `scripts/install.sh --library PREFIX` installs it as "
        f"PREFIX/lib/{_LIBRARY}: set {_NAMED} to that path, or have the system look into that folder, by `ldconfig` or LD_LIBRARY_PATH",
        name=__name__,
    )


def _load() -> ctypes.CDLL:
    library = _find()
    handle, number, size = ctypes.POINTER(_Handle), ctypes.c_uint32, ctypes.c_size_t
    opens = [ctypes.c_char_p, size, number, handle, ctypes.POINTER(_Refused), ctypes.c_char_p, size]
    for name, result, arguments in (
        ("open", number, opens),
        ("open_code", number, opens),
        ("run", _Answer, [handle, number, ctypes.c_uint8, number]),
        ("run_all", None, [handle, ctypes.POINTER(_Route), size, ctypes.POINTER(_Answer), size]),
        ("bounds", number, [handle, ctypes.POINTER(_Bounds)]),
        ("share", number, [handle, handle]),
        ("close", None, [handle]),
    ):
        function = getattr(library, f"gomthau_filter_{name}")
        function.restype, function.argtypes = result, arguments
    return library


_library = _load()


class Refused(ValueError):
    """Why a source is refused.

    `code` is a letter and one or two digits, as "V3"; `place` a byte of the text or of the code file, or an instruction; `line` and `column` count
    from 1, and are None where the refusal is shown at no byte of a text; `words` says what is wrong.
    """

    def __init__(self, code: str, place: int, line: Optional[int], column: Optional[int], words: str):
        # All that it is made of, so that it is made again where it was pickled, as by the process of a pool.
        super().__init__(code, place, line, column, words)
        self.code, self.place, self.line, self.column, self.words = code, place, line, column, words

    def __str__(self) -> str:
        return self.words if self.line is None else f"{self.line}:{self.column}: {self.words}"


class Bounds(NamedTuple):
    """What is known of all runs of a filter."""

    code_size: int
    """the bytes of its code file"""
    size: int
    """the nodes of the domains that it was verified for"""
    budget: int
    """the most instructions of a run"""
    depth: int
    """the most values on the stack of a run"""
    reads_prefix: bool
    """whether an instruction reads the prefix of the route"""
    reads_metric: bool
    """whether an instruction reads a metric; where none does, a prefix is accepted with every metric or with none, but keeps the one received"""


def _route(prefix: str, metric: int) -> _Route:
    net = ipaddress.IPv4Network(prefix, strict=False)
    if not 0 <= metric < 1 << 32:
        raise ValueError(f"no such metric: {metric}")
    return _Route(int(net.network_address), metric, net.prefixlen)


def _metric_of(answer: _Answer) -> Optional[int]:
    if answer.verdict == _NO_ROUTE:
        raise ValueError("the metric is over the size of the domain")
    return answer.metric if answer.verdict == _ACCEPTED else None


class Filter:
    """A filter that was verified for routing domains of `size` nodes, 2 to 250.

    `source` is its text, or with `is_code` the bytes of its code file. A source that is refused raises `Refused`; nothing else raises but want of
    memory. Threads may use one `Filter`: its calls wait for one another. Those that are not to wait use one each, by `share`.
    """

    def __init__(self, source: Union[str, bytes], size: int, *, is_code: bool = False):
        self._lock, self._handle, refused = threading.Lock(), _Handle(), _Refused()
        given = source.encode() if isinstance(source, str) else bytes(source)
        if not 0 <= size < 1 << 32:
            raise ValueError(f"no such size: {size}")
        opens = _library.gomthau_filter_open_code if is_code else _library.gomthau_filter_open
        room = _WORDS
        while True:
            words = ctypes.create_string_buffer(room)
            answer = opens(given, len(given), size, ctypes.byref(self._handle), ctypes.byref(refused), words, room)
            if answer != _REFUSED or refused.words_size <= room:
                break
            room = refused.words_size
        if answer == _REFUSED:
            place = (refused.line, refused.column) if refused.line else (None, None)
            raise Refused(refused.code.decode("ascii"), refused.place, *place, words.value.decode("utf-8", "replace"))
        if answer != _DONE:
            raise MemoryError

    def _open_handle(self) -> "ctypes.pointer[_Handle]":
        """The handle, for a call that is made under the lock."""
        if not self._handle.at:
            raise ValueError("the filter is closed")
        return ctypes.byref(self._handle)

    def run(self, prefix: str, metric: int) -> Optional[int]:
        """The metric with which the route to a prefix, received with a metric, is accepted; None where it is rejected.

        A prefix is written as "10.0.0.0/8"; bits past its length are cleared. A metric over the size of the domain is a ValueError.
        """
        route = _route(prefix, metric)
        with self._lock:
            answer = _library.gomthau_filter_run(self._open_handle(), route.address, route.length, route.metric)
        return _metric_of(answer)

    def run_all(self, routes: Iterable[Tuple[str, int]]) -> List[Optional[int]]:
        """What `run` answers to each route, a prefix and a metric."""
        given = [_route(prefix, metric) for prefix, metric in routes]
        array, answers = (_Route * len(given))(*given), (_Answer * len(given))()
        with self._lock:
            _library.gomthau_filter_run_all(self._open_handle(), array, len(given), answers, len(given))
        return [_metric_of(answer) for answer in answers]

    @property
    def bounds(self) -> Bounds:
        """The bounds of all runs, and what the filter reads."""
        found = _Bounds()
        with self._lock:
            if _library.gomthau_filter_bounds(self._open_handle(), ctypes.byref(found)) != _DONE:
                raise MemoryError
        return Bounds(*(getattr(found, name) for name in Bounds._fields))

    def share(self) -> "Filter":
        """The same filter with a handle of its own, as for another thread. `copy.copy` and `copy.deepcopy` make the same."""
        other = Filter.__new__(Filter)
        other._lock, other._handle = threading.Lock(), _Handle()
        with self._lock:
            if _library.gomthau_filter_share(self._open_handle(), ctypes.byref(other._handle)) != _DONE:
                raise MemoryError
        return other

    # Two filters with one handle would close it for one another.
    __copy__ = share

    def __deepcopy__(self, _: object) -> "Filter":
        return self.share()

    def close(self) -> None:
        """Closes it; what was shared stays open. A filter that is closed is closed again to no effect."""
        with self._lock:
            if self._handle.at:
                _library.gomthau_filter_close(ctypes.byref(self._handle))

    def __enter__(self) -> "Filter":
        return self

    def __exit__(self, *_: object) -> None:
        self.close()

    def __del__(self) -> None:
        # Where `__init__` ended before there was a handle, none is there to close.
        if hasattr(self, "_handle"):
            self.close()

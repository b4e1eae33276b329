"""The shared library, its calls, and their statuses and limits (library/flowshop.h)."""

import ctypes
import os
from pathlib import Path
from typing import Any, Dict, List, Tuple

from . import __version__

STATUSES: Dict[int, str] = {
    1: "MEMORY",
    2: "ROOM",
    3: "CPU",
    4: "NULL",
    10: "JOBS",
    11: "MACHINES",
    12: "COUNT",
    13: "TIME",
    14: "SEED",
    20: "LENGTH",
    21: "JOB",
    22: "TWICE",
    31: "DEPTH",
    32: "BUDGET",
    33: "VERSION",
    34: "WIDTH",
    35: "ROUNDS",
    36: "WORK",
    37: "DIRECTIONS",
    38: "ANSWER",
    40: "PLAN_DEPTH",
    41: "PLAN_PREFIXES",
    50: "OVER_BUDGET",
    60: "HEADER",
    61: "SIZE",
    62: "VALUE",
    63: "SEQUENCE",
    64: "NOT_ATTAINED",
    65: "TREE",
    66: "WEAK",
    67: "LOW",
    68: "END",
    69: "MOST",
    70: "NO_BLOCK",
    71: "LABEL",
    72: "BYTE",
    73: "NUMBER",
    74: "HEAD",
    75: "LIMITS",
    76: "TIMES",
    77: "INDEX",
}

u16, u32, u64, u8 = ctypes.c_uint16, ctypes.c_uint32, ctypes.c_uint64, ctypes.c_uint8
size, out, byref = ctypes.c_size_t, ctypes.POINTER, ctypes.byref
# Numbers or text that a call reads, as bytes. They are not copied, and where there are none the pointer is not null.
data = ctypes.c_char_p


def _slice(name: str, kind: Any) -> List[Tuple[str, Any]]:
    """The fields of a slice: a pointer, and how many entries there are."""
    return [(name, kind), (f"{name}_count", size)]


class Outcome(ctypes.Structure):
    """What a call returns."""

    _fields_ = [("status", u32), ("place", size)]


class LimitNumbers(ctypes.Structure):
    """The limits of numbers and texts."""

    _fields_ = [
        *((f"max_{name}", u32) for name in ("jobs", "machines", "time", "number", "job", "seed", "width", "rounds")),
        *((f"max_{name}", u32) for name in ("work", "directions", "depth", "prefixes", "budget")),
        *((name, u32) for name in ("min_version", "max_version")),
        *((f"max_{name}", u32) for name in ("workers", "text", "certificate", "beside")),
        *((f"max_{name}", u64) for name in ("nodes", "counted")),
    ]


class ShopNumbers(ctypes.Structure):
    """A shop, of which the times are machine by machine."""

    _fields_ = [("jobs", u32), ("machines", u32), *_slice("times", data)]


class BlockRoom(ctypes.Structure):
    """Room for a block of a benchmark text, and what it states."""

    _fields_ = [("jobs", u32), ("machines", u32), *_slice("times", out(u32))] + [
        ("seed", u32),
        ("upper", u32),
        ("lower", u32),
    ]


class SpansRoom(ctypes.Structure):
    """Room for the times at which operations start and end."""

    _fields_ = [*_slice("starts", out(u64)), *_slice("ends", out(u64))]


class TextRoom(ctypes.Structure):
    """Room for a text, and its length."""

    _fields_ = [*_slice("bytes", out(u8)), ("length", size)]


class ReachedRoom(ctypes.Structure):
    """Room for a sequence, its makespan, and how the search for it ended."""

    _fields_ = [*_slice("sequence", out(u16)), ("makespan", u64), ("whole", u32)]


class BoundsRoom(ctypes.Structure):
    """Room for a sequence, and bounds of the least makespan."""

    _fields_ = [*_slice("sequence", out(u16)), ("lower", u64), ("upper", u64)]


class EffortNumbers(ctypes.Structure):
    """How much a search of better sequences may do."""

    _fields_ = [("width", u32), ("rounds", u32), ("seed", u32), ("work", u32)]


class Plan(ctypes.Structure):
    """The options of a search for a certificate of version 1 or 2."""

    _fields_ = [("depth", u32), ("budget", u32), ("version", u32)]


class BeamOptions(ctypes.Structure):
    """The options of a beam search."""

    _fields_ = [("number", u64), ("width", u32), ("steps", u64)]


class RoundsOptions(ctypes.Structure):
    """The options of rounds of iterated greedy search."""

    _fields_ = [("rounds", u32), ("seed", u32), ("steps", u64)]


class RunNumbers(ctypes.Structure):
    """Where a run of certify stands."""

    _fields_ = [
        *((name, u64) for name in ("lower", "upper", "least", "start", "most", "left", "kept", "entry", "over")),
        *((name, u64) for name in ("step_lower", "step_upper", "stride", "top", "missed")),
        *((name, u32) for name in ("tasks", "step", "act", "limited")),
    ]


class TaskNumbers(ctypes.Structure):
    """What a run asks for."""

    _fields_ = [("kind", u32), ("origin", u32), ("number", u64), ("budget", u64)] + [
        ("beam", BeamOptions),
        ("rounds", RoundsOptions),
    ]


class AnswerNumbers(ctypes.Structure):
    """What became of a task."""

    _fields_ = [("found", u32), ("whole", u32), ("makespan", u64), ("directions", u64)]


class PlaceNumbers(ctypes.Structure):
    """A place of a search: parts that workers search. `next` is one more than the place behind it."""

    _fields_ = [("written", u64), ("next", u64), ("state", u32), ("skip", u32)]


_OF_SEARCH = "budget", "written", "settled", "first_open", "open", "places", "reached"


class SearchNumbers(ctypes.Structure):
    """Where a search stands whose parts workers search."""

    _fields_ = [(name, u64) for name in _OF_SEARCH]


class SearchedNumbers(ctypes.Structure):
    """What became of a place: how many directions were written, and how many places are left; or whether a sequence is
    reached."""

    _fields_ = [("written", u64), ("left", u32), ("reached", u32)]


class NodeLists(ctypes.Structure):
    """The lists of a node."""

    _fields_ = [*_slice("first", data), *_slice("last", data)]


class PartRooms(ctypes.Structure):
    """Room for what a search for directions comes to."""

    _fields_ = [*_slice("sequence", out(u16)), *_slice("directions", out(u8)), *_slice("rest", out(u16))] + [
        ("found", u32),
        ("makespan", u64),
        ("directions_length", size),
        ("rest_length", size),
    ]


# A shop and a sequence come first in most calls.
_ON_SHOP: List[Any] = [out(ShopNumbers), data, size]
CALLS: Dict[str, List[Any]] = {
    "version": [],
    "limits": [out(LimitNumbers)],
    "generate": [u32, u32, u32, out(u32), size],
    "block": [data, size, u32, out(BlockRoom)],
    "makespan": [*_ON_SHOP, out(u64)],
    "makespans": [*_ON_SHOP, out(u64), size],
    "timetable": [*_ON_SHOP, out(SpansRoom)],
    "picture": [*_ON_SHOP, u64, out(TextRoom)],
    "neh": [out(ShopNumbers), out(ReachedRoom)],
    "improve": [*_ON_SHOP, out(EffortNumbers), out(ReachedRoom)],
    "check": [*_ON_SHOP, out(BoundsRoom)],
    "check_within": [*_ON_SHOP, u64, out(BoundsRoom)],
    "solve": [*_ON_SHOP, out(Plan), out(BoundsRoom), out(TextRoom)],
    "certify": [*_ON_SHOP, out(EffortNumbers), u32, out(BoundsRoom), out(TextRoom)],
    "run": [*_ON_SHOP, u64, u32, out(RunNumbers)],
    "run_next": [out(RunNumbers), out(EffortNumbers), out(TaskNumbers)],
    "run_put": [out(RunNumbers), out(TaskNumbers), out(AnswerNumbers), out(u32)],
    "run_text": [*_ON_SHOP, u64, data, size, out(TextRoom)],
    "run_counted": [*_ON_SHOP, u64, u64, out(TextRoom)],
    "search": [u64, out(PlaceNumbers), size, out(SearchNumbers)],
    "search_give": [out(SearchNumbers), out(PlaceNumbers), size, out(u64)],
    "search_put": [out(SearchNumbers), out(PlaceNumbers), size, u64, out(SearchedNumbers), out(u64)],
    "search_found": [out(SearchNumbers), out(u32), out(u64)],
    "prove": [out(ShopNumbers), out(NodeLists), u64, out(PartRooms)],
    "tally": [out(ShopNumbers), out(NodeLists), u64, u64, out(PartRooms)],
    "beam": [*_ON_SHOP, out(BeamOptions), out(ReachedRoom)],
    "rounds": [*_ON_SHOP, out(RoundsOptions), out(ReachedRoom)],
}
# Of these calls each argument is given as an object of ctypes or as bytes, so that ctypes has nothing to convert, which
# takes longer than the call does on a small shop.
AS_GIVEN = ("makespan",)


class Refused(Exception):
    """A call that is not done: the name of its status, and the place."""

    def __init__(self, name: str, place: int) -> None:
        super().__init__(name, place)
        self.name = name
        self.place = place


def _path() -> Path:
    """The library: that of FLOWSHOP_LIBRARY, else the one beside this file, else the one that was built in the clone,
    else the released one."""
    named = os.environ.get("FLOWSHOP_LIBRARY")
    if named:
        return Path(named)
    here = Path(__file__).resolve().parent
    for folder in (here, here.parent.parent / "out", here.parent.parent / "release"):
        path = folder / "libflowshop.so"
        if path.exists():
            return path
    raise ImportError(
        "flowshop: there is no libflowshop.so; run ./build --library at the top of the clone, "
        "or set FLOWSHOP_LIBRARY to the path of one"
    )


def _load(path: Path) -> Dict[str, Any]:
    """The calls of the library at a path, with their types. ImportError where it is none."""
    calls = {}
    try:
        library = ctypes.CDLL(str(path))
        for name, types in CALLS.items():
            calls[name] = getattr(library, f"flowshop_{name}")
            calls[name].argtypes = None if name in AS_GIVEN else types
            calls[name].restype = u32 if name == "version" else Outcome
    except (OSError, AttributeError) as error:
        raise ImportError(f"flowshop: {path} is not the library that this package calls: {error}") from error
    return calls


_CALLS = _load(_path())


def version() -> str:
    """The version of the library, as three numbers."""
    number = _CALLS["version"]()
    return f"{number // 1_000_000}.{number // 1_000 % 1_000}.{number % 1_000}"


def limits_of(wanted: str) -> LimitNumbers:
    """The limits of the library. ImportError where it is not of this version, since its calls may take other arguments,
    or where the processor lacks what it needs."""
    if version() != wanted:
        raise ImportError(f"flowshop: the library is of version {version()}, and the package of version {wanted}")
    limits = LimitNumbers()
    if _CALLS["limits"](limits).status:  # this call has no other fault
        raise ImportError(
            "flowshop: this processor lacks something of x86-64-v2, such as SSE4.2 or POPCNT, which the library needs; "
            "use another machine, or give a virtual machine the processor of its host"
        )
    return limits


LIMITS: LimitNumbers = limits_of(__version__)
# Those of a shop.
MOST_JOBS: int = LIMITS.max_jobs
MOST_MACHINES: int = LIMITS.max_machines
MOST_TIME: int = LIMITS.max_time


def call(name: str, *words: Any) -> None:
    """Makes a call. MemoryError where memory ran out; Refused on every other status but that of a call that is done."""
    outcome = _CALLS[name](*words)
    if outcome.status == 1:
        raise MemoryError("flowshop: memory ran out")
    if outcome.status:
        raise Refused(STATUSES.get(outcome.status, f"STATUS_{outcome.status}"), outcome.place)

"""The library and its records (library/flowshop.h), by ctypes."""

import ctypes
import os
import re
import threading

import counts
from counts import TOP

LIBRARY = ctypes.CDLL(os.environ.get("FLOWSHOP_LIBRARY", os.path.join(TOP, "out", "libflowshop.so")))
HEADER = (TOP / "library" / "flowshop.h").read_text()
STATUSES = re.findall(r"FLOWSHOP_(\w+) = (\d+)", HEADER.partition("enum flowshop_status {")[2].partition("};")[0])
NAMES = {int(number): name for name, number in STATUSES}
U8, U16, U32, U64, SIZE = ctypes.c_uint8, ctypes.c_uint16, ctypes.c_uint32, ctypes.c_uint64, ctypes.c_size_t



class Last(threading.local):
    """Of each thread the last call, and whether its calls are also made with each pointer null."""

    call, has_nulls = ("none", ()), False


last = Last()


def equal(what, got, wanted):
    """Counts whether what was got is what was wanted, and names the last call of this thread where it is not."""
    counts.equal(what if got == wanted else f"{what}, by {described(last.call)}", got, wanted)


def described(call):
    """A call with the numbers that it was given; of long lists the first ones."""
    name, words = call
    return f"flowshop_{name}({', '.join(map(numbers_of, words))})"


def numbers_of(word):
    """What a record, a list or a number of a call has."""
    if isinstance(word, ctypes.Structure):
        return f"{type(word).__name__}({', '.join(f'{name} {numbers_at(word, name)}' for name, _ in word._fields_)})"
    return str(list(word[:20])) if isinstance(word, ctypes.Array) else str(getattr(word, "value", word))


def numbers_at(record, name):
    """A number of a record, or the numbers of a slice."""
    value = getattr(record, name)
    count = getattr(record, f"{name}_count", None)
    return value if count is None else value[: min(20, count)]


def record(name, *fields):
    """A record of numbers and slices; a slice has a pointer and a count."""
    types = []
    for field, kind in fields:
        if isinstance(kind, list):
            types += [(field, ctypes.POINTER(kind[0])), (f"{field}_count", SIZE)]
        else:
            types.append((field, kind))
    return type(name, (ctypes.Structure,), {"_fields_": types})


Outcome = record("Outcome", ("status", U32), ("place", SIZE))
Limits = record("Limits", *[(name, U32) for name in (
    "max_jobs", "max_machines", "max_time", "max_number", "max_job", "max_seed", "max_width", "max_rounds", "max_work",
    "max_directions", "max_depth", "max_prefixes", "max_budget", "min_version", "max_version", "max_workers",
    "max_text", "max_certificate", "max_beside")], ("max_nodes", U64), ("max_counted", U64))
Shop = record("Shop", ("jobs", U32), ("machines", U32), ("times", [U32]))
Reached = record("Reached", ("sequence", [U16]), ("makespan", U64), ("whole", U32))
STATED = ("seed", U32), ("upper", U32), ("lower", U32)
Block = record("Block", ("jobs", U32), ("machines", U32), ("times", [U32]), *STATED)
Spans = record("Spans", ("starts", [U64]), ("ends", [U64]))
Text = record("Text", ("bytes", [U8]), ("length", SIZE))
Bounds = record("Bounds", ("sequence", [U16]), ("lower", U64), ("upper", U64))
Effort = record("Effort", ("width", U32), ("rounds", U32), ("seed", U32), ("work", U32))
Plan = record("Plan", ("depth", U32), ("budget", U32), ("version", U32))
BeamOptions = record("BeamOptions", ("number", U64), ("width", U32), ("steps", U64))
RoundsOptions = record("RoundsOptions", ("rounds", U32), ("seed", U32), ("steps", U64))
INNER = [(f"inner_{number}", U64) for number in range(11)]
Run = record("Run", ("lower", U64), ("upper", U64), ("least", U64), *INNER, *[(name, U32) for name in (
    "tasks", "step", "act", "limited")])
Task = record("Task", ("kind", U32), ("origin", U32), ("number", U64), ("budget", U64), ("beam", BeamOptions),
              ("rounds", RoundsOptions))
Answer = record("Answer", ("found", U32), ("whole", U32), ("makespan", U64), ("directions", U64))
Place = record("Place", ("written", U64), ("next", U64), ("state", U32), ("skip", U32))
Search = record("Search", *[(name, U64) for name in (
    "budget", "written", "settled", "first_open", "open", "places", "reached")])
Searched = record("Searched", ("written", U64), ("left", U32), ("reached", U32))
Node = record("Node", ("first", [U16]), ("last", [U16]))
ROOMS = ("sequence", [U16]), ("directions", [U8]), ("rest", [U16])
LENGTHS = ("directions_length", SIZE), ("rest_length", SIZE)
Part = record("Part", *ROOMS, ("found", U32), ("makespan", U64), *LENGTHS)
# The same for a search that counts: it does not look at the room for directions, which is nowhere here.
NOWHERE = ("directions", SIZE), ("unseen", SIZE)
Tally = record("Tally", ROOMS[0], *NOWHERE, ROOMS[2], ("found", U32), ("makespan", U64), *LENGTHS)


def lent(kind, numbers):
    """A slice that a call reads: an array, which is never null, and its count."""
    return (kind * max(1, len(numbers)))(*numbers), len(numbers)


def given(kind, numbers):
    """The same as two arguments."""
    array, count = lent(kind, numbers)
    return array, SIZE(count)


def shop_of(shop):
    """The record of a shop: its jobs, its machines, and its times, machine by machine."""
    jobs, machines, times = shop
    return Shop(jobs, machines, *lent(U32, times))


class Room:
    """A slice for results, filled with sevens, and one more entry; or a number, which has no count."""

    def __init__(self, kind, count, is_slice=True):
        self.array, self.count, self.is_slice = (kind * (count + 1))(*[7] * (count + 1)), count, is_slice

    def words(self):
        return [self.array, self.count]

    def untouched(self):
        return all(entry == 7 for entry in self.array)

    def taken(self, count):
        """The first entries, of which the others are to be as they were."""
        equal("the rest of a slice", set(self.array[count:]), {7})
        return list(self.array[:count])


def results(kind, *rooms):
    """A record that a call writes: of these slices, and of numbers that are sevens."""
    words = iter([word for room in rooms for word in room.words()])
    slices = {name for name, _ in kind._fields_ if f"{name}_count" in dir(kind) or name.endswith("_count")}
    made = kind(*[next(words) if name in slices else 7 for name, _ in kind._fields_])
    made.rooms, made.numbers = rooms, [name for name, _ in kind._fields_ if name not in slices]
    return made


def arguments(words):
    """The arguments of a call: a record by its place, and a slice for results with its count."""
    for word in words:
        if isinstance(word, Room):
            yield from [word.array, SIZE(word.count)] if word.is_slice else [word.array]
        else:
            yield ctypes.byref(word) if isinstance(word, ctypes.Structure) else word


def call(name, *words):
    """Makes a call: None where it is done, else the name of the status and the place. Slices stay where they are, and
    a call that is refused leaves all results as they were."""
    last.call = name, words
    made = getattr(LIBRARY, f"flowshop_{name}")
    made.restype = Outcome
    records = [word for word in words if isinstance(word, ctypes.Structure)]
    before = [slices(word) for word in records]
    if last.has_nulls:
        refuse_nulls(made, words, records)
    outcome = made(*arguments(words))
    equal("where the slices are", [slices(word) for word in records], before)
    if outcome.status:
        rooms = [word for word in words if isinstance(word, Room)]
        for record_ in records:
            rooms += getattr(record_, "rooms", ())
            kept = [getattr(record_, number) for number in getattr(record_, "numbers", ())]
            equal("numbers that are kept", set(kept) <= {7}, True)
        equal("slices that are kept", all(room.untouched() for room in rooms), True)
        return NAMES[outcome.status], outcome.place
    equal("the place of a call that is done", outcome.place, 0)
    return None


def refuse_nulls(made, words, records):
    """Makes a call with each of its pointers null, and of the records that it is lent: it says so, and nothing more."""
    given_ = [*arguments(words)]
    for place, word in enumerate(given_):
        if not isinstance(word, ctypes._SimpleCData):
            outcome = made(*given_[:place], None, *given_[place + 1 :])
            equal(f"argument {place} that is null", (outcome.status, outcome.place), (4, 0))
    for record_ in records:
        # A field that becomes null lets the entries go to which it pointed.
        record_.entries, numbers = [*(record_._objects or {}).values()], bytes(record_)
        for name, *_ in record_._fields_:
            if f"{name}_count" in dir(record_):
                setattr(record_, name, None)
                outcome = made(*arguments(words))
                ctypes.memmove(ctypes.byref(record_), numbers, len(numbers))
                equal(f"{name} that is null", (outcome.status, outcome.place), (4, 0))


def slices(word):
    """Where the slices of a record are, and how many entries they have."""
    names = [name for name, *_ in word._fields_ if f"{name}_count" in dir(word) or name.endswith("_count")]
    return [getattr(word, name) if name.endswith("_count") else
            ctypes.cast(getattr(word, name), ctypes.c_void_p).value for name in names]


def block(text, index, room=20_800):
    """A block of a benchmark text, and the numbers that it states."""
    times = Room(U32, room)
    found = results(Block, times)
    return call("block", *given(U8, text), U32(index), found) or (
        (found.jobs, found.machines, times.taken(found.jobs * found.machines)), found.seed, found.upper, found.lower)

"""Tasks of workers, in this process or elsewhere: parts of a search below a number, beams and rounds."""

import functools
import os
import socket
import threading
import time
from typing import Any, NamedTuple, Tuple

from ._parts import OVER, Instance, Pieces, Reached, packed_parts, parts_of
from ._threads import with_stack

Numbers = Tuple[int, int, bytes]
PackedShop = Tuple[int, int, int, bytes]

_TO_BITS, _TO_SIGNS = bytes.maketrans(b"+-", b"\0\1"), bytes.maketrans(b"01", b"+-")


class Task(NamedTuple):
    """What a worker is given: some parts, one after the other, how many directions they may have, whether the signs of
    these are given back, and in about how many seconds. `place` is that of the parts in the search; `times` says how
    often they were given out before."""

    place: int
    times: int
    shop: PackedShop
    number: int
    budget: int
    has_signs: bool
    seconds: float
    parts: bytes


class Answer(NamedTuple):
    """What a worker gives back: how many directions there are, and their bits, where the task has signs; the sequence
    below the number that these lead to, where there is one, with its makespan; and the parts that are left."""

    place: int
    number: int
    written: int
    bits: bytes
    sequence: bytes
    makespan: int
    rest: bytes
    seconds: float
    worker: int


def bits_of(directions: bytes) -> bytes:
    """Directions as bits, eight in a byte."""
    marks = directions.translate(_TO_BITS) + bytes(-len(directions) % 8)
    whole = 0
    for place in range(8):
        whole |= int.from_bytes(marks[place::8], "big") << (7 - place)
    return whole.to_bytes(len(marks) // 8, "big")


def signs_of(bits: bytes, count: int) -> bytes:
    """The directions, so many, of which these are the bits."""
    digits = f"{int.from_bytes(bits, 'big'):0{8 * len(bits)}b}"
    return digits.encode().translate(_TO_SIGNS)[:count]


def packed_shop(shop: Numbers) -> PackedShop:
    """The numbers of a shop in as few bytes as its times need: how many a time has, and these."""
    jobs, machines, times = shop
    length = max(1, max(byte for byte in range(4) if any(times[byte::4])) + 1) if any(times) else 1
    planes = [times[byte::4] for byte in range(length)]
    return jobs, machines, length, b"".join(planes)


@functools.lru_cache(maxsize=16)
def _instance(jobs: int, machines: int, length: int, planes: bytes) -> Instance:
    """The shop that a task is of. A worker makes it once."""
    count = jobs * machines
    times = bytearray(4 * count)
    for byte in range(length):
        times[byte::4] = planes[byte * count : (byte + 1) * count]
    return Instance(jobs, machines, bytes(times))


@functools.lru_cache(maxsize=1)
def _host() -> int:
    """A number that tells machines apart."""
    return hash(socket.gethostname())


def work(task: Task) -> Answer:
    """Does a task. It is what a worker is given to call."""
    worker = hash((_host(), os.getpid(), threading.get_ident()))
    return with_stack(lambda: _answer(task, worker))


def _answer(task: Task, worker: int) -> Answer:
    """What a worker of this number gives back of a task: it searches as long as there are directions and time left, and
    one piece at least."""
    begun = time.monotonic()
    pieces = Pieces(_instance(*task.shop), parts_of(task.parts), task.number, task.budget, task.has_signs)
    pieces.search(lambda: time.monotonic() > begun + task.seconds)
    kind, count, rest, sequence, makespan, directions = pieces.found()
    left = packed_parts(rest) if kind == OVER else b""
    bits = bits_of(directions)
    seconds = time.monotonic() - begun
    return Answer(task.place, task.number, count, bits, sequence, makespan, left, seconds, worker)


def reach(words: Tuple[int, PackedShop, str, Tuple[Any, ...]]) -> Reached:
    """Makes a beam, or rounds. It is what a worker is given to call."""
    _, shop, name, others = words
    instance = _instance(*shop)
    return with_stack(lambda: instance.beam(*others) if name == "beam" else instance.rounds(*others))

"""Parts of a search, and the calls of the library that do a part: of a search for directions, which are kept or only
counted, a beam, and rounds."""

import ctypes
import struct
from typing import Any, Callable, Iterable, List, NamedTuple, Tuple

from ._library import BeamOptions, NodeLists, PartRooms, ReachedRoom, RoundsOptions, RunNumbers, ShopNumbers
from ._library import call, out, u8, u16

# What becomes of a task, as the library numbers it: of a search, and of a beam or rounds.
PROVED, BELOW, OVER, REACHED = 1, 2, 3, 4
# The ends at which the children of a node put a job; 0 is the node itself.
FRONT, BACK = 1, 2
_HEAD = struct.Struct("=4H")
# How many directions a piece of a search has, times the operations of the shop and 450.
_PIECE = 15_000_000


class PackedPart(NamedTuple):
    """A part of a search: the node of two lists where `end` is 0; else those children of the node that put these jobs,
    one after the other, at that end. Lists are 16-bit numbers, as the library takes them."""

    first: bytes
    last: bytes
    end: int
    jobs: bytes

    def nodes(self) -> List[Tuple[bytes, bytes]]:
        """The nodes of the part, in order."""
        each = [self.jobs[at : at + 2] for at in range(0, len(self.jobs), 2)]
        if self.end == FRONT:
            return [(self.first + job, self.last) for job in each]
        if self.end == BACK:
            return [(self.first, job + self.last) for job in each]
        return [(self.first, self.last)]

    def size(self) -> int:
        """How many nodes there are."""
        return len(self.jobs) // 2 if self.end else 1

    def before(self, count: int) -> "PackedPart":
        """The part of the first nodes, so many, and at least one."""
        return self._replace(jobs=self.jobs[: 2 * count])

    def after(self, count: int) -> List["PackedPart"]:
        """The part of the other nodes behind so many, one at least, where there are any."""
        others = self.jobs[2 * count :]
        return [self._replace(jobs=others)] if others else []


def packed_parts(parts: Iterable[PackedPart]) -> bytes:
    """Parts, one after the other, as the library writes them."""
    texts = []
    for first, last, end, jobs in parts:
        texts += [_HEAD.pack(len(first) // 2, len(last) // 2, len(jobs) // 2, end), first, last, jobs]
    return b"".join(texts)


def parts_of(numbers: bytes) -> List[PackedPart]:
    """The parts that the library wrote, one after the other, without those that are no node."""
    parts, at = [], 0
    while at < len(numbers):
        *counts, end = _HEAD.unpack_from(numbers, at)
        at += _HEAD.size
        lists = []
        for count in counts:
            lists.append(numbers[at : at + 2 * count])
            at += 2 * count
        if lists[2] or not end:
            parts.append(PackedPart(lists[0], lists[1], end, lists[2]))
    return parts


class Reached(NamedTuple):
    """What a beam or rounds came to: a sequence, its makespan, and whether the search ended as one that is whole."""

    sequence: bytes
    makespan: int
    whole: bool


class Instance:
    """A shop as the calls of this module take it."""

    def __init__(self, jobs: int, machines: int, times: bytes) -> None:
        self.jobs, self.machines, self._times = jobs, machines, times
        self.words = ShopNumbers(jobs, machines, times, len(times) // 4)

    def run(self, start: bytes, directions: int, is_limited: bool) -> RunNumbers:
        """A run of certify from a start, each of whose searches has at most so many directions."""
        run = RunNumbers()
        call("run", self.words, start, len(start) // 2, directions, int(is_limited), run)
        return run

    def beam(self, start: bytes, number: int, width: int, steps: int) -> Reached:
        """What a beam comes to from a start; one that looks for a sequence below a number, where it is not 0."""
        return self._reached("beam", start, BeamOptions(number, width, steps))

    def rounds(self, start: bytes, rounds: int, seed: int, steps: int) -> Reached:
        """What rounds of iterated greedy search come to from a start."""
        return self._reached("rounds", start, RoundsOptions(rounds, seed, steps))

    def _reached(self, name: str, start: bytes, options: Any) -> Reached:
        """What a search for better sequences comes to."""
        sequence = (u16 * self.jobs)()
        room = ReachedRoom(sequence, self.jobs)
        call(name, self.words, start, len(start) // 2, options, room)
        return Reached(bytes(sequence), room.makespan, room.whole == 1)


class Rooms:
    """Room for so many directions, which searches of nodes write one after the other; or none, where they are only
    counted."""

    def __init__(self, instance: Instance, budget: int, has_signs: bool = True) -> None:
        self._instance, self._budget, self._has_signs = instance, budget, has_signs
        jobs = instance.jobs
        self._rest = (u16 * (jobs * (jobs + 4)))()
        self._sequence = (u16 * jobs)()
        self._directions = (u8 * (budget if has_signs else 0))()
        self._begun = ctypes.addressof(self._directions)
        self._rooms = PartRooms(self._sequence, jobs, self._directions, 0, self._rest, len(self._rest))
        self._node = NodeLists()
        self.written: int = 0

    @property
    def left(self) -> int:
        """How many more directions there may be."""
        return self._budget - self.written

    @property
    def makespan(self) -> int:
        """The makespan of the sequence that is reached."""
        return int(self._rooms.makespan)

    def search(self, first: bytes, last: bytes, number: int) -> int:
        """Searches the node of two lists below a number: PROVED, BELOW or OVER. Refused where it is no node."""
        self._node.first, self._node.first_count = first, len(first) // 2
        self._node.last, self._node.last_count = last, len(last) // 2
        shop = self._instance.words
        if self._has_signs:
            self._rooms.directions = ctypes.cast(self._begun + self.written, out(u8))
            self._rooms.directions_count = self.left
            call("prove", shop, self._node, number, self._rooms)
        else:
            call("tally", shop, self._node, number, self.left, self._rooms)
        self.written += self._rooms.directions_length
        return int(self._rooms.found)

    def directions(self, begin: int = 0) -> bytes:
        """The directions that were written, from a place on; not where they are only counted."""
        return ctypes.string_at(self._begun + begin, self.written - begin)

    def rest(self) -> bytes:
        """The parts that the last search has left."""
        return bytes(memoryview(self._rest).cast("B")[: 2 * self._rooms.rest_length])

    def reached(self) -> bytes:
        """The sequence that the last search reached."""
        return bytes(self._sequence)


class Searched(NamedTuple):
    """What a search of parts has come to: PROVED, BELOW or OVER, how many directions there are, the parts that are left
    where it is OVER, the sequence of BELOW with its makespan, and the directions, where they are kept."""

    kind: int
    written: int
    parts: List[PackedPart]
    sequence: bytes = b""
    makespan: int = 0
    directions: bytes = b""


class Pieces:
    """A search of parts, one after the other, below a number with a budget of directions, in pieces of some hundredths
    of a second, between which it can be stopped. What it comes to is what one call comes to. Directions are kept, or
    only counted."""

    def __init__(
        self, instance: Instance, parts: List[PackedPart], number: int, budget: int, has_signs: bool = True
    ) -> None:
        self._instance, self._number, self._budget, self._has_signs = instance, number, budget, has_signs
        self._piece = 1 + _PIECE // (instance.jobs * instance.machines + 450)
        self._written: List[bytes] = []
        self._found = Searched(OVER, 0, parts)

    def _rooms(self, count: int) -> Rooms:
        """Room for the next piece, behind so many directions."""
        return Rooms(self._instance, min(self._piece, self._budget - count), self._has_signs)

    def search(self, ends: Callable[[], object]) -> None:
        """Makes the pieces, one at least, until the search ends, or what is asked between them is true or raises."""
        count, is_first, rooms = 0, True, self._rooms(0)
        while self._found.parts and self._found.kind == OVER:
            if not is_first and ends():
                return
            if rooms.left == 0 and count < self._budget:
                rooms = self._rooms(count)
            part, *others = self._found.parts
            begin, left, is_first = rooms.written, [*part.after(1), *others], False
            kind = rooms.search(*part.nodes()[0], self._number)
            if self._has_signs:
                self._written.append(rooms.directions(begin))
            count += rooms.written - begin
            if kind == BELOW:
                self._found = Searched(BELOW, count, [], rooms.reached(), rooms.makespan)
            elif kind == OVER:
                self._found = Searched(OVER, count, [*parts_of(rooms.rest()), *left])
                if count == self._budget:
                    return
            else:
                self._found = Searched(OVER if left else PROVED, count, left)

    def found(self) -> Searched:
        """What the search has come to."""
        found = self._found
        return found._replace(directions=b"".join(self._written)[: found.written])

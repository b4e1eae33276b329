"""What a search for directions that prove a bound comes to. All of it is frozen, and can be compared and pickled."""

from dataclasses import dataclass, field
from typing import Iterator, Tuple

from ._brief import Brief
from ._errors import counted
from ._parts import FRONT, PackedPart
from ._results import Start, listed

Numbers = Tuple[int, ...]


def numbers_of(jobs: bytes) -> Numbers:
    """The numbers of a list as the library has it."""
    return tuple(memoryview(jobs).cast("H"))


@dataclass(frozen=True, repr=False)
class Proved(metaclass=Brief):
    """A bound that is proved, `lower`: no sequence has a smaller makespan, or none of those that the search was of.
    `directions` are line 5 of a two-ended certificate. No sequence is known with it.

    >>> shop.prove(12).directions, shop.prove(12).lower
    (b'++', 12)
    """

    directions: bytes
    lower: int = 0

    def __repr__(self) -> str:
        """How many directions there are."""
        return f"Proved({counted(len(self.directions), 'direction')})"


@dataclass(frozen=True, repr=False)
class Below(Start):
    """The first sequence of a search whose makespan, `value`, is below the bound: a Start. `directions` came before it.

    >>> shop.prove(13)
    Below(makespan 12: 3, 1, 2)
    """

    directions: bytes = b""

    def __repr__(self) -> str:
        """The makespan, and the first jobs by their names."""
        return f"Below(makespan {self.value}: {listed(self.names or self.sequence)})"


@dataclass(frozen=True, repr=False)
class Part(metaclass=Brief):
    """A part of a search: the node of the jobs `front` that begin the sequence and the jobs `back` that end it. Or some
    children of that node, where `end` is "front" or "back": those that put these `jobs`, one after the other, behind
    the front or before the back.

    >>> Part((3,), (2,), "back", (1, 4))
    Part(front 3; back 2; back next: 1, 4)
    """

    front: Numbers
    back: Numbers
    end: str = ""
    jobs: Numbers = ()

    def nodes(self) -> Iterator[Tuple[Numbers, Numbers]]:
        """The front and the back of each node, in order.

        >>> list(Part((3,), (2,), "back", (1, 4)).nodes())
        [((3,), (1, 2)), ((3,), (4, 2))]
        """
        if not self.end:
            yield self.front, self.back
        for job in self.jobs:
            yield (self.front + (job,), self.back) if self.end == "front" else (self.front, (job,) + self.back)

    def __repr__(self) -> str:
        """The lists, shortly."""
        lists = [f"{name} {listed(jobs)}" for name, jobs in (("front", self.front), ("back", self.back)) if jobs]
        if self.end:
            lists.append(f"{self.end} next: {listed(self.jobs)}")
        return f"Part({'; '.join(lists)})"


def part_of(packed: PackedPart) -> Part:
    """A part in numbers."""
    end = "" if not packed.end else "front" if packed.end == FRONT else "back"
    return Part(numbers_of(packed.first), numbers_of(packed.last), end, numbers_of(packed.jobs))


@dataclass(frozen=True, repr=False)
class Over(metaclass=Brief):
    """A search that is over its budget: its first directions, as many as the budget, and the parts that are left, in
    order. What a search of a part comes to does not depend on the others. So the directions of the parts, one after
    the other behind these, are those of the whole search, and so is the first sequence below the bound. `lower` is the
    `bound` of the shop, which holds without a search. No sequence is known with it.

    >>> found = shop.prove(12, budget=1)
    >>> nodes = [node for part in found.parts for node in part.nodes()]
    >>> found.directions + b"".join(shop.prove(12, front=front, back=back).directions for front, back in nodes)
    b'++'
    """

    directions: bytes
    parts: Tuple[Part, ...]
    lower: int = field(default=0, compare=False)

    def __repr__(self) -> str:
        """How many directions there are, and how many parts."""
        return f"Over({counted(len(self.directions), 'direction')}, {counted(len(self.parts), 'part')} left)"

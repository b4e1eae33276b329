"""What is different between the plan of a day and an earlier one."""

from bisect import bisect_left
from collections import Counter
from typing import Hashable, List, NamedTuple, Optional, Sequence, Tuple

from ._brief import BriefABC

# A job that other jobs stand before or behind now: its name, and its places among the jobs of both plans.
Moved = Tuple[str, int, int]
First = Tuple[Tuple[str, ...], str, bool]

class _Change(NamedTuple):
    """The fields of a change."""

    new: Tuple[str, ...]
    lost: Tuple[str, ...]
    begun: Tuple[str, ...]
    moved: Tuple[Moved, ...]
    ends: Tuple[str, str]
    first: Optional[First]


class Change(_Change, metaclass=BriefABC):
    """The difference between two plans: names of jobs that are new, that the earlier plan alone has, and of those of
    both that have begun by a moment; jobs that have moved, each with its places among those of both plans; when the
    earlier plan and this one end; and `first`, the best order with what has begun first: its names, when it ends, and
    whether it is proved that no such order ends earlier; None where nothing has begun.

    >>> before = Plan.of([["Job", "Cut"], ["A", 4], ["B", 1]])
    >>> Plan.of([["Job", "Cut"], ["B", 1], ["C", 2]], after=before).change
    Change(new=('C',), lost=('A',), begun=(), moved=(), ends=('5', '3'), first=None)
    """

    __slots__ = ()


def keys_of(names: Sequence[Hashable]) -> List[Tuple[str, int]]:
    """The names of jobs as text; each with a number, which tells those of one name apart."""
    seen: Counter[str] = Counter()
    keys = []
    for name in map(str, names):
        seen[name] += 1
        keys.append((name, seen[name]))
    return keys


def start_of(before: Sequence[Tuple[str, int]], jobs: Sequence[Tuple[str, int]]) -> List[int]:
    """The numbers of jobs in the order of an earlier plan; new ones stand at the end, as the table has them."""
    numbers = {key: number for number, key in enumerate(jobs, 1)}
    kept = [numbers[key] for key in before if key in numbers]
    return [*kept, *(number for number in numbers.values() if number not in set(kept))]


def moved_of(before: Sequence[Tuple[str, int]], now: Sequence[Tuple[str, int]]) -> Tuple[Moved, ...]:
    """The fewest jobs without which those of both orders stand in the same order."""
    shared = [key for key in before if key in set(now)]
    places = {key: place for place, key in enumerate(shared, 1)}
    order = [places[key] for key in now if key in places]
    ends: List[int] = []
    length = []
    for place in order:
        at = bisect_left(ends, place)
        ends[at : at + 1] = [place]
        length.append(at + 1)
    wanted, stays = len(ends), set()
    for at in reversed(range(len(order))):
        if length[at] == wanted:
            stays.add(order[at])
            wanted -= 1
    return tuple((shared[place - 1][0], place, at) for at, place in enumerate(order, 1) if place not in stays)

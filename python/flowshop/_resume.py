"""The state of a run of certify that was stopped, as bytes that it is gone on with."""

import zlib
from typing import NamedTuple

from ._certify import Effort, Kept, effort_of
from ._errors import OptionError
from ._found import numbers_of
from ._library import RunNumbers, version
from ._options import directions_of
from ._tasks import Numbers

# A version may have other tasks than another one.
_HEAD = f"flowshop run {version()}".encode()
_LINES = 7
_NONE = (
    f"resume is no state of a run of this shop by flowshop {version()}; `state` of a certificate gives one where its "
    "run was stopped"
)


class State(NamedTuple):
    """What a run goes on with: how much it may do, and what it keeps."""

    effort: Effort
    directions: int
    kept: Kept

    def written(self, shop: Numbers) -> bytes:
        """The state as bytes: a line that names its kind and the version, the shop, the numbers of the run as it was
        called, where it stands, the start, the best sequence, the one that was the best before it, and the directions;
        or in their place how many there are, where the run only counts them."""
        called = " ".join(map(str, [*self.effort, self.directions]))
        lists = [" ".join(map(str, numbers_of(each))).encode() for each in self.kept[1:4]]
        numbers, directions = self.kept.numbers.hex().encode(), self.kept.directions
        last = str(self.kept.written).encode() if directions is None else directions
        return b"\n".join([_HEAD, _named(shop), called.encode(), numbers, *lists, last])


def _named(shop: Numbers) -> bytes:
    """A shop, so that a state of another one is told."""
    jobs, machines, times = shop
    return f"{jobs} {machines} {zlib.crc32(times)}".encode()


def _packed(line: bytes, jobs: int) -> bytes:
    """The sequence of a line. ValueError where it is none."""
    numbers = [int(word) for word in line.split()]
    if sorted(numbers) != list(range(1, jobs + 1)):
        raise ValueError
    return b"".join(number.to_bytes(2, "little") for number in numbers)


def _read(shop: Numbers, state: bytes) -> State:
    """A state of a shop. ValueError where it is none."""
    head, named, called, numbers, *rest = state.split(b"\n", _LINES)
    if head != _HEAD or named != _named(shop) or len(rest) != 4:
        raise ValueError
    width, rounds, seed, work, directions = (int(word) for word in called.split())
    effort = effort_of(width=width, rounds=rounds, seed=seed, work=work)
    start, best, before = (_packed(line, shop[0]) for line in rest[:3])
    has_signs = not rest[3].isdigit()
    most = directions_of(directions, "signs" if has_signs else "count")
    proof = (len(rest[3]), rest[3]) if has_signs else (int(rest[3]), None)
    if proof[0] > most:
        raise ValueError
    kept = Kept(bytes.fromhex(numbers.decode("ascii")), start, best, before, *proof)
    RunNumbers.from_buffer_copy(kept.numbers)
    return State(effort, most, kept)


def state_of(shop: Numbers, state: bytes) -> State:
    """The state of a run of a shop by this version. OptionError where it is none."""
    try:
        return _read(shop, state)
    except (ValueError, OptionError):
        raise refused() from None


def refused(sentence: str = _NONE) -> OptionError:
    """The refusal of what is no state, or of what comes with one."""
    return OptionError("RESUME", 0, sentence)

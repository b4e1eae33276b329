"""Sequences as they are given: lists, arrays, and what the calls on a shop give."""

import os
import struct
from array import array
from operator import index
from typing import (
    Any, Callable, Dict, Hashable, Iterable, Iterator, List, Literal, Optional, Sequence, SupportsIndex, Tuple, Union
)

from ._errors import NotASequence, OptionError, counted, shown
from ._library import LIMITS, Refused
from ._results import Certificate, Names, Start, Timetable, listed
from ._tables import UNORDERED, Array

Jobs = Union[Iterable[Union[SupportsIndex, str]], Array, Start, Certificate, Timetable, "os.PathLike[str]"]
Many = Union[Iterable[Jobs], Array]
# By what a sequence has its jobs. None: by what it can be read as.
By = Optional[Literal["name", "number"]]
_RESULTS = (Start, Certificate, Timetable)
_MOST_NAMED = 3
# How many sequences a call of the library takes at most, so that an interrupt is seen between two calls.
_AT_ONCE = 4096
# The greatest number that is packed, whether it is a job or not.
_MOST_JOB: int = LIMITS.max_job


class Naming:
    """The jobs of a shop by their names, where they have any."""

    def __init__(self, count: int, names: Optional[Names]) -> None:
        self.count = count
        self._names = names or ()
        self._numbers: Dict[Hashable, int] = {}
        for number, name in enumerate(self._names, 1):
            self._numbers.setdefault(name, number)
        # Whether a list of whole numbers may be one of names.
        self._has_numbers = any(hasattr(name, "__index__") for name in self._names)

    def are_numbers(self, by: By) -> bool:
        """Whether whole numbers in a sequence are those of jobs."""
        return by == "number" or not (self._has_numbers or by == "name" and self._names)

    def read(self, jobs: Sequence[Any], by: By) -> Sequence[Any]:
        """The numbers of jobs that are given by number or by name. NotASequence where a name is that of no job, or of
        several, or where the list can be read both ways, and nothing is said."""
        if by not in (None, "name", "number"):
            raise OptionError("BY", 0, f"by is {shown(by)}, and has to be 'name' or 'number', or None")
        if by == "number" or not self._names:
            return jobs
        if by is None:
            named = [self._number_of(job) for job in jobs]
            in_range = [_has_16_bits(job) and 1 <= job <= self.count for job in jobs]
            if all(in_range) and (named == list(jobs) or not all(named)):
                return jobs
            if all(in_range):
                sentence = "the sequence can be read as names and as numbers of jobs"
                raise NotASequence("BY", 0, f"{sentence}; say which they are, by='name' or by='number'")
            if sum(in_range) >= sum(map(bool, named)):
                return jobs
        return [self._named(place, job) for place, job in enumerate(jobs, 1)]

    def _number_of(self, name: Any) -> int:
        """The number of the first job with a name; 0 where there is none."""
        try:
            return self._numbers.get(name, 0)
        except TypeError:  # it can not be hashed
            return 0

    def _named(self, place: int, name: Any) -> int:
        """The number of the job that a name stands for."""
        number = self._number_of(name)
        given = f"place {place} of the sequence is {shown(name)}"
        if number == 0:
            names = listed(self._names, _MOST_NAMED)
            raise NotASequence("NAME", place, f"{given}, and no job has this name; the names are {names}")
        if name in self._names[number:]:
            other = self._names.index(name, number) + 1
            sentence = f"{given}, which is the name of jobs {number} and {other}; give the numbers of jobs"
            raise NotASequence("NAME", place, sentence)
        return number


def items_of(given: Any, wanted: str) -> List[Any]:
    """The items of a list, an array or what else is given in its place. NotASequence, which says what is wanted, where
    it has none in an order."""
    try:
        if isinstance(given, (str, bytes, bytearray, *UNORDERED)):
            raise TypeError
        if isinstance(given, _RESULTS):
            return list(given.sequence)
        items = given.to_numpy() if hasattr(given, "to_numpy") else given  # a frame would give the names of its columns
        items = items.tolist() if hasattr(items, "tolist") else items
        return items if isinstance(items, list) else list(items)
    except TypeError:
        advice = "; the file of a sequence is named by pathlib.Path" if isinstance(given, str) else ""
        raise NotASequence("JOB", 0, f"{wanted}, and this is {shown(given)}{advice}") from None


def packed(sequence: Any, naming: Naming, by: By = None) -> bytes:
    """A sequence of jobs, by number or by name, as 16-bit numbers. NotASequence where it has something else."""
    is_list = type(sequence) in (list, tuple)
    jobs = sequence if is_list else items_of(sequence, "a sequence is a list of job numbers")
    is_read = by is not None or not naming.are_numbers(by)
    if is_read and (is_list or not isinstance(sequence, _RESULTS)):
        jobs = naming.read(jobs, by)
    try:
        return array("H", jobs).tobytes()
    except (TypeError, OverflowError):
        pass
    numbers = naming.read(jobs, by)
    if numbers is not jobs:
        return array("H", numbers).tobytes()
    raise _strange(jobs, naming.count)


def packed_node(front: Any, back: Any, naming: Naming, by: By) -> Tuple[bytes, bytes]:
    """The jobs that sequences begin and end with, as 16-bit numbers. The two lists are read in one way."""
    lists = [items_of(each, "a sequence is a list of job numbers") for each in (front, back)]
    jobs, cut = packed([*lists[0], *lists[1]], naming, by), 2 * len(lists[0])
    return jobs[:cut], jobs[cut:]


def packed_many(given: Any, naming: Naming, by: By) -> Iterator[bytes]:
    """Many sequences, some thousands at a time, one behind the other as 16-bit numbers. NotASequence, of which the
    place is (number, place), where one has something else or another length. Those before it are given first."""
    given = given.to_numpy() if hasattr(given, "to_numpy") else given
    is_plain = naming.are_numbers(by) and by in (None, "number")
    kind = str(getattr(getattr(given, "dtype", None), "kind", ""))
    is_whole = kind in ("i", "u") and given.ndim == 2 and given.size > 0 and not hasattr(given, "filled")
    if is_whole and is_plain and given.shape[1] == naming.count and 0 <= given.min() <= given.max() <= _MOST_JOB:
        rows, width = given.astype("uint16", order="C").tobytes(), 2 * naming.count * _AT_ONCE
        yield from (rows[at : at + width] for at in range(0, len(rows), width))
        return
    pack, held = _packer(naming, by, is_plain), []
    for number, sequence in enumerate(items_of(given, "many sequences are a list of lists of job numbers"), 1):
        try:
            held.append(pack(sequence))
        except Exception as error:  # of any kind: a fault of a sequence before it is told in its place
            yield b"".join(held)
            if isinstance(error, NotASequence):
                raise _of_many(number, error) from None
            raise
        if len(held) == _AT_ONCE:
            yield b"".join(held)
            held.clear()
    yield b"".join(held)


def _packer(naming: Naming, by: By, is_plain: bool) -> Callable[[Any], bytes]:
    """What packs a sequence of all jobs. NotASequence where it has something else or another length. Where whole
    numbers are those of jobs, a list of as many of them is packed at once."""
    at_once = struct.Struct(f"{naming.count}H").pack

    def pack(sequence: Any) -> bytes:
        if is_plain and type(sequence) in (list, tuple):
            try:
                return at_once(*sequence)
            except struct.error:
                pass
        jobs = packed(sequence, naming, by)
        if len(jobs) != 2 * naming.count:
            raise not_a_sequence(Refused("LENGTH", 0), jobs, naming.count)
        return jobs

    return pack


def _of_many(number: int, error: NotASequence) -> NotASequence:
    """The refusal of one of many sequences."""
    place = error.place if isinstance(error.place, int) else 0
    return NotASequence(error.name, (number, place), f"sequence {number}: {error}")


def _has_16_bits(job: Any) -> bool:
    """Whether something is a whole number of 16 bits."""
    try:
        return 0 <= index(job) <= _MOST_JOB
    except TypeError:
        return False


def _strange(jobs: Sequence[Any], count: int) -> NotASequence:
    """The refusal of the first job that is no number of 16 bits."""
    place, job = next((place, job) for place, job in enumerate(jobs, 1) if not _has_16_bits(job))
    if isinstance(job, int):
        return _no_job(place, job, jobs, count)
    sentence = f"place {place} of the sequence is {shown(job)}, and has to be a job number from 1 to {count}"
    is_whole = isinstance(job, float) and job.is_integer()
    return NotASequence("JOB", place, f"{sentence}; convert the list to int" if is_whole else sentence)


def _no_job(place: int, job: Any, jobs: Iterable[Any], count: int) -> NotASequence:
    """The refusal of a number that is no job of the shop."""
    sentence = f"place {place} of the sequence is {shown(job)}, and the jobs are 1 to {count}"
    return NotASequence("JOB", place, sentence + ("; add 1 to each if they are counted from 0" if 0 in jobs else ""))


def not_a_sequence(refused: Refused, sequence: bytes, count: int) -> NotASequence:
    """The refusal of a list of numbers that is no sequence of a shop with so many jobs."""
    jobs = memoryview(sequence).cast("H").tolist()
    place = refused.place
    if refused.name == "JOB":
        return _no_job(place, jobs[place - 1], jobs, count)
    if refused.name == "TWICE":
        job = jobs[place - 1]
        sentence = f"job {job} stands at place {jobs.index(job) + 1} of the sequence, and again at place {place}"
    else:
        sentence = f"the sequence has {counted(len(jobs), 'job')}, and the shop has {count:,}"
    return NotASequence(refused.name, place, f"{sentence}; each job stands in it once")


def not_many(refused: Refused, jobs: bytes, count: int, before: int) -> NotASequence:
    """The refusal of one of many sequences of so many jobs, which stand behind so many others."""
    at, place = divmod(refused.place - 1, count)
    sequence = jobs[2 * at * count : 2 * (at + 1) * count]
    return _of_many(before + at + 1, not_a_sequence(Refused(refused.name, place + 1), sequence, count))


def not_a_node(refused: Refused, front: bytes, back: bytes, count: int) -> NotASequence:
    """The refusal of two lists that no sequence of a shop with so many jobs begins and ends with."""
    jobs = memoryview(front + back).cast("H").tolist()
    begins, place = len(front) // 2, refused.place
    name, at = ("front", place) if place <= begins else ("back", place - begins)
    job = jobs[place - 1]
    if refused.name == "TWICE":
        return NotASequence("TWICE", place, f"place {at} of {name} is {job}, which stands before it in front or back")
    return NotASequence(refused.name, place, f"place {at} of {name} is {job}, and the jobs are 1 to {count}")

"""Shops, and the calls on them."""

from __future__ import annotations

import os
import re
from array import array
from contextlib import suppress
from dataclasses import asdict, replace
from math import perm
from typing import (
    Any, Callable, Collection, Dict, Hashable, Iterable, List, NamedTuple, NoReturn, Optional, Tuple, Union
)

from . import _json
from ._brief import Brief, BriefABC
from ._certify import Better, Effort, Known, Run, begun, effort_of
from ._checking import check_shared
from ._clock import Plain, Times, times_of
from ._drawing import with_times
from ._errors import Interrupted, NotASequence, NotAShop, NotLawful, OptionError, OverBudget, TextError
from ._errors import counted, found_in
from ._found import Below, Over, Proved, numbers_of, part_of
from ._headings import length_of
from ._labels import Unit, label_lines, unit_of
from ._library import LIMITS, BoundsRoom, EffortNumbers, Plan, ReachedRoom, Refused, RunNumbers, ShopNumbers, SpansRoom
from ._library import TextRoom, byref, call, size, u16, u32, u64
from ._options import MOST_KEPT, OF_PARTS, STATED, Proof, directions_of, function_of, has_signs, keeps_signs, option
from ._options import proof_of, scale_of, time_limit_of, token_of, workers_of
from ._page import MOST_BARS, Facts, page
from ._parts import OVER, PROVED, Instance, PackedPart, Pieces, Rooms, Searched, parts_of
from ._results import Certificate, Names, Path, Picture, Report, Start, Timetable, listed, with_names
from ._resume import State, refused, state_of
from ._saving import save
from ._sequences import By, Jobs, Many, Naming, not_a_node, not_a_sequence, not_many, packed
from ._sequences import packed_many, packed_node
from ._spread import Workers
from ._tables import Table, read_kept, read_table
from ._texts import Text, block_text, blocks_of, is_certificate, is_counted, not_lawful, order_of, start_of, text_of
from ._texts import written
from ._threads import Executor, with_stack
from ._waiting import Progress, Token, Watch, waited, waited_for

# The most bars of a picture that a notebook shows beside a result.
_MOST_SMALL = 2000
_Numbers = Tuple[int, ...]


class Shop(metaclass=Brief):
    """A permutation flow shop: 1 to 800 jobs on 1 to 26 machines, with whole times from 0 to 999,999, in a unit of your
    choice. `from_jobs` or `from_machines` make it of a table. It is frozen: it can be compared, hashed and pickled, and
    used by any number of threads.

    In the examples of this package `shop` is this one:

    >>> from flowshop import Shop
    >>> shop = Shop.from_jobs([[4, 0, 4], [0, 8, 0], [0, 2, 1]])
    >>> shop
    Shop(3 jobs, 3 machines)
    """

    __slots__ = ("_parts", "_lent", "_naming", "_bound", "_counted")
    # Jobs, machines, times, the names of both, and the unit of the times; what each call is lent of them; the jobs by
    # their names; what `bound` gives, once it is known; and the counted certificate that one worker checked last.
    _parts: Tuple[int, int, bytes, Optional[Names], Optional[Names], Unit]
    _lent: Any
    _naming: Naming
    _bound: Optional[int]
    _counted: Optional[Certificate]

    def __init__(self, *_: object) -> None:
        raise TypeError(
            "Shop(..) does not say what a row is: Shop.from_jobs(table) has a row for each job, "
            "Shop.from_machines(table) a row for each machine"
        )

    @classmethod
    def _of(
        cls,
        jobs: int,
        machines: int,
        times: bytes,
        job_names: Optional[Names],
        machine_names: Optional[Names],
        unit: Unit = Unit(),
    ) -> Shop:
        """The shop of these times, machine by machine, as 32-bit numbers. The calls of the library test them."""
        shop = object.__new__(cls)
        object.__setattr__(shop, "_parts", (jobs, machines, times, job_names, machine_names, unit))
        object.__setattr__(shop, "_lent", byref(ShopNumbers(jobs, machines, times, len(times) // 4)))
        object.__setattr__(shop, "_naming", Naming(jobs, job_names))
        object.__setattr__(shop, "_bound", None)
        object.__setattr__(shop, "_counted", None)
        return shop

    @classmethod
    def from_jobs(
        cls,
        table: Table,
        *,
        job_names: Optional[Iterable[Hashable]] = None,
        machine_names: Optional[Iterable[Hashable]] = None,
        scale: int = 1,
    ) -> Shop:
        """The shop of a table with a row for each job and a column for each machine, in the order in which jobs visit
        the machines: lists, an array with two dimensions, or a frame as that of pandas. Names are text or whole
        numbers, each another one; else the labels of a frame are the names, but for those that only count from 0. Times
        are whole numbers, also as floats. They are multiplied by `scale`, which divides 1,000,000, so that decimals
        become whole: all numbers that the shop takes and gives are in this smaller unit, and pictures and reports show
        that of the table. NotAShop where the table or a name is none, OptionError where the scale is none.

        >>> Shop.from_jobs([[4, 0], [0, 8]], job_names=["Shelf", "Door"], machine_names=["Cut", "Weld"])
        Shop(2 jobs: Shelf, Door; 2 machines: Cut, Weld)
        >>> Shop.from_jobs([[4, 0], [0, None]])
        Traceback (most recent call last):
        flowshop.NotAShop: the time in row 2, column 2 is missing (None); write 0 where a job skips a machine
        >>> Shop.from_jobs([[1.5, 0], [0, 0.25]], scale=100).times
        [[150, 0], [0, 25]]
        """
        return cls._of(*read_table(table, True, job_names, machine_names, scale_of(scale)))

    @classmethod
    def from_machines(
        cls,
        table: Table,
        *,
        job_names: Optional[Iterable[Hashable]] = None,
        machine_names: Optional[Iterable[Hashable]] = None,
        scale: int = 1,
    ) -> Shop:
        """The shop of a table with a row for each machine, in the order in which jobs visit them, and a column for each
        job. The rest is as in `from_jobs`.

        >>> Shop.from_machines([[4, 0, 0], [0, 8, 2], [4, 0, 1]]) == shop
        True
        """
        return cls._of(*read_table(table, False, job_names, machine_names, scale_of(scale)))

    @classmethod
    def generate(cls, jobs: int, machines: int, seed: int) -> Shop:
        """The shop of a seed, 1 to 2,147,483,646, by the generator of Taillard (1993): each time is drawn from 1 to 99.
        OptionError where jobs, machines or seed are not within their limits.

        >>> Shop.generate(2, 2, 1).times
        [[1, 14], [75, 46]]
        """
        jobs, machines = option("jobs", jobs), option("machines", machines)
        times = (u32 * (jobs * machines))()
        call("generate", jobs, machines, option("seed", seed), times, jobs * machines)
        return cls._of(jobs, machines, bytes(times), None, None)

    @classmethod
    def read(cls, path: Path) -> List[Block]:
        """All blocks of a benchmark text in a file, in their order. A shop has the names and the unit that the label
        lines of its block have in the form in which `write` and the command `shop` write them. OSError where the
        file is not read, TextError with the first fault of the text and its line, or with the first label line that has
        names or the unit, and not all of that form, or where the file has more than 16,777,216 bytes.

        >>> shop.write("shop.txt")
        >>> Shop.read("shop.txt")[0].shop == shop
        True
        """
        return [block for _, block in cls._picked(path, lambda count: range(1, count + 1))]

    @classmethod
    def _picked(cls, path: Path, choose: Callable[[int], Collection[int]]) -> List[Tuple[int, Block]]:
        """The blocks whose numbers are chosen, once it is known how many there are, in the order of the choice, each
        with its number."""
        chosen: Collection[int] = ()

        def choice(count: int) -> Collection[int]:
            nonlocal chosen
            chosen = choose(count)
            return chosen

        found = {number: Block(cls._of(*block[:6]), *block[6:]) for number, block in blocks_of(path, choice)}
        return [(number, found[number]) for number in chosen]

    def write(self, path: Path, *, seed: int = 0, upper: Optional[int] = None, lower: Optional[int] = None) -> None:
        """Writes the shop to a file, as a benchmark text of one block. Its label lines have the names and the unit,
        where the shop has any; names come back as text. Its head states a seed and bounds of the least makespan, which
        nothing tests: where they are left out, the makespan of `neh` and the bound of `bound`. OSError where the file
        is not written, OptionError where a number is not of 32 bits, TextError where a name is empty, or has a tab or
        an end of a line.

        >>> shop.write("shop.txt")
        """
        stated = [
            option("seed", seed, STATED),
            option("upper", self.neh().value if upper is None else upper, STATED),
            option("lower", self.bound() if lower is None else lower, STATED),
        ]
        save(path, self._text(*stated))

    def _text(self, seed: int, upper: int, lower: int) -> bytes:
        """The benchmark text of the shop, with what its head states."""
        labels = label_lines(self.jobs, self.machines, *self._parts[3:])
        return block_text(labels, self.times, seed, upper, lower).encode("utf-8", "replace")

    @property
    def jobs(self) -> int:
        """How many jobs there are.

        >>> shop.jobs
        3
        """
        return self._parts[0]

    @property
    def machines(self) -> int:
        """How many machines there are.

        >>> shop.machines
        3
        """
        return self._parts[1]

    @property
    def times(self) -> List[List[int]]:
        """The times: a row for each machine, each with the time of each job.

        >>> shop.times
        [[4, 0, 0], [0, 8, 2], [4, 0, 1]]
        """
        numbers = memoryview(self._parts[2]).cast("I").tolist()
        return [numbers[start : start + self.jobs] for start in range(0, len(numbers), self.jobs)]

    @property
    def job_names(self) -> Names:
        """The names of the jobs; their numbers from 1 where they have none.

        >>> shop.job_names
        (1, 2, 3)
        """
        return self._parts[3] or tuple(range(1, self.jobs + 1))

    @property
    def machine_names(self) -> Names:
        """The names of the machines; their numbers from 1 where they have none.

        >>> shop.machine_names
        (1, 2, 3)
        """
        return self._parts[4] or tuple(range(1, self.machines + 1))

    @property
    def scale(self) -> int:
        """By what the times of a table were multiplied, so that all are whole: 1, or what the file of the shop says.

        >>> shop.scale
        1
        """
        return self._parts[5].scale

    def to_dict(self) -> Dict[str, Any]:
        """Times, names and unit, as json takes them. The times have a row for each machine.

        >>> shop.to_dict()["times"]
        [[4, 0, 0], [0, 8, 2], [4, 0, 1]]
        """
        names = map(_json.plain_names, self._parts[3:5])
        return {"times": self.times, **dict(zip(("job_names", "machine_names"), names)), "unit": asdict(self._parts[5])}

    def to_json(self) -> str:
        """The same as JSON.

        >>> Shop.from_json(shop.to_json()) == shop
        True
        """
        return _json.written(self.to_dict())

    @classmethod
    def from_json(cls, text: _json.Json) -> Shop:
        """The shop that `to_json` gave. NotAShop where the text has another form.

        >>> Shop.from_json(shop.to_json())
        Shop(3 jobs, 3 machines)
        """
        names = (list, type(None))
        kinds = {"times": (list,), "job_names": names, "machine_names": names, "unit": (dict,)}
        found = _json.read(text, kinds, NotAShop, "Shop.to_json")
        return cls._of(*read_kept(found["times"], found["job_names"], found["machine_names"], unit_of(found["unit"])))

    def __setattr__(self, name: str, value: object) -> NoReturn:
        raise AttributeError(f"a Shop is frozen: {name} can not be set")

    def __delattr__(self, name: str) -> NoReturn:
        raise AttributeError(f"a Shop is frozen: {name} can not be deleted")

    def __eq__(self, other: object) -> bool:
        """Whether times, names and scale are the same."""
        if not isinstance(other, Shop):
            return NotImplemented
        return self._parts == other._parts

    def __hash__(self) -> int:
        return hash(self._parts)

    def __reduce__(self) -> Tuple[Any, Tuple[Any, ...]]:
        """What pickle and copy keep."""
        return Shop._of, self._parts

    def __repr__(self) -> str:
        """The sizes, and the first names where there are any."""
        jobs, machines = (listed(names, 3) if names else "" for names in self._parts[3:5])
        if not jobs and not machines:
            return f"Shop({counted(self.jobs, 'job')}, {counted(self.machines, 'machine')})"
        named = f"{counted(self.jobs, 'job')}: {jobs}" if jobs else counted(self.jobs, "job")
        return f"Shop({named}; {counted(self.machines, 'machine')}{': ' if machines else ''}{machines})"

    def _call(self, name: str, sequence: bytes, *words: Any) -> None:
        """Makes a call on the shop and a sequence. NotASequence where that is none."""
        try:
            call(name, self._lent, sequence, size(len(sequence) // 2), *words)
        except Refused as refused:
            if refused.name in ("LENGTH", "JOB", "TWICE"):
                raise not_a_sequence(refused, sequence, self.jobs) from None
            raise

    def _packed(self, sequence: Jobs, by: By) -> bytes:
        """A sequence as the calls of the library take it."""
        if type(sequence) not in (list, tuple) and isinstance(sequence, os.PathLike):
            text = order_of(sequence)
            try:
                return self._packed_text(text)
            except (NotASequence, NotLawful, TextError) as error:
                raise found_in(sequence, error) from None
        return packed(sequence, self._naming, by)

    def _packed_text(self, text: bytes) -> bytes:
        """The sequence that a text has: of a certificate, which is checked, of what the program prints, or of numbers
        alone."""
        jobs: Jobs = self.check(text) if is_certificate(text) else self._attained(*start_of(text))
        return packed(jobs, self._naming, "number")

    def _attained(self, jobs: List[int], stated: Optional[int], line: int) -> List[int]:
        """The jobs of a text. TextError where it says in a line that they have another makespan."""
        makespan = self.makespan(jobs, by="number")
        if stated not in (None, makespan):
            sentence = f"line {line} says that the makespan is {stated:,}, and that of these jobs is {makespan:,}"
            raise TextError("NOT_ATTAINED", line, sentence)
        return jobs

    def _named(self, sequence: _Numbers) -> Names:
        """The names of jobs in the order of a sequence."""
        names = self._parts[3]
        return tuple(names[job - 1] for job in sequence) if names else sequence

    def makespan(self, sequence: Jobs, *, by: By = None) -> int:
        """The makespan of a sequence, in the unit of the times: a list or an array that has each job once, or a Start,
        Certificate or Timetable, or the path of a file (pathlib.Path) with a certificate, which is checked, or with the
        numbers of the jobs. Jobs are given by their numbers from 1, or by their names. Where both can be meant, as
        of names that are whole numbers, `by` says which: "number" or "name". NotASequence where it is none,
        OptionError where `by` is something else.

        >>> shop.makespan([2, 1, 3])
        13
        >>> Shop.from_jobs([[4, 0], [0, 8]], job_names=["Shelf", "Door"]).makespan(["Door", "Shelf"])
        8
        """
        return self._makespan(self._packed(sequence, by))

    def _makespan(self, sequence: bytes) -> int:
        """The makespan of a packed sequence."""
        value = u64()
        self._call("makespan", sequence, byref(value))
        return value.value

    def makespans(self, sequences: Many, *, by: By = None) -> array[int]:
        """The makespans of many sequences: of a list of them, or of the rows of an array. They are an array of 64-bit
        numbers, which numpy takes as it is. `by` is that of `makespan`. NotASequence where one is none: its place is
        (number, place), from 1.

        >>> shop.makespans([[1, 2, 3], [2, 1, 3], [3, 1, 2]])
        array('q', [15, 13, 12])
        """
        values = array("q")
        for jobs in packed_many(sequences, self._naming, by):
            values.frombytes(self._makespans(jobs, len(values)))
        return values

    def _makespans(self, jobs: bytes, before: int) -> bytes:
        """The makespans of packed sequences that stand behind so many others, as 64-bit numbers."""
        count = len(jobs) // (2 * self.jobs)
        room = (u64 * count)()
        try:
            call("makespans", self._lent, jobs, len(jobs) // 2, room, count)
        except Refused as refused:
            if refused.name in ("JOB", "TWICE"):
                raise not_many(refused, jobs, self.jobs, before) from None
            raise
        return bytes(room)

    def schedule(self, sequence: Jobs, *, by: By = None) -> Timetable:
        """The timetable of a sequence, where each job starts as early as it can. A Certificate is checked; NotLawful
        where it is none of the shop. `by` and the other errors are those of `makespan`.

        >>> list(shop.schedule([2, 1, 3]))[-1]
        Operation(job=3, machine=3, start=12, end=13)
        """
        lower = self.check(sequence).lower if isinstance(sequence, Certificate) else self.bound()
        return self._timetable(self._packed(sequence, by), lower)

    def _timetable(self, jobs: bytes, lower: int) -> Timetable:
        """The timetable of a packed sequence, with a lower bound."""
        count = self.jobs * self.machines
        starts, ends = (u64 * count)(), (u64 * count)()
        self._call("timetable", jobs, SpansRoom(starts, count, ends, count))
        numbers = tuple(memoryview(jobs).cast("H"))
        names = self._named(numbers), self.machine_names
        return Timetable(numbers, *names, bytes(starts), bytes(ends), lower, self.scale, self)

    def gantt(self, sequence: Jobs, *, by: By = None) -> Picture:
        """The picture of the timetable of a sequence, as SVG text: a row for each machine, and a bar for each job and
        machine where the time is not 0, with the name of the job, or, where that has no room, # and its place in the
        sequence. Times are in the unit of the table, where the shop has one. The outlined operations leave no room:
        together they take the whole time. Of a Certificate, which is checked, the title says also
        what it proves; NotLawful where it is none of the shop. `by` and the other errors are those of `makespan`.

        >>> shop.gantt(shop.neh())[:4]
        '<svg'
        """
        lower = self.check(sequence).lower if isinstance(sequence, Certificate) else 0
        return self._drawn(self._packed(sequence, by), lower)

    def _drawn(self, jobs: bytes, lower: int) -> Picture:
        """The picture of a packed sequence, with a lower bound where it is above 0."""
        picture = self._picture(jobs, lower)
        if self._parts[3:5] != (None, None):
            sequence = numbers_of(jobs)
            picture = with_names(picture, sequence, self._named(sequence), self.machine_names)
        return Picture(with_times(picture, Plain(self._parts[5])) if self.scale > 1 else picture)

    def _small_picture(self, sequence: _Numbers, lower: int) -> str:
        """The picture of a sequence as wide as what it stands in; where it has many bars, how to draw it."""
        if self.jobs * self.machines > _MOST_SMALL:
            return "<p>shop.gantt(..) draws it.</p>"
        picture = self._drawn(array("H", sequence).tobytes(), lower)
        return re.sub(r' width="\d+" height="\d+"', ' style="width: 100%; max-width: 60em"', picture, count=1)

    def _in_unit(self, time: int) -> str:
        """A time in the unit of the table."""
        return self._parts[5].shown(time)

    def _picture(self, jobs: bytes, lower: int) -> str:
        """The picture of a packed sequence without names, with a lower bound where it is above 0."""
        room = 16_384 + 400 * self.jobs * self.machines
        return written(room, lambda text: self._call("picture", jobs, lower, text)).decode("ascii")

    def report(
        self,
        order: Jobs,
        *,
        start: Optional[str] = None,
        unit: Optional[str] = None,
        title: Optional[str] = None,
        by: By = None,
    ) -> Report:
        """A page of HTML for whoever carries the schedule out: the order, a picture, a table of the machines, and a
        sheet for each of them with start and end of each job. It says what is proved: of a Certificate, which is
        checked, its lower bound, or that of `bound` where this is higher, and of another sequence that of `bound`.
        Times are in the unit of the table; or by the clock, where `start` is the time of day when the first job starts,
        and `unit` how long one unit of the table is, as `15min`, `1h` or `30s`; left out, it is the one that stands
        behind the names of machines, as `Saw (min)`. NotLawful where a certificate is none of the shop, OptionError
        where start or unit has another form, or one is missing; `by` and the other errors are those of `makespan`.

        >>> shop.report(shop.certify(), start="07:30", unit="15min").save("schedule.html")
        """
        times = times_of(self._parts[5], start, unit, length_of(self.machine_names))
        certificate = self.check(order) if isinstance(order, Certificate) else None
        jobs = self._packed(certificate or order, by)
        title = title or f"Schedule of {counted(self.jobs, 'job')} on {counted(self.machines, 'machine')}"
        return Report(page(self._facts(jobs, certificate.lower if certificate else None, times, title)))

    def _facts(self, jobs: bytes, certified: Optional[int], times: Times, title: str) -> Facts:
        """What a page says of a packed sequence, with the lower bound of a certificate where there is one."""
        listed = self._makespan(self._in_order())
        facts = Facts(title, self._timetable(jobs, 0), certified, self.bound(), listed, "", times)
        has_picture = self.jobs * self.machines <= MOST_BARS
        return replace(facts, picture=self._picture(jobs, facts.lower)) if has_picture else facts

    def bound(self) -> int:
        """A number below which no sequence has a makespan: the bound of the two-ended certificate with no directions.
        That is, of all machines, the greatest sum of its times, the least time that a job needs before it, and the
        least that one needs after it. The lower bound that a text proves may be below it, and is the worse one then.

        >>> shop.bound()
        10
        """
        if self._bound is None:
            bound = int(Instance(*self._parts[:3]).run(self._in_order(), 1, False).lower)
            object.__setattr__(self, "_bound", bound)
            return bound
        return self._bound

    def _in_order(self) -> bytes:
        """The sequence of the jobs as they are numbered."""
        return array("H", range(1, self.jobs + 1)).tobytes()

    def neh(self) -> Start:
        """The starting sequence of Nawaz, Enscore and Ham (1983): jobs by decreasing total time, of equal ones the
        lower number first, each put in at the earliest place that gives the least makespan.

        >>> shop.neh().sequence
        (2, 1, 3)
        """
        sequence = (u16 * self.jobs)()
        reached = ReachedRoom(sequence, self.jobs)
        call("neh", self._lent, reached)
        return self._start(tuple(sequence), reached.makespan)

    def _start(self, sequence: _Numbers, value: int) -> Start:
        return Start(sequence, value, self._named(sequence), self.bound(), self)

    def _begun(self, start: Optional[Jobs], by: By = None) -> bytes:
        """The sequence from which a search begins."""
        return self._packed(self.neh() if start is None else start, by)

    def improve(
        self,
        start: Optional[Jobs] = None,
        *,
        width: int = 4096,
        rounds: int = 10_000,
        seed: int = 1,
        work: int = 8500,
        time_limit: Optional[float] = None,
        by: By = None,
    ) -> Start:
        """A sequence whose makespan is at most that of a start, or of the sequence of `neh`, by searches in one thread:
        a two-ended beam of widths up to `width`, 0 to 65,536, and two runs of at most `rounds` rounds, 0 to
        100,000,000, with the random numbers of `seed`, 1 to 2,147,483,646. They take about `work` million steps at
        most, 0 to 1,000,000, each about the work for one job on one machine. After `time_limit` seconds the best
        sequence so far is given. An interrupt ends the call within a second, as Interrupted, which has it; without a
        time limit it has the start. `by` is that of `makespan`. NotASequence where the start is none, OptionError
        where a number is not as said here.

        >>> shop.improve([1, 2, 3]).value
        12
        """
        effort = effort_of(width=width, rounds=rounds, seed=seed, work=work)
        limit, begun = time_limit_of(time_limit), self._begun(start, by)
        if limit is None:
            sequence = (u16 * self.jobs)()
            reached = ReachedRoom(sequence, self.jobs)
            try:
                waited(lambda: self._call("improve", begun, EffortNumbers(*effort), reached))
            except KeyboardInterrupt:
                raise Interrupted(self._start(numbers_of(begun), self._makespan(begun))) from None
            return self._start(tuple(sequence), reached.makespan)
        search = Better(self._parts[:3], begun, self._makespan(begun), effort)
        try:
            search.search_until(Watch(limit, None))
        except KeyboardInterrupt:
            raise Interrupted(self._start(numbers_of(search.best.sequence), search.best.makespan)) from None
        return self._start(numbers_of(search.best.sequence), search.best.makespan)

    def solve(
        self,
        start: Optional[Jobs] = None,
        *,
        depth: int = 0,
        budget: int = 10_000_000,
        version: int = 1,
        time_limit: Optional[float] = None,
        by: By = None,
    ) -> Certificate:
        """The least makespan with its certificate, by a search in one thread from a sequence, or from that of `neh`.
        There is a tree for each list of `depth` jobs, 0 to 3, of at most `budget` bytes, 1 to 100,000,000; `version`, 1
        or 2, says by which bound the search prunes. `by` is that of `makespan`. OverBudget where a tree is longer,
        NotASequence where the start is none, OptionError where a number is not as said here. Where the search has not
        ended after `time_limit` seconds, there is a two-ended certificate of what `bound` gives, and of the start. An
        interrupt ends the call within a second. But one call of the library makes the search, and cannot be stopped: it
        runs on in a thread of its own until it ends.

        >>> shop.solve(time_limit=60).upper
        12
        """
        plan = Plan(option("depth", depth), option("budget", budget), option("version", version))
        limit = time_limit_of(time_limit)
        trees = self._trees(plan.depth)
        begun, most = self._begun(start, by), LIMITS.max_beside + trees * (plan.budget + 1)
        jobs = (u16 * self.jobs)()
        bounds = BoundsRoom(jobs, self.jobs)

        def search() -> bytes:
            return written(most, lambda room: self._call("solve", begun, plan, bounds, room))

        try:
            text = waited(search) if limit is None else waited_for(search, limit)
        except Refused as refused:
            raise _over_budget(refused, trees, plan.budget) from None
        if text is None:
            return self.check(self._certificate(Known(self.bound(), self._makespan(begun), begun, 0, b"")))
        sequence = tuple(jobs)
        return Certificate(bounds.lower, bounds.upper, sequence, text, self._named(sequence), self)

    def _trees(self, depth: int) -> int:
        """How many lists of so many jobs there are. OptionError where there are none, or too many."""
        if depth > self.jobs:
            raise OptionError("PLAN_DEPTH", 0, f"depth is {depth}, and the shop has {counted(self.jobs, 'job')}")
        trees = perm(self.jobs, depth)
        if trees > LIMITS.max_prefixes:
            sentence = f"depth is {depth}, which makes {trees:,} trees, and there are {LIMITS.max_prefixes:,} at most"
            raise OptionError("PLAN_PREFIXES", 0, sentence)
        return trees

    def prove(
        self,
        bound: int,
        *,
        front: Jobs = (),
        back: Jobs = (),
        budget: int = 1_000_000,
        time_limit: Optional[float] = None,
        by: By = None,
    ) -> Union[Proved, Below, Over]:
        """A search for directions that prove that no sequence has a makespan below `bound`, 0 to
        18,446,744,073,709,551,615; of the sequences alone that begin with the jobs `front` and end with the jobs
        `back`, where these are given. It comes to directions, Proved; or to a sequence below the bound, Below; or it is
        Over, with the parts that are left, where there are more directions than `budget`, 0 to 1,000,000,000, or where
        it has not ended after `time_limit` seconds. With a time limit an interrupt raises Interrupted, whose result is
        that. `by` is that of `makespan`. NotASequence where a job of `front` and `back` is none of the shop, or stands
        there twice, OptionError where a number is not as said here.

        >>> shop.prove(12), shop.prove(13), shop.prove(12, budget=1)
        (Proved(2 directions), Below(makespan 12: 3, 1, 2), Over(1 direction, 1 part left))
        >>> shop.prove(14, front=[2])
        Below(makespan 13: 2, 1, 3)
        """
        number, room = option("bound", bound, OF_PARTS), option("budget", budget, OF_PARTS)
        lists = packed_node(front, back, self._naming, by)
        limit, instance = time_limit_of(time_limit), Instance(*self._parts[:3])
        try:
            if limit is not None:
                return self._proved_in(limit, number, Pieces(instance, [PackedPart(*lists, 0, b"")], number, room))
            rooms = Rooms(instance, room)
            kind = waited(lambda: rooms.search(*lists, number))
        except Refused as refused:
            raise not_a_node(refused, *lists, self.jobs) from None
        rest = parts_of(rooms.rest()) if kind == OVER else []
        found = Searched(kind, rooms.written, rest, rooms.reached(), rooms.makespan, rooms.directions())
        return self._proved(number, found)

    def _proved_in(self, limit: float, number: int, pieces: Pieces) -> Union[Proved, Below, Over]:
        """What a search in pieces below a number comes to within so many seconds."""
        watch = Watch(limit, None)
        try:
            watch.run(lambda: pieces.search(watch.pause), lambda seconds: Progress(1, 0, 0, 0, seconds))
        except KeyboardInterrupt:
            raise Interrupted(self._proved(number, pieces.found())) from None
        return self._proved(number, pieces.found())

    def _proved(self, number: int, found: Searched) -> Union[Proved, Below, Over]:
        """What a search for directions that prove a number came to."""
        if found.kind == PROVED:
            return Proved(found.directions, number)
        if found.kind == OVER:
            return Over(found.directions, tuple(map(part_of, found.parts)), self.bound())
        jobs = numbers_of(found.sequence)
        return Below(jobs, found.makespan, self._named(jobs), self.bound(), self, found.directions)

    def certify(
        self,
        start: Optional[Jobs] = None,
        *,
        width: int = 4096,
        rounds: int = 10_000,
        seed: int = 1,
        work: int = 8500,
        directions: int = MOST_KEPT,
        proof: Proof = None,
        workers: Union[int, Executor, None] = 1,
        time_limit: Optional[float] = None,
        progress: Union[bool, Callable[[Progress], object], None] = None,
        token: Optional[Token] = None,
        resume: Union[bytes, os.PathLike[str], Certificate, None] = None,
        by: By = None,
    ) -> Certificate:
        """Bounds of the least makespan with a certificate of them, by searches from a sequence, or from that of `neh`,
        and from better ones. The least makespan is proved where `optimal` is true; the upper bound is at most the
        makespan of the start. At most `directions` directions prove the lower one: the more there may be, the longer
        the searches take where they do not find the least makespan. The other numbers are those of `improve`. With the
        numbers left out a call may take a minute and a half.

        With `proof` as "signs" the text has a sign for each direction, and `directions` is 1 to 1,000,000,000; all of
        them are kept in memory. With "count" it has their number alone, and `directions` is 1 to 1,000,000,000,000,000.
        None is kept, so the text is short, and a check makes the search again. Left out, the run counts where
        `directions` is above 100,000,000, and else has signs where at most 10,000,000 prove the bound.

        Searches are shared by `workers`: so many threads, 1 to 10,000, or one of each processor for -1 or None; or
        those of an executor, such as ProcessPoolExecutor, a client of dask, or MPIPoolExecutor: what has `submit`. The
        certificate is the same for any workers. After `time_limit` seconds it is one of the best bounds so far; with
        few seconds, less `work` and fewer `directions` may give better ones. A run with a time limit raises the lower
        bound early, and may give another certificate also where it ends before. `progress` is called with a Progress, a
        few times a second; where it is True, a line on standard error tells the same. An interrupt ends the call within
        a second, as Interrupted, whose `result` is a certificate of the best bounds so far; an error of `progress` or
        of the executor has such a `result` too. Without an executor and a time limit `check` has read the certificate
        of a run that has ended and keeps signs, also where their number is written. `by` is that of `makespan`. Errors
        are those of `improve` and of the executor.

        A `token`, such as a threading.Event, ends the call from another thread as a time limit does, once it is set.
        A certificate of a run that was stopped has a `state`: with `resume` as such a state, a file of it
        (pathlib.Path), or that certificate a run goes on behind the last task that it had done, and comes to what it
        would have come to. Start, width, rounds, seed, work and directions are those of the state. A state with signs
        is checked; one of a run that counts has their number alone, which is taken as it stands there. OptionError
        where `start` or `by` is given too, or "signs" with such a number, or where it is no state of a run of this shop
        by this version, as no text of a certificate is.

        >>> certificate = shop.certify(workers=4, time_limit=60)
        >>> certificate.lower, certificate.upper
        (12, 12)
        """
        effort = effort_of(width=width, rounds=rounds, seed=seed, work=work)
        form = proof_of(proof)
        most, limit = directions_of(directions, form), time_limit_of(time_limit)
        executor, count = workers_of(workers)
        if not isinstance(progress, bool):
            function_of("progress", progress, "True, or a function that takes a Progress, or None")
        token_of(token)
        if resume is None:
            state = self._begin(self._begun(start, by), effort, most, limit is not None, form)
        else:
            state = self._resumed(resume, start, by, form)
        at_once = min(4, count) if executor is None else 4
        found, known = self._certify(state, Workers(executor, count, at_once), Watch(limit, progress, token), form)
        is_read = executor is None and limit is None and found.state is None and known.directions is not None
        return self._read(found, known) if is_read else found

    def _begin(
        self, start: Optional[bytes], effort: Effort, directions: int, is_limited: bool, proof: Proof
    ) -> State:
        """The state of a run at its beginning, from a sequence or that of `neh`. NotASequence where it is none."""
        first, run = self._begun(None) if start is None else start, RunNumbers()
        self._call("run", first, directions, int(is_limited), run)
        return State(effort, directions, begun(run, first, keeps_signs(proof, directions)))

    def _resumed(
        self, resume: Union[bytes, os.PathLike[str], Certificate], start: Optional[Jobs], by: By, proof: Proof
    ) -> State:
        """A state whose bounds the checker has read; where directions are only counted, the upper one alone is tested.
        OptionError where it is none, comes with a start, or lacks the signs that are asked for."""
        if start is not None or by is not None:
            raise refused("resume has a start of its own: leave out start and by")
        given = resume.state if isinstance(resume, Certificate) else resume
        state = state_of(self._parts[:3], b"" if given is None else text_of(given))
        known = state.kept.known()
        if known.directions is None and proof == "signs":
            raise refused("resume is the state of a run that only counts directions: leave out proof, or give 'count'")
        if not (self._has_read(known) if known.directions is not None else self._is_reached(known)):
            raise refused()
        return state if proof != "count" else state._replace(kept=state.kept._replace(directions=None))

    def _is_reached(self, known: Known) -> bool:
        """Whether what is known has the makespan of its sequence as upper bound, and no lower bound above it."""
        return known.lower <= known.upper == self._makespan(known.sequence)

    def _has_read(self, known: Known) -> bool:
        """Whether the checker finds that the directions prove what is known."""
        try:
            found = waited(lambda: self.check(self._certificate(known, "signs")))
        except NotLawful:
            return False
        return (found.lower, found.upper) == (known.lower, known.upper)

    def _read(self, found: Certificate, known: Known) -> Certificate:
        """A certificate that the checker has read, or in its place that of the same directions with signs, where a
        check would make their search again. An interrupt leaves it as it is."""
        try:
            signs = waited(lambda: self.check(self._certificate(known, "signs") if is_counted(found.text) else found))
        except KeyboardInterrupt:
            raise Interrupted(found) from None
        return replace(signs, text=found.text)

    def _certify(self, state: State, workers: Workers, watch: Watch, proof: Proof) -> Tuple[Certificate, Known]:
        """What certify comes to, by workers that share its searches, as long as the watch allows."""
        run = Run(self._parts[:3], state.effort, state.kept)

        def found() -> Certificate:
            has_ended, kept = run.has_ended, run.kept  # in this order: what it keeps when it ends is the last
            goes_on = None if has_ended else state._replace(kept=kept).written(self._parts[:3])
            return replace(self._certificate(kept.known(), proof), _state=goes_on)

        try:
            run.search_until(watch, workers)
        except KeyboardInterrupt:
            raise Interrupted(found()) from None
        except Exception as error:  # of the executor, or of who is told how far it has come
            with suppress(Exception):  # there is no memory, or the error takes nothing
                setattr(error, "result", found())
            raise
        return found(), run.kept.known()

    def _certificate(self, known: Known, proof: Proof = None) -> Certificate:
        """The certificate of what is known, with signs, where they are kept, or with their number."""
        jobs = numbers_of(known.sequence)
        signs = known.directions if has_signs(proof, known.written) else None

        def write(room: TextRoom) -> None:
            if signs is None:
                self._call("run_counted", known.sequence, known.lower, known.written, room)
            else:
                self._call("run_text", known.sequence, known.lower, signs, len(signs), room)

        text = with_stack(lambda: written(LIMITS.max_beside + len(signs or b""), write))
        return Certificate(known.lower, known.upper, jobs, text, self._named(jobs), self)

    def check(
        self, text: Text, *, most: int = 10_000_000_000, workers: Union[int, Executor, None] = 1
    ) -> Certificate:
        """What a text proves, with the sequence that it states: a certificate of version 1 or 2, a two-ended one, or a
        counted one; line 1 tells which it is. It is given as bytes or str, as the path of a file (pathlib.Path), or as
        a Certificate, of which the text alone is read. The least makespan is proved where `optimal` is true. NotLawful
        with the first fault of the text where it is not lawful, or where a file of it has more than 1,000,000,000
        bytes, OSError where a file is not read.

        Of a counted certificate the search is made again, which takes as long as before: seconds for ten million nodes,
        and up to hours for billions. One that states more than `most` nodes, 0 to 18,446,744,073,709,551,615, is
        refused before. `workers`, which are those of `certify`, share that search. Then the package adds up what they
        count, as `certify` does; by one worker the whole check is a proved call. Of other texts both say nothing. An
        interrupt ends the call, and leaves a search by one worker to end by itself. A shop keeps the last counted
        certificate that one worker has checked, and does not search for the same one again.

        >>> shop.check("flowshop two-ended 1\\n3 3\\n11 13\\n2 1 3\\n-\\nend\\n")
        Certificate(bounds 11 to 13, 1 direction)
        >>> shop.check("flowshop counted 1\\n3 3\\n12 12\\n3 1 2\\n2\\nend\\n", most=1_000_000, workers=4)
        Certificate(optimal 12, 2 nodes)
        """
        return self._checked(text, option("most", most, OF_PARTS), Workers(*workers_of(workers)))

    def _checked(self, text: Text, most: int, workers: Workers) -> Certificate:
        """What a text proves, by workers that share the search of a counted one of at most so many nodes."""
        read, last = text_of(text), self._counted
        if last is not None and last.text == read and (last.count or 0) <= most:
            return last
        jobs = (u16 * self.jobs)()
        bounds, is_search = BoundsRoom(jobs, self.jobs), is_counted(read)

        def check() -> None:
            call("check_within", self._lent, read, len(read), most, bounds)

        try:
            if not is_search:
                check()
            elif workers.are_several:
                check_shared(self._parts[:3], self._lent, read, most, bounds, workers)
            else:
                waited(check)
        except Refused as refused:
            raise not_lawful(refused, text, read, self.jobs, self.machines, most) from None
        sequence = tuple(jobs)
        found = Certificate(bounds.lower, bounds.upper, sequence, read, self._named(sequence), self)
        if is_search and not workers.are_several:
            object.__setattr__(self, "_counted", found)
        return found


def _over_budget(refused: Refused, trees: int, budget: int) -> OverBudget:
    """The refusal of a tree that is longer than the budget."""
    tree = f"tree {refused.place:,} of {trees:,}, counted from 0,"
    sentence = f"{tree} is longer than the budget of {counted(budget, 'byte')}"
    advice = "give a larger one, or call certify, which gives bounds where it proves no optimum"
    return OverBudget(refused.name, refused.place, f"{sentence}; {advice}")


class _Block(NamedTuple):
    """The fields of a block."""

    shop: Shop
    seed: int
    upper: int
    lower: int


class Block(_Block, metaclass=BriefABC):
    """A block of a benchmark text: a shop, and the seed and the bounds of its least makespan that the text states. They
    are what the text says, and nothing tests them.

    >>> shop.write("shop.txt", seed=5)
    >>> Shop.read("shop.txt")
    [Block(shop=Shop(3 jobs, 3 machines), seed=5, upper=13, lower=10)]
    """

    __slots__ = ()

"""Tables of times as they are given: lists of rows, arrays, buffers and frames."""

import os
import re
from array import array
from decimal import Decimal
from itertools import chain
from numbers import Real
from operator import index
from typing import (
    Any, Dict, Hashable, Iterable, List, Mapping, NamedTuple, Optional, Protocol, SupportsIndex, Tuple, Union
)

from ._cells import first_fault, packed_cells
from ._errors import NotAShop, counted, shown
from ._labels import Unit
from ._library import MOST_JOBS, MOST_MACHINES, MOST_TIME, Refused, ShopNumbers, byref, call, size, u64
from ._results import Names

# What gives its keys in place of its entries, or gives its entries in no order of the caller's.
UNORDERED = (Mapping, set, frozenset)


class Array(Protocol):
    """An array, as those of numpy."""

    @property
    def shape(self) -> Tuple[int, ...]:
        """How many entries it has in each of its dimensions."""

    def tolist(self) -> Any:
        """Its entries, or its rows, as lists."""


class Frame(Protocol):
    """A table with labels of its rows and columns, as that of pandas. `to_numpy()` or `values` has its numbers."""

    @property
    def index(self) -> Any:
        """The labels of the rows."""

    @property
    def columns(self) -> Any:
        """The labels of the columns."""


# What is said of a text that is no number.
_NAME = re.compile(r"is the text ['\"][^\d.,+-]")
# The code of a signed number of so many bytes.
_SIGNED = {1: "b", 2: "h", 4: "i", 8: "q"}
Table = Union[Iterable[Iterable[Union[SupportsIndex, float, Real, Decimal]]], Array, Frame, memoryview]


class Contents(NamedTuple):
    """A table that was read: `times` has its 32-bit numbers, machine by machine, and `unit` says which part of that of
    the table theirs is. Names are None where it has none."""

    jobs: int
    machines: int
    times: bytes
    job_names: Optional[Names]
    machine_names: Optional[Names]
    unit: Unit


class _Given:
    """A table as it was given: its values, by what they are multiplied, what its rows and its columns are, and their
    names where it has any."""

    def __init__(self, table: Any, has_job_rows: bool, names: Dict[str, Optional[Names]], scale: int) -> None:
        self.has_job_rows, self.scale = has_job_rows, scale
        self.row_names, self.column_names = self.turned(names["job"], names["machine"])
        columns = getattr(table, "columns", None)
        self.is_frame = columns is not None and not callable(columns)
        if self.is_frame:
            if self.row_names is None:
                self.row_names = _names_of(getattr(table, "index", None))
            if self.column_names is None:
                self.column_names = _names_of(columns)
            table = table.to_numpy() if hasattr(table, "to_numpy") else getattr(table, "values", table)
        if len(getattr(table, "shape", ())) == 2 and hasattr(table, "nnz"):
            self.test_sizes(*table.shape)  # before all cells of a sparse array are made
        self.values = _plain(table)

    def fault(self, row: int, column: int, wrong: str) -> NotAShop:
        """The refusal of a time."""
        at = f"row {row}{_quoted(self.row_names, row)}, column {column}{_quoted(self.column_names, column)}"
        if self.is_frame and self.column_names and _NAME.match(wrong):
            wrong += f"; set_index({shown(self.column_names[column - 1])}) of a frame makes its index of this column"
        return NotAShop("TIME", (row, column), f"the time in {at} {wrong}")

    def turned(self, one: Any, other: Any) -> Tuple[Any, Any]:
        """Of what rows and columns have, what jobs and machines have; and the other way round."""
        return (one, other) if self.has_job_rows else (other, one)

    def test_sizes(self, rows: int, columns: int) -> None:
        """Refuses sizes that are not within the limits, and says where they would be with rows taken for columns."""
        jobs, machines = self.turned(rows, columns)
        if not 1 <= jobs <= MOST_JOBS:
            name, kind, count, most = "JOBS", "job", jobs, MOST_JOBS
        elif not 1 <= machines <= MOST_MACHINES:
            name, kind, count, most = "MACHINES", "machine", machines, MOST_MACHINES
        else:
            return
        side = "row" if (kind == "job") == self.has_job_rows else "column"
        sentence = f"this table has {counted(count, side)}, one for each {kind}, and a shop has 1 to {most} {kind}s"
        if 1 <= machines <= MOST_JOBS and 1 <= jobs <= MOST_MACHINES:
            other = "machines" if self.has_job_rows else "jobs"
            sentence += f"; if its rows are {other}, it is a table for Shop.from_{other}"
        raise NotAShop(name, 0, sentence)


def _names_of(labels: Any) -> Optional[Names]:
    """Labels as names. Those that only count from 0 are none."""
    names = () if labels is None else tuple(labels)
    return None if names == tuple(range(len(names))) else names


def _name(kind: str, number: int, name: Any) -> Hashable:
    """A name that a caller gives. NotAShop where it is neither text nor a whole number."""
    if isinstance(name, str):
        return str(name)
    try:
        if not isinstance(name, bool):
            return index(name)
    except TypeError:
        pass
    raise _no_name(kind, number, name)


def _no_name(kind: str, number: int, name: Any) -> NotAShop:
    """The refusal of a name."""
    sentence = f"the name of {kind} {number} is {shown(name)}, and has to be text or a whole number"
    return NotAShop("NAME", number, sentence)


def _given_names(kind: str, names: Any) -> Optional[Names]:
    """The names that a caller gives. NotAShop where they have no order, or are no list, or two are the same."""
    if names is None:
        return None
    try:
        if isinstance(names, (bytes, *UNORDERED)):
            raise TypeError
        kept = tuple(_name(kind, number, name) for number, name in enumerate(names, 1))
    except TypeError:
        raise NotAShop("COUNT", 0, f"the names of {kind}s are a list, and this is {shown(names)}") from None
    places: Dict[Hashable, int] = {}
    for number, name in enumerate(kept, 1):
        if places.setdefault(name, number) != number:
            sentence = f"the names of {kind}s {places[name]} and {number} are both {shown(name)}"
            raise NotAShop("NAME", number, f"{sentence}; give each {kind} a name of its own")
    return kept


def _quoted(names: Optional[Names], number: int) -> str:
    """The name of a row or a column in a sentence, where it has one."""
    return f" ({names[number - 1]})" if names and number <= len(names) else ""


def _plain(values: Any) -> Any:
    """An array as one that every cell of is read: a sparse one with its zeros, and one with a mask without that, where
    it masks nothing."""
    if hasattr(values, "toarray") and hasattr(values, "nnz"):
        return values.toarray()
    if hasattr(values, "filled") and _kind_of(values) != "V" and not values.mask.any():
        return values.data
    return values


def _kind_of(values: Any) -> str:
    """What an array has, by the letter of numpy; nothing of other tables."""
    return str(getattr(getattr(values, "dtype", None), "kind", ""))


def _keeps_cells(values: Any) -> bool:
    """Whether the cells of an array say more than its list of lists does: which are masked, and in which unit they
    are, or as how many decimals they were meant."""
    kind = _kind_of(values)
    is_short = kind == "f" and values.dtype.itemsize != 8
    return values.ndim == 2 and (hasattr(values, "filled") or kind in "mM" or is_short) if kind else False


def _rows_of(given: _Given) -> List[List[Any]]:
    """The rows of a table, which are lists of one length."""
    values = given.values
    if _kind_of(values) and values.ndim > 2:
        sentence = f"this array has {values.ndim} dimensions, and a table has 2, one of rows and one of columns"
        raise NotAShop("COUNT", 0, sentence)
    try:
        if _keeps_cells(values):
            lines, columns = map(range, values.shape)
            return [[values[line, column] for column in columns] for line in lines]
        rows = _list_of(values.tolist() if hasattr(values, "tolist") else values)
    except (TypeError, NotImplementedError):  # also of a buffer of numbers that memoryview does not read
        advice = "; read_table takes the path of a file" if isinstance(values, (str, os.PathLike)) else ""
        raise NotAShop("COUNT", 0, f"a table has a list for each row, and this is {shown(values)}{advice}") from None
    for number, row in enumerate(rows, 1):
        try:
            rows[number - 1] = row if isinstance(row, list) else _list_of(row)
        except TypeError:
            place = (number, 1)
            raise NotAShop("COUNT", place, f"row {number} is {shown(row)}, and has to be a list of times") from None
    for number, row in enumerate(rows, 1):
        if len(row) != len(rows[0]):
            place = (number, min(len(row), len(rows[0])) + 1)
            sentence = f"row {number} has {counted(len(row), 'time')}, and row 1 has {len(rows[0]):,}"
            raise NotAShop("COUNT", place, f"{sentence}; all rows of a table have one length")
    return rows


def _list_of(items: Any) -> List[Any]:
    """The rows of a table, or the times of a row. TypeError where they are a text, or have no items in an order."""
    if isinstance(items, (str, bytes, *UNORDERED)):
        raise TypeError
    return list(items)


def _packed_rows(given: _Given) -> Tuple[int, int, bytes]:
    """The numbers of rows and of columns of any table, and its times machine by machine."""
    rows = _rows_of(given)
    columns = len(rows[0]) if rows else 0
    given.test_sizes(len(rows), columns)
    cells = packed_cells(rows, given.scale)
    if cells is None:
        raise given.fault(*first_fault(rows, given.scale))
    by_machine = zip(*cells) if given.has_job_rows else cells
    return len(rows), columns, array("I", chain.from_iterable(by_machine)).tobytes()


def _packed_array(given: _Given) -> Optional[Tuple[int, int, bytes]]:
    """The same of an array of whole numbers whose type converts itself, as that of numpy; None of other tables, and
    where a time is at fault."""
    values = given.values
    if _kind_of(values) not in ("i", "u", "f") or values.ndim != 2 or hasattr(values, "filled"):
        return None
    rows, columns = values.shape
    given.test_sizes(rows, columns)
    if _kind_of(values) == "f":
        values = values.astype("float64") * given.scale
        if not (values == values.round()).all() or values.min() < 0 or values.max() > MOST_TIME:
            return None
        values = values.astype("int64")
    elif values.min() < 0 or int(values.max()) * given.scale > MOST_TIME:
        return None
    else:
        values = values.astype("int64") * given.scale
    by_machine = values.T if given.has_job_rows else values
    return rows, columns, by_machine.astype("uint32", order="C").tobytes()


def _packed_buffer(given: _Given) -> Optional[Tuple[int, int, bytes]]:
    """The same of a buffer of 32-bit numbers with two dimensions; None of other tables. A number below 0 becomes one
    that is too great. A buffer of other whole numbers is made one whose rows can be read."""
    try:
        view = memoryview(given.values)
    except (TypeError, ValueError, BufferError):
        return None
    if _kind_of(given.values):
        return None
    kind = view.format[-1]
    if view.ndim != 2 or view.shape is None or kind not in "bBhHiIlLqQnN" or view.format[0] in ">!":
        return None
    rows, columns = view.shape
    given.test_sizes(rows, columns)
    code = _SIGNED[view.itemsize].upper() if kind.isupper() else _SIGNED[view.itemsize]
    given.values = view = memoryview(view.tobytes()).cast(code, [rows, columns])
    if view.itemsize != 4 or given.scale != 1:
        return None
    times = array("I", view.tobytes())
    if given.has_job_rows:
        return rows, columns, b"".join(times[machine::columns].tobytes() for machine in range(columns))
    return rows, columns, times.tobytes()


def _tested(kind: str, count: int, names: Optional[Names]) -> Optional[Names]:
    """The names of the jobs or of the machines; None where they are the numbers from 1. Labels of a frame may be of any
    type that can be hashed."""
    for number, name in enumerate(names or (), 1):
        try:
            hash(name)
        except TypeError:
            raise _no_name(kind, number, name) from None
    if names is not None and len(names) != count:
        sentence = f"the table has {counted(count, kind)}, and {kind}_names has {counted(len(names), 'name')}"
        raise NotAShop("COUNT", 0, sentence)
    return None if names == tuple(range(1, count + 1)) else names


def _test_times(given: _Given, jobs: int, machines: int, times: bytes) -> None:
    """Refuses times that are no shop, by a call of the library, which tests the list of jobs after them."""
    try:
        shop = ShopNumbers(jobs, machines, times, len(times) // 4)
        call("makespan", byref(shop), b"", size(0), byref(u64()))
    except Refused as refused:
        if refused.name != "LENGTH":
            raise given.fault(*first_fault(_rows_of(given), given.scale)) from None


def read_table(
    table: Table,
    has_job_rows: bool,
    job_names: Optional[Iterable[Hashable]],
    machine_names: Optional[Iterable[Hashable]],
    scale: int,
) -> Contents:
    """The shop that a table states, with a row for each job, or for each machine, of times that are multiplied by a
    scale. NotAShop where it is none."""
    names = {"job": _given_names("job", job_names), "machine": _given_names("machine", machine_names)}
    return _read(_Given(table, has_job_rows, names, scale))


def read_kept(
    times: List[List[int]], job_names: Optional[List[Hashable]], machine_names: Optional[List[Hashable]], unit: Unit
) -> Contents:
    """The shop of times in this unit, with a row for each machine, which some shop had. So two may have one name."""
    given = {"job": job_names, "machine": machine_names}
    names = {kind: None if each is None else tuple(each) for kind, each in given.items()}
    return _read(_Given(times, False, names, 1))._replace(unit=unit)


def _read(given: _Given) -> Contents:
    """The shop that a table states. NotAShop where it is none."""
    rows, columns, times = _packed_array(given) or _packed_buffer(given) or _packed_rows(given)
    jobs, machines = given.turned(rows, columns)
    _test_times(given, jobs, machines, times)
    of_jobs, of_machines = given.turned(given.row_names, given.column_names)
    named = _tested("job", jobs, of_jobs), _tested("machine", machines, of_machines)
    return Contents(jobs, machines, times, *named, Unit(given.scale))

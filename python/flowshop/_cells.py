"""Cells of a table: which whole number each is, and what is said of one that is none."""

from decimal import Decimal
from fractions import Fraction
from numbers import Real
from operator import index, itemgetter
from typing import Any, Iterator, List, Optional, Tuple

from ._errors import shown
from ._library import MOST_TIME

# A number is taken as the whole one that it differs from by less than one part of so many, as what is left of rounding.
_PARTS = 10**12
# The scales that a refusal may name.
_SCALES: List[int] = [10**digits for digits in range(1, 7)]
# What the types of truth values are called, of Python and of numpy.
_TRUTH = ("bool", "bool_")
Fault = Tuple[int, int, str]


def is_missing(value: Any) -> bool:
    """Whether a value stands for none, as None, NaN, a masked cell, and what a frame has in its place."""
    if type(value).__name__ == "MaskedConstant":  # that of numpy
        return True
    try:
        return value is None or bool(value != value)
    except (TypeError, ValueError, ArithmeticError):  # of pandas.NA, of an array, and of a NaN that signals
        return not hasattr(value, "__len__")


def number_of(value: Any, scale: int) -> Optional[int]:
    """The whole number that a value comes to, multiplied by a scale. None where it is none, or is no number; a truth
    value is none."""
    if type(value).__name__ in _TRUTH:
        return None
    try:
        return index(value) * scale
    except TypeError:
        pass
    try:
        if not isinstance(value, (Real, Decimal)):
            return None
        if abs(float(value)) > 1e18:  # its digits may be too many to be read
            return int(float(value)) * scale
        exact = Fraction(str(value)) * scale
    except (TypeError, ValueError, ArithmeticError):  # it is not finite, or a length of time
        return None
    number = round(exact)
    return number if abs(exact - number) * _PARTS <= abs(number) else None


def _length(value: Any) -> str:
    """A length of time as hours, minutes and seconds, where it is one of these."""
    try:
        return str(value.astype("timedelta64[us]").item())  # of numpy
    except (AttributeError, ValueError):
        return str(value)


def _not_whole(value: Any) -> str:
    """What is wrong with a value that comes to no whole number."""
    kind = type(value).__name__
    if isinstance(value, str):
        advice = "convert it to int, or give names as job_names or as the labels of a frame"
        return f"is the text {shown(value)}, and has to be a whole number; {advice}"
    if kind in _TRUTH:
        return f"is {value}, and has to be a whole number; convert the table to int where True stands for 1"
    if hasattr(value, "total_seconds") or kind == "timedelta64":
        advice = "divide the table by what one unit is, as datetime.timedelta(minutes=1)"
        return f"is {shown(_length(value))}, a length of time, and has to be a whole number; {advice}"
    sentence = f"is {shown(value)}, of type {kind}, and has to be a whole number"
    is_number = isinstance(value, (Real, Decimal))
    return f"{sentence}; choose a unit in which all are whole, and convert them to int" if is_number else sentence


def wrong(value: Any, scale: int) -> str:
    """What is wrong with a time; nothing where it is one."""
    if is_missing(value):
        return f"is missing ({shown(value)}); write 0 where a job skips a machine"
    number = number_of(value, scale)
    if number is None:
        return _not_whole(value)
    if 0 <= number <= MOST_TIME:
        return ""
    scaled = "" if scale == 1 else f", with scale={scale} {shown(number)}"
    return f"is {shown(value)}{scaled}, and has to be from 0 to {MOST_TIME:,}"


def _rank(value: Any) -> int:
    """Which faults are named first: a time that is missing turns whole ones of a frame into floats."""
    return 0 if is_missing(value) else 1


def _faults(rows: List[List[Any]], scale: int) -> Iterator[Tuple[int, int, int, Any]]:
    """The times at fault, each with its rank, its row and its column."""
    for row, times in enumerate(rows, 1):
        for column, value in enumerate(times, 1):
            if wrong(value, scale):
                yield _rank(value), row, column, value


def _scale_for(rows: List[List[Any]]) -> Optional[int]:
    """The least scale of some with which all times of a table are whole, and none is too great."""
    for scale in _SCALES:
        if not any(wrong(value, scale) for row in rows for value in row):
            return scale
    return None


def first_fault(rows: List[List[Any]], scale: int) -> Fault:
    """The row and the column of the first time at fault, of those that are named first, and what is wrong with it."""
    _, row, column, value = min(_faults(rows, scale), key=itemgetter(0, 1, 2))
    sentence = wrong(value, scale)
    is_part = isinstance(value, (Real, Decimal)) and number_of(value, scale) is None
    other = _scale_for(rows) if is_part else None
    if other is not None:
        sentence += f"; or give scale={other}, by which all are multiplied"
    return row, column, sentence


def packed_cells(rows: List[List[Any]], scale: int) -> Optional[List[List[int]]]:
    """The times of a table, multiplied by a scale. None where one is at fault."""
    numbers = []
    for row in rows:
        each = [number_of(value, scale) for value in row]
        if not all(number is not None and 0 <= number <= MOST_TIME for number in each):
            return None
        numbers.append([number for number in each if number is not None])
    return numbers

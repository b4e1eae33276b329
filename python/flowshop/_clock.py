"""Times as a report shows them: in the unit of the table, or by the clock."""

import re
from dataclasses import dataclass
from fractions import Fraction
from typing import Optional, Union

from ._calendar import Dated, in_hours
from ._errors import OptionError, shown
from ._headings import seconds_of, spaced
from ._labels import Unit

_START = re.compile(r"([01]?\d|2[0-3]):([0-5]\d)", re.ASCII)
_DAY = 86_400


@dataclass(frozen=True)
class Plain:
    """Times in the unit of the table, from 0, and how long that is, where it is known."""

    unit: Unit
    length: str = ""

    def begin_at(self, time: int) -> str:
        """When something begins."""
        return self.unit.shown(time)

    def at(self, time: int) -> str:
        """When something ends."""
        return self.unit.shown(time)

    def lasting(self, time: int) -> str:
        """How long something takes."""
        return self.unit.shown(time)

    def sentence(self) -> str:
        """What the times are."""
        length = f", which is {spaced(self.length)}" if self.length else ""
        return f"Times count from 0, in the unit of the table{length}."

    def taking(self, time: int) -> str:
        """What an order does that ends then."""
        return f"take {self.at(time)}"

    def form(self) -> str:
        """How lengths of time are written, where that is to be said."""
        return ""


@dataclass(frozen=True)
class Clock:
    """Times by the clock of day 1 and the days after it. The shop begins `start` seconds after midnight, and its unit
    takes `step` seconds. `unit` says how long the unit of the table is."""

    start: int
    step: Fraction
    unit: str
    has_seconds: bool
    is_rounded: bool

    def _seconds(self, time: int) -> int:
        """How many seconds a time is, to the nearest one."""
        return (2 * time * self.step.numerator + self.step.denominator) // (2 * self.step.denominator)

    def begin_at(self, time: int) -> str:
        """When something begins: as when something ends, since the clock runs on."""
        return self.at(time)

    def at(self, time: int) -> str:
        """When something ends: the time of day, with the day after the first one."""
        days, seconds = divmod(self.start + self._seconds(time), _DAY)
        text = in_hours(seconds, self.has_seconds, "02")
        return f"day {days + 1}, {text}" if days else text

    def lasting(self, time: int) -> str:
        """How long something takes."""
        return in_hours(self._seconds(time), self.has_seconds)

    def sentence(self) -> str:
        """What the times are."""
        rounded = ", rounded to seconds" if self.is_rounded else ""
        return f"Times are by the clock, from {self.at(0)} on{rounded}; one unit of the table is {self.unit}."

    def taking(self, time: int) -> str:
        """What an order does that ends then."""
        return f"finish at {self.at(time)}"

    def form(self) -> str:
        """How lengths of time are written."""
        return "hours:minutes:seconds" if self.has_seconds else "hours:minutes"


Times = Union[Plain, Clock, Dated]


def times_of(unit: Unit, start: Optional[str], length: Optional[str], named: str) -> Times:
    """How to show times of this unit: by the clock, where it is said when they start and how long the unit of the table
    is, which its headings may name. OptionError where one of both is missing, or has another form."""
    if start is None and length is None:
        return Plain(unit, named)
    length = named or None if length is None else length
    if length is None:
        raise OptionError("UNIT", 0, "start needs unit: how long one unit of the table is, as 15min")
    if start is None:
        raise OptionError("START", 0, "unit needs start: the time of day when the first job starts, as 07:30")
    begun = _START.fullmatch(start) if isinstance(start, str) else None
    if not begun:
        raise OptionError("START", 0, f"start is {shown(start)}, and has to be a time of day, as 07:30")
    seconds = seconds_of(length) if isinstance(length, str) else Fraction(0)
    if named and seconds and seconds != seconds_of(named):
        sentence = f"unit is {shown(length)}, and the names of the machines say {named}: one of both has to be changed"
        raise OptionError("UNIT", 0, sentence)
    if not seconds:
        sentence = f"unit is {shown(length)}, and has to be how long one unit of the table is, as 15min, 1h or 30s"
        raise OptionError("UNIT", 0, sentence)
    step = seconds / unit.scale
    since_midnight = int(begun[1]) * 3600 + int(begun[2]) * 60
    return Clock(since_midnight, step, spaced(length), step % 60 != 0, step % 1 != 0)

"""Working time by the calendar: shifts of weekdays, breaks and holidays, which are those of all machines."""

import re
from bisect import bisect_left, bisect_right
from dataclasses import dataclass, field
from datetime import date, datetime, timedelta
from fractions import Fraction
from itertools import groupby
from typing import Any, Dict, FrozenSet, Iterator, List, Optional, Tuple

from ._errors import OptionError, shown
from ._headings import spaced

WEEKDAYS = ("monday", "tuesday", "wednesday", "thursday", "friday", "saturday", "sunday")
_NAMES = ("Mon", "Tue", "Wed", "Thu", "Fri", "Sat", "Sun")
_MONTHS = ("Jan", "Feb", "Mar", "Apr", "May", "Jun", "Jul", "Aug", "Sep", "Oct", "Nov", "Dec")
_SPAN = re.compile(r"([01]?\d|2[0-3]):([0-5]\d) ?[-–] ?([01]?\d|2[0-4]):([0-5]\d)", re.ASCII)
_DAY = 86_400
# How many days a plan may go through, and the first and the last year in which it may start.
_MOST_DAYS = 4000
_YEARS = range(1900, 9000)
# Seconds after midnight.
Span = Tuple[int, int]
Moments = Tuple[datetime, datetime]


def day_of(moment: datetime) -> str:
    """The day of a moment, as `Tue 1 Dec`."""
    return f"{_NAMES[moment.weekday()]} {moment.day} {_MONTHS[moment.month - 1]}"


@dataclass(frozen=True)
class Calendar:
    """When work goes on, from a start on: the shifts of each weekday, of which one may end on the day after; breaks on
    all days; and days without shifts that begin there. Where no weekday has a shift, work goes on day and night."""

    start: datetime
    shifts: Tuple[Tuple[Span, ...], ...] = ()
    breaks: Tuple[Span, ...] = ()
    holidays: FrozenSet[date] = frozenset()
    _begins: List[datetime] = field(default_factory=list, compare=False, repr=False)
    _ends: List[datetime] = field(default_factory=list, compare=False, repr=False)
    # How many seconds of work there are before each span of work.
    _before: List[int] = field(default_factory=list, compare=False, repr=False)

    def _shifts_on(self, day: date) -> Tuple[Span, ...]:
        """The shifts that begin on a day."""
        if day in self.holidays:
            return ()
        return self.shifts[day.weekday()] if any(self.shifts) else ((0, _DAY),)

    def _spans_on(self, day: date) -> Iterator[Moments]:
        """The spans of work of the shifts that begin on a day, without the breaks."""
        midnight = datetime.combine(day, datetime.min.time())
        breaks = sorted((begin + shift, end + shift) for shift in (-_DAY, 0, _DAY) for begin, end in self.breaks)
        for begin, end in sorted(self._shifts_on(day)):
            for pause, over in [*breaks, (end, end)]:
                if begin < min(pause, end):
                    yield midnight + timedelta(seconds=begin), midnight + timedelta(seconds=min(pause, end))
                begin = max(begin, over)

    def _spans(self) -> Iterator[Moments]:
        """The spans of work from the start on, of which none begins before another ends."""
        last = self.start
        for number in range(-1, _MOST_DAYS):
            for begin, end in self._spans_on(self.start.date() + timedelta(days=number)):
                begin = max(begin, last)
                if begin < end:
                    yield begin, end
                    last = end

    def reach(self, seconds: Fraction) -> None:
        """Finds all spans of work up to so many seconds of it, and one more. OptionError where there are no more."""
        spans = self._spans()
        self._begins.clear()
        self._ends.clear()
        self._before.clear()
        done = 0
        for begin, end in spans:
            self._begins.append(begin)
            self._ends.append(end)
            self._before.append(done)
            if done > seconds:
                return
            done += int((end - begin).total_seconds())
        raise OptionError("CALENDAR", 0, f"the calendar has no shifts for all of the work within {_MOST_DAYS:,} days")

    def moment(self, seconds: Fraction, is_start: bool) -> datetime:
        """When so many seconds of work are done; of a start, when work goes on after that. To the nearest second."""
        if is_start:
            at = bisect_right(self._before, seconds) - 1
        else:
            at = max(0, bisect_left(self._before, seconds) - 1)
        return self._begins[at] + timedelta(seconds=int(seconds - self._before[at] + Fraction(1, 2)))

    def hours(self, step: int) -> Iterator[Tuple[Fraction, datetime]]:
        """The whole hours within the spans of work that were found, of which the number divides by a step, each with
        the seconds of work before it."""
        for begin, end, before in zip(self._begins, self._ends, self._before):
            moment = begin.replace(minute=0, second=0, microsecond=0)
            while moment < end:
                if moment >= begin and moment.hour % step == 0:
                    yield Fraction(before) + Fraction((moment - begin).total_seconds()), moment
                moment += timedelta(hours=1)

    def sentence(self) -> str:
        """What the calendar is."""
        if not any(self.shifts):
            text = "Work goes on day and night"
        else:
            groups = ([*group] for _, group in groupby(zip(_NAMES, self.shifts), key=lambda each: each[1]))
            days = (
                f"{group[0][0]}{f'–{group[-1][0]}' if len(group) > 1 else ''} {', '.join(map(_written, group[0][1]))}"
                for group in groups
                if group[0][1]
            )
            text = f"Shifts: {'; '.join(days)}"
        if self.breaks:
            text += f". Breaks: {', '.join(map(_written, self.breaks))}"
        last = self._ends[-1].date() if self._ends else self.start.date()
        near = sorted(day for day in self.holidays if self.start.date() <= day <= last)
        days_off = f". No work: {', '.join(map(str, near))}" if near else ""
        return f"{text}{days_off}."

    def to_dict(self) -> Dict[str, Any]:
        """The calendar as the file of answers has it."""
        found: Dict[str, Any] = {"start": self.start.isoformat(timespec="minutes")}
        found.update((name, list(map(_written, spans))) for name, spans in zip(WEEKDAYS, self.shifts) if spans)
        lists = ("breaks", [*map(_written, self.breaks)]), ("holidays", sorted(map(str, self.holidays)))
        return {**found, **{name: values for name, values in lists if values}}


def _written(span: Span) -> str:
    """A span as `06:00-14:00`."""
    texts = (f"{second // 3600 % 24 if second != _DAY else 24:02}:{second // 60 % 60:02}" for second in span)
    return "-".join(texts)


def _refused(name: str, value: object, wanted: str) -> OptionError:
    """The refusal of a value of the calendar."""
    return OptionError("CALENDAR", 0, f"{name} of the calendar is {shown(value)}, and has to be {wanted}")


def _spans_of(name: str, values: Any) -> Tuple[Span, ...]:
    """Spans that texts state. One that does not end after it begins ends on the day after."""
    spans = []
    for value in values if isinstance(values, (list, tuple)) else [values]:
        found = _SPAN.fullmatch(value) if isinstance(value, str) else None
        if not found or int(found[3]) == 24 and int(found[4]):
            raise _refused(name, value, "a span of time, as \"06:00-14:00\"")
        begin, end = (3600 * int(found[at]) + 60 * int(found[at + 1]) for at in (1, 3))
        spans.append((begin, end if begin < end else end + _DAY))
    return tuple(spans)


def moment_of(name: str, value: Any) -> datetime:
    """The moment that a text states: a date with a time of day, or its midnight."""
    try:
        text = (value.isoformat() if isinstance(value, date) else value).strip().replace(" ", "T")
        moment = datetime.fromisoformat(text if "T" in text else f"{text}T00:00").replace(tzinfo=None)
    except (AttributeError, ValueError):
        moment = datetime.min
    if moment.year in _YEARS:
        return moment
    sentence = f"{name} is {shown(value)}, and has to be a date, or a date and a time, as 2026-12-01T07:00"
    raise OptionError(name.upper(), 0, sentence)


def calendar_of(found: Dict[str, Any], start: Any = None) -> Optional[Calendar]:
    """The calendar that a file states, from a start on, to the minute, which the file may state too; None where there
    is no start. OptionError where something has another form."""
    known = ("start", "weekdays", *WEEKDAYS, "breaks", "holidays")
    for name in found:
        if name not in known:
            raise OptionError("CALENDAR", 0, f"the calendar has no {name}: its names are {', '.join(known)}")
    begin = found.get("start") if start is None else start
    usual = _spans_of("weekdays", found.get("weekdays", []))
    shifts = tuple(
        _spans_of(name, found[name]) if name in found else usual if at < 5 else () for at, name in enumerate(WEEKDAYS)
    )
    breaks = _spans_of("breaks", found.get("breaks", []))
    days = found.get("holidays", [])
    holidays = frozenset(moment_of("holidays", day).date() for day in (days if isinstance(days, list) else [days]))
    if begin is None:
        return None
    return Calendar(moment_of("start", begin).replace(second=0, microsecond=0), shifts, breaks, holidays)


def in_hours(seconds: int, has_seconds: bool, form: str = "") -> str:
    """Hours, in a form, and minutes, and seconds where there are any."""
    text = f"{seconds // 3600:{form}}:{seconds // 60 % 60:02}"
    return f"{text}:{seconds % 60:02}" if has_seconds else text


@dataclass(frozen=True)
class Dated:
    """Times by the calendar. One unit of the shop takes `step` seconds of work; `unit` says how long that of the table
    is, `last` is the last time of the timetable, and `has_seconds` says whether seconds are shown."""

    calendar: Calendar
    step: Fraction
    unit: str
    last: int
    has_seconds: bool

    def __post_init__(self) -> None:
        self.calendar.reach(self.last * self.step)

    def begins(self, time: int) -> datetime:
        """When what begins then begins."""
        return self.calendar.moment(time * self.step, True)

    def ends(self, time: int) -> datetime:
        """When what ends then ends."""
        return self.calendar.moment(time * self.step, False)

    def _written(self, moment: datetime) -> str:
        """A moment, as `Tue 1 Dec, 07:30`."""
        return f"{day_of(moment)}, {moment:{'%H:%M:%S' if self.has_seconds else '%H:%M'}}"

    def begin_at(self, time: int) -> str:
        """When something begins."""
        return self._written(self.begins(time))

    def day(self, time: int) -> str:
        """The day on which something begins."""
        return day_of(self.begins(time))

    def within(self, start: int, end: int) -> Tuple[str, str]:
        """When something begins and ends, below the day on which it begins: another day stands before its end."""
        begin, over = self.begins(start), self.ends(end)
        texts = [f"{moment:{'%H:%M:%S' if self.has_seconds else '%H:%M'}}" for moment in (begin, over)]
        days = (over.date() - begin.date()).days
        before = "" if not days else f"{_NAMES[over.weekday()]} " if days < 7 else f"{day_of(over)}, "
        return texts[0], before + texts[1]

    def at(self, time: int) -> str:
        """When something ends."""
        return self._written(self.ends(time))

    def lasting(self, time: int) -> str:
        """How many hours of work something takes."""
        return in_hours(int(time * self.step + Fraction(1, 2)), self.has_seconds)

    def sentence(self) -> str:
        """What the times are, and why the least one is the least by the calendar too."""
        why = (
            f"The whole work takes {self.lasting(self.last)} of working time, and ends at {self.at(self.last)}. All "
            "machines have one calendar, and what is not done goes on after a break: an order that takes less working "
            "time ends no later by the calendar, so the least is the least by both."
        )
        return f"{self.calendar.sentence()} One unit of the table is {spaced(self.unit)}. {why}"

    def taking(self, time: int) -> str:
        """What an order does that ends then."""
        return f"finish at {self.at(time)}" if time <= self.last else f"take {self.lasting(time)} of working time"

    def ticks(self, step: int) -> Iterator[Tuple[Fraction, str, str]]:
        """The whole hours of which the number divides by a step, up to the last time: the time in the unit of the shop,
        the day, and the hour."""
        for seconds, moment in self.calendar.hours(step):
            if seconds <= self.last * self.step:
                yield seconds / self.step, day_of(moment), f"{moment:%H:%M}"

    def form(self) -> str:
        """How lengths of time are written."""
        return "hours:minutes:seconds of work" if self.has_seconds else "hours:minutes of work"

"""The plan of a table: its order, certified, with times by the calendar, and what is different from an earlier plan."""

from __future__ import annotations

import csv
import html
import io
import re
import time
from dataclasses import replace
from datetime import datetime
from typing import Any, Dict, Iterator, List, Optional, Tuple, Union

from . import _json
from ._bounded import Bounded
from ._calendar import Calendar, Dated, calendar_of, moment_of
from ._change import Change, First, keys_of, moved_of, start_of
from ._clock import Plain, Times
from ._drawing import whole
from ._errors import NotAShop, NotLawful, OptionError, counted, found_in, readable, shown
from ._found import Below, Proved
from ._headings import seconds_of
from ._options import time_limit_of
from ._page import Facts, page, proved
from ._reading import Reading, kept_of, reading_of, settings_of
from ._results import Certificate, Path, Picture, Report, Timetable
from ._shop import Shop
from ._texts import MOST_CERTIFICATE, bytes_of

# How many seconds a search may take where nothing is said.
TIME_LIMIT = 60.0
# How many seconds the search for the best order may take that begins with what has begun.
_LIMIT_OF_FIRST = 15.0
_SIGNS = {"comma": ",", "semicolon": ";", "tab": "\t"}


class Plan(Bounded):
    """The plan of a table: `shop`, `certificate`, `timetable`, and `change`, what is different from an earlier plan, or
    None. With a start its times are by the calendar. The bounds and the makespan are those of the certificate, in its
    unit.

    >>> plan = Plan.of([["Order", "Saw (h)", "Drill (h)"], ["Shelf", 3, 7], ["Door", 1, 2]], start="2026-12-01T07:00")
    >>> plan
    Plan(2 jobs on 2 machines: optimal 11, ends Tue 1 Dec, 18:00)
    """

    def __init__(self, shop: Shop, certificate: Certificate, calendar: Optional[Calendar], unit: str) -> None:
        """A plan of what is known. `Plan.of` makes one of a table."""
        self.shop, self.certificate = shop, certificate
        self.calendar, self.unit = calendar, unit
        self.name, self.has_mark = "table", False
        self.change: Optional[Change] = None
        self.timetable: Timetable = shop.schedule(certificate)
        self.listed = shop._makespan(shop._in_order())

    @classmethod
    def of(
        cls,
        table: Any,
        *,
        start: Optional[str] = None,
        after: Union[Plan, Path, None] = None,
        now: Optional[str] = None,
        time_limit: Optional[float] = TIME_LIMIT,
        workers: Optional[int] = -1,
        **words: Any,
    ) -> Plan:
        """The plan of a table, as `read_table` takes it, with its words. `start` is the date, or the date and the time,
        from which on work is done; shifts, breaks and holidays stand in the file beside the table. `after` is an
        earlier plan, or the path of its file, whose order the searches begin with; `now` is the moment that says which
        of its jobs have begun, where it has a start. `time_limit` and `workers` are those of `Shop.certify`.
        OptionError where one of these is none; the other errors are those of `read_table`.

        >>> Plan.of([["Order", "Saw", "Drill"], ["Shelf", 3, 7], ["Door", 1, 2]]).certificate.names
        ('Door', 'Shelf')
        """
        kept = kept_of(settings_of(table))
        calendar = calendar_of(kept.get("calendar", {}), start)
        reading = reading_of(table, words, kept, calendar is not None)
        before = after if after is None or isinstance(after, Plan) else cls.read(after)
        return plan_of(reading, calendar, Earlier(before, now), Effort(time_limit, workers))

    @property
    def value(self) -> int:
        """The makespan, as the certificate has it: times that lie between shifts do not count.

        >>> Plan.of([["Order", "Saw"], ["Shelf", 3]]).value
        3
        """
        return self.certificate.value

    @property
    def lower(self) -> int:
        """The number below which no order has a makespan, as the certificate proves it.

        >>> Plan.of([["Order", "Saw"], ["Shelf", 3]]).lower
        3
        """
        return self.certificate.lower

    @property
    def upper(self) -> int:
        """The same as `value`.

        >>> Plan.of([["Order", "Saw"], ["Shelf", 3]]).upper
        3
        """
        return self.certificate.upper

    @property
    def times(self) -> Times:
        """How times are shown: by the calendar, or in the unit of the table.

        >>> Plan.of([["Order", "Saw"], ["Shelf", 3]]).times.at(3)
        '3'
        """
        if self.calendar is None:
            return Plain(self.shop._parts[5], self.unit)
        step = seconds_of(self.unit) / self.shop.scale
        shown = {self.listed, self.certificate.lower, self.shop.bound()}
        shown.update(each for operation in self.timetable for each in operation[2:])
        has_seconds = any(each * step % 60 for each in shown)
        return Dated(self.calendar, step, self.unit, self.timetable.makespan, has_seconds)

    def rows(self) -> Iterator[Tuple[str, str, Any, Any]]:
        """The operations that take time, job by job: job, machine, start and end, as datetime.datetime by the calendar,
        or as a text in the unit of the table.

        >>> next(Plan.of([["Order", "Saw"], ["Shelf", 3]]).rows())
        ('Shelf', 'Saw', '0', '3')
        """
        times = self.times
        for job, machine, start, end in self.timetable:
            if start < end:
                spans = (times.begins(start), times.ends(end)) if isinstance(times, Dated) else (
                    times.begin_at(start), times.at(end))
                yield (str(job), str(machine), *spans)

    def to_csv(self) -> str:
        """The rows as CSV, with their place, and with the separator of the table, and its byte order mark.

        >>> Plan.of([["Order", "Saw"], ["Shelf", 3]]).to_csv()
        'place,job,machine,start,end\\n1,Shelf,Saw,0,3\\n'
        """
        text = io.StringIO()
        writer = csv.writer(text, delimiter=_SIGNS[self.shop._parts[5].separator], lineterminator="\n")
        writer.writerow(["place", "job", "machine", "start", "end"])
        machines = len(self.shop.machine_names)
        places = [at // machines + 1 for at, each in enumerate(self.timetable) if each.start < each.end]
        for place, (job, machine, start, end) in zip(places, self.rows()):
            writer.writerow([place, job, machine, *map(_written, (start, end))])
        return ("\ufeff" if self.has_mark else "") + text.getvalue()

    def _facts(self) -> Facts:
        """What the page says."""
        jobs = self.shop._packed(self.certificate, None)
        facts = self.shop._facts(jobs, self.certificate.lower, self.times, f"Plan of {self.name}")
        return replace(facts, more=self._changed())

    def report(self) -> Report:
        """The page for the wall.

        >>> Plan.of([["Order", "Saw"], ["Shelf", 3]]).report()
        Report(Plan of table)
        """
        return Report(page(self._facts()))

    def picture(self) -> Picture:
        """The picture, with names and times.

        >>> Plan.of([["Order", "Saw"], ["Shelf", 3]]).picture()
        Picture(optimal 3, jobs 1, machines 1)
        """
        jobs = self.shop._packed(self.certificate, None)
        lower = max(self.certificate.lower, self.shop.bound())
        return Picture(whole(self.shop._picture(jobs, lower), self.timetable, self.times))

    def _changed(self) -> List[str]:
        """The part of the page that says what is different from the earlier plan."""
        change = self.change
        if change is None:
            return []
        moved = [f"{name} (from place {before} to {now})" for name, before, now in change.moved]
        lines = [f"<p>The earlier plan ends at {change.ends[0]}, this one at {change.ends[1]}.</p>"]
        for title, names in [("New jobs", change.new), ("Jobs of the earlier plan alone", change.lost),
                             ("Moved, with places among the jobs of both plans", moved)]:
            lines.append(f"<p>{title}: {html.escape(readable(', '.join(names) or 'none'))}.</p>")
        if change.begun:
            names = html.escape(readable(", ".join(change.begun)))
            lines.append(f"<p>Begun already: {names}. This plan does not put them first, nor wait for machines that "
                         f"are busy with them.{_said_first(change)}</p>")
        return ['<section class="change">', "<h2>Change</h2>", *lines, "</section>"]

    def to_json(self) -> str:
        """The plan as JSON, which `read` takes.

        >>> Plan.from_json(Plan.of([["Order", "Saw"], ["Shelf", 3]]).to_json())
        Plan(1 job on 1 machine: optimal 3, ends 3)
        """
        fields = {"shop": self.shop.to_dict(), "certificate": self.certificate.to_dict(), "unit": self.unit}
        return _json.written({**fields, "calendar": self.calendar.to_dict() if self.calendar else {}})

    @classmethod
    def from_json(cls, text: _json.Json) -> Plan:
        """The plan that `to_json` gave; its certificate is checked. NotAShop where the text has another form, NotLawful
        where the certificate is none of the shop.

        >>> Plan.from_json(Plan.of([["Order", "Saw"], ["Shelf", 3]]).to_json()).timetable.makespan
        3
        """
        kinds: Dict[str, Tuple[Any, ...]] = dict.fromkeys(("shop", "certificate", "calendar"), (dict,))
        kinds["unit"] = (str,)
        found = _json.read(text, kinds, NotAShop, "Plan.to_json")
        if not seconds_of(found["unit"]) and (found["unit"] or found["calendar"]):
            sentence = f"'unit' of the text is {shown(found['unit'])}; it has to be what Plan.to_json gives"
            raise NotAShop("JSON", 0, sentence)
        shop = Shop.from_json(_json.written(found["shop"]))
        certificate = shop.check(Certificate.from_json(_json.written(found["certificate"])))
        return cls(shop, certificate, calendar_of(found["calendar"]), found["unit"])

    @classmethod
    def read(cls, path: Path) -> Plan:
        """The plan in a file that the command `plan` wrote. OSError where it is not read.

        >>> plan = Plan.of([["Order", "Saw"], ["Shelf", 3]])
        >>> import pathlib
        >>> _ = pathlib.Path("table.plan.json").write_text(plan.to_json())
        >>> Plan.read("table.plan.json").certificate.value
        3
        """
        text = bytes_of(path, "plan", MOST_CERTIFICATE)
        try:
            return cls.from_json(text)
        except (NotAShop, NotLawful, OptionError) as error:
            raise found_in(path, error) from None

    def __str__(self) -> str:
        """What is proved of the plan, as the page says it."""
        return html.unescape(proved(self._facts()))

    def __repr__(self) -> str:
        """The sizes, what is proved, and when the plan ends."""
        sizes = f"{counted(self.shop.jobs, 'job')} on {counted(self.shop.machines, 'machine')}"
        lower, upper = (self.shop._in_unit(bound) for bound in (self.certificate.lower, self.certificate.upper))
        proved = f"optimal {upper}" if self.certificate.optimal else f"bounds {lower} to {upper}"
        return f"Plan({sizes}: {proved}, ends {self.times.at(self.timetable.makespan)})"


def _said_first(change: Change) -> str:
    """What a page says of the best order with what has begun first."""
    if change.first is None:
        return ""
    names, end, is_least = change.first
    order = html.escape(readable(", ".join(names)))
    proved = "no order with them first ends earlier" if is_least else "another one with them first may end earlier"
    return f" With them first, the order {order} ends at {end}: {proved}."


def _written(value: Any) -> str:
    """A time as CSV has it: a moment as spreadsheets read it."""
    if not isinstance(value, datetime):
        return str(value)
    return value.isoformat(" ", "seconds" if value.second else "minutes")


class Earlier:
    """An earlier plan, or none, and the moment that says which of its jobs have begun."""

    def __init__(self, plan: Optional[Plan], now: Optional[str]) -> None:
        if now is not None and (plan is None or plan.calendar is None):
            raise OptionError("NOW", 0, "now needs after, with a plan that has a start")
        self.plan = plan
        self.now: Optional[datetime] = None if now is None else moment_of("now", now)
        self.keys = keys_of(plan.timetable.names) if plan else []

    def begun(self) -> List[Tuple[str, int]]:
        """The jobs whose first operation begins before that moment."""
        if self.plan is None or self.now is None:
            return []
        times = self.plan.times
        assert isinstance(times, Dated), "times by a calendar"
        rows: Any = zip(self.plan.timetable.starts.tolist(), self.plan.timetable.ends.tolist())
        found = []
        for key, (starts, ends) in zip(self.keys, rows):
            first = min((start for start, end in zip(starts, ends) if start < end), default=None)
            if first is not None and times.begins(first) < self.now:
                found.append(key)
        return found


class Effort:
    """How long a search may take, and how many share it."""

    def __init__(self, time_limit: Optional[float], workers: Optional[int]) -> None:
        self.time_limit, self.workers = time_limit_of(time_limit), workers


def _first_of(plan: Plan, begun: List[int]) -> First:
    """The best order of the jobs that begins with some, when it ends, and whether none of these ends earlier."""
    shop, rest = plan.shop, (job for job in plan.certificate.sequence if job not in begun)
    best = (*begun, *rest)
    value, ends = shop.makespan(best, by="number"), time.monotonic() + _LIMIT_OF_FIRST
    while True:
        left = max(0.0, ends - time.monotonic())
        found = shop.prove(value, front=begun, time_limit=left, by="number")
        if not isinstance(found, Below):
            break
        best, value = found.sequence, found.value
    times = plan.times
    if isinstance(times, Dated):
        times = replace(times, last=max(times.last, value))
    return tuple(map(str, shop._named(best))), times.at(value), isinstance(found, Proved)


def _change_of(plan: Plan, earlier: Earlier) -> Change:
    """What is different between an earlier plan and a plan."""
    assert earlier.plan is not None, "there is an earlier plan"
    now, before = keys_of(plan.timetable.names), earlier.keys
    numbers = {key: number for number, key in enumerate(keys_of(plan.shop.job_names), 1)}
    begun = [key for key in earlier.begun() if key in numbers]
    ends = tuple(each.times.at(each.timetable.makespan) for each in (earlier.plan, plan))
    return Change(
        new=tuple(name for name, number in now if (name, number) not in set(before)),
        lost=tuple(name for name, number in before if (name, number) not in set(now)),
        begun=tuple(name for name, _ in begun),
        moved=moved_of(before, now),
        ends=(ends[0], ends[1]),
        first=_first_of(plan, [numbers[key] for key in begun]) if begun else None,
    )


def plan_of(reading: Reading, calendar: Optional[Calendar], earlier: Earlier, effort: Effort) -> Plan:
    """The plan of a table that was read."""
    shop, start = reading.shop, None
    if earlier.plan is not None:
        start = start_of(earlier.keys, keys_of(shop.job_names))
    # With signs, since the plan checks what it is given: a count would be searched for again.
    found = shop.certify(start, proof="signs", workers=effort.workers, time_limit=effort.time_limit, by="number")
    plan = Plan(shop, found, calendar, reading.unit)
    plan.name, plan.has_mark = re.sub(r".*/", "", reading.sheet.name), reading.sheet.has_mark
    if earlier.plan is not None:
        plan.change = _change_of(plan, earlier)
    return plan

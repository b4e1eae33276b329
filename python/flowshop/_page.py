"""A schedule as one page of HTML: its order, a picture, what is proved of it, and a sheet for each machine."""

import html
from collections import Counter
from dataclasses import dataclass, field
from typing import Any, Hashable, Iterable, List, NamedTuple, Optional, Tuple

from ._calendar import Dated
from ._clock import Times
from ._drawing import drawn
from ._errors import counted, readable
from ._library import version
from ._results import Timetable

# How many bars a picture has at most, to be of use on a page.
MOST_BARS = 4000
# Up to so many jobs the sheets of several machines share a page of paper; above so many the rows of a sheet stand in
# columns; and above so many they are small, so that the sheet of a machine has some 300 jobs.
_MOST_SHARED, _MOST_IN_LINE, _MOST_MANY = 12, 28, 150
_STYLE = """
body { font: 11pt/1.4 system-ui, "Segoe UI", "Liberation Sans", Arial, sans-serif; color: #000; background: #fff;
  max-width: 1110px; margin: 1.5em auto; padding: 0 1em; }
h1 { font-size: 1.7em; line-height: 1.2; margin: 0 0 .3em; overflow-wrap: anywhere; }
h2 { font-size: 1.3em; line-height: 1.2; margin: 1.4em 0 .4em; break-after: avoid; overflow-wrap: anywhere; }
p { margin: .3em 0; }
.proved { font-size: 1.15em; font-weight: bold; }
.small { font-size: .85em; }
ol { columns: 12em auto; column-gap: 2em; margin: .3em 0; padding-left: 2.6em; font-variant-numeric: tabular-nums; }
li { break-inside: avoid; overflow-wrap: break-word; }
figure { margin: .5em 0; overflow-x: auto; }
svg { display: block; min-width: 100%; height: auto; }
table { border-collapse: collapse; font-variant-numeric: tabular-nums; }
th, td { padding: .15em .6em; border-bottom: 1px solid #888; text-align: right; vertical-align: baseline;
  white-space: nowrap; }
thead th { border-bottom: 2px solid #000; vertical-align: bottom; white-space: normal; }
tbody th { font-weight: normal; }
th.name { text-align: left; white-space: normal; min-width: 6em; overflow-wrap: break-word; }
tr { break-inside: avoid; }
.day th { font-weight: bold; }
.day { break-after: avoid; }
a { color: inherit; }
.shared, .rows { overflow-x: auto; }
.rows table { width: 100%; max-width: 45em; }
.parts { display: none; }
.rows td:first-child, .rows th:first-child { width: 1%; }
@page { size: A4; margin: 14mm; }
@page across { size: A4 landscape; }
@media print {
  body { font: 10pt/1.4 "Liberation Sans", Arial, sans-serif; max-width: none; margin: 0; padding: 0; }
  figure { overflow: visible; }
  svg { width: 100%; min-width: 0; }
  a { text-decoration: none; }
  .whole, .cut { display: none; }
  .parts { display: block; }
  .part { margin-bottom: 1.5mm; }
  .picture, .shared, .part { break-inside: avoid; }
  .across { page: across; break-inside: auto; }
  .first, .own { break-before: page; }
  .sheet { font-size: 12pt; }
  .rows { columns: var(--width, auto) auto; column-gap: 2em; }
  .rows table { max-width: none; }
  .shared, .rows { overflow: visible; }
  .many { font-size: 8.5pt; }
  .many th, .many td { padding: .1em .4em; }
  .dense { font-size: 7pt; line-height: 1.1; }
  .dense h2, .dense p { margin: 0 0 .3em; }
  .dense th, .dense td { padding: 0 .2em; border-bottom-width: .5px; }
  .dense .rows { column-gap: 1.2em; }
  ol.dense { columns: 13em auto; }
}
"""
_NAME = ' class="name"'


@dataclass(frozen=True)
class Facts:
    """What a page says of a schedule: its timetable; a number below which no order has a makespan, as a text proves it,
    or None where there is no text; such a number that takes no search; the makespan of the jobs in the order of the
    table; a picture without names, or nothing; how times are shown; and lines that stand behind what is proved."""

    title: str
    timetable: Timetable
    certified: Optional[int]
    simple: int
    listed: int
    picture: str
    times: Times
    more: List[str] = field(default_factory=list)

    @property
    def lower(self) -> int:
        """The greater of the two numbers."""
        return max(self.certified or 0, self.simple)


class _Turn(NamedTuple):
    """A job on a machine, where it takes time: its place in the sequence, its name, its start and its end."""

    place: int
    job: str
    start: int
    end: int


class _Machine(NamedTuple):
    """A machine: its number, its name, and its jobs in their order."""

    number: int
    name: str
    turns: List[_Turn]

    def working(self) -> int:
        """How long it works."""
        return sum(turn.end - turn.start for turn in self.turns)

    def between(self) -> int:
        """How long it is idle between its jobs."""
        return self.turns[-1].end - self.turns[0].start - self.working() if self.turns else 0


def _plain(name: Hashable) -> str:
    """A name as text on a page."""
    return html.escape(readable(name))


def _jobs(timetable: Timetable) -> List[str]:
    """The names of the jobs in the order of the sequence; with the number of the job where several have one name."""
    count = Counter(map(str, timetable.names))
    named = zip(timetable.names, timetable.sequence)
    texts = (f"{name} (job {job})" if count[str(name)] > 1 else f"{name}" for name, job in named)
    if timetable.names == timetable.sequence:
        texts = (f"Job {job}" for job in timetable.sequence)
    return [_plain(text) for text in texts]


def _machines(timetable: Timetable) -> List[_Machine]:
    """The machines with their jobs."""
    starts: List[Any] = timetable.starts.tolist()
    ends: List[Any] = timetable.ends.tolist()
    jobs, names = _jobs(timetable), timetable.machine_names
    are_numbers = names == tuple(range(1, len(names) + 1))
    machines = []
    for at, name in enumerate(names):
        turns = [
            _Turn(place, job, begun[at], ended[at])
            for place, (job, begun, ended) in enumerate(zip(jobs, starts, ends), 1)
            if begun[at] < ended[at]
        ]
        machines.append(_Machine(at + 1, f"Machine {name}" if are_numbers else _plain(name), turns))
    return machines


def proved(facts: Facts) -> str:
    """What the bound means, in a sentence."""
    upper, at = facts.timetable.makespan, facts.times.at
    if facts.lower == upper:
        return f"No order finishes earlier than {at(upper)}: this one is optimal."
    return f"No order can finish before {at(facts.lower)}; this one finishes at {at(upper)}."


def _worth(facts: Facts) -> str:
    """Where the bound comes from, if no search has raised it."""
    certified, at = facts.certified, facts.times.at
    is_optimal = facts.lower == facts.timetable.makespan
    if certified is not None and certified < facts.simple:
        less = f"the certificate proves only that no order finishes before {at(certified)}."
        more = "" if is_optimal else " Another one may prove a higher bound."
        return f"That bound takes no search; {less}{more}"
    if facts.simple < facts.lower or is_optimal:
        return ""
    other = "a" if certified is None else "another"
    return f"That bound takes no search; {other} certificate may prove a higher one."


def _beside(facts: Facts) -> str:
    """How far the schedule may be from the best one, and how the order of the table would do."""
    timetable, lower = facts.timetable, facts.lower
    upper = timetable.makespan
    sentences = []
    if 0 < lower < upper:
        tenths = -(1000 * (lower - upper) // lower)
        sentences.append(f"It takes at most {tenths // 10}.{tenths % 10}% more than the least time.")
    sentences += [_worth(facts)] if _worth(facts) else []
    if timetable.sequence == tuple(range(1, len(timetable.sequence) + 1)):
        sentences.append("This is the order of the table.")
    else:
        too = " too" if facts.listed == upper else ""
        sentences.append(f"In the order of the table it would {facts.times.taking(facts.listed)}{too}.")
    return " ".join(sentences)


def _table(heads: Iterable[Tuple[str, str]], rows: Iterable[str]) -> List[str]:
    """A table of rows, with heads of these classes."""
    cells = "".join(f'<th scope="col"{kind}>{head}</th>' for kind, head in heads)
    return ["<table>", f"<thead><tr>{cells}</tr></thead>", "<tbody>", *rows, "</tbody>", "</table>"]


def _of_machines(machines: List[_Machine], makespan: int, times: Times) -> List[str]:
    """The table of the machines: when each begins and ends, and how long it works and is idle."""
    heads = ["First start", "Last end", "Working", "Idle", "Idle between jobs", "Utilisation"]
    rows = []
    for machine in machines:
        working = machine.working()
        cells = ["–", "–"]
        if machine.turns:
            cells = [times.begin_at(machine.turns[0].start), times.at(machine.turns[-1].end)]
        cells += map(times.lasting, (working, makespan - working, machine.between()))
        cells.append(f"{(200 * working + makespan) // (2 * makespan) if makespan else 0}%")
        head = f'<th scope="row"{_NAME}><a href="#machine{machine.number}">{machine.name}</a></th>'
        rows.append(f"<tr>{head}{''.join(f'<td>{cell}</td>' for cell in cells)}</tr>")
    form = f" Lengths of time are {times.form()}." if times.form() else ""
    return [
        '<section class="shared">',
        "<h2>Machines</h2>",
        *_table([(_NAME, "Machine"), *(("", head) for head in heads)], rows),
        f'<p class="small">Idle is the rest of the whole time of {times.lasting(makespan)}, '
        f"and utilisation the part of it that is work.{form}</p>",
        "</section>",
    ]


def _rows(turns: List[_Turn], times: Times) -> List[str]:
    """The rows of a sheet; by the calendar, below the day on which each begins."""
    rows, day = [], ""
    for turn in turns:
        start, end = times.begin_at(turn.start), times.at(turn.end)
        if isinstance(times, Dated):
            if times.day(turn.start) != day:
                day = times.day(turn.start)
                rows.append(f'<tr class="day"><td></td><th class="name" colspan="3">{day}</th></tr>')
            start, end = times.within(turn.start, turn.end)
        name = f'<th scope="row" class="name">{turn.job}</th>'
        rows.append(f"<tr><td>{turn.place}</td>{name}<td>{start}</td><td>{end}</td></tr>")
    return rows


def _sheet(machine: _Machine, facts: Facts, title: str) -> List[str]:
    """The sheet of a machine: its jobs in order, with start and end of each."""
    jobs, count = len(facts.timetable.names), len(facts.timetable.machine_names)
    times, turns = facts.times, machine.turns
    kinds = ["sheet", "shared" if jobs <= _MOST_SHARED else "own"]
    kinds += ["first"] if machine.number == 1 else []
    kinds += ["many"] if jobs > _MOST_IN_LINE else []
    kinds += ["dense"] if jobs > _MOST_MANY else []
    rest = jobs - len(turns)
    skipped = f"; {counted(rest, 'job')} {'skips' if rest == 1 else 'skip'} it" if rest else ""
    lines = [
        f'<section class="{" ".join(kinds)}" id="machine{machine.number}">',
        f"<h2>{machine.name}</h2>",
        f"<p>{title}. Machine {machine.number} of {count}: {counted(len(turns), 'job')}{skipped}.</p>",
    ]
    if turns:
        rows = _rows(turns, times)
        widest = 7 if isinstance(times, Dated) else max(5, len(times.at(turns[-1].end)))
        width = max(10, *(len(turn.job) for turn in turns)) + 2 * widest + 6
        columns = f' style="--width: {width}ch"' if jobs > _MOST_IN_LINE else ""
        job = f"Job on {machine.name}" if jobs > _MOST_IN_LINE else "Job"
        heads = [("", "Place"), (_NAME, job), ("", "Start"), ("", "End")]
        lines += [f'<div class="rows"{columns}>', *_table(heads, rows), "</div>"]
    return [*lines, "</section>"]


def _picture(facts: Facts) -> List[str]:
    """The picture, or a sentence where it is left out."""
    if not facts.picture:
        left_out = "The picture is left out: it has too many bars for a page."
        python, command = 'shop.gantt(order).save("shop.svg")', "flowshop schedule"
        anyway = f"In Python <code>{python}</code> draws it anyway, and so does <code>{command}</code> with"
        return [f'<p class="small">{left_out} {anyway} <code>--form svg</code>.</p>']
    label = f"A row for each machine, with a bar for each job from its start to its end. {proved(facts)}"
    picture, parts, has_places = drawn(facts.picture, facts.timetable, facts.times)
    picture = picture.rstrip("\n").replace("<svg ", f'<svg role="img" aria-label="{label}" ', 1)
    places = ['<p class="small">In a bar, #7 stands for the job at place 7 of the order.</p>'] if has_places else []
    figure, paper, kinds = "<figure>", [], "picture"
    if parts:
        figure, paper, kinds = '<figure class="whole">', ['<div class="parts">', *parts, "</div>"], "picture across"
    lines = [f'<section class="{kinds}">', "<h2>Picture</h2>", *places, figure, picture, "</figure>", *paper]
    return [*lines, "</section>"]


def _shifts(times: Times) -> str:
    """What else is not modelled, behind due dates."""
    return " and set-up times" if isinstance(times, Dated) else ", set-up times, shifts and breaks"


def page(facts: Facts) -> str:
    """The page."""
    title, timetable = _plain(facts.title), facts.timetable
    machines = _machines(timetable)
    lines = [
        "<!DOCTYPE html>",
        '<html lang="en">',
        "<head>",
        '<meta charset="utf-8">',
        '<meta name="viewport" content="width=device-width, initial-scale=1">',
        f"<title>{title}</title>",
        f"<style>{_STYLE}</style>",
        "</head>",
        "<body>",
        f"<h1>{title}</h1>",
        f'<p class="proved">{proved(facts)}</p>',
        f"<p>{_beside(facts)}</p>",
        f"<p>{facts.times.sentence()}</p>",
        *facts.more,
        "<h2>Order</h2>",
        '<ol class="dense">' if len(timetable.names) > _MOST_MANY else "<ol>",
        *(f"<li>{job}</li>" for job in _jobs(timetable)),
        "</ol>",
        *_of_machines(machines, timetable.makespan, facts.times),
        f'<p class="small">Not modelled are due dates{_shifts(facts.times)}; every machine takes the jobs in the same '
        f"order. Made by flowshop {version()}.</p>",
        *_picture(facts),
    ]
    for machine in machines:
        lines += _sheet(machine, facts, title)
    return "".join(f"{line}\n" for line in [*lines, "</body>", "</html>"])

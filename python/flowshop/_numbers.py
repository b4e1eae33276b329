"""The times of a table: which number each cell is, in which unit, and which rows and columns are no times by these."""

import re
from fractions import Fraction
from itertools import chain
from math import lcm
from typing import Dict, List, NamedTuple, Optional, Tuple

from ._headings import UNIT_NAMES, is_date, is_machine, names_operation, seconds_of, unit_named, unit_of, with_unit
from ._layout import Layout, doubt_machine, is_blank, is_in, is_word
from ._library import MOST_JOBS, MOST_MACHINES, MOST_TIME
from ._remarks import Remarks

_SIGNS = {"point": ".", "comma": ","}
_ONE_SIGN = re.compile(r"(\d*)([.,])(\d+)")
_MAYBE_THOUSAND = re.compile(r"[1-9]\d{0,2}[.,]\d{3}")
_GROUPS = re.compile(r"\d{1,3}([.,])\d{3}(?:\1\d{3})+")
_BOTH = re.compile(r"\d{1,3}([.,])\d{3}(?:\1\d{3})*(?!\1)([.,])\d+")
_SPACED = re.compile(r"\d{1,3}(?:[ '’\u00a0\u202f]\d{3})+(?:[.,]\d+)?")
_EXACT = re.compile(r"\d+(?:\.\d+)?(?:e[-+]?\d{1,2})?")
# How many signs a number has at most.
_MOST_SIGNS = 40
_MOST_SCALE = 1_000_000
Rows = List[List[Optional[Fraction]]]


def _bare(text: str) -> str:
    """A cell without blanks and apostrophes between thousands."""
    return re.sub(r"[ '’\u00a0\u202f]", "", text) if _SPACED.fullmatch(text) else text


def _proof(text: str) -> str:
    """The decimal sign that a cell proves; nothing where it proves none. A sign before three digits may stand behind a
    thousand."""
    text = _bare(text)
    both, groups = _BOTH.fullmatch(text), _GROUPS.fullmatch(text)
    if both or groups:
        return "comma" if (both and both[2] or "") == "," or groups and groups[1] == "." else "point"
    one = _ONE_SIGN.fullmatch(text)
    if not one or _MAYBE_THOUSAND.fullmatch(text):
        return ""
    return "comma" if one[2] == "," else "point"


class _Reader:
    """Reads cells as numbers. `decimal` is the sign of the table, `is_proved` whether a cell proves it."""

    def __init__(self, layout: Layout, remarks: Remarks, has_numbers: bool) -> None:
        self.layout, self.remarks, self.has_numbers = layout, remarks, has_numbers
        self.proofs: Dict[str, List[str]] = {"point": [], "comma": []}
        for row in layout.cells:
            for text in row:
                if _proof(text):
                    self.proofs[_proof(text)].append(text)
        if has_numbers and not self.proofs["comma"]:
            self.proofs["point"].append("1.5")
        self.decimal = remarks.answers.decimal or self._proved()

    def _proved(self) -> str:
        """The sign that more cells prove than the other; nothing where there is no proof."""
        points, commas = len(self.proofs["point"]), len(self.proofs["comma"])
        return "" if points == commas == 0 else "comma" if commas > points else "point"

    def number(self, job: int, machine: int) -> Optional[Fraction]:
        """The number of a cell; None where it is none, with a remark."""
        text, place = self.layout.cells[job][machine], self.layout.place(job, machine)
        if is_blank(text):
            return self._missing(text, place)
        bare = _bare(text)
        if len(text) <= _MOST_SIGNS:
            if self.has_numbers and _EXACT.fullmatch(text):
                return Fraction(text)
            if re.fullmatch(r"\d+", bare):
                return Fraction(bare)
            if re.fullmatch(r"[\d.,]*\d", bare):
                return self._signed(bare, text, place)
        self.remarks.refuse(place, text, self._wrong(text))
        return None

    def _missing(self, text: str, place: Tuple[int, int]) -> Optional[Fraction]:
        """The number of a cell that has nothing."""
        why = "has no time: write it there, or, if the job skips the machine"
        self.remarks.ask(place, text, why, ("missing", "zero"))
        return Fraction(0)

    def _signed(self, bare: str, text: str, place: Tuple[int, int]) -> Optional[Fraction]:
        """The number of a cell with points or commas."""
        decimal = self.decimal
        if not decimal and _MAYBE_THOUSAND.fullmatch(bare):
            looks, other = ("comma", "point") if "," in bare else ("point", "comma")
            why = "is a decimal, or else a thousand"
            decimal = self.remarks.ask(place, text, why, ("decimal", looks), ("decimal", other))
        sign = _SIGNS[decimal or "point"]
        thousands = "," if sign == "." else "."
        if re.fullmatch(rf"\d*{re.escape(sign)}\d+", bare):
            return Fraction("0" + bare.replace(sign, "."))
        grouped = re.fullmatch(rf"\d{{1,3}}(?:{re.escape(thousands)}\d{{3}})+(?:{re.escape(sign)}\d+)?", bare)
        if not grouped:
            proof = next(iter(self.proofs[decimal or "point"]), "")
            other = f"{proof} has the other one" if proof else f"--decimal {decimal} was said"
            self.remarks.refuse(place, text, f"has a decimal sign, and {other}: write one sign in the whole table")
            return None
        if _MAYBE_THOUSAND.fullmatch(bare) and not self.remarks.answers.decimal:
            proof = self.proofs[decimal][0] if self.proofs[decimal] else ""
            why = f"is a thousand, since {proof} has the other sign; or else write one sign"
            self.remarks.ask(place, text, why, ("decimal", decimal))
        return Fraction(bare.replace(thousands, "").replace(sign, "."))

    @staticmethod
    def _wrong(text: str) -> str:
        """What is wrong with a cell that has no number."""
        if text.startswith("-") and text[1:2].isdigit():
            return "is below 0, and no time is"
        if text.endswith("%"):
            return "is a percentage, and no time"
        if is_date(text):
            return "is a date, and no time"
        if re.fullmatch(r"(\d+ days?,? )?\d{1,3}:\d\d(:\d\d(\.\d+)?)?", text):
            return "is a time of day or a length: write it as a number, in one unit"
        found = re.fullmatch(r"[\d.,]+ ?([^\d\s]+)", text)
        if found and unit_named(found[1]):
            return "has a unit: write the number alone, and the unit behind the name of the machine, as Saw (min)"
        return "is no number"


def _read(layout: Layout, reader: _Reader) -> Rows:
    """The numbers of all cells."""
    jobs, machines = range(len(layout.jobs)), range(len(layout.machines))
    return [[reader.number(job, machine) for machine in machines] for job in jobs]


def _without(rows: Rows, at: int) -> Rows:
    """Rows without a column."""
    return [row[:at] + row[at + 1 :] for row in rows]


def _is_sum(number: Optional[Fraction], whole: Fraction) -> bool:
    """Whether a number is the sum of all others, to within one part in a hundred."""
    return number is not None and 100 * abs(2 * number - whole) <= number


def _total_of(rows: Rows) -> Optional[int]:
    """The column whose numbers are the sums of the others in all rows; the last row of several is not looked at, since
    it may have the sums of columns."""
    looked = rows[:-1] if len(rows) > 2 else rows
    if not rows or len(rows[0]) < 3:
        return None
    sums = [sum((number for number in row if number is not None), Fraction(0)) for row in looked]
    for at in range(len(rows[0])):
        if any(row[at] for row in looked) and all(_is_sum(row[at], whole) for row, whole in zip(looked, sums)):
            return at
    return None


def _drop_sums(layout: Layout, rows: Rows, remarks: Remarks) -> Tuple[Layout, Rows]:
    """Asks about a machine and a job whose times are the sums of the others."""
    words = ("totals", "drop"), ("totals", "keep")
    if remarks.answers.totals == "keep":
        return layout, rows
    at = _total_of(rows)
    if at is not None:
        remarks.ask(layout.place(-1, at), layout.machines[at].name, "has the sums of the others", *words)
        layout, rows = layout.without_machine(at), _without(rows, at)
    turned = [list(column) for column in zip(*rows)]
    # All machines are looked at, since that of totals is gone.
    job = _total_of([*turned, turned[-1]]) if len(turned) > 1 and len(rows) > 2 else None
    if job is not None:
        remarks.ask(layout.place(job, -1), layout.jobs[job].name, "has the sums of the others", *words)
        layout, rows = layout.without_job(job), rows[:job] + rows[job + 1 :]
    return layout, rows


def _looks_like(column: List[Fraction], others: List[List[Fraction]], is_first: bool) -> str:
    """What the numbers of a machine look like, where they do not look like times."""
    if is_first and len(column) > 2 and len(set(column)) == 1 and column[0].denominator == 1 and 1 <= column[0] <= 100:
        if any(len(set(other)) > 1 for other in others):
            return "has one number for all jobs, as a quantity"
    if len(column) > 3 and {after - before for before, after in zip(column, column[1:])} == {Fraction(1)}:
        return "has running numbers"
    greatest = max((max(other) for other in others), default=Fraction(0))
    if min(column) > 10 * greatest > 0:
        return "has numbers far above all others"
    return ""


def _drop_others(layout: Layout, rows: Rows, remarks: Remarks) -> Tuple[Layout, Rows]:
    """Asks about machines whose names do not say that they are some, and whose numbers look like something else."""
    columns = [[number or Fraction(0) for number in column] for column in zip(*rows)]
    for at in reversed(range(len(columns))):
        name = layout.machines[at].name
        if is_machine(name) or names_operation(name) or layout.is_turned and not is_word(name):
            continue
        looks = _looks_like(columns[at], columns[:at] + columns[at + 1 :], at == 0)
        if looks and len(columns) > 1 and not is_in(layout, at, remarks.answers.keep):
            layout = doubt_machine(layout, at, remarks, looks, "quantity" in looks)
            rows, columns = _without(rows, at), columns[:at] + columns[at + 1 :]
    return layout, rows


def _multiplied(layout: Layout, rows: Rows, reader: _Reader) -> Rows:
    """Times for one piece, multiplied by the quantities of the jobs."""
    if not layout.quantities:
        return rows
    bare = map(_bare, layout.quantities)
    numbers = [Fraction(text) if re.fullmatch(rf"\d{{1,{_MOST_SIGNS}}}", text) else None for text in bare]
    for job, number in enumerate(numbers):
        if number is None:
            place, text = layout.place(job, -1), layout.quantities[job]
            reader.remarks.refuse(place, text, "is no quantity: write a whole number")
    return [[None if number is None or time is None else number * time for time in row]
            for number, row in zip(numbers, rows)]


def _with_unit(layout: Layout, length: str) -> Layout:
    """The layout with a unit of this length in the headings that name one."""
    unit = UNIT_NAMES.get(seconds_of(length), length)
    return layout._replace(machines=[line._replace(name=with_unit(line.name, unit)) for line in layout.machines])


def _in_one_unit(layout: Layout, rows: Rows, remarks: Remarks) -> Tuple[Layout, Rows, str]:
    """The times in the least unit that the headings name, which all of these name then, and how long it is; nothing
    where none is named."""
    names = ((line.unit, line.name) for line in layout.machines)
    units: List[Optional[Fraction]] = [unit_named(unit) if unit else unit_of(name) for unit, name in names]
    named = [unit for unit in units if unit]
    if not named:
        return layout, rows, remarks.answers.unit
    least, said = min(named), remarks.answers.unit
    line, place = layout.machines[units.index(least)], layout.place(-1, units.index(least))
    heading = f"1{UNIT_NAMES[least]}"
    if None in units:
        at = units.index(None)
        why = "names no unit, and others do"
        unit = remarks.ask(layout.place(-1, at), layout.machines[at].name, why, ("unit", heading))
        units = [each or seconds_of(unit) for each in units]
    elif said and seconds_of(said) != least:
        why = f"has the unit {UNIT_NAMES[least]}, and --unit says {said}"
        if remarks.ask(place, line.name, why, *_TRUST) == "unit":
            return _with_unit(layout, said), rows, said
    factors = [(unit or least) / Fraction(least) for unit in units]
    scaled = [[None if time is None else time * factor for time, factor in zip(row, factors)] for row in rows]
    return _with_unit(layout, heading), scaled, heading


_TRUST = ("trust", "headings"), ("trust", "unit")


def _scale(layout: Layout, rows: Rows, remarks: Remarks) -> int:
    """The least number that makes all times whole; remarks where there is none, or where a time is too great then."""
    scale = 1
    for job, row in enumerate(rows):
        for machine, time in enumerate(row):
            if time is None:
                continue
            if _MOST_SCALE % time.denominator:
                text = layout.cells[job][machine]
                remarks.refuse(layout.place(job, machine), text, "has more than six decimals: round it")
            else:
                scale = lcm(scale, time.denominator)
    for job, row in enumerate(rows):
        for machine, time in enumerate(row):
            if time is not None and time * scale > MOST_TIME:
                parts = f" in 1/{scale} of the unit, which all times need" if scale > 1 else ""
                why = f"is above {MOST_TIME:,}{parts}: take a greater unit, or round the times"
                remarks.refuse(layout.place(job, machine), layout.cells[job][machine], why)
    return scale


def _test_sizes(layout: Layout, remarks: Remarks) -> None:
    """Refuses too many jobs or machines, jobs without a name where others have one, and machines of one name."""
    for kind, lines, most in (("jobs", layout.jobs, MOST_JOBS), ("machines", layout.machines, MOST_MACHINES)):
        if len(lines) > most:
            remarks.refuse((0, 0), "", f"has {len(lines):,} {kind}, and a shop has at most {most}")
    if any(line.name for line in layout.jobs):
        for at, line in enumerate(layout.jobs):
            if not line.name:
                remarks.refuse(layout.place(at, -1), "", "has no name")
    seen: Dict[str, int] = {}
    for at, line in enumerate(layout.machines):
        if line.name and line.name in seen:
            why = f"has the name of machine {seen[line.name]}, and jobs visit each machine once: give it another name"
            remarks.refuse(layout.place(-1, at), line.name, why)
        seen[line.name] = at + 1


class Times(NamedTuple):
    """The times of a table in parts of its unit: what is left of the layout; a row of whole numbers for each job; by
    what they are multiplied; the decimal sign, by its word; how long the unit is, where that is known; and how many
    blank cells are 0."""

    layout: Layout
    rows: List[List[int]]
    scale: int
    decimal: str
    unit: str
    blank: int


def times_of(layout: Layout, remarks: Remarks, has_numbers: bool) -> Times:
    """The times of a layout. What is wrong is among the remarks."""
    reader = _Reader(layout, remarks, has_numbers)
    rows = _read(layout, reader)
    layout, rows = _drop_sums(layout, rows, remarks)
    layout, rows = _drop_others(layout, rows, remarks)
    layout, rows, unit = _in_one_unit(layout, _multiplied(layout, rows, reader), remarks)
    scale = _scale(layout, rows, remarks)
    _test_sizes(layout, remarks)
    blank = sum(map(is_blank, chain.from_iterable(layout.cells)))
    whole = [[int((time or 0) * scale) for time in row] for row in rows]
    has_signs = any("." in text or "," in text for row in layout.cells for text in row)
    return Times(layout, whole, scale, (reader.decimal or "point") if has_signs else "point", unit, blank)

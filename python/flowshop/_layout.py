"""What the rows and columns of a table are: which have names, which are jobs, machines, totals, or something else."""

import re
from typing import List, NamedTuple, Optional, Tuple

from ._headings import (
    heads_jobs, heads_machines, is_date, is_job, is_machine, is_other, is_quantity, is_total, unit_named
)
from ._library import MOST_JOBS, MOST_MACHINES
from ._remarks import Remarks, Word
from ._sheets import Sheet

_NUMBER = re.compile(r"[-+]?[\d.,]*\d[.,]?(e[-+]?\d+)?")
# How many rows and columns are looked at, at most.
_MOST_LINES = 2000
_DASHES = re.compile(r"[-–—.?/]*")


def is_word(text: str) -> bool:
    """Whether a cell has something else than a number, of whatever form."""
    return bool(text) and not _NUMBER.fullmatch(text)


def is_blank(text: str) -> bool:
    """Whether a cell has nothing, or a dash."""
    return bool(_DASHES.fullmatch(text))


class Line(NamedTuple):
    """A row or a column of a table: its number there, its name, and its unit where a row of units has one."""

    number: int
    name: str
    unit: str = ""


class Layout(NamedTuple):
    """A table with a row for each job and a column for each machine: the cells, the jobs, the machines, the column of
    quantities by which times are multiplied, whether the rows of the sheet are machines, and what was left out."""

    cells: List[List[str]]
    jobs: List[Line]
    machines: List[Line]
    quantities: List[str]
    is_turned: bool
    notes: List[str]

    def place(self, job: int, machine: int) -> Tuple[int, int]:
        """The row and the column of a time in the sheet; 0 for one of them names the whole other."""
        row = self.jobs[job].number if job >= 0 else 0
        column = self.machines[machine].number if machine >= 0 else 0
        return (column, row) if self.is_turned else (row, column)

    def without_job(self, at: int) -> "Layout":
        """The layout without a job."""
        note = f"{'column' if self.is_turned else 'row'} {self.jobs[at].number} ({self.jobs[at].name})"
        rest = [place for place in range(len(self.jobs)) if place != at]
        return self._replace(
            cells=[self.cells[place] for place in rest],
            jobs=[self.jobs[place] for place in rest],
            quantities=[self.quantities[place] for place in rest] if self.quantities else [],
            notes=[*self.notes, note],
        )

    def without_machine(self, at: int) -> "Layout":
        """The layout without a machine."""
        note = f"{'row' if self.is_turned else 'column'} {self.machines[at].number} ({self.machines[at].name})"
        rest = [place for place in range(len(self.machines)) if place != at]
        return self._replace(
            cells=[[row[place] for place in rest] for row in self.cells],
            machines=[self.machines[place] for place in rest],
            notes=[*self.notes, note],
        )


class _Grid:
    """The rows of a sheet, of one length, with the numbers of rows and columns."""

    def __init__(self, sheet: Sheet, remarks: Remarks) -> None:
        self.remarks, self.answers = remarks, remarks.answers
        self.notes: List[str] = []
        self.known_header = sheet.header
        kept = [(number, row) for number, row in zip(sheet.numbers, sheet.rows) if number >= self.answers.begin]
        self.numbers = [number for number, _ in kept]
        self.rows = [list(row) for _, row in kept]
        if not self.answers.begin:
            self._drop_titles()
        width = max((last_of(row) for row in self.rows), default=0)
        self.rows = [(row + [""] * width)[:width] for row in self.rows]
        self.columns = list(range(1, width + 1))
        self.has_header = bool(self.rows) and self._finds_header()

    def _drop_titles(self) -> None:
        """Leaves out rows of one field above rows that have more, and a first row that is no heading of the second."""
        lengths = [last_of(row) for row in self.rows]
        at = next((at for at, length in enumerate(lengths) if length > 1), 0)
        if len(lengths) > at + 1 and lengths[at] < lengths[at + 1]:
            if sum(map(is_word, self.rows[at + 1][1:])) > len(self.rows[at + 1]) // 2:
                at += 1
        if at and self.known_header != "yes":
            title = self.rows[0][0] if self.rows[0] else ""
            self.remarks.ask((self.numbers[0], 0), title, "looks like a title", ("begin", str(self.numbers[at])))
            self.rows, self.numbers = self.rows[at:], self.numbers[at:]

    def _finds_header(self) -> bool:
        """Whether the first row has names."""
        if self.known_header:
            return self.known_header == "yes"
        if self.answers.header:
            return self.answers.header == "yes"
        first = self.rows[0]
        rest = [cell for cell in (first[1:] or first) if cell]
        numbers = sum(not is_word(cell) for cell in rest)
        digits = sum(cell.lstrip("-+.,")[:1].isdigit() for cell in rest)
        if not numbers and not (rest and digits == len(rest)):
            return True
        if not any(map(is_word, first)) and first[0]:
            return False
        is_head = heads_jobs(first[0]) or heads_machines(first[0]) or not first[0] or numbers < len(rest)
        words = ("header", "yes"), ("header", "no")
        words = words if is_head else words[::-1]
        return self.remarks.ask((self.numbers[0], 0), first[0], "has names or times", *words) == "yes"

    @property
    def above(self) -> int:
        """How many rows of names there are."""
        return int(self.has_header)

    def head(self, at: int) -> str:
        """The name of a column."""
        return self.rows[0][at] if self.has_header else ""

    def below(self, at: int) -> List[str]:
        """What a column has below its name."""
        return [row[at] for row in self.rows[self.above :]]

    def named(self, at: int) -> str:
        """A column as words name it: by its name, or by its number where that is none, a number, or that of two."""
        name = self.head(at)
        heads = self.rows[0] if self.has_header else []
        return name if is_word(name) and heads.count(name) == 1 else str(self.columns[at])

    def listed(self, names: Tuple[str, ...], at: int) -> bool:
        """Whether a list of words has a column."""
        return self.head(at) in names and is_word(self.head(at)) or str(self.columns[at]) in names

    def drop_column(self, at: int, is_noted: bool = True) -> None:
        """Leaves out a column."""
        if at == 0 and len(self.columns) > 1:  # a word before numbers, as that of totals, goes to the next column
            for row in self.rows[self.above :]:
                row[1] = row[1] or (row[0] if is_word(row[0]) else "")
        if is_noted:
            self.notes.append(f"column {self.columns[at]}" + (f" ({self.head(at)})" if self.head(at) else ""))
        self.rows = [row[:at] + row[at + 1 :] for row in self.rows]
        del self.columns[at]

    def drop_row(self, at: int) -> None:
        """Leaves out a row."""
        self.notes.append(f"row {self.numbers[at]} ({self.rows[at][0]})")
        del self.rows[at], self.numbers[at]


def last_of(row: List[str]) -> int:
    """The number of the last field of a row that is not empty."""
    return max((at for at, cell in enumerate(row, 1) if cell), default=0)


def _skip(grid: _Grid) -> None:
    """Leaves out what is said to be skipped, and blank columns without a name."""
    for at in reversed(range(len(grid.columns))):
        if grid.listed(grid.answers.skip, at):
            grid.drop_column(at)
        elif not any(row[at] for row in grid.rows):
            grid.drop_column(at, is_noted=False)
    for at in reversed(range(grid.above, len(grid.rows))):
        if grid.rows[at] and grid.rows[at][0] in grid.answers.skip and is_word(grid.rows[at][0]):
            grid.drop_row(at)


def _runs(cells: List[str]) -> bool:
    """Whether cells have whole numbers that go up by one step."""
    if len(cells) < 2 or not all(re.fullmatch(r"\d{1,15}", cell) for cell in cells):
        return False
    numbers = [int(cell) for cell in cells]
    steps = {after - before for before, after in zip(numbers, numbers[1:])}
    return len(steps) == 1 and (min(steps) == 1 or min(steps) > 1 and len(cells) > 2)


def _drop_words(grid: _Grid) -> None:
    """Asks about columns behind the first that have words or dates, and no times, and leaves them out."""
    has_names = not _runs([cell for cell in grid.below(0) if cell and not is_total(cell, True)])
    at = 1
    while at < len(grid.columns):
        cells = [cell for cell in grid.below(at) if not is_blank(cell)]
        dates, words = sum(map(is_date, cells)), sum(is_word(cell) and not cell[:1].isdigit() for cell in cells)
        digits = sum(cell[:1].isdigit() or cell[:1] in "-+.," and is_number(cell) for cell in cells)
        place, name = (0, grid.columns[at]), grid.head(at)
        if cells and dates == len(cells):
            grid.remarks.ask(place, name, "has dates, no times", ("skip", grid.named(at)))
            grid.drop_column(at)
        elif words and not digits and at == 1 and not has_names:
            grid.remarks.ask((0, grid.columns[0]), grid.head(0), f"has running numbers, and column {grid.columns[1]} "
                             "words, no times", ("skip", grid.named(0)), ("skip", grid.named(1)))
            grid.drop_column(0)
            has_names = True
        elif words and not digits:
            grid.remarks.ask(place, name, "has words, no times", ("skip", grid.named(at)))
            grid.drop_column(at)
        else:
            at += 1


def is_number(text: str) -> bool:
    """Whether a cell has a number, of whatever form."""
    return bool(text) and not is_word(text)


def _has_names(grid: _Grid) -> bool:
    """Whether the first column has names."""
    if grid.answers.first:
        return grid.answers.first == "names"
    if len(grid.columns) == 1:
        return False
    head, cells = grid.head(0), grid.below(0)
    if grid.has_header and (not head or heads_jobs(head) or heads_machines(head)):
        return True
    words = sum(map(is_word, cells))
    if words and words == sum(map(bool, cells)):
        return True
    if is_machine(head) and not words and not _runs(cells):
        return False
    others = [int(cell) for row in grid.rows[grid.above :] for cell in row[1:] if re.fullmatch(r"\d{1,15}", cell)]
    whole = [int(cell) for cell in cells if re.fullmatch(r"\d{1,15}", cell)]
    is_above = len(set(whole)) == len(cells) > 1 and min(whole) > max(others, default=0)
    if not (grid.has_header or words or _runs(cells) or is_above):
        return False
    choices: List[Word] = [("first", "names"), ("first", "times")]
    looks = words or _runs(cells) or is_above
    place = 0, grid.columns[0]
    return grid.remarks.ask(place, head, "has names or times", *(choices if looks else choices[::-1])) == "names"


def _is_none(name: str) -> bool:
    """Whether a name is neither that of a job nor that of a machine."""
    return is_total(name, True) or is_quantity(name) or is_other(name)


def _turns(grid: _Grid, before: int) -> bool:
    """Whether the rows are machines."""
    if grid.answers.rows:
        return grid.answers.rows == "machines"
    rows = [row[0] if before else "" for row in grid.rows[grid.above :]]
    heads = [grid.head(at) for at in range(before, len(grid.columns))]
    if 2 * sum(map(is_machine, heads)) >= len(heads) or 2 * sum(map(is_job, rows)) >= len(rows):
        return False
    why, looks_turned, column = "", True, 0
    if 2 * sum(map(is_machine, rows)) >= len(rows):
        why, column = "has names of machines", grid.columns[0]
    elif 2 * sum(map(is_job, heads)) >= len(heads):
        why = "has names of jobs in its first row"
    elif grid.has_header and before and heads_machines(grid.head(0)):
        why, column = "is named as machines are", grid.columns[0]
    else:
        down, across = (sum(not _is_none(name) for name in names) for names in (rows, heads))
        why = f"has fewer rows ({down}) than columns ({across}) of times" if down < across else ""
        looks_turned = not before or down * 3 < across
    if not why:
        return False
    words: List[Word] = [("rows", "machines"), ("rows", "jobs")]
    value = grid.head(0) if column else ""
    return grid.remarks.ask((0, column), value, why, *(words if looks_turned else words[::-1])) == "machines"


def _units(grid: _Grid, before: int) -> List[str]:
    """The units in a row below the names, which is taken out; or none."""
    if grid.has_header and len(grid.rows) > 2:
        cells = [cell.strip("[]() ") for cell in grid.rows[1][before:]]
        if any(cells) and all(not cell or unit_named(cell) for cell in cells):
            del grid.rows[1], grid.numbers[1]
            return cells
    return [""] * (len(grid.columns) - before)


def _test_width(grid: _Grid) -> None:
    """Refuses a row that has more fields than the first one has names."""
    width = last_of(grid.rows[0]) if grid.has_header else len(grid.columns)
    for number, row in zip(grid.numbers[1:], grid.rows[1:]):
        if last_of(row) > width:
            why = "has more fields than the first row has names: name each column; where a comma is the decimal sign, "
            why += "separate fields by semicolons"
            grid.remarks.refuse((number, grid.columns[width]), row[width], why)
            break


def _has_times(row: List[str]) -> bool:
    """Whether a row has something like a time behind its first field."""
    return any(cell[:1].isdigit() or is_number(cell) for cell in row[1:])


def _drop_rows(grid: _Grid) -> None:
    """Asks about rows without times, and refuses those that repeat the names of the first one, or that --skip would
    leave out together with times."""
    timed = {row[0] for row in grid.rows if _has_times(row)}
    for at in reversed(range(grid.above, len(grid.rows))):
        row, number = grid.rows[at], grid.numbers[at]
        if grid.has_header and row == grid.rows[0]:
            grid.remarks.refuse((number, 0), row[0], "repeats the first row: take it out of the table")
            del grid.rows[at], grid.numbers[at]
        elif len(row) > 1 and is_word(row[0]) and not _has_times(row):
            if grid.answers.missing and not any(map(is_word, row[1:])):
                continue
            if row[0] in timed:
                grid.remarks.refuse((number, 0), row[0], "has no times, and another row has its name: take it out")
            else:
                grid.remarks.ask((number, 0), row[0], "has no times", ("skip", row[0]))
            grid.drop_row(at)


def _layout(grid: _Grid) -> Layout:
    """The jobs and machines of a grid."""
    before = int(_has_names(grid))
    units = _units(grid, before)
    rows = [Line(number, row[0] if before else "") for number, row in zip(grid.numbers, grid.rows)][grid.above :]
    columns = [Line(grid.columns[at], grid.head(at), units[at - before]) for at in range(before, len(grid.columns))]
    cells = [row[before:] for row in grid.rows[grid.above :]]
    if _turns(grid, before):
        turned = [list(column) for column in zip(*cells)]
        return Layout(turned, columns, rows, [], True, grid.notes)
    return Layout(cells, rows, columns, [], False, grid.notes)


def _drop_totals(layout: Layout, remarks: Remarks) -> Layout:
    """Asks about jobs and machines that are named as totals are."""
    words: List[Word] = [("totals", "drop"), ("totals", "keep")]
    for at in reversed(range(len(layout.jobs))):
        name = layout.jobs[at].name
        if is_total(name, True) and remarks.ask(layout.place(at, -1), name, "looks like totals", *words) == "drop":
            layout = layout.without_job(at)
    for at in reversed(range(len(layout.machines))):
        name = layout.machines[at].name
        if is_total(name, False) and remarks.ask(layout.place(-1, at), name, "looks like totals", *words) == "drop":
            layout = layout.without_machine(at)
    return layout


def word_of(layout: Layout, at: int) -> str:
    """A machine as words name it."""
    line = layout.machines[at]
    is_one = [each.name for each in layout.machines].count(line.name) == 1
    return line.name if is_word(line.name) and is_one else str(line.number)


def is_in(layout: Layout, at: int, names: Tuple[str, ...]) -> bool:
    """Whether a list of words has a machine."""
    line = layout.machines[at]
    return line.name in names and is_word(line.name) or not layout.is_turned and str(line.number) in names


def doubt_machine(layout: Layout, at: int, remarks: Remarks, why: str, is_of_pieces: bool = False) -> Layout:
    """Asks about a machine that may be none, and leaves it out where nothing is said."""
    if is_in(layout, at, remarks.answers.keep):
        return layout
    word = word_of(layout, at)
    words: List[Word] = [("skip", word), ("keep", word)]
    words += [("multiply", word)] if is_of_pieces else []
    remarks.ask(layout.place(-1, at), layout.machines[at].name, why, *words)
    return layout.without_machine(at)


def _drop_others(layout: Layout, remarks: Remarks) -> Layout:
    """Asks about machines whose names say that they are none, and takes quantities by which times are multiplied."""
    for at in reversed(range(len(layout.machines))):
        name = layout.machines[at].name
        if is_in(layout, at, remarks.answers.multiply):
            quantities = [row[at] for row in layout.cells]
            layout = layout.without_machine(at)
            notes = [*layout.notes[:-1], f"{name}, by which times are multiplied"]
            layout = layout._replace(quantities=quantities, notes=notes)
        elif is_quantity(name):
            layout = doubt_machine(layout, at, remarks, "looks like quantities, no times", True)
        elif is_other(name):
            layout = doubt_machine(layout, at, remarks, "looks like no machine")
    return layout


def _test_words(sheet: Sheet, remarks: Remarks) -> None:
    """Refuses names of skip, keep and multiply that are said now, and that the table does not have."""
    cells = {cell for row in sheet.rows for cell in row}
    width = max(map(len, sheet.rows), default=0)
    for word in ("skip", "keep", "multiply"):
        for name in getattr(remarks.said_now, word):
            if name not in cells and not (name.isdigit() and 1 <= int(name) <= width):
                remarks.refuse((0, 0), "", f"has nothing of the name or number {name!r} of --{word}")


def layout_of(sheet: Sheet, remarks: Remarks) -> Optional[Layout]:
    """The jobs and machines of a sheet; None where it has no times, or is far too great, with a remark."""
    for kind, count in (("rows", len(sheet.rows)), ("columns", max(map(len, sheet.rows), default=0))):
        if count > _MOST_LINES:
            most = f"{MOST_JOBS} jobs and {MOST_MACHINES} machines"
            remarks.refuse((0, 0), "", f"has {count:,} {kind}, and a shop has at most {most}")
            return None
    _test_words(sheet, remarks)
    grid = _Grid(sheet, remarks)
    if grid.rows:
        _skip(grid)
    if not grid.columns or len(grid.rows) <= grid.above:
        remarks.refuse((0, 0), "", "has no times")
        return None
    _test_width(grid)
    _drop_words(grid)
    _drop_rows(grid)
    layout = _drop_others(_drop_totals(_layout(grid), remarks), remarks)
    if not layout.jobs or not layout.machines:
        remarks.refuse((0, 0), "", "has no times")
        return None
    return layout

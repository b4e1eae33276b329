"""A shop of a table as planners keep it: a file with separators, a workbook, JSON, a frame or rows of lists."""

import os
from pathlib import Path as FilePath
from typing import Any, Dict, List, NamedTuple, Optional

from ._answers import Answers, Given, answers_of, read_toml, without
from ._errors import OptionError, counted, readable
from ._labels import Unit
from ._layout import Layout, layout_of
from ._numbers import times_of
from ._remarks import Remarks
from ._results import listed
from ._shop import Shop
from ._sheets import Sheet, sheet_of
from ._texts import bytes_of

_SEPARATORS = {";": "semicolon", "\t": "tab"}


class Reading(NamedTuple):
    """A table that was read: its shop, its sheet, how long its unit is where that is known, what was said of it, what
    was left out, and how many blank cells are 0."""

    shop: Shop
    sheet: Sheet
    unit: str
    answers: Answers
    notes: List[str]
    blank: int

    def said(self) -> str:
        """What was read, in a line."""
        shop, notes = self.shop, f"; left out: {', '.join(self.notes)}" if self.notes else ""
        sizes = (("job", shop.jobs, shop.job_names), ("machine", shop.machines, shop.machine_names))
        read = ", ".join(f"{counted(count, kind)} ({listed(names, 3)})" for kind, count, names in sizes)
        in_parts = f", in 1/{shop.scale} of its unit" if shop.scale > 1 else ""
        unit = f"; its unit is {self.unit}" if self.unit else ""
        times = [time for row in shop.times for time in row]
        shown = [shop._in_unit(end(times)) for end in (min, max)]
        blank = f"; {counted(self.blank, 'blank cell')} taken as 0" if self.blank else ""
        return f"{readable(self.sheet.name)}: {read}; times {shown[0]} to {shown[1]}{in_parts}{unit}{blank}{notes}"


def settings_of(table: Any) -> Optional[FilePath]:
    """The file beside a table that keeps what was answered; None of a table that is no file, or a pipe or a device."""
    if not isinstance(table, (str, os.PathLike)) or os.path.exists(table) and not os.path.isfile(table):
        return None
    return FilePath(f"{os.fsdecode(table)}.flowshop.toml")


def text_kept(path: Optional[FilePath]) -> Optional[str]:
    """The text of a file of answers; None where there is none. OptionError where it is in no UTF-8."""
    if path is None or not path.exists():
        return None
    try:
        return bytes_of(path, "file of answers").decode("utf-8-sig").replace("\r\n", "\n")
    except UnicodeDecodeError:
        raise OptionError("SETTINGS", 0, f"{readable(path)} is no text in UTF-8: save it as such a one") from None


def kept_of(path: Optional[FilePath]) -> Dict[str, Any]:
    """What a file of answers has; nothing where there is none. OptionError where it has another section than that of
    the calendar."""
    text = text_kept(path)
    kept = read_toml(str(path), text) if text else {}
    for name, value in kept.items():
        if isinstance(value, dict) and name != "calendar":
            sentence = f"{readable(path)} has a section [{name}]; the only one that there is is [calendar]"
            raise OptionError("SETTINGS", 0, sentence)
    if not isinstance(kept.get("calendar", {}), dict):
        raise OptionError("SETTINGS", 0, f"calendar of {readable(path)} has to be a section [calendar]")
    return kept


def _shop_of(layout: Layout, rows: List[List[int]], unit: Unit) -> Shop:
    """The shop of whole times. Two jobs may have one name."""
    jobs = tuple(line.name or str(number) for number, line in enumerate(layout.jobs, 1))
    machines = tuple(line.name or str(number) for number, line in enumerate(layout.machines, 1))
    plain = Shop.from_jobs(rows)
    named = (
        jobs if any(line.name for line in layout.jobs) else None,
        machines if any(line.name for line in layout.machines) else None,
    )
    return Shop._of(*plain._parts[:3], *named, unit)


def reading_of(table: Any, words: Dict[str, Any], kept: Dict[str, Any], needs_unit: bool = False) -> Reading:
    """The reading of a table, with words that are said now, and those of a file. It is asked how long the unit is where
    that is needed. NotATable with all that is in doubt or wrong, TextError where there is no table."""
    before = answers_of({name: value for name, value in kept.items() if not isinstance(value, dict)})
    answers = answers_of(words, without(before, answers_of(words)))
    sheet = sheet_of(table, answers.separator or None)
    remarks = Remarks(answers, answers_of(words))
    layout = layout_of(sheet, remarks)
    times = times_of(layout, remarks, sheet.has_numbers) if layout else None
    if times and needs_unit and not times.unit:
        why = "has times, and how long one unit of them is stands nowhere"
        remarks.ask((0, 0), "", why, ("unit", "1min"), ("unit", "1h"))
    remarks.test(sheet.name)
    assert times is not None, "a table without times has a remark"
    unit = Unit(times.scale, times.decimal, _SEPARATORS.get(sheet.separator, "comma"))
    shop = _shop_of(times.layout, times.rows, unit)
    return Reading(shop, sheet, times.unit, answers, times.layout.notes, times.blank)


def read_table(table: Any, **words: Given) -> Shop:
    """The shop of a table with a row for each job and a column for each machine, with its names and its unit: of the
    file of a spreadsheet (CSV with any separator, a matrix with blanks, JSON as a list of rows or of objects, or a
    workbook, where the package openpyxl is there), of a frame as that of pandas, or of a list of rows with their names.
    Decimals become whole by the least scale. What is in doubt is settled by words, as `skip="Qty"`, which are options
    of the command `shop` too. Those that the commands `plan` and `shop` have kept beside the table are also taken.
    NotATable with all that is in doubt or wrong, TextError where the file is no table, OSError where it is not read,
    OptionError where a word is none.

    >>> read_table([["Order", "Saw", "Drill"], ["Shelf", 3.5, 7], ["Door", 1, 2.25]])
    Shop(2 jobs: Shelf, Door; 2 machines: Saw, Drill)
    """
    return reading_of(table, dict(words), kept_of(settings_of(table))).shop

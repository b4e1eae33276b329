"""Tables as texts in rows: of files with separators or blanks, of JSON, of workbooks, of frames and of lists."""

import csv
import io
import json
import math
import os
import re
from decimal import Decimal
from fractions import Fraction
from typing import Any, Iterable, Iterator, List, Mapping, NamedTuple, Optional

from ._cells import is_missing
from ._errors import TextError, readable, shown
from ._json import FAULTS, fault_of
from ._results import Path
from ._tables import UNORDERED
from ._texts import bytes_of

_WORKBOOK, _OLD_WORKBOOK, _DOCUMENT = b"PK\x03\x04", b"\xd0\xcf\x11\xe0", b"mimetypeapplication/vnd.oasis"
_SEPARATORS = "\t;,|"
_QUOTED = re.compile(r'"[^"]*("|$)')
# How many ends of lines a field has at most.
_MOST_ENDS = 20
_HEAD = re.compile(r"[^\d\s][^\n]*\n\s*\d+\s+\d+\s+\d+\s+\d+\s+\d+\s*\n[^\d\s][^\n]*\n[\d\s]+")


class Sheet(NamedTuple):
    """A table as it was read: its rows of texts without blanks at their ends, the number of each row, counted from 1
    with blank ones, the sign between two fields, whether a byte order mark stands before it, whether its numbers are
    numbers there, and no texts, and whether its first row has names, `yes` or `no`, where that is known."""

    name: str
    rows: List[List[str]]
    numbers: List[int]
    separator: str = ","
    has_mark: bool = False
    has_numbers: bool = False
    header: str = ""


def _fault(name: str, why: str) -> TextError:
    """The refusal of a file that is no table."""
    return TextError("TABLE", 0, f"{readable(name)}: {why}")


def _text(value: Any) -> str:
    """A value of a sheet as text."""
    if is_missing(value):
        return ""
    if isinstance(value, float) and math.isfinite(value):  # without what is left of rounding
        return format(value, ".15g" if value == round(value) else ".12g")
    if hasattr(value, "isoformat") and not hasattr(value, "total_seconds"):  # a date or a time of day, and no length
        return str(value.isoformat())
    if isinstance(value, Fraction):  # which would look like a date
        value = Decimal(value.numerator) / value.denominator
    try:
        text = str(value)
    except ValueError:  # an int that Python does not write out
        return shown(value)
    return text.lower() if isinstance(value, Decimal) else " ".join(text.split())


def _sheet(name: str, rows: Iterable[Iterable[Any]], **more: Any) -> Sheet:
    """The sheet of rows of values, of which blank ones are left out."""
    texts = [[_text(value) for value in row] for row in rows]
    kept = [(number, row) for number, row in enumerate(texts, 1) if any(row)]
    return Sheet(name, [row for _, row in kept], [number for number, _ in kept], **more)


def _decoded(name: str, data: bytes) -> str:
    """The text of a file, without a byte order mark."""
    if data[:2] in (b"\xff\xfe", b"\xfe\xff"):
        encodings = ["utf-16"]
    else:
        encodings = ["utf-8-sig", "cp1252", "latin-1"]
    for encoding in encodings:
        try:
            return data.decode(encoding)
        except UnicodeDecodeError:
            continue
    raise _fault(name, "this text has a byte order mark of UTF-16, and is cut off: save it as CSV (UTF-8)")


def _separator(lines: List[str]) -> str:
    """The sign that stands in the most lines outside of quotation marks; of equal ones the first, since a comma may be
    a decimal sign; a blank where there is none of them."""
    bare = [_QUOTED.sub("", line) for line in lines]
    counts = [sum(sign in line for line in bare) for sign in _SEPARATORS]
    if not any(counts):
        return " "
    return _SEPARATORS[counts.index(max(counts))]


def _lines(text: str) -> Iterator[str]:
    """The lines of a text, with ends of any system."""
    return iter(io.StringIO(text.replace("\r\n", "\n").replace("\r", "\n")))


def _separated(name: str, text: str, has_mark: bool, separator: Optional[str]) -> Sheet:
    """The sheet of a text with a separator, which a first line `sep=;` names, or of a matrix with blanks."""
    named = re.match(r"sep=(.)\r?\n?", text)
    lines = list(_lines(text[named.end() :] if named else text))
    sign = separator or (named[1] if named else _separator([line for line in lines if line.strip(" \t\n,;")]))
    if len(sign) != 1:
        raise _fault(name, f"the separator is {shown(sign)}, and has to be one sign")
    if sign == " ":
        return _sheet(name, [line.split() for line in lines], has_mark=has_mark)
    try:
        rows = list(csv.reader(lines, delimiter=sign, skipinitialspace=True))
    except csv.Error as error:
        raise _fault(name, f"this is no CSV: {error}") from None
    for number, row in enumerate(rows, 1):
        if any(field.count("\n") > _MOST_ENDS for field in row):
            raise _fault(name, f"a quotation mark in row {number} is not closed")
    return _sheet(name, rows, separator=sign, has_mark=has_mark)


def _of_rows(name: str, table: Any) -> Sheet:
    """The sheet of a list of rows, or of a list of objects, whose keys are the first row. It may stand in an object as
    its only entry."""
    found = next(iter(table.values())) if isinstance(table, Mapping) and len(table) == 1 else table
    try:
        rows = [] if isinstance(found, (str, bytes, *UNORDERED)) else list(found)
        if rows and all(isinstance(row, Mapping) for row in rows):
            keys = list(dict.fromkeys(key for row in rows for key in row))
            rows = [keys, *([row.get(key) for key in keys] for row in rows)]
            return _sheet(name, rows, has_numbers=True, header="yes")
        if rows and not any(isinstance(row, (str, bytes, *UNORDERED)) for row in rows):
            return _sheet(name, rows, has_numbers=True)
    except TypeError:  # it is no list, or has something that is none
        pass
    raise _fault(name, f"it is {shown(table)}, and has to be a list of rows, or of objects, with something in it")


def _of_json(name: str, text: str) -> Sheet:
    """The sheet of JSON."""
    try:
        return _of_rows(name, json.loads(text))
    except FAULTS as error:
        if isinstance(error, TextError):
            raise
        raise _fault(name, fault_of(error)[1]) from None


def _of_workbook(name: str, data: bytes) -> Sheet:
    """The first sheet of a workbook."""
    if _DOCUMENT in data[:100]:
        raise _fault(name, "this is an OpenDocument sheet: save it as CSV (UTF-8) or as .xlsx")
    try:
        import openpyxl
    except ImportError:
        advice = "install the package openpyxl (pip install openpyxl), or save its sheet as CSV (UTF-8)"
        raise _fault(name, f"this is a workbook: {advice}") from None
    try:
        book = openpyxl.load_workbook(io.BytesIO(data), read_only=True, data_only=True)
        return _sheet(name, book.worksheets[0].iter_rows(values_only=True), has_numbers=True)
    except Exception as error:  # of many kinds
        raise _fault(name, f"this workbook can not be read: {error}") from None


def _of_file(path: Path, separator: Optional[str]) -> Sheet:
    """The sheet of a file."""
    name, data = os.fsdecode(path), bytes_of(path, "table")
    if data.startswith(_WORKBOOK):
        return _of_workbook(name, data)
    if data.startswith(_OLD_WORKBOOK):
        raise _fault(name, "this is a workbook of an old kind: save its sheet as CSV (UTF-8) or as .xlsx")
    text = _decoded(name, data)
    if text.lstrip()[:1] in ("[", "{"):
        return _of_json(name, text)
    if _HEAD.match(text):
        raise _fault(name, "this is a benchmark text and no table: certify takes it as it is")
    return _separated(name, text, data.startswith(b"\xef\xbb\xbf"), separator)


def _of_frame(frame: Any) -> Sheet:
    """The sheet of a frame, whose labels are names, but for an index that counts from 0."""
    columns, index = list(frame.columns), list(frame.index)
    rows = (frame.to_numpy(dtype=object) if hasattr(frame, "to_numpy") else frame.values).tolist()
    if index != list(range(len(index))):
        rows = [[label, *row] for label, row in zip(index, rows)]
        columns = [getattr(frame.index, "name", None) or "", *columns]
    if columns == list(range(len(columns))):
        return _sheet("table", rows, has_numbers=True, header="no")
    return _sheet("table", [columns, *rows], has_numbers=True, header="yes")


def sheet_of(table: Any, separator: Optional[str] = None) -> Sheet:
    """The sheet of the name of a file, of a frame, or of a list of rows. TextError where it is none, OSError where the
    file is not read."""
    if isinstance(table, (str, os.PathLike)):
        return _of_file(table, separator)
    columns = getattr(table, "columns", None)
    if columns is not None and not callable(columns):
        return _of_frame(table)
    return _of_rows("table", table)

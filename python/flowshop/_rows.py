"""Tables that commands print, and write to files as CSV, as JSON and for LaTeX."""

import argparse
import csv
import errno
import json
import os
import re
from typing import Any, Callable, Dict, List, NamedTuple, Sequence, TextIO, Tuple

from ._errors import readable
from ._saving import save, stream_of
from ._streams import Printed

Row = Dict[str, Any]
# The kinds of files, each of which a word of this name asks for.
KINDS = ("csv", "json", "latex")
OTHER = "a file that is no table of this command and would be replaced"
# Columns that no page has room for.
_WIDE = ("sequence", "sha256")
_ESCAPED = str.maketrans({
    **{sign: f"\\{sign}" for sign in "&%$#_{}"}, "\\": r"\textbackslash{}", "~": r"\textasciitilde{}",
    "^": r"\textasciicircum{}", "<": r"\textless{}", ">": r"\textgreater{}", "|": r"\textbar{}", '"': r"\char34{}",
    "[": "{[}", "*": "{*}",  # behind the end of a line they would be words of it
})
# What LaTeX joins with the sign behind it.
_JOINED = re.compile(r"([-'`,])(?=\1)|[?!](?=`)")


class Form(NamedTuple):
    """The columns of a table, those of them that are printed, and what its last line has, which CSV and JSON have not:
    whoever adds up a column there would count it twice."""

    names: Tuple[str, ...]
    printed: Tuple[str, ...]
    last: Callable[[Sequence[Row]], Row]

    def beginnings(self) -> Tuple[bytes, ...]:
        """How files with such a table begin."""
        texts = f"{','.join(self.names)}\n", f'[\n{{"{self.names[0]}": ', f"% {', '.join(self.in_latex())}\n"
        return tuple(text.encode() for text in texts)

    def in_latex(self) -> List[str]:
        """The columns of a table for LaTeX."""
        return [name for name in self.names if name not in _WIDE]


def columns(rows: Sequence[Row], name: str) -> List[Any]:
    """What is known in a column."""
    return [row[name] for row in rows if row[name] is not None]


def rounded(value: Any) -> Any:
    """A value as tables have it: three decimals of a number that is not whole."""
    return round(value, 3) if isinstance(value, float) else value


def _cell(value: Any) -> str:
    """A value as text: three decimals, and nothing where it is not known."""
    if value is None:
        return ""
    if isinstance(value, bool):
        return str(value).lower()
    if isinstance(value, (list, tuple)):
        return " ".join(map(str, value))
    return f"{value:.3f}" if isinstance(value, float) else str(value)


def _csv(form: Form, rows: Sequence[Row]) -> str:
    """The table as CSV."""
    lines: List[str] = []
    writer = csv.writer(_Lines(lines), lineterminator="\n")
    writer.writerow(form.names)
    writer.writerows([_cell(row[name]) for name in form.names] for row in rows)
    return "".join(lines)


def _json(form: Form, rows: Sequence[Row]) -> str:
    """The table as JSON: an object in each line."""
    objects = (json.dumps({name: rounded(row[name]) for name in form.names}) for row in rows)
    return "[\n" + ",\n".join(objects) + "\n]\n"


def _latex_cell(value: Any) -> str:
    """A value for LaTeX. A number below 0 has a minus, and no two signs of a text become another one, as `--` would."""
    if isinstance(value, float):
        return _cell(value).replace("-", "$-$")
    return _JOINED.sub(r"\g<0>\/", readable(_cell(value)).translate(_ESCAPED))


def _latex(form: Form, rows: Sequence[Row]) -> str:
    """The table as a tabular of LaTeX, which needs no package."""
    names = form.in_latex()
    numbers = [all(isinstance(row[name], (int, float)) for row in rows if row[name] is not None) for name in names]
    head = "".join("r" if is_number and name != "file" else "l" for is_number, name in zip(numbers, names))

    def line(cells: Sequence[Any]) -> str:
        return " & ".join(map(_latex_cell, cells)) + r" \\"

    last = form.last(rows)
    body = [line(names), r"\hline", *(line([row[name] for name in names]) for row in rows), r"\hline"]
    body += [line([last.get(name) for name in names]), r"\hline", r"\end{tabular}", ""]
    return "\n".join([f"% {', '.join(names)}", f"\\begin{{tabular}}{{{head}}}", r"\hline", *body])


_WRITERS: Dict[str, Callable[[Form, Sequence[Row]], str]] = {"csv": _csv, "json": _json, "latex": _latex}


class _Lines:
    """A stream that keeps what is written."""

    def __init__(self, lines: List[str]) -> None:
        self.write = lines.append


def words_of_tables(parser: argparse.ArgumentParser) -> None:
    """The words that name files for a table."""
    for kind, name in zip(KINDS, ("CSV", "JSON", "a tabular of LaTeX, without sequences")):
        parser.add_argument(f"--{kind}", metavar="FILE", help=f"write the table to a file, as {name}")


def tables_of(options: argparse.Namespace) -> List[Tuple[str, str]]:
    """The kinds of tables that are asked for, each with its file."""
    return [(kind, path) for kind in KINDS for path in [getattr(options, kind)] if path is not None]


def is_replaced(table: str) -> bool:
    """Whether a table would be a file of its own, and not go to a device, a pipe or a stream that is open."""
    return stream_of(table) is None and (os.path.isfile(table) or not os.path.exists(table))


def is_other(form: Form, table: str) -> bool:
    """Whether a file would be replaced that is neither such a table nor empty."""
    if not is_replaced(table) or not os.path.exists(table):
        return False
    beginnings = form.beginnings()
    with open(table, "rb") as file:
        begun = file.read(max(map(len, beginnings)))
    return begun != b"" and not begun.startswith(beginnings)


class Table:
    """Rows, which are printed as they come, and at the end are written to files where the words name some. What is
    printed is for a terminal: signs of a name that steer one are escaped, and a file has the name as it is."""

    def __init__(self, form: Form, files: Sequence[str], options: argparse.Namespace, stream: TextIO) -> None:
        self._form, self._printed, self._tables = form, Printed(stream), tables_of(options)
        self._width = max([4, *(len(readable(file)) for file in files)])
        self.rows: List[Row] = []
        self._print(dict(zip(form.names, form.names)))

    def _print(self, row: Row) -> None:
        """Prints a line of the table."""
        first, *names = self._form.printed
        widths = [5 if name in ("block", "jobs") else max(9, len(name)) for name in names]
        texts = ["-" if row.get(name, "") is None else _cell(row.get(name)) for name in names]
        cells = " ".join(f"{text:>{width}}" for text, width in zip(texts, widths))
        self._printed(f"{readable(row[first]):<{self._width}} {cells}".rstrip() + "\n")

    def add(self, row: Row) -> None:
        """Takes the next row."""
        self.rows.append(row)
        self._print(row)

    def end(self) -> None:
        """Prints the last line, and writes the files."""
        self._print(self._form.last(self.rows))
        self.write()

    def write(self) -> None:
        """Writes the files. OSError where that fails, or where what was printed is lost."""
        for _, table in self._tables:
            if is_other(self._form, table):
                raise FileExistsError(errno.EEXIST, OTHER, table)
        for kind, table in self._tables:
            text = _WRITERS[kind](self._form, self.rows)
            save(table, text.encode("utf-8", "backslashreplace"), is_behind=True)
        self._printed.test()

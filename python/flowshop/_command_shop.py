"""The command `shop`: the benchmark text of a table. Other commands take tables by its words too."""

import argparse
import sys
from dataclasses import fields
from pathlib import Path
from typing import Any, Dict, Optional

from ._answers import CHOICES, Answers, with_answers
from ._errors import readable
from ._files import WordError, refuse_read
from ._reading import Reading, kept_of, reading_of, settings_of, text_kept
from ._saving import save
from ._streams import print_page
from ._waiting import Lines

_ABOUT = {
    "begin": ("ROW", "the row of the table's first line"),
    "separator": ("SIGN", "the sign between two fields"),
    "header": ("", "whether the first row has names"),
    "first": ("", "what the first column has"),
    "rows": ("", "what the rows are"),
    "totals": ("", "what becomes of totals"),
    "decimal": ("", "the decimal sign"),
    "missing": ("", "what a cell without a time stands for"),
    "skip": ("NAMES", "columns and jobs that are left out, with commas between them"),
    "keep": ("NAMES", "columns that are machines, though they may look like something else"),
    "multiply": ("NAMES", "the column of quantities, where times are for one piece"),
    "unit": ("LENGTH", "how long one unit of the table is, as 1min, 15min or 1h"),
    "trust": ("", "which holds where the headings and --unit differ"),
}


def words(parsers: "argparse._SubParsersAction[argparse.ArgumentParser]") -> None:
    """The words of the command."""
    parser = parsers.add_parser("shop", help="make a benchmark text of a table", description=_DESCRIPTION)
    words_of_table(parser)
    parser.add_argument("--out", metavar="FILE", help="the file to write; left out, standard output")
    parser.set_defaults(run=run)


_DESCRIPTION = """Makes a benchmark text of a table with a row for each job and a column for each machine: CSV, JSON, a
matrix with blanks, or a workbook. All that is in doubt or wrong is said at once, with the word that settles it. Words
that were said are kept in a file beside the table, and taken the next time."""


def words_of_table(parser: argparse.ArgumentParser) -> None:
    """The words for a table."""
    parser.add_argument("table", metavar="TABLE", help="the file of the table")
    for name, (metavar, about) in _ABOUT.items():
        if name in CHOICES:
            parser.add_argument(f"--{name}", choices=CHOICES[name], help=about)
        else:
            parser.add_argument(f"--{name}", metavar=metavar, type=int if name == "begin" else str, help=about)
    about = "the file that keeps what was said; else TABLE.flowshop.toml"
    parser.add_argument("--settings", metavar="FILE", help=about)


def settings_file(options: argparse.Namespace) -> Optional[Path]:
    """The file that keeps what was said; None of a table that is no file. WordError where one is named that is not
    there."""
    if options.settings is None:
        return settings_of(options.table)
    if not Path(options.settings).exists():
        raise WordError(f"--settings is {options.settings}, and there is no such file")
    return Path(options.settings)


def given_words(options: argparse.Namespace) -> Dict[str, Any]:
    """The words that were said of the table."""
    found = {field.name: getattr(options, field.name) for field in fields(Answers)}
    return {name: value for name, value in found.items() if value is not None}


def read(options: argparse.Namespace, kept: Dict[str, Any], needs_unit: bool = False) -> Reading:
    """The table of the words, with what a file has kept. What was said is kept there where the table is taken."""
    path, said = settings_file(options), given_words(options)
    reading = reading_of(options.table, said, kept, needs_unit)
    lines = Lines(sys.stderr)
    lines.keep(reading.said())
    if said and path is not None:
        before = text_kept(path)
        after = with_answers(options.table, before, reading.answers)
        if after != before:
            save(path, after.encode("utf-8", "replace"))
            lines.keep(f"what was said is kept in {readable(path)}")
    return reading


def run(options: argparse.Namespace) -> int:
    """Writes the benchmark text. WordError where it would replace a file that is read."""
    settings = settings_file(options)
    if options.out is not None:
        refuse_read(options.out, ((options.table, "table"), (settings, "answers")), "shop")
    text = read(options, kept_of(settings)).shop._text(0, 0, 0)
    if options.out is None:
        print_page(text)
    else:
        save(options.out, text)
    return 0

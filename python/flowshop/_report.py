"""The command `report`: a schedule as one file of HTML, with names, a picture, and a sheet for each machine."""

import argparse
import sys
from typing import List, Optional

from ._errors import NotASequence, NotLawful, OptionError, TextError, counted, found_in, readable, shown
from ._files import WordError, refuse_read
from ._results import Certificate, require_suffix
from ._sequences import Jobs
from ._shop import Shop
from ._streams import print_page
from ._texts import is_certificate, order_of, sequence_of


def words(parsers: "argparse._SubParsersAction[argparse.ArgumentParser]") -> None:
    """Adds the command and its words."""
    parser = parsers.add_parser(
        "report",
        help="write a schedule as one file of HTML, for screen and paper",
        description="Writes a schedule as one file of HTML: the order of the jobs, what is proved of it, when each "
        "machine works and is idle, a picture, and a sheet for each machine with start and end of each job. Names and "
        "unit are those that the command shop keeps in the file of the shop.",
        epilog="example: python3 -m flowshop report shop.txt 1 certificate --start 07:30 --unit 1min --out report.html",
    )
    parser.add_argument("shop", metavar="SHOP", help="the file of the shop, a benchmark text")
    parser.add_argument("index", metavar="INDEX", nargs="?", help="the block of the file, from 1, if it has several")
    parser.add_argument(
        "text",
        metavar="TEXT",
        nargs="?",
        help="the file of a certificate, which is checked, or of a sequence; left out, a search takes some seconds",
    )
    parser.add_argument("--start", metavar="TIME", help="the time of day when the first job starts, as 07:30")
    unit = "how long one unit of the table is, as 15min, 1h or 30s; else as the names of the machines say, as Saw (min)"
    parser.add_argument("--unit", metavar="LENGTH", help=unit)
    parser.add_argument("--title", help="the title of the report; left out, it names the file of the shop")
    out = "the file to write; left out, standard output, if that is no terminal"
    parser.add_argument("--out", metavar="FILE", help=out)
    parser.set_defaults(run=run)


def _picked(path: str, index: Optional[str]) -> Shop:
    """The shop of a block of a file. OptionError where the index is none of the file."""

    def choose(count: int) -> List[int]:
        has = f"{readable(path)} has {counted(count, 'block')}"
        if index is None and count > 1:
            raise OptionError("INDEX", 0, f"{has}: write the number of one behind it")
        if index is not None and not (index.isdecimal() and 1 <= int(index) <= count):
            raise OptionError("INDEX", 0, f"INDEX is {shown(index)}, and {has}")
        return [int(index or 1)]

    return Shop._picked(path, choose)[0][1].shop


def _order(shop: Shop, text: Optional[bytes]) -> Jobs:
    """The sequence in a text, or that as one of a certificate, which is not checked yet; or else a certificate that is
    searched for."""
    if text is None:
        return shop.certify(work=100, directions=1_000_000)
    if is_certificate(text):
        return Certificate(0, 0, (), text)
    return shop._attained(*sequence_of(text))


def run(options: argparse.Namespace) -> int:
    """Writes the report. OptionError where a word is none, WordError where a page would come to a terminal or replace a
    file that is read; the other errors are those of the calls."""
    if options.out is None and sys.stdout.isatty():
        raise WordError("a report is a page for a browser, and this is a terminal: write --out report.html")
    index, text = options.index, options.text
    if index is not None and text is None and not index.isdecimal():
        index, text = None, index
    if options.out is not None:
        require_suffix(options.out, "report")
        refuse_read(options.out, ((options.shop, "shop"), (text, "certificate or the sequence")), "report")
    shop = _picked(options.shop, index)
    title = options.title or f"Schedule of {options.shop}{f', block {index}' if index not in (None, '1') else ''}"
    given = None if text is None else order_of(text)
    try:
        report = shop.report(_order(shop, given), start=options.start, unit=options.unit, title=title)
    except (NotASequence, NotLawful, TextError) as error:
        raise found_in(text, error) from None
    if options.out is None:
        print_page(report.encode("utf-8", "replace"))
    else:
        report.save(options.out)
    return 0

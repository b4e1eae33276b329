"""The command check: it tests the certificates of blocks."""

import argparse
import os
import sys
from typing import Optional

from ._errors import FlowshopError
from ._files import PROVED, WordError, Work, row_of, whole_of, words_of_blocks, works_of
from ._library import LIMITS
from ._options import OF_PARTS
from ._results import Certificate
from ._rows import Table, tables_of
from ._waiting import Lines


def words(parsers: "argparse._SubParsersAction[argparse.ArgumentParser]") -> None:
    """The words of the command."""
    about = "Tests the certificates of all blocks of files, as certify wrote them, and prints what each proves."
    parser = parsers.add_parser("check", help="test certificates", description=about)
    words_of_blocks(parser)
    optimal = "refuse each text that does not prove a least makespan: one whose bounds differ"
    parser.add_argument("--optimal", action="store_true", help=optimal)
    most = f"refuse each counted certificate of more nodes before its search; else of more than {LIMITS.max_nodes:,}"
    parser.add_argument("--most", type=int, default=LIMITS.max_nodes, metavar="N", help=most)
    workers = "how many threads share the search of each counted certificate; else 1, and for -1 as many as there are "
    workers += "processors"
    parser.add_argument("--workers", type=int, default=1, metavar="K", help=workers)
    parser.set_defaults(run=run)


def _found(work: Work, is_optimal: bool, most: int, workers: int) -> Certificate:
    """What the certificate of a block proves. FlowshopError where it is not lawful, or is to prove a least makespan and
    does not; OSError where it is not read."""
    found = work.shop.check(work.path, most=most, workers=workers)
    if is_optimal and not found.optimal:
        raise FlowshopError("BOUNDS", 0, f"refused bounds {found.lower} {found.upper}")
    return found


def _worth(work: Work, found: Certificate) -> Optional[str]:
    """What is to be said of bounds that differ, where no search has raised the lower one."""
    if found.optimal:
        return None
    simple = work.shop.bound()
    if found.lower > simple:
        return None
    if found.lower == simple:
        return f"its lower bound of {simple} takes no search, and certify may prove a higher one"
    less = f"its lower bound is {found.lower}, and {simple} takes no search"
    return f"{less}; remove this file, and certify writes one that proves so much"


def run(options: argparse.Namespace) -> int:
    """Runs the command. Its status is 1 where a certificate is refused, or not there; then no file of a table is
    written, so that none lacks a row."""
    most = whole_of("most", options.most, OF_PARTS)
    workers = options.workers if options.workers == -1 else whole_of("workers", options.workers, OF_PARTS)
    works = works_of(options)
    if not os.path.isdir(options.out):
        raise WordError(f"--out is {options.out}, and there is no such folder")
    table, lines = Table(PROVED, options.files, options, sys.stdout), Lines(sys.stderr)
    status = 0
    for work in works:
        try:
            found = _found(work, options.optimal, most, workers)
            table.add(row_of(work, found))
            worth = _worth(work, found)
            if worth:
                lines.keep(f"{work.path}: {worth}")
        except FileNotFoundError:
            lines.keep(f"{work.path}: it is not there; --out names the folder, and certify gives the files these names")
            status = 1
        except (FlowshopError, OSError) as error:
            lines.keep(f"{work.path}: {error}")
            status = 1
    if status == 0:
        table.end()
        return 0
    for _, path in tables_of(options):
        lines.keep(f"{path}: it is not written, since a row would be missing")
    return status

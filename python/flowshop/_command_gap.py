"""The command gap: how far given sequences are from known bounds."""

import argparse
import os
import sys
from typing import Optional, Sequence, Tuple

from ._errors import NotLawful, found_in
from ._files import WordError, Work, percent, works_of
from ._rows import Form, Row, Table, columns, words_of_tables
from ._starts import sequences_of
from ._waiting import Lines

_ABOUT = """Prints the makespan of each given sequence beside the bounds of its block, which are those that the head of
the block states, and nothing tests, or those of certificates, which are checked. The gap is (makespan - lower) /
makespan, the deviation (makespan - upper) / upper, both in percent. The last line has their means."""


def _means(rows: Sequence[Row]) -> Row:
    """The last line of a table: the means of what is known."""
    known = {name: columns(rows, name) for name in ("gap", "deviation")}
    return {"file": "mean", **{name: sum(each) / len(each) if each else None for name, each in known.items()}}


_PRINTED = "file block jobs machines makespan lower upper gap deviation"
_GAPS = Form(
    ("file", "block", "seed", "jobs", "machines", "makespan", "lower", "upper", "gap", "deviation", "sequence"),
    tuple(_PRINTED.split()), _means,
)


def words(parsers: "argparse._SubParsersAction[argparse.ArgumentParser]") -> None:
    """The words of the command."""
    parser = parsers.add_parser("gap", help="compare sequences with known bounds", description=_ABOUT)
    parser.add_argument("file", metavar="FILE", help="a benchmark text")
    given = "a file with a line of jobs for each block, or with several lines where there is one block; or a folder "
    given += "with a file for each block, named as its certificate"
    parser.add_argument("sequences", metavar="SEQUENCES", help=given)
    parser.add_argument("--blocks", default="all", metavar="all|1,3-5", help="which blocks of the file; else all")
    parser.add_argument("--certificates", metavar="DIR", help="a folder of certificates, whose bounds are taken")
    words_of_tables(parser)
    parser.set_defaults(run=run)


def _bounds(work: Work, has_certificates: bool) -> Tuple[Optional[int], Optional[int]]:
    """The bounds that are known of a block. NotLawful where its certificate is refused, OSError where it is not
    read."""
    if not has_certificates:
        return work.head.lower or None, work.head.upper or None
    try:
        found = work.shop.check(work.path)
    except NotLawful as error:
        raise found_in(work.path, error) from None
    return found.lower, found.upper


def _row(work: Work, sequence: bytes, lower: Optional[int], upper: Optional[int]) -> Row:
    """The row of a sequence of a block with these bounds."""
    makespan = work.shop._makespan(sequence)
    return {
        "file": work.file, "block": work.block, "seed": work.head.seed,
        "jobs": work.shop.jobs, "machines": work.shop.machines,
        "makespan": makespan, "lower": lower, "upper": upper,
        "gap": None if lower is None else percent(makespan - lower, makespan),
        "deviation": None if upper is None else percent(makespan - upper, upper),
        "sequence": memoryview(sequence).cast("H").tolist(),
    }


def run(options: argparse.Namespace) -> int:
    """Runs the command."""
    folder = options.certificates
    if folder is not None and not os.path.isdir(folder):
        raise WordError(f"--certificates is {folder}, and there is no such folder")
    options.files, options.out = [options.file], folder or os.curdir
    works = works_of(options, _GAPS)
    given = sequences_of(works, options.sequences, "SEQUENCES", may_be_many=True)
    bounds = [_bounds(work, folder is not None) for work in works]
    table, lines = Table(_GAPS, options.files, options, sys.stdout), Lines(sys.stderr)
    of_work = {work.block: each for work, each in zip(works, bounds)}
    if options.blocks != "all" and len(works) == 1 < len(given):  # the file may have one for each block
        lines.keep(f"block {works[0].block}: all {len(given)} sequences are compared with its bounds")
    for work, (lower, upper) in zip(works, bounds):
        if lower is None and upper is None:
            lines.keep(f"block {work.block} states no bounds; --certificates names a folder that has some")
    for work, sequence in given:
        row = _row(work, sequence, *of_work[work.block])
        table.add(row)
        if row["lower"] is not None and row["makespan"] < row["lower"]:
            said = f"the makespan {row['makespan']} is below the lower bound {row['lower']}, which the file states"
            lines.keep(f"block {work.block}: {said}")
    table.end()
    return 0

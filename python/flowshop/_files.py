"""Blocks of files that a command is given, the texts of their certificates, and the table of what these prove."""

import argparse
import hashlib
import os
import re
import tempfile
from functools import partial
from pathlib import Path
from typing import Collection, Dict, Iterable, List, NamedTuple, Optional, Sequence, Tuple, Union

from ._errors import OptionError, readable
from ._options import RANGES, option
from ._results import Certificate
from ._rows import OTHER, Form, Row, columns, is_other, is_replaced, rounded, tables_of, words_of_tables
from ._saving import names_folder, save, stream_of, target_of
from ._shop import Block, Shop

# How the names of certificates end, and of texts that these replaced.
_OF_CERTIFICATE = re.compile(r"\.certificate(\.old(\.\d+)?)?$")


class WordError(Exception):
    """What is wrong with the words of a command."""


class Work(NamedTuple):
    """A block of a file, what its head says, and the path of its certificate."""

    file: str
    block: int
    head: Block
    path: Path

    @property
    def shop(self) -> Shop:
        """The shop of the block."""
        return self.head.shop


def _sums(rows: Sequence[Row]) -> Row:
    """The last line of a table: how many blocks there are, how many of them are proved, and what adds up, where it is
    known of each block. Seconds are added as they are shown."""
    added = {name: columns(rows, name) for name in ("directions", "cpu_seconds", "seconds")}
    sums = {name: sum(map(rounded, known)) if len(known) == len(rows) else None for name, known in added.items()}
    return {"file": "sum", "block": len(rows), "optimal": sum(columns(rows, "optimal")), **sums}


_PRINTED = "file block jobs machines lower upper gap optimal directions cpu_seconds seconds sha256"
# The table of what certificates prove.
PROVED = Form(
    ("file", "block", "seed", "jobs", "machines", "lower", "upper", "gap", "optimal", "kind", "directions", "sequence",
     "cpu_seconds", "seconds", "sha256"),
    tuple(_PRINTED.split()), _sums,
)


def percent(part: int, whole: int) -> float:
    """How much of a whole a part is, in percent."""
    return 100.0 * part / whole if part else 0.0


def row_of(work: Work, found: Certificate, times: Tuple[Optional[float], Optional[float]] = (None, None)) -> Row:
    """What a certificate proves of a block: the gap is (upper - lower) / upper, in percent; `kind` is how the text
    begins, and `directions` how many there are, where the text has signs or their number. The times are the seconds of
    the processor and by the clock in which it was found, where that was now."""
    kind = found.text.split(b"\n", 1)[0].decode().partition(" ")[2]
    return {
        "file": work.file, "block": work.block, "seed": work.head.seed,
        "jobs": work.shop.jobs, "machines": work.shop.machines,
        "lower": found.lower, "upper": found.upper, "gap": percent(found.upper - found.lower, found.upper),
        "optimal": found.optimal, "kind": kind,
        "directions": found.count,
        "sequence": list(found.sequence), "cpu_seconds": times[0], "seconds": times[1],
        "sha256": hashlib.sha256(found.text).hexdigest(),
    }


def words_of_blocks(parser: argparse.ArgumentParser) -> None:
    """The words of a command that takes blocks of files."""
    parser.add_argument("files", metavar="FILE", nargs="+", help="a benchmark text")
    parser.add_argument("--blocks", default="all", metavar="all|1,3-5", help="which blocks of each file; else all")
    parser.add_argument("--out", default=".", metavar="DIR", help="the folder of the certificates; else this one")
    words_of_tables(parser)


def _numbers(words: str, file: str, count: int) -> Collection[int]:
    """The numbers of the blocks that words name, of a file with so many. WordError where it has no such block."""
    if words == "all":
        return range(1, count + 1)
    numbers: Dict[int, None] = {}
    for word in words.split(","):
        found = re.fullmatch(r"([0-9]{1,9})(?:-([0-9]{1,9}))?", word)
        if not found:
            raise WordError(f"--blocks is {words}, and has to be all, or numbers such as 1,3-5")
        first, last = int(found[1]), int(found[2] or found[1])
        if not 1 <= first <= last <= count:
            order = "; write the smaller number first" if 1 <= last < first <= count else ""
            blocks = f"the blocks 1 to {count}" if count > 1 else "1 block"
            raise WordError(f"--blocks has {word}, and {file} has {blocks}{order}")
        numbers.update(dict.fromkeys(range(first, last + 1)))
    return numbers


def _words_of(options: argparse.Namespace) -> List[Tuple[str, str]]:
    """The words that name a file for a table, with that file."""
    return [(f"--{kind}", table) for kind, table in tables_of(options)]


def _refuse_same_names(works: List[Work]) -> None:
    """WordError where two blocks would have the same certificate."""
    seen: Dict[Path, Work] = {}
    for work in works:
        other = seen.setdefault(work.path, work)
        if other is not work and os.path.samefile(other.file, work.file):
            raise WordError(f"{work.file} is given twice")
        if other is not work:
            clash = f"{other.file} and {work.file} would have the certificate {work.path}"
            raise WordError(f"{clash}; give each a run with a folder --out of its own")


def _refuse_no_place(options: argparse.Namespace) -> None:
    """WordError where the file of the table could not be written at the end: it has no name, or is a folder, or stands
    in none, nor in one that is made for the certificates, or in one without leave. OSError where a link of another user
    leads there."""
    made = os.path.join(os.path.realpath(options.out), "")
    for word, table in _words_of(options):
        folder = os.path.dirname(os.path.realpath(table))
        if not table:
            raise WordError(f"{word} is empty, and has to be the name of a file")
        if os.path.isdir(table) or names_folder(table):
            raise WordError(f"{word} is {table}, which is a folder, and has to be a file")
        has_folder = os.path.isdir(folder) or os.path.exists(table)  # an open file may have none that is seen here
        if not has_folder and not made.startswith(os.path.join(folder, "")):
            raise WordError(f"{word} is {table}, and there is no folder {folder}")
        if stream_of(table) is None:
            target_of(table)
        if is_replaced(table):
            _refuse_no_leave(word, table, folder)


def _refuse_no_leave(word: str, table: str, folder: str) -> None:
    """WordError where a table would replace a file, and that may not be done."""
    if os.path.isdir(folder) and not os.access(folder, os.W_OK | os.X_OK):
        raise WordError(f"{word} is {table}, and you may not write in the folder {folder}; name a file of another")
    if os.path.exists(table) and not os.access(table, os.W_OK):
        raise WordError(f"{word} is {table}, a file that you may not write; name another one")


def _refuse_to_overwrite(works: List[Work], options: argparse.Namespace) -> None:
    """WordError where a file would be written that is read, or a table in the place of a certificate."""
    read = {os.path.realpath(file) for file in options.files}
    certificates = {os.path.realpath(work.path): work for work in works}
    for path, work in certificates.items():
        if path in read or stream_of(str(work.path)) is not None:
            where = f"{work.path}, a file that is {'read' if path in read else 'open'}"
            sentence = f"the certificate of block {work.block} of {work.file} would be {where}"
            raise WordError(f"{sentence}; give --out another folder")
    for word, table in _words_of(options):
        path = os.path.realpath(table)
        if table == "-":
            raise WordError(f"{word} is -, and has to be a file; the table is printed anyway")
        if path in read or path in certificates or _OF_CERTIFICATE.search(path):
            what = "a file that is read" if path in read else "a file for a certificate"
            raise WordError(f"{word} is {table}, {what}; the table has to have a file of its own")


def _refuse_other(options: argparse.Namespace, form: Form) -> None:
    """WordError where a table would replace a file that is no such table, or another table of the same run."""
    seen: Dict[str, str] = {}
    for kind, table in tables_of(options):
        if is_other(form, table):
            raise WordError(f"--{kind} is {table}, {OTHER}; name another file, or remove this one")
        other = seen.setdefault(os.path.realpath(table), kind)
        if other != kind and is_replaced(table):
            raise WordError(f"--{kind} and --{other} are one file, {table}; give each a file of its own")


def whole_of(name: str, value: int, ranges: Dict[str, Tuple[int, int]] = RANGES) -> int:
    """The number of a word. WordError where it is not within its limits."""
    try:
        return option(name, value, ranges)
    except OptionError as error:
        raise WordError(f"--{error}") from None


def limit_of(options: argparse.Namespace) -> Optional[float]:
    """The number of --time-limit, or None. WordError where it is no number of seconds."""
    limit: Optional[float] = options.time_limit
    if limit is not None and not limit >= 0:
        raise WordError(f"--time-limit is {limit:g}, and has to be a number of seconds from 0 on")
    return limit


def _are_one(path: Union[str, Path], other: str) -> bool:
    """Whether two names are those of one file, which need not be there."""
    if os.path.exists(path) and os.path.exists(other):
        return os.path.samefile(path, other)
    return os.path.realpath(path) == os.path.realpath(other)


def refuse_read(out: str, read: Iterable[Tuple[Union[str, Path, None], str]], what: str) -> None:
    """WordError where --out, the file for this, is a folder, or one of the files that are read, each with what it is
    the file of."""
    if os.path.isdir(out) or names_folder(out):
        raise WordError(f"--out is {readable(out)}, which is a folder, and has to be a file")
    for path, kind in read:
        if path is not None and _are_one(path, out):
            raise WordError(f"--out {readable(out)} is the file of the {kind}: give the {what} another name")


def refuse_out(out: str) -> None:
    """WordError where what is to be the folder for files is a file, or a folder without leave to enter."""
    if os.path.exists(out) and not os.path.isdir(out):
        raise WordError(f"--out is {out}, which is a file, and has to be a folder")
    if os.path.isdir(out) and not os.access(out, os.X_OK):
        raise WordError(f"--out is {out}, a folder that you may not enter; name another one")


def works_of(options: argparse.Namespace, form: Form = PROVED) -> List[Work]:
    """The blocks that the words name, in their order. TextError or OSError where a file is not read, WordError where
    one would be overwritten, or none could be written, or a word is none. Tables are of this form."""
    refuse_out(options.out)
    works = []
    for file in options.files:
        if re.fullmatch("[1-9][0-9]*", file) and not Path(file).exists():
            raise WordError(f"there is no file {file}; --blocks {file} is block {file} of the files")
        for number, block in Shop._picked(file, partial(_numbers, options.blocks, file)):
            path = Path(options.out, f"{Path(file).name}.{number}.certificate")
            works.append(Work(file, number, block, path))
    _refuse_same_names(works)
    _refuse_no_place(options)
    _refuse_to_overwrite(works, options)
    _refuse_other(options, form)
    return works


def make_folder(out: str) -> None:
    """Makes the folder of the certificates, where it is not there. WordError where no file can be made in it."""
    try:
        os.makedirs(out, exist_ok=True)
        tempfile.TemporaryFile(dir=out).close()
    except OSError as error:
        why = f"where no file can be written: {error.strerror}"
        raise WordError(f"--out is {out}, {why}; name a folder that you may write in") from None


def place_of_old(path: Path) -> Path:
    """Where the text of a file is kept that is replaced: NAME.old, or the first of NAME.old.2, .. that is not there."""
    old, number = path.with_name(f"{path.name}.old"), 1
    while os.path.lexists(old):
        number += 1
        old = path.with_name(f"{path.name}.old.{number}")
    return old


def _keep_old(path: Path) -> None:
    """Keeps the text of a file under a second name too, which stays when the file is replaced."""
    there = target_of(str(path))
    try:
        os.link(there, place_of_old(path))
    except FileExistsError:  # another process has just taken this name
        _keep_old(path)
    except OSError:  # a system where a file has one name, or the one that a link names
        save(place_of_old(path), path.read_bytes())


def save_certificate(path: Path, text: bytes) -> None:
    """Writes the file of a certificate. Another text that is there is kept beside it."""
    if path.is_file() and (path.stat().st_size != len(text) or path.read_bytes() != text):
        _keep_old(path)
    save(path, text)

"""Texts as they are given and written: certificates, and files of shops."""

import ctypes
import io
import mmap
import os
import re
import resource
from codecs import BOM_UTF8
from itertools import chain, islice
from typing import Callable, Collection, Dict, Iterable, Iterator, List, Optional, Tuple, Union

from ._errors import NotLawful, TextError, readable, shown
from ._labels import Label, Labels, Unit, read_labels
from ._library import LIMITS, BlockRoom, Refused, TextRoom, call, u8, u32
from ._results import Certificate, Names, Path

# What is taken for a text. A str is the text itself, and no path.
Text = Union[bytes, bytearray, memoryview, str, "os.PathLike[str]", Certificate]
# Memory of which no page is reserved before it is written. Older versions of Python have no name for it.
_NO_RESERVE = getattr(mmap, "MAP_NORESERVE", 0x4000)
_LEAST_ROOM = 1 << 16
# The most bytes of a file that is read: of a benchmark text or a sequence, and of a certificate. They are those of the
# program (docs/manual.md).
MOST_TEXT: int = LIMITS.max_text
MOST_CERTIFICATE: int = LIMITS.max_certificate
_TOO_LONG = "TOO_LONG"
# How many bytes are read at once where a file does not say how many it has.
_PIECE = 1 << 16
# What every certificate begins with.
_BEGIN = b"flowshop "
# An index that no text has a block for, since one takes more than a byte.
_NO_BLOCK = 2**32 - 1
_CERTIFICATE = re.compile(rb"flowshop (certificate|two-ended|counted) ")
_LABEL_LINE = re.compile(rb"^[ \t\r]*[^ \t\r\n0-9]", re.MULTILINE)


def _room(wanted: int) -> mmap.mmap:
    """Memory for so many bytes; for fewer where the system has no addresses for them. A page of it is used only when it
    is written."""
    limit = resource.getrlimit(resource.RLIMIT_AS)[0]
    if limit != resource.RLIM_INFINITY:
        wanted = min(wanted, limit // 2)
    while wanted >= _LEAST_ROOM:
        try:
            return mmap.mmap(-1, wanted, flags=mmap.MAP_PRIVATE | mmap.MAP_ANONYMOUS | _NO_RESERVE)
        except OSError:
            wanted //= 2
    raise MemoryError("flowshop: memory ran out")


def written(most: int, write: Callable[[TextRoom], None]) -> bytes:
    """The text that a call writes, which has at most so many bytes. MemoryError where there is no room for it."""
    memory = _room(max(most, _LEAST_ROOM))
    text = TextRoom(ctypes.pointer(u8.from_buffer(memory)), len(memory))
    try:
        write(text)
    except Refused as refused:
        if refused.name != "ROOM":
            raise
        raise MemoryError(f"flowshop: there is no room for a text of {refused.place:,} bytes") from None
    return memory[: text.length]


def _read(path: Path, most_of: Callable[[bytes], int]) -> Optional[bytes]:
    """The bytes of a file. None where there are more than it may have, by how it begins; no more of them is read."""
    with open(os.fspath(path), "rb", buffering=0) as file:  # TypeError of a number, which open takes for a stream
        stated, begun = os.fstat(file.fileno()).st_size, file.read(len(_BEGIN))
        most = most_of(begun)
        if stated > most:
            return None
        if stated:  # it is read as a whole
            file.seek(0)
            begun = file.read(stated)
        text = io.BytesIO(begun)
        text.seek(0, io.SEEK_END)
        while text.tell() <= most and (piece := file.read(_PIECE)):
            text.write(piece)
    return text.getvalue() if text.tell() <= most else None


def _too_long(path: Path, most: int, what: str) -> str:
    """What is said of a file that has more bytes than it may have."""
    return f"{readable(path)} has more than {most:,} bytes, and a {what} has at most so many"


def is_certificate(text: bytes) -> bool:
    """Whether a text begins as certificates do, also behind blanks, which no lawful one has."""
    return text.split(None, 1)[:1] == [_BEGIN.strip()]


def order_of(path: Path) -> bytes:
    """The bytes of a file that is a certificate or a sequence. OSError where it is not read, TextError where it is too
    long."""
    found = MOST_TEXT, "sequence"

    def most_of(begun: bytes) -> int:
        nonlocal found
        if _BEGIN.startswith(begun):
            found = MOST_CERTIFICATE, "certificate"
        return found[0]

    text = _read(path, most_of)
    if text is None:
        raise TextError(_TOO_LONG, 0, _too_long(path, *found))
    return text


def bytes_of(path: Path, what: str, most: int = MOST_TEXT) -> bytes:
    """The bytes of a file that is read as this. TextError where there are more than it may have: else as many as a
    benchmark text."""
    text = _read(path, lambda _: most)
    if text is None:
        raise TextError(_TOO_LONG, 0, _too_long(path, most, what))
    return text


def text_of(given: Text) -> bytes:
    """The bytes of a text. OSError where a file is not read, NotLawful where it is too long, TypeError where it is no
    text."""
    if isinstance(given, Certificate):
        return given.text
    if isinstance(given, bytes):
        return given
    if isinstance(given, str):
        return given.encode("utf-8", "replace")
    if isinstance(given, (bytearray, memoryview)):
        return bytes(given)
    if isinstance(given, os.PathLike):
        text = _read(given, lambda _: MOST_CERTIFICATE)
        if text is None:
            raise NotLawful(_TOO_LONG, 0, _too_long(given, MOST_CERTIFICATE, "certificate"))
        return text
    raise TypeError(f"a text is bytes, a str, a path or a Certificate, and this is {shown(given)}")


_CHANGED = "the text was cut off or changed, or is of another shop"
# What is wrong with a certificate, by the name of the status, and which line is at fault where it is always the same.
# {line} is its number, {text} the line; {jobs} and {machines} are those of the shop.
_UNLAWFUL: Dict[str, Tuple[int, str]] = {
    "HEADER": (1, "line 1 is {text}, and has to name a certificate, as in 'flowshop two-ended 1'"),
    "SIZE": (2, "line 2 is {text}, which is not of a shop with jobs {jobs} and machines {machines}"),
    "VALUE": (3, "line 3 is {text}, and has to be the value that is proved, or both bounds"),
    "COUNT": (5, "line 5 is {text}, and has to be how many nodes the search opens"),
    "MOST": (5, "line 5 is {text}, how many nodes the search opens, and this check opens {most:,} at most; "
             "check(text, most=N), or --most N of the command check, allows more, and takes longer"),
    "SEQUENCE": (4, "line 4 is {text}, and has to have each job from 1 to {jobs} once"),
    "NOT_ATTAINED": (4, f"line 4 is {{text}}, a sequence of another makespan than line 3 says; {_CHANGED}"),
    "TREE": (0, f"line {{line}} is {{text}}, which is not one whole proof; {_CHANGED}"),
    "NODES": (5, f"line 5 is {{text}}, and the search below the lower bound opens more nodes or fewer; {_CHANGED}"),
    "WEAK": (0, f"line {{line}} has a bound that is below the value; {_CHANGED}"),
    "LOW": (0, f"line {{line}} leads to a makespan that is below the value; {_CHANGED}"),
    "MET": (5, f"line 5 is {{text}}, but the search below the lower bound meets a sequence below it; {_CHANGED}"),
    "END": (0, "what follows the last tree, the directions or the number of nodes is not the line 'end' alone"),
}
# The first line of a counted certificate, and the first lines up to its bounds.
_COUNTED = b"flowshop counted 1\n"
# What is said of one in the place of a fault of directions.
_OF_COUNTED = {"TREE": "NODES", "LOW": "MET"}
_COUNTED_BOUNDS = re.compile(_COUNTED + rb"[^\n]*\n([0-9]+) ([0-9]+)\n")


def _begin_of(text: bytes, number: int) -> int:
    """Where a line of a text begins, counted from 1."""
    begin = 0
    for _ in range(number - 1):
        begin = text.index(b"\n", begin) + 1
    return begin


def _line(text: bytes, number: int) -> str:
    """A line of a text, as it stands in a sentence."""
    if not 1 <= number <= _count_of_lines(text):
        return "missing"
    begin = _begin_of(text, number)
    return shown(text[begin : begin + 80].split(b"\n", 1)[0].decode("utf-8", "replace"))


def _count_of_lines(text: bytes) -> int:
    """How many lines a text has. The bytes after the last end of a line are one."""
    return text.count(b"\n") + (not text.endswith(b"\n") if text else 0)


def _has_bounds(text: bytes) -> bool:
    """Whether a text is a counted certificate up to its bounds."""
    found = _COUNTED_BOUNDS.match(text)
    return found is not None and all(str(int(bound[:21])).encode() == bound and int(bound) < 2**64
                                     for bound in found.groups())


def is_counted(text: bytes) -> bool:
    """Whether a text is read as a counted certificate."""
    return text.startswith(_COUNTED)


def not_lawful(refused: Refused, given: Text, text: bytes, jobs: int, machines: int, most: int) -> NotLawful:
    """The refusal of a text that is no certificate of a shop of these sizes, or has more than the most nodes."""
    fault = "COUNT" if refused.name == "VALUE" and _has_bounds(text) else refused.name
    only, form = _UNLAWFUL[_OF_COUNTED.get(fault, fault) if is_counted(text) else fault]
    line = refused.place or only
    sentence = form.format(line=line, text=_line(text, line), jobs=jobs, machines=machines, most=most)
    if isinstance(given, str) and b"\n" not in text:
        sentence += "; a str is the text itself, and a file is named by pathlib.Path"
    return NotLawful(refused.name, line, sentence)


# The lines of a sequence, as the program prints them, and what each has to be.
_SEQUENCE = re.compile(rb"[ \t\r]*sequence((?:[ \t\r]+[0-9]+)+)[ \t\r]*")
_MAKESPAN = re.compile(rb"[ \t\r]*makespan[ \t\r]+([0-9]+)[ \t\r]*")
_NOTHING = re.compile(rb"()")
_NUMBERS = re.compile(rb"[ \t\r0-9]+")
# Of a number that is too great for a job so many digits are read.
_DIGITS = 12
_PLAIN = re.compile(rb"[ \t\r\n,]*[0-9][ \t\r\n,0-9]*")
# Each with the greatest number that it may have.
_SEQUENCE_LINES = [
    (_SEQUENCE, LIMITS.max_job, "the word sequence and the numbers of the jobs"),
    (_MAKESPAN, LIMITS.max_number, "the word makespan and a number"),
]


def _first_of_orders(line: bytes) -> str:
    """What the first line of a text has to be that is neither a certificate nor a sequence."""
    numbers = " ".join(line.decode().split()) if _NUMBERS.fullmatch(line) else "3 1 2 .."
    return f"that of a certificate, such as 'flowshop two-ended 1', or the line {shown(f'sequence {numbers}')}"


def start_of(text: bytes) -> Tuple[List[int], Optional[int], int]:
    """The same as `sequence_of` gives, also of a text that has the numbers of the jobs alone, with blanks or commas
    between them."""
    if _PLAIN.fullmatch(text):
        words = (word.lstrip(b"0") or b"0" for word in re.findall(rb"[0-9]+", text))
        return [int(word[:_DIGITS]) for word in words], None, 1
    try:
        return sequence_of(text)
    except TextError as error:
        first = text.lstrip(b" \t\r\n").partition(b"\n")[0]
        is_none = error.place and not _SEQUENCE.match(first)
        advice = ", or the numbers of the jobs alone, as '3 1 2 ..'" if is_none else ""
        if _PLAIN.fullmatch(first):
            advice = ", since words follow"
        raise TextError(error.name, error.place, f"{error}{advice}") from None


def sequence_of(text: bytes) -> Tuple[List[int], Optional[int], int]:
    """The jobs that a text of a sequence has; and the makespan that it states, if it does, with its line. TextError
    with the first line that has another form."""
    numbered = ((number, line.rstrip(b"\n")) for number, line in enumerate(io.BytesIO(text), 1))
    lines = list(islice(((number, line) for number, line in numbered if line.strip(b" \t\r")), 3))
    found, number = [], 0
    for at, (number, line) in enumerate(lines or [(_count_of_lines(text) + 1, b"")]):
        form, most, wanted = _SEQUENCE_LINES[at] if at < 2 else (_NOTHING, 0, "blank")
        match = form.fullmatch(line)
        words = [word.lstrip(b"0") or b"0" for word in match[1].split()] if match else []
        if not match or any(len(word) > 10 or int(word) > most for word in words):
            if at == 0 and line.split()[:1] != [b"sequence"]:
                wanted = _first_of_orders(line)
            raise TextError("SEQUENCE", number, f"line {number} is {_line(text, number)}, and has to be {wanted}")
        found.append([int(word) for word in words])
    return found[0], found[1][0] if len(found) == 2 else None, number


# What is wrong with a line of a benchmark text, by the name of the status.
_MISREAD: Dict[str, str] = {
    "LABEL": "a line of words is wanted before the head of a block, and before its times",
    "BYTE": "a line of numbers has something that is neither a digit nor a blank",
    "NUMBER": f"a number is above {LIMITS.max_number:,}",
    "HEAD": "the head of a block is five numbers: jobs, machines, seed, upper bound and lower bound",
    "LIMITS": f"the jobs have to be 1 to {LIMITS.max_jobs}, the machines 1 to {LIMITS.max_machines}, and each time 0 "
    f"to {LIMITS.max_time:,}",
    "TIMES": "there has to be one time for each job and machine",
}


# What to do with a file that is none.
_CONVERTERS = (
    "python3 -m flowshop shop makes such a file of a table, and examples/from_pairs.awk in the clone one of pairs of "
    "machine and time; in Python read_table takes the table itself"
)
_SHORT = "a row before is short or missing"


def _misread(refused: Refused, path: Path, text: bytes) -> TextError:
    """The refusal of a file that is no benchmark text."""
    file = readable(path)
    if refused.name not in _MISREAD:
        why = "it is empty, or has blanks alone, as where the command that was to write it was refused"
        return TextError(refused.name, refused.place, f"{file} has no block: {why}")
    line, is_over = refused.place, refused.place > _count_of_lines(text)
    fault = f"{file} ends after line {line - 1}" if is_over else f"line {line} of {file} is {_line(text, line)}"
    advice = _CONVERTERS
    if _CERTIFICATE.match(text):
        advice = "this text begins as a certificate does, and the file of the shop is wanted here"
    elif refused.name == "TIMES" and is_over:
        advice = _SHORT
    elif refused.name == "TIMES" and _LABEL_LINE.match(text, _begin_of(text, line)):
        advice = f"{_SHORT}, or this line does not begin with a digit; {_CONVERTERS}"
    return TextError(refused.name, line, f"{fault}: {_MISREAD[refused.name]}; {advice}")


# A block of a benchmark text: its jobs, machines and times, the names of both, the unit of the times, and seed, upper
# and lower bound.
RawBlock = Tuple[int, int, bytes, Optional[Names], Optional[Names], Unit, int, int, int]


def blocks_of(path: Path, choose: Callable[[int], Collection[int]]) -> Iterator[Tuple[int, RawBlock]]:
    """The blocks of a benchmark text in a file whose numbers are chosen, once it is known how many there are, in the
    order of the text, each with its number. TextError with the first fault of the whole text."""
    text = bytes_of(path, "benchmark text")
    chosen = choose(_count_of_blocks(path, text))
    for number, first, second, piece in _pieces(path, text, chosen):
        jobs, machines, times, seed, upper, lower = _block(piece, 1)
        names = read_labels(first, second, jobs, machines)
        yield number, (jobs, machines, times, *names, seed, upper, lower)


def _block(text: bytes, number: int) -> Tuple[int, int, bytes, int, int, int]:
    """A block of a benchmark text, counted from 1."""
    times = (u32 * (LIMITS.max_jobs * LIMITS.max_machines))()
    block = BlockRoom(times=times, times_count=len(times))
    call("block", text, len(text), number, block)
    used = ctypes.string_at(times, 4 * block.jobs * block.machines)
    return block.jobs, block.machines, used, block.seed, block.upper, block.lower


def _count_of_blocks(path: Path, text: bytes) -> int:
    """How many blocks a benchmark text has. TextError where it has a fault."""
    try:
        _block(text, _NO_BLOCK)
    except Refused as refused:
        if refused.name != "INDEX":
            raise _misread(refused, path, text) from None
        return refused.place
    raise AssertionError("a text has no block of the greatest number")


def _pieces(path: Path, text: bytes, chosen: Collection[int]) -> Iterator[Tuple[int, Label, Label, bytes]]:
    """Of each chosen block its number, its label lines and its bytes. The text has no fault, so it has two label lines
    for each block. A byte order mark before the text is left out of the first one."""
    begun = chain((found.start() for found in _LABEL_LINE.finditer(text)), [len(text)])
    counted, line, end = 0, 1, next(begun)
    for number in range(1, max(chosen, default=0) + 1):
        starts = end, next(begun)
        end = next(begun)
        if number in chosen:
            labels = []
            for start in starts:
                line += text.count(b"\n", counted, start)
                label = text[start : text.find(b"\n", start)]
                labels.append(Label(path, line, label if start else label.removeprefix(BOM_UTF8)))
                counted = start
            yield number, labels[0], labels[1], text[starts[0] : end]


def block_text(labels: Labels, rows: List[List[int]], seed: int, upper: int, lower: int) -> str:
    """The benchmark text of a shop with these label lines, of which the rows are those of its machines."""
    lines = [
        labels[0],
        f"{len(rows[0])} {len(rows)} {seed} {upper} {lower}",
        labels[1],
        *(" ".join(map(str, row)) for row in rows),
    ]
    return "".join(f"{line}\n" for line in lines)

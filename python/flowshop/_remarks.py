"""What is in doubt in a table, and what is wrong in it."""

import shlex
from collections import Counter
from typing import Dict, Iterable, Iterator, List, NamedTuple, Tuple

from ._answers import LISTS, Answers, Given, as_text
from ._brief import Brief, BriefABC
from ._errors import FlowshopError, Place, counted, readable

Word = Tuple[str, str]
# How many lines there are of mistakes of one kind, and how many signs of what stands in a cell.
_MOST_MISTAKES, _MOST_SIGNS = 10, 60


class _Remark(NamedTuple):
    """The fields of a remark."""

    row: int
    column: int
    value: str
    why: str
    words: Tuple[Word, ...]


class Remark(_Remark, metaclass=BriefABC):
    """What is in doubt in a table, or wrong: the row and the column, counted from 1, or 0 where it is a whole column or
    row; what stands there; why; and the words of which one settles it, each with its value. There are none of what is
    wrong, which has to be changed in the table.

    >>> str(Remark(0, 2, "Qty", "looks like quantities", (("skip", "Qty"), ("keep", "Qty"))))
    'column 2 (Qty) looks like quantities: --skip Qty, or --keep Qty'
    """

    __slots__ = ()

    def __str__(self) -> str:
        """A line with all of it."""
        return self._line(0)

    def _line(self, more: int) -> str:
        """The same, with how many more there are of its kind."""
        places = [f"{kind} {number}" for kind, number in (("row", self.row), ("column", self.column)) if number]
        value = readable(self.value if len(self.value) <= _MOST_SIGNS else f"{self.value[: _MOST_SIGNS - 2]}..")
        beside = [value] * bool(value) + [f"and {more:,} more of its kind"] * bool(more)
        of_place = f" ({'; '.join(beside)})" if beside else ""
        choices = ", or ".join(_written(name, value) for name, value in self.words)
        return f"{', '.join(places) or 'the table'}{of_place} {self.why}{f': {choices}' if choices else ''}"


class NotATable(FlowshopError, metaclass=Brief):
    """A table in which something is in doubt or wrong: DOUBT or MISTAKE. `remarks` has all of it, in the order of the
    table, and `words` what settles the doubts if each is as it looks: `read_table(table, **error.words)`."""

    def __init__(
        self, name: str, place: Place, sentence: str, remarks: Tuple[Remark, ...], words: Dict[str, Given]
    ) -> None:
        super().__init__(name, place, sentence)
        self.args = (name, place, sentence, remarks, words)
        self.remarks, self.words = remarks, words


class Remarks:
    """The remarks on a table, and the answers, those that are said now among them, with what is assumed where nothing
    is said."""

    def __init__(self, answers: Answers, said_now: Answers) -> None:
        self.answers, self.said_now = answers, said_now
        self._found: List[Remark] = []
        self._assumed: List[Word] = []

    def ask(self, place: Tuple[int, int], value: str, why: str, *words: Word) -> str:
        """The value of a word that was said; else the first of some words, with a remark."""
        name = words[0][0]
        said = getattr(self.answers, name)
        if said and not isinstance(said, tuple):
            return str(said)
        self._found.append(Remark(*place, value, why, words))
        self._assumed.append(words[0])
        return words[0][1]

    def refuse(self, place: Tuple[int, int], value: str, why: str) -> None:
        """Notes what is wrong."""
        self._found.append(Remark(*place, value, why, ()))

    def test(self, name: str) -> None:
        """NotATable with all remarks, if there are some."""
        if not self._found:
            return
        remarks = sorted(dict.fromkeys(self._found), key=lambda remark: (remark.row, remark.column))
        doubts = [remark for remark in remarks if remark.words]
        wrong = [remark for remark in remarks if not remark.words]
        counts = [counted(len(each), what) for each, what in ((doubts, "doubt"), (wrong, "mistake")) if each]
        lines = [f"{readable(name)}: {' and '.join(counts)}"]
        words = self.answers.with_words(self._assumed).given()
        if doubts:
            lines += ["in doubt, with the words of which one settles it:", *_lines(doubts, 1)]
        if wrong:
            lines += ["to be changed in the table:", *_lines(wrong, _MOST_MISTAKES)]
        if doubts:
            has_blank = any(name == "missing" for name, _ in self._assumed)
            blank = ", and blank cells are skipped machines" if has_blank else ""
            lines.append(f"if all is as it looks{blank}, write: {written_words(words)}")
        first = remarks[0]
        kind = "MISTAKE" if wrong else "DOUBT"
        raise NotATable(kind, (first.row, first.column), "\n".join(lines), tuple(remarks), words)


def _lines(remarks: Iterable[Remark], most: int) -> Iterator[str]:
    """A line for each of some remarks, or for the first ones of a kind, where the last of these says how many more
    there are."""
    kinds = Counter((remark.why, remark.words) for remark in remarks)
    said: Counter[Tuple[str, Tuple[Word, ...]]] = Counter()
    for remark in remarks:
        kind = remark.why, remark.words
        said[kind] += 1
        if said[kind] <= most:
            yield f"  {remark._line(kinds[kind] - most if said[kind] == most else 0)}"


def _written(name: str, value: Given) -> str:
    """A word as a command takes it."""
    text = str(value)
    if name in LISTS and not isinstance(value, int):
        text = as_text([value] if isinstance(value, str) else value)
    sign = "=" if text.startswith("-") else " "
    return f"--{name}{sign}{shlex.quote(readable(text))}"


def written_words(words: Dict[str, Given]) -> str:
    """Words as a command takes them."""
    return " ".join(_written(name, value) for name, value in words.items())

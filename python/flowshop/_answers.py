"""What a user says of a table and of the calendar: by words, and in a small file beside the table."""

import csv
import datetime
import io
import json
import re
from dataclasses import dataclass, fields, replace
from typing import Any, Callable, Dict, Iterable, List, Optional, Sequence, Tuple, Union

from ._errors import OptionError, readable, shown
from ._headings import seconds_of

Given = Union[str, int, Sequence[str]]
# What each word may be: some words, or None where it is another thing.
CHOICES: Dict[str, Tuple[str, ...]] = {
    "header": ("yes", "no"),
    "first": ("names", "times"),
    "rows": ("jobs", "machines"),
    "totals": ("drop", "keep"),
    "decimal": ("point", "comma"),
    "missing": ("zero",),
    "trust": ("headings", "unit"),
}
LISTS = ("skip", "keep", "multiply")


@dataclass(frozen=True)
class Answers:
    """What is said of a table. Nothing is said where a field is empty."""

    begin: int = 0
    separator: str = ""
    header: str = ""
    first: str = ""
    rows: str = ""
    totals: str = ""
    decimal: str = ""
    missing: str = ""
    skip: Tuple[str, ...] = ()
    keep: Tuple[str, ...] = ()
    multiply: Tuple[str, ...] = ()
    unit: str = ""
    trust: str = ""

    def given(self) -> Dict[str, Given]:
        """The fields that are not empty."""
        found = {field.name: getattr(self, field.name) for field in fields(self)}
        return {name: list(value) if isinstance(value, tuple) else value for name, value in found.items() if value}

    def with_words(self, words: Iterable[Tuple[str, str]]) -> "Answers":
        """The answers with more of them; names are added to those of a list."""
        found = self
        for name, value in words:
            if name in LISTS:
                kept = getattr(found, name)
                found = replace(found, **{name: kept if value in kept else (*kept, value)})
            else:
                found = replace(found, **{name: int(value) if name == "begin" else value})
        return found


def without(kept: Answers, said: Answers) -> Answers:
    """What was kept, but for the names that are said now. OptionError where one of these is named by two words."""
    names: Dict[str, str] = {}
    for word in LISTS:
        for name in getattr(said, word):
            if names.setdefault(name, word) != word:
                raise OptionError(word.upper(), 0, f"{shown(name)} is named by {names[name]} and by {word}")
    return replace(kept, **{word: tuple(name for name in getattr(kept, word) if name not in names) for word in LISTS})


def as_text(names: Iterable[str]) -> str:
    """Names as a text with commas between them. One that has a comma stands in quotation marks, as in CSV."""
    text = io.StringIO()
    csv.writer(text, lineterminator="").writerow(names)
    return text.getvalue()


def _list(name: str, value: Any) -> Tuple[str, ...]:
    """The names of a list, which a text has as above."""
    if isinstance(value, str):
        parts: List[str] = next(csv.reader([" ".join(value.split())], skipinitialspace=True), [])
        return tuple(part.strip() for part in parts if part.strip())
    if isinstance(value, Iterable):
        return tuple(str(part) for part in value)
    raise OptionError(name.upper(), 0, f"{name} is {shown(value)}, and has to be names with commas between them")


def _answer(name: str, value: Any) -> Any:
    """The value of a word. OptionError where it is none."""
    if name in LISTS:
        return _list(name, value)
    if name in CHOICES:
        if isinstance(value, bool) and name == "header":
            value = "yes" if value else "no"
        if value in CHOICES[name]:
            return value
        raise OptionError(name.upper(), 0, f"{name} is {shown(value)}, and has to be {' or '.join(CHOICES[name])}")
    if name == "begin":
        if isinstance(value, int) and value > 0:
            return value
        raise OptionError("BEGIN", 0, f"begin is {shown(value)}, and has to be the number of a row")
    if name == "unit" and not (isinstance(value, str) and seconds_of(value)):
        sentence = f"unit is {shown(value)}, and has to be the length of one unit, as 1min, 15min or 1h"
        raise OptionError("UNIT", 0, sentence)
    if name == "separator" and not (isinstance(value, str) and len(value) == 1):
        raise OptionError("SEPARATOR", 0, f"separator is {shown(value)}, and has to be one sign")
    return value


def answers_of(words: Dict[str, Any], before: Answers = Answers()) -> Answers:
    """The answers that words give, over those before; names join those of the lists. OptionError where a word is
    none."""
    names = [field.name for field in fields(Answers)]
    for name in words:
        if name not in names:
            raise OptionError("WORD", 0, f"there is no word {name}: the words are {', '.join(names)}")
    found = {name: _answer(name, value) for name, value in words.items() if value is not None}
    for name in LISTS:
        if name in found:
            found[name] = tuple(dict.fromkeys([*getattr(before, name), *found[name]]))
    return replace(before, **found)


# --- The file beside a table ---

_TABLE = re.compile(r"\[([A-Za-z0-9_-]+)\]\s*(#.*)?")
_PAIR = re.compile(r"([A-Za-z0-9_-]+|\"[^\"]*\")\s*=\s*(.*)")
_VALUE = re.compile(r'\s*("(?:[^"\\]|\\.)*"|\'[^\']*\'|[0-9T:.+-]+|true|false)\s*')

_READERS: Tuple[Callable[[str], Any], ...] = (
    int, datetime.date.fromisoformat, datetime.datetime.fromisoformat, datetime.time.fromisoformat
)


def _plain_value(text: str) -> Any:
    """A text, a number, a truth value, a date or a time of the file."""
    if text[0] == '"':
        return json.loads(text, strict=False)  # which has the same escapes, but those of eight digits
    if text[0] == "'":
        return text[1:-1]
    if text in ("true", "false"):
        return text == "true"
    for read in _READERS:
        try:
            return read(text)
        except ValueError:
            continue
    raise ValueError(text)


def _value(text: str) -> Any:
    """A value of the file, or a list of them in one line. ValueError where it is none."""
    begun = text.startswith("[")
    values, at = [], 1 if begun else 0
    while not begun or text[at:].lstrip()[:1] != "]":
        found = _VALUE.match(text, at)
        if not found:
            raise ValueError(text)
        values.append(_plain_value(found[1]))
        at = found.end()
        if not begun or text[at : at + 1] != ",":
            break
        at += 1
    rest = text[at:].lstrip()
    if begun and rest[:1] != "]" or rest[begun:].strip()[:1] not in ("", "#"):
        raise ValueError(text)
    return values if begun else values[0]


def read_lines(text: str) -> Dict[str, Any]:
    """The part of TOML that such a file has: tables, and in each line a name and a value or a list of them. It stands
    in the place of tomllib, which Python has from 3.11 on. ValueError with the first line that has another form."""
    found: Dict[str, Any] = {}
    table = found
    for number, line in enumerate(text.split("\n"), 1):
        line = line.strip()
        if not line or line.startswith("#"):
            continue
        head, pair = _TABLE.fullmatch(line), _PAIR.fullmatch(line)
        try:
            if head:
                table = found.setdefault(head[1], {})
            elif pair:
                table[pair[1].strip('"')] = _value(pair[2])
            else:
                raise ValueError(line)
        except ValueError:
            raise ValueError(f"line {number} is {shown(line)}, and has to be as: name = \"value\"") from None
    return found


def read_toml(name: str, text: str) -> Dict[str, Any]:
    """The fields of such a file. OptionError where it has another form."""
    try:
        try:
            import tomllib
        except ImportError:
            return read_lines(text)
        return tomllib.loads(text)
    except ValueError as error:
        raise OptionError("SETTINGS", 0, f"{readable(name)}: {error}") from None


def _written(value: Any) -> str:
    """A value as the file has it."""
    if isinstance(value, (list, tuple)):
        return f"[{', '.join(map(_written, value))}]"
    if isinstance(value, int):
        return str(value)
    return json.dumps(str(value), ensure_ascii=False).replace("\x7f", "\\u007f")


_HEAD = "# What was answered about {}. It is taken the next time, and may be changed here."


def with_answers(name: str, text: Optional[str], answers: Answers) -> str:
    """The text of the file beside a table with these answers in the place of those that stand there. All else stays:
    comments, and the tables behind the answers."""
    lines = [_HEAD.format(readable(name))] if text is None else text.rstrip("\n").split("\n")
    names = [field.name for field in fields(Answers)]
    first = next((at for at, line in enumerate(lines) if line.lstrip().startswith("[")), len(lines))
    kept: List[str] = []
    for line in lines[:first]:
        found = _PAIR.fullmatch(line.strip())
        if not found or found[1] not in names:
            kept.append(line)
    while kept and not kept[-1].strip():
        kept.pop()
    kept += [f"{key} = {_written(value)}" for key, value in answers.given().items()]
    rest = ["", *lines[first:]] if first < len(lines) else []
    return "".join(f"{line}\n" for line in [*kept, *rest])

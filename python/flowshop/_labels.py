"""Names and unit of a shop in the label lines of a benchmark text, in the form that docs/formats.md states."""

import re
from dataclasses import dataclass, field
from typing import Any, Dict, List, NamedTuple, Optional, Tuple

from ._errors import NotAShop, TextError, counted, readable, shown
from ._results import Names, Path

Labels = Tuple[str, str]
# Those of a shop that has neither names nor a unit of its own.
PLAIN: Labels = (
    "number of jobs, number of machines, initial seed, upper bound and lower bound :",
    "processing times :",
)
# How a second label line with a unit begins, and what stands there before the names.
_BEGIN = "machines, times in "
_FORM = re.compile(r"machines, times in 1/([1-9]\d{0,6}), decimal (point|comma), separator (comma|semicolon|tab)", re.A)
_EXAMPLE = "'machines, times in 1/4, decimal comma, separator semicolon'"
_MOST_SHOWN = 80


class Label(NamedTuple):
    """A label line of a file, and its number there, counted from 1."""

    path: Path
    number: int
    text: bytes

    def fault(self, why: str) -> TextError:
        """The refusal of this line."""
        return TextError("LABEL", self.number, f"line {self.number} of {readable(self.path)} {why}")


@dataclass(frozen=True)
class Unit:
    """The unit of the times: they are those of a table, multiplied by `scale`. The words for the table's decimal sign
    and its separator tell no units apart."""

    scale: int = 1
    decimal: str = field(default="point", compare=False)
    separator: str = field(default="comma", compare=False)

    def shown(self, time: int) -> str:
        """A time in the unit of the table, with its decimal sign and as few decimals as it needs."""
        whole, rest = divmod(time, self.scale)
        if not rest:
            return str(whole)
        decimals = f"{rest * (1_000_000 // self.scale):06}".rstrip("0")
        return f"{whole}{',' if self.decimal == 'comma' else '.'}{decimals}"


def unit_of(fields: Dict[str, Any]) -> Unit:
    """The unit that its fields state. NotAShop where there is none with these."""
    form = "1/{scale}, decimal {decimal}, separator {separator}"
    try:
        words = f"{_BEGIN}{form.format(**fields)}"
    except (KeyError, IndexError):
        words = ""
    found = _FORM.fullmatch(words)
    if not found or 1_000_000 % int(found[1]):
        raise NotAShop("JSON", 0, f"'unit' of the text is {shown(fields)}; it has to be what Shop.to_json gives")
    return Unit(int(found[1]), found[2], found[3])


def _decoded(lines: bytes) -> str:
    """Lines as text: of UTF-8, or else of the encoding that Windows has for Western Europe."""
    try:
        return lines.decode()
    except UnicodeDecodeError:
        return lines.decode("cp1252", "replace")


def _named(line: Label, names: List[str], kind: str, count: int, advice: str) -> Optional[Names]:
    """The names in a label line; None where each is its number. TextError where there are more or fewer than there are
    jobs or machines, or one is empty."""
    advice = f"write a tab and a name for each {kind}{advice}"
    if len(names) != count:
        named = counted(len(names), "name")
        raise line.fault(f"has {named}, and the block has {counted(count, kind)}; {advice}")
    if not all(names):
        raise line.fault(f"has an empty name of {kind} {names.index('') + 1}; {advice}")
    return None if names == [str(number) for number in range(1, count + 1)] else tuple(names)


def _unit(line: Label, form: str) -> Unit:
    """The unit that stands in a label line before the names. TextError where it has another form."""
    found = _FORM.fullmatch(form)
    if not found:
        text = _decoded(line.text).rstrip("\r")[:_MOST_SHOWN]
        advice = f"has to begin as {_EXAMPLE}, with a tab before the name of each machine"
        raise line.fault(f"is {text!r}, and {advice}")
    if 1_000_000 % int(found[1]):
        raise line.fault(f"has times in 1/{found[1]}, and this number has to divide 1,000,000, as 1, 4 or 10")
    return Unit(int(found[1]), found[2], found[3])


def read_labels(
    first: Label, second: Label, jobs: int, machines: int
) -> Tuple[Optional[Names], Optional[Names], Unit]:
    """The names and the unit that the two label lines of a block have. None, and the unit of the times, where they are
    other words. TextError where they have the unit in another form, or names without it, or not as many names as there
    are jobs or machines."""
    lines = [line.removesuffix("\r") for line in _decoded(first.text + b"\n" + second.text).split("\n")]
    (begin, *job_names), (form, *machine_names) = (line.split("\t") for line in lines)
    has_names = begin == "jobs" and job_names != []
    if not lines[1].lstrip(" \t\r").startswith(_BEGIN):
        if has_names and len(job_names) == jobs and all(job_names):
            why = f"line {first.number} has names of jobs, and the unit of the times is not known"
            advice = f"write it here, as {_EXAMPLE}, or other words in line {first.number}"
            raise second.fault(f"is {shown(lines[1])}: {why}; {advice}")
        return None, None, Unit()
    unit = _unit(second, form)
    of_machines = _named(second, machine_names, "machine", machines, "")
    of_jobs = _named(first, job_names, "job", jobs, ", or other words in this line") if has_names else None
    return of_jobs, of_machines, unit


def _line(begin: str, kind: str, names: Optional[Names], count: int) -> str:
    """A label line with a name for each job or machine, or with its number. TextError where a name has no place."""
    fields = [str(name) for name in names or range(1, count + 1)]
    for number, name in enumerate(fields, 1):
        if not name or set(name) & set("\t\n\r"):
            fault = f"the name of {kind} {number} is {shown(name)}"
            raise TextError("LABEL", number, f"{fault}, and has to have a sign, no tab and no end of a line")
    return "\t".join([begin, *fields])


def label_lines(
    jobs: int, machines: int, job_names: Optional[Names], machine_names: Optional[Names], unit: Unit
) -> Labels:
    """The two label lines of a shop. TextError where a name has no place in them."""
    if job_names is None and machine_names is None and unit == Unit():
        return PLAIN
    form = f"machines, times in 1/{unit.scale}, decimal {unit.decimal}, separator {unit.separator}"
    return _line("jobs", "job", job_names, jobs), _line(form, "machine", machine_names, machines)

"""What is refused: one base class, and a class for each kind of thing that is refused."""

import re
from typing import Any, Tuple, TypeVar, Union

from ._brief import Brief

# Where a fault is: one number, or a row and a column, or the number of a sequence and a place in it. All from 1.
Place = Union[int, Tuple[int, int]]
# What a name may have that steers a terminal, breaks a line, turns the direction of writing, or stands in no page.
_CONTROLS = re.compile(r"[\x00-\x1f\x7f-\x9f\u2028-\u202e\u2066-\u2069\ud800-\udfff\ufffe\uffff]")


class FlowshopError(ValueError, metaclass=Brief):
    """What was refused, and why: the base of all errors of this package.

    `str` of it is a sentence with the value at fault and its limit. `name` is that of a status of the library for C,
    without FLOWSHOP_, or of a word that the library does not have, as UNIT or PATH. `place` is where the fault is:
    (row, column) of a table; the place in a sequence, or (number of the sequence, place) where there are many; the line
    of a text; which tree, counted from 0; else 0.

    >>> try:
    ...     shop.makespan([2, 4, 3])
    ... except FlowshopError as error:
    ...     print(type(error).__name__, error.name, error.place)
    ...     print(error)
    NotASequence JOB 2
    place 2 of the sequence is 4, and the jobs are 1 to 3
    """

    def __init__(self, name: str, place: Place, sentence: str) -> None:
        super().__init__(name, place, sentence)
        self.name = name
        self.place = place

    def __str__(self) -> str:
        """The sentence."""
        return str(self.args[2])


class NotAShop(FlowshopError):
    """A table that is no shop: JOBS, MACHINES, COUNT or TIME; or a name that is none: NAME."""


class NotASequence(FlowshopError):
    """A list that is no sequence of the shop: LENGTH, JOB, TWICE, or NAME where it has names; or BY, where it can be
    read in two ways."""


class NotLawful(FlowshopError):
    """A text that is no lawful certificate of the shop: HEADER, SIZE, VALUE, SEQUENCE, NOT_ATTAINED, TREE, WEAK, LOW or
    END; one that may be lawful, but states more nodes than the check may open: MOST; or a file that has too many bytes
    for one: TOO_LONG."""


class TextError(FlowshopError):
    """A file that is no benchmark text: NO_BLOCK, LABEL, BYTE, NUMBER, HEAD, LIMITS or TIMES, or TOO_LONG where it has
    too many bytes; a name that has no place in one, or label lines with names or a unit that are not whole: LABEL; or,
    to the command `report`, a text of a sequence: SEQUENCE or NOT_ATTAINED."""


class OptionError(FlowshopError):
    """A number that a call does not take: JOBS, MACHINES, SEED, DEPTH, BUDGET, VERSION, WIDTH, ROUNDS, WORK,
    DIRECTIONS, UPPER, LOWER, BOUND, MOST, WORKERS, TIME_LIMIT or BY; what is no function, as MAP or PROGRESS; TOKEN,
    PROOF, RESUME;
    PLAN_DEPTH or PLAN_PREFIXES, where the shop has no lists of so many jobs, or too many; SCALE of a table; START or
    UNIT of a report, PATH where it or a picture is saved, and to the command `report` INDEX."""


class OverBudget(FlowshopError):
    """A search whose tree is longer than the budget: OVER_BUDGET."""


class Interrupted(KeyboardInterrupt, metaclass=Brief):
    """A KeyboardInterrupt of a search. `result` is the best so far: of `certify` a Certificate, of `improve` a Start.

    >>> try:
    ...     certificate = shop.certify()
    ... except Interrupted as stopped:
    ...     certificate = stopped.result
    """

    def __init__(self, result: Any) -> None:
        super().__init__(result)
        self.result = result

    def __str__(self) -> str:
        """What the result is."""
        return repr(self.result)


_Refusal = TypeVar("_Refusal", bound=FlowshopError)


def found_in(where: object, error: _Refusal) -> _Refusal:
    """A refusal that says where it is: in a file of this name."""
    return type(error)(error.name, error.place, f"{readable(where)}: {error}")


def counted(number: int, what: str) -> str:
    """A number of things, as `1 job` or `1,000 jobs`."""
    return f"{number:,} {what}" if number == 1 else f"{number:,} {what}s"


def readable(name: object) -> str:
    """A name as it is printed or drawn. What steers a terminal, breaks a line or turns the direction of writing stands
    there as in a text of Python, as `\\x1b`."""
    return _CONTROLS.sub(lambda found: found[0].encode("unicode_escape").decode(), str(name))


def shown(value: object) -> str:
    """A value as it stands in a sentence, in some 40 characters at most."""
    try:
        text = f"{value:,}" if type(value) is int else repr(value)
    except ValueError:  # an int that Python does not write out
        text = "a number of thousands of digits"
    if len(text) <= 40:
        return text
    return f"{text[:36]}...{text[0]}" if text[0] in "'\"" else f"{text[:37]}..."

"""The numbers that a call takes beside a shop and a sequence."""

import os
from operator import index
from typing import Any, Dict, Literal, Optional, SupportsIndex, Tuple, Union

from ._errors import OptionError, shown
from ._library import LIMITS
from ._threads import Executor

# What the text of a certificate has: a sign for each direction, or their number; None: that which is not too long.
Proof = Optional[Literal["signs", "count"]]
# Two numbers of the program, where nothing is said of the proof. A run of at most so many directions keeps their signs,
# a longer one only their number; a run has so many where nothing is said of them (flow_words). Of at most so many signs
# are written, of more their number (MOST_UNASKED of flow_commands).
MOST_KEPT = 100_000_000
_MOST_UNASKED = 10_000_000
# The least and the greatest number of each option.
RANGES: Dict[str, Tuple[int, int]] = {
    "jobs": (1, LIMITS.max_jobs),
    "machines": (1, LIMITS.max_machines),
    "seed": (1, LIMITS.max_seed),
    "width": (0, LIMITS.max_width),
    "rounds": (0, LIMITS.max_rounds),
    "work": (0, LIMITS.max_work),
    "directions": (1, LIMITS.max_directions),
    "depth": (0, LIMITS.max_depth),
    "budget": (1, LIMITS.max_budget),
    "version": (LIMITS.min_version, LIMITS.max_version),
}
# Those of the head of a benchmark text, which are only written down.
STATED: Dict[str, Tuple[int, int]] = dict.fromkeys(("seed", "upper", "lower"), (0, LIMITS.max_number))
# Those of a run whose certificate need not have signs.
_OF_COUNTS: Dict[str, Tuple[int, int]] = {"directions": (1, LIMITS.max_counted)}
# Those of a search by parts and of a check, and how many workers there are, which are threads of Python.
OF_PARTS: Dict[str, Tuple[int, int]] = {
    "bound": (0, 2**64 - 1),
    "most": (0, 2**64 - 1),
    "budget": (0, LIMITS.max_directions),
    "workers": (1, 10_000),
}


def option(name: str, value: SupportsIndex, ranges: Dict[str, Tuple[int, int]] = RANGES) -> int:
    """The number of an option. OptionError where it is not whole, or not within its limits."""
    least, most = ranges[name]
    try:
        number = index(value)
    except TypeError:
        number = -1
    if least <= number <= most:
        return number
    sentence = f"{name} is {shown(value)}, and has to be a whole number from {least:,} to {most:,}"
    raise OptionError(name.upper(), 0, sentence)


def scale_of(value: SupportsIndex) -> int:
    """The number by which the times of a table are multiplied. OptionError where it does not divide 1,000,000, so that
    a time in the unit of the table may have no end as a decimal number."""
    try:
        number = index(value)
    except TypeError:
        number = 0
    if number > 0 and 1_000_000 % number == 0:
        return number
    sentence = f"scale is {shown(value)}, and has to be a whole number that divides 1,000,000, as 10, 100 or 1,000"
    raise OptionError("SCALE", 0, sentence)


def workers_of(value: Union[SupportsIndex, Executor, None]) -> Tuple[Optional[Executor], int]:
    """Who makes searches: an executor, of which one worker is known, or so many threads; -1 and None stand for one of
    each processor that this process may use. OptionError where it is neither."""
    if callable(getattr(value, "submit", None)) and not isinstance(value, type):
        return value, 1  # type: ignore[return-value]
    if value is None or (not isinstance(value, float) and value == -1):
        return None, len(os.sched_getaffinity(0))
    try:
        return None, option("workers", value, OF_PARTS)  # type: ignore[arg-type]
    except OptionError as error:
        sentence = f"{error}, or -1 for one of each processor, or an executor, as a ProcessPoolExecutor"
        raise OptionError(error.name, 0, sentence) from None


def time_limit_of(value: Any) -> Optional[float]:
    """How many seconds a search may take, or None. OptionError where it is neither."""
    if value is None:
        return None
    try:
        seconds = -1.0 if isinstance(value, (str, bytes, bool)) else float(value)
    except (TypeError, ValueError, OverflowError):
        seconds = -1.0
    if seconds >= 0:
        return seconds
    sentence = f"time_limit is {shown(value)}, and has to be a number of seconds from 0 on, or None"
    raise OptionError("TIME_LIMIT", 0, sentence)


def proof_of(value: Any) -> Proof:
    """What the text of a certificate is to have. OptionError where it is none of these."""
    if value in (None, "signs", "count"):
        return value  # type: ignore[no-any-return]
    raise OptionError("PROOF", 0, f"proof is {shown(value)}, and has to be 'signs' or 'count', or None")


def keeps_signs(proof: Proof, most: int) -> bool:
    """Whether a run that may write so many directions keeps their signs, and not only their number."""
    return proof == "signs" or (proof is None and most <= MOST_KEPT)


def has_signs(proof: Proof, directions: int) -> bool:
    """Whether the text of so many directions has signs, where these are kept."""
    return proof == "signs" or (proof is None and directions <= _MOST_UNASKED)


def directions_of(value: SupportsIndex, proof: Proof) -> int:
    """How many directions a run may write at most. OptionError where the number is not within its limits, which are
    others where the text is to have signs."""
    if proof != "signs":
        return option("directions", value, _OF_COUNTS)
    try:
        return option("directions", value)
    except OptionError as error:
        limit = f"to {LIMITS.max_counted:,} with a count"
        raise OptionError(error.name, 0, f"{error} with signs, and {limit}") from None


def function_of(name: str, value: Any, wanted: str) -> None:
    """Refuses what is neither a function nor None. OptionError, which says what is wanted."""
    if value is not None and not callable(value):
        raise OptionError(name.upper(), 0, f"{name} is {shown(value)}, and has to be {wanted}")


def token_of(value: Any) -> None:
    """Refuses what can not be asked whether it is set. OptionError."""
    if value is not None and not callable(getattr(value, "is_set", None)):
        sentence = f"token is {shown(value)}, and has to have is_set, as a threading.Event has, or to be None"
        raise OptionError("TOKEN", 0, sentence)

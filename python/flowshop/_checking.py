"""Checks of counted certificates whose search workers share."""

from typing import Any, List

from ._library import BoundsRoom, Refused, call
from ._parts import BELOW, PROVED
from ._spread import Found, Spread, Workers
from ._tasks import Numbers
from ._waiting import Progress, Watch

# The line with the count.
_LINE = 5


def check_shared(shop: Numbers, lent: Any, text: bytes, most: int, bounds: BoundsRoom, workers: Workers) -> None:
    """Checks a counted certificate of at most so many nodes, whose bounds and sequence go into a room. Refused with its
    first fault. So does the call of the library that makes the search on one thread; here it tests all but the search.
    """
    try:
        call("check_within", lent, text, len(text), 0, bounds)
        return  # no node is opened
    except Refused as refused:
        if refused.name != "MOST":
            raise
    # What stands before the count is lawful, and the count has its form.
    lines = text.split(b"\n", _LINE)
    lower, upper = lines[2].split()
    count = int(lines[_LINE - 1])
    if count > most:
        raise Refused("MOST", _LINE)
    found = _searched(shop, int(lower), count, workers)
    if found.kind == BELOW:
        raise Refused("LOW", _LINE)
    if (found.kind, found.written) != (PROVED, count):
        raise Refused("TREE", _LINE)
    # The search below 0 opens no node.
    lines[2], lines[_LINE - 1] = b"0 " + upper, b"0"
    rest = b"\n".join(lines)
    call("check_within", lent, rest, len(rest), 0, bounds)
    bounds.lower = int(lower)


def _searched(shop: Numbers, number: int, budget: int, workers: Workers) -> Found:
    """What a search below a number comes to. An interrupt ends it."""
    watch = Watch(None, None)
    found: List[Found] = []

    def search() -> None:
        with Spread(shop, workers, lambda _: watch.pause()) as spread:
            found.append(spread.prove(number, budget, False))

    watch.run(search, lambda seconds: Progress(1, 0, 0, 0, seconds))
    return found[0]

"""What results have in common: the bounds between which the least makespan lies."""

import importlib
from typing import Any

from ._brief import Brief


class Bounded(metaclass=Brief):
    """What has the makespan of a sequence, and a number below which no sequence has one."""

    @property
    def gap(self) -> float:
        """How far apart the bounds are: (upper - lower) / upper, and 0.0 where they are equal.

        >>> shop.neh().lower, shop.neh().upper, round(shop.neh().gap, 3)
        (10, 13, 0.231)
        """
        this: Any = self
        lower, upper = this.lower, this.upper
        return 0.0 if lower == upper else float((upper - lower) / upper)


def needed(name: str, instead: str) -> Any:
    """A package that may not be there. ImportError with what to do where it is not."""
    try:
        return importlib.import_module(name)
    except ImportError as error:
        package = name.partition(".")[0]
        advice = f"python3 -m pip install {package} installs it, and {instead}"
        raise ImportError(f"flowshop: this needs {package}, which is not here ({error}): {advice}") from None

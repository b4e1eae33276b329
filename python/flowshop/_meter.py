"""The processor time of a search, in threads of this process and by workers."""

import threading
import time
from typing import Any, Callable, Dict, Tuple, TypeVar

from ._threads import with_stack

_T = TypeVar("_T")
# The clock of a thread as Linux numbers it: it is an error, and no fault, to ask it once the thread has ended.
_OF_THREAD = 6


def _clock() -> int:
    """The clock of the thread at hand."""
    return ~threading.get_native_id() << 3 | _OF_THREAD


def _read(clock: int) -> float:
    """What a clock says. 0.0 where its thread has ended."""
    try:
        return time.clock_gettime(clock)
    except OSError:
        return 0.0


class Meter:
    """How many seconds of the processor a search has taken: in threads of its own, also while they go on, and in what
    workers have given back."""

    def __init__(self) -> None:
        self._lock = threading.Lock()
        self._done = 0.0
        self._begun: Dict[int, float] = {}

    def add(self, seconds: float) -> None:
        """Adds what a worker has taken."""
        with self._lock:
            self._done += seconds

    def measured(self, call: Callable[[], _T]) -> _T:
        """What a call gives, whose time in this thread is measured."""
        clock, begun = _clock(), time.thread_time()
        with self._lock:
            self._begun[clock] = begun
        try:
            return call()
        finally:
            with self._lock:
                del self._begun[clock]
                self._done += time.thread_time() - begun

    def seconds(self) -> float:
        """How many seconds it is so far."""
        with self._lock:
            return self._done + sum(max(0.0, _read(clock) - begun) for clock, begun in self._begun.items())


def timed(call: Callable[[Any], _T], word: Any) -> Tuple[_T, float]:
    """What a call gives of a word, and how many seconds of the processor it took. It is what a worker is given to
    call."""

    def measured() -> Tuple[_T, float]:
        begun = time.thread_time()
        return call(word), time.thread_time() - begun

    return with_stack(measured)

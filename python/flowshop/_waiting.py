"""Waiting for a search that runs in a thread of its own. At Ctrl-C the wait ends, and _shop.py raises Interrupted with
the best so far; what the commands do then stands in _command_certify.py and __main__.py."""

import io
import math
import os
import select
import sys
import threading
import time
from contextlib import contextmanager, suppress
from dataclasses import dataclass
from functools import partial
from typing import Callable, Generic, Iterator, Optional, Protocol, TextIO, TypeVar, Union

from ._bounded import Bounded
from ._errors import readable
from ._stack import Thread

_T = TypeVar("_T")
# How many seconds lie between two looks at a search, and between two lines where no terminal shows them.
_LOOK, _BETWEEN_LINES = 0.25, 0.5
# How many seconds lie between two looks at what may end a search from another thread.
_TOKEN_LOOK = 0.05
# How many seconds the end of a process waits at most for what is under way.
PATIENCE = 0.5


@dataclass(frozen=True)
class Progress(Bounded):
    """How far `certify` has come: the step, 1 to 8; the bounds so far; how many directions its searches have written;
    and how many seconds it has taken. Of a run that goes on with a state both count from 0. Where a search by workers
    finds a sequence, directions that they wrote behind it do not count, so the number may fall.

    >>> reports = []
    >>> certificate = shop.certify(progress=reports.append)
    >>> reports[-1].lower, reports[-1].upper
    (12, 12)
    """

    step: int
    lower: int
    upper: int
    directions: int
    seconds: float

    @property
    def value(self) -> int:
        """The same as `upper`: the makespan of the best sequence so far.

        >>> Progress(1, 10, 12, 0, 0.5).value
        12
        """
        return self.upper

    def __str__(self) -> str:
        """The same in words."""
        bounds = f"optimal {self.upper}" if self.lower == self.upper else f"bounds {self.lower} to {self.upper}"
        return f"step {self.step} of 8: {bounds}, {self.directions:,} directions, {self.seconds:.0f} s"


def has_come(event: threading.Event, seconds: Optional[float] = None) -> bool:
    """Waits for an event, or so many seconds. Whether it has come. A signal interrupts the wait. It waits a little at a
    time, since a signal that comes just before a wait begins is seen only when that wait ends."""
    ends = math.inf if seconds is None else time.monotonic() + seconds
    while not event.wait(max(0.0, min(_LOOK, ends - time.monotonic()))):
        if time.monotonic() >= ends:
            return False
    return True


class Token(Protocol):
    """What ends a search from another thread once it is set, such as threading.Event."""

    def is_set(self) -> bool:
        """Whether it is."""


class Stopped(Exception):
    """Says to a search that nobody waits for it any more."""


class Running(Generic[_T]):
    """A call in a thread of its own, which does not keep the process from ending."""

    def __init__(self, call: Callable[[], _T]) -> None:
        self._call, self._ended = call, threading.Event()
        self._result: Optional[_T] = None
        self._error: Optional[BaseException] = None
        self._thread = Thread(self._run, "flowshop")

    def _run(self) -> None:
        try:
            self._result = self._call()
        except BaseException as error:  # of any kind: it is raised where the call is waited for
            self._error = error
        finally:
            self._ended.set()

    def start(self) -> None:
        """Starts the thread."""
        self._thread.start()

    def wait(self, seconds: Optional[float] = None) -> bool:
        """Waits until the call has ended, or so many seconds have. A signal interrupts it. Whether the call has."""
        return has_come(self._ended, seconds)

    def result(self) -> _T:
        """What the call gave, or its error."""
        if self._error is not None:
            raise self._error
        return self._result  # type: ignore[return-value]


def waited(call: Callable[[], _T]) -> _T:
    """What a call gives that runs in a thread of its own. A signal interrupts the wait, and leaves the call behind."""
    running = Running(call)
    running.start()
    running.wait()
    return running.result()


def waited_for(call: Callable[[], _T], seconds: float) -> Optional[_T]:
    """The same of a call that is waited for so many seconds. None where it has not ended."""
    running = Running(call)
    running.start()
    return running.result() if running.wait(seconds) else None


# What a terminal shows of a line: no more than stands in one row of it, in the place of what stood there.
_ANEW = "\r\x1b[?7l{}\x1b[K\x1b[?7h"


def _put(number: int, text: bytes) -> None:
    """Writes bytes to a descriptor, as far as it takes them."""
    with suppress(OSError):
        os.write(number, text)


class Lines:
    """Lines on a stream that say how far something has come: one that is written anew where a terminal shows it, else
    several, at most two in a second. Other lines may come between them. Any thread may write them, and none waits for
    whoever reads them: a line that the stream does not take is left out. A stream that is gone is passed over."""

    def __init__(self, stream: Optional[TextIO]) -> None:
        self._stream: TextIO = io.StringIO() if stream is None or stream.closed else stream
        # Whether it is the standard error of this process, and no other that stands in its place.
        self._is_own = self._stream is sys.__stderr__
        self._is_terminal = self._stream.isatty()
        self._lock = threading.Lock()
        self._written = -_BETWEEN_LINES
        self._stands, self._is_closed = False, False
        self._patience = PATIENCE
        self._last: Optional[Running[None]] = None

    def __call__(self, line: object) -> None:
        """Writes a line that says how far it is, where the last one was not written just now, no other is being
        written, and the stream takes it at once."""
        if not self._lock.acquire(blocking=False):
            return
        try:
            now = time.monotonic()
            is_due = self._is_terminal or now - self._written >= _BETWEEN_LINES
            if is_due and not self._is_closed and self._takes(0):
                self._stands, self._written = self._is_terminal, now
                text = readable(line)
                self._write(_ANEW.format(text) if self._is_terminal else f"{text}\n")
        finally:
            self._lock.release()

    @contextmanager
    def taken_back(self) -> Iterator[None]:
        """Takes back the line that a terminal shows. Meanwhile no other thread writes one."""
        with self._lock:
            self._take_back()
            yield

    def keep(self, *lines: object) -> None:
        """Writes lines that stay. The stream has half a second to take them, and no more until it has taken others."""
        with self.taken_back():
            is_taken = self._takes(self._patience)
            self._patience = PATIENCE if is_taken else 0
            if is_taken:
                self._write("".join(f"{readable(line)}\n" for line in lines))

    def close(self) -> None:
        """Takes back the line that a terminal shows, unless another is being written that nobody reads. No line that
        says how far it is comes after it."""
        self._is_closed = True
        if self._lock.acquire(timeout=PATIENCE):
            try:
                self._take_back()
            finally:
                self._lock.release()

    def _takes(self, seconds: float) -> bool:
        """Whether the stream takes a line within so many seconds: not a pipe that is full, nor a terminal that was
        stopped, nor one that does not take the last line."""
        ends = time.monotonic() + seconds
        if self._last is not None and not self._last.wait(seconds):
            return False
        ready = select.poll()
        try:
            ready.register(self._stream, select.POLLOUT)
        except (OSError, TypeError, ValueError):  # it has no file
            return True
        return ready.poll(max(0, 1000 * (ends - time.monotonic()))) != []

    def _take_back(self) -> None:
        """Takes back the line that a terminal shows."""
        stands, self._stands = self._stands, False
        if stands and self._takes(0):
            self._write("\r\x1b[K")

    def _write(self, text: str) -> None:
        """Writes a text at once; to the standard error of this process in a thread that nothing waits for long."""
        with suppress(OSError, ValueError, RuntimeError):  # it is gone or closed, or there is no thread more
            if not self._is_own:
                self._stream.write(text)
            self._stream.flush()
            if self._is_own:
                written = text.encode(self._stream.encoding, "backslashreplace")
                last = Running(partial(_put, self._stream.fileno(), written))
                last.start()
                self._last = last
                last.wait(PATIENCE)


class Watch:
    """When a search is to end, and who is told how far it has come."""

    def __init__(
        self,
        time_limit: Optional[float],
        progress: Union[bool, Callable[[Progress], object], None],
        token: Optional[Token] = None,
    ) -> None:
        self._begun = time.monotonic()
        self._limit, self._token = time_limit, token
        self._stop = threading.Event()
        self._lines = Lines(sys.stderr) if progress is True else None
        self._tell = self._lines or (progress if callable(progress) else None)

    @property
    def is_limited(self) -> bool:
        """Whether there is a time limit."""
        return self._limit is not None

    def pause(self) -> None:
        """Where a search may be stopped: it is, where nobody waits for it any more."""
        if self._stop.is_set():
            raise Stopped

    def _seconds(self) -> float:
        """How long the search has taken."""
        return time.monotonic() - self._begun

    def _look(self) -> Optional[float]:
        """In how many seconds to look at the search; None where that need not be."""
        looks = ([] if self._tell is None else [_LOOK]) + ([] if self._token is None else [_TOKEN_LOOK])
        if self._limit is not None:
            looks.append(self._limit - self._seconds())
        return max(0.0, min(*looks, 3600.0)) if looks else None

    def _is_over(self) -> bool:
        """Whether time is up, or the token is set."""
        is_late = self._limit is not None and self._seconds() >= self._limit
        return is_late or (self._token is not None and self._token.is_set())

    def run(self, call: Callable[[], None], state: Callable[[float], Progress]) -> None:
        """Runs a search until it ends, time is up, or the token is set."""
        running = Running(call)
        try:
            running.start()
            while not running.wait(self._look()) and not self._is_over():
                if self._tell:
                    self._tell(state(self._seconds()))
            self._stop.set()
            if running.wait(0):
                with suppress(Stopped):  # it saw the stop just now
                    running.result()
        except BaseException:
            self._stop.set()
            if self._lines:
                self._lines.keep(state(self._seconds()))
            raise
        if self._lines:
            self._lines.keep(state(self._seconds()))
        elif self._tell:
            self._tell(state(self._seconds()))

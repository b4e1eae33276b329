"""Who makes calls: threads that keep no process from ending, the thread at hand, or an executor of the caller's."""

import queue
import threading
from concurrent.futures import Future
from typing import Any, Callable, Protocol, TypeVar

from ._stack import Thread, has_stack
from ._waiting import has_come, waited

_T = TypeVar("_T")


class Executor(Protocol):
    """What makes calls somewhere else: an executor of concurrent.futures, as ProcessPoolExecutor, a client of dask, or
    MPIPoolExecutor. It needs `submit` alone, which gives a future that has `result`, `add_done_callback` and
    `cancel`."""

    @property
    def submit(self) -> Callable[..., Any]:
        """Begins a call of a function with words, and gives its future."""


def with_stack(call: Callable[[], _T]) -> _T:
    """What a call gives that may need more stack than the thread at hand has: then a thread of this package makes
    it."""
    return call() if has_stack() else waited(call)


def result_of(future: Any) -> Any:
    """What a future gives, or its error. A signal interrupts the wait."""
    ended = threading.Event()
    future.add_done_callback(lambda _: ended.set())
    has_come(ended)
    return future.result()


def _make(future: "Future[Any]", call: Callable[..., Any], words: Any) -> None:
    """Makes a call, unless it was cancelled."""
    if future.set_running_or_notify_cancel():
        try:
            future.set_result(call(*words))
        except BaseException as error:  # of any kind: it is raised where the result is wanted
            future.set_exception(error)


class Here:
    """The thread at hand."""

    def submit(self, call: Callable[..., Any], *words: Any) -> "Future[Any]":
        """Makes a call."""
        future: "Future[Any]" = Future()
        _make(future, call, words)
        return future


class Threads:
    """So many threads."""

    def __init__(self, count: int) -> None:
        self._calls: "queue.SimpleQueue[Any]" = queue.SimpleQueue()
        self._count = count
        for _ in range(count):
            Thread(self._run, "flowshop worker").start()

    def _run(self) -> None:
        """Makes calls until there is None."""
        call: Any
        for call in iter(self._calls.get, None):
            _make(*call)

    def submit(self, call: Callable[..., Any], *words: Any) -> "Future[Any]":
        """Begins a call."""
        future: "Future[Any]" = Future()
        self._calls.put((future, call, words))
        return future

    def close(self) -> None:
        """Ends the threads, once they have made the calls that they have."""
        for _ in range(self._count):
            self._calls.put(None)

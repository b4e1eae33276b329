"""A search below a number whose parts workers do, in threads, in processes or on other machines.

The number is fixed, so what is found of a part depends on nothing else: joined in the order of the parts, directions
are those of one search, however many workers there are. The library keeps that order. How long a part takes decides
how much the next one has, and nothing else."""

import ctypes
import functools
import math
import queue
import time
from concurrent.futures import BrokenExecutor
from typing import Any, Callable, Dict, Iterator, List, NamedTuple, Optional, Set, Tuple, TypeVar

from ._library import PlaceNumbers, SearchedNumbers, SearchNumbers, byref, call, u32, u64
from ._meter import Meter, timed
from ._parts import BELOW, OVER, PROVED, PackedPart, Reached, packed_parts, parts_of
from ._tasks import Answer, Numbers, PackedShop, Task, packed_shop, reach, signs_of, work
from ._threads import Executor, Here, Threads

_T = TypeVar("_T")

# The state of a place whose parts are given.
_GIVEN = 1
# How many seconds a task takes about: while there are few parts to give, and else; and elsewhere at most.
_SHORT, _LONG, _LONG_ELSEWHERE = 0.02, 0.2, 1.0
# For how many workers short tasks are as short as that. For more they are longer, as answers would come too fast.
_FEW = 40
# How many times as many directions as a node has the one above it, about; and for how many levels that counts.
_FALL, _LEVELS = 5.0, 400
# How much less an answer tells than the next one about how long a task takes.
_FADE = 0.98
# How many seconds lie at most between two looks at whether a search is to end.
_LOOK = 0.05
# How many seconds longer than the slowest one a task may take before another worker is given it too.
_PATIENCE = 2.0
# For how many seconds a worker counts that was heard.
_HEARD = 10.0
# How many seconds a beam, or rounds, may take elsewhere before another worker is given them too.
_LONGEST_BEAM = 60.0
# How many times a task is given out whose worker fails.
_TRIES = 3
_ROOT = PackedPart(b"", b"", 0, b"")


class Workers(NamedTuple):
    """Who searches parts: an executor, or else so many threads; how many beams and rounds may be made at once; and what
    measures the processor time of all of it, where something does."""

    executor: Optional[Executor]
    size: int
    at_once: int = 1
    meter: Optional[Meter] = None

    @property
    def are_several(self) -> bool:
        """Whether they may be more than one."""
        return self.executor is not None or self.size > 1

    def measured(self, call: Callable[[], _T]) -> Callable[[], _T]:
        """A call for a thread of its own, in which it is measured."""
        if self.meter is None:
            return call
        meter: Meter = self.meter
        return lambda: meter.measured(call)


class Found(NamedTuple):
    """What a search below a number came to: PROVED with how many directions there are, and these, where they are kept;
    BELOW with a sequence and how many directions came before it; or OVER."""

    kind: int
    written: int
    directions: Optional[bytes] = None
    sequence: bytes = b""
    makespan: int = 0


def weight_of(part: PackedPart) -> float:
    """Which share of a whole search a node of a part has, about."""
    depth = (len(part.first) + len(part.last)) // 2 + (part.end != 0)
    return float(_FALL ** -min(depth, _LEVELS))


def weight_of_all(parts: List[PackedPart]) -> float:
    """Which share of a whole search parts have, about."""
    return sum(weight_of(part) * part.size() for part in parts)


def runs_of(parts: List[PackedPart], least: float, most: int) -> Iterator[List[PackedPart]]:
    """Parts as runs, in order, each of this weight or just more: so many runs at most, and one of the others."""
    run: List[PackedPart] = []
    free = least
    for part in parts:
        weight, left = weight_of(part), [part]
        while left:
            part = left.pop()
            nodes = max(1, min(part.size(), math.ceil(free / weight))) if most > 0 else part.size()
            run.append(part.before(nodes))
            left, free = part.after(nodes), free - nodes * weight
            if free <= 0 and most > 0:
                yield run
                run, free, most = [], least, most - 1
    if run:
        yield run


class Given:
    """A task that workers have: the calls of these, how many have failed, and since when the last one has it."""

    def __init__(self, task: Task) -> None:
        self.task = task
        self.calls: Set[Any] = set()
        self.failed, self.since = 0, 0.0

    def is_late(self, now: float, slowest: float) -> bool:
        """Whether it takes much longer than the slowest one that was answered; each time it was given twice as long."""
        return now > self.since + (1 << len(self.calls)) * (max(self.task.seconds, slowest) + _PATIENCE)

    def begin(self, calls: "Calls") -> None:
        """Gives it to one worker more."""
        self.since = time.monotonic()
        self.calls.add(calls.begin(work, self.task._replace(times=len(self.calls) + self.failed), self))


class Shared:
    """A search whose parts are given to workers. The library keeps their order, and says when it is decided. Directions
    are kept, or only counted."""

    def __init__(self, shop: PackedShop, number: int, budget: int, has_signs: bool) -> None:
        self._shop, self._number, self._budget, self._has_signs = shop, number, budget, has_signs
        self._begun = time.monotonic()
        self._places, self._search = (PlaceNumbers * 64)(), SearchNumbers()
        call("search", budget, self._places, len(self._places), self._search)
        # By places: the parts that are left there, the directions of it that are kept, and a sequence.
        self._parts: Dict[int, List[PackedPart]] = {0: [_ROOT]}
        self._bits: Dict[int, Tuple[bytes, int]] = {}
        self._reached: Dict[int, Tuple[bytes, int]] = {}
        # The tasks that were given, by their places; how long the slowest one took that was answered; and when late
        # ones were looked for.
        self._given: Dict[int, Given] = {}
        self._slowest, self._looked = 0.0, 0.0
        # How many seconds the last answers took, and which share of the search was done in these.
        self._took, self._done = 0.0, 0.0

    @property
    def written(self) -> int:
        """How many directions were written, without those behind a sequence."""
        return int(self._search.written)

    def seconds(self) -> float:
        """How many seconds a task takes elsewhere, where many parts wait: an eighth of those of the search so far, so
        that little is searched in vain behind the place that decides."""
        return min(_LONG_ELSEWHERE, (time.monotonic() - self._begun) / 8)

    @property
    def open(self) -> int:
        """How many parts are given or wait."""
        return int(self._search.open)

    def give(self, seconds: float) -> Optional[Given]:
        """A task of so many seconds: the first parts that wait, where there are any."""
        place = u64()
        call("search_give", self._search, self._places, len(self._places), byref(place))
        if place.value == 0:
            return None
        parts = packed_parts(self._parts[place.value - 1])
        left = self._budget + 1 - self._search.settled
        given = Given(Task(place.value - 1, 0, self._shop, self._number, left, self._has_signs, seconds, parts))
        self._given[given.task.place] = given
        return given

    def late(self) -> List[Given]:
        """The tasks that take much longer than they should. They are looked for a few times a second."""
        now = time.monotonic()
        if now < self._looked + _LOOK:
            return []
        self._looked = now
        return [each for each in self._given.values() if each.is_late(now, self._slowest)]

    def dropped(self) -> List[Given]:
        """The tasks that are not given any more, since a sequence before them makes no use of them."""
        gone = [place for place in self._given if self._places[place].state != _GIVEN]
        return [self._given.pop(place) for place in gone]

    def put(self, answer: Answer, seconds: float, missing: int, most: int) -> None:
        """Takes an answer to a task. What is left is given in tasks of so many seconds, and in shorter ones while so
        many tasks are missing; so many of these at most, and one of the others."""
        parts = parts_of(answer.rest)
        whole = weight_of_all(parts)
        self._took = _FADE * self._took + answer.seconds
        self._done = _FADE * self._done + max(0.0, weight_of_all(self._parts.get(answer.place, [])) - whole)
        least = min(seconds * self._done / self._took if self._took else 0.0, whole / max(1, missing))
        runs = list(runs_of(parts, least, most))
        searched, first = SearchedNumbers(answer.written, len(runs), int(bool(answer.sequence))), u64()
        self._make_room(len(runs))
        call("search_put", self._search, self._places, len(self._places), answer.place, searched, byref(first))
        if first.value == 0:  # another one has searched these parts, or a sequence before them makes no use of them
            return
        del self._parts[answer.place]
        self._slowest = max(self._slowest, time.monotonic() - self._given.pop(answer.place).since)
        if self._has_signs:
            self._bits[answer.place] = answer.bits, answer.written
        if answer.sequence:
            self._reached[answer.place] = answer.sequence, answer.makespan
        self._parts.update(enumerate(runs, first.value - 1))

    def _make_room(self, count: int) -> None:
        """Makes room for so many places more."""
        if self._search.places + count > len(self._places):
            places = (PlaceNumbers * (2 * len(self._places) + count))()
            ctypes.memmove(places, self._places, ctypes.sizeof(self._places))
            self._places = places

    def found(self) -> Optional[Found]:
        """What the search came to, where it is decided."""
        kind, place = u32(), u64()
        call("search_found", self._search, byref(kind), byref(place))
        if kind.value == OVER:
            return Found(OVER, self._budget)
        if kind.value == BELOW:
            return Found(BELOW, self.written, None, *self._reached[place.value])
        if kind.value != PROVED:
            return None
        return Found(PROVED, self.written, b"".join(self._directions()) if self._has_signs else None)

    def _directions(self) -> Iterator[bytes]:
        """The directions of all places, in order."""
        place = 1
        while place:
            yield signs_of(*self._bits[place - 1])
            place = self._places[place - 1].next


class Calls:
    """Calls that an executor makes, and those that have ended."""

    def __init__(self, executor: Executor, meter: Optional[Meter]) -> None:
        self._executor, self._meter = executor, meter
        self._ended: "queue.SimpleQueue[Tuple[Any, Any]]" = queue.SimpleQueue()
        self._begun: Set[Any] = set()

    def __len__(self) -> int:
        return len(self._begun)

    def begin(self, call: Callable[[Any], Any], word: Any, given: Optional[Given] = None) -> Any:
        """Begins a call for what is given. Gives its future."""
        if self._meter is not None:
            call = functools.partial(timed, call)
        future = self._executor.submit(call, word)
        self._begun.add(future)
        future.add_done_callback(lambda ended: self._ended.put((given, ended)))
        return future

    def next(self) -> Optional[Tuple[Any, Any]]:
        """What was given for a call that has ended, and its future; None where none ends soon."""
        try:
            given, future = self._ended.get(timeout=_LOOK)
        except queue.Empty:
            return None
        self._begun.discard(future)
        return given, future

    def result(self, future: Any) -> Any:
        """What a call gave, or its error."""
        if self._meter is None:
            return future.result()
        result, seconds = future.result()
        self._meter.add(seconds)
        return result

    def drop(self, futures: Optional[Set[Any]] = None) -> None:
        """Waits for these calls no more, or for none, and cancels those that are not yet begun. Dask, whose futures can
        be released, does so where they are; a cancelled one would be reported."""
        for future in self._begun.copy() if futures is None else futures:
            self._begun.discard(future)
            release = getattr(future, "release", None)
            if release is None:
                future.cancel()
            else:
                release()


class Spread:
    """Searches below numbers, beams and rounds that an executor makes; threads where there is none, and there are to be
    more workers than one."""

    def __init__(self, shop: Numbers, workers: Workers, pause: Callable[[int], None]) -> None:
        self._shop, self._workers, self._pause = packed_shop(shop), workers, pause
        self._threads = Threads(workers.size) if workers.executor is None and workers.size > 1 else None
        self._executor: Executor = workers.executor or self._threads or Here()
        self._is_elsewhere = not isinstance(self._executor, (Here, Threads))
        self._is_shared = not isinstance(self._executor, Here)
        # When each worker was heard last, and when it was looked for those that are not heard any more.
        self._heard: Dict[int, float] = {}
        self._counted = 0.0
        self._ahead: Set[Calls] = set()
        self.at_once = workers.at_once

    def __enter__(self) -> "Spread":
        return self

    def __exit__(self, *_: object) -> None:
        """Drops the beams and rounds that are not yet begun, and ends the threads."""
        self.drop_ahead()
        if self._threads:
            self._threads.close()

    def _calls(self) -> Calls:
        """No calls yet."""
        return Calls(self._executor, self._workers.meter)

    @property
    def _size(self) -> int:
        """How many workers there are; of those elsewhere two, or as many as were heard in the last seconds."""
        if not self._is_elsewhere:
            return self._workers.size
        now = time.monotonic()
        if now > self._counted + _LOOK:
            self._counted = now
            self._heard = {worker: heard for worker, heard in self._heard.items() if heard > now - _HEARD}
        return max(self._workers.size, len(self._heard), 2)

    def prove(self, number: int, budget: int, has_signs: bool) -> Found:
        """What a search below a number comes to, with a budget of directions, which are kept or only counted."""
        shared, calls = Shared(self._shop, number, budget, has_signs), self._calls()
        try:
            while True:
                found = shared.found()
                if found:
                    return found
                self._pause(shared.written)
                self._give(shared, calls)
                ended = calls.next()
                if ended:
                    self._take(shared, calls, *ended)
        finally:
            calls.drop()

    def _short(self) -> float:
        """How many seconds a task takes while few parts wait."""
        return min(_LONG_ELSEWHERE, _SHORT * max(1, self._size / _FEW))

    def _seconds(self, shared: Shared) -> float:
        """How many seconds a task takes."""
        return max(self._short(), shared.seconds() if self._is_elsewhere else _LONG)

    def _give(self, shared: Shared, calls: Calls) -> None:
        """Gives tasks to all workers: elsewhere some more, so that none waits for the next one, and new ones are found;
        and what takes much longer there than it should to one worker more."""
        size = self._size
        most = size + max(1, size // 2) if self._is_elsewhere else size
        short, long = self._short(), self._seconds(shared)
        while len(calls) < most:
            given = shared.give(short if shared.open - len(calls) < size else long)
            if given is None:
                break
            given.begin(calls)
        for given in shared.late() if self._is_elsewhere else []:
            given.begin(calls)

    def _take(self, shared: Shared, calls: Calls, given: Given, future: Any) -> None:
        """Takes an answer, unless another one came before it. A task whose worker fails is given out again."""
        if future not in given.calls:
            return
        given.calls.discard(future)
        try:
            answer: Answer = calls.result(future)
        except Exception as error:
            given.failed += 1
            if isinstance(error, BrokenExecutor) or given.failed == _TRIES:
                raise
            given.begin(calls)
            return
        if (answer.place, answer.number) != (given.task.place, given.task.number):
            raise RuntimeError("flowshop: a worker has given the answer to another task")
        calls.drop(given.calls)
        given.calls.clear()
        self._heard[answer.worker] = time.monotonic()
        most = 2 * self._size if self._is_shared else 0
        shared.put(answer, self._seconds(shared), most - (shared.open - len(calls)), most)
        for dropped in shared.dropped() if answer.sequence else []:
            calls.drop(dropped.calls)
            dropped.calls.clear()

    def begin(self, name: str, start: bytes, *options: int) -> Callable[[], Reached]:
        """Begins a beam, or rounds, from a start. Gives a call that waits for what they come to."""
        calls, words = self._calls(), (self._shop, name, (start, *options))
        self._ahead.add(calls)
        calls.begin(reach, (0, *words))
        return lambda: self._reached(calls, words)

    def drop_ahead(self) -> None:
        """Drops the beams and rounds that nobody waits for any more."""
        for calls in self._ahead:
            calls.drop()
        self._ahead.clear()

    def _reached(self, calls: Calls, words: Tuple[PackedShop, str, Tuple[Any, ...]]) -> Reached:
        """What a beam or rounds come to. They are made again where their worker fails, and by another worker too where
        they are late, each time after twice as long."""
        failed, times, since = 0, 1, time.monotonic()
        while True:
            self._pause(0)
            ended = calls.next()
            if ended:
                try:
                    reached: Reached = calls.result(ended[1])
                    calls.drop()
                    self._ahead.discard(calls)
                    return reached
                except Exception as error:
                    failed += 1
                    if isinstance(error, BrokenExecutor) or failed == _TRIES:
                        raise
            elif not self._is_elsewhere or time.monotonic() < since + 2 ** (times - 1) * _LONGEST_BEAM:
                continue
            calls.begin(reach, (times, *words))
            times, since = times + 1, time.monotonic()

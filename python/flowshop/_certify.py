"""Runs of certify, which the library leads task by task, with searches whose parts workers do; and of improve."""

from typing import Callable, Dict, NamedTuple, Optional, Tuple

from ._library import AnswerNumbers, EffortNumbers, RunNumbers, TaskNumbers, byref, call, u32
from ._options import option
from ._parts import PROVED, REACHED, Instance, Reached
from ._spread import Found, Spread, Workers
from ._tasks import Numbers
from ._waiting import Progress, Watch

# What a run asks for next.
_END, _SEARCH, _BEAM, _ROUNDS = 0, 1, 2, 3
# The widths of the first beams of improve.
_NARROW = 16, 256
# Any number of directions, where no search is made.
_ANY = 1

# The name and the options of a beam or of rounds.
_Words = Tuple[str, int, int, int]


class Effort(NamedTuple):
    """How much beams and rounds may do."""

    width: int
    rounds: int
    seed: int
    work: int

    def steps(self, parts: int) -> int:
        """So many of 17 parts of the most steps."""
        return self.work * 1_000_000 * parts // 17


def effort_of(**numbers: int) -> Effort:
    """How much beams and rounds may do. OptionError where a number is not within its limits."""
    return Effort(*(option(name, numbers[name]) for name in Effort._fields))


class Known(NamedTuple):
    """Bounds of the least makespan, a sequence that has the upper one, how many directions prove the lower one, and
    these, where they are kept."""

    lower: int
    upper: int
    sequence: bytes
    written: int
    directions: Optional[bytes]


class Better:
    """The searches of improve, one after the other, and the best sequence so far."""

    def __init__(self, shop: Numbers, start: bytes, makespan: int, effort: Effort) -> None:
        self.best = Reached(start, makespan, False)
        self._instance, self._start, self._effort = Instance(*shop), start, effort
        self._least = self._instance.run(start, _ANY, False).least

    def search_until(self, watch: Watch) -> None:
        """Makes the searches, as long as the watch allows."""
        watch.run(lambda: self._search(watch.pause), lambda seconds: Progress(1, 0, self.best.makespan, 0, seconds))

    def _search(self, pause: Callable[[], None]) -> None:
        """A beam, and then rounds from the start and from the best of the beam. Narrower beams come first, so that
        there is something to give where time is up."""
        effort = self._effort
        for width in [each for each in _NARROW if each < effort.width] + [effort.width]:
            beamed = self._instance.beam(self._start, 0, width, effort.steps(12))
            self._take(beamed)
            pause()
        rounds = 0 if beamed.whole or beamed.makespan <= self._least else effort.rounds
        few = 0 if beamed.sequence == self._start else rounds
        of_start = self._instance.rounds(self._start, few, effort.seed, effort.steps(1))
        self._take(of_start)
        pause()
        few = 0 if of_start.whole else rounds
        of_beam = self._instance.rounds(beamed.sequence, few, effort.seed, effort.steps(4))
        self.best = of_start if of_start.makespan < of_beam.makespan else of_beam

    def _take(self, reached: Reached) -> None:
        """Takes a sequence where its makespan is smaller."""
        if reached.makespan < self.best.makespan:
            self.best = reached


class Kept(NamedTuple):
    """What a run keeps after a task: where it stands, the start, the best sequence, the one that was the best before
    it, how many directions prove its lower bound, and these, but for a run that only counts them."""

    numbers: bytes
    start: bytes
    best: bytes
    before: bytes
    written: int
    directions: Optional[bytes]

    def known(self) -> Known:
        """What it proves."""
        run = RunNumbers.from_buffer_copy(self.numbers)
        return Known(run.lower, run.upper, self.best, self.written, self.directions)


class Run:
    """The tasks of a run, one after the other, and what they found so far."""

    def __init__(self, shop: Numbers, effort: Effort, kept: Kept) -> None:
        self._shop, self._effort, self.kept = shop, EffortNumbers(*effort), kept
        self._run = RunNumbers.from_buffer_copy(kept.numbers)
        # Beams and rounds that are begun, each with its sequence.
        self._begun: Dict[Tuple[_Words, bytes], Callable[[], Reached]] = {}
        self._written, self._writing = 0, 0
        self.has_ended = False
        self._spread: Spread
        self._pause: Callable[[], None]

    def search_until(self, watch: Watch, workers: Workers) -> None:
        """Does all tasks, as long as the watch allows, with the parts of searches given to workers."""

        def pause(directions: int) -> None:
            self._writing = directions
            watch.pause()

        def tasks() -> None:
            with Spread(self._shop, workers, pause) as self._spread:
                self._pause = watch.pause
                self._go_on()

        watch.run(workers.measured(tasks), self._progress)

    def _progress(self, seconds: float) -> Progress:
        """How far the run has come."""
        known = self.kept.known()
        return Progress(self._run.step, known.lower, known.upper, self._written + self._writing, seconds)

    def _go_on(self) -> None:
        """Does one task after the other, until the run ends."""
        while True:
            self._pause()
            task = self._next(self._run)
            if task.kind == _END:
                self.has_ended = True
                return
            if task.kind == _SEARCH:
                self._search(task)
            else:
                self._improve(task)

    def _next(self, run: RunNumbers) -> TaskNumbers:
        """What a run asks for next."""
        task = TaskNumbers()
        call("run_next", run, self._effort, task)
        return task

    def _search(self, task: TaskNumbers) -> None:
        """Searches below a number, and keeps what is found."""
        found = self._spread.prove(task.number, task.budget, self.kept.directions is not None)
        self._writing, self._written = 0, self._written + found.written
        better = _put(self._run, task, AnswerNumbers(found.kind, 0, found.makespan, found.written))
        self._keep(found.sequence if better else None, found if found.kind == PROVED else None)

    def _keep(self, sequence: Optional[bytes], proved: Optional[Found]) -> None:
        """Keeps where the run stands, a better sequence where there is one, and a proof of more where there is one."""
        _, start, best, before, written, directions = self.kept
        if sequence is not None:
            best, before = sequence, best
        if proved is not None:
            written, directions = proved.written, proved.directions
        self.kept = Kept(bytes(self._run), start, best, before, written, directions)

    def _origin(self, task: TaskNumbers) -> bytes:
        """The sequence from which a beam or rounds begin."""
        return (self.kept.start, self.kept.best, self.kept.before)[task.origin]

    def _improve(self, task: TaskNumbers) -> None:
        """Makes a beam or rounds, and keeps the sequence where it is better."""
        key = _words(task), self._origin(task)
        if key not in self._begun:
            self._begun = {}
            self._spread.drop_ahead()
            self._begin()
        reached = self._begun.pop(key)()
        better = _put(self._run, task, AnswerNumbers(REACHED, int(reached.whole), reached.makespan, 0))
        self._keep(reached.sequence if better else None, None)

    def _begin(self) -> None:
        """Begins the beam or the rounds that are next, and, where several may be made at once, those that follow where
        nothing better is reached."""
        run = RunNumbers.from_buffer_copy(self._run)
        while len(self._begun) < self._spread.at_once:
            task = self._next(run)
            if task.kind not in (_BEAM, _ROUNDS):
                return
            words, start = _words(task), self._origin(task)
            name, *options = words
            self._begun[words, start] = self._spread.begin(name, start, *options)
            _put(run, task, AnswerNumbers(REACHED, 0, run.upper, 0))


def begun(run: RunNumbers, start: bytes, has_signs: bool) -> Kept:
    """What a run keeps at its beginning, whose directions are kept or only counted."""
    return Kept(bytes(run), start, start, start, 0, b"" if has_signs else None)


def _put(run: RunNumbers, task: TaskNumbers, answer: AnswerNumbers) -> bool:
    """Tells a run what became of a task that it asked for. Whether the sequence of the answer becomes the best one."""
    better = u32()
    call("run_put", run, task, answer, byref(better))
    return better.value == 1


def _words(task: TaskNumbers) -> _Words:
    """The name and the options of a beam or of rounds."""
    if task.kind == _BEAM:
        return "beam", task.beam.number, task.beam.width, task.beam.steps
    return "rounds", task.rounds.rounds, task.rounds.seed, task.rounds.steps

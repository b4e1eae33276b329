"""The command certify: it certifies blocks of files, with the processors of one machine or of many."""

import argparse
import ctypes
import importlib
import os
import signal
import sys
import threading
import time
from concurrent.futures import BrokenExecutor, CancelledError, ProcessPoolExecutor
from contextlib import closing, contextmanager
from pathlib import Path
from typing import Any, Dict, Iterator, List, NamedTuple, Optional

from ._certify import Effort
from ._errors import NotLawful, OptionError
from ._files import (
    PROVED, WordError, Work, limit_of, make_folder, place_of_old, row_of, save_certificate, whole_of, words_of_blocks,
    works_of
)
from ._library import LIMITS
from ._meter import Meter
from ._options import MOST_KEPT, OF_PARTS, Proof, directions_of
from ._results import Certificate
from ._rows import Row, Table
from ._saving import target_of
from ._spread import Workers
from ._starts import sequences_of
from ._threads import Threads, result_of
from ._waiting import Lines, Running, Watch

_EFFORT = {"width": 4096, "rounds": 10_000, "seed": 1, "work": 8500}
# PR_SET_PDEATHSIG of prctl
_SIGNAL_AT_END_OF_PARENT = 1
# How many seconds a table may take at an interrupt.
_PATIENCE = 2.0
_ABOUT = """Certifies all blocks of files. Each certificate is written to a file of the folder --out, and a line says
what it proves: the gap is (upper - lower) / upper, in percent; cpu_seconds are those of the processor, of all workers,
and seconds are by the clock, while several blocks share the workers. A block whose certificate is there and lawful is
not searched again, also where its bounds differ, so that a run that was stopped goes on with the blocks that are
left."""


def words(parsers: "argparse._SubParsersAction[argparse.ArgumentParser]") -> None:
    """The words of the command."""
    parser = parsers.add_parser("certify", help="certify shops", description=_ABOUT)
    words_of_blocks(parser)
    count = len(os.sched_getaffinity(0))
    about = f"how many share the searches; else, and for -1, {count}"
    parser.add_argument("--workers", type=int, metavar="K", help=about)
    executors = "threads|processes|mpi|dask:ADDRESS"
    parser.add_argument("--executor", default="threads", metavar=executors, help="who they are; else threads")
    limit = "the most seconds of each block; else no limit"
    parser.add_argument("--time-limit", type=float, metavar="S", help=limit)
    start = "begin with the sequence in a file: of a certificate, of what the program prints, or of numbers alone, as "
    start += "3 1 2; for one block"
    begun = parser.add_mutually_exclusive_group()
    begun.add_argument("--start", metavar="FILE", help=start)
    starts = "the same for all blocks: a folder that has such a file for each, of the name of its certificate; or one "
    starts += "file with a line of jobs for each"
    begun.add_argument("--starts", metavar="FOLDER|FILE", help=starts)
    for name, default in {**_EFFORT, "directions": MOST_KEPT}.items():
        about = f"as of Shop.certify; else {default}"
        if name == "directions":
            about += f". With --proof signs at most {LIMITS.max_directions}, with --proof count {LIMITS.max_counted}"
        parser.add_argument(f"--{name}", type=int, default=default, metavar="N", help=about)
    proof = "what each certificate has: a sign for each direction, or their count, for which no memory is needed; else "
    proof += "signs, since a count is tested by a search, which a run that goes on would make again"
    parser.add_argument("--proof", choices=("signs", "count"), default="signs", help=proof)
    parser.set_defaults(run=run)


class _Search(NamedTuple):
    """How blocks are searched: by whom, from which starts, by the path of the certificate, with which numbers and which
    proof, and the lines that say how far it has come."""

    workers: Workers
    starts: Dict[Path, bytes]
    effort: Effort
    directions: int
    proof: Proof
    time_limit: Optional[float]
    lines: Lines


def _begin_work() -> None:
    """Leaves an interrupt of a terminal to the process that gives the tasks. A worker ends where that process does,
    also where it is killed."""
    signal.signal(signal.SIGINT, signal.SIG_IGN)
    ctypes.CDLL(None).prctl(_SIGNAL_AT_END_OF_PARENT, signal.SIGKILL)


def _package(name: str) -> Any:
    """The package of an executor."""
    try:
        return importlib.import_module(name)
    except ImportError as error:
        raise WordError(f"--executor needs a package that is not installed: {error}") from error


@contextmanager
def _workers(executor: str, count: Optional[int]) -> Iterator[Workers]:
    """The workers that words name."""
    kind, _, address = executor.partition(":")
    local = count or len(os.sched_getaffinity(0))
    if executor == "threads":
        threads = Threads(local)
        yield Workers(threads, local)
        threads.close()
    elif executor == "processes":
        pool = ProcessPoolExecutor(local, initializer=_begin_work)
        list(pool.map(int, range(local)))  # they start before any thread does
        yield Workers(pool, local)
        pool.shutdown(wait=False)
    elif executor == "mpi":
        futures, mpi = _package("mpi4py.futures"), _package("mpi4py.MPI")
        with futures.MPIPoolExecutor() as pool:
            yield Workers(pool, count or max(1, mpi.COMM_WORLD.Get_size() - 1))
    elif kind == "dask" and address:
        with _package("distributed").Client(address) as client:
            yield Workers(client, count or max(1, sum(client.ncores().values())))
    else:
        raise WordError(f"--executor is {executor}, and has to be threads, processes, mpi or dask:ADDRESS")


def _unlike(kept: Certificate, proof: Proof) -> str:
    """What is to be said of a certificate that is kept: that its bounds differ, or that it has not the proof that is
    asked for; else nothing."""
    said = [] if kept.optimal else ["its bounds differ"]
    if (kept.kind, proof) in (("counted", "signs"), ("two-ended", "count")):
        said.append("it has signs" if proof == "count" else "it has a count")
    return ", and ".join(said)


def _certified(work: Work, search: _Search) -> Row:
    """The row of a block, whose certificate is written where no lawful one is there."""
    try:
        kept = work.shop._checked(work.path, LIMITS.max_counted, search.workers)
        said = _unlike(kept, search.proof)
        if said:
            search.lines.keep(f"{work.path}: {said}; remove this file, and the block is searched anew")
        return row_of(work, kept)
    except FileNotFoundError:
        pass
    except NotLawful as error:
        again = f"the block is searched again, and this text is kept as {place_of_old(work.path).name}"
        search.lines.keep(f"{work.path}: {error}; {again}")
    begun, meter = time.monotonic(), Meter()
    watch = Watch(search.time_limit, lambda progress: search.lines(f"{work.file} {work.block}: {progress}"))
    start, workers = search.starts.get(work.path), search.workers._replace(meter=meter)
    state = work.shop._begin(start, search.effort, search.directions, watch.is_limited, search.proof)
    found, _ = work.shop._certify(state, workers, watch, search.proof)
    times = meter.seconds(), time.monotonic() - begun
    save_certificate(work.path, found.text)
    return row_of(work, found, times)


@contextmanager
def _one_interrupt() -> Iterator[None]:
    """The first interrupt is raised, and others make no difference until a handler is set anew."""

    def interrupt(*_: object) -> None:
        signal.signal(signal.SIGINT, signal.SIG_IGN)
        raise KeyboardInterrupt

    is_main = threading.current_thread() is threading.main_thread()
    if not is_main or signal.getsignal(signal.SIGINT) is not signal.default_int_handler:
        yield
        return
    signal.signal(signal.SIGINT, interrupt)
    try:
        yield
    finally:
        if signal.getsignal(signal.SIGINT) is interrupt:
            signal.signal(signal.SIGINT, signal.default_int_handler)


def _write_soon(table: Table, lines: Lines) -> None:
    """Writes the table, or says why it is not written."""
    writing = Running(table.write)
    writing.start()
    try:
        if not writing.wait(_PATIENCE):
            raise TimeoutError(f"the table is not written within {_PATIENCE:g} seconds")
        writing.result()
    except OSError as error:
        lines.keep(f"flowshop: {error}")


def _say_stopped(table: Table, count: int, lines: Lines) -> None:
    """Writes the table at an interrupt, where a block is done, and says how many of so many are."""
    done = len(table.rows)
    said = f"stopped: {done} of {count} blocks are done"
    lines.close()
    if done:
        _write_soon(table, lines)
    lines.keep(said if done == count else f"{said}; the same command goes on with the others")


def _stop(table: Table, count: int, lines: Lines) -> None:
    """Does that in a thread, and waits for it a short time: where nobody reads the output, the process ends too."""
    saying = Running(lambda: _say_stopped(table, count, lines))
    saying.start()
    saying.wait(2 * _PATIENCE)


def _all_certified(works: List[Work], table: Table, search: _Search) -> None:
    """Certifies blocks, as many at once as there are workers, prints their rows in order, and writes the table. At an
    interrupt it has the rows of the blocks that are done, also where they are not printed yet."""
    threads = Threads(max(1, min(len(works), search.workers.size)))
    at_once = max(1, min(4, search.workers.size // max(1, len(works))))
    search = search._replace(workers=search.workers._replace(at_once=at_once))
    done: Dict[int, Row] = {}

    def certify(place: int) -> None:
        done[place] = _certified(works[place], search)

    try:
        for place, begun in enumerate([threads.submit(certify, place) for place in range(len(works))]):
            result_of(begun)
            with search.lines.taken_back():
                table.add(done[place])
        table.end()
    except KeyboardInterrupt:
        table.rows = [done[place] for place in sorted(done)]
        _stop(table, len(works), search.lines)
        signal.signal(signal.SIGINT, signal.default_int_handler)  # another one ends a wait for workers elsewhere
        raise
    threads.close()


def _starts(works: List[Work], start: Optional[str], starts: Optional[str]) -> Dict[Path, bytes]:
    """The sequences from which searches begin, by the paths of certificates. WordError where there is not one for each
    block, and where one start is given for several."""
    if starts is not None:
        return {work.path: sequence for work, sequence in sequences_of(works, starts, "--starts", may_be_many=False)}
    if start is None:
        return {}
    if len(works) != 1:
        raise WordError(f"--start is for one block, and there are {len(works)}; --starts is for several")
    return {works[0].path: works[0].shop._packed(Path(start), None)}


def _directions_of(options: argparse.Namespace) -> int:
    """The number of --directions. WordError where it is not within its limits."""
    try:
        return directions_of(options.directions, options.proof)
    except OptionError as error:
        more = "; --proof count asks for one" if options.proof == "signs" else ""
        raise WordError(f"--{error}{more}") from None


def run(options: argparse.Namespace) -> int:
    """Runs the command."""
    effort = Effort(*(whole_of(name, getattr(options, name)) for name in _EFFORT))
    directions = _directions_of(options)
    count = None if options.workers in (None, -1) else whole_of("workers", options.workers, OF_PARTS)
    limit = limit_of(options)
    works = works_of(options)
    starts = _starts(works, options.start, options.starts)
    if not all(work.path.is_file() for work in works):
        make_folder(options.out)
    for work in works:
        target_of(str(work.path))  # OSError where a link of another user stands there
    try:
        with _one_interrupt(), _workers(options.executor, count) as workers, closing(Lines(sys.stderr)) as lines:
            table = Table(PROVED, options.files, options, sys.stdout)
            _all_certified(works, table, _Search(workers, starts, effort, directions, options.proof, limit, lines))
    except (BrokenExecutor, CancelledError) as error:
        Lines(sys.stderr).keep(f"flowshop: a worker has ended: {error}")
        return 1
    return 0

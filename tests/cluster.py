"""Searches that are shared by threads, by processes, by workers of dask and of MPI: they give the text of one call, can
be stopped, and say what went wrong. A word says which part is run: `local`, `dask` or `mpi`; `command EXECUTOR RUN..`,
the commands by an executor, where other words than python3 run them; or `lost`, which does not end by itself."""

import argparse
import asyncio
import concurrent.futures
import contextlib
import csv
import hashlib
import io
import json
import os
import pathlib
import pickle
import pty
import random
import re
import shutil
import signal
import subprocess
import sys
import tempfile
import threading
import time
from importlib.util import find_spec
from unittest import mock

from counts import BLOCKS, TOP, command, end, equal, refused
from reference import Search

import flowshop
from flowshop import Interrupted, Shop, _certify, _command_certify, _files, _library, _parts, _rows, _spread, _texts
from flowshop import _tasks, _threads, _waiting
from flowshop.__main__ import main

# A shop whose least makespan no search of a test proves.
HARD = Shop.generate(30, 15, 7)
SOME = Shop.generate(20, 10, 1)
FEW = {"width": 20, "rounds": 20, "seed": 3, "work": 7, "directions": 30_000}
LONG = {"width": 16, "rounds": 10, "work": 1, "directions": 1_000_000_000, "proof": "signs"}
COUNTS = {**LONG, "directions": 10**15, "proof": "count"}
# A table of an earlier run.
OLD = (
    "file,block,seed,jobs,machines,lower,upper,gap,optimal,kind,directions,sequence,cpu_seconds,seconds,sha256\n"
    "older,0,0,1,1,1,1,0.000,true,two-ended 1,0,1,,,\n"
)


class Shuffled:
    """An executor that makes its calls in a drawn order, in one thread."""

    def __init__(self, seed):
        self.draw, self.left, self.thread = random.Random(seed), [], concurrent.futures.ThreadPoolExecutor(1)

    def submit(self, call, *words):
        """Begins a call."""
        future = concurrent.futures.Future()
        self.left.append((future, call, words))
        self.thread.submit(self.make)
        return future

    def make(self):
        """Makes one of the calls that are left."""
        _threads._make(*self.left.pop(self.draw.randrange(len(self.left))))


def small_tasks(seconds=0.0005):
    """Tasks that are as short as they can be, so that small searches have many."""
    pieces = mock.patch.object(_parts, "_PIECE", int(15_000_000 * min(1, 100 * seconds)))
    tasks = mock.patch.multiple(_spread, _LONG=seconds, _LONG_ELSEWHERE=seconds, _SHORT=seconds / 4)
    stack = contextlib.ExitStack()
    stack.enter_context(pieces)
    stack.enter_context(tasks)
    return stack


def drawn_runs():
    """Shops of all kinds, and numbers for their runs: few and many jobs and machines, small times, times of which many
    are equal or 0, and times so great that makespans are above 65,535. Of great times the number that a budget proves
    depends on each direction of it. The last four end in steps that are rare."""
    draw = random.Random(9)
    for number in range(116):
        jobs, machines = draw.randint(5, 30), draw.choice([2, 3, 4, 5, 8, 12, 20])
        kinds = [lambda: draw.randint(1, 99), lambda: draw.randint(1, 4), lambda: draw.choice([0, 0, 1, 50])]
        kinds.append(lambda: draw.randint(5000, 20_000))
        shop = Shop.from_machines([[kinds[number % 4]() for _ in range(jobs)] for _ in range(machines)])
        choice = {"width": draw.choice([0, 5, 16, 37, 150]), "rounds": 20, "work": draw.choice([0, 1, 7, 30])}
        choice.update(seed=draw.randint(1, 99), directions=draw.choice([1, 1000, 29_999, 200_000]))
        if number < 16 or number in (38, 83, 104, 115):
            yield shop, choice
    for _ in range(18):
        most = draw.choice([3000, 6000, 999_999])
        jobs, machines = draw.randint(12, 20), draw.randint(6, 20)
        shop = Shop.from_machines([[draw.randint(0, most) for _ in range(jobs)] for _ in range(machines)])
        choice = {"width": draw.choice([0, 16, 24]), "rounds": 5, "work": 1, "seed": draw.randint(1, 99)}
        yield shop, {**choice, "directions": draw.randint(3000, 40_000)}
    for _ in range(2):
        shop = Shop.from_machines([[draw.randint(0, 3000) for _ in range(14)] for _ in range(10)])
        yield shop, {"width": 0, "rounds": 5, "work": 1, "seed": 1, "directions": draw.randint(1_000_000, 2_500_000)}


def one_call(shop, width, rounds, seed, work, directions):
    """What the call flowshop_certify finds."""
    jobs = (_library.u16 * shop.jobs)()
    effort, bounds = _library.EffortNumbers(width, rounds, seed, work), _library.BoundsRoom(jobs, shop.jobs)

    def write(room):
        shop._call("certify", shop._begun(None), effort, directions, bounds, room)

    return shop.check(_texts.written(3300 + directions, write))


def with_count(text):
    """The counted certificate that proves what a two-ended one proves, by plain code."""
    _, *lines, directions, last, _ = text.split(b"\n")
    return b"\n".join([b"flowshop counted 1", *lines, str(len(directions)).encode(), last, b""])


def counted_text(shop, start, lower, count):
    """A counted text with a sequence, a lower bound and a count, whether they are right or not."""
    lines = "flowshop counted 1", f"{shop.jobs} {shop.machines}", f"{lower} {start.value}", start.sequence, count, "end"
    return "".join(f"{' '.join(map(str, line)) if type(line) is tuple else line}\n" for line in lines)


def compare_checks(executor):
    """A check whose search is shared says what one call says."""
    start = SOME.neh()
    lower = start.value - 1
    with small_tasks(0.002):
        while type(SOME.prove(lower)) is not flowshop.Proved:
            lower -= 1
        above = start.value + 1
        count, before = (len(SOME.prove(number).directions) for number in (lower, above))
        for number, stated, wanted in [
            (lower, count, (lower, start.value)), (lower, count - 1, "TREE"), (lower, count + 1, "TREE"),
            (above, before, "LOW"), (above, before - 1, "TREE"),
        ]:
            text = counted_text(SOME, start, number, stated)
            for workers in (1, executor):
                got = refused(Shop.generate(20, 10, 1).check, text, workers=workers)
                got = got[1] if isinstance(got, tuple) else (got.lower, got.upper)
                equal(f"a check of {stated} nodes below {number} by {workers}", got, wanted)
        right = counted_text(SOME, start, lower, count)
        for text, most, wanted in [
            (right, count - 1, "MOST"), (right, count, (lower, start.value)), (right[:-1], count, "END"),
            (right.replace("end", "ends"), count, "END"), (right.replace("end", "ends"), count - 1, "MOST"),
        ]:
            for workers in (1, executor):
                got = refused(Shop.generate(20, 10, 1).check, text, most=most, workers=workers)
                got = got[1] if isinstance(got, tuple) else (got.lower, got.upper)
                equal(f"a check of {text[-9:]!r} with {most} nodes at most by {workers}", got, wanted)


def compare_texts(pool):
    """The text of a run, whoever makes its searches, is that of one call of the library; with a count it proves the
    same."""
    steps = set()
    ways = [
        ("one worker", {}), ("three threads", {"workers": 3}), ("another order", {"workers": Shuffled(7)}),
        ("processes", {"workers": pool}),
    ]
    for shop, choice in drawn_runs():
        wanted = one_call(shop, **choice)
        is_long = choice["directions"] > 200_000
        with small_tasks(0.05 if is_long else 0.0005):
            for name, words in ways[1:2] if is_long else ways:
                reports = []
                got = shop.certify(**choice, **words, progress=reports.append)
                equal(f"the text of {shop!r} by {name} with {choice}", got.text == wanted.text, True)
                equal(f"what {name} say of it", (got, reports[-1].lower), (wanted, wanted.lower))
                steps.add(reports[-1].step)
                counts = []
                got = shop.certify(**choice, **words, proof="count", progress=counts.append)
                equal(f"a count of {shop!r} by {name} with {choice}", got.text == with_count(wanted.text), True)
                told = [(each.step, each.lower, each.upper, each.directions) for each in (counts[-1], reports[-1])]
                equal(f"what {name} say of the count", told[0], told[1])
    equal("that runs end in many steps", steps, {1, 2, 3, 5, 8})


class Traced:
    """In the place of shared searches: what is asked of them. Searches, beams and rounds come to nothing but what
    `given` has for their words; then these give their start back, whose makespan is `value`."""

    asked, given, value = [], {}, SOME.neh().value
    at_once = 1

    def __init__(self, *_):
        self.asked.clear()

    def __enter__(self):
        return self

    def __exit__(self, *_):
        pass

    def drop_ahead(self):
        """Drops nothing."""

    def prove(self, number, budget, has_signs):
        """A search."""
        equal("that signs are kept", has_signs, True)
        self.asked.append((number, budget))
        return self.given.get((number, budget), _spread.Found(_parts.OVER, budget))

    def begin(self, name, start, *words):
        """A beam, or rounds."""
        self.asked.append((name, *words))
        reached = self.given.get((name, *words), _parts.Reached(start, self.value, False))
        return lambda: reached


def taillard_bound(shop):
    """Taillard's lower bound, as the call flowshop_run gives it."""
    return _parts.Instance(*shop._parts[:3]).run(shop._in_order(), 1, False).least


# The numbers of runs that are followed: all of them have 12,000,000 steps for a beam.
FOLLOWED = {"width": 100, "rounds": 30, "seed": 3, "work": 17, "directions": 10_000_000}
FOLLOWED["workers"] = _threads.Here()


def halves(lesser, greater):
    """The beams of step 7 that come to nothing: the middle replaces the lesser number."""
    while greater - lesser > 1:
        lesser += (greater - lesser) // 2
        yield "beam", lesser, 25, 6_000_000


def follow_manual():
    """The searches of a run that comes to nothing, with their budgets, and its beams and rounds, with their steps, by
    docs/manual.md. Some numbers, for 20 jobs on 10 machines and 10,000,000 directions: all searches have 850 of 650
    parts of these, 13,076,923, of which each takes 20 x 20 / 3 = 133 more than it writes; of 17,000,000 steps beams
    have 12,000,000."""
    upper, lower = SOME.neh().value, SOME.bound()
    wanted = [
        *[(upper, 10_000), (upper, 100_000), ("beam", 0, 16, 12_000_000), ("beam", 0, 100, 12_000_000)],
        *[(upper, 1_000_000), ("rounds", 30, 3, 4_000_000)],
        *[(lower + 1, 10_000), (lower + 1, 333_333), ("beam", lower + 1, 800, 48_000_000)],
        *[*halves(lower + 1, upper), (upper, 10_000_000), (lower + 1, 1_000_000)],
    ]
    with mock.patch.object(_certify, "Spread", Traced):
        SOME.certify(**FOLLOWED)
        equal("the searches of a run", Traced.asked, wanted)
        SOME.certify(**FOLLOWED, time_limit=1000)
        early = [*wanted[:2], (lower + 1, 10_000), *wanted[2:6], (lower + 1, 100_000), *wanted[6:]]
        equal("the searches of a run with a time limit", Traced.asked, early)
        # Of a million all searches have 1,307,693, and those of steps 1 to 4 half of them, which the third one uses up.
        SOME.certify(**{**FOLLOWED, "directions": 1_000_001})
        budgets = [budget for _, budget, *more in Traced.asked if not more]
        cut = [653_847 - 110_000 - 2 * 133, 653_846 - 43_333 - 2 * 133]
        equal("budgets that are cut off", budgets, [10_000, 100_000, cut[0], 10_000, 33_333, cut[1]])
        # The beam comes to a better sequence, and rounds from the start to one that has Taillard's bound.
        least = taillard_bound(SOME)
        better = [_parts.Reached(SOME._in_order(), makespan, makespan == least) for makespan in (upper - 1, least)]
        given = {("beam", 0, 100, 12_000_000): better[0], ("rounds", 30, 3, 1_000_000): better[1]}
        with mock.patch.object(Traced, "given", given):
            equal("what is taken", SOME.certify(**FOLLOWED).upper, least)
        rounds = [words for words in Traced.asked if words[0] == "rounds"]
        equal("rounds after that", rounds, [("rounds", 30, 3, 1_000_000)])
    long = Shop.from_jobs([[9, 9, 9], [1, 1, 1]])
    equal("bounds without a search", (long.bound(), taillard_bound(long)), (12, 27))


def compare_searches():
    """What a search comes to whose parts are shared is what plain code comes to, with each budget."""
    draw = random.Random(7)
    kinds = set()
    for _ in range(16):
        jobs, machines = draw.randint(4, 7), draw.randint(2, 5)
        rows = [[draw.randint(1, 30) for _ in range(jobs)] for _ in range(machines)]
        shop, plain = Shop.from_machines(rows), Search((jobs, machines, sum(rows, [])))
        least = shop.certify(**FEW).upper
        for number in (least - 1, least, least + 1):
            text, reached = plain.search(number)
            text = text.encode()
            for budget in sorted({1, 2, 7, max(1, len(text) - 1), len(text), len(text) + 1, 1000}):
                wanted = (_parts.PROVED, len(text), text, ())
                if len(text) > budget:
                    wanted = _parts.OVER, budget, None, ()
                elif reached:
                    wanted = _parts.BELOW, len(text), None, reached
                workers = _spread.Workers(draw.choice([None, Shuffled(budget)]), draw.randint(1, 5))
                with small_tasks(draw.choice([1e-6, 1e-4])), _spread.Spread(shop._parts[:3], workers, int) as spread:
                    for has_signs in (True, False):
                        found = spread.prove(number, budget, has_signs)
                        got = *found[:3], tuple(memoryview(found.sequence).cast("H"))
                        kept = wanted[2] if has_signs else None
                        equal(f"a search of {rows} below {number} with {budget}", got, (*wanted[:2], kept, wanted[3]))
                        kinds.add((found.kind, has_signs))
                compare_parts(shop, number, budget, text, reached)
    wanted = {(kind, has_signs) for kind in (_parts.PROVED, _parts.BELOW, _parts.OVER) for has_signs in (True, False)}
    equal("that all comes out", kinds, wanted)


def compare_parts(shop, number, budget, text, reached):
    """The directions of parts, one after the other, are those of plain code, and so is the first sequence."""
    left, got, found = [((), ())], b"", None
    while left:
        (front, back), *left = left
        found = shop.prove(number, front=front, back=back, budget=budget)
        got += found.directions
        if isinstance(found, flowshop.Below):
            break
        if isinstance(found, flowshop.Over):
            equal("that the budget is used", len(found.directions), budget)
            left = [node for part in found.parts for node in part.nodes()] + left
    equal(f"the parts of a search below {number} by {budget}", got, text)
    equal("what they come to", getattr(found, "sequence", None), reached)


def first(number):
    """A number, from another process."""
    return number


def lawful(shop, found):
    """Whether a certificate is lawful, and says what it proves."""
    return shop.check(found.text) == found and found.lower <= found.upper


def keep_time(pool):
    """A run ends soon after its time limit, with lawful bounds, and its pool is as before."""
    for limit in (0, 0.1, 2):
        for name, words in [("one", LONG), ("threads", {**LONG, "workers": 3}),
                            ("processes", {**LONG, "workers": pool}), ("who count", {**COUNTS, "workers": pool})]:
            begun = time.monotonic()
            reports = []
            found = HARD.certify(**words, time_limit=limit, progress=reports.append)
            seconds = time.monotonic() - begun
            equal(f"{name}: {seconds:.2f} s for {limit} s", limit <= seconds + 0.01 < limit + 1, True)
            equal(f"what {name} give after {limit} s", lawful(HARD, found), True)
            equal("the last report", (reports[-1].lower, reports[-1].upper), (found.lower, found.upper))
            equal("that there are a few in a second", len(reports) <= 2 + 6 * limit, True)
    equal("a pool after that", list(pool.map(first, range(9))), list(range(9)))
    # Before the first beam a run with a time limit has raised the lower bound as far as 10,000 directions prove it.
    for limit in (None, 1000):
        with mock.patch.object(_spread.Spread, "begin", side_effect=KeyboardInterrupt):
            try:
                found = HARD.certify(time_limit=limit)
            except Interrupted as stopped:
                found = stopped.result
        equal(f"before the first beam, within {limit} s", (lawful(HARD, found), found.optimal), (True, False))
        equal(f"the bound within {limit} s", found.lower > HARD.bound(), limit is not None)
        kinds = [type(HARD.prove(found.lower + more, budget=10_000)) for more in (0, 1)]
        equal(f"how far it goes within {limit} s", kinds[1] == flowshop.Over, limit is not None)
        equal(f"that it is proved within {limit} s", kinds[0], flowshop.Proved)
    begun = time.monotonic()
    better = HARD.improve(time_limit=0.3)
    equal("improve in time", time.monotonic() - begun < 1.3, True)
    equal("what it gives", HARD.makespan(better) == better.value <= HARD.neh().value, True)
    for rounds, seed in [(0, 1), (0, 2), (20, 3), (20, 4)]:
        shop, choice = Shop.generate(40, 10, seed), {"width": 600, "rounds": rounds, "work": 100}
        equal(f"improve {shop!r} with time", shop.improve(**choice, time_limit=1000), shop.improve(**choice))


class Stream(io.StringIO):
    """Standard error, as a terminal or not."""

    def __init__(self, is_terminal):
        super().__init__()
        self.isatty = lambda: is_terminal


def stopped_after(tasks, call):
    """The certificate of a run that is interrupted before it is asked for so many tasks, or that has ended before."""
    asked = iter(range(tasks))
    ask = _certify.Run._next

    def next_of(self, run):
        if next(asked, None) is None:
            raise KeyboardInterrupt
        return ask(self, run)

    with mock.patch.object(_certify.Run, "_next", next_of):
        try:
            return call()
        except Interrupted as stopped:
            return stopped.result


def resume_runs():
    """Runs that are stopped at drawn moments and gone on with, by a certificate, a state and a file of it: what is kept
    is lawful at each, and the text is that of a run that was not stopped."""
    draw, ended, stops = random.Random(11), 0, {"signs": 0, "count": 0}
    for shop, choice in drawn_runs():
        if choice["directions"] > 200_000:
            continue
        wanted = one_call(shop, **choice).text
        equal("the state of a run that has ended", shop.certify(**choice).state, None)
        for proof, text in (("signs", wanted), ("count", with_count(wanted))):
            words = {**choice, "proof": proof}
            found = stopped_after(draw.randint(0, 9), lambda: shop.certify(**words, workers=draw.randint(1, 2)))
            while found.state is not None:
                equal("what a run keeps that is stopped", lawful(shop, found), True)
                last = found.state.rpartition(b"\n")[2]
                kept = len(last) if proof == "signs" else int(last)
                equal("the directions that it keeps", (kept, last.isdigit()), (found.count, proof == "count"))
                stops[proof] += 1
                with tempfile.TemporaryDirectory() as folder:
                    path = pathlib.Path(folder, "state")
                    path.write_bytes(found.state)
                    words = {"resume": draw.choice([found, found.state, path]), "workers": draw.randint(1, 2)}
                    found = stopped_after(draw.randint(1, 9), lambda: shop.certify(**words))
            ended += 1
            equal(f"the {proof} of {shop!r} with {choice}, gone on with", found.text == text, True)
    equal("that there are such runs", (ended >= 40, min(stops.values()) >= 20), (True, True))


def set_token():
    """A token that is set."""
    token = threading.Event()
    token.set()
    return token


def stop_by_token():
    """A token ends a run soon, also one that is set while the run goes on, by another thread or by a loop of asyncio;
    what it leaves is lawful, and has a state that pickle keeps."""

    def later(token):
        threading.Timer(0.3, token.set).start()
        return HARD.certify(**LONG, token=token)

    async def by_loop(token):
        running = asyncio.ensure_future(asyncio.to_thread(HARD.certify, **LONG, token=token))
        await asyncio.sleep(0.3)
        token.set()
        return await running

    for name, after, call in [
        ("set before", 0, lambda token: HARD.certify(**LONG, token=set_token())), ("set by a thread", 0.3, later),
        ("set by a loop", 0.3, lambda token: asyncio.run(by_loop(token))),
    ]:
        begun = time.monotonic()
        found = call(threading.Event())
        seconds = time.monotonic() - begun
        equal(f"a run with a token {name}: {seconds:.2f} s", after <= seconds < after + 1, True)
        equal(f"what a token leaves that is {name}", (lawful(HARD, found), found.optimal), (True, False))
        kept = pickle.loads(pickle.dumps(found))
        equal(f"its state, as pickle keeps it, {name}", (type(found.state), kept.state), (bytes, found.state))
        further = HARD.certify(resume=kept, token=set_token())
        equal("what goes on with it", (further.lower >= found.lower, further.upper <= found.upper), (True, True))
    # A search that sees the stop and ends before it is looked at once more.
    wait = _waiting.Running.wait
    with mock.patch.object(_waiting.Running, "wait", lambda self, more=None: wait(self, 20 if more == 0 else more)):
        found = HARD.certify(**LONG, token=set_token())
    equal("a search that ends at the stop", (lawful(HARD, found), found.state is None), (True, False))


def wrong_states(state, other, above):
    """States that are none, each with what it is. Most differ in one thing from a state that is taken; the other one is
    of another shop of its size. A lower bound is wrong that is so much above the one that is proved."""
    head, named, called, numbers, *lists, directions = state.split(b"\n")

    def but(place, line):
        """The state with another line."""
        lines = [head, named, called, numbers, *lists, directions]
        lines[place] = line
        return b"\n".join(lines)

    great = b" ".join([*called.split()[:-1], b"2000000000"])
    yield "signs of a run that counts", b"\n".join([head, named, great, numbers, *lists, b""])
    for name, more in (("lower", above), ("upper", 1)):
        run = _library.RunNumbers.from_buffer_copy(bytes.fromhex(numbers.decode()))
        setattr(run, name, getattr(run, name) + more)
        yield f"a bound that is not proved, {name}", but(3, bytes(run).hex().encode())
    for place, line in enumerate(lists):
        yield f"a sequence {place} with a job twice", but(4 + place, b" ".join([line.split()[1], *line.split()[1:]]))
        yield f"a sequence {place} that is short", but(4 + place, line[2:])
    yield from [
        ("another version", but(0, b"flowshop run 1.9.9")), ("other times", but(1, other.split(b"\n")[1])),
        ("other numbers", but(2, called + b"0" * 9)), ("another shop of its size", other),
        ("another shop", SOME.certify(**LONG, time_limit=0).state), ("no bytes", b""),
        ("one that is cut off", state[: len(state) // 2]), ("no directions", but(7, directions + b"x")),
        ("more directions than a run writes", but(7, b"1%b" % called.split()[-1])),
        ("a run that has ended", HARD.certify(**{**LONG, "directions": 10, "work": 0})),
    ]


def refuse_states():
    """A state that is taken, those that are none, and what is not given with one. The checker reads signs, in a thread
    that an interrupt leaves. Of a count it does not make the search again: the lower bound is refused where it is above
    the upper one."""
    token = set_token()
    for words, read, above in ((LONG, [False], 1), (COUNTS, [], HARD.neh().value)):
        state, other = (shop.certify(**words, token=token).state for shop in (HARD, Shop.generate(30, 15, 8)))
        check, readers = Shop.check, []
        with mock.patch.object(Shop, "check", lambda *words: readers.append(threading.get_ident()) or check(*words)):
            found = HARD.certify(resume=state, token=token)
        equal("a state that is taken", lawful(HARD, found), True)
        equal("who reads it", [reader == threading.get_ident() for reader in readers], read)
        said = f"resume is no state of a run of this shop by flowshop {flowshop.__version__}"
        for name, wrong in wrong_states(state, other, above):
            got = refused(HARD.certify, resume=wrong, token=token)
            got = (*got[:3], got[3].split(";")[0]) if type(got) is tuple else got
            equal(f"a state that is none: {name}", got, ("OptionError", "RESUME", 0, said))
    equal("what is no text", refused(HARD.certify, resume=HARD.neh, token=token), TypeError)
    for words in ({"start": HARD.neh()}, {"by": "number"}):
        got = refused(HARD.certify, **words, resume=state, token=token)
        wanted = "OptionError", "RESUME", 0, "resume has a start of its own: leave out start and by"
        equal(f"a state and {[*words]}", got, wanted)


def show_progress():
    """Lines on standard error: one that a terminal writes anew, else at most two in a second; and always a last one."""
    for is_terminal in (True, False):
        stream = Stream(is_terminal)
        with mock.patch.object(sys, "stderr", stream):
            found = HARD.certify(**LONG, time_limit=1.3, progress=True)
        *lines, last = stream.getvalue().rstrip("\n").split("\r" if is_terminal else "\n")
        equal("what is said last", f": bounds {found.lower} to {found.upper}, " in last, True)
        equal("how many lines there are", 2 <= len(lines) <= (8 if is_terminal else 4), True)
        equal("that they are ended", stream.getvalue().count("\n"), 1 if is_terminal else len(lines) + 1)
        equal("what is left of the last line", stream.getvalue().count("\x1b[K"), len(lines) if is_terminal else 0)
        stream = Stream(is_terminal)
        lines = _waiting.Lines(stream)
        for write, line in [(lines.keep, "first"), (lines, "far"), (lines.keep, "other"), (lines, "farther")]:
            write(line)
        lines.close()
        lines("farthest")
        wanted = "first\nfar\nother\n"
        if is_terminal:
            # A terminal shows each in one row, however long it is.
            far, farther = (f"\r\x1b[?7l{word}\x1b[K\x1b[?7h" for word in ("far", "farther"))
            wanted = f"first\n{far}\r\x1b[Kother\n{farther}\r\x1b[K"
        equal("lines between lines that say how far it is", stream.getvalue(), wanted)


def interrupt(seconds, call):
    """The error of a call at an interrupt after so many seconds, and how long it went on. The process is interrupted as
    a terminal does it."""
    sent = []

    def send():
        sent.append(time.monotonic())
        os.kill(os.getpid(), signal.SIGINT)

    timer = threading.Timer(seconds, send)
    try:
        timer.start()
        call()
        error = None
    except KeyboardInterrupt as stopped:
        error = stopped
    after = time.monotonic()
    timer.join()
    return error, after - sent[0]


def interrupt_runs(pool):
    """An interrupt at any moment ends a run within a second, with the best so far."""
    draw = random.Random(8)
    ways = [
        ("one call", lambda: HARD.certify(**{**LONG, "width": 64})),
        ("one", lambda: HARD.certify(**COUNTS, time_limit=100)), ("threads", lambda: HARD.certify(**LONG, workers=3)),
        ("processes", lambda: HARD.certify(**LONG, workers=pool)), ("improve", HARD.improve),
    ]
    for number in range(20):
        name, call = ways[number % 5]
        error, seconds = interrupt(0.001 if number < 5 else draw.uniform(0.1, 0.5), call)
        equal(f"how soon {name} end: {seconds:.2f} s", seconds < 1, True)
        if number < 5 and type(error) is KeyboardInterrupt:
            continue  # it came before the search began
        equal(f"an interrupt of {name}", type(error), Interrupted)
        result = error.result
        is_right = lawful(HARD, result) if name != "improve" else HARD.makespan(result) == result.value
        equal(f"what {name} leave", is_right, True)
    error, seconds = interrupt(3, HARD.certify)
    equal("an interrupt of certify", (type(error), seconds < 1), (Interrupted, True))
    equal("what is better than the start", error.result.upper < HARD.neh().value, True)
    error, seconds = interrupt(0.2, lambda: HARD.solve(budget=100_000_000))
    equal("an interrupt of solve", (type(error), seconds < 1), (KeyboardInterrupt, True))
    error, seconds = interrupt(0.2, lambda: HARD.prove(HARD.neh().value - 60, budget=1_000_000_000))
    equal("an interrupt of prove", (type(error), seconds < 1), (KeyboardInterrupt, True))
    text = counted_text(HARD, HARD.neh(), HARD.neh().value - 120, 10**10)  # it takes seconds
    for workers in (1, 2, pool):
        error, seconds = interrupt(0.2, lambda: HARD.check(text, workers=workers))
        equal("an interrupt of check", (type(error), seconds < 1), (KeyboardInterrupt, True))
    equal("a pool after that", list(pool.map(first, range(9))), list(range(9)))

    for call, wanted in [
        (lambda: HARD.certify(**LONG, time_limit=30), Interrupted),
        (lambda: _threads.result_of(_threads.Threads(1).submit(time.sleep, 5)), KeyboardInterrupt),
    ]:
        try:
            error, seconds = interrupt(0.2, lambda: masked(call))
        finally:
            signal.pthread_sigmask(signal.SIG_UNBLOCK, {signal.SIGINT})
        equal(f"an interrupt that a wait does not see: {seconds:.2f} s", (type(error), seconds < 1), (wanted, True))


def masked(call):
    """Makes a call in a thread that is not given the signal, as where it comes just before a wait begins."""
    signal.pthread_sigmask(signal.SIG_BLOCK, {signal.SIGINT})
    call()


def stop_threads():
    """Searches that are left behind do not keep a process from ending, nor does one in a thread that is a daemon."""
    code = (
        "import threading, time\nfrom flowshop import Shop\nshop = Shop.generate(30, 15, 7)\n"
        "threading.Thread(target=shop.certify, daemon=True).start()\n"
        "print(shop.certify(workers=3, time_limit=0.5, directions=1_000_000_000).optimal, time.time())"
    )
    run = subprocess.run([sys.executable, "-c", code], capture_output=True, text=True, timeout=60, check=False)
    is_optimal, ended = run.stdout.split()
    equal("a process that ends", (run.returncode, is_optimal, run.stderr), (0, "False", ""))
    equal("how soon it ends", time.time() - float(ended) < 1, True)


def use_eight_threads():
    """Eight threads at once, each of which has workers."""
    shops = [Shop.generate(9, 6, seed) for seed in range(1, 9)]
    wanted = [shop.certify(**FEW).text for shop in shops]
    with small_tasks(), concurrent.futures.ThreadPoolExecutor(8) as pool:
        got = list(pool.map(lambda shop: shop.certify(**FEW, workers=2).text, shops))
    equal("eight threads", got, wanted)


def lose_worker():
    """A process of a pool that is killed: the error of the pool, and no search that hangs."""
    for seconds in (0.05, 0.5):
        with concurrent.futures.ProcessPoolExecutor(2) as pool, small_tasks(0.02):
            list(pool.map(first, range(4)))
            timer = threading.Timer(seconds, os.kill, [next(iter(pool._processes)), signal.SIGKILL])
            timer.start()
            begun = time.monotonic()
            try:
                got = HARD.certify(**LONG, workers=pool, time_limit=60)
            except concurrent.futures.BrokenExecutor as error:
                got = type(error).__name__
            equal("the error of a killed process", got, "BrokenProcessPool")
            equal("how soon it comes", time.monotonic() - begun < seconds + 10, True)


def cut_parts():
    """Parts as runs of a weight, where a node weighs a fifth of one that has placed a job less: up to 400 such levels,
    so that deeper nodes have a weight too."""
    deep, shallow = (_parts.PackedPart(b"12" * depth, b"34", end, b"56" * size) for depth, end, size in
                     ((3, _parts.FRONT, 5), (2, _parts.BACK, 2)))
    node = _parts.PackedPart(b"12" * 3, b"3456", 0, b"")
    # Five nodes of 0.00032, two of 0.0016, and one of 0.00032.
    equal("what they weigh", round(_spread.weight_of_all([deep, shallow, node]), 6), 0.00512)
    levels = [_parts.PackedPart(b"12" * depth, b"", 0, b"") for depth in range(1, 801)]
    for parts, least, most, wanted in [
        ([], 1.0, 3, []), ([node], 1.0, 3, [[1]]), ([deep, shallow], 0.0015, 9, [[5], [1], [1]]),
        ([deep, shallow], 0.0017, 9, [[5, 1], [1]]), ([deep, shallow], 0.0015, 1, [[5], [2]]),
        ([deep, shallow], 0.0015, 0, [[5, 2]]), ([deep, shallow], 0.001, 9, [[4], [1, 1], [1]]),
        ([deep, node, shallow], 0.0018, 9, [[5, 1], [2]]), ([shallow, deep], 0.0015, 9, [[1], [1], [5]]),
        ([deep, shallow], 0.0, 9, [[1]] * 7), ([deep, shallow], 0.0, 3, [[1], [1], [1], [2, 2]]),
        (levels, 0.1, 9, [[1], [1] * 799]), (levels[::-1], 0.1, 9, [[1] * 800]),
    ]:
        runs = list(_spread.runs_of(parts, least, most))
        got = [[part.size() for part in run] for run in runs]
        equal(f"{most} runs of {len(parts)} parts of {least}", got, wanted)
        nodes = [node for run in runs for part in run for node in part.nodes()]
        equal(f"the nodes of these {most}", nodes, [node for part in parts for node in part.nodes()])


def drop_calls():
    """What becomes of calls that nobody waits for: a future that can be released is, also where it cannot be cancelled,
    and another one is cancelled. Rounds that have ended are none of them."""
    for names, wanted in [(["cancel"], "cancel"), (["release"], "release"), (["cancel", "release"], "release")]:
        future = mock.Mock(spec=[*names, "add_done_callback"])
        calls = _spread.Calls(mock.Mock(**{"submit.return_value": future}), None)
        calls.begin(first, 1)
        calls.drop()
        got = [name for name in names if getattr(future, name).called], len(calls)
        equal(f"a call that is dropped of a future with {names}", got, ([wanted], 0))
    start = SOME._in_order()
    with _spread.Spread(SOME._parts[:3], _spread.Workers(None, 2), int) as spread:
        waits = [spread.begin("rounds", start, 2, seed, 10**6) for seed in (1, 2)]
        counts = [(len(spread._ahead), wait().makespan > 0, len(spread._ahead)) for wait in waits]
    equal("rounds that are waited for", counts, [(2, True, 1), (1, True, 0)])


class Faulty:
    """An executor whose calls go through a fault, which is given a call and its word; or where there is none, each
    third of which never ends."""

    def __init__(self, fault=None):
        self.fault, self.count = fault, 0

    def submit(self, call, word):
        """Begins a call."""
        self.count += 1
        if self.fault:
            return _threads.Here().submit(self.fault, call, word)
        return _threads.Here().submit(call, word) if self.count % 3 else concurrent.futures.Future()


def fail_twice(call, word):
    """A fault: a call fails the first two times."""
    if (word.times if isinstance(word, _tasks.Task) else word[0]) < 2:
        raise ZeroDivisionError
    return call(word)


def fail_always(*_):
    """A fault: each call fails."""
    raise ZeroDivisionError


def turn(call, word):
    """A fault: an answer to another task."""
    answer = call(word)
    return answer._replace(place=answer.place + 1) if isinstance(answer, _tasks.Answer) else answer


def lose_results():
    """Executors whose calls fail, which are made again, three times in all; that never end, which others make; or that
    give other answers. Numbers that are none."""
    choice = {**LONG, "directions": 100_000, "width": 0, "rounds": 0}
    wanted = HARD.certify(**choice).text
    for name, fault in [("fails twice", fail_twice), ("is lost at each third time", None)]:
        with small_tasks(), mock.patch.multiple(_spread, _PATIENCE=0.02, _LONGEST_BEAM=0.02):
            got = HARD.certify(**choice, workers=Faulty(fault)).text
        equal(f"the text where each call {name}", got == wanted, True)
    # Searches that come to sequences: what is lost behind one is not waited for.
    for seed in range(1, 9):
        shop, few = Shop.generate(14, 8, seed), {**FEW, "width": 0, "rounds": 0}
        with small_tasks(), mock.patch.multiple(_spread, _PATIENCE=0.02, _LONGEST_BEAM=0.02):
            got = shop.certify(**few, workers=Faulty()).text
        equal(f"the text of {shop!r} where calls are lost", got == shop.certify(**few).text, True)
    with concurrent.futures.ThreadPoolExecutor(1) as pool:
        kept = Faulty(lambda call, word: call(word))
        kept.submit = lambda call, word: kept.begun.append(pool.submit(call, word)) or kept.begun[-1]
        kept.begun = []
        found = HARD.certify(**LONG, workers=kept, time_limit=0.5)
        ends = time.monotonic() + 2
        while time.monotonic() < ends:
            left = [future for future in kept.begun if not future.running() and not future.done()]
            if not left:
                break
            time.sleep(0.02)
        equal("calls that are left behind a limit", (lawful(HARD, found), len(kept.begun) > 3, left), (True, True, []))
    equal("rounds that fail twice", SOME.certify(**FEW, workers=Faulty(fail_twice)), SOME.certify(**FEW))
    for name, fault, error in [("fails", fail_always, ZeroDivisionError), ("is another", turn, RuntimeError)]:
        try:
            got = HARD.certify(**choice, workers=Faulty(fault))
        except error as failed:
            got = failed.result
        equal(f"what is left where each answer {name}", (lawful(HARD, got), got.state is None), (True, False))
    limits = [("time_limit", value) for value in (-1, "60", True)]
    for name, value in [("workers", 0), ("workers", 10_001), *limits, ("bound", -1)]:
        call = HARD.prove if name == "bound" else HARD.certify
        equal(f"{name} as {value}", refused(lambda: call(**{name: value}))[:2], ("OptionError", name.upper()))
    for front, back, place, sentence in [
        ([1, 31], [], 2, "place 2 of front is 31, and the jobs are 1 to 30"),
        ([1], [2, 1], 3, "place 2 of back is 1, which stands before it in front or back"),
    ]:
        got = refused(lambda: HARD.prove(5000, front=front, back=back))
        equal(f"the node {front}, {back}", got, ("NotASequence", "JOB" if place == 2 else "TWICE", place, sentence))


def lose_progress(pool):
    """An error of who is told how far a run has come leaves the bounds so far."""
    told = []

    def fails(report):
        told.append(report)
        if report.upper < HARD.neh().value and report.lower > HARD.bound():
            raise ZeroDivisionError

    for workers in (1, pool):
        try:
            got = HARD.certify(**LONG, workers=workers, time_limit=60, progress=fails)
        except ZeroDivisionError as error:
            got = error.result
        bounds = told[-1].lower <= got.lower, got.upper <= told[-1].upper
        equal("an error of who is told", (lawful(HARD, got), got.state is None, *bounds), (True, False, True, True))


def use_command():
    """The commands: all blocks of files, tables, a run that goes on, and a certificate that is none."""
    wanted = [block.shop.certify() for block in Shop.read(BLOCKS)]
    digests = [hashlib.sha256(found.text).hexdigest() for found in wanted]
    with tempfile.TemporaryDirectory() as folder:
        out = pathlib.Path(folder, "out")
        for executor in ("threads", "processes"):
            words = ["certify", BLOCKS, "--out", out, "--executor", executor, "--workers", 2]
            run = command(*words, "--json", out / "table")
            equal(f"the status with {executor}", run.returncode, 0)
            rows = json.loads((out / "table").read_text())
            got = [(row["lower"], row["upper"], row["sha256"]) for row in rows]
            equal(f"the table of {executor}", got, [(f.lower, f.upper, d) for f, d in zip(wanted, digests)])
            lines = [line.split() for line in run.stdout.splitlines()]
            equal("what is printed", [line[-1] for line in lines[:-1]], ["sha256", *digests])
            equal("the last line", lines[-1][:3], ["sum", "3", "3"])
            names = [f"several_blocks.txt.{number}.certificate" for number in (1, 2, 3)]
            equal("the files", sorted(os.listdir(out)), [*names, "table"])
            equal("the texts", [(out / name).read_bytes() for name in names], [found.text for found in wanted])
            searched = [row["seconds"] is not None for row in rows]
            equal(f"what is searched by {executor}", searched, [executor == "threads"] * 3)
            places = [len(str(row[name]).partition(".")[2]) for row in rows for name in ("seconds", "cpu_seconds")]
            equal("the decimals of the seconds", max(places) < 4, True)
        # The text of another block, one that is cut off, and one that is not there.
        unlawful = [wanted[1].text, wanted[1].text[:-1]]
        for name, text in zip(names, unlawful):
            (out / name).write_bytes(text)
        os.remove(out / names[2])
        (out / f"{names[1]}.old").write_bytes(b"an older text")
        (out / f"{names[1]}.old.2").symlink_to("nothing")
        there = [f"{names[1]}.old", f"{names[1]}.old.2"]
        run = command("check", BLOCKS, "--out", out, "--json", out / "table")
        equal("a check of these", (run.returncode, len(run.stdout.splitlines())), (1, 1))
        *lines, last = run.stderr.splitlines()
        said = [line.split(".certificate: ")[0].rsplit(".", 1)[1] for line in lines]
        equal("what is said of each", said, ["1", "2", "3"])
        absent = f"{out / names[2]}: it is not there; --out names the folder, and certify gives the files these names"
        equal("what is said of the one that is not there", lines[2], absent)
        equal("what is said of the table", last, f"{out}/table: it is not written, since a row would be missing")
        equal("the table that stays", json.loads((out / "table").read_text()), rows)
        run = command("certify", BLOCKS, "--out", out, "--blocks", "1,2-2", "--csv", out / "table")
        equal("two blocks", (run.returncode, len((out / "table").read_text().splitlines())), (0, 3))
        olds = [f"{names[0]}.old", f"{names[1]}.old.3"]
        said = [f"the block is searched again, and this text is kept as {name}\n" for name in olds]
        equal("what is said of them", [line in run.stderr for line in said], [True, True])
        equal("the texts again", [(out / name).read_bytes() for name in names[:2]], [f.text for f in wanted[:2]])
        equal("the texts that stood there", [(out / name).read_bytes() for name in olds], unlawful)
        equal("an older one", (out / f"{names[1]}.old").read_bytes(), b"an older text")
        equal("what else is there", sorted(os.listdir(out)), sorted([*names[:2], *olds, *there, "table"]))
        equal("a check of two", command("check", BLOCKS, "--out", out, "--blocks", "1-2").returncode, 0)
        why = "where no file can be written: Read-only file system; name a folder that you may write in"
        said = f"flowshop: --out is {out}, {why}\n"
        for blocks, ended in (("1-2", (0, "")), ("1-3", (2, said))):
            with mock.patch.object(_files.tempfile, "TemporaryFile", side_effect=OSError(30, "Read-only file system")):
                with contextlib.redirect_stderr(io.StringIO()) as stderr, contextlib.redirect_stdout(io.StringIO()):
                    status = main(["certify", str(BLOCKS), "--out", str(out), "--blocks", blocks])
            equal(f"the blocks {blocks} in a folder that takes no file", (status, stderr.getvalue()), ended)
        # Bounds that differ are kept too, and a line says so.
        hard = pathlib.Path(folder, "hard.txt")
        Shop.generate(20, 20, 479340445).write(hard)
        runs = [command("certify", hard, "--out", out, "--work", 1, "--directions", 1000) for _ in range(2)]
        kept = "its bounds differ; remove this file, and the block is searched anew"
        equal("bounds that are kept", [run.stderr.count(kept) for run in runs], [0, 1])
        printed = [run.stdout.splitlines()[1].split()[-1] for run in runs]
        equal("what is printed of them", printed[0], printed[1])
        # Counts, whose searches a run that goes on and a check make again.
        out = pathlib.Path(folder, "counts")
        words = BLOCKS, "--out", out, "--workers", 2, "--json", out / "table"
        for verb, more, is_searched, said in [("certify", ["--proof", "count", "--directions", 10**12], True, 0),
                                              ("certify", ["--proof", "count"], False, 0),
                                              ("certify", [], False, len(wanted)), ("check", [], False, 0)]:
            run = command(verb, *words, *more)
            equal("how many are not as asked for", run.stderr.count("it has a count; remove this file"), said)
            equal(f"the status of {verb} with counts", run.returncode, 0)
            rows = json.loads((out / "table").read_text())
            got = [(row["kind"], row["directions"], row["seconds"] is not None) for row in rows]
            equal("what counts prove", got, [("counted 1", found.count, is_searched) for found in wanted])


def use_odd_names():
    """Names of files that are no UTF-8, or as long as those of their certificates may be."""
    for name, shown_as in ((os.fsdecode(b"shop\xff.txt"), "shop\\udcff.txt"), (f"{'n' * 236}.txt", f"{'n' * 236}.txt")):
        with tempfile.TemporaryDirectory() as folder:
            file, table = pathlib.Path(folder, name), pathlib.Path(folder, "table")
            Shop.from_machines([[1, 2]]).write(file)
            strict = {**os.environ, "PYTHONIOENCODING": "utf-8:strict"}
            run = command("certify", file, "--out", folder, "--csv", table, env=strict)
            equal(f"the status of {shown_as}", run.returncode, 0)
            row = [f"{folder}/{shown_as}", "1", "0", "2", "1", "3", "3"]
            equal(f"the table of {shown_as}", table.read_text().splitlines()[1].split(",")[:7], row)
            printed = run.stdout.splitlines()[1].split()[:6]
            equal(f"what is printed of {shown_as}", printed, [*row[:2], *row[3:]])
            equal("the files", sorted(os.listdir(folder)), sorted([name, f"{name}.1.certificate", "table"]))


def keep_links_and_pipes():
    """A table goes through a link and into a pipe, and both stay."""
    with tempfile.TemporaryDirectory() as folder:
        file, link, pipe = (pathlib.Path(folder, name) for name in ("file", "link", "pipe"))
        file.write_text(OLD)
        link.symlink_to("file")
        os.mkfifo(pipe)
        words = ["certify", BLOCKS, "--out", pathlib.Path(folder, "out")]
        equal("the status with a link", command(*words, "--csv", link).returncode, 0)
        equal("a link that stays", (link.is_symlink(), file.is_symlink()), (True, False))
        with subprocess.Popen(["timeout", "180", "cat", pipe], stdout=subprocess.PIPE, text=True) as reader:
            equal("the status with a pipe", command(*words, "--json", pipe).returncode, 0)
            rows = json.loads(reader.communicate()[0] or "[]")
        equal("a pipe that stays", pipe.is_fifo(), True)
        with open(file, newline="") as lines:
            bounds = [(int(row["lower"]), int(row["upper"])) for row in csv.DictReader(lines)]
        equal("what went into both", bounds, [(row["lower"], row["upper"]) for row in rows])
        equal("the blocks of both", len(rows), 3)


def keep_streams():
    """A table goes into a stream that is open, whatever it is called, and a file that is not open for writing is
    replaced, whatever it is called. All names lead to files of a folder that is deleted: a wrong body replaces no
    more than these."""
    with tempfile.TemporaryDirectory() as folder:
        file, link, table = (pathlib.Path(folder, name) for name in ("file", "link", "table"))
        link.symlink_to("/proc/self/fd/1")
        words = [sys.executable, "-m", "flowshop", "certify", str(BLOCKS), "--out", folder, "--csv"]
        shell = ["sh", "-c", '{ "$@"; echo after; } > file', "sh"]
        run = {"cwd": folder, "timeout": 120, "check": False}
        run.update(stdout=subprocess.DEVNULL, stderr=subprocess.DEVNULL)
        subprocess.run([*words, table], **run)
        for name in (str(link), "/proc/self/fd/1", "//proc/self/fd/1", str(file)):
            subprocess.run([*shell, *words, name], **run)
            *printed, last = file.read_text().splitlines(keepends=True)
            commas = [line.count(",") for line in printed]
            equal(f"what is in the file of {name}", (commas, last), ([0] * 5 + [14] * 4, "after\n"))
            file.write_text("before\n")
            with open(file, "a") as out:
                status = subprocess.run([*words, name], **{**run, "stdout": out}).returncode
            equal(f"what stood in {name}", (status, file.read_text()), (0, "".join(["before\n", *printed])))
        equal("a link that stays", os.readlink(link), "/proc/self/fd/1")
        for name in (table, "/proc/self/cwd/table"):
            table.write_text(OLD)
            with open(table) as read:
                status = subprocess.run([*words, name], stdin=read, **run).returncode
            equal(f"what is in {name}", (status, table.read_text()), (0, "".join(printed[5:])))
        with mock.patch.object(os, "listdir", side_effect=FileNotFoundError), open(table, "w"):
            _files.save(table, b"whole\n")
        equal("a file, where no streams are listed", table.read_text(), "whole\n")
        (inner := pathlib.Path(folder, "inner")).mkdir()
        with open(inner / "table", "w+") as out:
            shutil.rmtree(inner)
            name, passed = f"/proc/self/fd/{out.fileno()}", [out.fileno()]
            status = subprocess.run([*words, name], pass_fds=passed, **run).returncode
            out.seek(0)
            equal("a file whose folder is gone", (status, out.read()), (0, "".join(printed[5:])))
        with mock.patch.object(os, "replace") as moved:
            for number in (1, 2):
                _files.save(pathlib.Path(folder, f"{'n' * 100}.{number}"), b"")
        equal("names until a file is whole", len({call.args[0] for call in moved.call_args_list}), 2)


def refuse_words():
    """Words that are none, files that are not read, and files that would be overwritten: no file is written."""
    with tempfile.TemporaryDirectory() as folder:
        for name in ("t.txt", "a", "a.3.certificate", "other", "z"):
            pathlib.Path(folder, name).write_bytes(BLOCKS.read_bytes())
        for name in ("7", "table"):
            pathlib.Path(folder, name).write_text("7\n")
        pathlib.Path(folder, "z.2.certificate").symlink_to("table")
        more = pathlib.Path(folder, "more")
        more.mkdir()
        (more / "a").write_bytes(BLOCKS.read_bytes())
        for name in ("link", "other.2.certificate"):
            pathlib.Path(folder, name).symlink_to("t.txt")
        pathlib.Path(folder, "orders.csv").write_text("file,block,jobs\nShelf,1,2\n")
        pathlib.Path(folder, "rows.json").write_text("[]\n")
        pathlib.Path(folder, "to orders").symlink_to("orders.csv")
        before = {name: pathlib.Path(folder, name).read_bytes() for name in os.listdir(folder) if name != "more"}
        here = os.path.realpath(folder)
        for words, status, said in [
            (["t.txt", "--blocks", "4"], 2, "--blocks has 4, and t.txt has the blocks 1 to 3\n"),
            (["t.txt", "--blocks", "0"], 2, "--blocks has 0, and t.txt has the blocks 1 to 3\n"),
            (["t.txt", "--blocks", "2-1"], 2, "--blocks has 2-1, and t.txt has the blocks 1 to 3; write the smaller"),
            (["a", "--out", "t.txt"], 2, "--out is t.txt, which is a file, and has to be a folder\n"),
            ([BLOCKS, "--blocks", "x"], 2, "--blocks is x, and has to be all, or numbers such as 1,3-5"),
            (["a", "./a"], 2, "./a is given twice\n"),
            (["a", "t.txt", "more/a"], 2, "a and more/a would have the certificate a.1.certificate; give each a run "
             "with a folder --out of its own\n"),
            ([BLOCKS, "1"], 2, "there is no file 1; --blocks 1 is block 1 of the files"),
            (["7"], 1, "line 1 of 7 is '7'"),
            ([BLOCKS, "--seed", "0"], 2, "--seed is 0, and has to be a whole number from 1 to 2,147,483,646\n"),
            ([BLOCKS, "--workers", "0"], 2, "--workers is 0, and has to be a whole number from 1 to 10,000\n"),
            ([BLOCKS, "--executor", "none"], 2, "--executor is none, and has to be threads, processes, mpi"),
            ([BLOCKS, "--time-limit", "-1"], 2, "--time-limit is -1, and has to be a number of seconds from 0 on\n"),
            ([BLOCKS, "--time-limit", "nan"], 2, "--time-limit is nan, and has to be a number of seconds from 0 on\n"),
            ([pathlib.Path(folder, "nothing")], 3, "[Errno 2] No such file or directory"),
            ([TOP / "VERSION"], 1, "line 1 of "),
            ([BLOCKS, "--directions", "1000000001"], 2, "--directions is 1,000,000,001, and has to be a whole number "
             "from 1 to 1,000,000,000 with signs, and to 1,000,000,000,000,000 with a count; --proof count asks for "),
            ([BLOCKS, "--proof", "count", "--directions", 10**15 + 1], 2, "--directions is 1,000,000,000,000,001, and "
             "has to be a whole number from 1 to 1,000,000,000,000,000\n"),
            (["t.txt", "--csv", "-"], 2, "--csv is -, and has to be a file; the table is printed anyway"),
            (["t.txt", "--csv", "t.txt"], 2, "--csv is t.txt, a file that is read; the table has to have a file of"),
            (["a", "t.txt", "--json", "./link"], 2, "--json is ./link, a file that is read; the table has to have"),
            (["link", "--csv", "../" + pathlib.Path(folder).name + "/t.txt"], 2, "--csv is ../"),
            (["t.txt", "--csv", "./t.txt.1.certificate"], 2, "--csv is ./t.txt.1.certificate, a file for a cert"),
            (["t.txt", "--blocks", "1", "--json", "t.txt.2.certificate"], 2, "--json is t.txt.2.certificate, a file"),
            (["t.txt", "--csv", "t.txt.1.certificate.old"], 2, "--csv is t.txt.1.certificate.old, a file for a cert"),
            (["t.txt", "--csv", "t.txt.1.certificate.old.2"], 2, "--csv is t.txt.1.certificate.old.2, a file for a"),
            (["a", "a.3.certificate"], 2, "the certificate of block 3 of a would be a.3.certificate, a file that is"),
            (["z", "--csv", "table"], 2, "--csv is table, a file for a certificate"),
            (["t.txt", "--csv", ""], 2, "--csv is empty, and has to be the name of a file\n"),
            (["t.txt", "--csv", "b/c"], 2, f"--csv is b/c, and there is no folder {here}/b\n"),
            (["t.txt", "--out", "b/c", "--json", "b/d/e"], 2, f"--json is b/d/e, and there is no folder {here}/b/d\n"),
            (["t.txt", "--out", "b/cd", "--csv", "b/c/e"], 2, f"--csv is b/c/e, and there is no folder {here}/b/c\n"),
            *[(["t.txt", "--json", name], 2, f"--json is {name}, which is a folder, and has to be a file\n")
              for name in (".", "new/", "new/.", "new/..", "more/../new/")],
            *[(["t.txt", f"--{kind}", name], 2, f"--{kind} is {name}, a file that is no table of this command and would"
               " be replaced; name another file, or remove this one\n") for kind in ("csv", "json")
              for name in ("orders.csv", "to orders", "./more/../orders.csv", "rows.json")],
            (["t.txt", "other"], 2, "the certificate of block 2 of other would be other.2.certificate, a file that"),
            *([] if find_spec("mpi4py") else [([BLOCKS, "--executor", "mpi"], 2, "--executor needs a package")]),
        ]:
            run = command("certify", *words, cwd=folder)
            equal(f"the status of {words}", run.returncode, status)
            equal(f"what is said of {words}", run.stderr.startswith(f"flowshop: {said}"), True)
        with open(pathlib.Path(folder, "a.1.certificate"), "w") as out:
            words = [sys.executable, "-m", "flowshop", "certify", "a", "--blocks", "1"]
            run = subprocess.run(words, cwd=folder, stdout=out, stderr=subprocess.PIPE, text=True, check=False)
            said = "flowshop: the certificate of block 1 of a would be a.1.certificate, a file that is open; give --out"
            equal("a certificate in the place of what is printed", (run.returncode, run.stderr[: len(said)]), (2, said))
        os.remove(out.name)
        run = command("check", "t.txt", "--out", "b", cwd=folder)
        said = "flowshop: --out is b, and there is no such folder\n"
        equal("a folder that a check does not make", (run.returncode, run.stderr), (2, said))
        said = command("certify", TOP / "examples" / "table.csv", cwd=folder).stderr
        equal("what is said of a table", "python3 -m flowshop shop makes such a file of a table" in said, True)
        equal("the status of no command", command().returncode, 2)
        after = {name: pathlib.Path(folder, name).read_bytes() for name in os.listdir(folder) if name != "more"}
        equal("that no file is written", (after, os.listdir(more)), (before, ["a"]))


def shown(text):
    """What a terminal shows of a text, line by line."""
    lines = []
    for line in text.split("\n"):
        cells, place = [], 0
        for sign in re.findall(r"\x1b\[(?:K|\?7[hl])|.", line, re.DOTALL):
            if sign == "\r":
                place = 0
            elif sign == "\x1b[K":
                del cells[place:]
            elif sign[0] != "\x1b":
                cells[place : place + 1] = sign
                place += 1
        lines.append("".join(cells))
    return lines


def read_all(stream):
    """What is written to a terminal until its last writer has ended."""
    text = b""
    try:
        while piece := os.read(stream, 4096):
            text += piece
    except OSError:  # so a terminal says that it has ended
        pass
    return text.decode()


@contextlib.contextmanager
def on_terminal(words):
    """Runs a command on a terminal, in a process group of its own. Gives the process, and a call for what was written,
    once all have ended."""
    ours, theirs = pty.openpty()
    with subprocess.Popen(words, stdout=theirs, stderr=theirs, start_new_session=True) as run:
        os.close(theirs)
        with concurrent.futures.ThreadPoolExecutor(1) as pool:
            try:
                yield run, pool.submit(read_all, ours).result
            finally:
                with contextlib.suppress(ProcessLookupError):
                    os.killpg(run.pid, signal.SIGKILL)
    os.close(ours)


def use_terminal():
    """On a terminal a line says how far a block is, and rows and other lines have lines of their own: that of block 3
    comes while block 1 is searched, and after block 2."""
    with tempfile.TemporaryDirectory() as folder:
        file, more = pathlib.Path(folder, "shops.txt"), pathlib.Path(folder, "more")
        HARD.write(file)
        Shop.generate(20, 10, 2).write(more)
        file.write_bytes(file.read_bytes() + more.read_bytes() + BLOCKS.read_bytes())
        pathlib.Path(folder, "shops.txt.3.certificate").write_text("none\n")
        words = ["certify", file, "--out", folder, "--workers", "2", "--time-limit", "2", "--directions", "10000000"]
        with on_terminal([sys.executable, "-m", "flowshop", *words]) as (_, written):
            text = written(60)
        *lines, last = shown(text)
        rows = [line.split()[1] for line in lines if len(line.split()) == 12]
        equal("the rows", rows, ["block", *"12345"])
        others = [line.split(" ", 1)[0] for line in lines if len(line.split()) != 12]
        equal("the other lines", others, [f"{folder}/shops.txt.3.certificate:", "sum"])
        equal("that the last line is ended", last, "")
        equal("that a line says how far a block is", f"{file} 1: step " in text, True)
        equal("that it is written anew", "\x1b[K" in text, True)
        run = command(*words, "--blocks", "2,4")
        equal("a run that is none on a terminal", ("\r" in run.stdout + run.stderr, run.returncode), (False, 0))


def stop_command():
    """An interrupt of the command leaves whole files alone, writes a table of what is done, and ends a loop of a shell;
    the next run goes on."""
    with tempfile.TemporaryDirectory() as folder:
        file, table = pathlib.Path(folder, "shops.txt"), pathlib.Path(folder, "table")
        Shop.generate(100, 20, 7).write(file)
        wide = ["--width", "65536", "--work", "20000"]  # within a second it comes to a beam that takes ten seconds
        file.write_bytes(file.read_bytes() + BLOCKS.read_bytes())
        for executor in ("threads", "processes"):
            out = pathlib.Path(folder, executor)
            out.mkdir()
            unlawful, last = (out / f"shops.txt.{number}.certificate" for number in (1, 4))
            unlawful.write_text("none\n")
            table.write_text(OLD)
            words = [sys.executable, "-m", "flowshop", "certify", file, "--out", out, "--workers", "2", *wide]
            words += ["--executor", executor, "--csv", table]
            with on_terminal(["bash", "-c", 'for i in 1 2; do "$@"; done', "bash", *words]) as (run, written):
                ends = time.monotonic() + 60
                while not last.exists() and time.monotonic() < ends:
                    time.sleep(0.05)
                time.sleep(1)
                begun = time.monotonic()
                os.killpg(run.pid, signal.SIGINT)
                time.sleep(0.002)
                os.killpg(run.pid, signal.SIGINT)  # it makes no difference
                with contextlib.suppress(subprocess.TimeoutExpired):
                    run.wait(20)
                equal(f"the status of a loop with {executor}", run.returncode, -signal.SIGINT)
                equal(f"how soon {executor} end", time.monotonic() - begun < 1, True)
                try:
                    os.killpg(run.pid, 0)
                    equal("that no process is left", True, False)
                except ProcessLookupError:
                    pass
            head, again, *said = shown(written())
            equal("the head of the table", head.split()[:2], ["file", "block"])
            equal("a line on a text that is not lawful", again.endswith("is kept as shops.txt.1.certificate.old"), True)
            stopped = "stopped: 3 of 4 blocks are done; the same command goes on with the others"
            equal(f"what {executor} say", said, [stopped, ""])
            equal("the files", sorted(os.listdir(out)), [f"shops.txt.{number}.certificate" for number in range(1, 5)])
            equal("a text that is not replaced yet", unlawful.read_text(), "none\n")
            rows = [line.split(",")[1] for line in table.read_text().splitlines()]
            equal(f"the table of {executor}", rows, ["block", *"234"])
        go_on(file, out, wide)


def stop_at_pipes():
    """At an interrupt nothing waits for a pipe that is not read, a file that is not written makes a line, a stream for
    lines that is gone is passed over, and a table on a terminal begins at the left. Where no block is done, the file
    of the table stays as it is."""
    row = {**dict.fromkeys(_files.PROVED.names), "file": "shop.txt", "optimal": True}
    with tempfile.TemporaryDirectory() as folder:
        pipe, said = pathlib.Path(folder, "pipe"), Stream(False)
        os.mkfifo(pipe)
        gone = mock.Mock(isatty=lambda: False, write=mock.Mock(side_effect=BrokenPipeError))
        stopped = "stopped: 1 of 3 blocks are done; the same command goes on with the others\n"
        for table, stream, wanted in [
            (pipe, said, f"flowshop: the table is not written within 2 seconds\n{stopped}"),
            (folder, said, f"flowshop: [Errno 21] Is a directory: '{folder}'\n{stopped}"),
            (pathlib.Path(folder, "table"), gone, None),
        ]:
            begun = time.monotonic()
            files = argparse.Namespace(csv=str(table), json=None, latex=None)
            rows = _rows.Table(_files.PROVED, [], files, io.StringIO())
            rows.add(row)
            _command_certify._stop(rows, 3, _waiting.Lines(stream))
            equal(f"how soon it ends with {table}", time.monotonic() - begun < 5, True)
            if table == pipe:
                read = subprocess.run(["timeout", "20", "cat", pipe], capture_output=True, check=False).stdout
                equal("what is read later", read.split(b",")[:2], [b"file", b"block"])
            equal(f"what is said with {table}", wanted is None or wanted in said.getvalue(), True)
        equal("a table that is written", len(table.read_text().splitlines()), 2)
        rows.rows.clear()
        _command_certify._stop(rows, 3, _waiting.Lines(said))
        equal("a table of no block", len(table.read_text().splitlines()), 2)
        equal("what is said of no block", said.getvalue().endswith("s\n" + stopped.replace("1", "0", 1)), True)
        rows.add(row)
        screen = Stream(True)
        lines = _waiting.Lines(screen)
        lines("far")
        with mock.patch.object(rows, "write", lambda: screen.write("the table\n")):
            _command_certify._stop(rows, 1, lines)
        equal("a table on a terminal", shown(screen.getvalue()), ["the table", "stopped: 1 of 1 blocks are done", ""])
        stop_at_lines(rows)


def stop_at_lines(rows):
    """Nothing waits for a line that is being written, and a terminal that is gone is passed over."""
    screen = Stream(True)
    lines = _waiting.Lines(screen)
    writing = threading.Thread(target=lines, args=("meanwhile",), daemon=True)
    begun = time.monotonic()
    with lines.taken_back():
        writing.start()
        writing.join(20)
        equal("a search meanwhile", (writing.is_alive(), screen.getvalue()), (False, ""))
        _command_certify._stop(rows, 3, lines)
    equal("how soon it ends", time.monotonic() - begun < 20, True)
    lines = _waiting.Lines(screen)
    lines("far")
    with mock.patch.object(screen, "write", side_effect=BrokenPipeError) as write:
        _command_certify._stop(rows, 3, lines)
        lines.close()
    equal("that a line was to be taken back", write.called, True)


def full_pipe():
    """A pipe that takes no more bytes: where it is read, and where it is written."""
    read, written = os.pipe()
    os.set_blocking(written, False)
    with contextlib.suppress(BlockingIOError):
        while True:
            os.write(written, bytes(4096))
    os.set_blocking(written, True)
    return read, written


def write_to_full_pipes():
    """Where nobody reads standard error, a limit of time and an interrupt end the command as ever; an interrupt does
    too where nobody reads what it prints."""
    with tempfile.TemporaryDirectory() as folder:
        file, table = pathlib.Path(folder, "shops.txt"), pathlib.Path(folder, "table")
        Shop.generate(100, 20, 7).write(file)
        file.write_bytes(file.read_bytes() + BLOCKS.read_bytes())
        words = [sys.executable, "-m", "flowshop", "certify", file, "--csv", table, "--workers", "2"]
        hard = ["--width", "65536", "--work", "20000"]
        read, written = full_pipe()
        streams = {"stdout": subprocess.DEVNULL, "stderr": written}
        run = subprocess.run([*words, *hard, "--out", folder, "--time-limit", "1"], timeout=60, check=False, **streams)
        equal("a run with a limit", (run.returncode, len(table.read_text().splitlines())), (0, 5))
        for number, both in enumerate((False, True)):
            out = pathlib.Path(folder, f"out {number}")
            table.write_text(OLD)
            streams["stdout"] = written if both else subprocess.DEVNULL
            with subprocess.Popen([*words, *hard, "--out", out], **streams) as run:
                ends = time.monotonic() + 60
                while not (both and out.exists()) and time.monotonic() < ends:
                    if pathlib.Path(out, "shops.txt.4.certificate").exists():
                        break
                    time.sleep(0.05)
                time.sleep(1)
                run.send_signal(signal.SIGINT)
                with contextlib.suppress(subprocess.TimeoutExpired):
                    run.wait(10)
                equal(f"a run that nobody reads, {both}", run.poll(), -signal.SIGINT)
                run.kill()
            rows = [line.split(",")[1] for line in table.read_text().splitlines()[1:]]
            equal(f"the table of a run that nobody reads, {both}", rows, ["0"] if both else [*"234"])
        os.close(read)
        limit = ["--blocks", "1", "--out", pathlib.Path(folder, "out 2"), "--time-limit", "1"]
        run = subprocess.run([*words, *limit], timeout=60, check=False, stdout=subprocess.DEVNULL, stderr=written)
        equal("a run whose lines go nowhere", run.returncode, 0)
        os.close(written)


def restore_handler():
    """Without an interrupt the handler afterwards is the one before; after one others make no difference."""
    for is_interrupted, wanted in ((False, signal.default_int_handler), (True, signal.SIG_IGN)):
        ended = False
        try:
            with _command_certify._one_interrupt():
                if is_interrupted:
                    os.kill(os.getpid(), signal.SIGINT)
                    time.sleep(10)
                ended = True
        except KeyboardInterrupt:
            pass
        after = signal.getsignal(signal.SIGINT)
        signal.signal(signal.SIGINT, signal.default_int_handler)
        equal("the handler afterwards", (ended, after), (not is_interrupted, wanted))


def go_on(file, out, wide):
    """A run with the words of a wide beam goes on with the first of four blocks, and ends soon after its limit."""
    words = [sys.executable, "-m", "flowshop", "certify", file, "--out", out, "--time-limit", "0.5", *wide]
    words += ["--executor", "processes", "--workers", "2"]
    with subprocess.Popen(words, stdout=subprocess.PIPE, stderr=subprocess.DEVNULL) as run:
        seconds = [run.stdout.readline().split()[-2] for _ in range(5)]
        begun = time.monotonic()
        run.wait(60)
    equal("how soon it ends after its last line", time.monotonic() - begun < 4, True)
    equal("a run that goes on", [b"." in number for number in seconds], [False, True, False, False, False])
    equal("what was done before", seconds[2:], [b"-"] * 3)
    equal("what it ends with", (run.returncode, command("check", file, "--out", out).returncode), (0, 0))


def is_running(process):
    """Whether a process is there, and has not ended."""
    try:
        return pathlib.Path(f"/proc/{process}/stat").read_text().rpartition(") ")[2][0] != "Z"
    except OSError:
        return False


def kill_command():
    """The workers of a command that is killed end too, whatever they do."""
    with tempfile.TemporaryDirectory() as folder:
        file = pathlib.Path(folder, "shop.txt")
        HARD.write(file)
        words = [sys.executable, "-m", "flowshop", "certify", file, "--out", folder]
        words += ["--workers", "2", "--executor", "processes"]
        with subprocess.Popen(words, stdout=subprocess.DEVNULL, stderr=subprocess.PIPE) as run:
            run.stderr.readline()  # of its progress, when the workers are there
            of_workers = pathlib.Path(f"/proc/{run.pid}/task/{run.pid}/children").read_text().split()
            run.kill()
        ends = time.monotonic() + 10
        while any(map(is_running, of_workers)) and time.monotonic() < ends:
            time.sleep(0.05)
        equal("workers of a killed command", (len(of_workers), any(map(is_running, of_workers))), (2, False))


def end_writing():
    """A file that is being written when the command is interrupted is there as a whole, also where it is interrupted
    again. The signal ends the process, but where it is masked."""
    code = (
        "import os, pathlib, signal, sys, threading, time\nfrom flowshop import _files, __main__ as command\n"
        "signal.pthread_sigmask(signal.SIG_BLOCK, {signal.SIGINT} if sys.argv[1:] else set())\n"
        "real, real_end = os.fsync, command.end_writing\n"
        "begun = threading.Event()\n"
        "os.fsync = lambda file: (begun.set(), time.sleep(0.3), real(file))\n"
        "words = pathlib.Path('certificate'), b'a text'\n"
        "threading.Thread(target=_files.save, args=words, daemon=True).start()\n"
        "begun.wait(20)\n"
        "command.end_writing = lambda seconds: (os.kill(os.getpid(), signal.SIGINT), real_end(seconds))\n"
        "command.end(130)"
    )
    for words, status in (([], -signal.SIGINT), (["masked"], 130)):
        with tempfile.TemporaryDirectory() as folder:
            run = [sys.executable, "-c", code, *words]
            run = subprocess.run(run, cwd=folder, capture_output=True, timeout=60, check=False)
            equal(f"the end of an interrupted command {words}", (run.returncode, run.stderr), (status, b""))
            equal("what is written", os.listdir(folder), ["certificate"])


def use_page():
    """The commands of docs/cluster.md for one machine, and the examples of the two pages."""
    page = (TOP / "docs" / "cluster.md").read_text()
    with tempfile.TemporaryDirectory() as folder:
        pathlib.Path(folder, "shops.txt").write_bytes(BLOCKS.read_bytes())
        lines = [line.split()[3:] for line in page.splitlines() if line.startswith("    python3 -m flowshop ")]
        lines = [words for words in lines if "HOST" not in words[-3]]
        equal("that there are commands", [words[0] for words in lines], ["certify", "certify", "check"])
        for words in lines:
            run = command(*words, cwd=folder)
            last = [line.split()[:6] for line in run.stdout.splitlines()[-2:]] if run.stdout else run.stderr
            equal(f"{words}", (run.returncode, last[0], last[1][:4]),
                  (0, ["shops.txt", "3", "10", "5", "708", "708"], ["sum", "3", "3", "15"]))
    for name in ("by_processes.py", "many_workers.py"):
        equal(f"what {name} prints", example(name), "Certificate(optimal 303, 15 directions)\n")


def example(name, *words):
    """What an example prints of a shop."""
    run = [sys.executable, TOP / "examples" / "python" / name, BLOCKS, "1", *words]
    return subprocess.run(run, capture_output=True, text=True, timeout=120, check=False).stdout


def use_dask():
    """Workers of dask, two processes on this machine: the same text, a limit of time, and the command."""
    distributed = __import__("distributed")
    with distributed.LocalCluster(n_workers=2, threads_per_worker=1, dashboard_address=None) as cluster:
        with distributed.Client(cluster) as client:
            compare_executor("dask", client)
            compare_executor("an executor of dask", client.get_executor())
            lose_dask_worker(client)
        compare_command(f"dask:{cluster.scheduler_address}")
        printed = example("by_dask.py", cluster.scheduler_address)
        equal("what by_dask.py prints", printed, "Certificate(optimal 303, 15 directions)\n")


def lose_dask_worker(client):
    """A worker of dask that is killed: others do its tasks, and the text is the same."""
    choice = {**LONG, "directions": 500_000}
    process = next(iter(client.run(os.getpid).values()))
    timer = threading.Timer(0.3, os.kill, [process, signal.SIGKILL])
    timer.start()
    with small_tasks(0.02):
        got = HARD.certify(**choice, workers=client).text
    equal("that a worker is killed while others search", timer.is_alive(), False)
    equal("the text of the others", got == HARD.certify(**choice).text, True)


def compare_executor(name, executor):
    """The text by an executor is that of one call."""
    great = Shop.from_jobs([[9000, 20_000, 7], [1, 60_000, 5], [8, 8, 8], [4, 70_000, 0]])
    for shop in (Shop.generate(12, 8, 5), great):
        wanted = one_call(shop, **FEW).text
        for proof, text in (("signs", wanted), ("count", with_count(wanted))):
            with small_tasks(0.002):
                equal(f"the {proof} by {name}", shop.certify(**FEW, workers=executor, proof=proof).text, text)
    compare_checks(executor)
    for words in (LONG, COUNTS):
        begun = time.monotonic()
        found = HARD.certify(**words, workers=executor, time_limit=1)
        seconds = time.monotonic() - begun
        equal(f"a limit of time with {name}", (seconds < 2, lawful(HARD, found)), (True, True))


def compare_command(executor, *run):
    """The command with an executor writes the texts of one call."""
    with tempfile.TemporaryDirectory() as folder:
        words = ["certify", str(BLOCKS), "--out", folder, "--executor", executor]
        words = [*(run or [sys.executable]), "-m", "flowshop", *words]
        ran = subprocess.run(words, capture_output=True, text=True, timeout=120, check=False)
        equal(f"the status with {executor}", (ran.returncode, ran.stderr if ran.returncode else ""), (0, ""))
        got = [pathlib.Path(folder, f"several_blocks.txt.{number}.certificate").read_bytes() for number in (1, 2, 3)]
        equal(f"the texts with {executor}", got, [block.shop.certify().text for block in Shop.read(BLOCKS)])


def use_mpi():
    """Workers of MPI: this is run by mpiexec."""
    futures = __import__("mpi4py.futures").futures
    with futures.MPIPoolExecutor() as pool:
        compare_executor("MPI", pool)


def lose_mpi_process():
    """A process of MPI that is killed: mpiexec ends all of them, long before the search would."""
    futures = __import__("mpi4py.futures").futures
    with futures.MPIPoolExecutor() as pool:
        threading.Timer(0.5, os.kill, [pool.submit(os.getpid).result(), signal.SIGKILL]).start()
        HARD.certify(**LONG, workers=pool)


def use_local():
    """All parts that need this machine alone. Pools come before threads, which a fork would not copy."""
    deaf = {"initializer": signal.signal, "initargs": (signal.SIGINT, signal.SIG_IGN)}
    with concurrent.futures.ProcessPoolExecutor(2, **deaf) as pool:
        list(pool.map(first, range(4)))
        compare_searches()
        follow_manual()
        compare_texts(pool)
        compare_checks(pool)
        keep_time(pool)
        resume_runs()
        stop_by_token()
        refuse_states()
        show_progress()
        interrupt_runs(pool)
        lose_results()
        lose_progress(pool)
    for part in (lose_worker, cut_parts, drop_calls, stop_threads, use_eight_threads, use_command, use_odd_names,
                 keep_links_and_pipes, keep_streams, refuse_words, use_terminal, stop_command, stop_at_pipes,
                 write_to_full_pipes, restore_handler, kill_command, end_writing, use_page):
        part()


if __name__ == "__main__":
    PARTS = {"local": use_local, "dask": use_dask, "mpi": use_mpi, "command": compare_command, "lost": lose_mpi_process}
    PARTS[sys.argv[1]](*sys.argv[2:])
    end(f"searches that are shared, {sys.argv[1]}")

"""Calls of the library by ctypes, compared with plain code: random small shops are solved by trying each sequence,
directions are those of the search of reference.py, each status of refusals.py is met, and slices that are too short are
refused and left as they were."""

import concurrent.futures
import os
import random
import re
import subprocess
import sys

import records
import reference
import refusals
from counts import EXAMPLES, PROGRAM, TOP, end, new_folder
from plain_pictures import plain_picture
from plain_texts import Refused, bounds_line, check_two_ended, plain_blocks
from records import LIBRARY, SIZE, U8, U16, U32, U64, Answer, BeamOptions, Bounds, Effort, Node, Part, Place, Plan
from records import Reached, Room, RoundsOptions, Run, Searched, Spans, Task, Text, block, call, equal, given, lent
from records import results, shop_of
from reference import Search, of_rows, rows_of

SHOPS = int(sys.argv[1]) if len(sys.argv) > 1 else 2_000
SHOP = of_rows(refusals.THREE)
MANY = 100_000
MOST_COUNTED = 10**15

# --- The calls ---


def limits():
    """All limits, by their names."""
    found = results(records.Limits)
    return call("limits", found) or {name: getattr(found, name) for name, _ in found._fields_}


def generate(jobs, machines, seed, room=None):
    times = Room(U32, jobs * machines if room is None else room)
    return call("generate", U32(jobs), U32(machines), U32(seed), times) or times.taken(jobs * machines)


def makespan(shop, sequence):
    value = Room(U64, 1, is_slice=False)
    return call("makespan", shop_of(shop), *given(U16, sequence), value) or value.taken(1)[0]


def makespans(shop, jobs, room=None):
    """The makespans of sequences that stand one behind the other."""
    count = len(jobs) // max(1, shop[0])
    values = Room(U64, count if room is None else room)
    return call("makespans", shop_of(shop), *given(U16, jobs), values) or values.taken(count)


def timetable(shop, sequence, rooms=None):
    count = shop[0] * shop[1]
    starts, ends = [Room(U64, room) for room in rooms or (count, count)]
    refused = call("timetable", shop_of(shop), *given(U16, sequence), results(Spans, starts, ends))
    return refused or (starts.taken(count), ends.taken(count))


def picture(shop, sequence, room=20_000, lower=0):
    data = Room(U8, room)
    text = results(Text, data)
    refused = call("picture", shop_of(shop), *given(U16, sequence), U64(lower), text)
    return refused or bytes(data.taken(text.length))


def reached(name, shop, words, room, is_part=False):
    """A sequence and its makespan; of a part of a search also whether that was whole."""
    sequence = Room(U16, shop[0] if room is None else room)
    found = results(Reached, sequence)
    refused = call(name, shop_of(shop), *words, found)
    equal("how the search ended", bool(refused) or found.whole in ((0,) if name == "neh" else (0, 1)), True)
    return refused or (sequence.taken(shop[0]), found.makespan) + (found.whole,) * is_part


def neh(shop, room=None):
    return reached("neh", shop, [], room)


def improve(shop, start, width=16, rounds=10, seed=1, work=1, room=None):
    return reached("improve", shop, [*given(U16, start), Effort(width, rounds, seed, work)], room)


def beam(shop, start, number=0, width=64, steps=10**9, room=None):
    return reached("beam", shop, [*given(U16, start), BeamOptions(number, width, steps)], room, True)


def rounds(shop, start, most=20, seed=1, steps=10**9, room=None):
    return reached("rounds", shop, [*given(U16, start), RoundsOptions(most, seed, steps)], room, True)


def proved(name, shop, words, room, text_room):
    """A sequence, both bounds, and a text where there is room for one."""
    sequence, data = Room(U16, shop[0] if room is None else room), Room(U8, text_room or 0)
    bounds, text = results(Bounds, sequence), results(Text, data)
    refused = call(name, shop_of(shop), *words, bounds, *([] if text_room is None else [text]))
    if refused:
        return refused
    found = sequence.taken(shop[0]), bounds.lower, bounds.upper
    return found if text_room is None else (*found, bytes(data.taken(text.length)))


def solve(shop, start, depth=0, budget=100_000, version=1, room=None, text_room=800):
    found = proved("solve", shop, [*given(U16, start), Plan(depth, budget, version)], room, text_room)
    if len(found) == 2:
        return found
    sequence, lower, upper, text = found
    equal("one bound", lower, upper)
    return sequence, upper, text


def check(shop, text, room=None):
    return proved("check", shop, given(U8, text), room, None)


def check_within(shop, text, most, room=None):
    return proved("check_within", shop, [*given(U8, text), U64(most)], room, None)


def certify(shop, start, numbers=(0, 0, 1, 0, 1_000), room=None, text_room=4_300):
    """`numbers` are the width, the rounds, the seed, the work and the directions."""
    return proved("certify", shop, [*given(U16, start), Effort(*numbers[:4]), U32(numbers[4])], room, text_room)


def part_of(name, shop, lists, numbers, directions, room=None, rest_room=None):
    """What a search of a node comes to, which writes its directions to room for them, or counts them where there is
    none: that they prove the number; a sequence, its makespan and the directions before it; or the first directions,
    and the parts that are left."""
    jobs = shop[0]
    sequence = Room(U16, jobs if room is None else room)
    rest = Room(U16, jobs * (jobs + 4) if rest_room is None else rest_room)
    node = Node(*lent(U16, lists[0]), *lent(U16, lists[1]))
    part = results(Part, sequence, directions, rest) if directions else results(records.Tally, sequence, rest)
    refused = call(name, shop_of(shop), node, *map(U64, numbers), part)
    equal("what is not looked at", bool(directions) or (part.directions, part.unseen) == (7, 7), True)
    if refused:
        return refused
    text = part.directions_length
    if directions:
        text = bytes(directions.taken(text)).decode("ascii")
    left, jobs = rest.taken(part.rest_length), sequence.taken(jobs if part.found == 2 else 0)
    equal("no makespan where there is no sequence", part.found == 2 or part.makespan == 0, True)
    equal("no parts where the search has ended", part.found == 3 or left == [], True)
    return [("PROVED", text), ("BELOW", text, jobs, part.makespan), ("OVER", text, parts_of(left))][part.found - 1]


def prove(shop, number, first=(), last=(), budget=MANY, **rooms):
    """A search of a node that writes its directions."""
    return part_of("prove", shop, (first, last), [number], Room(U8, budget), **rooms)


def tally(shop, number, first=(), last=(), budget=MANY, **rooms):
    """The same that counts them: their number stands in their place."""
    return part_of("tally", shop, (first, last), [number, budget], None, **rooms)


def run_of(shop, start, directions=1_000, limited=0):
    """A run, or why there is none."""
    run = results(Run)
    refused = call("run", shop_of(shop), *given(U16, start), U64(directions), U32(limited), run)
    return refused or Run.from_buffer_copy(run)


def next_of(run, numbers):
    """The task that is next, or why there is none; that it is the same when it is asked for again."""
    tasks = Task(), Task()
    refused = [call("run_next", run, Effort(*numbers[:4]), task) for task in tasks]
    equal("a task", (refused[1], bytes(tasks[1])), (refused[0], bytes(tasks[0])))
    return refused[0] or tasks[0]


def put_to(run, task, *answer):
    """Whether a sequence becomes the best one, or why an answer is refused; then nothing changes."""
    better, before = Room(U32, 1, is_slice=False), bytes(run)
    refused = call("run_put", run, task, Answer(*answer), better)
    equal("a run after an answer", bytes(run) == before, bool(refused))
    return refused or better.taken(1)[0]


def text_of(shop, sequence, lower, directions, room=4_300):
    """The text of what a run keeps."""
    data = Room(U8, room)
    text = results(Text, data)
    refused = call("run_text", shop_of(shop), *given(U16, sequence), U64(lower), *given(U8, directions), text)
    return refused or bytes(data.taken(text.length))


def counted_of(shop, sequence, lower, count, room=3_300):
    """The counted text of a sequence, a lower bound, and how many directions there are."""
    data = Room(U8, room)
    text = results(Text, data)
    refused = call("run_counted", shop_of(shop), *given(U16, sequence), U64(lower), U64(count), text)
    return refused or bytes(data.taken(text.length))


def done(shop, task, start, search=prove):
    """What becomes of a task: the numbers of an answer, a sequence, and directions, or how many they are."""
    if task.kind == 1:
        kind, text, *found = search(shop, task.number, budget=task.budget)
        sequence, makespan_ = found if kind == "BELOW" else ([], 0)
        return (["PROVED", "BELOW", "OVER"].index(kind) + 1, 0, makespan_, count_of(text)), sequence, text
    if task.kind == 2:
        sequence, value, whole = beam(shop, start, task.beam.number, task.beam.width, task.beam.steps)
    else:
        sequence, value, whole = rounds(shop, start, task.rounds.rounds, task.rounds.seed, task.rounds.steps)
    return (4, whole, value, 0), sequence, ""


def count_of(directions):
    """How many directions there are, which may be written or counted."""
    return directions if isinstance(directions, int) else len(directions)


def count_by_tasks(shop, start, numbers):
    """The sequence, the bounds and the number of directions that a run comes to whose searches count."""
    run, kept, count = run_of(shop, start, numbers[4]), [start] * 3, 0
    while (task := next_of(run, numbers)).kind:
        answer, sequence, text = done(shop, task, kept[task.origin], tally)
        if put_to(run, task, *answer):
            kept = [start, sequence, kept[1]]
        elif answer[0] == 1:
            count = text
    return kept[1], run.lower, run.upper, count


def certify_by_tasks(shop, start, numbers, limited=0, asked=None):
    """What the tasks of a run come to, each done by its own call; and that each of them leaves bounds that are proved,
    and asks for no more than these leave open. `asked` takes the step and the kind of each task, and whether it raises
    the lower bound."""
    run, kept, directions = run_of(shop, start, numbers[4], limited), [start] * 3, ""
    while (task := next_of(run, numbers)).kind:
        if asked is not None:
            asked.append((run.step, task.kind, task.kind == 1 and task.number < run.upper))
        equal("a threshold between the bounds", task.kind != 1 or run.lower < task.number <= run.upper, True)
        equal("a budget", task.budget <= numbers[4], True)
        answer, sequence, text = done(shop, task, kept[task.origin])
        if put_to(run, task, *answer):
            kept = [start, sequence, kept[1]]
        elif answer[0] == 1:
            directions = text
        text = text_of(shop, kept[1], run.lower, directions.encode(), 3_300 + len(directions))
        equal("what is kept", check(shop, text), (kept[1], run.lower, run.upper))
    text = text_of(shop, kept[1], run.lower, directions.encode(), 3_300 + len(directions))
    return kept[1], run.lower, run.upper, text


WAITS, GIVEN, SEARCHED, AT_SEQUENCE, DROPPED = range(5)
# An entry of an array that is no place yet.
UNUSED = Place(7, 7, GIVEN, 7)


class Shared:
    """A search in parts, with room for so many places; and the same as a list, which has the number of each place in
    order, its state, and how many directions were written there."""

    def __init__(self, budget, room):
        self.budget, self.room, self.count = budget, SIZE(room), 1
        self.places, self.plain, begun = (Place * room)(*[UNUSED] * room), [[0, WAITS, 0]], results(records.Search)
        self.refused = call("search", U64(budget), self.places, self.room, begun)
        self.state = records.Search.from_buffer_copy(begun)

    def give(self):
        """The place that is given, which is the first one that waits."""
        number = Room(U64, 1, is_slice=False)
        equal("a place that is given", call("search_give", self.state, self.places, self.room, number), None)
        first = next((each for each in self.plain if each[1] == WAITS), None)
        if first:
            first[1] = GIVEN
        got = number.taken(1)[0]
        equal("which place is given", got, first[0] + 1 if first else 0)
        self.compare()
        return got - 1

    def put(self, place, written, left=0, is_reached=0):
        """What an answer comes to: the first of the places that are left, counted from 1, 0 where it is late, or why it
        is refused."""
        first, before = Room(U64, 1, is_slice=False), bytes(self.places) + bytes(self.state)
        answer = Searched(written, left, is_reached)
        got = call("search_put", self.state, self.places, self.room, U64(place), answer, first) or first.taken(1)[0]
        at = next((at for at, each in enumerate(self.plain) if each[:2] == [place, GIVEN]), None)
        wanted, needed = self.count + 1, self.count + (0 if is_reached else left)
        if at is None:
            wanted = 0
        elif sum(each[2] for each in self.plain) + written >= 2**64:
            wanted = "ANSWER", 0
        elif needed > self.room.value:
            wanted = "ROOM", needed
        equal(f"the answer {written}, {left}, {is_reached} of {place}", got, wanted)
        if wanted != self.count + 1:
            equal("a search that stays", bytes(self.places) + bytes(self.state), before)
            return got
        more = [] if is_reached else [[number, WAITS, 0] for number in range(self.count, needed)]
        behind = more if is_reached else more + self.plain[at + 1 :]
        self.plain[at:] = [[place, AT_SEQUENCE if is_reached else SEARCHED, written], *behind]
        self.count = needed
        self.compare()
        return got

    def compare(self):
        """Compares the places in order, the counts, and what is found."""
        order, number = [], 1
        while number and len(order) <= self.count:
            place = self.places[number - 1]
            order.append([number - 1, place.state, place.written])
            number = place.next
        equal("the places in order", order, self.plain)
        ats = {each[0]: at for at, each in enumerate(self.plain)}
        for at, skip in [(ats[number], self.places[number].skip) for number in ats]:
            passed = self.plain[at : ats.get(skip - 1, -1) + 1]
            equal("what a place skips", {each[1] for each in passed} if skip else {SEARCHED}, {SEARCHED})
        equal("entries that are not used", {*map(bytes, self.places[self.count :])} <= {bytes(UNUSED)}, True)
        at = next((at for at, each in enumerate(self.plain) if each[1] in (WAITS, GIVEN)), len(self.plain))
        settled, first = sum(each[2] for each in self.plain[:at]), [each[0] + 1 for each in self.plain[at:]] + [0]
        is_open, end = [each[1] in (WAITS, GIVEN) for each in self.plain], self.plain[-1]
        reached_ = end[0] + 1 if end[1] == AT_SEQUENCE else 0
        written = sum(each[2] for each in self.plain)
        wanted = [self.budget, written, settled, first[0], sum(is_open), self.count, reached_]
        equal("the counts", [getattr(self.state, name) for name, _ in self.state._fields_], wanted)
        kind, place = Room(U32, 1, is_slice=False), Room(U64, 1, is_slice=False)
        equal("what is found", call("search_found", self.state, kind, place), None)
        found = 0 if any(is_open) else 2 if reached_ else 1
        wanted = (3, 0) if settled > self.budget else (found, end[0] if found == 2 else 0)
        equal("what a search comes to", (kind.taken(1)[0], place.taken(1)[0]), wanted)


def compare_shared():
    """Searches whose parts are answered in a drawn order, also twice, with room and without."""
    equal("no room for a place", Shared(1, 0).refused, ("ROOM", 1))
    draw = random.Random(6)
    for _ in range(300):
        most = draw.choice((0, 1, 9, 2**62, 2**64 - 1))
        search = Shared(draw.choice((0, most, draw.randint(0, 40))), draw.randint(1, 30))
        given_ = []
        for _ in range(draw.randint(1, 50)):
            if draw.random() < 0.5:
                given_.append(max(0, search.give()))
            place = draw.choice([*given_, draw.randint(0, 30), 2**64 - 1])
            search.put(place, draw.choice((0, 1, most)), draw.choice((0, 0, 1, 2, 5)), int(draw.random() < 0.05))
    # Some hundred places behind one that is answered last; now and then no place skips any more, which is lawful.
    for workers in (1, 2, 3, 5, 8, 13):
        search, given_ = Shared(2**64 - 1, 400), []
        search.put(search.give(), 1, draw.choice((2, 20, 150)))
        slow = search.give()
        while True:
            while len(given_) < workers and (place := search.give()) >= 0:
                given_.append(place)
            if not given_:
                break
            for place in search.places[: search.count] if draw.random() < 0.02 else []:
                place.skip = 0
            place = given_.pop(draw.randrange(len(given_)))
            left = draw.choice((0, 1, 3)) if search.count < 350 else 0
            search.put(place, draw.randint(0, 9), left, int(draw.random() < 0.002))
        search.put(slow, 1)


def parts_of(numbers):
    """The parts that stand in a list of numbers: two lists, an end, and jobs."""
    parts = []
    while numbers:
        first, last, jobs, end = numbers[:4]
        lists, numbers = numbers[4 : 4 + first + last + jobs], numbers[4 + first + last + jobs :]
        parts.append((lists[:first], lists[first : first + last], end, lists[first + last :]))
    return parts


def nodes_of(parts):
    """The nodes of parts, in their order."""
    for first, last, end, jobs in parts:
        if end == 0:
            equal("the jobs of a node", jobs, [])
            yield first, last
        for job in jobs:
            yield ([*first, job], last) if end == 1 else (first, [job, *last])


def by_parts(shop, number, first, last, budget, search=prove):
    """The directions that parts have with a few directions at a time, or how many they are, and a sequence where one is
    reached."""
    texts, nodes = [], [(list(first), list(last))]
    while nodes:
        node = nodes.pop(0)
        kind, more, *found = search(shop, number, *node, budget)
        texts.append(more)
        if kind == "BELOW":
            equal("the makespan of a sequence", found[1], reference.makespan(shop, found[0]))
            return "".join(texts) if search is prove else sum(texts), found[0]
        if kind == "OVER":
            equal("how many directions there are", count_of(more), budget)
            nodes[:0] = nodes_of(found[0])
    return "".join(texts) if search is prove else sum(texts), None

# --- Plain code ---


def plain_timetable(shop, sequence):
    """When the operations start and end, job by job."""
    return tuple(map(list, zip(*[span for of_job in reference.spans(shop, sequence) for span in of_job])))


def plain_check(shop, text, most):
    """What a two-ended certificate proves, by the checker of examples/python; and that it has few directions."""
    lower, upper, sequence = check_two_ended.check(rows_of(shop), text)
    equal("how many directions", len(text.split(b"\n")[4]) <= most, True)
    return sequence, lower, upper


def plain_found(shop, number, first, last):
    """The directions of a node before the first sequence below the number, and that sequence where there is one."""
    search = Search(shop)
    text, found = search.search(number, search.node(first, last))
    return text, found and list(found)


def drawn(draw, most_jobs=5, most_machines=4, times=(3, 9, 99)):
    """A random shop."""
    jobs, machines = draw.randint(1, most_jobs), draw.randint(1, most_machines)
    return jobs, machines, [draw.randint(0, draw.choice(times)) for _ in range(jobs * machines)]

# --- What is refused ---


# The calls on a shop and a sequence. All that they take besides is wrong.
CALLS = {
    "makespan": makespan, "timetable": lambda shop, jobs: timetable(shop, jobs, (0, 0)),
    "picture": lambda shop, jobs: picture(shop, jobs, 0),
    "improve": lambda shop, jobs: improve(shop, jobs, 65_537, 100_000_001, 0, 1_000_001, 0),
    "solve": lambda shop, jobs: solve(shop, jobs, 9, 0, 0, 0, 0),
    "certify": lambda shop, jobs: certify(shop, jobs, (65_537, 100_000_001, 0, 1_000_001, 0), 0, 0),
    "run": lambda shop, jobs: run_of(shop, jobs, 0), "run_text": lambda shop, jobs: text_of(shop, jobs, 0, b"", 0),
    "run_counted": lambda shop, jobs: counted_of(shop, jobs, 0, 0, 0),
    "beam": lambda shop, jobs: beam(shop, jobs, 0, 65_537, room=0),
    "rounds": lambda shop, jobs: rounds(shop, jobs, 100_000_001, 0, room=0),
}
# Those on a shop alone, or with lists that are none.
OTHER_CALLS = {
    "neh": lambda shop: neh(shop, 0), "check": lambda shop: check(shop, b"", 0),
    "check_within": lambda shop: check_within(shop, b"", 0, 0),
    "makespans": lambda shop: makespans(shop, [4], 0),
    "prove": lambda shop: prove(shop, 12, [4], [4], room=0), "tally": lambda shop: tally(shop, 12, [4], [4], room=0),
    **{name: lambda shop, make=make: make(shop, [4]) for name, make in CALLS.items()},
}
# Shops that are none, with the fault and its place.
WRONG_SHOPS = [
    ((0, 27, [1]), "JOBS", 0), ((801, 27, [1]), "JOBS", 0), ((3, 0, [1]), "MACHINES", 0), ((3, 27, [1]), "MACHINES", 0),
    ((3, 3, [1]), "COUNT", 0), ((3, 3, [1] * 10), "COUNT", 0), ((2, 1, [1, 1_000_000]), "TIME", 2),
    ((2, 1, [1_000_000, 4_294_967_295]), "TIME", 1),
]
# The options of calls, and the calls with these on the shop above, with too little room for their results.
START = [2, 1, 3]
NUMBERS = [
    (("width", "rounds", "seed", "work"), lambda *numbers: improve(SHOP, START, *numbers, room=2)),
    (("width", "rounds", "seed", "work", "directions"), lambda *numbers: certify(SHOP, START, numbers, 2, 0)),
    (("depth", "budget", "version"), lambda *numbers: solve(SHOP, START, *numbers, room=2)),
    (("width",), lambda width: beam(SHOP, START, 0, width, 2**64 - 1, 2)),
    (("rounds", "seed"), lambda most, seed: rounds(SHOP, START, most, seed, 2**64 - 1, 2)),
    (("jobs", "machines", "seed"), lambda *numbers: generate(*numbers, room=0)),
]


def refuse_arguments():
    """Each status that a shop, a sequence or a number can bring about, with its place; the first fault decides."""
    for shop, *wanted in WRONG_SHOPS:
        for name, make in OTHER_CALLS.items():
            equal(f"{name} of {shop}", make(shop), tuple(wanted))
    for jobs, *wanted, _ in refusals.SEQUENCES:
        for name, make in CALLS.items():
            equal(f"{name} of {jobs}", make(SHOP, jobs), tuple(wanted))
    refuse_makespans()
    for names, make in NUMBERS:
        for wanted, numbers in refusals.wrong_numbers(names):
            equal(f"the numbers {numbers}", make(*numbers.values()), (wanted.upper(), 0))
        for end in (0, 1):
            numbers = [refusals.LIMITS[name][end] for name in names]
            wanted = numbers[0] * numbers[1] if names[0] == "jobs" else 3
            equal(f"{names} of {numbers}", make(*numbers), ("ROOM", wanted))
    for shop, depth, wanted in [
        ((1, 1, [5]), 2, ("PLAN_DEPTH", 0)), ((100, 1, [5] * 100), 3, ("PLAN_PREFIXES", 0)),
        ((3, 3, SHOP[2]), 0, ("OVER_BUDGET", 0)),
    ]:
        equal(f"a plan of the depth {depth}, {wanted}", solve(shop, list(range(1, shop[0] + 1)), depth, 1), wanted)


def refuse_makespans():
    """Many sequences, of which one is none: its place is counted from the first job of all. The first one decides."""
    several = [([*START, *jobs], name, place and 3 + place) for jobs, name, place, _ in refusals.SEQUENCES if jobs]
    for jobs, *wanted in [
        *several, ([1, 1, 4, 4, 4, 4], "TWICE", 2), ([*START * 9, 1, 2, 0, 1, 1, 1], "JOB", 30), ([4] * 4, "LENGTH", 0),
    ]:
        equal(f"makespans of {jobs}", makespans(SHOP, jobs), tuple(wanted))
    equal("no room, also where a job is at fault", makespans(SHOP, [4] * 6, 1), ("ROOM", 2))
    equal("no room, also where the length is at fault", makespans(SHOP, START + [1], 0), ("LENGTH", 0))
    for room in range(5):
        wanted = [13, 12] if room >= 2 else ("ROOM", 2)
        equal(f"room for {room} makespans", makespans(SHOP, [*START, 3, 1, 2], room), wanted)


def refuse_rooms():
    """Slices for results that are too short, each length of them; and those that are long enough."""
    sequence, value, text = solve(SHOP, START)
    *found, certified = certify(SHOP, START)
    drawing = plain_picture(SHOP, START)
    for name, make, wanted in [
        ("solve", lambda room: solve(SHOP, START, text_room=room), (sequence, value, text)),
        ("certify", lambda room: certify(SHOP, START, text_room=room), (*found, certified)),
        ("picture", lambda room: picture(SHOP, START, room), drawing),
        ("run_text", lambda room: text_of(SHOP, [3, 1, 2], 12, b"++", room), refusals.LEAST),
        ("run_counted", lambda room: counted_of(SHOP, [3, 1, 2], 12, 2, room), refusals.COUNTED),
    ]:
        needed = len(wanted[-1] if isinstance(wanted, tuple) else wanted)
        for room in range(needed + 2):
            equal(f"{name} with room for {room} bytes", make(room), wanted if room >= needed else ("ROOM", needed))
    table = plain_timetable(SHOP, START)
    for room in range(11):
        wanted = table if room >= 9 else ("ROOM", 9)
        equal(f"room for {room} starts", timetable(SHOP, START, (room, 9)), wanted)
        equal(f"room for {room} ends", timetable(SHOP, START, (9, room)), wanted)
    for name, make in [
        ("neh", lambda room: neh(SHOP, room)[0]), ("improve", lambda room: improve(SHOP, START, room=room)[0]),
        ("beam", lambda room: beam(SHOP, START, room=room)[0]),
        ("rounds", lambda room: rounds(SHOP, START, room=room)[0]),
        ("prove", lambda room: prove(SHOP, 13, room=room, rest_room=0)[0]),
        ("tally", lambda room: tally(SHOP, 13, room=room, rest_room=0)[0]),
        ("tally, which is over", lambda room: tally(SHOP, 12, budget=0, room=room, rest_room=99)[0]),
        ("solve", lambda room: solve(SHOP, START, room=room)[0]),
        ("certify", lambda room: certify(SHOP, START, room=room)[0]),
        ("check", lambda room: check(SHOP, text, room)[0]),
        ("check_within", lambda room: check_within(SHOP, refusals.COUNTED, 2, room)[0]),
        ("check_within, above", lambda room: check_within(SHOP, refusals.COUNTED, 1, room)[0]),
    ]:
        for room in range(6):
            equal(f"{name} with room for {room} jobs", make(room) == "ROOM", room < 3)
    kind, text, parts = prove(SHOP, 12, budget=1)
    entries = sum(4 + len(first) + len(last) + len(jobs) for first, last, _, jobs in parts)
    equal("a part of a search", (kind, len(text), len(parts) > 0), ("OVER", 1, True))
    equal("no room for it", prove(SHOP, 12, budget=1, rest_room=entries - 1), ("ROOM", entries))
    equal("just room for it", prove(SHOP, 12, budget=1, rest_room=entries), (kind, text, parts))
    equal("no room for one that is counted", tally(SHOP, 12, budget=1, rest_room=entries - 1), ("ROOM", entries))
    equal("just room for one", tally(SHOP, 12, budget=1, rest_room=entries), (kind, 1, parts))
    equal("no room for a sequence and for it", tally(SHOP, 12, budget=1, room=2, rest_room=0), ("ROOM", 3))


def refuse_answers():
    """What no run takes: numbers that are not within their limits, answers to other tasks than the one at hand, and
    tasks that it may not ask for."""
    for wanted, numbers in refusals.wrong_numbers(("width", "rounds", "seed", "work")):
        equal(f"the task of {numbers}", next_of(run_of(SHOP, START), [*numbers.values()]), (wanted.upper(), 0))
    for most in (0, MOST_COUNTED + 1, 2**63, 2**64 - 1):
        equal(f"a run of {most} directions", run_of(SHOP, START, most), ("DIRECTIONS", 0))
    numbers, run = (16, 9, 1, 1), run_of(SHOP, START)
    first = next_of(run, numbers)
    # All searches may write 850 of 459 parts of a thousand directions, 1851, and half of them before step 5.
    equal("the first task", (first.kind, first.number, first.budget), (1, 13, 926))
    for answer in [(0, 0, 0, 0), (5, 0, 12, 1), (4, 0, 12, 0), (4, 1, 0, 0), (1, 0, 0, 927), (1, 0, 0, 2**64 - 1),
                   (2, 0, 13, 1), (2, 0, 2**64 - 1, 1), (2, 0, 12, 927), (2, 0, 12, 2**64 - 1)]:
        equal(f"the answer {answer}", put_to(run, first, *answer), ("ANSWER", 0))
    for task in [Task(), Task(4), Task(1, 0, 10, 1), Task(1, 0, 14, 1), Task(1, 0, 13, 1001), Task(2, 3), Task(3, 3),
                 Task(3, 0, rounds=RoundsOptions(100_000_001, 1)), Task(3, 0, rounds=RoundsOptions(1, 0))]:
        for answer in [(1, 0, 0, 1), (2, 0, 9, 1), (3, 0, 0, 0), (4, 0, 12, 0)]:
            equal(f"the answer {answer} to {task.kind}", put_to(run, task, *answer), ("ANSWER", 0))
    equal("a better sequence", (put_to(run, first, 2, 0, 12, 1), run.lower, run.upper), (1, 10, 12))
    equal("a task of the bounds before it", put_to(run, first, 1, 0, 0, 2), ("ANSWER", 0))
    task = next_of(run, numbers)
    equal("the next task", task.number, 12)
    equal("a proof", (put_to(run, task, 1, 0, 0, 2), run.lower, run.upper), (0, 12, 12))
    task = next_of(run, numbers)
    equal("no task more", task.kind, 0)
    for answer in [(1, 0, 0, 0), (2, 0, 0, 0), (3, 0, 0, 0), (4, 0, 0, 0)]:
        equal(f"the answer {answer} to no task", put_to(run, task, *answer), ("ANSWER", 0))


def compare_limits():
    """The limits are those of the header, of refusals.py and of docs/manual.md."""
    got, header = limits(), records.HEADER
    stated = {name.lower(): int(number) for name, number in re.findall(r"FLOWSHOP_(M(?:AX|IN)_\w+) = (\d+)", header)}
    equal("the limits of the header", {name: got[name] for name in stated}, stated)
    bounds = {name: most for name, (_, most) in refusals.LIMITS.items()}
    equal("those of refusals.py", {name: got[f"max_{name}"] for name in bounds}, bounds)
    others = {"number": 4_294_967_295, "job": 65_535, "text": 16_777_216, "certificate": 1_000_000_000, "beside": 3_300,
              "nodes": refusals.MOST_NODES, "counted": MOST_COUNTED}
    equal("the others", {name: got[f"max_{name}"] for name in others}, others)
    equal("how many there are", len(got), len({*stated, *(f"max_{name}" for name in {**bounds, **others})}))


def refuse_null_pointers():
    """Each call with each of its pointers null."""
    records.last.has_nulls = True
    numbers, run = (16, 9, 1, 1), run_of(SHOP, START)
    for make in (
        limits, lambda: generate(3, 3, 1), lambda: block(b"one\n1 1 0 0 0\ntimes\n5\n", 1),
        lambda: makespan(SHOP, START), lambda: makespans(SHOP, START + START), lambda: timetable(SHOP, START),
        lambda: picture(SHOP, START, 5_000), lambda: neh(SHOP), lambda: improve(SHOP, START),
        lambda: check(SHOP, refusals.LEAST), lambda: solve(SHOP, START), lambda: certify(SHOP, START),
        lambda: next_of(run, numbers),
        lambda: put_to(run, Task(1, 0, 13, 1), 3, 0, 0, 0),
        lambda: text_of(SHOP, START, 10, b""), lambda: counted_of(SHOP, START, 10, 0),
        lambda: check_within(SHOP, refusals.COUNTED, 2), lambda: prove(SHOP, 13),
        lambda: tally(SHOP, 13), lambda: run_of(SHOP, START, MOST_COUNTED), lambda: beam(SHOP, START),
        lambda: rounds(SHOP, START), lambda: Shared(9, 3).put(Shared(9, 3).give(), 1),
    ):
        make()
    records.last.has_nulls = False


def refuse_texts():
    """Benchmark texts and certificates, with their first faults, and such texts cut off after each byte."""
    for text, fault, *_ in refusals.TEXTS:
        equal(f"the block of {text}", block(text, 1, room=0), refusals.name_of(fault))
    for rows, text, line, _ in refusals.checks():
        for most in (None, refusals.MOST_NODES):
            compare_check(rows, text, most, line)
        if not text.startswith(b"flowshop counted 1\n"):
            compare_check(rows, text, 0, line)
    for each in refusals.counted_checks():
        compare_check(*each)
    for text in (refusals.BOUNDS, refusals.TREE, refusals.COUNTED):
        for count in range(len(text)):
            equal(f"{count} bytes of a certificate", check(SHOP, text[:count])[0] in LIBRARY_FAULTS, True)
    text = b"one\n2 2 5 9 8\ntimes\n1 14\n75 46\n\nnext\n1 1 0 4294967295 0\ntimes\n999999\n"
    first, second = ((2, 2, [1, 14, 75, 46]), 5, 9, 8), ((1, 1, [999_999]), 0, 4_294_967_295, 0)
    for index, room, wanted in [
        (1, 20_800, first), (2, 20_800, second), (1, 4, first), (1, 3, ("ROOM", 4)), (2, 0, ("ROOM", 1)),
        *[(index, 0, ("INDEX", 2)) for index in (0, 3, 4_294_967_295)],
    ]:
        equal(f"block {index} with room for {room}", block(text, index, room), wanted)
    for count in range(len(text)):
        try:
            wanted = plain_blocks(text[:count])[0]
        except Refused as refused:
            wanted = refusals.name_of(str(refused))
        equal(f"{count} bytes of a text", block(text[:count], 1), wanted)
    greatest = b"one\n800 26 4294967295 4294967295 4294967295\ntimes\n" + b" ".join([b"999999"] * 20_800)
    equal("the greatest block", block(greatest, 1), ((800, 26, [999_999] * 20_800), *[4_294_967_295] * 3))
    equal("the greatest without room", block(greatest, 1, room=20_799), ("ROOM", 20_800))


LIBRARY_FAULTS = "HEADER SIZE VALUE SEQUENCE NOT_ATTAINED TREE WEAK LOW END".split()


def compare_check(rows, text, most, line):
    """A check beside the line of the program, with the most nodes where they are named."""
    shop = of_rows(rows)
    got = check(shop, text) if most is None else check_within(shop, text, most)
    got, wanted = (got, refusals.name_of(line)) if len(got) == 2 else (bounds_line(*got[1:]), line)
    equal(f"a check of {text[:200]}", got, wanted)


def compare_counted(shop, sequence, lower):
    """The counted text of a lower bound that the plain search proves, and its checks: with as many nodes as it states
    and with one fewer; and of texts that state one more and one fewer."""
    directions, found = Search(shop).search(lower)
    upper, count = reference.makespan(shop, sequence), len(directions)
    equal("whether the lower bound is one", found, None)
    text = counted_of(shop, sequence, lower, count)
    sizes, bounds = " ".join(map(str, shop[:2])), f"{lower} {upper}"
    equal("a counted text", text, refusals.text_of("counted 1", sizes, bounds, sequence, count))
    wanted = list(sequence), lower, upper
    equal("its check", check(shop, text), wanted)
    for most in (count, count + 1, 2**64 - 1):
        equal(f"its check within {most} nodes", check_within(shop, text, most), wanted)
    equal("one node more", check(shop, counted_of(shop, sequence, lower, count + 1)), ("TREE", 5))
    equal("far more", check(shop, counted_of(shop, sequence, lower, refusals.MOST_NODES)), ("TREE", 5))
    equal("too many", check(shop, counted_of(shop, sequence, lower, refusals.MOST_NODES + 1)), ("MOST", 0))
    if count:
        equal("one node fewer", check(shop, counted_of(shop, sequence, lower, count - 1)), ("TREE", 5))
        equal("no node", check_within(shop, counted_of(shop, sequence, lower, 0), 0), ("TREE", 5))
        equal("with one node fewer", check_within(shop, text, count - 1), ("MOST", 0))


def compare_counts():
    """Counted texts of shops of some size, with lower bounds that the plain search proves; and the greatest numbers of
    such a text, which nothing tests when it is written."""
    for seed, lower in (((9, 5, 3), 637), ((9, 6, 11), 678), ((8, 10, 5), 958), ((10, 8, 7), 978), ((10, 8, 7), 950)):
        shop = reference.generated(*seed)
        compare_counted(shop, reference.start(shop), lower)
    great = of_rows(refusals.GREAT)
    jobs, most = range(1, 801), 2**64 - 1
    text = counted_of(great, jobs, most, most)
    bounds = f"{most} {reference.makespan(great, jobs)}"
    equal("the greatest numbers", text, refusals.text_of("counted 1", "800 26", bounds, jobs, most))


def compare_calls():
    """What calls give that was worked out by hand."""
    one = (2, 1, [3, 4])
    great = of_rows(refusals.GREAT)
    # Each sequence of the long one has the makespan 34. The bound of a node is 25 until job 14 is put at an end, so
    # that a thousand directions prove no more.
    long = 14, 2, [1] * 13 + [10] + [1] * 13 + [11]
    for make, wanted in [
        (lambda: makespan((2, 1, [999_999, 999_999]), [2, 1]), 1_999_998),
        (lambda: makespans(SHOP, [1, 2, 3, *START, 3, 1, 2]), [15, 13, 12]), (lambda: makespans(SHOP, []), []),
        (lambda: makespans((1, 1, [999_999]), [1] * 9), [999_999] * 9),
        (lambda: makespans(great, [*range(1, 801), *range(800, 0, -1)] * 50), [824_999_175] * 100),
        # The timetable that docs/formats.md reads by hand.
        (lambda: timetable(SHOP, START), ([0, 0, 8, 0, 8, 8, 4, 8, 12], [0, 8, 8, 4, 8, 12, 4, 10, 13])),
        (lambda: timetable((1, 1, [999_999]), [1]), ([0], [999_999])),
        (lambda: [times[-1] for times in timetable(great, range(1, 801))], [823_999_176, 824_999_175]),
        (lambda: neh(SHOP), (START, 13)), (lambda: improve(SHOP, [3, 1, 2])[1], 12),
        # Each sequence of one machine has the sum of its times, which is Taillard's bound.
        (lambda: improve(one, [2, 1], 65_536, 100_000_000, 2_147_483_646, 1_000_000)[1], 7),
        (lambda: improve((1, 1, [0]), [1], 0, 0, 1, 0), ([1], 0)),
        (lambda: certify(one, [2, 1], (0, 0, 1, 0, 1))[1:3], (7, 7)),
        (lambda: certify(long, list(range(1, 15)))[1:3], (25, 34)),
        (lambda: plain_check(SHOP, certify(SHOP, START)[3], 1_000)[1:], (12, 12)),
        (lambda: rounds(one, [2, 1], 100_000_000, steps=2**64 - 1), ([2, 1], 7, 1)),
        (lambda: beam(one, [2, 1]), ([2, 1], 7, 1)), (lambda: beam(SHOP, START, width=65_536, steps=2**64 - 1)[1], 12),
        (lambda: beam(SHOP, START, width=0), (START, 13, 0)), (lambda: beam(SHOP, START, steps=0), (START, 13, 0)),
        (lambda: beam(SHOP, START, number=12)[:2], (START, 13)),
        (lambda: beam(SHOP, START, number=13)[:2], ([3, 1, 2], 12)), (lambda: rounds(SHOP, START, 0), (START, 13, 0)),
        (lambda: rounds(SHOP, START, steps=0), (START, 13, 0)), (lambda: rounds(SHOP, START)[1:], (12, 0)),
        (lambda: check(SHOP, refusals.BOUNDS), (START, 11, 13)),
        (lambda: check(SHOP, refusals.LEAST.replace(b"++", b"+-")), ([3, 1, 2], 12, 12)),
        (lambda: check(SHOP, refusals.TREE.replace(b"C++.B", b"C+AB")), ([3, 1, 2], 12, 12)),
        (lambda: prove(SHOP, 12, [4], [4], room=0), ("JOB", 1)), (lambda: prove(SHOP, 12, [0], [], room=0), ("JOB", 1)),
        (lambda: prove(SHOP, 12, [3, 2], [1, 65_535], room=0), ("JOB", 4)),
        (lambda: prove(SHOP, 12, [3, 2], [2, 4], room=0), ("TWICE", 3)),
        (lambda: prove(SHOP, 12, [3, 2, 3], [2, 4], room=0), ("TWICE", 3)),
        (lambda: prove(SHOP, 12, [3, 2, 1], [1], room=0), ("TWICE", 4)),
        *[(lambda lists=lists: tally(SHOP, 12, *lists, 0, room=0, rest_room=0), wanted) for *lists, wanted in [
            ([4], [4], ("JOB", 1)), ([0], [], ("JOB", 1)), ([3, 2], [1, 65_535], ("JOB", 4)), ([], [4], ("JOB", 1)),
            ([3, 2], [2, 4], ("TWICE", 3)), ([3, 2, 3], [2, 4], ("TWICE", 3)), ([3, 2, 1], [1], ("TWICE", 4)),
        ]],
        (lambda: prove(SHOP, 12, rest_room=0)[0], "PROVED"),
        (lambda: prove(SHOP, 13, rest_room=0)[2:], ([3, 1, 2], 12)),
        (lambda: prove(SHOP, 2**64 - 1, START), ("BELOW", "", START, 13)),
        (lambda: prove(SHOP, 13, [2, 1], [3]), ("PROVED", "")), (lambda: prove(SHOP, 0), ("PROVED", "")),
        # Two directions prove 12, as the certificate of docs/formats.md has them. The bound of the root is 10.
        (lambda: tally(SHOP, 12, budget=2, rest_room=0), ("PROVED", 2)),
        (lambda: tally(SHOP, 12, budget=1)[:2], ("OVER", 1)),
        (lambda: tally(SHOP, 12, budget=2**64 - 1), ("PROVED", 2)),
        (lambda: tally(SHOP, 12, budget=0, rest_room=4), ("OVER", 0, [([], [], 0, [])])),
        (lambda: tally(SHOP, 12, budget=0, rest_room=3), ("ROOM", 4)),
        (lambda: tally(SHOP, 10, budget=0, rest_room=0), ("PROVED", 0)),
        (lambda: tally(SHOP, 0, budget=0, rest_room=0), ("PROVED", 0)),
        (lambda: tally(SHOP, 13, rest_room=0)[2:], ([3, 1, 2], 12)),
        (lambda: tally(SHOP, 2**64 - 1, START, budget=0), ("BELOW", 0, START, 13)),
        (lambda: tally(SHOP, 13, [2, 1], [3], 0), ("PROVED", 0)),
        (lambda: tally((1, 1, [0]), 1, budget=1, rest_room=0), ("BELOW", 1, [1], 0)),
        (lambda: tally((1, 1, [0]), 1, budget=0), ("OVER", 0, [([], [], 0, [])])),
        (lambda: tally((1, 1, [999_999]), 999_999, budget=0, rest_room=0), ("PROVED", 0)),
        # The jobs of the greatest shop are all alike, so that the bound of its root is the makespan of each sequence. A
        # node is opened for each job of the first sequence.
        (lambda: tally(great, 824_999_175, budget=0, rest_room=0), ("PROVED", 0)),
        (lambda: tally(great, 824_999_176, budget=799)[:2], ("OVER", 799)),
        (lambda: tally(great, 824_999_176, budget=800, rest_room=0)[::3], ("BELOW", 824_999_175)),
        # The states of the seed 1 are 16807, 282475249, 1622650073 and 984943658. The last seed is the modulus less 1,
        # so its state is the modulus less the multiplier.
        (lambda: generate(2, 2, 1, room=9), [1, 14, 75, 46]), (lambda: generate(1, 1, 2_147_483_646), [99]),
        (lambda: generate(800, 26, 5), reference.generated(800, 26, 5)[2]),
    ]:
        equal("what a call gives", make(), wanted)

# --- Drawn shops ---


def compare_shop(draw):
    """One random shop: its start, its least makespan, and its certificates."""
    shop = drawn(draw)
    first, (start, start_value) = reference.start(shop), neh(shop)
    equal("a start", (start, start_value), (first, reference.makespan(shop, first)))
    draw.shuffle(start)
    equal("a makespan", makespan(shop, start), reference.makespan(shop, start))
    several = [draw.sample(start, len(start)) for _ in range(draw.randint(0, 4))]
    got, wanted = makespans(shop, sum(several, [])), [reference.makespan(shop, each) for each in several]
    equal("makespans", got, wanted)
    equal("a timetable", timetable(shop, start), plain_timetable(shop, start))
    least = reference.least(shop)
    lower = max(0, draw.choice((0, least, least - 1, least + 1)))
    equal("a picture", picture(shop, start, lower=lower), plain_picture(shop, start, lower))
    better, value = improve(shop, start, draw.choice((0, 1, 16)), draw.choice((0, 9)), draw.randint(1, 2_147_483_646))
    equal("a better sequence", (sorted(better), reference.makespan(shop, better)), (sorted(start), value))
    equal("whether it is no worse", least <= value <= reference.makespan(shop, start), True)
    depth = draw.randint(0, min(2, shop[0]))
    sequence, value, text = solve(shop, start, depth, version=draw.randint(1, 2))
    equal("a least makespan", (value, reference.makespan(shop, sequence)), (least, least))
    equal("a check", check(shop, text), (sequence, least, least))
    effort = draw.choice((0, 1, 20)), draw.choice((0, 9)), draw.randint(1, 2_147_483_646), 1
    sequence, *bounds, text = certify(shop, start, (*effort, 1_000))
    equal("bounds that are certified", (bounds, reference.makespan(shop, sequence)), ([least, least], least))
    equal("a check of its text", check(shop, text), (sequence, least, least))
    compare_counted(shop, sequence, draw.choice((0, least, max(0, least - 1))))
    equal("a plain check of it", plain_check(shop, text, 1_000), (sequence, least, least))
    most = draw.randint(1, 9)
    directions = draw.choice((1_000, 10**9, 10**9 + 1, MOST_COUNTED))
    counted, *bounds, count = count_by_tasks(shop, start, (*effort, directions))
    equal("bounds that are counted", (bounds, reference.makespan(shop, counted)), ([least, least], least))
    equal("how many directions prove them", count, len(Search(shop).search(least)[0]))
    for numbers in ((*effort, 1_000), (*effort, most)):
        equal("what a run comes to by its tasks", certify_by_tasks(shop, start, numbers), certify(shop, start, numbers))
    equal("one that is limited", check(shop, certify_by_tasks(shop, start, numbers, 1)[3])[1] <= least, True)
    sequence, lower, upper, text = certify(shop, start, (*effort, most))
    equal("whether they are bounds", lower <= least <= upper <= reference.makespan(shop, start), True)
    equal("a check of few directions", check(shop, text), (sequence, lower, upper))
    equal("a plain check of them", plain_check(shop, text, most), (sequence, lower, upper))


def compare_begun():
    """All numbers of runs that have begun. All searches may write 850 of 459 parts of the directions, of which half is
    kept, and one as many as the caller says, but no more than four fifths of these, or than fit in a text where they
    may be signs. Each search costs 3 * 3 / 3 directions more. No threshold was over, and none was missed."""
    for directions, limited, *fund in [
        (1_000, 0, 1_000, 926, 925), (1, 7, 1, 1, 0), (2, 1, 2, 2, 1),
        (10**9, 1, 999_990_000, 925_925_926, 925_925_925), (10**9 + 1, 0, 10**9 + 1, 925_925_927, 925_925_926),
        (999_990_000, 0, 999_990_000, 925_916_667, 925_916_666), (2**32, 0, 2**32, 3_976_821_570, 3_976_821_570),
        (MOST_COUNTED, 1, MOST_COUNTED, 925_925_925_925_926, 925_925_925_925_925),
    ]:
        run = run_of(SHOP, START, directions, limited)
        wanted = [10, 13, 10, 13, *fund, 3, 0, 10, 13, 1, 2**64 - 1, 0, 10**9, 1, 0, min(1, limited)]
        equal("a run that has begun", [getattr(run, name) for name, _ in Run._fields_], wanted)


def compare_runs():
    """Runs of all steps: by their tasks they come to what one call comes to. With a limit the lower bound is raised
    before step 2, and else not."""
    draw, asked, limited = random.Random(3), [], []
    for number in range(10):
        jobs, machines, most = draw.randint(14, 15), draw.randint(9, 10), (30_000, 200_000)[number % 2]
        shop = jobs, machines, [draw.randint(1, 999) for _ in range(jobs * machines)]
        start, _ = improve(shop, neh(shop)[0], 64, 200, 1, 20) if number % 2 else neh(shop)
        numbers = 20, 9, draw.randint(1, 2_147_483_646), 1, most
        wanted = certify(shop, start, numbers, text_room=3_300 + most)
        equal("what a run comes to by its tasks", certify_by_tasks(shop, start, numbers, 0, asked), wanted)
        sequence, *bounds, text = certify_by_tasks(shop, start, numbers, 1, limited)
        equal("the text of one that is limited", check(shop, text), (sequence, *bounds))
    met = [(1, 1, True) in tasks for tasks in (asked, limited)]
    equal("raises before step 2", met, [False, True])
    # Beams of both widths, rounds, raises, and the beams that look for a sequence below a number.
    kinds = {(1, 1, False), (2, 2, False), (3, 2, False), (4, 3, False), (5, 1, True), (6, 2, False), (7, 2, False)}
    equal("steps, and their tasks", set(asked) >= kinds | {(8, 1, True)}, True)


def compare_parts(draw):
    """Searches of small shops and of their nodes, in parts of several budgets."""
    sizes = [(1, 3, 0), (5, 2, 1), (5, 4, 0), (6, 3, 2), (7, 5, 1), (8, 3, 0), (9, 4, 1), (12, 2, 0)]
    for jobs, machines, more in sizes:
        greatest = draw.choice((3, 9, 99, 9_999, 999_999))
        shop = jobs, machines, [draw.randint(0, greatest) for _ in range(jobs * machines)]
        start = draw.sample(range(1, jobs + 1), jobs)
        number = reference.makespan(shop, start) - 2 if jobs > 8 else reference.least(shop)
        number += draw.choice((0, 1))
        first, last = start[: min(more, 1)], start[len(start) - max(0, more - 1) :]
        wanted = plain_found(shop, number, first, last)
        kind, text, *found = prove(shop, number, first, last)
        equal(f"directions of {shop}", (kind, text), ("PROVED" if wanted[1] is None else "BELOW", wanted[0]))
        if found:
            equal("a sequence", found, [wanted[1], reference.makespan(shop, wanted[1])])
        for budget in (1, 2, 7, 1_000, len(text), max(0, len(text) - 1)):
            if budget or not text:
                equal(f"parts with {budget} of {shop}", by_parts(shop, number, first, last, budget), wanted)
                got = by_parts(shop, number, first, last, budget, tally)
                equal(f"parts that are counted with {budget} of {shop}", got, (len(wanted[0]), wanted[1]))
        if text:
            equal("no directions at all", prove(shop, number, first, last, 0), ("OVER", "", [(first, last, 0, [])]))
        compare_tally(shop, number, first, last, (kind, wanted[0], *found))


def compare_tally(shop, number, first, last, wanted):
    """What is counted at a node, of which all directions and what it comes to are known: with budgets that are enough,
    and with others, where the parts are those of a search that writes its directions."""
    count = len(wanted[1])
    for budget in (count, count + 1, MANY, MOST_COUNTED, 2**63, 2**64 - 1):
        got = tally(shop, number, first, last, budget, rest_room=0)
        equal(f"a count within {budget} of {shop}", got, (wanted[0], count, *wanted[2:]))
    for budget in {0, 1, 2, 7, count // 2, count - 1}:
        if 0 <= budget < count:
            kind, text, parts = prove(shop, number, first, last, budget)
            equal(f"a search over {budget} of {shop}", (kind, text), ("OVER", wanted[1][:budget]))
            equal(f"a count over {budget} of {shop}", tally(shop, number, first, last, budget), (kind, budget, parts))


def compare_reached(draw):
    """What beams and rounds reach beside all sequences of a small shop."""
    shop = drawn(draw, 6, 5, (3, 9, 99, 9_999, 999_999))
    start = draw.sample(range(1, shop[0] + 1), shop[0])
    value, best = reference.makespan(shop, start), reference.least(shop)
    for make, aim in [
        (lambda: beam(shop, start, width=draw.choice((1, 3, 4_096))), 0),
        (lambda: beam(shop, start, best + 1), best + 1), (lambda: beam(shop, start, best), best),
        (lambda: rounds(shop, start, draw.randint(0, 30), draw.randint(1, 2_147_483_646)), 0),
    ]:
        sequence, reached, _ = make()
        equal("a sequence", (sorted(sequence), reference.makespan(shop, sequence)), (sorted(start), reached))
        equal("whether it is no worse", best <= reached <= value, True)
        if aim:
            equal("a beam that is aimed", reached, best if aim > best else value)
    # An improvement is a beam with 12 of 17 parts of the steps, and rounds with 4 of 17 parts.
    width, most, seed = draw.choice((1, 3, 64)), draw.randint(1, 30), draw.randint(1, 2_147_483_646)
    wanted = improve(shop, start, width, 0, 1)
    equal("a beam as in improve", beam(shop, start, 0, width, 1_000_000 * 12 // 17)[:2], wanted)
    wanted = improve(shop, start, 0, most, seed)
    equal("rounds as in improve", rounds(shop, start, most, seed, 1_000_000 * 4 // 17)[:2], wanted)


def compare_pictures(draw):
    """Pictures beside the one of docs/ and those of the program, where it is built."""
    for shop in ((1, 1, [0]), (1, 1, [999_999])):
        equal("a picture", picture(shop, [1]), plain_picture(shop, [1]))
    shop = block((EXAMPLES / "taillard_20_5.txt").read_bytes(), 1)[0]
    shown = (TOP / "docs" / "schedule.svg").read_bytes()
    sequence = [int(job) for job in re.findall(rb"job (\d+), machine 1,", shown)]
    equal("the picture of docs/, with its least makespan", picture(shop, sequence, lower=1278), shown)
    if not os.path.exists(PROGRAM):
        return print("no program is built: its pictures were passed over")
    with new_folder() as folder:
        for _ in range(100):
            shop = drawn(draw)
            sequence = draw.sample(range(1, shop[0] + 1), shop[0])
            (folder / "shop").write_bytes(refusals.block_of(rows_of(shop)))
            (folder / "start").write_text(f"sequence {' '.join(map(str, sequence))}\n")
            words = [PROGRAM, "schedule", folder / "shop", "1", folder / "start", "--form", "svg"]
            wanted = subprocess.run(words, stdout=subprocess.PIPE, check=True).stdout
            equal(f"a picture of the program: {words[1:]} of {shop}, {sequence}", picture(shop, sequence), wanted)


def compare_at_once(seed):
    """One of several threads that run at once, with shops of its own."""
    for number in range(50):
        compare_shop(random.Random(seed * 100 + number))


def main():
    """Runs all, and says how many were as they should be."""
    major, minor, patch = map(int, (TOP / "VERSION").read_text().split("."))
    equal("the version", LIBRARY.flowshop_version(), major * 1_000_000 + minor * 1_000 + patch)
    for part in (
        compare_limits, compare_begun, refuse_arguments, refuse_rooms, refuse_answers, refuse_null_pointers,
        refuse_texts, compare_calls, compare_counts,
    ):
        part()
    draw = random.Random(20_261_125)
    for _ in range(200):
        seed = draw.randint(1, 20), draw.randint(1, 5), draw.randint(1, 2_147_483_646)
        equal(f"times of {seed}", generate(*seed), reference.generated(*seed)[2])
        compare_reached(draw)
    for _ in range(8):
        compare_parts(draw)
    compare_pictures(draw)
    compare_runs()
    compare_shared()
    for _ in range(SHOPS):
        compare_shop(draw)
    with concurrent.futures.ThreadPoolExecutor(8) as pool:
        list(pool.map(compare_at_once, range(8)))
    end("calls from Python")


if __name__ == "__main__":
    main()

"""tests/stacks.py: makes calls on the greatest shop, and prints what they give, for tests/package.py. With the word
`caller` they are those of the package, in a thread whose stack is the smallest that Python gives, and in the main
thread. With the word `library` they are those of the library, in threads with the stack that library/flowshop.h
states."""

import array
import re
import sys
import threading

from counts import TOP, new_folder, refused
from flowshop import Shop, _library, _parts, _tasks

FEW = {"width": 2, "rounds": 1, "work": 1}
SHOP = Shop.generate(800, 26, 5)
START = SHOP.neh()
JOBS = array.array("H", START.sequence).tobytes()
NUMBERS = SHOP._parts[:3]
# The first sequence below this number is 800 nodes deep.
BELOW = START.value + 1


def search_by_package():
    """The makespan of a sequence that a search reaches, and what a worker gives."""
    parts = _parts.packed_parts([_parts.PackedPart(b"", b"", 0, b"")])
    task = _tasks.Task(1, 0, _tasks.packed_shop(NUMBERS), BELOW, 100_000, True, 60.0, parts)
    answers = [_tasks.work(task._replace(has_signs=has_signs)).makespan for has_signs in (True, False)]
    beam = _tasks.reach((0, _tasks.packed_shop(NUMBERS), "beam", (JOBS, 0, 2, 10**9)))
    print(SHOP.prove(BELOW).value, *answers, beam.makespan)


def call_package():
    """The calls of the package."""
    search_by_package()
    found = SHOP.certify(START, **FEW, directions=20_000, workers=2)
    print(found, SHOP.check(found), SHOP.bound(), SHOP.makespan(found), SHOP.schedule(found), repr(SHOP.gantt(found)))
    stopped = SHOP.certify(resume=SHOP.certify(START, time_limit=0), time_limit=0)
    print(SHOP.improve(START, **FEW), SHOP.neh(), repr(SHOP.report(found, title="greatest")), stopped.state is None)
    print(refused(SHOP.solve, START, budget=1_000))
    with new_folder() as folder:
        SHOP.write(folder / "shop")
        print(Shop.read(folder / "shop")[0].shop == Shop.from_machines(SHOP.times) == Shop.generate(800, 26, 5))


def search():
    """The calls of the library that need the most."""
    both = [_parts.Rooms(_parts.Instance(*NUMBERS), 100_000, has_signs) for has_signs in (True, False)]
    print([(rooms.search(b"", b"", BELOW), rooms.makespan) for rooms in both])
    sequence, text = (_library.u16 * 800)(), (_library.u8 * 24_000)()
    bounds, room = _library.BoundsRoom(sequence, 800), _library.TextRoom(text, 24_000)
    SHOP._call("certify", JOBS, _library.EffortNumbers(2, 1, 1, 1), 20_000, bounds, room)
    print(SHOP.check(bytes(text)[: room.length]))


def call_library():
    """The other ones."""
    sequence, text = (_library.u16 * 800)(), (_library.u8 * 24_000)()
    reached = _library.ReachedRoom(sequence, 800)
    SHOP._call("improve", JOBS, _library.EffortNumbers(2, 1, 1, 1), reached)
    instance = _parts.Instance(*NUMBERS)
    print(reached.makespan, instance.beam(JOBS, 0, 2, 10**9).makespan, instance.rounds(JOBS, 1, 1, 10**9).makespan)
    bounds, room = _library.BoundsRoom(sequence, 800), _library.TextRoom(text, 24_000)
    try:
        SHOP._call("solve", JOBS, _library.Plan(0, 1_000, 2), bounds, room)
    except _library.Refused as refused:
        print(refused)
    print(SHOP.neh(), repr(SHOP.gantt(START)), SHOP.schedule(START), Shop.generate(800, 26, 5) == SHOP)


def with_stack(size, call):
    """Makes a call in a thread with so many bytes of stack."""
    threading.stack_size(size)
    thread = threading.Thread(target=call)
    thread.start()
    thread.join()
    print(threading.stack_size() == size)


if __name__ == "__main__":
    if sys.argv[1] == "caller":
        with_stack(1 << 15, call_package)
        search_by_package()
    else:
        stack = int(re.search(r"FLOWSHOP_STACK = (\d+)", (TOP / "library" / "flowshop.h").read_text())[1])
        with_stack(stack, search)
        with_stack(stack, call_library)

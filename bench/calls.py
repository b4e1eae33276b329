"""Prints what a call of the library takes from Python, in microseconds, for bench/calls: calls.py SEED."""

import sys
import time
from array import array

from flowshop import Shop, _library


def measured(call, batches=300, calls=50):
    """What a call takes: that of the fastest of many batches."""
    least = float("inf")
    for _ in range(batches):
        begun = time.perf_counter()
        for _ in range(calls):
            call()
        least = min(least, time.perf_counter() - begun)
    return 1_000_000 * least / calls


def bare_makespan(shop, sequence):
    """The call of the makespan with arguments that are there, by ctypes alone."""
    order = array("H", sequence).tobytes()
    words = [shop._lent, order, _library.size(shop.jobs), _library.byref(_library.u64())]
    call = _library._CALLS["makespan"]
    return lambda: call(*words)


def main():
    """Measures calls on a small shop, and on one of the greatest size."""
    small = Shop.generate(10, 5, int(sys.argv[1]))
    text = small.solve(budget=1_000_000).text
    order = list(range(1, 11))
    print(f"python_check {measured(lambda: small.check(text)):.3f}")
    print(f"bare_makespan {measured(bare_makespan(small, order)):.3f}")
    print(f"python_makespan {measured(lambda: small.makespan(order)):.3f}")
    great = Shop.generate(800, 26, int(sys.argv[1]))
    order = list(range(1, 801))
    buffer = memoryview(array("I", [time for row in great.times for time in row]).tobytes()).cast("I", [26, 800])
    print(f"bare_great {measured(bare_makespan(great, order), 60, 10):.3f}")
    print(f"python_great {measured(lambda: great.makespan(order), 60, 10):.3f}")
    print(f"python_shop {measured(lambda: Shop.from_machines(buffer), 60, 10):.3f}")
    print(f"python_schedule {measured(lambda: great.schedule(order), 60, 10):.3f}")
    try:
        import numpy
    except ImportError:
        return
    rows = numpy.array(great.times).T.copy()
    print(f"numpy_shop {measured(lambda: Shop.from_jobs(rows), 60, 10):.3f}")


main()

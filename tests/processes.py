"""The package for Python in pools of processes, by fork and by spawn, and in eight threads; what a call on a small shop
takes of memory and time, and a search that counts of memory; and what an import without a library says."""

import concurrent.futures
import multiprocessing
import os
import resource
import subprocess
import sys
import time

from counts import end, equal, refused
from flowshop import NotASequence, Shop

SMALL = Shop.from_jobs([[4, 0, 4], [0, 8, 0], [0, 2, 1]], job_names=["Shelf", "Door", "Table"])
# Sequences of it, of which the third is none, and their makespans, worked out in docs/formats.md.
SEQUENCES = [[2, 1, 3], [3, 1, 2], [1, 2, 2]]
SENTENCE = "job 2 stands at place 2 of the sequence, and again at place 3; each job stands in it once"


def solved(seed):
    """The certificate of a shop of a seed, which another process is given and gives back."""
    return Shop.generate(8, 3, seed).solve()


def use_pool(method):
    """A pool of processes: results come back, and so does a refusal, after which the pool still works."""
    context = multiprocessing.get_context(method)
    with concurrent.futures.ProcessPoolExecutor(2, mp_context=context) as pool:
        futures = [pool.submit(SMALL.makespan, sequence) for sequence in SEQUENCES]
        equal(f"makespans by {method}", [future.result(60) for future in futures[:2]], [13, 12])
        compare_refusal(method, futures[2].exception(60))
        seeds = range(1, 5)
        equal(f"certificates by {method}", list(pool.map(solved, seeds, timeout=60)), list(map(solved, seeds)))
        named = pool.submit(SMALL.neh).result(60)
        equal(f"names by {method}", named.names, ("Door", "Shelf", "Table"))
    with context.Pool(2) as pool:
        results = [pool.apply_async(SMALL.makespan, (sequence,)) for sequence in SEQUENCES]
        equal(f"makespans by another pool by {method}", [result.get(60) for result in results[:2]], [13, 12])
        try:
            compare_refusal(method, results[2].get(60))
        except NotASequence as error:
            compare_refusal(method, error)


def compare_refusal(method, error):
    """A refusal from another process."""
    got = type(error), getattr(error, "name", None), getattr(error, "place", None), str(error)
    equal(f"a refusal by {method}", got, (NotASequence, "TWICE", 3, SENTENCE))


def use_threads():
    """One shop in eight threads at once, and shops of each thread."""
    shop = Shop.generate(30, 10, 3)
    sequence, seeds = shop.neh(), range(1, 9)
    texts = [str(shop.gantt(sequence)), list(shop.schedule(sequence)), sequence]

    def work(seed):
        found = []
        for _ in range(5):
            same = [str(shop.gantt(sequence)), list(shop.schedule(sequence)), shop.neh()] == texts
            # Job 0 is none; every other one stands there twice.
            found.append((solved(seed), same, refused(shop.makespan, [seed - 1] * 30)[1]))
        return found

    wanted = [[(solved(seed), True, "TWICE" if seed > 1 else "JOB")] * 5 for seed in seeds]
    with concurrent.futures.ThreadPoolExecutor(8) as pool:
        equal("eight threads", list(pool.map(work, seeds)), wanted)


def measure_small_calls():
    """A search on a small shop takes a few milliseconds at most, and no memory to speak of."""
    held = resource.getrusage(resource.RUSAGE_SELF).ru_maxrss
    for name, call in (("solve", SMALL.solve), ("certify", lambda: SMALL.certify(width=0, rounds=0, work=0))):
        least = 1.0
        for _ in range(5):
            begun = time.process_time()
            call()
            least = min(least, time.process_time() - begun)
        equal(f"that {name} takes less than 10 ms, with {1000 * least:.1f}", least < 0.010, True)
    more = resource.getrusage(resource.RUSAGE_SELF).ru_maxrss - held
    equal(f"that they hold less than 8 MB more, with {more} KB", more < 8192, True)


def say(code, **environment):
    """The last line that a program in Python writes, and its status."""
    words = [sys.executable, "-c", code]
    run = subprocess.run(words, env={**os.environ, **environment}, capture_output=True, check=False)
    return run.returncode, (run.stdout + run.stderr).decode().strip().splitlines()[-1]


def use_little_memory():
    """A search where a process may have few addresses: the room for its text is what is left."""
    code = ("import resource; resource.setrlimit(resource.RLIMIT_AS, (600 << 20,) * 2)\nfrom flowshop import Shop\n"
            "print(Shop.generate(8, 3, 1).solve(depth=3, budget=100_000_000).optimal)")
    equal("a search with few addresses", say(code), (0, "True"))


def count_in_little_memory():
    """A search of seven million directions that only counts them takes no memory to speak of; with signs it takes as
    many bytes."""
    code = ("import resource\nfrom flowshop import Shop, _spread\nshop = Shop.generate(20, 20, 479340445)\n"
            "held = resource.getrusage(resource.RUSAGE_SELF).ru_maxrss\n"
            "with _spread.Spread(shop._parts[:3], _spread.Workers(None, 2), int) as spread:\n"
            "    found = spread.prove(2250, 10**15, {})\n"
            "print(found.written, resource.getrusage(resource.RUSAGE_SELF).ru_maxrss - held)")
    (_, signs), (_, count) = (say(code.format(has_signs)) for has_signs in (True, False))
    (wanted, most), (written, kilobytes) = (map(int, line.split()) for line in (signs, count))
    equal("how many are counted", (written, written > 6_000_000), (wanted, True))
    equal(f"that a count holds less than 3 MB, with {kilobytes} kB", kilobytes < 3072 < most, True)


def miss_library():
    """An import with a library that is not there, or is another one."""
    for path, ends in [("/nothing.so", "No such file or directory"), (os.__file__, "invalid ELF header")]:
        status, line = say("import flowshop", FLOWSHOP_LIBRARY=path)
        wanted = f"ImportError: flowshop: {path} is not the library that this package calls: {path}: "
        equal(f"an import with {path}", (status, line.startswith(wanted), line.endswith(ends)), (1, True, True))


if __name__ == "__main__":
    # Pools come before threads, which a fork would not copy.
    measure_small_calls()
    for way in ("fork", "spawn"):
        use_pool(way)
    use_threads()
    use_little_memory()
    count_in_little_memory()
    miss_library()
    end("processes and threads from Python")

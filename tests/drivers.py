"""tests/drivers.py THREADS CHECKER: one run of certify by all who make it: the program by one thread and by three, the
example THREADS in C by one and by four, the package by one, by three threads, by two processes and by two workers of
dask, where it is there. They write one text for 40 shops of all sizes, whose searches end within their budgets or not,
and the package the program's counted one. Then 50 runs that are stopped at drawn moments: what each leaves is read by
the package, by the program, by the second checker CHECKER, and, where it has signs, by the one in plain Python. A name
that is none is passed over."""

import concurrent.futures
import contextlib
import importlib.util
import random
import subprocess
import sys
import threading

from counts import PROGRAM, TOP, end, equal, new_folder

from flowshop import Shop

THREADS, CHECKER = (None if word == "none" else word for word in sys.argv[1:3])
# How many jobs and machines.
SIZES = [(1, 1), (1, 26), (2, 3), (4, 1), (5, 4), (6, 6), (7, 2), (8, 5), (9, 9), (10, 3), (10, 12), (11, 7), (12, 8)]
SIZES += [(13, 4), (14, 10), (15, 5), (15, 15), (17, 26), (20, 5), (20, 10), (20, 20), (25, 8), (30, 15), (40, 5)]
SIZES += [(50, 5), (50, 20), (60, 12), (80, 8), (100, 5), (120, 26), (200, 10), (300, 5), (500, 20), (800, 5)]
SIZES += [(800, 26)]


def drawn():
    """Shops, with the numbers of a run; the times of some are so great that makespans need 32 bits."""
    draw = random.Random(12)
    for place, (jobs, machines) in enumerate([*SIZES, *SIZES[12:17]]):
        most = 60_000 if place % 5 == 4 else 99
        shop = Shop.from_machines([[draw.randint(1, most) for _ in range(jobs)] for _ in range(machines)])
        numbers = {"width": draw.choice([0, 5, 40]), "rounds": draw.choice([0, 20]), "seed": draw.randint(1, 999)}
        few = jobs > 100
        numbers.update(work=1 if few else 5, directions=draw.choice([1, 2_000] if few else [500, 20_000, 300_000]))
        yield shop, numbers


def run(*words, **numbers):
    """What a program prints, with these words and numbers that have names."""
    named = [word for name, number in numbers.items() for word in (f"--{name}", number)]
    return subprocess.run([*map(str, [*words, *named])], stdout=subprocess.PIPE, check=False, timeout=120).stdout


@contextlib.contextmanager
def dask_client():
    """A client of two workers of dask on this machine; or none where dask is not there."""
    if importlib.util.find_spec("distributed") is None:
        print("no distributed: dask was passed over")
        yield None
        return
    distributed = __import__("distributed")
    with distributed.LocalCluster(n_workers=2, threads_per_worker=1, dashboard_address=None) as cluster:
        with distributed.Client(cluster) as client:
            yield client


def compare_drivers(workers, folder):
    """The texts of all who make a run; the package by these workers, too."""
    over, proved = 0, 0
    for shop, numbers in drawn():
        shop.write(folder / "shop")
        words = PROGRAM, "certify", folder / "shop", 1
        wanted, count = run(*words, **numbers), run(*words, **numbers, proof="count")
        texts = {"the program by three threads": run(*words, **numbers, workers=3)}
        if THREADS:
            for threads in (1, 4):
                texts[f"C by {threads}"] = run(THREADS, folder / "shop", 1, threads, *numbers.values())
        for name, each in {"one": 1, "three threads": 3, **workers}.items():
            texts[f"the package by {name}"] = shop.certify(**numbers, workers=each).text
            counted = shop.certify(**numbers, workers=each, proof="count").text
            equal(f"the count of {shop!r} with {numbers} by {name}", counted, count)
        # Where nothing is said of the proof, runs of so many directions only count them.
        for most in (10**8, 10**8 + 1, 10**15) if shop.jobs < 9 else ():
            great = {**numbers, "directions": most}
            got = shop.certify(**great, workers=3).text
            equal(f"the text of {shop!r} with {great}", got, run(*words, **great))
        for name, text in texts.items():
            equal(f"the text of {shop!r} with {numbers} by {name}", text == wanted, True)
        found = shop.check(wanted)
        over, proved = over + (not found.optimal), proved + found.optimal
    equal("that some bounds differ, and some are equal", (over > 5, proved > 5), (True, True))


def read_stopped(folder):
    """What checkers say of runs that are stopped at drawn moments."""
    draw, shop = random.Random(4), Shop.generate(30, 15, 7)
    shop.write(folder / "shop")
    text = folder / "text"
    for _ in range(50):
        token = threading.Event()
        threading.Timer(draw.uniform(0, 0.3), token.set).start()
        proof = draw.choice(["signs", "count"])
        found = shop.certify(token=token, workers=draw.choice([1, 1, 3]), directions=10**9, proof=proof)
        text.write_bytes(found.text)
        wanted = f"bounds {found.lower} {found.upper}"
        words = [(PROGRAM, "check", folder / "shop", 1, text)]
        words += [(CHECKER, "check", folder / "shop", 1, text)] if CHECKER else []
        plain = sys.executable, TOP / "examples/python/check_two_ended.py", folder / "shop", 1, text
        words += [plain] if proof == "signs" else []
        equal("what the package says", shop.check(found.text), found)
        equal("what checkers say", {run(*each).decode().split("\n")[0] for each in words}, {wanted})


if __name__ == "__main__":
    with concurrent.futures.ProcessPoolExecutor(2) as made, new_folder() as place, dask_client() as dask:
        list(made.map(abs, range(4)))  # its processes start before any thread does
        compare_drivers({"processes": made, **({"dask": dask} if dask else {})}, place)
        read_stopped(place)
    end("drivers")

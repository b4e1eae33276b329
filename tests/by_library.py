#!/usr/bin/env python3
"""tests/by_library.py WORD..: does what the program does for these words, by the package for Python, for the runs of
`tests/program --cases tests/by_library.py`; tests/fuzz takes what it reads and says of texts. The status is 77 where
the words ask for something that the library has no call for: help, a report, progress, or a time limit."""

import pathlib
import sys

from counts import new_folder
from flowshop import NotASequence, Shop, TextError, _texts
from flowshop._library import MOST_JOBS, MOST_MACHINES, BlockRoom, Refused, call, u32

PASSED_OVER = 77
SWITCHES = "sequence", "optimal"
OPTIONS = {
    "improve": "width rounds seed work", "certify": "width rounds seed work directions proof workers",
    "solve": "depth budget certificate workers",
}


class Stop(Exception):
    """The line of what is refused."""


def placed(name, place):
    """A status as the program names it, and its place, where it has one."""
    return "".join(part.capitalize() for part in name.split("_")) + (f" {place}" if place else "")


def block_of(text, index):
    """The shop of a block, or the first fault of the text."""
    times = (u32 * (MOST_JOBS * MOST_MACHINES))()
    block = BlockRoom(times=times, times_count=len(times))
    try:
        call("block", text, len(text), index, block)
    except Refused as refused:
        is_index = refused.name == "INDEX"
        raise Stop("refused index" if is_index else f"refused text {placed(refused.name, refused.place)}") from None
    jobs, count = block.jobs, block.jobs * block.machines
    return Shop.from_machines([times[start : start + jobs] for start in range(0, count, jobs)])


def start_of(shop, text):
    """The sequence of a start text."""
    try:
        jobs, stated, line = _texts.sequence_of(text)
        if stated not in (None, shop.makespan(jobs)):
            raise TextError("NOT_ATTAINED", line, "")
    except TextError as error:
        raise Stop(f"refused start {error.place}") from None
    return jobs


def printed(sequence, makespan):
    """A sequence and its makespan."""
    return f"sequence {' '.join(map(str, sequence))}\nmakespan {makespan}\n"


def proved(shop, text, options, **numbers):
    """What a certificate proves, or its sequence. The numbers are those of the check."""
    found = shop.check(text, **numbers)
    if "optimal" in options and not found.optimal:
        raise Stop(f"refused bounds {found.lower} {found.upper}")
    if "sequence" in options:
        return printed(found.sequence, found.upper)
    return f"optimal {found.upper}\n" if found.optimal else f"bounds {found.lower} {found.upper}\n"


def refused(error):
    """The line of a sequence or a certificate that is refused."""
    if isinstance(error, NotASequence):
        return f"refused sequence {placed(error.name, error.place)}"
    return f"refused certificate {placed(error.name, error.place if error.name in ('TREE', 'WEAK', 'LOW') else 0)}"


def generated(jobs, machines, seed):
    """The text of an instance of the generator."""
    with new_folder() as folder:
        Shop.generate(jobs, machines, seed).write(folder / "shop", seed=seed)
        return (folder / "shop").read_text()


def scheduled(shop, text, form):
    """The timetable of a start or a certificate, or a picture of it."""
    given = shop.check(text) if text.startswith(b"flowshop ") else start_of(shop, text)
    if form == "svg":
        return str(shop.gantt(given))
    columns = shop.schedule(given).columns()
    rows = [",".join(columns), *(",".join(map(str, row)) for row in zip(*columns.values()))]
    return "".join(f"{row}\n" for row in rows)


def searched(command, shop, start, options):
    """What a search writes."""
    chosen = {name: options[name] if name == "proof" else int(options[name])
              for name in OPTIONS[command].split() if name in options}
    if command == "improve":
        found = shop.improve(start, **chosen)
        return printed(found.sequence, found.value)
    if command == "certify":
        return shop.certify(start, **chosen).text.decode()
    chosen.pop("workers", None)
    version = {"version": chosen.pop("certificate")} if "certificate" in chosen else {}
    return shop.solve(start, **{"depth": 1, "budget": 1_000_000, **chosen}, **version).text.decode()


def output(words):
    """What the program writes; nothing where the library has no call for it."""
    names, options = [], {}
    rest = iter(words)
    for word in rest:
        if word.startswith("-"):
            options[word.lstrip("-")] = word.lstrip("-") in SWITCHES or next(rest, None)
        else:
            names.append(word)
    command, *names = names or [""]
    is_known = command in "span gen neh improve certify solve check schedule".split()
    if not is_known or {"progress", "verbose", "time-limit"} & set(options):
        return None
    if command == "gen":
        return generated(*map(int, names))
    shop = block_of(pathlib.Path("/dev/stdin" if names[0] == "stdin" else names[0]).read_bytes(), int(names[1]))
    if command == "span":
        return f"makespan {shop.makespan([int(job) for job in names[2:]])}\n"
    if command == "neh":
        return printed(shop.neh().sequence, shop.neh().value)
    if command in ("check", "schedule"):
        text = pathlib.Path(names[2]).read_bytes()
        if command == "schedule":
            return scheduled(shop, text, options.get("form"))
        return proved(shop, text, options, **{"most": int(options[name]) for name in ("most",) if name in options})
    start = start_of(shop, pathlib.Path(options["start"]).read_bytes()) if "start" in options else None
    return searched(command, shop, start, options)


if __name__ == "__main__":
    written = output(sys.argv[1:])
    sys.stdout.write(written or "")
    sys.exit(PASSED_OVER if written is None else 0)

"""The command `plan`: a table becomes a page for the wall, a table of times and a picture."""

import argparse
import sys
from pathlib import Path

from ._calendar import calendar_of
from ._command_shop import read, settings_file, words_of_table
from ._errors import readable
from ._files import WordError, limit_of, refuse_out, whole_of
from ._options import OF_PARTS
from ._plan import TIME_LIMIT, Earlier, Effort, Plan, plan_of
from ._reading import kept_of, settings_of
from ._saving import save
from ._streams import Printed
from ._waiting import Lines

_DESCRIPTION = """Certifies the order of a table's jobs, and writes TABLE.plan.html, a page for the wall;
TABLE.plan.csv, a table of times; TABLE.plan.svg, a picture; and TABLE.plan.json, which --after takes on another day.
The tables are those of the command shop, and so are its words. With a start all times are by the calendar, whose
shifts, breaks and holidays stand in the file beside the table."""


def words(parsers: "argparse._SubParsersAction[argparse.ArgumentParser]") -> None:
    """The words of the command."""
    parser = parsers.add_parser("plan", help="make a page for the wall of a table", description=_DESCRIPTION)
    words_of_table(parser)
    about = "the date, or the date and the time, from which on work is done, as 2026-12-01T07:00"
    parser.add_argument("--start", metavar="MOMENT", help=about)
    about = "an earlier plan, whose order the searches begin with; the page shows what is different"
    parser.add_argument("--after", metavar="PLAN.json", help=about)
    about = "with --after: the page names the jobs of the earlier plan that have begun by then"
    parser.add_argument("--now", metavar="MOMENT", help=about)
    about = f"the most seconds of the searches; else {TIME_LIMIT:g}"
    parser.add_argument("--time-limit", type=float, default=TIME_LIMIT, metavar="S", help=about)
    about = "how many threads share the searches; else, and for -1, one for each processor"
    parser.add_argument("--workers", type=int, default=-1, metavar="K", help=about)
    parser.add_argument("--out", metavar="FOLDER", help="the folder to write to; else that of the table")
    parser.set_defaults(run=run)


def _begin(options: argparse.Namespace) -> Path:
    """How the names of the files begin. WordError where their folder is none, or the earlier plan is none, or would be
    replaced."""
    if options.out:
        refuse_out(options.out)
    elif settings_of(options.table) is None:
        raise WordError(f"{readable(options.table)} is no file that plans stand beside: --out names a folder for them")
    folder = Path(options.out) if options.out else Path(options.table).parent
    begin = folder / f"{Path(options.table).stem}.plan"
    if options.after and not options.after.endswith(".json"):
        raise WordError(f"--after is {options.after}, and has to be the file of a plan that ends with .plan.json")
    if options.after and Path(options.after).resolve() == Path(f"{begin}.json").resolve():
        raise WordError(f"{begin}.json would replace the plan of --after; give the table a name of its own, or --out")
    return begin


def run(options: argparse.Namespace) -> int:
    """Makes the plan, writes its files, and says what it is."""
    begin, settings = _begin(options), settings_file(options)
    kept = kept_of(settings)
    calendar = calendar_of(kept.get("calendar", {}), options.start)
    if calendar is None and "calendar" in kept:
        Lines(sys.stderr).keep(f"the calendar of {readable(settings)} is not used, since there is no --start")
    workers = options.workers if options.workers == -1 else whole_of("workers", options.workers, OF_PARTS)
    effort = Effort(limit_of(options), workers)
    earlier = Earlier(Plan.read(options.after) if options.after else None, options.now)
    reading = read(options, kept, calendar is not None)
    begin.parent.mkdir(parents=True, exist_ok=True)
    plan = plan_of(reading, calendar, earlier, effort)
    texts = {"html": plan.report(), "csv": plan.to_csv(), "svg": plan.picture(), "json": plan.to_json()}
    names = [f"{begin}.{suffix}" for suffix in texts]
    for name, text in zip(names, texts.values()):
        save(name, text.encode("utf-8", "replace"))
    printed = Printed(sys.stdout)
    printed(f"{plan}\n{readable(', '.join(names))}\n")
    printed.test()
    return 0

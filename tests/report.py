"""The report of a schedule: its sentences, times, tables and picture, beside values worked out by hand and plain code
that shares nothing with it; the command that writes it; and a table that becomes a report in three commands."""

import datetime
import decimal
import html.parser
import os
import pathlib
import random
import re
import subprocess
import time

import refusals
from counts import FLOWSHOP, PROGRAM, command, end, equal, new_folder, refused
from reference import makespan, of_rows, spans as spans_of
from refusals import THREE as ROWS

from flowshop import Certificate, Report, Shop

SHOP = Shop.from_jobs(ROWS)
# Texts of the shop, of which the last states less than is so.
LEAST, BOUNDS = refusals.LEAST.decode(), refusals.BOUNDS.decode()
NOTHING = "flowshop two-ended 1\n3 3\n0 13\n2 1 3\n\nend\n"
STRANGE = '<b>&"x\'</b>'


class Element:
    """An element of a page: its name, its attributes, and its texts and elements in their order."""

    def __init__(self, name, attributes):
        self.name, self.attributes, self.parts = name, dict(attributes), []

    def all(self, name, kind=None):
        """The elements of a name below this one, and of a class."""
        for part in self.parts:
            if isinstance(part, Element):
                if part.name == name and (kind is None or kind in part.attributes.get("class", "").split()):
                    yield part
                yield from part.all(name, kind)

    def text(self):
        """The text below this element."""
        return "".join(part if isinstance(part, str) else part.text() for part in self.parts)


class Reader(html.parser.HTMLParser):
    """Reads a page into `root`, and keeps what is at fault in its form."""

    def __init__(self, page):
        super().__init__()
        self.root = Element("", [])
        self.open, self.faults = [self.root], []
        self.feed(page)
        self.close()
        self.faults += [f"{element.name} is open" for element in self.open[1:]]

    def handle_starttag(self, tag, attrs):
        element = Element(tag, attrs)
        if len(element.attributes) < len(attrs):
            self.faults.append(f"{tag} has an attribute twice")
        self.open[-1].parts.append(element)
        if tag != "meta":
            self.open.append(element)

    def handle_startendtag(self, tag, attrs):
        self.open[-1].parts.append(Element(tag, attrs))
        if "svg" not in [element.name for element in self.open]:
            self.faults.append(f"{tag} ends itself")

    def handle_endtag(self, tag):
        if self.open[-1].name == tag:
            self.open.pop()
        else:
            self.faults.append(f"{tag} ends in {self.open[-1].name}")

    def handle_data(self, data):
        self.open[-1].parts.append(data)


def read(report):
    """A page that was read; it is well-formed, asks for nothing from elsewhere, and can be read aloud."""
    reader = Reader(report)
    root = reader.root
    equal("the form of a page", reader.faults, [])
    equal("its language", [element.attributes for element in root.all("html")], [{"lang": "en"}])
    heads = {element.attributes.get("scope") for element in root.all("th")}
    equal("that each head of a table says of what", heads <= {"row", "col"}, True)
    names = [element.attributes["id"] for element in root.all("section") if "id" in element.attributes]
    links = [element.attributes["href"] for element in root.all("a")]
    equal("where its links lead, and that no two have one name", links, [f"#{name}" for name in dict.fromkeys(names)])
    for name in ("script", "link", "img", "iframe", "object"):
        equal(f"elements {name}", list(root.all(name)), [])
    style = "".join(element.text() for element in root.all("style"))
    equal("what its style asks for", re.findall(r"url\(|@import|@font-face|https?:", style), [])
    return root


def line_of(root, start):
    """The paragraph that begins so."""
    return next((element.text() for element in root.all("p") if element.text().startswith(start)), None)


def table_of(element):
    """The rows of the table in an element, as texts."""
    return [[cell.text() for cell in row.parts] for row in element.all("tr")]


def sheets_of(root):
    """The sheets: the name of each machine, the line below, and the rows."""
    sheets = root.all("section", "sheet")
    return [(next(each.all("h2")).text(), next(each.all("p")).text(), table_of(each)[1:]) for each in sheets]


def shop_of(rows, scale=1, sign="point", job_names=None, machine_names=None):
    """The shop of a file with these rows, one for each job, and this unit."""
    job_names = job_names or range(1, len(rows) + 1)
    machine_names = machine_names or range(1, len(rows[0]) + 1)
    lines = ["\t".join(["jobs", *map(str, job_names)]), f"{len(rows)} {len(rows[0])} 0 0 0"]
    unit = f"machines, times in 1/{scale}, decimal {sign}, separator semicolon"
    lines.append("\t".join([unit, *map(str, machine_names)]))
    lines += [" ".join(map(str, column)) for column in zip(*rows)]
    with new_folder() as folder:
        (folder / "shop.txt").write_text("\n".join([*lines, ""]), encoding="utf-8")
        return Shop.read(folder / "shop.txt")[0].shop


def in_unit(scale, sign="."):
    """How a time is shown in the unit of a table: the decimal number, without zeros behind it."""

    def shown(number):
        text = f"{decimal.Decimal(number) / scale:f}"
        return (text.rstrip("0").rstrip(".") if "." in text else text).replace(".", sign)

    return shown, shown


def by_clock(start, seconds, has_seconds):
    """How moments and lengths are shown by the clock, where a unit has so many seconds."""
    begun = datetime.datetime(2001, 1, 1, *map(int, start.split(":")))

    def at(number):
        moment = begun + datetime.timedelta(seconds=number * seconds)
        day = (moment.date() - begun.date()).days + 1
        return (f"day {day}, " if day > 1 else "") + moment.strftime("%H:%M:%S" if has_seconds else "%H:%M")

    def lasting(number):
        minutes, rest = divmod(int(number * seconds), 60)
        text = f"{minutes // 60}:{minutes % 60:02d}"
        return f"{text}:{rest:02d}" if has_seconds else text

    return at, lasting


def percent(part, whole):
    """A part of a whole in percent, to the nearest one."""
    share = decimal.Decimal(100 * part) / whole if whole else decimal.Decimal(0)
    return f"{share.quantize(decimal.Decimal(1), decimal.ROUND_HALF_UP)}%"


def compare(what, report, rows, sequence, shown, names):
    """Compares the order, the table of the machines, the sheets and the picture of a report with plain code."""
    (at, lasting), (job_names, machine_names) = shown, names
    root = read(report)
    spans = spans_of(of_rows(rows), sequence)
    makespan = spans[-1][-1][1]
    jobs = [job_names[job - 1] for job in sequence]
    equal(f"{what}: the order", [item.text() for item in root.all("li")], jobs)
    table, sheets, titles = [], [], []
    for machine, name in enumerate(machine_names):
        of_machine = [(place, jobs[place - 1], *each[machine]) for place, each in enumerate(spans, 1)]
        turns = [turn for turn in of_machine if turn[2] < turn[3]]
        working = sum(row[machine] for row in rows)
        between = sum(after[2] - before[3] for before, after in zip(turns, turns[1:]))
        ends = [at(turns[0][2]), at(turns[-1][3])] if turns else ["–", "–"]
        lengths = [lasting(working), lasting(makespan - working), lasting(between)]
        table.append([name, *ends, *lengths, percent(working, makespan)])
        sheets.append((name, [[str(place), job, at(start), at(end)] for place, job, start, end in turns]))
        titles += [f"{job}, {name}, start {at(start)}, end {at(end)}".lower() for _, job, start, end in turns]
    equal(f"{what}: the machines", table_of(next(root.all("section", "shared")))[1:], table)
    equal(f"{what}: the sheets", [(name, rows) for name, _, rows in sheets_of(root)], sheets)
    bars = [element.text().lower() for drawing in root.all("svg") for element in drawing.all("title")][1:]
    equal(f"{what}: the picture", sorted(bars), sorted(titles))
    return root


def proved_orders():
    """Orders of shops, the words for a report, and what is said of the bound, and of the order of the table. All
    numbers were worked out by hand."""
    earlier, optimal = "No order finishes earlier than", "this one is optimal."
    before, finishes = "No order can finish before", "this one finishes at"
    no_search = "That bound takes no search;"
    simple, other = (f"{no_search} {each} certificate may prove a higher one." for each in ("a", "another"))
    less = f"{no_search} the certificate proves only that no order finishes before"
    more = "Another one may prove a higher bound."
    table, is_table = "In the order of the table it would", "This is the order of the table."
    equal_jobs, one = Shop.from_jobs([[1], [1]]), Shop.from_jobs([[1000]])
    part = "flowshop two-ended 1\n1 1\n{} 1000\n1\n\nend\n".format
    root = NOTHING.replace("0 13", "10 13")
    percents = "It takes at most {}% more than the least time.".format
    return [
        (SHOP, SHOP.check(LEAST), {}, f"{earlier} 12: {optimal}", f"{table} take 15."),
        (SHOP, SHOP.check(BOUNDS), {}, f"{before} 11; {finishes} 13.", f"{percents(18.2)} {table} take 15."),
        (SHOP, SHOP.check(NOTHING), {}, f"{before} 10; {finishes} 13.",
         f"{percents(30.0)} {less} 0. {more} {table} take 15."),
        (SHOP, SHOP.check(NOTHING), {"start": "07:30", "unit": "15min"}, f"{before} 10:00; {finishes} 10:45.",
         f"{percents(30.0)} {less} 07:30. {more} {table} finish at 11:15."),
        (SHOP, SHOP.check(root), {}, f"{before} 10; {finishes} 13.", f"{percents(30.0)} {other} {table} take 15."),
        (SHOP, Certificate(13, 13, (1, 2, 3), BOUNDS.encode()), {}, f"{before} 11; {finishes} 13.",
         f"{percents(18.2)} {table} take 15."),
        (SHOP, [2, 1, 3], {}, f"{before} 10; {finishes} 13.", f"{percents(30.0)} {simple} {table} take 15."),
        (SHOP, SHOP.neh(), {}, f"{before} 10; {finishes} 13.", f"{percents(30.0)} {simple} {table} take 15."),
        (SHOP, [1, 2, 3], {}, f"{before} 10; {finishes} 15.", f"{percents(50.0)} {simple} {is_table}"),
        (SHOP, SHOP.check(LEAST), {"start": "07:30", "unit": "15min"}, f"{earlier} 10:30: {optimal}",
         f"{table} finish at 11:15."),
        (SHOP, SHOP.check(BOUNDS), {"start": "22:00", "unit": "1h"}, f"{before} day 2, 09:00; {finishes} day 2, 11:00.",
         f"{percents(18.2)} {table} finish at day 2, 13:00."),
        (Shop.from_jobs([[1, 5], [5, 1]]), [2, 1], {}, f"{before} 7; {finishes} 11.",
         f"{percents(57.2)} {simple} {table} take 7."),
        (equal_jobs, [2, 1], {}, f"{earlier} 2: {optimal}", f"{table} take 2 too."),
        (equal_jobs, [1, 2], {}, f"{earlier} 2: {optimal}", is_table),
        (Shop.from_jobs([[0, 0]]), [1], {}, f"{earlier} 0: {optimal}", is_table),
        (one, one.check(part(1000)), {}, f"{earlier} 1000: {optimal}", is_table),
        (one, one.check(part(999)), {}, f"{earlier} 1000: {optimal}", f"{less} 999. {is_table}"),
        (Shop.from_jobs([[1, 400], [201, 399]]), [2, 1], {}, f"{before} 800; {finishes} 1000.",
         f"{percents(25.0)} {simple} {table} take 800."),
        (Shop.from_jobs([[1, 500], [2, 498]]), [2, 1], {}, f"{before} 999; {finishes} 1000.",
         f"{percents(0.2)} {simple} {table} take 999."),
    ]


def say_what_is_proved():
    """The sentences on the bound, and on the order of the table."""
    for shop, order, words, proved, beside in proved_orders():
        root = read(shop.report(order, **words))
        equal(f"what is said of {order!r}", line_of(root, "No order"), proved)
        equal(f"what is said beside it of {order!r}", [each.text() for each in root.all("p")][1], beside)
        (drawing,) = root.all("svg")
        equal("the picture as words", drawing.attributes["aria-label"].endswith(proved), True)
    wanted = "Not modelled are due dates, set-up times, shifts and breaks; every machine takes the jobs in the same "
    equal("what is not modelled", line_of(root, "Not").partition("order. Made")[0], wanted)
    got = refused(Shop.from_jobs([[1, 2, 4]] * 3).report, SHOP.check(LEAST))[:3]
    equal("a certificate of another shop", got, ("NotLawful", "NOT_ATTAINED", 4))
    equal("a sequence of another shop", refused(SHOP.report, [1, 2])[:2], ("NotASequence", "LENGTH"))


# A time, the unit of its table, start and unit of a report, when a job of this time ends, and how long the machine
# works. All were worked out by hand.
TIMES = [
    (29, 4, "point", None, None, "7.25", "7.25"), (29, 4, "comma", None, None, "7,25", "7,25"),
    (28, 4, "point", None, None, "7", "7"), (1, 1_000_000, "point", None, None, "0.000001", "0.000001"),
    (10, 100, "comma", None, None, "0,1", "0,1"), (999_999, 1, "point", None, None, "999999", "999999"),
    (29, 1, "point", "23:30", "1min", "23:59", "0:29"), (30, 1, "point", "23:30", "1min", "day 2, 00:00", "0:30"),
    (90, 1, "point", "23:30", "1min", "day 2, 01:00", "1:30"),
    (49, 1, "point", "7:30", "1h", "day 3, 08:30", "49:00"),
    (2, 1, "point", "00:00", "12h", "day 2, 00:00", "24:00"), (3, 1, "point", "08:00", "15 min", "08:45", "0:45"),
    (1, 4, "point", "08:00", "15min", "08:03:45", "0:03:45"),
    (29, 4, "comma", "07:30", "1min", "07:37:15", "0:07:15"), (4, 4, "comma", "07:30", "1h", "08:30", "1:00"),
    (5, 10, "point", "08:00", "1,5min", "08:00:45", "0:00:45"), (5, 10, "point", "08:00", "1.5 h", "08:45", "0:45"),
    (3, 1, "point", "23:59", "0.5s", "23:59:02", "0:00:02"),
    (119, 1, "point", "23:59", "0.5s", "day 2, 00:00:00", "0:01:00"),
    (999_999, 1, "point", "00:00", "24h", "day 1000000, 00:00", "23999976:00"),
]


def show_times():
    """Times in each unit, and the sentence that says what they are."""
    for number, scale, sign, start, unit, at, lasting in TIMES:
        root = read(shop_of([[number]], scale, sign).report([1], start=start, unit=unit))
        ((_, _, rows),) = sheets_of(root)
        row = table_of(next(root.all("section", "shared")))[1]
        got = rows[0][3], row[2], row[3], row[4].strip("0:")
        equal(f"{number} in 1/{scale}, from {start} by {unit}", got, (at, at, lasting, ""))
    for words, said in [
        ({}, "Times count from 0, in the unit of the table."),
        ({"start": "7:30", "unit": "15min"}, "Times are by the clock, from 07:30 on; one unit of the table is 15 min."),
        ({"start": "7:30", "unit": "0.7s"},
         "Times are by the clock, from 07:30:00 on, rounded to seconds; one unit of the table is 0.7 s."),
    ]:
        equal(f"what the times are {words}", line_of(read(SHOP.report([1, 2, 3], **words)), "Times"), said)
    # What stands behind the names of machines is the unit, where it is one.
    clock = "Times are by the clock, from 07:30 on; one unit of the table is"
    for names, words, said in [
        (["Saw (min)", "Drill [min]"], {"start": "7:30"}, f"{clock} 1 min."),
        (["Saw", "Oven (in h)"], {"start": "7:30"}, f"{clock} 1 h."),
        (["Saw (min)", "Oven"], {"start": "7:30", "unit": "60s"}, f"{clock} 60 s."),
        (["Saw (s)", "Oven"], {}, "Times count from 0, in the unit of the table, which is 1 s."),
        (["Saw (min)", "Oven (h)"], {}, "Times count from 0, in the unit of the table."),
    ]:
        report = Shop.from_jobs([[1, 2]], machine_names=names).report([1], **words)
        equal(f"what the times are of {names}", line_of(read(report), "Times"), said)


def refuse_times():
    """Starts and units that are none, or that do not fit."""
    one, two = (Shop.from_jobs([[1, 2]], machine_names=names).report for names in
                (["Saw (min)", "Oven"], ["Saw (min)", "Oven (h)"]))
    said = "unit is '1h', and the names of the machines say 1min: one of both has to be changed"
    got = refused(one, [1], start="7:30", unit="1h")
    equal("a unit against that of the names", got, ("OptionError", "UNIT", 0, said))
    equal("names of two units", refused(two, [1], start="7:30")[:2], ("OptionError", "UNIT"))
    for words, name, sentence in [
        ({"start": "07:30"}, "UNIT", "start needs unit: how long one unit of the table is, as 15min"),
        ({"unit": "1min"}, "START", "unit needs start: the time of day when the first job starts, as 07:30"),
        *[({"start": start, "unit": "1h"}, "START", f"start is {start!r}, and has to be a time of day, as 07:30")
          for start in ("", "7", "24:00", "7:60", "07:30:00", "7.30", "-1:00", "١:٠٠", 7, 0, b"07:30",
                        datetime.time(7, 30), pathlib.Path("7:30"))],
        *[({"start": "7:30", "unit": unit}, "UNIT",
           f"unit is {unit!r}, and has to be how long one unit of the table is, as 15min, 1h or 30s")
          for unit in ("", "15", "min", "0min", "0.0h", "-1h", "1d", "1e3s", "1h30min", "1.h", 60, 0, 0.5, b"1h",
                       datetime.timedelta(0, 900), pathlib.Path("1h"))],
    ]:
        got = refused(SHOP.report, [1, 2, 3], **words)
        equal(f"a report with {words}", got, ("OptionError", name, 0, sentence))


def show_names():
    """Names and titles as they are, of jobs and machines that have them and that have none."""
    shop = Shop.from_jobs(ROWS, job_names=[STRANGE, "a\nb", "x" * 60], machine_names=[STRANGE, "Öl &amp; Co", 7])
    root = read(shop.report([2, 1, 3], title=STRANGE))
    names = [STRANGE, "Öl &amp; Co", "7"]
    equal("strange names of jobs", [item.text() for item in root.all("li")], ["a\\nb", STRANGE, "x" * 60])
    equal("strange names of machines", [name for name, _, _ in sheets_of(root)], names)
    equal("a strange title", [next(root.all(name)).text() for name in ("title", "h1")], [STRANGE, STRANGE])
    equal("what is shown of it", repr(shop.report([2, 1, 3], title=STRANGE)), f"Report({STRANGE})")
    wanted = [
        f"{STRANGE}. Machine 1 of 3: 1 job; 2 jobs skip it.", f"{STRANGE}. Machine 2 of 3: 2 jobs; 1 job skips it.",
    ]
    equal("the lines of its sheets", [line for _, line, _ in sheets_of(root)][:2], wanted)
    root = read(shop_of(ROWS, job_names=["Bed", "Door", "Bed"]).report([2, 1, 3]))
    equal("two jobs of one name", [item.text() for item in root.all("li")], ["Door", "Bed (job 1)", "Bed (job 3)"])
    equal("their sheet", [row[1] for row in sheets_of(root)[2][2]], ["Bed (job 1)", "Bed (job 3)"])
    # What steers a terminal, or turns the direction of writing, is seen.
    steers, seen = "a\x1b[2Jb\u202ec\udc80", "a\\x1b[2Jb\\u202ec\\udc80"
    report = Shop.from_jobs([[4]], job_names=[steers], machine_names=[steers]).report([1], title=steers)
    page = read(report)
    texts = [next(page.all(name)).text() for name in ("title", "h1", "li")] + [sheets_of(page)[0][0], repr(report)]
    equal("signs that are not seen", texts, [seen] * 4 + [f"Report({seen})"])
    bars = [title.text() for title in next(page.all("svg")).all("title")][1:]
    equal("those in a picture", bars, [f"{seen}, {seen}, start 0, end 4"])
    # Label lines with the names of another shop.
    for job_names, machine_names, line in [(["Bed"], None, 1), (None, ["Cut", "Weld"], 3), ("abcd", "Cut", 1)]:
        got = refused(shop_of, ROWS, 1, "point", job_names, machine_names)
        got = isinstance(got, tuple) and got[:3]
        equal(f"names of another shop {job_names} {machine_names}", got, ("TextError", "LABEL", line))
    equal("a title of its own", next(root.all("h1")).text(), "Schedule of 3 jobs on 3 machines")


def draw_pictures():
    """The picture has the names and times of the report, and stands in it where it has not too many bars."""
    root = read(shop_of([[616]], 1, "point", ["Bed"], ["Saw"]).report([1], start="22:30", unit="1min"))
    (drawing,) = root.all("svg")
    texts = [element.text() for element in drawing.all("text")]
    marks = ["22:30", "day 2, 00:10", "01:50", "03:30", "05:10", "06:50", "08:30"]
    equal("the marks of its axis", [text for text in texts if re.search(r"\d\d:\d\d$", text)], marks)
    titles = [element.text() for element in drawing.all("title")]
    equal("its titles", ("10:16" in titles[0], titles[1:]), (True, ["Bed, Saw, start 22:30, end day 2, 08:46"]))
    root = read(shop_of([[2420]], 4, "comma").report([1]))
    texts = [element.text() for element in next(root.all("svg")).all("text")]
    equal("marks in parts", [text for text in texts if text.isdigit()][:5], ["0", "125", "250", "375", "500"])
    root = read(shop_of([[616]], 4).report([1], start="22:30", unit="1min"))
    texts = [element.text() for element in next(root.all("svg")).all("text")]
    marks = ["22:30", "22:55", "23:20", "23:45", "day 2, 00:10", "00:35", "01:00"]
    equal("marks without seconds", [text for text in texts if re.search(r"\d\d:\d\d$", text)], marks)
    # A picture alone has the unit of the table too: 29 and 6 quarters.
    picture = shop_of([[29], [6]], 4, "comma", ["Bed", "Door"], ["Saw"]).gantt([2, 1])
    titles = re.findall("<title>(.*?)</title>", picture)
    wanted = ["makespan 8,75, jobs 2, machines 1", "Door, Saw, start 0, end 1,5", "Bed, Saw, start 1,5, end 8,75"]
    equal("the titles of a picture alone", titles, wanted)
    # What is proved stands in the title, and over the picture.
    for order, words, head in [
        (SHOP.check(LEAST), {}, "optimal 12"), (SHOP.check(BOUNDS), {}, "makespan 13, lower bound 11"),
        (SHOP.check(NOTHING), {}, "makespan 13, lower bound 10"), ([2, 1, 3], {}, "makespan 13, lower bound 10"),
        (SHOP.check(BOUNDS), {"start": "07:30", "unit": "15min"}, "makespan 3:15, lower bound 2:45"),
    ]:
        (drawing,) = read(SHOP.report(order, **words)).all("svg")
        heads = [next(drawing.all(name)).text() for name in ("title", "text")]
        equal(f"the title of the picture of {order!r}", heads, [f"{head}, jobs 3, machines 3"] * 2)
    for jobs, bars in [(200, 4000), (201, 0)]:
        shop = Shop.generate(jobs, 20, 1)
        equal(f"the bars of {jobs} x 20", shop.report(shop.neh()).count("<rect "), bars)


def label_bars():
    """In a bar stands the name of the job, or where that has no room its place in the order. Bars take 8, 4, 4, 2 and 1
    of 13; 96,000 are the whole time, and a character has 670."""
    says = "In a bar, #7 stands for the job at place 7 of the order."
    for length, labels in [(8, "B A A C C"), (20, "B A A C #3"), (30, "B A A #3 #3"), (60, "B #2 #2 #3 #3")]:
        names = [name * length for name in "ABC"]
        shop = Shop.from_jobs(ROWS, job_names=names)
        root = read(shop.report([2, 1, 3]))
        (drawing,) = root.all("svg")
        wanted = [label if label[0] == "#" else label * length for label in labels.split()]
        equal(f"bars of names of {length} characters", [bar[2] for bar in bars_of(drawing) if bar[2]], wanted)
        equal("what is said of them", line_of(root, "In a bar"), says if "#" in labels else None)
        equal("the same in a picture alone", re.findall(r"<text [^>]*>(#\d|[ABC]+)<", shop.gantt([2, 1, 3])), wanted)


def bars_of(drawing):
    """The bars of a picture: where each begins and ends, its text or nothing, and whether the text stands on the screen
    alone."""
    (group,) = [each for each in drawing.all("g") if each.attributes.get("font-size") == "1000"]
    bars = []
    for part in group.parts:
        if isinstance(part, Element) and part.name == "rect":
            begin = int(part.attributes["x"])
            bars.append((begin, begin + int(part.attributes["width"]), "", False))
        elif isinstance(part, Element):
            bars[-1] = (*bars[-1][:2], part.text(), part.attributes.get("class") == "cut")
    return bars


def box_of(element):
    """The left side, the top, the width and the height of what an element shows of a picture."""
    return tuple(map(int, element.attributes["viewbox"].split()))


def compare_texts(what, drawing, windows):
    """Compares the texts of bars in the parts of a picture: one that an end would cut stands in no part, but in the
    middle of what each part has of the bar, where that has room."""
    sides = [(box_of(window)[0], box_of(window)[0] + box_of(window)[2]) for window in windows]
    bars = [bar for bar in bars_of(drawing) if bar[2]]
    is_cut = [any(begin < end < last for _, end in sides) for begin, last, _, _ in bars]
    equal(f"{what}: the texts that are cut", [bar[3] for bar in bars], is_cut)
    for number, (window, (left, right)) in enumerate(zip(windows, sides)):
        wanted = []
        for (begin, last, text, _), cut in zip(bars, is_cut):
            begin, last = max(begin, left), min(last, right)
            if cut and 670 * len(text) <= last - begin:
                wanted.append((str((begin + last) // 2), text))
        got = [(each.attributes["x"], each.text()) for each in window.all("text")]
        equal(f"{what}: the texts in part {number}", got, wanted)


def compare_parts(what, root, before):
    """Compares the parts of a picture for paper: sheets of one size have all of it once, in order, each with the names
    of the machines, and with what stands before its first mark."""
    (whole,) = [each for figure in root.all("figure", "whole") for each in figure.parts if isinstance(each, Element)]
    parts = [each for division in root.all("div", "parts") for each in division.parts if isinstance(each, Element)]
    (drawing,) = [each for each in whole.all("g") if each.attributes.get("id") == "drawing"]
    left, _, wide, _ = box_of(whole)
    windows = [list(part.all("svg")) for part in parts]
    shown = [box_of(each[0]) for each in windows]
    ends = [box[0] + box[2] for box in shown]
    equal(f"{what}: where parts begin", [box[0] for box in shown], [left, *ends[:-1]])
    equal(f"{what}: where the last one ends", ends[-1], left + wide)
    equal(f"{what}: the sheets", len({box_of(part)[2] for part in parts}), 1)
    fits = [1.7 * box_of(part)[3] < box_of(part)[2] and box[2] <= box_of(part)[2] for part, box in zip(parts, shown)]
    equal(f"{what}: that each fits a page", all(fits), True)
    names = [[(box_of(each)[0], box_of(each)[2]) for each in others[1:]] for others in windows]
    equal(f"{what}: the names of the machines", names, [[], *[[(left, 8500 - left)]] * (len(parts) - 1)])
    links = {each.attributes["href"] for part in parts for each in part.all("use")}
    equal(f"{what}: what is shown", links, {"#drawing"})
    texts = [[each.text() for each in part.parts if each.name == "text"] for part in parts]
    equal(f"{what}: before the first mark", texts, [[], *([text] for text in before)])
    compare_texts(what, drawing, [each[0] for each in windows])


def days_before(shop, sequence, ends, at):
    """What stands before the first mark of each part but the first one: its day, where the mark before it has the same
    one, and that is not the first day."""
    marks = re.findall(r'<line x1="(\d+)" [^>]*/><text [^>]*>(\d+)<', shop.gantt(sequence))
    days = [(int(place), at(int(number)).rpartition(", ")[0]) for place, number in marks]
    first = [next(number for number, (place, _) in enumerate(days) if place >= end) for end in ends]
    return [days[number][1] if days[number - 1][1] == days[number][1] else "" for number in first]


def cut_for_paper():
    """Pictures that are wider than an upright page stand on paper in parts: those of 25 to 153 jobs, with long names
    and short ones, in the unit of the table, and by the clock."""
    for jobs, machines, name, least in [
        (26, 5, "", 1), (25, 10, "{}", 1), (60, 6, "Bed {}", 2), (120, 12, "{:012}", 4), (40, 3, "<&{}", 2),
        (153, 26, "", 5),
    ]:
        drawn = Shop.generate(jobs, machines, 1)
        names = [name.format(job) for job in range(1, jobs + 1)] if name else None
        long_names = [f"Machine of a long name {machine}" for machine in range(1, machines + 1)] if name else None
        shop = Shop.from_machines(drawn.times, job_names=names, machine_names=long_names)
        sequence = shop.neh().sequence
        root = read(shop.report(sequence))
        count = len(list(root.all("svg", "part")))
        equal(f"the parts of {jobs} x {machines}", least <= count <= least + 1, True)
        compare_parts(f"{jobs} x {machines}", root, ["time"] * (count - 1))
        root = read(shop.report(sequence, start="22:30", unit="1min"))
        ends = [box_of(next(part.all("svg")))[0] for part in root.all("svg", "part")][1:]
        compare_parts(f"{jobs} x {machines} by the clock", root,
                      days_before(shop, sequence, ends, by_clock("22:30", 60, False)[0]))
    for jobs, machines in [(8, 4), (23, 1)]:
        root = read(Shop.generate(jobs, machines, 1).report(range(1, jobs + 1)))
        equal(f"the pictures of {jobs} x {machines}", len(list(root.all("svg"))), 1)


def compare_drawn_shops():
    """Drawn shops with zeros, of one job and of one machine too, in each unit, beside plain code."""
    draw = random.Random(7)
    sizes = [(1, 1), (1, 4), (6, 1), (13, 3), (30, 2), (4, 5), (8, 6), (5, 2)]
    for number in range(40):
        jobs, machines = sizes[number % 8]
        most, sign = draw.choice([0, 2, 99, 999]), draw.choice(["point", "comma"])
        scale, minutes = draw.choice([(1, 1), (2, 1), (4, 1), (10, 1), (2, 15), (4, 60), (25, 15)])
        rows = [[draw.choice([0, draw.randint(0, most)]) for _ in range(machines)] for _ in range(jobs)]
        names = [f"Tür <{job}>" for job in range(jobs)], [f"Säge {machine}" for machine in range(machines)]
        shop = shop_of(rows, scale, sign, *names)
        if draw.random() < 0.5:
            shop = shop_of(rows, scale, sign)
            names = [f"Job {job + 1}" for job in range(jobs)], [f"Machine {machine + 1}" for machine in range(machines)]
        sequence = draw.sample(range(1, jobs + 1), jobs)
        shown = in_unit(scale, "," if sign == "comma" else ".")
        compare(f"drawn shop {number}", shop.report(sequence), rows, sequence, shown, names)
        shown = by_clock("21:45", 60 * minutes / scale, minutes % scale != 0)
        report = shop.report(shop.schedule(sequence), start="21:45", unit=f"{minutes}min")
        compare(f"drawn shop {number} by the clock", report, rows, sequence, shown, names)


def write_the_greatest():
    """The report of the greatest shop takes no more than some seconds and megabytes. It has no picture."""
    rows = [[(31 * job * job + 47 * machine + 13 * job * machine) % 100 for machine in range(26)] for job in range(800)]
    shop, begun = Shop.from_jobs(rows), time.monotonic()
    report = shop.report(range(800, 0, -1))
    took = time.monotonic() - begun
    equal("how long it takes", took < 10, True)
    equal("how long it is", 500_000 < len(report.encode()) < 3_000_000, True)
    names = [f"Job {job}" for job in range(1, 801)], [f"Machine {machine}" for machine in range(1, 27)]
    root = read(report)
    equal("its pictures", list(root.all("svg")), [])
    wanted = "The picture is left out: it has too many bars for a page. In Python "
    wanted += 'shop.gantt(order).save("shop.svg") draws it anyway, and so does flowshop schedule with --form svg.'
    equal("what is said of them", line_of(root, "The picture"), wanted)
    spans = spans_of(of_rows(rows), range(800, 0, -1))
    last = [[str(place), names[0][800 - place], *map(str, each[25])] for place, each in enumerate(spans, 1)]
    equal("its last sheet", sheets_of(root)[25][2], [row for row in last if row[2] != row[3]])


def keep_reports():
    """What is done with a report."""
    report = SHOP.report([2, 1, 3], title="Öl")
    equal("its kind", (isinstance(report, Report), isinstance(report, str)), (True, True))
    frame = Reader(report._repr_html_())
    shown = [(each.attributes["title"], each.attributes["srcdoc"]) for each in frame.root.all("iframe")]
    equal("one for a notebook", (frame.faults, shown), ([], [("Öl", report)]))
    with new_folder() as folder:
        report.save(folder / "report.html")
        equal("one that is saved", (folder / "report.html").read_text(encoding="utf-8"), report)
        equal("one that is not", refused(report.save, folder), IsADirectoryError)


def name_files():
    """Names of files for pictures and reports: those with the suffix of another format are refused, and nothing is
    written; all others are taken."""
    taken = ["schedule", "a.b", "a.txt", "png", "a.png.b", "a.pdf "]
    for kind, page, written, suffixes, names in [
        ("picture", SHOP.gantt([2, 1, 3]), "SVG: give it the suffix .svg", "png jpg jpeg gif webp pdf html htm",
         ["a.svg", "a.SVG", "a.docx", "c.pdf/a"]),
        ("report", SHOP.report([2, 1, 3]), "HTML: give it the suffix .html", "pdf png jpg jpeg svg docx xlsx",
         ["a.html", "a.htm", "a.gif", "c.pdf/a"]),
    ]:
        with new_folder() as folder:
            (folder / "c.pdf").mkdir()
            for suffix in suffixes.split():
                for name in (f"a.{suffix}", f"a b.{suffix.upper()}", f"a.svg.html.{suffix.title()}"):
                    sentence = f"the file is {name!r}, and a {kind} is written as {written}"
                    for path in (str(folder / name), folder / name):
                        equal(f"a {kind} as {name}", refused(page.save, path), ("OptionError", "PATH", 0, sentence))
            equal(f"that no {kind} is written", os.listdir(folder), ["c.pdf"])
            for name in taken + names:
                equal(f"a {kind} as {name}", refused(page.save, folder / name), None)
                got = (folder / name).exists() and (folder / name).read_text(encoding="utf-8")
                equal(f"that {name} is written", got, page)


def run(*words, out=subprocess.PIPE):
    """Runs the command, and gives its status, and what it wrote; nothing of what it wrote to an `out` of its own."""
    streams = {"stdout": out, "stderr": subprocess.PIPE, "capture_output": False, "encoding": "utf-8"}
    done = command("report", *words, **streams)
    return done.returncode, done.stdout or "", done.stderr


# What files the command is called with, beside shop.txt, one.txt with a shop of one job, and two.txt with both.
FILES = {
    "least": LEAST, "bounds": BOUNDS, "best": "sequence 3 1 2\nmakespan 12\n", "spaced": "\r\n sequence 03\t1 2 \r\n\n",
    "worse": "\nsequence 3 1 2\nmakespan 11\n", "many": "sequence 1 2 3\n\nmakespan 15\nsequence 1\n",
    "more": "sequence 3 1 2\nmakespan 12\nmakespan 11\n", "wrong": "sequence 1 x 3\n",
    "short": "sequence 1 2\nmakespan 2\n", "other": "sequence 1 2 3\n12\n", "table.csv": "Job;Cut\nA;1\n",
    "pairs": "1 2\n0 5 1 7\n",
    "plant": "jobs of plant A\n2 1 0 0 0\nmachines, times in 1/4, decimal comma, separator tab\tCut\n43 43\n",
    "both": "sequence 1 2\nmakespan 86\n", "numbers": "\n 3 1\t2 \n",
    "many_numbers": f"{' '.join(map(str, range(1, 100)))}\n", "commas": "3, 1, 2\n", "colon": "sequence: 3 1 2\n",
    "blank": " \n\n", "empty": "", "old": " flowshop two-ended 1\n",
}


def write_by_the_command():
    """What the command `report` writes: what the call gives, of the file that is named, and of no other block."""
    one, clock = Shop.from_jobs([[5]]), {"start": "07:30", "unit": "15min"}
    least, title = SHOP.check(LEAST), {"title": "Schedule of shop.txt"}
    plant = shop_of([[43], [43]], 4, "comma", None, ["Cut"]).report([1, 2], title="Schedule of plant")
    equal("a unit with other words for the names of jobs", "No order finishes earlier than 21,5:" in plant, True)
    for words, report in [
        (["shop.txt", "1", "least"], SHOP.report(least, **title)),
        (["shop.txt", "bounds"], SHOP.report(SHOP.check(BOUNDS), **title)),
        (["shop.txt", "1", "best"], SHOP.report([3, 1, 2], **title)),
        (["shop.txt", "spaced", "--title", STRANGE], SHOP.report([3, 1, 2], title=STRANGE)), (["plant", "both"], plant),
        (["shop.txt"], SHOP.report(SHOP.certify(width=1, work=1), **title)),
        (["two.txt", "1", "least"], SHOP.report(least, title="Schedule of two.txt")),
        (["two.txt", "2"], one.report(one.certify(work=1), title="Schedule of two.txt, block 2")),
        (["shop.txt", "1", "least", "--start", "07:30", "--unit", "15min"], SHOP.report(least, **clock, **title)),
    ]:
        equal(f"report {words}", run(*words), (0, report, ""))
    equal("report to a file", run("shop.txt", "1", "least", "--title", "Öl", "--out", "report.html"), (0, "", ""))
    written = pathlib.Path("report.html").read_text(encoding="utf-8")
    equal("the file", written, SHOP.report(least, title="Öl"))


def refused_words():
    """Words with which the command is refused, the status, and the line on standard error."""
    blocks = "two.txt has 2 blocks: write the number of one behind it"
    head = "the head of a block is five numbers: jobs, machines, seed, upper bound and lower bound"
    orders = "that of a certificate, such as 'flowshop two-ended 1', or the line"
    converters = "python3 -m flowshop shop makes such a file of a table, and examples/from_pairs.awk in the clone one "
    converters += "of pairs of machine and time; in Python read_table takes the table itself"
    return [
        ("nothing", 3, "[Errno 2] No such file or directory: 'nothing'"),
        ("shop.txt 1 nothing", 3, "[Errno 2] No such file or directory: 'nothing'"),
        ("shop.txt 1 least --out nothing/a.html", 3, "[Errno 2] No such file or directory: 'nothing/a.html'"),
        ("table.csv", 1, f"line 2 of table.csv is 'A;1': {head}; {converters}"),
        ("pairs", 1, f"line 1 of pairs is '1 2': a line of words is wanted before the head of a block, and before its "
         f"times; {converters}"),
        ("two.txt", 2, blocks), ("two.txt least", 2, blocks),
        ("two.txt 3", 2, "INDEX is '3', and two.txt has 2 blocks"),
        ("shop.txt 0", 2, "INDEX is '0', and shop.txt has 1 block"),
        ("shop.txt least 1", 2, "INDEX is 'least', and shop.txt has 1 block"),
        ("two.txt 2 least", 1, "least: line 2 is '3 3', which is not of a shop with jobs 1 and machines 1"),
        ("shop.txt 1 worse", 1, "worse: line 3 says that the makespan is 11, and that of these jobs is 12"),
        ("shop.txt 1 many", 1, "many: line 4 is 'sequence 1', and has to be blank"),
        ("shop.txt 1 more", 1, "more: line 3 is 'makespan 11', and has to be blank"),
        ("shop.txt 1 wrong", 1,
         "wrong: line 1 is 'sequence 1 x 3', and has to be the word sequence and the numbers of the jobs"),
        ("shop.txt 1 other", 1, "other: line 2 is '12', and has to be the word makespan and a number"),
        ("shop.txt 1 short", 1, "short: the sequence has 2 jobs, and the shop has 3; each job stands in it once"),
        ("shop.txt 1 table.csv", 1, f"table.csv: line 1 is 'Job;Cut', and has to be {orders} 'sequence 3 1 2 ..'"),
        ("shop.txt 1 numbers", 1, f"numbers: line 2 is ' 3 1\\t2 ', and has to be {orders} 'sequence 3 1 2'"),
        ("shop.txt 1 many_numbers", 1, "many_numbers: line 1 is '1 2 3 4 5 6 7 8 9 10 11 12 13 14 15...', and has to "
         f"be {orders} 'sequence 1 2 3 4 5 6 7 8 9 10 11 12...'"),
        ("shop.txt 1 commas", 1, f"commas: line 1 is '3, 1, 2', and has to be {orders} 'sequence 3 1 2 ..'"),
        ("shop.txt 1 colon", 1, f"colon: line 1 is 'sequence: 3 1 2', and has to be {orders} 'sequence 3 1 2 ..'"),
        ("shop.txt 1 blank", 1, f"blank: line 3 is missing, and has to be {orders} 'sequence 3 1 2 ..'"),
        ("shop.txt 1 empty", 1, f"empty: line 1 is missing, and has to be {orders} 'sequence 3 1 2 ..'"),
        ("shop.txt 1 old", 1,
         "old: line 1 is ' flowshop two-ended 1', and has to name a certificate, as in 'flowshop two-ended 1'"),
        ("least 1 shop.txt", 1, f"line 4 of least is '3 1 2': {head}; this text begins as a certificate does, and the "
         "file of the shop is wanted here"),
    ]


def refused_files():
    """The same of files to be written."""
    html, give = "and a report is written as HTML: give it the suffix .html", "give the report another name"
    return [
        ("nothing 1 least --out r.pdf", 2, f"the file is 'r.pdf', {html}"),
        ("nothing --out a/R.Docx", 2, f"the file is 'R.Docx', {html}"),
        ("shop.txt 1 least --out shop.txt", 2, f"--out shop.txt is the file of the shop: {give}"),
        ("shop.txt 1 least --out ./shop.txt", 2, f"--out ./shop.txt is the file of the shop: {give}"),
        ("shop.txt --out linked", 2, f"--out linked is the file of the shop: {give}"),
        ("linked 1 least --out shop.txt", 2, f"--out shop.txt is the file of the shop: {give}"),
        ("shop.txt 1 least --out least", 2, f"--out least is the file of the certificate or the sequence: {give}"),
        ("shop.txt best --out ../{}/best", 2,
         f"--out ../{{}}/best is the file of the certificate or the sequence: {give}"),
        ("shop.txt 1 least --out .", 2, "--out is ., which is a folder, and has to be a file"),
        ("shop.txt 1 least --start 7", 2, "start needs unit: how long one unit of the table is, as 15min"),
    ]


def refuse_by_the_command():
    """Each way in which the command is refused."""
    os.symlink("shop.txt", "linked")
    shop = pathlib.Path("shop.txt").read_text(encoding="utf-8")
    for words, status, said in refused_words() + refused_files():
        words, said = (text.replace("{}", os.path.basename(os.getcwd())) for text in (words, said))
        equal(f"report {words}", run(*words.split()), (status, "", f"flowshop: {said}\n"))
    kept = {name: pathlib.Path(name).read_text(encoding="utf-8") for name in ("shop.txt", "least", "best")}
    equal("that the files stay", kept, {"shop.txt": shop, "least": LEAST, "best": FILES["best"]})
    equal("report alone", run()[:2], (2, ""))
    reader, terminal = os.openpty()
    said = "flowshop: a report is a page for a browser, and this is a terminal: write --out report.html\n"
    equal("report on a terminal", run("shop.txt", "1", "least", out=terminal), (2, "", said))
    equal("one to a file", run("shop.txt", "1", "least", "--out", "a.html", out=terminal), (0, "", ""))
    os.close(terminal)
    os.close(reader)


def call_the_command():
    """The command `report`, in a folder with some files."""
    with new_folder(is_here=True):
        for name, text in FILES.items():
            pathlib.Path(name).write_text(text, encoding="utf-8")
        SHOP.write("shop.txt")
        Shop.from_jobs([[5]]).write("one.txt")
        pathlib.Path("two.txt").write_text("".join(pathlib.Path(name).read_text() for name in ("shop.txt", "one.txt")))
        write_by_the_command()
        refuse_by_the_command()


def three_commands(clock):
    """A table with semicolons, decimal commas and a line of totals becomes a report by shop, certify and
    report. What has to stand in it is computed from the whole times."""
    draw = random.Random(11)
    rows = [[draw.randint(0, 999) for _ in range(12)] for _ in range(120)]
    jobs, machines = [f"Schränkchen {job}" for job in range(1, 121)], [f"Säge {machine}" for machine in range(1, 13)]
    sums = ["Summe", *map(sum, zip(*rows))]
    lines = [["Auftrag", *machines], *([name, *times] for name, times in zip(jobs, rows)), sums]
    shown = [[cell if isinstance(cell, str) else f"{cell // 10},{cell % 10}" for cell in line] for line in lines]
    pathlib.Path("table.csv").write_text("".join(";".join(line) + "\n" for line in shown), encoding="utf-8")
    for file, words in [("shop.txt", [*FLOWSHOP, "shop", "table.csv", "--totals", "drop"]),
                        ("text", [PROGRAM, *"certify shop.txt 1 --work 10 --directions 10000".split()])]:
        with open(file, "wb") as out:
            subprocess.run(words, stdout=out, stderr=subprocess.PIPE, check=True)
    options = ["--start", "06:00", "--unit", "1min"] if clock else []
    equal("a table as a report", run("shop.txt", "1", "text", "--out", "report.html", *options), (0, "", ""))
    bounds, sequence = (list(map(int, line.split())) for line in pathlib.Path("text").read_text().split("\n")[2:4])
    shown = by_clock("06:00", 6, True) if clock else in_unit(10, ",")
    page = pathlib.Path("report.html").read_text(encoding="utf-8")
    root = compare("a table as a report", page, rows, sequence, shown, (jobs, machines))
    (lower, upper), listed = map(shown[0], bounds), shown[0](makespan(of_rows(rows), range(1, 121)))
    proved = f"No order can finish before {lower}; this one finishes at {upper}."
    proved = f"No order finishes earlier than {upper}: this one is optimal." if lower == upper else proved
    beside = next(each.text() for each in root.all("p") if "the table it would" in each.text())
    wanted = f"In the order of the table it would {'finish at' if clock else 'take'} {listed}."
    equal("what is proved of it", (line_of(root, "No order"), beside[-len(wanted) :]), (proved, wanted))


def plan_tables():
    """A table becomes a report in three commands, in the unit of the table and by the clock."""
    if not os.path.exists(PROGRAM):
        return print("no program: tables that become reports were passed over")
    for clock in (False, True):
        with new_folder(is_here=True):
            three_commands(clock)


if __name__ == "__main__":
    for part in (say_what_is_proved, show_times, refuse_times, show_names, draw_pictures, label_bars, cut_for_paper,
                 compare_drawn_shops, write_the_greatest, keep_reports, name_files, call_the_command, plan_tables):
        part()
    end("reports")

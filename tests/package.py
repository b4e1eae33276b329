"""The package for Python: its examples, what its calls give, what they take, and each of their errors with its
sentence."""

import array
import codecs
import copy
import ctypes
import doctest
import inspect
import itertools
import json
import mmap
import pathlib
import pickle
import random
import re
import resource
import subprocess
import sys
import threading
import types
import warnings
import xml.etree.ElementTree
from unittest import mock

import package_input
import refusals
from counts import BLOCKS, EXAMPLES, TOP, called, end, equal, new_folder, optional, refused
from reference import makespan, of_rows, root_bound
from refusals import BOUNDS, COUNTED, LEAST, THREE as ROWS, TREE

import flowshop
from flowshop import Certificate, FlowshopError, Operation, Shop, Start
from flowshop import __main__ as command, _library, _options, _parts, _stack, _tasks, _texts

numpy, pandas = optional("numpy"), optional("pandas")

PUBLISHED, HEADER = EXAMPLES / "taillard_20_5.txt", (TOP / "library" / "flowshop.h").read_text()
SVG = "{http://www.w3.org/2000/svg}"
SHOP = Shop.from_jobs(ROWS)
COLUMNS = [list(column) for column in zip(*ROWS)]
FEW = {"width": 0, "rounds": 0, "seed": 1, "work": 0, "directions": 1000}
OPTIONS = [
    (SHOP.improve, ["width", "rounds", "seed", "work"]), (Shop.generate, ["jobs", "machines", "seed"]),
    (SHOP.certify, ["width", "rounds", "seed", "work", "directions"]), (SHOP.solve, ["depth", "budget", "version"]),
]
NAMES = {"job_names": ["Shelf", "Door", "Table"], "machine_names": ["Cut", "Weld", "Paint"]}


def frame_of(values, index, columns):
    """A table with labels, as a frame has them, that knows nothing of arrays."""
    return types.SimpleNamespace(values=values, index=index, columns=columns)


def texts_of(drawing, name):
    """The texts of the elements of a name in a picture."""
    return [each.text for each in xml.etree.ElementTree.fromstring(drawing).iter(f"{SVG}{name}")]


def run_examples():
    """Runs the examples in the package. Each public class has some, but for the errors below the base class, and so has
    each public call."""
    runner = doctest.DocTestRunner()
    with new_folder(is_here=True):
        tests = doctest.DocTestFinder(recurse=False).find(flowshop)
        for name in package_input.PUBLIC:
            found = getattr(flowshop, name)
            tests += doctest.DocTestFinder().find(found, name, False, globs={**vars(flowshop), "shop": SHOP})
            if not (inspect.isclass(found) and FlowshopError in found.__bases__):
                equal(f"an example of {name}", ">>>" in found.__doc__, True)
            for member, value in vars(found).items():
                if not member.startswith("_") and (callable(value) or isinstance(value, (classmethod, property))):
                    equal(f"an example of {name}.{member}", ">>>" in (getattr(found, member).__doc__ or ""), True)
        for test in tests:
            runner.run(test)
    equal("the examples, of which there are some", (runner.failures, runner.tries > 40), (0, True))


def compare_header():
    """The version is that of the library and of the file VERSION; statuses and limits are those of the header."""
    version = (TOP / "VERSION").read_text().strip()
    equal("the versions", (flowshop.__version__, _library.version()), (version, version))
    equal("a library of another version", refused(_library.limits_of, "0.0.0"), ImportError)
    numbers = {name: int(number) for name, number in re.findall(r"FLOWSHOP_(\w+) = (\d+)", HEADER)}
    listed = re.findall(r"FLOWSHOP_(\w+)", HEADER.partition("enum flowshop_status {")[2].partition("};")[0])
    equal("the statuses", {0: "DONE", **_library.STATUSES}, {numbers[name]: name for name in listed})
    named = re.findall(r'case FLOWSHOP_(\w+): return "(\w+)";', HEADER)
    equal("the names of the statuses", named, [(name, name) for name in listed])
    form = r"^(?:FLOWSHOP_CALL flowshop_outcome|uint32_t) flowshop_(\w+)\(([^)]*)\)\s+FLOWSHOP_NOEXCEPT;"
    counts = {name: words.count(",") + (words != "void") for name, words in re.findall(form, HEADER, re.MULTILINE)}
    equal("the calls", counts, {name: len(types) for name, types in _library.CALLS.items()})
    equal("that no call has more than seven arguments", max(counts.values()), 7)
    for name, (least, most) in _options.RANGES.items():
        wanted = numbers.get(f"MIN_{name.upper()}", 0 if name in ("width", "rounds", "work", "depth") else 1)
        equal(f"the limits of {name}", (least, most), (wanted, numbers[f"MAX_{name.upper()}"]))
    got = _library.LIMITS.max_prefixes, _stack.STACK >= numbers["STACK"], _library.MOST_TIME
    equal("trees, stack and time", got, (numbers["MAX_PREFIXES"], True, numbers["MAX_TIME"]))
    most = inspect.signature(Shop.check).parameters["most"].default
    equal("the nodes of a check", (most, _library.LIMITS.max_nodes), (refusals.MOST_NODES,) * 2)
    code = (TOP / "crates" / "flow_commands" / "src" / "proof.rt").read_text().replace("_", "")
    unasked, kept = (int(re.search(rf"const {name}: u64 = (\d+);", code)[1]) for name in ("MOSTUNASKED", "MOSTKEPT"))
    equal("signs that nobody asked for", [_options.has_signs(None, unasked + more) for more in (0, 1)], [True, False])
    equal("how many directions are kept", _options.MOST_KEPT, kept)


def make_shops():
    """Each way to make a shop, of each kind of table."""
    equal("rows and columns", (Shop.from_machines(COLUMNS), SHOP.times), (SHOP, COLUMNS))
    equal("that a table alone says nothing", refused(Shop, ROWS), TypeError)
    equal("tuples, ranges and arrays", Shop.from_jobs((range(2), array.array("B", [3, 4]))).times, [[0, 3], [1, 4]])
    equal("a table with a method `columns`", Shop.from_jobs(SHOP.schedule([2, 1, 3])).times[3][-1], 13)
    equal("a table that is read once", Shop.from_jobs(iter(row) for row in ROWS), SHOP)
    for kind in (ctypes.c_uint32, ctypes.c_int32, ctypes.c_int64, ctypes.c_uint8, ctypes.c_uint32.__ctype_be__):
        buffer = (kind * 3 * 2)((1, 2, 3), (4, 5, 6))
        equal(f"jobs in a buffer of {kind}", Shop.from_jobs(buffer).times, [[1, 4], [2, 5], [3, 6]])
        if kind != ctypes.c_uint32.__ctype_be__:
            equal(f"machines in one of {kind}", Shop.from_machines(memoryview(buffer)).times, [[1, 2, 3], [4, 5, 6]])
    below = (ctypes.c_int32 * 2 * 2)((1, 2), (3, -4))
    wanted = "NotAShop", "TIME", (2, 2), "the time in row 2, column 2 is -4, and has to be from 0 to 999,999"
    equal("a buffer with a number below 0", refused(Shop.from_jobs, below), wanted)
    halves = memoryview((ctypes.c_double * 1 * 1)((1.0,)))
    equal("a buffer of other numbers", refused(Shop.from_jobs, halves)[:3], ("NotAShop", "COUNT", 0))
    times = [[int(word) for word in line.split()] for line in PUBLISHED.read_text().splitlines()[3:8]]
    equal("the shop of a seed", Shop.generate(20, 5, 873_654_221), Shop.from_machines(times))
    great = Shop.generate(800, 26, 2_147_483_646)
    equal("the greatest shop", (great.jobs, great.machines, len(great.times[25])), (800, 26, 800))
    equal("the greatest picture", great.gantt(great.neh()).count("<rect "), 800 * 26)
    equal("the greatest timetable", great.schedule(great.neh()).makespan, great.neh().value)


def compare_shops():
    """Shops are frozen, and equal where times and names are. Their reprs are short."""
    other, named = Shop.from_jobs(ROWS), Shop.from_jobs(ROWS, **NAMES)
    equal("two shops", (other == SHOP, hash(other) == hash(SHOP), len({other, SHOP})), (True, True, 1))
    equal("that names tell shops apart", (named == SHOP, named == Shop.from_jobs(ROWS, **NAMES)), (False, True))
    others = Shop.from_jobs([[1, 2]]) == Shop.from_jobs([[1], [2]]), SHOP == ROWS
    equal("a shop of the same times in another shape, and another kind of thing", others, (False, False))
    for kept in (pickle.loads(pickle.dumps(named)), copy.deepcopy(named)):
        equal("a copy", (kept, kept.job_names, kept.makespan([3, 1, 2])), (named, named.job_names, 12))
    for name in ("jobs", "machines", "times", "job_names", "other", "_parts"):
        equal(f"a shop whose {name} is changed", refused(setattr, SHOP, name, 5), AttributeError)
    equal("a shop with less", refused(delattr, SHOP, "_lent"), AttributeError)
    SHOP.times[0][0] = 9
    equal("its times", SHOP.times[0], [4, 0, 0])
    for shop, wanted in [
        (Shop.generate(20, 5, 1), "20 jobs, 5 machines"),
        (named, "3 jobs: Shelf, Door, Table; 3 machines: Cut, Weld, Paint"),
        (Shop.from_jobs(ROWS, job_names=["Shelf, large", 7, "Table"]), "3 jobs: 'Shelf, large', 7, Table; 3 machines"),
        (Shop.from_jobs([[1]] * 4, job_names="abcd"), "4 jobs: a, b, c, ..; 1 machine"),
        # A name with a comma stands in quotation marks, where Python writes it.
        (Shop.from_jobs([[1]], job_names=["\x1b,"]), "1 job: '\\x1b,'; 1 machine"),
    ]:
        equal("what is shown of a shop", repr(shop), f"Shop({wanted})")


def use_names():
    """Names of jobs and machines come back with each result."""
    named = Shop.from_jobs(ROWS, **NAMES)
    for table in (frame_of(ROWS, *NAMES.values()), frame_of(ROWS, [0, 1, 2], "abc")):
        shop = Shop.from_jobs(table)
        wanted = (1, 2, 3) if table.index == [0, 1, 2] else tuple(table.index)
        equal("the labels of a frame", (shop.job_names, shop.machine_names), (wanted, tuple(table.columns)))
        turned = Shop.from_machines(frame_of(COLUMNS, table.columns, table.index))
        equal("of one with machines as rows", turned, shop)
    equal("names of a caller", Shop.from_jobs(frame_of(ROWS, "abc", "def"), **NAMES), named)
    equal("names that are numbers from 1", Shop.from_jobs(frame_of(ROWS, [1, 2, 3], [1, 2, 3])), SHOP)
    start = named.neh()
    wanted = (2, 1, 3), ("Door", "Shelf", "Table"), "Start(makespan 13: Door, Shelf, Table)"
    equal("the names of a start", (start.sequence, start.names, repr(start)), wanted)
    for found in (named.solve(), named.certify(**FEW), named.check(LEAST)):
        equal("the names of a certificate", found.names, tuple(NAMES["job_names"][job - 1] for job in found.sequence))
    equal("that they prove the same", named.check(LEAST), SHOP.check(LEAST))
    timetable = named.schedule([2, 1, 3])
    equal("an operation with names", timetable[7], Operation("Table", "Weld", 8, 10))
    columns = ["Door"] * 3 + ["Shelf"] * 3 + ["Table"] * 3, ["Cut", "Weld", "Paint"] * 3
    equal("columns of names", (timetable.columns()["job"], timetable.columns()["machine"]), columns)
    draw_names()
    for names, counted in (([], "0 names"), (["a"], "1 name"), ("abcd", "4 names")):
        wanted = "NotAShop", "COUNT", 0, f"the table has 3 machines, and machine_names has {counted}"
        for table in (ROWS, frame_of(ROWS, "abc", "def")):
            equal(counted, refused(Shop.from_jobs, table, machine_names=names), wanted)
    for kind, names, said in (
        ("job", {"Bed"}, "{'Bed'}"), ("machine", {"Cut"}, "{'Cut'}"), ("job", 5, "5"), ("machine", True, "True"),
        ("job", frozenset(["Bed"]), "frozenset({'Bed'})"), ("machine", {1: "Cut"}, "{1: 'Cut'}"),
    ):
        wanted = "NotAShop", "COUNT", 0, f"the names of {kind}s are a list, and this is {said}"
        equal(f"names that are {said}", refused(Shop.from_jobs, ROWS, **{f"{kind}_names": names}), wanted)


def draw_names():
    """Pictures with names of all lengths."""
    names = {"job_names": ["Shelf", "D", "<T&>\n"], "machine_names": ["Cut", "Wë", "Painting shop"]}
    picture = Shop.from_jobs(ROWS, **names).gantt([2, 1, 3])
    titles, labels = texts_of(picture, "title"), texts_of(picture, "text")
    equal("the names in a picture", (titles[1], titles[4]), ("D, Wë, start 0, end 8", "<T&>\\n, Wë, start 8, end 10"))
    shown = [label in labels for label in ("Cut", "Wë", "Painting shop", "machine 1", "D", "Shelf", "3")]
    equal("names before its rows and in its bars", shown, [True, True, True, False, True, True, False])
    # Three jobs on three machines are 109,500 wide, of which 8,000 are before the rows; a character there has 700.
    drawing = xml.etree.ElementTree.fromstring(picture)
    size = drawing.get("width"), drawing.get("viewBox"), drawing.find(f"{SVG}path").get("d")
    equal("room for a long name", size, ("1106", "-1100 0 110600 18300", "M-1100 0H109500V18300H-1100z"))
    for name, shown, left in [("a" * 11, "a" * 11, "0"), ("b" * 40, "b" * 40, "-20000"),
                              ("c" * 41, "c" * 38 + "..", "-20000")]:
        text = Shop.from_jobs([[1]], machine_names=[name]).gantt([1])
        equal(f"the row {name}", (f'text-anchor="end">{shown}<' in text, f'viewBox="{left} 0 ' in text), (True, True))
    # The bars of job 3 are 14,690 and 7,305 wide, and a character 670.
    for length, bars in ((10, 2), (11, 1), (21, 1), (22, 0)):
        drawing = Shop.from_jobs(ROWS, job_names=["Shelf", "Door", "T" * length]).gantt([2, 1, 3])
        equal(f"bars with a name of {length} characters", drawing.count(f">{'T' * length}</text>"), bars)
    with new_folder() as folder:
        picture.save(folder / "picture.svg")
        equal("one that is saved", "Wë" in (folder / "picture.svg").read_text("utf-8"), True)


def use_arrays():
    """Arrays and frames as tables and sequences, and results as arrays and frames."""
    if numpy is None:
        return print("no numpy: its arrays were passed over")
    for kind in ("int64", "int32", "uint32", "uint64", "int16", "uint8", ">i8", "object"):
        rows = numpy.array(ROWS, dtype=kind)
        equal(f"an array of {kind}", (Shop.from_jobs(rows), Shop.from_machines(rows.T)), (SHOP, SHOP))
        equal(f"one of {kind} with gaps", Shop.from_jobs(numpy.repeat(rows, 2, axis=0)[::2]), SHOP)
        equal(f"a sequence of {kind}", SHOP.makespan(numpy.array([3, 1, 2], dtype=kind)), 12)
    many = numpy.array([[1, 2, 3], [2, 1, 3], [3, 1, 2]])
    equal("the makespans of an array", numpy.asarray(SHOP.makespans(many)).tolist(), [15, 13, 12])
    several = numpy.tile(many, (3_000, 1))
    for kind in ("int64", "uint8", ">u2"):
        equal(f"those of many of {kind}", list(SHOP.makespans(several.astype(kind))), [15, 13, 12] * 3_000)
    several[8_500] = [3, 3, 0]
    equal("one of many", refused(SHOP.makespans, several)[:3], ("NotASequence", "TWICE", (8_501, 2)))
    equal("rows of two jobs", refused(SHOP.makespans, many[:, :2])[:3], ("NotASequence", "LENGTH", (1, 0)))
    equal("the array of a timetable", numpy.asarray(SHOP.schedule(many[1]).ends).max(axis=1).tolist(), [8, 12, 13])
    for table, place, wrong in [
        ([[1, 2], [-3, 4]], (2, 1), "is -3, and has to be from 0 to 999,999"),
        ([[1, 2], [3 - 2**32, 4]], (2, 1), "is -4,294,967,293, and has to be from 0 to 999,999"),
        ([[1, 2**40], [3, 4]], (1, 2), "is 1,099,511,627,776, and has to be from 0 to 999,999"),
        ([[1.0, 2.0], [numpy.nan, 4.0]], (2, 1), "is missing (nan); write 0 where a job skips a machine"),
    ]:
        wanted = "NotAShop", "TIME", place, f"the time in row {place[0]}, column {place[1]} {wrong}"
        equal(f"an array of {table}", refused(Shop.from_jobs, numpy.array(table)), wanted)
    many[2, 1] = 3
    equal("a row that is no sequence", refused(SHOP.makespans, many)[:3], ("NotASequence", "TWICE", (3, 2)))


def use_frames():
    """Frames of pandas."""
    if pandas is None:
        return print("no pandas: its frames were passed over")
    frame = pandas.DataFrame(ROWS, index=NAMES["job_names"], columns=NAMES["machine_names"])
    shop = Shop.from_jobs(frame)
    equal("a frame", (shop, Shop.from_machines(frame.T)), (Shop.from_jobs(ROWS, **NAMES),) * 2)
    equal("one without labels", Shop.from_jobs(pandas.DataFrame(ROWS)), SHOP)
    table = Shop.from_jobs(pandas.read_csv(EXAMPLES / "table.csv", index_col=0))
    equal("a table that was read", (table.times, table.job_names[0]), (SHOP.times, "Shelf, large"))
    ends = shop.schedule(shop.neh()).to_frame().set_index(["job", "machine"]).end
    equal("a timetable as a frame", (ends["Table", "Paint"], len(ends)), (13, 9))
    equal("the rows of the frame in their order", frame.loc[list(shop.check(LEAST).names)].Cut.tolist(), [0, 4, 0])
    for kind in (None, "Int64"):
        frame = pandas.DataFrame({"Cut": [1, 2], "Weld": pandas.array([3, None], dtype=kind)}, index=["Shelf", "Door"])
        got = refused(Shop.from_jobs, frame)
        equal("a blank cell", (got[2], got[3][:53]), ((2, 2), "the time in row 2 (Door), column 2 (Weld) is missing "))
    equal("a frame of sequences", list(SHOP.makespans(pandas.DataFrame([[2, 1, 3], [3, 1, 2]]))), [13, 12])
    equal("a column as a sequence", SHOP.makespan(pandas.Series([2, 1, 3], name="order")), 13)
    for frame, wanted in [
        ({"Cut": [1, 2], "Weld": [3, 2.5]},
         "the time in row 2, column 2 (Weld) is 2.5, of type float, and has to be a whole number; choose a unit"),
        ({"Job": ["Shelf"], "Cut": [1]},
         "the time in row 1, column 1 (Job) is the text 'Shelf', and has to be a whole number; convert it to int"),
    ]:
        equal(f"a frame of {frame}", refused(Shop.from_jobs, pandas.DataFrame(frame))[3][: len(wanted)], wanted)


def escape_names():
    """Of a name, what is not seen or moves what stands beside it is printed and drawn as in a text of Python; the rest
    as it is."""
    hidden = [chr(code) for code in (*range(32), *range(127, 160), *range(0x2028, 0x202F), *range(0x2066, 0x206A))]
    hidden += ["\ud800", "\udfff", "\ufffe", "\uffff"]
    for sign in [*hidden, " ", "\xa0", "\xad", "\u200d", "\u3000", "é", "𝓍", "\\"]:
        name, wanted = f"a{sign}b", f"a{repr(sign)[1:-1] if sign in hidden else sign}b"
        shop = Shop.from_jobs([[9, 9]], job_names=[name], machine_names=[name, 7])
        results = [shop, shop.neh(), shop.prove(19), Start((1,), 18, (name,))]
        said = [f"{kind}(makespan 18: {wanted})" for kind in ("Start", "Below", "Start")]
        said = [f"Shop(1 job: {wanted}; 2 machines: {wanted}, 7)", *said]
        equal(f"{name!r} of a shop and a start", [*map(repr, results)], said)
        bars = [f"{wanted}, {wanted}, start 0, end 9", f"{wanted}, 7, start 9, end 18"]
        drawing = shop.gantt([1])
        got = texts_of(drawing, "title")[1:], texts_of(drawing, "text").count(wanted)
        equal(f"{name!r} in the titles, bars and rows of a picture", got, (bars, 3))


def use_results():
    """What each call gives, and how it fits the next one."""
    start, better = SHOP.neh(), SHOP.improve([1, 2, 3])
    equal("a start", (start.sequence, start.value), ((2, 1, 3), 13))
    equal("a better start", (better.value <= 15, SHOP.makespan(better)), (True, better.value))
    equal("one from that of neh", SHOP.improve(width=8, rounds=5, seed=7, work=1).value <= 13, True)
    found, timetable = SHOP.solve(), SHOP.schedule([3, 1, 2])
    equal("a least makespan", (found.lower, found.upper, found.sequence, found.optimal), (12, 12, (3, 1, 2), True))
    for result, value in [(start, 13), (found, 12), (timetable, 12)]:
        got = SHOP.makespan(result), SHOP.schedule(result).makespan, SHOP.solve(result).upper
        got += SHOP.certify(result, **FEW).upper, SHOP.improve(result).value
        equal(f"{result!r} as a sequence", got, (value, value, 12, 12, 12))
        proved = "optimal" if result is found else "makespan"
        equal("its picture", f"<title>{proved} {value}, jobs 3, machines 3<" in SHOP.gantt(result), True)
        frozen = refused(setattr, result, "sequence", ())
        equal("a frozen result", issubclass(frozen, AttributeError), True)
    equal("many results", SHOP.makespans([start, found, timetable, (1, 2, 3)]).tolist(), [13, 12, 12, 15])
    equal("no sequences", SHOP.makespans([]).tolist(), [])
    parts = [SHOP.prove(12), SHOP.prove(13), SHOP.prove(12, budget=1), flowshop.Progress(1, 10, 12, 3, 0.5)]
    parts += Shop.read(PUBLISHED)
    for result in (start, found, timetable, timetable[1], SHOP.gantt(start), SHOP.makespans([[1, 2, 3]]), *parts):
        kept = pickle.loads(pickle.dumps(result))
        equal("a result from elsewhere", (kept, type(kept), repr(kept)), (result, type(result), repr(result)))
    equal("results in a set", len({start, found, timetable, SHOP.neh(), SHOP.solve(), SHOP.schedule(found)}), 3)


def use_texts():
    """Texts in each form that a check takes, and certificates of each kind."""
    checked = SHOP.check(BOUNDS)
    got = checked.lower, checked.upper, checked.sequence, checked.text, checked.optimal
    equal("bounds", got, (11, 13, (2, 1, 3), BOUNDS, False))
    long = Certificate(1, 2, (1, 2), b"flowshop two-ended 1\n2 1\n1 2\n1 2\n" + b"+" * 10**7 + b"\nend\n")
    for found, wanted in [(checked, "bounds 11 to 13, 1 direction"), (SHOP.check(LEAST), "optimal 12, 2 directions"),
                          (SHOP.check(TREE), "optimal 12, 1 tree"), (long, "bounds 1 to 2, 10,000,000 directions"),
                          (SHOP.check(COUNTED), "optimal 12, 2 nodes")]:
        equal("what is shown of a certificate", repr(found), f"Certificate({wanted})")
    for text, wanted in ((BOUNDS, ("two-ended", 1)), (TREE, ("trees", None)), (COUNTED, ("counted", 2))):
        found = SHOP.check(text)
        equal("what its text has", (found.kind, found.count), wanted)
    for line, count in ((b"x", None), (b"", None), (b"1" * 21, 11_111_111_111_111_111_111), (b"7", 7)):
        unread = Certificate(1, 2, (1, 2), b"flowshop counted 1\n2 1\n1 2\n1 2\n" + line + b"\nend\n")
        equal(f"the count of {line!r}", (unread.kind, unread.count), ("counted", count))
    equal("that of no lines", Certificate(1, 2, (1, 2), b"flowshop counted 1").count, None)
    with new_folder() as folder:
        path = folder / "certificate"
        checked.save(path)
        equal("a text that is saved", path.read_bytes(), BOUNDS)
        for text in (BOUNDS, bytearray(BOUNDS), memoryview(BOUNDS), BOUNDS.decode(), path, checked):
            equal(f"a text as {type(text).__name__}", SHOP.check(text), checked)
        equal("a file that is not there", refused(SHOP.check, folder / "none"), FileNotFoundError)
    equal("what is no text", [refused(SHOP.check, text) for text in (5, None)], [TypeError] * 2)
    for found in (SHOP.certify([2, 1, 3], **FEW), SHOP.certify(**FEW), SHOP.certify(width=8, rounds=5, seed=7, work=1)):
        equal("a two-ended certificate", found.text.startswith(b"flowshop two-ended 1\n3 3\n12 12\n"), True)
        got = found.lower, found.optimal, SHOP.makespan(found.sequence), SHOP.check(found)
        equal("what it proves", got, (12, True, 12, found))
    # Each sequence of this shop has the makespan 34. The bound of a node is 25 until job 14 is put at an end, so that a
    # thousand directions prove no more.
    long = Shop.from_machines([[1] * 13 + [10], [1] * 13 + [11]])
    found = long.certify(**FEW)
    got = found.lower, found.upper, long.bound(), long.check(found.text)
    equal("bounds that are certified", got, (25, 34, 25, found))


def use_counts():
    """Certificates with signs and with a count: what is asked for, what is left out, and what a check of them does."""
    asked = {proof: SHOP.certify(proof=proof, **FEW) for proof in (None, "signs", "count")}
    kinds = {proof: (found.kind, found.count, found.lower, found.upper) for proof, found in asked.items()}
    signs = "two-ended", 2, 12, 12
    equal("what a proof is", kinds, {None: signs, "signs": signs, "count": ("counted", 2, 12, 12)})
    wanted = COUNTED.replace(b"3 1 2", " ".join(map(str, asked["count"].sequence)).encode())
    equal("a counted certificate", asked["count"].text, wanted)
    with mock.patch.object(_options, "_MOST_UNASKED", 1):
        unasked = SHOP.certify(**FEW)
    equal("where there are more than are written unasked", unasked, asked["count"])
    for more in ({"time_limit": 9}, {"workers": 3}, {"token": threading.Event()}):
        equal(f"a count with {[*more]}", SHOP.certify(proof="count", **FEW, **more).text, wanted)
    # Of more directions than 100,000,000 signs are kept only where they are asked for.
    for proof, directions, kind in [
        (None, 10**8, "two-ended"), (None, 10**8 + 1, "counted"), ("signs", 10**9, "two-ended"),
        ("count", 1000, "counted"), (None, 10**15, "counted"), ("count", 10**15, "counted"),
    ]:
        found = SHOP.certify(**{**FEW, "directions": directions}, proof=proof)
        equal(f"a run of {directions:,} directions with {proof}", (found.kind, found.count), (kind, 2))
    for value in ("sign", "Count", 1, True, b"count"):
        sentence = f"proof is {value!r}, and has to be 'signs' or 'count', or None"
        got = refused(SHOP.certify, proof=value, **FEW)
        equal(f"a proof as {value!r}", got, ("OptionError", "PROOF", 0, sentence))
    for most, wanted in [(2, 12), (2**64 - 1, 12), (1, "MOST"), (0, "MOST")]:
        got = refused(Shop.from_jobs(ROWS).check, COUNTED, most=most)
        equal(f"{most} nodes", got[1] if isinstance(got, tuple) else got.upper, wanted)
        got = [SHOP.check(text, most=most).upper for text in (LEAST, TREE, BOUNDS)]
        equal("those of other texts", got, [12, 12, 13])
    sentence = "line 5 is '2', how many nodes the search opens, and this check opens 1 at most; "
    sentence += "check(text, most=N), or --most N of the command check, allows more, and takes longer"
    equal("what is said of too many", refused(SHOP.check, COUNTED, most=1), ("NotLawful", "MOST", 5, sentence))
    for most, said in ((-1, "-1"), (2**64, "18,446,744,073,709,551,616"), (1.5, "1.5")):
        sentence = f"most is {said}, and has to be a whole number from 0 to 18,446,744,073,709,551,615"
        equal(f"most as {most}", refused(SHOP.check, COUNTED, most=most), ("OptionError", "MOST", 0, sentence))
    check_once(asked["count"])
    hard, token = Shop.generate(20, 20, 1), threading.Event()
    token.set()
    stopped = {proof: hard.certify(proof=proof, token=token) for proof in (None, "signs", "count")}
    got = [(found.kind, found.state is None) for found in stopped.values()]
    equal("runs that were stopped", got, [("two-ended", False), ("two-ended", False), ("counted", False)])
    equal("the check of one", hard.check(stopped["count"]), stopped["count"])
    for begun, proof, kind in [
        (None, None, "two-ended"), ("signs", None, "two-ended"), ("signs", "count", "counted"),
        ("count", None, "counted"), ("count", "count", "counted"),
    ]:
        found = hard.certify(resume=stopped[begun], proof=proof, token=token)
        equal(f"one that goes on with {proof}", (found.kind, found.state.endswith(b"\n0")), (kind, kind == "counted"))
    sentence = "resume is the state of a run that only counts directions: leave out proof, or give 'count'"
    got = refused(hard.certify, resume=stopped["count"], proof="signs")
    equal("signs that are not kept", got, ("OptionError", "RESUME", 0, sentence))
    got = [refused(SHOP.certify, resume=given)[:2] for given in (asked["count"], COUNTED)]
    equal("a text in the place of a state", got, [("OptionError", "RESUME")] * 2)


def check_once(found):
    """The last counted certificate is searched for once, by whatever asks for it; another shop searches for itself, and
    one that several workers have checked is searched for once more."""
    shop, call = Shop.from_jobs(ROWS), _library._CALLS["check_within"]
    keep = mock.Mock(side_effect=call)
    with mock.patch.dict(_library._CALLS, check_within=keep):
        for most in (None, 2, 10):
            equal("a check", shop.check(found, **({} if most is None else {"most": most})), found)
        equal("a picture", "optimal 12" in shop.gantt(found), True)
        equal("a timetable", shop.schedule(found).lower, 12)
        equal("a report", "this one is optimal" in shop.report(found), True)
        equal("how often it is searched for", keep.call_count, 1)
        equal("one that is searched for no more", refused(shop.check, found, most=1)[1], "MOST")
        other = found.text.replace(b"\n2\nend", b"\n3\nend")
        equal("another count", refused(shop.check, other)[:3], ("NotLawful", "TREE", 5))
        equal("how often, with both", keep.call_count, 3)
        for _ in range(2):
            equal("one with signs", shop.check(LEAST).upper, 12)
        equal("how often, with signs", keep.call_count, 5)
        equal("another shop", refused(Shop.from_jobs([[1] * 3] * 3).check, found)[1], "NOT_ATTAINED")
        # Several workers test all but the search, with 0 as the most nodes.
        shop, calls = Shop.from_jobs(ROWS), keep.call_count
        for workers in (2, 1, 2, 1):
            equal(f"a check by {workers}", shop.check(found, workers=workers), found)
        given = [words[0][3] for words in keep.call_args_list[calls:]]
        equal("what is searched for by one worker", given, [0, 0, refusals.MOST_NODES])


def draw_timetables():
    """Timetables and pictures. Those of the shop were worked out in docs/formats.md."""
    timetable = SHOP.schedule([2, 1, 3])
    wanted = [(2, 1, 0, 0), (2, 2, 0, 8), (2, 3, 8, 8), (1, 1, 0, 4), (1, 2, 8, 8), (1, 3, 8, 12)]
    wanted += [(3, 1, 4, 4), (3, 2, 8, 10), (3, 3, 12, 13)]
    equal("a timetable", (list(timetable), timetable[:], len(timetable)), (wanted, wanted, 9))
    equal("its entries", ([timetable[at] for at in range(-9, 9)], timetable[1::4]), (wanted * 2, wanted[1::4]))
    equal("its arrays", timetable.starts.tolist(), [[0, 0, 8], [0, 8, 8], [4, 8, 12]])
    equal("that they are kept", timetable.ends.readonly, True)
    equal("its columns", list(zip(*timetable.columns().values())), wanted)
    equal("that they can be written", json.loads(json.dumps(timetable.columns()))["start"][8], 12)
    drawing = SHOP.gantt([2, 1, 3])
    wanted = [f"job {job}, machine {machine}, start {start}, end {end}" for job, machine, start, end in wanted
              if start < end]
    equal("a picture", texts_of(drawing, "title")[1:], wanted)
    equal("one for a notebook", (drawing._repr_svg_(), type(drawing._repr_svg_())), (drawing, str))
    equal("one for a page of a notebook", drawing._repr_html_(), f"<div>{drawing}</div>")
    shown = (TOP / "docs" / "schedule.svg").read_text()
    order = [int(job) for job in re.findall(r"job (\d+), machine 1,", shown)]
    published = Shop.read(PUBLISHED)[0].shop
    equal("the picture of docs/", published.gantt(published.certify(order, **FEW)), shown)
    foreign = Shop.from_jobs([[1, 1, 1]] * 3).certify()
    for call in (SHOP.schedule, SHOP.gantt, SHOP.report):
        wanted = "NotLawful", "NOT_ATTAINED", 4
        equal(f"{call.__name__} of a certificate of another shop", refused(call, foreign)[:3], wanted)


def use_files():
    """Benchmark texts that are read and written."""
    blocks = Shop.read(BLOCKS)
    equal("the blocks of a text", [block[1:] for block in blocks][2:], [(3, 708, 708)])
    equal("the times of the third", blocks[2].shop.times[4], [74, 94, 17, 26, 95, 22, 89, 65, 81, 31])
    (published,) = Shop.read(PUBLISHED)
    equal("a published text", published, (Shop.generate(20, 5, 873_654_221), 873_654_221, 1286, 1232))
    with new_folder() as folder:
        path = folder / "shop.txt"
        Shop.generate(2, 2, 1).write(path, seed=1)
        # What docs/formats.md says that the program writes of this seed.
        wanted = "number of jobs, number of machines, initial seed, upper bound and lower bound :\n2 2 1 122 122\n"
        equal("a text that is written", path.read_text(), f"{wanted}processing times :\n1 14\n75 46\n")
        SHOP.write(path, seed=7, upper=4_294_967_295, lower=0)
        equal("what is read of one", Shop.read(path), [(SHOP, 7, 4_294_967_295, 0)])
        text = path.read_bytes() + b" \n\t\r\n" + PUBLISHED.read_bytes().replace(b"\n", b" \r\n")
        path.write_bytes(text + b"\n~ 9\n1 1 0 0 0 \n\x0b\n7")
        wanted = [(SHOP, 7, 4_294_967_295, 0), published, (Shop.from_jobs([[7]]), 0, 0, 0)]
        equal("blocks of three texts", Shop.read(path), wanted)
        for change, number in [({"seed": -1}, "seed is -1"), ({"upper": 2**32}, "upper is 4,294,967,296")]:
            sentence = f"{number}, and has to be a whole number from 0 to 4,294,967,295"
            wanted = "OptionError", number.split()[0].upper(), 0, sentence
            equal("a number that is not written", refused(SHOP.write, path, **change), wanted)
        equal("that the file is as it was", Shop.read(path)[0].seed, 7)
    equal("a file that is not there", refused(Shop.read, "/nothing"), FileNotFoundError)


def labels(path):
    """The names and the scale of each block of a file."""
    return [(block.shop.job_names, block.shop.machine_names, block.shop.scale) for block in Shop.read(path)]


def use_labels():
    """Names and unit in the label lines of a block, in the form of docs/formats.md, and in others."""
    lines = ["jobs\tShelf\tDoor", "2 1 0 0 0", "machines, times in 1/4, decimal comma, separator tab\tCut, saw", "5 7"]
    wanted = ("Shelf", "Door"), ("Cut, saw",), 4
    no_jobs, plain = ((1, 2), *wanted[1:]), ((1, 2), (1,), 1)
    with new_folder() as folder:
        path = folder / "shop.txt"
        for at, old, new, names in [
            (0, "", "", wanted), (0, "Shelf", " Schränke ", ((" Schränke ", "Door"), *wanted[1:])),
            (0, "Shelf\tDoor", "1\t2", ((1, 2), *wanted[1:])), (0, "Shelf\tDoor", "2\t1", (("2", "1"), *wanted[1:])),
            (2, "Cut, saw", "1", (wanted[0], (1,), 4)), (2, "1/4", "1/1000000", (*wanted[:2], 1_000_000)),
            (0, "jobs", "Jobs", no_jobs), (0, "jobs", " jobs", no_jobs), (0, "jobs\tShelf\tDoor", "jobs", no_jobs),
            (0, "jobs\tShelf\tDoor", "jobs of plant A", no_jobs),
        ]:
            text = [line.replace(old, new, 1) if at == number else line for number, line in enumerate(lines)]
            for encoding, end_of_line in (("utf-8", "\n"), ("cp1252", "\r\n")):
                path.write_bytes(end_of_line.join([*text, ""]).encode(encoding))
                (shop,) = (block.shop for block in Shop.read(path))
                equal(f"the labels {text[::2]}", labels(path), [names])
                shop.write(path)
                got = [block.shop for block in Shop.read(path)], pickle.loads(pickle.dumps(shop)).scale
                equal("a shop that is written and read", got, ([shop], names[2]))
        for first, second in [
            ("words", "words"), ("jobs", "times :"), ("jobs\tShelf", "times :"), ("jobs\tShelf\t", "times :"),
            ("Jobs\tShelf\tDoor", "times :"), ("times :", "machines"),
            ("\ufeffnumber of jobs", "Machines, times in 1/4, decimal comma, separator tab\tCut"),
        ]:
            path.write_text(f"{first}\n2 1 0 0 0\n{second}\n5 7\n", encoding="utf-8")
            equal(f"the words {first!r}", labels(path), [plain])
        path.write_bytes(codecs.BOM_UTF8 + "\r\n".join(lines).encode())
        equal("a byte order mark", labels(path), [wanted])
        write_labels(path, lines, wanted)


def write_labels(path, lines, wanted):
    """Label lines of several blocks, and those that are written."""
    path.write_bytes("\n".join([*lines, "jobs\tBed", "1 1 0 0 0", lines[2].replace("/4", "/2"), "3"]).encode())
    equal("names and scales of two blocks", labels(path), [wanted, (("Bed",), wanted[1], 2)])
    shop = Shop.read(path)[0].shop
    whole = Shop.from_machines([[5, 7]], job_names=["Shelf", "Door"], machine_names=["Cut, saw"])
    equal("that the scale tells shops apart", (shop == whole, shop.times == whole.times), (False, True))
    shop.write(path)
    equal("label lines that are written", path.read_text().split("\n")[:3:2], [lines[0], lines[2]])
    named = Shop.from_jobs(ROWS, **NAMES)
    named.write(path, seed=3)
    equal("names of a table", Shop.read(path), [(named, 3, 13, 10)])
    Shop.from_jobs([[1], [2]], job_names=["Shelf", 7]).write(path)
    equal("names that are no text", Shop.read(path)[0].shop.job_names, ("Shelf", "7"))
    for name in ("", "a\tb", "a\n", "a\r"):
        sentence = f"the name of job 2 is {name!r}, and has to have a sign, no tab and no end of a line"
        got = refused(Shop.from_jobs([[1], [2]], job_names=["a", name]).write, path)
        equal(f"the name {name!r}", got, ("TextError", "LABEL", 2, sentence))
    equal("that the file is as it was", Shop.read(path)[0].shop.jobs, 2)


def refuse_labels():
    """Label lines that have names or the unit in part, in the first block of a file and in the second, with the line of
    the file. The commands refuse them too."""
    jobs, unit = "jobs\tShelf\tDoor", "machines, times in 1/4, decimal comma, separator semicolon"
    of_jobs, of_machines = "; write a tab and a name for each job", "; write a tab and a name for each machine"
    words = ", or other words in this line"
    as_here = f"and has to begin as '{unit}', with a tab before the name of each"
    divide = "and this number has to divide 1,000,000, as 1, 4 or 10"
    unknown = f"has names of jobs, and the unit of the times is not known; write it here, as '{unit}', or"
    for first, second, line, sentence in [  # of the longest the first words
        ("jobs\tShelf", f"{unit}\tCut", 1, f"has 1 name, and the block has 2 jobs{of_jobs}{words}"),
        (f"{jobs}\tBed", f"{unit}\tCut", 1, f"has 3 names, and the block has 2 jobs{of_jobs}{words}"),
        ("jobs\tShelf\t", f"{unit}\tCut", 1, f"has an empty name of job 2{of_jobs}{words}"),
        ("jobs\t\tDoor", f"{unit}\tCut", 1, f"has an empty name of job 1{of_jobs}{words}"),
        (jobs, unit, 3, f"has 0 names, and the block has 1 machine{of_machines}"),
        ("jobs of plant A", f"{unit}\tCut\tSaw", 3, f"has 2 names, and the block has 1 machine{of_machines}"),
        ("words", f"{unit}\t", 3, f"has an empty name of machine 1{of_machines}"),
        (jobs, f"{unit.replace('4', '3')}\tCut", 3, f"has times in 1/3, {divide}"),
        ("words", f"{unit.replace('4', '2000000')}\tCut", 3, f"has times in 1/2000000, {divide}"),
        *[(begin, f"{wrong}\tCut", 3, f"is '{wrong}\\tCut', {as_here} machine")
          for begin in (jobs, "words")
          for wrong in (unit.replace("4", "04"), unit.replace("4", "10000000"), unit.replace("comma", "point comma"),
                        unit.replace("semicolon", "|"), f" {unit}", f"{unit} ", "machines, times in minutes")],
        ("words", f"\t{unit}\tCut", 3, f"is '\\t{unit}\\tCut', {as_here} machine"),
        ("words", f"\r{unit}\tCut", 3, f"is '\\r{unit}\\tCut', {as_here} machine"),
        (jobs, "words", 3, f"is 'words': line 1 {unknown} other words in line 1"),
        (jobs, "Machines, times\tCut", 3, f"is 'Machines, times\\tCut': line 1 {unknown} other words in line 1"),
        (f"\ufeff{jobs}", "words", 3, f"is 'words': line 1 {unknown} other words in line 1"),
    ]:
        for before, more in [("", 0), ("a\n\n1 1 0 0 0\n\n b\n9\n \n", 7)]:
            if more and first.startswith("\ufeff"):
                continue
            said = re.sub(r"\bline (\d)", lambda found, more=more: f"line {int(found[1]) + more}", sentence)
            refuse_label(f"{before}{first}\n2 1 0 0 0\n{second}\n5 7\n", line + more, said)


def refuse_label(text, line, said):
    """A file with this text is refused with this line and this sentence, by the call and by the commands."""
    with new_folder() as folder:
        path = folder / "shop.txt"
        path.write_text(text, encoding="utf-8")
        sentence = f"line {line} of {path} {said}"
        equal(f"the labels of {text!r}", refused(Shop.read, str(path)), ("TextError", "LABEL", line, sentence))
        for words in [("certify", path, "--out", folder), ("check", path, "--out", folder),
                      ("report", path, "2" if line > 3 else "1", "--out", folder / "report.html")]:
            status, _, errors = called(command.main, *words)
            equal(f"{words[0]} of {text!r}", (status, errors), (1, f"flowshop: {sentence}\n"))


def refuse_files():
    """The first fault of a benchmark text, with its line, and what to do. Certificates are no benchmark texts."""
    with new_folder() as folder:
        path = folder / "text"
        for text, fault, *said in refusals.TEXTS:
            path.write_bytes(text)
            for given in (str(path), path):
                error, name, place, sentence = refused(Shop.read, given)
                got = error, (name, place), *([sentence] * len(said))
                wanted = "TextError", refusals.name_of(fault), *(each.replace("*", str(path)) for each in said)
                equal(f"the text {text!r}", got, wanted)
        path.write_bytes(b"flowshop of a text book\n1 1 0 0 0\nb\n7\n")
        equal("a label that begins as a certificate", Shop.read(path)[0].shop.times, [[7]])


def no_tables():
    """Tables that are no shop, each with its call, the name of the error, its place, and its sentence with the value,
    the limit and what to do; of some sentences the first words."""
    jobs = "one for each job, and a shop has 1 to 800 jobs"
    machines = "one for each machine, and a shop has 1 to 26 machines"
    turn = "; if its rows are {0}, it is a table for Shop.from_{0}".format
    whole = "and has to be a whole number; choose a unit in which all are whole, and convert them to int"
    skip, limit = "write 0 where a job skips a machine", "and has to be from 0 to 999,999"
    return [
        (Shop.from_jobs, [], "JOBS", 0, f"this table has 0 rows, {jobs}"),
        (Shop.from_machines, [], "JOBS", 0, f"this table has 0 columns, {jobs}"),
        (Shop.from_jobs, [[]], "MACHINES", 0, f"this table has 0 columns, {machines}"),
        (Shop.from_machines, [[]], "JOBS", 0, f"this table has 0 columns, {jobs}"),
        (Shop.from_jobs, [[1]] * 801, "JOBS", 0, f"this table has 801 rows, {jobs}"),
        (Shop.from_jobs, [[1] * 27], "MACHINES", 0, f"this table has 27 columns, {machines}{turn('machines')}"),
        (Shop.from_machines, [[1] * 5] * 60, "MACHINES", 0, f"this table has 60 rows, {machines}{turn('jobs')}"),
        (Shop.from_machines, [[1] * 801], "JOBS", 0, f"this table has 801 columns, {jobs}"),
        (Shop.from_jobs, [[1] * 27] * 27, "MACHINES", 0, f"this table has 27 columns, {machines}"),
        (Shop.from_jobs, [[1, 2], [3]], "COUNT", (2, 2), "row 2 has 1 time, and row 1 has 2; all rows of a table"),
        (Shop.from_jobs, [[1], [2, 3]], "COUNT", (2, 2), "row 2 has 2 times, and row 1 has 1; all rows of a table"),
        (Shop.from_jobs, [1, 2], "COUNT", (1, 1), "row 1 is 1, and has to be a list of times"),
        (Shop.from_jobs, ["12"], "COUNT", (1, 1), "row 1 is '12', and has to be a list of times"),
        (Shop.from_jobs, 5, "COUNT", 0, "a table has a list for each row, and this is 5"),
        (Shop.from_jobs, "a.csv", "COUNT", 0,
         "a table has a list for each row, and this is 'a.csv'; read_table takes the path of a file"),
        (Shop.from_machines, pathlib.Path("a"), "COUNT", 0,
         "a table has a list for each row, and this is PosixPath('a'); read_table takes the path of a file"),
        (Shop.from_jobs, [{1: 5, 2: 6}], "COUNT", (1, 1), "row 1 is {1: 5, 2: 6}, and has to be a list of times"),
        (Shop.from_machines, [[1, 2], {3, 4}], "COUNT", (2, 1), "row 2 is {3, 4}, and has to be a list of times"),
        (Shop.from_jobs, {1: [5]}, "COUNT", 0, "a table has a list for each row, and this is {1: [5]}"),
        (Shop.from_jobs, [[1, 2], [3, 4], [1_000_000, 5]], "TIME", (3, 1), f"is 1,000,000, {limit}"),
        (Shop.from_machines, [[1, 2], [3, 1_000_000]], "TIME", (2, 2), f"is 1,000,000, {limit}"),
        (Shop.from_jobs, [[1, -1]], "TIME", (1, 2), f"is -1, {limit}"),
        (Shop.from_jobs, [[2**70]], "TIME", (1, 1), f"is 1,180,591,620,717,411,303,424, {limit}"),
        (Shop.from_jobs, [[10**5000]], "TIME", (1, 1), f"is a number of thousands of digits, {limit}"),
        (Shop.from_jobs, [[1, 2.5]], "TIME", (1, 2), f"is 2.5, of type float, {whole}"),
        (Shop.from_jobs, [[1.0, 2], [3, 0.5]], "TIME", (2, 2), f"is 0.5, of type float, {whole}"),
        (Shop.from_jobs, [[1, 2.0], [3, None]], "TIME", (2, 2), f"is missing (None); {skip}"),
        (Shop.from_jobs, [[float("nan"), 1.5]], "TIME", (1, 1), f"is missing (nan); {skip}"),
        (Shop.from_jobs, [[1, "4"]], "TIME", (1, 2), "is the text '4', and has to be a whole number; convert"),
    ]


def refuse_tables():
    """Tables that are no shop."""
    for make, table, name, place, sentence in no_tables():
        got = refused(make, table)
        at = f"the time in row {place[0]}, column {place[1]} " if name == "TIME" else ""
        # No other advice follows.
        got = *got[:3], got[3][: len(at + sentence)], "it is a table for" in got[3]
        wanted = "NotAShop", name, place, at + sentence, "it is a table for" in sentence
        equal(f"the table of which is said: {sentence}", got, wanted)


def refuse_sequences():
    """Lists that are no sequence, in each call that takes one."""
    number, a_list = "and has to be a job number from 1 to 3", "a sequence is a list of job numbers, and this is"
    for jobs, name, place, sentence in [
        *refusals.SEQUENCES,
        ([1, 2, 65_536], "JOB", 3, "place 3 of the sequence is 65,536, and the jobs are 1 to 3"),
        ([1, -2, 3], "JOB", 2, "place 2 of the sequence is -2, and the jobs are 1 to 3"),
        ([1, 2.0, 3], "JOB", 2, f"place 2 of the sequence is 2.0, {number}"),
        (["Door"], "JOB", 1, f"place 1 of the sequence is 'Door', {number}"),
        *[(jobs, "JOB", 0, f"{a_list} {jobs!r}")
          for jobs in (5, "123", {1: 3, 2: 2, 3: 1}, {1, 2, 3}, frozenset([1, 2, 3]), b"\1\2\3")],
    ]:
        for call in (SHOP.makespan, SHOP.schedule, SHOP.gantt, SHOP.improve, SHOP.solve, SHOP.certify):
            got = refused(call, jobs)
            got, wanted = (*got[:3], got[3][: len(sentence)]), ("NotASequence", name, place, sentence)
            equal(f"{call.__name__} of {jobs!r}", got, wanted)
        got = refused(SHOP.makespans, [[1, 2, 3], jobs])
        wanted = "NotASequence", name, (2, place), f"sequence 2: {sentence}"
        equal(f"many with {jobs!r}", (*got[:3], got[3][: len(sentence) + 12]), wanted)
    # The first fault is told, whatever a later sequence has.
    for what, many, name, place in [
        ("one behind many", [[1, 2, 3]] * 5_000 + [[1, 2, 1], [4]], "TWICE", (5_001, 3)),
        ("a job twice before a name", [[1, 1, 2], ["Door"]], "TWICE", (1, 2)),
        ("a job twice before an error", [[1, 1, 2], (1 // 0 for _ in [0])], "TWICE", (1, 2)),
        ("few jobs before a wrong one", [(1, 2, 3), [1, 2], [4, 4, 4]], "LENGTH", (2, 0)),
        ("a wrong job before no list", [[1, 2, 3], [1, 2, 4], 5], "JOB", (2, 3)),
    ]:
        equal(f"many with {what}", refused(SHOP.makespans, many)[:3], ("NotASequence", name, place))
    for many in (5, {(1, 2, 3)}, {"a": [1, 2, 3]}):
        wanted = "NotASequence", "JOB", 0, f"many sequences are a list of lists of job numbers, and this is {many!r}"
        equal(f"many that are {many!r}", refused(SHOP.makespans, many), wanted)


def check_bounds():
    """What the command check says of bounds that differ: of a lower one that no search has raised, here of 10 and less,
    and where a least makespan is asked for, the line of the program."""
    low, root = (b"flowshop two-ended 1\n3 3\n%d 13\n2 1 3\n\nend\n" % lower for lower in (9, 10))
    less = "its lower bound is 9, and 10 takes no search; remove this file, and certify writes one that proves so much"
    simple = "its lower bound of 10 takes no search, and certify may prove a higher one"
    with new_folder() as folder:
        path, text = folder / "shop.txt", folder / "shop.txt.1.certificate"
        SHOP.write(path)
        for name, given, lower, upper, said in [
            ("a least makespan", LEAST, 12, 12, ""), ("one with a tree", TREE, 12, 12, ""),
            ("a bound that was raised", BOUNDS, 11, 13, ""), ("a bound that was not", root, 10, 13, simple),
            ("a lower one", low, 9, 13, less),
        ]:
            text.write_bytes(given)
            row = 0, [[str(path), "1", "3", "3", str(lower), str(upper)]], said
            for words, wanted in [
                ([], row), (["--optimal"], row if lower == upper else (1, [], f"refused bounds {lower} {upper}")),
            ]:
                status, out, errors = called(command.main, "check", path, "--out", folder, *words)
                got = status, [line.split()[:6] for line in out.splitlines()[1:2]], errors
                equal(f"{name}, with {words}", got, (*wanted[:2], wanted[2] and f"{text}: {wanted[2]}\n"))
        # A table that would lack a row is not written.
        called(command.main, "check", path, "--out", folder, "--optimal", "--csv", folder / "table.csv")
        equal("a table of bounds where an optimum is asked for", (folder / "table.csv").exists(), False)


def refuse_texts():
    """Texts that are no lawful certificate, with the line at fault; and lawful ones of other shops. Of counted ones the
    search is made by one worker, and by two."""
    lines = {"HEADER": 1, "SIZE": 2, "SEQUENCE": 4, "NOT_ATTAINED": 4, "MOST": 5}
    cases = [(rows, text, line, sentence, {}) for rows, text, line, sentence in refusals.checks()]
    for rows, text, most, line in refusals.counted_checks():
        more = {} if most is None else {"most": most}
        cases += [(rows, text, line, "", more), (rows, text, line, "", {**more, "workers": 2})]
    for rows, text, line, sentence, more in cases:
        got = refused(Shop.from_jobs(rows).check, text, **more)
        if isinstance(got, tuple):
            name, place = refusals.name_of(line)
            at = {3, 5} & {got[2]} if name == "VALUE" else {lines.get(name, place)}
            equal(f"the line of {name}", got[3].startswith(f"line {got[2]} ") or name == "END", True)
            got, wanted = (*got[:2], {got[2]}, got[3][: len(sentence)]), ("NotLawful", name, at, sentence)
        else:
            _, lower, *upper = line.split()
            got, wanted = (got.lower, got.upper), (int(lower), int(*upper or [lower]))
        equal(f"a check of {text[:99]} with {more}", got, wanted)
    changed = "the text was cut off or changed, or is of another shop"
    for lower, count, said in [(12, 3, "and the search below the lower bound opens more nodes or fewer"),
                               (13, 2, "and the search below the lower bound opens more nodes or fewer"),
                               (13, 4, "but the search below the lower bound meets a sequence below it")]:
        text = COUNTED.replace(b"12 12\n3 1 2\n2", b"%d 12\n3 1 2\n%d" % (lower, count))
        equal("what is said of a count", refused(SHOP.check, text)[3], f"line 5 is '{count}', {said}; {changed}")
    advice = "; a str is the text itself, and a file is named by pathlib.Path"
    equal("the name of a file", refused(SHOP.check, "shop.certificate")[3].endswith(advice), True)
    equal("a text with other signs", refused(SHOP.check, "\ud800é")[:2], ("NotLawful", "HEADER"))


def pass_options():
    """Each number comes to the argument, or to the field of a record, that is named as the option is."""
    numbers = {"jobs": 2, "machines": 3, "width": 4, "rounds": 5, "seed": 6, "work": 1, "directions": 7, "depth": 1}
    numbers.update(budget=1000, version=2)
    for call, options in OPTIONS:
        name = call.__name__
        if name == "certify":
            continue  # tests/cluster.py traces its steps
        words = [word.split()[-1] for word in re.search(rf"flowshop_{name}\(([^)]*)\)", HEADER)[1].split(",")]
        keep = mock.Mock(side_effect=_library._CALLS[name])
        with mock.patch.dict(_library._CALLS, {name: keep}):
            call(**{option: numbers[option] for option in options})
        given = keep.call_args[0]
        came = dict(zip(words, given))
        for record in given:
            if isinstance(record, ctypes.Structure):
                came.update({field: getattr(record, field) for field, *_ in record._fields_ if field not in words})
        wanted = [numbers[option] for option in options]
        equal(f"the numbers of {name}", [came.get(option) for option in options], wanted)
        equal(f"the arguments of {name}", len(given), len(words))


def refuse_options():
    """Numbers that the calls do not take, each with its limits."""
    for call, options in OPTIONS:
        for name in options:
            if name == "directions":
                continue
            least, most = _options.RANGES[name]
            for value, shown in [(least - 1, f"{least - 1}"), (most + 1, f"{most + 1:,}"), (2**32, "4,294,967,296"),
                                 (1.5, "1.5"), (None, "None"), ("3", "'3'")]:
                sizes = {"jobs": 1, "machines": 1, "seed": 1} if call == Shop.generate else {}
                sentence = f"{name} is {shown}, and has to be a whole number from {least:,} to {most:,}"
                wanted = "OptionError", name.upper(), 0, sentence
                equal(f"{name} as {value!r}", refused(call, **{**sizes, name: value}), wanted)
    more = " with signs, and to 1,000,000,000,000,000 with a count"
    for proof, most, more in [(None, 10**15, ""), ("count", 10**15, ""), ("signs", 10**9, more)]:
        for value, shown in [(0, "0"), (most + 1, f"{most + 1:,}"), (2**64 + 1, "18,446,744,073,709,551,617"),
                             (1.5, "1.5"), (None, "None"), ("3", "'3'")]:
            sentence = f"directions is {shown}, and has to be a whole number from 1 to {most:,}{more}"
            got = refused(SHOP.certify, directions=value, proof=proof)
            equal(f"directions as {value!r} with {proof}", got, ("OptionError", "DIRECTIONS", 0, sentence))
        equal(f"the most directions with {proof}", SHOP.certify(**{**FEW, "directions": most}, proof=proof).value, 12)
    equal("a search that tells nothing", SHOP.certify(progress=False), SHOP.certify())
    workers = "a whole number from 1 to 10,000, or -1 for one of each processor, or an executor, as a "
    workers += "ProcessPoolExecutor"
    told = "True, or a function that takes a Progress, or None"
    one, hundred = Shop.from_jobs([[5]]), Shop.from_jobs([[5]] * 100)
    trees = "depth is 3, which makes 970,200 trees, and there are 100,000 at most"
    for call, words, name, sentence in [
        *[(SHOP.certify, {name: value}, name.upper(), f"{name} is {value!r}, and has to be {wanted}") for
          name, value, wanted in (("workers", print, workers), ("workers", 1.5, workers), ("progress", 1, told),
                                  ("progress", "yes", told))],
        (one.solve, {"depth": 2}, "PLAN_DEPTH", "depth is 2, and the shop has 1 job"),
        (hundred.solve, {"depth": 3}, "PLAN_PREFIXES", trees),
    ]:
        equal(f"{call.__name__} with {words}", refused(call, **words), ("OptionError", name, 0, sentence))
    got = refused(SHOP.solve, depth=1, budget=1)
    sentence = "tree 2 of 3, counted from 0, is longer than the budget of 1 byte; give a larger one, or call certify"
    equal("a small budget", (*got[:3], got[3][: len(sentence)]), ("OverBudget", "OVER_BUDGET", 2, sentence))


def compare_page():
    """The sentences of docs/python.md are those of refusals, and it names each call on a shop."""
    page = (TOP / "docs" / "python.md").read_text()
    with new_folder() as folder:
        (folder / "shop.csv").write_bytes(b"a\n1;2\n")
        for error, _, _, sentence in [
            refused(Shop.from_jobs, [[1, 2, 3], [4, 5, float("nan")], [6, 7, 8]], **NAMES),
            refused(Shop.from_machines, [[1] * 5] * 60),
            refused(SHOP.makespan, [2, 0, 1]),
            refused(SHOP.check, BOUNDS.replace(b"3 3", b"3 2")),
            refused(Shop.read, str(folder / "shop.csv")),
            refused(SHOP.improve, width=70_000),
            refused(SHOP.solve, depth=1, budget=1),
        ]:
            said = re.search(rf"^\| `{error}` \|((?:.*\n\| \|)?.*)$", page, re.MULTILINE)[1]
            wanted = [sentence.replace(f"{folder}/", ""), sentence.split(", which")[0] + ", .."]
            equal(f"the sentence of {error}", any(f"`{each}`" in said for each in wanted), True)
    for name in vars(Shop):
        if not name.startswith("_") and callable(getattr(Shop, name)):
            equal(f"that the page names {name}", re.search(rf"`(Shop|shop)\.{name}\(", page) is not None, True)


def keep_rooms():
    """A text is written once, whatever room there is for it, and uses memory for its bytes alone."""
    rooms = []

    def fill(room):
        rooms.append(room.bytes_count)
        ctypes.memset(ctypes.addressof(room.bytes.contents) + 70_000_000, 65, 1)
        room.length = 70_000_001

    def refuse(room):
        rooms.append(room.bytes_count)
        raise _library.Refused("ROOM", 1 << 50)

    text = _texts.written(1 << 32, fill)
    equal("a long text", (len(text), text[-1:], rooms), (70_000_001, b"A", [1 << 32]))
    equal("a text without room", refused(_texts.written, 1 << 20, refuse), MemoryError)
    small, real = mmap.mmap(-1, 1 << 16), _library._CALLS["solve"]
    large = Shop.read(EXAMPLES / "large_tree.txt")[0].shop
    keep = mock.patch.dict(_library._CALLS, solve=lambda *words: (rooms.append("solve"), real(*words))[1])
    with mock.patch.object(_texts, "_room", lambda wanted: small), keep:
        equal("a search without room", refused(large.solve, depth=2), MemoryError)
    equal("that each was made once", rooms[1:], [1 << 20, "solve"])
    with mock.patch.dict(_library._CALLS, neh=lambda *words: _library.Outcome(1, 0)):
        equal("a call that memory does not suffice for", refused(SHOP.neh), MemoryError)
    # The greatest lengths of the header.
    with mock.patch.object(_texts, "_room", lambda wanted: (rooms.append(wanted), mmap.mmap(-1, wanted))[1]):
        SHOP.solve(depth=1, budget=100_000)
    equal("the room of a text", rooms[3] >= 3200 + 3 * 100_001, True)
    equal("room that no system has", len(_texts._room(1 << 60)) >= 1 << 24, True)


def search_parts():
    """A part of a search for directions, a beam and rounds, as the library gives them."""
    signs = SHOP.certify().text.split(b"\n")[4]
    below, over = SHOP.prove(13, budget=100), SHOP.prove(12, budget=1)
    equal("directions", SHOP.prove(12, budget=2).directions, signs)
    equal("a sequence below the number", (below.sequence, below.value), ((3, 1, 2), 12))
    equal("a search over its budget", (over.directions, len(over.parts) > 0), (signs[:1], True))
    # The bound of the shop is 10: machine 2 takes 0 + 8 + 2, with nothing before its first job and after its last one.
    proved = [SHOP.prove(12), SHOP.prove(12, time_limit=9), SHOP.prove(15, front=[1, 2])]
    equal("lower bounds of proofs", [each.lower for each in proved], [12, 12, 15])
    others = below, over, SHOP.prove(12, time_limit=9, budget=1)
    equal("those of what proves less", [each.lower for each in others], [10] * 3)
    known = [[hasattr(each, name) for each in (proved[0], over)] for name in ("value", "upper", "gap")]
    equal("that they have no makespan", known, [[False, False]] * 3)
    # Door first: 1 and then 2 on Drill, which Shelf needs from 4 to 11; Shelf first: Drill ends at 12.
    plan = flowshop.Plan.of([["Order", "Saw", "Drill"], ["Shelf", 3, 7], ["Door", 1, 2]])
    equal("a plan", (plan.value, plan.lower, plan.upper, plan.gap), (11, 11, 11, 0.0))
    few = flowshop.Plan(SHOP, SHOP.check(BOUNDS), None, "")
    equal("one with a gap", (few.value, few.lower, few.upper, round(few.gap, 3)), (13, 11, 13, 0.154))
    # A worker that counts sends as many bytes whatever the search comes to, but for the parts that are left.
    root = _parts.packed_parts([_parts.PackedPart(b"", b"", 0, b"")])
    hard, sent = Shop.generate(9, 6, 7), []
    value = hard.certify().value
    for has_signs in (True, False):
        task = _tasks.Task(3, 0, _tasks.packed_shop(hard._parts[:3]), value, 10**15, has_signs, 60.0, root)
        sent.append(_tasks.work(task))
    directions = hard.prove(value).directions
    equal("what is sent with signs", _tasks.signs_of(sent[0].bits, sent[0].written), directions)
    wanted = sent[0]._replace(bits=b"", seconds=sent[1].seconds)
    equal("what is sent by who counts", (sent[1], len(directions) > 100), (wanted, True))
    node = SHOP.prove(14, front=[2, 1], back=[3], budget=0)
    equal("a node of three jobs", (node.sequence, node.value, node.directions), ((2, 1, 3), 13, b""))
    shop = _parts.Instance(*SHOP._parts[:3])
    start, best = (array.array("H", jobs).tobytes() for jobs in ([2, 1, 3], [3, 1, 2]))
    equal("a beam", shop.beam(start, 0, 16, 10**6)[:2], (best, 12))
    equal("a beam that is aimed", shop.beam(start, 12, 16, 10**6)[:2], (start, 13))
    equal("rounds", shop.rounds(start, 20, 1, 10**6), (best, 12, False))


def compare_random_shops():
    """Random shops beside plain code."""
    draw = random.Random(1)
    for _ in range(100):
        rows = [[draw.choice([0, draw.randint(1, 99), 999_999]) for _ in range(draw.randint(1, 6))]]
        rows += [[draw.randint(0, 99) for _ in rows[0]] for _ in range(draw.randint(0, 6))]
        shop, plain = Shop.from_jobs(rows), of_rows(rows)
        many = [draw.sample(range(1, len(rows) + 1), len(rows)) for _ in range(4)]
        values = [makespan(plain, sequence) for sequence in many]
        found = shop.solve(depth=1, version=2)
        got = list(shop.makespans(many)), [shop.schedule(jobs).makespan for jobs in many], shop.bound(), found.upper
        wanted = values, values, root_bound(plain), makespan(plain, found.sequence)
        equal(f"makespans, timetables, bound and certificate of {rows}", got, wanted)
        equal(f"that it is lawful, and the least, of {rows}", (shop.check(found.text), min(values) >= found.upper),
              (found, True))


def keep_stacks():
    """Calls on the greatest shop end well in threads with little stack, and where the system gives little; and calls of
    the library with as much as its header says. What threads of others are to have stays as it was."""
    limit, said = resource.getrlimit(resource.RLIMIT_STACK)[1], []
    for word, stack in [("caller", 1 << 23), ("caller", 1 << 18), ("library", 1 << 23)]:
        words = [sys.executable, TOP / "tests" / "stacks.py", word]
        run = subprocess.run(words, stdout=subprocess.PIPE, check=False,
                             preexec_fn=lambda: resource.setrlimit(resource.RLIMIT_STACK, (stack, limit)))
        said.append(run.stdout.decode().splitlines())
        got = run.returncode, "True" in said[-1], len(said[-1])
        equal(f"status, stack and lines of calls by {word} with {stack} bytes", got, (0, True, 7))
    equal("what they give with little stack", said[0], said[1])


def keep_errors():
    """Each class of errors is a FlowshopError and a ValueError, says a sentence, and comes back from pickle; so does an
    interrupt with a result."""
    for name in ("NotAShop", "NotASequence", "NotLawful", "TextError", "OptionError", "OverBudget", "FlowshopError"):
        error = getattr(flowshop, name)("JOB", (2, 3), "a sentence")
        kept = pickle.loads(pickle.dumps(error))
        got = type(kept), str(kept), kept.name, kept.place, isinstance(error, FlowshopError)
        equal(f"a kept {name}", got, (type(error), "a sentence", "JOB", (2, 3), True))
        equal(f"the base of {name}", isinstance(error, ValueError), True)
        equal(f"the module that {name} names", type(error).__module__, "flowshop")
    kept = pickle.loads(pickle.dumps(flowshop.Interrupted(SHOP.neh())))
    got = type(kept), kept.result, str(kept), isinstance(kept, KeyboardInterrupt)
    equal("an interrupt", got, (flowshop.Interrupted, SHOP.neh(), "Start(makespan 13: 2, 1, 3)", True))


if __name__ == "__main__":
    # A warning of the package is an error.
    warnings.filterwarnings("error", module="flowshop")
    for part in (run_examples, compare_header, make_shops, compare_shops, use_names, escape_names, use_arrays,
                 use_frames, use_results, use_texts, use_counts, draw_timetables, use_files, use_labels, refuse_labels,
                 refuse_files, refuse_tables, refuse_sequences, check_bounds, refuse_texts, pass_options,
                 refuse_options, compare_page, keep_rooms, search_parts, keep_stacks, keep_errors,
                 compare_random_shops, *package_input.PARTS):
        part()
    end("the package for Python")

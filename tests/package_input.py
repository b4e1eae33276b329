"""What the package for Python takes as a table and as names, each kind of array and frame too, and what it says of the
rest. tests/package.py runs the parts."""

import array
import ast
import csv
import datetime
import decimal
import fractions
import json
import os
import pathlib
import pickle
import pydoc
import random
import re
import resource
import shutil
import sys
import threading
import time
import types
import xml.etree.ElementTree
from unittest import mock

from counts import BLOCKS, called, command, equal, new_folder, optional, refused
from reference import makespan, of_rows
from refusals import BOUNDS, LEAST
from refusals import THREE as ROWS

import flowshop
from flowshop import Shop
from flowshop import _library, _meter, _options, _parts
from flowshop.__main__ import main

numpy, pandas, sparse = map(optional, ("numpy", "pandas", "scipy.sparse"))

SHOP = Shop.from_jobs(ROWS)
PUBLIC = [name for name in vars(flowshop) if name[0] != "_"]
WHOLE = "and has to be a whole number"
UNIT = f"{WHOLE}; choose a unit in which all are whole, and convert them to int"
SCALED = "or give scale={}, by which all are multiplied"
TRUTH = f"is True, {WHOLE}; convert the table to int where True stands for 1"
SKIPS = "write 0 where a job skips a machine"
LENGTH = f"a length of time, {WHOLE}; divide the table by what one unit is, as datetime.timedelta(minutes=1)"
TEXT = f"{WHOLE}; convert it to int, or give names as job_names or as the labels of a frame"
MINUTE = datetime.timedelta(minutes=1)
# Numbers that are no time of a shop, each with what is said of it; None where it is the time 3.
CELLS = [
    (3, None),
    (3.0, None),
    (3.0000000000000004, None),
    (decimal.Decimal("3.00"), None),
    (fractions.Fraction(6, 2), None),
    (3.000001, f"is 3.000001, of type float, {UNIT}"),
    (3.25, f"is 3.25, of type float, {UNIT}; {SCALED.format(100)}"),
    (decimal.Decimal("0.5"), f"is Decimal('0.5'), of type Decimal, {UNIT}; {SCALED.format(10)}"),
    (fractions.Fraction(1, 3), f"is Fraction(1, 3), of type Fraction, {UNIT}"),
    (1e-7, f"is 1e-07, of type float, {UNIT}"),
    (float("inf"), f"is inf, of type float, {UNIT}"),
    (1e6, "is 1000000.0, and has to be from 0 to 999,999"),
    (1e300, "is 1e+300, and has to be from 0 to 999,999"),
    (decimal.Decimal("-1e300"), "is Decimal('-1E+300'), and has to be from 0 to 999,999"),
    (-3.0, "is -3.0, and has to be from 0 to 999,999"),
    (True, TRUTH),
    (3 + 0j, f"is (3+0j), of type complex, {WHOLE}"),
    (MINUTE, f"is '0:01:00', {LENGTH}"),
    (datetime.date(2024, 1, 2), f"is datetime.date(2024, 1, 2), of type date, {WHOLE}"),
    ([3], f"is [3], of type list, {WHOLE}"),
    ((3,), f"is (3,), of type tuple, {WHOLE}"),
    (b"3", f"is b'3', of type bytes, {WHOLE}"),
    ("3", f"is the text '3', {TEXT}"),
    (float("nan"), f"is missing (nan); {SKIPS}"),
    (decimal.Decimal("NaN"), f"is missing (Decimal('NaN')); {SKIPS}"),
    (decimal.Decimal("sNaN"), f"is missing (Decimal('sNaN')); {SKIPS}"),
]


def test_cells():
    """Each kind of number in a table of lists, which the refusal names by its row and its column."""
    for value, wrong in CELLS:
        got = refused(lambda value=value: Shop.from_jobs([[4, 0], [8, value]]))
        wanted = Shop.from_jobs([[4, 0], [8, 3]]) if wrong is None else (
            "NotAShop", "TIME", (2, 2), f"the time in row 2, column 2 {wrong}"
        )
        equal(f"a table with {value!r}", got, wanted)


def test_scales():
    """Decimals that a scale makes whole, and the unit of what comes of them; scales and times that are refused."""
    halves = [[0.5, 1], [0.1 + 0.2, 2.0]]
    shop = Shop.from_jobs(halves, scale=10)
    equal("times in tenths", (shop.times, shop.scale, shop.makespan([1, 2])), ([[5, 3], [10, 20]], 10, 35))
    equal("a table of machines", Shop.from_machines(list(zip(*halves)), scale=10), shop)
    equal("whole times", Shop.from_jobs([[3, 4]], scale=1000).times, [[3000], [4000]])
    equal("that a picture has the unit of the table", "<title>makespan 3.5, " in shop.gantt([1, 2]), True)
    for scale in (0, -1, 3, 60, 2_000_000, 2.5, "10", None):
        sentence = f"scale is {scale!r}, and has to be a whole number that divides 1,000,000, as 10, 100 or 1,000"
        sentence = sentence.replace("2000000", "2,000,000")
        got = refused(lambda scale=scale: Shop.from_jobs(halves, scale=scale))
        equal(f"the scale {scale!r}", got, ("OptionError", "SCALE", 0, sentence))
    for value, scale, said in [
        (0.25, 10, f"is 0.25, of type float, {UNIT}; {SCALED.format(100)}"),
        (100_000, 10, "is 100,000, with scale=10 1,000,000, and has to be from 0 to 999,999"),
        (99.25, 1000, None),
        (999.9995, 1000, f"is 999.9995, of type float, {UNIT}"),
    ]:
        got = refused(lambda value=value, scale=scale: Shop.from_jobs([[1, value]], scale=scale))
        place = ("NotAShop", "TIME", (1, 2), f"the time in row 1, column 2 {said}")
        equal(f"{value} with the scale {scale}", got if said else got.times[1], place if said else [99_250])


def arrays():
    """Arrays of each type, with what is said of those that are not taken."""
    hidden = [[False] * 3, [False, True, False], [False] * 3]
    seconds = numpy.array(ROWS, dtype="timedelta64[s]")
    at = "the time in row 1, column 1"
    two = "and a table has 2, one of rows and one of columns"
    return [
        ("masked", numpy.ma.array(ROWS, mask=hidden), f"the time in row 2, column 2 is missing (masked); {SKIPS}"),
        ("masked floats", numpy.ma.array(ROWS, mask=hidden, dtype=float),
         f"the time in row 2, column 2 is missing (masked); {SKIPS}"),
        ("a mask of nothing", numpy.ma.array(ROWS), None),
        ("a mask of False", numpy.ma.array(ROWS, mask=numpy.zeros((3, 3), bool)), None),
        ("rows with a mask", list(numpy.ma.array(ROWS, mask=hidden)),
         f"the time in row 2, column 2 is missing (masked); {SKIPS}"),
        ("floats", numpy.array(ROWS, dtype=float), None),
        ("short floats", numpy.array(ROWS, dtype="float32"), None),
        ("shorter floats", numpy.array(ROWS, dtype="float16"), None),
        ("long floats", numpy.array(ROWS, dtype="longdouble"), None),
        ("floats of the other order of bytes", numpy.array(ROWS, dtype=">f8"), None),
        ("objects", numpy.array(ROWS, dtype=object), None),
        ("records", numpy.array([(4, 0, 4), (0, 8, 0), (0, 2, 1)], dtype=[(name, int) for name in "abc"]), None),
        ("a matrix", numpy.matrix(ROWS), None),
        ("lengths of time over a unit", seconds / numpy.timedelta64(1, "s"), None),
        ("truth values", numpy.array(ROWS, dtype=bool), f"{at} {TRUTH}"),
        ("rows of truth values", [numpy.array([True, False])], f"{at} {TRUTH}"),
        ("complex", numpy.array(ROWS, dtype=complex), f"{at} is (4+0j), of type complex, {WHOLE}"),
        ("lengths of time", seconds, f"{at} is '0:00:04', {LENGTH}"),
        ("short lengths of time", seconds.astype("timedelta64[ns]"), f"{at} is '0:00:04', {LENGTH}"),
        ("years", numpy.array(ROWS, dtype="timedelta64[Y]"), f"{at} is '1460 days, 23:16:48', {LENGTH}"),
        ("dates", numpy.array(ROWS, dtype="datetime64[D]"),
         f"{at} is numpy.datetime64('1970-01-05'), of type datetime64, {WHOLE}"),
        ("texts", numpy.array(ROWS).astype(str), f"{at} is the text '4', {TEXT}"),
        ("bytes", numpy.array(ROWS).astype(bytes), f"{at} is b'4', of type bytes, {WHOLE}"),
        ("no dimension", numpy.array(5), "a table has a list for each row, and this is array(5)"),
        ("one dimension", numpy.array([5, 6]), "row 1 is 5, and has to be a list of times"),
        ("three dimensions", numpy.array([ROWS, ROWS]), f"this array has 3 dimensions, {two}"),
        ("three of floats", numpy.zeros((2, 2, 2)), f"this array has 3 dimensions, {two}"),
        ("infinity", numpy.array([[numpy.inf]]), f"{at} is inf, of type float, {UNIT}"),
    ]


def test_arrays():
    """Arrays of each type: which are taken, and what is said of the others."""
    if numpy is None:
        return
    for what, table, wanted in arrays():
        got = refused(lambda table=table: Shop.from_jobs(table))
        equal(f"an array: {what}", got if wanted is None else got[3], SHOP if wanted is None else wanted)
    tenths = numpy.array(ROWS) / 10
    for kind in ("float64", "float32", "longdouble"):
        equal(f"tenths of {kind}", Shop.from_jobs(tenths.astype(kind), scale=10).times, SHOP.times)
    equal("whole numbers with a scale", Shop.from_jobs(numpy.array(ROWS), scale=10).times[0], [40, 0, 0])
    great = numpy.array([[2**63]], dtype="uint64")
    equal("a great number", refused(lambda: Shop.from_jobs(great, scale=1000))[:3], ("NotAShop", "TIME", (1, 1)))
    if sparse is not None:
        for form in (sparse.csr_matrix, sparse.coo_matrix, sparse.csc_array):
            equal(f"the sparse array {form.__name__}", Shop.from_jobs(form(numpy.array(ROWS))), SHOP)
        huge = sparse.coo_matrix((10**9, 10**9))
        equal("a great sparse one", refused(lambda: Shop.from_jobs(huge))[:3], ("NotAShop", "JOBS", 0))


def test_frames():
    """Frames with columns of odd types."""
    if pandas is None:
        return
    names = ["Cut", "Weld", "Paint"]
    frame = pandas.DataFrame(ROWS, columns=names)
    named = Shop.from_jobs(ROWS, machine_names=names)
    at = "the time in row 1, column 1 (Cut)"
    for what, table, wanted in [
        ("a float column", frame.astype({"Weld": float}), None),
        ("Int64", frame.astype("Int64"), None),
        ("Float64", frame.astype("Float64"), None),
        ("categories", frame.astype({"Cut": "category"}), None),
        ("sparse columns", frame.astype(pandas.SparseDtype(int)), None),
        ("objects", frame.astype(object), None),
        ("lengths of time", frame * pandas.Timedelta("1min"), f"{at} is '0:04:00', {LENGTH}"),
        ("one column of them", frame.assign(Cut=pandas.to_timedelta(frame.Cut, unit="min")),
         f"{at} is '0 days 00:04:00', {LENGTH}"),
        ("text", frame.astype({"Cut": str}), f"{at} is the text '4', {TEXT}"),
        ("decimal commas", frame.assign(Cut=["4,5", "0", "0"]), f"{at} is the text '4,5', {TEXT}"),
        ("names", frame.assign(Cut=["Bed", "Sofa", "Desk"]),
         f"{at} is the text 'Bed', {TEXT}; set_index('Cut') of a frame makes its index of this column"),
        ("a truth value", frame.astype({"Cut": bool}), f"{at} {TRUTH}"),
        ("a blank cell", frame.astype("Int64").mask(frame == 8),
         f"the time in row 2, column 2 (Weld) is missing (<NA>); {SKIPS}"),
    ]:
        got = refused(lambda table=table: Shop.from_jobs(table))
        equal(f"a frame: {what}", got if wanted is None else got[3], named if wanted is None else wanted)
    lengths = frame * pandas.Timedelta("1min") / pandas.Timedelta("1min")
    equal("lengths of time in minutes", Shop.from_jobs(lengths), named)


# Names that are no names, each with its error.
WRONG_NAMES = [
    ([[1], [2], [3]], "NAME", 1, "the name of job 1 is [1], and has to be text or a whole number"),
    (["a", None, "b"], "NAME", 2, "the name of job 2 is None, and has to be text or a whole number"),
    (["a", "b", 1.5], "NAME", 3, "the name of job 3 is 1.5, and has to be text or a whole number"),
    ([1, 2, True], "NAME", 3, "the name of job 3 is True, and has to be text or a whole number"),
    ([{}, {}, {}], "NAME", 1, "the name of job 1 is {}, and has to be text or a whole number"),
    (["a", "b", "a"], "NAME", 3, "the names of jobs 1 and 3 are both 'a'; give each job a name of its own"),
    ([7, 7, 8], "NAME", 2, "the names of jobs 1 and 2 are both 7; give each job a name of its own"),
    (b"abc", "COUNT", 0, "the names of jobs are a list, and this is b'abc'"),
]


def test_names():
    """Names are text or whole numbers, and each is another one. They are tested when they are given."""
    for names, name, place, sentence in WRONG_NAMES:
        wanted = "NotAShop", name, place, sentence
        equal(f"the names {names!r}", refused(lambda names=names: Shop.from_jobs(ROWS, job_names=names)), wanted)
        columns = [list(column) for column in zip(*ROWS)]
        got = refused(lambda names=names: Shop.from_jobs(columns, machine_names=names))
        equal(f"machines with the names {names!r}", got, (*wanted[:3], sentence.replace("job", "machine")))
    labelled = types.SimpleNamespace(values=ROWS, index=["a", ["b"], "c"], columns=["Cut", "Weld", ("Paint", {})])
    sentence = "the name of {} is {}, and has to be text or a whole number".format
    got = refused(lambda: Shop.from_jobs(labelled))
    equal("a label that is a list", got, ("NotAShop", "NAME", 2, sentence("job 2", "['b']")))
    labelled.index = ["a", "b", "c"]
    got = refused(lambda: Shop.from_jobs(labelled))
    equal("a label with a dict", got, ("NotAShop", "NAME", 3, sentence("machine 3", "('Paint', {})")))
    if numpy is not None:
        for names, wanted in ((numpy.array([5, 6, 7]), int), (numpy.array(["a", "b", "c"]), str)):
            got = Shop.from_jobs(ROWS, job_names=names).job_names
            kinds = [*map(type, got)]
            equal(f"an array of names, {wanted.__name__}", (kinds, list(got)), ([wanted] * 3, names.tolist()))
        got = refused(lambda: Shop.from_jobs(ROWS, job_names=numpy.array(5)))
        equal("names with no dimension", got[:3], ("NotAShop", "COUNT", 0))


# Names of three jobs; a list that a call takes, and by what; and the numbers of its jobs, or the refusal.
BOTH = "the sequence can be read as names and as numbers of jobs; say which they are, by='name' or by='number'"
NONE, ARE = "and no job has this name; the names are", "and the jobs are 1 to 3"
TEXTS, GREAT, TURNED, MIXED = ("Bed", "Sofa", "Chair"), (5, 6, 7), (2, 3, 1), ("Bed", 3, "2")
LISTS = [
    (TEXTS, ["Chair", "Bed", "Sofa"], None, [3, 1, 2]),
    (TEXTS, ["Chair", "Bed", "Sofa"], "name", [3, 1, 2]),
    (TEXTS, [3, 1, 2], None, [3, 1, 2]),
    (TEXTS, [3, 1, 2], "number", [3, 1, 2]),
    (TEXTS, [3, 1, 2], "name", ("NAME", 1, f"place 1 of the sequence is 3, {NONE} Bed, Sofa, Chair")),
    (TEXTS, ["Bed", "Stool", "Sofa"], None,
     ("NAME", 2, f"place 2 of the sequence is 'Stool', {NONE} Bed, Sofa, Chair")),
    (TEXTS, ["Bed", "Bed", "Sofa"], None,
     ("TWICE", 2, "job 1 stands at place 1 of the sequence, and again at place 2; each job stands in it once")),
    (TEXTS, ["Bed", "Sofa"], None,
     ("LENGTH", 0, "the sequence has 2 jobs, and the shop has 3; each job stands in it once")),
    (TEXTS, [1, 2, 4], None, ("JOB", 3, f"place 3 of the sequence is 4, {ARE}")),
    (TEXTS, ["Bed", "Sofa", "Chair"], "number",
     ("JOB", 1, "place 1 of the sequence is 'Bed', and has to be a job number from 1 to 3")),
    (GREAT, [7, 5, 6], None, [3, 1, 2]),
    (GREAT, [7, 5, 6], "number", ("JOB", 1, f"place 1 of the sequence is 7, {ARE}")),
    (GREAT, [3, 1, 2], None, [3, 1, 2]),
    (GREAT, [7, 5, 9], None, ("NAME", 3, f"place 3 of the sequence is 9, {NONE} 5, 6, 7")),
    (GREAT, [1, 2, 9], None, ("JOB", 3, f"place 3 of the sequence is 9, {ARE}")),
    (TURNED, [1, 2, 3], None, ("BY", 0, BOTH)),
    (TURNED, [1, 2, 3], "name", [3, 1, 2]),
    (TURNED, [3, 1, 2], "number", [3, 1, 2]),
    (MIXED, ["2", "Bed", 3], None, [3, 1, 2]),
    (MIXED, [3, 1, 2], None, [3, 1, 2]),
    (None, [3, 1, 2], "name", [3, 1, 2]),
    (None, [3, 1, 2], "number", [3, 1, 2]),
    (None, ["Bed"], None, ("JOB", 1, "place 1 of the sequence is 'Bed', and has to be a job number from 1 to 3")),
    (None, [3, 1.0, 2], None,
     ("JOB", 2, "place 2 of the sequence is 1.0, and has to be a job number from 1 to 3; convert the list to int")),
    (None, [3, 1.5, 2], None, ("JOB", 2, "place 2 of the sequence is 1.5, and has to be a job number from 1 to 3")),
]


def test_sequences_by_name():
    """Sequences of names, and of numbers beside names that are whole numbers. The sequence of [3, 1, 2] has the
    makespan 12, and no other one has."""
    for names, jobs, by, wanted in LISTS:
        shop = Shop.from_jobs(ROWS, job_names=names)
        what = f"{jobs} by {by} of jobs with the names {names}"
        forms = [jobs, tuple(jobs), iter(jobs)] + ([numpy.array(jobs, dtype=object)] if numpy is not None else [])
        for form in forms:
            got = refused(lambda form=form: shop.makespan(form, by=by))
            equal(what, got, 12 if isinstance(wanted, list) else ("NotASequence", *wanted))
        if not isinstance(wanted, list):
            got = refused(lambda: shop.makespans([[3, 1, 2], jobs], by=by))
            equal(f"many with {what}", got[0], "NotASequence")
            continue
        calls = shop.schedule, shop.improve, shop.solve, shop.certify
        got = [call(jobs, by=by).sequence for call in calls]
        equal(f"calls with {what}", got, [(3, 1, 2)] * 4)
        equal(f"many with {what}", list(shop.makespans([jobs, jobs], by=by)), [12, 12])
        equal(f"a picture of {what}", shop.gantt(jobs, by=by), shop.gantt((3, 1, 2), by="number"))
        equal(f"a report of {what}", shop.report(jobs, by=by), shop.report((3, 1, 2), by="number"))
        equal(f"a node of {what}", shop.prove(13, front=jobs[:2], back=jobs[2:], by=by).value, 12)
        for result in (shop.neh(), shop.certify(), shop.schedule(jobs, by=by)):
            for other in (None, "name", "number"):
                equal(f"a result with names {names}", shop.makespan(result, by=other), shop.makespan(result))
    got = refused(lambda: SHOP.makespan([1, 2, 3], by="names"))
    equal("another by", got, ("OptionError", "BY", 0, "by is 'names', and has to be 'name' or 'number', or None"))


def test_results_as_arrays():
    """Numbers of results have a sign, so that differences of them are right; and places that count from 0."""
    if numpy is None:
        return
    timetable = SHOP.schedule([2, 1, 3])
    for what, given, wanted in [
        ("makespans", SHOP.makespans([[1, 2, 3], [2, 1, 3], [3, 1, 2]]), [-2, -1]),
        ("makespans of an array", SHOP.makespans(numpy.array([[1, 2, 3], [2, 1, 3], [3, 1, 2]])), [-2, -1]),
        ("starts", timetable.starts, [[0, 8], [8, 0], [4, 4]]),
        ("ends", timetable.ends, [[8, 0], [4, 4], [6, 3]]),
    ]:
        numbers = numpy.asarray(given)
        equal(f"the type of {what}", numbers.dtype, numpy.dtype("int64"))
        equal(f"differences of {what}", numpy.diff(numbers).tolist(), wanted)
    for kind in ("uint8", "int16", ">i4", "uint64"):
        many = numpy.array([[1, 2, 3], [3, 1, 2]], dtype=kind)
        equal(f"makespans of {kind}", list(SHOP.makespans(many)), [15, 12])
        equal(f"of {kind} with gaps", list(SHOP.makespans(numpy.repeat(many, 2, axis=1)[:, ::2])), [15, 12])
        got = refused(lambda many=many: SHOP.makespans(many * 2))
        equal(f"of {kind} that are none", got[:3], ("NotASequence", "JOB", (1, 2)))
    for what, given, place in [
        ("a negative number", numpy.array([[1, 2, 3], [1, -1, 3]]), (2, 2)),
        ("a great number", numpy.array([[1, 2, 3], [1, 2, 65_537]]), (2, 3)),
        ("a short row", numpy.array([[1, 2], [1, 2]]), (1, 0)),
        ("masked", numpy.ma.array([[1, 2, 3]], mask=[[False, True, False]]), (1, 2)),
        ("floats", numpy.array([[1.0, 2.0, 3.0]]), (1, 1)),
    ]:
        equal(f"many with {what}", refused(lambda given=given: SHOP.makespans(given))[2], place)
    equal("an array with no sequences", list(SHOP.makespans(numpy.zeros((0, 3), int))), [])
    if pandas is None:
        return
    for index in (None, ["a", "a", "b"], [7, 7, 7], [3, 1, 2]):
        frame = pandas.DataFrame(ROWS, index=index)
        shop = Shop.from_jobs(frame)
        for result in (shop.certify(), shop.schedule([3, 1, 2], by="number")):
            rows = frame.iloc[result.positions].values.tolist()
            equal(f"the rows with the index {index}", rows, [ROWS[2], ROWS[0], ROWS[1]])
    shop = Shop.from_jobs(pandas.DataFrame(ROWS, index=["a", "a", "b"]))
    got = refused(lambda: shop.makespan(["b", "a", "a"]))
    sentence = "place 2 of the sequence is 'a', which is the name of jobs 1 and 2; give the numbers of jobs"
    equal("a name of two jobs", got, ("NotASequence", "NAME", 2, sentence))


# Results of the shop, each with its makespan and the lower bound that it knows. The bound of the shop is 10, its least
# makespan 12; the sequence of neh has 13, and that of the jobs in order 15.
RESULTS = [
    ("neh", lambda: SHOP.neh(), 13, 10),
    ("improve", lambda: SHOP.improve([1, 2, 3], width=0, rounds=0), 15, 10),
    ("improve in time", lambda: SHOP.improve([1, 2, 3], width=0, rounds=0, time_limit=60), 15, 10),
    ("certify", lambda: SHOP.certify(), 12, 12),
    ("solve", lambda: SHOP.solve(), 12, 12),
    ("check", lambda: SHOP.check(BOUNDS), 13, 11),
    ("a schedule", lambda: SHOP.schedule([1, 2, 3]), 15, 10),
    ("a schedule of a certificate", lambda: SHOP.schedule(SHOP.check(BOUNDS)), 13, 11),
    ("below a number", lambda: SHOP.prove(13), 12, 10),
    ("progress", lambda: flowshop.Progress(2, 11, 13, 5, 0.5), 13, 11),
    ("no time at all", lambda: Shop.from_jobs([[0]]).neh(), 0, 0),
]


def test_bounds():
    """Value, lower, upper and gap of each result; what a notebook shows of it, and what comes back from elsewhere."""
    for what, call, value, lower in RESULTS:
        found = call()
        got = found.value, found.lower, found.upper, found.gap
        equal(f"the bounds of {what}", got, (value, lower, value, (value - lower) / value if value else 0.0))
        if what == "progress":
            continue
        page = found._repr_html_()
        proved = f"Makespan {value}, and no order takes less. "
        gap = 100 * (value - lower) / (value or 1)
        bounds = f"Makespan {value}; no order takes less than {lower}, a gap of {gap:.1f}%. "
        order = ", ".join(map(str, found.sequence))
        said = (proved if value == lower else bounds) + f"Order: {order}</p>"
        equal(f"what is shown of {what}", page.startswith(f"<div><p>{said}<svg "), True)
        equal(f"that {what} is a page", xml.etree.ElementTree.fromstring(page).tag, "div")
        kept = pickle.loads(pickle.dumps(found))
        equal(f"{what} from elsewhere", (kept, kept.lower, kept.gap), (found, lower, found.gap))
        equal(f"what is shown of it: {what}", kept._repr_html_(), f"<div><p>{said}</div>")
    halves = Shop.from_jobs([[0.5], [1]], scale=10, job_names=["<a>", "b\x1b"]).schedule([1, 2])
    said = "Makespan 1.5, and no order takes less. Order: &lt;a&gt;, b\\x1b</p>"
    equal("what is shown of tenths and odd names", halves._repr_html_()[: len(said) + 8], f"<div><p>{said}")
    large = Shop.generate(100, 21, 1).neh()._repr_html_()
    equal("what is shown of many bars", ("<svg" in large, "shop.gantt(..) draws it" in large), (False, True))


# Texts that are no shop, each with what is said of it.
SHOP_TEXT = '{"times": %s, "job_names": %s, "machine_names": null, "unit": %s}'
PLAIN_UNIT = '{"scale": 1, "decimal": "point", "separator": "comma"}'
GIVES = "it has to be what {}.to_json gives"
WRONG_SHOPS = [
    ("{", "JSON", 1, "line 1 of the text is no JSON: Expecting property name enclosed in double quotes"),
    ("\n\nx", "JSON", 3, "line 3 of the text is no JSON: Expecting value; a file is read by pathlib.Path"),
    ("[]", "JSON", 0, "the text has [], and has to be what Shop.to_json gives"),
    (5, "JSON", 0, "the text is 5, and has to be what Shop.to_json gives"),
    ("{}", "JSON", 0, f"the text has no 'times'; {GIVES.format('Shop')}"),
    (SHOP_TEXT % ("5", "null", PLAIN_UNIT), "JSON", 0, f"'times' of the text is 5; {GIVES.format('Shop')}"),
    (SHOP_TEXT % ("[[1]]", "[[1]]", PLAIN_UNIT), "JSON", 0,
     "'job_names' of the text has something that is neither text nor a whole number"),
    (SHOP_TEXT % ("[[1]]", "[1, 2]", PLAIN_UNIT), "COUNT", 0, "the table has 1 job, and job_names has 2 names"),
    (SHOP_TEXT % ("[[1]]", "null", "{}"), "JSON", 0, f"'unit' of the text is {{}}; {GIVES.format('Shop')}"),
    (SHOP_TEXT % ("[[1]]", "null", PLAIN_UNIT.replace("1", "3")), "JSON", 0, "'unit' of the text is {'scale': 3"),
    (SHOP_TEXT % ("[[1, null]]", "null", PLAIN_UNIT), "TIME", (1, 2), "the time in row 1, column 2 is missing (None)"),
]
CERTIFICATE = '{"lower": 11, "upper": 13, "sequence": [2, 1, 3], "names": [2, 1, 3], "text": %s}'
WRONG_CERTIFICATES = [
    ("", "JSON", 1, "line 1 of the text is no JSON: Expecting value"),
    (CERTIFICATE % 5, "JSON", 0, f"'text' of the text is 5; {GIVES.format('Certificate')}"),
    ((CERTIFICATE % '""').replace("11", "true"), "JSON", 0,
     f"'lower' of the text is True; {GIVES.format('Certificate')}"),
    ((CERTIFICATE % '""').replace("e\": [2", "e\": [2.5"), "JSON", 0,
     "'sequence' of the text has something that is no whole number"),
    ((CERTIFICATE % '""').replace("13", "0"), "JSON", 0, "the text has the bounds 11 to 0, between which no makespan"),
    ((CERTIFICATE % '""').replace("11", "-1"), "JSON", 0, "the text has the bounds -1 to 13, between which no makesp"),
]


def test_json():
    """Shops and certificates as JSON, and texts that are none."""
    named = {"job_names": ["Shelf", 7, "<T>"], "machine_names": ["Cut", "Wëld", "Paint"]}
    shops = [SHOP, Shop.from_jobs(ROWS, **named), Shop.from_jobs(ROWS, scale=100)]
    for shop in shops:
        again = Shop.from_json(shop.to_json())
        equal(f"{shop} from JSON", (again, again.scale, again.job_names), (shop, shop.scale, shop.job_names))
    equal("a shop as a dict", json.loads(shops[1].to_json()), {
        "times": [[4, 0, 0], [0, 8, 2], [4, 0, 1]], **named, "unit": json.loads(PLAIN_UNIT)
    })
    text = SHOP_TEXT % ("[[4, 0, 0], [0, 8, 2], [4, 0, 1]]", "null", PLAIN_UNIT)
    for given in (text, text.encode(), bytearray(text.encode())):
        equal(f"a shop of {type(given).__name__}", Shop.from_json(given), SHOP)
    text = CERTIFICATE % json.dumps(BOUNDS.decode())
    equal("a certificate from JSON", flowshop.Certificate.from_json(text), SHOP.check(BOUNDS))
    equal("one as JSON", json.loads(SHOP.check(BOUNDS).to_json()), json.loads(text))
    for rows, call, error in ((WRONG_SHOPS, Shop.from_json, "NotAShop"),
                              (WRONG_CERTIFICATES, flowshop.Certificate.from_json, "NotLawful")):
        for given, name, place, sentence in rows:
            got = refused(lambda given=given: call(given))
            equal(f"JSON: {given}", (*got[:3], got[3][: len(sentence)]), (error, name, place, sentence))


class Axes:
    """What a chart is drawn in, which keeps what is drawn."""

    def __init__(self):
        self.drawn = []

    def __getattr__(self, name):
        return lambda *words, **more: self.drawn.append((name, *words, *more.values()))


def test_plots():
    """The bars of a chart, and what is said where there is no package for it."""
    wanted = [
        ([(0.0, 4.0)], (-0.4, 0.8), ["C1"]),
        ([(0.0, 8.0), (8.0, 2.0)], (0.6, 0.8), ["C0", "C2"]),
        ([(8.0, 4.0), (12.0, 1.0)], (1.6, 0.8), ["C1", "C2"]),
    ]
    for scale in (1, 10):
        shop = Shop.from_jobs(ROWS, scale=scale, machine_names=["Cut", "$1", "Paint"])
        ax = Axes()
        equal("what a plot gives", shop.schedule([2, 1, 3]).plot(ax) is ax, True)
        got = [(words[1], words[2], words[3]) for words in ax.drawn if words[0] == "broken_barh"]
        equal(f"the bars with scale {scale}", got, wanted)
        said = dict(words[:2] for words in ax.drawn if words[0] in ("set_title", "set_yticklabels"))
        equal("its words", said, {"set_title": "makespan 13", "set_yticklabels": ["Cut", "\\$1", "Paint"]})
    for what, call in (("a start", SHOP.neh), ("a certificate", lambda: SHOP.check(BOUNDS))):
        ax = Axes()
        call().plot(ax)
        equal(f"the title of {what}", ("set_title", "makespan 13") in ax.drawn, True)
        lost = pickle.loads(pickle.dumps(call()))
        sentence = "this result came without its shop: shop.schedule(..).plot() draws its sequence"
        equal(f"{what} from elsewhere", refused(lambda: lost.plot(Axes())), ("FlowshopError", "SHOP", 0, sentence))
    hidden = {"matplotlib": None, "matplotlib.pyplot": None, "pandas": None}
    with mock.patch.dict(sys.modules, hidden):
        for call, package in ((SHOP.neh().plot, "matplotlib"), (SHOP.schedule([1, 2, 3]).to_frame, "pandas")):
            try:
                said = call()
            except ImportError as error:
                said = str(error)
            equal(f"where there is no {package}", f"python3 -m pip install {package} installs it" in said, True)


def test_help():
    """The page of help of the package is an overview with each public name and all errors; that of a class has all that
    is public, and nothing that Python gives to every text and every error."""
    page, pages = pydoc.plain(pydoc.render_doc(flowshop)), ""
    equal("what help leaves out", [name for name in PUBLIC if not re.search(rf"\b{name}\b", page)], [])
    equal("that help is short", page.count("\n") < 400, True)
    overview = page.partition("PACKAGE CONTENTS")[0]
    got = overview.count("\n") < 40, "help(flowshop.Shop)" in overview
    equal("that it begins with an overview", got, (True, True))
    for kind in (getattr(flowshop, name) for name in PUBLIC):
        pages += (own := pydoc.plain(pydoc.render_doc(kind)))
        wanted = [name for name in vars(kind) if name[0] != "_"] if isinstance(kind, type) else []
        equal(f"what help of {kind.__name__} leaves out", [name for name in wanted if name not in own], [])
    too_much = [name for name in ("casefold", "with_traceback", "zfill") if name in page + pages]
    equal("what help has too much", too_much, [])
    equal("that objects have all names", {"casefold", "save"} <= set(dir(SHOP.gantt([1, 2, 3]))), True)
    texts = [re.sub(r"[\s|]+", " ", page + pages), *said_texts()]
    named = [found for text in texts for found in re.findall(r"(?:docs|examples|library)/[\w.]+.{0,13}", text)]
    equal("files that no wheel has", [each for each in named if not each.endswith(" in the clone")], [])


def said_texts():
    """The texts in the code of the package, but for those that describe it."""
    for path in pathlib.Path(flowshop.__file__).parent.glob("*.py"):
        nodes = list(ast.walk(ast.parse(path.read_text())))
        describe = {id(node.value) for node in nodes if isinstance(node, ast.Expr)}
        texts = [node for node in nodes if isinstance(node, ast.Constant) and isinstance(node.value, str)]
        yield from (node.value for node in texts if id(node) not in describe)


def in_one_call(shop, lists, number, budget):
    """What one call comes to: the kind, the directions, and the nodes that are left or the sequence."""
    rooms = _parts.Rooms(_parts.Instance(*shop._parts[:3]), budget)
    kind = rooms.search(*lists, number)
    rest = [node for part in _parts.parts_of(rooms.rest()) for node in part.nodes()] if kind == _parts.OVER else []
    return kind, rooms.directions(), rest, rooms.reached() if kind == _parts.BELOW else b""


def test_pieces():
    """A search in pieces comes to what one call comes to, whatever their size is, and whether directions are kept."""
    draw = random.Random(5)
    kinds = set()
    for _ in range(60):
        shop = Shop.generate(draw.randint(4, 9), draw.randint(2, 6), draw.randint(1, 10**6))
        number = shop.neh().value - draw.randint(-1, 12)
        front = array.array("H", draw.sample(range(1, 5), draw.choice([0, 0, 1, 2]))).tobytes()
        for budget in (0, 1, 7, 50, 10_000):
            wanted = in_one_call(shop, (front, b""), number, budget)
            for has_signs in (True, False):
                parts = [_parts.PackedPart(front, b"", 0, b"")]
                pieces = _parts.Pieces(_parts.Instance(*shop._parts[:3]), parts, number, budget, has_signs)
                pieces._piece = draw.choice([1, 2, 3, 10, 1000])
                pieces.search(lambda: None)
                kind, count, parts, sequence, makespan, directions = pieces.found()
                nodes = [node for part in parts for node in part.nodes()] if kind == _parts.OVER else []
                equal(f"{shop} below {number} with {budget}", (kind, count, nodes, sequence),
                      (wanted[0], len(wanted[1]), *wanted[2:]))
                equal("its directions", directions, wanted[1] if has_signs else b"")
                value = shop.makespan(array.array("H", sequence)) if kind == _parts.BELOW else 0
                equal("the makespan of a sequence below a number", makespan, value)
                kinds.add((kind, has_signs))
    # One that is stopped after some pieces has the first directions of the whole one, and the rest in its parts.
    shop, lists = Shop.generate(9, 6, 7), (b"", b"")
    whole = in_one_call(shop, lists, shop.certify().value, 10_000)
    for most, has_signs in [(most, has_signs) for most in range(1, 12) for has_signs in (True, False)]:
        ends = iter([False] * (most - 1) + [True])
        parts = [_parts.PackedPart(*lists, 0, b"")]
        pieces = _parts.Pieces(_parts.Instance(*shop._parts[:3]), parts, shop.certify().value, 10_000, has_signs)
        pieces._piece = 3
        pieces.search(lambda: next(ends))
        kind, written, parts, _, _, directions = pieces.found()
        nodes = [node for part in parts for node in part.nodes()]
        rest = b"".join(in_one_call(shop, node, shop.certify().value, 10_000)[1] for node in nodes)
        equal(f"a search that is stopped after {most} pieces", kind, _parts.OVER)
        equal("that it has begun", 0 < written <= 3 * most, True)
        wanted = whole[1][:written] if has_signs else b""
        equal("its directions and those of its parts", (directions, whole[1][written:]), (wanted, rest))
    wanted = {(kind, has_signs) for kind in (_parts.PROVED, _parts.BELOW, _parts.OVER) for has_signs in (True, False)}
    equal("the kinds of results", kinds, wanted)


def test_time_limits():
    """Calls with a time limit end in time, and give what is known then."""
    hard = Shop.generate(20, 20, 1)
    neh = hard.neh()
    began = time.monotonic()
    over = hard.prove(neh.value - 50, budget=100_000_000, time_limit=0)
    released = threading.Event()
    waits = mock.Mock(side_effect=lambda *_: (released.wait(), _library.Outcome(1, 0))[1])
    with mock.patch.dict(_library._CALLS, solve=waits):
        solved = hard.solve(time_limit=0.1)
    released.set()
    improved = hard.improve(time_limit=0)
    equal("that calls end in time", time.monotonic() - began < 60, True)
    equal("a search that has not ended", type(over), flowshop.Over)
    got = solved.optimal, solved.lower, solved.value, solved.sequence
    equal("a solve that has not ended", got, (False, hard.bound(), neh.value, neh.sequence))
    equal("that it is lawful", hard.check(solved.text), solved)
    equal("an improvement", neh.value >= improved.value == hard.makespan(improved), True)
    # A search that is stopped, and then made of its parts, gives the directions of the whole one.
    shop = Shop.generate(15, 20, 5)
    whole, begun = shop.prove(1826), shop.prove(1826, time_limit=0.01)
    nodes = [node for part in begun.parts for node in part.nodes()] if isinstance(begun, flowshop.Over) else []
    rest = [shop.prove(1826, front=front, back=back).directions for front, back in nodes]
    equal("a search and its parts", begun.directions + b"".join(rest), whole.directions)
    for call in (SHOP.solve, SHOP.improve, SHOP.certify, lambda **more: SHOP.prove(13, **more)):
        equal("a call that ends before its limit", call(time_limit=60).value, 12)
        for limit in (-1, float("nan"), "1", True):
            sentence = f"time_limit is {limit!r}, and has to be a number of seconds from 0 on, or None"
            got = refused(lambda call=call, limit=limit: call(time_limit=limit))
            equal(f"the time limit {limit!r}", got, ("OptionError", "TIME_LIMIT", 0, sentence))
    for token in (0, "1", object()):
        got = refused(lambda token=token: SHOP.certify(token=token))
        equal(f"the token {token!r}", got[:2], ("OptionError", "TOKEN"))
    for front, error in (([4], "JOB"), ([1, 1], "TWICE")):
        got = refused(lambda front=front: SHOP.prove(12, front=front, time_limit=9))
        equal(f"the node {front} in time", got[:2], ("NotASequence", error))


def test_workers():
    """-1 and None stand for all processors."""
    processors = len(os.sched_getaffinity(0))
    for count in (-1, None):
        equal(f"all processors, {count}", _options.workers_of(count), (None, processors))
        equal(f"a certificate by all processors, {count}", SHOP.certify(workers=count), SHOP.certify())
    for count, shown in [(0, "0"), (-2, "-2"), (10_001, "10,001"), (1.5, "1.5"), ("2", "'2'")]:
        got = refused(lambda count=count: SHOP.certify(workers=count))
        sentence = f"workers is {shown}, and has to be a whole number from 1 to 10,000, or -1 for one of each processor"
        sentence += ", or an executor, as a ProcessPoolExecutor"
        equal(f"{shown} workers", got, ("OptionError", "WORKERS", 0, sentence))
    with new_folder() as folder:
        Shop.generate(3, 3, 1).write(folder / "shop.txt")
        run = command("certify", folder / "shop.txt", "--out", folder, "--workers", "-1")
        equal("a command by all processors", (run.returncode, run.stdout.count("\n")), (0, 3))


def test_lost():
    """Where the function that is told how far a search has come raises, or the executor, the error has the best
    result."""
    hard, few = Shop.generate(20, 20, 1), {"work": 10, "directions": 1_000_000}

    class Enough(Exception):
        """What is raised."""

    def raises(_):
        raise Enough

    class Bare(Exception):
        """One that takes no attribute."""

        def __setattr__(self, name, value):
            raise AttributeError(name)

    def raises_bare(_):
        raise Bare

    class Raises:
        """An executor that was shut down."""

        def submit(self, *_):
            """Begins no call."""
            raise Enough

    for what, error, more in [
        ("progress", Enough, {"progress": raises}),
        ("progress of threads", Enough, {"progress": raises, "workers": 2}),
        ("an executor", Enough, {"workers": Raises()}),
        ("an error that takes nothing", Bare, {"progress": raises_bare}),
    ]:
        try:
            got = hard.certify(**few, **more)
        except error as kept:
            got = kept
        equal(f"the error of {what}", type(got), error)
        if error is Enough:
            found = getattr(got, "result", None)
            equal(f"the result of {what}", (type(found), hard.check(found)), (flowshop.Certificate, found))


# Files of a sequence: the numbers of its jobs; or the refusal, in which a star is the name of the file.
ORDERS = "that of a certificate, such as 'flowshop two-ended 1', or the line 'sequence 3 1 2 ..', or the numbers of "
ORDERS += "the jobs alone, as '3 1 2 ..'"
FROM_0 = "add 1 to each if they are counted from 0"
ONCE = "each job stands in it once"
FILES = [
    (b"3 1 2\n", [3, 1, 2]),
    (b"3 1 2", [3, 1, 2]),
    (b" 3\t01, 2 \r\n\n", [3, 1, 2]),
    (b"3\n1\n2\n", [3, 1, 2]),
    (b"sequence 3 1 2\n", [3, 1, 2]),
    (b"sequence 3 1 2\nmakespan 12\n", [3, 1, 2]),
    (LEAST, [3, 1, 2]),
    (BOUNDS, [2, 1, 3]),
    (b"3 1\n", ("NotASequence", "LENGTH", 0, f"*: the sequence has 2 jobs, and the shop has 3; {ONCE}")),
    (b"3 1 1\n",
     ("NotASequence", "TWICE", 3, f"*: job 1 stands at place 2 of the sequence, and again at place 3; {ONCE}")),
    (b"3 1 0\n", ("NotASequence", "JOB", 3, f"*: place 3 of the sequence is 0, and the jobs are 1 to 3; {FROM_0}")),
    (b"3 1 " + b"9" * 5000, ("NotASequence", "JOB", 3, "*: place 3 of the sequence is 999,999,999,999, and the jobs")),
    (b"3 1 99999\n", ("NotASequence", "JOB", 3, "*: place 3 of the sequence is 99,999, and the jobs are 1 to 3")),
    (b"", ("TextError", "SEQUENCE", 1, f"*: line 1 is missing, and has to be {ORDERS}")),
    (b"Door Shelf\n", ("TextError", "SEQUENCE", 1, f"*: line 1 is 'Door Shelf', and has to be {ORDERS}")),
    (b"\n3;1;2\n", ("TextError", "SEQUENCE", 2, f"*: line 2 is '3;1;2', and has to be {ORDERS}")),
    (b"3 1 -2\n", ("TextError", "SEQUENCE", 1, f"*: line 1 is '3 1 -2', and has to be {ORDERS}")),
    (b"sequence 3 1 2\nmakespan 11\n",
     ("TextError", "NOT_ATTAINED", 2, "*: line 2 says that the makespan is 11, and that of these jobs is 12")),
    (b"sequence 3 1 2\nmakespan\n",
     ("TextError", "SEQUENCE", 2, "*: line 2 is 'makespan', and has to be the word makespan and a number")),
    (LEAST.replace(b"12 12", b"11 11"),
     ("NotLawful", "NOT_ATTAINED", 4, "*: line 4 is '3 1 2', a sequence of another makespan than line 3 says")),
]


def test_files():
    """The file of a sequence in the place of it, in calls and in the command certify."""
    more = ["--width", "0", "--rounds", "0", "--work", "0", "--directions", "1"]
    with new_folder() as folder:
        SHOP.write(folder / "shop.txt")
        path = folder / "order"
        for text, wanted in FILES:
            path.write_bytes(text)
            run = command("certify", "shop.txt", "--start", "order", "--out", "out", *more, cwd=folder)
            if isinstance(wanted, list):
                calls = SHOP.schedule, SHOP.solve, SHOP.improve, SHOP.certify
                got = [call(path).value <= SHOP.makespan(wanted) for call in calls]
                got += [SHOP.makespan(path), SHOP.schedule(path).sequence, run.returncode]
                equal(f"the file {text}", got, [True] * 4 + [SHOP.makespan(wanted), tuple(wanted), 0])
                continue
            error, name, place, sentence = wanted
            got = refused(lambda: SHOP.certify(path))
            said = sentence.replace("*", str(path))
            equal(f"the file {text}", (*got[:3], got[3][: len(said)]), (error, name, place, said))
            said = f"flowshop: {sentence.replace('*', 'order')}"
            equal(f"a command with {text}", (run.returncode, run.stderr[: len(said)]), (1, said))
        equal("a file that is not there", refused(lambda: SHOP.makespan(folder / "none")), FileNotFoundError)
        for words, status, said in [
            ([BLOCKS, "--start", "order"], 2, "--start is for one block, and there are 3; --starts is for several"),
            (["shop.txt", "--start", "none"], 3, "[Errno 2] No such file or directory: 'none'"),
        ]:
            run = command("certify", *words, cwd=folder)
            equal(f"the command with {words}", (run.returncode, run.stderr), (status, f"flowshop: {said}\n"))
        # So few directions and no work leave the start as it is.
        shop, order = Shop.generate(20, 5, 7), range(20, 0, -1)
        shop.write(folder / "drawn.txt")
        path.write_text(" ".join(map(str, order)))
        run = command("certify", "drawn.txt", "--start", "order", "--out", "out", *more, cwd=folder)
        value = makespan(of_rows(list(zip(*shop.times))), order)
        equal("the makespan of a start", run.stdout.splitlines()[-2].split()[5], str(value))
    sentence = "a sequence is a list of job numbers, and this is 'order.txt'; the file of a sequence is named by "
    got = refused(lambda: SHOP.certify("order.txt"))
    equal("the name of a file", got, ("NotASequence", "JOB", 0, f"{sentence}pathlib.Path"))


# No search makes anything of a start with so little.
NO_WORK = ["--width", "0", "--rounds", "0", "--work", "0", "--directions", "1"]
COLUMNS = "file block seed jobs machines lower upper gap optimal kind directions sequence cpu_seconds seconds sha256"
ODD_NAME = r"[50%] _a&b#{1}$~^\<|>*''--.txt"
# How a sign of a name is written for LaTeX, as books on it have it.
OF_LATEX = {
    **{f"\\{sign}": sign for sign in "&%$#_{}"}, r"\textbackslash{}": "\\", r"\textasciitilde{}": "~",
    r"\textasciicircum{}": "^", r"\textless{}": "<", r"\textgreater{}": ">", r"\textbar{}": "|", "{[}": "[", "{*}": "*",
    r"\/": "", "$-$": "-",
}


def rows_of_latex(text):
    """The rows of a tabular, with as many cells in each as it has columns."""
    comment, begin, *lines, end, rest = text.split("\n")
    columns = re.fullmatch(r"\\begin\{tabular\}\{([lr]+)\}", begin)[1]
    rules, rows = [line for line in lines if line == r"\hline"], [line for line in lines if line != r"\hline"]
    got = comment[:2], end, rest, len(rules)
    equal("how a table for LaTeX begins and ends", got, ("% ", r"\end{tabular}", "", 4))
    equal("how rows end", {line[-3:] for line in rows}, {r" \\"})
    signs = "|".join(map(re.escape, OF_LATEX))
    cells = [re.split(r" (?<!\\)& ", line[:-3]) for line in rows]
    left = {re.sub(signs, "", cell) for row in cells for cell in row}
    own = re.compile(r"[&%$#_{}~^\\<>|]|^[\[*]")
    equal("signs that LaTeX reads as its own", [cell for cell in left if own.search(cell)], [])
    joined = re.compile(r"--|''|``|,,|[?!]`|^-")  # they become a dash, or a sign of another kind
    equal("signs that LaTeX joins", [cell for row in cells for cell in row if joined.search(cell)], [])
    equal("how many cells rows have", {len(row) for row in cells}, {len(columns)})
    return [[re.sub(signs, lambda found: OF_LATEX[found[0]], cell) for cell in row] for row in cells]


def row_wanted(path, text, block, number, seed):
    """The row of a certificate, as it stands there, without its times."""
    lower, upper = map(int, text.split("\n")[2].split())
    gap = f"{fractions.Fraction(100 * (upper - lower), upper).__float__():.3f}"
    sizes = [len(block[0]), len(block)]
    return [path, number, seed, *sizes, lower, upper, gap, lower == upper, "two-ended 1", len(text.split("\n")[4])]


def sums_of_times(rows):
    """The sums of the times that rows of CSV show."""
    return [f"{float(sum(map(fractions.Fraction, times))):.3f}" for times in list(zip(*rows))[12:14]]


def test_sums():
    """Sums are those of the times that are shown. Where one is not known, as of an earlier run, its sum is not."""
    with new_folder(is_here=True) as folder, mock.patch.object(_meter.Meter, "seconds", return_value=0.0004):
        SHOP.write(folder / "one")
        (folder / "three").write_text((folder / "one").read_text() * 3)
        for blocks, times, wanted in [("2-3", ["0.000"] * 2, "0.000"), ("all", ["0.000", "-", "-"], "-")]:
            run = called(main, "certify", "three", "--blocks", blocks, *NO_WORK, "--latex", "table")
            *rows, last = [line.split() for line in run[1].splitlines()[1:]]
            equal(f"the times of the blocks {blocks}", ([row[9] for row in rows], last[4]), (times, wanted))
            sums = rows_of_latex((folder / "table").read_text())[-1]
            equal("the sum for LaTeX", sums[11], wanted.strip("-"))


def test_tables():
    """The table of certificates in each form: each row is what the certificate says, and the sums are those of rows."""
    with new_folder(is_here=True) as folder:
        blocks = [[[4, 0, 0], [0, 8, 2], [4, 0, 1]], Shop.generate(20, 20, 479340445).times, [[1, 2]]]
        texts = []
        for seed, block in enumerate(blocks, 7):
            Shop.from_machines(block).write(folder / "one", seed=seed)
            texts.append((folder / "one").read_text())
        (folder / ODD_NAME).write_text("".join(texts))
        run = called(main, "certify", ODD_NAME, "--out", "out", *NO_WORK, "--csv", "a", "--json", "b", "--latex", "c")
        equal("the status", run[0], 0)
        found = [(folder / "out" / f"{ODD_NAME}.{number}.certificate").read_text() for number in (1, 2, 3)]
        wanted = [row_wanted(ODD_NAME, *each, number, number + 6) for number, each in enumerate(zip(found, blocks), 1)]
        sequences = [text.split("\n")[3] for text in found]
        with open(folder / "a", newline="") as file:
            head, *rows = csv.reader(file)
        equal("the columns", head, COLUMNS.split())
        plain = [[str(cell).lower() if isinstance(cell, bool) else str(cell) for cell in row] for row in wanted]
        equal("the rows as CSV", [row[:12] for row in rows], [[*row, jobs] for row, jobs in zip(plain, sequences)])
        times = [time for row in rows for time in row[12:14]]
        equal("the form of times", [time for time in times if not re.fullmatch(r"\d+\.\d{3}", time)], [])
        of_json = [list(row.values()) for row in json.loads((folder / "b").read_text())]
        numbers = [[*row[:7], float(row[7]), *row[8:]] for row in wanted]
        equal("the rows as JSON", [row[:11] for row in of_json], numbers)
        equal("the sequences as JSON", [row[11] for row in of_json], [[*map(int, jobs.split())] for jobs in sequences])
        first, *lines, last = rows_of_latex((folder / "c").read_text())
        equal("the columns for LaTeX", first, [name for name in COLUMNS.split() if name not in ("sequence", "sha256")])
        equal("the rows for LaTeX", [line[:11] for line in lines], plain)
        proved = sum(row[8] for row in wanted)
        equal("that some is proved, and some is not", 0 < proved < 3, True)
        sums = ["sum", "3", *[""] * 6, str(proved), "", str(sum(row[10] for row in wanted))]
        equal("the sums", last, [*sums, *sums_of_times(rows)])
        wanted = ["sum", "3", str(proved), sums[-1], *sums_of_times(rows)]
        equal("the sums that are printed", run[1].splitlines()[-1].split(), wanted)
        for words, said in [
            (["--latex", "one"], "--latex is one, a file that is no table of this command"),
            (["--csv", "n", "--latex", "./n"], "--latex and --csv are one file, ./n; give each a file of its own"),
        ]:
            run = called(main, "certify", ODD_NAME, "--out", "out", *words)
            equal(f"the command with {words}", (run[0], said in run[2]), (2, True))


def test_meter():
    """The time of the processor that a search takes: of threads that have ended or go on, and of workers."""
    meter, begun, goes_on = _meter.Meter(), threading.Event(), threading.Event()

    def work():
        ends = time.thread_time() + 0.2
        while time.thread_time() < ends:
            pass
        begun.set()
        goes_on.wait(20)
        return 7

    results = []
    thread = threading.Thread(target=lambda: results.append(meter.measured(work)))
    thread.start()
    begun.wait(20)
    got = [meter.seconds()]
    goes_on.set()
    thread.join()
    meter.add(5)
    got.append(meter.seconds() - 5)
    equal("what a call gives", results, [7])
    equal(f"the time of a thread: {got}", [0.19 < seconds < 0.3 for seconds in got], [True, True])
    with new_folder() as folder:
        Shop.generate(20, 10, 587595453).write(folder / "shop")
        for executor in ("threads", "processes"):
            before = resource.getrusage(resource.RUSAGE_CHILDREN)
            words = ["--work", "500", "--executor", executor, "--csv", executor, "--out", f"of {executor}"]
            run = command("certify", "shop", *words, "--workers", "2", cwd=folder)
            after = resource.getrusage(resource.RUSAGE_CHILDREN)
            used = after.ru_utime + after.ru_stime - before.ru_utime - before.ru_stime
            with open(folder / executor, newline="") as file:
                (row,) = csv.DictReader(file)
            cpu = float(row["cpu_seconds"])
            got = run.returncode, 0.1 < cpu < used, used < cpu + 1
            equal(f"the time by {executor}: {cpu}, {used}", got, (0, True, True))


# Starts of three blocks, with what is said of them: the status, and how it begins.
ONE_EACH = "for 3 blocks; give a line for each block\n"
STARTS = [
    ("1 2\n", 2, f"--starts is order, which has 1 sequence {ONE_EACH}"),
    ("1 2 3\n" * 4, 2, f"--starts is order, which has 4 sequences {ONE_EACH}"),
    ("", 2, f"--starts is order, which has 0 sequences {ONE_EACH}"),
    ("1 2 3\n\n2 1 9\n3 2 1", 1, "order, line 3: place 3 of the sequence is 9, and the jobs are 1 to 3\n"),
    ("1 2 3\n2 1\n3 2 1", 1, "order, line 2: the sequence has 2 jobs, and the shop has 3; each job stands in it"),
    ("1 2 3\n3;2;1\n3 2 1", 1, "order: line 2 is '3;2;1', and has to be that of a certificate, such as"),
    ("1 2 3\nmakespan 14\n2 1 3\n3 2 1", 1, "order: line 1 is '1 2 3', and has to be that of a certificate, such as "
     "'flowshop two-ended 1', or the line 'sequence 1 2 3', since words follow\n"),
    ("sequence 2 1 3\nmakespan 13\n1 2 3\nsequence 3 1 2\n\nmakespan 11", 1,
     "order: line 6 says that the makespan is 11, and that of these jobs is 12\n"),
]


def start_from_column(lines, spans):
    """The sequences that a table has of the certificates of three shops are starts, as they stand there."""
    called(main, "certify", "shops", "--out", "all", *NO_WORK, "--csv", "table")
    with open("table", newline="") as file, open("column", "w") as starts:
        column = [row["sequence"] for row in csv.DictReader(file)]
        starts.write("\n".join(column))
    run = called(main, "certify", "shops", "--starts", "column", "--out", "again", *NO_WORK)
    got = [line.split()[5] for line in run[1].splitlines()[1:-1]]
    equal("the starts of a column", (column, got), (lines, [*map(str, spans)]))


def test_starts():
    """Starts of several blocks, in one file or in a folder: the makespan of each start stays where there is no work."""
    with new_folder(is_here=True) as folder:
        shops = [Shop.generate(9, 4, seed) for seed in (1, 2, 3)]
        for name, blocks in (("shops", shops), ("three", [SHOP] * 3)):
            for shop in blocks:
                shop.write(folder / "one")
                with open(folder / name, "a") as file:
                    file.write((folder / "one").read_text())
        orders = [[9, 8, 7, 6, 5, 4, 3, 2, 1], [1, 2, 3, 4, 5, 6, 7, 8, 9], [5, 4, 3, 2, 1, 9, 8, 7, 6]]
        spans = [makespan(of_rows(list(zip(*shop.times))), order) for shop, order in zip(shops, orders)]
        lines = [" ".join(map(str, order)) for order in orders]
        text = [lines[0], "", f"sequence {lines[1]}", f"makespan {spans[1]}", lines[2].replace(" ", ",")]
        (folder / "order").write_text("\n".join(text))
        for starts, words, wanted in [
            ("order", [], spans), ("all", [], spans), ("all", ["--blocks", "3,1"], [spans[2], spans[0]]),
        ]:
            run = called(main, "certify", "shops", "--starts", starts, "--out", "all", *words, *NO_WORK)
            got = [line.split()[5] for line in run[1].splitlines()[1:-1]]
            equal(f"the starts of {starts} with {words}", (run[0], got), (0, [*map(str, wanted)]))
        start_from_column(lines, spans)
        shutil.copytree(folder / "all", folder / "some")
        (folder / "some" / "shops.2.certificate").write_text(lines[0])
        (folder / "some" / "shops.3.certificate").unlink()
        run = called(main, "certify", "shops", "--starts", "some", "--out", "new", "--blocks", "2", *NO_WORK)
        value = makespan(of_rows(list(zip(*shops[1].times))), orders[0])
        equal("a start among certificates", run[1].splitlines()[1].split()[5], str(value))
        said = "--starts is some, which has no file shops.3.certificate for block 3 of shops; --blocks names those"
        run = called(main, "certify", "shops", "--starts", "some")
        equal("a block without a start", (run[0], run[2].startswith(f"flowshop: {said}")), (2, True))
        for text, status, said in STARTS:
            (folder / "order").write_text(text)
            run = called(main, "certify", "three", "--starts", "order")
            equal(f"the starts {text!r}", (run[0], run[2][: len(said) + 10]), (status, f"flowshop: {said}"))
        equal("that no certificate is written", (folder / "three.1.certificate").exists(), False)


# Sequences of the shop of three jobs, the words, and the rows: makespan, lower, upper, gap and deviation. The gap is
# (makespan - lower) / makespan, the deviation (makespan - upper) / upper.
GAPS = [
    ("2 1 3\n3 1 2\n", "stated", [], ["13 9 13 30.769 0.000", "12 9 13 25.000 -7.692"], "27.885 -3.846"),
    ("2 1 3\n3,1,2\n", "stated", ["--certificates", "."],
     ["13 12 12 7.692 8.333", "12 12 12 0.000 0.000"], "3.846 4.167"),
    ("sequence 2 1 3\nmakespan 13\n", "plain", [], ["13 - - - -"], "- -"),
    ("3 1 2\n", "wrong", [], ["12 13 13 -8.333 -7.692"], "-8.333 -7.692"),
    ("3 1 2\n2 1 3\n", "two", ["--blocks", "2-3"], ["12 9 13 25.000 -7.692", "13 - - - -"], "25.000 -7.692"),
]


# What is said of the bounds of some.
OF_BOUNDS = {
    "plain": "block 1 states no bounds; --certificates names a folder", "two": "block 3 states no bounds;",
    "wrong": "block 1: the makespan 12 is below the lower bound 13, which the file states\n",
}


def test_gaps():
    """The command gap: makespans of given sequences beside the bounds that a file states, and those of certificates."""
    with new_folder(is_here=True) as folder:
        SHOP.write(folder / "stated", seed=5, lower=9, upper=13)
        SHOP.write(folder / "plain", lower=0, upper=0)
        SHOP.write(folder / "wrong", lower=13, upper=13)
        texts = [(folder / name).read_text() for name in ("plain", "stated", "plain")]
        (folder / "two").write_text("".join(texts))
        (folder / "stated.1.certificate").write_bytes(LEAST)
        for text, name, words, wanted, means in GAPS:
            (folder / "order").write_text(text)
            run = called(main, "gap", name, "order", *words, "--csv", "a")
            head, *lines, last = [line.split() for line in run[1].splitlines()]
            got = [" ".join(line[4:]) for line in lines], " ".join(last), head[:2], run[0]
            equal(f"the gaps of {text!r} in {name}", got, (wanted, f"mean {means}", ["file", "block"], 0))
            with open(folder / "a", newline="") as file:
                rows = list(csv.DictReader(file))
            got = [" ".join(row[key] or "-" for key in "makespan lower upper gap deviation".split()) for row in rows]
            equal("the same as CSV", got, wanted)
            said = OF_BOUNDS.get(name, "")
            equal("what is said of bounds", (run[2].startswith(said), bool(run[2])), (True, bool(said)))
        called(main, "gap", "stated", "order", "--json", "b", "--latex", "c")
        equal("a row as JSON", json.loads((folder / "b").read_text())[0], {
            "file": "stated", "block": 1, "seed": 5, "jobs": 3, "machines": 3, "makespan": 12, "lower": 9, "upper": 13,
            "gap": 25.0, "deviation": -7.692, "sequence": [3, 1, 2],
        })
        rows = rows_of_latex((folder / "c").read_text())
        equal("a row for LaTeX", rows[1], "stated 1 5 3 3 12 9 13 25.000 -7.692".split())
        (folder / "stated.1.certificate").write_bytes(LEAST.replace(b"12 12", b"11 11"))
        for words, status, said in [
            (["stated", "none"], 3, "[Errno 2] No such file or directory: 'none'"),
            (["stated", "order", "--certificates", "none"], 2, "--certificates is none, and there is no such folder"),
            (["stated", "order", "--certificates", "."], 1, "stated.1.certificate: line 4 is '3 1 2', a sequence of"),
            (["plain", "order", "--certificates", "."], 3, "[Errno 2] No such file or directory: 'plain.1.certi"),
            (["two", "order"], 2, "SEQUENCES is order, which has 2 sequences for 3 blocks; give a line for each"),
            (["stated", "order", "--csv", "order"], 2, "--csv is order, a file that is no table of this command"),
        ]:
            run = called(main, "gap", *words)
            equal(f"gap with {words}", (run[0], run[2][: len(said) + 10]), (status, f"flowshop: {said}"))


def test_gaps_of_one_block():
    """Where one block is named, and there are several sequences, a line says that all are compared with that block."""
    with new_folder(is_here=True) as folder:
        SHOP.write(folder / "one", lower=9, upper=13)
        (folder / "two").write_text((folder / "one").read_text() * 2)
        both = "block 2: all 2 sequences are compared with its bounds\n"
        for name, text, words, said in [
            ("two", "2 1 3\n3 1 2\n", ["--blocks", "2"], both), ("two", "2 1 3\n3 1 2\n", [], ""),
            ("two", "3 1 2\n", ["--blocks", "2"], ""), ("one", "2 1 3\n3 1 2\n", [], ""),
        ]:
            (folder / "order").write_text(text)
            run = called(main, "gap", name, "order", *words)
            equal(f"what is said of {text!r} for {name} with {words}", (run[0], run[2]), (0, said))


PARTS = [
    test_cells, test_scales, test_arrays, test_frames, test_names, test_sequences_by_name, test_results_as_arrays,
    test_bounds, test_json, test_plots, test_help, test_pieces, test_time_limits, test_workers, test_lost, test_files,
    test_tables, test_sums, test_meter, test_starts, test_gaps, test_gaps_of_one_block,
]

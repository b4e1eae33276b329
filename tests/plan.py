"""Tables as planners keep them, and plans of them: what is read and what is asked, times by a calendar, the change of a
day, and the files that the commands `shop` and `plan` write. Expected values are written by hand, or come from plain
code below, which has a recurrence of starts and a calendar of its own."""

import argparse
import datetime
import itertools
import json
import os
import pathlib
import random
import re
import shlex
import shutil
import subprocess
import sys
from contextlib import suppress
from decimal import Decimal
from fractions import Fraction
from unittest import mock

from counts import command, end, equal, holds, new_folder, optional, refused
from reference import makespan, of_rows, spans as spans_of

from flowshop import NotATable, Plan, Shop, read_table
from flowshop import _answers, _command_shop, _reading

openpyxl, pandas = optional("openpyxl"), optional("pandas")

# --- What is read, and what is asked ---

# The table of most rows, and times of it, job by job.
PLAIN = "Order,Cut,Weld,Paint\nShelf,4,0,4\nDoor,0,8,0\nTable,0,2,1\n"
TIMES, JOBS, MACHINES = "4 0 4/0 8 0/0 2 1", "Shelf Door Table", "Cut Weld Paint"
NAMES = JOBS, MACHINES
ZERO, DROP = "missing=zero", "totals=drop totals=keep"


def skip_or_keep(name, more=""):
    """The words for a column that may be no machine."""
    return f"skip={name} keep={name}" + (f" multiply={name}" if more else "")


# Tables that are taken at once: what it is, the table, words, the times, the names of jobs and machines, and the scale.
TAKEN = [
    ("commas", PLAIN, {}, TIMES, NAMES, 1),
    ("semicolons", PLAIN.replace(",", ";"), {}, TIMES, NAMES, 1),
    ("tabs", PLAIN.replace(",", "\t"), {}, TIMES, NAMES, 1),
    ("strokes", PLAIN.replace(",", " | "), {}, TIMES, NAMES, 1),
    ("a line that names the separator", "sep=#\r\n" + PLAIN.replace(",", "#"), {}, TIMES, NAMES, 1),
    ("a separator that is said", PLAIN.replace(",", "#"), {"separator": "#"}, TIMES, NAMES, 1),
    ("a byte order mark, CR LF and blank rows", "\ufeff" + PLAIN.replace(",", ";").replace("\n", ";\r\n\r\n;;;;\r\n"),
     {}, TIMES, NAMES, 1),
    ("line ends of CR alone", PLAIN.replace("\n", "\r"), {}, TIMES, NAMES, 1),
    ("UTF-16", PLAIN.encode("utf-16"), {}, TIMES, NAMES, 1),
    ("Western Europe", "Auftrag;Säge;Öl\nTür;4;5\nFuß;6;7\n".encode("cp1252"), {}, "4 5/6 7",
     ("Tür Fuß", "Säge Öl"), 1),
    ("quotation marks", '"Order, or part","Cut; big",Weld\n"Shelf, ""A""","4",0\n" Door ",0,8\n', {}, "4 0/0 8",
     ('Shelf,\xa0"A" Door', "Cut;\xa0big Weld"), 1),
    ("a matrix with blanks", " 4  0 4\n0 8 0\n\n0 2  1\n", {}, TIMES, None, 1),
    ("blanks between names", PLAIN.replace(",", "   "), {}, TIMES, NAMES, 1),
    ("numbers alone", "4,0,4\n0,8,0\n0,2,1\n", {}, TIMES, None, 1),
    ("one machine", "7\n9\n", {}, "7/9", None, 1),
    ("decimal commas", "Order;Saw;Drill\nShelf;3,5;7,00\nDoor;1;2,25\n", {}, "14 28/4 9",
     ("Shelf Door", "Saw Drill"), 4),
    ("a decimal that the table proves", "Order;Saw;Drill\nShelf;1,5;3,125\nDoor;1;0,25\n", {}, "12 25/8 2",
     ("Shelf Door", "Saw Drill"), 8),
    ("a decimal that a zero proves", "Order,Saw,Drill\nShelf,0.125,7\nDoor,1.250,2\n", {}, "1 56/10 16",
     ("Shelf Door", "Saw Drill"), 8),
    ("thousands that a decimal proves", 'Order;Saw;Drill\nShelf;1.234,5;7\nDoor;1 000;2\n', {}, "2469 14/2000 4",
     ("Shelf Door", "Saw Drill"), 2),
    ("a unit in the headings", "Order;Saw (min);Drill [h]\nShelf;30;1,5\nDoor;10;2\n", {}, "30 90/10 120",
     ("Shelf Door", "Saw\xa0(min) Drill\xa0[min]"), 1),
    ("a unit that holds", "Order,Saw (min),Drill [in h]\nA,30,1.5\nB,10,2\n", {"unit": "15min", "trust": "unit"},
     "60 3/20 4", ("A B", "Saw\xa0(15min) Drill\xa0[15min]"), 2),
    ("a row of units", "Order;Saw;Drill\n;min;h\nShelf;30;1\nDoor;10;2\n", {}, "30 60/10 120",
     ("Shelf Door", "Saw Drill"), 1),
    ("a blank column", "Order,Cut,,Weld\nShelf,4,,5\nDoor,6,,7\n", {}, "4 5/6 7", ("Shelf Door", "Cut Weld"), 1),
    ("two jobs of one name", "Order,Cut\nShelf,4\nDoor,5\nShelf,6\n", {}, "4/5/6", ("Shelf Door Shelf", "Cut"), 1),
    ("a list of objects", '[{"Job": "A", "Cut": 1.25, "Weld": 3}, {"Job": "B", "Weld": 2, "Cut": 4}]', {},
     "5 12/16 8", ("A B", "Cut Weld"), 4),
    ("a list of rows", '{"times": [["Job", "Cut"], ["A", 1e-3], ["B", 4]]}', {}, "1/4000", ("A B", "Cut"), 1000),
    ("times for one piece", "Order,Qty,Cut,Weld\nShelf,3,4,1\nDoor,5,2,3\n", {"multiply": "Qty"}, "12 3/10 15",
     ("Shelf Door", "Cut Weld"), 1),
    ("a name with a comma", 'Order,Qty,"Pieces, all",Cut\nA,1,3,4\nB,2,5,2\n', {"skip": 'Qty, "Pieces, all"'}, "4/2",
     ("A B", "Cut"), 1),
    ("a first row of names, by a truth value", "10,20\n4,5\n6,7\n", {"header": True, "first": "times"}, "4 5/6 7",
     (None, "10 20"), 1),
    # What is near to a doubt.
    ("numbers with three decimals", '[{"Job": "A", "Cut": 1.125}, {"Job": "B", "Cut": 2}]', {}, "9/16",
     ("A B", "Cut"), 8),
    ("names of which some are numbers", "Order,Cut\n1,4\n2,5\n3a,6\n", {}, "4/5/6", ("1 2 3a", "Cut"), 1),
    ("a matrix of two rows", "4 0\n8 5\n", {}, "4 0/8 5", None, 1),
    ("a matrix with falling numbers", "9 1\n7 2\n5 6\n", {}, "9 1/7 2/5 6", None, 1),
    ("a machine ten times the least other", "Order,P,Q,R\nA,1,5,500\nB,2,95,600\nC,9,40,700\n", {},
     "1 5 500/2 95 600/9 40 700", ("A B C", "P Q R"), 1),
    ("two equal machines", "Order,P,Q\nA,4,4\nB,5,5\nC,7,7\n", {}, "4 4/5 5/7 7", ("A B C", "P Q"), 1),
    ("one number on each machine", "Order,P,Q\nA,4,7\nB,4,7\nC,4,7\n", {}, "4 7/4 7/4 7", ("A B C", "P Q"), 1),
    ("running numbers on one machine", "Order,P\nA,1\nB,2\nC,3\nD,4\n", {}, "1/2/3/4", ("A B C D", "P"), 1),
    ("three running numbers", "Order,P,Q\nA,4,7\nB,5,1\nC,6,3\n", {}, "4 7/5 1/6 3", ("A B C", "P Q"), 1),
    ("few rows, of which half have names of jobs", "Order,P,Q,R\nJob 1,4,0,1\nX,0,8,2\n", {}, "4 0 1/0 8 2",
     ("Job\xa01 X", "P Q R"), 1),
    ("halves and fifths", "Order,Cut,Weld\nShelf,0.5,0.2\nDoor,1,2\n", {}, "5 2/10 20", ("Shelf Door", "Cut Weld"), 10),
    ("thousands that are said", "Order,Cut,Weld\nShelf,1.250,7\nDoor,3,4\n", {"decimal": "comma"}, "1250 7/3 4",
     ("Shelf Door", "Cut Weld"), 1),
]
# Tables that are not: what it is, the table, words, and each remark, with its row, its column, what stands there, and
# the words of which one settles it, of which there are none for a mistake; then what the first words of each make of
# the table, or None where something has to be changed in it. The first eight met a planner.
ASKED = [
    ("a title, a quantity and totals", "\ufeffOrders of week 48;;;\r\n\r\nAuftrag;Menge;Saw;Drill\r\nA;5;3;7\r\n"
     "B;6;1;2\r\nSumme;11;4;9\r\n", {},
     [(0, 2, "Menge", skip_or_keep("Menge", "m")), (1, 0, "Orders of week 48", "begin=3"), (6, 0, "Summe", DROP)],
     ("3 7/1 2", ("A B", "Saw Drill"), 1)),
    ("a decimal beside a thousand", "Order;Saw;Drill\nShelf;1,5;3.125\nDoor;1;2\n", {},
     [(2, 3, "3.125", "decimal=comma")], ("3 6250/2 4", ("Shelf Door", "Saw Drill"), 2)),
    ("columns of when jobs are ready", "Job,Ready,Earliest,Cut,Weld\nA,0,3,4,5\nB,2,4,6,7\n", {},
     [(0, 2, "Ready", skip_or_keep("Ready")), (0, 3, "Earliest", skip_or_keep("Earliest"))],
     ("4 5/6 7", ("A B", "Cut Weld"), 1)),
    ("columns of lots and of a limit", "Auftrag;Los;Frist;Säge;Öl\nA;10;3;4;5\nB;20;4;6;7\n", {},
     [(0, 2, "Los", skip_or_keep("Los", "m")), (0, 3, "Frist", skip_or_keep("Frist"))],
     ("4 5/6 7", ("A B", "Säge Öl"), 1)),
    ("columns of dates and of an order",
     "Auftrag;Säge;Öl;Wunschtermin;Reihenfolge\nA;4;5;1.12.2026;1\nB;6;7;24.12.2026;2\n", {},
     [(0, 4, "Wunschtermin", "skip=Wunschtermin"), (0, 5, "Reihenfolge", skip_or_keep("Reihenfolge"))],
     ("4 5/6 7", ("A B", "Säge Öl"), 1)),
    ("a matrix with a hole", "4 0 4\n0 8 -\n0 2 1\n", {}, [(2, 3, "-", ZERO)], (TIMES, None, 1)),
    ("JSON with a hole", '[{"Job": "A", "Cut": 1}, {"Job": "B", "Cut": null}, {"Job": "C", "Cut": 5}]', {},
     [(3, 0, "B", "skip=B")], ("1/5", ("A C", "Cut"), 1)),
    ("a unit against that of the headings", "Job,Saw [h],Drill [h]\nA,1,2\nB,3,1\n", {"unit": "1min"},
     [(0, 2, "Saw [h]", "trust=headings trust=unit")], ("1 2/3 1", ("A B", "Saw\xa0[h] Drill\xa0[h]"), 1)),
    # Mistakes.
    ("all that may be wrong with a time", "Order,Cut,Weld\nA,1:30,5 min\nB,-3,10%\nC,x,1/2\nD,7,2026-12-01\n", {},
     [(2, 2, "1:30", ""), (2, 3, "5 min", ""), (3, 2, "-3", ""), (3, 3, "10%", ""), (4, 2, "x", ""), (4, 3, "1/2", ""),
      (5, 3, "2026-12-01", "")], None),
    ("decimal commas between commas", "Order,Saw,Drill\nShelf,3,5,7,0\nDoor,1,0,2,25\n", {}, [(2, 4, "7", "")], None),
    ("two decimal signs", "Order;Cut;Weld\nA;1,5;2,5\nB;1.75;3\n", {}, [(3, 2, "1.75", "")], None),
    ("the names once more", f"{PLAIN}Order,Cut,Weld,Paint\nBed,1,2,3\n", {}, [(5, 0, "Order", "")], None),
    ("two machines of one name", "Order,Cut,Weld,Cut\nA,1,2,3\nB,3,2,1\n", {}, [(0, 4, "Cut", "")], None),
    ("seven decimals, and a time that is too great", "Order,Cut,Weld\nA,0.0000001,2\nB,1,1000000\n", {},
     [(2, 2, "0.0000001", ""), (3, 3, "1000000", "")], None),
    ("too great in parts of the unit", "Order,Cut,Weld\nA,0.001,2\nB,1,1000\n", {}, [(3, 3, "1000", "")], None),
    ("a job without a name", "Order,Cut,Weld\nA,1,2\n,3,5\n", {}, [(3, 0, "", "")], None),
    ("a name that is nowhere", "Order,Cut,Weld\nA,1,2\nB,3,4\n", {"skip": ["Wled"]}, [(0, 0, "", "")], None),
    ("no times", "Order,Cut,Weld\n", {}, [(0, 0, "", "")], None),
    ("27 machines", ",".join("1" * 27) + "\n", {"rows": "jobs"}, [(0, 0, "", "")], None),
    ("a quantity that is no number", "Order,Qty,Cut,Weld\nA,few,4,1\nB,5,2,3\n", {"multiply": "Qty"},
     [(2, 0, "few", "")], None),
    ("two jobs of one name, one without times", "Order,Cut\nA,1\nB,3\nA,\n", {}, [(4, 0, "A", "")], None),
    # Doubts.
    ("a title above times alone", "Plan of May\n4,5\n6,7\n", {}, [(1, 0, "Plan of May", "begin=2")],
     ("4 5/6 7", None, 1)),
    ("numbers above, and an empty corner", ",10,20\nA,4,5\nB,6,7\n", {}, [(1, 0, "", "header=yes header=no")],
     ("4 5/6 7", ("A B", "10 20"), 1)),
    ("a machine with a number", "Order,P,10\nA,1,4711\nB,5,4700\nC,2,4600\n", {},
     [(0, 3, "10", "skip=3 keep=3"), (1, 0, "Order", "header=yes header=no")], ("1/5/2", ("A B C", "P"), 1)),
    ("sums between the others", "Order,P,x,Q\nA,4,6,2\nB,1,9,8\nC,3,8,5\n", {}, [(0, 3, "x", DROP)],
     ("4 2/1 8/3 5", ("A B C", "P Q"), 1)),
    ("fewer rows than columns, without names", "4 0 4 7\n0 8 0 5\n", {}, [(0, 0, "", "rows=machines rows=jobs")],
     ("4 0/0 8/4 0/7 5", None, 1)),
    ("sums above the others", "Order,P,Q\ny,8,15\nA,4,2\nB,1,8\nC,3,5\n", {}, [(2, 0, "y", DROP)],
     ("4 2/1 8/3 5", ("A B C", "P Q"), 1)),
    ("two rows without times", "Order,Cut\nA,1\n---,\nB,3\n---,\n", {},
     [(3, 0, "---", "skip=---"), (5, 0, "---", "skip=---")],
     ("1/3", ("A B", "Cut"), 1)),
    ("a decimal or a thousand", "Order,Cut,Weld\nA,1.250,5\nB,7,2.125\n", {},
     [(2, 2, "1.250", "decimal=point decimal=comma"), (3, 3, "2.125", "decimal=point decimal=comma")],
     ("10 40/56 17", ("A B", "Cut Weld"), 8)),
    ("rows below the table", f"{PLAIN}Printed 24 Nov\n", {}, [(5, 0, "Printed 24 Nov", "skip=Printed\xa024\xa0Nov")],
     (TIMES, NAMES, 1)),
    ("a row with a comma below the table", f'{PLAIN}"Printed 24 Nov, page 1"\n', {},
     [(5, 0, "Printed 24 Nov, page 1", "skip=Printed\xa024\xa0Nov,\xa0page\xa01")], (TIMES, NAMES, 1)),
    ("a column whose name has a comma", 'Order,Cut,"Note, date",Weld\nA,4,urgent,0\nB,0,,8\n', {},
     [(0, 3, "Note, date", "skip=Note,\xa0date")], ("4 0/0 8", ("A B", "Cut Weld"), 1)),
    ("a hole", PLAIN.replace("8,0", "8,"), {}, [(3, 4, "", ZERO)], (TIMES, NAMES, 1)),
    ("no heading", PLAIN.partition("\n")[2], {}, [(1, 0, "Shelf", "header=no header=yes")], (TIMES, (JOBS, None), 1)),
    ("machines with numbers", "Order,10,20\nA,4,5\nB,6,7\n", {}, [(1, 0, "Order", "header=yes header=no")],
     ("4 5/6 7", ("A B", "10 20"), 1)),
    ("jobs with numbers", "Plan,Cut,Weld\n4711,4,0\n4713,0,8\n", {}, [(0, 1, "Plan", "first=names first=times")],
     ("4 0/0 8", ("4711 4713", "Cut Weld"), 1)),
    ("running numbers before names", "No,Order,Cut,Weld\n1,A,4,0\n2,B,0,8\n", {}, [(0, 1, "No", "skip=No skip=Order")],
     ("4 0/0 8", ("A B", "Cut Weld"), 1)),
    ("totals named before running numbers", "No;Order;Cut;Weld\n1;A;4;5\n2;B;6;7\nSumme;;10;12\n", {},
     [(0, 1, "No", "skip=No skip=Order"), (4, 0, "Summe", DROP)], ("4 5/6 7", ("A B", "Cut Weld"), 1)),
    ("a column of words", "Order,Cut,Note,Weld\nA,4,urgent,0\nB,0,,8\n", {}, [(0, 3, "Note", "skip=Note")],
     ("4 0/0 8", ("A B", "Cut Weld"), 1)),
    ("rows of machines", "Machine,Shelf,Door,Table\nCut,4,0,0\nWeld,0,8,2\nPaint,4,0,1\n", {},
     [(0, 1, "Machine", "rows=machines rows=jobs")], (TIMES, NAMES, 1)),
    ("fewer rows than columns", "Order,P,Q,R\nA,4,0,1\nB,0,8,2\n", {}, [(0, 0, "", "rows=jobs rows=machines")],
     ("4 0 1/0 8 2", ("A B", "P Q R"), 1)),
    ("totals without a name", "Order,P,Q,x\nA,4,2,6\nB,1,8,9\nC,3,5,8\ny,8,15,23\n", {},
     [(0, 4, "x", DROP), (5, 0, "y", DROP)], ("4 2/1 8/3 5", ("A B C", "P Q"), 1)),
    ("totals of rows alone", "Order,P,Q,x\nA,4,2,6\nB,1,8,9\nC,3,5,8\ny,8,15,\n", {},
     [(0, 4, "x", DROP), (5, 0, "y", DROP), (5, 4, "", ZERO)], ("4 2/1 8/3 5", ("A B C", "P Q"), 1)),
    ("one number for all, running numbers and great ones", "Order,P,Q,R,S\nA,7,4,1,4711\nB,7,2,2,4700\nC,7,9,3,4600\n"
     "D,7,3,4,4500\n", {}, [(0, 2, "P", skip_or_keep("P", "m")), (0, 4, "R", skip_or_keep("R")),
                            (0, 5, "S", skip_or_keep("S"))], ("4/2/9/3", ("A B C D", "Q"), 1)),
    ("a heading without a unit", "Order,Saw,Drill (h)\nA,1,2\nB,3,1\n", {}, [(0, 2, "Saw", "unit=1h")],
     ("1 2/3 1", ("A B", "Saw Drill\xa0(h)"), 1)),
]


def parts(names):
    """Names between blanks, each of which may have blanks that do not break."""
    return None if names is None else tuple(name.replace("\xa0", " ") for name in names.split(" "))


def facts_of(shop):
    """The times of a shop job by job, its names where it has any, and its scale."""
    rows = "/".join(" ".join(map(str, row)) for row in zip(*shop.times))
    return rows, shop._parts[3:5], shop.scale


def wanted_of(times, names, scale):
    """The same, as a row of a table above has it."""
    return times, tuple(map(parts, names or (None, None))), scale


def file_of(table, name="table.csv"):
    """A file with a text or bytes."""
    pathlib.Path(name).write_bytes(table if isinstance(table, bytes) else table.encode())
    return name


def remarks_of(table, words):
    """The remarks on a table, as rows above have them, the words that settle them, and the same as they are printed."""
    try:
        return facts_of(read_table(table, **words)), {}, {}
    except NotATable as error:
        said = [(row, column, value, " ".join(f"{name}={each}".replace(" ", "\xa0") for name, each in each_words))
                for row, column, value, _, each_words in error.remarks]
        printed = str(error).partition(", write: ")[2]
        parser = argparse.ArgumentParser()
        _command_shop.words_of_table(parser)
        return said, error.words, _command_shop.given_words(parser.parse_args(["table.csv", *shlex.split(printed)]))


def read_tables():
    """Each table is taken, or all that is in doubt or wrong is said at once, and the words that it names settle it."""
    for what, table, words, *wanted in TAKEN:
        equal(what, remarks_of(file_of(table), words)[0], wanted_of(*wanted))
    for what, table, words, remarks, settled in ASKED:
        said, *answers = remarks_of(file_of(table), words)
        equal(what, said, remarks)
        for each in answers if settled else []:
            equal(f"{what}, with {each}", remarks_of(file_of(table), {**words, **each})[0], wanted_of(*settled))


def say_remarks():
    """The lines of remarks: of equal doubts there is one, and of equal mistakes there are ten at most."""
    holes = "\n".join(["Order,Cut,Weld", *(f"J{job},{job},{'' if job % 3 else job}" for job in range(1, 8)), ""])
    wrong = "\n".join(["Order,Cut,Weld", "J1,1,1", *(f"J{job},x{job},{job}" for job in range(2, 15)), ""])
    doubts, mistakes = "in doubt, with the words of which one settles it:", "to be changed in the table:"
    for table, lines in [
        (holes, ["5 doubts", doubts, "  row 2, column 3 (and 4 more of its kind) has no time: write it there, or, if "
                 "the job skips the machine: --missing zero",
                 "if all is as it looks, and blank cells are skipped machines, write: --missing zero"]),
        (wrong, ["13 mistakes", mistakes,
                 *(f"  row {row}, column 2 (x{row - 1}) is no number" for row in range(3, 12)),
                 "  row 12, column 2 (x11; and 3 more of its kind) is no number"]),
        (f"Order,Cut\nA,{'9' * 61}\nB,{'8' * 60}\n", [
            "2 mistakes", mistakes, f"  row 2, column 2 ({'9' * 58}..) is no number",
            f"  row 3, column 2 ({'8' * 60}) is no number"]),
        *((table, ["1 mistake", mistakes, f"  the table has 2,001 {kind}, and a shop has at most 800 jobs and 26 "
                   "machines"]) for kind, table in (("rows", "Sum,1\n" * 2001), ("columns", ",".join(["Qty"] * 2001)))),
        ('Order,Cut\nA,"1 day, 2:00:00"\nB,1\n', [
            "1 mistake", mistakes, "  row 2, column 2 (1 day, 2:00:00) is a time of day or a length: write it as a "
            "number, in one unit"]),
        ("Order,Cut\nA,5 min\nB,1\n", ["1 mistake", mistakes, "  row 2, column 2 (5 min) has a unit: write the number "
                                      "alone, and the unit behind the name of the machine, as Saw (min)"]),
    ]:
        said = refused(read_table, file_of(table))[3]
        equal("the lines of remarks", said, "\n".join(["table.csv: " + lines[0], *lines[1:]]))
    done = command("shop", file_of(holes), "--missing", "zero")
    equal("what is said of blank cells", "; times 0 to 7; 5 blank cells taken as 0\n" in done.stderr, True)


def read_other_kinds():
    """Lists, frames and workbooks."""
    rows = [["Order", "Saw", "Drill"], ["Shelf", 3.5, 7], ["Door", 1, 2.125]]
    wanted = wanted_of("28 56/8 17", ("Shelf Door", "Saw Drill"), 8)
    objects = [dict(zip(rows[0], row)) for row in rows[1:]]
    for what, table in [("rows", rows), ("tuples", map(tuple, rows)), ("objects", objects), ("one", {"a": objects})]:
        equal(f"a list of {what}", facts_of(read_table(table)), wanted)
    sums = [["Order", "Saw"], ["Shelf", 0.1 + 0.2], ["Door", 12345.0]]
    equal("what is left of rounding", facts_of(read_table(sums)), wanted_of("3/123450", ("Shelf Door", "Saw"), 10))
    exact = [["Order", "Saw"], ["Shelf", Fraction(7, 4)], ["Door", Decimal("1E+2")], ["Bed", Decimal("0.50")]]
    equal("exact numbers", facts_of(read_table(exact)), wanted_of("7/400/2", ("Shelf Door Bed", "Saw"), 4))
    if pandas:
        frame = pandas.DataFrame(rows[1:], columns=rows[0])
        equal("a frame", facts_of(read_table(frame)), wanted)
        equal("a frame with an index", facts_of(read_table(frame.set_index("Order"))), wanted)
        lengths = frame.assign(Saw=pandas.to_timedelta(frame.Saw, unit="min"))
        said = [(2, 2, "0 days 00:03:30", ""), (3, 2, "0 days 00:01:00", "")]
        equal("lengths of time", remarks_of(lengths, {})[0], said)
    else:
        print("no pandas: its frames were passed over")
    if openpyxl:
        book = openpyxl.Workbook()
        for row in rows:
            book.active.append(row)
        book.save("table.xlsx")
        equal("a workbook", facts_of(read_table("table.xlsx")), wanted)
    else:
        print("no openpyxl: workbooks were passed over")
        said = "install the package openpyxl (pip install openpyxl), or save its sheet as CSV (UTF-8)"
        equal("a workbook", refused(read_table, file_of(b"PK\x03\x04 ..", "table.xlsx")),
              ("TextError", "TABLE", 0, f"table.xlsx: this is a workbook: {said}"))


DEEP = "the JSON of the text has a number of thousands of digits, or too many lists in lists"
NO_ROWS = "it is {}, and has to be a list of rows, or of objects, with something in it"


def refuse_other_kinds():
    """Files and lists that are no tables, numbers that are no times, and words that are none."""
    for said, table in [
        ("this is a workbook of an old kind: save its sheet as CSV (UTF-8) or as .xlsx", b"\xd0\xcf\x11\xe0"),
        ("this is an OpenDocument sheet: save it as CSV (UTF-8) or as .xlsx",
         b"PK\x03\x04" + b"\0" * 26 + b"mimetypeapplication/vnd.oasis.opendocument.spreadsheet"),
        ("this is a benchmark text and no table: certify takes it as it is", "times :\n2 1 0 0 0\ntimes :\n4 5\n"),
        ("a quotation mark in row 1 is not closed", 'Order,"Cut\n' + "Shelf,4\n" * 30),
        ("line 1 of the text is no JSON: Expecting ',' delimiter", "[1 2]"), (DEEP, "[" * 10**5),
        (DEEP, f"[[{'9' * 5000}]]"), (NO_ROWS.format("[]"), "[]"), (NO_ROWS.format("[5]"), "[5]"),
        (NO_ROWS.format("[[1], {'a': 2}]"), '[[1], {"a": 2}]'),
        (NO_ROWS.format("{'a': [[1]], 'b': 2}"), '{"a": [[1]], "b": 2}'),
    ]:
        equal(said, refused(read_table, file_of(table)), ("TextError", "TABLE", 0, f"table.csv: {said}"))
    for table in (5, None, [], ["ab", "cd"], {"Job": ["A"], "Cut": [4]}, [{4, 5}], b"4 5"):
        said = f"table: {NO_ROWS.format(repr(table))}"
        equal(f"the table {table}", refused(read_table, table), ("TextError", "TABLE", 0, said))
    for value, said in [
        (float("inf"), "inf"), (-float("inf"), "-inf"), (10**5000, "a number of thousands of digits"), ("9" * 41,) * 2,
        ("1e999999999",) * 2, (f"1.{'5' * 5000}",) * 2, (Decimal("sNaN"), ""),
        (Fraction(10**5000, 3), f"3.{'3' * 27}e+4999"),
    ]:
        got = remarks_of([["Job", "Cut", "Saw"], ["A", value, 3], ["B", 1, 4]], {})[0]
        equal(f"the time {said}", got, [(2, 2, said, "" if said else ZERO)])
    equal("a great quantity", remarks_of(file_of(f"Job,Qty,Cut\nA,{'9' * 5000},1\nB,2,3\n"), {"multiply": "Qty"})[0],
          [(2, 0, "9" * 5000, "")])
    for words, said in [
        ({"totals": "no"}, "totals is 'no', and has to be drop or keep"),
        ({"unit": "5"}, "unit is '5', and has to be the length of one unit, as 1min, 15min or 1h"),
        ({"separator": "ab"}, "separator is 'ab', and has to be one sign"),
        ({"begin": 0}, "begin is 0, and has to be the number of a row"),
        ({"skp": "A"}, f"there is no word skp: the words are {', '.join(_answers.Answers.__dataclass_fields__)}"),
    ]:
        equal(str(words), refused(read_table, [["Job", "Cut"], ["A", 4]], **words)[3], said)


SETTINGS = """# Kept.
totals = "drop" # of all days
skip = ["Qty", 'a "b" \\ c', "x\\ty"]
begin = 12

[calendar]
start = 2026-12-01T07:00:00
holidays = [2026-12-25, "2026-12-26"]
open = true
"01" = [ ]
"""


def keep_answers():
    """What is said is kept in a file beside the table, with what stood there, and is taken the next time."""
    if sys.version_info >= (3, 11):
        import tomllib
        equal("the reader in the place of tomllib", _answers.read_lines(SETTINGS), tomllib.loads(SETTINGS))
    for names in (("Säge, 1", 'a "b" \\ c\t\\n'), ("S\x1b[2Jx\x7f", "\u2028", "'")):
        text = _answers.with_answers("t.csv", None, _answers.Answers(skip=names))
        for read in (lambda text: _answers.read_toml("t.toml", text), _answers.read_lines):
            equal(f"the names {names} as they are kept", _answers.answers_of(read(text)).skip, names)
    for line in ("skip", "skip = ", "skip = [1", "skip = [1]]", "skip = 'a", "[a", "skip = 1 2", 'skip = "\\x"'):
        equal(f"the line {line}", refused(_answers.read_toml, "t.toml", f"\n{line}\n")[1], "SETTINGS")
        equal(f"the line {line} without tomllib", "line 2 is" in str(refused_lines(line)), True)
    file_of("Job,Cut,Saw,Qty\nBed,3,7,1\nSofa,1,2,3\nTotal,4,9,\n", "day.csv")
    asked = command("shop", "day.csv")
    equal("a day that is asked about", (asked.returncode, asked.stdout), (1, ""))
    equal("its last line", asked.stderr.splitlines()[-1], "if all is as it looks, write: --totals drop --skip Qty")
    file_of("[calendar]\nstart = \"07:00\"\n", "day.csv.flowshop.toml")
    text = "jobs\tBed\tSofa\n2 2 0 0 0\nmachines, times in 1/1, decimal point, separator comma\tCut\tSaw\n3 1\n7 2\n"
    for words in (["--totals", "drop", "--skip", "Qty"], []):
        done = command("shop", "day.csv", *words)
        equal(f"the day with {words}", (done.returncode, done.stdout), (0, text))
        equal("what is kept", pathlib.Path("day.csv.flowshop.toml").read_text(),
              'totals = "drop"\nskip = ["Qty"]\n\n[calendar]\nstart = "07:00"\n')
    equal("the same in Python", read_table("day.csv").job_names, ("Bed", "Sofa"))
    file_of("Job,Cut,Saw,Due\nBed,3,7,1\nSofa,1,2,3\n", "day.csv")
    equal("another column the next day", command("shop", "day.csv", "--skip", "Due").returncode, 0)
    equal("both names are kept", 'skip = ["Qty", "Due"]' in pathlib.Path("day.csv.flowshop.toml").read_text(), True)
    equal("a word that is none", command("shop", "day.csv", "--totals", "no").returncode, 2)


def read_pipes():
    """A table that comes through a pipe: nothing is kept beside it, and plans stand in the folder that is named."""
    for words, status, said in [
        (["shop", "/dev/stdin", "--skip", "B"], 0, "jobs\tA\n1 1 0 0 0\n"),
        (["plan", "/dev/stdin"], 2, "flowshop: /dev/stdin is no file that plans stand beside: --out names a folder"),
        (["plan", "/dev/stdin", "--out", "piped", "--skip", "B"], 0, "No order finishes earlier than 4: this one is"),
    ]:
        done = command(*words, input="Job,Cut\nA,4\nB,5\n")
        got = done.returncode, (done.stderr if status else done.stdout)[: len(said)]
        equal(f"a table of a pipe: {words}", got, (status, said))
    files = [f"stdin.plan.{kind}" for kind in ("csv", "html", "json", "svg")]
    equal("files of it", (sorted(os.listdir("piped")), os.path.exists("/dev/stdin.flowshop.toml")), (files, False))


def refuse_files():
    """Files of answers that are none, and files that would be replaced."""
    kept = pathlib.Path("day.csv.flowshop.toml")
    file_of("Job,Cut\nA,4\nB,5\n", "day.csv")
    file_of("\ufeffskip = [\"B\"]\r\n", kept)
    equal("a file of answers with a byte order mark", read_table("day.csv").job_names, ("A",))
    for text, said in [
        (b"skip = ['S\xe4ge']", f"{kept} is no text in UTF-8: save it as such a one"),
        (b"calendar = 5", f"calendar of {kept} has to be a section [calendar]"),
        (b"[calender]", f"{kept} has a section [calender]; the only one that there is is [calendar]"),
    ]:
        equal(str(text), refused(read_table, file_of(text, kept) and "day.csv"), ("OptionError", "SETTINGS", 0, said))
    kept.unlink()
    read_pipes()
    os.mkdir("folder")
    for words, said in [
        ("shop --out day.csv", "--out day.csv is the file of the table: give the shop another name"),
        ("shop --out ./day.csv", "--out ./day.csv is the file of the table: give the shop another name"),
        (f"shop --skip B --out {kept}", f"--out {kept} is the file of the answers: give the shop another name"),
        ("shop --out folder", "--out is folder, which is a folder, and has to be a file"),
        ("plan --out day.csv", "--out is day.csv, which is a file, and has to be a folder"),
        ("plan --workers 0", "--workers is 0, and has to be a whole number from 1 to 10,000"),
        ("plan --time-limit nan", "--time-limit is nan, and has to be a number of seconds from 0 on"),
    ]:
        first, *more = words.split()
        done = command(first, "day.csv", *more)
        equal(words, (done.returncode, done.stdout, done.stderr), (2, "", f"flowshop: {said}\n"))
    equal("that nothing is written", [pathlib.Path(name).exists() for name in ("day.plan.html", kept)], [False, False])
    equal("the table", pathlib.Path("day.csv").read_text(), "Job,Cut\nA,4\nB,5\n")
    done = command("plan", "none.csv", "--out", "new")
    equal("a table that is not there", (done.returncode, os.path.exists("new")), (3, False))
    with mock.patch("flowshop._plan.MOST_CERTIFICATE", 10):
        equal("a plan that is too long", refused(Plan.read, file_of("{" * 11, "a.json"))[:2], ("TextError", "TOO_LONG"))
    equal("endless answers", refused(_reading.kept_of, pathlib.Path("/dev/zero"))[:2], ("TextError", "TOO_LONG"))
    text = Plan.of([["Job", "Cut"], ["A", 4]], start="2026-12-01", unit="1h").to_json()
    for unit in ('"unit": ""', '"unit": "1x"', '"unit": "<b>"'):
        got = refused(Plan.from_json, text.replace('"unit": "1h"', unit))
        equal(unit, got[3], f"'unit' of the text is '{unit[9:-1]}'; it has to be what Plan.to_json gives")


def refused_lines(line):
    """The error of a line of the file of answers."""
    try:
        return _answers.read_lines(f"\n{line}\n")
    except ValueError as error:
        return error


# --- Times by a calendar ---

DAYS = ["monday", "tuesday", "wednesday", "thursday", "friday", "saturday", "sunday"]
SHIFTS = [["06:00-14:00"], ["07:00-12:00", "12:30-15:30"], ["22:00-06:00"], ["14:00-22:00", "06:00-14:00"], [],
          ["08:00-24:00"], ["00:00-24:00"]]
BREAKS = [[], ["09:00-09:15"], ["12:00-12:45", "09:30-09:40"], ["23:45-00:30"]]
MINUTE = datetime.timedelta(minutes=1)


def minutes_of(text):
    """The minutes after midnight of both ends of a span; the second one may be on the day after."""
    begin, over = (int(each[:2]) * 60 + int(each[3:]) for each in text.split("-"))
    return begin, over if begin < over else over + 1440


class Worked:
    """The minutes of work, one by one, from a start on: each is looked at by itself."""

    def __init__(self, calendar, start):
        self.calendar, self.next, self.minutes = calendar, start, []

    def is_worked(self, moment):
        """Whether there is work in the minute that begins then."""
        minute = moment.hour * 60 + moment.minute
        for spans in self.calendar["breaks"]:
            begin, over = minutes_of(spans)
            if begin <= minute < over or begin <= minute + 1440 < over:
                return False
        if not any(self.calendar.get(day) for day in DAYS):
            return str(moment.date()) not in self.calendar["holidays"]
        for ago in (0, 1):
            day = moment.date() - datetime.timedelta(days=ago)
            if str(day) not in self.calendar["holidays"]:
                for spans in self.calendar.get(DAYS[day.weekday()], []):
                    begin, over = minutes_of(spans)
                    if begin <= minute + 1440 * ago < over:
                        return True
        return False

    def begins(self, minutes):
        """When work goes on after so many minutes of it."""
        while len(self.minutes) <= minutes:
            if self.is_worked(self.next):
                self.minutes.append(self.next)
            self.next += MINUTE
        return self.minutes[minutes]

    def ends(self, minutes):
        """When so many minutes of work are done."""
        return self.begins(minutes - 1) + MINUTE if minutes else self.begins(0)


def drawn_calendar(draw):
    """A calendar, with what the file beside a table has of it."""
    calendar = {day: draw.choice(SHIFTS) for day in DAYS if draw.random() < 0.7}
    calendar["breaks"] = draw.choice(BREAKS)
    calendar["holidays"] = [f"2026-12-{draw.randrange(1, 32):02}" for _ in range(draw.randrange(4))]
    lines = [f"{name} = {json.dumps(values)}" for name, values in calendar.items()]
    return calendar, "\n".join(["[calendar]", *lines, ""])


def drawn_table(draw, names):
    """A table of jobs of these names with halves of the unit, and its times in these."""
    machines = [f"Machine {letter}" for letter in "ABCD"[: draw.randrange(1, 5)]]
    rows = [[draw.choice([0, 1, 2, 3, 5, 8, 13]) for _ in machines] for _ in names]
    rows[0][0] = rows[0][0] or 1
    lines = [";".join(["Order", *machines])]
    lines += [";".join([name, *(f"{time // 2},{5 * (time % 2)}" for time in row)]) for name, row in zip(names, rows)]
    return machines, rows, "\ufeff" * draw.randrange(2) + "\n".join([*lines, ""])


def operations_of(plan, names, rows, worked, minutes):
    """The operations of a plan that take time, by the recurrence and the calendar of this test: place, job, machine,
    start and end. A half of the unit has so many minutes."""
    sequence = [names.index(name) + 1 for name in plan.certificate.names]
    found = []
    for place, (job, spans) in enumerate(zip(sequence, spans_of(of_rows(rows), sequence)), 1):
        for machine, (start, over) in enumerate(spans):
            if start < over:
                moments = worked.begins(start * minutes), worked.ends(over * minutes)
                found.append((place, names[job - 1], machine, *moments))
    return found


def page_of(report):
    """The operations of a page, as above, with each start and end as the page has it."""
    found = []
    for at, section in enumerate(report.split('<section class="sheet')[1:]):
        day = ""
        for row in re.findall("<tr.*?</tr>", section.partition("<tbody>")[2]):
            cells = re.findall(r"<t[dh][^>]*>(.*?)</t[dh]>", row)
            if "day" in row.partition(">")[0]:
                day = cells[1]
            else:
                found.append((int(cells[0]), cells[1], at, f"{day}, {cells[2]}", cells[3]))
    return sorted(found, key=lambda each: (each[0], each[2]))


def text_of(moment):
    """A moment as a page has it."""
    return f"{moment:%a} {moment.day} {moment:%b}, {moment:%H:%M}"


def on_page(operations):
    """Operations with moments as a page has them: the end alone, with its day where that is another one."""
    for place, job, machine, start, over in operations:
        days = (over.date() - start.date()).days
        day = "" if not days else f"{over:%a} " if days < 7 else f"{over:%a} {over.day} {over:%b}, "
        yield place, job, machine, text_of(start), f"{day}{over:%H:%M}"


def compare_marks(picture, worked, makespan, minutes):
    """Each mark with a text stands where its whole hour is."""
    bars = [(int(x), int(wide)) for x, wide in re.findall(r'<rect x="(\d+)" y="\d+" width="(\d+)"', picture)]
    wide = (max(x + wide for x, wide in bars) - 9000) / (makespan * minutes)
    marks = re.findall(r'<line x1="(\d+)" [^>]*/><text [^>]*>(?:(\w+ \d+ \w+), )?(\d\d:\d\d)<', picture)
    for place, day, hour in marks:
        near = range(max(0, int((int(place) - 9250) / wide)), int((int(place) - 8750) / wide) + 2)
        moments = [text_of(worked.begins(minute)) for minute in near]
        holds(any(day in text and text.endswith(f", {hour}") for text in moments), f"the mark {day} {hour} at {place}")
    return len(marks)


def follow_calendars():
    """Start and end of 200 drawn tables on the page, in CSV and in JSON; and the change of each to another day."""
    draw, marks, before = random.Random(81), 0, None
    for number in range(200):
        calendar, settings = drawn_calendar(draw)
        names = draw.sample([f"Job {letter}" for letter in "ABCDEFGHIJ"], draw.randrange(1, 8))
        machines, rows, table = drawn_table(draw, names)
        unit, minutes = draw.choice([("2min", 1), ("0,5 h", 15), ("1h", 30), ("10min", 5)])
        start = datetime.datetime(2026, 12, draw.randrange(1, 29), draw.randrange(24), draw.randrange(60))
        file_of(settings, "day.csv.flowshop.toml")
        words = {"start": start.isoformat(timespec="minutes"), "unit": unit, "rows": "jobs", "totals": "keep"}
        words["keep"] = machines
        now = f"2026-12-{draw.randrange(1, 29):02}"
        if before:
            words.update(after=before, now=now)
        plan = Plan.of(file_of(table, "day.csv"), workers=1, time_limit=None, **words)
        worked = Worked(calendar, start)
        # All rows have times that are whole where none has a half.
        in_halves = minutes if any(time % 2 for row in rows for time in row) else 2 * minutes
        times = rows if in_halves == minutes else [[time // 2 for time in row] for row in rows]
        operations = operations_of(plan, names, times, worked, in_halves)
        lines = [";".join([str(place), job, machines[at], *(f"{each:%Y-%m-%d %H:%M}" for each in moments)])
                 for place, job, at, *moments in operations]
        text = "\n".join(["place;job;machine;start;end", *lines, ""])
        equal(f"the table of plan {number}", plan.to_csv(), "\ufeff" * (table[0] == "\ufeff") + text)
        equal(f"the page of plan {number}", page_of(plan.report()), list(on_page(operations)))
        kept = Plan.from_json(plan.to_json())
        equal(f"plan {number}, kept", (kept.shop, kept.certificate, [*kept.rows()]),
              (plan.shop, plan.certificate, [*plan.rows()]))
        marks += compare_marks(plan.picture(), worked, plan.timetable.makespan, in_halves)
        if before:
            compare_change(plan, before, now)
        before = plan if draw.random() < 0.8 else None
    equal("that there are marks", marks > 500, True)


def compare_change(plan, before, now):
    """What a plan says of an earlier one."""
    change, new, old = plan.change, plan.certificate.names, before.certificate.names
    equal("new and lost jobs", (set(change.new), set(change.lost)), (set(new) - set(old), set(old) - set(new)))
    starts = {}
    for job, _, start, _ in before.rows():
        starts[job] = min(start, starts.get(job, start))
    begun = {job for job, start in starts.items() if job in new and str(start) < f"{now} 00:00:00"}
    equal("jobs that have begun", set(change.begun), begun)
    shared, order = [job for job in old if job in new], [job for job in new if job in old]
    moved = {job for job, _, _ in change.moved}
    stays = [[job for job in jobs if job not in moved] for jobs in (shared, order)]
    equal("the rest has one order", *stays)
    longest = []
    for at, job in enumerate(order):
        longest.append(1 + max([longest[other] for other in range(at)
                                if shared.index(order[other]) < shared.index(job)], default=0))
    equal("how many have moved", len(moved), len(order) - max(longest, default=0))
    places = [(job, shared.index(job) + 1, order.index(job) + 1) for job in order if job in moved]
    equal("their places", [*change.moved], places)
    equal("the ends", change.ends, tuple(text_of(max(end for *_, end in each.rows())) for each in (before, plan)))
    texts = re.findall("<p>(.*?)</p>", plan.report().partition("<h2>Change</h2>")[2].partition("</section>")[0])
    said = [f"The earlier plan ends at {change.ends[0]}, this one at {change.ends[1]}."]
    said += [f"New jobs: {', '.join(change.new) or 'none'}.",
             f"Jobs of the earlier plan alone: {', '.join(change.lost) or 'none'}."]
    equal("what the page says", texts[:3], said)
    compare_first(plan, before, change)
    named = f"Begun already: {', '.join(change.begun)}." in "".join(texts)
    equal("that the page names what has begun", named, bool(begun))


def compare_first(plan, before, change):
    """The best order with what has begun first, by trying all."""
    if not change.begun:
        equal("that nothing is first", change.first, None)
        return
    shop, jobs = of_rows([*zip(*plan.shop.times)]), [*plan.shop.job_names]
    begun = [jobs.index(job) + 1 for job in before.certificate.names if job in change.begun]
    rest = [job for job in range(1, len(jobs) + 1) if job not in begun]
    least = min(makespan(shop, [*begun, *others]) for others in itertools.permutations(rest))
    names, end, is_least = change.first
    order = [jobs.index(job) + 1 for job in names]
    equal("what is first", order[: len(begun)], begun)
    equal("the best order with that first", (makespan(shop, order), sorted(order), is_least),
          (least, [*range(1, len(jobs) + 1)], True))
    calendar = json.loads(json.dumps(plan.calendar.to_dict()))
    calendar = {"breaks": [], "holidays": [], **calendar}
    minutes = int(least * plan.times.step / 60)
    equal("when it ends", end[-5:], text_of(Worked(calendar, plan.calendar.start).ends(minutes))[-5:])
    page = plan.report()
    equal("the page says it", f"With them first, the order {', '.join(names)} ends at {end}: no order" in page, True)


def begin_with_the_earlier_order():
    """Without time, the order is at least as good as the earlier one with new jobs at its end."""
    for seed in range(1, 11):
        rows = [[str(job), *map(str, times)] for job, times in enumerate(zip(*Shop.generate(30, 8, seed).times), 1)]
        head = ["Job", *(f"M{machine}" for machine in range(1, 9))]
        before = Plan.of([head, *rows[:28]], time_limit=2)
        start = [int(name) for name in before.certificate.names] + [29, 30]
        wanted = makespan(of_rows([[int(time) for time in row[1:]] for row in rows]), start)
        plan = Plan.of([head, *rows], after=before, time_limit=0)
        equal(f"the order after that of shop {seed}", (plan.timetable.makespan <= wanted, plan.change.new), (True, (
            *sorted(["29", "30"], key=plan.certificate.names.index),)))


SPAN = 'and has to be a span of time, as "06:00-14:00"'
MOMENT = "and has to be a date, or a date and a time, as 2026-12-01T07:00"
CALENDARS = [
    ({"mondays": []}, "CALENDAR", "the calendar has no mondays: its names are start, weekdays, monday, tuesday, "
     "wednesday, thursday, friday, saturday, sunday, breaks, holidays"),
    ({"monday": ["6-14"]}, "CALENDAR", f"monday of the calendar is '6-14', {SPAN}"),
    ({"breaks": ["09:00-24:30"]}, "CALENDAR", f"breaks of the calendar is '09:00-24:30', {SPAN}"),
    *(({"start": start}, "START", f"start is '{start}', {MOMENT}") for start in ("7:00", "0001-01-01", "9999-12-31")),
    ({"start": "2026-12-01", "monday": ["06:00-07:00"], "breaks": ["06:00-07:00"]}, "CALENDAR",
     "the calendar has no shifts for all of the work within 4,000 days"),
]


def refuse_calendars():
    """What is no calendar is refused; and a start needs the length of the unit, which is asked with all else."""
    for calendar, name, said in CALENDARS:
        lines = [f"{key} = {json.dumps(value)}" for key, value in calendar.items()]
        file_of("\n".join(["[calendar]", *lines, ""]), "day.csv.flowshop.toml")
        table = file_of("Job,Cut\nA,4\n", "day.csv")
        equal(str(calendar), refused(lambda: Plan.of(table, unit="1h").report()), ("OptionError", name, 0, said))
    plan = Plan.of(file_of("Job,Cut\nA,4\n", "none.csv"))
    for after in ({}, {"after": plan}):
        got = refused(lambda: Plan.of([["Job", "Cut"], ["A", 4]], now="2026-12-01", **after))
        equal(f"now with {after}", got, ("OptionError", "NOW", 0, "now needs after, with a plan that has a start"))
    file_of("", "day.csv.flowshop.toml")
    asked = command("plan", file_of("Job,Qty,Cut\nA,3,4\nB,5,2\n", "day.csv"), "--start", "2026-12-01")
    equal("a start without a unit", (asked.returncode, asked.stderr.splitlines()[-1]),
          (1, "if all is as it looks, write: --skip Qty --unit 1min"))


def wait_for_a_week():
    """What ends a week after it begins has the whole day on the page."""
    file_of("[calendar]\nmonday = [\"07:00-08:00\"]\n", "day.csv.flowshop.toml")
    plan = Plan.of(file_of("Job,Cut\nA,2\n", "day.csv"), start="2026-12-02", unit="1h")
    equal("its end", page_of(plan.report()), [(1, "A", 0, "Mon 7 Dec, 07:00", "Mon 14 Dec, 08:00")])
    equal("a start to the minute", Plan.of("day.csv", start="2026-12-02T00:00:59", unit="1h").to_json(), plan.to_json())
    for now, begun in (("2026-12-07T07:00", ()), ("2026-12-07 07:01", ("A",))):
        again = Plan.of("day.csv", start="2026-12-02", unit="1h", after=plan, now=now)
        equal(f"what has begun by {now}", again.change.begun, begun)


def plan_by_the_command():
    """The command writes the files that a Plan gives, and says in the page what is new."""
    file_of("[calendar]\nweekdays = [\"07:00-15:30\"]\n", "day.csv.flowshop.toml")
    file_of("Job;Cut;Weld\n<A>;4;3\nB;1;5\nC;2;2\n", "day.csv")
    words = ["--start", "2026-12-04T12:00", "--unit", "1h"]
    done = command("plan", "day.csv", *words)
    said = "No order finishes earlier than Mon 7 Dec, 14:30: this one is optimal.\n"
    files = [f"day.plan.{kind}" for kind in ("html", "csv", "svg", "json")]
    equal("what it says", (done.returncode, done.stdout), (0, f"{said}{', '.join(files)}\n"))
    plan = Plan.of("day.csv", start="2026-12-04T12:00")
    texts = [plan.report(), plan.to_csv(), plan.picture(), plan.to_json()]
    equal("its files", [pathlib.Path(name).read_text(encoding="utf-8") for name in files], [*map(str, texts)])
    os.mkdir("out")
    file_of("Job;Cut;Weld\nB;1;5\nC;2;2\nD;3;3\n", "next.csv")
    after = ["--after", "day.plan.json", "--now", "2026-12-04T13:30", "--out", "out"]
    done = command("plan", "next.csv", *words, *after)
    equal("the next day", (done.returncode, sorted(os.listdir("out"))[0]), (0, "next.plan.csv"))
    page = pathlib.Path("out/next.plan.html").read_text(encoding="utf-8")
    for text in ("New jobs: D.", "Jobs of the earlier plan alone: &lt;A&gt;.", "Begun already: "):
        equal(text, text in page, True)
    equal("both numbers", "takes 11:00 of working time, and ends at Mon 7 Dec, 14:30" in texts[0], True)
    equal("its title", "<title>Plan of day.csv</title>" in texts[0], True)


def refuse_plans():
    """What the command does not take, after the plan above, and what it says of words and a calendar."""
    file_of("[calender]\nweekdays = [\"07:00-15:30\"]\n", "wrong.toml")
    pathlib.Path("none.json").write_text("none", encoding="utf-8")
    for words, status, said in (
        ("--after day.csv", 2, "--after is day.csv, and has to be the file of a plan that ends with .plan.json"),
        ("--after day.plan.json", 2, "day.plan.json would replace the plan of --after; give the table a name of its "
         "own, or --out"),
        ("--now 2026-12-04T13:30", 2, "now needs after, with a plan that has a start"),
        ("--settings none.toml", 2, "--settings is none.toml, and there is no such file"),
        ("--settings wrong.toml", 2, "wrong.toml has a section [calender]; the only one that there is is [calendar]"),
        ("--skip Cut --keep Cut", 2, "'Cut' is named by skip and by keep"),
        ("--after none.json", 1, "none.json: line 1 of the text is no JSON: Expecting value; a file is read by "
         "pathlib.Path"),
    ):
        done = command("plan", "day.csv", *words.split())
        equal(words, (done.returncode, done.stderr.splitlines()[-1:]), (status, [f"flowshop: {said}"]))
    command("shop", "day.csv", "--skip", "Cut")
    command("shop", "day.csv", "--keep", "Cut")
    equal("a word that is said now", "skip" in pathlib.Path("day.csv.flowshop.toml").read_text("utf-8"), False)
    said = "the calendar of day.csv.flowshop.toml is not used, since there is no --start\n"
    equal("a calendar without a start", said in command("plan", "day.csv", "--time-limit", "2").stderr, True)


# --- Paper ---


def pages_of(page):
    """How many pages of paper a page takes, as chromium prints it; None where it can not be started."""
    words = ["--headless", "--no-sandbox", "--disable-gpu", "--no-pdf-header-footer", "--print-to-pdf=page.pdf", page]
    with suppress(FileNotFoundError):
        os.remove("page.pdf")
    subprocess.run([shutil.which("chromium"), *words], capture_output=True, timeout=120, check=False)
    with suppress(FileNotFoundError):
        return len(re.findall(rb"/Type\s*/Page\b", pathlib.Path("page.pdf").read_bytes()))
    return None


def print_plans():
    """Plans of 12, 60 and 300 jobs on paper: a page for facts and picture, or some, and sheets of the machines."""
    for jobs, machines, most in [(12, 3, 3), (60, 4, 7), (300, 6, 12)]:
        head = ["Order", *(f"Machine {number}" for number in range(1, machines + 1))]
        rows = [[f"Order {4000 + job}", *times] for job, times in
                enumerate(zip(*Shop.generate(jobs, machines, jobs).times), 1)]
        file_of("[calendar]\nweekdays = [\"07:00-15:30\"]\n", "jobs.csv.flowshop.toml")
        file_of("\n".join(",".join(map(str, row)) for row in [head, *rows]), "jobs.csv")
        plan = Plan.of("jobs.csv", start="2026-12-01", unit="1min", time_limit=2)
        page = plan.report()
        holds(all(html_name in page for html_name, *_ in rows), f"all names of {jobs} jobs")
        equal(f"the sheets of {machines} machines", page.count('<section class="sheet'), machines)
        if shutil.which("chromium"):
            page.save("jobs.html")
            pages = pages_of(f"file://{os.path.abspath('jobs.html')}")
            holds(pages is not None and pages <= most, f"{pages} pages of paper of {jobs} jobs, and {most} at most")
    if not shutil.which("chromium"):
        print("no chromium: pages on paper were passed over")


with new_folder(is_here=True):
    read_tables()
    say_remarks()
    read_other_kinds()
    refuse_other_kinds()
    keep_answers()
    refuse_files()
    follow_calendars()
    begin_with_the_earlier_order()
    refuse_calendars()
    wait_for_a_week()
    plan_by_the_command()
    refuse_plans()
    print_plans()
end("plan")

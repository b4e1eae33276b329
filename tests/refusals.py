"""What is refused, and with which fault, in one table. The program, the second checker, the library and the package for
Python are tried on its rows by tests/program, tests/second_checker, tests/calls.py and tests/package.py; what plain
Python says of the texts is compared by tests/second_checker. A fault is named as the program names it, with the line or
the place behind it. What stands behind a row is what the package says, or the first words of that.

All was worked out by hand from docs/formats.md and docs/refusals.md."""

import re

# The shop that docs/formats.md reads by hand, another one, and the greatest one: a row for each job. All sequences of
# that have the same makespan. In the uneven one job 1 needs the last machine alone: the makespan is the same where job
# 1 comes last, and less by one time in order.
THREE, TWO, ONE = [[4, 0, 4], [0, 8, 0], [0, 2, 1]], [[3, 2], [1, 4], [2, 2]], [[5]]
TIME, SPAN, MOST = 999_999, 824_999_175, 2**64 - 1
GREAT, UNEVEN = [[TIME] * 26] * 800, [[0] * 25 + [TIME], *[[TIME] * 26] * 799]
MEGABYTE = 1_000_000

# --- Numbers ---

# The least and the greatest number of each option, in the order in which a call looks at them.
LIMITS = {
    "jobs": (1, 800), "machines": (1, 26), "width": (0, 65_536), "rounds": (0, 100_000_000), "seed": (1, 2_147_483_646),
    "work": (0, 1_000_000), "directions": (1, 1_000_000_000), "workers": (1, 64), "depth": (0, 3),
    "budget": (1, 100_000_000), "version": (1, 2),
}


def wrong_numbers(options, limits=LIMITS):
    """The name of the fault, and the options with which a call is refused that has these: each one below its least
    number and above its greatest one, and each with a wrong one behind it. In other options stands the greatest."""
    for place, name in enumerate(options):
        least, most = limits[name]
        for number in {max(0, least - 1), most + 1, max(most + 1, 2**32 - 1)} - {least}:
            for other in [None, *options[place + 1 :]]:
                numbers = {each: limits[each][1] + (each == other) for each in options}
                yield name, {**numbers, name: number}


# --- Sequences ---
_ONCE = "; each job stands in it once"
# Lists that are no sequence of the shop of three jobs.
SEQUENCES = [
    ([1, 2], "LENGTH", 0, f"the sequence has 2 jobs, and the shop has 3{_ONCE}"),
    ([], "LENGTH", 0, f"the sequence has 0 jobs, and the shop has 3{_ONCE}"),
    ([2, 1, 3, 1], "LENGTH", 0, f"the sequence has 4 jobs, and the shop has 3{_ONCE}"),
    ([1, 4, 2], "JOB", 2, "place 2 of the sequence is 4, and the jobs are 1 to 3"),
    ([4, 1, 3], "JOB", 1, "place 1 of the sequence is 4, and the jobs are 1 to 3"),
    ([2, 0, 1], "JOB", 2, "place 2 of the sequence is 0, and the jobs are 1 to 3; add 1 to each if they are"),
    ([1, 0, 1], "JOB", 2, "place 2 of the sequence is 0, and the jobs are 1 to 3; add 1 to each if they are"),
    ([1, 2, 65_535], "JOB", 3, "place 3 of the sequence is 65,535, and the jobs are 1 to 3"),
    ([1, 2, 1], "TWICE", 3, "job 1 stands at place 1 of the sequence, and again at place 3; each job"),
    ([2, 2, 4], "TWICE", 2, "job 2 stands at place 1 of the sequence, and again at place 2; each job"),
    ([1, 2, 2], "TWICE", 3, "job 2 stands at place 2 of the sequence, and again at place 3; each job"),
]
# Starts, with the fault.
STARTS = [
    (b"", "start 1"), (b"\n\n ", "start 4"), (b"\nmakespan 13\n", "start 2"), (b"flowshop\n", "start 1"),
    (b"sequence 2 1 x\n", "start 1"), (b"sequence 2 1 1\nmakespan\n", "start 2"),
    (b"sequence 2 1 3\nmakespan 13\nend\n", "start 3"), (b"sequence 4 1\nmakespan 1\n", "sequence Length"),
    (b"sequence 2 4 2\n", "sequence Job 2"), (b"sequence 2 2 4\n", "sequence Twice 2"),
    (b"sequence 3 1 2\nmakespan 13\n", "start 2"), (b"\n sequence\t2 1 3\r\n makespan 12", "start 3"),
]

# --- Benchmark texts ---

_WORDS = "a line of words is wanted before the head of a block, and before its times"
_HEAD = "the head of a block is five numbers: jobs, machines, seed, upper bound and lower bound"
_LIMITS = "the jobs have to be 1 to 800, the machines 1 to 26, and each time 0 to 999,999"
_BYTE = "a line of numbers has something that is neither a digit nor a blank"
_NUMBER = "a number is above 4,294,967,295"
_EMPTY = "it is empty, or has blanks alone, as where the command that was to write it was refused"
_TIMES, _ROW = "there has to be one time for each job and machine", "a row before is short or missing"
_TABLES = "python3 -m flowshop shop makes such a file of a table, and examples/from_pairs.awk in the clone one of "
_TABLES += "pairs of machine and time; in Python read_table takes the table itself"
_WORD = f"{_ROW}, or this line does not begin with a digit; {_TABLES}"
_OTHER = "this text begins as a certificate does, and the file of the shop is wanted here"
BOUNDS = b"flowshop two-ended 1\n3 3\n11 13\n2 1 3\n-\nend\n"
LEAST = b"flowshop two-ended 1\n3 3\n12 12\n3 1 2\n++\nend\n"
COUNTED = b"flowshop counted 1\n3 3\n12 12\n3 1 2\n2\nend\n"
TREE = b"flowshop certificate 1\n3 3 0\n12\n3 1 2\n+BC++.B\nend\n"
CUT = b"flowshop certificate 1\n3 3 1\n12\n3 1 2\nB\nC\n++.B\nend\n"
_BLOCK = b"a\n1 1 0 0 0\nb\n"
# Benchmark texts with their first fault; in what the package says a star is the name of the file.
TEXTS = [
    (b"", "NoBlock", f"* has no block: {_EMPTY}"), (b" \n\n", "NoBlock", f"* has no block: {_EMPTY}"),
    (b" \n\t\r\n", "NoBlock"), (b"1 2\n", "Label 1", f"line 1 of * is '1 2': {_WORDS}; {_TABLES}"),
    (b"\n 3 x\n", "Label 2"), (b"a\nb\n", "Head 2", f"line 2 of * is 'b': {_HEAD}; {_TABLES}"),
    (b"a\n", "Head 2", f"* ends after line 1: {_HEAD}; {_TABLES}"), (b"a", "Head 2"), (b"a\n3 2 7 9 9 9\n", "Head 2"),
    (b"a\n\n1 1\nb\n", "Head 4"), (b"a\n3 2 7\n801 9 9\n", "Head 3"),
    (b"a\n2 1 0 0 0\n\n", "Label 4", f"* ends after line 3: {_WORDS}; {_TABLES}"), (b"a\n3 2 7 9 9\n9\n", "Label 3"),
    (b"a\n3 2 7 9 9", "Label 3"), (b"a\n1;2\n", "Byte 2", f"line 2 of * is '1;2': {_BYTE}; {_TABLES}"),
    (b"flowshop instances\n5 x\n", "Byte 2", f"line 2 of * is '5 x': {_BYTE}; {_TABLES}"),
    (b"a\n801 4294967296 1 1 1 1 1,\n", "Byte 2"), (b"a\n3\v2\n", "Byte 2"),
    (b"a\n4294967296", "Number 2", f"line 2 of * is '4294967296': {_NUMBER}; {_TABLES}"),
    (b"a\n801 1 1 1 1 99999999999999999999999\n", "Number 2"),
    (b"a\n0 1 0 0 0\n", "Limits 2", f"line 2 of * is '0 1 0 0 0': {_LIMITS}; {_TABLES}"),
    (b"a\n801 1 1 1 1\n", "Limits 2"), (b"a\n1 0 1 1 1\n", "Limits 2"), (b"a\n1 27 1\n1 1\n", "Limits 3"),
    (_BLOCK + b"1000000\n", "Limits 4"), (_BLOCK + b"5\n" + _BLOCK + b"\n1000000", "Limits 9"),
    (_BLOCK + b"7 8\n", "Times 4", f"line 4 of * is '7 8': {_TIMES}; {_TABLES}"), (_BLOCK + b"1000000 5\n", "Times 4"),
    (_BLOCK + b"c\n", "Times 4"), (_BLOCK, "Times 4"), (b"a\n1 1 0 0 0\nb", "Times 4"),
    (b"a\n2 1 0 0 0\nb\n7", "Times 5", f"* ends after line 4: {_TIMES}; {_ROW}"),
    (b"a\n3 2 0 0 0\nb\n1 2 3\n4 5\n", "Times 6", f"* ends after line 5: {_TIMES}; {_ROW}"),
    (b"a\n3 2 0 0 0\nb\n1 2 3\n4 5\n\n", "Times 7", f"* ends after line 6: {_TIMES}; {_ROW}"),
    (b"a\n3 2 0 0 0\nb\n1 2 3\n c\n1 1 0 0 0\nd\n5\n", "Times 5", f"line 5 of * is ' c': {_TIMES}; {_WORD}"),
    (b"a\n3 2 0 0 0\nb\n1 2 3\n-4 5 6\n", "Times 5", f"line 5 of * is '-4 5 6': {_TIMES}; {_WORD}"),
    (b"number :\r\n  3\t2 7 9\r\n9\r\n\r\ntimes :\r\n3 1\r\n2 2\r\n4\r\n", "Times 9"),
    (_BLOCK + b"4294967296 5 5\n", "Number 4"), (_BLOCK + b"4294967296 5 5 -\n", "Byte 4"),
    (_BLOCK + b"5\nc\n", "Head 6"), (_BLOCK + b"5\n5\n", "Label 5"),
    (LEAST, "Head 4", f"line 4 of * is '3 1 2': {_HEAD}; {_OTHER}"),
    (TREE, "Head 4", f"line 4 of * is '3 1 2': {_HEAD}; {_OTHER}"),
    (b"flowshop two-ended 1\n1 1\n5 5\n1\n\nend\n", "Times 7", f"* ends after line 6: {_TIMES}; {_OTHER}"),
]

# --- Certificates ---

_CHANGED = "the text was cut off or changed, or is of another shop"
_SPAN = f"a sequence of another makespan than line 3 says; {_CHANGED}"
_END = "what follows the last tree, the directions or the number of nodes is not the line"
_PROOF = "which is not one whole proof"
# Changes of these texts: what is put in the place of some bytes, and the first fault then.
CHANGES = [
    (BOUNDS, BOUNDS, b"", "Header", "line 1 is missing, and has to name a certificate, as in 'flowshop t"),
    (BOUNDS, b"two-ended 1", b"two-ended 2", "Header", "line 1 is 'flowshop two-ended 2', and has to name"),
    (BOUNDS, b"two-ended 1", b"bounds 1", "Header"),
    (BOUNDS, b"two-ended 1", b"two-ended " + b"1" * MEGABYTE, "Header"),
    (BOUNDS, b"3 3", b"3 2", "Size", "line 2 is '3 2', which is not of a shop with jobs 3 and machines 3"),
    (BOUNDS, b"3 3", b"3 3 0", "Size"), (BOUNDS, b"3 3", b"3 3" + b"0" * MEGABYTE, "Size"),
    (BOUNDS, b"11 13", b"11", "Value", "line 3 is '11', and has to be the value that is proved, or both bounds"),
    (BOUNDS, b"11 13", b"11 18446744073709551616", "Value"), (LEAST, b"12 12", b"12 ", "Value"),
    (BOUNDS, b"11 13", b"11 13" + b"0" * MEGABYTE, "Value"),
    (BOUNDS, b"2 1 3", b"2 1 2", "Sequence", "line 4 is '2 1 2', and has to have each job from 1 to 3 once"),
    (BOUNDS, b"11 13", b"11 14", "NotAttained", f"line 4 is '2 1 3', {_SPAN}"),
    (BOUNDS, b"11 13", b"10 12", "NotAttained", f"line 4 is '2 1 3', {_SPAN}"),
    (BOUNDS, b"2 1 3", b"1 2 3", "NotAttained", f"line 4 is '1 2 3', {_SPAN}"),
    (LEAST, b"3 1 2", b"2 1 3", "NotAttained"), (BOUNDS, b"11 13", b"10 13", "Tree 5", f"line 5 is '-', {_PROOF}"),
    (BOUNDS, b"11 13", b"12 13", "Tree 5", f"line 5 is '-', {_PROOF}; {_CHANGED}"),
    (LEAST, b"12 12", b"13 12", "Tree 5", f"line 5 is '++', {_PROOF}"), (BOUNDS, b"-\n", b"\n", "Tree 5"),
    (BOUNDS, b"-\n", b"-+\n", "Tree 5"), (BOUNDS, b"-\n", b"x\n", "Tree 5"),
    (BOUNDS, b"-\n", b"-" * MEGABYTE, "Tree 5"), (LEAST, b"++\n", b"+" * MEGABYTE, "Tree 5"),
    (BOUNDS, b"11 13\n2 1 3\n-", b"13 12\n3 1 2\n+++", "Low 5", "line 5 leads to a makespan that is below"),
    (LEAST, b"12 12\n3 1 2\n++", b"13 12\n3 1 2\n+++++", "Low 5"), (BOUNDS, b"\nend\n", b"\n", "End", _END),
    (BOUNDS, b"\nend\n", b"\nend", "End", _END), (BOUNDS, b"\nend\n", b"\nend\n\n", "End"),
    (BOUNDS, b"\nend\n", b"\nEND\n", "End"), (LEAST, b"\nend\n", b"\nend" + b"d" * MEGABYTE, "End"),
    (TREE, TREE, b"", "Header"), (TREE, TREE, TREE[:22], "Header"), (TREE, TREE, b"f" * MEGABYTE, "Header"),
    (TREE, b"certificate 1", b"certificate 3", "Header"),
    (TREE, b"certificate 1", b"certificate " + b"1" * MEGABYTE, "Header"),
    (TREE, b"certificate 1\n3 3 0\n12", b"bounds 1\n3 3 0\n12 12", "Header"),
    (TREE, b"certificate 1\n3 3 0\n12", b"bounds 2\n3 3 0\n12 12", "Header"), (TREE, b"3 3 0", b"3 2 0", "Size"),
    (TREE, b"3 3 0", b"3 3 4", "Size"), (TREE, b"3 3 0", b"3 3", "Size"),
    (TREE, b"3 3 0", b"3 3 " + b"0" * MEGABYTE, "Size"), (TREE, b"\n12\n", b"\n012\n", "Value"),
    (TREE, b"\n12\n", b"\n%d\n" % (MOST + 1), "Value"), (TREE, b"\n12\n", b"\n12" + b"1" * MEGABYTE, "Value"),
    (TREE, b"\n12\n", b"\n12" + b" " * MEGABYTE, "Value"), (TREE, b"3 1 2", b"3 1 3", "Sequence"),
    (TREE, b"3 1 2", b"3 1 4", "Sequence"), (TREE, b"3 1 2", b"3 1 2" + b"2" * MEGABYTE, "Sequence"),
    (TREE, b"\n12\n", b"\n11\n", "NotAttained"), (TREE, b"\n12\n", b"\n%d\n" % MOST, "NotAttained"),
    (TREE, b"3 1 2", b"1 2 3", "NotAttained"), (TREE, b"+B", b".B", "Tree 5", f"line 5 is '.BC++.B', {_PROOF}"),
    (TREE, b"+B", b"+D", "Tree 5"), (TREE, TREE, TREE[:45], "Tree 5"), (TREE, TREE, TREE[:38], "Tree 5"),
    (TREE, b"+BC++.B", b"+" * MEGABYTE, "Tree 5"), (TREE, b"+BC++.B", b"+BC++.B" + b"B" * MEGABYTE, "Tree 5"),
    (TREE, b"+BC++.B", b"A", "Weak 5", f"line 5 has a bound that is below the value; {_CHANGED}"),
    (TREE, b"+B", b"+A", "Weak 5"), (TREE, b"12\n3 1 2", b"13\n2 1 3", "Low 5"), (TREE, b"\nend\n", b"\nENd\n", "End"),
    (TREE, b"\nend\n", b"\nend" + b"d" * MEGABYTE, "End"), (TREE, TREE, TREE[:49], "End"),
    (CUT, b"++.B", b"++.A", "Weak 7"), (CUT, b"++.B\nend\n", b"", "Tree 7"), (CUT, b"++.B\n", b"++.B\n++.B\n", "End"),
    (CUT, b"end\n", b"end\nx", "End"),
]


def text_of(kind, sizes, values, sequence, *lines):
    """A certificate of these lines."""
    heading = [f"flowshop {kind}", sizes, values, " ".join(map(str, sequence))]
    return "".join(f"{line}\n" for line in [*heading, *lines, "end"]).encode()


def _great(kind, sizes, values, *lines, sequence=range(1, 801)):
    return text_of(kind, f"800 26{sizes}", values, sequence, *lines)


_LAST = [*range(2, 801), 1]
# What is said of texts of other shops.
OTHERS = [
    (TWO, TREE, "refused certificate Size"), (TWO, LEAST, "refused certificate Size"),
    (TWO, text_of("certificate 1", "3 2 0", 9, [2, 3, 1], "B"), "refused certificate Weak 5"),
    (TWO, text_of("certificate 1", "3 2 0", 9, [2, 3, 1], "+BBB"), "optimal 9"),
    (TWO, text_of("certificate 2", "3 2 0", 9, [2, 3, 1], "B"), "optimal 9"),
    # A depth above the number of jobs, of which there is no list at all; and one above 3.
    ([[1, 5], [5, 1]], text_of("certificate 1", "2 2 3", 11, [2, 1]), "refused certificate Size"),
    ([[1, 5], [5, 1]], text_of("certificate 1", "2 2 2", 7, [1, 2], ".", "."), "optimal 7"),
    ([[0]] * 4, text_of("certificate 1", "4 1 4", 0, [1, 2, 3, 4], *["."] * 24), "refused certificate Size"),
    ([[0]] * 4, text_of("certificate 1", "4 1 3", 0, [1, 2, 3, 4], *["+."] * 24), "optimal 0"),
    # Points: the first sequence has 5 and the second 4, so that the second is low.
    ([[1], [1]], text_of("certificate 1", "2 1 2", 2, [1, 2], ".", "."), "optimal 2"),
    ([[2, 1], [1, 2]], text_of("certificate 1", "2 2 2", 5, [1, 2], ".", "."), "refused certificate Low 6"),
    ([[7]], text_of("two-ended 1", "1 1", "7 7", [1], ""), "optimal 7"),
    ([[7]], text_of("two-ended 1", "1 1", "8 7", [1], "+"), "refused certificate Low 5"),
    ([[TIME]], text_of("two-ended 1", "1 1", f"0 {TIME}", [1], ""), f"bounds 0 {TIME}"),
    (GREAT, _great("certificate 1", " 0", SPAN, "A"), f"optimal {SPAN}"),
    (GREAT, _great("certificate 1", " 0", SPAN, "+" * 800 + "."), "refused certificate Tree 5"),
    (GREAT, _great("certificate 1", " 0", SPAN, "+" * 801), "refused certificate Tree 5"),
    (GREAT, _great("certificate 2", " 0", SPAN, "Z"), f"optimal {SPAN}"),
    (GREAT, _great("certificate 1", " 0", SPAN, "Z"), "refused certificate Weak 5"),
    (GREAT, _great("certificate 1", " 1", SPAN, *["A"] * 800), f"optimal {SPAN}"),
    (GREAT, _great("certificate 1", " 0", MOST, "A"), "refused certificate NotAttained"),
    (GREAT, _great("two-ended 1", "", f"{SPAN} {SPAN}", ""), f"optimal {SPAN}"),
    (GREAT, _great("two-ended 1", "", f"0 {SPAN}", ""), f"bounds 0 {SPAN}"),
    (GREAT, _great("two-ended 1", "", f"{SPAN} {SPAN}", "+"), "refused certificate Tree 5"),
    (GREAT, _great("two-ended 1", "", f"{SPAN + 1} {SPAN}", "+" * 800), "refused certificate Low 5"),
    (GREAT, _great("two-ended 1", "", f"{MOST} {SPAN}", "-" * 800), "refused certificate Low 5"),
    (GREAT, _great("two-ended 1", "", f"{MOST} {SPAN}", "-+" * 399 + "-"), "refused certificate Tree 5"),
    (GREAT, _great("two-ended 1", "", f"{MOST + 1} {SPAN}", ""), "refused certificate Value"),
    (GREAT, _great("two-ended 1", "", f"{SPAN} {MOST}", ""), "refused certificate NotAttained"),
    (UNEVEN, _great("certificate 1", " 0", SPAN, "+" * 800 + ".", sequence=_LAST), "refused certificate Low 5"),
    (UNEVEN, _great("certificate 2", " 0", SPAN, "+" * 800 + ".", sequence=_LAST), "refused certificate Low 5"),
    (UNEVEN, _great("certificate 1", " 3", SPAN, "Z", sequence=_LAST), "refused certificate Weak 5"),
    (UNEVEN, _great("certificate 2", " 3", SPAN, "Z", sequence=_LAST), "refused certificate Weak 5"),
]

# --- Counted certificates ---

MOST_NODES = 10_000_000_000
# Changes of the text COUNTED: what is put in the place of some bytes, the most nodes that a check may open where it is
# named, and the first fault then, or the bounds. The search below 10 opens no node of the shop, that below 11 one, that
# below 12 two; that below 13 opens three, and meets the sequence 3 1 2.
_COUNTED = [
    (b"", b"", None, "12 12"), (b"", b"", 2, "12 12"), (b"", b"", MOST, "12 12"),
    (b"", b"", 1, "Most"), (b"", b"", 0, "Most"),
    (b"12 12\n3 1 2\n2", b"11 13\n2 1 3\n1", 1, "11 13"), (b"12 12\n3 1 2\n2", b"11 13\n2 1 3\n1", 0, "Most"),
    (b"12 12\n3 1 2\n2", b"11 13\n2 1 3\n0", 0, "Tree 5"), (b"12 12\n3 1 2\n2", b"11 13\n2 1 3\n2", 2, "Tree 5"),
    (b"12 12\n3 1 2\n2", b"10 12\n3 1 2\n0", 0, "10 12"), (b"12 12\n3 1 2\n2", b"10 12\n3 1 2\n1", None, "Tree 5"),
    (b"12 12\n3 1 2\n2", b"0 12\n3 1 2\n0", None, "0 12"), (b"12 12", b"11 12", None, "Tree 5"),
    (b"\n2\n", b"\n0\n", None, "Tree 5"), (b"\n2\n", b"\n1\n", None, "Tree 5"), (b"\n2\n", b"\n3\n", None, "Tree 5"),
    (b"\n2\n", b"\n%d\n" % MOST_NODES, None, "Tree 5"), (b"\n2\n", b"\n%d\n" % (MOST_NODES + 1), None, "Most"),
    (b"\n2\n", b"\n%d\n" % MOST, MOST - 1, "Most"), (b"\n2\n", b"\n%d\n" % MOST, MOST, "Tree 5"),
    (b"\n2\n", b"\n%d\n" % (MOST + 1), MOST, "Value"), (b"\n2\n", b"\n02\n", 0, "Value"),
    (b"\n2\n", b"\n\n", None, "Value"), (b"\n2\n", b"\n+2\n", None, "Value"), (b"\n2\n", b"\n-2\n", None, "Value"),
    (b"\n2\n", b"\n 2\n", None, "Value"), (b"\n2\n", b"\n2 \n", None, "Value"), (b"\n2\n", b"\n2 2\n", None, "Value"),
    (b"\n2\n", b"\n2\r\n", None, "Value"), (b"\n2\n", b"\n++\n", None, "Value"), (b"\n2\n", b"\n\xb2\n", None, "Value"),
    (b"\n2\n", b"\n2" + b"0" * MEGABYTE + b"\n", None, "Value"), (b"\n2\nend\n", b"\n2", None, "Value"),
    (b"2\nend\n", b"", None, "Value"), (b"12 12\n3 1 2\n2", b"13 12\n3 1 2\n2", 2, "Tree 5"),
    (b"12 12\n3 1 2\n2", b"13 12\n3 1 2\n3", 3, "Low 5"), (b"12 12\n3 1 2\n2", b"13 12\n3 1 2\n4", None, "Low 5"),
    (b"12 12\n3 1 2\n2", b"13 12\n3 1 2\n3", 2, "Most"),
    (b"12 12\n3 1 2\n2", b"%d 12\n3 1 2\n0" % MOST, None, "Tree 5"),
    (b"12 12\n3 1 2\n2", b"%d 12\n3 1 2\n%d" % (MOST, MOST), MOST, "Low 5"),
    (b"\nend\n", b"\nend", None, "End"), (b"\nend\n", b"\n", None, "End"), (b"\nend\n", b"\nend\n\n", None, "End"),
    (b"\n2\nend\n", b"\n1\nEnd\n", None, "Tree 5"), (b"\n2\nend\n", b"\n2\nEnd\n", 1, "Most"),
    (b"counted 1", b"counted 2", None, "Header"), (b"counted 1", b"counted 1 ", None, "Header"),
    (b"counted 1", b"counted", None, "Header"), (b"3 3", b"3 2", None, "Size"), (b"3 3", b"3 3 0", None, "Size"),
    (b"12 12", b"12", None, "Value"), (b"12 12", b"%d 12" % (MOST + 1), None, "Value"),
    (b"12 12", b"12 012", None, "Value"), (b"3 1 2", b"3 1 1", None, "Sequence"), (b"3 1 2", b"3 1", None, "Sequence"),
    (b"12 12", b"12 13", None, "NotAttained"), (b"3 1 2\n2", b"1 2 3\n2", 0, "NotAttained"),
]


def _alike(rows, span, most=None):
    """Rows of a shop whose sequences all have this makespan, which is its bound with no job put; those with at most so
    many nodes. A search below more opens the node of no list and one for each job but the last, and meets a sequence.
    """
    jobs, sizes = range(1, len(rows) + 1), f"{len(rows)} {len(rows[0])}"
    for lower, count, said in (
        (span, 0, f"{span} {span}"), (span, 1, "Tree 5"), (0, 0, f"0 {span}"), (span + 1, len(rows), "Low 5"),
        (span + 1, len(rows) - 1, "Tree 5"), (MOST, len(rows), "Low 5"), (MOST, 0, "Tree 5"),
    ):
        if most is None or count <= most:
            yield rows, sizes, f"{lower} {span}", jobs, count, said


# What is said of counted texts of other shops, with no most nodes named: the shop, sizes and numbers, a sequence, the
# count, and the first fault or the bounds. In the first shop the search below 10 opens the nodes of no list, of 2 and
# of 2 1, and meets 2 1 3.
_COUNTED_OTHERS = [
    (TWO, "3 2", "9 9", [2, 3, 1], 0, "9 9"), (TWO, "3 2", "9 9", [2, 3, 1], 1, "Tree 5"),
    (TWO, "3 2", "10 9", [2, 3, 1], 3, "Low 5"), (TWO, "3 2", "10 9", [2, 3, 1], 2, "Tree 5"),
    *_alike([[0]] * 4, 0), *_alike(GREAT, SPAN, most=1),
    (GREAT, "800 26", f"{SPAN + 1} {SPAN}", range(1, 801), 0, "Tree 5"),
    (GREAT, "800 26", f"{SPAN} {SPAN}", range(1, 801), MOST_NODES + 1, "Most"),
]
for _time in (7, 8_191, 10_922, 12_000, 16_383, 16_384, 32_766, 32_767, TIME):
    _COUNTED_OTHERS += [*_alike([[_time]], _time), *_alike([[_time] * 2] * 2, 3 * _time)]
for _machines in (5, 6, 10, 11, 20, 21, 26):
    _COUNTED_OTHERS += _alike([[0] * (_machines - 1) + [5]] * 3, 15)


def counted_checks():
    """What a check says of counted certificates: the shop, the text, the most nodes or None, and the line."""
    rows = [(THREE, COUNTED.replace(old, new, 1), most, said) for old, new, most, said in _COUNTED]
    rows += [(shop, text_of("counted 1", sizes, values, jobs, count), None, said)
             for shop, sizes, values, jobs, count, said in _COUNTED_OTHERS]
    for shop, text, most, said in rows:
        if said[0].isalpha():
            yield shop, text, most, f"refused certificate {said}"
        else:
            lower, upper = said.split()
            yield shop, text, most, f"optimal {upper}" if lower == upper else f"bounds {lower} {upper}"


def checks():
    """What a check says: the shop, the text, the line, and what the package says, if that is stated."""
    for text, old, new, fault, *said in CHANGES:
        yield THREE, text.replace(old, new, 1), f"refused certificate {fault}", "".join(said)
    for shop, text, line in OTHERS:
        yield shop, text, line, ""


def name_of(line):
    """The name of a fault as the library has it, and its place, of a line of the program."""
    name, _, place = re.sub("^refused (certificate|text|sequence|option|instance|plan) ", "", line).partition(" ")
    return re.sub("(?<=[a-z])(?=[A-Z])", "_", name).upper(), int(place or 0)


def block_of(rows):
    """The benchmark text of a shop, in the form that the program writes."""
    lines = [" ".join(map(str, column)) for column in zip(*rows)]
    return "".join(f"{line}\n" for line in ["shop", f"{len(rows)} {len(rows[0])} 0 0 0", "times", *lines]).encode()

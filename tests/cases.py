"""The cases of tests/program: files and runs of the program, group by group. Each group has a folder of its own for its
names, with links to the files of examples/, and the files of worked.py. What the runs should write was worked out by
hand, or by bench/plain.rs and bench/improve.rs, which share nothing with the program.

A run has its words, in which `(a|b)` stands for two runs, with a and with b; the wanted output, or a function that
gives it; the wanted line on standard error, which says the status, or a status without a line; the file that is its
standard input, or else none; a name under which its output is kept; what of the output is looked at; the text of bash
by which it is made, in which "$@" is the program with its words; and the most memory that it may hold, in KB."""

import collections
import functools
import hashlib
import itertools
import pathlib
import re
import subprocess
from functools import partial

import reference
from counts import EXAMPLES, TOP
from plain_texts import bounds_line, plain_block, proved
from refusals import TREE, block_of, text_of
from worked import FILES

FIELDS = "words out line stdin keep view by most"
Run = collections.namedtuple("Run", FIELDS, defaults=("", "", None, None, None, None, 0))
# A file of a text, or of what a function gives in pieces; and one of what a run of the program writes.
File = collections.namedtuple("File", "name text")
Made = collections.namedtuple("Made", "name words")
# For a certificate of the greatest size; other runs may hold 120 MB.
FOR_CERTIFICATE = 1_074_218
MEGABYTES_16 = 16_777_216


def expected(name):
    """A file of worked.py."""
    return FILES[name].decode()


def start(sequence, makespan):
    """The lines of a sequence."""
    return f"sequence {' '.join(map(str, sequence))}\nmakespan {makespan}\n"


def block(jobs, machines, time):
    """A block whose times are all the same."""
    return block_of([[time] * machines] * jobs)


def ones(count):
    """So many jobs with the times 1 and 1, and one with 10 and 10."""
    return block_of([[1, 1]] * count + [[10, 10]])


def of_ones(count, lower, signs, kind="two-ended 1"):
    """The text of that shop with the starting sequence, a lower bound and so many pluses, or the number of them."""
    order = [*range(count, 0, -1), count + 1]
    proof = "+" * signs if kind == "two-ended 1" else str(signs)
    return text_of(kind, f"{count + 1} 2", f"{lower} {count + 20}", order, proof).decode()


@functools.lru_cache(None)
def searched(size_, lower):
    """A starting sequence of a drawn shop, its makespan, and the directions of the search below a lower bound."""
    shop = reference.generated(*size_)
    first = reference.start(shop)
    directions, reached = reference.Search(shop).search(lower)
    assert reached is None
    return first, reference.makespan(shop, first), directions


def of_search(size_, lower, kind):
    """A certificate of these, with the directions or their number."""
    first, upper, directions = searched(size_, lower)
    proof = directions if kind == "two-ended 1" else str(len(directions))
    return [text_of(kind, f"{size_[0]} {size_[1]}", f"{lower} {upper}", first, proof)]


def bounds_of_search(size_, lower):
    """What a check prints of it."""
    return bounds_line(lower, searched(size_, lower)[1]) + "\n"


def pieces(head, piece, count):
    """A long text: its head, and a piece so many times."""
    most = max(1, 1_000_000 // len(piece))
    return lambda: itertools.chain([head], itertools.repeat(piece * most, count // most), [piece * (count % most)])


def sha256(output):
    return hashlib.sha256(output).hexdigest() + "\n"


def size(output):
    return f"{len(output)}\n"


def lines(*numbers):
    """These lines of an output."""
    return lambda output: "".join(output.decode().split("\n")[number - 1] + "\n" for number in numbers)


def matches(pattern):
    """What matches a pattern, in lines."""
    return lambda output: "".join(found + "\n" for found in re.findall(pattern, output.decode()))


def of_two_ended(shop, *numbers):
    """What a two-ended certificate proves, read by plain Python, and these lines of it."""

    def view(output):
        found = proved(plain_block(pathlib.Path(shop).read_bytes(), 1)[0], output)
        return bounds_line(*found[:2]) + "\n" + lines(*numbers)(output)

    return view


def command(*words):
    """What a command makes of an output."""
    return lambda output: subprocess.run(words, input=output, capture_output=True, check=False).stdout.decode()


def picture_of(table):
    """Whether a picture shows what a table has."""

    def view(output):
        pathlib.Path("a.svg").write_bytes(output)
        return command(TOP / "tests" / "pictures", table, "a.svg")(b"") + "right\n"

    return view


def said_of(certificate):
    """What a check says of a lawful two-ended certificate."""
    return lambda: bounds_line(*pathlib.Path(certificate).read_text().split("\n")[2].split()) + "\n"


def version():
    """What --version prints: the version of the file VERSION, and the kit of the release."""
    source = (TOP / "crates" / "flow_words" / "src" / "grammar.rt").read_text()
    kit = re.search('^(its release is proved and built with .*)";$', source, re.M)[1]
    number = (TOP / "VERSION").read_text().strip()
    texts = "certificates of versions 1 and 2, two-ended and counted certificates of version 1"
    return f"flowshop {number}, {texts}; {kit}\n"


def multiplied(name, factor):
    """The text of a block whose times are so many times those of another one."""
    return lambda: [line if number < 3 else re.sub(rb"\d+", lambda time: b"%d" % (int(time[0]) * factor), line)
                    for number, line in enumerate(pathlib.Path(name).read_bytes().splitlines(keepends=True))]


AWK, WITH_NAMES = (("awk", "-f", EXAMPLES / f"{name}.awk") for name in ("from_csv", "with_names"))


def of_table(name):
    """The shop of a table."""
    return lambda: [command(*AWK, name)(b"").encode()]


LEAST_AT_ONE = text_of("certificate 1", "3 3 1", 12, [3, 1, 2], "B", "C", "++.B").decode()
TWO_MACHINES = "sequence 2 3 1\nmakespan 9\n"
TIMETABLE = "job,machine,start,end\n3,1,0,0\n3,2,0,2\n3,3,2,3\n1,1,0,4\n1,2,4,4\n1,3,4,8\n2,1,4,4\n2,2,4,12\n"
TIMETABLE += "2,3,12,12\n"
FROM_START = text_of("certificate 1", "3 3 0", 12, [3, 1, 2], "++B+.++.B++.B").decode()
DOWN, UP = start(range(800, 0, -1), 824_999_175), start(range(1, 801), 824_999_175)
DOWN_ORDER = range(800, 0, -1)
SHORT = (TOP / "examples" / "two_machines.txt").read_bytes()
FAR = "--work 10 --directions 100000"
# The verbose report of a check, behind its first line.
VERBOSE = "block 1 of 1\njobs 3\nmachines 3\nthe head has no seed\nSHA-256 of the text "
VERBOSE += "15f2b8e50604346963f77d068dbfd395f8cd7f60254b47277c787f5c8e769ae7\n"

CASES = {}
CASES["span, gen and neh"] = [
    Run("span two_machines.txt 1 2 3 1", "makespan 9\n"),
    Run("span stdin 1 2 3 1", "makespan 9\n", stdin="two_machines.txt"),
    Run("span three_machines.txt 1 1 2 3", "makespan 15\n"),
    # A text may have 16,777,216 bytes.
    File("exact", pieces(SHORT, b" ", MEGABYTES_16 - len(SHORT))), Run("span exact 1 2 3 1", "makespan 9\n"),
    File("long", pieces(SHORT, b" ", MEGABYTES_16 - len(SHORT) + 1)),
    Run("span long 1 2 3 1", line="failed read TooLong"),
    # As many blocks as a text holds, and numbers and labels as long.
    File("blocks", pieces(b"", b"a\n1 1 1 1 1\nb\n0\n", 1_048_576)), Run("span blocks 1048576 1", "makespan 0\n"),
    Run("span blocks 1048577 1", line="refused index"), File("number", pieces(b"a\n", b"1", MEGABYTES_16 - 2)),
    Run("span number 1 1", line="refused text Number 2"), File("label", pieces(b"", b"\0", MEGABYTES_16)),
    Run("span label 1 1", line="refused text Head 2"),
    Run("gen 20 5 873654221", (TOP / "examples" / "taillard_20_5.txt").read_text()),
    Run("gen 2 2 1", "number of jobs, number of machines, initial seed, upper bound and lower bound :\n2 2 1 122 122\n"
        "processing times :\n1 14\n75 46\n"),
    Run("gen 800 26 1", "021e78424a26b4cf99d389aa83713cf139e4358ab90b355ff3c0bf176db4f028\n", view=sha256),
    Run("neh three_machines.txt 1", "sequence 2 1 3\nmakespan 13\n"), Run("neh two_machines.txt 1", TWO_MACHINES),
    Run("neh stdin 1", TWO_MACHINES, stdin="two_machines.txt"),
    Run("neh stdin 4", line="refused index", stdin="several_blocks.txt"),
    # A table with a row for each job, as a shop. Other tables are tried by tests/tables.
    File("of_rows", of_table("table.csv")),
    Run("neh of_rows 1", "sequence 2 1 3\nmakespan 13\n"), Run("(neh|certify) table.csv 1", line="refused text Head 2"),
]
# The long sequences were worked out apart from the program: those of a beam and of rounds by two programs that share
# nothing with it, and those of large shops by bench/improve.rs.
CASES["improve"] = [
    Run("improve three_machines.txt 1", expected("sequence")),
    Run("improve three_machines.txt 1 (--width 0 --rounds 0|--work 0)", "sequence 2 1 3\nmakespan 13\n"),
    Run("improve three_machines.txt 1 --width 0 --rounds 0 --start start", expected("start")),
    Made("of_neh", "neh taillard_20_5.txt 1"),
    Run("improve taillard_20_5.txt 1 --width 0 --rounds 5 --seed 7", lambda: pathlib.Path("of_neh").read_text()),
    Run("improve taillard_20_5.txt 1 --time-limit 0", lambda: pathlib.Path("of_neh").read_text()),
    Made("shop", "gen 20 10 587595453"),
    Run("improve shop 1 --width 0 --rounds 20 --seed 3",
        start([18, 5, 9, 12, 17, 3, 15, 4, 6, 19, 8, 2, 20, 10, 11, 14, 13, 7, 1, 16], 1596)),
    Run("improve shop 1 --width 16 --rounds 3",
        start([18, 4, 2, 9, 3, 17, 19, 5, 12, 8, 15, 10, 6, 14, 20, 11, 13, 7, 1, 16], 1591)),
    Made("shop", "gen 20 5 379008056"),
    Run("improve shop 1", start([6, 10, 17, 7, 3, 18, 15, 12, 13, 9, 5, 8, 1, 16, 4, 19, 11, 20, 14, 2], 1359)),
    Made("shop", "gen 15 8 7"),
    Run("improve shop 1 --width 32 --rounds 4", start([1, 3, 4, 11, 6, 8, 7, 5, 9, 12, 15, 2, 10, 14, 13], 1206)),
    Made("shop", "gen 30 20 5"),
    Run("improve shop 1 --width 16 --rounds 3", "sequence 7 28 13 20 25 1 16 22 14 17 8 2 24 19 18 10 5 4 9 6 23 27 30 "
        "12 15 29 11 3 26 21\nmakespan 2773\n"),
    # Rounds on large shops: from makespan 43117 to 42912, from 10702 to 10648, and from 5302 to 5206.
    Made("shop", "gen 800 26 1"),
    Run("improve shop 1 --width 0 --rounds 2", "38e2df02f73278dbf7236dd76dbd3e7cea6a92eed556525c76b69fb7ece23e63\n",
        view=sha256),
    Made("shop", "gen 200 10 1"),
    Run("improve shop 1 --width 0 --rounds 20", "3ac8220e3bb23a934c9d5d2408b869f73da870da365f76faed6b9899b80a419d\n",
        view=sha256),
    Made("shop", "gen 100 5 2"), Run("improve shop 1 --width 0 --rounds 30", expected("improved_100_5")),
    # With equal times all sequences have the same makespan, so each start stays.
    File("greatest", block(800, 26, 999_999)), File("up", UP), Run("improve greatest 1", DOWN),
    Run("improve greatest 1 --start up --rounds 100000000", UP),
]
# Two-ended certificates. The sequence of the least makespan is the only one of the first shop, and for each number the
# search has one string of directions. That of 12 is read by hand in docs/formats.md.
CASES["certify"] = [
    Run("certify three_machines.txt 1(| --start start| --rounds 0 --start start)", expected("two_ended")),
    Run("certify three_machines.txt 1 --width 0 --rounds 0(| --directions 100000000| --directions 1000000000 "
        "--proof signs)", expected("two_ended")),
    # Where more directions are asked for, they are counted. As signs there are fewer, and the refusal says the range;
    # the numbers of an improvement come before, and the workers behind.
    Run("certify three_machines.txt 1 --directions (100000001|1000000001|1000000000000000)(| --workers 3)(| --proof "
        "count)", expected("counted")),
    Run("certify three_machines.txt 1 --directions (0|1000000000000001|18446744073709551615)(| --proof count)"
        "(| --workers 0)", line="refused option Directions: 1 to 1000000000000000"),
    Run("certify three_machines.txt 1 --proof signs --directions (0|1000000001|1000000000000001)(| --workers 0)",
        line="refused option Directions: 1 to 1000000000 with --proof signs"),
    Run("certify three_machines.txt 1 --directions 0(| --proof signs) --work 1000001", line="refused option Work"),
    # In no time there are the starting sequence, and the bound of the empty lists. With time enough this is proved.
    Run("certify three_machines.txt 1 --time-limit 0(| --workers 2)",
        text_of("two-ended 1", "3 3", "10 13", [2, 1, 3], "").decode()),
    Run("certify three_machines.txt 1 --time-limit 4294967295(| --workers 2)", expected("two_ended")),
    Run("certify stdin 1 --rounds 0 --seed 2147483646", expected("two_ended"), stdin="three_machines.txt"),
    Run("certify three_machines.txt 1 --proof signs", expected("two_ended")),
    Run("certify three_machines.txt 1 --proof count(| --start start| --workers 2)", expected("counted")),
    Run("certify three_machines.txt 1 --time-limit 0 --proof count",
        text_of("counted 1", "3 3", "10 13", [2, 1, 3], "0").decode()),
    # A shop whose empty lists have the least makespan as their bound has no direction.
    Run("certify two_machines.txt 1 --width 0 --rounds 0 --directions 1",
        text_of("two-ended 1", "3 2", "9 9", [2, 3, 1], "").decode()),
    # The published least makespan of this instance is 1278, and that of the starting sequence is 1286. The directions
    # were worked out apart from the program.
    *[row for words in ("", " --width 0 --rounds 0", f" {FAR}") for row in (
        Run(f"certify taillard_20_5.txt 1{words}", "optimal 1278\n1278 1278\n-----+-\n", keep="certified",
            view=of_two_ended("taillard_20_5.txt", 3, 5)),
        Run("check taillard_20_5.txt 1 certified(| --optimal)", "optimal 1278\n"),
    )],
    # Published least makespans; and those of an instance that solve certifies from another start alone, and of one
    # whose tree is over its budget, which bench/plain.rs solves with its machines in reverse order. The bound of the
    # two empty lists of the last one is 5206, and the rounds of bench/improve.rs find a sequence that has it.
    *[row for size_, value in (("20 5 379008056", 1359), ("20 5 88325120", 1108), ("15 5 18", 1028), ("20 5 13", 1512),
                               ("100 5 2", 5206)) for row in (
        Made("shop", f"gen {size_}"),
        Run(f"certify shop 1 {FAR}", f"optimal {value}\n", keep="certified", view=of_two_ended("shop")),
        Run("check shop 1 certified", f"optimal {value}\n"),
    )],
    # What check prints of the sequence is a start.
    Made("of_check", "check shop 1 certified --sequence"),
    Run("certify shop 1 --width 0 --rounds 0 --directions 1 --start of_check", "optimal 5206\n", keep="certified",
        view=of_two_ended("shop")),
    Run("check shop 1 certified", "optimal 5206\n"),
    # Jobs with the times 1 and 1, and one with 10 and 10. All sequences of COUNT of them and that one have the makespan
    # COUNT + 20, which is also the bound of a node with the long job in a list; any other node has the bound COUNT +
    # 11, and ends that are alike. So the directions of each number above that one have a plus for each list of distinct
    # short jobs.
    File("ones", ones(8)), File("of_ones", of_ones(8, 28, 109_601)), File("bounds_of_ones", of_ones(8, 19, 0)),
    Run("certify ones 1 --width 0 --rounds 0(| --directions 1000000| --workers 1| --workers 2| --workers 3| --workers 4"
        "| --workers 64)", of_ones(8, 28, 109_601)),
    Run("certify ones 1 --width 0 --rounds 0 --directions (1|109600|109600 --workers 3)", of_ones(8, 19, 0)),
    Run("certify ones 1 --work 10 --directions 1", "bounds 19 28\n", keep="certified", view=of_two_ended("ones")),
    Run("check ones 1 (certified|bounds_of_ones)", "bounds 19 28\n"), Run("check ones 1 of_ones", "optimal 28\n"),
    # The same directions, counted. What one says becomes the other, and a check counts no more than it may.
    File("counted", of_ones(8, 28, 109_601, "counted 1")),
    Run("certify ones 1 --width 0 --rounds 0 (--proof count|--directions 100000001|--directions 1000000000000000)"
        "(| --workers 3)", of_ones(8, 28, 109_601, "counted 1")),
    Run("check ones 1 counted(| --most 109601| --optimal| --workers 1| --workers 3| --workers 64 --most 109601)",
        "optimal 28\n"),
    Run("signs ones 1 counted", of_ones(8, 28, 109_601)),
    Run("check ones 1 counted --most (0|109600|109600 --workers 3)", line="refused certificate Most"),
    *[row for count in (109_600, 109_602) for row in (
        File("counted", of_ones(8, 28, count, "counted 1")),
        Run("check ones 1 counted(| --workers 3)", line="refused certificate Tree 5"),
        Run("signs ones 1 counted", line="refused certificate Tree 5"),
    )],
    File("counted", of_ones(8, 29, 109_601, "counted 1")),
    Run("(check|signs) ones 1 counted", line="refused certificate Low 5"),
    Run("check ones 1 counted --workers 3", line="refused certificate Low 5"),
    File("ones", ones(10)), File("of_ones", of_ones(10, 30, 9_864_101)),
    Run("certify ones 1 --width 0 --rounds 0(| --workers 4)", sha256(of_ones(10, 30, 9_864_101).encode()), view=sha256),
    # A run that counts holds no signs: they are 10 MB.
    Run("certify ones 1 --width 0 --rounds 0 (--proof count|--directions 1000000000000000)",
        of_ones(10, 30, 9_864_101, "counted 1"), by='prlimit --data=8000000 "$@"'),
    Run("check ones 1 of_ones --optimal", "optimal 30\n"), File("ones", ones(13)),
    Run("certify ones 1 --width 0 --rounds 0 --directions 100000", "bounds 24 33\n", keep="certified",
        view=of_two_ended("ones")),
    Run("check ones 1 certified", "bounds 24 33\n"),
    Run("check ones 1 certified --optimal", line="refused bounds 24 33"),
]
CASES["check"] = [
    Run("check three_machines.txt 1 (certificate|certificate --optimal|two_ended)", "optimal 12\n"),
    *[Run("check three_machines.txt 1 /dev/stdin", "optimal 12\n", stdin=name)
      for name in ("certificate", "two_ended")],
    Run("check three_machines.txt 1 certificate --verbose --optimal", f"optimal 12\n{VERBOSE}trees 1\nSHA-256 of the "
        "certificate 84ba2b368fc3674a585d1b1ffdacdda358ea3559ce3b290ebaf7901b4700be30\n"),
    Run("check several_blocks.txt 2 several_blocks_2 --verbose", "optimal 421\nblock 2 of 3\njobs 8\nmachines 4\n"
        "the times are those of seed 2\nSHA-256 of the text "
        "91bb79e5f50d0c570168d5187a00caa76b3abebced86ca8592712638bd0eab0d\n"
        "trees 8\nSHA-256 of the certificate 66474dcdd7e838497765e44705f3db45355e45b55a1cec8b87191a67e37ed76f\n"),
    # A forged shop keeps the seed of the published one.
    File("forged", re.sub("(?m)^54", "55", (TOP / "examples" / "taillard_20_5.txt").read_text(), count=1)),
    Made("of_forged", "certify forged 1"),
    Run("check forged 1 of_forged --verbose", "optimal 1279\nblock 1 of 1\njobs 20\nmachines 5\n"
        "the times are not those of seed 873654221\ndirections 7\n", view=matches("(?m)^(?!SHA-256).+$")),
    Run("check three_machines.txt 1 two_ended --optimal --sequence", expected("sequence")),
    # Bounds, read by hand in docs/formats.md.
    File("bounds", "flowshop two-ended 1\n3 3\n11 13\n2 1 3\n-\nend\n"),
    Run("check three_machines.txt 1 bounds", "bounds 11 13\n"),
    Run("check three_machines.txt 1 bounds --verbose", f"bounds 11 13\n{VERBOSE}directions 1\n"
        "SHA-256 of the certificate 65d462f811c6499507511ac12ea40b07879ae26ac4e38d1bf31051ca9ca09dd5\n"),
    Run("check three_machines.txt 1 bounds --sequence", "sequence 2 1 3\nmakespan 13\n"),
    Run("check three_machines.txt 1 bounds( --optimal| --sequence --optimal| --verbose --optimal)",
        line="refused bounds 11 13"),
    Run("check three_machines.txt 1 bounds --verbose --sequence", line="refused command line"),
    # A counted certificate. What it may state is looked at before it is searched, and the workers before the text.
    Run("check three_machines.txt 1 counted(| --optimal| --most 2| --workers 64)", "optimal 12\n"),
    Run("check three_machines.txt 1 counted --verbose", f"optimal 12\n{VERBOSE}nodes 2\nSHA-256 of the certificate "
        + sha256(FILES["counted"])),
    Run("check three_machines.txt 1 counted --sequence --optimal", expected("sequence")),
    Run("check three_machines.txt 1 counted --most (0|1)", line="refused certificate Most"),
    Run("check three_machines.txt 1 (certificate|two_ended) --most 0 --workers 64", "optimal 12\n"),
    Run("check three_machines.txt 1 (counted|certificate|start) --workers (0|65)", line="refused option Workers"),
    Run("check three_machines.txt 2 counted --workers 65", line="refused index"),
    File("many", text_of("counted 1", "3 3", "12 12", [3, 1, 2], f"{10**10 + 1}")),
    Run("(check|schedule) three_machines.txt 1 many", line="refused certificate Most"),
    Run("check three_machines.txt 1 many --most (10000000001|18446744073709551615)",
        line="refused certificate Tree 5"),
    # signs takes counted certificates alone, and none with more nodes than signs are written.
    Run("signs three_machines.txt 1 counted", expected("two_ended")),
    Run("signs three_machines.txt 1 (certificate|two_ended|start|/dev/null)", line="refused certificate Header"),
    Run("signs three_machines.txt 1 many", line="refused certificate Most"),
    File("many", text_of("counted 1", "3 3", "12 12", [3, 1, 2], "999990000")),
    Run("signs three_machines.txt 1 many", line="refused certificate Tree 5"),
    File("many", text_of("counted 1", "3 3", "12 12", [3, 1, 2], "999990001")),
    Run("signs three_machines.txt 1 many", line="refused certificate Most"),
    Run("check three_machines.txt 1 many", line="refused certificate Tree 5"),
    # Certificates of the greatest size. Line 5 has no sign in one two-ended text, and nothing but signs in the other,
    # which needs two.
    File("long", lambda: [10**9]),
    Run("check three_machines.txt 1 long", line="refused certificate Header", most=FOR_CERTIFICATE),
    File("long", lambda: [10**9 + 1]),
    Run("check three_machines.txt 1 long", line="failed read TooLong", most=FOR_CERTIFICATE),
    File("long", lambda: [b"flowshop two-ended 1\n3 3\n12 12\n3 1 2\n", 10**9]),
    Run("check three_machines.txt 1 long", line="refused certificate Tree 5", most=FOR_CERTIFICATE),
    File("long", pieces(b"flowshop two-ended 1\n3 3\n12 12\n3 1 2\n", b"+", 999_999_963)),
    Run("check three_machines.txt 1 long", line="refused certificate Tree 5", most=FOR_CERTIFICATE),
]
# The search of drawn shops, by the plain search of reference.py, which reaches no sequence below these numbers. The
# upper bound is the makespan of the starting sequence.
CASES["counted"] = [row for size_, lower in (
    ((9, 5, 3), 637), ((9, 6, 11), 678), ((9, 6, 11), 660), ((8, 10, 5), 958), ((10, 8, 7), 978), ((10, 8, 7), 950),
) for row in (
    Made("shop", f"gen {' '.join(map(str, size_))}"),
    File("counted", partial(of_search, size_, lower, "counted 1")),
    Run("check shop 1 counted(| --workers 3)", partial(bounds_of_search, size_, lower)),
    File("two_ended", partial(of_search, size_, lower, "two-ended 1")),
    Run("signs shop 1 counted", lambda: pathlib.Path("two_ended").read_text()),
    Run("check shop 1 two_ended", partial(bounds_of_search, size_, lower)),
)]
CASES["solve"] = [
    Run("solve three_machines.txt 1 --depth 0", expected("certificate")),
    Run("solve three_machines.txt 1(| --workers 1| --workers 2| --workers 3| --workers 64)", LEAST_AT_ONE),
    Run("solve three_machines.txt 1 --workers (1|2|3|64) --depth 2 --budget 2",
        text_of("certificate 1", "3 3 2", 12, [3, 1, 2], *"BBCB", "+.", "B").decode()),
    Run("solve three_machines.txt 1 --budget 1 --depth 3 --workers (1|2|3|64)",
        text_of("certificate 1", "3 3 3", 12, [3, 1, 2], *"......").decode()),
    Run("solve two_machines.txt 1 --depth 0", text_of("certificate 1", "3 2 0", 9, [2, 3, 1], "+BBB").decode()),
    Run("solve two_machines.txt 1 --depth 0 --certificate 2",
        text_of("certificate 2", "3 2 0", 9, [2, 3, 1], "B").decode()),
    # Several blocks, and each certificate checked.
    *[row for index, value in enumerate((303, 421, 708), 1) for row in (
        Run(f"solve several_blocks.txt {index} --workers 2", expected(f"several_blocks_{index}")),
        Run(f"check several_blocks.txt {index} several_blocks_{index}", f"optimal {value}\n"),
    )],
    Run("solve stdin 2", expected("several_blocks_2"), stdin="several_blocks.txt"),
    Run("solve several_blocks.txt 2 --depth 2 --workers 3", expected("several_blocks_2_depth_2")),
    Run("check several_blocks.txt 2 several_blocks_2_depth_2", "optimal 421\n"),
    Run("check stdin 2 several_blocks_2", "optimal 421\n", stdin="several_blocks.txt"),
    Run("check stdin 1 several_blocks_2", line="refused certificate Size", stdin="several_blocks.txt"),
    Run("solve large_tree.txt 1 --depth 2 --workers (1|4)", keep="of_large_tree", view=sha256,
        out="b9b03240036800f85a59667c83612d5702c8b426f39cedbad1c88421aa5d9e01\n"),
    Run("check large_tree.txt 1 of_large_tree", "optimal 866\n"),
    # Starts. These certificates were computed apart from the program, by the definitions.
    Run("solve three_machines.txt 1 --depth 0 --start start", FROM_START),
    # The instance of docs/manual.md with a start. The value and the size are those of a copy of bench/plain.rs that
    # begins with a given start.
    Made("shop", "gen 15 5 18"), Run("solve shop 1", line="refused run OverBudget 11"),
    File("of_shop", start([1, 5, 3, 8, 12, 6, 4, 9, 15, 13, 7, 11, 14, 10, 2], 1028)),
    Run("solve shop 1 --start of_shop", "235633\n", keep="certified", view=size),
    Run("check shop 1 certified", "optimal 1028\n"), Made("shop", "gen 20 5 13"),
    Run("solve shop 1 --depth 0", line="refused run OverBudget 0"),
    File("long_start", pieces(b"sequence", b" 1", 8_388_604)),
    Run("solve three_machines.txt 1 --start long_start", line="refused sequence Length"),
    # Plans and budgets that are refused.
    Run("solve three_machines.txt 1 --workers (1|2|3|64) --budget 3", line="refused run OverBudget 2"),
    File("of_one_job", "a\n1 1 0 0 0\nb\n0\n"), Run("solve of_one_job 1 --depth 2", line="refused plan Depth"),
    # A search ends soon after its tree is longer than the budget: this instance's tree has more than 100 MB.
    Run("solve taillard_20_5.txt 1 --budget 1000", line="refused run OverBudget 0"),
]
# Timetables, worked out by hand. A certificate, or a two-ended one, gives its sequence; and what check prints of it
# reads as a start. The names of a table are put back into the timetable of its shop, and its unit.
CASES["schedule"] = [
    Run("schedule three_machines.txt 1 sequence(| --form csv)", TIMETABLE, keep="times.csv"),
    Run("schedule stdin 1 sequence", TIMETABLE, stdin="three_machines.txt"),
    Run("schedule three_machines.txt 1 start", "job,machine,start,end\n1,1,0,4\n1,2,4,4\n1,3,4,8\n2,1,4,4\n2,2,4,12\n"
        "2,3,12,12\n3,1,4,4\n3,2,12,14\n3,3,14,15\n"),
    Run("check three_machines.txt 1 (certificate|two_ended) --sequence", expected("sequence"), keep="of_check"),
    Run("schedule three_machines.txt 1 (of_check|certificate|two_ended|counted)", TIMETABLE),
    *[Run("schedule three_machines.txt 1 /dev/stdin", TIMETABLE, stdin=name) for name in ("certificate", "two_ended")],
    Run("solve three_machines.txt 1 --depth 0 --start of_check", TREE.decode().replace("C++.B", "C+AB")),
    Run("schedule three_machines.txt 1 sequence --form svg", "right\n", view=picture_of("times.csv")),
    Made("of_neh", "neh taillard_20_5.txt 1"), Made("times.csv", "schedule taillard_20_5.txt 1 of_neh"),
    Run("schedule taillard_20_5.txt 1 of_neh --form svg", "right\n", view=picture_of("times.csv")),
    # The title of a picture says what is proved: of a certificate, of one whose bounds differ, and of a sequence.
    File("bounds", "flowshop two-ended 1\n3 3\n11 13\n2 1 3\n-\nend\n"),
    *[Run(f"schedule three_machines.txt 1 {name} --form svg", f"{title}, jobs 3, machines 3\n",
          view=matches("\n<title>([^<]*)")) for name, title in (
        ("(two_ended|certificate|counted)", "optimal 12"), ("bounds", "makespan 13, lower bound 11"),
        ("sequence", "makespan 12"),
    )],
    # A bar and a time of the greatest shop: 20,800 of them, below 8 MB.
    File("greatest", block(800, 26, 999_999)), File("up", UP),
    Run("schedule greatest 1 up --form svg", "20800 True\n",
        view=lambda output: f"{output.count(b'<rect ')} {len(output) < 8_000_000}\n"),
    File("of_table", of_table("table.csv")),
    Run("schedule of_table 1 sequence", 'job,machine,start,end\nTable,Cut,0,0\nTable,Weld,0,2\nTable,Paint,2,3\n'
        '"Shelf, large",Cut,0,4\n"Shelf, large",Weld,4,4\n"Shelf, large",Paint,4,8\nDoor,Cut,4,4\nDoor,Weld,4,12\n'
        'Door,Paint,12,12\n', view=command(*WITH_NAMES, "of_table", "/dev/stdin")),
    File("of_quarters", "jobs\tDoor\tShelf\n2 2 0 0 0\n"
         "machines, times in 1/4, decimal comma, separator semicolon\tCut\tWeld\n6 2\n1 8\n"),
    File("of_names", "sequence 2 1\nmakespan 11\n"),
    Run("schedule of_quarters 1 of_names", "job,machine,start,end\n2,1,0,2\n2,2,2,10\n1,1,2,8\n1,2,10,11\n"),
    Run("schedule of_quarters 1 of_names", "job;machine;start;end\nShelf;Cut;0;0,5\nShelf;Weld;0,5;2,5\n"
        "Door;Cut;0,5;2\nDoor;Weld;2,5;2,75\n", view=command(*WITH_NAMES, "of_quarters", "/dev/stdin")),
]
# The greatest shops. Each job leaves a machine one time after the job before it: the makespan is 800 + 26 - 1 times. Of
# equal jobs each is put in first. No sequence is below the bound of the two empty lists here, so the starting sequence
# is proved without a sign.
CASES["the greatest"] = [
    File("greatest", block(800, 26, 999_999)), Run("neh greatest 1", DOWN),
    Run("solve greatest 1 --depth 0", text_of("certificate 1", "800 26 0", 824_999_175, DOWN_ORDER, "A").decode(),
        keep="certified"),
    Run("check greatest 1 certified", "optimal 824999175\n"),
    Run("certify greatest 1", text_of("two-ended 1", "800 26", "824999175 824999175", DOWN_ORDER, "").decode()),
    # As many blocks of this size as a text holds, and a sequence of 800 jobs.
    File("blocks", pieces(b"", block(800, 26, 999_999), 110)),
    Run(f"span (greatest 1|blocks 110) {' '.join(map(str, DOWN_ORDER))}", "makespan 824999175\n"),
    File("zeros", block(800, 26, 0)),
    Run("solve zeros 1 --workers 64", text_of("certificate 1", "800 26 1", 0, DOWN_ORDER, *"A" * 800).decode(),
        keep="certified"),
    Run("check zeros 1 certified", "optimal 0\n"),
    Run("certify zeros 1", text_of("two-ended 1", "800 26", "0 0", DOWN_ORDER, "").decode()),
    Run("solve zeros 1 --depth 2", line="refused plan Prefixes"),
    # 316 jobs have 99,540 lists of two.
    File("jobs", block(316, 1, 0)),
    Run("solve jobs 1 --depth 2 --workers 4",
        text_of("certificate 1", "316 1 2", 0, range(316, 0, -1), *"A" * 99_540).decode()),
    # Drawn times; and times of up to 999,999, all of them multiples of 10,101. The bounds of both are lawful.
    Made("drawn", "gen 800 26 1"), File("long_times", multiplied("drawn", 10_101)),
    *[row for name in ("drawn", "long_times") for row in (
        Run(f"certify {name} 1 {FAR}", "flowshop two-ended 1\n", keep="certified", view=lines(1)),
        Run(f"check {name} 1 certified", said_of("certified")),
    )],
]
COMMANDS = ("neh two_machines.txt 1", "span two_machines.txt 1 2 3 1", "gen 2 2 1", "solve two_machines.txt 1",
            "--help", "improve two_machines.txt 1", "certify two_machines.txt 1", "certify ones 1 --width 0 --rounds 0",
            "check three_machines.txt 1 certificate", "check three_machines.txt 1 certificate --sequence",
            "schedule three_machines.txt 1 sequence", "schedule three_machines.txt 1 sequence --form svg",
            "signs three_machines.txt 1 counted", "check three_machines.txt 1 counted --workers 2")
PROGRESS = Run("certify ones 1 --width 0 --rounds 0 --progress", of_ones(8, 28, 109_601))
# Streams that are full, that are closed, and that do not end. The limit on the size of files has its signal ignored.
# What certify --progress says changes nothing, also where standard error is closed or full; and a full pipe that nobody
# reads gets no line, not even that of a refusal.
CASES["streams"] = [
    File("ones", ones(8)),
    *[Run(words, line="failed write Device", by=by) for by in ('"$@" >/dev/full', '"$@" >&-') for words in COMMANDS],
    Run("gen 100 20 1", line="failed write Device", by='trap "" XFSZ; ulimit -f 1; "$@" >limited'),
    Run("check stdin 1 certificate", line="failed read Device", by='"$@" <&-'),
    Run("check three_machines.txt 1 /dev/stdin", line="failed open", by='"$@" <&-'),
    Run("check three_machines.txt 1 certificate", "optimal 12\n", by='"$@" <&-'),
    Run("neh two_machines.txt 1", TWO_MACHINES, by='"$@" 2>&-'), Run("neh two_machines.txt 2", line=1, by='"$@" 2>&-'),
    *[PROGRESS._replace(by=by) for by in ('"$@" 2>&-', '"$@" 2>/dev/full', '"$@" 2> >(exec true)', 'unheard "$@"')],
    PROGRESS._replace(line="", by='"$@" 2>none'), PROGRESS._replace(out="", line=3, by='unheard "$@" >/dev/full'),
    # A pipe that is closed in the middle, and one before the first byte.
    Run("solve large_tree.txt 1 --depth 0 --budget 100000000", line="failed write Device", by='half_read "$@"'),
    Run("certify ones 1 --width 0 --rounds 0", line="failed write Device", by='half_read "$@"'),
    Run("certify three_machines.txt 1", line="failed write Device", by='unread "$@"'),
    # Pipes: as a start, a certificate, in two pieces, and without an end.
    Run("solve three_machines.txt 1 --start /dev/stdin", LEAST_AT_ONE, by='"$1" neh three_machines.txt 1 | "$@"'),
    Run("schedule two_machines.txt 1 /dev/stdin", "job,machine,start,end\n2,1,0,1\n2,2,1,5\n3,1,1,3\n3,2,5,7\n1,1,3,6\n"
        "1,2,7,9\n", by='"$1" neh two_machines.txt 1 | "$@"'),
    Run("check three_machines.txt 1 /dev/stdin", "optimal 12\n", by='cat certificate | "$@"'),
    Run("neh /dev/stdin 1", TWO_MACHINES, by='in_pieces | "$@"'),
    Run("span /dev/stdin 1 1", line="failed read TooLong", by='endless | "$@"'),
    Run("schedule three_machines.txt 1 /dev/stdin --form (csv|svg)", line="failed read TooLong",
        by='cat sequence /dev/zero | "$@"'),
    # A certificate without an end takes the memory of one of the greatest size.
    Run("check three_machines.txt 1 /dev/stdin", line="failed read TooLong", by='endless | "$@"', most=FOR_CERTIFICATE),
    # FIFOs: in two pieces, closed in the middle of line 3 and of line 5, and without an end.
    Run("span fifo 1 2 3 1", "makespan 9\n", by='mkfifo fifo; in_pieces >fifo & "$@"'),
    Run("span fifo 1 2 3 1", line="refused text Times 4",
        by='{ head -n 2 two_machines.txt; printf proc; } >fifo & "$@"'),
    Run("check three_machines.txt 1 fifo", line="refused certificate Tree 5", by='head -c 40 certificate >fifo & "$@"'),
    Run("span fifo 1 1", line="failed read TooLong", by='endless >fifo & "$@"'),
]
# The commands, and command lines that are refused. docs/refusals.md says of some what to write instead.
CASES["words"] = [
    Run("(--help|-h|help)", "certify\nspan\ngen\nneh\nimprove\nsolve\ncheck\nsigns\nschedule\nhelp\n",
        view=matches("(?m)^  ([a-z]+)  .*")),
    Run("(--version|-V)", version()),
    Run("(|sort|gen 1 1 1 1|gen 1 1 4294967296|mirror two_machines.txt 1|neh two_machines.txt x)",
        line="refused command line"),
    Run("span two_machines.txt 1(| 65536)", line="refused command line"),
    Run("solve two_machines.txt 1 (--workers -1|--mirrored|--target 9|--start)", line="refused command line"),
    Run("check (two_machines.txt 1|three_machines.txt 1 certificate --either|three_machines.txt certificate)",
        line="refused command line"),
    Run("check three_machines.txt 1 counted --most(| -1| x| 18446744073709551616| 1 --most 2)",
        line="refused command line"),
    Run("(signs three_machines.txt 1|signs three_machines.txt 1 counted --most 2"
        "|check three_machines.txt 1 counted --proof count)", line="refused command line"),
    Run("certify three_machines.txt 1 --proof(| sign| Count| count --proof signs)", line="refused command line"),
    Run("certify three_machines.txt(| 1 -o certificate| 1 --output certificate| 1 --time 60| 1 --rounds 1,000"
        "| 1 --bounds| 1 --certificate 1| 1 --mirrored| 1 --progress --progress| 1 --progress=1"
        "| 1 --time-limit 1.5| 1 --time-limit 10s)",
        line="refused command line"),
    *[Run(f"certify three_machines.txt 1 --{name}(| {above}| -1| 1 --{name} 1)", line="refused command line")
      for name, above in (("directions", 2**64), ("workers", 2**32), ("rounds", 2**32), ("time-limit", 2**32))],
    Run("improve three_machines.txt 1 --rounds", line="refused command line"),
    Run("schedule three_machines.txt 1(| sequence 2)", line="refused command line"),
    Run("schedule three_machines.txt 1 sequence --form(| pdf| png| CSV| csv --form svg)", line="refused command line"),
    # A name with blanks, and files of the name stdin.
    File("stdin", SHORT), Run("neh ./stdin 1", TWO_MACHINES),
    Run("neh", TWO_MACHINES,
        by="mkdir -p 'a folder'; cp two_machines.txt 'a folder/a file'; \"$@\" 'a folder/a file' 1"),
    File("stdin", "sequence 1 2 3\n"),
    Run("solve stdin 1 --depth 0 --start stdin", FROM_START, stdin="three_machines.txt"),
]

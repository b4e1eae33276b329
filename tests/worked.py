"""Texts that several tests read, which were worked out apart from the program: by hand in docs/formats.md, by
bench/plain.rs, and by bench/improve.rs. They stand beside the files of examples/ where tests/program runs."""

from refusals import COUNTED, LEAST, TREE, text_of

_TREES = ("C C D D D D D C C C C C C C C C C C C C C C B B C C C C D C D D D D D D C C C C D D "
          "+CC+BCCC+BCD+ABDD+CC+BBCC++C+BA++.A++BD+BDD+BC+A+.DDD C C C D ++CC+BBCCD++CAC++AC+ADD+ABDDCCCDD D D D D D "
          "D D D")
_SEQUENCE = ("sequence 1 75 15 95 78 84 91 69 6 80 54 56 71 10 22 55 70 31 38 27 48 9 35 33 72 20 68 89 93 86 94 32 97 "
             "21 34 45 81 57 47 5 26 90 92 37 98 8 7 58 41 28 14 19 44 53 62 61 76 18 59 17 46 65 83 23 50 40 3 11 66 "
             "77 2 82 87 73 60 88 67 64 25 49 4 42 99 85 100 13 43 24 39 63 36 52 29 30 79 12 16 74 96 51")


def _several(index, sizes, value, sequence, trees):
    return {f"several_blocks_{index}": text_of("certificate 1", sizes, value, sequence.split(), *trees.split())}


FILES = {
    "sequence": b"sequence 3 1 2\nmakespan 12\n", "start": b"sequence 1 2 3\nmakespan 15\n", "certificate": TREE,
    "two_ended": LEAST, "counted": COUNTED, "improved_100_5": f"{_SEQUENCE}\nmakespan 5206\n".encode(),
    **_several("1", "5 3 1", 303, "1 2 4 3 5", "++B+BA+CAB++BACB++CACB ++B+BA+CABBB B B B"),
    **_several("2", "8 4 1", 421, "7 1 6 5 4 8 3 2",
               "D C C C D D ++CC+BCCC+BCD+ABDD+CC+BBCC++C+BA++.A++BD+BDD+BC+A+.DDDCCCCDD D"),
    **_several("2_depth_2", "8 4 2", 421, "7 1 6 5 4 8 3 2", _TREES),
    **_several("3", "10 5 1", 708, "1 8 10 4 2 7 9 3 5 6", "E E D E E D E E E E"),
}

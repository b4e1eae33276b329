"""Shops and texts that are drawn: certificates of both kinds as other makers may write them, benchmark texts in each
freedom of their form, starts, and changes of any text. A shop is as in reference.py; `draw` is a random.Random."""

import re

from plain_texts import list_bound
from reference import bound, least, root_bound, rows_of
from refusals import block_of, text_of

# Bytes that stand in texts, or are close to those that do.
BYTES = b"0129 \n\r+-.ACDe"
GREAT = (255, 256, 65_535, 65_536, 10**6, 2**31, 2**32 - 1, 2**32, 2**63, 2**64 - 1, 2**64, 10**20, 10**25)

# --- Shops ---


def drawn_shop(draw, most_jobs, most_machines):
    """A shop with times that are small, great, or such that makespans are near the greatest number of 15 or 16 bits;
    some have many ties, many zeros, or one time alone."""
    jobs, machines = (max(draw.randint(1, most), draw.randint(1, most)) for most in (most_jobs, most_machines))
    near = [limit // (jobs + machines - 1) for limit in (32_767, 65_535)]
    ranges = [(0, most) for most in (2, 9, 9, 20, 99, 99, 999_999)] + [(time - 1, time + 1) for time in near]
    least, most = draw.choice([*ranges, (999_998, 999_999)])
    few = [draw.randint(least, most) for _ in range(draw.choice([1, 2, 3] + [99] * 12))]
    zeros = draw.choice([0, 0, 0, 0, 0, 0.3, 0.8])
    return jobs, machines, [0 if draw.random() < zeros else draw.choice(few) for _ in range(jobs * machines)]


def hard_shop(draw, most_jobs, most_machines):
    """A drawn shop, mostly one of which the bound with no job put is not the least makespan."""
    shop = drawn_shop(draw, most_jobs, most_machines)
    for _ in range(draw.choice([0, 3, 9, 9])):
        if root_bound(shop) < least(shop):
            break
        shop = drawn_shop(draw, most_jobs, most_machines)
    return shop


def drawn_order(draw, shop):
    """The jobs in a drawn order."""
    return draw.sample(range(1, shop[0] + 1), shop[0])

# --- Certificates ---


def joined(lines):
    """The text of these lines, which are bytes, words or numbers."""
    return b"".join((line if isinstance(line, bytes) else str(line).encode()) + b"\n" for line in lines)


def two_ended_text(shop, lower, upper, sequence, signs):
    """The two-ended certificate of these bounds and signs."""
    signs = signs.decode() if isinstance(signs, bytes) else signs
    return text_of("two-ended 1", f"{shop[0]} {shop[1]}", f"{lower} {upper}", sequence, signs)


def counted_text(shop, lower, upper, sequence, count):
    """The counted certificate of these bounds and so many nodes."""
    return text_of("counted 1", f"{shop[0]} {shop[1]}", f"{lower} {upper}", sequence, count)


def drawn_directions(draw, search, lower, node=None):
    """Drawn directions that prove a number for a node of a Search; or those up to the first sequence below it, and
    False."""
    node = node or search.root
    if bound(node) >= lower or not search.left(node):
        return "", bound(node) >= lower
    signs = sign = draw.choice("+-")
    for child in search.children(node, sign):
        more, is_proved = drawn_directions(draw, search, lower, child)
        signs += more
        if not is_proved:
            return signs, False
    return signs, True


def drawn_tree(draw, shop, version, value, jobs):
    """A drawn tree of a list that proves a value, where there is one."""
    left = [job for job in range(1, shop[0] + 1) if job not in jobs]
    if not left:
        return "."
    letters = [machine for machine in range(shop[1]) if list_bound(shop, version, jobs, machine) >= value]
    if letters and draw.random() < 0.9:
        return chr(ord("A") + draw.choice(letters))
    return "+" + "".join(drawn_tree(draw, shop, version, value, [*jobs, job]) for job in left)

# --- Benchmark texts and starts ---


def block_text(shop):
    """The benchmark text of a shop, in the form that the program writes."""
    return block_of(rows_of(shop))


LABELS = b"times", b"number of jobs :", b"-1 2", b".5", b"\xff\xfe 1", b"\x00", b"\v1", b"+", b"\xef\xbb\xbf3"


def blanks(draw, least=0):
    """Drawn blanks, of which there are mostly few."""
    return bytes(draw.choice(b"  \t\r") for _ in range(max(least, draw.choice([0, 0, 1, 1, 4]))))


def spread(draw, found):
    """Numbers over drawn lines, with drawn blanks between them and zeros before them."""
    lines, line = [], b""
    for number in found:
        line += blanks(draw, least=1 if line else 0) + b"0" * draw.choice([0, 0, 0, 0, 1, 12]) + str(number).encode()
        if draw.random() < 0.3:
            lines += [line + blanks(draw)] + [blanks(draw)] * (draw.random() < 0.2)
            line = b""
    return lines + [line] * bool(line)


def free_block(draw, shop, stated):
    """The lines of a block in a drawn form, with the three numbers that it states."""
    labels = [blanks(draw) + draw.choice(LABELS) + blanks(draw) for _ in range(2)]
    return [labels[0], *spread(draw, [*shop[:2], *stated]), labels[1], *spread(draw, shop[2])]


def start_text(draw, sequence, makespan):
    """The start of a sequence in a drawn form, with a makespan where it is not None."""
    text = []
    for word, *found in [[b"sequence", *sequence]] + ([[b"makespan", makespan]] if makespan is not None else []):
        zeros = [b"0" * draw.choice([0, 0, 0, 9]) + str(number).encode() for number in found]
        text += [blanks(draw)] * (draw.random() < 0.2)
        text.append(blanks(draw) + word + b"".join(blanks(draw, 1) + number for number in zeros) + blanks(draw))
    return joined(text)

# --- Changes ---


def changed(draw, text):
    """A text with one to four drawn changes."""
    kinds = [change_byte, change_number, change_number, change_lines, change_ends] + [change_proof] * 5
    for _ in range(draw.choice([1, 1, 2, 4])):
        text = draw.choice(kinds)(draw, text)
    return text


def change_at(draw, text, place, byte):
    """A text with a byte put in at a place, in the place of the one there or before it; or with that left out, or
    doubled."""
    put, kept = draw.choice([(byte, place + 1), (b"", place + 1), (byte, place), (text[place : place + 1], place)])
    return text[:place] + put + text[kept:]


def change_byte(draw, text):
    """A change at any place, of a byte that is common in texts or of any."""
    byte = draw.choice(BYTES) if draw.random() < 0.8 else draw.randrange(256)
    return change_at(draw, text, draw.randrange(len(text) + 1), bytes([byte]))


def change_proof(draw, text):
    """A change of a sign, a letter or a point behind the fourth line; of any byte where there is none."""
    heading = len(b"\n".join(text.split(b"\n")[:4]))
    places = [place for place in range(heading, len(text)) if text[place] in b"+-.ABCDE"]
    if not places:
        return change_byte(draw, text)
    return change_at(draw, text, draw.choice(places), bytes([draw.choice(b"+-.ABCDEFZ@[a")]))


def change_number(draw, text):
    """A number that is one more or less, a great one, or in another form."""
    found = list(re.finditer(rb"[0-9]+", text))
    if not found:
        return change_byte(draw, text)
    place = draw.choice(found)
    number = int(place[0][:25])
    others = [number + 1, number - 1, number * 10, draw.choice(GREAT), f"0{number}", f"+{number}", f" {number}", ""]
    return text[: place.start()] + str(draw.choice(others)).encode() + text[place.end() :]


def change_lines(draw, text):
    """Two lines in each other's place, a line left out, doubled or put in, or a text that is cut off."""
    lines = text.split(b"\n")
    one, other = draw.randrange(len(lines)), draw.randrange(len(lines))
    kind = draw.randrange(5)
    if kind == 0:
        lines[one], lines[other] = lines[other], lines[one]
    elif kind == 1:
        del lines[one]
    elif kind == 4:
        return text[: draw.randrange(len(text) + 1)]
    else:
        others = [b"", b" ", b"end", b"x", b"1 2 3", b"+", b"flowshop certificate 1"]
        lines.insert(one, lines[other] if kind == 2 else draw.choice(others))
    return b"\n".join(lines)


ENDS = [
    (b"\n", b"\r\n"), (b"\n", b"\r"), (b" ", b"  "), (b" ", b"\t"), (b"certificate 1", b"certificate 2"),
    (b"certificate 2", b"certificate 1"), (b"two-ended 1", b"two-ended 2"), (b"two-ended 1", b"certificate 1"),
    (b"two-ended 1", b"counted 1"), (b"counted 1", b"two-ended 1"), (b"counted 1", b"counted 2"),
    (b"end\n", b"end"), (b"end\n", b"end\n\n"), (b"flowshop", b"\xef\xbb\xbfflowshop"),
]


def change_ends(draw, text):
    """Other ends of lines, other blanks, and another kind on line 1."""
    old, new = draw.choice(ENDS)
    found = [place.start() for place in re.finditer(re.escape(old), text)]
    if not found:
        return change_byte(draw, text)
    if draw.random() < 0.5:
        return text.replace(old, new)
    place = draw.choice(found)
    return text[:place] + new + text[place + len(old) :]

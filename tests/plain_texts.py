"""Benchmark texts, starts and certificates as docs/formats.md says that they are read, in plain Python. A shop is as in
reference.py, and what a reading says is the line of the program, on standard output or on standard error."""

import itertools
import re
import sys

from counts import EXAMPLES
from reference import fronts, makespan, rows_of

sys.path.insert(0, str(EXAMPLES / "python"))
import check_two_ended  # noqa: E402

GREATEST = 2**64 - 1
BLANKS = b" \t\r"


class Refused(Exception):
    """The line of a text that is refused."""

# --- Certificates ---


def list_bound(shop, version, jobs, machine):
    """The bound of a list on a machine: the machine bound, or in version 2 the released bound."""
    front = fronts(shop, jobs)
    left = [times for job, times in enumerate(rows_of(shop), 1) if job not in jobs]
    begin = front[machine]
    if version == 2:
        begin = max(front[k] + min(sum(job[k:machine]) for job in left) for k in range(machine + 1))
    return begin + sum(job[machine] for job in left) + min(sum(job[machine + 1 :]) for job in left)


def tree_end(shop, version, value, jobs, text):
    """What follows the tree of a list; or the name of the first fault, as a string."""
    left = [job for job in range(1, shop[0] + 1) if job not in jobs]
    byte, rest = text[:1], text[1:]
    if not left and byte == b".":
        return rest if makespan(shop, jobs) >= value else "Low"
    if left and byte == b"+":
        for job in left:
            rest = tree_end(shop, version, value, [*jobs, job], rest)
            if isinstance(rest, str):
                return rest
        return rest
    machine = byte[0] - ord("A") if byte else -1
    if not left or not 0 <= machine < shop[1]:
        return "Tree"
    return rest if list_bound(shop, version, jobs, machine) >= value else "Weak"


def numbers(line, count):
    """The numbers of a line of a text, of which there are so many; none where it is in another form."""
    words = line.decode("latin-1").split(" ")
    if len(words) != count or not all(re.fullmatch("0|[1-9][0-9]{0,19}", word, re.ASCII) for word in words):
        return None
    found = [int(word) for word in words]
    return found if max(found) <= GREATEST else None


def heading_of(shop, text):
    """Depth, value, sequence and the rest of a certificate. Refused with the first fault of lines 2 to 4."""
    *lines, rest = text.split(b"\n", 4)[1:]
    sizes, value, jobs = (numbers(line, count) for line, count in zip([*lines, b"", b"", b""], (3, 1, shop[0])))
    if not sizes or sizes[:2] != list(shop[:2]) or sizes[2] > min(3, shop[0]):
        raise Refused("refused certificate Size")
    if not value:
        raise Refused("refused certificate Value")
    if not jobs or sorted(jobs) != list(range(1, shop[0] + 1)):
        raise Refused("refused certificate Sequence")
    if makespan(shop, jobs) != value[0]:
        raise Refused("refused certificate NotAttained")
    return sizes[2], value[0], jobs, rest


def proved_by_trees(shop, text):
    """The bounds and the sequence of a certificate with trees. Refused where it is none."""
    first = re.match(rb"flowshop certificate ([12])\n", text)
    if not first:
        raise Refused("refused certificate Header")
    depth, value, sequence, rest = heading_of(shop, text)
    for line, jobs in enumerate(itertools.permutations(range(1, shop[0] + 1), depth), 5):
        rest = tree_end(shop, int(first[1]), value, list(jobs), rest)
        if isinstance(rest, str) or rest[:1] != b"\n":
            raise Refused(f"refused certificate {rest if isinstance(rest, str) else 'Tree'} {line}")
        rest = rest[1:]
    if rest != b"end\n":
        raise Refused("refused certificate End")
    return value, value, sequence


def proved(shop, text, most=check_two_ended.MOST):
    """The bounds and the sequence of a text, which is read as two-ended, or as counted with at most so many nodes, as
    examples/python/check_two_ended.py reads it. Refused where it is no certificate."""
    if not text.startswith((b"flowshop two-ended 1\n", b"flowshop counted 1\n")):
        return proved_by_trees(shop, text)
    try:
        return check_two_ended.check(rows_of(shop), text, most)
    except check_two_ended.Fault as fault:
        raise Refused(f"refused certificate {fault}") from None


def bounds_line(lower, upper):
    """The line that says what a lawful text proves."""
    return f"optimal {upper}" if lower == upper else f"bounds {lower} {upper}"


def reading(shop, text, most=check_two_ended.MOST):
    """What a check of a text should print, where a counted one has at most so many nodes."""
    try:
        return bounds_line(*proved(shop, text, most)[:2])
    except Refused as refused:
        return str(refused)

# --- Benchmark texts and starts ---


def lines_of(text):
    """The lines of a text, without LF. What stands behind the last LF is one, where it has any byte."""
    lines = text.split(b"\n")
    return lines if lines[-1] else lines[:-1]


def plain_number(word, most):
    """The number of a word of digits; None where it is above the most."""
    digits = word.lstrip(b"0") or b"0"
    return int(digits) if len(digits) <= len(str(most)) and int(digits) <= most else None


def line_numbers(line, name, most):
    """The numbers of a line of a benchmark text that may bring so many. Refused with the name of the fault."""
    if re.search(rb"[^0-9 \t\r]", line):
        raise Refused("Byte")
    found = [plain_number(word, 4_294_967_295) for word in line.split()]
    if None in found:
        raise Refused("Number")
    if len(found) > most:
        raise Refused(name)
    if name == "Times" and max(found) > 999_999:
        raise Refused("Limits")
    return found


WANTED = ("Label", "Head", "Label", "Times")


def plain_blocks(text):
    """The shop of each block, and the three numbers that it states. Refused with the first fault of the text."""
    blocks, head, found, step, most = [], [], [], 0, 0
    lines = lines_of(text)
    for number, line in enumerate(lines, 1):
        line = line.strip(BLANKS)
        name = WANTED[step]
        if not line:
            continue
        if line[:1].isdigit() == (name == "Label"):
            raise Refused(f"refused text {name} {number}")
        if name == "Label":
            step, found, most = step + 1, [], head[0] * head[1] if step else 5
            continue
        try:
            found += line_numbers(line, name, most - len(found))
        except Refused as refused:
            raise Refused(f"refused text {refused} {number}") from None
        if len(found) < most:
            continue
        if name == "Head" and not (1 <= found[0] <= 800 and 1 <= found[1] <= 26):
            raise Refused(f"refused text Limits {number}")
        if name == "Head":
            head = found
        else:
            blocks.append(((*head[:2], found), *head[2:]))
        step = (step + 1) % 4
    if step:
        raise Refused(f"refused text {WANTED[step]} {len(lines) + 1}")
    if not blocks:
        raise Refused("refused text NoBlock")
    return blocks


def plain_block(text, index):
    """The shop of a block, and the three numbers that it states. Refused where there is none."""
    blocks = plain_blocks(text)
    if not 1 <= index <= len(blocks):
        raise Refused("refused index")
    return blocks[index - 1]


def start_line(line, word, most):
    """The numbers of a line of a start that begins with this word; none where it is in another form."""
    words = re.split(rb"[ \t\r]+", line.strip(BLANKS))
    if words[0] != word or not all(re.fullmatch(rb"[0-9]+", number) for number in words[1:]):
        return None
    found = [plain_number(number, most) for number in words[1:]]
    return None if None in found else found


def plain_start(shop, text):
    """The sequence of a start. Refused where it is none of the shop."""
    lines = lines_of(text)
    found = [(number, line) for number, line in enumerate(lines, 1) if line.strip(BLANKS)]
    jobs = start_line(found[0][1], b"sequence", 65_535) if found else None
    if not jobs:
        raise Refused(f"refused start {found[0][0] if found else len(lines) + 1}")
    stated = start_line(found[1][1], b"makespan", 4_294_967_295) if len(found) > 1 else [0]
    if not stated or len(stated) != 1 or len(found) > 2:
        raise Refused(f"refused start {found[1 if not stated or len(stated) != 1 else 2][0]}")
    if len(jobs) != shop[0]:
        raise Refused("refused sequence Length")
    for place, job in enumerate(jobs, 1):
        if not 1 <= job <= shop[0]:
            raise Refused(f"refused sequence Job {place}")
        if job in jobs[: place - 1]:
            raise Refused(f"refused sequence Twice {place}")
    if len(found) == 2 and makespan(shop, jobs) != stated[0]:
        raise Refused(f"refused start {found[1][0]}")
    return jobs

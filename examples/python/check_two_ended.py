"""Checks a two-ended or a counted certificate: python3 examples/python/check_two_ended.py FILE INDEX TEXT

FILE is a benchmark text without faults, and INDEX the number of a block, from 1. Of a counted certificate it searches
some 1,000 nodes a second with 20 jobs on 10 machines. This was written from the rules of the texts alone, and uses
nothing of the program. It prints `optimal V`, where V is the least makespan; or `bounds L U`,
where no sequence has a makespan below L, and the one on line 4 has U; or, on standard error, the first fault.
"""

import re
import sys
from typing import Callable, Iterable, Iterator, List, NamedTuple, Tuple

Shop = List[List[int]]  # for each job its times, one for each machine
NUMBERS = re.compile(rb"(0|[1-9][0-9]{0,19})( (0|[1-9][0-9]{0,19}))*")
MOST = 10_000_000_000  # the most nodes of a counted certificate


class Fault(Exception):
    """The first fault of a text."""


def read_shop(text: bytes, index: int) -> Shop:
    """For each job its times, one for each machine. IndexError where there is no such block."""
    groups: List[List[int]] = []  # of numbers, each after a line that begins with no digit: head, times, head, ..
    for line in text.split(b"\n"):
        line = line.strip(b" \t\r")
        if line[:1].isdigit():
            groups[-1] += map(int, line.split())
        elif line:
            groups.append([])
    if index < 1:
        raise IndexError
    jobs, times = groups[2 * index - 2][0], groups[2 * index - 1]
    return [times[job::jobs] for job in range(jobs)]


def longer(front: List[int], job: List[int]) -> List[int]:
    """The front of a list, which is its completion time on each machine, with a job put after its last."""
    done, fronts = 0, []
    for free, time in zip(front, job):
        done = max(done, free) + time  # it has left the machine before, and the list has left this one
        fronts.append(done)
    return fronts


class Node(NamedTuple):
    """What the bound of a node is made of: a list that begins the sequence, one that ends it, and the jobs left."""

    front: List[int]  # when the first list leaves each machine
    back: List[int]  # the least time from the start of the last list on each machine to its end on the last one
    owed: List[int]  # the times of the jobs left on each machine, all together
    left: List[int]  # the jobs in neither list

    def bound(self) -> int:
        return max(sum(three) for three in zip(self.front, self.owed, self.back))


def root(shop: Shop) -> Node:
    """The node of two empty lists."""
    machines = range(len(shop[0]))
    heads = [min(sum(job[:machine]) for job in shop) for machine in machines]  # a job needs as much before a machine
    tails = [min(sum(job[machine + 1 :]) for job in shop) for machine in machines]  # and as much after it
    return Node(heads, tails, [sum(times) for times in zip(*shop)], list(range(len(shop))))


def children(shop: Shop, node: Node, sign: str) -> Iterator[Node]:
    """The children of a node, in increasing order of the job: after a plus it is put behind the first list."""
    for number in node.left:
        job, others = shop[number], [other for other in node.left if other != number]
        owed = [sum_ - time for sum_, time in zip(node.owed, job)]
        if sign == "+":
            yield Node(longer(node.front, job), node.back, owed, others)
        else:  # before the first of the list that ends the sequence, which is the same from the last machine on
            yield Node(node.front, longer(node.back[::-1], job[::-1])[::-1], owed, others)


def below(lower: int, nodes: Iterable[Node]) -> List[Node]:
    """Those of these nodes whose bound is below a number."""
    return [node for node in nodes if node.bound() < lower]


def searched(shop: Shop, lower: int, node: Node) -> List[Node]:
    """The children below a number at the end that the search takes, of a node whose bound is below it."""
    ends = {sign: list(children(shop, node, sign)) for sign in "+-"}
    low = {sign: below(lower, ends[sign]) for sign in "+-"}
    counts = {sign: len(low[sign]) for sign in "+-"}
    sums = {sign: sum(child.bound() for child in ends[sign]) for sign in "+-"}
    # The plain rule.
    taken = "+" if (counts["+"], -sums["+"]) <= (counts["-"], -sums["-"]) else "-"
    smaller, larger = sorted(counts.values())
    if len(node.left) >= 3 and smaller >= 2 and 3 * smaller >= 2 * larger:  # the look-ahead
        weights = {
            sign: sum(min(len(below(lower, children(shop, child, end))) for end in "+-") for child in low[sign])
            for sign in "+-"
        }
        other = "-" if taken == "+" else "+"
        taken = other if weights[other] < weights[taken] else taken
    return low[taken]


def walk(shop: Shop, lower: int, opened: Callable[[Node], Iterable[Node]]) -> None:
    """Opens each node whose bound is below a number, in the order of the texts. What `opened` gives comes next."""
    waiting = [iter([root(shop)])]
    while waiting:
        node = next(waiting[-1], None)
        if node is None:
            waiting.pop()
        elif node.bound() < lower:
            if not node.left:
                raise Fault("Low 5")
            waiting.append(iter(opened(node)))


def follow(shop: Shop, lower: int, line: bytes) -> None:
    """Reads a line of directions."""
    signs = iter(line)

    def opened(node: Node) -> Iterable[Node]:
        sign = chr(next(signs, 0))
        if sign not in "+-":
            raise Fault("Tree 5")
        return children(shop, node, sign)

    walk(shop, lower, opened)
    if next(signs, None) is not None:
        raise Fault("Tree 5")


def search(shop: Shop, lower: int, count: int) -> None:
    """Makes the search below a number, which is to open so many nodes."""
    left = count

    def opened(node: Node) -> Iterable[Node]:
        nonlocal left
        if left == 0:
            raise Fault("Tree 5")
        left -= 1
        return searched(shop, lower, node)

    walk(shop, lower, opened)
    if left:
        raise Fault("Tree 5")


def check(shop: Shop, text: bytes, most: int = MOST) -> Tuple[int, int, List[int]]:
    """What a text proves of a shop: the numbers L and U, and the sequence. A counted one has at most so many nodes."""
    lines = text.split(b"\n")  # all but the last end with LF

    def numbers(line: int, count: int, fault: str) -> List[int]:
        """The numbers of a line, of which there are so many."""
        if not line < len(lines) or not NUMBERS.fullmatch(lines[line - 1]):
            raise Fault(fault)
        found = [int(word) for word in lines[line - 1].split(b" ")]
        if len(found) != count or max(found) >= 2**64:
            raise Fault(fault)
        return found

    if lines[0] not in (b"flowshop two-ended 1", b"flowshop counted 1") or len(lines) == 1:
        raise Fault("Header")
    if numbers(2, 2, "Size") != [len(shop), len(shop[0])]:
        raise Fault("Size")
    lower, upper = numbers(3, 2, "Value")
    sequence = numbers(4, len(shop), "Sequence")
    if sorted(sequence) != list(range(1, len(shop) + 1)):
        raise Fault("Sequence")
    front = [0] * len(shop[0])
    for number in sequence:
        front = longer(front, shop[number - 1])
    if front[-1] != upper:
        raise Fault("NotAttained")
    if lines[0] == b"flowshop counted 1":
        (count,) = numbers(5, 1, "Value")
        if count > most:
            raise Fault("Most")
        search(shop, lower, count)
    else:
        follow(shop, lower, lines[4])
        if len(lines) == 5:
            raise Fault("Tree 5")
    if lines[5:] != [b"end", b""]:
        raise Fault("End")
    return lower, upper, sequence


def main(file: str, index: str, text: str) -> int:
    """Prints what the check says, and gives the status."""
    with open(file, "rb") as opened:
        shops = opened.read()
    with open(text, "rb") as opened:
        read = opened.read()
    try:
        shop = read_shop(shops, int(index))
    except IndexError:
        print("refused index", file=sys.stderr)
        return 1
    try:
        lower, upper, _ = check(shop, read)
    except Fault as fault:
        print("refused certificate", fault, file=sys.stderr)
        return 1
    print(f"optimal {upper}" if lower == upper else f"bounds {lower} {upper}")
    return 0


if __name__ == "__main__":
    if len(sys.argv) != 4:
        print("usage: check_two_ended.py FILE INDEX TEXT", file=sys.stderr)
        sys.exit(2)
    sys.exit(main(*sys.argv[1:]))

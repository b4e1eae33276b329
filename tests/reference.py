"""The reference of the tests, in plain Python, from docs/formats.md and the definitions of the field alone: makespans,
timetables, bounds, the starting sequence, and the search for directions with its look-ahead; plain_texts.py says which
texts are lawful by it. It uses nothing of the library or the package. The one in Rust is that of bench/. A shop is its
jobs, its machines, and its times, machine by machine; jobs are counted from 1."""

import collections
import itertools
import operator

# --- Shops and sequences ---


def generated(jobs, machines, seed):
    """The shop of a seed of Taillard's generator."""
    times = []
    for _ in range(jobs * machines):
        seed = seed * 16_807 % 2_147_483_647
        times.append(1 + seed * 99 // 2_147_483_647)
    return jobs, machines, times


def of_rows(rows):
    """The shop of a row of times for each job."""
    return len(rows), len(rows[0]), [time for column in zip(*rows) for time in column]


def rows_of(shop):
    """For each job its times, one for each machine."""
    jobs, _, times = shop
    return [times[job::jobs] for job in range(jobs)]


def spans(shop, sequence):
    """When each operation starts and ends: for each job of a sequence a pair for each machine."""
    rows, front, found = rows_of(shop), [0] * shop[1], []
    for job in sequence:
        ended, of_job = 0, []
        for machine, time in enumerate(rows[job - 1]):
            start = max(ended, front[machine])
            ended = front[machine] = start + time
            of_job.append((start, ended))
        found.append(of_job)
    return found


def fronts(shop, sequence):
    """When the last job of a list leaves each machine."""
    rows, front = rows_of(shop), [0] * shop[1]
    for job in sequence:
        front = longer(front, rows[job - 1])
    return front


def makespan(shop, sequence):
    """The makespan of a sequence, or of the list of jobs that it begins with."""
    return fronts(shop, sequence)[-1]


def best(shop):
    """A sequence of the least makespan, of all sequences."""
    return min(itertools.permutations(range(1, shop[0] + 1)), key=lambda jobs: makespan(shop, jobs))


def least(shop):
    """The least makespan, of all sequences."""
    return makespan(shop, best(shop))


def start(shop):
    """The starting sequence of Nawaz, Enscore and Ham."""
    rows, sequence = rows_of(shop), []
    for job in sorted(range(1, shop[0] + 1), key=lambda job: (-sum(rows[job - 1]), job)):
        lists = [sequence[:place] + [job] + sequence[place:] for place in range(len(sequence) + 1)]
        sequence = min(lists, key=lambda jobs: makespan(shop, jobs))
    return sequence


# --- The search for directions ---
Node = collections.namedtuple("Node", "first last front back owed")


def longer(ends, times):
    """The ends on the machines with a job more behind them."""
    done = 0
    return [done := max(done, free) + time for free, time in zip(ends, times)]


class Search:
    """The search for directions of a shop. A node has two lists, the fronts of the first, the backs of the last, and
    the times of the jobs in neither."""

    # How the rule compares: the sum at the front with that at the back, three times the smaller number of children with
    # twice the larger, and the weight of the other end with that of the end that the plain rule takes.
    keeps_front, looks_ahead, takes_other = operator.ge, operator.ge, operator.lt

    def __init__(self, shop):
        self.jobs = rows_of(shop)
        heads = [min(sum(job[:at]) for job in self.jobs) for at in range(shop[1])]
        tails = [min(sum(job[at + 1 :]) for job in self.jobs) for at in range(shop[1])]
        self.root = Node((), (), heads, tails, [sum(times) for times in zip(*self.jobs)])

    def left(self, node):
        """The jobs in neither list."""
        return [job for job in range(1, len(self.jobs) + 1) if job not in node.first and job not in node.last]

    def child(self, node, sign, job):
        """A node with a job put at the end that a sign names."""
        first, last, front, back, owed = node
        times = self.jobs[job - 1]
        owed = [all_ - time for all_, time in zip(owed, times)]
        if sign == "+":
            return Node((*first, job), last, longer(front, times), back, owed)
        return Node(first, (job, *last), front, longer(back[::-1], times[::-1])[::-1], owed)

    def node(self, first, last):
        """The node of two lists."""
        node = self.root
        for sign, job in [*(("+", job) for job in first), *(("-", job) for job in last[::-1])]:
            node = self.child(node, sign, job)
        return node

    def children(self, node, sign):
        """The children of a node at an end, in increasing order of the job."""
        return [self.child(node, sign, job) for job in self.left(node)]

    def weight(self, number, children):
        """The weight of an end with these children."""
        below = [child for child in children if bound(child) < number]
        return sum(min(sum(bound(each) < number for each in self.children(child, sign)) for sign in "+-")
                   for child in below)

    def takes_front(self, number, node, sides):
        """Whether a node whose bound is below a number is opened at the front, where these are its children."""
        few = [sum(bound(child) < number for child in side) for side in sides]
        sums = [sum(map(bound, side)) for side in sides]
        plain = few[0] < few[1] or (few[0] == few[1] and self.keeps_front(*sums))
        if len(sides[0]) < 3 or min(few) < 2 or not self.looks_ahead(3 * min(few), 2 * max(few)):
            return plain
        mine, other = (self.weight(number, side) for side in (sides if plain else sides[::-1]))
        return plain != self.takes_other(other, mine)

    def search(self, number, node=None):
        """What the search for a number meets at a node: its directions, up to the first sequence below the number; and
        that sequence, or None."""
        node = node or self.root
        if bound(node) >= number:
            return "", None
        sides = [self.children(node, sign) for sign in "+-"]
        if not sides[0]:
            return "", node.first + node.last
        is_front = self.takes_front(number, node, sides)
        text = "+" if is_front else "-"
        for child in sides[not is_front]:
            more, found = self.search(number, child)
            text += more
            if found:
                return text, found
        return text, None


class PlainSearch(Search):
    """The search by the plain rule, without the look-ahead."""

    def weight(self, number, children):
        return 0


def bound(node):
    """The bound of a node."""
    return max(map(sum, zip(node.front, node.owed, node.back)))


def root_bound(shop):
    """The bound with no job put."""
    return bound(Search(shop).root)

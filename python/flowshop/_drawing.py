"""The picture on a page, with names and times."""

import re
from typing import List, NamedTuple, Tuple

from ._calendar import Dated
from ._clock import Clock, Times
from ._paper import in_parts
from ._results import Timetable, with_names

# Of a picture: the makespan and a bound in its title and over it, a mark of its time axis, the title of a bar, and what
# begins a text.
_HEAD = re.compile(r"\b(makespan|optimal|lower bound) (\d+)")
_MARK = re.compile(r"(<line [^>]*/><text [^>]*>)(\d+)(?=</text>)")
_SPAN = re.compile(r"\bstart (\d+), end (\d+)(?=</title>)")
# How the text of a bar ends its mark, and begins with a place.
_PLACE = ">#"
_LINE = re.compile(r'<line x1="(\d+)"[^>]*/><text x="(\d+)"[^>]*>(\d+)</text>\n')
# Every how many hours marks may stand; where the time begins in a picture; how far two marks are apart at least, and
# how wide a character of them is.
_STEPS = (1, 2, 3, 4, 6, 8, 12, 24)
_BEGIN, _APART, _MARK_SIGN = 9000, 5600, 700
# A time of day without seconds.
_WHOLE = re.compile(r"^(\d\d:\d\d):00$")


class Drawing(NamedTuple):
    """A picture on a page; the parts that stand for it on paper, of which there are none where it stands there as a
    whole; and whether a bar has the place of its job in the order."""

    picture: str
    parts: List[str]
    has_places: bool


def drawn(picture: str, timetable: Timetable, times: Times) -> Drawing:
    """A picture as a page shows it."""
    text = whole(picture, timetable, times)
    return Drawing(*in_parts(text), _PLACE in text)


def whole(picture: str, timetable: Timetable, times: Times) -> str:
    """A picture with the names and the times that a page shows."""
    machines, numbers = timetable.machine_names, tuple(range(1, len(timetable.machine_names) + 1))
    if timetable.names != timetable.sequence or machines != numbers:
        picture = with_names(picture, timetable.sequence, timetable.names, machines)
    return with_times(picture, times)


def with_times(picture: str, times: Times) -> str:
    """A picture with the times as the page shows them. A mark of the time axis has the day where that begins, and no
    seconds where there are none."""
    last = ""

    def mark(found: "re.Match[str]") -> str:
        nonlocal last
        day, comma, at = times.at(int(found[2])).rpartition(", ")
        text = (day + comma if day != last else "") + _WHOLE.sub(r"\1", at)
        last = day
        return found[1] + text

    def span(found: "re.Match[str]") -> str:
        return f"start {times.begin_at(int(found[1]))}, end {times.at(int(found[2]))}"

    head, axis, rest = picture.partition("<line ")
    head = _HEAD.sub(lambda found: f"{found[1]} {times.lasting(int(found[2]))}", head)
    if isinstance(times, Dated):
        return head + _with_hours(_SPAN.sub(span, axis + rest), times)
    # By the clock, the first mark takes the place of the word before the axis.
    body = rest.replace(">time</text>", "></text>", 1) if isinstance(times, Clock) else rest
    return head + _SPAN.sub(span, _MARK.sub(mark, axis + body))


def _ticks(times: Dated, wide: float) -> List[Tuple[int, str]]:
    """Where marks of whole hours stand, where one unit of the shop is so wide, and the text of each. The first one of a
    day names it, if it has room before that of the next day."""
    for step in _STEPS:
        found = [(int(at * wide) + _BEGIN, day, hour) for at, day, hour in times.ticks(step)]
        near = min((after[0] - before[0] for before, after in zip(found, found[1:])), default=_APART)
        if near >= _APART or step == _STEPS[-1]:
            break
    firsts = [at for at, tick in enumerate(found) if not at or tick[1] != found[at - 1][1]]
    texts = {at: found[at][2] for at in range(len(found))} if near >= _APART else {}
    free = 0
    for at in firsts:
        text = f"{found[at][1]}, {found[at][2]}"
        half = _MARK_SIGN * len(text) // 2
        if found[at][0] - half < free:
            continue
        free = found[at][0] + half + _MARK_SIGN
        texts[at] = text
        for other in range(max(0, at - 2), min(at + 3, len(found))):
            if other not in firsts and abs(found[other][0] - found[at][0]) < half + 4 * _MARK_SIGN:
                texts[other] = ""
    return [(tick[0], texts.get(at, "")) for at, tick in enumerate(found)]


def _with_hours(drawing: str, times: Dated) -> str:
    """The drawing behind the head of a picture with marks of whole hours in the place of its own."""
    marks = list(_LINE.finditer(drawing))
    last = marks[-1]
    wide = (int(last[1]) - _BEGIN) / int(last[3]) if int(last[3]) else 1.0
    lines = []
    for at, text in _ticks(times, wide):
        line = last[0].replace(f'"{last[1]}"', f'"{at}"').replace(f">{last[3]}<", f">{text}<")
        lines.append(line)
    body = drawing[: marks[0].start()] + "".join(lines) + drawing[last.end() :]
    return body.replace(">time</text>", "></text>", 1)

"""A picture that is too wide for a sheet of paper, in parts that can be read there."""

import html
import re
from typing import List, NamedTuple, Tuple

# Of a picture: what stands before its frame, with its size and the look of its texts; a mark of the time axis, with its
# line; and a bar with a text in it.
_HEAD = re.compile(r'<svg [^>]*viewBox="(-?\d+) 0 (\d+) (\d+)"([^>]*)>\n<title>[^<]*</title>\n')
_MARK = re.compile(r'<line x1="(\d+)" [^>]*y2="(\d+)"[^>]*/><text [^>]*y="(\d+)"[^>]*>([^<]*)<')
_LABEL = re.compile(
    r'(<rect x="(\d+)" y="\d+" width="(\d+)"[^>]*><title>[^<]*</title></rect>\n<text)( x="\d+")([^>]*>[^<]*)(?=</text>)'
)
# In the unit of a picture, hundredths of a pixel: how wide it is at most to be left as it is; how wide a sheet is, or,
# where a picture is high, for its height; where the names of machines end, where the time begins, and where the rows
# do; and how wide a character in a bar is.
_MOST_UPRIGHT, _WIDE, _FOR_HEIGHT = 115_000, 141_000, 1.75
_NAMES_END, _BEGIN, _ROWS, _IN_BAR = 8500, 9000, 5400, 670

Sides = Tuple[int, int]


class _Mark(NamedTuple):
    """A mark of the time axis: where it stands, where its line ends below, where its text stands, and its text."""

    at: int
    below: int
    axis: int
    text: str


class _Label(NamedTuple):
    """A text in a bar, which the end of a part would cut: where the bar begins and ends, and the text from its height
    on."""

    begin: int
    end: int
    text: str

    def within(self, sides: Sides) -> str:
        """The text in the middle of what a part has of the bar; nothing where it has no room there."""
        begin, end = max(self.begin, sides[0]), min(self.end, sides[1])
        has_room = _IN_BAR * len(html.unescape(self.text.partition(">")[2])) <= end - begin
        return f'<text x="{(begin + end) // 2}"{self.text}</text>' if has_room else ""


class _Sheet(NamedTuple):
    """What a picture is cut by: its left side and its height, how wide a sheet is, the look of its texts, the word
    before its time axis, the marks of that, where its parts end, and the texts that stand at an end."""

    left: int
    height: int
    wide: int
    look: str
    word: str
    marks: List[_Mark]
    ends: List[int]
    labels: List[_Label]

    def part(self, sides: Sides) -> str:
        """The part between two sides, of which the left one of the first part is that of the picture. Before another
        part stand the names of the machines, and the day of its first mark."""
        top, before = (0, 0) if sides[0] == self.left else (_ROWS, _NAMES_END - self.left)
        place = f"{self.left} {top} {self.wide} {self.height - top}"
        texts = "".join(label.within(sides) for label in self.labels)
        shown = [_window(self.left + before, sides, (top, self.height), texts)]
        if before:
            shown += [_window(self.left, (self.left, _NAMES_END), (top, self.marks[0].below), ""), self._day(sides)]
        return f'<svg class="part" aria-hidden="true" viewBox="{place}"{self.look}>{"".join(shown)}</svg>'

    def _day(self, sides: Sides) -> str:
        """The day of the first mark of a part, where the mark does not say it; or the word that stands there."""
        day = self.word
        for mark in self.marks:
            if mark.at >= sides[0]:
                day = "" if ", " in mark.text else day
                break
            day = mark.text.partition(", ")[0] if ", " in mark.text else day
        return f'<text x="8000" y="{self.marks[0].axis}" text-anchor="end">{day}</text>'


def _window(x: int, sides: Sides, heights: Sides, texts: str) -> str:
    """What the picture has between two sides and two heights, and some texts, with its left side at `x` of a part."""
    (left, right), (top, bottom) = sides, heights
    place = f'x="{x}" y="{top}" width="{right - left}" height="{bottom - top}"'
    texts = f'<g text-anchor="middle" font-size="1000">{texts}</g>' if texts else ""
    return f'<svg {place} viewBox="{left} {top} {right - left} {bottom - top}"><use href="#drawing"/>{texts}</svg>'


def _ends(sides: Sides, wide: int, marks: List[int]) -> List[int]:
    """Where the parts of a picture end: half of the way between two marks, so that all parts are about as wide, and the
    first one and the others with the names of machines before them have room on a sheet."""
    left, right = sides
    if right - left <= wide:
        return [right]
    between = [(before + after) // 2 for before, after in zip(marks, marks[1:]) if before < after]
    most = wide - (_NAMES_END - left)
    ends: List[int] = []
    begin = _BEGIN
    while right - begin > most:
        length = (right - begin) / -(-(right - begin) // most)
        fitting = [end for end in between if begin < end <= begin + most] or [begin + most]
        begin = min(fitting, key=lambda end: abs(end - begin - length))
        ends.append(begin)
    return [*ends, right]


def in_parts(picture: str) -> Tuple[str, List[str]]:
    """A picture, and the parts that stand for it on paper, from left to right. They show what stands in the picture. A
    text in a bar that an end would cut, so that it would be another one, stands within what a part has of the bar.
    There are no parts where the picture is not too wide."""
    head = _HEAD.match(picture)
    marks = [_Mark(int(at), int(below), int(axis), text) for at, below, axis, text in _MARK.findall(picture)]
    if not head or len(marks) < 2 or int(head[2]) <= _MOST_UPRIGHT:
        return picture, []
    left, right, height = int(head[1]), int(head[1]) + int(head[2]), int(head[3])
    wide, word = int(max(_WIDE, _FOR_HEIGHT * height)), "time" if ">time</text>" in picture else ""
    ends = _ends((left, right), wide, [mark.at for mark in marks if mark.text])
    sheet = _Sheet(left, height, wide, head[4], word, marks, ends, [])

    def label(found: "re.Match[str]") -> str:
        begin, end = int(found[2]), int(found[2]) + int(found[3])
        if not any(begin < side < end for side in sheet.ends):
            return found[0]
        sheet.labels.append(_Label(begin, end, found[5]))
        return f'{found[1]} class="cut"{found[4]}{found[5]}'

    drawing = _LABEL.sub(label, picture[head.end() : picture.rindex("</svg>")])
    parts = [sheet.part(sides) for sides in zip([left, *sheet.ends], sheet.ends)]
    return f'{head[0]}<g id="drawing">\n{drawing}</g></svg>\n', parts

"""What the calls on a shop give. All of it is frozen, and can be compared, hashed and pickled."""

import html
import os
import re
from dataclasses import dataclass, field
from typing import Any, Dict, Hashable, Iterator, List, NamedTuple, Optional, Sequence, Tuple, Union, overload

from . import _json
from ._bounded import Bounded, needed
from ._brief import BriefABC
from ._errors import FlowshopError, NotLawful, OptionError, counted, readable, shown
from ._saving import save

Names = Tuple[Hashable, ...]
Path = Union[str, "os.PathLike[str]"]
_MOST_SHOWN = 8
# As what a picture and a report are written, the suffix of that, and suffixes of other formats.
_WRITTEN = {
    "picture": ("SVG", ".svg", "png jpg jpeg gif webp pdf html htm"),
    "report": ("HTML", ".html", "pdf png jpg jpeg svg docx xlsx"),
}


def require_suffix(path: Path, kind: str) -> None:
    """OptionError where the file for a picture or a report has the suffix of another format."""
    form, suffix, others = _WRITTEN[kind]
    name = os.path.basename(os.fsdecode(path))
    if os.path.splitext(name)[1][1:].lower() in others.split():
        sentence = f"the file is {shown(name)}, and a {kind} is written as {form}: give it the suffix {suffix}"
        raise OptionError("PATH", 0, sentence)


def listed(names: Sequence[Hashable], most: int = _MOST_SHOWN) -> str:
    """The first names of a list, with commas between them, and two points where there are more."""
    quoted = [repr(name) if isinstance(name, str) and set(name) & set(",;:") else name for name in names[:most]]
    return ", ".join([*map(readable, quoted), *([".."] if len(names) > most else [])])


class _Ordered(Bounded):
    """A sequence of a shop that may be known, with its makespan and a lower bound."""

    sequence: Tuple[int, ...]
    names: Names
    _shop: Any

    @property
    def positions(self) -> List[int]:
        """The jobs of the sequence, counted from 0, as lists, arrays and frames count their rows.

        >>> [["Shelf", "Door", "Table"][place] for place in shop.neh().positions]
        ['Door', 'Shelf', 'Table']
        """
        return [job - 1 for job in self.sequence]

    def plot(self, ax: Any = None) -> Any:
        """The timetable of the sequence as a Gantt chart of matplotlib, in `ax` or a figure of its own. Gives the axes.
        ImportError where there is no matplotlib, FlowshopError where a pickle or a text gave this without its shop.

        >>> shop.neh().plot().get_title()  # doctest: +SKIP
        'makespan 13'
        """
        if self._shop is None:
            advice = "shop.schedule(..).plot() draws its sequence"
            raise FlowshopError("SHOP", 0, f"this result came without its shop: {advice}")
        return self._shop.schedule(self).plot(ax)

    def _repr_html_(self) -> str:
        """Makespan, lower bound, gap and order, and a small picture where the shop is known, for a notebook."""
        this: Any = self
        number = str if self._shop is None else self._shop._in_unit
        said = f"Makespan {number(this.upper)}; no order takes less than {number(this.lower)}, a gap of {self.gap:.1%}."
        if this.lower == this.upper:
            said = f"Makespan {number(this.upper)}, and no order takes less."
        order = html.escape(listed(self.names or self.sequence))
        picture = "" if self._shop is None else self._shop._small_picture(self.sequence, this.lower)
        return f"<div><p>{said} Order: {order}</p>{picture}</div>"

    def __getstate__(self) -> Dict[str, Any]:
        """What pickle and copy keep: all but the shop."""
        return {**vars(self), "_shop": None}


@dataclass(frozen=True, repr=False)
class Start(_Ordered):
    """A sequence of a shop, as job numbers from 1, and its makespan `value` in the unit of the times. `names` has the
    names of the jobs in this order, or their numbers where the shop has no names. `lower` is the `bound` of the shop. A
    Start is taken wherever a sequence is.

    >>> shop.neh()
    Start(makespan 13: 2, 1, 3)
    """

    sequence: Tuple[int, ...]
    value: int
    names: Names = field(default=(), compare=False)
    lower: int = field(default=0, compare=False)
    _shop: Any = field(default=None, compare=False)

    @property
    def upper(self) -> int:
        """The same as `value`: the least makespan is not above it.

        >>> shop.neh().upper
        13
        """
        return self.value

    def __repr__(self) -> str:
        """The makespan, and the first jobs by their names."""
        return f"Start(makespan {self.value}: {listed(self.names or self.sequence)})"


class _Operation(NamedTuple):
    """The fields of an operation."""

    job: Hashable
    machine: Hashable
    start: int
    end: int


class Operation(_Operation, metaclass=BriefABC):
    """What a job does on a machine: when it starts and when it ends there, in the unit of the times. Job and machine
    are names, or numbers from 1 where the shop has no names. A job whose time there is 0 ends as it starts.

    >>> shop.schedule([2, 1, 3])[-1].end
    13
    """

    __slots__ = ()


@dataclass(frozen=True, repr=False)
class Timetable(_Ordered, Sequence[Operation], metaclass=BriefABC):
    """When each job of a sequence starts and ends on each machine: an Operation for each job in the order of the
    sequence, and for each machine. `lower` is a number below which no sequence has a makespan: that of a Certificate,
    or the `bound` of the shop. A Timetable is taken wherever a sequence of jobs is.

    >>> timetable = shop.schedule([2, 1, 3])
    >>> timetable
    Timetable(makespan 13, 3 jobs, 3 machines)
    >>> timetable[1]
    Operation(job=2, machine=2, start=0, end=8)
    >>> timetable.ends.tolist()
    [[0, 8, 8], [4, 8, 12], [4, 10, 13]]
    """

    sequence: Tuple[int, ...]
    names: Names
    machine_names: Names
    _starts: bytes
    _ends: bytes
    lower: int = field(default=0, compare=False)
    scale: int = field(default=1, compare=False)
    _shop: Any = field(default=None, compare=False)

    def _array(self, numbers: bytes) -> memoryview:
        """Numbers of 64 bits as rows and columns."""
        return memoryview(numbers).cast("q", [len(self.names), len(self.machine_names)])

    @property
    def starts(self) -> memoryview:
        """When the jobs start: a row for each job in the order of the sequence, and a column for each machine. numpy
        takes it as it is: `numpy.asarray(timetable.starts)`. The numbers are of 64 bits.

        >>> shop.schedule([2, 1, 3]).starts.tolist()
        [[0, 0, 8], [0, 8, 8], [4, 8, 12]]
        """
        return self._array(self._starts)

    @property
    def ends(self) -> memoryview:
        """When the jobs end, in the form of `starts`.

        >>> shop.schedule([2, 1, 3]).ends.shape
        (3, 3)
        """
        return self._array(self._ends)

    @property
    def makespan(self) -> int:
        """When the last job leaves the last machine.

        >>> shop.schedule([2, 1, 3]).makespan
        13
        """
        return memoryview(self._ends).cast("q")[-1]

    @property
    def value(self) -> int:
        """The same as `makespan`.

        >>> shop.schedule([2, 1, 3]).value
        13
        """
        return self.makespan

    @property
    def upper(self) -> int:
        """The same as `makespan`: the least makespan is not above it.

        >>> shop.schedule([2, 1, 3]).upper
        13
        """
        return self.makespan

    def columns(self) -> Dict[str, List[Any]]:
        """The operations as columns, which pandas, polars and csv take: `pandas.DataFrame(timetable.columns())`.

        >>> shop.schedule([2, 1, 3]).columns()["end"]
        [0, 8, 8, 4, 8, 12, 4, 10, 13]
        """
        machines = len(self.machine_names)
        return {
            "job": [name for name in self.names for _ in range(machines)],
            "machine": list(self.machine_names) * len(self.names),
            "start": memoryview(self._starts).cast("q").tolist(),
            "end": memoryview(self._ends).cast("q").tolist(),
        }

    def to_frame(self) -> Any:
        """The operations as a pandas.DataFrame, with the columns of `columns`. ImportError where there is no pandas.

        >>> shop.schedule([2, 1, 3]).to_frame().end.max()  # doctest: +SKIP
        13
        """
        return needed("pandas", "columns() gives the same as a dict of lists").DataFrame(self.columns())

    def plot(self, ax: Any = None) -> Any:
        """A Gantt chart of matplotlib, in `ax`, or in a figure of its own, with times in the unit of the table. Gives
        the axes. ImportError where there is no matplotlib.

        >>> shop.schedule([2, 1, 3]).plot().get_title()  # doctest: +SKIP
        'makespan 13'
        """
        if ax is None:
            pyplot = needed("matplotlib.pyplot", "shop.gantt(..) draws the same as SVG")
            size = 10, 1.2 + 0.4 * len(self.machine_names)
            ax = pyplot.subplots(figsize=size, constrained_layout=True)[1]
        spans: Any = [*zip(self.starts.tolist(), self.ends.tolist())]
        for row in range(len(self.machine_names)):
            times = [(starts[row] / self.scale, (ends[row] - starts[row]) / self.scale) for starts, ends in spans]
            bars = [(time, f"C{place % 10}") for place, time in enumerate(times) if time[1]]
            ax.broken_barh([time for time, _ in bars], (row - 0.4, 0.8), facecolors=[colour for _, colour in bars])
        ax.set_yticks(range(len(self.machine_names)))
        ax.set_yticklabels([readable(name).replace("$", r"\$") for name in self.machine_names])
        ax.set_ylim(len(self.machine_names) - 0.5, -0.5)
        ax.set_xlim(0, max(1, self.makespan) / self.scale)
        ax.set_xlabel("time")
        ax.set_ylabel("machine")
        ax.set_title(f"makespan {self.makespan / self.scale:.10g}")
        return ax

    def __len__(self) -> int:
        """How many operations there are."""
        return len(self.names) * len(self.machine_names)

    @overload
    def __getitem__(self, place: int) -> Operation: ...

    @overload
    def __getitem__(self, place: slice) -> List[Operation]: ...

    def __getitem__(self, place: Union[int, slice]) -> Union[Operation, List[Operation]]:
        """The operation at a place, or a list of them."""
        if isinstance(place, slice):
            return [self[at] for at in range(len(self))[place]]
        at = range(len(self))[place]
        job, machine = divmod(at, len(self.machine_names))
        start, end = memoryview(self._starts).cast("q")[at], memoryview(self._ends).cast("q")[at]
        return Operation(self.names[job], self.machine_names[machine], start, end)

    def __iter__(self) -> Iterator[Operation]:
        """The operations in turn."""
        return map(Operation, *self.columns().values())

    def __repr__(self) -> str:
        """The makespan and the sizes."""
        sizes = f"{counted(len(self.names), 'job')}, {counted(len(self.machine_names), 'machine')}"
        return f"Timetable(makespan {self.makespan}, {sizes})"


class Picture(str, metaclass=BriefABC):
    """A Gantt chart of a sequence, as SVG text. A notebook shows it as a picture.

    >>> shop.gantt([2, 1, 3])
    Picture(makespan 13, jobs 3, machines 3)
    """

    def _repr_svg_(self) -> str:
        """The text, for a notebook."""
        return str(self)

    def _repr_html_(self) -> str:
        """The same for pages that are made of notebooks, where SVG alone may lose its shapes. The em of their style is
        not that of the picture."""
        return f"<div>{self}</div>"

    def __repr__(self) -> str:
        """The title of the picture."""
        return f"Picture({self.partition('<title>')[2].partition('</title>')[0]})"

    def save(self, path: Path) -> None:
        """Writes the text to a file. OSError where that fails, OptionError where its suffix is another one, as .png.

        >>> shop.gantt([2, 1, 3]).save("schedule.svg")
        """
        require_suffix(path, "picture")
        save(path, self.encode())


class Report(str, metaclass=BriefABC):
    """A schedule on one page of HTML, for screen and paper. A notebook shows it in a frame.

    >>> shop.report([2, 1, 3])
    Report(Schedule of 3 jobs on 3 machines)
    """

    def _repr_html_(self) -> str:
        """The page in a frame of its own, for a notebook."""
        style = "width: 100%; height: 40em; border: 0"
        return f'<iframe title="{self._title()}" srcdoc="{html.escape(self)}" style="{style}"></iframe>'

    def _title(self) -> str:
        """The title of the page, as it stands there."""
        return self.partition("<title>")[2].partition("</title>")[0]

    def __repr__(self) -> str:
        """The title of the page."""
        return f"Report({html.unescape(self._title())})"

    def save(self, path: Path) -> None:
        """Writes the page to a file. OSError where that fails, OptionError where its suffix is another one, as .pdf.

        >>> shop.report([2, 1, 3]).save("schedule.html")
        """
        require_suffix(path, "report")
        save(path, self.encode("utf-8", "replace"))


# Of a picture: its size and its ground, where the left side is 0; the label of a row; a bar with its title, and the
# number in it, which stands only where it has room.
_HEAD = re.compile(r'(<svg [^>]* width=")(\d+)("[^>]* viewBox=")0 0 (\d+)([^>]*>.*?<path d="M)0( [^"]*H)0z', re.DOTALL)
_ROW = re.compile(r'(text-anchor="end">)machine (\d+)(?=</text>)')
_BAR = re.compile(
    r'(<rect x="\d+" y="\d+" width="(\d+)"[^>]*><title>)job (\d+), machine (\d+)([^<]*</title></rect>)'
    r"(?:(\n<text [^>]*>)\d+(</text>))?"
)
# In the unit of the picture: how wide a character is, in a bar and before a row, and how much room a row has before it.
# How many characters of a long name stand there.
_IN_BAR, _BEFORE_ROW, _ROOM_BEFORE, _MOST_BEFORE = 670, 700, 8000, 40


def with_names(picture: str, sequence: Tuple[int, ...], names: Names, machines: Names) -> str:
    """A picture with the names of machines and of jobs, those in the order of the sequence, in the place of their
    numbers. It is wider where the name of a machine is long, and a very long one is cut. In a bar stands the name of
    the job where it has room; else the place of the job in the order, behind the sign #."""
    by_job = sorted(zip(sequence, names, range(1, len(names) + 1)), key=lambda each: each[0])
    of_jobs, of_machines = ([*map(readable, each)] for each in ([name for _, name, _ in by_job], machines))
    places = [f"#{place}" for _, _, place in by_job]
    labels = [name if len(name) <= _MOST_BEFORE else f"{name[: _MOST_BEFORE - 2]}.." for name in of_machines]
    more = max(0, _BEFORE_ROW * max(map(len, labels)) - _ROOM_BEFORE)

    def head(found: "re.Match[str]") -> str:
        size = f"{found[1]}{int(found[2]) + more // 100}{found[3]}-{more} 0 {int(found[4]) + more}"
        return f"{size}{found[5]}-{more}{found[6]}-{more}z"

    def row(found: "re.Match[str]") -> str:
        return found[1] + html.escape(labels[int(found[2]) - 1], quote=False)

    def bar(found: "re.Match[str]") -> str:
        job, machine = int(found[3]) - 1, int(found[4]) - 1
        title = html.escape(f"{of_jobs[job]}, {of_machines[machine]}", quote=False)
        fits = (label for label in (of_jobs[job], places[job]) if found[6] and _IN_BAR * len(label) <= int(found[2]))
        label = next(fits, "")
        text = f"{found[6]}{html.escape(label, quote=False)}{found[7]}" if label else ""
        return f"{found[1]}{title}{found[5]}{text}"

    picture = _HEAD.sub(head, picture, count=1) if more else picture
    return _BAR.sub(bar, _ROW.sub(row, picture))


@dataclass(frozen=True, repr=False)
class Certificate(_Ordered):
    """What a text proves of a shop: no sequence has a makespan below `lower`, in the unit of the times, and `sequence`,
    as job numbers from 1, has the makespan `upper`. `names` has the names of the jobs in this order, or their numbers
    where the shop has no names. A Certificate is taken wherever a sequence or a text is.

    >>> shop.solve()
    Certificate(optimal 12, 1 tree)
    """

    lower: int
    upper: int
    sequence: Tuple[int, ...]
    text: bytes
    names: Names = field(default=(), compare=False)
    _shop: Any = field(default=None, compare=False)
    _state: Optional[bytes] = field(default=None, compare=False)

    @property
    def state(self) -> Optional[bytes]:
        """Where the run of `certify` stood that was stopped with this, for `certify(resume=..)`. None where no run was.

        >>> shop.certify().state is None
        True
        """
        return self._state

    @property
    def value(self) -> int:
        """The same as `upper`: the makespan of the sequence.

        >>> shop.certify().value
        12
        """
        return self.upper

    @property
    def optimal(self) -> bool:
        """Whether the bounds are equal, so that no sequence has a smaller makespan than this one. So it is with every
        certificate of `solve` without a time limit.

        >>> shop.certify().optimal
        True
        """
        return self.lower == self.upper

    @property
    def kind(self) -> str:
        """What the text has to prove its lower bound: "two-ended", a sign for each direction; "counted", their number,
        by a search that a check makes again; or "trees".

        >>> shop.certify().kind
        'two-ended'
        """
        named = (name for name in ("two-ended", "counted") if self.text.startswith(f"flowshop {name} ".encode()))
        return next(named, "trees")

    @property
    def count(self) -> Optional[int]:
        """How many directions prove the lower bound: as many as there are signs, or as a counted text states, which are
        the nodes that the search opens. None where trees prove it, and where the text states no number.

        >>> shop.certify(proof="count").count
        2
        """
        begin = 0
        for _ in range(4):
            begin = self.text.find(b"\n", begin) + 1
        end = self.text.find(b"\n", begin)
        if self.kind == "two-ended":
            return end - begin
        line = self.text[begin : min(end, begin + 20)]
        return int(line) if self.kind == "counted" and line.isdigit() else None

    def __repr__(self) -> str:
        """What is proved, and how many directions or trees the text has, or how many nodes it states."""
        proved = f"optimal {self.lower}" if self.optimal else f"bounds {self.lower} to {self.upper}"
        count, what = self.count, {"two-ended": "direction", "counted": "node"}.get(self.kind, "tree")
        if count is None:
            count = self.text.count(b"\n") - 5  # four lines stand before the trees, and one after them
        return f"Certificate({proved}, {counted(count, what)})"

    def save(self, path: Path) -> None:
        """Writes the text to a file, which `flowshop check` and `Shop.check` read. OSError where that fails.

        >>> shop.certify().save("certificate")
        """
        save(path, self.text)

    def to_dict(self) -> Dict[str, Any]:
        """The bounds, the sequence, the names and the text, as json takes them.

        >>> shop.certify().to_dict()["sequence"]
        [3, 1, 2]
        """
        return {
            "lower": self.lower,
            "upper": self.upper,
            "sequence": list(self.sequence),
            "names": _json.plain_names(self.names),
            "text": self.text.decode("latin-1"),
        }

    def to_json(self) -> str:
        """The same as JSON.

        >>> Certificate.from_json(shop.certify().to_json()) == shop.certify()
        True
        """
        return _json.written(self.to_dict())

    @classmethod
    def from_json(cls, text: _json.Json) -> "Certificate":
        """A certificate as `to_json` gives it. It is taken as it stands there: `Shop.check` tells what its text proves.
        NotLawful where the text has another form.

        >>> shop.check(Certificate.from_json(shop.certify().to_json())).optimal
        True
        """
        kinds = {"lower": (int,), "upper": (int,), "sequence": (list,), "names": (list,), "text": (str,)}
        found = _json.read(text, kinds, NotLawful, "Certificate.to_json")
        sequence, names = tuple(found["sequence"]), tuple(found["names"])
        if not {*map(type, sequence)} <= {int}:
            raise NotLawful("JSON", 0, "'sequence' of the text has something that is no whole number")
        lower, upper = found["lower"], found["upper"]
        if not 0 <= lower <= upper:
            sentence = f"the text has the bounds {shown(lower)} to {shown(upper)}, between which no makespan lies"
            raise NotLawful("JSON", 0, sentence)
        return cls(lower, upper, sequence, found["text"].encode("latin-1", "replace"), names)

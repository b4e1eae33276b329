"""What the names of rows and columns of a table say: which are totals, units, machines, jobs, or something else."""

import re
from fractions import Fraction
from typing import Dict, FrozenSet, Hashable, Iterable, Optional

# A blank stands between two words. Words of totals; names of extremes, and of rows below the jobs.
_TOTALS = frozenset(
    "total totals subtotal sum sums summe summen gesamt ges gesamtsumme gesamtzeit zwischensumme insgesamt somme "
    "suma soma somma totale totaal average avg mean median mittelwert durchschnitt moyenne Σ σ ∑ Ø ø".split()
)
_EXTREMES = frozenset("max min maximum minimum".split())
_BELOW = _EXTREMES | frozenset("count capacity load anzahl kapazität kapazitaet auslastung".split())
# Words of columns that are no machines: of quantities; of dates and of order; of all else.
QUANTITIES = frozenset(
    "qty quantity quantities pcs pieces amount menge mengen anzahl stück stueck stk stückzahl stueckzahl los lose lot "
    "lots lotsize losgröße losgroesse batch batchsize batches charge charge(n) auftragsmenge quantité quantite qté qte "
    "cantidad quantità quantita aantal units".split()
)
_DATES = frozenset(
    "due duedate deadline date datum termin liefertermin wunschtermin endtermin starttermin frist fällig faellig "
    "fälligkeit ready release released earliest latest start end begin beginn ende früheste frühester frühestens "
    "spätester spätestens earliest verfügbar bereit week woche kw tag day priority prio priorität prioritaet rank rang "
    "reihenfolge sequence order_no seq platz weight gewicht setup rüsten rüstzeit ruestzeit duration dauer time times "
    "zeit zeiten".split()
)
_OTHERS = frozenset(
    "price preis customer kunde material drawing zeichnung sku remark remarks note notes bemerkung kommentar status "
    "capacity kapazität kapazitaet count colour color farbe".split()
)
_JOBS = frozenset(
    "job jobs order orders orderno ordernumber workorder auftrag aufträge auftragsnr auftragsnummer no nr number "
    "nummer id pos position lfdnr name product produkt article artikel part item teil task".split()
)
_MACHINES = frozenset(
    "machine machines maschine maschinen station stations stage workcentre workcenter resource arbeitsplatz "
    "arbeitsgang operation operations process step anlage".split()
)
_OPERATIONS = frozenset(
    "cut cutting saw sawing mill milling drill drilling turn turning lathe grind grinding weld welding bend bending "
    "press pressing punch punching paint painting coat coating polish polishing assemble assembly pack packing "
    "packaging inspect inspection test testing wash washing clean cleaning dry drying heat hardening oven furnace mix "
    "mixing fill filling label labelling print printing fold folding sew sewing dye dyeing mould moulding cast casting "
    "forge forging laser solder soldering glue gluing sand sanding deburr deburring sägen säge fräsen fräse bohren "
    "drehen schleifen schweißen schweissen biegen stanzen lackieren montage montieren prüfen prüfung verpacken härten "
    "waschen trocknen".split()
)
# How many seconds a unit has, by each of its words.
_UNITS: Dict[str, Fraction] = {
    **dict.fromkeys("s sec secs second seconds sek sekunde sekunden".split(), Fraction(1)),
    **dict.fromkeys("min mins minute minutes minuten".split(), Fraction(60)),
    **dict.fromkeys("h hr hrs hour hours std stunde stunden".split(), Fraction(3600)),
}
UNIT_NAMES: Dict[Fraction, str] = {Fraction(1): "s", Fraction(60): "min", Fraction(3600): "h"}
_LENGTH = re.compile(r"(\d{1,9}(?:[.,]\d{1,9})?) ?(s|min|h)", re.ASCII)
_IN_BRACKETS = re.compile(r"[(\[]\s*([^()\[\]]*?)\s*[)\]]\s*$")
_DATE = re.compile(
    r"(\d{4}-\d{1,2}-\d{1,2}|\d{1,2}\.\d{1,2}\.(\d{2}|\d{4})?|\d{1,2}/\d{1,2}(/(\d{2}|\d{4}))?)"
    r"([T ]\d{1,2}:\d\d(:\d\d)?)?"
)


def _words(name: str) -> FrozenSet[str]:
    """The words of a name, in small letters."""
    return frozenset(re.sub(r"[\s,:;()\[\]/&+*|'\"]+", " ", re.sub(r"[-_.#]", "", name.lower())).split())


def _joined(name: str) -> str:
    """A name in small letters without blanks and signs."""
    return re.sub(r"[\s,:;()\[\]/&+*|'\"\-_.#]+", "", name.lower())


def is_total(name: str, is_below: bool) -> bool:
    """Whether a name is that of totals or averages; or, of a row below the jobs, of extremes and the like."""
    return bool(_words(name) & _TOTALS) or is_below and _joined(name) in _BELOW


def is_machine(name: str) -> bool:
    """Whether a name is one that machines have, as M1, Station 2, Saw or Saw 1."""
    short = _joined(name)
    if re.fullmatch(r"(m|mc)\d+|(machine|maschine|station|stage|stufe|anlage)(\d+|[a-h])", short):
        return True
    return re.sub(r"\d+$", "", _joined(re.sub(r"[(\[].*$", "", name))) in _OPERATIONS


def names_operation(name: str) -> bool:
    """Whether one of the words of a name is that of an operation."""
    return bool(_words(name) & _OPERATIONS)


def is_job(name: str) -> bool:
    """Whether a name is one that jobs have, as Job 1."""
    return bool(re.fullmatch(r"(j|job|order|auftrag)\d+", _joined(name)))


def heads_jobs(name: str) -> bool:
    """Whether a column of this name has the names of jobs."""
    return _joined(name) in _JOBS


def heads_machines(name: str) -> bool:
    """Whether a column of this name has the names of machines."""
    return _joined(name) in _MACHINES


def is_quantity(name: str) -> bool:
    """Whether a column of this name has quantities."""
    return bool(_words(name) & QUANTITIES) or _joined(name) in QUANTITIES


def is_other(name: str) -> bool:
    """Whether a column of this name has something else than the times of a machine."""
    others = _DATES | _OTHERS
    return bool(_words(name) & others) or _joined(name) in others | _EXTREMES | _JOBS | _MACHINES


def unit_of(name: str) -> Optional[Fraction]:
    """How many seconds the unit has that stands in brackets at the end of a name; None where there is none."""
    found = _IN_BRACKETS.search(name)
    return unit_named(re.sub(r"^in\s+", "", found[1])) if found else None


def with_unit(name: str, unit: str) -> str:
    """A name with this unit in the place of the one that stands in brackets at its end, where there is one."""
    found = _IN_BRACKETS.search(name) if unit_of(name) else None
    return f"{name[: found.start(1)]}{unit}{name[found.end(1) :]}" if found else name


def length_of(names: Iterable[Hashable]) -> str:
    """How long the unit is that stands in brackets at the end of names, as `1min`; nothing where none has one, or two
    have different ones."""
    units = {unit_of(str(name)) for name in names} - {None}
    return "".join(f"1{UNIT_NAMES[unit]}" for unit in units if unit) if len(units) == 1 else ""


def unit_named(text: str) -> Optional[Fraction]:
    """How many seconds a unit has; None where the text is none."""
    return _UNITS.get(text.lower().strip(" ."))


def seconds_of(length: str) -> Fraction:
    """How many seconds a length of time is, as `15min` or `1,5 h`; 0 where the text is none."""
    found = _LENGTH.fullmatch(length)
    return Fraction(found[1].replace(",", ".")) * _UNITS[found[2]] if found else Fraction(0)


def spaced(length: str) -> str:
    """A length of time with a blank before its unit."""
    return re.sub(r" ?([a-z])", r" \1", length, count=1)


def is_date(text: str) -> bool:
    """Whether a text is a date, or a date with a time of day."""
    return bool(_DATE.fullmatch(text.strip()))

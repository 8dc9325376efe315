"""The header of a list: which column is which, by name, in any order; other columns are passed over."""

import difflib
import re
from typing import NamedTuple

from .faults import Fault, ListFaults, shown
from .lines import BLANKS, SEPARATORS, lines_with, said_separator

HEADER = ("name", "length", "period", "deadline", "phase")
NEEDED = HEADER[:3]
BEFORE, SILENT = "before", "silent"

# Other names of the columns, the letters of the papers among them.
OTHER_NAMES = {
    "name": ("transfer", "task"),
    "length": ("duration", "c"),
    "period": ("t",),
    "deadline": ("d",),
    "phase": ("offset", "p"),
}
TICKS = ("", "tick", "ticks")
UNIT = re.compile(r"(.*?)\s*[(\[{<]\s*(.*?)\s*[)\]}>]", re.DOTALL)
NUMBER = re.compile(r"[0-9]+(?:[.,]0+)?")


class Columns(NamedTuple):
    """The header's line and cells, how many it has with empty ones at its end, the place of each column that it has,
    and what is to be told about it."""

    line: int
    cells: tuple
    wide: int
    places: dict
    notes: tuple

    def cell(self, cells, column):
        """The cell of a column in a line; empty if there is none."""
        at = self.places.get(column, len(cells))
        return cells[at] if at < len(cells) else ""

    def others(self):
        """The places of the columns that are passed over."""
        return set(range(len(self.cells))) - set(self.places.values())


def _word_and_unit(cell):
    """What a column is called, without capitals and blanks, and the unit that stands in brackets behind it."""
    text = " ".join(cell.casefold().split()).strip(BLANKS + ":*")
    bracket = UNIT.fullmatch(text)
    return bracket.groups() if bracket else (text, "")


def _places(words):
    """The places of the cells that may be each column: those with its own name, or else with another one."""
    found = {}
    for column in HEADER:
        own = [at for at, word in enumerate(words) if word == column]
        found[column] = own or [at for at, word in enumerate(words) if word in OTHER_NAMES[column]]
    return {column: places for column, places in found.items() if places}


def _known(line):
    return _places([_word_and_unit(cell)[0] for cell in line.cells or ()])


def _unit_note(line, cells, places):
    """What a tick is, if the columns say so; a fault if they do not agree."""
    units = {}
    for column, at in places.items():
        if column != "name" and _word_and_unit(cells[at])[1] not in TICKS:
            units.setdefault(_word_and_unit(cells[at])[1], column)
    if len(units) > 1:
        said = " and ".join(f"{column} in {unit}" for unit, column in list(units.items())[:2])
        raise ListFaults([Fault(line, f"the columns have different units, {said}: give all in the same")])
    return [f"1 tick is 1 {unit}, as the header has it" for unit in units]


def _header(line):
    """The columns of a header's line, or its one fault."""
    found = _known(line)
    twice = next((places for places in found.values() if len(places) > 1), None)
    if twice:
        both = " and ".join(shown(line.cells[at]) for at in twice[:2])
        column = next(name for name, places in found.items() if places is twice)
        raise ListFaults([Fault(line.number, f"two columns are the {column}, {both}: take one out")])
    places = {column: at for column, (at,) in found.items()}
    notes = _unit_note(line.number, line.cells, places)
    read_as = [
        f"{shown(line.cells[at])} as {column}"
        for column, at in places.items()
        if _word_and_unit(line.cells[at])[0] != column
    ]
    if read_as:
        notes.append(f"columns read by another name: {', '.join(read_as)}")
    columns = Columns(line.number, line.cells, line.wide, places, ())
    others = [" ".join(line.cells[at].split()) for at in sorted(columns.others()) if line.cells[at]]
    if others:
        notes.append(f"columns not read: {', '.join(others)}")
    return columns._replace(notes=tuple(notes))


def _is_header(line):
    """Whether a line has the three columns that every list has."""
    return set(NEEDED) <= set(_known(line))


def looks_like_a_transfer(cells):
    """Whether a line has a name, a length and a period, as far as can be seen without a header."""
    return sum(bool(NUMBER.fullmatch(cell)) for cell in cells) >= 2


def _near(column, cells):
    """The cell that may be meant for a column, in words; or nothing."""
    near = difflib.get_close_matches(column, [_word_and_unit(cell)[0] for cell in cells], 1)
    return f" ({shown(near[0])} is near to it)" if near else ""


def _not_understood(lines):
    """The one fault of a list without a header that is understood."""
    must = f"the columns are {','.join(HEADER)}"
    best = max(lines, key=lambda line: len(_known(line)), default=None)
    known = _known(best) if best else {}
    if len(known) >= 2:
        missing = [column + _near(column, best.cells) for column in NEEDED if column not in known]
        return Fault(best.number, f"the header has no column {' and no column '.join(missing)}; {must}")
    first = next((line for line in lines if line.cells is not None), None)
    if first is None:
        return Fault(lines[0].number, f"the quotes are not in pairs; {must}")
    if looks_like_a_transfer(first.cells):
        return Fault(first.number, f"the list begins without its header: put a line above; {must}")
    text = ",".join(first.cells)
    return Fault(first.number, f"no line is the header: the first one is {shown(text)}; {must}")


def _separators(lines):
    """The separators that may be meant, and the line behind one that says so."""
    first = next((at for at, line in enumerate(lines) if line.strip(BLANKS)), 0)
    said = said_separator(lines[first])
    return ([said], first + 1) if said else (list(SEPARATORS), 0)


def find(lines):
    """The columns, the lines above the header and below it, as cells, and the separator; or the one fault."""
    separators, begin = _separators(lines)
    lines = [""] * begin + lines[begin:]
    ways = []
    for separator in separators:
        split = lines_with(lines, separator, _is_header)
        head = next((line for line in split if _is_header(line)), None)
        if head:
            above = [line for line in split if line.number < head.number]
            below = [line for line in split if line.number > head.number]
            return _header(head), above, below, separator
        ways.append(split)
    best = max(ways, key=lambda split: max((len(_known(line)) for line in split), default=0))
    if not best:
        raise ListFaults([Fault(0, f"the list is empty: it begins with a line {','.join(HEADER)}")])
    by_cells = max(ways, key=lambda split: max((len(line.cells or ()) for line in split), default=0))
    known = max(len(_known(line)) for line in best)
    raise ListFaults([_not_understood(best if known >= 2 else by_cells)])

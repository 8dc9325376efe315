"""A team's list as CSV, as a workbook exports it: read with every fault named by its line, and written.

The bytes become lines (`encoding`), the lines cells (`lines`), the header says which cell is what (`header`), and the
`reader` makes a request of them, its numbers by `cells` and its order by `order`. `kinds` tells lists from other files.
"""

from .encoding import lines_in
from .faults import Fault, ListFaults, WrongFile
from .header import BEFORE, HEADER, SILENT, find
from .kinds import instead_of_a_list, instead_of_a_table, is_list
from .reader import Reader
from .writer import write

__all__ = [
    "BEFORE",
    "Fault",
    "HEADER",
    "ListFaults",
    "SILENT",
    "WrongFile",
    "instead_of_a_list",
    "instead_of_a_table",
    "is_list",
    "read",
    "write",
]


def read(data):
    """The request in the bytes of a list, or all its faults."""
    lines, notes = lines_in(data)
    try:
        columns, above, below, separator = find(lines)
        reader = Reader(columns, separator)
        for line in above:
            reader.above(line)
        for line in below:
            reader.line(line)
        reader.notes[:0] = notes
        return reader.request()
    except ListFaults as found:
        found.notes = found.notes or tuple(notes)
        raise

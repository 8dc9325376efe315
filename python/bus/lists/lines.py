"""The lines of a list as cells: separators, quotes, comments, and cells that go over several lines."""

import csv
import re
from typing import NamedTuple, Optional

from .cells import is_error

SEPARATORS = {",": "commas", ";": "semicolons", "\t": "tabs"}
BLANKS = " \t\u00a0\u200b\u200e\u200f\u2007\u202f\ufeff\r\n"
SAID = re.compile(r'\s*"?sep=([^"\w ])"?[,;\t"]*\s*', re.IGNORECASE)
COMMENT = "#"
MOST_JOINED = 40  # lines of one line's cells
OPEN = "unexpected end of data"  # what csv says where quotes are open at the end


class Line(NamedTuple):
    """The number of a line, from 1, its cells, at least one, how many lines it goes over, and how many cells it has
    with the empty ones at its end. Without cells its quotes are not in pairs."""

    number: int
    cells: Optional[tuple]
    height: int = 1
    wide: int = 1


def said_separator(line):
    """The separator that a first line `sep=;` names, as workbooks write and read it; or nothing."""
    said = SAID.fullmatch(line)
    return said.group(1) if said else ""


def _split(text, separator):
    """The cells of a text, or None if its quotes are not in pairs; and whether they may be with more text."""
    try:
        return next(csv.reader([text], delimiter=separator, strict=True)), False
    except csv.Error as wrong:
        return None, OPEN in str(wrong)


def _line(lines, at, separator):
    """The line at a place, with those behind it that belong to a cell in quotes: its cells without the blanks around
    them and the empty ones behind the last."""
    text, height = lines[at], 1
    cells, is_open = _split(text, separator)
    while is_open and at + height < len(lines) and height < MOST_JOINED:
        text += "\n" + lines[at + height]
        height += 1
        if '"' in lines[at + height - 1]:
            cells, is_open = _split(text, separator)
    if cells is None:
        return Line(at + 1, None)
    cells = [cell.strip(BLANKS) for cell in cells] or [""]
    wide = len(cells)
    while len(cells) > 1 and not cells[-1]:
        cells.pop()
    return Line(at + 1, tuple(cells), height, wide)


def _says_something(cells):
    """Whether a line is neither empty, nor drawn with dashes, nor a comment in one cell."""
    full = [cell for cell in cells if cell.strip("-–—_=,;\t ")]
    return len(full) > 1 or full != [] and not full[0].startswith(COMMENT)


def _is_comment(text, separator):
    """Whether a line begins as a comment. What a workbook writes for a formula without a value is none."""
    text = text.lstrip(BLANKS.replace(separator, ""))
    return text.startswith(COMMENT) and not is_error(text.split(separator)[0].strip(BLANKS))


def _is_kept(line, comment, is_header):
    """Whether a line says something. A header may begin as a comment does: `#` is the heading of a column of numbers.
    """
    if comment:
        return line.cells is not None and line.cells[0] == COMMENT and is_header(line)
    return line.cells is None or _says_something(line.cells)


def lines_with(lines, separator, is_header):
    """The lines that say something, as cells between these separators."""
    at, found = 0, []
    while at < len(lines):
        if not lines[at]:
            at += 1
            continue
        line = _line(lines, at, separator)
        comment = _is_comment(lines[at], separator)
        kept = _is_kept(line, comment, is_header)
        if kept:
            found.append(line)
        at += 1 if comment and not kept else line.height
    return found

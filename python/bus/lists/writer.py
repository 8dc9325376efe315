"""A request as the text of a list."""

import csv
import io

from .header import BEFORE, HEADER, SILENT
from .lines import COMMENT


def _row(cells):
    """A line of CSV. A name that begins like a comment stands in quotes."""
    out = io.StringIO()
    csv.writer(out, lineterminator="\n").writerow(cells)
    text = out.getvalue()
    return f'"{cells[0]}"{text[len(cells[0]) :]}' if text.startswith(COMMENT) else text


def write(request):
    """The text of a list of the request."""
    rows = [HEADER]
    rows += [(task.name, task.length, task.period, task.deadline, task.phase) for task in request.tasks]
    rows += [(BEFORE, request.tasks[first].name, request.tasks[second].name) for first, second in request.pairs]
    rows += [(SILENT, request.silent)] if request.silent else []
    return "".join(map(_row, rows))

"""Requests and tables as plain records: for --json, and for a data frame in a notebook."""

from typing import Any, Dict, List

from .accepted import RequestLike, TableLike
from .sources import both
from .text import busy, entry_label


def _first_ticks(request, row):
    """The tick of its frame at which each entry of a row starts, if every one takes its whole length."""
    tick = 0
    for entry in row:
        yield entry, tick
        tick += request.tasks[entry.task].length + request.silent


def _transfers(request, table, number):
    """The entries of a row by name, each with its first tick in the cycle and its length."""
    for entry, tick in _first_ticks(request, table.rows[number]):
        task = request.tasks[entry.task]
        start = number * table.frame + tick
        yield {"name": task.name, **entry._asdict(), "start": start, "length": task.length}


def _row(request, table, number):
    row = table.rows[number]
    used, ticks = request.used(row), busy(request, row)
    sums = {"busy": ticks, "silent": used - ticks, "unused": table.frame - used}
    return {"row": number, "first_tick": number * table.frame, **sums}


def of_table(request, table):
    """A table with names: its sizes, its load, and each row with its transfers."""
    rows = [
        {**_row(request, table, number), "transfers": list(_transfers(request, table, number))}
        for number in range(len(table.rows))
    ]
    sizes = {"frame": table.frame, "cycle": table.cycle}
    return {**sizes, "load": request.load, "tries": table.tries, "rows": rows}


def of_request(request):
    """A request with names."""
    names = [task.name for task in request.tasks]
    tasks = [{"task": number, **vars(task)} for number, task in enumerate(request.tasks)]
    pairs = [{"first": names[first], "second": names[second]} for first, second in request.pairs]
    return {"transfers": tasks, "before": pairs, "silent": request.silent}


def of_entry(request, entry):
    """An entry, or a job, with its name."""
    return {"name": request.tasks[entry.task].name, **entry._asdict()}


def rows(request: RequestLike, table: TableLike) -> List[Dict[str, Any]]:
    """A plain record for each row of a table: its number and first tick, its busy, silent and unused ticks, and its
    transfers as the listing has them. They can be handed to a data frame as they are.

    Request and table may be given as to `check`.
    """
    request, table = both(request, table)
    labels = ([entry_label(request, entry) for entry in row] for row in table.rows)
    return [{**_row(request, table, number), "transfers": names} for number, names in enumerate(labels)]

"""How unevenly the jobs of a task can start: the ticks between two starts, one after the other.

In a served frame the first entry starts with the frame, and each next one g ticks after the one before ended. A
transfer may end at once and takes C ticks at most, so each entry has an earliest and a latest start. Two jobs of one
task stand in different frames, so either start can be early or late whatever the other is.
"""

from typing import NamedTuple, Tuple

from . import calls, table as tables
from .accepted import RequestLike, TableLike

# In the first cycle carried entries are left out, and from the second on every cycle is the same. So the starts of
# three show every kind of two in succession: within the first, from the first to the second, and from then on.
CYCLES = 3


class Spacing(NamedTuple):
    """The ticks between the starts of two successive jobs of a task: what holds for any table of the request, from
    T − (D − C) to T + (D − C), and the least and the most that this table can give. Both are reached."""

    task: int
    name: str
    bound_least: int
    bound_most: int
    least: int
    most: int


def _served(request, row, first_cycle):
    """The entries that are served of a row, each with its earliest and its latest start, in ticks from the frame's."""
    earliest = latest = 0
    for entry in row:
        if not (first_cycle and entry.carry):
            yield entry, earliest, latest
            earliest += request.silent
            latest += request.silent + request.tasks[entry.task].length


def _starts(request, table):
    """For each task the earliest and the latest start of its jobs, one after the other."""
    rows = len(table.rows)
    starts = [[] for _ in request.tasks]
    for frame in range(CYCLES * rows):
        begin = frame * table.frame
        for entry, earliest, latest in _served(request, table.rows[frame % rows], frame < rows):
            starts[entry.task].append((begin + earliest, begin + latest))
    return starts


def spacing(request: RequestLike, table: TableLike) -> Tuple[Spacing, ...]:
    """A record for each task of the request, once the library has accepted the table."""
    _, request, data = calls.checked(request, table)
    found = []
    for number, starts in enumerate(_starts(request, tables.decode(data))):
        task = request.tasks[number]
        slack = task.deadline - task.length
        least = min(second[0] - first[1] for first, second in zip(starts, starts[1:]))
        most = max(second[1] - first[0] for first, second in zip(starts, starts[1:]))
        found.append(Spacing(number, task.name, task.period - slack, task.period + slack, least, most))
    return tuple(found)

"""What is left in a list that has a table: how much longer, earlier or slower it may get, and what still fits in.

The library was asked of every figure, and of the next one, which has no table. What the time did not decide is told as
undecided.
"""

from dataclasses import dataclass
from typing import Any, Callable, Iterable, NamedTuple, Optional

from . import changes, library
from .accepted import RequestLike, TableLike
from .asking import TABLE, UNDECIDED, Asking
from .calls import checked
from .halving import Edge, edge
from .refusals import Refused
from .sources import given
from .table import Entry, Table, decode
from .why import SECONDS
from .words import MOST_TASKS


class Slack(NamedTuple):
    """A transfer: the longest length and the earliest deadline that it may have, all else as it is."""

    task: int
    length: int
    longest: Edge
    deadline: int
    earliest: Edge


class New(NamedTuple):
    """A new transfer of a period, its phase 0 and its deadline the period: the longest that it can be with the table
    planned anew, and with the table as it is; None if its period does not divide the cycle, 0 if there is no time."""

    period: int
    anew: Optional[Edge]
    as_it_is: Optional[int]


@dataclass(frozen=True)
class Room:
    """What is left beside a table: the unused ticks of each row, the slack of each transfer, the slowest transceiver,
    in percent of the lengths, the longest new transfers, and the longest one-off. `ended` says that the time was over
    before all was asked."""

    request: object
    table: Optional[Table]
    unused: tuple = ()
    transfers: tuple = ()
    slowest: Optional[Edge] = None
    new: tuple = ()
    one_off: int = 0
    questions: int = 0
    seconds: float = 0.0
    limit: float = SECONDS
    ended: bool = False


def _slack(request, asking, task):
    own = request.tasks[task]

    def longer(length):
        return asking.answer(changes.with_numbers(request, task, length=length))

    def earlier(deadline):
        return asking.answer(changes.with_numbers(request, task, deadline=deadline))

    lengths = range(own.length, own.deadline + 1)
    deadlines = range(own.deadline, own.length - 1, -1)
    return Slack(task, own.length, edge(lengths, longer), own.deadline, edge(deadlines, earlier))


def _slowest(request, asking):
    """The most percent of all lengths; beyond, one would be longer than its deadline."""
    most = min(100 * task.deadline // task.length for task in request.tasks)
    return edge(range(100, most + 1), lambda percent: asking.answer(changes.scaled(request, percent)))


def _anew(request, asking, period):
    """The longest new transfer with the table planned anew; None if there are as many transfers as can be."""
    if len(request.tasks) == MOST_TASKS:
        return None
    return edge(
        range(1, period + 1), lambda length: asking.answer(changes.with_transfer(request, length, period))
    )


def _unused(request, table):
    return tuple(table.frame - request.used(row) for row in table.rows)


def _emptiest(request, table, period):
    """In each window of a new transfer the row that leaves the most time, or None if one has no whole frame."""
    unused, chosen = _unused(request, table), []
    for release in range(0, table.cycle, period):
        rows = range(-(-release // table.frame), (release + period) // table.frame)
        if not rows:
            return None
        chosen.append(max(rows, key=lambda row: (unused[row], -row)))
    return chosen


def table_with(request, table, rows):
    """The table with one transfer more, whose jobs stand in these rows."""
    entries = {row: Entry(len(request.tasks), job) for job, row in enumerate(rows)}
    behind = (((*row, entries[place]) if place in entries else row) for place, row in enumerate(table.rows))
    return Table(table.frame, table.cycle, tuple(behind))


def _as_it_is(request, table, period):
    """The longest new transfer beside the entries of a table, which the check accepts then; None if its period does
    not divide the cycle or there are as many transfers as can be."""
    if table.cycle % period or len(request.tasks) == MOST_TASKS:
        return None
    rows = _emptiest(request, table, period)
    if rows is None:
        return 0

    def answer_of(length):
        changed = changes.with_transfer(request, length, period)
        return -library.check(bytes(changed), bytes(table_with(request, table, rows)))

    return edge(range(1, period + 1), answer_of).last or 0


def _one_off(data, table):
    """The longest one-off transfer that has a frame in the first two cycles."""
    until = 2 * table.cycle

    def answer_of(length):
        return TABLE if library.one_off(data, bytes(table), length, 0, until) >= 0 else library.NO_TASK

    return edge(range(1, table.frame + 1), answer_of).last or 0


def _planned(data, request, asking):
    """The list's own table, or None if that was not decided in the time."""
    number = asking.answer(data)
    if number not in (TABLE, UNDECIDED):
        raise Refused.of(number, data=data, request=request)
    return decode(asking.table(data)) if number == TABLE else None


def room(
    request: RequestLike, table: Optional[TableLike] = None, periods: Iterable[int] = (), seconds: float = SECONDS,
    tell: Optional[Callable[[int, float], Any]] = None,
) -> Room:
    """What is left in a list that has a table, or beside the table that is given.

    New transfers are asked for with each period of the list and with these `periods`. The questions take no longer
    than so many seconds. `tell` is called about once a second, with the number of questions and the seconds gone by.
    """
    data, request = given(request)
    if table is not None:
        table = decode(checked(request, table)[2])
    with Asking(seconds, tell) as asking:
        table = table or _planned(data, request, asking)
        if table is None:
            return Room(request, None, limit=seconds, ended=True)
        wanted = sorted({*(task.period for task in request.tasks), *periods})
        found = Room(
            request, table, _unused(request, table),
            tuple(_slack(request, asking, task) for task in range(len(request.tasks))),
            _slowest(request, asking),
            tuple(New(each, _anew(request, asking, each), _as_it_is(request, table, each)) for each in wanted),
            _one_off(data, table),
            asking.questions, asking.gone, seconds, asking.undecided > 0,
        )
    return found

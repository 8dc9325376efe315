"""Which phases of a task still fit: the library counts them, and each one is planned to see where they lie.

Both are done at the same time, in two processes, and compared in the end.
"""

import itertools
import struct
import time
from typing import Any, Callable, Dict, NamedTuple, Optional, Tuple

from . import child, library, search
from .accepted import RequestLike, TaskLike, whole
from .names import task_number
from .refusals import Refused
from .sources import given

# What planning a phase can come to, in the order of the library's counts: a table, or a refusal's number.
TABLE = 0
ANSWERS = (TABLE, 9, 10, 23)

COUNTED = struct.Struct("<4H")


class Run(NamedTuple):
    """Neighbouring phases, the first and the last of them, which planning answers alike: 0 is a table, else it is the
    number of the refusal."""

    first: int
    last: int
    answer: int


class Phases(NamedTuple):
    """The phases of a task from 0 to T − 1, each planned with so many tries allowed.

    How many lead to a table, and how many are refused with 9, 10 and 23, as the library counts them; and the runs of
    neighbours, one after the other.
    """

    task: int
    tries: int
    tables: int
    nines: int
    tens: int
    ended: int
    runs: Tuple[Run, ...]

    @property
    def counts(self) -> Dict[int, int]:
        """The four counts by what they count: 0, 9, 10 and 23."""
        return dict(zip(ANSWERS, (self.tables, self.nines, self.tens, self.ended)))


class CountsDiffer(Exception):
    """The library's counts are not those of the phases that were planned one by one."""


def with_phase(data, task, phase):
    """A request's bytes with another phase for a task; all other bytes stay."""
    at = 7 + 8 * task
    return data[:at] + struct.pack("<H", phase) + data[at + 2 :]


def runs_of(answers):
    """The runs of neighbours with the same answer, given the answer of each phase from 0 on."""
    runs = []
    for answer, same in itertools.groupby(enumerate(answers), key=lambda item: item[1]):
        places = [place for place, _ in same]
        runs.append(Run(places[0], places[-1], answer))
    return tuple(runs)


def _each(worker, data, task, period, tries, tell):
    """What planning each phase comes to, one after the other."""
    worker.started()
    begin = told = time.monotonic()
    answers = []
    for phase in range(period):
        waiting = tell and (lambda _: tell(len(answers), period, time.monotonic() - begin))
        (answer, _, _), _ = worker.call(
            "plan", with_phase(data, task, phase), tries, pause=search.SECONDS_BETWEEN_SIGNS, tell=waiting
        )
        answers.append(max(-answer, TABLE))
        now = time.monotonic()
        if tell is not None and now - told >= search.SECONDS_BETWEEN_SIGNS:
            tell(len(answers), period, now - begin)
            told = now
    return answers


def _both(data, task, period, tries, tell):
    """The library's counts, and what planning comes to with each phase."""
    with child.worker() as counting, child.worker() as planning:
        counting.ask("phases", data, task, tries)
        answers = _each(planning, data, task, period, tries, tell)
        waiting = tell and (lambda seconds: tell(period, period, seconds))
        (_, counts), _ = counting.answer(search.SECONDS_BETWEEN_SIGNS, waiting)
    return list(COUNTED.unpack(counts)), answers


def phases(
    request: RequestLike, task: TaskLike, tries: int = search.TRIES, tell: Optional[Callable[[int, int, float], Any]] = None
) -> Phases:
    """How the phases of a task, given by its name or its number, end: counts, and runs of neighbours that end alike.

    All else is as in the request, and each phase is allowed so many tries. `tell` is called about once a second of long
    work, with how many of the phases are planned, how many there are, and the seconds that it took.
    """
    tries = whole("the number of tries that are allowed", tries, 0, library.MOST_TRIES)
    data, request = given(request)
    number = task_number(request, task)
    answer, _ = library.phases(data, number, 0)
    if answer < 0:
        raise Refused.of(-answer, data=data, request=request, called=task)
    counts, answers = _both(data, number, request.tasks[number].period, tries, tell)
    planned = [answers.count(each) for each in ANSWERS]
    if counts != planned:
        raise CountsDiffer(f"the library counts {counts} phases of task {number}, and planning each comes to {planned}")
    return Phases(number, tries, *counts, runs_of(answers))

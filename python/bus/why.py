"""Why a list or a table is refused, and what would turn the refusal into a table.

Every suggestion was planned by the library, which answers exactly. What the time did not decide is told as undecided.
"""

from dataclasses import dataclass
from typing import Any, Callable, Optional

from . import changes, findings, library
from .accepted import RequestLike, TableLike
from .asking import TABLE, UNDECIDED, Asking
from .breaches import Sizes, breaches, sizes
from .core import Core, core
from .findings import LIMITS, NO_LENGTH, Case
from .lengths import lengths
from .refusals import Refused
from .sources import content, given
from .table import decode

SECONDS = 10

NO_PLAN = 10
WRONG_SIZES, NO_PLAN_OF_IT = 13, 14
EXPLAINED = (*LIMITS, NO_LENGTH, NO_PLAN)


@dataclass(frozen=True)
class Why:
    """Why a list, or a table for it, is refused: the number, 0 for none, None if that was not decided in the time.

    `core` are the lines that are refused already; `lengths` the frame lengths with what each fails, for 9; `changes`
    the single changes with which the list has a table, the cheapest first; `findings` all that was asked, with what
    would not do and what is undecided; `sizes` and `breaches` what is wrong with a table, for 13 and 14. `ended` says
    that the time was over before all was asked.
    """

    request: object
    number: Optional[int]
    core: Optional[Core] = None
    lengths: tuple = ()
    changes: tuple = ()
    findings: tuple = ()
    sizes: Optional[Sizes] = None
    breaches: tuple = ()
    questions: int = 0
    seconds: float = 0.0
    limit: float = SECONDS
    ended: bool = False


def _size(request, change):
    """How large a change is beside what was there, for the order within a kind."""
    if change.kind == changes.PHASE:
        return abs(change.new - change.old) / request.tasks[change.task].period
    if change.kind == changes.CUT:
        return max(change.new) / change.old
    if change.kind in (changes.TRANSFERS, changes.PAIRS):
        return len(change.new)
    return abs(change.new - change.old) / change.old


def cheapest_first(request, found):
    """All changes of the findings: by kind, then the smaller ones first, then in the order of the list."""
    every = [change for finding in found for change in finding.changes]
    return tuple(sorted(every, key=lambda change: (changes.ORDER[change.kind], _size(request, change))))


def _longest_piece(request, found):
    """For each task the longest length that is not known to be refused."""
    longest = []
    for number, task in enumerate(request.tasks):
        (shorter,) = (each for each in found if each.kind == changes.LENGTH and each.task == number)
        fits = [change.new for change in shorter.changes]
        longest.append((fits or [0])[0] if shorter.decided else task.length - 1)
    return longest


def all_findings(case):
    """Everything that may be asked of the refusal, the quick questions first."""
    if case.number in LIMITS:
        return [*findings.other_periods(case), *findings.fewer_transfers(case)]
    found = [findings.shorter(case, task) for task in case.places()]
    found += [findings.later(case, task) for task in case.places()]
    found.append(findings.faster(case))
    found += [*findings.quieter(case), *findings.fewer_pairs(case)]
    found += findings.pieces(case, _longest_piece(case.request, found))
    found += findings.fewer_transfers(case)
    if case.number == NO_LENGTH:
        found += findings.other_periods(case)
    return [*found, *findings.other_phases(case)]


def _explained(request, number, asking):
    """The parts of a refusal."""
    found_core = core(request, asking, number)
    found = all_findings(Case(request, number, asking))
    return {
        "core": found_core,
        "lengths": lengths(request) if number == NO_LENGTH else (),
        "changes": cheapest_first(request, found),
        "findings": tuple(found),
    }


def _of_list(data, request, seconds, tell):
    with Asking(seconds, tell) as asking:
        number = asking.answer(data)
        if number not in (TABLE, UNDECIDED, *EXPLAINED):
            raise Refused.of(number, data=data, request=request)
        parts = _explained(request, number, asking) if number in EXPLAINED else {}
        asked = {"questions": asking.questions, "seconds": asking.gone, "ended": asking.undecided > 0 or asking.over}
    return Why(request, number, **parts, **asked, limit=seconds)


def _of_table(data, request, table):
    number = -library.check(data, table)
    if number == TABLE:
        return Why(request, TABLE)
    if number == WRONG_SIZES:
        return Why(request, number, sizes=sizes(request, decode(table)))
    if number == NO_PLAN_OF_IT:
        return Why(request, number, breaches=breaches(request, decode(table)))
    raise Refused.of(number, data=data, request=request, table=table)


def why(
    request: RequestLike, table: Optional[TableLike] = None, seconds: float = SECONDS,
    tell: Optional[Callable[[int, float], Any]] = None,
) -> Why:
    """Why a list has no table, or, with a table, why that is none of the list; and what would do.

    The questions take no longer than so many seconds. `tell` is called about once a second, with the number of
    questions and the seconds gone by.
    """
    data, request = given(request)
    if table is not None:
        return _of_table(data, request, content(table))
    return _of_list(data, request, seconds, tell)

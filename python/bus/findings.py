"""Single changes of a list that has no table, each asked of the library: what would do, what would not, and what is not
decided in the time.

Shorter lengths, later deadlines, fewer silent ticks, a faster transceiver and fewer pairs keep every plan, so the least
change is found by halving. Phases, periods, cuts and transfers that are left out have no such order: they are gone
through, the nearest and the fewest first.
"""

import itertools
import math
from dataclasses import replace
from typing import Callable, NamedTuple, Optional

from . import changes
from .asking import TABLE, UNDECIDED
from .changes import CUT, DEADLINE, LENGTH, PAIRS, PERIOD, PHASE, SILENT, SPEED, TRANSFERS, Change, listed, ticks
from .cut import cut
from .halving import Walk, edge, walk_all
from .phases import with_phase
from .refusals import Refused

MOST_CYCLE, MOST_JOBS = 10_000, 128

# The refusals of a cycle that is too long, and of one that has too many jobs.
LIMITS = (7, 8)
NO_LENGTH = 9


class Finding(NamedTuple):
    """What was found about one kind of change, of one transfer or of all: the changes that have a table; what else is
    known, in words; and whether it is decided that no smaller change would do."""

    kind: str
    task: Optional[int]
    changes: tuple
    words: str
    decided: bool


class Case(NamedTuple):
    """A request that is refused, the number, and who asks."""

    request: object
    number: int
    asking: object

    @property
    def same(self):
        """The numbers that a change has to get rid of."""
        return LIMITS if self.number in LIMITS else (self.number,)

    def places(self):
        return range(len(self.request.tasks))

    def place(self, task):
        return self.request.place(task)


def _value(kind, text):
    """A value of a kind in words."""
    return {SPEED: f"all lengths at {text} %"}.get(kind, f"{kind} {text}")


def _between(kind, first, last):
    """Values that are not decided."""
    low, high = sorted((first, last))
    return f"{_value(kind, low if low == high else f'{low} to {high}')} undecided"


def _some_length_passes(kind, value):
    return f"{_value(kind, value)}: some frame length passes, but there is no table"


def _passes(case, values, answer_of, last):
    """The last value that lets some length pass, where the table needs more; None if there is nothing to tell."""
    if case.number != NO_LENGTH:
        return None

    def some_length(value):
        answer = answer_of(value)
        return answer if answer in (UNDECIDED, NO_LENGTH) else TABLE

    passing = edge(values, some_length).last
    return None if passing == last else passing


class _Order(NamedTuple):
    """Values of a kind of change, the easiest first: the value that the list has; the list with another; the change in
    words; and what is told if no value would do."""

    kind: str
    task: Optional[int]
    values: range
    old: int
    changed: Callable
    words: Callable
    none: str


def _halved(case, order):
    """The finding of an order of values: the last that has a table is the least change."""

    def answer_of(value):
        return case.asking.answer(order.changed(value))

    kind, values = order.kind, order.values
    found = edge(values, answer_of)
    told = [order.none] if found.last is None and found.decided else []
    if not found.decided:
        first = values[0] if found.last is None else values[values.index(found.last) + 1]
        last = values[-1] if found.refused is None else values[values.index(found.refused) - 1]
        told.append(_between(kind, first, last))
    passing = _passes(case, values, answer_of, found.last)
    if passing is not None:
        told.append(_some_length_passes(kind, passing))
    done = ()
    if found.last is not None:
        changed = order.changed(found.last)
        done = (Change(kind, order.task, order.old, found.last, order.words(found.last), changed),)
    return Finding(kind, order.task, done, "; ".join(told), found.decided)


def shorter(case, task):
    """The longest length that fits."""
    own = case.request.tasks[task].length
    if own == 1:
        return Finding(LENGTH, task, (), "its length is 1 tick already", True)
    return _halved(case, _Order(
        LENGTH, task, range(1, own), own,
        lambda length: changes.with_numbers(case.request, task, length=length),
        lambda length: f"{case.place(task)}: length {length} in place of {own}",
        "not even length 1",
    ))


def later(case, task):
    """The shortest longer deadline."""
    own, period = case.request.tasks[task].deadline, case.request.tasks[task].period
    if own == period:
        return Finding(DEADLINE, task, (), "its deadline is the period already", True)
    return _halved(case, _Order(
        DEADLINE, task, range(period, own, -1), own,
        lambda deadline: changes.with_numbers(case.request, task, deadline=deadline),
        lambda deadline: f"{case.place(task)}: deadline {deadline} in place of {own}",
        f"not even the deadline {period}, its period",
    ))


def quieter(case):
    """The largest g that fits, if there is one."""
    own = case.request.silent
    if own:
        yield _halved(case, _Order(
            SILENT, None, range(own), own,
            lambda silent: replace(case.request, silent=silent),
            lambda silent: f"silent {silent} in place of {own}",
            "not even silent 0",
        ))


def faster(case):
    """The slowest transceiver that suffices."""

    def words(percent):
        fast = changes.times_as_fast(percent)
        return f"a transceiver {fast} times as fast: all lengths at {percent} %, rounded up"

    return _halved(case, _Order(
        SPEED, None, range(1, 100), 100,
        lambda percent: changes.scaled(case.request, percent),
        words,
        "not even a transceiver that brings all lengths to 1 %, rounded up",
    ))


def _passing_words(case, kind, walk):
    """The nearest value that gets rid of the list's refusal, where that has another one."""
    if walk.answer in (None, TABLE) or case.number not in (*LIMITS, NO_LENGTH):
        return ""
    if case.number == NO_LENGTH:
        return _some_length_passes(kind, walk.passing)
    return f"{kind} {walk.passing}: the limits are kept, but it is refused with {walk.answer}"


def _walked(case, kind, task, sides, change_of):
    """The finding of walks to both sides."""
    done = tuple(change_of(walk.found) for walk in sides.values() if walk.found is not None)
    decided = all(walk.decided for walk in sides.values())
    told = [f"{side} {kind}s not all decided" for side, walk in sides.items() if not walk.decided]
    if not done and decided:
        told.append(f"no other {kind}")
    told += filter(None, (_passing_words(case, kind, walk) for walk in sides.values()))
    return Finding(kind, task, done, "; ".join(told), decided)


def other_phases(case):
    """The nearest earlier and later phase of each transfer that has a table."""
    data = bytes(case.request)
    walks = {}
    for task in case.places():
        own = case.request.tasks[task]

        def answer_of(phase, task=task):
            return case.asking.answer(with_phase(data, task, phase))

        earlier, behind = range(own.phase - 1, -1, -1), range(own.phase + 1, own.period)
        walks[task] = {
            "earlier": Walk(earlier, answer_of, case.same), "later": Walk(behind, answer_of, case.same)
        }
    walk_all([walk for sides in walks.values() for walk in sides.values()], case.asking)
    for task, sides in walks.items():
        own = case.request.tasks[task].phase

        def change_of(phase, task=task, own=own):
            changed = changes.with_numbers(case.request, task, phase=phase)
            return Change(PHASE, task, own, phase, f"{case.place(task)}: phase {phase} in place of {own}", changed)

        yield _walked(case, PHASE, task, sides, change_of)


def _within_limits(case, group):
    """Whether a period of these tasks leaves the cycle and its jobs within the limits."""
    others = [task.period for number, task in enumerate(case.request.tasks) if number not in group]
    shared = math.lcm(*others)

    def within(period):
        cycle = math.lcm(shared, period)
        every = [*others, *[period] * len(group)]
        return cycle <= MOST_CYCLE and sum(cycle // each for each in every) <= MOST_JOBS

    return within


def _period_words(case, group, request):
    """The change in words, with what changes along."""
    tasks, old = request.tasks, case.request.tasks
    names = listed(case.place(number) for number in group)
    together = " (equal, since they are pairs)" if len(group) > 1 else ""
    along = []
    for number in group:
        for what in ("deadline", "phase"):
            new = getattr(tasks[number], what)
            if new != getattr(old[number], what):
                along.append(f"{what} {new}" if len(group) == 1 else f"{what} {new} of {old[number].name}")
    more = f", with {listed(along)}" if along else ""
    return f"{names}: period {tasks[group[0]].period} in place of {old[group[0]].period}{more}{together}"


def other_periods(case):
    """The nearest shorter and longer period of each transfer; transfers that are tied by pairs change together."""
    groups = dict.fromkeys(changes.tied(case.request, task) for task in case.places())
    walks = {}
    for group in groups:
        own, within = case.request.tasks[group[0]].period, _within_limits(case, group)

        def answer_of(period, group=group):
            return case.asking.answer(changes.with_period(case.request, group, period))

        def fitting(periods, group=group, within=within):
            for period in periods:
                if within(period) and changes.with_period(case.request, group, period) is not None:
                    yield period

        walks[group] = {
            "shorter": Walk(fitting(range(min(own - 1, MOST_CYCLE), 0, -1)), answer_of, case.same),
            "longer": Walk(fitting(range(own + 1, MOST_CYCLE + 1)), answer_of, case.same),
        }
    walk_all([walk for sides in walks.values() for walk in sides.values()], case.asking)
    for group, sides in walks.items():
        own = case.request.tasks[group[0]].period

        def change_of(period, group=group, own=own):
            changed = changes.with_period(case.request, group, period)
            return Change(PERIOD, group[0], own, period, _period_words(case, group, changed), changed)

        yield _walked(case, PERIOD, group[0], sides, change_of)


def _from_the_middle(length, most):
    """First pieces of a cut, the most even ones first, no piece longer than the most."""
    middle = -(-length // 2)
    for first in range(middle, length):
        if first > most:
            return
        yield first
        if length - first != first:
            yield length - first


def pieces(case, longest):
    """The most even cut of each transfer that has a table.

    `longest` has, for a transfer, the longest length that is not known to be refused: a piece is no longer.
    """
    walks = {}
    for task in case.places():
        length = case.request.tasks[task].length

        def answer_of(first, task=task):
            return case.asking.answer(cut(case.request, task, first, tell=None))

        walks[task] = Walk(_from_the_middle(length, longest[task]), answer_of)
    try:
        walk_all(walks.values(), case.asking)
    except Refused as refused:
        yield Finding(CUT, None, (), f"no transfer can be cut: {refused.words}", True)
        return
    for task, walk in walks.items():
        if walk.found is not None:
            yield Finding(CUT, task, (_cut_change(case, task, walk.found),), "", walk.decided)
        elif not walk.decided:
            yield Finding(CUT, task, (), "cuts not all decided", False)


def _cut_change(case, task, first):
    length = case.request.tasks[task].length
    words = f"cut {case.place(task)} in two, of {first} and {ticks(length - first)}"
    return Change(CUT, task, length, (first, length - first), words, cut(case.request, task, first, tell=None))


def _fewest(case, kind, sizes, sets_of, changed, words):
    """The fewest lines to leave out: every single one that does, or the first set of the least size that does; and
    whether all that was passed over is decided."""
    found, decided = [], True
    for size, chosen in ((size, each) for size in sizes for each in sets_of(size)):
        if found and size > 1:
            break
        if case.asking.over:
            return tuple(found), False
        request = changed(chosen)
        answer = case.asking.answer(request)
        decided &= answer is not UNDECIDED
        if answer == TABLE:
            found.append(Change(kind, None, None, chosen, words(chosen), request))
    return tuple(found), decided


def fewer_transfers(case):
    """The fewest transfers to leave out, if there are several. A rest with more load than there is, is passed over."""
    if len(case.places()) == 1:
        return
    request, cycle = case.request, case.request.cycle
    asked_for = [(task.length + request.silent) * (cycle // task.period) for task in request.tasks]

    def changed(chosen):
        return changes.without(request, chosen)

    def lost(chosen):
        return sum(asked_for[task] for task in chosen)

    def sets_of(size):
        sets = itertools.combinations(case.places(), size)
        return sorted((each for each in sets if sum(asked_for) - lost(each) <= cycle), key=lost)

    def words(chosen):
        return f"leave out {listed(case.place(task) for task in chosen)}"

    found, decided = _fewest(case, TRANSFERS, range(1, len(request.tasks)), sets_of, changed, words)
    if not decided:
        told = "transfers to leave out not all decided"
    else:
        told = "" if found else "no transfers to leave out"
    yield Finding(TRANSFERS, None, found, told, decided)


def fewer_pairs(case):
    """The fewest pairs to leave out, if there are any."""
    request = case.request
    if not request.pairs:
        return
    names = {pair: changes.pair_words(request, pair) for pair in dict.fromkeys(request.pairs)}
    distinct = list(names)

    def changed(chosen):
        places = [place for place, pair in enumerate(request.pairs) if pair in chosen]
        return changes.without(request, (), places)

    def words(chosen):
        return f"leave out {'the pair' if len(chosen) == 1 else 'the pairs'} {listed(names[pair] for pair in chosen)}"

    answer = case.asking.answer(changed(distinct))
    if answer != TABLE:
        told = "pairs undecided" if answer is UNDECIDED else "not even to leave out every pair"
        yield Finding(PAIRS, None, (), told, answer is not UNDECIDED)
        return
    sizes = range(1, len(distinct) + 1)
    found, decided = _fewest(
        case, PAIRS, sizes, lambda size: itertools.combinations(distinct, size), changed, words
    )
    yield Finding(PAIRS, None, found, "" if decided else "pairs not all decided", decided)

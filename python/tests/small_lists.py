"""Small lists, the second planner for them, and the lists that a suggestion speaks of, made by hand."""

import itertools
from dataclasses import replace

import bus
from bus import library, table as tables
from bus.changes import with_period
from tests import second
from tests.helper import request


class Planner:
    """The second planner, which is asked once for each request."""

    def __init__(self):
        self.known = {}

    def answer(self, wanted):
        data = bytes(wanted)
        if data not in self.known:
            self.known[data] = second.answer(wanted)
        return self.known[data]


PLANNER = Planner()


def small_list(draw):
    """A list of few jobs, mostly with too much load, short windows, pairs or silent ticks."""
    periods = draw.choice(((6, 8, 24), (5, 10, 20), (12, 24), (20, 40), (9, 18), (8, 16), (7, 14), (10, 15), (4, 6)))
    tasks = []
    for _ in range(draw.randint(1, 4)):
        period = draw.choice(periods)
        length = draw.randint(1, max(1, period // draw.choice((1, 2, 3))))
        deadline = period if draw.random() < 0.4 else draw.randint(length, period)
        tasks.append((length, period, deadline, draw.choice((0, 0, draw.randrange(period)))))
    equal = [(a, b) for b in range(len(tasks)) for a in range(b) if tasks[a][1] == tasks[b][1]]
    pairs = draw.sample(equal, draw.randint(0, min(2, len(equal))))
    return request(*tasks, pairs=pairs, silent=draw.choice((0, 0, 0, 1, 2)))


def seeded_refusals(draw, count, numbers=(9, 10)):
    """So many small lists that are refused."""
    while count:
        drawn = small_list(draw)
        if PLANNER.answer(drawn) in numbers:
            count -= 1
            yield drawn


def with_task(wanted, task, **numbers):
    tasks = list(wanted.tasks)
    tasks[task] = replace(tasks[task], **numbers)
    return replace(wanted, tasks=tuple(tasks))


def at_percent(wanted, percent):
    tasks = (replace(task, length=(task.length * percent + 99) // 100) for task in wanted.tasks)
    return replace(wanted, tasks=tuple(tasks))


def cut_in_two(wanted, task, first):
    """The pieces by hand: the first takes the old number, the second the next."""
    own = wanted.tasks[task]
    two = (replace(own, length=first), replace(own, length=own.length - first))
    moved = [(a + (a >= task), b + (b > task)) for a, b in wanted.pairs]
    tasks = (*wanted.tasks[:task], *two, *wanted.tasks[task + 1 :])
    return bus.Request(tasks, ((task, task + 1), *moved), wanted.silent)


def without_tasks(wanted, tasks):
    kept = [number for number in range(len(wanted.tasks)) if number not in tasks]
    pairs = [(kept.index(a), kept.index(b)) for a, b in wanted.pairs if a in kept and b in kept]
    return bus.Request(tuple(wanted.tasks[number] for number in kept), tuple(pairs), wanted.silent)


def without_pairs(wanted, pairs):
    return replace(wanted, pairs=tuple(pair for pair in wanted.pairs if pair not in pairs))


class Smaller:
    """For a change the lists with the next smaller changes of its kind: none of them may have a table."""

    def __init__(self, wanted):
        self.wanted = wanted

    def of(self, change):
        return getattr(self, change.kind)(change)

    def length(self, change):
        yield with_task(self.wanted, change.task, length=change.new + 1)

    def deadline(self, change):
        yield with_task(self.wanted, change.task, deadline=change.new - 1)

    def phase(self, change):
        step = 1 if change.new > change.old else -1
        for phase in range(change.old, change.new, step):
            yield with_task(self.wanted, change.task, phase=phase)

    def period(self, change):
        group = [number for number in range(len(self.wanted.tasks))
                 if change.request.tasks[number].period != self.wanted.tasks[number].period]
        step = 1 if change.new > change.old else -1
        nearer = (with_period(self.wanted, group, period) for period in range(change.old + step, change.new, step))
        yield from (each for each in nearer if each is not None)

    def silent(self, change):
        yield replace(self.wanted, silent=change.new + 1)

    def speed(self, change):
        yield at_percent(self.wanted, change.new + 1)

    def cut(self, change):
        length = self.wanted.tasks[change.task].length
        for first in range(1, length):
            if max(first, length - first) < max(change.new):
                yield cut_in_two(self.wanted, change.task, first)

    def transfers(self, change):
        yield from (without_tasks(self.wanted, fewer) for fewer in itertools.combinations(
            range(len(self.wanted.tasks)), len(change.new) - 1))

    def pairs(self, change):
        yield from (without_pairs(self.wanted, fewer) for fewer in itertools.combinations(
            sorted(set(self.wanted.pairs)), len(change.new) - 1))


class All:
    """For a finding without a change every list that was meant: none of them may have a table."""

    def __init__(self, wanted):
        self.wanted = wanted

    def of(self, finding):
        return getattr(self, finding.kind)(finding.task)

    def length(self, task):
        yield with_task(self.wanted, task, length=1)

    def deadline(self, task):
        yield with_task(self.wanted, task, deadline=self.wanted.tasks[task].period)

    def phase(self, task):
        yield from (with_task(self.wanted, task, phase=phase) for phase in range(self.wanted.tasks[task].period))

    def period(self, task):
        yield from ()

    def silent(self, _):
        yield replace(self.wanted, silent=0)

    def speed(self, _):
        yield at_percent(self.wanted, 1)

    def cut(self, task):
        yield from ()

    def transfers(self, _):
        count = len(self.wanted.tasks)
        for size in range(1, count):
            yield from (without_tasks(self.wanted, chosen) for chosen in itertools.combinations(range(count), size))

    def pairs(self, _):
        yield replace(self.wanted, pairs=())


def planned(wanted):
    """The table that the library decides on, in this process, or None."""
    answer, data = library.decide(bytes(wanted))
    return tables.decode(data) if answer > 0 else None

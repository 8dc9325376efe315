"""A list with one change, and what the change is called. Whether it has a table then, the library says."""

from dataclasses import replace
from typing import NamedTuple, Optional

from .request import Request, Task

PHASE, DEADLINE, PERIOD, CUT, PAIRS, LENGTH, SILENT, SPEED, TRANSFERS = KINDS = (
    "phase", "deadline", "period", "cut", "pairs", "length", "silent", "speed", "transfers",
)

# The kinds by what they cost a team, the cheapest first: another time, one more transfer of the same data, an order
# that is not kept, fewer data, a quieter line, a new transceiver, a transfer that is not made.
ORDER = {kind: place for place, kind in enumerate(KINDS)}


class Change(NamedTuple):
    """One change of a list: its kind, the transfer that it concerns, if it is one, what stood there and what stands
    there now; the change in words; and the list with it, which has a table."""

    kind: str
    task: Optional[int]
    old: object
    new: object
    words: str
    request: Request


def with_numbers(request, task, **numbers):
    """The request with other numbers for one task."""
    tasks = list(request.tasks)
    tasks[task] = replace(tasks[task], **numbers)
    return replace(request, tasks=tuple(tasks))


def tied(request, task):
    """The tasks that are tied to a task by pairs, itself included: all have one period."""
    group = {task}
    while True:
        more = {number for pair in request.pairs if group & set(pair) for number in pair}
        if more <= group:
            return tuple(sorted(group))
        group |= more


def with_period(request, group, period):
    """The request with another period for these tasks, or None if one of them has no room in it.

    A deadline that was the period stays the period; one that is too late comes down to it. A phase that is too late
    goes down by whole periods.
    """
    tasks = list(request.tasks)
    for number in group:
        task = tasks[number]
        deadline = period if task.deadline == task.period else min(task.deadline, period)
        if task.length > deadline:
            return None
        tasks[number] = replace(task, period=period, deadline=deadline, phase=task.phase % period)
    return replace(request, tasks=tuple(tasks))


def without(request, tasks=(), pairs=(), silent=False):
    """The request without these tasks, without their pairs, without the pairs at these places, and without g."""
    kept = [number for number in range(len(request.tasks)) if number not in tasks]
    places = {number: place for place, number in enumerate(kept)}
    left = (pair for place, pair in enumerate(request.pairs) if place not in pairs)
    return Request(
        tuple(request.tasks[number] for number in kept),
        tuple((places[a], places[b]) for a, b in left if a in places and b in places),
        0 if silent else request.silent,
        tuple(request.lines[number] for number in kept) if request.lines else (),
    )


def scaled(request, percent):
    """The request with all lengths at so many percent, rounded up."""
    tasks = (replace(task, length=-(-task.length * percent // 100)) for task in request.tasks)
    return replace(request, tasks=tuple(tasks))


def with_transfer(request, length, period):
    """The request with one transfer more, behind the others: its deadline is the period, its phase 0."""
    return replace(request, tasks=(*request.tasks, Task("new", length, period, period)), lines=())


def pair_words(request, pair):
    """A pair as the list has it."""
    first, second = pair
    return f"{request.tasks[first].name} before {request.tasks[second].name}"


def listed(words):
    """Words with commas and an `and`."""
    words = list(words)
    return " and ".join([", ".join(words[:-1]), words[-1]]) if len(words) > 1 else "".join(words)


def ticks(number):
    return f"{number:,} tick" if number == 1 else f"{number:,} ticks"


def times_as_fast(percent):
    """How much faster or slower a transceiver is that brings lengths to so many percent."""
    return f"{100 / percent:.2f}"

"""Every rule that a refused table breaks: each entry, row, job and pair, by how many ticks.

The check has refused the table already, with 13 or 14: nothing is decided here.
"""

from typing import NamedTuple, Optional

from .lengths import length_of

UNKNOWN, TWICE, CARRY, EARLY, LATE, OVER, MISSING, PAIR = (
    "unknown", "twice", "carry", "early", "late", "over", "missing", "pair",
)


class Breach(NamedTuple):
    """A rule that is broken: its kind, the row, the task and its job, where there is one, the ticks, and words."""

    kind: str
    row: Optional[int]
    task: Optional[int]
    job: Optional[int]
    ticks: Optional[int]
    words: str


class Sizes(NamedTuple):
    """The cycle of a table and of its list, and the table's frame length with the transfers that it fails."""

    cycle: int
    wanted: int
    length: object


def sizes(request, table):
    """What is wrong with the sizes of a table that is refused with 13."""
    return Sizes(table.cycle, request.cycle, length_of(request, table.frame))


def _ticks(number):
    return f"{number} tick" if number == 1 else f"{number} ticks"


class _Plan:
    """A table beside its request: the jobs with their windows, and which were met."""

    def __init__(self, request, table):
        self.request, self.table = request, table
        self.jobs = {(job.task, job.number): job for job in request.jobs()}
        self.frames = {}

    def name(self, task, job):
        return f"job {job} of {self.request.place(task)}"

    def outside(self, job, row, carry):
        """By how many ticks a row lies before the release, and behind the due time."""
        begin = (row + len(self.table.rows) * carry) * self.table.frame
        return job.release - begin, begin + self.table.frame - job.due

    def inside(self, job, row, carry):
        return max(self.outside(job, row, carry)) <= 0

    def entry(self, row, entry):
        """What is wrong with one entry."""
        key = (entry.task, entry.job)
        at = (row, *key)
        if key not in self.jobs:
            words = f"row {row} names job {entry.job} of task {entry.task}, which the list does not have"
            yield Breach(UNKNOWN, *at, None, words)
            return
        if key in self.frames:
            words = f"{self.name(*key)} stands twice, again in row {row}"
            yield Breach(TWICE, *at, None, words)
        self.frames.setdefault(key, row + len(self.table.rows) * entry.carry)
        yield from self.window(row, entry, self.jobs[key])

    def window(self, row, entry, job):
        """An entry outside its window, or in it but for the carry."""
        at, name = (row, entry.task, entry.job), self.name(entry.task, entry.job)
        if self.inside(job, row, entry.carry):
            return
        if self.inside(job, row, not entry.carry):
            wrong = "is marked as carried and must not be" if entry.carry else "must be marked as carried"
            yield Breach(CARRY, *at, None, f"{name} in row {row} {wrong}")
            return
        early, late = self.outside(job, row, entry.carry)
        place = f"{name} stands in row {row}{', carried' if entry.carry else ''}"
        if early > 0:
            yield Breach(EARLY, *at, early, f"{place}: {_ticks(early)} before its release at {job.release}")
        if late > 0:
            yield Breach(LATE, *at, late, f"{place}: {_ticks(late)} after its due time {job.due}")

    def row(self, number):
        """A row that needs more than a frame has."""
        frame = self.table.frame
        known = (entry for entry in self.table.rows[number] if entry.task < len(self.request.tasks))
        used = self.request.used(known)
        if used > frame:
            over = f"over by {_ticks(used - frame)}: its entries need {used}, and a frame has {frame}"
            yield Breach(OVER, number, None, None, used - frame, f"row {number} is {over}")

    def missing(self):
        for task, job in sorted(set(self.jobs) - set(self.frames)):
            yield Breach(MISSING, None, task, job, None, f"{self.name(task, job)} is missing")

    def order(self):
        """Pairs that are out of order, of the jobs that are there."""
        for first, second in dict.fromkeys(self.request.pairs):
            for job in range(self.request.cycle // self.request.tasks[first].period):
                frames = self.frames.get((first, job)), self.frames.get((second, job))
                if None not in frames and frames[0] > frames[1]:
                    both = f"{self.name(first, job)} in frame {frames[0]} runs after {self.name(second, job)}"
                    yield Breach(PAIR, None, first, job, None, f"{both} in frame {frames[1]}")


def breaches(request, table):
    """All rules that a table breaks that is refused with 14: entries and rows, one after the other, jobs, pairs."""
    plan = _Plan(request, table)
    found = []
    for number, row in enumerate(table.rows):
        for entry in row:
            found += plan.entry(number, entry)
        found += plan.row(number)
    return (*found, *plan.missing(), *plan.order())

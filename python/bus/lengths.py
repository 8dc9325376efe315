"""Which frame lengths divide a cycle, and which transfers each of them fails, by how many ticks.

The library has refused already, or it answers the same of a changed list: nothing is decided here.
"""

import math
from typing import NamedTuple

MOST_ROWS = 256

SHORT, LONG = "short", "long"


class Failed(NamedTuple):
    """A transfer that a frame length fails: the frame is too short for it, or too long for one of its windows, by so
    many ticks."""

    task: int
    why: str
    ticks: int


class Length(NamedTuple):
    """A frame length that divides the cycle, the rows that it makes, and the transfers that it fails."""

    frame: int
    rows: int
    failed: tuple

    @property
    def passes(self):
        """Whether every transfer passes and the rows are few enough."""
        return not self.failed and self.rows <= MOST_ROWS


def _needed(task, frame):
    """The deadline that gives every window of the task a whole frame."""
    shared = math.gcd(frame, task.period)
    opens = task.phase % shared
    return 2 * frame - (opens or shared)


def _failed(request, number, frame):
    task = request.tasks[number]
    if task.length + request.silent > frame:
        yield Failed(number, SHORT, task.length + request.silent - frame)
    if _needed(task, frame) > task.deadline:
        yield Failed(number, LONG, _needed(task, frame) - task.deadline)


def length_of(request, frame):
    """What a frame length comes to."""
    failed = [each for number in range(len(request.tasks)) for each in _failed(request, number, frame)]
    return Length(frame, request.cycle // frame, tuple(failed))


def lengths(request):
    """Every length that divides the cycle, the largest first; also those that make too many rows."""
    cycle = request.cycle
    small = [divisor for divisor in range(1, math.isqrt(cycle) + 1) if cycle % divisor == 0]
    divisors = sorted({*small, *(cycle // divisor for divisor in small)}, reverse=True)
    return tuple(length_of(request, frame) for frame in divisors)


def too_many_rows(found):
    """Of these lengths those that pass every transfer and make too many rows."""
    return tuple(each for each in found if not each.failed and each.rows > MOST_ROWS)

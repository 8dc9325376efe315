"""Where a list is fullest: the stretch of frames of which jobs ask for the most that have no frame elsewhere.

It is shown and decides nothing: a list can have no table although no stretch asks for more than it has.
"""

import itertools
from typing import NamedTuple

from .details import frame_window
from .lengths import lengths


class Stretch(NamedTuple):
    """Frames of a length from one tick to another, and the ticks that jobs ask for which have no frame outside."""

    frame: int
    begin: int
    end: int
    asked: int

    @property
    def has(self):
        """The ticks of the stretch."""
        return self.end - self.begin

    @property
    def share(self):
        return self.asked / self.has


def _windows(request, frame):
    """The first and the last frame of each job, and the ticks that it asks for; also a cycle earlier and later, since
    rows come again."""
    rows = request.cycle // frame
    for job in request.jobs():
        first, last = frame_window(job, frame)
        for shift in (-rows, 0, rows):
            yield first + shift, last + shift, request.tasks[job.task].length + request.silent


def _from(first, windows, rows, frame):
    """The stretches that begin with a frame and are shorter than a cycle."""
    inside = sorted((last, asked) for begin, last, asked in windows if begin >= first and last < first + rows - 1)
    total = 0
    for last, same in itertools.groupby(inside, key=lambda item: item[0]):
        total += sum(asked for _, asked in same)
        yield Stretch(frame, first * frame, (last + 1) * frame, total)


def fullest(request):
    """The fullest stretch of a list with frames of the largest plausible length, the longest of those that are as full;
    None without such a length."""
    plausible = [each.frame for each in lengths(request) if each.passes]
    if not plausible:
        return None
    frame, cycle = plausible[0], request.cycle
    windows = list(_windows(request, frame))
    whole = sum((task.length + request.silent) * (cycle // task.period) for task in request.tasks)
    found = [Stretch(frame, 0, cycle, whole)]
    for first in {begin for begin, _, _ in windows if 0 <= begin < cycle // frame}:
        found += _from(first, windows, cycle // frame, frame)
    return max(found, key=lambda each: (each.share, each.has, -each.begin))

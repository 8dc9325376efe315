"""A second planner for small requests, written from the scope paper's words: every window is walked, every placing is
tried. Nothing of the command and nothing of the library is used."""

import math


def cycle_of(request):
    """The least common multiple of all periods, tried from one multiple to the next."""
    cycle = 1
    for task in request.tasks:
        step = cycle
        while cycle % task.period:
            cycle += step
    return cycle


def jobs_of(request, cycle):
    """Every job of a cycle: task, number, release and due time."""
    for number, task in enumerate(request.tasks):
        for job in range(cycle // task.period):
            release = task.phase + job * task.period
            yield number, job, release, release + task.deadline


def frames_of(release, due, frame):
    """The frames that lie whole in a window."""
    return [k for k in range(due // frame + 1) if release <= k * frame and (k + 1) * frame <= due]


def plausible(request, jobs, cycle, frame):
    """Whether a frame length divides the cycle into few enough rows, holds every transfer and lies in every window."""
    if cycle % frame or cycle // frame > 256:
        return False
    if any(task.length + request.silent > frame for task in request.tasks):
        return False
    return all(frames_of(release, due, frame) for _, _, release, due in jobs)


class _Placing:
    """Jobs put into frames of one length, one after the other; what has failed once is not tried again."""

    def __init__(self, request, jobs, cycle, frame):
        self.request, self.frame, self.rows = request, frame, cycle // frame
        choices = [(job[:2], frames_of(job[2], job[3], frame)) for job in jobs]
        self.jobs = sorted(choices, key=lambda item: (item[1][-1], item[0]))
        self.before = {(a, b) for a, b in request.pairs}
        self.failed = set()

    def in_order(self, key, k, placed):
        for (task, job), at in placed.items():
            if job == key[1] and ((task, key[0]) in self.before and at > k or (key[0], task) in self.before and k > at):
                return False
        return True

    def paired(self, placed):
        """The frames that may still matter for a pair."""
        tied = {number for pair in self.before for number in pair}
        return tuple(sorted((key, at) for key, at in placed.items() if key[0] in tied))

    def place(self, index, loads, placed):
        if index == len(self.jobs):
            return True
        state = index, loads, self.paired(placed)
        if state in self.failed:
            return False
        key, frames = self.jobs[index]
        asked = self.request.tasks[key[0]].length + self.request.silent
        for k in frames:
            row = k % self.rows
            if loads[row] + asked <= self.frame and self.in_order(key, k, placed):
                more = loads[:row] + (loads[row] + asked,) + loads[row + 1 :]
                if self.place(index + 1, more, {**placed, key: k}):
                    return True
        self.failed.add(state)
        return False


def answer(request):
    """0 if there is a table, or the number of the refusal, for a request that can be read."""
    if any(not (1 <= t.length <= t.deadline <= t.period and 0 <= t.phase < t.period) for t in request.tasks):
        return 3
    cycle = math.lcm(*(task.period for task in request.tasks))
    if cycle > 10_000:
        return 7
    jobs = list(jobs_of(request, cycle_of(request)))
    if len(jobs) > 128:
        return 8
    lengths = [frame for frame in range(1, cycle + 1) if plausible(request, jobs, cycle, frame)]
    if not lengths:
        return 9
    placings = (_Placing(request, jobs, cycle, frame) for frame in reversed(lengths))
    return 0 if any(each.place(0, (0,) * each.rows, {}) for each in placings) else 10

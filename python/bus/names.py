"""Tasks and jobs by what a person calls them, and what the tasks are called in a request that the library made of
others, which has no names."""

import itertools

from . import library, request as requests
from .accepted import TaskLike, index
from .request import Request

MOST_DIGITS = 3


def _number(text):
    """The number in a text, if it is one of few digits, or None."""
    return int(text) if text.isascii() and text.isdigit() and len(text) <= MOST_DIGITS else None


def task_number(request: Request, task: TaskLike) -> int:
    """The number of a task that is called by its name or its number; one that no request has if there is none."""
    if not isinstance(task, str):
        number = index("a task's number", task)
        return number if 0 <= number < library.NO_TASK else library.NO_TASK
    names = [each.name for each in request.tasks]
    if task in names:
        return names.index(task)
    number = _number(str(task))
    return library.NO_TASK if number is None else min(number, library.NO_TASK)


def task_and_job(request, job):
    """A job's task and its number in the cycle, as they are called: of a text like `camera.0`, also with the quotes and
    the + that the listing has, or of a record that begins with the two. Without a dot there is no task."""
    if isinstance(job, tuple):
        return str(job[0]), str(job[1])
    task, _, number = str(job).rpartition(".")
    if len(task) > 1 and task[0] == task[-1] == '"' and all(task != each.name for each in request.tasks):
        task = task[1:-1].replace('""', '"')
    return task, number[:-1] if number.endswith("+") else number


def job_place(request, job):
    """The place in planning order of a job; one that no request has if there is none of this name."""
    task, number = task_and_job(request, job)
    called = task_number(request, task), _number(number)
    places = {(each.task, each.number): place for place, each in enumerate(request.jobs())}
    return places.get(called, library.NO_JOB)


def _free(name, taken):
    """The name itself, or the first of NAME-2, NAME-3 and so on that is not taken."""
    tries = itertools.chain([name], (f"{name}-{number}" for number in itertools.count(2)))
    return next(text for text in tries if text not in taken)


def _told_apart(wanted, stays, taken):
    """The names that are wanted, none of them twice or taken: those that stay as they are, the others with a number."""
    taken = {*taken, *itertools.compress(wanted, stays)}
    names = []
    for want, stay in zip(wanted, stays):
        names.append(want if stay else _free(want, taken))
        taken.add(names[-1])
    return names


def _moved(name, number, to):
    """A name whose task moves to another number: one that says no more than its number, as those of a request file do,
    says the new number."""
    return requests.numbered(to) if name == requests.numbered(number) else name


def second_names(first, second):
    """What the second's tasks are called in a joined list, given the names of both.

    A name that the first has too gets a number behind it. One that is its task's number is the new number. All others
    stay.
    """
    wanted = [_moved(name, number, len(first) + number) for number, name in enumerate(second)]
    stays = [name == want and name not in first for name, want in zip(second, wanted)]
    return _told_apart(wanted, stays, first)


def piece_names(names, task):
    """What the tasks are called once one of them is cut: its pieces are NAME/1 and NAME/2, with a number behind that if
    another has the name. Names that are numbers are the new numbers, also those of the pieces. All others stay."""
    cut = names[task]
    by_number = cut == requests.numbered(task)
    pieces = [requests.numbered(task), requests.numbered(task + 1)] if by_number else [f"{cut}/1", f"{cut}/2"]
    behind = [_moved(name, number, number + 1) for number, name in enumerate(names[task + 1 :], task + 1)]
    wanted = [*names[:task], *pieces, *behind]
    stays = [*[True] * task, False, False, *(name == want for name, want in zip(names[task + 1 :], behind))]
    return _told_apart(wanted, stays, ())

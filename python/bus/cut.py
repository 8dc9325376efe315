"""A long transfer cut in two: the library cuts the request, and the names go along."""

from typing import Optional

from . import library, request as requests
from .accepted import RequestLike, TaskLike, Tell, whole
from .names import piece_names, task_number
from .refusals import Refused
from .request import Request
from .sources import called, given
from .text import quoted


def _changes(old, task, new):
    """Which names are others now, in words."""
    for number, name in enumerate(old):
        now = new[task : task + 2] if number == task else [new[number + (number > task)]]
        if now != [name]:
            yield f"{quoted(name)} to {' and '.join(map(quoted, now))}"


def cut(request: RequestLike, task: TaskLike, first: int, tell: Optional[Tell] = None) -> Request:
    """The request with a task, given by its name or its number, cut in two: `first` ticks, and then the rest of them.

    Both pieces have its period, deadline and phase, and the first comes before the second. `tell` is called with a line
    about the names that are others then.
    """
    first = whole("the length of the first piece", first, 0, library.MOST_LENGTH)
    source = called(request, "the request")
    data, request = given(request)
    number = task_number(request, task)
    answer, written = library.cut(data, number, first)
    if answer < 0:
        raise Refused.of(-answer, data=data, request=request, task=number, called=task, piece=first)
    old = [each.name for each in request.tasks]
    new = piece_names(old, number)
    if tell is not None:
        tell(f"{source}: names changed in the cut list: {', '.join(_changes(old, number, new))}")
    return requests.named(requests.decode(written), new)

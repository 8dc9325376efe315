"""The core of a refusal: lines of a list that are refused already, while leaving out any one of them ends that."""

from typing import NamedTuple

from . import changes
from .asking import UNDECIDED
from .request import Request

# A core of 7 is refused with 7, one of 8 with 8; one of 9 or 10 has no table.
NO_TABLE = (9, 10)


class Lines(NamedTuple):
    """Lines of a list: the numbers of transfers, the places of pairs, and whether the silent ticks belong to them."""

    tasks: tuple
    pairs: tuple
    silent: bool

    @property
    def count(self):
        """How many lines they are."""
        return len(self.tasks) + len(self.pairs) + self.silent


class Core(NamedTuple):
    """The lines, the request of these lines alone, the number by which it is refused, and whether it is known that
    leaving out any one of them ends that."""

    lines: Lines
    request: Request
    number: int
    decided: bool


def lines_of(request):
    """All lines of a list. A pair that stands twice is one line."""
    pairs = {pair: place for place, pair in reversed(list(enumerate(request.pairs)))}
    return Lines(tuple(range(len(request.tasks))), tuple(sorted(pairs.values())), request.silent > 0)


def alone(request, lines):
    """The request of these lines alone."""
    left_out = [number for number in range(len(request.tasks)) if number not in lines.tasks]
    pairs = [place for place in range(len(request.pairs)) if place not in lines.pairs]
    return changes.without(request, left_out, pairs, not lines.silent)


def _without_task(request, lines, task):
    pairs = tuple(place for place in lines.pairs if task not in request.pairs[place])
    return lines._replace(tasks=tuple(number for number in lines.tasks if number != task), pairs=pairs)


def one_left_out(request, lines):
    """These lines with each one left out in turn: transfers, with their pairs and the lightest first, then pairs, then
    the silent ticks. The last transfer stays: a list without one asks for nothing."""

    def weight(number):
        return (request.tasks[number].length + request.silent) / request.tasks[number].period

    if len(lines.tasks) > 1:
        for task in sorted(lines.tasks, key=weight):
            yield _without_task(request, lines, task)
    for place in lines.pairs:
        yield lines._replace(pairs=tuple(other for other in lines.pairs if other != place))
    if lines.silent:
        yield lines._replace(silent=False)


def _smaller(request, asking, lines, numbers):
    """The first lines with one left out that are refused with one of these numbers, and the number; or None, and
    whether all that was asked for is decided."""
    decided = True
    for fewer in one_left_out(request, lines):
        answer = asking.answer(alone(request, fewer))
        if answer in numbers:
            return fewer, answer
        decided &= answer is not UNDECIDED
    return None, decided


def core(request, asking, number):
    """The core of a request that is refused with this number.

    Lines are left out one after the other as long as the rest is refused with the same number; then, for 9 and 10, as
    long as the rest has no table. A transfer that is left out can make the cycle shorter, and with that a list
    harder, so every line of the result was left out once more in the end.
    """
    lines = lines_of(request)
    for numbers in ((number,), NO_TABLE) if number in NO_TABLE else ((number,),):
        fewer, told = _smaller(request, asking, lines, numbers)
        while fewer is not None:
            lines, number = fewer, told
            fewer, told = _smaller(request, asking, lines, numbers)
    return Core(lines, alone(request, lines), number, told)

"""The last value that has a table, where values get harder one by one; and the nearest one where they do not."""

from typing import NamedTuple, Optional

from .asking import TABLE, UNDECIDED


class Edge(NamedTuple):
    """The last of some values that has a table, or None; the first that has none, as far as is known, or None; and
    whether all is decided between the two."""

    last: Optional[int]
    refused: Optional[int]
    decided: bool


def edge(values, answer_of):
    """The edge in values of which each is harder than the one before, by halving. `answer_of` answers for a value."""
    low, high = -1, len(values)
    refused, undecided = len(values), set()
    while high - low > 1:
        middle = (low + high) // 2
        answer = answer_of(values[middle])
        if answer == TABLE:
            low = middle
            continue
        high = middle
        if answer is UNDECIDED:
            undecided.add(middle)
        else:
            refused = middle
    last = values[low] if low >= 0 else None
    return Edge(last, values[refused] if refused < len(values) else None, high not in undecided)


class Walk:
    """Values that are gone through, the nearest first, until one has a table.

    `passing` is the first whose answer is neither undecided nor one of the numbers that the list is refused with: a
    table, or another refusal, which `answer` has.
    """

    def __init__(self, values, answer_of, numbers=()):
        self._values = iter(values)
        self._answer_of = answer_of
        self._numbers = numbers
        self.found = self.passing = self.answer = None
        self.decided = True
        self.ended = False

    def step(self, over):
        """Asks for the next value, unless the time is over."""
        value = next(self._values, None)
        if value is None:
            self.ended = True
        elif over:
            self.decided, self.ended = False, True
        else:
            self._take(value, self._answer_of(value))

    def _take(self, value, answer):
        if answer is UNDECIDED:
            self.decided = False
        elif self.passing is None and answer not in self._numbers:
            self.passing, self.answer = value, answer
        if answer == TABLE:
            self.found, self.ended = value, True


def walk_all(walks, asking):
    """Goes on with each in turn, so that a limit of time leaves all of them equally far."""
    going = list(walks)
    while going:
        for walk in going:
            walk.step(asking.over)
        going = [walk for walk in going if not walk.ended]

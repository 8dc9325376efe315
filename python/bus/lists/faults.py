"""What can be wrong with a list, by line, and in words."""

from typing import NamedTuple

from ..errors import Error

WORDS_SHOWN = 40


class Fault(NamedTuple):
    """A line of the list, from 1, and what is wrong there; line 0 is the list as a whole."""

    line: int
    words: str

    def __str__(self):
        return f"line {self.line}: {self.words}" if self.line else self.words


class ListFaults(Error):
    """All faults of a list, by line. `source` names the list; `notes` has what was noticed before."""

    kind, more = "list", "`bus --help` shows a list"

    def __init__(self, faults, source="", notes=()):
        self.faults = sorted(faults, key=lambda fault: fault.line)
        self.source = source
        self.notes = tuple(notes)
        super().__init__(self.faults, source, self.notes)

    def __str__(self):
        source = f"{self.source}: " if self.source else ""
        return "\n".join(f"{source}{fault}" for fault in self.faults)


class WrongFile(ListFaults):
    """A file that is no list at all, but something else that has a name."""

    def __init__(self, words, source="", notes=()):
        super().__init__([Fault(0, words)], source, notes)
        self.args = (words, source, notes)


def shown(text):
    """A text in quotes, as far as a message has room for it."""
    return repr(text if len(text) <= WORDS_SHOWN else text[:WORDS_SHOWN] + "…")

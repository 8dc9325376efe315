"""Names that C takes: a prefix for all that is written, and one for each task."""

import itertools
import re
import unicodedata

# C99 tells the first 31 letters of an external name apart; behind the prefix come at most 13.
MOST_LETTERS = 16
PREFIX = re.compile(r"[A-Za-z](_?[A-Za-z0-9])*")

# Of a task's name so many letters are taken; C99 tells 63 apart in a name of an enum.
MOST_TASK_LETTERS = 32

# The library's own calls begin with bus_, and the registers of a prefix with PREFIX_timer_.
TAKEN = re.compile(r"bus|.*_timer")


def is_prefix(text):
    """Whether all names of a controller may begin with the text."""
    return bool(PREFIX.fullmatch(text)) and len(text) <= MOST_LETTERS and not TAKEN.fullmatch(text.lower())


def _plain(name):
    """A name in capitals, digits and _, without marks over letters; nothing if no letter is left."""
    letters = unicodedata.normalize("NFKD", name.upper())
    letters = "".join(letter for letter in letters if not unicodedata.combining(letter))
    return re.sub("[^A-Z0-9]+", "_", letters).strip("_")[:MOST_TASK_LETTERS].strip("_")


def task_names(names):
    """A C name for each task: its own in capitals, its number if that has no letters; those that clash get _2, _3 and
    so on, but never the own name of another."""
    wanted = [_plain(name) or str(number) for number, name in enumerate(names)]
    taken = set()
    for own in wanted:
        others = (f"{own}_{number}" for number in itertools.count(2))
        tries = itertools.chain([own], (other for other in others if other not in wanted))
        taken.add(name := next(text for text in tries if text not in taken))
        yield name

"""The last line of a refusal: who is to blame, where that is known at once, and the subcommand that tells more."""

import shlex

from .asking import Asking
from .changes import listed, pair_words
from .child import SearchEnded
from .core import NO_TABLE, core

# The culprits are named if they are known in so many seconds.
SECONDS = 0.2
MOST_NAMED = 4

WHY = "`bus why {list}` tells what would do"
WHETHER = "`bus why {list}` tells whether there is a table, and if not what would do"
TABLE = "`bus why {list} --table {table}` tells every rule that is broken"
ROOM = "`bus room {list} {table}` tells the longest transfer that has a frame"
TELLS_MORE = {**dict.fromkeys((7, 8, 9, 10), WHY), **dict.fromkeys((13, 14), TABLE), 22: ROOM, 23: WHETHER}


def _named(request, lines):
    """The lines of a core in words."""
    names = [request.place(number) for number in lines.tasks]
    if len(names) > MOST_NAMED:
        names[MOST_NAMED - 1 :] = [f"{len(names) - MOST_NAMED + 1} transfers more"]
    more = [f"the pair {pair_words(request, request.pairs[place])}" for place in lines.pairs]
    if lines.silent:
        more.append(f"silent {request.silent}")
    return f"{listed(names)}{', with ' if more else ''}{listed(more)}"


def culprits(refused):
    """The lines that have no table already, if they are known at once."""
    if refused.number not in NO_TABLE or refused.request is None:
        return ""
    try:
        with Asking(SECONDS) as asking:
            found = core(refused.request, asking, refused.number)
    except SearchEnded:
        return ""
    if not found.decided:
        return ""
    have = "has" if found.lines.count == 1 else "have"
    return f"to blame: {_named(refused.request, found.lines)}, which alone {have} no table"


def last_line(refused, asked):
    """The line for a refusal of a command, with the files that were asked for; empty if there is no more to tell."""
    more = TELLS_MORE.get(refused.number, "")
    files = {name: shlex.quote(getattr(asked, name, None) or "-") for name in ("list", "table")}
    return "; ".join(filter(None, (culprits(refused), more.format(**files))))

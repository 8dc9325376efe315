"""`bus why`: why a list has no table, or why a table is none of the list, and what would do."""

import os

from .. import files
from ..answer import ANSWERED, FAILED, UNKNOWN, Answer
from ..asking import UNDECIDED
from ..crowd import crowd
from ..findings import LIMITS
from ..progress import Questions
from ..sources import given
from ..why import why
from ..why_text import why_lines
from .arguments import add_list, add_seconds, whole_number
from .steps import WrongUse, look_ahead, request_answer, say

NAME = "why"
HELP = "tells why a list has no table, and what would give it one"
EXAMPLE = """\
  bus why examples/p5.csv
  bus why examples/crowded.csv --svg core.svg
  bus why examples/p5.csv --list mended.csv --take 2
  bus why examples/p3.req --table examples/p4.table"""

MOST_TAKEN = 999


def arguments(parser):
    add_list(parser)
    parser.add_argument("--table", metavar="TABLE", help="a table file: why it is refused for the list")
    parser.add_argument("--svg", metavar="FILE", help="write the core as a picture: windows and the fullest stretch")
    written = "write the list with a suggestion carried out: as CSV if OUT ends in .csv, else as a request file"
    parser.add_argument("--list", dest="output", metavar="OUT", help=written)
    taken = "which suggestion --list carries out, by its number (1)"
    parser.add_argument("--take", metavar="N", type=whole_number(1, MOST_TAKEN), help=taken)
    add_seconds(parser)


def _go_together(asked):
    if asked.take is not None and asked.output is None:
        raise WrongUse("--take chooses the suggestion that --list writes: name a file by --list")
    if asked.table is not None and (asked.output is not None or asked.svg is not None):
        raise WrongUse("--svg and --list are about a list that has no table: leave out --table")


def _taken(found, number):
    """The list with the suggestion of this number."""
    if len(found.changes) < number:
        there = f"there are {len(found.changes)}" if found.changes else "there is none"
        raise WrongUse(f"no list is written: suggestion {number} is asked for, and {there}")
    return found.changes[number - 1].request


def _draw(found, asked):
    """Writes the picture of the core."""
    if found.core is None or found.number in LIMITS:
        raise WrongUse("no picture is written: only a list that is refused with 9 or 10 has one of its core")
    title = "Core" if asked.list == "-" else f"{os.path.basename(asked.list)}: core"
    files.write(asked.svg, crowd(found.core, title).encode())


def _write(found, asked):
    """Writes the picture and the list that are asked for."""
    if asked.svg is not None:
        _draw(found, asked)
    if asked.output is not None:
        request_answer(_taken(found, asked.take or 1), asked.output)


def run(asked):
    _go_together(asked)
    source = files.read(asked.list)
    table = None if asked.table is None else files.read(asked.table)
    look_ahead([path for path in (asked.list, asked.table) if path is not None], asked.svg, asked.output)
    with Questions(asked.seconds) as signs:
        found = why(given(source), table, asked.seconds, tell=signs)
    status = UNKNOWN if found.number is UNDECIDED else ANSWERED
    answer = Answer(vars(found), why_lines(found, asked.table is not None), status)
    try:
        _write(found, asked)
    except WrongUse as fault:
        say(str(fault))
        return answer._replace(status=FAILED)
    return answer

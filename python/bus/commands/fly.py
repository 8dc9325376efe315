"""`bus fly`: what the dispatcher serves of a table, or of a list's own one, frame by frame."""

from functools import partial

from .. import calls, files
from ..answer import Answer
from ..dispatcher import served
from ..rows import of_entry
from ..sources import given
from ..text import flight_lines
from .arguments import add_list, add_tries, whole_number
from .steps import WrongUse, planned

NAME = "fly"
HELP = "prints what is served, frame by frame, each job with its cycle"
EXAMPLE = """\
  bus fly examples/team.csv
  bus fly examples/team.csv team.table --cycles 2"""

MOST_CYCLES = 1000


def arguments(parser):
    add_list(parser)
    parser.add_argument("table", metavar="TABLE", nargs="?", help="a table file; without one the list is planned")
    cycles = whole_number(1, MOST_CYCLES)
    parser.add_argument("--cycles", metavar="N", type=cycles, default=3, help="how many cycles (3)")
    add_tries(parser)


def _record(request, frame):
    """A served frame with the names of its entries."""
    return {**frame._asdict(), "entries": [of_entry(request, entry) for entry in frame.entries]}


def run(asked):
    if None not in (asked.table, asked.tries):
        raise WrongUse("with a table nothing is searched: leave out the table or --tries")
    source = files.read(asked.list)
    content = None if asked.table is None else files.read(asked.table)
    read = given(source)
    if content is None:
        table = planned(read, asked.tries)
    else:
        table = calls.check(read, content)
    frames = list(served(table, asked.cycles))
    return Answer({"frames": list(map(partial(_record, read.request), frames))}, flight_lines(read.request, frames))

"""`bus room`: what is left in a list that has a table, and beside the table."""

from .. import files
from ..answer import ANSWERED, UNKNOWN, Answer
from ..progress import Questions
from ..room import room
from ..room_text import room_lines
from ..sources import given
from .arguments import add_list, add_seconds, whole_number

NAME = "room"
HELP = "tells how much longer, earlier and more the transfers of a list may get"
EXAMPLE = """\
  bus room examples/team.csv
  bus room examples/team.csv team.table --period 60"""

MOST_PERIOD = 10_000


def arguments(parser):
    add_list(parser)
    parser.add_argument("table", metavar="TABLE", nargs="?", help="a table file; without one the list is planned")
    period = "the period of a new transfer, beside those of the list"
    parser.add_argument("--period", metavar="T", type=whole_number(1, MOST_PERIOD), help=period)
    add_seconds(parser)


def run(asked):
    source = files.read(asked.list)
    table = None if asked.table is None else files.read(asked.table)
    periods = () if asked.period is None else (asked.period,)
    with Questions(asked.seconds) as signs:
        found = room(given(source), table, periods, asked.seconds, tell=signs)
    return Answer(vars(found), room_lines(found), UNKNOWN if found.table is None else ANSWERED)

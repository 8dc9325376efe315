"""`bus cut`: a list with one of its transfers cut in two."""

from .. import library
from ..cut import cut
from .arguments import add_list, add_output, add_task, whole_number
from .steps import is_list, look_ahead, say, request_answer

NAME = "cut"
HELP = "cuts a long transfer of a list in two; without -o, prints the list"
EXAMPLE = """\
  bus cut examples/p2.csv camera --first 4 -o p3.csv
  bus cut examples/p2.req 2 --first 4 | bus plan -"""


def arguments(parser):
    add_list(parser)
    add_task(parser)
    ticks = whole_number(0, library.MOST_LENGTH)
    parser.add_argument("--first", metavar="U", type=ticks, required=True, help="the ticks of the first piece")
    add_output(parser, "OUT", "write a list if OUT ends in .csv, else a request file")


def run(asked):
    look_ahead([asked.list], asked.output)
    pieces = cut(asked.list, asked.task, asked.first, tell=say if is_list(asked.output) else None)
    return request_answer(pieces, asked.output)

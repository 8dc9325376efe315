"""`bus show`: a table file that the library accepts for a list, printed and drawn as by `bus plan`."""

from .. import calls, files
from ..sources import given
from .arguments import add_list, add_printing, add_table
from .steps import look_ahead, one_input, table_answer

NAME = "show"
HELP = "checks a table against its list and prints it with names"
EXAMPLE = """\
  bus show examples/team.csv team.table
  bus show examples/team.csv team.table --svg team.svg"""


def arguments(parser):
    add_list(parser)
    add_table(parser)
    add_printing(parser)
    parser.set_defaults(output=None)


def run(asked):
    one_input(asked.list, asked.table)
    source = files.read(asked.list)
    table = files.read(asked.table)
    look_ahead([asked.list, asked.table], asked.svg)
    read = given(source)
    return table_answer(read.request, calls.check(read, table), asked)

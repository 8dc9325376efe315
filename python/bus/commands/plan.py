"""`bus plan`: a list's table, printed for people, as plain lines or in C, and written as a table file and as a picture."""

from .. import files
from ..sources import given
from .arguments import add_list, add_output, add_printing, add_tries
from .steps import look_ahead, planned, table_answer

NAME = "plan"
HELP = "plans a list and prints its table with names"
EXAMPLE = """\
  bus plan examples/team.csv -o team.table --svg team.svg
  bus plan examples/team.csv --c team_table > team.c
  bus plan examples/long-search.req
  bus plan examples/long-search.req --tries 200000000"""


def arguments(parser):
    add_list(parser)
    add_output(parser, "TABLE", "write the table file")
    add_printing(parser)
    add_tries(parser)


def run(asked):
    source = files.read(asked.list)
    look_ahead([asked.list], asked.output, asked.svg)
    read = given(source)
    return table_answer(read.request, planned(read, asked.tries), asked)

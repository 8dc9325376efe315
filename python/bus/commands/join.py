"""`bus join`: two or more lists as one."""

from ..join import join
from .arguments import add_list, add_output
from .steps import is_list, look_ahead, one_input, request_answer, say

NAME = "join"
HELP = "joins two or more lists, each behind the one before; without -o, prints the list"
EXAMPLE = """\
  bus join examples/battery-1.csv examples/battery-2.csv -o batteries.csv
  bus join examples/battery-1.csv examples/battery-2.csv | bus plan -"""


def arguments(parser):
    add_list(parser, metavar="FIRST")
    add_list(parser, "more", "SECOND", nargs="+")
    add_output(parser, "OUT", "write a list if OUT ends in .csv, else a request file")


def run(asked):
    one_input(asked.list, *asked.more)
    look_ahead([asked.list, *asked.more], asked.output)
    joined = join(asked.list, *asked.more, tell=say if is_list(asked.output) else None)
    return request_answer(joined, asked.output)

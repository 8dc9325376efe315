"""`bus check`: whether a table is a plan of a list."""

from .. import calls, files
from ..answer import Answer
from .arguments import add_list, add_table
from .steps import one_input

NAME = "check"
HELP = "checks whether a table is a plan of a list"
EXAMPLE = "  bus check examples/team.csv team.table"


def arguments(parser):
    add_list(parser)
    add_table(parser)


def run(asked):
    one_input(asked.list, asked.table)
    table = calls.check(files.read(asked.list), files.read(asked.table))
    sizes = {"frame": table.frame, "cycle": table.cycle, "rows": len(table.rows)}
    return Answer({"accepted": True, **sizes}, "accepted\n")

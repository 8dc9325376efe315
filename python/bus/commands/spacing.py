"""`bus spacing`: how unevenly the jobs of each transfer can start."""

from .. import files
from ..answer import Answer
from ..spacing import spacing
from ..text import spacings
from .arguments import add_list, add_table
from .steps import one_input

NAME = "spacing"
HELP = "prints how many ticks can lie between two starts of a transfer"
EXAMPLE = "  bus spacing examples/team.csv team.table"


def arguments(parser):
    add_list(parser)
    add_table(parser)


def run(asked):
    one_input(asked.list, asked.table)
    found = spacing(files.read(asked.list), files.read(asked.table))
    return Answer({"transfers": found}, spacings(found))

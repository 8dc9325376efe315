"""`bus diff`: what is different between two lists, or between two tables."""

from .. import files
from ..answer import Answer
from ..diff import diff, read, words
from ..lists import ListFaults
from ..refusals import Refused
from ..sources import given
from .arguments import add_list
from .steps import WrongUse, one_input

NAME = "diff"
HELP = "tells what is different between two lists, or between two tables"
EXAMPLE = """\
  bus diff examples/battery-1.csv examples/battery-2.csv
  bus diff team.table moved.table --names examples/team.csv"""


def arguments(parser):
    parser.add_argument("list", metavar="OLD", help="a list, a request file or a table file")
    parser.add_argument("new", metavar="NEW", help="another one of the same kind")
    parser.add_argument("--names", metavar="LIST", help="the list of two tables, which names their transfers")


def _read(path):
    """What is in a file; a refusal speaks of this one."""
    try:
        return read(files.read(path))
    except (ListFaults, Refused) as fault:
        fault.source = path
        raise


def run(asked):
    one_input(asked.list, asked.new, asked.names)
    old, new = _read(asked.list), _read(asked.new)
    if type(old) is not type(new):
        raise WrongUse("one of the two is a table and the other a list: name two of a kind")
    request = None if asked.names is None else given(asked.names)
    found = diff(old, new, request)
    return Answer({**found._asdict(), "same": found.same}, words(found))

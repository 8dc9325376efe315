"""`bus c`: a table and its dispatcher as C source for any controller, compared with the library."""

import argparse
import os

from .. import calls, controller, files
from ..answer import Answer
from ..controller.comparison import NOT_COMPARED
from ..sources import given
from .arguments import add_list, add_tries
from .steps import WrongUse, look_ahead, planned, say

NAME = "c"
HELP = "writes a table and its dispatcher as C source for any controller"
EXAMPLE = """\
  bus c examples/team.csv -o . --name team
  bus c examples/team.csv team.table -o . --name team"""


def _prefix(text):
    if not controller.is_prefix(text):
        needs = "letters, digits and single _ between them, at most 16, not bus and no _timer at the end"
        raise argparse.ArgumentTypeError(f"{text!r} cannot begin all names in C: {needs}")
    return text


def arguments(parser):
    add_list(parser)
    parser.add_argument("table", metavar="TABLE", nargs="?", help="a table file; without one the list is planned")
    folder = "the folder for NAME_bus.h and NAME_bus.c"
    parser.add_argument("-o", dest="folder", metavar="FOLDER", required=True, help=folder)
    name = "what all names in C begin with"
    parser.add_argument("--name", metavar="NAME", type=_prefix, required=True, help=name)
    add_tries(parser)


def _made(asked, source, content):
    """The controller of the list and its own table, or of the one that was given."""
    read = given(source)
    table = planned(read, asked.tries) if content is None else calls.check(read, content)
    title = "standard input" if asked.list == "-" else os.path.basename(asked.list)
    return controller.Controller(asked.name, title, source, read.request, table)


def _compared(made, header):
    """How the code was compared, in lines for its beginning and for the person."""
    if controller.compiler() is None:
        say("no C compiler on the path: the files are written and say that they were not compared: install gcc")
        return NOT_COMPARED, "not compared"
    compared = controller.compare(made, header, made.code([]))
    return compared.lines(), f"compared with the library in {compared.states:,} states and {compared.calls:,} calls"


def run(asked):
    if None not in (asked.table, asked.tries):
        raise WrongUse("with a table nothing is searched: leave out the table or --tries")
    header_path, code_path = (os.path.join(asked.folder, f"{asked.name}_bus.{end}") for end in "hc")
    source = files.read(asked.list)
    content = None if asked.table is None else files.read(asked.table)
    look_ahead([path for path in (asked.list, asked.table) if path], header_path, code_path)
    made = _made(asked, source, content)
    header = made.header()
    lines, told = _compared(made, header)
    files.write(header_path, header.encode())
    files.write(code_path, made.code(lines).encode())
    record = {"header": header_path, "code": code_path, "compared": told}
    return Answer(record, f"{header_path} and {code_path}: {told}\n")

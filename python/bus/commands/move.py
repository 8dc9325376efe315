"""`bus move`: a table with one of its jobs moved to another frame by hand."""

from .. import files, library
from ..answer import Answer
from ..draft import Draft
from ..rows import of_table
from ..sources import given
from .arguments import add_list, add_output, add_table, whole_number
from .steps import look_ahead, one_input, table_words

NAME = "move"
HELP = "moves a job of a table to another frame; without -o, prints the new table"
EXAMPLE = """\
  bus move examples/team.csv team.table heater.0 3 -o moved.table
  bus move examples/team.csv moved.table downlink.0 4"""


def arguments(parser):
    add_list(parser)
    add_table(parser)
    parser.add_argument("job", metavar="JOB", help="the transfer and its job in the cycle: camera.0, or by number 5.0")
    number = whole_number(0, library.MOST_FRAME)
    frame = "the frame, counted from time 0: that of a carried job is its row plus the number of rows"
    parser.add_argument("frame", metavar="FRAME", type=number, help=frame)
    add_output(parser, "OUT", "write the table file")
    parser.add_argument("--plain", action="store_true", help="print the lines of the program `plan`, with names")


def run(asked):
    one_input(asked.list, asked.table)
    source = files.read(asked.list)
    table = files.read(asked.table)
    look_ahead([asked.list, asked.table], asked.output)
    read = given(source)
    draft = Draft(read, table)
    draft.lift(asked.job)
    draft.put(asked.job, asked.frame)
    moved = draft.write()
    if asked.output is not None:
        files.write(asked.output, bytes(moved))
    words = "" if asked.output else table_words(read.request, moved, asked.plain)
    return Answer(of_table(read.request, moved), words)

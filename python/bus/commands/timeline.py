"""`bus timeline`: every job of a cycle with its window and its frame, for those who plan passes."""

import os

from .. import files, table as tables
from ..answer import Answer
from ..chart import chart
from ..rows import of_entry
from ..sources import given
from ..text import busy, timeline_csv, timeline_lines
from ..timeline import timeline
from .arguments import add_list, add_svg, add_tries
from .steps import WrongUse, look_ahead, planned

NAME = "timeline"
HELP = "prints every job of a cycle with its window and its frame"
EXAMPLE = """\
  bus timeline examples/team.csv --svg team-jobs.svg
  bus timeline examples/team.csv team.table --csv > team-jobs.csv"""


def arguments(parser):
    add_list(parser)
    given_table = "a table file of the list; without one the list is planned"
    parser.add_argument("table", metavar="TABLE", nargs="?", help=given_table)
    parser.add_argument("--csv", action="store_true", help="print the records as CSV, and no busy ticks")
    add_svg(parser, "write a picture: each job's window and frame")
    add_tries(parser)


def run(asked):
    if asked.table is not None and asked.tries is not None:
        raise WrongUse("--tries is for planning, and a table is given: leave one of the two out")
    source = files.read(asked.list)
    table = None if asked.table is None else files.read(asked.table)
    look_ahead([path for path in (asked.list, asked.table) if path is not None], asked.svg)
    read = given(source)
    if table is None:
        table = bytes(planned(read, asked.tries))
    records = timeline(read, table)
    if asked.svg is not None:
        title = "Timeline" if asked.list == "-" else f"{os.path.basename(asked.list)}: timeline"
        files.write(asked.svg, chart(read.request, tables.decode(table), records, title).encode())
    jobs = [of_entry(read.request, one) for one in records]
    words = (timeline_csv if asked.csv else timeline_lines)(read.request, records)
    return Answer({"jobs": jobs, "busy": busy(read.request, records)}, words)

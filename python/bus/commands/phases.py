"""`bus phases`: which phases of a transfer still fit, all else as in the list."""

import os

from .. import files, search
from ..answer import Answer
from ..phases import phases
from ..progress import Bar
from ..sources import given
from ..strip import strip
from ..text import phase_lines
from .arguments import add_list, add_svg, add_task, add_tries
from .steps import look_ahead, tell_overload

NAME = "phases"
HELP = "tells which phases of a transfer lead to a table"
EXAMPLE = """\
  bus phases examples/team.csv star --svg star.svg
  bus phases examples/p6.req 1 --tries 1000"""


def arguments(parser):
    add_list(parser)
    add_task(parser)
    add_svg(parser, "write the phases as a picture, a strip")
    add_tries(parser, default=search.TRIES, of="the search with each phase")


def run(asked):
    source = files.read(asked.list)
    look_ahead([asked.list], asked.svg)
    read = given(source)
    tell_overload(read)
    with Bar("planning each phase") as bar:
        found = phases(read, asked.task, asked.tries, tell=bar)
    if asked.svg is not None:
        name = read.request.tasks[found.task].name
        title = f"Phases of {name}" if asked.list == "-" else f"{os.path.basename(asked.list)}: phases of {name}"
        files.write(asked.svg, strip(read.request, found, title).encode())
    task = read.request.tasks[found.task]
    record = {"name": task.name, "phase": task.phase, "tries": found.tries}
    return Answer({**record, "counts": found.counts, "runs": found.runs}, phase_lines(read.request, found))

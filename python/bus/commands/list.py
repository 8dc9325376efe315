"""`bus list`: a list as a request file, and a request file as a list."""

from .. import files
from ..sources import given, judge
from .arguments import add_list, add_output
from .steps import look_ahead, request_answer

NAME = "list"
HELP = "turns a list into a request file and back; without -o, prints the list"
EXAMPLE = """\
  bus list examples/team.csv -o team.req
  bus list team.req -o team-2.csv"""


def arguments(parser):
    add_list(parser)
    add_output(parser, "OUT", "write a list if OUT ends in .csv, else a request file")


def run(asked):
    source = files.read(asked.list)
    look_ahead([asked.list], asked.output)
    data, request = given(source)
    if asked.output is not None:
        judge(data)
    return request_answer(request, asked.output)

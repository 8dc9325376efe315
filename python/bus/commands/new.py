"""`bus new`: a list to begin with."""

from ..request import Request, Task
from .arguments import add_output
from .steps import look_ahead, request_answer, say

NAME = "new"
HELP = "prints a list to begin with: change its lines to those of your boards"
EXAMPLE = """\
  bus new -o my-team.csv
  bus new | bus plan -"""

# Three boards: a sensor, a heater with its reply, and a camera whose pictures go down.
TASKS = (
    Task("gyro", 2, 20, 20),
    Task("heater-command", 1, 40, 40),
    Task("heater-reply", 1, 40, 40),
    Task("camera", 8, 80, 60, 10),
)
PAIRS = ((1, 2),)
SILENT = 1

HINT = """\
a line for each transfer: name, length, period, deadline, phase, in whole ticks;
no deadline is the period, no phase is 0; before,A,B keeps A before B; silent,N
leaves N ticks after each transfer. `bus plan` plans it"""


def arguments(parser):
    add_output(parser, "OUT", "write a list if OUT ends in .csv, else a request file")


def run(asked):
    look_ahead([], asked.output)
    say(HINT)
    return request_answer(Request(TASKS, PAIRS, SILENT), asked.output)

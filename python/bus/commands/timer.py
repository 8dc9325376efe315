"""`bus timer`: a driver's register calls, tried on the timer of a table."""

from .. import calls, files, programs
from ..answer import Answer
from ..sources import given
from ..text import registers
from ..timer import Timer
from .arguments import add_list, add_table
from .steps import one_input

NAME = "timer"
HELP = "runs register calls of a text file on the bus timer and prints the registers after each"
EXAMPLE = "  bus timer examples/team.csv team.table examples/driver.calls"


def arguments(parser):
    add_list(parser)
    add_table(parser)
    parser.add_argument("program", metavar="PROGRAM", help="a text file of register calls, one a line")


def _record(done):
    """A step of the program with what it answered and the registers after it."""
    step = {"line": done.step.line, "call": done.step.text, "answer": done.answer}
    return {**step, "registers": done.registers, "line_on": done.line_on}


def run(asked):
    one_input(asked.list, asked.table, asked.program)
    source = files.read(asked.list)
    table = files.read(asked.table)
    program = files.read(asked.program)
    read = given(source)
    calls.check(read, table)
    try:
        steps = programs.read(program, read.request)
    except programs.ProgramFaults as found:
        found.source = files.called(asked.program)
        raise
    made = list(programs.run(steps, read.request, Timer(table, read)))
    return Answer({"steps": list(map(_record, made))}, registers(made))

"""`bus one-off`: the earliest frame of a table with time for one transfer more."""

from .. import calls, files
from ..answer import Answer
from ..rows import of_entry
from ..sources import given
from ..text import free_frame, free_frame_lines
from .arguments import ANY_TICK, TICKS, add_list, add_table

NAME = "one-off"
HELP = "finds the earliest frame with time for a one-off transfer"
EXAMPLE = """\
  bus one-off examples/team.csv team.table --length 5
  bus one-off examples/team.csv team.table --length 5 --from 20000 --until 20120
  bus one-off examples/team.csv team.table --length 5 --all"""


def arguments(parser):
    add_list(parser)
    add_table(parser)
    parser.add_argument("--length", metavar="L", type=TICKS, required=True, help="the ticks that the transfer needs")
    first = "the tick to start from (0)"
    parser.add_argument("--from", dest="begin", metavar="S", type=ANY_TICK, default=0, help=first)
    parser.add_argument("--until", metavar="E", type=ANY_TICK, help="the tick to end by (any)")
    every = "print every frame with time for it, of the cycle from S on"
    parser.add_argument("--all", dest="every", action="store_true", help=every)


def _record(request, frame):
    """A frame with the names of its entries."""
    entries = [of_entry(request, entry) for entry in frame.entries]
    return {**frame._asdict(), "entries": entries, "unused": frame.unused, "send": frame.send}


def run(asked):
    source = files.read(asked.list)
    table = files.read(asked.table)
    read = given(source)
    wanted = asked.length, asked.begin, asked.until
    if asked.every:
        frames = calls.free_frames(read, table, *wanted)
        return Answer({"frames": [_record(read.request, frame) for frame in frames]}, free_frame_lines(frames))
    frame = calls.one_off(read, table, *wanted)
    return Answer(_record(read.request, frame), free_frame(read.request, frame))

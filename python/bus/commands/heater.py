"""`bus heater`: what a heater link does in each frame of a table, with commands and replies lost."""

import argparse

from .. import files, table as tables
from ..answer import Answer
from ..heater import LOSSES, Heater
from ..text import exchanges
from .arguments import add_list, add_table, whole_number
from .steps import WrongUse

NAME = "heater"
HELP = "plays a heater's commands and replies, frame by frame, some of them lost"
EXAMPLE = """\
  bus heater examples/heater.csv examples/heater.table switch status --lose .r..
  bus heater examples/heater.csv examples/heater.table switch status --lose c.rrb --frames 12"""

MOST_FRAMES = 100_000

# Without a pattern so many cycles are played: in the first, carried entries are left out.
CYCLES = 2


def _pattern(text):
    if not set(text) <= set(LOSSES):
        raise argparse.ArgumentTypeError(f"{text!r} is no pattern: it has letters of {LOSSES}, one for each frame")
    if len(text) > MOST_FRAMES:
        raise argparse.ArgumentTypeError(f"a pattern has at most {MOST_FRAMES} letters, and this one {len(text)}")
    return text


def arguments(parser):
    add_list(parser)
    add_table(parser)
    parser.add_argument("command", metavar="A", help="the transfer that takes the command: its name or number")
    parser.add_argument("reply", metavar="B", help="the transfer that brings the reply; A, B is a pair of the list")
    pattern = "what is lost, a letter for each frame: . nothing, c the command, r the reply, b both; then nothing"
    parser.add_argument("--lose", metavar="PATTERN", type=_pattern, default="", help=pattern)
    frames = "how many frames (as many as the pattern has letters; without one those of two cycles)"
    parser.add_argument("--frames", metavar="N", type=whole_number(1, MOST_FRAMES), help=frames)


def _record(one):
    """A frame of the link, without its other entries."""
    return {**one._asdict(), "frame": one.frame.number, "start": one.frame.start}


def run(asked):
    if asked.frames is not None and asked.frames < len(asked.lose):
        raise WrongUse(f"the pattern is for {len(asked.lose)} frames, and --frames for {asked.frames}: make them fit")
    source = files.read(asked.list)
    table = files.read(asked.table)
    heater = Heater(source, table, asked.command, asked.reply)
    frames = asked.frames or len(asked.lose) or CYCLES * len(tables.decode(table).rows)
    records = [heater.serve(lost) for lost in asked.lose.ljust(frames, ".")]
    told = {"toggles": heater.toggles, "answered": heater.answered, "on": heater.on, "under_way": heater.under_way}
    return Answer({"frames": list(map(_record, records)), **told}, exchanges(records, heater))

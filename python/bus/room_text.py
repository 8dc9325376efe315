"""What `bus room` prints: the unused ticks of each row, the slack of each transfer, and what still fits in."""

from .changes import ticks, times_as_fast
from .why_text import no_answer
from .text import _columns as columns, quoted, sizes


def _most(edge, behind="or more"):
    """The edge in words: a value that is not known to be the last one says so."""
    if edge is None:
        return "-"
    if edge.last is None:
        return "0" if edge.decided else "undecided"
    return str(edge.last) if edge.decided else f"{edge.last} {behind}"


def _unused(room):
    return f"unused ticks by row: {' '.join(map(str, room.unused))}"


def _slack_lines(room):
    lines = [("name", "length", "at most", "deadline", "at least")]
    for one in room.transfers:
        name = quoted(room.request.tasks[one.task].name)
        earliest = _most(one.earliest, "or less")
        lines.append((name, str(one.length), _most(one.longest), str(one.deadline), earliest))
    return columns(lines)


def _slowest_line(room):
    slow = room.slowest
    if slow.last is None:
        return "slowest transceiver that suffices: undecided\n"
    how = "as fast as today's" if slow.last == 100 else f"{times_as_fast(slow.last)} times as fast"
    open_end = "" if slow.decided else "; slower ones are undecided"
    return f"slowest transceiver that suffices: {how}, all lengths at {slow.last} %, rounded up{open_end}\n"


def _new_lines(room):
    lines = [("new transfer, every", "planned anew, at most", "table as it is, at most")]
    for one in room.new:
        as_it_is = "-" if one.as_it_is is None else str(one.as_it_is)
        lines.append((ticks(one.period), _most(one.anew), as_it_is))
    return columns(lines)


def room_lines(room):
    """What is left, as text."""
    if room.table is None:
        return no_answer(room.limit)
    text = f"{sizes(room.table)}\n{_unused(room)}\n{_slack_lines(room)}{_slowest_line(room)}{_new_lines(room)}"
    text += f"longest one-off: {ticks(room.one_off)}\n"
    if room.ended:
        text += f"Not all was decided in the {room.limit:g} s that were allowed; `--seconds N` allows more.\n"
    return text

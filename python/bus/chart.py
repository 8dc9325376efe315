"""The timeline of a table as a picture (SVG): for each job a line with its window and frame, on an axis of ticks."""

from typing import NamedTuple, Sequence

from .accepted import RequestLike, TableLike
from .amounts import counted
from .drawing import FAINT, INK, MARGIN, PAPER, USABLE, WIDTH
from .drawing import add, box, finished, fitting, line, page, pale, room, shortened, ticks, width_of, write
from .sources import both
from .text import busy, quoted
from .timeline import Record

LABEL, LONGEST = 150, 320  # for the name of a job, left of the axis: at least, and at most
ROW, BAR = 18, 12
HEAD, SCALE = 78, 24


class _Axis(NamedTuple):
    """The first x of the axis, its scale, its last tick and the end of the cycle."""

    left: float
    scale: float
    end: int
    cycle: int

    def x(self, tick):
        return self.left + tick * self.scale


def _name(request, one):
    return f"{quoted(request.tasks[one.task].name)}.{one.job}"


def _lines(svg, axis, top, bottom):
    """Ticks with their numbers, and the end of the cycle with its own, behind which carried jobs stand."""
    for tick in ticks(1, axis.scale, 48, axis.end, axis.cycle):
        line(svg, (axis.x(tick), top), (axis.x(tick), bottom), stroke=FAINT, stroke_width=0.3)
        edge = {"text_anchor": "end" if axis.x(tick) > WIDTH - MARGIN - 12 else "middle"}
        write(svg, axis.x(tick), bottom + 13, str(tick), 9, fill=FAINT, **edge)
    x = axis.x(axis.cycle)
    line(svg, (x, top), (x, bottom), stroke=INK, stroke_width=1, stroke_dasharray="4 3", class_="cycle")
    behind = {"text_anchor": "end"} if x > WIDTH - MARGIN - 40 else {"text_anchor": "middle"}
    write(svg, min(x, WIDTH - MARGIN), bottom + 13, str(axis.cycle), 9, class_="cycle-end", **behind)
    write(svg, min(x, WIDTH - MARGIN), top - 3, "cycle ends", 9, fill=FAINT, **behind)


def _job(svg, request, one, length, axis, top):
    """A job's name, its window as a pale bar, and in it its frame, with the frame's number for a pointer."""
    name = _name(request, one)
    group = add(svg, "g", class_="job", data_task=one.task, data_job=one.job, data_frame=one.frame)
    begin, end = one.frame * length, (one.frame + 1) * length
    told = f"window {one.release} to {one.due}, frame {one.frame}, {begin} to {end}"
    add(group, "title", f"{shortened(name, USABLE)}: {told}")
    write(group, axis.left - 8, top + 10, shortened(name, axis.left - MARGIN - 12, 10), 10, text_anchor="end")
    carry = begin >= axis.cycle
    for draw, kind, first, last in ((pale, "window", one.release, one.due), (box, "frame", begin, end)):
        place = axis.x(first), top, (last - first) * axis.scale, BAR
        draw(group, one.task, place, carry and kind == "frame", class_=kind)


def chart(request: RequestLike, table: TableLike, records: Sequence[Record], title: str = "Timeline") -> str:
    """The text of an SVG file that shows each job's window and frame, in planning order."""
    request, table = both(request, table)
    svg = page(title)
    paper = add(svg, "rect", width=WIDTH, fill=PAPER)
    write(svg, MARGIN, 32, shortened(title, 0.8 * USABLE, 18), 18, font_weight="bold")
    facts = [counted(len(records), "job"), f"frame {table.frame}", f"cycle {table.cycle}"]
    facts.append(f"busy {busy(request, records)}")
    write(svg, MARGIN, 54, " · ".join(facts), 12, fill=FAINT)
    end = max(table.cycle, *(one.due for one in records))
    label = min(LONGEST, max([LABEL, *(width_of(_name(request, one), 10) + 12 for one in records)]))
    axis = _Axis(MARGIN + label, (USABLE - label) / end, end, table.cycle)
    top, left = HEAD, list(records)
    while left:
        count = max(1, int((room(top) - SCALE) // ROW))
        bottom = top + ROW * len(left[:count])
        _lines(svg, axis, top - 4, bottom)
        for number, one in enumerate(left[:count]):
            _job(svg, request, one, table.frame, axis, top + ROW * number)
        left = left[count:]
        top = fitting(bottom + SCALE, 20 + 2 * ROW + SCALE) + 20 if left else bottom + SCALE
    return finished(svg, paper, top)

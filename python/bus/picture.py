"""A table as a picture (SVG): what runs when, and below it each job's window with its frame and its transfer.

The cycle is a time axis that runs from left to right and is cut into frames. It goes on in further lines, as text does,
when the frames do not fit beside each other. Every measure along it is in proportion to ticks, save that a run of empty
rows takes the room of one.
"""

import math
from typing import NamedTuple

from .accepted import RequestLike, TableLike
from .amounts import counted, percent
from .drawing import EDGE, FAINT, GRID, INK, MARGIN, PAPER, SILENT, STRIPE, UNUSED, USABLE, WIDTH
from .drawing import add, box, coordinate, finished, fitting, in_two, line, outline, page, pale, room, shortened
from .drawing import steps, ticks, width_of, write
from .sources import both
from .text import printable

HEAD, STRIP = 30, 34  # ticks, rows and loads; below them the strip of frames
GAP = 14  # between two lines of the axis
NAME_LINE, TAG = 14, 12  # a line of names below the strip, and the colour in front of a name
LEAST_FRAME, WORDS_FRAME = 66, 96  # a frame with room for its row and load, and for the word 'row' too
MOST_LINES = 8  # of the axis, if the frames fit into so few
TASK_LINE, JOB_LINE = 18, 16
TASKS_IN_COLUMN = 6
COLUMN_NAME, WHOLE_NAME = 170, 620  # wide: a name in the list, of two columns and of one
LONGEST_NAME = 180  # wide, in the strip; a longer one is cut there, and stands whole in the list
LONGEST_JOB = 260  # wide, beside a window
SIZES = (11, 9)  # of a name in its block, the first that fits
FOLDED = 2  # so many empty rows, one behind the other, take the room of one


class Block(NamedTuple):
    """A transfer of the table: where it stands, and its ticks counted from the start of its row."""

    row: int
    task: int
    job: int
    carry: bool
    tick: int
    length: int


def blocks_of(request, table):
    """Every transfer of the table. Each starts when the silent ticks of the one before are over."""
    blocks = []
    for number, row in enumerate(table.rows):
        tick = 0
        for entry in row:
            length = request.tasks[entry.task].length
            blocks.append(Block(number, *entry, tick, length))
            tick += length + request.silent
    return blocks


def _label(request, task, job, carry, longest=LONGEST_NAME):
    return f"{shortened(request.tasks[task].name, longest)}.{job}{'+' if carry else ''}"


# ---- the list and the marks ----


def _heading(svg, request, table, title):
    write(svg, MARGIN, 32, shortened(title, 0.8 * USABLE, 18), 18, font_weight="bold")
    facts = [f"frame of {counted(table.frame, 'tick')}", f"cycle of {counted(table.cycle, 'tick')}"]
    facts += [counted(len(table.rows), "row"), f"{percent(request.load)} of the time in use"]
    if request.silent:
        facts.append(f"{counted(request.silent, 'silent tick')} after each transfer")
    write(svg, MARGIN, 54, " · ".join(facts), 12, fill=FAINT)
    return 76


def _task(svg, number, task, names, x, y, numbers):
    """A line of the list: the task's colour, its name, whole or in two lines, and its numbers up to the place given."""
    box(svg, number, (x, y - 10, 18, 12))
    for k, name in enumerate(names):
        write(svg, x + 26, y + 13 * k, name, 11, font_weight="bold", class_="name")
    for k, value in enumerate((task.length, task.period, task.deadline, task.phase)):
        write(svg, numbers - 64 * (3 - k), y, str(value), 11, text_anchor="end")


def _tasks(svg, request, top):
    """The list: each task with its colour, its name and its numbers, in one column or in two if all names have room."""
    count = len(request.tasks)
    wide = max(width_of(printable(task.name)) for task in request.tasks)
    columns = 1 if count <= TASKS_IN_COLUMN or wide > COLUMN_NAME else 2
    deep, across = -(-count // columns), USABLE // columns
    most = COLUMN_NAME if columns == 2 else WHOLE_NAME
    end = min(across - 32, 26 + max(min(wide, most), COLUMN_NAME) + 270)
    for column in range(columns):
        x = MARGIN + column * across
        write(svg, x + 26, top, "transfer", 10, fill=FAINT)
        for k, word in enumerate(("length", "period", "deadline", "phase")):
            write(svg, x + end - 64 * (3 - k), top, word, 10, text_anchor="end", fill=FAINT)
    deepest = y = top
    for number, task in enumerate(request.tasks):
        y = top + TASK_LINE if number % deep == 0 else y + TASK_LINE
        x = MARGIN + number // deep * across
        names = in_two(task.name, most)
        _task(svg, number, task, names, x, y, x + end)
        y += 13 * (len(names) - 1)
        deepest = max(deepest, y)
    return deepest + 22


def _flow(words, width, size):
    """Texts one behind the other in lines of a width: for each its line and how far from the left it begins."""
    number, at = 0, 0.0
    for text in words:
        wide = width_of(text, size)
        if at and at + wide > width:
            number, at = number + 1, 0.0
        yield text, number, at
        at += wide + 14


def _order(svg, request, top):
    """The pairs in words."""
    pairs = list(dict.fromkeys(request.pairs))
    if not pairs:
        return top
    names = [shortened(task.name, LONGEST_NAME) for task in request.tasks]
    texts = [f"{names[first]} before {names[second]}" for first, second in pairs]
    number = 0
    for text, number, at in _flow(["order:", *texts], USABLE, 10.5):
        write(svg, MARGIN + at, top + 15 * number, text, 10.5, fill=FAINT, class_="order")
    return top + 15 * number + 20


def _marks(svg, request, table, top):
    """What the marks in the pictures mean; only those that occur."""
    plain = {"stroke": EDGE, "stroke_width": 0.8}
    marks = [({"fill": UNUSED, **plain}, "unused time")]
    if request.silent:
        marks.insert(0, ({"fill": SILENT, **plain}, "silent ticks"))
    if any(entry.carry for row in table.rows for entry in row):
        words = "dashed and +: carried, a job of the cycle before (left out in the first cycle)"
        marks.insert(0, ({"fill": PAPER, "class_": "carried", **outline(True, 18)}, words))
    x = MARGIN
    for style, words in marks:
        add(svg, "rect", x=x, y=top - 10, width=18, height=12, **style)
        write(svg, x + 26, top, words, 10.5, fill=FAINT)
        x += 26 + width_of(words, 10.5) + 16
    return top + 20


# ---- the cycle ----


class _Cell(NamedTuple):
    """What takes the room of a frame on the axis: a row, or a run of empty ones."""

    first: int
    last: int


def cells_of(table):
    """The rows one by one, and runs of empty ones."""
    cells = []
    for number, row in enumerate(table.rows):
        if not row and cells and not table.rows[cells[-1].first]:
            cells[-1] = cells[-1]._replace(last=number)
        else:
            cells.append(_Cell(number, number))
    for cell in cells:
        rows = range(cell.first, cell.last + 1)
        yield from [cell] if len(rows) >= FOLDED else (_Cell(row, row) for row in rows)


class _Axis:
    """How the cells stand in lines: how many in each, how wide, and which names fit into their blocks."""

    def __init__(self, request, table, blocks):
        self.frame, self.cells = table.frame, list(cells_of(table))
        self.labels = [_label(request, block.task, block.job, block.carry) for block in blocks]
        widths = [width_of(label, SIZES[-1]) + 6 for label in self.labels]
        count = len(self.cells)
        least = max([LEAST_FRAME, *(width + TAG for width in widths)])
        easy = max([least, *(width * table.frame / block.length for width, block in zip(widths, blocks))])
        wished = max(int(USABLE // easy), -(-count // MOST_LINES))
        lines = -(-count // max(1, min(int(USABLE // least), wished)))
        self.in_line = -(-count // lines)
        self.width = USABLE / self.in_line
        self.scale = self.width / table.frame
        self.place = {cell.first: place for place, cell in enumerate(self.cells)}

    def size(self, block, label):
        """The size of a name inside its block; 0 if it does not fit."""
        return next((size for size in SIZES if width_of(label, size) + 6 <= block.length * self.scale), 0)

    def x(self, row, tick=0):
        return MARGIN + self.place[row] % self.in_line * self.width + tick * self.scale


def _row(svg, request, table, axis, number, top):
    """A frame of the strip, as if it were empty: its first tick, its number and its load."""
    used = request.used(table.rows[number])
    x = axis.x(number)
    group = add(svg, "g", class_="row", data_row=number, data_start=number * table.frame)
    add(group, "rect", x=x, y=top + HEAD, width=axis.width, height=STRIP, fill=UNUSED)
    write(group, x + 4, top + 9, str(number * table.frame), 9, fill=FAINT)
    word = "row " if axis.width >= WORDS_FRAME else ""
    write(group, x + 4, top + 24, f"{word}{number}", 11, font_weight="bold")
    write(group, x + axis.width - 5, top + 24, percent(used / table.frame), 11, text_anchor="end", class_="load")


def _fold(svg, table, axis, cell, top):
    """A run of empty rows in the room of one."""
    x, strip = axis.x(cell.first), top + HEAD
    group = add(svg, "g", class_="fold", data_first=cell.first, data_last=cell.last)
    empty = f"{cell.last - cell.first + 1} empty"
    ends = f"{cell.first * table.frame} to {(cell.last + 1) * table.frame}"
    add(group, "title", f"rows {cell.first} to {cell.last}, empty, ticks {ends}")
    dashed = {"fill": PAPER, "stroke": EDGE, "stroke_dasharray": "3 3"}
    add(group, "rect", x=x + 1, y=strip + 1, width=axis.width - 2, height=STRIP - 2, **dashed)
    write(group, x + 4, top + 9, str(cell.first * table.frame), 9, fill=FAINT)
    word = "rows " if axis.width >= WORDS_FRAME else ""
    write(group, x + 4, top + 24, f"{word}{cell.first}–{cell.last}", 11, font_weight="bold")
    write(group, x + axis.width / 2, strip + 21, empty, 10, text_anchor="middle", fill=FAINT)


def _block(svg, request, axis, block, top):
    """A transfer to scale and the silent ticks behind it; a pointer on it shows its numbers."""
    x, width = axis.x(block.row, block.tick), block.length * axis.scale
    if request.silent:
        silent = request.silent * axis.scale
        add(svg, "rect", class_="silent", x=x + width, y=top, width=silent, height=STRIP, fill=SILENT)
    place = {"data_row": block.row, "data_task": block.task, "data_job": block.job, "data_tick": block.tick}
    group = add(svg, "g", class_="transfer", **place)
    start = block.row * axis.frame + block.tick
    carried = ", carried from the cycle before" if block.carry else ""
    name = printable(request.tasks[block.task].name)
    add(group, "title", f"{name}, job {block.job}: row {block.row}, ticks {start} to {start + block.length}{carried}")
    box(group, block.task, (x, top, width, STRIP), block.carry)
    return group


def _below(named, left, width, top):
    """Names that do not fit into their blocks: below the frame in its width, each with its colour in front, in the order
    of the blocks. The answer is how many lines they take."""
    number, at = 0, 0.0
    for group, task, label in named:
        wide = TAG + width_of(label, SIZES[-1]) + 6
        if at and at + wide > width:
            number, at = number + 1, 0.0
        y = top + NAME_LINE * number
        box(group, task, (left + at + 2, y + 4, 8, 8), class_="tag", stroke_width=0.5)
        write(group, left + at + 2 + TAG, y + 12, label, SIZES[-1])
        at += wide
    return number + 1 if named else 0


def _free(svg, request, table, axis, number, beside, top):
    """The unused ticks of a row in words, if there is room for them behind a name that stands there."""
    used = request.used(table.rows[number])
    begin, end = axis.x(number, used) + beside, axis.x(number) + axis.width
    words = f"{table.frame - used} unused"
    if used < table.frame and width_of(words, 10) + 8 <= end - begin:
        write(svg, (begin + end) / 2, top + 21, words, 10, text_anchor="middle", fill=FAINT)


def _row_blocks(svg, request, table, axis, number, blocks, top):
    """The transfers of one row, each with its label: in its box, beside the last one, or below. The answer is how many
    lines of names there are below the strip."""
    below, beside = [], 0.0
    for block, label in blocks:
        group = _block(svg, request, axis, block, top)
        size = axis.size(block, label)
        if size:
            middle = axis.x(number, block.tick) + block.length * axis.scale / 2
            write(group, middle, top + 21, label, size, text_anchor="middle", fill=INK)
        else:
            below.append((group, block.task, label))
    if len(below) == 1 and not axis.size(*blocks[-1]):
        beside = _beside(*below[0], axis, number, request.used(table.rows[number]), top)
        below = [] if beside else below
    _free(svg, request, table, axis, number, beside, top)
    return _below(below, axis.x(number), axis.width, top + STRIP)


def _beside(group, _, label, axis, number, used, top):
    """The name of the last transfer of a row, beside its box, if there is so much unused time; how wide it is."""
    wide = width_of(label, SIZES[-1]) + 8
    if wide > (axis.frame - used) * axis.scale:
        return 0.0
    write(group, axis.x(number, used) + 4, top + 21, label, SIZES[-1])
    return wide


def _axis_line(svg, request, table, axis, cells, labelled, top):
    """One line of the axis; the answer is how many lines of names there are below its strip."""
    strip, most = top + HEAD, 0
    rows = [cell.first for cell in cells if cell.first == cell.last]
    for cell in cells:
        if cell.first == cell.last:
            _row(svg, request, table, axis, cell.first, top)
        else:
            _fold(svg, table, axis, cell, top)
    for number in rows:
        blocks = [item for item in labelled if item[0].row == number]
        most = max(most, _row_blocks(svg, request, table, axis, number, blocks, strip))
    for place in range(len(cells) + 1):
        x = MARGIN + place * axis.width
        line(svg, (x, top + 12), (x, strip + STRIP), stroke=INK, stroke_width=1.6)
    end = (cells[-1].last + 1) * table.frame
    words = f"{end}, the cycle ends" if end == table.cycle and axis.width >= 2 * WORDS_FRAME else str(end)
    write(svg, MARGIN + len(cells) * axis.width - 5, top + 9, words, 9, fill=FAINT, text_anchor="end")
    return most


def _names_below(axis, blocks):
    """At most how many lines of names a line of the axis needs below its strip: so much room is kept on a page."""
    counts = {}
    for (block, label), _ in zip(blocks, axis.labels):
        counts[block.row] = counts.get(block.row, 0) + (not axis.size(block, label))
    return max(counts.values(), default=0)


def _cycle(svg, request, table, top):
    blocks = blocks_of(request, table)
    axis = _Axis(request, table, blocks)
    labelled = list(zip(blocks, axis.labels))
    heading = "The cycle: above each frame its first tick (grey), its row and its load"
    top = fitting(top, 14 + HEAD + STRIP + GAP)
    write(svg, MARGIN, top, heading, 13, font_weight="bold")
    top += 14
    for first in range(0, len(axis.cells), axis.in_line):
        cells = axis.cells[first : first + axis.in_line]
        inside = [item for item in labelled if cells[0].first <= item[0].row <= cells[-1].last]
        top = fitting(top, HEAD + STRIP + NAME_LINE * _names_below(axis, inside))
        deep = _axis_line(svg, request, table, axis, cells, inside, top)
        top += HEAD + STRIP + NAME_LINE * deep + GAP
    return top + 22


# ---- the windows ----


class _Chart(NamedTuple):
    """The time axis of the windows: its first x, its scale, and the last tick it shows."""

    left: float
    scale: float
    end: int

    def x(self, tick):
        return self.left + tick * self.scale


def _grid(svg, table, chart, top, bottom):
    """Lines at the frames, numbers at some ticks, and the end of the cycle with its own."""
    for tick in range(0, chart.end + 1, steps(table.frame, chart.scale, 7)):
        line(svg, (chart.x(tick), top), (chart.x(tick), bottom), stroke=GRID, stroke_width=0.8)
    for y in (top - 4, bottom + 11):
        for tick in ticks(table.frame, chart.scale, 42, chart.end, table.cycle):
            write(svg, chart.x(tick), y, str(tick), 9, text_anchor="middle", fill=FAINT)
        write(svg, chart.x(table.cycle), y, str(table.cycle), 9, text_anchor="middle", class_="cycle-end")
    end = {"stroke": INK, "stroke_width": 1.2, "stroke_dasharray": "2 2"}
    line(svg, (chart.x(table.cycle), top), (chart.x(table.cycle), bottom), **end)
    write(svg, chart.x(table.cycle), top - 15, "cycle ends", 9, text_anchor="middle", fill=FAINT)


def _window(svg, request, table, chart, job, frame, tick, top):
    """One job: its numbers, a bar from release to due time, in it its frame, pale, and in that its transfer."""
    carry = frame >= len(table.rows)
    group = add(svg, "g", class_="job", data_task=job.task, data_job=job.number, data_frame=frame)
    write(group, MARGIN, top + 12, _label(request, job.task, job.number, carry, LONGEST_JOB))
    for k, value in enumerate((job.release, job.due, frame, frame % len(table.rows))):
        write(group, chart.left - 158 + 48 * k, top + 12, str(value), text_anchor="end")
    bar = {"fill": PAPER, "stroke": FAINT, "stroke_width": 1}
    x = chart.x(job.release)
    add(group, "rect", class_="window", x=x, y=top + 5, width=chart.x(job.due) - x, height=JOB_LINE - 10, **bar)
    begin, width = chart.x(frame * table.frame), table.frame * chart.scale
    pale(group, job.task, (begin, top + 2, width, JOB_LINE - 4), carry, class_="frame")
    x, width = chart.x(frame * table.frame + tick), request.tasks[job.task].length * chart.scale
    box(group, job.task, (x, top + 2, width, JOB_LINE - 4), class_="run", stroke_width=0.4)
    return x, x + width, top + JOB_LINE / 2


def _arrows(svg, request, places):
    """The pairs: an arrow from the end of each earlier transfer to the start of the later one, both in this part."""
    for first, second in dict.fromkeys(request.pairs):
        for (task, job), (_, end, y) in places.items():
            if task == first and (second, job) in places:
                start, _, to_y = places[second, job]
                _arrow(svg, (end, y), (start, to_y), first, second, job)


def _arrow(svg, begin, end, first, second, job):
    """A line from the edge of the earlier transfer's box to that of the later one's, which has the head."""
    (x, y), (to_x, to_y) = begin, end
    half = JOB_LINE / 2 - 2
    way = half if to_y > y else -half
    y, to_y = y + way, to_y - way
    long = math.hypot(to_x - x, to_y - y) or 1.0
    along = 6 * (to_x - x) / long, 6 * (to_y - y) / long
    across = along[1] / 2, -along[0] / 2
    back = to_x - along[0], to_y - along[1]
    head = [(to_x, to_y), (back[0] + across[0], back[1] + across[1]), (back[0] - across[0], back[1] - across[1])]
    group = add(svg, "g", class_="pair", data_first=first, data_second=second, data_job=job)
    line(group, (x, y), back, stroke=FAINT, stroke_width=1)
    joined = " ".join(f"{coordinate(float(a))},{coordinate(float(b))}" for a, b in head)
    add(group, "polygon", points=joined, fill=FAINT)


def _columns(svg, chart, top):
    write(svg, MARGIN, top - 4, "transfer", 10, fill=FAINT)
    for k, word in enumerate(("release", "due", "frame", "row")):
        write(svg, chart.left - 158 + 48 * k, top - 4, word, 10, text_anchor="end", fill=FAINT)


def _part(svg, request, table, chart, jobs, ticks_of, top):
    """Some jobs one below the other, with the axis above and below them."""
    frames, bottom = table.frames(), top + JOB_LINE * len(jobs)
    _columns(svg, chart, top)
    for place in range(0, len(jobs), 2):
        stripe = {"width": USABLE, "height": JOB_LINE, "fill": STRIPE}
        add(svg, "rect", x=MARGIN, y=top + JOB_LINE * place, **stripe)
    _grid(svg, table, chart, top, bottom)
    places = {}
    for place, job in enumerate(jobs):
        key = job.task, job.number
        at = top + JOB_LINE * place
        places[key] = _window(svg, request, table, chart, job, frames[key], ticks_of[key], at)
    _arrows(svg, request, places)
    return bottom + 28


def _windows(svg, request, table, top):
    """The jobs in planning order, on as many pages as they take."""
    jobs = request.jobs()
    ticks_of = {(block.task, block.job): block.tick for block in blocks_of(request, table)}
    heading = "Each job's window: a bar from its release to its due time; pale its frame, in it its transfer"
    if request.pairs:
        heading += "; arrows: the order"
    top = fitting(top, 34 + 4 * JOB_LINE + 28)
    write(svg, MARGIN, top, heading, 13, font_weight="bold")
    name = max(width_of(_label(request, job.task, job.number, True, LONGEST_JOB)) for job in jobs)
    left = MARGIN + max(name, 60.0) + 206
    end = max(table.cycle, *(job.due for job in jobs))
    chart = _Chart(left, (WIDTH - MARGIN - 12 - left) / end, end)
    top += 34
    while jobs:
        count = max(1, int((room(top) - 28) // JOB_LINE))
        top = _part(svg, request, table, chart, jobs[:count], ticks_of, top)
        jobs = jobs[count:]
        top = fitting(top, 34 + 2 * JOB_LINE + 28) + 34 if jobs else top
    return top


def picture(request: RequestLike, table: TableLike, title: str = "Bus table") -> str:
    """The text of an SVG file that shows the table of a request."""
    request, table = both(request, table)
    svg = page(title)
    paper = add(svg, "rect", width=WIDTH, fill=PAPER)
    top = _heading(svg, request, table, title)
    top = _tasks(svg, request, top)
    top = _order(svg, request, top)
    top = _marks(svg, request, table, top)
    top = _cycle(svg, request, table, top + 12)
    return finished(svg, paper, _windows(svg, request, table, top))

"""The phases of a task as a picture (SVG): a strip from phase 0 to the last, coloured by what planning comes to.

A long strip goes on in further lines, as text does. Every phase is equally wide.
"""

from .accepted import RequestLike
from .amounts import counted
from .drawing import FAINT, INK, MARGIN, PAPER, USABLE, WIDTH
from .drawing import add, coordinate, finished, fitting, in_two, line, page, shortened, steps, width_of, write
from .phases import Phases
from .sources import request_of
from .text import answer_word, answer_words, phase_range

MOST_IN_LINE = 500  # phases, so that each can be seen
HEAD, STRIP, SCALE = 22, 34, 18  # the mark of the own phase; the strip; the numbers below it
GAP, MARK_LINE = 12, 18
SIZES = (11, 9)  # of a word in its run, the first that fits

# The colour of each answer, from light to dark, so that they are told apart in greyscale too; and of the words on it.
FILLS = {0: "#CDEFE2", 23: "#F0C94A", 9: "#8FA3BC", 10: "#A8402F"}
WORDS = {10: "#FEFEFE"}


class _Lines:
    """How the phases stand in lines: how many in each, and how wide."""

    def __init__(self, period):
        self.period = period
        self.count = -(-period // MOST_IN_LINE)
        self.in_line = -(-period // self.count)
        self.scale = USABLE / self.in_line

    def of(self, number):
        """The phases of a line: the first, and the one behind the last."""
        return number * self.in_line, min((number + 1) * self.in_line, self.period)

    def x(self, phase, begin):
        return MARGIN + (phase - begin) * self.scale


def _heading(svg, request, found, title):
    task = request.tasks[found.task]
    write(svg, MARGIN, 32, shortened(title, 0.8 * USABLE, 18), 18, font_weight="bold")
    facts = f"its own is {task.phase} · {found.tries:,} tries allowed for each"
    top = 54
    for text in in_two(f"{counted(task.period, 'phase')} of {task.name}, {facts}", USABLE, 12):
        write(svg, MARGIN, top, text, 12, fill=FAINT)
        top += 16
    return top + 10


def _marks(svg, found, top):
    """What the colours mean, and how often each occurs."""
    for answer, count in found.counts.items():
        add(svg, "rect", x=MARGIN, y=top - 10, width=18, height=12, fill=FILLS[answer], stroke=INK, stroke_width=0.8)
        write(svg, MARGIN + 70, top, str(count), 11, text_anchor="end", font_weight="bold", class_="count")
        write(svg, MARGIN + 80, top, answer_words(answer, found.tries), 11)
        top += MARK_LINE
    return top + 10


def _run(svg, lines, run, begin, end, found, top):
    """A run, as far as it lies in the line; a pointer on it shows its phases."""
    first, last = max(run.first, begin), min(run.last, end - 1)
    x, width = lines.x(first, begin), (last + 1 - first) * lines.scale
    group = add(svg, "g", class_="run", data_first=first, data_last=last, data_answer=run.answer)
    words = f"{phase_range(run)}: {answer_words(run.answer, found.tries)}"
    add(group, "title", f"{'phase' if run.first == run.last else 'phases'} {words}")
    add(group, "rect", x=x, y=top, width=width, height=STRIP, fill=FILLS[run.answer], shape_rendering="crispEdges")
    word = answer_word(run.answer)
    size = next((size for size in SIZES if width_of(word, size) + 6 <= width), 0)
    if size:
        write(group, x + width / 2, top + 21, word, size, text_anchor="middle", fill=WORDS.get(run.answer, INK))


def _own(svg, lines, phase, begin, top):
    """The mark above the task's own phase, with its number beside it."""
    x = lines.x(phase, begin) + lines.scale / 2
    points = [(x - 5, top - 8), (x + 5, top - 8), (x, top - 1)]
    joined = " ".join(f"{coordinate(a)},{coordinate(b)}" for a, b in points)
    group = add(svg, "g", class_="own", data_phase=phase)
    add(group, "polygon", points=joined, class_="mark", fill=INK)
    label = f"its own phase, {phase}"
    behind = x + 9 + width_of(label, 10) <= WIDTH - MARGIN
    place = {"text_anchor": "start"} if behind else {"text_anchor": "end"}
    write(group, x + 9 if behind else x - 9, top - 3, label, 10, **place)


def _scale(svg, lines, begin, end, top):
    """The numbers of some phases, each below the middle of its phase."""
    step = steps(1, lines.scale, 42)
    for phase in range(-(-begin // step) * step, end, step):
        x = lines.x(phase, begin) + lines.scale / 2
        line(svg, (x, top), (x, top + 4), stroke=FAINT, stroke_width=0.8)
        write(svg, x, top + 14, str(phase), 9, text_anchor="middle", fill=FAINT)


def strip(request: RequestLike, found: Phases, title: str = "Phases") -> str:
    """The text of an SVG file that shows the phases of a task of a request."""
    request = request_of(request)
    svg = page(title)
    paper = add(svg, "rect", width=WIDTH, fill=PAPER)
    top = _marks(svg, found, _heading(svg, request, found, title))
    task = request.tasks[found.task]
    lines = _Lines(task.period)
    for number in range(lines.count):
        begin, end = lines.of(number)
        top = fitting(top, HEAD + STRIP + SCALE) + HEAD
        for run in found.runs:
            if run.first < end and run.last >= begin:
                _run(svg, lines, run, begin, end, found, top)
        frame = {"fill": "none", "stroke": INK, "stroke_width": 0.8}
        add(svg, "rect", x=MARGIN, y=top, width=(end - begin) * lines.scale, height=STRIP, **frame)
        if begin <= task.phase < end:
            _own(svg, lines, task.phase, begin, top)
        _scale(svg, lines, begin, end, top + STRIP)
        top += STRIP + SCALE + GAP
    return finished(svg, paper, top)

"""The core of a refusal as a picture (SVG): the window of each job with the ticks that it asks for, and above them the
fullest stretch."""

from .amounts import counted, percent
from .changes import pair_words
from .core import Core
from .drawing import COLOURS, FAINT, INK, MARGIN, PAPER, USABLE, WIDTH
from .drawing import add, finished, line, page, shortened, steps, width_of, write
from .stretch import fullest
from .text import quoted

LABEL = 190  # for the name of a job and the ticks that it asks for, left of the axis
ROW, BAR = 18, 12
HEAD, SCALE = 106, 24
MOST_FRAMES = 64  # whose borders are drawn
MARK = "#CC3311"  # Paul Tol's red, for the stretch alone
MARKS = "Each bar is the window of a job, from release to due time; its dark part is as long as what it asks for."


def _end(request, stretch):
    """The last tick that is shown."""
    return max(request.cycle, *(job.due for job in request.jobs()), stretch.end if stretch else 0)


class _Axis:
    """Where ticks stand."""

    def __init__(self, end):
        self.end = end
        self.scale = (USABLE - LABEL) / end

    def x(self, tick):
        return MARGIN + LABEL + tick * self.scale


def _ticks(svg, axis, cycle, top, bottom):
    """Ticks with their numbers, and the end of the cycle."""
    for tick in range(0, axis.end + 1, steps(1, axis.scale, 48)):
        line(svg, (axis.x(tick), top), (axis.x(tick), bottom), stroke=FAINT, stroke_width=0.3)
        if axis.x(tick) <= WIDTH - MARGIN - 12 or tick == 0:
            write(svg, axis.x(tick), bottom + 13, str(tick), 9, text_anchor="middle", fill=FAINT)
    end = axis.x(cycle)
    line(svg, (end, top), (end, bottom), stroke=INK, stroke_width=1, stroke_dasharray="4 3", class_="cycle")


def _frames(svg, axis, frame, cycle, top, bottom):
    """The borders of the frames of the largest plausible length."""
    for tick in range(frame, cycle, frame) if cycle // frame <= MOST_FRAMES else ():
        line(svg, (axis.x(tick), top), (axis.x(tick), bottom), stroke=INK, stroke_width=0.9, class_="frame")


def _stretch(svg, axis, stretch, top, bottom):
    """The fullest stretch: a band behind the windows, and what it is asked for above it."""
    x, width = axis.x(stretch.begin), stretch.has * axis.scale
    group = add(svg, "g", class_="stretch", data_begin=stretch.begin, data_end=stretch.end, data_asked=stretch.asked)
    add(group, "rect", x=x, y=top, width=width, height=bottom - top, fill=MARK, fill_opacity=0.12, stroke=MARK)
    words = f"fullest: {stretch.asked} of {stretch.has} ticks, {percent(stretch.share)}"
    room = WIDTH - MARGIN - width_of(words, 11)
    write(group, max(MARGIN, min(x, room)), top - 6, words, 11, fill=MARK, font_weight="bold")


def _job(svg, request, axis, job, top):
    """A job: its name and its ticks, its window as a faint bar, and in front of it the ticks that it asks for."""
    task = request.tasks[job.task]
    asked = task.length + request.silent
    name = f"{shortened(quoted(task.name), LABEL - 60, 10)}.{job.number}"
    group = add(svg, "g", class_="job", data_task=job.task, data_job=job.number, data_asked=asked)
    add(group, "title", f"{shortened(name, USABLE)}: window {job.release} to {job.due}, asks for {asked}")
    write(group, MARGIN + LABEL - 44, top + 10, name, 10, text_anchor="end")
    write(group, MARGIN + LABEL - 8, top + 10, str(asked), 10, text_anchor="end", font_weight="bold")
    colour = COLOURS[job.task % len(COLOURS)]
    x, width = axis.x(job.release), (job.due - job.release) * axis.scale
    add(group, "rect", x=x, y=top, width=width, height=BAR, fill=PAPER)
    for kind, wide, opacity in (("window", width, 0.3), ("asked", asked * axis.scale, 1)):
        style = {"fill": colour, "fill_opacity": opacity, "stroke": INK, "stroke_width": 0.5}
        add(group, "rect", x=x, y=top, width=wide, height=BAR, **style, class_=kind)


def _facts(request, stretch):
    facts = [counted(len(request.tasks), "transfer"), f"cycle {request.cycle}", f"{percent(request.load)} of the time"]
    if stretch is not None:
        facts.append(f"frames of {stretch.frame}, the largest plausible length")
    if request.silent:
        facts.append(f"{counted(request.silent, 'silent tick')} after each transfer")
    facts += (pair_words(request, pair) for pair in request.pairs)
    return shortened(" · ".join(facts), USABLE, 12)


def crowd(core: Core, title: str = "Core") -> str:
    """The text of an SVG file that shows the core of a list: lines that have no table already."""
    svg = page(title)
    paper = add(svg, "rect", width=WIDTH, fill=PAPER)
    write(svg, MARGIN, 32, shortened(title, 0.8 * USABLE, 18), 18, font_weight="bold")
    request, stretch = core.request, fullest(core.request)
    write(svg, MARGIN, 54, _facts(request, stretch), 12, fill=FAINT)
    write(svg, MARGIN, 74, MARKS, 10.5, fill=FAINT)
    jobs = sorted(request.jobs(), key=lambda job: (job.task, job.number))
    axis, bottom = _Axis(_end(request, stretch)), HEAD + ROW * len(jobs)
    write(svg, MARGIN + LABEL - 8, HEAD - 8, "ticks", 9, text_anchor="end", fill=FAINT)
    _ticks(svg, axis, request.cycle, HEAD - 4, bottom)
    if stretch is not None:
        _frames(svg, axis, stretch.frame, request.cycle, HEAD - 4, bottom)
        _stretch(svg, axis, stretch, HEAD - 4, bottom)
    for number, job in enumerate(jobs):
        _job(svg, request, axis, job, HEAD + ROW * number)
    return finished(svg, paper, bottom + SCALE)

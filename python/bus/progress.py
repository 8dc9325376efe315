"""Lines for the person at the screen, and signs of long work."""

import os
import sys
import textwrap
import time

WIDTH = 80
BAR = 24  # letters of a bar
INDENT = " " * len("bus: ")


def _on_a_screen():
    return sys.stderr is not None and sys.stderr.isatty()


def _columns():
    """The columns of the screen."""
    return os.get_terminal_size(sys.stderr.fileno()).columns or WIDTH


def put(text):
    """Lines to the person at the screen, each wrapped to it, the rest of it indented. Elsewhere they stay whole."""
    if sys.stderr is None:
        return
    if _on_a_screen():
        whole = {"break_long_words": False, "break_on_hyphens": False, "subsequent_indent": INDENT}
        wide = max(_columns() - 1, 2 * len(INDENT))
        text = "\n".join("\n".join(textwrap.wrap(line, wide, **whole)) for line in text.split("\n"))
    print(text, file=sys.stderr, flush=True)


def tell(text):
    """A line to the person at the screen."""
    put(f"bus: {text}")


def about(number):
    """The number with its first three digits, as it is not known better."""
    unit = 10 ** max(len(str(number)) - 3, 0)
    return number // unit * unit


def _time(seconds):
    """A time that is not known better than this, in one unit."""
    for size, unit in ((3600, "h"), (60, "min")):
        if seconds >= 2 * size:
            return f"{seconds / size:.0f} {unit}"
    return f"{seconds:.0f} s"


class Line:
    """Signs of long work. On a terminal this is one line that is written anew each time, and gone at the end. Elsewhere
    it is one line, once."""

    def __init__(self):
        self.terminal = _on_a_screen()
        self.told = False
        self.width = 0

    def __enter__(self):
        return self

    def __exit__(self, *_):
        if self.width:
            self._line("")

    def show(self, doing, far):
        """What is being done and how far it is."""
        if self.terminal:
            self._line(f"bus: {doing}{far}; Ctrl-C stops it")
        elif not self.told:
            tell(f"{doing}; Ctrl-C stops it, and nothing is written before it ends")
        self.told = True

    def _line(self, text):
        """Writes the text over that of the last time, cut where the terminal ends. No text leaves an empty line."""
        columns = _columns()
        text = text[: columns - 1]
        gap = " " * (min(self.width, columns - 1) - len(text))
        self.width = len(text)
        print(f"\r{text}{gap}", end="" if text else "\r", file=sys.stderr, flush=True)


class Progress(Line):
    """Called about once a second of a search with so many tries allowed, with about how many are used, or None while
    that is not known."""

    def __init__(self, allowance):
        super().__init__()
        self.allowance = allowance

    def __call__(self, used):
        far = "" if used is None else f", about {about(used):,} of {self.allowance:,} tries used"
        self.show("searching for a plan", far)


class Deciding(Line):
    """Called about once a second of a decision. How far it is nobody knows, so the line tells how long it has taken."""

    def __init__(self):
        super().__init__()
        self.begin = time.monotonic()

    def __call__(self, _):
        self.show("deciding whether there is a plan", f", {_time(time.monotonic() - self.begin)} so far")


class Bar(Line):
    """Called about once a second with how many of so many steps are done, and the seconds that they took."""

    def __init__(self, doing):
        super().__init__()
        self.doing = doing

    def __call__(self, done, steps, seconds):
        filled = BAR * done // steps
        left = f", about {_time((steps - done) * seconds / done)} left" if 0 < done < steps else ""
        self.show(self.doing, f" [{'#' * filled}{'.' * (BAR - filled)}] {done:,} of {steps:,}{left}")


class Questions(Line):
    """Called about once a second with how many questions were asked of the library, and the seconds gone by. It is a
    line on a terminal alone: the time is limited."""

    def __init__(self, limit):
        super().__init__()
        self.limit = limit

    def __call__(self, asked, seconds):
        if self.terminal:
            self.show("asking the library", f": {asked:,} questions, {seconds:.0f} of {self.limit:g} s")

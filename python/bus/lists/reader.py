"""The lines of a list, read by what the header says, into a request; or all faults of the list.

Each line is read by itself, so that a fault in one hides none in another. Which numbers are allowed is the library's
law; the words here say so early, for all lines at once, and the library judges the request after that.
"""

from ..amounts import counted
from ..request import Request, Task
from ..words import MOST_PAIRS, MOST_SILENT, MOST_TASKS, pair_faults, task_faults
from . import cells as numbers
from .faults import Fault, ListFaults, shown
from .header import BEFORE, HEADER, SILENT, looks_like_a_transfer
from .lines import SEPARATORS
from .order import Circle, in_order



class Reader:
    """The lines read so far, and the faults found in them."""

    def __init__(self, columns, separator):
        self.columns = columns
        self.separator = separator
        self.notes = list(columns.notes)
        self.faults = []
        self.names, self.numbers, self.lines = [], [], []
        self.known = {}  # the number of each name
        self.pairs = []
        self.silent = []

    def fault(self, line, words):
        self.faults.append(Fault(line, words))

    def number(self, line, column, text, most=numbers.MOST_NUMBER):
        """The whole number in a cell, or None and a fault."""
        if numbers.is_nothing(text):
            self.fault(line, f"{column} is missing")
            return None
        try:
            return numbers.whole(text, most)
        except ValueError as wrong:
            self.fault(line, f"{column} {wrong}")
            return None

    def name(self, line, text):
        if not text:
            self.fault(line, "name is missing")
        elif numbers.LINE_BREAK in text:
            self.fault(line, f"name {shown(text)} has a line break in it: write it in one line")
        elif numbers.is_error(text):
            self.fault(line, f"name {shown(text)} is an error of the workbook: mend the formula")
        elif text in self.known:
            self.fault(line, f"name {shown(text)} stands in line {self.lines[self.known[text]]} already")

    def transfer(self, line, cells):
        name, length, period, deadline, phase = (self.columns.cell(cells, column) for column in HEADER)
        self.name(line, name)
        length = self.number(line, "length", length)
        period = self.number(line, "period", period)
        given = not numbers.is_nothing(deadline)
        deadline = self.number(line, "deadline", deadline) if given else period
        phase = 0 if numbers.is_nothing(phase) else self.number(line, "phase", phase)
        for words in task_faults(length, period, deadline, phase, given):
            self.fault(line, words)
        self.known.setdefault(name, len(self.names))
        self.names.append(name)
        self.numbers.append((length, period, deadline, phase))
        self.lines.append(line)

    def behind(self, cells, at, most):
        """The cells behind a word that are not empty; those of columns that are passed over only if there is room."""
        found = [(place, cell) for place, cell in enumerate(cells) if place > at and cell]
        if len(found) > most:
            others = self.columns.others()
            found = [(place, cell) for place, cell in found if place not in others] or found
        return [cell for _, cell in found]

    def before(self, line, names):
        if len(names) != 2:
            self.fault(line, f"before has {counted(len(names), 'name')}; it needs two, the earlier one first")
        elif any(numbers.LINE_BREAK in name for name in names):
            self.fault(line, "a name has a line break in it: write it in one line")
        else:
            self.pairs.append((line, *names))

    def silence(self, line, given):
        if self.silent:
            self.fault(line, f"silent stands in line {self.silent[0][0]} already")
        elif len(given) != 1:
            self.fault(line, f"silent has {counted(len(given), 'number')}; it needs one")
        self.silent.append((line, self.number(line, "silent", given[0], MOST_SILENT) if len(given) == 1 else None))

    def word(self, line):
        """Whether a line is `before` or `silent`, whose word stands first or in the column of the names; it is read."""
        places = [next(at for at, cell in enumerate(line.cells) if cell), self.columns.places["name"]]
        for at in places:
            word = line.cells[at].casefold() if at < len(line.cells) else ""
            if word == BEFORE:
                self.before(line.number, self.behind(line.cells, at, 2))
            elif word == SILENT:
                self.silence(line.number, self.behind(line.cells, at, 1))
            if word in (BEFORE, SILENT):
                return True
        return False

    def other_separator(self, line):
        """Words about a line whose cells stand between other separators than those of the header; or nothing."""
        text = line.cells[0]
        if sum(map(bool, line.cells)) == 1 and len(self.columns.cells) > 1:
            for separator, name in SEPARATORS.items():
                if separator != self.separator and separator in text:
                    own = SEPARATORS.get(self.separator, f"the letter {self.separator}")
                    return f"the cells stand between {name} here, and between {own} in line {self.columns.line}"
        return ""

    def too_many(self, line):
        wide = self.columns.wide
        if len(line.cells) > wide:
            quotes = "what has a separator in it stands in quotes"
            self.fault(line.number, f"{len(line.cells)} cells, and the header has {counted(wide, 'column')}: {quotes}")

    def line(self, line):
        """A line below the header."""
        if line.cells is None:
            self.fault(line.number, "the quotes are not in pairs")
        elif line.cells == self.columns.cells or self.word(line):
            return
        elif self.other_separator(line):
            self.fault(line.number, self.other_separator(line))
        else:
            self.too_many(line)
            self.transfer(line.number, line.cells)

    def above(self, line):
        """A line above the header: a title, or what must not be passed over."""
        if line.cells is not None and not self.word(line) and looks_like_a_transfer(line.cells):
            self.fault(line.number, f"a transfer stands above the header in line {self.columns.line}: move it below")

    def counts(self):
        if not (self.names or self.faults):
            self.fault(0, f"the list has no transfer: below the header {','.join(HEADER)} comes a line for each")
        if len(self.names) > MOST_TASKS:
            line = self.lines[MOST_TASKS]
            self.fault(line, f"transfer {MOST_TASKS + 1} of {len(self.names)}; at most {MOST_TASKS} fit")
        if len(self.pairs) > MOST_PAIRS:
            line = self.pairs[MOST_PAIRS][0]
            self.fault(line, f"pair {MOST_PAIRS + 1} of {len(self.pairs)}; at most {MOST_PAIRS} fit")

    def pair(self, periods, line, first, second):
        """The task numbers of a pair, or None and a fault."""
        unknown = [name for name in dict.fromkeys((first, second)) if name not in self.known]
        for name in unknown:
            self.fault(line, f"no transfer is named {shown(name)}")
        if unknown:
            return None
        a, b = self.known[first], self.known[second]
        for words in pair_faults(min(a, b), max(a, b), self.names, periods):
            self.fault(line, words)
        return a, b

    def order(self, pairs):
        """The order of the transfers, in which each pair stands as a request needs it; told if it is another one."""
        if self.faults:
            return range(len(self.names))
        try:
            order = in_order(len(self.names), pairs)
        except Circle as circle:
            named = " before ".join(self.names[number] for number in circle.numbers)
            line = max(self.pairs[at][0] for at, pair in enumerate(pairs) if set(pair) <= set(circle.numbers))
            self.fault(line, f"the pairs go round in a circle: {named}")
            return range(len(self.names))
        up = [number for number in order if any(order.index(other) > order.index(number) for other in range(number))]
        if up:
            moved = ", ".join(self.names[number] for number in up)
            self.notes.append(f"put in order for the before lines: {moved} moved up")
        return order

    def request(self):
        """The request, or all faults."""
        self.counts()
        periods = [four[1] for four in self.numbers]
        pairs = [self.pair(periods, *pair) for pair in self.pairs if self.names]
        order = self.order(pairs)
        if self.faults:
            raise ListFaults(self.faults, notes=self.notes)
        place = {number: at for at, number in enumerate(order)}
        tasks = tuple(Task(self.names[number], *self.numbers[number]) for number in order)
        pairs = tuple((place[a], place[b]) for a, b in pairs)
        lines = tuple(self.lines[number] for number in order)
        return Request(tasks, pairs, self.silent[0][1] if self.silent else 0, lines, tuple(self.notes))

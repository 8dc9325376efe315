"""What `bus why` prints: the refusal, its core, what each frame length fails, what would do and what would not."""

from . import details
from .asking import TABLE, UNDECIDED
from .changes import pair_words, ticks
from .amounts import percent
from .findings import LIMITS, NO_LENGTH
from .lengths import LONG, MOST_ROWS, SHORT, too_many_rows
from .stretch import fullest

REASONS = {
    7: "the cycle, the least common multiple of all periods, is above 10,000 ticks",
    8: "a cycle has more than 128 jobs",
    9: "no frame length is plausible",
    10: "some frame length is plausible, but no placing keeps windows, capacity and order",
    13: "the table's cycle is not the list's, or its frame length is not plausible",
    14: "the table breaks rules of the list",
}


def _load(request):
    """How much the transfers ask for."""
    return f"load {percent(request.load)}{', more than there is' if request.load > 1 else ''}"


def _first_lines(request, number):
    """The refusal, and of what there is too much."""
    if number in LIMITS:
        yield f"refused {number}: {REASONS[number]}"
        yield (details.periods if number == 7 else details.job_counts)(request=request)
    else:
        yield f"refused {number}, {_load(request)}: {REASONS[number]}"


def transfer(request, number):
    """A transfer with its line and its numbers."""
    task = request.tasks[number]
    numbers = f"length {task.length}, period {task.period}, deadline {task.deadline}, phase {task.phase}"
    return f"{request.place(number)}: {numbers}"


def _core_claim(core):
    """What is known of the lines of a core."""
    how = f"are refused with {core.number}" if core.number in LIMITS else "have no table"
    ends = "ends that" if core.number in LIMITS else "gives one"
    if not core.decided:
        return f"these lines alone {how}; whether all of them are needed for that is undecided"
    return f"these lines alone {how}, and leaving out any one of them {ends}"


def core_lines(request, core):
    """The lines of a core as they stand in the list, below what is known of them."""
    lines = core.lines
    if lines.count == 1:
        how = f"is refused with {core.number}" if core.number in LIMITS else "has no table"
        yield f"core: this line alone {how}"
    else:
        yield f"core: {_core_claim(core)}"
    yield from (f"  {transfer(request, number)}" for number in lines.tasks)
    yield from (f"  {pair_words(request, request.pairs[place])}" for place in lines.pairs)
    if lines.silent:
        yield f"  silent {request.silent}"


def stretch_line(stretch):
    """A stretch that is asked for more than it has."""
    where = f"ticks {stretch.begin} to {stretch.end}, with frames of {stretch.frame}"
    return f"fullest stretch: {where}: it has {ticks(stretch.has)} and is asked for {stretch.asked}"


def _failed_words(request, length):
    """What a length fails, the transfers that are too long first."""
    for why, words in ((SHORT, "too short for"), (LONG, "too long for a window of")):
        each = [f"{request.place(one.task)} by {one.ticks}" for one in length.failed if one.why == why]
        if each:
            yield f"{words} {', '.join(each)}"


def length_lines(request, found):
    """A line for each frame length that makes few enough rows; and those that only make too many."""
    yield f"frame lengths that divide the cycle of {ticks(request.cycle)}, and what each fails, by how many ticks:"
    for length in found:
        if length.rows <= MOST_ROWS:
            yield f"  {length.frame}: {'; '.join(_failed_words(request, length))}"
    for length in too_many_rows(found):
        rows = f"{length.rows:,} rows, and a table has at most {MOST_ROWS}"
        yield f"  {length.frame}: passes every transfer, but makes {rows}: that is the reason"


def change_lines(changes, ended):
    """The suggestions, numbered."""
    if not changes:
        yield "no single change is known yet that would do" if ended else "no single change would do"
        return
    yield "what would do, one change at a time, each planned by the library, the cheapest first:"
    wide = len(str(len(changes)))
    yield from (f"  {number:{wide}}. {change.words}" for number, change in enumerate(changes, 1))


def _by_transfer(request, findings, decided):
    """The words of findings, those of a transfer in one line."""
    words = {}
    for finding in findings:
        if finding.words and finding.decided == decided:
            words.setdefault(finding.task, []).append(finding.words)
    for task, told in sorted(words.items(), key=lambda item: (item[0] is None, item[0])):
        name = "" if task is None else f"{request.place(task)}: "
        yield f"  {name}{'; '.join(told)}"


def finding_lines(why):
    """What would not do, and what is undecided."""
    refused = list(_by_transfer(why.request, why.findings, True))
    if refused:
        yield "what would not do by itself, as the library says:"
        yield from refused
    undecided = list(_by_transfer(why.request, why.findings, False))
    if undecided:
        yield f"undecided in the {why.limit:g} s that were allowed; `--seconds N` allows more:"
        yield from undecided


def size_lines(request, sizes):
    """What is wrong with a table's sizes."""
    if sizes.cycle != sizes.wanted:
        yield f"  the table's cycle is {sizes.cycle}, that of the list {sizes.wanted}"
        return
    yield from (f"  frames of {sizes.length.frame} are {words}" for words in _failed_words(request, sizes.length))


def _table_lines(why):
    yield f"refused {why.number}: {REASONS[why.number]}"
    if why.sizes is not None:
        yield from size_lines(why.request, why.sizes)
    yield from (f"  {breach.words}" for breach in why.breaches)


def _list_lines(why):
    yield from _first_lines(why.request, why.number)
    yield from core_lines(why.request, why.core)
    stretch = None if why.number in LIMITS else fullest(why.core.request)
    if stretch is not None and stretch.share > 1:
        yield stretch_line(stretch)
    if why.number == NO_LENGTH:
        yield from length_lines(why.request, why.lengths)
    yield from change_lines(why.changes, why.ended)
    yield from finding_lines(why)


def no_answer(limit):
    """The time was over before anything was known."""
    return f"undecided: whether the list has a table was not decided in {limit:g} s; `--seconds N` allows more\n"


def why_lines(why, of_table=False):
    """All that is known of a refusal, as text."""
    if why.number == TABLE:
        what = "the table is a plan of the list" if of_table else "the list has a table"
        return f"not refused: {what}; `bus room` tells what is left\n"
    if why.number is UNDECIDED:
        return no_answer(why.limit)
    return "".join(f"{line}\n" for line in (_table_lines if of_table else _list_lines)(why))

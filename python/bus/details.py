"""What a refusal speaks of, as far as it can be seen. The library has refused already: nothing is decided here.

A row of refusals.py names one of these functions. Each is called with all that was asked, by name, and takes what it
needs: `data`, the bytes of a request; the `request` in them; `table`, the bytes of a table; and so on.
"""

import struct

from .amounts import counted
from .lengths import lengths, too_many_rows
from .lists import kinds
from .names import task_and_job, task_number
from .table import decode
from .words import MOST_ROWS, pair_faults, share_of_time, task_faults

MOST_NAMED = 3


def _where_it_ends(data):
    count = data[0] if data else 0
    pairs_at = 1 + 8 * count
    if not data:
        return "it is empty"
    if len(data) < pairs_at:
        return f"it ends inside task {(len(data) - 1) // 8}"
    if len(data) == pairs_at:
        return "it ends before the number of pairs"
    if len(data) < pairs_at + 1 + 2 * data[pairs_at]:
        return f"it ends inside pair {(len(data) - pairs_at - 1) // 2}"
    return "it ends inside the third section"


def cut_bytes(*, data, **_):
    return f"the file has {counted(len(data), 'byte')}: {_where_it_ends(data)}"


def said_tasks(*, data, **_):
    return f"the file's first byte says {counted(data[0], 'task')}"


def first_task_fault(*, data, **_):
    for number in range(data[0]):
        length, period, deadline, phase = struct.unpack_from("<4H", data, 1 + 8 * number)
        faults = task_faults(length, period, deadline, phase)
        if faults:
            return f"task {number}: {'; '.join(faults)}"
    return ""


def said_pairs(*, data, **_):
    return f"the file says {data[1 + 8 * data[0]]} pairs"


def first_pair_fault(*, data, **_):
    count = data[0]
    names = [f"task {i}" for i in range(count)]
    periods = [struct.unpack_from("<H", data, 3 + 8 * i)[0] for i in range(count)]
    at = 2 + 8 * count
    for number in range(data[at - 1]):
        first, second = data[at + 2 * number], data[at + 2 * number + 1]
        if max(first, second) >= count:
            return f"pair {number} is {first}, {second}, and the tasks are 0 to {count - 1}"
        faults = pair_faults(first, second, names, periods)
        if faults:
            return f"pair {number}: {'; '.join(faults)}"
    return ""


def _behind_the_pairs(data):
    pairs_at = 1 + 8 * data[0]
    return data[pairs_at + 1 + 2 * data[pairs_at] :]


def bytes_too_many(*, data, **_):
    third = _behind_the_pairs(data)
    return f"{counted(len(third) - 1 - third[0] % 2, 'byte')} too many"


def third_section(*, data, **_):
    third = _behind_the_pairs(data)
    return f"the count is {third[0]}" if third[0] > 1 else f"it asks for {counted(third[1], 'silent tick')}"


def periods(*, request, **_):
    users = {}
    for number, task in enumerate(request.tasks):
        users.setdefault(task.period, []).append(request.place(number))
    each = ", ".join(f"{period} ({', '.join(names)})" for period, names in sorted(users.items()))
    return f"the periods are {each}; their least common multiple is {request.cycle}"


def job_counts(*, request, **_):
    counts = [request.cycle // task.period for task in request.tasks]
    most = sorted(range(len(counts)), key=lambda number: -counts[number])[:MOST_NAMED]
    named = ", ".join(f"{request.place(number)} {counts[number]}" for number in most)
    return f"a cycle of {counted(request.cycle, 'tick')} has {sum(counts)} jobs; the most: {named}"


def _silent_ones(request):
    """The silent ticks that a transfer needs beside its own, if there are any."""
    return f" and {counted(request.silent, 'silent one')}" if request.silent else ""


def longest_and_shortest(*, request, **_):
    """Of 9: the two that are far apart, unless the rows alone are too many."""
    short = too_many_rows(lengths(request))
    if short:
        rows = f"a cycle of {request.cycle} ticks would have {short[0].rows} rows of them"
        fit = f"frames of {counted(short[0].frame, 'tick')} would fit into every window"
        return f"{fit}, but {rows}, and a table has at most {MOST_ROWS}"
    numbers = range(len(request.tasks))
    longest = max(numbers, key=lambda i: request.tasks[i].length)
    shortest = min(numbers, key=lambda i: request.tasks[i].deadline)
    silent = _silent_ones(request)
    ticks = counted(request.tasks[longest].length, "tick")
    return (
        f"the longest transfer is {request.place(longest)} with {ticks}{silent},"
        f" the shortest deadline that of {request.place(shortest)} with {request.tasks[shortest].deadline}"
    )


def asked_for(*, request, **_):
    more = ": more than there is" if request.load > 1 else ""
    return f"the transfers ask for {share_of_time(request.load)} of the time{more}"


def _alike(request):
    """Of the transfers in no pair the most that have the same numbers, in the order of the list."""
    paired = {number for pair in request.pairs for number in pair}
    groups = {}
    for number, task in enumerate(request.tasks):
        if number not in paired:
            groups.setdefault((task.length, task.period, task.deadline, task.phase), []).append(number)
    return max(groups.values(), key=len, default=[])


def tries_allowed(*, request, allowed, **_):
    said = "1 try is allowed" if allowed == 1 else f"{allowed:,} tries are allowed"
    alike = _alike(request)
    if len(alike) < 2:
        return said
    named = [request.place(number) for number in alike[:MOST_NAMED]]
    more = f" and {len(alike) - MOST_NAMED} more" if len(alike) > MOST_NAMED else ""
    return f"{said}; alike are {', '.join(named)}{more}"


def _in_both(what, first, second):
    return f"{what}: {first} in the first, {second} in the second"


def tasks_in_both(*, first, second, **_):
    return _in_both("tasks", len(first.tasks), len(second.tasks))


def pairs_too_many(*, first=None, second=None, request=None, **_):
    if request is None:
        return _in_both("pairs", len(first.pairs), len(second.pairs))
    return f"pairs: {len(request.pairs)} in the list, and one that keeps the two pieces in order"


def silent_in_both(*, first, second, **_):
    return _in_both("silent ticks after every transfer", first.silent, second.silent)


def _no_such_task(request, called):
    names = ", ".join(each.name for each in request.tasks)
    return f"no transfer is called {called}: the names are {names}, and the numbers 0 to {len(request.tasks) - 1}"


def no_such_task(*, request, called, **_):
    return _no_such_task(request, called)


def no_such_cut(*, request, task, called, piece, **_):
    if task >= len(request.tasks):
        return _no_such_task(request, called)
    length = request.tasks[task].length
    if length == 1:
        return f"{request.place(task)} has 1 tick, which cannot be cut"
    most = f"from 1 to {length - 1} ticks" if length > 2 else "1 tick"
    return f"the first piece of {request.place(task)} can have {most}, not {piece}"


def table_length(*, table, **_):
    return kinds.instead_of_a_table(table) or f"the file has {counted(len(table), 'byte')}"


def table_sizes(*, request, table, **_):
    table = decode(table)
    sizes = f"the table has the frame {table.frame} and the cycle {table.cycle}"
    return f"{sizes}; the request's cycle is {request.cycle}"


def _entry_breach(request, table, jobs, seen, number, entry):
    """What is wrong with one entry of a row, or nothing."""
    key = (entry.task, entry.job)
    if key not in jobs:
        return f"row {number} names job {entry.job} of task {entry.task}, which the request does not have"
    label = f"job {entry.job} of {request.place(entry.task)}"
    if key in seen:
        return f"{label} stands twice"
    begin = (number + len(table.rows) * entry.carry) * table.frame
    release, due = jobs[key]
    if begin < release:
        return f"{label} stands in row {number}, from tick {begin}, before its release at {release}"
    if begin + table.frame > due:
        return f"{label} stands in row {number}, until tick {begin + table.frame}, after its due time {due}"
    return ""


def _row_breach(request, table, number):
    used = request.used(entry for entry in table.rows[number] if entry.task < len(request.tasks))
    return f"row {number} needs {counted(used, 'tick')}, and a frame has {table.frame}" if used > table.frame else ""


def _order_breaches(request, table):
    frames = table.frames()
    for first, second in request.pairs:
        for j in range(request.cycle // request.tasks[first].period):
            if frames.get((first, j), 0) > frames.get((second, j), 2 * len(table.rows)):
                yield f"job {j} of {request.place(first)} runs after job {j} of {request.place(second)}"


def _plan_breaches(request, table):
    jobs = {(job.task, job.number): (job.release, job.due) for job in request.jobs()}
    seen = set()
    for number, row in enumerate(table.rows):
        for entry in row:
            yield _entry_breach(request, table, jobs, seen, number, entry)
            seen.add((entry.task, entry.job))
        yield _row_breach(request, table, number)
    for task, j in sorted(set(jobs) - seen):
        yield f"job {j} of {request.place(task)} is missing"
    yield from _order_breaches(request, table)


def plan_breaches(*, request, table, **_):
    found = [breach for breach in _plan_breaches(request, decode(table)) if breach]
    more = f"; and {len(found) - MOST_NAMED} more" if len(found) > MOST_NAMED else ""
    return "; ".join(found[:MOST_NAMED]) + more


def _badly_asked(length, begin, until):
    if length == 0:
        yield "the length is 0"
    if begin > until:
        yield f"it is asked for from tick {begin}, which is after tick {until}"


def badly_asked(*, length, begin, until, **_):
    return "; ".join(_badly_asked(length, begin, until))


def most_unused(request, table, begin, until):
    """Of the frames between two ticks the first that leaves the most time, and that time; None without a frame. Those
    behind a whole cycle are like those in it."""
    first = -(-begin // table.frame)
    frames = range(first, min(until // table.frame, first + len(table.rows)))
    unused = {k: table.frame - request.used(table.rows[k % len(table.rows)]) for k in frames}
    return max(unused.items(), key=lambda item: item[1]) if unused else None


def no_room(*, request, table, length, begin, until, **_):
    table = decode(table)
    most = most_unused(request, table, begin, until)
    if most is None:
        return f"no whole frame of {counted(table.frame, 'tick')} lies between tick {begin} and tick {until}"
    return (
        f"of the frames between tick {begin} and tick {until}, frame {most[0]} leaves the most time,"
        f" {counted(most[1], 'tick')}; the transfer needs {length}{_silent_ones(request)}"
    )


def _job(request, job):
    return f"job {job.number} of {request.place(job.task)}"


def _no_such_job(request, called):
    task, number = task_and_job(request, called)
    if not task:
        some = f"{request.tasks[0].name}.0"
        return f"{called!r} names no job: a job is called by its transfer and its number in the cycle, as {some}"
    known = task_number(request, task)
    if known >= len(request.tasks):
        return _no_such_task(request, task)
    count = request.cycle // request.tasks[known].period
    jobs = f"the jobs 0 to {count - 1}" if count > 1 else "job 0 alone"
    return f"{request.place(known)} has {jobs}, not {number}"


def _still_lifted(request, draft):
    lifted = [_job(request, job) for job, at in zip(request.jobs(), draft.frames().values()) if at is None]
    more = f" and {len(lifted) - MOST_NAMED} more" if len(lifted) > MOST_NAMED else ""
    return f"still lifted: {', '.join(lifted[:MOST_NAMED])}{more}" if lifted else ""


def _wrong_step(request, draft, place, called, frame):
    """What is wrong with lifting the job at a place, or with putting it where a frame is named."""
    jobs, frames = request.jobs(), list(draft.frames().values())
    if place >= len(jobs):
        return _no_such_job(request, called)
    job, at = _job(request, jobs[place]), frames[place]
    if frame is None and at is None:
        return f"{job} is lifted already"
    if frame is not None and at is not None:
        return f"{job} stands in frame {at} and is not lifted"
    return ""


def no_such_step(*, request, draft, place=None, called=None, frame=None, **_):
    """Of a lift, a put, or of writing, for which no job is named."""
    wrong = _still_lifted(request, draft) if place is None else _wrong_step(request, draft, place, called, frame)
    return wrong or "the draft's bytes are not those that the library wrote for this request"


def frame_window(job, length):
    """The first and the last frame of a job's window, for frames of this length."""
    return -(-job.release // length), job.due // length - 1


def outside_the_window(*, request, draft, place, frame, **_):
    job, length = request.jobs()[place], draft.frame
    first, last = frame_window(job, length)
    window = f"frames {first} to {last}" if first < last else f"frame {first}"
    rows = request.cycle // length
    same_row = [k for k in range(first, last + 1) if k % rows == frame % rows]
    hint = f"; of row {frame % rows} it has frame {same_row[0]}" if same_row else ""
    return (
        f"the window of {_job(request, job)} is from tick {job.release} to {job.due} and has {window};"
        f" frame {frame} is from tick {frame * length} to {(frame + 1) * length}{hint}"
    )


def _row_over(request, draft, job, frame):
    row = frame % len(draft.loads)
    used, needed = draft.loads[row], request.tasks[job.task].length
    over = used + needed + request.silent - draft.frame
    if over > 0:
        yield (
            f"row {row} would be over by {counted(over, 'tick')}: it uses {used} of {draft.frame},"
            f" and {_job(request, job)} needs {needed}{_silent_ones(request)}"
        )


def _out_of_order(request, draft, job, frame):
    placed = draft.frames()
    for first, second in dict.fromkeys(request.pairs):
        if job.task in (first, second):
            other = job._replace(task=second if job.task == first else first)
            at = placed[other.task, job.number]
            if at is not None and (at < frame if job.task == first else at > frame):
                side, late = ("before", "late") if job.task == first else ("behind", "early")
                both = f"{_job(request, job)} must run {side} {_job(request, other)}"
                yield f"{both}, which stands in frame {at}: frame {frame} is too {late}"


def no_place(*, request, draft, place, frame, **_):
    job = request.jobs()[place]
    return "; ".join([*_row_over(request, draft, job, frame), *_out_of_order(request, draft, job, frame)])


def no_such_pair(*, request, pair, called, **_):
    for task, name in zip(pair, called):
        if task >= len(request.tasks):
            return _no_such_task(request, name)
    first, second = (request.place(task) for task in pair)
    if pair[::-1] in request.pairs:
        return f"{second} comes before {first}: the command is the first of the two"
    names = [task.name for task in request.tasks]
    pairs = ", ".join(f"{names[a]} before {names[b]}" for a, b in dict.fromkeys(request.pairs))
    return f"{first} and {second} are none; " + (f"the pairs are {pairs}" if pairs else "the list has no pairs")

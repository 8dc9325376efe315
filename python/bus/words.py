"""Rules of a list that a line can break, in words. A test compares them with what the library refuses."""

MOST_TASKS = 16
MOST_PAIRS = 16
MOST_SILENT = 15
MOST_ROWS = 256


def share_of_time(load):
    """A load in words; one that is above the whole never looks like 100 %."""
    return f"{100 * load:.0f} %" if load <= 1 or load >= 1.005 else "a little more than 100 %"


def task_faults(length, period, deadline, phase, deadline_given=True):
    """Which of 1 ≤ length ≤ deadline ≤ period and phase < period do not hold; None is a number not judged."""
    faults = []
    if length == 0:
        faults.append("length 0 is not at least 1")
    if period == 0:
        return [*faults, "period 0 is not at least 1"]
    if None not in (deadline, period) and deadline > period:
        faults.append(f"deadline {deadline} is longer than the period {period}")
    if None not in (length, deadline) and length > deadline:
        limit = "deadline" if deadline_given else "period"
        faults.append(f"length {length} is longer than the {limit} {deadline}")
    if None not in (phase, period) and phase >= period:
        faults.append(f"phase {phase} is not below the period {period}")
    return faults


def pair_faults(first, second, names, periods):
    """Why the task with the number `first` cannot be held before the one with the number `second`."""
    if first == second:
        return [f"{names[first]} cannot come before itself"]
    faults = []
    if first > second:
        faults.append(f"{names[first]} stands below {names[second]} in the list: move the earlier one up")
    if None not in (periods[first], periods[second]) and periods[first] != periods[second]:
        unequal = f"{names[first]} has the period {periods[first]} and {names[second]} {periods[second]}"
        faults.append(f"{unequal}: a pair needs equal periods")
    return faults

"""Why lists are refused: every suggestion and every core beside a second planner, also where the time ends."""

import itertools

import bus
from bus import asking, core, findings, halving, library
from bus.changes import with_period
from bus.why import all_findings
from tests import second
from tests.helper import EXAMPLES, HANGS, Case, request, stored, unhex
from tests.small_lists import PLANNER, All, Smaller, seeded_refusals, with_task

SEEDS = 240
SMALL_CYCLE, SMALL_JOBS = 120, 24
KINDS = ["phase", "deadline", "period", "cut", "pairs", "length", "silent", "speed", "transfers"]
PERIODS = (1, 2, 3, 64, 97, 101, 120, 128, 997, 3000, 4096, 9999, 10_001)


class SecondPlanner(Case):
    def test_beside_stored_answers(self):
        """The small requests among the stored ones, which the second implementation answered."""
        compared = 0
        for source in ("plain.txt", "silent.txt"):
            for words, lines in stored(source):
                plans = [line for line in lines if line[0] == "plan"]
                data = unhex(words[1])
                if not plans or library.unreadable(data):
                    continue
                wanted = bus.read_request(data)
                if wanted.cycle <= SMALL_CYCLE and len(wanted.jobs()) <= SMALL_JOBS:
                    self.assertEqual(PLANNER.answer(wanted), max(-int(plans[0][1]), 0), words[1])
                    compared += 1
        self.assertGreater(compared, 20)


class Suggestions(Case):
    def compare_changes(self, wanted, found):
        smaller = Smaller(wanted)
        for change in found.changes:
            self.assertEqual(PLANNER.answer(change.request), 0, change.words)
            for less in smaller.of(change):
                self.assertNotEqual(PLANNER.answer(less), 0, (change.words, less))
        return len(found.changes)

    def compare_refused(self, wanted, found):
        every = All(wanted)
        for finding in found.findings:
            self.assertTrue(finding.decided, finding)
            if not finding.changes:
                for each in every.of(finding):
                    self.assertNotEqual(PLANNER.answer(each), 0, finding)

    def compare_core(self, wanted, found):
        self.assertTrue(found.core.decided)
        self.assertEqual(PLANNER.answer(found.core.request), found.core.number)
        self.assertIn(found.core.number, (9, 10))
        lines = found.core.lines
        for fewer in core.one_left_out(wanted, lines):
            self.assertEqual(PLANNER.answer(core.alone(wanted, fewer)), 0, (lines, fewer))
        return lines.count

    def test_beside_the_second_planner(self):
        """Every suggestion leads to a table, one step less does not; every core is refused, and loses that with any
        line left out; what is told not to do does not."""
        kinds, sizes = set(), set()
        for wanted in seeded_refusals(self.draw, SEEDS):
            with self.subTest(request=wanted):
                found = bus.why(wanted, seconds=60)
                self.assertEqual(found.number, PLANNER.answer(wanted))
                self.assertFalse(found.ended)
                self.compare_changes(wanted, found)
                self.compare_refused(wanted, found)
                sizes.add(self.compare_core(wanted, found))
                kinds |= {change.kind for change in found.changes}
        self.assertEqual(kinds, set(KINDS))
        self.assertLessEqual({1, 2, 3}, sizes)

    def test_every_transfer_has_its_findings(self):
        """For each transfer its length, deadline and phase were asked for; its period too where 9 is the refusal."""
        for wanted in seeded_refusals(self.draw, 20):
            found = bus.why(wanted, seconds=60)
            for kind in ("length", "deadline", "phase"):
                tasks = [finding.task for finding in found.findings if finding.kind == kind]
                self.assertEqual(tasks, list(range(len(wanted.tasks))))
            self.assertEqual(any(each.kind == "period" for each in found.findings), found.number == 9)

    def test_a_transfer_that_helps(self):
        """One transfer is refused with 9 alone and has a table beside another: the core is not taken for more."""
        alone = request((2, 5, 5, 1))
        both = request((2, 5, 5, 1), (1, 3, 3, 0))
        self.assertEqual((PLANNER.answer(alone), PLANNER.answer(both)), (9, 0))
        three = request((2, 5, 5, 1), (1, 3, 3, 0), (3, 3, 3, 0))
        found = bus.why(three)
        self.assertEqual(found.number, PLANNER.answer(three))
        self.compare_core(three, found)
        self.compare_changes(three, found)

    def test_cheapest_first(self):
        for wanted in seeded_refusals(self.draw, 20):
            places = [KINDS.index(change.kind) for change in bus.why(wanted, seconds=60).changes]
            self.assertEqual(places, sorted(places))


class Limits(Case):
    """7 and 8: periods."""

    def refused_so(self, number):
        """Lists of two to four transfers that are refused with 7 or 8."""
        while True:
            periods = [self.draw.choice(PERIODS) for _ in range(3)]
            wanted = request(*((1, period, period, 0) for period in periods[: self.draw.randint(1, 3)]))
            if PLANNER.answer(wanted) == number:
                return wanted

    def nearest(self, wanted, task, periods):
        """The nearest period with a table, as the second planner says."""
        for period in periods:
            changed = with_period(wanted, (task,), period)
            if second.cycle_of(changed) <= 10_000 and PLANNER.answer(changed) == 0:
                return period
        return None

    def test_beside_the_second_planner(self):
        """The nearest shorter and longer period of each transfer, and the core."""
        for number in (7, 8):
            for _ in range(6):
                wanted = self.refused_so(number)
                with self.subTest(request=wanted):
                    found = bus.why(wanted, seconds=60)
                    self.assertEqual(found.number, number)
                    self.compare_periods(wanted, found)
                    self.assertEqual(PLANNER.answer(found.core.request), number)
                    for fewer in core.one_left_out(wanted, found.core.lines):
                        self.assertNotEqual(PLANNER.answer(core.alone(wanted, fewer)), number)

    def compare_periods(self, wanted, found):
        told = {}
        for change in found.changes:
            if change.kind == "period":
                self.assertEqual(PLANNER.answer(change.request), 0)
                told.setdefault(change.task, set()).add(change.new)
        for task, own in enumerate(wanted.tasks):
            shorter = self.nearest(wanted, task, range(own.period - 1, max(0, own.period - 300), -1))
            longer = self.nearest(wanted, task, range(own.period + 1, min(10_001, own.period + 300)))
            near = {new for new in told.get(task, ()) if abs(new - own.period) < 300}
            self.assertEqual(near, {shorter, longer} - {None}, own)

    def test_pairs_change_together(self):
        wanted = request((1, 101, 101, 0), (1, 101, 101, 0), (1, 103, 103, 0), pairs=[(0, 1)])
        found = bus.why(wanted)
        first = next(change for change in found.changes if change.task == 0)
        self.assertEqual({task.period for task in first.request.tasks[:2]}, {first.new})
        self.assertIn("task0 and task1: period ", first.words)
        self.assertEqual(PLANNER.answer(first.request), 0)


class Lengths(Case):
    def test_each_is_told(self):
        """Every length that divides the cycle into at most 256 rows stands there, with the transfers that it fails."""
        for wanted in seeded_refusals(self.draw, 60, (9,)):
            found = bus.why(wanted, seconds=60)
            cycle = second.cycle_of(wanted)
            told = {length.frame: length for length in found.lengths}
            self.assertEqual(list(told), [f for f in range(cycle, 0, -1) if cycle % f == 0])
            for frame, length in told.items():
                self.assertEqual({each.task for each in length.failed}, self.failed_by(wanted, cycle, frame))
                self.compare_ticks(wanted, length)

    def failed_by(self, wanted, cycle, frame):
        short = {number for number, task in enumerate(wanted.tasks) if task.length + wanted.silent > frame}
        jobs = second.jobs_of(wanted, cycle)
        return short | {task for task, _, release, due in jobs if not second.frames_of(release, due, frame)}

    def compare_ticks(self, wanted, length):
        """With so many ticks more the transfer passes, with one less it does not."""
        for each in length.failed:
            if each.why == "long":
                for ticks, passes in ((each.ticks, True), (each.ticks - 1, False)):
                    own = wanted.tasks[each.task]
                    later = with_task(wanted, each.task, deadline=own.deadline + ticks)
                    jobs = [job for job in second.jobs_of(later, second.cycle_of(wanted)) if job[0] == each.task]
                    held = all(second.frames_of(release, due, length.frame) for _, _, release, due in jobs)
                    self.assertEqual(held, passes)

    def test_rows_are_the_reason(self):
        """P10: frames of 1 tick would do, but for 257 rows."""
        out = self.answered("why", EXAMPLES / "p10.req", "--seconds", HANGS)
        rows = "257 rows, and a table has at most 256: that is the reason"
        self.assertIn(f"  1: passes every transfer, but makes {rows}\n", out)
        says = ["frames of 1 tick would fit into every window, but a cycle of 257 ticks would have 257 rows of them"]
        err = self.failed(1, "plan", EXAMPLES / "p10.req", says=says)
        self.assertNotIn("the longest transfer is task0", err)


class Edges(Case):
    def test_halving(self):
        """Every row of up to six values, the first of them with a table, with every set of them undecided."""
        for count in range(7):
            for tables_first, open_ones in itertools.product(range(count + 1), range(2**count)):

                def answer_of(value):
                    at = value - 5
                    return None if open_ones >> at & 1 else 0 if at < tables_first else 10

                found = halving.edge(range(5, 5 + count), answer_of)
                after = 5 if found.last is None else found.last + 1
                if found.last is not None:
                    self.assertEqual(answer_of(found.last), 0)
                if found.refused is not None:
                    self.assertEqual(answer_of(found.refused), 10)
                if found.decided:
                    self.assertTrue(after == 5 + count or answer_of(after) == 10, (count, tables_first, open_ones))
                if not open_ones:
                    self.assertEqual((found.decided, after), (True, 5 + tables_first))


class EndsSoon:
    """The second planner as one who is asked, until so many questions were answered."""

    def __init__(self, questions):
        self.left = questions

    @property
    def over(self):
        return self.left <= 0

    def answer(self, wanted):
        if self.over:
            return asking.UNDECIDED
        self.left -= 1
        return PLANNER.answer(wanted if isinstance(wanted, bus.Request) else bus.read_request(wanted))


class EndedAnywhere(Case):
    """Whichever question is the last, nothing is called refused, smallest or nearest that was not asked for."""

    def compare(self, wanted, found):
        for finding in found:
            if finding.decided:
                less = [Smaller(wanted).of(change) for change in finding.changes]
                for each in itertools.chain(*less) if less else All(wanted).of(finding):
                    self.assertNotEqual(PLANNER.answer(each), 0, finding)
            else:
                self.assertIn("decided", finding.words)
            for change in finding.changes:
                self.assertEqual(PLANNER.answer(change.request), 0)

    def test_every_end(self):
        for wanted in seeded_refusals(self.draw, 12):
            number, last = PLANNER.answer(wanted), EndsSoon(10_000)
            all_findings(findings.Case(wanted, number, last))
            needed = 10_000 - last.left
            for questions in sorted({*range(60), *range(0, needed, 7), needed}):
                ends = EndsSoon(questions)
                with self.subTest(request=wanted, questions=questions):
                    self.compare(wanted, all_findings(findings.Case(wanted, number, ends)))
                    found = core.core(wanted, EndsSoon(questions), number)
                    self.assertEqual(PLANNER.answer(found.request), found.number)
                    for fewer in core.one_left_out(wanted, found.lines) if found.decided else ():
                        self.assertEqual(PLANNER.answer(core.alone(wanted, fewer)), 0)

"""What is left in lists with a table: every figure beside a second planner, words, ends by time."""

import json
import time
from dataclasses import replace
from unittest import mock

import bus
from bus import asking
from bus.room_text import room_lines
from tests import second
from tests.helper import AT_ONCE, EXAMPLES, Case, delayed, request, typed
from tests.small_lists import PLANNER, at_percent, planned, small_list, with_task

TEAM, CROWDED = EXAMPLES / "team.csv", EXAMPLES / "crowded.csv"
SEEDS = 120


def seeded_tables(draw, count):
    """So many small lists that have a table."""
    while count:
        drawn = small_list(draw)
        if PLANNER.answer(drawn) == 0:
            count -= 1
            yield drawn


def with_new(wanted, length, period):
    return replace(wanted, tasks=(*wanted.tasks, bus.Task("more", length, period, period)))


def longest_beside(wanted, table, period):
    """The longest transfer of a period that can be put beside the entries of a table: every row of every window is
    tried, for one length after the other."""
    unused = [table.frame - wanted.used(row) for row in table.rows]
    windows = [second.frames_of(release, release + period, table.frame) for release in range(0, table.cycle, period)]
    length = 0
    while length < table.frame and all(any(unused[k] > length + wanted.silent for k in rows) for rows in windows):
        length += 1
    return length


class Figures(Case):
    def holds(self, changed, after):
        """The list has a table; the next one, if there is one within its rules, has none."""
        self.assertEqual(PLANNER.answer(changed), 0)
        self.assertNotEqual(PLANNER.answer(after), 0)

    def compare(self, wanted, found):
        for one in found.transfers:
            last = one.longest.last
            self.holds(with_task(wanted, one.task, length=last), with_task(wanted, one.task, length=last + 1))
            last = one.earliest.last
            self.holds(with_task(wanted, one.task, deadline=last), with_task(wanted, one.task, deadline=last - 1))
        slow = found.slowest.last
        self.holds(at_percent(wanted, slow), at_percent(wanted, slow + 1))
        for new in found.new:
            last = new.anew.last
            if last is not None:
                self.assertEqual(PLANNER.answer(with_new(wanted, last, new.period)), 0)
            self.assertNotEqual(PLANNER.answer(with_new(wanted, (last or 0) + 1, new.period)), 0)
            self.assertEqual(new.as_it_is, longest_beside(wanted, found.table, new.period))

    def test_beside_the_second_planner(self):
        """Each figure leads to a table, one more does not."""
        for wanted in seeded_tables(self.draw, SEEDS):
            with self.subTest(request=wanted):
                found = bus.room(wanted, seconds=60)
                self.assertFalse(found.ended)
                self.assertEqual(found.table, planned(wanted))
                self.compare(wanted, found)

    def test_one_off(self):
        """The longest is found a frame, one tick more is not."""
        for wanted in seeded_tables(self.draw, 40):
            found = bus.room(wanted, seconds=60)
            if found.one_off:
                bus.one_off(wanted, found.table, found.one_off)
            self.refused(22, bus.one_off, wanted, found.table, found.one_off + 1)

    def test_unused(self):
        found = bus.room(TEAM)
        self.assertEqual(found.unused, (6, 1, 3, 5))
        self.assertEqual(sum(found.unused), 80 - 65)

    def test_another_table(self):
        """The rows, the new transfers and the one-off are those of the table that is given."""
        draft = bus.Draft(TEAM, bus.plan(TEAM))
        draft.lift("heater.0")
        draft.put("heater.0", 3)
        moved = draft.write()
        found = bus.room(TEAM, moved)
        self.assertEqual((found.unused, found.one_off), ((11, 1, 3, 0), 11))
        self.assertEqual(found.table, moved)
        self.refused(13, bus.room, TEAM, EXAMPLES / "p4.table")

    def test_other_periods(self):
        """A period that does not divide the cycle has no time in the table as it is, but with one planned anew."""
        found = bus.room(TEAM, periods=(60, 7))
        by_period = {new.period: new for new in found.new}
        self.assertEqual(list(by_period), [7, 20, 40, 60, 80])
        self.assertIsNone(by_period[60].as_it_is)
        wanted = bus.read_request(TEAM)
        last = by_period[60].anew.last
        bus.plan(with_new(wanted, last, 60))
        self.refused(10, bus.plan, with_new(wanted, last + 1, 60))

    def test_sixteen_transfers(self):
        full = request(*[(1, 40, 40, 0)] * 16)
        (new,) = bus.room(full).new
        self.assertEqual((new.anew, new.as_it_is), (None, None))


class Command(Case):
    def test_printed(self):
        out = self.answered("room", TEAM)
        self.assertEqual(out, room_lines(bus.room(TEAM)))
        lines = out.splitlines()
        self.assertEqual(lines[:2], ["frame 20 cycle 80 rows 4", "unused ticks by row: 6 1 3 5"])
        self.assertIn("longest one-off: 6 ticks", lines)
        table = self.file("t.table", bytes(bus.plan(TEAM)))
        self.assertEqual(self.answered("room", TEAM, table), out)
        self.assertRegex(self.answered("room", TEAM, "--period", "60"), r"\n60 ticks +\d+ +-\n")

    def test_json(self):
        told = json.loads(self.answered("room", TEAM, "--json"))
        self.assertEqual((told["unused"], told["one_off"], told["ended"]), ([6, 1, 3, 5], 6, False))
        found = bus.room(TEAM)
        self.assertEqual([each["longest"]["last"] for each in told["transfers"]],
                         [each.longest.last for each in found.transfers])

    def test_refused(self):
        self.failed(1, "room", CROWDED, says=["refused 10: ", f"`{typed('why', CROWDED)}` tells what would do\n"])
        self.failed(2, "room", TEAM, "--period", "0", says=["'0' is no number from 1 to 10000"])

    def test_end_by_time(self):
        """What is not decided is told as such: no figure is called the last that is not known to be."""
        wanted = bus.read_request(TEAM)
        table = bus.plan(TEAM)
        with delayed(lambda *_: 0.05), mock.patch.object(asking, "QUICK_TRIES", 0):
            begin = time.monotonic()
            found = bus.room(TEAM, table, seconds=0.7)
            self.assertLess(time.monotonic() - begin, AT_ONCE)
        self.assertTrue(found.ended)
        text = room_lines(found)
        self.assertIn("Not all was decided in the 0.7 s that were allowed", text)
        open_ones = [one for one in found.transfers if not one.longest.decided]
        self.assertTrue(open_ones)
        for one in found.transfers:
            if one.longest.decided:
                bus.plan(with_task(wanted, one.task, length=one.longest.last))
        status, out, err = self.run_bus("room", TEAM, "--seconds", "0.000001")
        self.assertEqual((status, err), (3, ""))
        self.assertIn("undecided: whether the list has a table", out)

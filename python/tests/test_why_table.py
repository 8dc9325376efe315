"""Why tables are refused: every rule that is broken, beside the library's check."""

import bus
from bus import breaches, library, table as tables
from tests.helper import EXAMPLES, Case, request
from tests.small_lists import planned, small_list, with_task

TEAM = EXAMPLES / "team.csv"


def changed_by_hand(draw, table):
    """The table with one entry dropped, moved, doubled or changed, or with other sizes."""
    rows = [list(row) for row in table.rows]
    row = draw.choice([row for row in rows if row])
    at = draw.randrange(len(row))
    entry = row[at]
    kind = draw.randrange(6)
    if kind in (0, 1):
        del row[at]
    if kind in (1, 2):
        draw.choice(rows).append(entry)
    if kind == 3:
        row[at] = entry._replace(carry=not entry.carry)
    if kind == 4:
        row[at] = entry._replace(job=draw.randrange(5), task=draw.choice((entry.task, 9)))
    if kind == 5:
        return bus.Table(table.frame, table.cycle * 2, (*table.rows, *table.rows))
    return bus.Table(table.frame, table.cycle, tuple(tuple(sorted(each)) for each in rows))


class Tables(Case):
    def tables(self, count):
        """Small lists with a table that was changed by hand, and what the check says of it."""
        while count:
            wanted = small_list(self.draw)
            table = planned(wanted)
            if table is not None:
                changed = bytes(changed_by_hand(self.draw, table))
                count -= 1
                yield wanted, changed, -library.check(bytes(wanted), changed)

    def test_every_breach(self):
        """A table that is refused with 13 or 14 breaks a rule that is told, one that is accepted breaks none."""
        counts, kinds = {0: 0, 12: 0, 13: 0, 14: 0}, set()
        for wanted, data, number in self.tables(1_000):
            counts[number] += 1
            if number == 12:
                continue
            found = bus.why(wanted, data)
            self.assertEqual(found.number, number)
            sizes = found.sizes
            told = found.breaches or sizes and (sizes.cycle != sizes.wanted or sizes.length.failed)
            self.assertEqual(bool(told), number != 0, (wanted, data))
            kinds |= {breach.kind for breach in found.breaches}
        self.assertGreater(min(counts[13], counts[14]), 100)
        self.assertLessEqual({"unknown", "twice", "carry", "missing", "early", "late", "over"}, kinds)

    def test_ticks(self):
        """An entry that is late by so many ticks is in time with a deadline as much later, not with one tick less."""

        def late(wanted, breach, ticks, data):
            own = wanted.tasks[breach.task]
            changed = with_task(wanted, breach.task, deadline=own.deadline + ticks)
            found = breaches.breaches(changed, tables.decode(data))
            return (breach.task, breach.job) in {(each.task, each.job) for each in found if each.kind == "late"}

        compared = 0
        for wanted, data, number in self.tables(300):
            for breach in bus.why(wanted, data).breaches if number == 14 else ():
                if breach.kind == "late":
                    self.assertTrue(late(wanted, breach, breach.ticks - 1, data))
                    self.assertFalse(late(wanted, breach, breach.ticks, data))
                    compared += 1
        self.assertGreater(compared, 20)

    def test_accepted_tables_break_nothing(self):
        for _ in range(300):
            wanted = small_list(self.draw)
            table = planned(wanted)
            if table is not None:
                self.assertEqual(breaches.breaches(wanted, table), ())

    def test_each_kind_in_words(self):
        wanted = bus.read_request(TEAM)
        table = bus.plan(wanted)
        rows = list(table.rows)

        def words_of(changed):
            found = bus.why(wanted, bus.Table(table.frame, table.cycle, tuple(changed)))
            return [breach.words for breach in found.breaches]

        gone = [rows[0][1:], *rows[1:]]
        self.assertEqual(words_of(gone), ["job 0 of gyro (line 2) is missing"])
        carried = [rows[0], tuple(entry._replace(carry=False) for entry in rows[1]), *rows[2:]]
        self.assertIn("job 0 of downlink (line 8) in row 1 must be marked as carried", words_of(carried))
        star = rows[1][2]
        early = [tuple(sorted((*rows[0], star))), (*rows[1][:2], *rows[1][3:]), *rows[2:]]
        self.assertEqual(words_of(early), ["job 0 of star (line 4) stands in row 0: 10 ticks before its release at 10"])
        over = [(*rows[0], rows[2][2]._replace(carry=True)), rows[1], rows[2][:2], rows[3]]
        self.assertIn("row 0 is over by 6 ticks: its entries need 26, and a frame has 20", words_of(over))
        late = [(*rows[0][:2], rows[0][3]), rows[1], tuple(sorted((*rows[2], rows[0][2]))), rows[3]]
        self.assertIn("job 0 of magnet (line 5) stands in row 2: 20 ticks after its due time 40", words_of(late))
        twice = [rows[0], rows[1], rows[2], (bus.Entry(0, 2), *rows[3][1:])]
        self.assertIn("job 2 of gyro (line 2) stands twice, again in row 3", words_of(twice))
        unknown = [*rows[:3], (*rows[3], bus.Entry(9, 1))]
        self.assertEqual(words_of(unknown), ["row 3 names job 1 of task 9, which the list does not have"])

    def test_pairs_in_words(self):
        wanted = request((1, 20, 20, 0), (9, 20, 20, 0), (5, 10, 10, 0), pairs=[(0, 1)])
        table = bus.Table(10, 20, ((bus.Entry(2, 0), bus.Entry(0, 0)), (bus.Entry(1, 0),)))
        turned = bus.Table(10, 20, ((bus.Entry(1, 0),), (bus.Entry(0, 0), bus.Entry(2, 1))))
        found = [breach.words for breach in breaches.breaches(wanted, turned)]
        self.assertIn("job 0 of task0 in frame 1 runs after job 0 of task1 in frame 0", found)
        self.assertNotIn("pair", {breach.kind for breach in breaches.breaches(wanted, table)})

    def test_printed(self):
        out = self.answered("why", EXAMPLES / "p3.req", "--table", EXAMPLES / "p4.table")
        self.assertIn("refused 14: ", out)
        self.assertIn("  job 3 of task0 stands in row 4: 2 ticks before its release at 18\n", out)
        out = self.answered("why", TEAM, "--table", EXAMPLES / "p4.table")
        self.assertEqual(out.splitlines()[1], "  the table's cycle is 24, that of the list 80")
        short = self.file("short.table", bytes(bus.Table(10, 80, ((),) * 8)))
        out = self.answered("why", TEAM, "--table", short)
        self.assertEqual(out.splitlines()[1], "  frames of 10 are too short for camera (line 7) by 2")
        good = self.file("good.table", bytes(bus.plan(TEAM)))
        out = self.answered("why", TEAM, "--table", good)
        self.assertEqual(out, "not refused: the table is a plan of the list; `bus room` tells what is left\n")
        self.failed(1, "why", TEAM, "--table", TEAM, says=["refused 12: "])

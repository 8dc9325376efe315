"""How unevenly starts can fall, beside flights of the dispatcher in which transfers take any time from 0 to C."""

import itertools

import bus
from bus import library
from tests.helper import EXAMPLES, ROOT, Case, example, request
from tests.test_one_off import HEADER, P1_TABLE, P7_TABLE, TEAM

HARNESS = EXAMPLES / "harness.csv"


def figures(source, table):
    """For each task the bound and what the table gives, as four numbers."""
    return [tuple(one[2:]) for one in bus.spacing(source, table)]


def small_request(draw):
    """A request of short periods, so that a cycle has few frames; late tasks come first, to be carried before more."""
    period = draw.choice((12, 16, 20))
    tasks = []
    for _ in range(draw.randint(2, 4)):
        own = draw.choice((period, period, 2 * period))
        tasks.append((draw.randint(1, 2), own, draw.randint(own * 2 // 3, own), draw.randrange(own)))
    tasks.sort(key=lambda task: -task[3])
    return request(*tasks, silent=draw.randint(0, 2))


def some_table(draw, asked):
    """A table of some frame length with each job in some frame of its window, or None if the library refuses it."""
    cycle = asked.cycle
    frame = draw.choice([length for length in range(1, cycle + 1) if cycle % length == 0])
    rows = [[] for _ in range(cycle // frame)]
    for job in asked.jobs():
        first, last = -(-job.release // frame), job.due // frame - 1
        if first > last:
            return None
        at = draw.randint(first, last)
        rows[at % len(rows)].append(bus.Entry(job.task, job.number, at >= len(rows)))
    table = bus.Table(frame, cycle, tuple(tuple(sorted(row)) for row in rows))
    return table if library.check(bytes(asked), bytes(table)) == 0 else None


def seeded_tables(draw, count):
    """So many requests, each with an accepted table of it."""
    found = []
    while len(found) < count:
        asked = small_request(draw)
        table = some_table(draw, asked)
        if table is not None:
            found.append((asked, table))
    return found


def served(table, cycles):
    """What the library's dispatcher serves in so many cycles."""
    flight = bus.Dispatcher(table)
    return [flight.next_frame() for _ in range(cycles * len(table.rows))]


def fly(asked, frames, time_of):
    """For each task its jobs as (cycle, job) and their starts, in the order in which they start."""
    starts = [[] for _ in asked.tasks]
    for frame in frames:
        tick = frame.start
        for entry in frame.entries:
            starts[entry.task].append(((entry.cycle, entry.job), tick))
            tick += time_of(asked.tasks[entry.task].length) + asked.silent
    return starts


def reached(asked, frames):
    """For each task the least and the most between two starts, over every choice of actual times, one by one."""
    starts = [[] for _ in asked.tasks]
    for frame in frames:
        possible = {entry.task: set() for entry in frame.entries}
        for times in itertools.product(*(range(asked.tasks[entry.task].length + 1) for entry in frame.entries)):
            tick = frame.start
            for entry, time in zip(frame.entries, times):
                possible[entry.task].add(tick)
                tick += time + asked.silent
        for task, ticks in possible.items():
            starts[task].append(ticks)
    apart = [
        {later - earlier for first, second in zip(ticks, ticks[1:]) for earlier in first for later in second}
        for ticks in starts
    ]
    return [(min(each), max(each)) for each in apart]


class Worked(Case):
    """By hand."""

    def test_p7(self):
        """Alone in its frame, so it starts with it: frames 2, 4, 6, and 10 ticks between."""
        self.assertEqual(figures(EXAMPLES / "p7.req", P7_TABLE), [(3, 17, 10, 10)])

    def test_p1(self):
        """Task 1 stands behind 5 ticks at most, task 2 behind 10."""
        wanted = [(5, 35, 20, 20), (5, 35, 15, 25), (10, 70, 30, 50)]
        self.assertEqual(figures(EXAMPLES / "p1.req", P1_TABLE), wanted)

    def test_silent_ticks(self):
        """The second starts 2 to 4 ticks after the frame, the third 4 to 9: silent ticks are there at the least."""
        asked = request((2, 20, 20, 0), (3, 20, 20, 0), (1, 20, 20, 0), silent=2)
        table = bus.Table(20, 20, (tuple(bus.Entry(task, 0) for task in range(3)),))
        self.assertEqual(figures(asked, table), [(2, 38, 20, 20), (3, 37, 18, 22), (1, 39, 15, 25)])

    def test_a_carried_job_in_front(self):
        """Task 1 starts at tick 0 in the first cycle, in which the carried one is left out, and later 1 to 3 ticks
        after its frame: 13 ticks lie between its first two starts at the most, and 12 between later ones."""
        asked = request((2, 10, 9, 6), (1, 10, 5, 0), silent=1)
        table = bus.plan(asked)
        self.assertEqual(table.rows, ((bus.Entry(0, 0, True), bus.Entry(1, 0)), ()))
        self.assertEqual(figures(asked, table), [(3, 17, 10, 10), (6, 14, 8, 13)])
        apart = [
            {later - earlier for earlier in first for later in second}
            for first, second in (((0,), (11, 12, 13)), ((11, 12, 13), (21, 22, 23)))
        ]
        self.assertEqual([(min(each), max(each)) for each in apart], [(11, 13), (8, 12)])

    def test_one_job_in_a_cycle(self):
        """Successive jobs are then of two cycles."""
        self.assertEqual(figures(EXAMPLES / "p12.req", bus.plan(EXAMPLES / "p12.req")), [(1, 19999, 10000, 10000)])

    def test_the_bound_is_reached(self):
        """Two jobs at the very end and the very beginning of their windows: 4 ticks for T 10, D 10, C 4, and 16."""
        asked = request((6, 20, 20, 0), (4, 10, 10, 0))
        table = bus.Table(10, 20, ((bus.Entry(0, 0), bus.Entry(1, 0)), (bus.Entry(1, 1),)))
        self.assertEqual(figures(asked, table), [(6, 34, 20, 20), (4, 16, 4, 16)])


class Flown(Case):
    def test_reached_and_never_passed(self):
        """Every choice of actual times in every frame of four cycles: its least and its most, and R-8's bound."""
        carried = behind = only_at_first = 0
        for asked, table in seeded_tables(self.draw, 400):
            frames = served(table, 4)
            found = figures(asked, table)
            self.assertEqual([one[2:] for one in found], reached(asked, frames), (asked, table))
            for low, high, least, most in found:
                self.assertTrue(low <= least <= most <= high, (asked, table))
            carried += any(entry.carry for row in table.rows for entry in row)
            behind += any(first.carry and not second.carry for row in table.rows for first, second in zip(row, row[1:]))
            only_at_first += reached(asked, frames[len(table.rows) :]) != [one[2:] for one in found]
        self.assertGreater(carried, 100)
        self.assertGreater(behind, 20)
        self.assertGreater(only_at_first, 5)

    def test_whole_flights(self):
        """Random actual times all through five cycles; jobs come one after the other and none is left out."""
        for asked, table in [*seeded_tables(self.draw, 40), (bus.read_request(TEAM), bus.plan(TEAM))]:
            frames = served(table, 5)
            spacings = bus.spacing(asked, table)
            for _ in range(5):
                ends = self.draw.random() < 0.5
                time_of = lambda most: self.draw.choice((0, most)) if ends else self.draw.randint(0, most)
                for one, starts in zip(spacings, fly(asked, frames, time_of)):
                    jobs = asked.cycle // asked.tasks[one.task].period
                    order = [cycle * jobs + job for (cycle, job), _ in starts]
                    self.assertEqual(order, list(range(len(order))))
                    for (_, first), (_, second) in zip(starts, starts[1:]):
                        self.assertTrue(one.least <= second - first <= one.most, (asked, table))

    def test_chosen_tables_keep_the_bound(self):
        """Those of the lists among the examples."""
        for name in ("team", "harness", "battery-1", "battery-2"):
            path = EXAMPLES / f"{name}.csv"
            for low, high, least, most in figures(path, bus.plan(path)):
                self.assertTrue(0 < low <= least <= most <= high)


class Notebook(Case):
    def test_what_may_be_given(self):
        """Paths, bytes and records, in any mixture; names where there are some."""
        table = bus.plan(TEAM)
        path = self.file("t.table", bytes(table))
        wanted = bus.spacing(TEAM, table)
        self.assertEqual(wanted[3], bus.Spacing(3, "magnet", 4, 76, 9, 71))
        for source in (str(TEAM), TEAM.read_bytes(), bus.read_request(TEAM)):
            for rows in (table, bytes(table), path):
                self.assertEqual(bus.spacing(source, rows), wanted)
        unnamed = bus.spacing(bytes(bus.read_request(TEAM)), table)
        self.assertEqual([one.name for one in unnamed], [f"task{i}" for i in range(7)])
        self.assertEqual([one[2:] for one in unnamed], [one[2:] for one in wanted])

    def test_refusals(self):
        """The check comes first: its numbers, in its words."""
        p3, p4, table = EXAMPLES / "p3.req", EXAMPLES / "p4.table", bus.plan(EXAMPLES / "p3.req")
        for source, rows, number in (
            (example("p3.req")[:5], table, 1),
            (EXAMPLES / "p12-long.req", table, 7),
            (p3, b"", 12),
            (p3, bytes(table)[:-1], 12),
            (EXAMPLES / "p1.req", table, 13),
            (p3, p4, 14),
        ):
            refused = self.refused(number, bus.spacing, source, rows)
            self.assertEqual(str(refused), str(self.refused(number, bus.check, source, rows)))


class Command(Case):
    def setUp(self):
        super().setUp()
        self.table = self.file("team.table", bytes(bus.plan(TEAM)))

    def test_printed(self):
        """A line with the names of the columns, then one for each transfer, one below the other."""
        table = self.file("p7.table", P7_TABLE)
        out = self.answered("spacing", EXAMPLES / "p7.req", table)
        header = "name   ticks apart in any table  in this table\n"
        self.assertEqual(out, f"{header}task0  3 to 17                   10 to 10\n")
        text = (ROOT / "docs" / "FORMATS.md").read_text(encoding="utf-8")
        self.assertIn("".join(f"    {line}\n" for line in out.splitlines()), text)
        lines = self.answered("spacing", TEAM, self.table).splitlines()
        for one, line in zip(bus.spacing(TEAM, self.table), lines[1:]):
            bound, here = f"{one.bound_least} to {one.bound_most}", f"{one.least} to {one.most}"
            self.assertEqual(line.split("  ")[0], one.name)
            self.assertEqual(line[lines[0].index("ticks") :].split("  ")[0], bound)
            self.assertEqual(line[lines[0].index("in this") :], here)
        self.assertEqual(len(lines), 8)

    def test_names_are_quoted(self):
        source = self.file("n.csv", f'{HEADER}"a ""b"", c",1,20,,\nx+,1,20,,\nLager Süd,1,20,,\n')
        path = self.file("n.table", bytes(bus.plan(source)))
        lines = self.answered("spacing", source, path).splitlines()
        names = ['"a ""b"", c"', '"x+"', '"Lager Süd"']
        self.assertEqual([line[:12].rstrip() for line in lines[1:]], names)
        self.assertEqual({line.index(" to ") for line in lines[1:]}, {15})

    def test_silent_ticks(self):
        table = bus.plan(HARNESS)
        lines = self.answered("spacing", HARNESS, self.file("h.table", bytes(table))).splitlines()
        self.assertEqual(len(lines), 1 + len(bus.read_request(HARNESS).tasks))
        found = reached(bus.read_request(HARNESS), served(table, 3))
        here = [line[lines[0].index("in this") :] for line in lines[1:]]
        self.assertEqual(here, [f"{low} to {high}" for low, high in found])

    def test_standard_input(self):
        """The list or the table."""
        wanted = self.answered("spacing", TEAM, self.table)
        for words, data in (((TEAM, "-"), bytes(bus.plan(TEAM))), (("-", self.table), TEAM.read_bytes())):
            self.assertEqual(self.answered("spacing", *words, stdin=data), wanted)

    def test_the_check_comes_first(self):
        """List, request file and table are refused as by `bus check`, with the file that it speaks of."""
        bad = self.file("bad.csv", f"{HEADER}a,2,20,30,\n")
        cut = self.file("cut.req", example("p1.req")[:5])
        for source, table, says in (
            (bad, self.table, f"{bad}: line 2: deadline 30 is longer than the period 20\n"),
            (cut, self.table, f"bus: {cut}: refused 1: "),
            (TEAM, TEAM, f"bus: {TEAM}: refused 12: "),
            (TEAM, EXAMPLES / "p4.table", f"bus: {EXAMPLES / 'p4.table'}: refused 13: "),
            (EXAMPLES / "p3.req", EXAMPLES / "p4.table", f"bus: {EXAMPLES / 'p4.table'}: refused 14: "),
        ):
            wanted = self.failed(1, "check", source, table, says=[says])
            self.assertEqual(self.failed(1, "spacing", source, table), wanted)

    def test_wrong_use(self):
        for words in ([], [TEAM], [TEAM, self.table, "more"], [TEAM, self.table, "--cycles", 2]):
            self.failed(2, "spacing", *words, says=["usage: bus", "--help` has an example"])
        missing = self.folder / "missing"
        for words in ([missing, self.table], [TEAM, missing]):
            self.failed(2, "spacing", *words, says=[f"bus: cannot read {missing}: No such file or directory"])

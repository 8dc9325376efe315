"""Time for a one-off transfer: needs a library that has bus_one_off."""

import bus
from bus import amounts, details, library, lists, table as tables
from tests.helper import EXAMPLES, ROOT, Case, example, stored, unhex
from tests.test_stored_answers import number_of

TEAM, HARNESS = EXAMPLES / "team.csv", EXAMPLES / "harness.csv"
HEADER = "name,length,period,deadline,phase\n"
P1_TABLE = bytes.fromhex("02 14 00 28 00 02 00 03 00 00 01 00 02 00 02 00 01 01 01")
P7_TABLE = bytes.fromhex("02 05 00 0A 00 02 00 01 00 80 00")


def asked():
    """What the stored answers ask: a request's bytes, a table's, length, first and last tick, and the answer."""
    for words, lines in stored("one-off.txt"):
        for line in lines:
            yield unhex(words[1]), unhex(line[1]), *map(int, line[2:])


def expected(data, table, length, begin, until):
    """The answer for any two ticks, from the rows alone: every frame of one cycle is looked at."""
    read, plan = bus.read_request(data), tables.decode(table)
    if length == 0 or begin > until:
        return -21
    first = -(-begin // plan.frame)
    for frame in range(first, first + len(plan.rows)):
        row = plan.rows[frame % len(plan.rows)]
        room = plan.frame - sum(read.tasks[entry.task].length + read.silent for entry in row)
        if (frame + 1) * plan.frame <= until and length + read.silent <= room:
            return frame
    return -22


class Stored(Case):
    """The call beside the stored answers of the second implementation, and its words beside the call."""

    def test_stored_answers(self):
        met = set()
        for data, table, length, begin, until, answer in asked():
            self.assertEqual(library.one_off(data, table, length, begin, until), answer)
            met.add(min(answer, 0))
            if not lists.is_list(data):
                number, frame = number_of(bus.one_off, data, table, length, begin, until)
                late = answer == -21 and 0 < length and begin <= until
                wanted = expected(data, table, length, begin, until) if late else answer
                self.assertEqual(frame.number if frame else number, wanted)
        self.assertLessEqual({0, -1, -3, -8, -12, -13, -14, -17, -21, -22}, met)

    def test_the_check_comes_first(self):
        """What the check refuses is refused with the check's number, however it is asked for."""
        for data, table, length, begin, until, answer in asked():
            number = library.check(data, table)
            if number:
                self.assertEqual(answer, number)
                self.assertEqual(library.one_off(data, table, 0, 1, 0), number)

    def test_used_ticks(self):
        """What is shown as unused is what the library gives away: the longest transfer for each frame of two cycles."""
        frames = 0
        for data, table in {(data, table) for data, table, *_ in asked() if library.check(data, table) == 0}:
            plan, silent = tables.decode(table), bus.read_request(data).silent
            for frame in range(2 * min(len(plan.rows), 20)):
                begin, until = frame * plan.frame, (frame + 1) * plan.frame
                number, free = number_of(bus.one_off, data, table, 1, begin, until)
                most = free.unused - silent if free else 0
                if free:
                    self.assertEqual((free.number, free.start, free.end), (frame, begin, until))
                    self.assertEqual(free.entries, plan.rows[free.row])
                    self.assertEqual(library.one_off(data, table, most, begin, until), frame)
                    frames += 1
                else:
                    self.assertEqual(number, -22)
                self.assertEqual(library.one_off(data, table, most + 1, begin, until), -22)
        self.assertGreater(frames, 300)

    def test_what_a_refusal_says(self):
        """The faults of 21 that the command leaves and the most unused time of 22, beside the library's answers."""
        met = set()
        for data, table, length, begin, until, answer in asked():
            if answer == -21 and (length == 0 or begin > until):
                about = self.refused(21, bus.one_off, data, table, length, begin, until).about
                faults = [length == 0, begin > until]
                self.assertEqual(len(about.split("; ")), sum(faults))
                met.add(("asked", tuple(faults)))
            elif answer == -22:
                self.compare_most(data, table, length, begin, until, met)
        self.assertEqual({kind for kind, _ in met}, {"asked", "none", "some"})
        self.assertGreater(len(met), 6)

    def compare_most(self, data, table, length, begin, until, met):
        read, plan = bus.read_request(data), tables.decode(table)
        most = details.most_unused(read, plan, begin, until)
        about = self.refused(22, bus.one_off, data, table, length, begin, until).about
        if most is None:
            self.assertIn("no whole frame of", about)
            self.assertEqual(library.one_off(data, table, 1, begin, until), -22)
        else:
            ticks = amounts.counted(most[1], "tick")
            self.assertIn(f"frame {most[0]} leaves the most time, {ticks}; the transfer needs {length}", about)
            longest = most[1] - read.silent
            self.assertEqual(library.one_off(data, table, max(longest, 0) + 1, begin, until), -22)
            if longest > 0:
                self.assertEqual(library.one_off(data, table, longest, begin, until), most[0])
        met.add(("none" if most is None else "some", read.silent))


class Notebook(Case):
    def test_what_may_be_given(self):
        """Paths, bytes and records, in any mixture."""
        table = bus.plan(TEAM)
        path = self.file("t.table", bytes(table))
        wanted = bus.FreeFrame(3, 60, 80, 3, table.rows[3], 15)
        for source in (TEAM, str(TEAM), TEAM.read_bytes(), bus.read_request(TEAM), bytes(bus.read_request(TEAM))):
            for rows in (table, bytes(table), path):
                self.assertEqual(bus.one_off(source, rows, 5, begin=30), wanted)
        self.assertEqual((wanted.unused, wanted.send), (5, 75))

    def test_without_ticks(self):
        """From tick 0 on, until any tick."""
        table = bus.plan(TEAM)
        for length in range(1, 8):
            self.assertEqual(
                number_of(bus.one_off, TEAM, table, length), number_of(bus.one_off, TEAM, table, length, 0, 160)
            )
        self.assertEqual(bus.one_off(TEAM, table, 5, begin=140).number, 7)
        self.refused(21, bus.one_off, TEAM, table, 5, 161, 160)
        self.refused(22, bus.one_off, TEAM, table, 5, 0, 0)

    def test_edges(self):
        p1, p7 = example("p1.req"), example("p7.req")
        for data, table, length, begin, until, answer in (
            (p1, P1_TABLE, 10, 0, 80, 1),
            (p1, P1_TABLE, 11, 0, 80, -22),
            (p1, P1_TABLE, 1, 21, 80, 3),
            (p1, P1_TABLE, 1, 40, 40, -22),
            (p1, P1_TABLE, 1, 60, 81, 3),
            (p1, P1_TABLE, 1, 61, 81, -22),
            (p1, P1_TABLE, 0xFFFFFFFF, 0, 80, -22),
            (p7, P7_TABLE, 3, 0, 20, 0),
            (p7, P7_TABLE, 4, 0, 5, -22),
            (p7, P7_TABLE, 4, 0, 20, 1),
            (p7, P7_TABLE, 5, 0, 20, 1),
            (p7, P7_TABLE, 6, 0, 20, -22),
            (p7, P7_TABLE, 3, 6, 15, 2),
        ):
            number, frame = number_of(bus.one_off, data, table, length, begin, until)
            self.assertEqual(frame.number if frame else number, answer)

    def test_numbers_that_do_not_fit(self):
        for numbers in ((-1,), (1 << 32,), (1, -1), (1, 0, -1)):
            for call in (bus.one_off, bus.free_frames):
                with self.assertRaises(ValueError):
                    call(TEAM, bus.plan(TEAM), *numbers)

    def test_any_tick(self):
        """Seeded ticks, also far beyond what the library is asked for, beside the rows alone."""
        met = set()
        tables_ = {(data, table) for data, table, *_ in asked() if library.check(data, table) == 0}
        for data, table in sorted(tables_):
            frame = tables.decode(table).frame
            for _ in range(8):
                begin = self.draw.randint(0, 10 ** self.draw.randint(1, 25))
                until = self.draw.choice((begin, begin - 1, begin + 3 * frame, 10**26, self.draw.randint(0, 10**25)))
                length = self.draw.randint(0, frame)
                wanted = expected(data, table, length, begin, max(until, 0))
                number, free = number_of(bus.one_off, data, table, length, begin, max(until, 0))
                self.assertEqual(free.number if free else number, wanted)
                met.add(min(wanted, 0))
        self.assertEqual(met, {0, -21, -22})

    def test_every_frame_of_a_cycle(self):
        """As many as the rows alone say, each the answer to the question for just that frame."""
        frames = 0
        for data, table in sorted({(data, table) for data, table, *_ in asked() if library.check(data, table) == 0}):
            plan = tables.decode(table)
            begin = self.draw.randint(0, 5 * plan.cycle)
            first = -(-begin // plan.frame)
            for until in (None, begin + plan.cycle // 2):
                last = 10**9 if until is None else until
                wanted = [
                    k for k in range(first, first + len(plan.rows))
                    if (k + 1) * plan.frame <= last
                    and expected(data, table, 1, k * plan.frame, (k + 1) * plan.frame) == k
                ]
                number, found = number_of(bus.free_frames, data, table, 1, begin, until)
                self.assertEqual([one.number for one in found or ()], wanted)
                self.assertEqual(number == -22, not wanted)
                frames += len(wanted)
        self.assertGreater(frames, 100)

    def test_in_flight(self):
        """The frame that is answered is the one that the dispatcher serves with that number and start."""
        table = bus.plan(TEAM)
        for begin in range(0, 141, 20):
            free = bus.one_off(TEAM, table, 1, begin=begin)
            flight = bus.Dispatcher(table)
            frame = [flight.next_frame() for _ in range(free.number + 1)][-1]
            self.assertEqual((frame.number, frame.start), (free.number, free.start))
            served = [(entry.task, entry.job, entry.carry) for entry in frame.entries]
            left_out = free.number < len(table.rows)
            self.assertEqual(served, [tuple(entry) for entry in free.entries if not (left_out and entry.carry)])


class Command(Case):
    def setUp(self):
        super().setUp()
        self.table = self.file("team.table", bytes(bus.plan(TEAM)))

    def ask(self, *words, source=TEAM, table=None):
        return self.answered("one-off", source, table or self.table, *words)

    def test_frames(self):
        """Of the first cycle and of the second; a carried entry counts in both."""
        row = "row 1 used 19 unused 1 gyro.1 sun.1 star.0 downlink.0+"
        first = f"frame 1 start 20 end 40\n{row}\nsend from tick 39\n"
        self.assertEqual(self.ask("--length", 1, "--from", 20), first)
        second = f"frame 5 start 100 end 120\n{row}\nsend from tick 119\n"
        self.assertEqual(self.ask("--length", 1, "--from", 81), second)
        self.assertEqual(self.ask("--length", 1, "--from", 81, "--until", 120), second)
        empty = self.file("p7.table", P7_TABLE)
        out = self.ask("--length", 4, source=EXAMPLES / "p7.req", table=empty)
        self.assertEqual(out, "frame 1 start 5 end 10\nrow 1 used 0 unused 5\nsend from tick 5\n")
        text = (ROOT / "docs" / "FORMATS.md").read_text(encoding="utf-8")
        self.assertIn("".join(f"    {line}\n" for line in out.splitlines()), text)

    def test_ticks_that_are_not_given(self):
        for more in ([], ["--from", 0], ["--until", 160], ["--until", 161], ["--until", 160, "--from", 0]):
            self.assertEqual(self.ask("--length", 6, *more), self.ask("--length", 6))
        self.assertEqual(self.ask("--length", 5, "--from", 140).splitlines()[0], "frame 7 start 140 end 160")

    def test_late_ticks(self):
        """Of any cycle: the frame of the first one, so many cycles later."""
        off = 80 * 10**12
        late = self.ask("--length", 5, "--from", off + 30).splitlines()
        self.assertEqual(late[0], f"frame {4 * 10**12 + 3} start {off + 60} end {off + 80}")
        self.assertEqual(late[2], f"send from tick {off + 75}")

    def test_all(self):
        """A line for each frame of a cycle with time for it; with --until no frame that ends later."""
        wanted = "frame  start  end  row  used  unused  send from\n"
        wanted += "3      60     80   3    15    5       75\n4      80     100  0    14    6       94\n"
        self.assertEqual(self.ask("--length", 5, "--from", 30, "--all"), wanted)
        until = self.ask("--length", 5, "--from", 30, "--until", 90, "--all")
        self.assertEqual(until.splitlines(), wanted.splitlines()[:2])
        says = ["refused 22: ", "frame 4 leaves the most time, 6 ticks; the transfer needs 7\n"]
        self.failed(1, "one-off", TEAM, self.table, "--length", 7, "--from", 30, "--all", says=says)

    def test_silent_ticks(self):
        """Each transfer of the row counts with its silent tick, and the extra one needs one too."""
        table = bus.plan(HARNESS)
        path = self.file("h.table", bytes(table))
        used = sum(bus.read_request(HARNESS).tasks[entry.task].length + 1 for entry in table.rows[0])
        unused = table.frame - used
        lines = self.ask("--length", unused - 1, "--until", table.frame, source=HARNESS, table=path).splitlines()
        self.assertEqual(lines[0], f"frame 0 start 0 end {table.frame}")
        self.assertTrue(lines[1].startswith(f"row 0 used {used} unused {unused} gyro.0 "))
        about = f"frame 0 leaves the most time, {unused} ticks; the transfer needs {unused} and 1 silent one"
        words = ["one-off", HARNESS, path, "--length", unused, "--until", table.frame]
        self.failed(1, *words, says=[f"{path}: refused 22: ", about])

    def test_names_are_quoted(self):
        source = self.file("n.csv", f'{HEADER}"a ""b"", c",1,20,,\nx+,1,20,,\n')
        path = self.file("n.table", bytes(bus.plan(source)))
        out = self.ask("--length", 1, source=source, table=path)
        row = 'row 0 used 2 unused 18 "a ""b"", c".0 "x+".0'
        self.assertEqual(out, f"frame 0 start 0 end 20\n{row}\nsend from tick 2\n")

    def test_standard_input(self):
        """The list or the table."""
        for words, data in (((TEAM, "-"), bytes(bus.plan(TEAM))), (("-", self.table), TEAM.read_bytes())):
            out = self.answered("one-off", *words, "--length", 6, stdin=data)
            self.assertEqual(out, self.ask("--length", 6))

    def test_request_file(self):
        source = self.file("t.req", bytes(bus.read_request(TEAM)))
        out = self.ask("--length", 5, "--from", 30, source=source)
        self.assertEqual(out.splitlines()[1], "row 3 used 15 unused 5 task0.3 task1.3 task2.1 task3.1")

    def test_badly_asked(self):
        """21 with what was asked badly; it speaks of no file."""
        for words, about in (
            ((0,), "the length is 0\n"),
            ((5, "--from", 41, "--until", 40), "it is asked for from tick 41, which is after tick 40\n"),
            ((5, "--from", 10**15, "--until", 40), f"it is asked for from tick {10**15}, which is after tick 40\n"),
            ((0, "--from", 9, "--until", 8), "the length is 0; it is asked for from tick 9, which is after tick 8\n"),
        ):
            says = ["bus: refused 21: a one-off transfer is asked for with ", about, "what to do: ask for 1 tick "]
            self.failed(1, "one-off", TEAM, self.table, "--length", *words, says=says)

    def test_no_frame(self):
        """22 with the most unused time, or that there is no whole frame; it speaks of the table."""
        for words, about in (
            ((7,), "frame 0 leaves the most time, 6 ticks; the transfer needs 7\n"),
            ((6, "--from", 1, "--until", 80), "frame 3 leaves the most time, 5 ticks; the transfer needs 6\n"),
            ((4294967295,), "frame 0 leaves the most time, 6 ticks; the transfer needs 4294967295\n"),
            ((1, "--from", 61, "--until", 99), "no whole frame of 20 ticks lies between tick 61 and tick 99\n"),
            ((1, "--from", 40, "--until", 40), "no whole frame of 20 ticks lies between tick 40 and tick 40\n"),
        ):
            says = [f"bus: {self.table}: refused 22: no frame between the two ticks ", about, "what to do: ask for "]
            self.failed(1, "one-off", TEAM, self.table, "--length", *words, says=says)

    def test_the_check_comes_first(self):
        """List, request file and table are refused as by `bus check`, whatever is asked."""
        bad = self.file("bad.csv", f"{HEADER}a,2,20,30,\n")
        cut = self.file("cut.req", example("p1.req")[:5])
        for source, table in (
            (bad, self.table),
            (cut, self.table),
            (EXAMPLES / "p12-long.req", self.table),
            (TEAM, TEAM),
            (TEAM, EXAMPLES / "p4.table"),
            (EXAMPLES / "p3.req", EXAMPLES / "p4.table"),
        ):
            wanted = self.failed(1, "check", source, table)
            self.assertEqual(self.failed(1, "one-off", source, table, "--length", 0, "--from", 9, "--until", 8), wanted)

    def test_wrong_use(self):
        for words in (
            [],
            [TEAM],
            [TEAM, self.table],
            [TEAM, "--length", 5],
            [TEAM, self.table, "--length"],
            [TEAM, self.table, "--length", "x"],
            [TEAM, self.table, "--length", "-1"],
            [TEAM, self.table, "--length", "1.5"],
            [TEAM, self.table, "--length", "4294967296"],
            [TEAM, self.table, "--length", "0" * 20 + "4294967297"],
            [TEAM, self.table, "--length", 5, "--from", "-1"],
            [TEAM, self.table, "--length", 5, "--until", ""],
            [TEAM, self.table, "--length", 5, "--from", "9" * 21],
            [TEAM, self.table, "--length", 5, "more"],
            [TEAM, self.table, "--length", 5, "--to", 80],
        ):
            self.failed(2, "one-off", *words, says=["usage: bus", "--help` has an example"])
        missing = self.folder / "missing"
        for words in ([missing, self.table], [TEAM, missing]):
            says = [f"bus: cannot read {missing}: No such file or directory"]
            self.failed(2, "one-off", *words, "--length", 5, says=says)

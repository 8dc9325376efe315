"""Moving a job by hand: needs a library that has the calls of a draft."""

import struct

import bus
from bus import details, library, lists, table as tables
from bus.names import job_place
from tests.helper import EXAMPLES, ROOT, Case, damaged, example, request
from tests.test_stored_answers import number_of

TEAM, HARNESS = EXAMPLES / "team.csv", EXAMPLES / "harness.csv"
HEADER = "name,length,period,deadline,phase\n"
P7_TABLE = bytes.fromhex("02 05 00 0A 00 02 00 01 00 80 00")
LIFTED = 65_535
JOBS, ROWS = 128, 256


def text_of(name):
    return (ROOT / name).read_text(encoding="utf-8")


class Plain:
    """A draft in the paper's words: the frame length and each job's frame; all sums are made anew."""

    def __init__(self, whole, table):
        self.whole, self.frame, self.rows = whole, table.frame, len(table.rows)
        self.jobs = whole.jobs()
        frames = table.frames()
        self.frames = [frames[job.task, job.number] for job in self.jobs]

    def cost(self, place):
        return self.whole.tasks[self.jobs[place].task].length + self.whole.silent

    def load(self, row):
        return sum(self.cost(i) for i, k in enumerate(self.frames) if k != LIFTED and k % self.rows == row)

    def __bytes__(self):
        frames = self.frames + [0] * (JOBS - len(self.frames))
        loads = [self.load(row) for row in range(self.rows)] + [0] * (ROWS - self.rows)
        return struct.pack(f"<H{JOBS}H{ROWS}H", self.frame, *frames, *loads)

    def lift(self, place):
        if place >= len(self.jobs) or self.frames[place] == LIFTED:
            return 26
        self.frames[place] = LIFTED
        return 0

    def in_order(self, place, frame):
        job = self.jobs[place]
        placed = {(each.task, each.number): k for each, k in zip(self.jobs, self.frames) if k != LIFTED}
        before = [placed.get((a, job.number), 0) for a, b in self.whole.pairs if b == job.task]
        behind = [placed.get((b, job.number), LIFTED) for a, b in self.whole.pairs if a == job.task]
        return all(k <= frame for k in before) and all(frame <= k for k in behind)

    def put(self, place, frame):
        if place >= len(self.jobs) or self.frames[place] != LIFTED:
            return 26
        job = self.jobs[place]
        if frame * self.frame < job.release or (frame + 1) * self.frame > job.due:
            return 27
        over = self.load(frame % self.rows) + self.cost(place) > self.frame
        if over or not self.in_order(place, frame):
            return 28
        self.frames[place] = frame
        return 0

    def table(self):
        if LIFTED in self.frames:
            return None
        rows = [[] for _ in range(self.rows)]
        for job, frame in zip(self.jobs, self.frames):
            rows[frame % self.rows].append(bus.Entry(job.task, job.number, frame >= self.rows))
        return bus.Table(self.frame, self.whole.cycle, tuple(tuple(sorted(row)) for row in rows))


class Calls(Case):
    """The calls beside the paper's words."""

    def planned(self):
        """A request with room in its table, and the table."""
        while True:
            tasks = []
            for _ in range(self.draw.randint(1, 6)):
                period = self.draw.choice((12, 24, 48))
                length = self.draw.randint(1, 3)
                tasks.append((length, period, self.draw.randint(period // 2, period), self.draw.randrange(period)))
            equal = [(a, b) for b in range(len(tasks)) for a in range(b) if tasks[a][1] == tasks[b][1]]
            pairs = [self.draw.choice(equal) for _ in range(self.draw.randint(0, 2))] if equal else []
            whole = request(*tasks, pairs=pairs, silent=self.draw.randint(0, 1))
            answer, table, _ = library.plan(bytes(whole), 100_000)
            if answer > 0:
                return whole, tables.decode(table)

    def step(self, plain, data, draft):
        """A lift or a put of some job; both drafts then, and the number."""
        place = self.draw.choice((*range(len(plain.jobs)), len(plain.jobs), 255))
        if self.draw.random() < 0.4:
            number = plain.lift(place)
            answer, after = library.draft_lift(data, place, draft)
        else:
            frame = self.draw.choice((*range(2 * plain.rows), 2 * plain.rows, LIFTED))
            if place < len(plain.jobs) and self.draw.random() < 0.7:
                frame = self.draw.randint(*details.frame_window(plain.jobs[place], plain.frame))
            number = plain.put(place, frame)
            answer, after = library.draft_put(data, place, frame, draft)
        self.assertEqual(answer, -number)
        self.assertEqual(after, bytes(plain))
        return after, number

    def test_lists_of_calls(self):
        """Every answer and every byte of the draft; a table is written exactly if no job is lifted, and is accepted."""
        met, written = {}, 0
        for _ in range(150):
            whole, table = self.planned()
            data, plain = bytes(whole), Plain(whole, table)
            answer, draft = library.draft_start(data, bytes(table))
            self.assertEqual((answer, draft), (0, bytes(plain)))
            for _ in range(40):
                draft, number = self.step(plain, data, draft)
                met[number] = met.get(number, 0) + 1
                wanted = plain.table()
                answer, out = library.draft_write(data, draft)
                if wanted is None:
                    self.assertEqual((answer, out), (-26, b""))
                else:
                    self.assertEqual((answer, out), (len(bytes(wanted)), bytes(wanted)))
                    self.assertEqual(library.check(data, out), 0)
                    written += wanted != table
        self.assertEqual(sorted(met), [0, 26, 27, 28])
        self.assertGreater(min(met.values()), 50)
        self.assertGreater(written, 50)

    def test_start_refuses_as_the_check(self):
        met = set()
        for _ in range(400):
            whole, table = self.planned()
            data, table = bytes(whole), bytes(table)
            kind = self.draw.randrange(3)
            if kind == 0:
                data = damaged(self.draw, data)
            else:
                table = damaged(self.draw, table) if kind == 1 else bytes(self.planned()[1])
            number = library.check(data, table)
            answer, draft = library.draft_start(data, table)
            self.assertEqual(answer, number)
            if number:
                self.assertEqual(draft, bytes(library.DRAFT_BYTES))
                met.add(-number)
                if not lists.is_list(data):
                    self.refused(-number, bus.Draft, data, table)
        self.assertLessEqual({1, 3, 12, 13, 14}, met)

    def test_the_request_comes_first(self):
        """Its own numbers, 7 and 8 included, whatever the draft holds."""
        long, many = request((1, 101, 101, 0), (1, 103, 103, 0)), request((1, 1, 1, 0), (1, 128, 128, 0))
        p1 = example("p1.req")
        good = bytes(Plain(bus.read_request(EXAMPLES / "p1.req"), bus.plan(EXAMPLES / "p1.req")))
        for data, number in ((bytes(long), 7), (bytes(many), 8), (p1[:5], 1), (p1 + b"\x02", 17), (p1 + b"\0\0", 6)):
            for draft in (bytes(library.DRAFT_BYTES), good):
                self.assertEqual(library.draft_lift(data, 255, draft), (-number, draft))
                self.assertEqual(library.draft_put(data, 255, LIFTED, draft), (-number, draft))
                self.assertEqual(library.draft_write(data, draft), (-number, b""))

    def test_damaged_drafts(self):
        """A used place that is changed is refused with 26 by every call; an unused one is kept and not judged."""
        refused = kept = 0
        for _ in range(300):
            whole, table = self.planned()
            data, plain = bytes(whole), Plain(whole, table)
            words = list(struct.unpack("<385H", bytes(plain)))
            frame, row, any_one = self.draw.randint(1, 12), self.draw.randint(129, 137), self.draw.randint(1, 384)
            at = self.draw.choice((0, frame, row, any_one))
            words[at] = words[at] + 1 if at else whole.cycle + 1
            draft = struct.pack("<385H", *words)
            if at > len(plain.jobs) and not 0 <= at - 129 < plain.rows:
                kept += 1
                self.assertEqual(library.draft_write(data, draft), (len(bytes(table)), bytes(table)))
                answer, after = library.draft_lift(data, 0, draft)
                self.assertEqual((answer, struct.unpack("<385H", after)[at]), (0, words[at]))
            elif at == 0 or at >= 129 or plain.rows > 1:
                refused += 1
                self.assertEqual(library.draft_lift(data, 0, draft), (-26, draft))
                self.assertEqual(library.draft_put(data, 0, 0, draft), (-26, draft))
                self.assertEqual(library.draft_write(data, draft), (-26, b""))
        self.assertGreater(min(refused, kept), 30)

    def test_drafts_that_break_one_rule(self):
        """Window, capacity, order or the frame length alone; the loads are the row sums."""
        whole = request((12, 40, 40, 0), (8, 40, 40, 0), (2, 20, 20, 0), pairs=[(0, 1)])
        data, table = bytes(whole), bus.plan(whole)
        self.assertEqual(table.frames(), {(0, 0): 0, (1, 0): 1, (2, 0): 0, (2, 1): 1})
        for frames, number in (
            ([0, 1, 0, 1], 0),
            ([0, 1, 1, 1], 26),  # job 0 of task 2 is due at tick 20
            ([0, 0, 0, 1], 26),  # row 0 has 22 ticks
            ([1, 0, 0, 1], 26),  # task 0 behind task 1
        ):
            plain = Plain(whole, table)
            plain.frames = frames
            for place in range(4):
                self.assertEqual(library.draft_lift(data, place, bytes(plain))[0], -number)
            self.assertEqual(library.draft_write(data, bytes(plain))[0], -number or len(bytes(table)))
        lifted = bytes([255] * 8 + [0] * 760)
        for length, number in ((20, 0), (0, 26), (8, 26), (13, 26), (15, 26), (40, 26), (60, 26), (65_535, 26)):
            answer, _ = library.draft_put(data, 2, 0, struct.pack("<H", length) + lifted)
            self.assertEqual(answer, -number, length)

    def test_short_draft(self):
        """A draft cut by a byte is refused before anything else."""
        answer, draft = library.draft_start(example("p7.req"), P7_TABLE)
        self.assertEqual(library.draft_write(example("p7.req"), draft)[0], len(P7_TABLE))
        for data in (example("p7.req"), b""):
            self.assertEqual(library.draft_write(data, draft[:-1]), (-99, b""))

    def test_formats(self):
        """The draft of the example, as FORMATS.md has it."""
        answer, draft = library.draft_start(example("p7.req"), P7_TABLE)
        shown = "05 00 02 00 00 00 .. 00 02 00 00 00 .. 00"
        self.assertEqual((answer, len(draft)), (0, 770))
        self.assertEqual(draft[:4] + draft[258:260], bytes.fromhex("05 00 02 00 02 00"))
        self.assertEqual(sum(draft), 9)
        self.assertIn(f"    {shown}\n", text_of("docs/FORMATS.md"))


class Names(Case):
    def test_jobs(self):
        """By name and by number, as the listing has them, and by records."""
        read = bus.read_request(TEAM)
        places = {(job.task, job.number): place for place, job in enumerate(read.jobs())}
        table = bus.plan(TEAM)
        for (task, number), place in places.items():
            name = read.tasks[task].name
            for job in (f"{name}.{number}", f"{task}.{number}", f"{name}.{number}+", f"0{task}.0{number}"):
                self.assertEqual(job_place(read, job), place)
            for job in ((name, number), (task, number), bus.Entry(task, number), read.jobs()[place]):
                self.assertEqual(job_place(read, job), place)
        for row in table.rows:
            for entry in row:
                self.assertEqual(job_place(read, entry), places[entry.task, entry.job])

    def test_a_name_comes_first(self):
        names = ["a", "0", "a.1", "a b", 'x "y"', '"z"', "z"]
        read = bus.Request(tuple(bus.Task(name, 1, 20, 20) for name in names))
        for job, task in (
            ("a.0", 0),
            ("0.0", 1),
            ("2.0", 2),
            ("a.1.0", 2),
            ("a b.0", 3),
            ('"a b".0', 3),
            ('x "y".0', 4),
            ('"x ""y""".0+', 4),
            ('"z".0', 5),
            ('"""z""".0', 5),
            ("z.0", 6),
        ):
            self.assertEqual(job_place(read, job), task, job)

    def test_unknown(self):
        read = bus.read_request(TEAM)
        texts = "camera camera. .0 . camera.1 camera.-1 camera.0++ Camera.0 7.0 255.0 5.128 camera.² camera.0.".split()
        long = ["9" * 5000 + ".0", "5." + "0" * 5000]
        for job in (*texts, *long, "", None, 5, 5.5, ("camera", 1), ("camera", -1), ("camera", None)):
            self.assertEqual(job_place(read, job), library.NO_JOB, job)


class Words(Case):
    """What a refusal says, beside the library's answers."""

    def put(self, source, table, job, frame):
        draft = bus.Draft(source, table)
        draft.lift(job)
        draft.put(job, frame)
        return draft.write()

    def test_every_frame(self):
        """For each job and frame of some tables: words about the window, the row and pairs exactly where they hold."""
        met = set()
        tasks = (3, 20, 20, 0), (3, 40, 40, 0), (3, 40, 40, 0), (9, 40, 40, 0)
        paired = request(*tasks, pairs=[(1, 2), (1, 2)], silent=1)
        for source in (bus.read_request(TEAM), bus.read_request(HARNESS), paired):
            table = bus.plan(source)
            plain = Plain(source, table)
            for place, job in enumerate(plain.jobs):
                first, last = details.frame_window(job, table.frame)
                for frame in range(2 * plain.rows + 2):
                    number, moved = number_of(self.put, source, table, job, frame)
                    self.assertEqual(number == -27, not first <= frame <= last)
                    if moved:
                        self.assertEqual(moved.frames()[job.task, job.number], frame)
                    else:
                        met.add((number, *self.compare(source, table, place, frame, number)))
        self.assertEqual({kind[0] for kind in met}, {-27, -28})
        self.assertLessEqual({(-28, True, False), (-28, False, True)}, met)

    def compare(self, source, table, place, frame, number):
        """Whether the row is over and whether a pair is out of order, as the words say it."""
        plain = Plain(source, table)
        job = plain.jobs[place]
        about = self.refused(-number, self.put, source, table, job, frame).about
        plain.lift(place)
        if number == -27:
            first, last = details.frame_window(job, table.frame)
            window = f"frames {first} to {last}" if first < last else f"frame {first}"
            self.assertIn(f"is from tick {job.release} to {job.due} and has {window}; frame {frame} is ", about)
            same = [k for k in range(first, last + 1) if (k - frame) % plain.rows == 0]
            self.assertEqual(f"of row {frame % plain.rows} it has frame {same[0]}" in about if same else not same, True)
            return (bool(same),)
        over = plain.load(frame % plain.rows) + plain.cost(place) - plain.frame
        self.assertEqual(f"row {frame % plain.rows} would be over by {over} tick" in about, over > 0)
        disordered = not plain.in_order(place, frame)
        self.assertEqual(" must run " in about, disordered)
        self.assertEqual(about.count(";"), int(over > 0 and disordered))
        return over > 0, disordered

    def test_rows_and_pairs(self):
        source = self.file("t.csv", f"{HEADER}gyro,2,20,,\na,5,80,,\nb,5,80,,\nc,14,80,,\nbefore,a,b\nsilent,1\n")
        table = bus.plan(source)
        self.assertEqual(table.frames(), {**{(0, j): j for j in range(4)}, (1, 0): 0, (2, 0): 0, (3, 0): 1})
        draft = bus.Draft(source, table)
        draft.lift("a.0")
        about = "job 0 of a (line 3) must run before job 0 of b (line 4), which stands in frame 0: frame 2 is too late"
        self.assertEqual(self.refused(28, draft.put, "a.0", 2).about, about)
        over = "row 1 would be over by 4 ticks: it uses 18 of 20, and job 0 of a (line 3) needs 5 and 1 silent one"
        both = f"{over}; {about.replace('frame 2', 'frame 1')}"
        self.assertEqual(self.refused(28, draft.put, "a.0", 1).about, both)
        draft.lift("b.0")
        draft.put("a.0", 2)
        about = "job 0 of b (line 4) must run behind job 0 of a (line 3), which stands in frame 2: frame 0 is too early"
        self.assertEqual(self.refused(28, draft.put, "b.0", 0).about, about)
        draft.put("b.0", 2)
        self.assertEqual(draft.frames()[2, 0], 2)

    def test_one_tick(self):
        full = request((8, 20, 20, 0), (6, 40, 40, 0), (7, 40, 40, 0))
        table = bus.Table(20, 40, ((bus.Entry(0, 0), bus.Entry(1, 0)), (bus.Entry(0, 1), bus.Entry(2, 0))))
        about = "row 1 would be over by 1 tick: it uses 15 of 20, and job 0 of task1 needs 6"
        self.assertEqual(self.refused(28, self.put, full, table, "1.0", 1).about, about)

    def test_steps(self):
        """26 with which of its reasons."""
        draft = bus.Draft(TEAM, bus.plan(TEAM))
        names = "the names are gyro, sun, star, magnet, heater, camera, downlink, and the numbers 0 to 6"
        for job, about in (
            ("cam.0", f"no transfer is called cam: {names}"),
            ("7.0", f"no transfer is called 7: {names}"),
            ("camera.1", "camera (line 7) has job 0 alone, not 1"),
            ("gyro.4", "gyro (line 2) has the jobs 0 to 3, not 4"),
            (("gyro", 4), "gyro (line 2) has the jobs 0 to 3, not 4"),
            ("gyro", "'gyro' names no job: a job is called by its transfer and its number in the cycle, as gyro.0"),
        ):
            for call in (draft.lift, lambda job: draft.put(job, 0)):
                self.assertTrue(self.refused(26, call, job).about.startswith(about), job)
        about = "job 0 of heater (line 6) stands in frame 0 and is not lifted"
        self.assertEqual(self.refused(26, draft.put, "heater.0", 0).about, about)
        draft.lift("heater.0")
        self.assertEqual(self.refused(26, draft.lift, "heater.0").about, "job 0 of heater (line 6) is lifted already")
        self.assertEqual(self.refused(26, draft.write).about, "still lifted: job 0 of heater (line 6)")
        for job in ("gyro.0", "gyro.1", "sun.0", "sun.1"):
            draft.lift(job)
        about = "still lifted: job 0 of gyro (line 2), job 0 of sun (line 3), job 0 of heater (line 6) and 2 more"
        self.assertEqual(self.refused(26, draft.write).about, about)

    def test_a_draft_that_was_changed(self):
        draft = bus.Draft(TEAM, bus.plan(TEAM))
        about = "the draft's bytes are not those that the library wrote for this request"
        for state in (bytes(770), b"\x28" + draft.state[1:], draft.state[:258] + b"\x0f" + draft.state[259:]):
            draft.state = state
            for call in (draft.write, lambda: draft.lift("heater.0")):
                self.assertEqual(self.refused(26, call).about, about)
            self.assertEqual(draft.state, state)


class Notebook(Case):
    def test_what_may_be_given(self):
        """Paths, bytes and records, in any mixture."""
        table = bus.plan(TEAM)
        path = self.file("t.table", bytes(table))
        for source in (TEAM, str(TEAM), TEAM.read_bytes(), bus.read_request(TEAM), bytes(bus.read_request(TEAM))):
            for rows in (table, bytes(table), path):
                draft = bus.Draft(source, rows)
                self.assertEqual(draft.write(), table)
                self.assertEqual((draft.frame, draft.loads), (20, (14, 19, 17, 15)))
                self.assertEqual(draft.frames(), table.frames())

    def test_steps(self):
        """A lift and a put change one job and one row; several jobs can be lifted at once."""
        table = bus.plan(TEAM)
        draft = bus.Draft(TEAM, table)
        draft.lift("heater.0")
        self.assertEqual(draft.loads, (9, 19, 17, 15))
        self.assertEqual(draft.frames(), {**table.frames(), (4, 0): None})
        draft.lift((6, 0))
        draft.put("6.0", 4)
        draft.put(("heater", 0), 3)
        self.assertEqual(draft.loads, (17, 11, 17, 20))
        moved = draft.write()
        self.assertEqual(moved.frames(), {**table.frames(), (4, 0): 3, (6, 0): 4})
        self.assertEqual(bus.check(TEAM, moved), moved)
        self.assertEqual(bus.Draft(TEAM, moved).state, draft.state)

    def test_refused_steps_change_nothing(self):
        draft = bus.Draft(TEAM, bus.plan(TEAM))
        for number, call, *arguments in (
            (26, draft.lift, "x.0"),
            (26, draft.put, "heater.0", 0),
            (None, draft.lift, "downlink.0"),
            (26, draft.lift, "downlink.0"),
            (26, draft.write),
            (27, draft.put, "downlink.0", 1),
            (27, draft.put, "downlink.0", 65_535),
            (28, draft.put, "downlink.0", 4),
        ):
            before = draft.state
            if number is None:
                call(*arguments)
            else:
                self.refused(number, call, *arguments)
                self.assertEqual(draft.state, before)

    def test_numbers_that_do_not_fit(self):
        draft = bus.Draft(TEAM, bus.plan(TEAM))
        for frame in (-1, 65_536):
            with self.assertRaises(ValueError):
                draft.put("heater.0", frame)

    def test_start(self):
        self.refused(3, bus.Draft, request((0, 20, 20, 0)), b"")
        self.refused(7, bus.Draft, request((1, 101, 101, 0), (1, 103, 103, 0)), b"")
        self.assertEqual(self.refused(12, bus.Draft, TEAM, b"").about, "the file is empty")
        self.assertIn("the frame 5 and the cycle 10", self.refused(13, bus.Draft, TEAM, P7_TABLE).about)


class Command(Case):
    def setUp(self):
        super().setUp()
        self.planned = bus.plan(TEAM)
        self.table = self.file("team.table", bytes(self.planned))

    def move(self, *words, source=TEAM, table=None, **more):
        return self.answered("move", source, table or self.table, *words, **more)

    def test_another_first(self):
        """Refused, another job moved first, and moved."""
        out = self.folder / "moved.table"
        self.failed(1, "move", TEAM, self.table, "downlink.0", 4, says=["refused 28: "])
        self.assertEqual(self.move("heater.0", 3, "-o", out), "")
        self.assertIn("magnet.0 downlink.0+\n", self.move("downlink.0", 4, table=out))

    def test_listing_or_table(self):
        """Without -o as `plan` prints it; with -o the file alone, which the check accepts."""
        out = self.folder / "moved.table"
        self.assertEqual(self.move("heater.0", 0), self.answered("plan", TEAM))
        self.assertEqual(self.move("heater.0", 3, "-o", out), "")
        moved = tables.decode(out.read_bytes())
        self.assertEqual(self.move("heater.0", 3), bus.aligned(bus.read_request(TEAM), moved))
        self.assertEqual(self.move("heater.0", 3, "--plain"), bus.listing(bus.read_request(TEAM), moved))
        self.assertEqual(self.answered("check", TEAM, out), "accepted\n")
        self.assertEqual(moved.frames(), {**self.planned.frames(), (4, 0): 3})
        back = self.folder / "back.table"
        self.move("heater.0", 0, "-o", back, table=out)
        self.assertEqual(back.read_bytes(), bytes(self.planned))

    def test_names(self):
        """By name, by number, and as the listing has it; those of a request file are numbers."""
        wanted = self.move("heater.0", 3)
        for job in ("4.0", "heater.0+"):
            self.assertEqual(self.move(job, 3), wanted)
        source = self.file("t.req", bytes(bus.read_request(TEAM)))
        lines = self.move("task4.0", 3, "--plain", source=source).splitlines()
        self.assertEqual(lines[4], "3 20 task0.3 task1.3 task2.1 task3.1 task4.0")
        self.assertEqual(lines, self.move("4.0", 3, "--plain", source=source).splitlines())
        odd = self.file("n.csv", f'{HEADER}x,2,20,,\n"a ""b"", c",1,40,,\n')
        path = self.file("n.table", bytes(bus.plan(odd)))
        out = 'frame 20 cycle 40 rows 2\n0 2 x.0\n1 3 x.1 "a ""b"", c".0\n'
        for job in ('a "b", c.0', '"a ""b"", c".0', "1.0"):
            self.assertEqual(self.move(job, 1, "--plain", source=odd, table=path), out)

    def test_carried(self):
        """A frame is counted from time 0: 4 is row 0, where the job is carried."""
        source = self.file("t.csv", f"{HEADER}gyro,2,20,,\nlink,8,80,,40\n")
        table = self.file("t.table", bytes(bus.plan(source)))
        for frame, entry in ((2, "gyro.2 link.0"), (3, "gyro.3 link.0"), (4, "gyro.0 link.0+"), (5, "gyro.1 link.0+")):
            out = self.move("link.0", frame, "--plain", source=source, table=table)
            self.assertIn(f"\n{frame % 4} 10 {entry}\n", out)
        window = "the window of job 0 of link (line 3) is from tick 40 to 120 and has frames 2 to 5; frame "
        for frame, about in (
            (1, "1 is from tick 20 to 40; of row 1 it has frame 5\n"),
            (6, "6 is from tick 120 to 140; of row 2 it has frame 2\n"),
        ):
            says = [f"bus: {source}: refused 27: the frame is outside the job's window: ", window + about]
            self.failed(1, "move", source, table, "link.0", frame, says=says)

    def test_standard_input(self):
        """The list or the table."""
        for words, data in (((TEAM, "-"), bytes(self.planned)), (("-", self.table), TEAM.read_bytes())):
            self.assertEqual(self.answered("move", *words, "heater.0", 3, stdin=data), self.move("heater.0", 3))

    def test_refused(self):
        """With the file that it speaks of, and nothing written."""
        out = self.folder / "out.table"
        for job, frame, source, number, about in (
            ("cam.0", 2, TEAM, 26, "no transfer is called cam: the names are gyro, sun, "),
            ("camera", 2, TEAM, 26, "'camera' names no job: "),
            ("gyro.4", 2, TEAM, 26, "gyro (line 2) has the jobs 0 to 3, not 4\n"),
            ("gyro.0", 1, TEAM, 27, "gyro (line 2) is from tick 0 to 20 and has frame 0; frame 1 is from tick 20 to "),
            ("camera.0", 65_535, TEAM, 27, "has frames 2 to 4; frame 65535 is from tick 1310700 to 1310720"),
            ("heater.0", 2, self.table, 28, "row 2 would be over by 2 ticks: it uses 17 of 20, and job 0 of heater "),
        ):
            says = [f"bus: {source}: refused {number}: ", about, "what to do: "]
            self.failed(1, "move", TEAM, self.table, job, frame, "-o", out, says=says)
        self.assertEqual(self.names_in_folder(), ["team.table"])

    def test_the_check_comes_first(self):
        """List, request file and table are refused as by `bus check`, whatever is asked."""
        bad = self.file("bad.csv", f"{HEADER}a,2,20,30,\n")
        cut = self.file("cut.req", example("p1.req")[:5])
        for source, table in (
            (bad, self.table),
            (cut, self.table),
            (EXAMPLES / "p12-long.req", self.table),
            (TEAM, TEAM),
            (TEAM, EXAMPLES / "p4.table"),
            (EXAMPLES / "p3.req", EXAMPLES / "p4.table"),
        ):
            wanted = self.failed(1, "check", source, table)
            self.assertEqual(self.failed(1, "move", source, table, "x.9", 65_535), wanted)

    def test_wrong_use(self):
        for words in (
            [],
            [TEAM],
            [TEAM, self.table],
            [TEAM, self.table, "heater.0"],
            [TEAM, self.table, "heater.0", "x"],
            [TEAM, self.table, "heater.0", "-1"],
            [TEAM, self.table, "heater.0", 65_536],
            [TEAM, self.table, "heater.0", 3, "-o"],
            [TEAM, self.table, "heater.0", 3, "more"],
        ):
            self.failed(2, "move", *words, says=["usage: bus", "--help` has an example"])
        source = self.file("t.csv", TEAM.read_bytes())
        for path in (source, self.table):
            says = ["one file is named twice", "name another"]
            self.failed(2, "move", source, self.table, "heater.0", 3, "-o", path, says=says)
        self.assertEqual((self.folder / "team.table").read_bytes(), bytes(self.planned))
        missing = self.folder / "missing"
        for words in ([missing, self.table], [TEAM, missing]):
            says = [f"bus: cannot read {missing}: No such file or directory"]
            self.failed(2, "move", *words, "heater.0", 3, says=says)
        says = [f"bus: cannot write {missing}/t: No such file"]
        self.failed(2, "move", TEAM, self.table, "heater.0", 3, "-o", missing / "t", says=says)
        self.assertEqual(self.names_in_folder(), ["t.csv", "team.table"])

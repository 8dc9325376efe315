"""Cutting a long transfer in two: needs a library that has bus_cut."""

import os

import bus
from bus import files, library, lists, sources
from bus.names import piece_names
from tests.helper import EXAMPLES, ROOT, Case, damaged, example, request, seeded_request

P2, BATTERY = EXAMPLES / "p2.csv", EXAMPLES / "battery-1.csv"
HEADER = "name,length,period,deadline,phase\n"
CHANGED = "names changed in the cut list: camera to camera/1 and camera/2\n"
TASK = (2, 20, 20, 0)


def four(task):
    return task.length, task.period, task.deadline, task.phase


def expected(whole, i, first):
    """What cutting must give, in the paper's words: 0 and the request, or the number of the refusal."""
    if i >= len(whole.tasks) or not 1 <= first <= whole.tasks[i].length - 1:
        return 24, None
    if len(whole.tasks) == 16:
        return 25, None
    if len(whole.pairs) == 16:
        return 19, None
    length, *rest = four(whole.tasks[i])
    tasks = [four(task) for task in whole.tasks]
    tasks[i : i + 1] = [(first, *rest), (length - first, *rest)]
    pairs = [(i, i + 1)]
    for a, b in whole.pairs:
        if b == i:
            pairs.append((a, i))
        elif a == i:
            pairs.append((i + 1, b + 1))
        else:
            pairs.append((a + (a > i), b + (b > i)))
    return 0, request(*tasks, pairs=pairs, silent=whole.silent)


class Requests(Case):
    """The call beside the paper's words; request files alone, so that names are numbers."""

    def compare(self, whole, task, first):
        number, wanted = expected(whole, task, first)
        answer, written = library.cut(bytes(whole), task, first)
        if number:
            self.assertEqual((answer, written), (-number, b""))
            self.refused(number, bus.cut, bytes(whole), task, first)
        else:
            self.assertEqual((answer, written), (len(bytes(wanted)), bytes(wanted)))
            self.assertEqual(bus.cut(bytes(whole), task, first, tell=None), wanted)
            self.assertEqual(sources.request_in(written), wanted)
        return number

    def test_seeded(self):
        numbers = set()
        for round_ in range(600):
            whole = seeded_request(self.draw, silent=round_ % 3 == 0)
            task = self.draw.randrange(len(whole.tasks) + round_ % 2)
            length = whole.tasks[task].length if task < len(whole.tasks) else 2
            first = self.draw.choice((0, 1, length - 1, length, self.draw.randint(1, length), 65_535))
            numbers.add(self.compare(whole, task, first))
        self.assertEqual(numbers, {0, 19, 24, 25})

    def test_every_first_piece(self):
        whole = request((5, 20, 20, 0), (1, 20, 20, 0), (300, 400, 400, 3), pairs=[(0, 1)], silent=2)
        for task, length in ((0, 5), (1, 1), (2, 300)):
            for first in range(length + 3):
                self.assertEqual(self.compare(whole, task, first), 0 if 1 <= first < length else 24)
        for task in (3, 15, 16, 254, 255):
            self.assertEqual(self.compare(whole, task, 1), 24)

    def test_pairs(self):
        """Those before the piece, behind it, across it, and one that stands twice."""
        whole = request(*[TASK] * 5, pairs=[(0, 2), (2, 4), (2, 4), (0, 1), (1, 4), (3, 4), (0, 3)])
        cut = bus.cut(whole, 2, 1, tell=None)
        self.assertEqual(cut.pairs, ((2, 3), (0, 2), (3, 5), (3, 5), (0, 1), (1, 5), (4, 5), (0, 4)))
        for task in range(5):
            self.assertEqual(self.compare(whole, task, 1), 0)

    def test_limits(self):
        """Up to 16 tasks and 16 pairs; the longest request comes out, and one more of either is refused."""
        for tasks, pairs, number in ((15, 15, 0), (16, 15, 25), (15, 16, 19), (16, 16, 25)):
            whole = request(*[TASK] * tasks, pairs=[(0, 7)] * pairs, silent=15)
            self.assertEqual(self.compare(whole, 7, 1), number)
        self.assertEqual(self.compare(request(*[TASK] * 16, pairs=[(0, 7)] * 16), 16, 1), 24)
        self.assertEqual(self.compare(request(*[TASK] * 16, pairs=[(0, 7)] * 16), 7, 2), 24)
        longest = request(*[TASK] * 15, pairs=[(0, 7)] * 15, silent=15)
        self.assertEqual(library.cut(bytes(longest), 7, 1)[0], library.REQUEST_BYTES)

    def test_no_silent_ticks(self):
        """Each of the three ways to say g 0: written without a third section. FORMATS.md has an example."""
        for third in (b"", b"\x00", b"\x01\x00"):
            self.assertEqual(library.cut(example("p2.req") + third, 2, 4), (36, example("p3.req")))
        one = "01 02 00 0A 00 09 00 06 00 00"
        two = "02 01 00 0A 00 09 00 06 00 01 00 0A 00 09 00 06 00 01 00 01"
        self.assertEqual(library.cut(bytes.fromhex(one), 0, 1), (20, bytes.fromhex(two)))
        text = (ROOT / "docs" / "FORMATS.md").read_text(encoding="utf-8")
        self.assertTrue(f"    {one}\n" in text and f"    {two}\n" in text)

    def test_damaged(self):
        """The request's own number comes first, whatever is asked."""
        met = set()
        for round_ in range(1500):
            data = damaged(self.draw, bytes(seeded_request(self.draw, silent=round_ % 2)))
            number = library.unreadable(data)
            if number:
                task, first = self.draw.choice(((0, 1), (255, 0), (0, 0), (3, 65_535)))
                self.assertEqual(library.cut(data, task, first), (-number, b""))
                met.add(number)
                if not lists.is_list(data):
                    refused = self.refused(number, bus.cut, data, task, first)
                    self.assertTrue(refused.about)
        self.assertLessEqual({1, 2, 3, 4, 5, 6, 17}, met)

    def test_p2(self):
        """P2 cut at 4 is P3, which has a table."""
        self.refused(9, bus.plan, EXAMPLES / "p2.req")
        self.assertEqual(bytes(bus.cut(EXAMPLES / "p2.req", 2, 4, tell=None)), example("p3.req"))
        self.assertEqual(bytes(bus.read_request(P2)), example("p2.req"))
        self.assertEqual(bus.plan(bus.cut(P2, "camera", 4, tell=None)).frame, 4)

    def test_in_flight(self):
        """In tables of cut requests both pieces run in the window of the old job, the first one first."""
        flown = 0
        for _ in range(300):
            period = self.draw.choice((12, 24))
            tasks = [(self.draw.randint(2, 5), period, period, self.draw.randrange(period)) for _ in range(3)]
            whole = request(*tasks, pairs=[(0, 2)], silent=self.draw.randint(0, 1))
            number = self.draw.randrange(3)
            cut = bus.cut(whole, number, self.draw.randint(1, tasks[number][0] - 1), tell=None)
            try:
                table = bus.plan(cut)
            except bus.Refused:
                continue
            self.fly(whole.tasks[number], number, cut, table)
            flown += 1
        self.assertGreater(flown, 50)

    def fly(self, old, number, cut, table):
        flight, ran = bus.Dispatcher(table), {}
        for _ in range(3 * len(table.rows)):
            frame = flight.next_frame()
            tick = frame.start
            for entry in frame.entries:
                end = tick + self.draw.randint(0, cut.tasks[entry.task].length)
                ran[entry.task, entry.cycle, entry.job] = tick, end
                tick = end + cut.silent
        for (task, cycle, job), (start, end) in ran.items():
            if task in (number, number + 1):
                release = cycle * table.cycle + old.phase + job * old.period
                self.assertTrue(release <= start and end <= release + old.deadline)
            if task == number + 1:
                self.assertLessEqual(ran[number, cycle, job][1], start)


class Names(Case):
    def names(self, names, task, wanted):
        self.assertEqual(piece_names(names.split(), task), wanted.split())

    def test_pieces(self):
        self.names("a b c", 1, "a b/1 b/2 c")
        self.names("a", 0, "a/1 a/2")
        self.names("a/1 b", 0, "a/1/1 a/1/2 b")

    def test_told_apart(self):
        """The names that are there already stay, before the pieces and behind them."""
        self.names("a a/1", 0, "a/1-2 a/2 a/1")
        self.names("a/2 a", 1, "a/2 a/1 a/2-2")
        self.names("a/1 a/1-2 a", 2, "a/1 a/1-2 a/1-3 a/2")

    def test_numbers_of_request_files(self):
        """A task that is called by its number is called by its new one, and the pieces by theirs."""
        self.names("task0 task1 task2", 1, "task0 task1 task2 task3")
        self.names("task0 task1 task2", 0, "task0 task1 task2 task3")
        self.names("task0 b task2", 1, "task0 b/1 b/2 task3")
        self.names("a task1 c", 1, "a task1 task2 c")
        self.names("task2 task1 c", 1, "task2 task1 task2-2 c")
        self.names("a b task3 x", 1, "a b/1 b/2 task3 x")

    def test_seeded(self):
        """No name twice, the free ones kept, and all of it once more from the written list."""
        words = ["a", "b", "a/1", "a/2", "b/1", "a/1-2", "task0", "task1", "task2", "task3", "x y", "Süd"]
        for _ in range(300):
            names = self.draw.sample(words, self.draw.randint(1, 10))
            task = self.draw.randrange(len(names))
            told = []
            cut = bus.cut(bus.Request(tuple(bus.Task(name, 2, 20, 20) for name in names)), names[task], 1, told.append)
            new = [each.name for each in cut.tasks]
            self.assertEqual(new[:task], names[:task])
            self.assertEqual(len(set(new)), len(new))
            for number, (name, now) in enumerate(zip(names[task + 1 :], new[task + 2 :]), task + 1):
                if name != f"task{number}":
                    self.assertEqual(now, name)
            self.assertEqual(len(told), 1)
            self.assertEqual(lists.read(lists.write(cut).encode()), cut)


class Notebook(Case):
    def test_what_may_be_given(self):
        """Paths, bytes and records; a name, a number, or a number as text."""
        wanted = bus.cut(P2, "camera", 4, tell=None)
        self.assertEqual([task.name for task in wanted.tasks], ["gyro", "sun", "camera/1", "camera/2"])
        for source in (str(P2), P2.read_bytes(), bus.read_request(P2)):
            for task in ("camera", 2, "2", "002"):
                self.assertEqual(bus.cut(source, task, 4, tell=None), wanted)

    def test_a_name_comes_first(self):
        """Where a transfer is called 0, it is that one and not the first."""
        whole = bus.Request((bus.Task("a", 2, 20, 20), bus.Task("0", 5, 20, 20)))
        self.assertEqual([task.name for task in bus.cut(whole, "0", 1, tell=None).tasks], ["a", "0/1", "0/2"])
        self.assertEqual([task.name for task in bus.cut(whole, 0, 1, tell=None).tasks], ["a/1", "a/2", "0"])

    def test_changed_names_are_told(self):
        told = []
        bus.cut(P2, "camera", 4, told.append)
        bus.cut(P2.read_bytes(), "camera", 4, told.append)
        self.assertEqual(told, [f"{source}: {CHANGED.strip()}" for source in (P2, "the request")])
        bus.cut(bus.Request((bus.Task("a b", 2, 20, 20), bus.Task("task1", 2, 20, 20))), 0, 1, told.append)
        self.assertTrue(told[-1].endswith(': "a b" to "a b/1" and "a b/2", task1 to task2'))

    def test_unknown_tasks(self):
        """Whatever no task is called: the library says so, behind the request's own numbers."""
        unknown = ("Camera", "", " camera", "-1", -1, 3, "3", "255", "256", 256, 10**30, "9" * 5000, "²", "1.0")
        for task in unknown:
            refused = self.refused(24, bus.cut, P2, task, 4)
            wanted = f"no transfer is called {task}: the names are gyro, sun, camera, and the numbers 0 to 2"
            self.assertEqual(refused.about, wanted)
            self.refused(3, bus.cut, request((0, 20, 20, 0)), task, 4)
        for task in (None, 2.0, b"camera"):
            with self.assertRaisesRegex(TypeError, "a task's number is a whole number, not "):
                bus.cut(P2, task, 4)

    def test_numbers_that_do_not_fit(self):
        for first in (-1, 65_536):
            with self.assertRaises(ValueError):
                bus.cut(P2, "camera", first)

    def test_what_a_refusal_says(self):
        for first in (0, 8, 9, 65_535):
            about = f"the first piece of camera (line 4) can have from 1 to 7 ticks, not {first}"
            self.assertEqual(self.refused(24, bus.cut, P2, "camera", first).about, about)
        one = request((1, 20, 20, 0))
        self.assertEqual(self.refused(24, bus.cut, one, 0, 1).about, "task0 has 1 tick, which cannot be cut")
        paired = request(TASK, TASK, pairs=[(0, 1)] * 16)
        about = "pairs: 16 in the list, and one that keeps the two pieces in order"
        self.assertEqual(self.refused(19, bus.cut, paired, 0, 1).about, about)
        self.refused(25, bus.cut, request(*[TASK] * 16), 0, 1)


class Command(Case):
    def told(self, *words, names=CHANGED, **more):
        """What the command prints; standard error has just the changed names."""
        status, out, err = self.run_bus("cut", *words, **more)
        self.assertEqual((status, err), (0, f"bus: {files.called(words[0])}: {names}"))
        return out

    def test_written(self):
        """The list of the examples, refused, cut and planned; what is written is what is printed otherwise."""
        out = self.folder / "p3.csv"
        self.failed(1, "plan", P2, says=["refused 9: ", "the longest transfer is camera (line 4) with 8 ", "`bus cut`"])
        self.assertEqual(self.told(P2, "camera", "--first", 4, "-o", out), "")
        self.answered("plan", out)
        self.assertEqual(out.read_text(encoding="utf-8"), self.told(P2, 2, "--first", 4))

    def test_list_or_request_file(self):
        """By the ending of its name; a request file has no names, so none are told."""
        words = [P2, "camera", "--first", 4]
        text = self.told(*words)
        lines = ["camera/1,4,24,24,0", "camera/2,4,24,24,0", "before,camera/1,camera/2"]
        self.assertEqual(text.splitlines()[3:], lines)
        for name in ("all.csv", "all.CSV"):
            self.assertEqual(self.told(*words, "-o", self.folder / name), "")
            self.assertEqual((self.folder / name).read_text(encoding="utf-8"), text)
        for name in ("all.req", "all", "csv"):
            self.assertEqual(self.answered("cut", *words, "-o", self.folder / name), "")
            self.assertEqual((self.folder / name).read_bytes(), example("p3.req"))
        again = self.folder / "again.req"
        self.answered("list", self.folder / "all.csv", "-o", again)
        self.assertEqual(again.read_bytes(), example("p3.req"))

    def test_request_file(self):
        """Names are numbers, so that what is printed is the list of the cut request file."""
        names = "names changed in the cut list: task1 to task1 and task2, task2 to task3\n"
        for task in (1, "task1"):
            out = self.told(EXAMPLES / "p2.req", task, "--first", 1, names=names)
            path = self.folder / "cut.req"
            self.answered("cut", EXAMPLES / "p2.req", task, "--first", 1, "-o", path)
            self.assertEqual(out, self.answered("list", path))

    def test_pairs_and_silent_ticks(self):
        """By name: the first piece is held behind what came before, the second before what came after."""
        source = self.file("t.csv", f"{HEADER}a,1,40,,\nb,4,40,,\nc,1,40,,\nbefore,a,b\nbefore,b,c\nsilent,1\n")
        names = "names changed in the cut list: b to b/1 and b/2\n"
        lines = self.told(source, "b", "--first", 3, names=names).splitlines()
        self.assertEqual(lines[2:4], ["b/1,3,40,40,0", "b/2,1,40,40,0"])
        self.assertEqual(lines[5:], ["before,b/1,b/2", "before,a,b/1", "before,b/2,c", "silent,1"])

    def test_cut_twice(self):
        """A piece is a transfer like any other."""
        once = self.folder / "once.csv"
        self.told(P2, "camera", "--first", 4, "-o", once)
        names = "names changed in the cut list: camera/2 to camera/2/1 and camera/2/2\n"
        lines = self.told(once, "camera/2", "--first", 2, names=names).splitlines()
        self.assertEqual(lines[-2:], ["before,camera/2/1,camera/2/2", "before,camera/1,camera/2/1"])

    def test_standard_input(self):
        self.assertEqual(
            self.told("-", "camera", "--first", 4, stdin=P2.read_bytes()), self.told(P2, "camera", "--first", 4)
        )
        self.failed(1, "cut", "-", 0, "--first", 4, stdin=b"\x11", says=["bus: standard input: refused 2: "])

    def test_refused(self):
        """With the file that it speaks of, and nothing written."""
        many = self.file("many.csv", HEADER + "".join(f"t{i},2,20,,\n" for i in range(16)))
        paired = self.file("paired.csv", f"{HEADER}a,2,20,,\nb,1,20,,\n" + "before,a,b\n" * 16)
        bad = self.file("bad.req", example("p1.req")[:5])
        out = self.folder / "out.csv"
        for source, task, first, number, about in (
            (bad, "x", 0, 1, "it ends inside task 0"),
            (many, "t16", 1, 24, "no transfer is called t16: the names are t0, t1, "),
            (many, "t3", 2, 24, "the first piece of t3 (line 5) can have 1 tick, not 2"),
            (many, "t3", 1, 25, "a task is to be cut where there are 16 tasks already"),
            (paired, "b", 1, 24, "b (line 3) has 1 tick, which cannot be cut"),
            (paired, "a", 1, 19, "pairs: 16 in the list, and one that keeps the two pieces in order"),
        ):
            says = [f"bus: {source}: refused {number}: ", about, "what to do: "]
            self.failed(1, "cut", source, task, "--first", first, "-o", out, says=says)
        self.assertEqual(self.names_in_folder(), ["bad.req", "many.csv", "paired.csv"])

    def test_list_faults(self):
        bad = self.file("bad.csv", f"{HEADER}a,2,20,30,\nbefore,a,c\n")
        says = [f"{bad}: line 2: deadline 30 is longer than the period 20\n", "bus: refused: the list has 2 faults"]
        self.failed(1, "cut", bad, "a", "--first", 1, "-o", self.folder / "out.csv", says=says)
        self.assertEqual(self.names_in_folder(), ["bad.csv"])

    def test_wrong_use(self):
        path = self.file("t.csv", P2.read_bytes())
        for words in (
            [],
            [P2],
            [P2, "camera"],
            [P2, "--first", 4],
            [P2, "camera", "--first"],
            [P2, "camera", "--first", "x"],
            [P2, "camera", "--first", "-1"],
            [P2, "camera", "--first", 65_536],
            [P2, "camera", "--first", 4, "-o"],
            [P2, "camera", "more", "--first", 4],
        ):
            self.failed(2, "cut", *words, says=["usage: bus", "--help` has an example"])
        says = ["one file is named twice", "name another"]
        self.failed(2, "cut", path, "camera", "--first", 4, "-o", path, says=says)
        self.assertEqual((self.folder / "t.csv").read_bytes(), P2.read_bytes())
        missing = self.folder / "missing"
        says = [f"bus: cannot read {missing}: No such file or directory"]
        self.failed(2, "cut", missing, "camera", "--first", 4, says=says)
        says = [f"bus: cannot write {missing}/t: No such file"]
        self.failed(2, "cut", P2, "camera", "--first", 4, "-o", missing / "t", says=says)
        self.assertEqual(os.listdir(self.folder), ["t.csv"])

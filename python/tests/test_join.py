"""Joining two lists: needs a library that has bus_join."""

import os

import bus
from bus import files, library, lists, sources
from bus.join import second_names
from tests.helper import EXAMPLES, ROOT, Case, damaged, example, request, seeded_request

OLD, NEW = EXAMPLES / "battery-1.csv", EXAMPLES / "battery-2.csv"
HEADER = "name,length,period,deadline,phase\n"
CHANGED = "names changed in the joined list: cells to cells-2, heater to heater-2\n"
TASK = (1, 20, 20, 0)


def expected(first, second):
    """What joining must give, in the paper's words: 0 and the request, or the number of the refusal."""
    n = len(first.tasks)
    if n + len(second.tasks) > 16:
        return 18, None
    if len(first.pairs) + len(second.pairs) > 16:
        return 19, None
    if first.silent != second.silent:
        return 20, None
    four = [(task.length, task.period, task.deadline, task.phase) for task in first.tasks + second.tasks]
    raised = tuple((a + n, b + n) for a, b in second.pairs)
    return 0, request(*four, pairs=first.pairs + raised, silent=first.silent)


def small_request(draw, silent):
    """A seeded request of at most 9 tasks, so that two of them often fit."""
    while True:
        drawn = seeded_request(draw, silent=silent)
        if len(drawn.tasks) <= 9:
            return drawn


class Requests(Case):
    """The call beside the paper's words; request files alone, so that names are numbers."""

    def compare(self, first, second):
        number, wanted = expected(first, second)
        answer, written = library.join(bytes(first), bytes(second))
        if number:
            self.assertEqual((answer, written), (-number, b""))
            refused = self.refused(number, bus.join, bytes(first), bytes(second))
            self.assertEqual(refused.source, "the first request and the second request")
        else:
            self.assertEqual((answer, written), (len(bytes(wanted)), bytes(wanted)))
            self.assertEqual(bus.join(bytes(first), bytes(second), tell=None), wanted)
            self.assertEqual(sources.request_in(written), wanted)
        return number

    def test_seeded(self):
        numbers = set()
        for round_ in range(400):
            first = small_request(self.draw, silent=round_ % 5 == 0)
            second = small_request(self.draw, silent=round_ % 7 == 0)
            second = bus.Request(second.tasks, second.pairs, first.silent if round_ % 3 else second.silent)
            numbers.add(self.compare(first, second))
        self.assertEqual(numbers, {0, 18, 19, 20})

    def test_limits(self):
        """Exactly 16 tasks and 16 pairs fit, which is the longest request; one more of either does not."""
        eight = request(*[TASK] * 8, pairs=[(0, 7)] * 8, silent=15)
        self.assertEqual(self.compare(eight, eight), 0)
        self.assertEqual(library.join(bytes(eight), bytes(eight))[0], library.REQUEST_BYTES)
        nine = request(*[TASK] * 9, pairs=[(0, 8)] * 9)
        seven = request(*[TASK] * 7, pairs=[(0, 6)] * 8, silent=15)
        self.assertEqual([self.compare(*two) for two in ((eight, nine), (nine, eight))], [18, 18])
        self.assertEqual([self.compare(*two) for two in ((nine, seven), (seven, nine))], [19, 19])

    def test_no_silent_ticks(self):
        """Each of the three ways to say g 0 with each: written without a third section. FORMATS.md has an example."""
        wanted = library.join(example("p1.req"), example("p3.req"))
        self.assertEqual(wanted[0], 26 + 36 - 2)
        for one in (b"", b"\x00", b"\x01\x00"):
            for two in (b"", b"\x00", b"\x01\x00"):
                self.assertEqual(library.join(example("p1.req") + one, example("p3.req") + two), wanted)
        one, two = "01 02 00 0A 00 09 00 06 00 00", "02 02 00 0A 00 09 00 06 00 02 00 0A 00 09 00 06 00 00"
        self.assertEqual(library.join(bytes.fromhex(one), bytes.fromhex(one)), (18, bytes.fromhex(two)))
        text = (ROOT / "docs" / "FORMATS.md").read_text(encoding="utf-8")
        self.assertTrue(f"    {one}\n" in text and f"    {two}\n" in text)

    def test_damaged(self):
        """The first's own number comes before the second's, and the refusal says whose it is."""
        met = set()
        for round_ in range(1500):
            first, second = (bytes(small_request(self.draw, silent=round_ % 2)) for _ in range(2))
            if self.draw.random() < 0.6:
                first = damaged(self.draw, first)
            if self.draw.random() < 0.6:
                second = damaged(self.draw, second)
            own = library.unreadable(first), library.unreadable(second)
            number = own[0] or own[1]
            if number:
                self.assertEqual(library.join(first, second), (-number, b""))
                met.add(("first" if own[0] else "second", number))
                if not any(map(lists.is_list, (first, second))):
                    refused = self.refused(number, bus.join, first, second)
                    self.assertEqual(refused.source, f"the {'first' if own[0] else 'second'} request")
        self.assertLessEqual({(which, number) for which in ("first", "second") for number in (1, 2, 3, 4, 5)}, met)

    def test_two_faults(self):
        """Of two faults the one that comes first in the paper."""
        late = request(*[TASK] * 16, pairs=[(0, 1)] * 16, silent=1)
        many, pairs, silent = bytes(late), bytes(request(TASK, TASK, pairs=[(0, 1)] * 15)), bytes(request(TASK))
        bad = request((0, 20, 20, 0))
        for first, second, number in (
            (bad, b"\x11", 3),
            (many, b"\x11", 2),
            (many, pairs, 18),
            (bytes(request(TASK, TASK, pairs=[(0, 1)] * 2, silent=1)), pairs, 19),
            (bytes(request(TASK, silent=1)), silent, 20),
        ):
            self.refused(number, bus.join, first, second)

    def test_three_boards(self):
        """Which two of three are joined first makes no difference."""
        joined = 0
        for _ in range(200):
            one, two, three = (bytes(small_request(self.draw, silent=False)) for _ in range(3))
            left, right = library.join(one, two), library.join(two, three)
            if left[0] > 0 and right[0] > 0:
                self.assertEqual(library.join(left[1], three), library.join(one, right[1]))
                joined += 1
        self.assertGreater(joined, 10)


class Names(Case):
    def names(self, first, second, wanted):
        self.assertEqual(second_names(first.split(), second.split()), wanted.split())

    def test_kept_or_numbered(self):
        self.names("a b", "c d", "c d")
        self.names("a b", "b c", "b-2 c")
        self.names("a a-2", "a b", "a-3 b")
        self.names("a", "a a-2", "a-3 a-2")
        self.names("a a-2", "a a-2", "a-3 a-2-2")
        self.names("a A", "a-2 A", "a-2 A-2")

    def test_numbers_of_request_files(self):
        """A task that is called by its number is called by its new one."""
        self.names("task0 task1", "task0 task1 task2", "task2 task3 task4")
        self.names("a b", "task0 task1", "task2 task3")
        self.names("task0 task1", "a task1", "a task3")
        self.names("a task2", "task0 task1", "task2-2 task3")
        self.names("a b", "task0 task2", "task2-2 task2")
        self.names("a b", "b task0", "b-2 task0")

    def test_seeded(self):
        """No name twice, the free ones kept, and all of it once more from the written list."""
        words = ["a", "b", "a-2", "a-3", "task0", "task1", "task2", "task3", "x y", "Süd"]
        for _ in range(300):
            two = [self.draw.sample(words, self.draw.randint(1, 8)) for _ in range(2)]
            first, second = (bus.Request(tuple(bus.Task(name, 1, 20, 20) for name in names)) for names in two)
            told = []
            joined = bus.join(first, second, tell=told.append)
            names = [task.name for task in joined.tasks]
            self.assertEqual(names[: len(two[0])], two[0])
            self.assertEqual(len(set(names)), len(names))
            new = names[len(two[0]) :]
            for number, (name, now) in enumerate(zip(two[1], new)):
                if name not in two[0] and name != f"task{number}":
                    self.assertEqual(now, name)
            self.assertEqual(len(told), int(new != two[1]))
            self.assertEqual(lists.read(lists.write(joined).encode()), joined)


class Notebook(Case):
    def test_what_may_be_given(self):
        """Paths, bytes and records, in any mixture."""
        wanted = bus.join(OLD, NEW, tell=None)
        self.assertEqual(wanted.pairs, ((1, 2), (3, 4), (6, 7)))
        for first in (str(OLD), OLD.read_bytes(), bus.read_request(OLD)):
            for second in (str(NEW), NEW.read_bytes(), bus.read_request(NEW)):
                self.assertEqual(bus.join(first, second, tell=None), wanted)
        self.assertEqual(bus.plan(wanted), bus.plan(bytes(wanted)))

    def test_changed_names_are_told(self):
        told = []
        bus.join(OLD, NEW, tell=told.append)
        bus.join(OLD.read_bytes(), bus.read_request(NEW), tell=told.append)
        self.assertEqual(told, [f"{source}: {CHANGED.strip()}" for source in (NEW, "the second request")])
        spaced = bus.Request((bus.Task("a b", 1, 20, 20),))
        bus.join(spaced, spaced, tell=told.append)
        self.assertTrue(told[-1].endswith(': "a b" to "a b-2"'))

    def test_whose_refusal(self):
        """Records are judged as files are, in their order."""
        good, bad = request(TASK), request((0, 20, 20, 0))
        refused = self.refused(3, bus.join, bad, b"\x11")
        self.assertEqual((refused.source, refused.about), ("the first request", "task 0: length 0 is not at least 1"))
        refused = self.refused(2, bus.join, good, b"\x11")
        self.assertTrue(str(refused).startswith("the second request: refused 2: no task, or more than 16\n"))
        with self.assertRaises(bus.ListFaults) as caught:
            bus.join(good, f"{HEADER}a,2,20,30,\n".encode())
        words = "the second request: line 2: deadline 30 is longer than the period 20"
        self.assertEqual(str(caught.exception), words)


class Command(Case):
    def told(self, *words, names=CHANGED, **more):
        """What the command prints; standard error has just the changed names."""
        status, out, err = self.run_bus("join", *words, **more)
        self.assertEqual((status, err), (0, f"bus: {files.called(words[1])}: {names}" if names else ""))
        return out

    def test_written(self):
        """The two lists of the examples joined: what is written is what is printed otherwise, and it has a table."""
        out = self.folder / "batteries.csv"
        self.assertEqual(self.told(OLD, NEW, "-o", out), "")
        self.answered("plan", out)
        self.assertEqual(out.read_text(encoding="utf-8"), self.told(OLD, NEW))

    def test_list_or_request_file(self):
        """By the ending of its name; a request file has no names, so none are told."""
        text, wanted = self.told(OLD, NEW), bytes(bus.join(OLD, NEW, tell=None))
        for name in ("all.csv", "all.CSV"):
            self.assertEqual(self.told(OLD, NEW, "-o", self.folder / name), "")
            self.assertEqual((self.folder / name).read_text(encoding="utf-8"), text)
        for name in ("all.req", "all", "csv"):
            self.assertEqual(self.answered("join", OLD, NEW, "-o", self.folder / name), "")
            self.assertEqual((self.folder / name).read_bytes(), wanted)
        again = self.folder / "again.req"
        self.answered("list", self.folder / "all.csv", "-o", again)
        self.assertEqual(again.read_bytes(), wanted)

    def test_lists_and_request_files_alike(self):
        """Any mixture gives the same request; names stay where there are some."""
        wanted = bytes(bus.join(OLD, NEW, tell=None))
        old, new = (self.file(f"{path.stem}.req", bytes(bus.read_request(path))) for path in (OLD, NEW))
        for first in (OLD, old):
            for second in (NEW, new):
                self.assertEqual(self.answered("join", first, second, "-o", "/dev/stdout"), wanted.decode("latin-1"))
        names = "names changed in the joined list: task0 to task5, task1 to task6, task2 to task7\n"
        self.assertIn("\nreport,6,80,60,20\ntask5,2,20,20,0\n", self.told(OLD, new, names=names))
        self.assertIn("\ntask4,6,80,60,20\ncharger,2,20,20,0\n", self.told(old, NEW, names=""))
        joined = self.folder / "all.req"
        self.answered("join", old, new, "-o", joined)
        self.assertEqual(self.told(old, new, names=names), self.answered("list", joined))

    def test_silent_ticks(self):
        harness = EXAMPLES / "harness.csv"
        more = self.file("more.csv", f"{HEADER}radio,2,40,,\nsilent,1\n")
        lines = self.told(harness, more, names="").splitlines()
        self.assertEqual(lines[-3:], ["radio,2,40,40,0", "before,camera,downlink", "silent,1"])
        out = self.folder / "all.req"
        self.answered("join", harness, more, "-o", out)
        self.assertEqual(out.read_bytes()[-2:], b"\x01\x01")

    def test_one_list_twice(self):
        """Two boards of one kind."""
        names = "names changed in the joined list: charger to charger-2, cells to cells-2, heater to heater-2\n"
        lines = self.told(NEW, NEW, names=names).splitlines()
        self.assertEqual(lines[-2:], ["before,cells,heater", "before,cells-2,heater-2"])

    def test_standard_input(self):
        wanted = self.told(OLD, NEW)
        self.assertEqual(self.told(OLD, "-", stdin=NEW.read_bytes()), wanted)
        self.assertEqual(self.told("-", NEW, stdin=OLD.read_bytes()), wanted)
        self.failed(2, "join", "-", "-", stdin=NEW.read_bytes(), says=["standard input cannot be two files: name the others"])
        self.failed(1, "join", OLD, "-", stdin=b"\x11", says=["bus: standard input: refused 2: "])

    def test_refused_requests(self):
        """A request file that cannot be read, as the first and as the second: its own number, with its name."""
        p1, out = example("p1.req"), self.folder / "all.csv"
        for data, number, about in (
            (p1[:5], 1, "it ends inside task 0"),
            (b"\x11" + p1[1:], 2, "first byte says 17 tasks"),
            (p1[:5] + b"\x15" + p1[6:], 3, "task 0: deadline 21 is longer than the period 20"),
            (p1[:25] + b"\x11", 4, "the file says 17 pairs"),
            (p1[:25] + b"\x01\x00\x02", 5, "pair 0: task 0 has the period 20 and task 2 40"),
            (p1 + b"\x00\x00", 6, "1 byte too many"),
            (p1 + b"\x02", 17, "the count is 2"),
        ):
            bad = self.file("bad.req", data)
            says = [f"bus: {bad}: refused {number}: ", about, "what to do: "]
            for first, second in ((bad, NEW), (OLD, bad), (bad, self.file("cut.req", b"\x01"))):
                self.failed(1, "join", first, second, "-o", out, says=says)
        self.assertEqual(self.names_in_folder(), ["bad.req", "cut.req"])

    def test_list_faults(self):
        bad = self.file("bad.csv", f"{HEADER}a,2,20,30,\nbefore,a,c\n")
        says = [
            f"{bad}: line 2: deadline 30 is longer than the period 20\n",
            f"{bad}: line 3: no transfer is named 'c'\n",
            "bus: refused: the list has 2 faults",
        ]
        self.failed(1, "join", OLD, bad, "-o", self.folder / "all.csv", says=says)
        self.failed(1, "join", bad, self.file("bad.req", b"\x11"), "-o", self.folder / "all.csv", says=says)
        self.assertEqual(self.names_in_folder(), ["bad.csv", "bad.req"])

    def test_two_that_do_not_go_together(self):
        """18, 19 and 20 speak of both files."""
        tasks = "".join(f"t{i},1,20,,\n" for i in range(12))
        many = self.file("many.csv", HEADER + tasks)
        paired = self.file("paired.csv", f"{HEADER}a,1,20,,\nb,1,20,,\n" + "before,a,b\n" * 15)
        silent = self.file("silent.csv", f"{HEADER}a,1,20,,\nsilent,3\n")
        for second, number, about in (
            (many, "18: two requests that are joined have ", "tasks: 5 in the first, 12 in the second"),
            (paired, "19: the request that is made by joining ", "pairs: 2 in the first, 15 in the second"),
            (silent, "20: two requests that are joined have ", "every transfer: 0 in the first, 3 in the second"),
        ):
            says = [f"bus: {OLD} and {second}: refused {number}", about]
            self.failed(1, "join", OLD, second, "-o", self.folder / "all.csv", says=[*says, "what to do: "])
        self.assertEqual(self.names_in_folder(), ["many.csv", "paired.csv", "silent.csv"])

    def test_wrong_use(self):
        path = self.file("t.csv", OLD.read_bytes())
        for words in ([], [OLD], [OLD, NEW, "-o"], [OLD, NEW, "--csv"]):
            self.failed(2, "join", *words, says=["usage: bus", "--help` has an example"])
        for first, second in ((path, NEW), (NEW, path)):
            self.failed(2, "join", first, second, "-o", path, says=["one file is named twice", "name another"])
        self.assertEqual((self.folder / "t.csv").read_bytes(), OLD.read_bytes())
        missing = self.folder / "missing"
        for first, second in ((missing, NEW), (OLD, missing)):
            self.failed(2, "join", first, second, says=[f"bus: cannot read {missing}: No such file or directory"])
        self.failed(2, "join", OLD, NEW, "-o", missing / "t", says=[f"bus: cannot write {missing}/t: No such file"])
        self.assertEqual(os.listdir(self.folder), ["t.csv"])

"""A heater's commands sent again: needs a library that has bus_heater_fresh and bus_heater_serve."""

import itertools

import bus
from bus import library
from bus.heater import LOSSES
from tests.helper import EXAMPLES, ROOT, Case, damaged, example, request

LIST, TABLE = EXAMPLES / "heater.csv", EXAMPLES / "heater.table"
HEADER = "name,length,period,deadline,phase\n"
ASKED = LIST, TABLE, "switch", "status"
FRESH = bytes([0, 0, 1, *[0] * 62, 1, *[0] * 6])
TITLE = ["frame", "start", "command", "reply", "toggled", "answered"]

# Requests with the pair 0, 1, and a table of each: both in a frame, each in its own, the reply carried, and two jobs.
ONE_FRAME = request((1, 4, 4, 0), (1, 4, 4, 0), pairs=[(0, 1)]), bytes.fromhex("02 0400 0400 0100 02 0000 0100")
TWO_FRAMES = ONE_FRAME[0], bytes.fromhex("02 0200 0400 0200 01 0000 01 0100")
CARRIED = (
    request((1, 4, 2, 2), (1, 4, 3, 2), pairs=[(0, 1)]),
    bytes.fromhex("02 0100 0400 0400 01 0180 00 00 01 0000"),
)
TABLES = ONE_FRAME, TWO_FRAMES, CARRIED


class Numbered:
    """The link in other words: commands have numbers. A copy that arrives toggles if its number is new to the board. A
    reply that arrives answers the current command if that number has arrived."""

    def __init__(self):
        self.current, self.arrived = 0, -1

    def frame(self, command, reply):
        """Whether the board toggles and whether the command is answered, if these arrive."""
        toggled = command and self.arrived < self.current
        if toggled:
            self.arrived = self.current
        answered = reply and self.arrived == self.current
        self.current += answered
        return toggled, answered


def short_request(draw):
    """Some short transfers of one or two periods, with pairs and phases; most have a table."""
    period = draw.choice((8, 12, 20))
    tasks = []
    for _ in range(draw.randint(2, 7)):
        own = period * draw.choice((1, 1, 2))
        tasks.append((draw.randint(1, 2), own, own, draw.choice((0, draw.randrange(own)))))
    tasks.append(tasks[0])
    equal = [(a, b) for b in range(len(tasks)) for a in range(b) if tasks[a][1] == tasks[b][1]]
    return request(*tasks, pairs=[draw.choice(equal) for _ in range(draw.randint(1, 3))], silent=draw.choice((0, 0, 1)))


def served(plan, number):
    """The tasks that a table's frame serves, by its rows."""
    row = plan.rows[number % len(plan.rows)]
    return [entry.task for entry in row if not (entry.carry and number < len(plan.rows))]


def compare(case, heater, plan, pattern, pair):
    """Plays a pattern beside numbered commands, frame by frame."""
    numbered = Numbered()
    for number, lost in enumerate(pattern):
        tasks = served(plan, number)
        one = heater.serve(lost)
        sent, replied = (task in tasks for task in pair)
        told = numbered.frame(sent and lost in ".r", replied and lost in ".c")
        case.assertEqual([entry.task for entry in one.frame.entries], tasks)
        case.assertEqual((one.frame.number, one.frame.start), (number, number * plan.frame))
        case.assertEqual((one.toggled, one.answered), told, pattern)
        case.assertEqual((one.command is not None, one.reply is not None), (sent, replied))
        for message, letters in ((one.command, "cb"), (one.reply, "rb")):
            case.assertTrue(message is None or message.lost == (lost in letters))
    case.assertEqual((heater.toggles, heater.answered), (numbered.arrived + 1, numbered.current))
    case.assertEqual(heater.under_way, numbered.arrived == numbered.current)
    case.assertEqual(heater.on, heater.toggles % 2 == 1)
    case.assertTrue(heater.under_way or heater.on == (heater.answered % 2 == 1))


class Calls(Case):
    def test_every_pattern(self):
        """Of four frames, and of five where each is served in a frame of its own."""
        for source, table in TABLES:
            plan = bus.check(source, table)
            for pattern in itertools.product(LOSSES, repeat=5 if len(plan.rows) > 1 else 4):
                compare(self, bus.Heater(source, table, 0, 1), plan, "".join(pattern), (0, 1))

    def test_seeded(self):
        """Long lists with random losses on the tables of random requests with pairs."""
        played = carried = 0
        while played < 100:
            source = short_request(self.draw)
            answer, table, _ = library.plan(bytes(source), 2000)
            if answer < 0:
                continue
            plan, pair = bus.check(source, table), self.draw.choice(source.pairs)
            rate = self.draw.choice((0, 1, 3))
            frames = self.draw.randint(1, 4 * len(plan.rows) + 10)
            pattern = "".join(self.draw.choice("." * (4 - rate) + "crb" * rate) for _ in range(frames))
            compare(self, bus.Heater(source, plan, *pair), plan, pattern, pair)
            played += 1
            carried += any(entry.carry and entry.task in pair for row in plan.rows for entry in row)
        self.assertGreater(carried, 10)

    def test_bytes(self):
        """A fresh heater, which FORMATS.md has; a served frame; the free bytes and the bits that mean nothing."""
        self.assertEqual(library.heater_fresh(), (0, FRESH))
        text = (ROOT / "docs" / "FORMATS.md").read_text(encoding="utf-8")
        self.assertIn(f"    {FRESH[:4].hex(' ')} .. {FRESH[-9:].hex(' ')}\n", text)
        source, table = ONE_FRAME
        before = FRESH[:35] + bytes(range(100, 129)) + FRESH[64:68] + b"free"
        for lost, bits in ((0, b"\1\0\1\1"), (1, b"\0\1\0\0"), (2, b"\0\0\1\0"), (3, b"\0\1\0\0")):
            for other in (0, 4, 252):
                answer, after, entries = library.heater_serve(bytes(source), table, 0, 1, lost + other, before)
                self.assertEqual((answer, entries), (2, bytes([0, 0, 1, 0]) + bytes(28)))
                self.assertEqual(after, b"\0\0\0" + before[3:64] + bits + b"free")

    def test_refusals(self):
        """The check's numbers, then 30, then 15; 99 before all. What was lent stays."""
        source, table = ONE_FRAME
        data = bytes(source)
        late, no_heater = b"\1" + FRESH[1:], FRESH[:67] + b"\2" + FRESH[68:]
        for words, number in (
            ((data, table, 1, 0, 0, late), 30),
            ((data, table, 0, 0, 0, FRESH), 30),
            ((data, table, 0, 17, 0, FRESH), 30),
            ((data, table, 0, 1, 0, late), 15),
            ((data, table[:-1], 1, 0, 0, late), 12),
            ((data, bytes(bus.plan(EXAMPLES / "p1.req")), 1, 0, 0, late), 13),
            ((data, table[:7] + b"\0", 1, 0, 0, late), 14),
            ((data[:5], table, 1, 0, 0, late), 1),
            ((data[:5], table, 1, 0, 0, no_heater), 99),
        ):
            self.assertEqual(library.heater_serve(*words), (-number, words[-1], bytes(32)))

    def test_the_check_comes_first(self):
        """Damaged requests and tables are refused with the check's number, whatever the pair."""
        source, table = TWO_FRAMES
        met = set()
        for _ in range(500):
            data, rows = bytes(source), table
            if self.draw.random() < 0.5:
                data = damaged(self.draw, data)
            else:
                rows = damaged(self.draw, rows)
            number = library.check(data, rows)
            if number:
                self.assertEqual(library.heater_serve(data, rows, 1, 0, 0, FRESH)[0], number)
                met.add(-number)
        self.assertLessEqual({1, 2, 3, 5, 12, 14}, met)


class Notebook(Case):
    def test_the_old_fault(self):
        """A lost reply and the command sent again: the heater stays on."""
        heater = bus.Heater(*ASKED)
        self.assertFalse(heater.on)
        first, lost, again, answer = (heater.serve(letter) for letter in ".r..")
        self.assertEqual((first.command, first.reply, first.toggled), (bus.Message(0, False), None, True))
        self.assertEqual((lost.command, lost.reply, lost.answered), (None, bus.Message(0, True), False))
        self.assertEqual((again.command, again.toggled), (first.command, False))
        self.assertEqual((answer.reply, answer.answered), (bus.Message(0, False), True))
        self.assertEqual((heater.on, heater.toggles, heater.answered, heater.under_way), (True, 1, 1, False))

    def test_what_may_be_given(self):
        """Paths, bytes and records, names and numbers, in any mixture."""
        source, table = bus.read_request(LIST), bus.check(LIST, TABLE)
        for one, rows in itertools.product((LIST, str(LIST), source, bytes(source)), (TABLE, table, bytes(table))):
            for pair in ((1, 2), ("1", "2"), ("01", 2)):
                self.assertEqual(bus.Heater(one, rows, *pair).serve(), bus.Heater(*ASKED).serve())
        self.assertEqual(bus.Heater(bytes(source), TABLE, "task1", "task2").serve(), bus.Heater(*ASKED).serve())

    def test_under_way(self):
        heater = bus.Heater(*ASKED)
        states = []
        for letter in ".r..c...":
            heater.serve(letter)
            states.append((heater.toggles, heater.answered, heater.on, heater.under_way))
        waits, rests = (1, 0, True, True), (1, 1, True, False)
        self.assertEqual(states, [waits, waits, waits, rests, rests, rests, (2, 1, False, True), (2, 2, False, False)])

    def test_letters(self):
        heater = bus.Heater(*ASKED)
        for wrong in ("", "..", "x", "R", ".c"):
            with self.assertRaises(ValueError):
                heater.serve(wrong)
        self.assertEqual((heater.state, heater.toggles), (FRESH, 0))

    def test_refused(self):
        """When it is made, with what can be said of the pair; 15 for a state that another table left."""
        for pair, says in (
            (("status", "switch"), "switch (line 3) comes before status (line 4): the command is the first of the two"),
            (("gyro", "status"), "gyro (line 2) and status (line 4) are none; the pairs are switch before status"),
            ((1, 1), "switch (line 3) and switch (line 3) are none; the pairs are switch before status"),
            (("switch", "heater"), "no transfer is called heater: the names are gyro, switch, status, and the numbers"),
            ((3, "status"), "no transfer is called 3: "),
            ((-1, "status"), "no transfer is called -1: "),
            ((257, 258), "no transfer is called 257: "),
        ):
            self.assertIn(says, self.refused(30, bus.Heater, LIST, TABLE, *pair).about)
        twice = request((1, 20, 20, 0), (1, 20, 20, 0), (1, 20, 20, 0), pairs=[(0, 1), (0, 1)])
        about = self.refused(30, bus.Heater, twice, bus.plan(twice), 0, 2).about
        self.assertEqual(about, "task0 and task2 are none; the pairs are task0 before task1")
        alone = request((1, 20, 20, 0), (1, 20, 20, 0))
        about = self.refused(30, bus.Heater, alone, bus.plan(alone), 0, 1).about
        self.assertEqual(about, "task0 and task1 are none; the list has no pairs")
        self.refused(13, bus.Heater, LIST, EXAMPLES / "p4.table", "status", "switch")
        heater = bus.Heater(*ASKED)
        heater.state = b"\2" + FRESH[1:]
        self.refused(15, heater.serve)

    def test_entries(self):
        """What is served is what the dispatcher serves, with the cycle of each job."""
        source, table = CARRIED
        heater, flight = bus.Heater(source, table, 0, 1), bus.Dispatcher(table)
        frames = [heater.serve("b").frame for _ in range(12)]
        self.assertEqual(frames, [flight.next_frame() for _ in range(12)])
        self.assertEqual(frames[4].entries, (bus.Served(1, 0, True, 0),))
        self.assertEqual(frames[0].entries, ())


class Command(Case):
    def play(self, *words, asked=ASKED):
        return self.answered("heater", *asked, *words)

    def test_formats(self):
        out = self.play("--lose", "c.r")
        text = (ROOT / "docs" / "FORMATS.md").read_text(encoding="utf-8")
        self.assertIn("".join(f"    {line}\n" for line in out.splitlines()), text)

    def test_stored_table(self):
        """The table in the repository is the one that is planned now."""
        self.assertEqual(TABLE.read_bytes(), bytes(bus.plan(LIST)))
        self.assertEqual(self.answered("check", LIST, TABLE), "accepted\n")

    def test_lines(self):
        """Each frame beside the calls for a notebook; commands and replies in one frame."""
        source, table = ONE_FRAME
        asked = self.file("one.req", bytes(source)), self.file("one.table", table), "0", "task1"
        title, *lines, last = self.play("--lose", "rr.cb.", asked=asked).splitlines()
        self.assertEqual(title.split(), TITLE)
        heater = bus.Heater(source, table, 0, 1)
        for line, lost in zip(lines, "rr.cb."):
            one = heater.serve(lost)
            words = [f"{each.bit}{' lost' * each.lost}" for each in (one.command, one.reply)]
            wanted = [one.frame.number, one.frame.start, *words, *("yes" * done or "-" for done in one[-2:])]
            self.assertEqual(line.split(), " ".join(map(str, wanted)).split())
        self.assertEqual(last, "toggles 2, answered 2, heater off")
        self.assertEqual({line.rstrip() == line for line in lines}, {True})

    def test_how_many_frames(self):
        def numbers(*words, asked=ASKED):
            return [line.split()[0] for line in self.play(*words, asked=asked).splitlines()[1:-1]]

        for words, count in (
            (["--lose", "r"], 1),
            (["--lose", "....."], 5),
            (["--lose", "r", "--frames", 1], 1),
            (["--lose", "r", "--frames", 7], 7),
            (["--frames", 3], 3),
            (["--lose", "", "--frames", 3], 3),
            (["--lose", ""], 4),
            ([], 4),
        ):
            self.assertEqual(numbers(*words), list(map(str, range(count))), words)
        carried = self.file("c.req", bytes(CARRIED[0])), self.file("c.table", CARRIED[1]), 0, 1
        self.assertEqual(len(numbers(asked=carried)), 8)
        self.assertEqual(self.play("--lose", "r"), self.play("--lose", "r", "--frames", 1))
        self.assertEqual(self.play("--lose", ".r", "--frames", 4), self.play("--lose", ".r.."))

    def test_last_line(self):
        for pattern, last in (
            (".", "toggles 1, answered 0, heater on, its answer still to come"),
            ("..", "toggles 1, answered 1, heater on"),
            ("...", "toggles 2, answered 1, heater off, its answer still to come"),
            ("....", "toggles 2, answered 2, heater off"),
            ("b", "toggles 0, answered 0, heater off"),
        ):
            self.assertEqual(self.play("--lose", pattern).splitlines()[-1], last)

    def test_long(self):
        """Every other reply is lost, in the most frames that can be asked for."""
        out = self.play("--lose", ".r.." * 25_000).splitlines()
        self.assertEqual((len(out), out[-1]), (100_002, "toggles 25000, answered 25000, heater off"))
        self.assertEqual(out[-2].split(), ["99999", "1999980", "-", "1", "-", "yes"])

    def test_standard_input(self):
        wanted = self.play("--lose", "..r")
        for words, data in ((("-", TABLE), LIST.read_bytes()), ((LIST, "-"), TABLE.read_bytes())):
            self.assertEqual(self.answered("heater", *words, *ASKED[2:], "--lose", "..r", stdin=data), wanted)

    def test_names_come_first(self):
        """A transfer that is called by another one's number."""
        source = self.file("n.csv", f"{HEADER}1,1,20,,\n0,1,20,,\nbefore,1,0\n")
        table = self.file("n.table", bytes(bus.plan(source)))
        out = self.play("--lose", "r", asked=(source, table, "1", "0"))
        self.assertEqual(out.splitlines()[-1], "toggles 1, answered 0, heater on, its answer still to come")
        self.failed(1, "heater", source, table, "0", "1", says=[f"{source}: refused 30: "])

    def test_refusals(self):
        """List, request file and table as by `bus check`; then the pair, with the file that it speaks of."""
        bad = self.file("bad.csv", f"{HEADER}a,2,20,30,\n")
        cut = self.file("cut.req", example("p1.req")[:5])
        p3, p4 = EXAMPLES / "p3.req", EXAMPLES / "p4.table"
        for source, table in ((bad, TABLE), (cut, TABLE), (LIST, LIST), (LIST, p4), (p3, p4)):
            wanted = self.failed(1, "check", source, table)
            self.assertEqual(self.failed(1, "heater", source, table, 1, 0), wanted)
        says = [
            f"bus: {LIST}: refused 30: the two tasks of a heater link are no pair of the request\n",
            "     switch (line 3) comes before status (line 4): the command is the first of the two\n",
            "     what to do: name the two transfers of a pair, that of the command first; ",
        ]
        self.failed(1, "heater", LIST, TABLE, "status", "switch", says=says)

    def test_wrong_use(self):
        for words in (
            [],
            [LIST],
            [LIST, TABLE],
            [LIST, TABLE, "switch"],
            [*ASKED, "more"],
            [*ASKED, "--lose"],
            [*ASKED, "--lose", "x"],
            [*ASKED, "--lose", "C"],
            [*ASKED, "--lose", ". ."],
            [*ASKED, "--lose", "." * 100_001],
            [*ASKED, "--frames", "0"],
            [*ASKED, "--frames", "100001"],
            [*ASKED, "--frames", "x"],
            [*ASKED, "--lost", "r"],
        ):
            self.failed(2, "heater", *words, says=["usage: bus", "--help` has an example"])
        says = ["bus: the pattern is for 3 frames, and --frames for 2: make them fit\n"]
        self.failed(2, "heater", *ASKED, "--lose", "rrr", "--frames", 2, says=says)
        missing = self.folder / "missing"
        for words in ([missing, TABLE], [LIST, missing]):
            says = [f"bus: cannot read {missing}: No such file or directory"]
            self.failed(2, "heater", *words, *ASKED[2:], says=says)

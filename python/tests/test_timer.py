"""The registers of the bus timer: needs a library that has bus_timer_fresh and the other calls of a timer."""

import re
import unittest

import bus
from bus import library, programs, text
from tests.helper import EXAMPLES, ROOT, Case, example

TEAM, DRIVER = EXAMPLES / "team.csv", EXAMPLES / "driver.calls"
P1, P7 = EXAMPLES / "p1.req", EXAMPLES / "p7.req"
NAMED = bus.Request((bus.Task("sun, south", 2, 20, 20), bus.Task("0", 2, 20, 20), bus.Task("a b", 2, 20, 20)))


def fresh(source=P1):
    """A fresh timer on the planned table of a request."""
    return bus.Timer(bus.plan(source), source)


class Words:
    """The timer in the paper's words, beside a dispatcher of the library."""

    def __init__(self, table, source):
        self.dispatcher = bus.Dispatcher(table, source)
        self.run = self.enable = self.due = self.overrun = self.missed = False

    def write(self, address, value):
        if address == 0:
            self.run, self.enable = bool(value & 1), bool(value & 2)
        if address == 1:
            self.overrun = self.overrun and not value & 2
            self.missed = self.missed and not value & 4

    def event(self):
        if self.run:
            self.missed = self.missed or self.due
            self.due = True

    def serve(self):
        if not self.due:
            return ()
        self.due = False
        return tuple(bus.Entry(*entry[:3]) for entry in self.dispatcher.next_frame().entries)

    def report(self, task, ticks, longest):
        self.dispatcher.report(task, ticks)
        self.overrun = self.overrun or ticks > longest

    def registers(self):
        control = self.run + 2 * self.enable
        status = self.due + 2 * self.overrun + 4 * self.missed
        row, overruns = self.dispatcher.row, min(65_535, sum(self.dispatcher.counts))
        return (control, status, row % 256, row // 256, overruns % 256, overruns // 256, 0, 0)

    def line(self):
        return self.enable and (self.due or self.overrun or self.missed)


class Registers(Case):
    def step(self, timer, words, tasks):
        """One call on both; the entries of a serving are the same."""
        kind = self.draw.choice(("write", "write", "event", "event", "serve", "serve", "report"))
        if kind == "write":
            address = self.draw.choice((0, 0, 1, 1, 2, 7))
            value = self.draw.choice((1, 3, 3, 255, self.draw.randrange(256)))
            timer.write(address, value)
            words.write(address, value)
        elif kind == "event":
            timer.event()
            words.event()
        elif kind == "serve":
            self.assertEqual(timer.serve(), words.serve())
        else:
            number = self.draw.randrange(len(tasks))
            ticks = tasks[number].length + self.draw.choice((-1, 0, 1, 65_536))
            timer.report(number, ticks)
            words.report(number, ticks, tasks[number].length)

    def test_beside_the_words(self):
        """Lists of calls, from a fresh timer: registers, line and named parts after each."""
        for source in (TEAM, P1, P7):
            table, tasks = bus.plan(source), bus.read_request(source).tasks
            for _ in range(30):
                timer, words = bus.Timer(table, source), Words(table, source)
                for _ in range(40):
                    self.step(timer, words, tasks)
                    self.assertEqual(timer.registers, words.registers())
                    self.assertEqual(timer.line, words.line())
                    named = (timer.run, timer.enable, timer.due, timer.overrun, timer.missed)
                    self.assertEqual(named, (words.run, words.enable, words.due, words.overrun, words.missed))
                    self.assertEqual((timer.row, timer.counts), (words.dispatcher.row, words.dispatcher.counts))
                    self.assertEqual(timer.overruns, sum(words.dispatcher.counts))
                    self.assertEqual(timer.state[: library.STATE_BYTES], words.dispatcher.state)

    def test_formats(self):
        """The bytes of docs/FORMATS.md, and what they read."""
        timer = fresh(P7)
        timer.write(0, 3)
        timer.event()
        timer.serve()
        timer.event()
        formats = (ROOT / "docs" / "FORMATS.md").read_text(encoding="utf-8")
        data = timer.state.hex(" ").upper()
        self.assertEqual(len(timer.state), 72)
        self.assertEqual(timer.state[5:64], bytes(59))
        registers = bytes(timer.registers).hex(" ").upper()
        self.assertIn(f"\n    {data[:14]} .. 00 {data[-23:]}\n    {registers}\n", formats)


class Notebook(Case):
    def test_what_may_be_given(self):
        table = bus.plan(P1)
        path = self.file("p1.table", bytes(table))
        for given in (table, bytes(table), path):
            timer = bus.Timer(given, P1)
            timer.write(0, 1)
            timer.event()
            self.assertEqual([entry.task for entry in timer.serve()], [0, 1, 2])
        self.assertEqual(self.refused(12, bus.Timer, b"").words, "bytes that are not a table")

    def test_other_tables(self):
        """A serving may get another table; a refused one keeps the frame due, and one with none due refuses nothing."""
        timer = fresh()
        timer.write(0, 1)
        timer.event()
        before = timer.state
        self.refused(12, timer.serve, b"")
        self.assertEqual((timer.state, timer.due), (before, True))
        self.assertEqual(len(timer.serve()), 3)
        self.assertEqual(timer.serve(b""), ())
        timer.event()
        self.refused(15, timer.serve, bus.Table(20, 20, ((),)))
        self.assertEqual(len(timer.serve()), 2)

    def test_refused(self):
        timer = fresh()
        before = timer.state
        for address in (8, 255):
            self.refused(29, timer.read, address)
            refused = self.refused(29, timer.write, address, 0)
        self.assertIn("no register at the address", refused.words)
        self.refused(16, timer.report, 3, 1)
        self.refused(16, timer.report, "camera", 1)
        self.assertEqual(timer.state, before)

    def test_tasks_by_name(self):
        timer = bus.Timer(bus.plan(TEAM), TEAM)
        for task in ("heater", 4, "4"):
            timer.report(task, 6)
        self.assertEqual(timer.counts[4], 3)
        self.assertEqual((timer.overruns, timer.overrun), (3, True))
        timer.fresh()
        self.assertEqual(timer.registers, (0,) * 8)

    def test_numbers_that_do_not_fit(self):
        timer = fresh()
        for call, numbers in (
            (timer.read, (-1,)),
            (timer.read, (256,)),
            (timer.write, (256, 0)),
            (timer.write, (0, 256)),
            (timer.write, (0, -1)),
            (timer.report, (0, -1)),
            (timer.report, (0, 2**32)),
            (bus.Timer(bus.plan(P1)).report, (0, 1)),
        ):
            with self.assertRaises(ValueError):
                call(*numbers)


class Programs(Case):
    def read(self, content, source=NAMED):
        return programs.read(content.encode() if isinstance(content, str) else content, source)

    def faults(self, content):
        with self.assertRaises(programs.ProgramFaults) as caught:
            self.read(content)
        return str(caught.exception).splitlines()

    def test_calls(self):
        """Every call; numbers in both ways; lines are counted with those that say nothing."""
        content = "read 1\nwrite 0 0x3\n\n  # comment\nEvent # here\nserve\nreport 2 0XfF\nline\nfresh\nwrite\t1  255\n"
        steps = self.read(content)
        wanted = [
            (1, "read", (1,)),
            (2, "write", (0, 3)),
            (5, "event", ()),
            (6, "serve", ()),
            (7, "report", (2, 255)),
            (8, "line", ()),
            (9, "fresh", ()),
            (10, "write", (1, 255)),
        ]
        self.assertEqual([(step.line, step.call, step.numbers) for step in steps], wanted)
        self.assertEqual(steps[2].text, "Event")
        for other in (content.replace("\n", "\r\n"), content.replace("\n", "\r"), "\ufeff" + content):
            self.assertEqual(self.read(other), steps)
        self.assertEqual(self.read(""), ())

    def test_names(self):
        """By name, also with blanks or in quotes; a name comes first, then a number."""
        for task, number in (
            ("sun, south", 0),
            ('"sun, south"', 0),
            ("0", 1),
            ("a b", 2),
            (' "a b"  ', 2),
            ("1", 1),
            ("0x2", 2),
            ("255", 255),
        ):
            self.assertEqual(self.read(f"report {task} 7")[0].numbers, (number, 7), task)

    def test_faults(self):
        """All of them, each by its line."""
        content = (
            "reed 1\nread\nread 256\nread x\nread -1\nwrite 0\nwrite 0 0 0\nevent 1\nserve p1.table\nreport 1\n"
            f"report c 1\nreport 300 1\nreport 0 4294967296\nwrite 0 0x100\nread {'9' * 50}\nread ²\nread 1_0\n#\n"
            "read 0\nreport\n"
        )
        calls = "fresh, read, write, event, serve, report, line"
        self.assertEqual(
            self.faults(content),
            [
                f"line 1: 'reed' is no register call: {calls}",
                "line 2: behind read stands address, not ''",
                "line 3: address 256 is above 255",
                "line 4: address 'x' is not a whole number",
                "line 5: address '-1' is not a whole number",
                "line 6: behind write stands address and value, not '0'",
                "line 7: behind write stands address and value, not '0 0 0'",
                "line 8: behind event stands nothing, not '1'",
                "line 9: behind serve stands nothing, not 'p1.table'",
                "line 10: behind report stands task and ticks, not '1'",
                "line 11: no transfer is called 'c'",
                "line 12: task 300 is above 255",
                "line 13: ticks 4294967296 is above 4294967295",
                "line 14: value 0x100 is above 255",
                f"line 15: address {'9' * 40} is above 255",
                "line 16: address '²' is not a whole number",
                "line 17: address '1_0' is not a whole number",
                "line 20: behind report stands task and ticks, not ''",
            ],
        )
        self.assertEqual(self.faults(b"read 1\n\xff\n"), ["line 2: the text is not UTF-8: save the program as UTF-8"])

    def test_answers(self):
        """What each call answers, in words; a refused one changes nothing, and the program goes on."""
        program = "line\nserve\nwrite 0 3\nevent\nline\nread 1\nserve\nreport 0 6\nreport 7 6\nread 4\nread 8\n"
        program += "write 9 1\nfresh\n"
        source = bus.read_request(P1)
        done = list(programs.run(self.read(program, source), source, fresh()))
        self.assertEqual(
            [one.answer for one in done],
            [
                "off",
                "no frame due",
                "",
                "",
                "on",
                "0x01",
                "task0.0 task1.0 task2.0",
                "",
                "refused 16: there is no such task: the number of a report, or of the task whose phases are counted, is"
                " none of the request",
                "0x01",
                "refused 29: the timer has no register at the address, which is above 7",
                "refused 29: the timer has no register at the address, which is above 7",
                "",
            ],
        )
        self.assertEqual(done[-2].registers, (3, 2, 1, 0, 1, 0, 0, 0))
        self.assertEqual(done[-1].registers, (0,) * 8)

    def test_words(self):
        for registers, line_on, words in (
            ((0,) * 8, False, "control 0; status 0; row 0; overruns 0; line off"),
            ((1, 2, 5, 1, 255, 255, 0, 0), False, "run; overrun; row 261; overruns 65535; line off"),
            ((2, 4, 0, 0, 1, 0, 0, 0), True, "enable; frame missed; row 0; overruns 1; line on"),
            ((1, 5, 0, 0, 0, 1, 0, 0), False, "run; frame due, frame missed; row 0; overruns 256; line off"),
            ((3, 3, 0, 0, 0, 0, 0, 0), True, "run, enable; frame due, overrun; row 0; overruns 0; line on"),
        ):
            self.assertEqual(text.register_words(registers, line_on), words)


class Command(Case):
    def table(self, source):
        return self.file(f"{source.stem}.table", bytes(bus.plan(source)))

    def test_example(self):
        """Two lines for each call of the example; the first shows a fresh timer."""
        lines = self.answered("timer", TEAM, self.table(TEAM), DRIVER).splitlines()
        calls = [line for line in DRIVER.read_text(encoding="utf-8").splitlines() if line and line[0] != "#"]
        self.assertEqual(len(lines), 2 * len(calls))
        self.assertEqual(lines[1], "    00 00 00 00 00 00 00 00  control 0; status 0; row 0; overruns 0; line off")

    def test_formats(self):
        out = self.answered("timer", P7, self.table(P7), self.file("p", "write 0 3\nevent\nserve\n"))
        formats = (ROOT / "docs" / "FORMATS.md").read_text(encoding="utf-8")
        self.assertIn("".join(f"    {line}\n" for line in out.splitlines()), formats)

    def test_standard_input(self):
        table, program = self.table(TEAM), b"write 0 1\nevent\nserve\n"
        path = self.file("p", program)
        wanted = self.answered("timer", TEAM, table, path)
        self.assertEqual(self.answered("timer", TEAM, table, "-", stdin=program), wanted)
        self.assertEqual(self.answered("timer", "-", table, path, stdin=TEAM.read_bytes()), wanted)
        self.failed(2, "timer", "-", table, "-", says=["standard input cannot be two files"])
        self.assertEqual(self.answered("timer", TEAM, table, "/dev/null"), "")

    def test_faults_of_a_program(self):
        path = self.file("p", "event\nserve 1\nread 300\n")
        says = [
            f"{path}: line 2: behind serve stands nothing, not '1'\n",
            f"{path}: line 3: address 300 is above 255\n",
            "bus: refused: the program has 2 faults: mend what the lines say",
        ]
        self.failed(1, "timer", TEAM, self.table(TEAM), path, says=says)
        path = self.file("p", "x\n" * 40)
        self.failed(1, "timer", TEAM, self.table(TEAM), path, says=["the program has 40 faults, 10 of them not shown"])

    def test_refused(self):
        """List and table as by the check, before the program is looked at."""
        path, table = self.file("p", "x\n"), self.table(TEAM)
        bad = self.file("bad.req", example("p1.req")[:5])
        self.failed(1, "timer", bad, table, path, says=[f"bus: {bad}: refused 1: "])
        self.failed(1, "timer", TEAM, path, path, says=[f"bus: {path}: refused 12: "])
        self.failed(1, "timer", P1, table, path, says=[f"bus: {table}: refused 13: "])
        listed = self.file("bad.csv", "name,length,period,deadline,phase\na,2,20,30,\n")
        self.failed(1, "timer", listed, table, path, says=[f"{listed}: line 2: deadline 30", "the list has 1 fault"])

    def test_wrong_use(self):
        table, missing = self.table(TEAM), self.folder / "missing"
        for words in ([], [TEAM], [TEAM, table], [TEAM, table, DRIVER, "more"]):
            self.failed(2, "timer", *words, says=["usage: bus", "--help` has an example"])
        self.failed(2, "timer", TEAM, table, missing, says=[f"bus: cannot read {missing}: No such file or directory"])


class ExampleInC(unittest.TestCase):
    def test_it_has_the_request_and_the_table_of_p1(self):
        arrays = re.findall(r"\[\] = \{([^}]*)\}", (EXAMPLES / "interrupt.c").read_text(encoding="utf-8"))
        found = [bytes(int(word, 16) for word in re.findall("0x[0-9A-F]{2}", array)) for array in arrays]
        self.assertEqual(found, [example("p1.req"), bytes(bus.plan(P1))])

"""What people read: the list's own words, wrapped to the screen, and nothing that is told of the wrong thing."""

import os
import re
import subprocess

import bus
from bus import amounts, command as command_help, commands, lengths, refusals, words
from tests.helper import COMMAND, EXAMPLES, HANGS, ROOT, Case, Terminal, request, without_culprits

TEAM = EXAMPLES / "team.csv"
HEADER = "name,length,period,deadline,phase\n"


class Words(Case):
    def test_counted(self):
        self.assertEqual([amounts.counted(number, "tick") for number in (0, 1, 2)], ["0 ticks", "1 tick", "2 ticks"])

    def test_share_of_time(self):
        """What is above 100 % never looks like 100 %."""
        shares = {0.5: "50 %", 1.0: "100 %", 1.001: "a little more than 100 %", 1.01: "101 %", 0.999: "100 %"}
        self.assertEqual({share: words.share_of_time(share) for share in shares}, shares)

    def test_no_letters_of_the_papers(self):
        """A refusal speaks of lengths and periods, and not of C and T, H, f and g."""
        for row in refusals.ROWS:
            if row.number != 11:  # what a caller from C is told
                for text in (row.words, row.advice.replace("from C", "")):
                    self.assertIsNone(re.search(r"\b[CTDPHFfgn]\b", text), text)

    def test_one_tick(self):
        """Nowhere `1 ticks`."""
        one = request((1, 1, 1, 0), (1, 1, 1, 0), silent=1)
        for number, call, arguments in (
            (10, bus.plan, (request((1, 1, 1, 0), (1, 1, 1, 0)),)),
            (9, bus.plan, (one,)),
            (22, bus.one_off, (request((1, 2, 2, 0)), bus.plan(request((1, 2, 2, 0))), 2)),
        ):
            about = self.refused(number, call, *arguments).about
            self.assertNotRegex(about, r"\b1 (ticks|bytes|tasks|silent ones)\b")
        self.assertIn("1 tick and 1 silent one", self.refused(9, bus.plan, one).about)

    def test_rows_are_the_reason(self):
        """9 says so where frames of some length would do but for their number, and only there."""
        many = request((1, 90, 3, 0), (1, 9000, 9000, 0))
        about = self.refused(9, bus.plan, many).about
        self.assertEqual(
            about,
            "frames of 3 ticks would fit into every window, but a cycle of 9000 ticks would have 3000 rows of them,"
            " and a table has at most 256",
        )
        tight = request((2, 6, 6, 0), (8, 24, 24, 0))
        self.assertIn("the longest transfer is task1", self.refused(9, bus.plan, tight).about)

    def test_would_do_is_the_library_s(self):
        """For small requests of one task: a length would do exactly if the check takes a table of that length."""
        met = set()
        for _ in range(400):
            period = self.draw.randint(1, 12)
            length = self.draw.randint(1, period)
            task = (length, period, self.draw.randint(length, period), self.draw.randrange(period))
            one = request(task, silent=self.draw.choice((0, 0, 1)))
            for frame in range(1, period + 1):
                if period % frame == 0:
                    rows = ((),) * (period // frame)
                    number = self.refused_by(one, bus.Table(frame, period, rows))
                    self.assertEqual(not lengths.length_of(one, frame).failed, number != 13, (task, frame))
                    met.add(number)
        self.assertEqual(met, {13, 14})

    def refused_by(self, one, table):
        try:
            bus.check(one, table)
            return 0
        except bus.Refused as refused:
            return refused.number


class Load(Case):
    def test_before_any_search(self):
        path = self.file("over.csv", f"{HEADER}a,15,20,,\nb,10,20,,\n")
        for command in (["plan", path], ["fly", path], ["timeline", path], ["phases", path, "a"]):
            _, _, err = self.run_bus(*command)
            self.assertTrue(err.startswith("bus: the transfers ask for 125 % of the time: more than there is\n"), err)
        full = self.file("full.csv", f"{HEADER}a,10,20,,\nb,10,20,,\n")
        self.assertEqual(self.run_bus("plan", full)[2], "")


class Notes(Case):
    def test_told_once(self):
        """What is passed over is named once, for each list that is read, and the answer is as it was."""
        first = self.file("a.csv", "Board,Period,Name,Length\nx,20,gyro,2\n")
        second = self.file("b.csv", "Name,Length,Period,Remark\nsun,2,20,y\n")
        status, out, err = self.run_bus("plan", first, "--plain")
        self.assertEqual((status, err), (0, f"bus: {first}: columns not read: Board\n"))
        self.assertEqual(out, "frame 20 cycle 20 rows 1\n0 2 gyro.0\n")
        status, _, err = self.run_bus("join", first, second)
        told = f"bus: {first}: columns not read: Board\nbus: {second}: columns not read: Remark\n"
        self.assertEqual((status, err), (0, told))

    def test_at_the_first_try(self):
        """Reordered, renamed and other columns, in UTF-16, from standard input."""
        text = "Owner\tPeriod (ticks)\tTask\tLength (ticks)\tNotes\r\nEva\t20\tgyro\t2,0\t\r\nJan\t20\tSüd\t3\t-\r\n"
        status, out, err = self.run_bus("plan", "-", "--plain", stdin=text.encode("utf-16"))
        self.assertEqual((status, out), (0, "frame 20 cycle 20 rows 1\n0 5 gyro.0 Süd.0\n"))
        said = ["columns read by another name: 'Task' as name", "columns not read: Owner, Notes"]
        self.assertEqual(err, "".join(f"bus: standard input: {note}\n" for note in said))

    def test_with_faults(self):
        """How the list was read is told above its faults."""
        path = self.file("a.csv", f"{HEADER}Süd,0,20,,\n".encode("cp1252"))
        err = self.failed(1, "plan", path, says=[f"{path}: line 2: length 0 is not at least 1\n"])
        self.assertTrue(err.startswith(f"bus: {path}: read as Windows-1252"), err)
        self.assertIn("the list has 1 fault: mend what the line says; `bus --help` shows a list\n", err)

    def test_a_notebook_prints_nothing(self):
        path = self.file("a.csv", "X,Name,Length,Period\n,a,1,20\n")
        code = f"import bus; print(bus.read_request({path!r}).notes)"
        done = subprocess.run(
            [COMMAND[0], "-c", code], cwd=ROOT / "python", capture_output=True, text=True, check=True, timeout=HANGS
        )
        self.assertEqual((done.stdout, done.stderr), ("('columns not read: X',)\n", ""))

    def test_in_order(self):
        path = self.file("a.csv", f"{HEADER}b,2,20,,\na,2,20,,\nbefore,a,b\n")
        status, out, err = self.run_bus("list", path)
        self.assertEqual((status, err), (0, f"bus: {path}: put in order for the before lines: a moved up\n"))
        self.assertEqual(out, f"{HEADER}a,2,20,20,0\nb,2,20,20,0\nbefore,a,b\n")


class StandardInput(Case):
    def test_is_called_so(self):
        for stdin, says in (
            (b"", "standard input: the list is empty"),
            (f"{HEADER}a,0,20,,\n".encode(), "standard input: line 2: length 0 is not at least 1\n"),
            (f"{HEADER}a,2,6,,\nb,8,24,,\n".encode(), "bus: standard input: refused 9: "),
            (b"\x11", "bus: standard input: refused 2: "),
        ):
            err = self.failed(1, "plan", "-", stdin=stdin, says=[says])
            self.assertNotIn("-:", err)
        self.failed(2, "plan", "-", stdin=bytes(1_000_001), says=["cannot read standard input: it has more than"])


class Usage(Case):
    def test_of_the_subcommand(self):
        """What is wrong with a subcommand's words is told with its own usage."""
        for more in (["more"], ["--frob"], ["-o"], ["--tries", "x"]):
            err = self.failed(2, "plan", TEAM, *more)
            self.assertTrue(err.startswith("usage: bus plan [-h]"), err)
            self.assertIn("`bus plan --help` has an example\n", err)
        for command in commands.COMMANDS:
            err = self.failed(2, command.NAME, "--no-such-word")
            self.assertTrue(err.startswith(f"usage: bus {command.NAME} [-h]"), err)
        self.assertTrue(self.failed(2, "frob").startswith("usage: bus [-h]"))

    def test_every_help_shows_the_columns(self):
        for command in ([], *([command.NAME] for command in commands.COMMANDS)):
            out = self.answered(*command, "--help")
            self.assertIn("\n  name,length,period,deadline,phase\n", out)
            self.assertIn("\n  before,camera,downlink ", out)
        self.assertLessEqual(max(map(len, command_help.COLUMNS.splitlines())), 80)


class Wrapped(Terminal):
    def told(self, columns, *words):
        """What the command tells on a terminal of so many columns, as lines."""
        started, terminal = self.on_a_terminal(*words, columns=columns)
        return self.read(terminal).replace("\r\n", "\n").splitlines()

    def test_to_the_screen(self):
        """No line is longer than the screen, the rest of a line is indented, and no word is lost or cut."""
        path = self.file("nine.csv", f"{HEADER}a,2,6,,\nb,8,24,,\n")
        whole = self.failed(1, "plan", path)
        for columns in (60, 80, 132):
            lines = self.told(columns, "plan", path)
            self.assertLess(max(len(line) for line in lines if path not in line), columns)
            self.assertTrue(all(line.startswith("     ") for line in lines[1:]), lines)
            self.assertEqual(*(without_culprits(" ".join(told.split())) for told in ("\n".join(lines), whole)))
        faults = self.file("faults.csv", f"{HEADER}a,2,20,,9,9,9\n")
        lines = self.told(60, "plan", faults)
        self.assertEqual(" ".join(lines).split(), self.failed(1, "plan", faults).split())

    def test_not_elsewhere(self):
        """A line stays whole where no person looks at it."""
        path = self.file("nine.csv", f"{HEADER}a,2,6,,\nb,8,24,,\n")
        self.assertEqual(self.failed(1, "plan", path, env={**os.environ, "COLUMNS": "40"}).count("\n"), 4)

"""Phases of a task: counts and runs beside planning, words, the strip, signs of long work, and what stops it."""

import os
import signal
import subprocess
import sys
import time
import xml.etree.ElementTree as xml
from unittest import mock

import bus
from bus import command, library, progress, search
from bus.phases import CountsDiffer, runs_of, with_phase
from tests.helper import AT_ONCE, COMMAND, EXAMPLES, HANGS, OVERLOAD, ROOT, Case, Terminal
from tests.helper import as_from_a_terminal, children, pigeons, request, running, seldom
from tests.test_picture import SVG, numbers, of_class, place

TEAM = EXAMPLES / "team.csv"
WITHOUT_END = 10**15

# With 6 tries for each phase all four answers occur.
FOUR = request((10, 40, 17, 22), (2, 40, 40, 35), (5, 20, 17, 16))


def some_request(draw):
    """A request of a few short periods."""
    period = draw.choice((12, 16, 20, 30))
    tasks = []
    for _ in range(draw.randint(2, 4)):
        own = draw.choice((period, period, period // 2))
        length = draw.randint(1, own // 3)
        tasks.append((length, own, draw.randint(length, own), draw.randrange(own)))
    equal = [(a, b) for b in range(len(tasks)) for a in range(b) if tasks[a][1] == tasks[b][1]]
    return request(*tasks, pairs=draw.sample(equal, min(1, len(equal))), silent=draw.choice((0, 0, 1)))


def ends(data, task, period, tries):
    """What planning comes to with each phase, by the library's call: 0 for a table, or the refusal's number."""
    return [max(-library.plan(with_phase(data, task, phase), tries)[0], 0) for phase in range(period)]


class Calls(Case):
    def judge(self, source, task, tries):
        """Counts and runs are those of the phases planned one by one; the answer has them too."""
        data = bytes(source)
        wanted = ends(data, task, source.tasks[task].period, tries)
        found = bus.phases(data, task, tries=tries)
        self.assertEqual((found.task, found.tries), (task, tries))
        self.assertEqual(found.counts, {answer: wanted.count(answer) for answer in (0, 9, 10, 23)})
        self.assertEqual(sum(found.counts.values()), len(wanted))
        self.assertEqual([run.answer for run in found.runs for _ in range(run.first, run.last + 1)], wanted)
        edges = [edge for run in found.runs for edge in (run.first, run.last + 1)]
        self.assertEqual([edges[0], *edges[1:-1:2], edges[-1]], [0, *edges[2::2], len(wanted)])
        self.assertTrue(all(one.answer != two.answer for one, two in zip(found.runs, found.runs[1:])))
        return found.counts

    def test_all_four(self):
        self.assertEqual(self.judge(FOUR, 0, 6), {0: 16, 9: 8, 10: 8, 23: 8})
        self.assertEqual(self.judge(FOUR, 0, 10**6)[23], 0)
        self.assertEqual(self.judge(FOUR, 0, 0), {0: 0, 9: 8, 10: 0, 23: 32})

    def test_seeded(self):
        seen = set()
        for _ in range(60):
            source = some_request(self.draw)
            task = self.draw.randrange(len(source.tasks))
            counts = self.judge(source, task, self.draw.choice((0, 5, 20, 1000)))
            seen |= {answer for answer, count in counts.items() if count}
        self.assertEqual(seen, {0, 9, 10, 23})

    def test_bytes_of_a_phase(self):
        """Two bytes are others: the same as in a request that was made with that phase."""
        tasks = [(1, 700, 600, 5), (2, 700, 700, 0), (3, 700, 650, 255)]
        data = bytes(request(*tasks, pairs=[(0, 2)], silent=3))
        for task in range(3):
            for phase in (0, 1, 255, 256, 699):
                shifted = [(*one[:3], phase) if number == task else one for number, one in enumerate(tasks)]
                wanted = bytes(request(*shifted, pairs=[(0, 2)], silent=3))
                self.assertEqual(with_phase(data, task, phase), wanted)

    def test_runs(self):
        self.assertEqual(runs_of([0]), (bus.Run(0, 0, 0),))
        self.assertEqual(runs_of([9, 9, 0, 9]), (bus.Run(0, 1, 9), bus.Run(2, 2, 0), bus.Run(3, 3, 9)))

    def test_what_may_be_given(self):
        """Paths, bytes and records; a name, a number, or a number as text."""
        wanted = bus.phases(TEAM, "star")
        self.assertEqual((wanted.tables, wanted.nines, wanted.tens, wanted.ended), (22, 18, 0, 0))
        for source in (str(TEAM), TEAM.read_bytes(), bus.read_request(TEAM), bytes(bus.read_request(TEAM))):
            for task in ("star", 2, "2", "002"):
                if task != "star" or source != bytes(bus.read_request(TEAM)):
                    self.assertEqual(bus.phases(source, task), wanted)

    def test_longest_period(self):
        found = bus.phases(EXAMPLES / "p12.req", 0, tries=1)
        self.assertEqual((found.tables, found.runs), (10_000, (bus.Run(0, 9_999, 0),)))

    def test_refused(self):
        """The request's own numbers first, those of its cycle too; then an unknown task."""
        names = "the names are gyro, sun, star, magnet, heater, camera, downlink, and the numbers 0 to 6"
        for task in ("Star", "", "-1", -1, 7, "7", 255, 256, 10**30):
            refused = self.refused(16, bus.phases, TEAM, task)
            self.assertEqual(refused.about, f"no transfer is called {task}: {names}")
            self.refused(3, bus.phases, request((0, 20, 20, 0)), task)
            self.refused(7, bus.phases, EXAMPLES / "p12-long.req", task)
            self.refused(8, bus.phases, EXAMPLES / "p11.req", task)

    def test_refused_by_planning(self):
        """A request without a table is counted like any other."""
        for name, counts in (("p2.req", [0, 6, 0, 0]), ("p5.req", [0, 0, 20, 0])):
            self.assertEqual(list(bus.phases(EXAMPLES / name, 0).counts.values()), counts)

    def test_no_number_of_tries(self):
        for tries in (-1, 2**64):
            with self.assertRaisesRegex(ValueError, "from 0 to 18446744073709551615"):
                bus.phases(TEAM, "star", tries=tries)

    def test_counts_that_differ(self):
        """Each of the four, one more or one less, is seen; and the command says that it is its own fault."""
        module = sys.modules["bus.phases"]
        true = module._both
        for place_of in range(4):
            for step in (1, -1):

                def wrong(*given):
                    four, answers = true(*given)
                    four[place_of] = abs(four[place_of] + step)
                    return four, answers

                with mock.patch.object(module, "_both", wrong), self.assertRaises(CountsDiffer):
                    bus.phases(TEAM, "star")
                with mock.patch.object(module, "_both", wrong), mock.patch.object(command, "say") as said:
                    with mock.patch("traceback.print_exc") as printed:
                        self.assertEqual(command.main(["phases", str(TEAM), "star"]), command.FAILED)
                    printed.assert_called_once_with()
                    self.assertIn("a fault of the command itself", said.call_args.args[0])


STAR = """\
star: 40 phases, its own is 10
22  table
18  refused 9, no frame length is plausible
 0  refused 10, some frame length is plausible, but there is no plan
 0  refused 23, more than 10,000,000 tries are needed
phases    answer
0         table
1 to 9    refused 9
10 to 20  table, its own phase
21 to 29  refused 9
30 to 39  table
"""


class Command(Case):
    def test_printed(self):
        self.assertEqual(self.answered("phases", TEAM, "star"), STAR)

    def test_formats(self):
        """The example of docs/FORMATS.md: its bytes, and what is printed."""
        data = bytes(request((5, 10, 5, 6)))
        shown = self.answered("phases", "-", 0, stdin=data).splitlines()
        answer, counts = library.phases(data, 0, search.TRIES)
        self.assertEqual(answer, 0)
        text = (ROOT / "docs" / "FORMATS.md").read_text(encoding="utf-8")
        self.assertTrue(f"\n    {counts.hex(' ').upper()}\n" in text, counts)
        self.assertTrue("".join(f"    {line}\n" for line in shown) in text, shown)

    def test_few_tries(self):
        """All four answers, and the allowance in words; a task by its number, and a list from standard input."""
        source = self.file("four.req", bytes(FOUR))
        out = self.answered("phases", source, 0, "--tries", 6)
        for line in ("task0: 40 phases, its own is 22", "16  table", " 8  refused 23, more than 6 tries are needed"):
            self.assertIn(f"{line}\n", out)
        self.assertEqual(self.answered("phases", "-", "task0", "--tries", 6, stdin=bytes(FOUR)), out)
        found = bus.phases(FOUR, 0, tries=6)
        self.assertEqual(len(out.splitlines()), 6 + len(found.runs))

    def test_words(self):
        one = self.file("one.csv", "name,length,period,deadline,phase\na b,1,1,,\n")
        lines = self.answered("phases", one, "a b", "--tries", 0).splitlines()
        self.assertEqual([lines[0], *lines[4:]], [
            '"a b": 1 phase, its own is 0', "1  refused 23, more than 0 tries are needed",
            "phases  answer", "0       refused 23, its own phase",
        ])

    def test_strip(self):
        """The picture is that of the notebook; no half file is left, and none where the task is unknown."""
        path = self.folder / "star.svg"
        self.assertEqual(self.answered("phases", TEAM, "star", "--svg", path), STAR)
        read = bus.read_request(TEAM)
        drawn = bus.strip(read, bus.phases(read, "star"), "team.csv: phases of star")
        self.assertEqual(path.read_text(encoding="utf-8"), drawn)
        self.answered("phases", "-", 2, "--svg", path, stdin=TEAM.read_bytes())
        self.assertIn("<title>Phases of star</title>", path.read_text(encoding="utf-8"))
        self.failed(1, "phases", TEAM, "Star", "--svg", self.folder / "none.svg", says=[f"bus: {TEAM}: refused 16: "])
        self.assertEqual(self.names_in_folder(), ["star.svg"])

    def test_refused(self):
        says = [f"bus: {TEAM}: refused 16: there is no such task", "no transfer is called 7: the names are gyro, "]
        self.failed(1, "phases", TEAM, 7, says=[*says, "what to do: name a task of the list"])
        self.failed(1, "phases", "-", 0, stdin=b"\x11", says=["bus: standard input: refused 2: "])
        self.failed(1, "phases", EXAMPLES / "p11.req", 9, says=["p11.req: refused 8: ", "129 jobs"])
        bad = self.file("bad.csv", "name,length,period\na,30,20\n")
        self.failed(1, "phases", bad, "a", says=[f"{bad}: line 2: length 30 is longer than the period 20"])

    def test_wrong_use(self):
        for words in ([], [TEAM], [TEAM, "star", "more"], [TEAM, "star", "--tries"], [TEAM, "star", "--svg"]):
            self.failed(2, "phases", *words, says=["usage: bus", "--help` has an example"])
        for number in ("-1", "x", str(2**64)):
            self.failed(2, "phases", TEAM, "star", f"--tries={number}", says=["argument --tries: "])
        source = self.file("t.csv", TEAM.read_bytes())
        self.failed(2, "phases", source, "star", "--svg", source, says=["one file is named twice"])
        self.assertEqual((self.folder / "t.csv").read_bytes(), TEAM.read_bytes())
        missing = self.folder / "missing"
        says = [f"bus: cannot write {missing}/t: No such file"]
        self.failed(2, "phases", self.file("long.req", bytes(pigeons(16))), 0, "--svg", missing / "t", says=says)


class Strips(Case):
    def drawn(self, source, found):
        """Each phase is drawn once, at its place and with its answer; the marks have the counts."""
        svg = xml.fromstring(bus.strip(source, found, "title <&>"))
        width, height = float(svg.get("width")), float(svg.get("height"))
        period, seen, before = source.tasks[found.task].period, [], None
        for group in of_class(svg, "run"):
            first, last, answer = numbers(group, "first", "last", "answer")
            x, y, wide, high = place(group.find(f"{SVG}rect"))
            self.assertTrue(0 <= x and x + wide <= width and 0 <= y and y + high <= height)
            seen += [(phase, answer) for phase in range(first, last + 1)]
            if before is not None:
                beside = abs(x - before[0] - before[2]) < 0.03 and y == before[1]
                self.assertTrue(beside or x == 24 and y > before[1] + before[3], first)
            before = (x, y, wide, high)
        wanted = [run.answer for run in found.runs for _ in range(run.first, run.last + 1)]
        self.assertEqual(seen, list(enumerate(wanted)))
        self.assertEqual(len(wanted), period)
        counts = [int(element.text) for element in of_class(svg, "count")]
        self.assertEqual(counts, list(found.counts.values()))
        (own,) = of_class(svg, "own")
        self.assertEqual(numbers(own, "phase"), (source.tasks[found.task].phase,))
        return svg

    def test_all_four(self):
        svg = self.drawn(FOUR, bus.phases(FOUR, 0, tries=6))
        self.assertEqual(svg.find(f"{SVG}title").text, "title <&>")
        fills = {group.find(f"{SVG}rect").get("fill") for group in of_class(svg, "run")}
        self.assertEqual(len(fills), 4)

    def test_lengths(self):
        """From one phase to the longest strip, which has lines; equally wide phases; the own one at either end."""
        for period in (1, 2, 9, 499, 500, 501, 8_128, 10_000):
            for phase in {0, period // 2, period - 1}:
                source = request((1, period, period, phase))
                runs = runs_of([9 if number % 7 < 3 else 0 for number in range(period)])
                tables = sum(run.last + 1 - run.first for run in runs if run.answer == 0)
                svg = self.drawn(source, bus.Phases(0, 5, tables, period - tables, 0, 0, runs))
                widths = {}
                for group in of_class(svg, "run"):
                    first, last = numbers(group, "first", "last")
                    widths.setdefault(last + 1 - first, set()).add(place(group.find(f"{SVG}rect"))[2])
                self.assertTrue(all(max(each) - min(each) < 0.03 for each in widths.values()))


class Signs(Terminal):
    def test_bar(self):
        """How far it is, and about how long it will take; gone at the end, and cut where the terminal ends."""
        begin, end = "bus: planning each phase ", "; Ctrl-C stops it"
        told = [(0, 130, 1.0), (30, 120, 3.2), (60, 10_000, 61.0), (1, 10_000, 3.0), (120, 120, 9.0)]
        self.assertEqual(self.seen(200, lambda: progress.Bar("planning each phase"), told), [
            f"{begin}[........................] 0 of 130{end}",
            f"{begin}[######..................] 30 of 120, about 10 s left{end}",
            f"{begin}[........................] 60 of 10,000, about 3 h left{end}",
            f"{begin}[........................] 1 of 10,000, about 8 h left{end}",
            f"{begin}[########################] 120 of 120{end}",
            "",
        ])
        for columns in (1, 2, 30, 80):
            for line in self.seen(columns, lambda: progress.Bar("planning each phase"), told):
                self.assertLess(len(line), columns)

    def test_told_only_if_long(self):
        told = []
        with seldom():
            bus.phases(TEAM, "camera", tell=lambda *far: told.append(far))
        self.assertEqual(told, [])
        with mock.patch.object(search, "SECONDS_BETWEEN_SIGNS", 0.05):
            bus.phases(pigeons(12), 0, tries=2_000_000, tell=lambda *far: told.append(far))
        done = [far[0] for far in told]
        self.assertTrue(len(done) > 1 and done == sorted(done), done)
        self.assertEqual({far[1] for far in told}, {143})

    def test_ctrl_c(self):
        """The bar moves; Ctrl-C takes it away at once."""
        source = self.file("long.req", bytes(pigeons(16)))
        started, terminal = self.on_a_terminal("phases", source, 3, "--tries", 2 * search.TRIES)
        received = self.read(terminal, r"\] [1-9]\d* of 195.*\] [1-9]\d* of 195")
        begin = time.monotonic()
        os.write(terminal, b"\x03")
        received += self.read(terminal)
        self.assertEqual(started.communicate(timeout=HANGS)[0], b"")
        self.assertEqual(started.returncode, -signal.SIGINT)
        self.assertLess(time.monotonic() - begin, AT_ONCE)
        bar = r"planning each phase \[#*\.+\] \d+ of 195, about \d+ (s|min|h) left; Ctrl-C stops it"
        self.assertRegex(received, bar)
        self.assertRegex(received, r"\r +\rbus: stopped\r\n$")


class Stopped(Case):
    def start(self):
        """Phases that are planned without end; the process and those of its work."""
        source = self.file("long.req", bytes(pigeons(16)))
        words = ["phases", source, "0", "--tries", str(WITHOUT_END), "--svg", str(self.folder / "svg")]
        pipes = {"stdout": subprocess.PIPE, "stderr": subprocess.PIPE}
        started = subprocess.Popen([*COMMAND, *words], **pipes, preexec_fn=as_from_a_terminal)
        self.addCleanup(started.kill)
        self.assertEqual(started.stderr.readline().decode(), OVERLOAD)
        line = started.stderr.readline().decode()
        self.assertEqual(line, "bus: planning each phase; Ctrl-C stops it, and nothing is written before it ends\n")
        work = children(started.pid)
        self.assertEqual(len(work), 2)
        return started, work

    def ends(self, started, work, status):
        begin = time.monotonic()
        out, err = started.communicate(timeout=HANGS)
        self.assertEqual((started.returncode, out), (status, b""))
        while any(map(running, work)):
            self.assertLess(time.monotonic() - begin, AT_ONCE)
            time.sleep(0.01)
        self.assertEqual(self.names_in_folder(), ["long.req"])
        return err.decode()

    def test_ctrl_c(self):
        started, work = self.start()
        started.send_signal(signal.SIGINT)
        self.assertEqual(self.ends(started, work, -signal.SIGINT), "bus: stopped\n")

    def test_ended_from_outside(self):
        started, work = self.start()
        started.kill()
        self.ends(started, work, -signal.SIGKILL)

    def test_work_ended_from_outside(self):
        """The planning of phases is ended: the command says so and has no answer."""
        started, work = self.start()
        os.kill(work[-1], signal.SIGKILL)
        self.assertIn("before it had an answer", self.ends(started, work, 2))

    def test_in_a_notebook(self):
        """While both are at work, the counting and the planning."""
        self.interrupted(2, lambda: bus.phases(pigeons(16), 0, tries=WITHOUT_END))

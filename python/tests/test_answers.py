"""What is printed and how: tables for people, --json with every subcommand, '-' as an output, and the exit status; and
the subcommands `show`, `diff` and `new`."""

import json
import os
import subprocess

import bus
from bus import answer, commands
from tests.helper import COMMAND, EXAMPLES, HANGS, Case, example, pigeons, request, without_culprits
from tests.test_command import TEAM, TEAM_LISTING, TEAM_TABLE

HEADER = "name,length,period,deadline,phase\n"


class People(Case):
    """The table with headings, and its plain lines."""

    def test_columns(self):
        """Numbers stand below their headings, right-aligned; the sums of a row are its frame."""
        for source in (TEAM, EXAMPLES / "harness.csv", EXAMPLES / "p12.req", EXAMPLES / "p9.req"):
            table = bus.plan(source)
            heading, *lines, last = self.answered("plan", source).splitlines()
            self.assertEqual(heading.split("  ")[0:2], ["row", "first tick"])
            ends = [heading.index(word) + len(word) for word in ("row", "first tick", "busy", "silent", "unused")]
            ends[0] = max(ends[0], len(str(len(table.rows) - 1)))
            self.assertEqual(len(lines), len(table.rows))
            for number, (line, record) in enumerate(zip(lines, bus.rows(source, table))):
                numbers = [int(word) for word in line.split()[:5]]
                self.assertEqual(numbers, [record[key] for key in ("row", "first_tick", "busy", "silent", "unused")])
                self.assertEqual(numbers[:2], [number, number * table.frame])
                self.assertEqual(sum(numbers[2:]), table.frame)
                self.assertEqual(line.split()[5:], record["transfers"])
            self.assertRegex(last, rf"^frame {table.frame}, cycle {table.cycle}, \d+ rows?, load <?\d+ % \(\d+ of ")
            self.assertEqual("+" in last, any(entry.carry for row in table for entry in row))

    def test_words_for_one(self):
        one = bus.aligned(request((1, 1, 1, 0)), bus.plan(request((1, 1, 1, 0))))
        self.assertEqual(one.splitlines()[-1], "frame 1, cycle 1, 1 row, load 100 % (1 of 1 tick)")

    def test_on_a_terminal(self):
        """Transfers that do not fit go on below the first of them, and no line is wider than the terminal."""
        wanted = request(*[(1, 20, 20, 0)] * 16)
        lines = bus.aligned(wanted, bus.plan(wanted), 80).splitlines()
        self.assertTrue(all(len(line) <= 80 for line in lines[:-1]), lines)
        at = lines[0].index("transfers")
        self.assertGreater(len(lines), 3)
        self.assertTrue(all(line[:at].strip() == "" and line[at] != " " for line in lines[2:-1]), lines)
        whole = bus.aligned(wanted, bus.plan(wanted))
        self.assertEqual(" ".join(whole.split()), " ".join(" ".join(lines).split()))

    def test_show(self):
        """A table file as `plan` prints it: for people, plain, in C and as a picture; refused as by `check`."""
        table, svg = self.file("t.table", bytes(bus.plan(TEAM))), self.folder / "t.svg"
        self.assertEqual(self.answered("show", TEAM, table), TEAM_TABLE)
        self.assertEqual(self.answered("show", TEAM, table, "--plain"), TEAM_LISTING)
        for more in (["--c", "team_table"], ["--svg", "-"]):
            self.assertEqual(self.answered("show", TEAM, table, *more), self.answered("plan", TEAM, *more))
        self.answered("show", TEAM, table, "--svg", svg)
        self.assertEqual(svg.read_bytes(), (EXAMPLES / "team.svg").read_bytes())
        for source, other in ((TEAM, EXAMPLES / "p4.table"), (EXAMPLES / "p3.req", EXAMPLES / "p4.table"), (TEAM, TEAM)):
            self.assertEqual(self.failed(1, "show", source, other), self.failed(1, "check", source, other))
        self.failed(2, "show", "-", "-", says=["standard input cannot be two files"])
        self.failed(2, "show", TEAM, table, "--svg", table, says=["one file is named twice"])

    def test_version(self):
        self.assertEqual(self.answered("--version"), f"bus {bus.__version__}\n")
        self.assertRegex(bus.__version__, r"^\d+\.\d+\.\d+$")


class Json(Case):
    """One record for each subcommand, and for what it refuses."""

    def words(self):
        """Words for every subcommand, all of them answered."""
        table = self.file("team.table", bytes(bus.plan(TEAM)))
        heater = [EXAMPLES / "heater.csv", EXAMPLES / "heater.table"]
        return {
            "new": [],
            "plan": [TEAM],
            "show": [TEAM, table],
            "check": [TEAM, table],
            "fly": [TEAM, table],
            "list": [TEAM],
            "join": [EXAMPLES / "battery-1.csv", EXAMPLES / "battery-2.csv"],
            "cut": [EXAMPLES / "p2.csv", "camera", "--first", 4],
            "one-off": [TEAM, table, "--length", 5],
            "spacing": [TEAM, table],
            "move": [TEAM, table, "heater.0", 3],
            "diff": [TEAM, EXAMPLES / "harness.csv"],
            "phases": [TEAM, "star"],
            "timer": [TEAM, table, EXAMPLES / "driver.calls"],
            "heater": [*heater, "switch", "status", "--lose", ".r.."],
            "timeline": [TEAM, table],
        }

    def record(self, *words, status=0, **more):
        ended, out, _ = self.run_bus(*words, "--json", **more)
        self.assertEqual(ended, status, out)
        return json.loads(out)

    def test_every_subcommand(self):
        """A record with the subcommand, its status and more; no name of a record or a tuple is left in it."""
        words = self.words()
        for module in commands.COMMANDS:
            if module.NAME not in words:
                continue
            found = self.record(module.NAME, *words[module.NAME])
            self.assertEqual(list(found)[:2], ["command", "status"], module.NAME)
            self.assertEqual((found["command"], found["status"]), (module.NAME, "answered"))
            self.assertGreater(len(found), 2, module.NAME)
        self.assertLessEqual(set(words), {module.NAME for module in commands.COMMANDS})

    def test_table(self):
        """The numbers and names of the printed table."""
        found, table = self.record("plan", TEAM), bus.plan(TEAM)
        self.assertEqual((found["frame"], found["cycle"], found["load"]), (20, 80, 65 / 80))
        names = [task.name for task in bus.read_request(TEAM).tasks]
        for row, told in zip(table, found["rows"]):
            entries = [(names[entry.task], entry.job, entry.carry) for entry in row]
            self.assertEqual([(one["name"], one["job"], one["carry"]) for one in told["transfers"]], entries)
            starts = [one["start"] for one in told["transfers"]]
            self.assertEqual(starts[:1], [told["first_tick"]] if starts else [])
            self.assertEqual(starts, sorted(starts))
        self.assertEqual(found["rows"], self.record("show", TEAM, self.file("t", bytes(table)))["rows"])

    def test_list(self):
        found = self.record("list", TEAM)
        self.assertEqual(found["transfers"][2], {
            "task": 2, "name": "star", "length": 6, "period": 40, "deadline": 30, "phase": 10
        })
        self.assertEqual(found["before"], [{"first": "camera", "second": "downlink"}])
        self.assertEqual(self.record("list", EXAMPLES / "harness.csv")["silent"], 1)

    def test_others(self):
        """Some numbers of each, beside the calls for a notebook."""
        table = bus.plan(TEAM)
        path = self.file("t", bytes(table))
        self.assertEqual(self.record("one-off", TEAM, path, "--length", 5, "--from", 30)["number"], 3)
        apart = self.record("spacing", TEAM, path)["transfers"]
        self.assertEqual([tuple(one.values()) for one in apart], list(map(tuple, bus.spacing(TEAM, table))))
        jobs = self.record("timeline", TEAM, path)
        self.assertEqual([tuple(one.values())[1:] for one in jobs["jobs"]], list(map(tuple, bus.timeline(TEAM, table))))
        self.assertEqual(jobs["busy"], 65)
        counts = self.record("phases", TEAM, "star")
        self.assertEqual((counts["counts"]["0"], counts["counts"]["9"], len(counts["runs"])), (22, 18, 5))
        flown = self.record("fly", TEAM, path, "--cycles", 1)["frames"]
        self.assertEqual([one["number"] for one in flown], [0, 1, 2, 3])
        self.assertEqual([one["name"] for one in flown[0]["entries"]], ["gyro", "sun", "magnet", "heater"])
        heater = [EXAMPLES / "heater.csv", EXAMPLES / "heater.table", "switch", "status", "--lose", ".r.."]
        link = self.record("heater", *heater)
        self.assertEqual((link["toggles"], link["answered"], link["on"]), (1, 1, True))
        self.assertEqual(link["frames"][1]["reply"], {"bit": 0, "lost": True})
        steps = self.record("timer", TEAM, path, EXAMPLES / "driver.calls")["steps"]
        self.assertTrue(all(len(step["registers"]) == 8 for step in steps))

    def test_refused(self):
        """The refusal as a record on standard output, and its words on standard error as without --json."""
        path = EXAMPLES / "p5.req"
        status, out, err = self.run_bus("plan", path, "--json")
        self.assertEqual(without_culprits(err), without_culprits(self.failed(1, "plan", path)))
        found = json.loads(out)
        self.assertEqual((status, found["status"], found["number"], found["file"]), (1, "refused", 10, str(path)))
        self.assertTrue(found["words"] and found["about"] and found["advice"])
        bad = self.file("bad.csv", f"{HEADER}a,2,20,30,\nbefore,a,c\n")
        faults = self.record("plan", bad, status=1)["faults"]
        self.assertEqual([(fault["file"], fault["line"]) for fault in faults], [(bad, 2), (bad, 3)])
        missing = self.record("plan", self.folder / "missing", status=2)
        self.assertEqual(missing["status"], "failed")
        self.assertIn("No such file", missing["words"])

    def test_not_known(self):
        """3, apart from a proved no."""
        source = self.file("p.req", bytes(pigeons(12)))
        found = self.record("plan", source, "--tries", 5, status=3)
        self.assertEqual((found["status"], found["number"], found["tries"]), ("unknown", 23, 5))
        self.failed(3, "plan", source, "--tries", 5, says=["refused 23: "])
        self.failed(3, "fly", source, "--tries", 5, says=["refused 23: "])
        self.failed(1, "plan", source, says=["refused 10: "])

    def test_plain_values(self):
        """Records and tuples become what JSON knows."""
        table = bus.plan(TEAM)
        self.assertEqual(answer.plain(bus.Entry(1, 2, True)), {"task": 1, "job": 2, "carry": True})
        self.assertEqual(answer.plain({9: (1, b"\x01\xff")}), {"9": [1, "01ff"]})
        self.assertEqual(set(answer.plain(table)), {"frame", "cycle", "rows"})
        json.dumps(answer.plain([table, table.request, bus.phases(TEAM, "star")]))


class StandardOutput(Case):
    """'-' is standard output, and then nothing else is."""

    def bytes_of(self, *words):
        done = subprocess.run([*COMMAND, *map(str, words)], capture_output=True, timeout=HANGS, check=True)
        return done.stdout

    def test_outputs(self):
        table = bus.plan(TEAM)
        path = self.file("t", bytes(table))
        self.assertEqual(self.bytes_of("plan", TEAM, "-o", "-"), bytes(table))
        self.assertEqual(self.bytes_of("plan", TEAM, "--svg", "-"), (EXAMPLES / "team.svg").read_bytes())
        self.assertEqual(self.bytes_of("list", TEAM, "-o", "-"), bytes(bus.read_request(TEAM)))
        self.assertEqual(self.bytes_of("move", TEAM, path, "heater.0", 0, "-o", "-"), bytes(table))
        self.assertEqual(self.bytes_of("cut", EXAMPLES / "p2.csv", "camera", "--first", 4, "-o", "-")[:1], b"\x04")
        for words in (["phases", TEAM, "star"], ["timeline", TEAM]):
            self.assertTrue(self.bytes_of(*words, "--svg", "-").startswith(b"<?xml "))
            self.assertTrue(self.bytes_of(*words, "--svg", "-").endswith(b"</svg>\n"))
        self.assertEqual(self.names_in_folder(), ["t"])

    def test_a_file_beside_it(self):
        """The table to standard output and the picture to a file."""
        svg = self.folder / "t.svg"
        self.assertEqual(self.bytes_of("plan", TEAM, "-o", "-", "--svg", svg), bytes(bus.plan(TEAM)))
        self.assertEqual(svg.read_bytes(), (EXAMPLES / "team.svg").read_bytes())

    def test_one_thing_alone(self):
        for words in (["-o", "-", "--svg", "-"], ["--c", "x", "--plain"], ["--c", "x", "--svg", "-"]):
            self.failed(2, "plan", TEAM, *words, says=["both go to standard output: leave one of the two out"])
        for words in (["-o", "-"], ["--plain"], ["--c", "x"]):
            status, out, err = self.run_bus("plan", TEAM, "--json", *words)
            self.assertEqual((status, json.loads(out)["status"]), (2, "failed"))
            self.assertIn("both go to standard output", err)

    def test_nothing_if_refused(self):
        self.failed(1, "plan", EXAMPLES / "p5.req", "-o", "-", says=["refused 10: "])

    def test_full(self):
        """One line is told, whether Python keeps what is printed in a buffer or not."""
        words = [*COMMAND, "plan", str(TEAM), "-o", "-"]
        for unbuffered in ("", "1"):
            environment = {**os.environ, "PYTHONUNBUFFERED": unbuffered}
            with open("/dev/full", "wb") as full:
                done = subprocess.run(words, stdout=full, stderr=subprocess.PIPE, env=environment, timeout=HANGS)
            self.assertEqual(done.returncode, 2)
            says = b"bus: cannot write to standard output: No space left on device: make room, or write elsewhere\n"
            self.assertEqual(done.stderr, says)


class Lists(Case):
    def test_by_the_ending(self):
        """`list -o` writes a list if the name ends in .csv, like `join`, whatever it was given."""
        request_file = self.file("t.req", bytes(bus.read_request(TEAM)))
        for source in (TEAM, request_file):
            printed = self.answered("list", source)
            for name in ("x.csv", "X.CSV"):
                self.assertEqual(self.answered("list", source, "-o", self.folder / name), "")
                self.assertEqual((self.folder / name).read_text(encoding="utf-8"), printed)
            self.answered("list", source, "-o", self.folder / "x.req")
            self.assertEqual((self.folder / "x.req").read_bytes(), bytes(bus.read_request(TEAM)))

    def test_three_and_more(self):
        """Joined one behind the other: the same as two by two; names stay apart, and a refusal names its list."""
        old, new = EXAMPLES / "battery-1.csv", EXAMPLES / "battery-2.csv"
        small = self.file("s.csv", f"{HEADER}cells,1,40,,\nlamp,1,40,,\nbefore,cells,lamp\n")
        status, out, err = self.run_bus("join", old, new, small)
        self.assertEqual(status, 0, err)
        self.assertIn(f"bus: {small}: names changed in the joined list: cells to cells-3\n", err)
        self.assertEqual(out.splitlines()[-1], "before,cells-3,lamp")
        twice = bus.join(bus.join(old, new), small)
        self.assertEqual(bus.join(old, new, small), twice)
        self.assertEqual(out.encode(), self.run_bus("join", old, new, small)[1].encode())
        four = bus.join(small, small, small, small)
        self.assertEqual([task.name for task in four.tasks][::2], ["cells", "cells-2", "cells-3", "cells-4"])
        bad = self.file("bad.req", b"\x11")
        self.failed(1, "join", old, new, bad, says=[f"bus: {bad}: refused 2: "])
        self.failed(1, "join", TEAM, TEAM, TEAM, says=[f"{TEAM} and {TEAM} and {TEAM}: refused 18: "])
        self.assertIn("the third request", str(self.refused(2, bus.join, old, new, b"\x11")))
        self.assertEqual(self.refused(20, bus.join, old, new, EXAMPLES / "harness.csv").number, 20)

    def test_new(self):
        """A list to begin with: it is read, has a pair and silent ticks, and has a table."""
        status, out, err = self.run_bus("new")
        self.assertEqual(status, 0)
        self.assertTrue(out.startswith(HEADER))
        self.assertIn("bus: a line for each transfer: name, length, period, deadline, phase", err)
        wanted = bus.read_request(out.encode())
        self.assertTrue(wanted.pairs and wanted.silent)
        bus.plan(wanted)
        self.assertEqual(self.run_bus("new", "-o", self.folder / "my.csv")[:2], (0, ""))
        self.assertEqual((self.folder / "my.csv").read_text(encoding="utf-8"), out)


class Diff(Case):
    def changed(self, old, new):
        return bus.diff(self.file("old.csv", HEADER + old), self.file("new.csv", HEADER + new))

    def test_lists(self):
        """What was added, taken away, changed and moved, each by its name."""
        old = "a,1,20,,\nb,2,20,,\nc,3,20,,\nd,4,40,,\nbefore,a,b\nbefore,b,c\n"
        new = "d,4,40,,\na,1,20,15,2\nc,3,20,,\ne,1,40,,\nbefore,a,c\nsilent,1\n"
        path = self.file("o.csv", HEADER + old), self.file("n.csv", HEADER + new)
        self.assertEqual(self.answered("diff", *path), """\
added    transfer e: length 1, period 40, deadline 40, phase 0
added    before a c
gone     transfer b: length 2, period 20, deadline 20, phase 0
gone     before a b
gone     before b c
changed  a deadline: 20 to 15
changed  a phase: 0 to 2
changed  silent: 0 to 1
moved    transfer d: number 3 to 0
""")
        found = self.changed(old, new)
        back = self.changed(new, old)
        self.assertEqual((found.added, found.gone), (back.gone, back.added))
        self.assertEqual(len(found.changed), len(back.changed))
        self.assertEqual(self.answered("diff", path[0], path[0]), "no difference: the same list\n")
        self.assertTrue(self.changed(old, old).same)
        self.assertFalse(found.same)

    def test_tables(self):
        """Jobs by task and number; a list names them."""
        table = bus.plan(TEAM)
        draft = bus.Draft(TEAM, table)
        draft.lift("heater.0"), draft.put("heater.0", 3)
        paths = [self.file("a.table", bytes(table)), self.file("b.table", bytes(draft.write()))]
        self.assertEqual(self.answered("diff", *paths), "moved    job task4.0: row 0 to row 3\n")
        self.assertEqual(self.answered("diff", *paths, "--names", TEAM), "moved    job heater.0: row 0 to row 3\n")
        self.assertEqual(self.answered("diff", paths[0], paths[0]), "no difference: the same table\n")
        other = self.file("c.table", bytes(bus.plan(EXAMPLES / "p7.req")))
        lines = self.answered("diff", paths[0], other).splitlines()
        self.assertIn("changed  frame: 20 to 5", lines)
        self.assertIn("changed  cycle: 80 to 10", lines)
        self.assertIn("moved    job task0.0: row 0 to row 0 (carried)", lines)
        self.assertIn("gone     job task6.0+ in row 1", lines)

    def test_wrong_use(self):
        table = self.file("t.table", bytes(bus.plan(TEAM)))
        self.failed(2, "diff", TEAM, table, says=["one of the two is a table and the other a list"])
        self.failed(2, "diff", "-", "-", says=["standard input cannot be two files"])
        with self.assertRaisesRegex(ValueError, "two of a kind"):
            bus.diff(TEAM, bus.plan(TEAM))
        bad = self.file("bad.csv", f"{HEADER}a,2,20,30,\n")
        self.failed(1, "diff", TEAM, bad, says=[f"{bad}: line 2: "])
        self.failed(1, "diff", self.file("cut.req", example("p1.req")[:5]), TEAM, says=["cut.req: refused 1: "])

    def test_every_list_with_itself_and_without_a_line(self):
        """No difference with itself; a line left out is the only one that is gone."""
        for path in (TEAM, EXAMPLES / "battery-1.csv", EXAMPLES / "harness.csv"):
            self.assertTrue(bus.diff(path, path).same)
            lines = path.read_text(encoding="utf-8").splitlines()
            found = bus.diff(path, self.file("x.csv", "\n".join(lines[:-1]) + "\n"))
            self.assertEqual(len(found.gone) + len(found.changed), 1, found)
            self.assertEqual(found.added + found.moved, ())

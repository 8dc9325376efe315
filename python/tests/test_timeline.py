"""Every job of a cycle, beside the request's own jobs and the table's own entries."""

import csv
import io
import xml.etree.ElementTree as xml

import bus
from bus import library
from tests.helper import EXAMPLES, Case, example, request
from tests.test_one_off import HEADER, P1_TABLE, P7_TABLE, TEAM
from tests.test_spacing import seeded_tables

SVG = "{http://www.w3.org/2000/svg}"
COLUMNS = ["name", "job", "release", "due", "frame"]


def wanted(asked, table):
    """The records by the request's jobs and the frames of the table's entries."""
    frames = table.frames()
    return tuple((*job, frames[job.task, job.number]) for job in asked.jobs())


class Calls(Case):
    def test_sheet(self):
        p1 = ((0, 0, 0, 20, 0), (1, 0, 0, 20, 0), (2, 0, 0, 40, 0), (0, 1, 20, 40, 1), (1, 1, 20, 40, 1))
        self.assertEqual(bus.timeline(example("p1.req"), P1_TABLE), p1)
        self.assertEqual(bus.timeline(example("p7.req"), P7_TABLE), ((0, 0, 6, 15, 2),))
        self.assertEqual(bus.timeline(example("p7.req"), P7_TABLE)[0].frame, 2)

    def test_seeded(self):
        carried = 0
        for asked, table in seeded_tables(self.draw, 200):
            records = bus.timeline(asked, table)
            self.assertEqual(records, wanted(asked, table))
            carried += any(one.frame >= len(table.rows) for one in records)
        self.assertGreater(carried, 20)

    def test_most_jobs(self):
        asked = request((1, 2, 2, 0), (1, 254, 254, 0))
        records = bus.timeline(asked, bus.plan(asked))
        self.assertEqual(len(records), library.RECORDS_BYTES // library.RECORD_BYTES)
        self.assertEqual(records[-1], (0, 126, 252, 254, 126))

    def test_refused(self):
        self.refused(12, bus.timeline, TEAM, b"")
        self.refused(13, bus.timeline, example("p7.req"), P1_TABLE)
        self.refused(14, bus.timeline, example("p3.req"), EXAMPLES / "p4.table")
        self.refused(1, bus.timeline, example("p1.req")[:5], P1_TABLE)


class Command(Case):
    def setUp(self):
        super().setUp()
        self.request = bus.read_request(TEAM)
        self.chosen = bus.plan(TEAM)
        self.table = self.file("team.table", bytes(self.chosen))
        self.records = bus.timeline(self.request, self.chosen)

    def test_lines(self):
        """A line for each job in columns, then the busy ticks of all rows; planned or of the table."""
        out = self.answered("timeline", TEAM, self.table)
        self.assertEqual(self.answered("timeline", TEAM), out)
        heading, *lines, last = out.splitlines()
        self.assertEqual(heading.split(), COLUMNS)
        names = [task.name for task in self.request.tasks]
        self.assertEqual([tuple(line.split()) for line in lines],
                         [(names[one.task], *map(str, one[1:])) for one in self.records])
        begins = [heading.index(word) for word in COLUMNS]
        for line in lines:
            self.assertTrue(all(line[at] != " " and (at == 0 or line[at - 1] == " ") for at in begins), line)
        listed = self.answered("plan", TEAM, "--plain").splitlines()[1:]
        self.assertEqual(last, f"busy {sum(int(line.split()[1]) for line in listed)}")

    def test_another_table(self):
        """The frames are those of the table that is given, and not of the chosen one."""
        draft = bus.Draft(TEAM, self.chosen)
        draft.lift("heater.0"), draft.put("heater.0", 3)
        moved = self.file("moved.table", bytes(draft.write()))
        out = self.answered("timeline", TEAM, moved)
        self.assertRegex(out, r"\nheater +0 +\d+ +\d+ +3\n")
        self.assertNotEqual(out, self.answered("timeline", TEAM, self.table))

    def test_csv(self):
        source = self.file("n.csv", f'{HEADER}"a ""b"", c",1,20,,\nLager Süd,2,10,,\n')
        found = list(csv.reader(io.StringIO(self.answered("timeline", source, "--csv"))))
        asked = bus.read_request(source)
        records = bus.timeline(asked, bus.plan(asked))
        self.assertEqual(found, [COLUMNS, *([asked.tasks[one.task].name, *map(str, one[1:])] for one in records)])
        self.assertEqual(self.answered("timeline", source).splitlines()[-1], "busy 5")

    def test_picture(self):
        """A group for each job: its frame lies in its window, both where the ticks of the others say."""
        for source, table in ((TEAM, self.chosen), (EXAMPLES / "p7.req", bus.plan(EXAMPLES / "p7.req"))):
            path = self.folder / "jobs.svg"
            out = self.answered("timeline", source, "--svg", path)
            self.assertEqual(out, self.answered("timeline", source))
            svg = xml.fromstring(path.read_text(encoding="utf-8"))
            groups = [group for group in svg.iter(f"{SVG}g") if group.get("class") == "job"]
            records = bus.timeline(source, table)
            told = [tuple(int(group.get(f"data-{name}")) for name in ("task", "job", "frame")) for group in groups]
            self.assertEqual(told, [(one.task, one.job, one.frame) for one in records])
            end = max(table.cycle, *(one.due for one in records))
            scale = (1000 - 2 * 24 - 150) / end
            for group, one in zip(groups, records):
                kinds = {box.get("class"): box for box in group.findall(f"{SVG}rect")}
                window, frame = kinds["window"], kinds["frame"]
                edges = [one.release, one.due, one.frame * table.frame, (one.frame + 1) * table.frame]
                drawn = []
                for box in (window, frame):
                    x = float(box.get("x")) - 24 - 150
                    drawn += [x / scale, (x + float(box.get("width"))) / scale]
                for tick, at in zip(edges, drawn):
                    self.assertAlmostEqual(tick, at, delta=0.5)

    def test_standard_input(self):
        wanted_out = self.answered("timeline", TEAM, self.table)
        self.assertEqual(self.answered("timeline", "-", stdin=TEAM.read_bytes()), wanted_out)
        self.assertEqual(self.answered("timeline", TEAM, "-", stdin=bytes(self.chosen)), wanted_out)

    def test_refused(self):
        """As by `bus check` with a table, and as by `bus plan` without."""
        other = EXAMPLES / "p4.table"
        for source, table in ((TEAM, TEAM), (TEAM, other), (EXAMPLES / "p3.req", other)):
            told = self.failed(1, "check", source, table)
            self.assertEqual(self.failed(1, "timeline", source, table), told)
        self.assertEqual(self.failed(1, "timeline", EXAMPLES / "p2.req"), self.failed(1, "plan", EXAMPLES / "p2.req"))
        self.failed(3, "timeline", TEAM, "--tries", 0, says=["refused 23"])

    def test_wrong_use(self):
        for words in ([], [TEAM, self.table, "more"], [TEAM, "--tries", "-1"]):
            self.failed(2, "timeline", *words, says=["usage: bus", "--help` has an example"])
        self.failed(2, "timeline", TEAM, self.table, "--tries", 5, says=["a table is given"])
        self.failed(2, "timeline", TEAM, self.table, "--svg", self.table, says=["one file is named twice"])
        self.failed(2, "timeline", self.folder / "missing", says=["No such file or directory"])

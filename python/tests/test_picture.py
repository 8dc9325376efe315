"""Pictures: well formed, every transfer drawn once, inside its row and at its tick."""

import xml.etree.ElementTree as xml

import bus
from bus import drawing
from tests.helper import EXAMPLES, Case, request, stored, unhex

SVG = "{http://www.w3.org/2000/svg}"
NEAR = 0.011  # of a coordinate with two digits behind the point


def place(element):
    return tuple(float(element.get(name)) for name in ("x", "y", "width", "height"))


def of_class(svg, name):
    return [element for element in svg.iter() if element.get("class") == name]


def numbers(element, *names):
    return tuple(int(element.get(f"data-{name}")) for name in names)


class Judge(Case):
    """What the gate asks of every picture."""

    def drawn(self, wanted, table):
        svg = xml.fromstring(bus.picture(wanted, table))
        self.assertEqual(svg.tag, f"{SVG}svg")
        rows = {numbers(group, "row")[0]: place(group.find(f"{SVG}rect")) for group in of_class(svg, "row")}
        self.judge_folds(svg, table, rows)
        self.judge_rows(svg, rows)
        self.judge_pages(svg)
        self.assertEqual(list(svg.iter(f"{SVG}pattern")), [])
        self.judge_transfers(svg, wanted, table, rows)
        self.judge_silence(svg, wanted, table, rows)
        self.judge_jobs(svg, wanted, table)
        self.judge_loads(svg, wanted, table)
        return svg

    def judge_folds(self, svg, table, rows):
        """Each row is drawn, or is empty and in one fold of two rows or more; no two folds are neighbours."""
        folds = [numbers(group, "first", "last") for group in of_class(svg, "fold")]
        folded = [number for first, last in folds for number in range(first, last + 1)]
        self.assertEqual(sorted([*rows, *folded]), list(range(len(table.rows))))
        self.assertFalse(any(table.rows[number] for number in folded))
        self.assertTrue(all(last > first for first, last in folds))
        empty = [number for number in rows if not table.rows[number]]
        self.assertFalse(any(number + 1 in folded or number - 1 in folded or number + 1 in empty for number in empty))

    def judge_rows(self, svg, rows):
        """Rows and folds are inside the picture, rows equally wide, in lines from left to right, and no two overlap."""
        width, height = float(svg.get("width")), float(svg.get("height"))
        folds = {}
        for group in of_class(svg, "fold"):
            x, y, wide, high = place(group.find(f"{SVG}rect"))
            folds[numbers(group, "first")[0]] = (x - 1, y - 1, wide + 2, high + 2)
        cells = sorted({**rows, **folds}.items())
        left, before = cells[0][1][0], None
        for number, (x, y, wide, high) in cells:
            self.assertTrue(0 <= x and x + wide <= width and 0 <= y and y + high <= height)
            self.assertAlmostEqual(wide, cells[0][1][2], delta=2 * NEAR)
            if before is not None:
                beside = abs(x - (before[0] + before[2])) <= 4 * NEAR and abs(y - before[1]) <= NEAR
                below = abs(x - left) <= NEAR and y >= before[1] + before[3]
                self.assertTrue(beside or below, number)
            before = x, y, wide, high

    def judge_pages(self, svg):
        """Nothing but the paper stands across the end of a printed page."""
        for element in [*svg.iter(f"{SVG}rect")][1:]:
            _, y, _, high = place(element)
            self.assertEqual(y // drawing.PAGE, (y + high) // drawing.PAGE, element.attrib)
        for element in svg.iter(f"{SVG}text"):
            y, size = float(element.get("y")), float(element.get("font-size"))
            self.assertEqual((y - size) // drawing.PAGE, (y + 3) // drawing.PAGE, element.text)

    def judge_transfers(self, svg, wanted, table, rows):
        seen = []
        for group in of_class(svg, "transfer"):
            row, task, job, tick = numbers(group, "row", "task", "job", "tick")
            x, y, wide, high = place(group.find(f"{SVG}rect"))
            left, top, row_wide, row_high = rows[row]
            scale = row_wide / table.frame
            self.assertAlmostEqual(x, left + tick * scale, delta=NEAR)
            self.assertAlmostEqual(wide, wanted.tasks[task].length * scale, delta=NEAR)
            self.assertTrue(left - NEAR <= x and x + wide <= left + row_wide + 2 * NEAR)
            self.assertEqual((y, high), (top, row_high))
            dashed = group.find(f"{SVG}rect").get("stroke-dasharray") is not None
            label = group.find(f"{SVG}text").text
            self.assertTrue(label.startswith(wanted.tasks[task].name[:10]), label)
            self.assertTrue(label.endswith(f".{job}+" if dashed else f".{job}"), label)
            seen.append((row, task, job, dashed, tick))
        self.assertEqual(sorted(seen), sorted(self.expected(wanted, table)))

    def expected(self, wanted, table):
        """Row, task, job, carry and tick of every transfer of the table: each starts g ticks after the one before."""
        for number, row in enumerate(table.rows):
            for at, entry in enumerate(row):
                tick = sum(wanted.tasks[other.task].length + wanted.silent for other in row[:at])
                yield (number, entry.task, entry.job, entry.carry, tick)

    def judge_silence(self, svg, wanted, table, rows):
        """Behind each transfer its silent ticks, inside the row; none without a g."""
        drawn = of_class(svg, "silent")
        self.assertEqual(len(drawn), len(of_class(svg, "transfer")) if wanted.silent else 0)
        for element in drawn:
            x, y, wide, _ = place(element)
            around = [(left, across) for left, top, across, _ in rows.values() if y == top and left <= x]
            left, across = max(around)
            self.assertLessEqual(x + wide, left + across + 2 * NEAR)
            self.assertAlmostEqual(wide, wanted.silent * across / table.frame, delta=NEAR)

    def judge_jobs(self, svg, wanted, table):
        """Each job once, its window and its frame to one scale, the frame inside the window."""
        groups = of_class(svg, "job")
        frames = table.frames()
        self.assertEqual({numbers(group, "task", "job"): numbers(group, "frame")[0] for group in groups}, frames)
        self.assertEqual(len(groups), len(frames))
        for group, job in zip(groups, wanted.jobs()):
            self.assertEqual(numbers(group, "task", "job"), (job.task, job.number))
            number = frames[job.task, job.number]
            window, frame = (place(of_class(group, name)[0]) for name in ("window", "frame"))
            self.assertTrue(window[0] - NEAR <= frame[0] and frame[0] + frame[2] <= window[0] + window[2] + 2 * NEAR)
            scale = window[2] / (job.due - job.release)
            self.assertAlmostEqual(frame[2], table.frame * scale, delta=0.5)
            self.assertAlmostEqual(frame[0] - window[0], (number * table.frame - job.release) * scale, delta=0.5)
            row = table.rows[number % len(table.rows)]
            before = [wanted.tasks[entry.task].length + wanted.silent for entry in row if entry.task < job.task]
            run = place(of_class(group, "run")[0])
            self.assertAlmostEqual(run[0] - frame[0], sum(before) * scale, delta=0.5)
            self.assertAlmostEqual(run[2], wanted.tasks[job.task].length * scale, delta=0.5)
            texts = [element.text for element in group.iter(f"{SVG}text")]
            self.assertEqual(texts[1:], list(map(str, (job.release, job.due, number, number % len(table.rows)))))

    def judge_loads(self, svg, wanted, table):
        drawn = [table.rows[numbers(group, "row")[0]] for group in of_class(svg, "row")]
        for element, row in zip(of_class(svg, "load"), drawn):
            share = sum(wanted.tasks[entry.task].length + wanted.silent for entry in row) / table.frame
            self.assertEqual(element.text, "<1 %" if 0 < share < 0.01 else f"{100 * share:.0f} %")
        self.assertEqual(len(of_class(svg, "load")), len(drawn))
        self.assertEqual({element.text for element in of_class(svg, "cycle-end")}, {str(table.cycle)})


class Pictures(Judge):
    def planned(self, source):
        wanted = bus.read_request(source)
        return self.drawn(wanted, bus.plan(wanted, tries=100_000_000))

    def test_sheet(self):
        for name in ("team.csv", "p1.req", "p3.req", "p6.req", "p7.req", "p8.req", "p9.req", "p12.req"):
            with self.subTest(name):
                self.planned(EXAMPLES / name)

    def test_full_rows(self):
        """16 entries in a row: wide, narrow and hardly to be seen."""
        for period in (40, 100, 10_000):
            self.planned(request(*[(1 + i % 3, period, period, 0) for i in range(16)]))
        self.planned(request(*[(1 + i % 2, 64, 64, 5 + 3 * i) for i in range(16)]))

    def test_many(self):
        """128 jobs, 256 rows, and both."""
        periods = [2**i for i in range(7)] + [64]
        self.planned(request(*[(1, 10 * t, 10 * t, 0) for t in periods]))
        self.planned(request(*[(1, 4 * t, 4 * t if i else 1, 0) for i, t in enumerate(periods)]))
        self.planned(request((5, 64, 64, 0), (40, 8128, 8128, 3000)))

    def test_stored_tables(self):
        """Every accepted table of the stored answers, of other lengths than the chosen one too."""
        drawn = 0
        for words, lines in stored("plain.txt"):
            for line in lines:
                if line[0] == "check" and line[2] == "0":
                    self.drawn(bus.read_request(unhex(words[1])), bus.check(unhex(words[1]), unhex(line[1])))
                    drawn += 1
        self.assertGreater(drawn, 40)

    def test_names(self):
        """Names that mean something in XML, control characters, very long ones, other scripts."""
        names = ["<b>&amp;", '"quoted"', "\x1b[31m\x00", "x" * 300, "太陽センサー", "Süd", "\ud800", "\u202e"]
        wanted = bus.Request(tuple(bus.Task(name, 2, 40, 40) for name in names))
        text = bus.picture(wanted, bus.plan(wanted), "title <&>")
        svg = xml.fromstring(text)
        self.assertEqual(len(of_class(svg, "transfer")), len(names))
        self.assertIn("<b>&amp;.0", [element.text for element in svg.iter(f"{SVG}text")])
        text.encode("utf-8")

    def test_names_do_not_meet(self):
        """Names below a strip do not overlap and stay below their row."""
        for period, wide in ((1000, ""), (64, ""), (32, "-of-the-board")):
            tasks = tuple(bus.Task(f"task{i}{wide}", 1 + (i % 2) * (period == 64), period, period, 0) for i in range(16))
            svg = self.planned(bus.Request(tasks))
            (row,) = [place(group.find(f"{SVG}rect")) for group in of_class(svg, "row")]
            taken = []
            for tag in of_class(svg, "tag"):
                (group,) = [group for group in of_class(svg, "transfer") if tag in list(group)]
                x, y, _, _ = place(tag)
                end = x + 12 + drawing.width_of(group.find(f"{SVG}text").text, 9)
                self.assertTrue(row[0] <= x and end <= row[0] + row[2] and y >= row[1] + row[3])
                taken.append((y, x, end))
            taken.sort()
            self.assertTrue(all(b[0] > a[0] or b[1] > a[2] for a, b in zip(taken, taken[1:])))
            self.assertEqual(len(taken), 16 if period == 1000 else len(taken))

    def test_a_name_beside_its_box(self):
        """The only narrow box of a row, with unused time behind it: its name stands there."""
        svg = self.planned(bus.Request((bus.Task("a-name-that-is-long", 1, 100, 100),)))
        (group,) = of_class(svg, "transfer")
        text, box = group.find(f"{SVG}text"), place(group.find(f"{SVG}rect"))
        self.assertGreater(float(text.get("x")), box[0] + box[2])
        self.assertTrue(box[1] < float(text.get("y")) < box[1] + box[3])
        self.assertEqual(of_class(svg, "tag"), [])

    def test_whole_names(self):
        """In the list a name stands whole, a long one in two lines; only one of far more letters is cut."""
        for name in ("x" * 20, "the magnetometer on the second boom, " * 2, "word " * 30, "W" * 80):
            tasks = tuple(bus.Task(f"{name}{i}", 1, 40, 40) for i in range(9))
            svg = self.planned(bus.Request(tasks))
            shown = [element.text for element in of_class(svg, "name")]
            for i in range(9):
                whole = f"{name}{i}"
                parts = [text for text in shown if text == whole]
                lines = len(shown) // 9
                parts = "".join(shown[lines * i : lines * i + lines])
                self.assertEqual(parts.replace(" ", ""), whole.replace(" ", ""))
        svg = self.planned(bus.Request((bus.Task("x" * 300, 2, 40, 40),)))
        self.assertTrue(of_class(svg, "name")[-1].text.endswith("~"))

    def test_pairs(self):
        """In words, and as an arrow from the end of the first transfer to the start of the second."""
        wanted = request((2, 20, 20, 0), (3, 40, 40, 0), (4, 40, 40, 0), pairs=[(1, 2), (1, 2)])
        svg = self.planned(wanted)
        self.assertEqual([element.text for element in of_class(svg, "order")], ["order:", "task1 before task2"])
        (arrow,) = of_class(svg, "pair")
        jobs = {numbers(group, "task", "job"): place(of_class(group, "run")[0]) for group in of_class(svg, "job")}
        first, second = jobs[1, 0], jobs[2, 0]
        shaft, head = arrow.find(f"{SVG}line"), arrow.find(f"{SVG}polygon").get("points").split(" ")[0]
        self.assertAlmostEqual(float(shaft.get("x1")), first[0] + first[2], delta=0.5)
        self.assertAlmostEqual(float(head.split(",")[0]), second[0], delta=0.5)
        many = request(*[(1, 20, 20, 0)] * 4, pairs=[(0, 1), (1, 2), (2, 3)])
        self.assertEqual(len(of_class(self.planned(many), "pair")), 3)

    def test_many_pages(self):
        """128 jobs go on from page to page, each part with its own axis."""
        periods = [2**i for i in range(7)] + [64]
        svg = self.planned(request(*[(1, 10 * t, 10 * t, 0) for t in periods]))
        self.assertGreater(float(svg.get("height")), 2 * drawing.PAGE)
        self.assertGreater(len(of_class(svg, "cycle-end")), 2)

    def test_colours(self):
        """16 tasks, unused time and silent ticks are told apart, in greyscale too: by the shade, or by the band."""

        def grey(colour):
            red, green, blue = (int(colour[k : k + 2], 16) for k in (1, 3, 5))
            return 0.299 * red + 0.587 * green + 0.114 * blue

        for colour in drawing.COLOURS:
            self.assertGreater(abs(grey(colour) - grey(drawing.UNUSED)), 20, colour)
            self.assertGreater(abs(grey(colour) - grey(drawing.SILENT)), 15, colour)
        svg = self.planned(request(*[(1 + i % 3, 40, 40, 0) for i in range(16)]))
        bands = [numbers(group, "task")[0] for group in of_class(svg, "transfer") if of_class(group, "band")]
        self.assertEqual(sorted(set(bands)), list(range(8, 16)))
        self.assertEqual(len(set(drawing.COLOURS)), 8)

    def test_dark_pages(self):
        """The paper, what stands on it and its lines have a rule each; words in boxes are black whatever the page is."""
        svg = self.planned(EXAMPLES / "team.csv")
        rules = next(svg.iter(f"{SVG}style")).text
        self.assertIn("@media (prefers-color-scheme: dark)", rules)
        fills = {element.get("fill") for element in svg.iter(f"{SVG}rect")} - {*drawing.COLOURS, "#333333"}
        for fill in fills:
            self.assertIn(f'.bus-picture [fill="{fill}"]', rules)
        for group in of_class(svg, "transfer"):
            (text,), box = group.findall(f"{SVG}text"), place(group.find(f"{SVG}rect"))
            inside = box[0] <= float(text.get("x")) <= box[0] + box[2]
            self.assertEqual(text.get("fill"), drawing.INK if inside else None)

    def test_in_a_notebook(self):
        """The picture of a table that knows its request; it does not set the size of the page around it."""
        table = bus.plan(EXAMPLES / "team.csv")
        self.assertIn("@page", bus.picture(table.request, table))
        self.assertNotIn("@page", table._repr_svg_())
        xml.fromstring(table._repr_svg_())
        self.assertIsNone(bus.read_table(bytes(table))._repr_svg_())
        self.assertEqual(bus.read_table(bytes(table), EXAMPLES / "team.csv")._repr_svg_(), table._repr_svg_())

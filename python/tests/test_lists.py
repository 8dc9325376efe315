"""Lists: read with every fault named, written, and the same as request files."""

import bus
from bus import library, lists
from bus.lists import cells, header
from tests.exported import exported, named
from tests.helper import EXAMPLES, Case, request, seeded_request

HEADER = "name,length,period,deadline,phase\n"


def read(text):
    return lists.read(text.encode())


class Reading(Case):
    def test_defaults(self):
        """No deadline means the period, no phase means 0; columns at the end may be left out."""
        wanted = (bus.Task("a", 2, 20, 20, 0), bus.Task("b", 3, 20, 15, 5), bus.Task("c", 1, 40, 40, 0))
        self.assertEqual(read(HEADER + "a,2,20,,\nb,3,20,15,5\nc,1,40\n").tasks, wanted)

    def test_pairs_and_silence(self):
        got = read(HEADER + "a,2,20,,\nb,3,20,,\nbefore,a,b\nbefore,a,b\nsilent,3\n")
        self.assertEqual((got.pairs, got.silent, got.lines), (((0, 1), (0, 1)), 3, (2, 3)))
        self.assertEqual(read(HEADER + "a,2,20,,\nsilent,0\n").silent, 0)

    def test_as_a_workbook_exports_it(self):
        """Semicolons, a byte order mark, line ends of Windows, empty cells and lines, capitals, blanks."""
        wanted = read(HEADER + "a,2,20,,\nb,3,20,,\nbefore,a,b\nsilent,3\n")
        text = "Name;Length;Period;Deadline;Phase\r\n a ; 2 ;20;;\r\n;;;;\r\nb;3;20;;\r\n\r\n"
        text += "Before;a;b;;\r\nSilent;3;;;\r\n"
        for data in (text.encode(), text.encode("utf-8-sig"), text.replace(";", ",").encode("utf-8-sig")):
            self.assertEqual(lists.read(data), wanted)
        self.assertEqual(read(text.replace("\r\n", "\r")), wanted)

    def test_names(self):
        """Quotes, commas, umlauts, other scripts; a semicolon in a name does not make it the separator."""
        names = ['a "b" c', "x, y", "Sonnenfühler Süd", "太陽", "p;q", "it's", "<&>", "a/*b*/"]
        wanted = bus.Request(tuple(bus.Task(name, 1, 20, 20) for name in names), ((0, 1), (6, 7)))
        text = lists.write(wanted)
        self.assertEqual(read(text), wanted)
        other = text.replace("x, y", "x; y").replace("p;q", "p q").replace(",", ";")
        self.assertEqual(len(read(other).tasks), len(names))

    def test_round_trip(self):
        """Seeded requests: as a list and read again, the same records and the same bytes."""
        for round_ in range(300):
            drawn = seeded_request(self.draw, silent=round_ % 2)
            text = lists.write(drawn).encode()
            self.assertTrue(lists.is_list(text))
            self.assertEqual((lists.read(text), bytes(lists.read(text))), (drawn, bytes(drawn)))

    def test_no_request_is_taken_for_a_list(self):
        for round_ in range(300):
            self.assertFalse(lists.is_list(bytes(seeded_request(self.draw, silent=round_ % 2))))
        for path in EXAMPLES.glob("*.req"):
            self.assertFalse(lists.is_list(path.read_bytes()), path)

    def test_a_request_of_printable_bytes(self):
        """Its bytes are all such as a text has, and still it is a request: the library reads it."""
        tasks = [(0x2020, 0x2121, 0x2121, 0x2020)] * 13
        data = b"\r" + b"".join(b"  !!!!  " for _ in tasks) + b"\t" + b"\t\n" * 9
        self.assertFalse(any(byte < 32 and byte not in b"\t\r\n" for byte in data))
        self.assertEqual(library.unreadable(data), 0)
        self.assertFalse(lists.is_list(data))
        self.assertEqual(bus.read_request(data), request(*tasks, pairs=[(9, 10)] * 9))


class Faults(Case):
    def faults(self, text, *words):
        """The list has just these faults."""
        with self.assertRaises(bus.ListFaults) as caught:
            lists.read(text if isinstance(text, bytes) else text.encode())
        self.assertEqual([str(fault) for fault in caught.exception.faults], list(words))

    def line(self, text, *words):
        """A list whose third line is the text has just these faults, all in line 3."""
        self.faults(f"{HEADER}first,2,20,,\n{text}\n", *(f"line 3: {word}" for word in words))

    def test_numbers(self):
        self.line("a,2,20,30,", "deadline 30 is longer than the period 20")
        self.line("a,25,20,,", "length 25 is longer than the period 20")
        self.line("a,15,20,10,", "length 15 is longer than the deadline 10")
        self.line("a,0,20,,", "length 0 is not at least 1")
        self.line("a,2,0,,", "period 0 is not at least 1")
        self.line("a,2,20,,20", "phase 20 is not below the period 20")
        self.line("a,,20,,", "length is missing")
        self.line("a", "length is missing", "period is missing")
        self.line("a,two,20,,", "length 'two' is not a whole number")
        self.line("a,2,-20,,", "period '-20' is not a whole number")
        self.line("a,2,65536,,", "period 65536 is above 65535")
        self.line("a,2,20,,²", "phase '²' is not a whole number")
        self.line(f"a,2,{'9' * 5000},,", f"period {'9' * 40} is above 65535")
        self.line(f"a,{'0' * 5000}2,20,30,", "deadline 30 is longer than the period 20")

    def test_several_in_a_line(self):
        self.line(
            "a,x,20,30,20",
            "length 'x' is not a whole number",
            "deadline 30 is longer than the period 20",
            "phase 20 is not below the period 20",
        )

    def test_names(self):
        self.line(",2,20,,", "name is missing")
        self.line("first,2,20,,", "name 'first' stands in line 2 already")
        wide = "6 cells, and the header has 5 columns: what has a separator in it stands in quotes"
        self.line("a,2,20,,,7", wide)
        self.line('a"b,2,20,,"', "the quotes are not in pairs")
        self.line('"a,2,20,,', "the quotes are not in pairs")

    def test_pairs(self):
        self.line("before,first,b", "no transfer is named 'b'")
        self.line("before,b,c", "no transfer is named 'b'", "no transfer is named 'c'")
        self.line("before,first", "before has 1 name; it needs two, the earlier one first")
        self.line("before,first,b,c", "before has 3 names; it needs two, the earlier one first")
        self.line("before,first,first", "first cannot come before itself")
        tasks = f"{HEADER}a,2,20,,\nb,2,20,,\nc,2,40,,\n"
        circle = "line 6: the pairs go round in a circle: a before b before a"
        self.faults(tasks + "before,b,a\nbefore,a,b", circle)
        self.faults(tasks + "before,a,c", "line 5: a has the period 20 and c 40: a pair needs equal periods")

    def test_silence(self):
        self.line("silent,16", "silent 16 is above 15")
        self.line("silent,x", "silent 'x' is not a whole number")
        self.line("silent", "silent has 0 numbers; it needs one")
        self.line("silent,1,2", "silent has 2 numbers; it needs one")
        self.faults(f"{HEADER}a,2,20,,\nsilent,1\nsilent,1\n", "line 4: silent stands in line 3 already")

    def test_counts(self):
        tasks = "".join(f"t{i},1,20,,\n" for i in range(18))
        self.faults(HEADER + tasks, "line 18: transfer 17 of 18; at most 16 fit")
        self.faults(f"{HEADER}a,1,20,,\nb,1,20,,\n" + "before,a,b\n" * 17, "line 20: pair 17 of 17; at most 16 fit")
        none = "the list has no transfer: below the header name,length,period,deadline,phase comes a line for each"
        for text in (HEADER, HEADER + "\n;;\n", HEADER + "# gyro,2,20\n", HEADER + "before,a,b\n"):
            self.faults(text, none)
        for text in ("", "\n\n", "# gyro,2,20\n", ",,,\n"):
            self.faults(text, "the list is empty: it begins with a line name,length,period,deadline,phase")

    def test_header(self):
        """A header that is not understood is the one fault, whatever stands below it."""
        below = "a,2,20,30,\nbefore,a,b\nb,x,,\n"
        must = f"the columns are {HEADER.strip()}"
        self.faults(below, f"line 1: the list begins without its header: put a line above; {must}")
        near = f"line 1: the header has no column length ('lenght' is near to it); {must}"
        self.faults(f"name,lenght,period,deadline,phase\n{below}", near)
        two = f"line 2: the header has no column length and no column period; {must}"
        self.faults(f"Bus\nname,deadline,phase\n{below}", two)
        self.faults(f"Bus,list\n{below}", f"line 1: no line is the header: the first one is 'Bus,list'; {must}")
        twice = "line 1: two columns are the length, 'Length' and 'length (ticks)': take one out"
        self.faults(f"Length,name,length (ticks),period\n{below}", twice)
        units = "line 1: the columns have different units, length in ms and period in s: give all in the same"
        self.faults(f"name,length (ms),period (s)\n{below}", units)

    def test_above_the_header(self):
        """A title is passed over; a transfer is not."""
        self.faults(f"a,2,20\n{HEADER}b,2,20\n", "line 1: a transfer stands above the header in line 2: move it below")

    def test_other_separators(self):
        self.line("a;2;20;;", "the cells stand between semicolons here, and between commas in line 1")
        self.line("before\tfirst\ta", "the cells stand between tabs here, and between commas in line 1")

    def test_cells(self):
        """What people and workbooks write in place of a whole number, each with words that say what is wrong."""
        for text, words in {
            '"1,000"': "'1,000' can be read as 1 and as 1000: write it without the mark",
            "1.000": "'1.000' can be read as 1 and as 1000: write it without the mark",
            '"1,234"': "'1,234' has a mark or a blank between its digits: write it without",
            "1 000": "'1 000' has a mark or a blank between its digits: write it without",
            "1'000": '"1\'000" has a mark or a blank between its digits: write it without',
            "20 ms": "'20 ms' has a unit: write the number of ticks alone",
            "20ticks": "'20ticks' has a unit: write the number of ticks alone",
            "2.5": "'2.5' is not a whole number: a tick cannot be cut",
            '"0,5"': "'0,5' is not a whole number: a tick cannot be cut",
            "#REF!": "'#REF!' is an error of the workbook: mend the formula",
            '"2\n0"': "'2\\n0' has a line break in it: write it in one line",
            "+2": "'+2' is not a whole number",
            "1e3": "'1e3' is not a whole number",
        }.items():
            self.line(f"a,{text},2000,,", f"length {words}")
        for text in ("-", "n/a", "N/A", "–", "", "   "):
            self.line(f"a,2,{text},,", "period is missing")

    def test_line_breaks(self):
        """In a name it is refused by the line in which the name begins, and nothing else is."""
        broken = "name 'a\\nb' has a line break in it: write it in one line"
        self.faults(f'{HEADER}"a\nb",2,20,,\nc,0,20,,\n', f"line 2: {broken}", "line 4: length 0 is not at least 1")
        self.line('before,first,"a\nb"', "a name has a line break in it: write it in one line")

    def test_errors_of_a_workbook_are_no_comments(self):
        self.line("#REF!,2,20,,", "name '#REF!' is an error of the workbook: mend the formula")

    def test_control_characters(self):
        """Each with its line; a text in which they are few is still a text."""
        text = f"{HEADER}gyro,2,20,,\nsu\x07n,2,20,,\n\x1bx,2,20,,\n"
        self.assertTrue(lists.is_list(text.encode()))
        self.faults(
            text,
            "line 3: a control character (07 hexadecimal) behind 'su': take it out",
            "line 4: a control character (1B hexadecimal): take it out",
        )
        one = "line 3: a control character (07 hexadecimal) behind 'su': take it out"
        self.faults(text.replace("\x1b", "").encode("utf-16"), one)

    def test_other_encodings(self):
        wrong = f"{HEADER}S".encode() + b"\x81" + b"d,2,20,,\n"
        save = "save the list as CSV UTF-8"
        self.faults(wrong, f"line 2: the byte 81 (hexadecimal) is neither UTF-8 nor Windows-1252: {save}")
        self.faults(HEADER.encode("utf-32"), f"line 1: the text is UTF-32: {save}")
        cut = f"{HEADER}a,2,20,,\n".encode("utf-16")[:-1]
        self.assertTrue(lists.is_list(cut))
        self.faults(cut, f"line 2: the text is UTF-16 and was cut or damaged: {save}")

    def test_all_of_them(self):
        """Faults of all kinds in one list, in the order of its lines."""
        text = f"{HEADER}a,2,20,30,\nb,1,20,,20\na,1,20,,\nbefore,b,x\nsilent,99\n"
        self.faults(
            text,
            "line 2: deadline 30 is longer than the period 20",
            "line 3: phase 20 is not below the period 20",
            "line 4: name 'a' stands in line 2 already",
            "line 5: no transfer is named 'x'",
            "line 6: silent 99 is above 15",
        )


class Exported(Case):
    """Lists as workbooks export them."""

    def test_seeded_forms(self):
        """One request in many forms, each read as just that request."""
        notes = set()
        for round_ in range(600):
            wanted = named(self.draw, seeded_request(self.draw, silent=round_ % 2))
            data = exported(self.draw, wanted)
            self.assertTrue(lists.is_list(data), data)
            got = lists.read(data)
            self.assertEqual((got, bytes(got)), (wanted, bytes(wanted)), data)
            notes.update(note.split(":")[0].split(";")[0] for note in got.notes)
        self.assertEqual(notes, {"columns not read", "read as Windows-1252, since it is not UTF-8"})

    def test_columns(self):
        """In another order, with other columns among them, which are named; without those that may be missing."""
        got = read("Board;Period (ticks);NAME;\"Length\n[ticks]\";Notes\nA;20;gyro;2;x\nB;40;sun;3;\"two\nlines\"\n")
        self.assertEqual(got.tasks, (bus.Task("gyro", 2, 20, 20), bus.Task("sun", 3, 40, 40)))
        self.assertEqual((got.notes, got.lines), (("columns not read: Board, Notes",), (3, 4)))

    def test_other_names(self):
        got = read("Task,C,T,D,P\ngyro,2,20,15,5\n")
        self.assertEqual(got.tasks, (bus.Task("gyro", 2, 20, 15, 5),))
        said = "'Task' as name, 'C' as length, 'T' as period, 'D' as deadline, 'P' as phase"
        self.assertEqual(got.notes, (f"columns read by another name: {said}",))
        self.assertEqual(read("Task,Name,Duration,Period,Offset\n1,gyro,2,20,5\n").tasks[0].name, "gyro")
        for column, others in header.OTHER_NAMES.items():
            for other in others:
                line = ",".join(header.HEADER).replace(column, other)
                self.assertEqual(len(read(f"{line}\ngyro,2,20,,\n").tasks), 1, line)

    def test_units(self):
        got = read("name,length (ms),period (ms)\ngyro,2,20\n")
        self.assertEqual((got.tasks[0].period, got.notes), (20, ("1 tick is 1 ms, as the header has it",)))

    def test_words_stand_first_or_with_the_names(self):
        """`before` and `silent` in a list whose names are not in its first column."""
        for line in ("before,a,b", "x,before,a,b", ",before,a,b", "x,before,a,b,,note"):
            got = read(f"no,name,length,period,phase,remark\n1,a,2,20\n2,b,2,20\n{line}\nsilent,3\n")
            self.assertEqual((got.pairs, got.silent), (((0, 1),), 3), line)

    def test_numbers(self):
        for text, number in {"2": 2, "2.0": 2, "2,0": 2, "2.00": 2, "0002": 2, "20,0": 20, "65535.0000": 65535}.items():
            self.assertEqual(cells.whole(text), number)

    def test_comments_and_names_that_begin_as_they_do(self):
        text = f'# a list\n{HEADER}  # more\na,2,20,,\n#b,2,20,,\n"# c, d",,,,\n"#1",2,20,,\n'
        self.assertEqual([task.name for task in read(text).tasks], ["a", "#1"])
        hashes = bus.Request(tuple(bus.Task(name, 1, 20, 20) for name in ("#", "#1", "#,", '#"')))
        self.assertEqual(read(lists.write(hashes)), hashes)

    def test_a_column_called_by_a_comment_sign(self):
        got = read("#,Name,Length,Period\n1,a,2,20\n#,b,2,20\n3,c,2,20\n")
        self.assertEqual([task.name for task in got.tasks], ["a", "c"])

    def test_windows_1252_is_said(self):
        got = lists.read(f"{HEADER}Süd,2,20,,\n".encode("cp1252"))
        self.assertEqual(got.tasks[0].name, "Süd")
        self.assertEqual(got.notes, ("read as Windows-1252, since it is not UTF-8; look whether this is right: Süd",))

    def test_utf_16_without_a_mark(self):
        for name in ("utf-16-le", "utf-16-be"):
            data = f"{HEADER}太陽,2,20,,\n".encode(name)
            self.assertTrue(lists.is_list(data))
            self.assertEqual(lists.read(data).tasks[0].name, "太陽")


class Order(Case):
    """Transfers that are put in the order that their pairs need."""

    def test_moved_up(self):
        """A transfer moves up to right above the first that needs it; all else stays, and it is told."""
        got = read(f"{HEADER}a,2,20,,\nb,2,20,,\nc,2,20,,\nd,2,20,,\nbefore,d,b\nbefore,a,c\n")
        self.assertEqual([task.name for task in got.tasks], ["a", "d", "b", "c"])
        self.assertEqual((got.pairs, got.lines), (((1, 2), (0, 3)), (2, 5, 3, 4)))
        self.assertEqual(got.notes, ("put in order for the before lines: d moved up",))

    def test_no_word_where_nothing_moves(self):
        self.assertEqual(read(f"{HEADER}a,2,20,,\nb,2,20,,\nbefore,a,b\n").notes, ())

    def test_seeded(self):
        """Lists whose transfers stand in any order: the same transfers and pairs, and the library can read them."""
        moved = 0
        for _ in range(300):
            wanted = seeded_request(self.draw)
            names = [task.name for task in wanted.tasks]
            text = lists.write(wanted).splitlines()
            rows, pairs = text[1 : len(names) + 1], text[len(names) + 1 :]
            self.draw.shuffle(rows)
            got = read("\n".join([text[0], *pairs, *rows]))
            self.assertEqual(library.unreadable(bytes(got)), 0)
            self.assertEqual({task.name: task for task in got.tasks}, {task.name: task for task in wanted.tasks})
            by_name = [(got.tasks[a].name, got.tasks[b].name) for a, b in got.pairs]
            self.assertEqual(by_name, [(names[a], names[b]) for a, b in wanted.pairs])
            moved += bool(got.notes)
        self.assertGreater(moved, 100)

    def test_circles(self):
        """Pairs that go round are named, with the last line of those that do."""
        text = f"{HEADER}a,2,20,,\nb,2,20,,\nc,2,20,,\nd,2,20,,\n"
        with self.assertRaises(bus.ListFaults) as caught:
            read(f"{text}before,d,a\nbefore,c,b\nbefore,a,c\nbefore,b,a\n")
        self.assertEqual(
            [str(fault) for fault in caught.exception.faults],
            ["line 9: the pairs go round in a circle: a before c before b before a"],
        )


class Refusals(Case):
    """What a refusal of the library says about the list, by names and lines."""

    def about(self, number, lines):
        refused = self.refused(number, bus.plan, (HEADER + lines).encode())
        return refused.about

    def test_cycle(self):
        about = self.about(7, "a,1,101,,\nb,1,103,,\n")
        periods = "the periods are 101 (a (line 2)), 103 (b (line 3))"
        self.assertEqual(about, f"{periods}; their least common multiple is 10403")
        about = self.about(8, "a,1,1,,\nb,1,128,,\n")
        self.assertEqual(about, "a cycle of 128 ticks has 129 jobs; the most: a (line 2) 128, b (line 3) 1")

    def test_no_plan(self):
        about = self.about(9, "a,2,6,,\nb,2,8,,\nc,8,24,,\n")
        longest = "the longest transfer is c (line 4) with 8 ticks"
        self.assertEqual(about, f"{longest}, the shortest deadline that of a (line 2) with 6")
        self.assertEqual(self.about(10, "a,5,20,,\nb,10,20,,\nc,10,40,,\n"), "the transfers ask for 100 % of the time")
        self.assertIn("more than there is", self.about(10, "a,15,20,,\nb,10,20,,\n"))

    def test_table(self):
        """Each way in which a table is no plan is named."""
        wanted = request((2, 6, 6, 0), (2, 8, 8, 0), (4, 24, 24, 0), (4, 24, 24, 0), pairs=[(2, 3)])
        good = bus.plan(wanted)

        def about(rows):
            table = bus.Table(good.frame, good.cycle, tuple(rows))
            return self.refused(14, bus.check, wanted, table).about

        rows = list(good.rows)
        self.assertEqual(about([rows[0][1:], *rows[1:]]), "job 0 of task0 is missing")
        unknown = [*rows[:3], rows[3] + (bus.Entry(4, 0),), *rows[4:]]
        self.assertEqual(about(unknown), "row 3 names job 0 of task 4, which the request does not have")
        carried = [*rows[:3], (bus.Entry(0, 2, True),), *rows[4:]]
        self.assertEqual(about(carried), "job 2 of task0 stands in row 3, until tick 40, after its due time 18")
        early = [*rows[:4], (bus.Entry(0, 3), bus.Entry(3, 0)), (bus.Entry(1, 2),)]
        self.assertIn("job 3 of task0 stands in row 4, from tick 16, before its release at 18", about(early))
        self.assertIn("row 0 needs 8 ticks, and a frame has 4", about([rows[0] + (bus.Entry(2, 0),), (), *rows[2:]]))
        swapped = [rows[0], (bus.Entry(3, 0),), *rows[2:4], (bus.Entry(2, 0),), rows[5]]
        self.assertEqual(about(swapped), "job 0 of task2 runs after job 0 of task3")
        twice = [*rows[:3], rows[3] + (bus.Entry(2, 0),), *rows[4:]]
        self.assertIn("job 0 of task2 stands twice", about(twice))
        self.assertIn("and 6 more", about([()] * 6))

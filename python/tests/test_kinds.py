"""The wrong file is named as what it is."""

import bus
from bus import lists
from tests.helper import EXAMPLES, Case, example, stored, unhex

TEAM = EXAMPLES / "team.csv"
FIRST = "name the list first and the table behind it"
SAVE = "save it as CSV UTF-8, and name that file"
UNPACK = "unpack it, and name the list that is in it"

# Files as they begin, each with what it is called and what to do.
FOREIGN = {
    "a.xlsx": (b"PK\x03\x04\x14\x00\x06\x00\x08\x00[Content_Types].xml" + bytes(99), f"a workbook: {SAVE}"),
    "a.xlsm": (b"PK\x03\x04\x14\x00\x00\x00\x08\x00" + bytes(40) + b"xl/workbook.xml", f"a workbook: {SAVE}"),
    "a.ods": (b"PK\x03\x04\x14\x00mimetypeapplication/vnd.oasis.opendocument.spreadsheet", f"a workbook: {SAVE}"),
    "a.xls": (b"\xd0\xcf\x11\xe0\xa1\xb1\x1a\xe1" + bytes(600), f"a workbook: {SAVE}"),
    "a.zip": (b"PK\x03\x04\x14\x00\x00\x08\x00\x00team.csv", f"a packed file: {UNPACK}"),
    "a.gz": (b"\x1f\x8b\x08\x00\x00\x00\x00\x00\x00\x03", f"a packed file: {UNPACK}"),
    "a.pdf": (b"%PDF-1.7\n%\xe2\xe3\xcf\xd3\n", "a PDF file: write the list as CSV, and name that file"),
    "a.png": (b"\x89PNG\r\n\x1a\n" + bytes(30), "a picture: name the list"),
    "a.svg": (b'<svg xmlns="http://www.w3.org/2000/svg"/>\n', "a picture: name the list"),
    "a.htm": (b"\xef\xbb\xbf\n<HTML><table><tr><td>name</td></tr></table>", "a web page or XML: open it in a workbook"),
    "a.xml": (b'<?xml version="1.0"?>\n<Workbook/>\n', "a web page or XML: open it in a workbook"),
}


class WrongFiles(Case):
    def test_in_place_of_a_list(self):
        """One line names the file and says what to do; it is refused."""
        for name, (data, words) in FOREIGN.items():
            path = self.file(name, data)
            err = self.failed(1, "plan", path, says=[f"bus: {path}: refused: this is {words}"])
            self.assertEqual(err.count("\n"), 1)
            with self.assertRaises(bus.ListFaults):
                bus.read_request(path)

    def test_a_table_in_place_of_a_list(self):
        table = self.file("team.table", bytes(bus.plan(TEAM)))
        words = f"bus: {table}: refused: this is a table, and a list is wanted here: {FIRST}\n"
        for command in (["plan", table], ["check", table, TEAM], ["fly", table], ["list", table]):
            self.assertEqual(self.failed(1, *command), words)
        said = f"bus: standard input: refused: this is a table, and a list is wanted here: {FIRST}\n"
        self.assertEqual(self.failed(1, "plan", "-", stdin=bytes(bus.plan(TEAM))), said)

    def test_in_place_of_a_table(self):
        """The number is the library's; below it stands what the file is."""
        cases = {
            TEAM: f"this is a text, such as a list, and a table is wanted here: {FIRST}\n",
            EXAMPLES / "p1.req": f"this is a request, and a table is wanted here: {FIRST}\n",
            self.file("a.xlsx", FOREIGN["a.xlsx"][0]): "this is a workbook: a table is what `bus plan LIST -o ",
            self.file("empty", b""): "the file is empty\n",
            self.file("cut", bytes(bus.plan(TEAM))[:9]): "the file has 9 bytes\n",
            self.file("one", b"\x02"): "the file has 1 byte\n",
        }
        for path, words in cases.items():
            says = [f"bus: {path}: refused 12: bytes that are not a table\n     {words}", "what to do: "]
            self.failed(1, "check", TEAM, path, says=says)

    def test_what_the_library_reads_is_never_another_file(self):
        """Every stored request that the library can read is a request, and every stored table a table."""
        requests = tables = 0
        for words, lines in stored("plain.txt") + stored("silent.txt"):
            data = unhex(words[1])
            if not bus.library.unreadable(data):
                self.assertFalse(lists.is_list(data))
                self.assertEqual(bytes(bus.sources.given(data).data), data)
                requests += 1
            for line in lines:
                if line[0] == "check" and not bus.library.no_table(unhex(line[1])):
                    self.assertTrue(lists.kinds.is_table(unhex(line[1])))
                    tables += 1
        self.assertGreater(min(requests, tables), 100)

    def test_damaged_requests_keep_their_number(self):
        p1 = example("p1.req")
        for data, number in ((p1[:5], 1), (b"\x11" + p1[1:], 2), (b"\x00", 2), (p1 + b"\x00\x00", 6)):
            self.refused(number, bus.read_request, data)

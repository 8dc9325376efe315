"""Silent ticks after every transfer: needs a library that reads a request's third section."""

import bus
from bus import library, lists, sources
from tests import test_picture, test_stored_answers
from tests.helper import EXAMPLES, Case, example, request, seeded_request, stored, unhex

HARNESS = EXAMPLES / "harness.csv"


class StoredSilent(test_stored_answers.Stored):
    """The stored answers about requests with a third section."""

    source = "silent.txt"


class Silent(Case):
    def test_read_and_written(self):
        """A g of 0 is written by leaving the section out, and read from each of its three forms."""
        for _ in range(100):
            drawn = seeded_request(self.draw, silent=True)
            self.assertEqual(sources.request_in(bytes(drawn)), drawn)
        p1 = example("p1.req")
        for section in (b"", b"\x00", b"\x01\x00"):
            read = sources.request_in(p1 + section)
            self.assertEqual((read.silent, bytes(read)), (0, p1))

    def test_limits_are_the_library_s(self):
        """Every third section of up to two bytes, and some longer: read or refused as the words say."""
        p1 = example("p1.req")
        for g in range(256):
            self.assertEqual(library.unreadable(p1 + bytes([1, g])), 0 if g <= 15 else 17)
            wanted = {0: 0, 1: 1}.get(g, 17)
            self.assertEqual(library.unreadable(p1 + bytes([g])), wanted)
        self.assertEqual(self.refused(17, sources.request_in, p1 + b"\x02").about, "the count is 2")
        self.assertEqual(self.refused(17, sources.request_in, p1 + b"\x01\x10").about, "it asks for 16 silent ticks")
        cut = self.refused(1, sources.request_in, p1 + b"\x01").about
        self.assertEqual(cut, "the file has 27 bytes: it ends inside the third section")
        self.assertEqual(self.refused(6, sources.request_in, p1 + b"\x01\x03\x00").about, "1 byte too many")

    def test_examples(self):
        """The listings of the examples with a third section."""
        for path in sorted(EXAMPLES.glob("*-g*.req")):
            printed = path.with_suffix(".txt").read_text(encoding="ascii")
            if printed.startswith("refused"):
                self.failed(1, "plan", path, says=[f"{path}: {printed.strip()}: "])
            else:
                self.assertEqual(self.answered("plan", path, "--plain").replace(" task", " "), printed)

    def test_list(self):
        """A list with silent ticks: planned, written as a request file and back."""
        out = self.answered("plan", HARNESS)
        self.assertIn("\nframe 20, cycle 80, 4 rows, ", out)
        target = self.folder / "h.req"
        self.answered("list", HARNESS, "-o", target)
        self.assertEqual(target.read_bytes()[-2:], b"\x01\x01")
        text = self.answered("list", target)
        self.assertEqual(text.splitlines()[-1], "silent,1")
        self.assertEqual(bytes(lists.read(text.encode())), target.read_bytes())
        self.assertEqual(self.answered("plan", target).count("\n"), out.count("\n"))

    def test_words(self):
        """Silent ticks are named where they make a list too tight."""
        wanted = request((2, 6, 6, 0), (2, 8, 8, 0), (4, 24, 24, 0), (4, 24, 24, 0), silent=1)
        self.assertIn("with 4 ticks and 1 silent one", self.refused(9, bus.plan, wanted).about)
        tight = request((5, 20, 20, 0), (5, 20, 20, 0), (10, 40, 40, 0), silent=1)
        self.assertIn("the transfers ask for 88 % of the time", self.refused(10, bus.plan, tight).about)
        full = bus.plan(EXAMPLES / "p1.req")
        self.assertIn("row 0 needs 23 ticks, and a frame has 20", self.refused(14, bus.check, tight, full).about)


class SilentPictures(test_picture.Judge):
    def test_pictures(self):
        self.drawn(bus.read_request(HARNESS), bus.plan(HARNESS))
        drawn = 0
        for words, lines in stored("silent.txt"):
            for line in lines:
                if line[0] == "check" and line[2] == "0":
                    wanted = bus.read_request(unhex(words[1]))
                    self.drawn(wanted, bus.check(unhex(words[1]), unhex(line[1])))
                    drawn += 1
        self.assertGreater(drawn, 20)

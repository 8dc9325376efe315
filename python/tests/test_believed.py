"""The maps of the crates beside what `claims` rests on, and the table of theorems beside what `claims` names: neither may drift from the other."""

import re
import shutil
import tempfile
import unittest
from pathlib import Path

from tests.believed import STATEMENT, Repository, line

ROOT = Path(__file__).resolve().parents[2]
REPOSITORY = Repository(ROOT)


def functions(crate):
    """The functions of a crate's src/ by file and name: what stands before the name, the parameters, the result with the clauses, and the body."""
    found, form = {}, re.compile(r"((?:#\[[^\n]*\]\n)*(?:pub )?(?:extern \"C\" )?fn) (\w+)\(([^)]*)\)(.*?)\n\{\n(.*)", re.DOTALL)
    for path in (ROOT / "crates" / crate / "src").glob("*.rt"):
        for one in filter(None, map(form.search, path.read_text(encoding="utf-8").split("\n}\n"))):
            head, name, parameters, clauses, body = one.groups()
            found[f"{path.stem}.{name}"] = head, re.findall(r"\w+: [^,\n]+", parameters), clauses.split(), body.strip()
    return found


class Maps(unittest.TestCase):
    maxDiff = None

    def test_headings(self):
        self.assertEqual(list(REPOSITORY.faults()), [])


class Changed(unittest.TestCase):
    """A copy of the specs, changed: what is wrong in it is found."""

    def setUp(self):
        self.folder = tempfile.TemporaryDirectory()
        self.root = Path(self.folder.name)
        shutil.copytree(ROOT / "crates", self.root / "crates", ignore=shutil.ignore_patterns("out", "proofs", "must-fail"))
        self.addCleanup(self.folder.cleanup)

    def change(self, place, *pairs):
        path = self.root / "crates" / place
        text = path.read_text(encoding="utf-8")
        for old, new in pairs:
            self.assertEqual(text.count(old), 1, f"{place}: {old}")
            text = text.replace(old, new)
        path.write_text(text, encoding="utf-8")

    def found(self):
        return list(Repository(self.root).faults())

    def test_same(self):
        self.assertEqual(self.found(), [])

    def test_definition_moved(self):
        """A definition moves from a module that is to be believed to one with laws."""
        text = (self.root / "crates/dispatcher/specs/Dispatch.antt").read_text(encoding="utf-8")
        moved = re.search(r"abbrev pub fresh_state : .*\nfresh_state = .*\n", text).group(0)
        first = text.splitlines()[0]
        self.change("dispatcher/specs/Dispatch.antt", (moved, ""), (first, first + "\npub use Rattle.dispatcher.specs.StepLaws.{fresh_state}"))
        path = self.root / "crates/dispatcher/specs/StepLaws.antt"
        path.write_text(path.read_text(encoding="utf-8") + "\n" + moved, encoding="utf-8")
        self.assertIn("dispatcher: StepLaws stands under 'Laws', and claims rests on it: fresh_state", "\n".join(self.found()))

    def test_module_moved_out(self):
        self.change("flight/specs/Lib.antt", ("pub mod Timing\n", ""), ("-- Laws:\n", "-- Laws:\npub mod Timing\n"))
        faults = self.found()
        self.assertEqual(len(faults), 1)
        self.assertRegex(faults[0], "^flight: Timing stands under 'Laws', and claims rests on it: ")

    def test_module_moved_in(self):
        self.change("flight/specs/Lib.antt", ("pub mod Serving\n", ""), ("-- To be believed:\n", "-- To be believed:\npub mod Serving\n"))
        self.assertEqual(self.found(), ["flight: Serving stands under 'To be believed', and claims rests on none of its definitions"])

    def test_theorem_moved(self):
        self.change("flight/specs/Lib.antt", ("pub mod Theorem\n", ""), ("-- Laws:\n", "-- Laws:\npub mod Theorem\n"))
        self.assertEqual(self.found(), ["flight: Theorem stands under 'Laws'"])

    def test_lemma_among_definitions(self):
        path = self.root / "crates/arith/specs/Gcd.antt"
        path.write_text(path.read_text(encoding="utf-8") + "\npub gcd_self : (a : ℕ) → gcd_of a a ≡ a\ngcd_self a = cc\n", encoding="utf-8")
        self.assertEqual(self.found(), ["arith: Gcd stands under 'To be believed' and has the lemma gcd_self"])

    def test_type_that_no_contract_names(self):
        self.change("flight/specs/Lib.antt", ("pub mod Serving\n", ""), ("-- Laws:\n", "-- How answers stand in types:\npub mod Serving\n-- Laws:\n"))
        self.assertEqual(self.found(), ["flight: Serving stands under 'How answers stand in types', and no contract names it"])


class Claims(unittest.TestCase):
    def rows(self):
        """The promises of each row of the table of theorems, and the lemmas that it names, but for what stands behind 'from'."""
        text = (ROOT / "docs" / "ARCHITECTURE.md").read_text(encoding="utf-8").split("| promise |")[1].split("\n\n")[0]
        for line in text.splitlines()[2:]:
            _, _, promises, where = line.strip("| ").split(" | ")
            lemmas, crate, file = [], None, None
            for part in re.sub(r"\bfrom\b(?! C)[^;|]*", "", where).split("`"):
                place = re.fullmatch(r"(?:(\w+)/specs/)?(\w+)\.antt", part)
                if place:
                    crate = place.group(1) or crate
                    file = REPOSITORY.module(crate, [place.group(2)])
                    self.assertIsNotNone(file, f"{crate}: {part}")
                elif file:
                    named = (file.names.get(word) for word in re.findall(r"[\w-]+", part))
                    lemmas += [one for one in named if one and not one.definition]
            yield re.findall(r"`(\S+?)`", promises), lemmas

    def test_names_every_theorem_of_the_table(self):
        ours, named = REPOSITORY.cited(), {one for _, lemmas in self.rows() for one in lemmas}
        self.assertEqual([f"{one.file.place} {one.name}" for one in named - ours], [])
        self.assertEqual([f"{one.file.place} {one.name}" for one in ours - named], [])

    def test_every_promise_has_a_row(self):
        self.assertEqual({name for promises, _ in self.rows() for name in promises}, REPOSITORY.promises() - {"demand_2", "demand_3", "requests", "after"})

    def test_names_every_call_from_c(self):
        """Each export of `bus_c` hands on to the call of `bus` with its name and its file, says the same of it, and `claims` names that call."""
        exported, calls = functions("bus_c"), functions("bus")
        self.assertGreater(len(exported), 20)
        for place, (head, parameters, clauses, body) in exported.items():
            self.assertEqual(head, '#[unsafe(no_mangle)]\npub extern "C" fn', place)
            self.assertEqual(("pub fn", parameters, clauses), calls[place][:3], place)
            names = ", ".join(one.split(":")[0] for one in parameters)
            self.assertEqual(body, f"bus::{place.replace('.', '::')}({names})", place)
        self.assertEqual(set(exported) - set(re.findall(r"Rattle\.bus\.proofs\.(\w+\.bus_\w+)\.Met", REPOSITORY.contracts.text)), set())

    def test_calls_ask_nothing(self):
        """No contract of a call has a `requires`; the test of a job in a frame is no call of a user."""
        asking = [m.group(1) for m in STATEMENT.finditer(REPOSITORY.contracts.text) if "requires" in REPOSITORY.find(REPOSITORY.contracts, m.group(0)).text]
        self.assertEqual(asking, ["searcher.proofs.may_stand"])


class Counts(unittest.TestCase):
    def test_figures(self):
        """The figures of docs/ARCHITECTURE.md are those that are counted."""
        told = (ROOT / "docs" / "ARCHITECTURE.md").read_text(encoding="utf-8").split("| to be believed: definitions |")[1].splitlines()[2:]
        self.assertEqual([row for row in told if row], [line(row) for row in REPOSITORY.counts()])

    def test_what_is_determined(self):
        """Each is determined by promises of `claims`, and they rest on it."""
        reached, promises = REPOSITORY.rests_on(), REPOSITORY.promises()
        for one, by in REPOSITORY.pins().items():
            self.assertIn(one, reached)
            self.assertTrue(by and set(by) <= promises, one.name)


if __name__ == "__main__":
    unittest.main()

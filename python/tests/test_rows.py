"""The command's tables and its registry beside what they must agree with: the header, the papers and the library."""

import argparse
import ctypes
import io
import os
import pkgutil
import re
import shlex
import sys
from unittest import mock

import bus
from bus import command, commands, library, lists, refusals, sources
from tests.helper import EXAMPLES, ROOT, Case, example, pigeons, request

HEADER = (ROOT / "include" / "bus.h").read_text(encoding="utf-8")
TASK = (1, 20, 20, 0)


def prototypes():
    """The calls that the header declares: for each name its result and its arguments, as they stand there."""
    found = re.findall(r"^(\w+) (bus_\w+)\(([^)]*)\);", HEADER, re.MULTILINE)
    return {name: (result, " ".join(arguments.split())) for result, name, arguments in found}


def in_c(argument):
    """An argument of a row as C declares it."""
    if argument.types == library.POINTER_AND_LENGTH:
        return f"{'' if argument.size else 'const '}uint8_t *{argument.name}, size_t {argument.name}_len"
    return f"uint{8 * ctypes.sizeof(*argument.types)}_t {argument.name}"


def moved(source, table, job, frame):
    """The table with a job moved."""
    draft = bus.Draft(source, table)
    draft.lift(job)
    draft.put(job, frame)
    return draft.write()


class Calls(Case):
    def test_rows_are_the_header_s(self):
        """Every call of the header has a row, and no other has; the arguments are the same in name, kind and order."""
        rows = {call.name: ("int32_t", ", ".join(map(in_c, call.arguments))) for call in library.CALLS}
        self.assertEqual(len(rows), len(library.CALLS))
        self.assertEqual(rows, prototypes())
        self.assertGreaterEqual(len(rows), 8)

    def test_prototypes_are_the_header_s(self):
        """What ctypes was told, type by type, by the header's words and not by the rows."""
        numbers = {f"uint{bits}_t": getattr(ctypes, f"c_uint{bits}") for bits in (8, 16, 32, 64)}
        numbers.update(int32_t=ctypes.c_int32, size_t=ctypes.c_size_t)
        for name, (result, arguments) in prototypes().items():
            kinds = [re.sub(r"\w+$", "", argument).strip() for argument in arguments.split(", ")]
            function = getattr(library.load(), name)
            told = [ctypes.c_char_p if kind.endswith("*") else numbers[kind] for kind in kinds]
            self.assertEqual((function.argtypes, function.restype), (told, numbers[result]), name)

    def test_a_row_gives_a_call(self):
        """Only what is given is asked for, and lent buffers come back: one whole, one as far as it was written."""
        data, table = example("p1.req"), bytes(bus.plan(EXAMPLES / "p1.req"))
        self.assertEqual(library.plan(data, 5), (len(table), table, 5))
        self.assertEqual(library.plan(data, 4), (-23, b"", 4))
        self.assertEqual(library.check(data, table), 0)
        answer, state = library.fresh()
        self.assertEqual((answer, len(state)), (0, library.STATE_BYTES))
        for wrong in ((), (data,), (data, table, table)):
            with self.assertRaisesRegex(TypeError, f"bus_check takes 2 values, not {len(wrong)}"):
                library.check(*wrong)


class Refusals(Case):
    def test_rows_are_those_of_the_papers(self):
        """Every number of MODEL.md's table has one row, and no other has; so it is with the header's enum."""
        text = (ROOT / "docs" / "MODEL.md").read_text(encoding="utf-8").split("## 8. Refusals", 1)[1].split("\n## ")[0]
        model = [int(number) for number in re.findall(r"^\| [\w ,-]*\| (\d+) \|", text, re.MULTILINE)]
        header = re.findall(r"^    BUS_\w+ = (\d+),?$", HEADER, re.MULTILINE)
        rows = [row.number for row in refusals.ROWS]
        self.assertEqual(sorted(rows), sorted(model))
        self.assertEqual(sorted(rows), sorted(map(int, header)))

    def test_each_is_told_with_its_details(self):
        """For every row with details a refusal of the library, which has some; a new row needs a new one here."""
        p1, one = example("p1.req"), request(TASK)
        table = bus.plan(one)
        full = request((8, 20, 20, 0), (8, 40, 40, 0), (8, 40, 40, 0))
        cases = {
            1: lambda: sources.request_in(p1[:5]),
            2: lambda: sources.request_in(b"\x11"),
            3: lambda: bus.plan(request((0, 20, 20, 0))),
            4: lambda: sources.request_in(p1[:25] + b"\x11"),
            5: lambda: bus.plan(request(TASK, TASK, pairs=[(1, 0)])),
            6: lambda: sources.request_in(p1 + b"\x00\x00"),
            7: lambda: bus.plan(request((1, 101, 101, 0), (1, 103, 103, 0))),
            8: lambda: bus.plan(request((1, 1, 1, 0), (1, 128, 128, 0))),
            9: lambda: bus.plan(request((2, 6, 6, 0), (8, 24, 24, 0))),
            10: lambda: bus.plan(request((15, 20, 20, 0), (10, 20, 20, 0))),
            12: lambda: sources.table_in(b""),
            13: lambda: bus.check(request((1, 40, 40, 0)), table),
            14: lambda: bus.rewrite(one, bus.Table(table.frame, table.cycle, ((),))),
            16: lambda: bus.phases(one, 1),
            17: lambda: sources.request_in(p1 + b"\x02"),
            18: lambda: bus.join(request(*[TASK] * 9), request(*[TASK] * 8)),
            19: lambda: bus.join(*[request(TASK, TASK, pairs=[(0, 1)] * 9)] * 2),
            20: lambda: bus.join(one, request(TASK, silent=1)),
            21: lambda: bus.one_off(one, table, 0),
            22: lambda: bus.one_off(one, table, 20),
            23: lambda: bus.plan(pigeons(4), tries=1),
            24: lambda: bus.cut(one, 1, 1),
            26: lambda: bus.Draft(one, table).lift("task1.0"),
            27: lambda: moved(one, table, "task0.0", 1),
            28: lambda: moved(full, bus.plan(full), "task1.0", 1),
            30: lambda: bus.Heater(one, table, 0, 0),
        }
        self.assertEqual(sorted(cases), [row.number for row in refusals.ROWS if row.details])
        for number, case in cases.items():
            self.assertTrue(self.refused(number, case).about, number)

    def test_files_that_are_spoken_of(self):
        """The argument that a row names is one that subcommands have; each has a list, but `new`, which makes one."""
        arguments = set()
        for module in commands.COMMANDS:
            parser = argparse.ArgumentParser()
            module.arguments(parser)
            own = {action.dest for action in parser._actions}
            self.assertEqual(refusals.LIST in own, module.NAME != "new", module.NAME)
            arguments |= own
        self.assertLessEqual({row.speaks_of for row in refusals.ROWS}, {*arguments, refusals.NO_ONE})
        self.assertEqual(refusals.row(14).speaks_of, refusals.TABLE)


class Registry(Case):
    def test_every_module_is_in_it(self):
        found = {module.name for module in pkgutil.iter_modules(commands.__path__)} - {"arguments", "steps"}
        self.assertEqual(sorted(found), sorted(module.NAME.replace("-", "_") for module in commands.COMMANDS))
        for module in commands.COMMANDS:
            self.assertEqual(module.__name__, f"bus.commands.{module.NAME.replace('-', '_')}")

    def test_every_one_has_help(self):
        """What it does, all its arguments in words, an example of its own, and the exit status."""
        overview = self.answered("--help")
        self.assertIn("example:\n  bus ", overview)
        for module in commands.COMMANDS:
            out = self.answered(module.NAME, "--help")
            self.assertIn(f"\n\n{module.HELP}\n\n", out)
            self.assertIn(f"\n\nexample:\n{module.EXAMPLE}\n\nexit status: 0 answered; 1 refused; 2 wrong use", out)
            self.assertIn("--json", out)
            for line in module.EXAMPLE.splitlines():
                self.assertTrue(line.startswith(f"  bus {module.NAME} "), line)
            self.assertRegex(overview, rf"\n    {module.NAME} +{' '.join(module.HELP.split()[:4])}")
            parser = argparse.ArgumentParser()
            module.arguments(parser)
            self.assertTrue(all(action.help for action in parser._actions), module.NAME)

    def run_here(self, words):
        """The status of the command in this process, and how often a list was parsed."""
        out, err = (io.TextIOWrapper(io.BytesIO(), encoding="utf-8") for _ in range(2))
        with mock.patch.object(sys, "stdout", out), mock.patch.object(sys, "stderr", err):
            with mock.patch.object(lists, "read", side_effect=lists.read) as parsed:
                return command.main(words), parsed.call_count

    def test_examples_can_be_typed(self):
        """Each line of help, up to a pipe, in the order of the registry; each list in it is parsed once."""
        os.symlink(EXAMPLES, self.folder / "examples")
        self.addCleanup(os.chdir, os.getcwd())
        os.chdir(self.folder)
        for module in commands.COMMANDS:
            for line in module.EXAMPLE.splitlines():
                words = shlex.split(re.split("[|>]", line)[0])[1:]
                given = sum(word.startswith("examples/") and word.endswith(".csv") for word in words)
                wanted = command.REFUSED if "long-search" in line else command.ANSWERED
                self.assertEqual(self.run_here(words), (wanted, given), line)


class Notebook(Case):
    def test_guide(self):
        """The guide's lines for a notebook run as they stand there, and every name that is offered is there."""
        text = (ROOT / "docs" / "GUIDE.md").read_text(encoding="utf-8")
        lines = re.search(r"^(    import .*\bbus\n(?:    .*\n)+)", text, re.MULTILINE).group(1)
        self.assertIn("bus.plan(", lines)
        self.addCleanup(os.chdir, os.getcwd())
        os.chdir(ROOT)
        with mock.patch.object(sys, "stdout", io.StringIO()), mock.patch.object(sys, "stderr", io.StringIO()):
            exec(re.sub("^    ", "", lines, flags=re.MULTILINE), {})
        for name in bus.__all__:
            self.assertTrue(hasattr(bus, name), name)

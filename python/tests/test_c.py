"""C source for any controller: what `bus c` writes, how it is compared with the library, and faults that are caught."""

import contextlib
import hashlib
import io
import os
import re
import subprocess
import sys
import zlib
from pathlib import Path
from unittest import mock

import bus
from bus import command, library, lists, table as tables
from bus.controller import Controller, compare, comparison
from bus.controller.c_names import is_prefix, task_names
from bus.controller.comparison import HARNESS, library_path, prototypes
from bus.controller.source import subjects
from bus.version import __version__
from tests.helper import COMMAND, EXAMPLES, HANGS, Case, request

TEAM = EXAMPLES / "team.csv"
STRICT = ["-std=c99", "-Wall", "-Wextra", "-Wpedantic", "-Wconversion", "-Werror"]
SANITIZED = ["-fsanitize=address,undefined", "-fno-sanitize-recover=all"]
TABLES = 200
TRIES = 20_000


def team():
    """The controller of the example."""
    return Controller("team", "team.csv", TEAM.read_bytes(), bus.read_request(TEAM), bus.plan(TEAM))


def built(*words, folder):
    """The C compiler, in a folder."""
    subprocess.run(["gcc", *map(str, words)], cwd=folder, check=True, timeout=HANGS)


def program(made, texts, folder, *flags):
    """A program that compares controllers with the library; all of them are one translation unit."""
    lines = []
    for one, (header, code) in zip(made, texts):
        Path(folder, one.header_name).write_text(header, encoding="utf-8")
        Path(folder, one.code_name).write_text(code, encoding="utf-8")
        Path(folder, f"{one.name}_subject.c").write_text(one.subject(), encoding="utf-8")
        lines += [f'#include "{one.code_name}"', f'#include "{one.name}_subject.c"']
    Path(folder, "all.c").write_text("\n".join([*lines, subjects([one.name for one in made])]), encoding="utf-8")
    Path(folder, "prototypes.h").write_text(prototypes(), encoding="utf-8")
    harness = [HARNESS / "states.c", HARNESS / "both.c", f"-I{HARNESS}", "-I."]
    built("-std=c99", *flags, "all.c", *harness, library_path(), "-o", "both", folder=folder)
    return [os.path.join(folder, "both")]


class Names(Case):
    def test_of_tasks(self):
        for names, wanted in (
            (["gyro", "star tracker", "Süd-Sensor"], ["GYRO", "STAR_TRACKER", "SUD_SENSOR"]),
            (["a-b", "a b", "A_B", "a b 2"], ["A_B", "A_B_3", "A_B_4", "A_B_2"]),
            (["温度", "7", "!", "straße"], ["0", "7", "2", "STRASSE"]),
            (["1", "!"], ["1", "1_2"]),
            (["x" * 70, "x" * 71], ["X" * 32, "X" * 32 + "_2"]),
            (["_a_", "ﬁn", "å"], ["A", "FIN", "A_2"]),
        ):
            self.assertEqual(list(task_names(names)), wanted)

    def test_all_are_names_and_no_two_alike(self):
        letters = "aA1_- .ßüÅ/温*\\\"'"
        for _ in range(300):
            drawn_names = ("".join(self.draw.choices(letters, k=self.draw.randint(1, 4))) for _ in range(16))
            names = list(dict.fromkeys(drawn_names))
            made = list(task_names(names))
            self.assertEqual(len(set(made)), len(names))
            for name in made:
                self.assertRegex(f"TEAM_TASK_{name}", r"^[A-Z_0-9]{11,}$")

    def test_prefixes(self):
        for text in ("t", "team", "Team2", "eps_a", "a" * 16):
            self.assertTrue(is_prefix(text), text)
        for text in ("", "2t", "_t", "t_", "t__a", "bus", "BUS", "team_timer", "a" * 17, "té", "a b", "../t", "t\n"):
            self.assertFalse(is_prefix(text), text)


class Files(Case):
    def written(self, *words, **more):
        """The texts of the two files, and what was printed."""
        out = self.answered("c", *words, "-o", self.folder, "--name", "team", **more)
        self.assertEqual(self.names_in_folder()[-2:], ["team_bus.c", "team_bus.h"])
        return *((self.folder / f"team_bus.{end}").read_text(encoding="utf-8") for end in "hc"), out

    def macros(self, header):
        found = dict(re.findall(r"^#define TEAM_(\w+) (\S+)", header, re.MULTILINE))
        return {name: int(text[:-1]) for name, text in found.items() if re.fullmatch(r"\d+u", text)}

    def test_what_they_say(self):
        header, code, out = self.written(TEAM)
        table = bytes(bus.plan(TEAM))
        macros = self.macros(header)
        sizes = [macros[name] for name in ("FRAME", "CYCLE", "ROWS", "TASKS", "SILENT", "PLACES", "TABLE_BYTES")]
        self.assertEqual(sizes, [20, 80, 4, 7, 0, 16, len(table)])
        self.assertIn("\n    TEAM_TASK_STAR = 2, /* star: length 6, period 40, deadline 30, phase 10 */\n", header)
        self.assertIn(f"_LIST_CRC32 UINT32_C(0x{zlib.crc32(TEAM.read_bytes()):08X})\n", header)
        self.assertIn(f"_TABLE_CRC32 UINT32_C(0x{zlib.crc32(table):08X})\n", header)
        for data in (TEAM.read_bytes(), table):
            self.assertIn(f"SHA-256 {hashlib.sha256(data).hexdigest()}\n", header)
        self.assertIn(f'_BUS_VERSION "{__version__}"\n', header)
        array = bus.c_array(bus.read_request(TEAM), bus.plan(TEAM), "team_table").split("\n", 2)[2]
        self.assertIn(array, code)
        first = " ".join(code.split("\n#include")[0].replace("\n *", "").split())
        begin = "/* Compared with the proved library before it was written: next_frame in 262,144 states (rows 0 to 65,535"
        self.assertTrue(first.startswith(begin), first)
        calls = re.search(r"and with all others ([\d,]+) calls\. No difference\.", first).group(1)
        self.assertIn(hashlib.sha256(Path(library_path()).read_bytes()).hexdigest(), first)
        told = f": compared with the library in 262,144 states and {calls} calls\n"
        self.assertTrue(out.endswith(told), out)

    def test_a_table_of_its_own(self):
        """A table that was moved by hand, silent ticks, and the list from standard input."""
        draft = bus.Draft(TEAM, bus.plan(TEAM))
        draft.lift("heater.0")
        draft.put("heater.0", 3)
        moved = self.file("a.table", bytes(draft.write()))
        header, code, _ = self.written("-", moved, stdin=TEAM.read_bytes())
        self.assertIn(f"_TABLE_CRC32 UINT32_C(0x{zlib.crc32(Path(moved).read_bytes()):08X})\n", header)
        self.assertIn("The bus controller of standard input: ", header)
        self.assertIn("row 3: gyro.3 sun.3 star.1 magnet.1 heater.0 */", code)
        header, _, _ = self.written(EXAMPLES / "harness.csv")
        self.assertEqual(self.macros(header)["SILENT"], bus.read_request(EXAMPLES / "harness.csv").silent)

    def test_they_compile_alone(self):
        """Freestanding and with every warning; nothing is asked of the linker, and nothing can be written to."""
        self.written(TEAM)
        for level in ("-O0", "-Os", "-O2", "-O3"):
            built(*STRICT, "-ffreestanding", level, "-c", "team_bus.c", folder=self.folder)
            named = subprocess.run(["nm", self.folder / "team_bus.o"], capture_output=True, text=True, check=True)
            kinds = {line.split()[-2] for line in named.stdout.splitlines()}
            self.assertLessEqual({"T", "R"}, kinds)
            self.assertLessEqual(kinds, {"T", "t", "R", "r"})
        found = re.findall(r"#include <(.*)>", (self.folder / "team_bus.h").read_text(encoding="utf-8"))
        self.assertEqual(found, ["stddef.h", "stdint.h"])
        twice = '#include "team_bus.h"\n' * 2
        user = self.file("user.cpp", f"{twice}int main() {{ return team_job({{0, 0}}); }}\n")
        strict = ["-std=c++11", "-Wall", "-Wextra", "-pedantic-errors", "-Wconversion", "-Werror", "-I", self.folder]
        subprocess.run(["g++", *strict, "-c", user, "-o", self.folder / "user.o"], check=True)

    def test_any_name(self):
        """Names that would end a comment or clash in C; a list's own name too."""
        names = ["a*/b", "/*x", 'quote"d', "Süd\\", "??/", "\u202ex", "a b", "a-b", "int", "frame", "%s\\n$name"]
        named = bus.Request(tuple(bus.Task(name, 1, 24, 24) for name in names))
        path = self.file("$name *??.csv", lists.write(named))
        header, _, _ = self.written(path)
        self.assertIn("    TEAM_TASK_A_B_3 = 7, /* a-b: length", header)
        self.assertIn("/* %s\\n$name: length", header)
        built(*STRICT, "-ffreestanding", "-c", "team_bus.c", folder=self.folder)

    def test_flight(self):
        """examples/controller.c over the files prints examples/controller.txt; its frames are those of `bus fly`."""
        self.written(TEAM)
        sources = ["-I.", EXAMPLES / "controller.c", "team_bus.c"]
        built(*STRICT, *SANITIZED, *sources, "-o", "controller", folder=self.folder)
        done = subprocess.run([self.folder / "controller"], capture_output=True, text=True, check=True)
        self.assertEqual(done.stdout, (EXAMPLES / "controller.txt").read_text(encoding="utf-8"))
        frames = [line for line in done.stdout.splitlines() if line.startswith("frame ")]
        self.assertEqual(frames, self.answered("fly", TEAM).splitlines())


class Wrong(Case):
    def test_use(self):
        for words in ([], ["-o", "."], ["--name", "x"], ["-o", ".", "--name", "1x"]):
            self.failed(2, "c", TEAM, *words, says=["usage: bus c"])
        with_name, none = ["--name", "team"], self.folder / "none"
        self.failed(2, "c", TEAM, "-o", none, *with_name, says=["none/team_bus.h: No such file", "check the"])
        table = self.file("t", bytes(bus.plan(TEAM)))
        words = ["c", TEAM, table, "-o", self.folder, *with_name]
        self.failed(2, *words, "--tries", "5", says=["nothing is searched"])
        own = self.file("team_bus.h", TEAM.read_bytes())
        self.failed(2, "c", own, "-o", self.folder, *with_name, says=["one file is named twice"])

    def test_refused(self):
        words = ["-o", self.folder, "--name", "team"]
        self.failed(1, "c", EXAMPLES / "p2.req", *words, says=["p2.req: refused 9: "])
        self.failed(1, "c", EXAMPLES / "p3.req", EXAMPLES / "p4.table", *words, says=["p4.table: refused 14: "])
        self.failed(3, "c", EXAMPLES / "p1.req", "--tries", "1", *words, says=["refused 23: "])
        self.assertEqual(self.names_in_folder(), [])

    def test_no_compiler(self):
        """The files are written, and say that they were not compared."""
        environment = {**os.environ, "PATH": str(self.folder), "BUS_LIBRARY": library_path()}
        words = [*COMMAND, "c", TEAM, "-o", self.folder, "--name", "team"]
        done = subprocess.run(words, env=environment, capture_output=True, text=True, check=True)
        self.assertIn("no C compiler on the path", done.stderr)
        self.assertTrue(done.stdout.endswith("team_bus.c: not compared\n"), done.stdout)
        code = (self.folder / "team_bus.c").read_text(encoding="utf-8")
        self.assertTrue(code.startswith("/*\n * NOT compared with the proved library: "))
        self.assertEqual((self.folder / "team_bus.h").read_text(encoding="utf-8"), team().header())


# Faults in the code of a controller: what stands there, and what is put in its place. NAME, name: the prefix.
CODE_FAULTS = (
    ("first != 0u && (job", "(job"),
    ("first != 0u && (job", "first == 0u && (job"),
    ("(job & NAME_CARRY) != 0u", "(job & NAME_CARRY) == 0u"),
    ("NAME_CARRY 0x80u", "NAME_CARRY 0x40u"),
    ("NAME_ROWS - 1u", "NAME_ROWS"),
    ("NAME_ROWS - 1u", "NAME_ROWS - 2u"),
    ("state->row = 0;\n        state->first = 0;", "state->row = 0;"),
    ("state->row = 0;\n        state->first = 0;", "state->first = 0;"),
    ("        state->row++;\n", "        ;\n"),
    ("state->row++;", "state->row++, state->first = 0;"),
    ("state->row >= NAME_ROWS", "state->row > NAME_ROWS"),
    ("-NAME_ROW_TOO_HIGH", "0"),
    ("NAME_FIRST_ROW 7u", "NAME_FIRST_ROW 8u"),
    ("at + 1u + 2u * name_table[at]", "at + 2u + 2u * name_table[at]"),
    ("    name_clear(entries);\n", ""),
    ("i < NAME_PLACES", "i < NAME_PLACES - 1u"),
    ("    name_move_on(state);\n", ""),
    ("state->first = 1;", "state->first = 0;"),
    ("state->overruns[task] = 0;", ";"),
    ("if (state->first > 1u)", "if (state->first > 2u)"),
    ("task >= NAME_TASKS", "task > NAME_TASKS"),
    ("if (ticks > name_length[task]", "if (ticks >= name_length[task]"),
    ("if (ticks > name_length[task]", "if ((uint16_t)ticks > name_length[task]"),
    ("< NAME_MOST_OVERRUNS)", "<= NAME_MOST_OVERRUNS)"),
    ("NAME_MOST_OVERRUNS 65535u", "NAME_MOST_OVERRUNS 65534u"),
    ("state->overruns[task]++;", "state->overruns[0]++;"),
    ("uint32_t sum", "uint16_t sum"),
    ("sum += state->overruns[task]", "sum = state->overruns[task]"),
    ("timer->state.row % 256u", "timer->state.row % 128u"),
    ("timer->state.row / 256u", "0"),
    ("case 6:\n", ""),
    ("address > 7u", "address > 8u"),
    ("NAME_TIMER_RUN | NAME_TIMER_ENABLE", "NAME_TIMER_RUN"),
    ("NAME_TIMER_OVERRUN | NAME_TIMER_MISSED", "NAME_TIMER_OVERRUN | NAME_TIMER_MISSED | NAME_TIMER_DUE"),
    ("& ~(value", "| (value"),
    ("(timer->control & NAME_TIMER_RUN) == 0u", "timer->control == 0u"),
    ("if ((timer->status & NAME_TIMER_DUE) != 0u)", "if (timer->status != 0u)"),
    ("if ((timer->status & NAME_TIMER_DUE) == 0u)", "if (timer->control == 0u)"),
    ("if (count >= 0)", ""),
    ("answer == 0 && ticks > name_length[task]", "ticks > name_length[task % NAME_TASKS]"),
    ("answer == 0 && ticks > name_length[task]", "answer == 0 && ticks > name_length[0]"),
    ("!= 0u && timer->status != 0u", "!= 0u || timer->status != 0u"),
    ("timer->control <= 3u", "timer->control <= 4u"),
    ("timer->status <= 7u", "timer->status <= 8u"),
    ("name_length[NAME_TASKS] = {2", "name_length[NAME_TASKS] = {3"),
)
EMPTY_FRAME_FAULT = ("if (count >= 0)", "if (count > 0)")
HEADER_FAULTS = (
    ("NAME_FRAME 20u", "NAME_FRAME 19u"),
    ("NAME_CYCLE 80u", "NAME_CYCLE 79u"),
    ("NAME_ROWS 4u", "NAME_ROWS 3u"),
    ("NAME_TASKS 7u", "NAME_TASKS 8u"),
    ("NAME_SILENT 0u", "NAME_SILENT 1u"),
    ("NAME_TASK_SUN = 1", "NAME_TASK_SUN = 2"),
    ("NAME_ROW_TOO_HIGH = 15", "NAME_ROW_TOO_HIGH = 16"),
    ("NAME_NO_REGISTER = 29", "NAME_NO_REGISTER = 28"),
    ("NAME_TIMER_MISSED 0x04u", "NAME_TIMER_MISSED 0x02u"),
)


def with_prefix(text, name):
    return text.replace("NAME", name.upper()).replace("name", name)


def with_byte(code, place):
    """The code with another byte at a place of its table."""
    head, array, tail = re.split(r"(_table\[\d+\] = \{.*?\n\};)", code, maxsplit=1, flags=re.DOTALL)
    found = list(re.finditer(r"0x([0-9A-F]{2}),", array))[place]
    other = f"0x{(int(found.group(1), 16) + 1) % 256:02X},"
    return head + array[: found.start()] + other + array[found.end() :] + tail


class PlantedFaults(Case):
    def planted(self, text, fault, name):
        """The text with a fault, which must be another one."""
        old, new = (with_prefix(part, name) for part in fault)
        self.assertIn(old, text)
        return text.replace(old, new, 1)

    def faults(self):
        """Each fault of the lists and each byte of the table, with the request and the table that it is planted in; at
        last none."""
        team, carried = ((bus.read_request(path), bus.plan(path)) for path in (TEAM, EXAMPLES / "p7.req"))
        yield from (("code", fault, team) for fault in CODE_FAULTS)
        yield from (("header", fault, team) for fault in HEADER_FAULTS)
        yield from (("byte", place, team) for place in range(len(bytes(team[1]))))
        yield "code", EMPTY_FRAME_FAULT, carried
        yield "none", None, team

    def texts(self, one, kind, fault):
        """Header and code of a controller, with the fault in one of them."""
        header, code = one.header(), one.code([])
        if kind == "header":
            header = self.planted(header, fault, one.name)
        if kind == "code":
            code = self.planted(code, fault, one.name)
        return header, with_byte(code, fault) if kind == "byte" else code

    def test_each_is_caught(self):
        """Every fault, and nothing else."""
        faults = list(self.faults())
        made = [Controller(f"m{number}", "t", b"", *pair) for number, (_, _, pair) in enumerate(faults)]
        texts = [self.texts(one, kind, fault) for one, (kind, fault, _) in zip(made, faults)]
        both = program(made, texts, self.folder, "-w", "-O1")
        for number, (kind, fault, _) in enumerate(faults):
            done = subprocess.run([*both, str(number)], capture_output=True, text=True, timeout=HANGS)
            self.assertEqual(done.returncode == 0, kind == "none", (kind, fault, done.stdout))
            if done.returncode == 1:
                self.assertRegex(done.stdout, rf"^m{number}: .* and the library says ")

    def faulty(self, change):
        """The command's status and words, where the code that it writes has a fault."""
        code = Controller.code
        err = io.TextIOWrapper(io.BytesIO(), encoding="utf-8")
        words = ["c", str(TEAM), "-o", str(self.folder), "--name", "team"]
        with mock.patch.object(Controller, "code", lambda made, lines: change(code(made, lines))):
            with mock.patch.object(sys, "stderr", err), contextlib.redirect_stdout(io.StringIO()):
                status = command.main(words)
        err.flush()
        return status, err.buffer.getvalue().decode()

    def test_nothing_is_written(self):
        """A byte of the table, the carry test, and the wrap at the last row: a fault of the command, and no file."""
        for change in (
            lambda code: with_byte(code, 9),
            lambda code: code.replace("first != 0u && (job", "first == 0u && (job"),
            lambda code: code.replace("TEAM_ROWS - 1u", "TEAM_ROWS"),
            lambda code: code.replace("return 0;", "return 0", 1),
            lambda code: code.replace("for (; row > 0u; row--)", "for (; row < 1u;)"),
        ):
            with mock.patch.object(comparison, "SECONDS", 5):
                status, words = self.faulty(change)
            self.assertEqual(status, 2)
            self.assertIn("this is a fault of the command itself: please report it", words)
            self.assertEqual(self.names_in_folder(), [])

    def test_the_difference_is_told(self):
        made = team()
        code = made.code([]).replace("TEAM_ROWS - 1u", "TEAM_ROWS - 2u")
        with self.assertRaisesRegex(Exception, "team: next_frame is .* and the library says .* in row [23], mark 0"):
            compare(made, made.header(), code)


def drawn(draw):
    """Some request of short periods, many of which have a table."""
    base = draw.choice((1, 2, 4, 6, 10, 24, 60, 250))
    factors = draw.choice(((1,), (1, 2), (1, 2, 4), (2, 3), (1, 3, 6), (1, 8, 16), (1, 40)))
    tasks = []
    for _ in range(draw.choice((1, 2, 4, 8, 12, 16))):
        period = base * draw.choice(factors)
        length = draw.randint(1, max(1, base // draw.choice((2, 4, 8, 16))))
        phase = draw.choice((0, 0, period // 2, draw.randrange(period)))
        tasks.append((length, period, draw.choice((period, period, draw.randint(length, period))), phase))
    equal = [(a, b) for b in range(len(tasks)) for a in range(b) if tasks[a][1] == tasks[b][1]]
    pairs = [draw.choice(equal) for _ in range(draw.choice((0, 1, 3)))] if equal else []
    return request(*tasks, pairs=pairs, silent=draw.choice((0, 0, 0, 1, 2)))


class SeededTables(Case):
    def planned(self, count):
        """So many requests with their tables, the widest and the longest among them."""
        fixed = [EXAMPLES / name for name in ("p7.req", "p9.req", "p12.req", "team.csv", "heater.csv")]
        fixed.append(request(*[(1, 20, 20, 0)] * 16))
        found = [(bus.read_request(source), bus.plan(source)) for source in fixed]
        while len(found) < count:
            read = drawn(self.draw)
            answer, data, _ = library.plan(bytes(read), TRIES)
            if answer > 0:
                found.append((read, tables.decode(data)))
        return found

    def test_hundreds(self):
        """With every warning an error, under the address and undefined-behaviour sanitizers, beside the library."""
        found = self.planned(TABLES)
        rows = [row for _, table in found for row in table.rows]
        self.assertTrue(any(entry.carry for row in rows for entry in row))
        self.assertTrue(any(not row for row in rows))
        self.assertEqual(max(map(len, rows)), 16)
        self.assertLessEqual({1, 2, 4, 8, 12, 16}, {len(read.tasks) for read, _ in found})
        self.assertEqual(max(len(table.rows) for _, table in found), 256)
        made = [Controller(f"t{number}", "t", b"", *pair) for number, pair in enumerate(found)]
        texts = [(one.header(), one.code(["Not compared yet."])) for one in made]
        both = program(made, texts, self.folder, *STRICT, *SANITIZED, "-O0", "-DSTEP=37u")
        done = subprocess.run(both, capture_output=True, text=True, timeout=HANGS)
        self.assertEqual((done.returncode, done.stderr), (0, ""), done.stdout[-2000:])
        self.assertEqual([line.split()[0] for line in done.stdout.splitlines()], [one.name for one in made])

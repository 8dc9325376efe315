"""Each subcommand from end to end, with real files: what it prints and writes, its status and its words."""

import os
import shlex
import shutil
import subprocess
import unittest

import bus
from bus import build, lists
from tests.helper import COMMAND, EXAMPLES, HANGS, ROOT, Case, example

TEAM = EXAMPLES / "team.csv"
TEAM_LISTING = """\
frame 20 cycle 80 rows 4
0 14 gyro.0 sun.0 magnet.0 heater.0
1 19 gyro.1 sun.1 star.0 downlink.0+
2 17 gyro.2 sun.2 camera.0
3 15 gyro.3 sun.3 star.1 magnet.1
"""
TEAM_TABLE = """\
row  first tick  busy  silent  unused  transfers
  0           0    14       0       6  gyro.0 sun.0 magnet.0 heater.0
  1          20    19       0       1  gyro.1 sun.1 star.0 downlink.0+
  2          40    17       0       3  gyro.2 sun.2 camera.0
  3          60    15       0       5  gyro.3 sun.3 star.1 magnet.1
frame 20, cycle 80, 4 rows, load 81 % (65 of 80 ticks); +: a job of the cycle before
"""


class Plan(Case):
    def test_listing(self):
        self.assertEqual(self.answered("plan", TEAM), TEAM_TABLE)
        self.assertEqual(self.answered("plan", TEAM, "--plain"), TEAM_LISTING)

    def printed(self, printed, *words):
        """The listing of an example without silent ticks, with the names of a request file, or its refusal by number."""
        if printed.startswith("refused"):
            status = 3 if printed == "refused 23\n" else 1
            self.failed(status, "plan", *words, says=[f"{words[0]}: {printed.strip()}: ", "what to do: "])
        else:
            self.assertEqual(self.answered("plan", *words, "--plain").replace(" task", " "), printed)

    def test_examples(self):
        """With the limit of the programs they are as those print them; without one only what these leave open differs."""
        left_open = []
        for path in sorted(EXAMPLES.glob("*.req")):
            if "-g" in path.name:
                continue
            printed = path.with_suffix(".txt").read_text(encoding="ascii")
            self.printed(printed, path, "--tries", bus.TRIES)
            if printed == "refused 23\n":
                left_open.append(path.name)
            else:
                self.printed(printed, path)
        self.assertEqual(left_open, ["long-search.req"])
        self.printed("refused 10\n", EXAMPLES / "long-search.req")

    def test_table_and_picture(self):
        table, svg = self.folder / "t.table", self.folder / "t.svg"
        self.assertEqual(self.answered("plan", TEAM, "-o", table, "--svg", svg), TEAM_TABLE)
        self.assertEqual(table.read_bytes(), bytes(bus.plan(TEAM)))
        drawn = bus.picture(bus.read_request(TEAM), bus.plan(TEAM), "team.csv")
        self.assertEqual(svg.read_text(encoding="utf-8"), drawn)
        self.assertEqual(self.names_in_folder(), ["t.svg", "t.table"])
        self.assertEqual(self.answered("check", TEAM, table), "accepted\n")

    def test_stored_picture(self):
        """The picture in the repository is the one that is made now; examples/picture makes it anew."""
        svg = self.folder / "t.svg"
        self.answered("plan", TEAM, "--svg", svg)
        self.assertEqual(svg.read_bytes(), (EXAMPLES / "team.svg").read_bytes())

    def test_c_array(self):
        """The array compiles as strict C99, also with names that would end a comment, and has the table's bytes."""
        names = ["a*/b", "/*x", 'quote"d', "Süd\\", "??/", "\u202ex"]
        named = bus.Request(tuple(bus.Task(name, 1, 20, 20) for name in names))
        source = self.file("names.csv", lists.write(named))
        for path in (TEAM, source):
            code = self.answered("plan", path, "--c", "team_table")
            main = "int main(void) { return fwrite(team_table, 1, sizeof team_table, stdout) != sizeof team_table; }\n"
            file, program = self.file("t.c", f"#include <stdio.h>\n{code}{main}"), self.folder / "t"
            strict = ["-std=c99", "-pedantic-errors", "-Wall", "-Wextra", "-Werror"]
            subprocess.run(["gcc", *strict, "-o", program, file], check=True)
            self.assertEqual(subprocess.run([program], capture_output=True, check=True).stdout, bytes(bus.plan(path)))

    def test_names_are_quoted(self):
        text = 'name,length,period,deadline,phase\n"a ""b"", c",1,20,,\nx+,1,20,,\nSüd,1,20,,\n'
        out = self.answered("plan", self.file("n.csv", text), "--plain")
        self.assertEqual(out, 'frame 20 cycle 20 rows 1\n0 3 "a ""b"", c".0 "x+".0 Süd.0\n')

    def test_standard_input(self):
        self.assertEqual(self.answered("plan", "-", stdin=TEAM.read_bytes()), TEAM_TABLE)

    def test_elsewhere(self):
        """Started from another folder, through a link, and with a locale that knows no umlauts."""
        os.symlink(ROOT / "bus", self.folder / "bus")
        source = self.file("n.csv", "name,length,period,deadline,phase\nSüd,1,20,,\n")
        environment = {**os.environ, "LC_ALL": "C", "PYTHONIOENCODING": "ascii"}
        done = subprocess.run(
            [COMMAND[0], "bus", "plan", source, "--plain"], cwd=self.folder, env=environment, capture_output=True, check=True
        )
        self.assertEqual(done.stdout.decode(), "frame 20 cycle 20 rows 1\n0 1 Süd.0\n")


class CheckAndFly(Case):
    def test_check(self):
        says = [
            "p4.table: refused 14: the table does not describe a plan of the request",
            "job 3 of task0 stands in row 4, from tick 16, before its release at 18",
            "what to do: plan again",
        ]
        self.failed(1, "check", EXAMPLES / "p3.req", EXAMPLES / "p4.table", says=says)
        self.failed(1, "check", TEAM, EXAMPLES / "p4.table", says=["refused 13: ", "the request's cycle is 80"])
        self.failed(1, "check", TEAM, TEAM, says=["refused 12: bytes that are not a table"])
        self.failed(1, "check", EXAMPLES / "p12-long.req", TEAM, says=["p12-long.req: refused 7: "])

    def test_fly(self):
        wanted = ["frame 0 start 0", "frame 1 start 5", "frame 2 start 10 task0.0@0", "frame 3 start 15"]
        wanted += ["frame 4 start 20 task0.0@1", "frame 5 start 25"]
        self.assertEqual(self.answered("fly", EXAMPLES / "p7.req").splitlines(), wanted)
        table = self.file("t", bytes(bus.plan(EXAMPLES / "p7.req")))
        self.assertEqual(self.answered("fly", EXAMPLES / "p7.req", table, "--cycles", "2").splitlines(), wanted[:4])
        self.assertIn("gyro.0@0 sun.0@0 magnet.0@0", self.answered("fly", TEAM))
        self.failed(1, "fly", EXAMPLES / "p3.req", EXAMPLES / "p4.table", says=["refused 14: "])
        self.failed(1, "fly", EXAMPLES / "p2.req", says=["refused 9: "])


class Lists(Case):
    def test_there_and_back(self):
        request, again = self.folder / "t.req", self.folder / "again.csv"
        self.assertEqual(self.answered("list", TEAM, "-o", request), "")
        self.assertEqual(request.read_bytes(), bytes(bus.read_request(TEAM)))
        text = self.answered("list", request)
        lines = text.splitlines()
        self.assertEqual(lines[:2], ["name,length,period,deadline,phase", "task0,2,20,20,0"])
        self.assertEqual(lines[-1], "before,task5,task6")
        self.answered("list", request, "-o", again)
        self.assertEqual(again.read_text(encoding="utf-8"), text)
        self.answered("list", again, "-o", request)
        self.assertEqual(request.read_bytes(), bytes(bus.read_request(TEAM)))
        self.assertIn("gyro,2,20,20,0\n", self.answered("list", TEAM))

    def test_every_subcommand_takes_a_list(self):
        table = self.file("t", bytes(bus.plan(TEAM)))
        request = self.file("r", bytes(bus.read_request(TEAM)))
        self.assertEqual(self.answered("check", TEAM, table), self.answered("check", request, table))
        flown = self.answered("fly", TEAM)
        for number, task in enumerate(bus.read_request(TEAM).tasks):
            flown = flown.replace(f" {task.name}.", f" task{number}.")
        self.assertEqual(flown, self.answered("fly", request))

    def test_faults(self):
        """All faults, each with its line, and none of the files."""
        text = "name,length,period,deadline,phase\na,2,20,30,\nb,x,20,,\nbefore,a,c\n"
        path = self.file("bad.csv", text)
        says = [
            f"{path}: line 2: deadline 30 is longer than the period 20\n",
            f"{path}: line 3: length 'x' is not a whole number\n",
            f"{path}: line 4: no transfer is named 'c'\n",
            "bus: refused: the list has 3 faults",
        ]
        for words in (["plan", path, "-o", self.folder / "t"], ["list", path, "-o", self.folder / "t"], ["fly", path]):
            self.failed(1, *words, says=says)
        self.assertEqual(self.names_in_folder(), ["bad.csv"])
        many = self.file("many.csv", text + "x\n" * 100)
        self.failed(1, "plan", many, says=["the list has 303 faults, 273 of them not shown"])

    def test_refused_requests(self):
        """A request file that cannot be read, with the place of its fault."""
        p1 = example("p1.req")
        for data, says in (
            (p1[:5], ["refused 1: ", "the file has 5 bytes: it ends inside task 0"]),
            (b"\x11" + p1[1:], ["refused 2: ", "first byte says 17 tasks"]),
            (p1[:5] + b"\x15" + p1[6:], ["refused 3: ", "task 0: deadline 21 is longer than the period 20"]),
            (p1[:25] + b"\x11", ["refused 4: ", "the file says 17 pairs"]),
            (p1[:25] + b"\x01\x00\x02", ["refused 5: ", "pair 0: task 0 has the period 20 and task 2 40"]),
            (p1[:25] + b"\x01\x00\x03", ["refused 5: ", "pair 0 is 0, 3, and the tasks are 0 to 2"]),
            (p1 + b"\x00\x00\x00", ["refused 6: ", "2 bytes too many"]),
        ):
            path = self.file("bad.req", data)
            words = self.draw.choice((["list", path], ["plan", path], ["fly", path], ["check", path, path]))
            self.failed(1, *words, says=says)


class WrongUse(Case):
    def test_words(self):
        for words in (
            [],
            ["frob"],
            ["plan"],
            ["plan", TEAM, "more"],
            ["plan", TEAM, "--frob"],
            ["plan", TEAM, "-o"],
            ["plan", TEAM, "--c", "3x"],
            ["plan", TEAM, "--c", "int"],
            ["check", TEAM],
            ["fly", TEAM, "--cycles", "0"],
            ["fly", TEAM, "--cycles", "x"],
        ):
            self.failed(2, *words, says=["usage: bus", "--help` has an example"])

    def test_one_file_twice(self):
        path = self.file("t.csv", TEAM.read_bytes())
        other = self.folder / "x"
        for words in (
            ["list", path, "-o", path],
            ["plan", path, "-o", f"{self.folder}/../{self.folder.name}/t.csv"],
            ["plan", path, "--svg", path],
            ["plan", path, "-o", other, "--svg", other],
        ):
            self.failed(2, *words, says=["one file is named twice", "name another"])
        self.assertEqual((self.folder / "t.csv").read_bytes(), TEAM.read_bytes())

    def test_unreadable(self):
        missing, folder = self.folder / "missing", self.folder
        for path, says in (
            (missing, "No such file or directory: check the name"),
            (folder, "Is a directory: name a file"),
            ("", "No such file or directory"),
            ("/dev/zero", "it has more than 1000000 bytes: name a list"),
        ):
            for words in (self.draw.choice((["plan", path], ["fly", path], ["list", path])), ["check", TEAM, path]):
                self.failed(2, *words, says=[f"bus: cannot read {path}", says])

    @unittest.skipIf(os.geteuid() == 0, "the superuser may read and write everything")
    def test_without_the_right(self):
        path = self.file("t.csv", TEAM.read_bytes())
        os.chmod(path, 0)
        self.failed(2, "plan", path, says=["Permission denied: choose a file that you may use"])
        os.chmod(self.folder, 0o500)
        self.addCleanup(os.chmod, self.folder, 0o700)
        self.failed(2, "plan", TEAM, "-o", self.folder / "t", says=["Permission denied: choose a file"])

    def test_unwritable(self):
        """Nothing is left where a file cannot be written, and an old table stays as it was."""
        folder = self.folder / "folder"
        folder.mkdir()
        for path, says in (
            (self.folder / "missing" / "t", "No such file or directory: check the name and the folder"),
            (folder, "Is a directory: name a file"),
            ("", "No such file or directory"),
            (f"{TEAM}/t", "Not a directory: check the folder"),
            ("/dev/full", "No space left on device: make room"),
        ):
            option = self.draw.choice(("-o", "--svg"))
            for words in (["plan", TEAM, option, path], ["list", TEAM, "-o", path]):
                self.failed(2, *words, says=[f"bus: cannot write {path}", says])
        self.assertEqual(self.names_in_folder(), ["folder"])
        self.assertEqual(os.listdir(folder), [])

    def test_full_disk(self):
        """A disk that takes only a part of the table, which shows as the file is written: the old table stays."""
        old = self.file("t", b"old")
        limited = ["bash", "-c", 'ulimit -f 0; exec "$@"', "bash", *COMMAND]
        done = subprocess.run([*limited, "plan", TEAM, "-o", old], capture_output=True, timeout=HANGS)
        self.assertEqual(done.returncode, 2, done.stderr)
        self.assertIn(b"cannot write", done.stderr)
        self.assertEqual((self.folder / "t").read_bytes(), b"old")
        self.assertEqual(self.names_in_folder(), ["t"])

    def test_a_link_is_followed(self):
        real = self.file("real", b"old")
        os.symlink(real, self.folder / "link")
        self.answered("plan", TEAM, "-o", self.folder / "link")
        self.assertTrue((self.folder / "link").is_symlink())
        self.assertEqual((self.folder / "real").read_bytes(), bytes(bus.plan(TEAM)))

    def test_standard_output(self):
        """A full or closed standard output is a fault; a reader that goes away ends the command as any other."""
        with open("/dev/full", "wb") as full:
            done = subprocess.run([*COMMAND, "plan", TEAM], stdout=full, stderr=subprocess.PIPE, timeout=HANGS)
        self.assertEqual(done.returncode, 2)
        self.assertIn(b"cannot write to standard output: No space left on device", done.stderr)
        closed = subprocess.run(
            ["bash", "-c", 'exec "$@" >&-', "bash", *COMMAND, "plan", TEAM], capture_output=True, timeout=HANGS
        )
        self.assertEqual(closed.returncode, 2)
        self.assertIn(b"cannot write to standard output: it is closed", closed.stderr)
        long = ["fly", EXAMPLES / "p9.req", "--cycles", "400"]
        piped = ["bash", "-c", '"$@" | true; exit ${PIPESTATUS[0]}', "bash", *COMMAND, *long]
        gone = subprocess.run(piped, capture_output=True, timeout=HANGS)
        self.assertEqual((gone.returncode, gone.stderr), (141, b""))
        with open("/dev/full", "wb") as full:
            done = subprocess.run([*COMMAND, "plan", "--help"], stdout=full, stderr=subprocess.PIPE, timeout=HANGS)
        self.assertEqual(done.returncode, 2)


class Build(Case):
    """The first time: a copy of the command in a folder without a library, and tools that stand in for `rt`."""

    def setUp(self):
        super().setUp()
        shutil.copy(ROOT / "bus", self.folder)
        ignore = shutil.ignore_patterns("__pycache__")
        shutil.copytree(ROOT / "python" / "bus", self.folder / "python" / "bus", ignore=ignore)
        source = self.folder / "crates" / "bus_c" / "src"
        source.mkdir(parents=True)
        (source / "lib.rt").write_text("")
        (self.folder / "tools").mkdir()
        shutil.copy(ROOT / build.ARCHIVER, self.folder / build.ARCHIVER)
        self.tools = self.folder / "path"
        self.tools.mkdir()
        for name in ("cc", "ld", "as", "sh", "dirname", "mkdir", "cp", "mv"):
            if shutil.which(name):
                os.symlink(shutil.which(name), self.tools / name)

    def rt(self, body):
        path = self.tools / "rt"
        path.write_text(f"#!/bin/sh\n{body}\n")
        path.chmod(0o755)

    def first(self, *words):
        environment = {"PATH": str(self.tools)}
        done = subprocess.run(
            [COMMAND[0], self.folder / "bus", *words], env=environment, capture_output=True, text=True, timeout=HANGS
        )
        return done.returncode, done.stdout, done.stderr

    def test_first_time(self):
        archive = ROOT / "target" / "staticlib" / "libbus.a"
        if not archive.exists():
            self.skipTest("no libbus.a to stand in for the built one")
        copy = f"/bin/mkdir -p out && /bin/cp {shlex.quote(str(archive))} out/libbus_c.a"
        self.rt(f'[ "$(pwd -P) $*" = {shlex.quote(str((self.folder / "crates" / "bus_c").resolve()))}" lib" ] && {copy}')
        status, out, err = self.first("plan", str(TEAM))
        self.assertEqual((status, out), (0, TEAM_TABLE), err)
        self.assertIn("bus: building the library by `tools/libbus`, which proves every function", err)
        self.assertRegex(err, r"done in \d+ seconds")
        self.assertRegex(err, r"linked target/python/libbus.so from target/staticlib/libbus.a in \d+\.\d seconds")
        self.assertEqual(self.first("plan", str(TEAM)), (0, TEAM_TABLE, ""))
        os.utime(self.folder / "target" / "python" / "libbus.so", (1, 1))
        self.assertIn("linked", self.first("plan", str(TEAM))[2])
        os.utime(self.folder / "target" / "staticlib" / "libbus.a", (1, 1))
        os.utime(self.folder / "target" / "python" / "libbus.so", (1, 1))
        self.assertIn("building the library", self.first("plan", str(TEAM))[2])

    def test_no_toolchain(self):
        status, out, err = self.first("plan", str(TEAM))
        self.assertEqual((status, out), (2, ""))
        self.assertIn("the Rattle toolchain `rt`, which builds it, is not on the path: install it", err)
        self.assertEqual(self.first("plan", "--help")[0], 0)

    def test_build_that_fails(self):
        self.rt("echo proofs are missing; exit 3")
        status, out, err = self.first("plan", str(TEAM))
        self.assertEqual((status, out), (2, ""))
        self.assertIn("`tools/libbus` failed", err)
        self.assertIn("proofs are missing", err)

    def test_a_library_from_elsewhere(self):
        environment = {**os.environ, "BUS_LIBRARY": str(self.folder / "none.so")}
        self.failed(2, "plan", TEAM, env=environment, says=["the library cannot be loaded", "none.so"])

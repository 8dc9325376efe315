"""include/bus.h as a manual: its example, README's, the names of the refusals, its version; and its installation."""

import os
import re
import shlex
import subprocess
from pathlib import Path

import bus
from bus import refusals
from bus.build import ARCHIVE
from bus.controller.comparison import library_path
from bus.version import __version__
from tests.helper import EXAMPLES, ROOT, Case

HEADER = (ROOT / "include" / "bus.h").read_text(encoding="utf-8")
README = (ROOT / "README.md").read_text(encoding="utf-8")
TEAM = EXAMPLES / "team.csv"
STRICT = ["-std=c99", "-Wall", "-Wextra", "-Wpedantic", "-Wconversion", "-Werror"]

BOARD = """\
#include <stdint.h>
#include <stdio.h>
static const uint8_t given[] = {%s};
static int wait_until(uint32_t tick)
{
    printf("%%stick %%lu", tick > 0 ? "\\n" : "", (unsigned long)tick);
    return tick < %d;
}
static uint32_t transfer(uint8_t task, uint8_t job)
{
    printf(" %%u.%%u", (unsigned)task, (unsigned)job);
    return 0;
}
%s
int main(void)
{
    return fly(given, sizeof given);
}
"""


class Manual(Case):
    def example(self):
        """The C in the header's first comments."""
        lines = HEADER.split("A whole flight", 1)[1].split("*/", 1)[0].splitlines()
        code = "\n".join(line[len(" *     ") :] for line in lines if line.startswith(" *     "))
        self.assertEqual(code.count("int fly("), 1)
        return code

    def readme(self):
        """The C in README.md, in a function."""
        lines = re.search(r"^(    uint8_t table\[(?:.*\n)+?)\n", README, re.MULTILINE).group(1)
        self.assertEqual(len(lines.splitlines()), 10)
        begin = "#include <bus.h>\nint fly(const uint8_t *request, size_t request_len)\n{\n"
        return f"{begin}{lines}    return 0;\n}}\n"

    def test_examples(self):
        for code in (self.example(), self.readme()):
            with self.subTest(code):
                self.flies(code)

    def flies(self, code):
        """The flight of the example, three cycles of it, is the dispatcher's."""
        read, table = bus.read_request(TEAM), bus.plan(TEAM)
        source = BOARD % (", ".join(map(str, bytes(read))), 3 * table.cycle, code)
        file, program = self.file("fly.c", source), self.folder / "fly"
        words = [*STRICT, f"-I{ROOT / 'include'}", file, library_path(), "-o", program]
        subprocess.run(["gcc", *map(str, words)], check=True)
        flown = subprocess.run([program], capture_output=True, text=True, check=True).stdout
        flight, wanted = bus.Dispatcher(table), []
        for _ in range(3 * len(table.rows)):
            frame = flight.next_frame()
            wanted.append(" ".join([f"tick {frame.start}", *(f"{entry.task}.{entry.job}" for entry in frame.entries)]))
        self.assertEqual(flown.splitlines(), [*wanted, f"tick {3 * table.cycle}"])

    def test_names_of_refusals(self):
        """One name for each number, and no other; none of them is a macro or a call too."""
        text = re.search(r"enum bus_refusal \{(.*?)\};", HEADER, re.DOTALL).group(1)
        found = re.findall(r"^    (BUS_[A-Z_]+) = (\d+),?$", text, re.MULTILINE)
        self.assertEqual([int(number) for _, number in found], [row.number for row in refusals.ROWS])
        macros = re.findall(r"^#define (BUS_\w+)", HEADER, re.MULTILINE)
        names = [name for name, _ in found] + macros
        self.assertEqual(len(set(names)), len(names))
        self.assertIn("#define BUS_BAD_BUFFER 99\n", HEADER)

    def test_version(self):
        self.assertIn(f'\n#define BUS_VERSION "{__version__}"\n', HEADER)
        self.assertIn(f"\nVersion: {__version__}\n", (ROOT / "bus.pc").read_text(encoding="utf-8"))


class Installed(Case):
    def test_readme(self):
        """README's line installs header and library under a prefix, and pkg-config finds them there."""
        library_path()
        self.assertTrue(ARCHIVE.exists(), "`tools/libbus` makes it")
        line = re.search(r"^    (install -D.*)$", README, re.MULTILINE).group(1)
        environment = {**os.environ, "PREFIX": str(self.folder), "PKG_CONFIG_PATH": str(self.folder / "lib/pkgconfig")}
        subprocess.run(["sh", "-c", line], cwd=ROOT, env=environment, check=True)
        found = sorted(str(path.relative_to(self.folder)) for path in self.folder.rglob("*") if path.is_file())
        self.assertEqual(found, ["include/bus.h", "lib/libbus.a", "lib/pkgconfig/bus.pc"])
        program = self.folder / "interrupt"
        source = shlex.quote(str(EXAMPLES / "interrupt.c"))
        build = f"gcc -std=c99 {source} $(pkg-config --cflags --libs bus) -o {program}"
        self.assertIn("$(pkg-config --cflags --libs bus)", README)
        subprocess.run(["sh", "-c", build], cwd=self.folder, env=environment, check=True)
        done = subprocess.run([program], capture_output=True, check=True)
        self.assertEqual(done.stdout, Path(EXAMPLES / "interrupt.txt").read_bytes())
        version = subprocess.run(["pkg-config", "--modversion", "bus"], env=environment, capture_output=True, text=True)
        self.assertEqual(version.stdout.strip(), __version__)

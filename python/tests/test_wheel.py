"""`pip install .` and `pip wheel .`: what the wheel has in it, and that it works without network and toolchain."""

import base64
import email
import hashlib
import importlib.util
import os
import re
import subprocess
import sys
import tarfile
import unittest
import venv
import zipfile
from unittest import mock

from bus import library
from bus.build import ARCHIVE, SHARED
from bus.version import __version__
from tests.helper import EXAMPLES, ROOT, Case
from tests.test_command import TEAM_TABLE

# No package can be fetched: pip asks no index, and the one that it would ask is not there.
OFFLINE = {"PIP_NO_INDEX": "1", "PIP_INDEX_URL": "http://127.0.0.1:9/", "PIP_DISABLE_PIP_VERSION_CHECK": "1"}


def backend():
    """The build backend, loaded as pip does by its path."""
    spec = importlib.util.spec_from_file_location("wheels", ROOT / "python" / "packaging" / "wheels.py")
    module = importlib.util.module_from_spec(spec)
    spec.loader.exec_module(module)
    return module


@unittest.skipUnless(SHARED.exists() or ARCHIVE.exists(), "the library is not built")
class Wheel(Case):
    def setUp(self):
        super().setUp()
        library.load()
        self.backend = backend()

    def made(self, hook="build_wheel"):
        return self.folder / getattr(self.backend, hook)(str(self.folder))

    def test_what_is_in_it(self):
        """Every module, the library, and nothing else; and the list of files is right."""
        with zipfile.ZipFile(self.made()) as wheel:
            files = {name: wheel.read(name) for name in wheel.namelist()}
            modes = {entry.filename: entry.external_attr >> 16 & 0o777 for entry in wheel.infolist()}
        found = (ROOT / "python" / "bus").rglob("*")
        modules = [path for path in found if path.is_file() and "__pycache__" not in path.parts]
        folder = f"wethlak-{__version__}.dist-info"
        about = [f"{folder}/{name}" for name in ("METADATA", "WHEEL", "RECORD", "entry_points.txt")]
        wanted = [path.relative_to(ROOT / "python").as_posix() for path in modules] + ["bus/libbus.so", *about]
        self.assertEqual(sorted(files), sorted(wanted))
        self.assertEqual(files["bus/libbus.so"], SHARED.read_bytes())
        self.assertEqual((modes["bus/libbus.so"], modes["bus/command.py"]), (0o755, 0o644))
        for line in files[f"{folder}/RECORD"].decode().splitlines():
            name, digest, size = line.rsplit(",", 2)
            if digest:
                data = files[name]
                right = base64.urlsafe_b64encode(hashlib.sha256(data).digest()).rstrip(b"=").decode()
                self.assertEqual((digest, size), (f"sha256={right}", str(len(data))))
        self.assertEqual(len(files), files[f"{folder}/RECORD"].count(b"\n"))

    def test_tag(self):
        """For x86-64 Linux; no symbol that the library needs is newer than the tag says."""
        self.assertRegex(self.made().name, rf"^wethlak-{__version__}-py3-none-manylinux_2_\d+_x86_64\.whl$")
        (most,) = re.findall(r"manylinux_2_(\d+)_x86_64", self.backend.TAG)
        needed = [int(number) for number in re.findall(rb"GLIBC_2\.(\d+)", SHARED.read_bytes())]
        self.assertTrue(needed)
        self.assertLessEqual(max(needed), int(most))

    def test_same_files_same_wheel(self):
        first = self.made().read_bytes()
        self.assertEqual(self.made().read_bytes(), first)

    def test_metadata(self):
        name = self.backend.prepare_metadata_for_build_wheel(str(self.folder))
        told = email.message_from_bytes((self.folder / name / "METADATA").read_bytes())
        self.assertEqual((told["Name"], told["Requires-Python"]), ("wethlak", ">=3.9"))
        self.assertEqual(told["Version"], __version__)
        self.assertIsNone(told["Requires-Dist"])
        self.assertTrue(told.get_payload().startswith("# Wethlak"))

    @unittest.skipIf(sys.version_info < (3, 11), "no reader of TOML")
    def test_pyproject_is_read_right(self):
        import tomllib

        told = tomllib.loads((ROOT / "pyproject.toml").read_text(encoding="utf-8"))
        self.assertEqual(told["build-system"]["requires"], [])
        texts = {key: value for key, value in told["project"].items() if isinstance(value, str)}
        self.assertEqual(self.backend._section("project"), texts)
        self.assertEqual(self.backend._section("project.scripts"), told["project"]["scripts"])

    def test_other_machines(self):
        with mock.patch.object(self.backend.platform, "machine", lambda: "aarch64"):
            with self.assertRaisesRegex(SystemExit, "the library is for Linux on x86-64; on Windows that is WSL"):
                self.made()

    def test_editable(self):
        """`pip install -e .` points to this folder."""
        with zipfile.ZipFile(self.made("build_editable")) as wheel:
            self.assertEqual(wheel.read("wethlak.pth").decode(), f"{ROOT / 'python'}\n")

    def test_sources(self):
        """What an archive of the sources has: all that is needed to build, and nothing that was built."""
        with tarfile.open(self.made("build_sdist")) as archive:
            names = archive.getnames()
        needed = ["pyproject.toml", "PKG-INFO", "bus", "crates.txt", "crates/bus/src/lib.rt", "crates/bus_c/src/lib.rt", "tools/libbus"]
        for name in needed:
            self.assertIn(f"wethlak-{__version__}/{name}", names)
        self.assertFalse([name for name in names if re.search(r"/(target|out|\.git|__pycache__)/|\.so$", name)])


@unittest.skipUnless(SHARED.exists() or ARCHIVE.exists(), "the library is not built")
class Installed(Case):
    """Fresh environments, without network; what is installed runs without the repository's folder and tools."""

    def environment(self, name):
        folder = self.folder / name
        venv.create(folder, with_pip=True)
        return folder / "bin"

    def run_in(self, *words, **more):
        environment = {"PATH": "/usr/bin:/bin", "HOME": str(self.folder), **OFFLINE, **more}
        done = subprocess.run(
            [str(word) for word in words], cwd=self.folder, env=environment, capture_output=True, text=True, timeout=600
        )
        self.assertEqual(done.returncode, 0, done.stdout + done.stderr)
        return done.stdout

    def test_install(self):
        library.load()
        bin_ = self.environment("one")
        self.run_in(bin_ / "pip", "install", ROOT)
        self.works(bin_)

    def test_wheel_for_another(self):
        """The wheel is made with the tools and installed without any."""
        library.load()
        bin_ = self.environment("two")
        self.run_in(bin_ / "pip", "wheel", ROOT, "-w", self.folder / "wheels")
        (wheel,) = (self.folder / "wheels").iterdir()
        self.run_in(bin_ / "pip", "install", wheel, PATH="/nowhere")
        self.works(bin_)

    def works(self, bin_):
        out = self.run_in(bin_ / "bus", "plan", EXAMPLES / "team.csv", PATH="/nowhere")
        self.assertEqual(out, TEAM_TABLE)
        code = "import bus; print(bus.__file__); print(bus.plan('t.csv').frame)"
        (self.folder / "t.csv").write_bytes((EXAMPLES / "team.csv").read_bytes())
        where, frame = self.run_in(bin_ / "python", "-c", code, PATH="/nowhere").splitlines()
        self.assertTrue(where.startswith(f"{bin_.parent}{os.sep}"), where)
        self.assertEqual(frame, "20")

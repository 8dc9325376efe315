"""The build backend for `pip install .` and `pip wheel .`: a wheel has the module, the command and the built library.

These are the hooks of PEP 517 and PEP 660, with the standard library alone, so that nothing is downloaded. What they
say of the project stands in pyproject.toml.
"""

import base64
import hashlib
import io
import os
import platform
import re
import sys
import tarfile
import zipfile
from pathlib import Path

ROOT = Path(__file__).resolve().parents[2]
SOURCES = ROOT / "python"
MODULE = SOURCES / "bus"
TAG = "py3-none-manylinux_2_17_x86_64"
EDITABLE_TAG = "py3-none-any"
LIBRARY = "bus/libbus.so"

# The time of every file in a wheel: the first that a zip archive can have. So the same files give the same wheel.
TIME = (1980, 1, 1, 0, 0, 0)
LEFT_OUT = {".git", "target", "out", "__pycache__"}


def _section(name):
    """The texts of one section of pyproject.toml: lines `KEY = "TEXT"`. Python 3.9 and 3.10 cannot read TOML."""
    text = (ROOT / "pyproject.toml").read_text(encoding="utf-8")
    lines = re.search(rf"^\[{re.escape(name)}\]\n((?:(?!\[).*\n)*)", text, re.MULTILINE).group(1)
    return dict(re.findall(r'^([\w-]+) = "(.*)"$', lines, re.MULTILINE))


def _version():
    text = (MODULE / "version.py").read_text(encoding="utf-8")
    return re.search(r'^__version__ = "(.*)"$', text, re.MULTILINE).group(1)


def _called():
    """The name and the version, as the names of files have them."""
    return f"{_section('project')['name']}-{_version()}"


def _metadata():
    project = _section("project")
    lines = [
        "Metadata-Version: 2.1",
        f"Name: {project['name']}",
        f"Version: {_version()}",
        f"Summary: {project['description']}",
        f"Requires-Python: {project['requires-python']}",
        "Description-Content-Type: text/markdown; charset=UTF-8",
        "",
        (ROOT / project["readme"]).read_text(encoding="utf-8"),
    ]
    return "\n".join(lines).encode()


def _about(tag):
    """The files that say what a wheel is, all but the list of its files."""
    scripts = "".join(f"{name} = {call}\n" for name, call in _section("project.scripts").items())
    wheel = f"Wheel-Version: 1.0\nGenerator: wethlak\nRoot-Is-Purelib: {str(tag == EDITABLE_TAG).lower()}\nTag: {tag}\n"
    folder = f"{_called()}.dist-info"
    return {
        f"{folder}/METADATA": _metadata(),
        f"{folder}/WHEEL": wheel.encode(),
        f"{folder}/entry_points.txt": f"[console_scripts]\n{scripts}".encode(),
    }


def _record(files):
    """The list of a wheel's files, each with its digest and its size."""
    lines = []
    for name, data in files.items():
        digest = base64.urlsafe_b64encode(hashlib.sha256(data).digest()).rstrip(b"=").decode()
        lines.append(f"{name},sha256={digest},{len(data)}\n")
    own = f"{_called()}.dist-info/RECORD"
    return own, "".join([*lines, f"{own},,\n"]).encode()


def _write(directory, files, tag):
    """Writes the wheel with these files and those about it, and answers its name."""
    files = {**files, **_about(tag)}
    own, record = _record(files)
    name = f"{_called()}-{tag}.whl"
    with zipfile.ZipFile(os.path.join(directory, name), "w", zipfile.ZIP_DEFLATED) as wheel:
        for path, data in {**files, own: record}.items():
            entry = zipfile.ZipInfo(path, TIME)
            entry.compress_type = zipfile.ZIP_DEFLATED
            entry.external_attr = (0o100755 if path == LIBRARY else 0o100644) << 16
            wheel.writestr(entry, data)
    return name


def _below(folder, base):
    """The files in a folder, by their paths from the base, in order; nothing that was built."""
    paths = sorted(path for path in folder.rglob("*") if path.is_file())
    return {
        path.relative_to(base).as_posix(): path
        for path in paths
        if not LEFT_OUT & set(path.relative_to(base).parts) and path.suffix != ".so"
    }


def _built():
    """The bytes of the library, which is built if need be; BUS_LIBRARY names one that was built elsewhere."""
    if (sys.platform, platform.machine()) != ("linux", "x86_64"):
        sys.exit("bus: the library is for Linux on x86-64; on Windows that is WSL, the Windows Subsystem for Linux")
    sys.path.insert(0, str(SOURCES))
    from bus.build import NotBuilt, build

    try:
        return Path(os.environ.get("BUS_LIBRARY") or build()).read_bytes()
    except (NotBuilt, OSError) as reason:
        sys.exit(f"bus: {reason}")


def build_wheel(wheel_directory, config_settings=None, metadata_directory=None):
    """The wheel for those who have no toolchain: the library is in it."""
    module = {name: path.read_bytes() for name, path in _below(MODULE, SOURCES).items()}
    return _write(wheel_directory, {**module, LIBRARY: _built()}, TAG)


def build_editable(wheel_directory, config_settings=None, metadata_directory=None):
    """The wheel of `pip install -e .`: it points to this folder."""
    return _write(wheel_directory, {f"{_section('project')['name']}.pth": f"{SOURCES}\n".encode()}, EDITABLE_TAG)


def _prepare(directory, tag):
    for name, data in _about(tag).items():
        path = Path(directory, name)
        path.parent.mkdir(exist_ok=True)
        path.write_bytes(data)
    return f"{_called()}.dist-info"


def prepare_metadata_for_build_wheel(metadata_directory, config_settings=None):
    return _prepare(metadata_directory, TAG)


def prepare_metadata_for_build_editable(metadata_directory, config_settings=None):
    return _prepare(metadata_directory, EDITABLE_TAG)


def build_sdist(sdist_directory, config_settings=None):
    """The sources. Who installs them builds the library, and needs the toolchain."""
    name = f"{_called()}.tar.gz"
    with tarfile.open(os.path.join(sdist_directory, name), "w:gz", format=tarfile.PAX_FORMAT) as archive:
        for path, file in _below(ROOT, ROOT).items():
            archive.add(file, f"{_called()}/{path}")
        entry = tarfile.TarInfo(f"{_called()}/PKG-INFO")
        entry.size = len(_metadata())
        archive.addfile(entry, io.BytesIO(_metadata()))
    return name

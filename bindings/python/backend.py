"""Builds the wheel of this package, so that `pip install` needs no network. Where there are make and a C compiler, the wheel has what dist/
installs: the library, the programs, and the compiler of programs; where there are none, the package looks for what is installed."""
import base64
import hashlib
import os
import platform
import re
import subprocess
import sys
import tempfile
import zipfile
from pathlib import Path

NAME = "edgebpf"
PACKAGE = Path(__file__).resolve().parent / NAME
VERSION = re.search(r'^__version__ = "(.*)"', (PACKAGE / "__init__.py").read_text(), re.M)[1]
LIBRARIES = ("libedgebpf.so", "libedgebpf_algorithms.so")
DIST = PACKAGE.parents[2] / "dist"
# What dist/ builds for: x86_64 or aarch64.
MACHINE = os.environ.get("MACHINE") or platform.machine()
# The folder of the package that has the programs, as `make install` lays them out.
INSTALLED = "installed"
INFO = f"{NAME}-{VERSION}.dist-info"
METADATA = f"""\
Metadata-Version: 2.1
Name: {NAME}
Version: {VERSION}
Summary: A versioned in-memory graph that runs BPF programs on its edges
Requires-Python: >=3.9
Requires-Dist: numpy
Requires-Dist: cffi
Provides-Extra: c
Requires-Dist: pyelftools; extra == 'c'
"""
# Of a command that the wheel puts on PATH: pip writes the interpreter's path into the first line.
COMMAND = """\
#!python
import importlib.util, os, sys
folder = os.path.join(os.path.dirname(importlib.util.find_spec("edgebpf").origin), "installed")
words = {words}
os.execv(words[0], [*words, *sys.argv[1:]])
"""
WHEEL = "Wheel-Version: 1.0\nGenerator: edgebpf\nRoot-Is-Purelib: {}\nTag: {}\n"
# The same bytes each time: no file has the time of its build.
MOMENT = (2020, 1, 1, 0, 0, 0)


def record_line(name, content):
    digest = base64.urlsafe_b64encode(hashlib.sha256(content).digest()).rstrip(b"=").decode()
    return f"{name},sha256={digest},{len(content)}\n"


def installation():
    """What dist/ installs of the library and the programs: for each name the bytes, and whether it is run. Empty where it cannot be built."""
    with tempfile.TemporaryDirectory() as folder:
        words = ["make", "-s", "-C", DIST, "install", f"BUILD={folder}/build", f"DESTDIR={folder}/root", "PREFIX=/usr"]
        try:
            subprocess.run(words, check=True, capture_output=True, text=True)
        except (OSError, subprocess.CalledProcessError) as error:
            print(f"edgebpf: without {LIBRARIES[0]}: {getattr(error, 'stderr', '') or error}", file=sys.stderr)
            return {}
        libraries = Path(folder, "root", "usr", "lib")
        named = {f"{NAME}/{library}": libraries / library for library in LIBRARIES}
        programs = libraries / NAME
        named |= {f"{NAME}/{INSTALLED}/{path.relative_to(programs)}": path for path in sorted(programs.rglob("*")) if path.is_file()}
        return {name: (path.read_bytes(), os.access(path, os.X_OK) and path.name not in LIBRARIES) for name, path in named.items()}


def commands(names):
    """The commands of an installation's files, each with the text of a file for PATH: `edgebpf`, and the companions, which are in Python."""
    for name in names:
        folder, _, command = name.removeprefix(f"{NAME}/{INSTALLED}/").rpartition("/")
        if command == NAME and not folder:
            yield command, COMMAND.format(words=f"[os.path.join(folder, '{command}')]")
        elif command.startswith(f"{NAME}-") and folder == "tools":
            yield command, COMMAND.format(words=f"[sys.executable, os.path.join(folder, 'tools', '{command}')]")


def build_wheel(wheel_directory, config_settings=None, metadata_directory=None):
    """Writes the wheel, and returns its name."""
    built = installation()
    files = {f"{NAME}/{path.name}": path.read_bytes() for path in sorted(PACKAGE.iterdir()) if path.suffix in (".py", ".typed")}
    files |= {name: content for name, (content, _) in built.items()}
    files |= {f"{NAME}-{VERSION}.data/scripts/{command}": text.encode() for command, text in commands(built)}
    tag = f"py3-none-linux_{MACHINE}" if built else "py3-none-any"
    files[f"{INFO}/METADATA"] = METADATA.encode()
    files[f"{INFO}/WHEEL"] = WHEEL.format(str(not built).lower(), tag).encode()
    record = "".join(record_line(name, content) for name, content in files.items()) + f"{INFO}/RECORD,,\n"
    files[f"{INFO}/RECORD"] = record.encode()
    wheel = f"{NAME}-{VERSION}-{tag}.whl"
    with zipfile.ZipFile(Path(wheel_directory) / wheel, "w", zipfile.ZIP_DEFLATED) as out:
        for name, content in files.items():
            entry = zipfile.ZipInfo(name, MOMENT)
            entry.compress_type = zipfile.ZIP_DEFLATED
            # The upper half is the mode of the file: what is run has to say so.
            is_run = built[name][1] if name in built else ".data/scripts/" in name
            entry.external_attr = (0o100755 if is_run else 0o100644) << 16
            out.writestr(entry, content)
    return wheel

"""Keeps libraries once they are proved, for quick checks of what changes later: tools/prove keeps them, tools/dev/prove_changed uses them.

The name of a library's folder has a sum of its sources, of all sources below it, and of the kit. A folder appears once it is whole, and a
run that was killed leaves none. No proof of tools/prove and nothing in the gate rests on what is kept here.
"""
import contextlib
import hashlib
import os
import pathlib
import shutil
import subprocess
import tempfile

SOURCES = pathlib.Path(__file__).resolve().parent / "sources"
# Of each crate, so that two checkouts on one machine each have their own.
MOST_OF_A_CRATE = 3
LEAST_ROOM = 3 * 10**9


def folder():
    """Where libraries are kept: among the user's own files, for all checkouts."""
    cache = os.environ.get("XDG_CACHE_HOME") or pathlib.Path.home() / ".cache"
    found = pathlib.Path(cache) / "edgebpf" / "libraries"
    found.mkdir(parents=True, exist_ok=True, mode=0o700)
    return found


def sum_of(top, crate, kit):
    """A sum of a crate's sources, of those below it, and of the prover's identity."""
    words = {"env": {**os.environ, "TOP": str(top)}, "stdout": subprocess.PIPE, "text": True, "check": True}
    of_sources = subprocess.run([SOURCES, "--sum", crate], **words).stdout
    return hashlib.sha256(f"{kit} {of_sources}".encode()).hexdigest()[:32]


def place_of(top, crate, kit):
    """Where a library of a checkout's sources is kept, whether or not it is there."""
    return folder() / f"{crate}-{sum_of(top, crate, kit)}"


def find(top, crate, kit):
    """The kept library of a checkout's sources, or None."""
    found = place_of(top, crate, kit)
    if not found.is_dir():
        return None
    os.utime(found)
    return found / f"{crate}.rlib"


def sweep(at, crate):
    """Removes what killed runs left, and a crate's libraries but the last ones used."""
    for path in at.glob(".*-*"):
        if not pathlib.Path(f"/proc/{path.name[1:].partition('-')[0]}").exists():
            shutil.rmtree(path, ignore_errors=True)
    for path in sorted(at.glob(f"{crate}-*"), key=lambda path: path.stat().st_mtime)[:-MOST_OF_A_CRATE]:
        shutil.rmtree(path, ignore_errors=True)


def copy_whole(made, to, files=()):
    """Copies a folder, with more files in it, so that nobody meets half of it. If `to` is there already, it stays."""
    with tempfile.TemporaryDirectory(prefix=f".{os.getpid()}-", dir=to.parent) as room:
        whole = pathlib.Path(room, to.name)
        shutil.copytree(made, whole)
        for name, text in files:
            (whole / name).write_text(text)
        with contextlib.suppress(OSError):
            whole.rename(to)


def keep(top, crate, kit):
    """Keeps a library that was proved just now, in a checkout or a copy whose sources did not change since. A program has none."""
    made = top / "crates" / crate / "out" / "rlib"
    if not (made / f"{crate}.rlib").is_dir() or shutil.disk_usage(folder()).free < LEAST_ROOM:
        return
    place = place_of(top, crate, kit)
    if not place.is_dir():
        copy_whole(made, place)
    sweep(place.parent, crate)

"""Builds a driver over a copy of the crates, at full optimization.

`rt try` makes a module of the driver, and the kit's clang a program of that. The module's own checks of indices and sums stay in it, since
nothing of a driver is proved.
"""
import pathlib
import shutil
import subprocess
import sys
import tempfile

TOP = pathlib.Path(__file__).resolve().parent.parent
# Stands for the kit's clang: it keeps each module that it is given, and goes on as that.
KEEPING = """#!/bin/sh
for word in "$@"; do case $word in *.bc) cp "$word" {kept}/$$.bc ;; esac; done
exec {clang} "$@"
"""


def run(words, **how):
    done = subprocess.run(words, capture_output=True, text=True, **how)
    if done.returncode:
        sys.exit(f"building.py: {words[0]}: {done.stdout[-1000:]}{done.stderr[-3000:]}")
    return done.stdout


def crates_below(rows, names):
    """These crates of the repository and all that they stand on, by the lines of crates.txt."""
    found = set()
    for name in names:
        if name in rows:
            found |= {name} | crates_below(rows, rows[name].split(":")[1].split())
    return found


def copy_crates(folder, driver, used):
    """The crates that a driver uses, and the driver as one more."""
    rows = {row.split(":")[0]: row for row in (TOP / "crates.txt").read_text().splitlines() if ":" in row}
    below = crates_below(rows, used)
    folder.mkdir()
    (folder / "crates.txt").write_text("".join(f"{row}\n" for name, row in rows.items() if name in below) + f"driver: {' '.join(used)}\n")
    for name in below:
        shutil.copytree(TOP / "crates" / name, folder / "crates" / name, ignore=shutil.ignore_patterns("out"))
    (folder / "crates/driver/src").mkdir(parents=True)
    shutil.copyfile(driver, folder / "crates/driver/src/main.rt")


def link_all(installed, folder, apart):
    """A folder of links to all that another one has, but for these."""
    folder.mkdir()
    for path in installed.iterdir():
        if path.name not in apart:
            (folder / path.name).symlink_to(path)


def copy_kit(installed, folder, kept):
    """A kit of links to the installed one, whose clang keeps the modules that it is given."""
    link_all(installed, folder, ["bin", "toolchain"])
    # These find their kit by where they are.
    link_all(installed / "bin", folder / "bin", ["rt", "rtlib.py"])
    for name in ("rt", "rtlib.py"):
        shutil.copy(installed / "bin" / name, folder / "bin" / name)
    link_all(installed / "toolchain", folder / "toolchain", ["bin"])
    link_all(installed / "toolchain/bin", folder / "toolchain/bin", ["clang"])
    clang = folder / "toolchain/bin/clang"
    clang.write_text(KEEPING.format(kept=kept, clang=installed / "toolchain/bin/clang"))
    clang.chmod(0o755)


def module_of(folder, installed, driver, used):
    """The module that `rt try` makes of a driver, which it runs on nothing."""
    kept = folder / "kept"
    kept.mkdir()
    copy_crates(folder / "copy", driver, used)
    copy_kit(installed, folder / "kit", kept)
    run([folder / "kit/bin/rt", "try"], cwd=folder / "copy/crates/driver", stdin=subprocess.DEVNULL)
    return max(kept.glob("*.bc"), key=lambda path: path.stat().st_size)


def for_threads(folder, compiler, module):
    """The module with each function marked for ThreadSanitizer: `rt try` marks it for the one of addresses."""
    text = folder / "module.ll"
    run([*compiler, "-S", "-emit-llvm", "-Xclang", "-disable-llvm-passes", "-x", "ir", module, "-o", text])
    text.write_text(text.read_text().replace(" sanitize_address ", " sanitize_thread "))
    return text


def build(program, driver, used, is_sanitized=False):
    """Makes a program of a driver that uses these crates, or one for ThreadSanitizer, by clang-19."""
    installed = pathlib.Path(run(["rt", "doc"]).strip()).parent
    with tempfile.TemporaryDirectory() as name:
        folder = pathlib.Path(name)
        module = module_of(folder, installed, driver, used)
        compiler, linker, flags = [installed / "toolchain/bin/clang", "--no-default-config", "-march=x86-64"], "cc", ["-O2"]
        if is_sanitized:
            linker, flags = "clang-19", ["-O1", "-fsanitize=thread"]
            module = for_threads(folder, compiler, module)
        run([*compiler, *flags, "-fPIE", "-ffunction-sections", "-w", "-c", "-x", "ir", module, "-o", folder / "driver.o"])
        libraries = [installed / "c" / name for name in ("libos_c.a", "liblibc_c.a")]
        run([linker, *flags, "-pie", "-pthread", "-Wl,--gc-sections", folder / "driver.o", *libraries, "-o", program])

"""Where the prover's kit is, and what crates.txt says of the crates: for prove_changed and try."""
import importlib.machinery
import importlib.util
import pathlib
import shutil
import subprocess

TOP = pathlib.Path(__file__).resolve().parents[2]


class Stop(Exception):
    """Nothing is done, and why."""


def kit():
    """The folder of the prover, and its one-line identity."""
    prover = shutil.which("rt")
    if prover is None:
        raise Stop("rt is not there")
    said = subprocess.run([prover, "version"], stdout=subprocess.PIPE, text=True, check=True).stdout.strip()
    return pathlib.Path(prover).resolve().parent.parent, said


def load_rtlib(kit_folder):
    """The module of rt, which knows of which sources a library is, and what a program is made of."""
    loader = importlib.machinery.SourceFileLoader("rtlib", str(kit_folder / "bin" / "rtlib.py"))
    module = importlib.util.module_from_spec(importlib.util.spec_from_loader("rtlib", loader))
    loader.exec_module(module)
    return module


def rows_of(top):
    """Each crate of crates.txt with what it uses, and the names of those that are libraries for C."""
    lines = [line.partition("#")[0].partition(":") for line in (top / "crates.txt").read_text().splitlines()]
    heads = {head.split()[0]: (head.split()[1:], uses.split()) for head, colon, uses in lines if colon}
    return {name: uses for name, (_, uses) in heads.items()}, {name for name, (kinds, _) in heads.items() if "staticlib" in kinds}


def crates_below(rows, crate):
    """The crates of the repository below one, each once, lowest first."""
    found = []
    for name in rows[crate]:
        if name in rows:
            found += [each for each in [*crates_below(rows, name), name] if each not in found]
    return found

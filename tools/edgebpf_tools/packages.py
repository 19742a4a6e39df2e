"""The packages of others that only some companions need."""
import importlib
import os
import pathlib
import re
import sys

from edgebpf_tools import ends
from edgebpf_tools.refusal import Refusal, needs_package

TOP = pathlib.Path(__file__).resolve().parent.parent.parent
# Where the Python package is in a checkout, which comes first, and where `make install-python` puts it.
RELEASE = [TOP / "dist" / "PROVED", TOP / "PROVED"]
CHECKOUT, INSTALLED = TOP / "bindings" / "python", TOP.parent / "python3" / "dist-packages"


def package(name, what, debian):
    """A module, or the refusal that names Debian's package. A signal waits meanwhile: some packages take one for a fault of theirs."""
    with ends.Signals.held():
        try:
            return importlib.import_module(name)
        except ImportError:
            raise needs_package(what, debian) from None


def numpy():
    return package("numpy", "numpy, which reads and sorts columns of numbers,", "python3-numpy")


def distributed():
    return package("distributed", "Dask's distributed scheduler", "python3-distributed")


def has_package(folder):
    return os.path.isdir(os.path.join(folder, "edgebpf")) and folder not in sys.path


def edgebpf():
    """The Python package of the same release. Processes that are started get its place with the path of this one."""
    numpy()
    sys.path[:] = [*filter(has_package, [str(CHECKOUT)]), *sys.path, *filter(has_package, [str(INSTALLED)])]
    found = package("edgebpf", "the Python package edgebpf", "python3-edgebpf")
    release = re.search("^release: (.*)", next(path for path in RELEASE if path.exists()).read_text(), re.M)[1]
    if found.__version__ != release:
        raise Refusal(f"the Python package edgebpf is {found.__version__}, and this is {release}; take both of one release: apt-get install python3-edgebpf")
    return found


def own_source():
    """Its module that tells what a program asks about."""
    edgebpf()
    return importlib.import_module("edgebpf.own_source")

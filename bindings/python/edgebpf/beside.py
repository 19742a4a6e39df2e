"""Modules that lie beside the programs of edgebpf, which this package takes rather than have them twice."""
from __future__ import annotations

import functools
import importlib
import importlib.util
import os
import pathlib
import sys
from typing import Any

from edgebpf.errors import Error
from edgebpf.programs import command

READS_EDGES = "edgebpf-import"


@functools.cache
def module(package: str, name: str, program: str = READS_EDGES) -> Any:
    """A module of a package that lies beside a program. Raises `Error` if it is not there, or of another release."""
    folder = pathlib.Path(os.path.realpath(command(program))).parent / package
    try:
        if package not in sys.modules:
            spec = importlib.util.spec_from_file_location(package, folder / "__init__.py", submodule_search_locations=[str(folder)])
            if spec is None or spec.loader is None:
                raise ImportError(f"{folder} is no package")
            sys.modules[package] = importlib.util.module_from_spec(spec)
            spec.loader.exec_module(sys.modules[package])
        return importlib.import_module(f"{package}.{name}")
    except (ImportError, OSError) as error:
        raise Error(f"{folder} has no {name}: {error}; take edgebpf and the package of one release") from None

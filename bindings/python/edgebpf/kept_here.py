"""Objects that belong to their process: they are not pickled, and say so."""
from __future__ import annotations

from typing import NoReturn, TypeVar

Self = TypeVar("Self", bound="KeptHere")


class KeptHere:
    """What has memory or a process behind it. `copy.copy` gives another object over the same, and `pickle` and `copy.deepcopy` a `TypeError`."""

    # What the error calls it, and what to do in place of that.
    _called, _instead = "it", ""

    def __copy__(self: Self) -> Self:
        other = type(self).__new__(type(self))
        other.__dict__.update(self.__dict__)
        return other

    def __reduce__(self) -> NoReturn:
        raise TypeError(f"{self._called} is not pickled: it belongs to this process{self._instead}")

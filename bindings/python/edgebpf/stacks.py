"""Calls that take more of the stack than a thread may have: 220 KB, where threads of a host may have 64 KB."""
from __future__ import annotations

import ctypes
import threading
from collections.abc import Callable
from typing import Any

from edgebpf.errors import NoMemory

# A thread with a stack of so many bytes makes such a call itself, beside what Python takes of it; another one has it made by a thread
# of its own.
ENOUGH = 512 << 10
# More than pthread_attr_t has on any machine.
ATTRIBUTE_BYTES = 256


class Own(threading.local):
    """What is known of each thread."""

    has_room: bool | None = None


own = Own()
starting = threading.Lock()


def size() -> int:
    """The bytes of this thread's stack; 0 if the system does not say."""
    system = ctypes.CDLL(None)
    attributes, found = ctypes.create_string_buffer(ATTRIBUTE_BYTES), ctypes.c_size_t()
    try:
        system.pthread_self.restype = ctypes.c_ulong
        if system.pthread_getattr_np(ctypes.c_ulong(system.pthread_self()), attributes):
            return 0
        system.pthread_attr_getstacksize(attributes, ctypes.byref(found))
        system.pthread_attr_destroy(attributes)
    except AttributeError:
        return 0
    return found.value


def call(function: Callable[..., Any], *arguments: Any) -> Any:
    """What a function returns or raises that needs a deep stack."""
    if own.has_room is None:
        own.has_room = size() >= ENOUGH
    if own.has_room:
        return function(*arguments)
    return elsewhere(function, *arguments)


def elsewhere(function: Callable[..., Any], *arguments: Any) -> Any:
    """The same by a thread with enough stack."""
    returned: list[Any] = []
    raised: list[BaseException] = []

    def work() -> None:
        try:
            returned.append(function(*arguments))
        except BaseException as error:
            raised.append(error)

    thread = threading.Thread(target=work)
    with starting:
        before = threading.stack_size(2 * ENOUGH)
        try:
            thread.start()
        except RuntimeError as error:
            raise NoMemory(f"a thread with enough stack could not be started: {error}") from None
        finally:
            threading.stack_size(before)
    thread.join()
    if raised:
        raise raised[0]
    return returned[0]

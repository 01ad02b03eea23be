"""Memory that is lent to the library, without a copy where that is safe, and numbers that C's parameters hold."""

from __future__ import annotations

import copy
import ctypes
import operator
import sys
from typing import TYPE_CHECKING, Optional, Union

from ._library import library, library_with_lock

if sys.version_info >= (3, 12):
    from collections.abc import Buffer
elif TYPE_CHECKING:
    from typing_extensions import Buffer
else:
    Buffer = Union[bytes, bytearray, memoryview]


class Lent:
    """Memory that is lent to the library for a while, with the library that may read it.

    On leaving, the memory is given back: a bytearray can be resized again, also while an exception is handled.
    """

    def __init__(self, data: Buffer) -> None:
        with memoryview(data) as given:
            self.view = as_bytes(given)
            itemsize = max(1, given.itemsize)
        self.size = self.view.nbytes
        self.items = self.size // itemsize
        self.keeper: Optional[object] = None
        self.address: Optional[int] = None
        if self.view.readonly:
            self.library = library
            whole = whole_bytes(self.view)
            self.keeper = whole
            self.view = memoryview(whole)
            self.address = ctypes.cast(whole, ctypes.c_void_p).value
        else:
            self.library = library_with_lock
            if self.size != 0:
                first = ctypes.c_char.from_buffer(self.view)
                self.keeper = first
                self.address = ctypes.addressof(first)

    def __enter__(self) -> Lent:
        return self

    def __exit__(self, *_: object) -> None:
        self.keeper = None
        self.view = memoryview(b"")

    def part(self, start: int, length: int) -> Lent:
        """A part of the same bytes, without a copy; for as long as the whole is lent."""
        part = copy.copy(self)
        part.view = self.view[start:start + length]
        part.items = part.size = length
        part.address = (self.address or 0) + start
        return part


def as_bytes(given: memoryview) -> memoryview:
    """The same memory as single bytes; where it has gaps or an unusual format, a copy."""
    try:
        return given.cast("B")
    except TypeError:
        return memoryview(given.tobytes())


def whole_bytes(given: memoryview) -> bytes:
    """The bytes object that read-only memory is the whole of; of other memory a copy."""
    if isinstance(given.obj, bytes) and len(given.obj) == given.nbytes:
        return given.obj
    return given.tobytes()


def within(number: int, least: int, most: int, other: int) -> int:
    """The number, if C's parameter holds it; else another that is out of the rules' range too."""
    number = operator.index(number)
    return number if least <= number <= most else other

"""Files: opened once and read by name, and the calls that look at a file's bytes each time."""

from __future__ import annotations

import builtins
import ctypes
import os
from collections.abc import Iterator, Mapping
from typing import NamedTuple, Optional, Union, cast, overload

from ._columns import Column, FixedPoint, Floats, Integers, decode_fixed_point, decode_lent
from ._memory import Buffer, Lent, as_bytes, whole_bytes, within
from ._names import (
    FloatListName, FloatListsName, FloatName, FloatsName, IntegerListName, IntegerName, IntegersName, MapsName, StringsName,
    TextName,
)
from ._receipts import receipt
from ._refusals import Refusal, refuse
from ._tables import FIELDS, FILE_LIMIT
from ._values import Value, value_of

# The value of a named field: of a column an array or a list of str, of any other field a value with its lists by type.
FieldValue = Union[
    int, float, str, Integers, Floats, list[str], list[int], list[float], list[list[float]], list[dict[str, Value]],
]
# A key, as text or as its bytes.
Name = Union[str, Buffer]


class Part(NamedTuple):
    """A part of a file: where it starts, and how many bytes it has."""

    start: int
    length: int


class File(Mapping[str, FieldValue]):
    """A file that is checked once, when it is made, and then gives the values of its named fields, a mapping by name.

    Its keys are the names of those fields that the file has, in the order of the fields; a refused file has none. A value
    is read from the file's bytes each time it is asked for:

    int32, int8 columns     array of 'i', 'b'
    float32 columns         array of 'f'; `fixed_point` gives the integers of a fixed point column instead
    chars, strings          list of str; a cell of chars is one character, "\\0" too
    any other field         an int, a float, a str, or a list or dict of these

    >>> file = File(bytes([0x80]))
    >>> file.accepted, file.verdict.value, len(file)
    (False, 12, 0)
    >>> file["title"]
    Traceback (most recent call last):
        ...
    nozhuiteca.RefusedError: The file is refused with 12: a required field is missing.

    A value of a refused file is a RefusedError. A name that is not that of a field in the file is a KeyError.

    The bytes are kept, and must not change: a bytearray keeps its size for as long as there is the file.
    """

    def __init__(self, data: Buffer) -> None:
        with memoryview(data) as given:
            self._data: Buffer = whole_bytes(as_bytes(given)) if given.readonly else data
        self._bytes = as_bytes(memoryview(self._data)).toreadonly()
        self._verdict, self._parts = _open(self._data)

    @property
    def verdict(self) -> Refusal:
        """The verdict on the file: ACCEPTED, or the first rule it breaks."""
        return self._verdict

    @property
    def accepted(self) -> bool:
        """Whether the verdict is ACCEPTED."""
        return self._verdict.accepted

    @overload
    def __getitem__(self, name: TextName) -> str: ...
    @overload
    def __getitem__(self, name: IntegerName) -> int: ...
    @overload
    def __getitem__(self, name: FloatName) -> float: ...
    @overload
    def __getitem__(self, name: IntegersName) -> Integers: ...
    @overload
    def __getitem__(self, name: FloatsName) -> Floats: ...
    @overload
    def __getitem__(self, name: StringsName) -> list[str]: ...
    @overload
    def __getitem__(self, name: IntegerListName) -> list[int]: ...
    @overload
    def __getitem__(self, name: FloatListName) -> list[float]: ...
    @overload
    def __getitem__(self, name: FloatListsName) -> list[list[float]]: ...
    @overload
    def __getitem__(self, name: MapsName) -> list[dict[str, Value]]: ...
    @overload
    def __getitem__(self, name: str) -> FieldValue: ...

    def __getitem__(self, name: str) -> FieldValue:
        """The value of a named field. Reals that are not exact in single precision are refused with 27."""
        part = self._part(name)
        kind = FIELDS[name]
        if kind == "text":
            return self._view(part).tobytes().decode("utf-8")
        if kind == "value":
            return cast(FieldValue, value_of(self._view(part)))
        with Lent(self._data) as file, file.part(*part) as lent:
            found = decode_lent(lent, kind, f'The column "{name}"')
        return list(found) if isinstance(found, str) else cast(FieldValue, found)

    def __iter__(self) -> Iterator[str]:
        return iter(self._parts)

    def __len__(self) -> int:
        return len(self._parts)

    def __contains__(self, name: object) -> bool:
        return name in self._parts

    def __repr__(self) -> str:
        return f"<nozhuiteca.File of {len(self._bytes)} bytes, {self._verdict}, with {len(self)} named fields>"

    def fixed_point(self, name: str) -> FixedPoint:
        """The integers and the divisor of a fixed point column, with nothing lost. A column of another codec is refused
        with 15."""
        part = self._part(name)
        with Lent(self._data) as file, file.part(*part) as lent:
            return decode_fixed_point(lent, f'The column "{name}"')

    def view(self, name: str) -> memoryview:
        """The part of the file under an outer key, read-only, whether the field is named or not: of a string or a binary
        its body, of any other value the whole. A part of the file's own memory, not a copy."""
        if name in FIELDS or not self.accepted:
            return self._view(self._part(name))
        with Lent(self._data) as file:
            refusal, part = _find(file, name)
        if refusal == Refusal.NO_SUCH_FIELD:
            raise KeyError(name)
        return self._view(part)

    def receipt(self, station: int, job: int) -> bytes:
        """The receipt of the file, by a station and its job, as `nozhuiteca.receipt` writes it."""
        return receipt(self._data, station, job)

    def _part(self, name: str) -> Part:
        refuse(self._verdict, "The file")
        return self._parts[name]

    def _view(self, part: Part) -> memoryview:
        return self._bytes[part.start:part.start + part.length]


def open(path: Union[str, bytes, os.PathLike[str], os.PathLike[bytes]]) -> File:
    """Reads and checks the file at a path. A refused file is no exception: `verdict` says it. A path that cannot be read
    is an OSError, as it is of Python's own open."""
    with builtins.open(path, "rb") as stream:
        return File(stream.read(FILE_LIMIT + 1))


def read(data: Buffer) -> File:
    """Checks a file whose bytes are in memory.

    >>> read(bytes([0xc0])).verdict.name
    'LEAD_BYTE_UNKNOWN'
    """
    return File(data)


def verdict(data: Buffer) -> Refusal:
    """The verdict on a whole file: container, fields, columns and counts.

    >>> print(verdict(bytes([0xc0])))
    refused with 3: a lead byte is not in the subset
    """
    with Lent(data) as file:
        return Refusal(file.library.mmtf_verdict(file.address, file.size))


def container(data: Buffer) -> Refusal:
    """The verdict on a file's container alone; fields, columns and counts are not looked at.

    >>> container(bytes([0x80])).accepted
    True
    """
    with Lent(data) as file:
        return Refusal(file.library.mmtf_container(file.address, file.size))


def fields(data: Buffer) -> dict[str, Part]:
    """The named fields of a file and the part of each, as `view` finds it, in the order of the fields, in one call.
    Refused with the file's verdict, 1 to 24.

    >>> fields(bytes([0x80]))
    Traceback (most recent call last):
        ...
    nozhuiteca.RefusedError: The file is refused with 12: a required field is missing.
    """
    refusal, parts = _open(data)
    refuse(refusal, "The file")
    return parts


def view(data: Buffer, name: Name) -> memoryview:
    """The part of a file that holds the value of an outer key, read-only: of a string or a binary its body, of any other
    value the whole, lead byte included. It is a part of the memory of `data`, not a copy; a bytearray keeps its size
    for as long as there is a view of it.

    >>> file = bytes([0x81, 0xa5]) + b"title" + bytes([0xa3]) + b"RNA"
    >>> bytes(view(file, "title"))
    b'RNA'

    Refused with the container's number, 1 to 11, or with 26 where there is no such key.
    """
    with Lent(data) as file:
        refusal, part = _find(file, name)
    refuse(refusal, f'The view of "{_text(name)}"')
    return as_bytes(memoryview(data)).toreadonly()[part.start:part.start + part.length]


def column(data: Buffer, name: Name, kind: Optional[str] = None) -> Column:
    """The values of a file's column, as `decode` gives them. The kind is that of the named field (`FIELDS`); of another
    name that of the column's codec. With kind "fixed_point" coordinates come as integers and divisor.

    >>> from nozhuiteca import encode
    >>> file = bytes([0x81, 0xab]) + b"groupIdList" + bytes([0xc4, 20]) + encode([5, 5, 5], 7)
    >>> column(file, "groupIdList")
    array('i', [5, 5, 5])

    Refused as `view` and `decode` are.
    """
    with Lent(data) as file:
        refusal, part = _find(file, name)
        refuse(refusal, f'The view of "{_text(name)}"')
        if kind is None and FIELDS.get(_text(name)) not in ("text", "value"):
            kind = FIELDS.get(_text(name))
        with file.part(*part) as found:
            return decode_lent(found, kind, f'The column "{_text(name)}"')


def matrix(data: Buffer, assembly: int, transform: int) -> tuple[tuple[float, ...], ...]:
    """The matrix of a transform of a file, four rows of four; both numbers are counted from 0.

    Refused with the container's number, 1 to 11; with 26 where there is no bioAssemblyList; with 13 where that is not of
    its type; with 28 where there is no such assembly or transform.
    """
    place = within(assembly, 0, 2**64 - 1, 2**64 - 1), within(transform, 0, 2**64 - 1, 2**64 - 1)
    rows = (ctypes.c_float * 4 * 4)()
    with Lent(data) as file:
        refusal = file.library.mmtf_matrix(file.address, file.size, *place, rows)
    refuse(refusal, "The matrix")
    return tuple(tuple(row) for row in rows)


def _open(data: Buffer) -> tuple[Refusal, dict[str, Part]]:
    """The verdict on a file, and the parts of its named fields; of a refused file none."""
    presence = ctypes.c_uint64()
    starts, lengths = (ctypes.c_uint64 * len(FIELDS))(), (ctypes.c_uint64 * len(FIELDS))()
    with Lent(data) as file:
        number = file.library.mmtf_fields(file.address, file.size, presence, starts, lengths, len(FIELDS))
    return Refusal(number), {
        name: Part(starts[place], lengths[place])
        for place, name in enumerate(FIELDS) if presence.value >> place & 1
    }


def _find(file: Lent, name: Name) -> tuple[int, Part]:
    """The answer about an outer key, and the part of the file that holds its value."""
    key = _name(name)
    start, length = ctypes.c_uint64(), ctypes.c_uint64()
    refusal = file.library.mmtf_view(file.address, file.size, key, len(key), start, length)
    return refusal, Part(start.value, length.value)


def _name(name: Name) -> bytes:
    """A key's bytes. A lone surrogate becomes bytes that are not UTF-8, as no key of a file is."""
    return name.encode("utf-8", "surrogatepass") if isinstance(name, str) else bytes(memoryview(name))


def _text(name: Name) -> str:
    """A key's text, for a sentence and for the table of fields."""
    return _name(name).decode("utf-8", "backslashreplace")

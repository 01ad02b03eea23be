"""Values of a file as Python values: the MessagePack reading of a part of a file that the library has accepted.

The library has decided that these bytes are one value, and where they start and end. Nothing is accepted or refused here:
bytes that are not one value, which no accepted file has, are a ValueError.
"""

from __future__ import annotations

import struct
from typing import Union

Value = Union[int, float, str, bytes, "list[Value]", "dict[str, Value]"]

# Kind and bytes of the number of each lead byte that a number follows. Kinds: integer with a sign or without, float,
# string, binary, array, map.
_HEADS = {
    0xC4: ("binary", 1), 0xC5: ("binary", 2), 0xC6: ("binary", 4), 0xCA: ("float", 4),
    0xCC: ("unsigned", 1), 0xCD: ("unsigned", 2), 0xCE: ("unsigned", 4),
    0xD0: ("signed", 1), 0xD1: ("signed", 2), 0xD2: ("signed", 4),
    0xD9: ("string", 1), 0xDA: ("string", 2), 0xDB: ("string", 4),
    0xDC: ("array", 2), 0xDD: ("array", 4), 0xDE: ("map", 2), 0xDF: ("map", 4),
}


def value_of(part: memoryview) -> Value:
    """The value whose bytes these are.

    >>> value_of(memoryview(bytes.fromhex("92a3524e41ca3fc00000")))
    ['RNA', 1.5]
    """
    value, end = _value(part.tobytes(), 0)
    if end != len(part):
        raise ValueError("There are bytes after the value.")
    return value


def _value(data: bytes, at: int) -> tuple[Value, int]:
    """The value that starts at a place, and where it ends."""
    kind, number, at = _head(data, at)
    if kind in ("unsigned", "signed"):
        return number, at
    if kind == "float":
        return struct.unpack(">f", number.to_bytes(4, "big"))[0], at
    if kind == "string":
        return _take(data, at, number).decode("utf-8"), at + number
    if kind == "binary":
        return _take(data, at, number), at + number
    return _values(data, at, number) if kind == "array" else _entries(data, at, number)


def _values(data: bytes, at: int, count: int) -> tuple[list[Value], int]:
    """The values of an array, and where it ends."""
    values = []
    for _ in range(count):
        value, at = _value(data, at)
        values.append(value)
    return values, at


def _entries(data: bytes, at: int, count: int) -> tuple[dict[str, Value], int]:
    """The entries of a map, and where it ends."""
    entries: dict[str, Value] = {}
    for _ in range(count):
        key, at = _value(data, at)
        if not isinstance(key, str) or key in entries:
            raise ValueError("A key is no string, or is repeated.")
        entries[key], at = _value(data, at)
    return entries, at


def _head(data: bytes, at: int) -> tuple[str, int, int]:
    """The kind of the value at a place, the number of its head, and where the head ends."""
    lead = _take(data, at, 1)[0]
    if lead < 0x80:
        return "unsigned", lead, at + 1
    if lead < 0x90:
        return "map", lead - 0x80, at + 1
    if lead < 0xA0:
        return "array", lead - 0x90, at + 1
    if lead < 0xC0:
        return "string", lead - 0xA0, at + 1
    if lead >= 0xE0:
        return "signed", lead - 0x100, at + 1
    if lead not in _HEADS:
        raise ValueError(f"{lead:#x} begins no value.")
    kind, width = _HEADS[lead]
    return kind, int.from_bytes(_take(data, at + 1, width), "big", signed=kind == "signed"), at + 1 + width


def _take(data: bytes, at: int, size: int) -> bytes:
    """Bytes from a place on."""
    taken = data[at:at + size]
    if len(taken) != size:
        raise ValueError("The value is cut short.")
    return taken

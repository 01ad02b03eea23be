"""Columns: header, decoding, one cell, encoding."""

from __future__ import annotations

import array
import ctypes
import dataclasses
import math
from collections.abc import Iterable, Sequence
from typing import TYPE_CHECKING, NamedTuple, Optional, Union, cast

from ._memory import Buffer, Lent, within
from ._refusals import Refusal, refuse
from ._tables import CELL_CHARACTER, CELL_FLOAT, CODECS, HEADER_SIZE, LENGTH_LIMIT

if TYPE_CHECKING:
    Integers = array.array[int]
    Floats = array.array[float]
else:
    Integers = Floats = array.array

_KINDS = ("int32", "int16", "int8", "float32", "fixed_point", "chars", "strings")

# The bytes of a run, which no result of a column that is not packed is longer than, but for names; and of the longest
# column of runs, which is as long as a packed column may get.
_RUN_SIZE = 8
_COLUMN_ROOM = HEADER_SIZE + _RUN_SIZE * LENGTH_LIMIT


class Header(NamedTuple):
    """What the first twelve bytes of a column say: codec, number of results, and the codec's parameter."""

    codec: int
    length: int
    parameter: int


@dataclasses.dataclass(frozen=True)
class FixedPoint:
    """A fixed point column: integers, and the divisor of all of them. Nothing is divided here, so that nothing is lost."""

    values: Sequence[int]
    divisor: int


# What `decode` gives, and what `encode` takes.
Column = Union[Integers, Floats, FixedPoint, str, list[str]]
Elements = Union[Iterable[int], Iterable[float], Iterable[str], FixedPoint, str, Buffer]


def header(column: Buffer) -> Header:
    """The header of a column of any kind. A parameter that the codec does not use is 0.

    >>> header(encode(["A", "B"], 5))
    Header(codec=5, length=2, parameter=4)

    Refused with 14 to 17; the payload's numbers are not looked at.
    """
    with Lent(column) as lent:
        refusal, found = _header(lent)
    refuse(refusal, "The column")
    return found


def decode(column: Buffer, kind: Optional[str] = None) -> Column:
    """The values of a column, by its kind; without one, the kind of its codec (`CODECS`).

    int32, int16, int8    array of 'i', 'h', 'b'
    float32               array of 'f', with every bit of codec 1; of codecs 9 to 13 one division each
    fixed_point           FixedPoint: an array of 'i', and the divisor
    chars                 a str with one character to a cell
    strings               a list of str, without the 0 bytes at their ends

    >>> decode(bytes([0,0,0,10, 0,0,0,3, 0,0,3,0xe8, 0x7f,0xff, 0x44,0xab, 0x01,0x8f, 0xff,0xca]))
    FixedPoint(values=array('i', [50346, 50745, 50691]), divisor=1000)

    Refused with the column's own number, 14 to 19, or with 27 where floats are asked for.
    """
    with Lent(column) as lent:
        return decode_lent(lent, kind, "The column")


def cell(column: Buffer, index: int) -> Union[int, str, float]:
    """The one cell at an index, counted from 0: an int, a character, or a float.

    >>> cell(encode("AAB", 6), 2)
    'B'

    Refused with the column's own number, 14 to 19; with 15 for strings; with 28 for an index that is not below the
    length, also a negative one; with 27 for a fixed point number that is not exact in single precision.
    """
    index = within(index, 0, 2**64 - 1, 2**64 - 1)
    kind, integer, real = ctypes.c_uint8(), ctypes.c_int32(), ctypes.c_float()
    with Lent(column) as lent:
        refusal = lent.library.mmtf_cell(lent.address, lent.size, index, kind, integer, real)
    refuse(refusal, "The cell")
    if kind.value == CELL_FLOAT:
        return real.value
    return chr(integer.value) if kind.value == CELL_CHARACTER else integer.value


def encode(values: Elements, codec: int, *, size: int = 4) -> bytes:
    """The column of the values by a codec. It takes what `decode` gives for the codec's kind, and any iterable of numbers
    where that is an array; codecs 9 to 13 take a FixedPoint. The size is that of names, for codec 5 alone. Floats are
    rounded to single precision; the bits of an array of 'f' are kept.

    >>> encode(FixedPoint([100, 100], 10), 9).hex()
    '00000009000000020000000a0000006400000002'
    >>> encode([128], 2)
    Traceback (most recent call last):
        ...
    nozhuiteca.RefusedError: The column is refused with 18: a number in a column is not allowed.

    Refused with 15 for a codec that there is not; 16 for more than 16,777,216 results, a divisor or a size out of range;
    18 for an element that the codec cannot hold, also a name longer than the size; 25 for a packed column of more than
    134,217,740 bytes, which the longest column of runs has.
    """
    codec = within(codec, -2**31, 2**31 - 1, 0)
    kind = CODECS.get(codec)
    if kind is None:
        return _encode("int32", codec, (), array.array("i"))
    if kind == "fixed_point":
        return _encode_fixed_point(values, codec)
    if kind == "float32":
        return _encode(kind, codec, (), *_floats(cast("Iterable[float]", values)))
    if kind == "chars":
        return _encode_chars(cast("Union[str, Buffer]", values), codec)
    if kind == "strings":
        return _encode_strings(cast("Iterable[str]", values), codec, size)
    return _encode(kind, codec, (), *_integers(cast("Iterable[int]", values)))


def _header(lent: Lent) -> tuple[int, Header]:
    """The answer about a column's header, and the header; of a refused one zeros."""
    codec, length, parameter = ctypes.c_int32(), ctypes.c_int32(), ctypes.c_int32()
    refusal = lent.library.mmtf_header(lent.address, lent.size, codec, length, parameter)
    return refusal, Header(codec.value, length.value, parameter.value)


def decode_lent(lent: Lent, kind: Optional[str], subject: str) -> Column:
    """Decodes a column by its kind; without one, by that of its codec."""
    if kind is None:
        refusal, found = _header(lent)
        refuse(refusal, subject)
        kind = CODECS[found.codec]
    if kind in ("int32", "int16", "int8"):
        return _decode_integers(lent, kind, subject)
    if kind == "float32":
        return _decode_floats(lent, subject)
    if kind == "fixed_point":
        return decode_fixed_point(lent, subject)
    if kind == "chars":
        return _decode_chars(lent, subject)
    if kind == "strings":
        return _decode_strings(lent, subject)
    raise ValueError(f'"{kind}" is no kind of column. The kinds are {", ".join(_KINDS)}.')


def _decode_integers(lent: Lent, kind: str, subject: str) -> Integers:
    """The library hands every integer over in 32 bits; an array of the kind's own width holds them all."""
    numbers = array.array("i", [0]) * _room(lent, kind).length
    _fill(lent, kind, subject, numbers)
    typecode = {"int32": "i", "int16": "h", "int8": "b"}[kind]
    return numbers if typecode == "i" else array.array(typecode, numbers)


def _decode_floats(lent: Lent, subject: str) -> Floats:
    floats = array.array("f", [0.0]) * _room(lent, "float32", "fixed_point").length
    _fill(lent, "float32", subject, floats)
    return floats


def decode_fixed_point(lent: Lent, subject: str) -> FixedPoint:
    """The integers and the divisor of a fixed point column."""
    numbers = array.array("i", [0]) * _room(lent, "fixed_point").length
    divisor = ctypes.c_int32()
    _fill(lent, "fixed_point", subject, numbers, divisor)
    return FixedPoint(numbers, divisor.value)


def _decode_chars(lent: Lent, subject: str) -> str:
    characters = bytearray(_room(lent, "chars").length)
    _fill(lent, "chars", subject, characters)
    return characters.decode("ascii")


def _decode_strings(lent: Lent, subject: str) -> list[str]:
    found = _room(lent, "strings")
    characters = bytearray(found.length * found.parameter)
    _fill(lent, "strings", subject, characters)
    names = (characters[at:at + found.parameter] for at in range(0, len(characters), found.parameter))
    return [name.rstrip(b"\0").decode("ascii") for name in names]


def _room(lent: Lent, *kinds: str) -> Header:
    """What the library says of a column's header, by which a buffer is made. Where the header is refused, or its codec is
    of another kind, there is no room: the decoder gives its own number, before it looks at the room."""
    found = _header(lent)[1]
    return found if CODECS.get(found.codec) in kinds else Header(0, 0, 1)


def _fill(
    lent: Lent, kind: str, subject: str, buffer: Union[Integers, Floats, bytearray], *more: ctypes.c_int32
) -> None:
    """Has the decoder of a kind fill a buffer, and cuts the buffer to what was filled."""
    count = ctypes.c_uint64()
    with Lent(buffer) as out:
        call = getattr(lent.library, f"mmtf_decode_{kind}")
        refusal = call(lent.address, lent.size, out.address, out.items, count, *more)
    refuse(refusal, subject)
    del buffer[count.value:]


def _encode(kind: str, codec: int, parameters: tuple[int, ...], elements: Buffer, fits: bool = True) -> bytes:
    """Has the encoder of a kind write a column, with more room as long as the library says that there is too little.

    Where C's type does not hold all elements, which is `fits`, what stands for them in `elements` is not written: the
    column is refused with 15 or 16, or else with 18."""
    written = ctypes.c_uint64()
    with Lent(elements) as lent:
        room = _first_room(kind, lent.items) if fits else 0
        while True:
            buffer = bytearray(room)
            with Lent(buffer) as out:
                call = getattr(lent.library, f"mmtf_encode_{kind}")
                refusal = call(codec, *parameters, lent.address, lent.items, out.address, out.size, written)
            if refusal != Refusal.BUFFER_TOO_SMALL or not fits or room >= _COLUMN_ROOM:
                break
            room = min(4 * room, _COLUMN_ROOM)
    if refusal == Refusal.BUFFER_TOO_SMALL and not fits:
        refusal = Refusal.NUMBER_NOT_ALLOWED
    refuse(refusal, "The column")
    return bytes(memoryview(buffer)[:written.value])


def _first_room(kind: str, items: int) -> int:
    """Bytes that are enough for every column but a packed one. The items of names are their bytes."""
    if kind == "strings":
        return HEADER_SIZE + items
    return min(HEADER_SIZE + _RUN_SIZE * items, _COLUMN_ROOM)


def _encode_fixed_point(values: object, codec: int) -> bytes:
    if not isinstance(values, FixedPoint):
        raise TypeError(f"Codec {codec} takes a FixedPoint: integers and their divisor.")
    divisor = within(values.divisor, -2**31, 2**31 - 1, 0)
    return _encode("fixed_point", codec, (divisor,), *_integers(values.values))


def _encode_chars(values: Union[str, Buffer], codec: int) -> bytes:
    return _encode("chars", codec, (), _characters(values) if isinstance(values, str) else bytes(memoryview(values)))


def _encode_strings(values: Iterable[str], codec: int, size: int) -> bytes:
    if isinstance(values, str):
        raise TypeError("Codec 5 takes a list of names, not one name.")
    size = within(size, 1, 255, 0)
    names = [_characters(name) for name in values]
    fits = all(len(name) <= size for name in names)
    return _encode("strings", codec, (size,), b"".join(name[:size].ljust(size, b"\0") for name in names), fits)


def _integers(values: Iterable[int]) -> tuple[Integers, bool]:
    """The values as 32-bit integers, and whether all of them are; if not, as many zeros."""
    if isinstance(values, array.array) and values.typecode == "i":
        return values, True
    numbers = list(values)
    try:
        return array.array("i", numbers), True
    except OverflowError:
        return array.array("i", [0]) * len(numbers), False


def _floats(values: Iterable[float]) -> tuple[Floats, bool]:
    """The values rounded to single precision, and whether none of them is beyond it; if one is, as many zeros."""
    if isinstance(values, array.array) and values.typecode == "f":
        return values, True
    given = list(values)
    try:
        floats = array.array("f", given)
        if any(math.isinf(rounded) and not math.isinf(value) for rounded, value in zip(floats, given)):
            raise OverflowError
        return floats, True
    except OverflowError:
        return array.array("f", [0.0]) * len(given), False


def _characters(text: str) -> bytes:
    """A text's characters as bytes; one above 127 stays above 127, so that it is refused with 18."""
    if not isinstance(text, str):
        raise TypeError(f"A name is a str, not {type(text).__name__}.")
    return text.encode("ascii") if text.isascii() else bytes(min(ord(character), 255) for character in text)

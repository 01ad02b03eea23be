"""What tests/c/dump.c writes about a file, by the Python package instead: the same text, byte for byte.

`of_file` asks every call about a file, and then treats the file itself and the value of each key as a column, which it
decodes by every kind and encodes again. A test writes the lines beside those of the C program and compares them.
"""

from __future__ import annotations

import array
import math
import struct
from typing import Any, Callable, Iterator

import nozhuiteca

# The named fields, a field that the structure files have besides, and names of none.
NAMES = (
    "mmtfVersion mmtfProducer numBonds numAtoms numGroups numChains numModels groupList xCoordList yCoordList zCoordList "
    "groupIdList groupTypeList chainIdList groupsPerChain chainsPerModel bondAtomList bondOrderList bFactorList atomIdList "
    "altLocList occupancyList secStructList insCodeList sequenceIdList chainNameList title structureId spaceGroup "
    "depositionDate releaseDate resolution rFree rWork unitCell experimentalMethods ncsOperatorList bioAssemblyList "
    "entityList"
).split() + ["sequenceIndexList", "", "noSuchField"]

# Integers are encoded by every codec of their kind if there are at most so many, none larger than this.
FEW, SMALL = 100, 100_000


def of_file(data: Any) -> Iterator[str]:
    """The lines of the text about a file."""
    yield f"file of {len(data)} bytes: container {nozhuiteca.container(data):d}, verdict {nozhuiteca.verdict(data):d}"
    yield from nozhuiteca.receipt(data, 7, 12).decode("ascii").splitlines()
    yield "bill" + answered(lambda bill: hexadecimal(bill.text.encode("ascii")), nozhuiteca.bill, data)
    yield "fields" + answered(fields, nozhuiteca.fields, data)
    yield from of_matrices(data)
    yield from of_column(data)
    for name in NAMES:
        yield f"view of {name}:" + answered(hexadecimal, nozhuiteca.view, data, name)
        try:
            part = nozhuiteca.view(data, name)
        except nozhuiteca.RefusedError:
            continue
        yield from of_column(part)


def of_matrices(data: Any) -> Iterator[str]:
    """The matrices of each assembly up to the first transform that there is not, up to an assembly without a first one."""
    assembly = transform = 0
    while True:
        answer = answered(matrix, nozhuiteca.matrix, data, assembly, transform)
        yield f"matrix {assembly} {transform}" + answer
        if "refused" not in answer:
            transform += 1
        elif transform == 0:
            return
        else:
            assembly, transform = assembly + 1, 0


def of_column(column: Any) -> Iterator[str]:
    """All that is asked of a column."""
    yield "header" + answered(lambda fields: "".join(f" {field}" for field in fields), nozhuiteca.header, column)
    own, length, parameter = struct.unpack(">iii", column[:12]) if len(column) >= 12 else (0, 0, 0)
    for kind in ("int32", "int16", "int8"):
        yield from there_and_back(column, own, kind, integers)
    yield from there_and_back(column, own, "fixed_point", fixed_point)
    yield from there_and_back(column, own, "float32", floats)
    yield from there_and_back(column, own, "chars", lambda text: hexadecimal(text.encode("ascii")))
    yield from there_and_back(column, own, "strings", lambda names: strings(names, parameter), parameter)
    length = max(0, length)
    for index in (0, length // 2, (length - 1) % 2**64, length):
        yield f"cell {index}" + answered(one_cell, nozhuiteca.cell, column, index)


def there_and_back(column: Any, own: int, kind: str, text: Callable[[Any], str], size: int = 4) -> Iterator[str]:
    """A column decoded to a kind, and encoded again: by its own codec, by others too if it has few and small integers."""
    try:
        values = nozhuiteca.decode(column, kind)
    except nozhuiteca.RefusedError as error:
        yield f"{kind} refused {error.number:d}"
        return
    yield kind + text(values)
    others = kind.startswith("int") and is_small(values) or kind == "fixed_point" and is_small(values.values)
    for codec in (codec for codec in nozhuiteca.CODECS if nozhuiteca.CODECS[codec] == kind):
        if codec == own or others:
            yield f"encoded by {codec}" + answered(hexadecimal, lambda: nozhuiteca.encode(values, codec, size=size))


def answered(text: Callable[[Any], str], call: Callable[..., Any], *words: Any) -> str:
    """The text of a call's result, or its refusal."""
    try:
        return text(call(*words))
    except nozhuiteca.RefusedError as error:
        return f" refused {error.number:d}"


def is_small(values: Any) -> bool:
    """Whether there are few integers, none of them large."""
    return len(values) <= FEW and all(-SMALL <= value <= SMALL for value in values)


def hexadecimal(data: Any) -> str:
    """Bytes in hexadecimal digits."""
    return " " + bytes(data).hex()


def fields(parts: dict[str, nozhuiteca.Part]) -> str:
    """The places of the named fields."""
    return "".join([f" {name} {start} {length}" for name, (start, length) in parts.items()]) + " "


def integers(values: Any) -> str:
    """Integers in decimal digits."""
    return "".join([f" {value}" for value in values])


def fixed_point(value: nozhuiteca.FixedPoint) -> str:
    """The divisor, and the integers."""
    return f" by {value.divisor}:" + integers(value.values)


def floats(values: array.array[float]) -> str:
    """Floats by their bits."""
    return "".join([f" {bits:08x}" for bits in array.array("I", values.tobytes())])


def strings(names: list[str], size: int) -> str:
    """Names with the 0 bytes at their ends."""
    return hexadecimal(b"".join(name.encode("ascii").ljust(size, b"\0") for name in names))


def single(value: float) -> str:
    """A float by its bits, but a NaN only as a NaN."""
    return " nan" if math.isnan(value) else " " + struct.pack(">f", value).hex()


def matrix(rows: Any) -> str:
    """The sixteen floats of a matrix, by rows."""
    return "".join(single(value) for row in rows for value in row) + " "


def one_cell(value: int | str | float) -> str:
    """A cell's kind and value."""
    if isinstance(value, float):
        return " float" + single(value)
    return f" character {ord(value)}" if isinstance(value, str) else f" integer {value}"

"""Files, columns, values and receipts made for the tests, without the package.

A document is written as MessagePack with long heads (`document`) or short ones (`shortest`). `structure` is a file with
nothing in it that is accepted, `refused_files` has one for each number of a verdict, and `generated_column`,
`generated_value`, `generated_run` and `damaged` make others by chance.
"""

from __future__ import annotations

import random
import struct
from typing import Any, Iterable, Iterator

# The bytes of a result of each codec where all have as many, and of a number where results are packed.
PLAIN_WIDTH = {1: 4, 2: 1, 3: 2, 4: 4, 11: 2}
PACKED_WIDTH = {10: 2, 12: 2, 13: 1, 14: 2, 15: 1}


def document(value: Any) -> bytes:
    """A value as MessagePack: an int, float, str, bytes, list or dict."""
    if isinstance(value, int):
        return b"\xd2" + struct.pack(">i", value)
    if isinstance(value, float):
        return b"\xca" + struct.pack(">f", value)
    if isinstance(value, str):
        text = value.encode()
        return b"\xda" + struct.pack(">H", len(text)) + text
    if isinstance(value, bytes):
        return b"\xc6" + struct.pack(">I", len(value)) + value
    if isinstance(value, list):
        return b"\xdc" + struct.pack(">H", len(value)) + b"".join(map(document, value))
    entries = b"".join(document(key) + document(entry) for key, entry in value.items())
    return b"\xde" + struct.pack(">H", len(value)) + entries


def shortest(value: Any) -> bytes:
    """A value as MessagePack with the shortest heads, and of two as short the one without a sign."""
    if isinstance(value, int):
        if -32 <= value < 128:
            return bytes([value % 256])
        forms = [("B", 0xCC, 2**8), ("b", 0xD0, 2**7), ("H", 0xCD, 2**16), ("h", 0xD1, 2**15), ("I", 0xCE, 2**32),
                 ("i", 0xD2, 2**31)]
        form, lead = next((form, lead) for form, lead, end in forms if (0 if form.isupper() else -end) <= value < end)
        return bytes([lead]) + struct.pack(">" + form, value)
    if isinstance(value, float):
        return document(value)
    if isinstance(value, (str, bytes)):
        body = value if isinstance(value, bytes) else value.encode()
        return head(len(body), *((0, 0, 0xC4) if isinstance(value, bytes) else (0xA0, 32, 0xD9))) + body
    if isinstance(value, list):
        return head(len(value), 0x90, 16, 0xDB) + b"".join(map(shortest, value))
    entries = b"".join(shortest(key) + shortest(entry) for key, entry in value.items())
    return head(len(value), 0x80, 16, 0xDD) + entries


def head(number: int, small: int, end: int, lead: int) -> bytes:
    """A head: a byte for a number below an end; else the lead byte for a byte, or the next for two, or for four. Arrays and
    maps have none for a byte."""
    if number < end:
        return bytes([small + number])
    if number < 2**8 and lead not in (0xDB, 0xDD):
        return struct.pack(">BB", lead, number)
    return struct.pack(">BH", lead + 1, number) if number < 2**16 else struct.pack(">BI", lead + 2, number)


def generated_value(chance: random.Random, depth: int) -> Any:
    """A value of any kind, its floats of single precision, its arrays and maps at most so deep."""
    kind = chance.randrange(6 if depth else 4)
    if kind == 0:
        return chance.choice([0, 127, 128, 255, 256, 65535, 65536, 2**31 - 1, -1, -32, -33, -128, -129, -32769, -2**31])
    if kind == 1:
        return struct.unpack(">f", struct.pack(">f", chance.gauss(0, 100)))[0]
    if kind == 2:
        return "".join(chance.choices("aé中\0\U0001f9ec", k=chance.choice([0, 1, 11, 40, 300])))
    if kind == 3:
        return chance.randbytes(chance.choice([0, 1, 40, 300]))
    inner = [generated_value(chance, depth - 1) for _ in range(chance.choice([0, 1, 3, 20]))]
    return inner if kind == 4 else {f"key {number}": value for number, value in enumerate(inner)}


def column(codec: int, length: int, parameter: int, payload: bytes = b"") -> bytes:
    """A column's bytes."""
    return struct.pack(">iii", codec, length, parameter) + payload


def parameter_of(codec: int) -> int:
    """A parameter that the codec takes: the size of names, a divisor, or 0 where there is none."""
    return 4 if codec == 5 else 1000 if 9 <= codec <= 13 else 0


def fields(**changes: Any) -> dict[str, Any]:
    """The fields of a structure with nothing in it, all 39, which is accepted; with some of them changed."""
    fixed, int32, int8, chars, strings = (column(codec, 0, parameter_of(codec)) for codec in (10, 7, 2, 6, 5))
    return {
        "mmtfVersion": "1.0.0", "mmtfProducer": "made", "numBonds": 0, "numAtoms": 0, "numGroups": 0, "numChains": 0,
        "numModels": 0, "groupList": [], "xCoordList": fixed, "yCoordList": fixed, "zCoordList": fixed, "groupIdList": int32,
        "groupTypeList": int32, "chainIdList": strings, "groupsPerChain": [], "chainsPerModel": [], "bondAtomList": int32,
        "bondOrderList": int8, "bFactorList": fixed, "atomIdList": int32, "altLocList": chars, "occupancyList": fixed,
        "secStructList": int8, "insCodeList": chars, "sequenceIdList": int32, "chainNameList": strings, "title": "",
        "structureId": "", "spaceGroup": "", "depositionDate": "", "releaseDate": "", "resolution": 1.0, "rFree": 1.0,
        "rWork": 1.0, "unitCell": [1.0] * 6, "experimentalMethods": [], "ncsOperatorList": [], "bioAssemblyList": [],
        "entityList": [], **changes,
    }


def structure(**changes: Any) -> bytes:
    """A structure with nothing in it as a file, with some fields changed."""
    return document(fields(**changes))


GROUP_TYPE = {
    "groupName": "", "singleLetterCode": "", "chemCompType": "",
    "formalChargeList": [], "atomNameList": [], "elementList": [],
}
ENTITY = {"chainIndexList": [0], "description": "", "type": "", "sequence": ""}


def refused_containers() -> dict[int, bytes]:
    """A file for each refusal of the container."""
    return {
        1: bytes(67_108_865),
        2: b"",
        3: b"\xc0",
        4: b"\x81\xa1a\xce\x80\x00\x00\x00",
        5: b"\x81\xa1a\xa1\xff",
        6: b"\x81\xa1a" + 12 * b"\x91" + b"\x00",
        7: b"\xde\x01\x01",
        8: b"\x81\x00\x00",
        9: b"\x82\xa1a\x00\xa1a\x00",
        10: b"\x90",
        11: b"\x80\x80",
    }


def refused_files() -> dict[int, bytes]:
    """A file for each number that a verdict can have."""
    return {
        **refused_containers(),
        12: b"\x80",
        13: structure(numAtoms="none"),
        14: structure(xCoordList=bytes(11)),
        15: structure(xCoordList=column(4, 0, 0)),
        16: structure(xCoordList=column(10, -1, 1000)),
        17: structure(xCoordList=column(10, 0, 1000, b"\x00")),
        18: structure(xCoordList=column(10, 1, 1000, b"\x7f\xff")),
        19: structure(xCoordList=column(10, 1, 1000, b"\x00\x01\x00\x01")),
        20: structure(numModels=1),
        21: structure(entityList=[ENTITY]),
        22: structure(numModels=-1),
        23: structure(groupList=4097 * [GROUP_TYPE]),
        24: structure(mmtfVersion="2.0"),
    }


def refused_columns() -> dict[int, bytes]:
    """An int32 column for each refusal of a decoder but 27, which floats have, and 25."""
    return {
        14: bytes(11),
        15: column(10, 0, 1000),
        16: column(14, 16_777_217, 0),
        17: column(14, 1, 0, b"\x00"),
        18: column(14, 1, 0, b"\x7f\xff"),
        19: column(14, 2, 0, b"\x00\x01"),
    }


def generated_column(chance: random.Random) -> bytes:
    """A column by a codec taken at random, most of them right, the others at fault somewhere."""
    codec = chance.randrange(1, 17)
    length, payload = PAYLOADS.get(codec, runs)(chance, codec)
    whole = column(codec, length, parameter_of(codec), payload)
    return whole if chance.random() < 0.7 else damaged(chance, whole)


def plain(chance: random.Random, codec: int) -> tuple[int, bytes]:
    """Results of equal size: how many, and the payload."""
    length = chance.randrange(12)
    return length, chance.randbytes(length * PLAIN_WIDTH[codec])


def names(chance: random.Random, _: int) -> tuple[int, bytes]:
    """Names of four bytes, with zeros at their ends."""
    length = chance.randrange(8)
    return length, b"".join(bytes(chance.choices(b"ABC", k=chance.randrange(5))).ljust(4, b"\0") for _ in range(length))


def packed(chance: random.Random, codec: int) -> tuple[int, bytes]:
    """Packed numbers, an end of the width among them now and then, and never last."""
    width = PACKED_WIDTH[codec]
    end = 2 ** (8 * width - 1)
    some = [-end, end - 1, 0, 1, -1, chance.randrange(1 - end, end - 1)]
    numbers = [*chance.choices(some, k=chance.randrange(12)), 0]
    length = sum(number not in (-end, end - 1) for number in numbers)
    return length, b"".join(number.to_bytes(width, "big", signed=True) for number in numbers)


def runs(chance: random.Random, codec: int) -> tuple[int, bytes]:
    """Runs of values that the codec takes."""
    least, most = {6: (0, 127), 16: (-128, 127)}.get(codec, (-2**31, 2**31 - 1) if chance.random() < 0.3 else (-1000, 1000))
    rows = [(chance.randint(least, most), chance.randrange(1, 30)) for _ in range(chance.randrange(6))]
    return sum(count for _, count in rows), b"".join(struct.pack(">ii", *row) for row in rows)


PAYLOADS = {**dict.fromkeys(PLAIN_WIDTH, plain), **dict.fromkeys(PACKED_WIDTH, packed), 5: names}


def receipt(station: int, job: int, verdict: int = 0) -> bytes:
    """A receipt; that of an accepted file is of one with nothing in it."""
    accepted = int(verdict == 0)
    numbers = {"station": station, "job": job, "verdict": verdict, "models": 0, "chains": 0, "groups": 0, "atoms": 0, "bonds": 0,
               "fields": 39 * accepted, "units": accepted}
    return "".join(f"{name}={number}\n" for name, number in numbers.items()).encode()


def run(rows: Iterable[tuple[int, int, int]]) -> bytes:
    """A run of receipts, given the station, the job and the verdict of each."""
    return b"".join(receipt(*row) for row in rows)


def generated_rows(chance: random.Random) -> list[tuple[int, int, int]]:
    """Stations, jobs and verdicts of receipts, the jobs rising within each station but not from one receipt to the next."""
    last: dict[int, int] = {}
    rows = []
    for _ in range(chance.randrange(30)):
        station = chance.choice((1, 2, 10, 98, 99))
        last[station] = last.get(station, 0) + chance.randint(1, 400)
        rows.append((station, last[station], chance.choice((0, 0, 1, 24))))
    return rows


def generated_run(chance: random.Random) -> bytes:
    """A run of receipts, most of them right, the others with a receipt twice or damaged somewhere."""
    rows = generated_rows(chance)
    if rows and chance.random() < 0.2:
        rows.insert(chance.randrange(len(rows)), chance.choice(rows))
    whole = run(rows)
    return damaged(chance, whole) if whole and chance.random() < 0.2 else whole


def damaged(chance: random.Random, whole: bytes) -> bytes:
    """The bytes with one of them replaced, removed or doubled, or cut."""
    at = chance.randrange(len(whole))
    return chance.choice([
        whole[:at] + chance.randbytes(1) + whole[at + 1:],
        whole[:at] + whole[at + 1:],
        whole[:at] + whole[at:at + 1] + whole[at:],
        whole[:at],
    ])


def damaged_copies(chance: random.Random, whole: bytes, many: int) -> Iterator[bytes]:
    """Copies of the same bytes, each damaged once."""
    for _ in range(many):
        yield damaged(chance, whole)

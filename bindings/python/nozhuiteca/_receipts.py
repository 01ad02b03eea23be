"""Receipts: written for a file, and read."""

from __future__ import annotations

import ctypes
import dataclasses

from ._memory import Buffer, Lent, within
from ._refusals import Refusal, refuse
from ._tables import RECEIPT_ROOM


@dataclasses.dataclass(frozen=True)
class Receipt:
    """The ten numbers of a receipt, in the order of its lines."""

    station: int
    job: int
    verdict: Refusal
    models: int
    chains: int
    groups: int
    atoms: int
    bonds: int
    fields: int
    units: int


def receipt(data: Buffer, station: int, job: int) -> bytes:
    """The receipt of a file, by a station and its job. A refused file gets one too: its verdict is in it.

    >>> receipt(bytes([0x80]), 7, 12).decode().splitlines()[:3]
    ['station=7', 'job=12', 'verdict=12']

    Refused with 29 if the station is not 1 to 99, or the job not 1 to 999,999.
    """
    by = within(station, 0, 2**32 - 1, 0), within(job, 0, 2**32 - 1, 0)
    buffer = bytearray(RECEIPT_ROOM)
    written = ctypes.c_uint64()
    with Lent(data) as file, Lent(buffer) as out:
        refusal = file.library.mmtf_write_receipt(*by, file.address, file.size, out.address, out.size, written)
    refuse(refusal, "The receipt")
    return bytes(buffer[:written.value])


def read_receipt(data: Buffer) -> Receipt:
    """The ten numbers of a receipt's bytes; whatever is no receipt is refused with 29.

    >>> read_receipt(receipt(bytes([0x80]), 7, 12)).verdict.name
    'FIELD_MISSING'
    """
    numbers = (ctypes.c_uint32 * len(dataclasses.fields(Receipt)))()
    with Lent(data) as lent:
        refusal = lent.library.mmtf_read_receipt(lent.address, lent.size, numbers)
    refuse(refusal, "The receipt")
    station, job, verdict, *counts = numbers
    return Receipt(station, job, Refusal(verdict), *counts)

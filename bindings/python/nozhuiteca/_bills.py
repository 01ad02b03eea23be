"""Bills: a run of receipts, added up by stations."""

from __future__ import annotations

import ctypes
import dataclasses
from typing import NamedTuple

from ._memory import Buffer, Lent
from ._refusals import refuse
from ._tables import BILL_ROOM


class BillRow(NamedTuple):
    """A station of a bill, with how many of its jobs were accepted and how many refused."""

    station: int
    accepted: int
    refused: int


@dataclasses.dataclass(frozen=True)
class Bill:
    """A bill: its text as it is written, a row for each station that has a receipt, rising, and all accepted jobs."""

    text: str
    rows: tuple[BillRow, ...]
    total: int


def bill(receipts: Buffer) -> Bill:
    """The bill of a run of receipts: the bytes of receipts, one directly after another, or no bytes at all.

    >>> import nozhuiteca
    >>> month = b"".join(nozhuiteca.receipt(bytes([0x80]), station, job) for station, job in [(7, 12), (5, 3), (7, 13)])
    >>> bill(month).rows
    (BillRow(station=5, accepted=0, refused=1), BillRow(station=7, accepted=0, refused=2))
    >>> bill(b"")
    Bill(text='total=0\\n', rows=(), total=0)

    Refused with 1 if the run is over the limit of a file, then by the first receipt at fault: with 29 if it is malformed,
    with 30 if its job is not above the last one of its station.
    """
    buffer = bytearray(BILL_ROOM)
    written = ctypes.c_uint64()
    with Lent(receipts) as run, Lent(buffer) as out:
        refusal = run.library.mmtf_bill(run.address, run.size, out.address, out.size, written)
    refuse(refusal, "The run of receipts")
    text = buffer[:written.value].decode("ascii")
    *counts, total = [int(line.partition("=")[2]) for line in text.splitlines()]
    rows = tuple(BillRow(*counts[at:at + 3]) for at in range(0, len(counts), 3))
    return Bill(text, rows, total)

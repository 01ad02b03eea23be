"""The refusal numbers with their meanings, and the exception of a refused call."""

from __future__ import annotations

import ctypes
import enum

from ._library import library
from ._tables import MEANING_ROOM


class Refusal(enum.IntEnum):
    """The answer of a call: ACCEPTED, which is 0, or why it was refused. The names are those of include/mmtf.h.

    >>> str(Refusal.ACCEPTED), str(Refusal(3))
    ('accepted', 'refused with 3: a lead byte is not in the subset')
    >>> Refusal.LEAD_BYTE_UNKNOWN.meaning, Refusal.LEAD_BYTE_UNKNOWN == 3
    ('a lead byte is not in the subset', True)
    """

    ACCEPTED = 0
    FILE_OVER_LIMIT = 1
    CUT_SHORT = 2
    LEAD_BYTE_UNKNOWN = 3
    UNSIGNED_TOO_LARGE = 4
    STRING_NOT_UTF8 = 5
    NESTED_TOO_DEEP = 6
    TOO_MANY_ENTRIES = 7
    KEY_NOT_STRING = 8
    KEY_REPEATED = 9
    OUTER_NOT_MAP = 10
    BYTES_AFTER = 11
    FIELD_MISSING = 12
    FIELD_TYPE = 13
    COLUMN_SHORT = 14
    CODEC_UNKNOWN = 15
    HEADER_RANGE = 16
    PAYLOAD_SIZE = 17
    NUMBER_NOT_ALLOWED = 18
    LENGTH_DIFFERS = 19
    COUNTS_DISAGREE = 20
    INDEX_OUTSIDE = 21
    VALUE_OUTSIDE = 22
    TOO_MANY_GROUP_TYPES = 23
    VERSION_NOT_1 = 24
    BUFFER_TOO_SMALL = 25
    NO_SUCH_FIELD = 26
    NOT_EXACT = 27
    NO_SUCH_ENTRY = 28
    RECEIPT_MALFORMED = 29
    JOB_NOT_RISING = 30

    @property
    def accepted(self) -> bool:
        """Whether this is ACCEPTED. As a number it is 0, so that `if verdict:` asks whether a file is refused."""
        return self is Refusal.ACCEPTED

    @property
    def meaning(self) -> str:
        """The number's meaning, in the library's words."""
        buffer, written = ctypes.create_string_buffer(MEANING_ROOM), ctypes.c_uint64()
        refuse(library.mmtf_meaning(self.value, buffer, MEANING_ROOM, written), "The meaning")
        return buffer.raw[:written.value].decode("ascii")

    def __str__(self) -> str:
        return self.meaning if self.accepted else f"refused with {self.value}: {self.meaning}"

    def __format__(self, form: str) -> str:
        return format(self.value, form) if form else str(self)


class RefusedError(ValueError):
    """A call was refused: `number` is the refusal, `meaning` its meaning, and `subject` what was refused.

    >>> error = RefusedError(26, 'The view of "title"')
    >>> error.number.name, error.meaning
    ('NO_SUCH_FIELD', 'there is no such field')
    >>> print(error)
    The view of "title" is refused with 26: there is no such field.
    """

    # As it is imported, so that a traceback shows the name that a program writes.
    __module__ = "nozhuiteca"

    def __init__(self, number: int, subject: str = "The call") -> None:
        super().__init__(number, subject)
        self.number = Refusal(number)
        self.subject = subject

    @property
    def meaning(self) -> str:
        """The number's meaning, in the library's words."""
        return self.number.meaning

    def __str__(self) -> str:
        return f"{self.subject} is {self.number}."


def refuse(number: int, subject: str) -> None:
    """Raises the exception of a refusal; of ACCEPTED none."""
    if number != Refusal.ACCEPTED:
        raise RefusedError(number, subject)

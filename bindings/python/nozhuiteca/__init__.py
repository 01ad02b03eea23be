r"""MMTF files: verdicts, values by name, columns, matrices, receipts and bills, by the calls of a proved library.

The package decides nothing about a file: it hands bytes to the library, and the library's answers back. include/mmtf.h
says what each call means, and in which order it refuses.

>>> file = read(bytes([0x80]))
>>> file.accepted, file.verdict.name, file.verdict.meaning
(False, 'FIELD_MISSING', 'a required field is missing')
>>> view(bytes([0x80]), "title")
Traceback (most recent call last):
    ...
nozhuiteca.RefusedError: The view of "title" is refused with 26: there is no such field.

Bytes. Files, columns and receipts are bytes, a bytearray, a memoryview, or anything else that lends its memory. bytes
are never copied, and while the library reads them other threads run on. Nor is writable memory copied, as a bytearray's;
then the interpreter's lock is kept during the call, so that no other thread of Python writes to it. Copied for the call
is read-only memory that is no whole bytes object, as the part that `view` gives or a mapped file, and memory with gaps.
`column` finds a column in a file and decodes it without a copy. A `File` is checked once, and then finds its fields with
no further walk of the file.

Numbers. Every int is taken, and none is cut to fit a parameter of C. One that C cannot hold is refused as the rules
refuse one that is out of range: an index or the number of an assembly or a transform with 28, a station or a job with
29, a codec with 15, a divisor or a size of names with 16, an element of a column with 18. What is no int is a TypeError.

Memory. A decoder's buffer has as many elements as the library says of the column's header, at most 16,777,216. A packed
column gets more room as long as the library says that it has too little, up to 134,217,740 bytes.
"""

from __future__ import annotations

from ._bills import Bill, BillRow, bill
from ._columns import Column, Elements, FixedPoint, Floats, Header, Integers, cell, decode, encode, header
from ._files import FieldValue, File, Part, column, container, fields, matrix, open, read, verdict, view
from ._library import VERSION as __version__
from ._receipts import Receipt, read_receipt, receipt
from ._refusals import Refusal, RefusedError
from ._tables import CODECS, FIELDS
from ._values import Value

__all__ = [
    "Bill", "BillRow", "CODECS", "Column", "Elements", "FIELDS", "FieldValue", "File", "FixedPoint", "Floats", "Header",
    "Integers", "Part", "Receipt", "Refusal", "RefusedError", "Value", "__version__", "bill", "cell", "column", "container",
    "decode", "encode", "fields", "header", "matrix", "open", "read", "read_receipt", "receipt", "verdict", "view",
]

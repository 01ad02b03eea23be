"""Columns: decoded, encoded, one cell, the header; and columns as long as they may be."""

from __future__ import annotations

import array
import dataclasses
import json
import math
import struct
import tracemalloc
import unittest.mock
from typing import Any, Callable

import made
import nozhuiteca
from nozhuiteca import FixedPoint, _columns
from shared import BEYOND, COLUMNS, DATA, MOST, SAMPLE, Case, derived


class Columns(Case):
    def test_by_hand(self) -> None:
        """A column of each codec, with its values written down."""
        run = lambda *numbers: struct.pack(f">{len(numbers)}i", *numbers)
        rows = [
            (made.column(1, 2, 0, bytes.fromhex("3fc00000c0000000")), array.array("f", [1.5, -2.0])),
            (made.column(2, 3, 0, bytes.fromhex("7f8000")), array.array("b", [127, -128, 0])),
            (made.column(3, 2, 0, bytes.fromhex("7fff8000")), array.array("h", [32767, -32768])),
            (made.column(4, 2, 0, run(2**31 - 1, -2**31)), array.array("i", [2**31 - 1, -2**31])),
            (made.column(5, 3, 4, b"A\0\0\0BCDE\0\0\0\0"), ["A", "BCDE", ""]),
            (made.column(6, 3, 0, run(65, 1, 0, 2)), "A\0\0"),
            (made.column(7, 3, 0, run(5, 2, -1, 1)), array.array("i", [5, 5, -1])),
            (made.column(8, 15, 0, run(1, 10, 2, 1, 1, 4)), array.array("i", [*range(1, 11), *range(12, 17)])),
            (made.column(9, 2, 100, run(25, 2)), FixedPoint(array.array("i", [25, 25]), 100)),
            (made.column(10, 3, 1000, bytes.fromhex("7fff44ab018fffca")),
             FixedPoint(array.array("i", [50346, 50745, 50691]), 1000)),
            (made.column(11, 2, 10, bytes.fromhex("7fff8000")), FixedPoint(array.array("i", [32767, -32768]), 10)),
            (made.column(12, 1, 10, bytes.fromhex("7fff0000")), FixedPoint(array.array("i", [32767]), 10)),
            (made.column(13, 2, 2**31 - 1, bytes.fromhex("7f0180ff")),
             FixedPoint(array.array("i", [128, -129]), 2**31 - 1)),
            (made.column(14, 3, 0, bytes.fromhex("7fff006407d1041d")), array.array("i", [32867, 2001, 1053])),
            (made.column(15, 1, 0, bytes.fromhex("7f00")), array.array("i", [127])),
            (made.column(16, 2, 0, run(-128, 2)), array.array("b", [-128, -128])),
        ]
        for codec, (column, values) in enumerate(rows, 1):
            self.same(nozhuiteca.decode(column), values)
            self.assertEqual(nozhuiteca.encode(values, codec), column)

    def same(self, ours: Any, theirs: Any) -> None:
        """Equal, and of the same type and typecode."""
        self.assertEqual(ours, theirs)
        self.assertIs(type(ours), type(theirs))
        if isinstance(ours, FixedPoint):
            self.same(ours.values, theirs.values)
        if isinstance(ours, array.array):
            self.assertEqual(ours.typecode, theirs.typecode)

    def test_fixed(self) -> None:
        """What a call gives as one value cannot be changed in part."""
        for value in (FixedPoint([1], 10), nozhuiteca.read_receipt(nozhuiteca.receipt(b"", 1, 1))):
            for field in dataclasses.fields(value):
                with self.assertRaises(dataclasses.FrozenInstanceError):
                    setattr(value, field.name, 0)

    def test_empty(self) -> None:
        """An empty column of each codec, there and back; its memory is none."""
        for codec, kind in nozhuiteca.CODECS.items():
            column = made.column(codec, 0, made.parameter_of(codec))
            values = nozhuiteca.decode(column)
            self.assertEqual(len(values.values if kind == "fixed_point" else values), 0)
            self.assertEqual(nozhuiteca.encode(values, codec), column)
            self.refused(15 if kind == "strings" else 28, nozhuiteca.cell, column, 0)

    def test_vectors(self) -> None:
        """What the tests of public packages assert of columns."""
        vectors = json.loads((DATA / "codec-vectors.json").read_text())["codec_columns"]
        self.assertGreater(len(vectors), 10)
        for vector in vectors:
            column = bytes.fromhex(vector["column_hex"])
            self.assertEqual(nozhuiteca.header(column), (vector["codec"], vector["length"], vector["param"]))
            values = nozhuiteca.decode(column)
            kind = nozhuiteca.CODECS[vector["codec"]]
            plain = values.values if kind == "fixed_point" else values
            if vector["integers"] is not None:
                as_text = kind in ("chars", "strings")
                expected = [text_of(cell) if as_text else cell for cell in vector["integers"]]
                self.assertEqual(list(plain), expected, vector)
            if vector["as_floats"] is not None:
                self.assertEqual(nozhuiteca.decode(column, "float32"), array.array("f", vector["as_floats"]))
            self.assertEqual(nozhuiteca.encode(values, vector["codec"]), column)

    def test_structure_files(self) -> None:
        """All 144 columns of the derived files are in the writer's form: they come back to the byte."""
        columns = 0
        for file in derived():
            for name in COLUMNS:
                part = nozhuiteca.view(file, name)
                codec, _, parameter = nozhuiteca.header(part)
                again = nozhuiteca.encode(nozhuiteca.decode(part), codec, size=parameter if codec == 5 else 4)
                self.assertEqual(again, part)
                columns += 1
        self.assertEqual(columns, 144)

    def test_sample(self) -> None:
        """The first atoms of 4QXX."""
        self.assertEqual(nozhuiteca.column(SAMPLE, "xCoordList").typecode, "f")
        fixed = nozhuiteca.column(SAMPLE, "xCoordList", "fixed_point")
        self.assertEqual((len(fixed.values), fixed.divisor), (37, 1000))
        divided = array.array("f", [number / 1000 for number in fixed.values])
        self.assertEqual(nozhuiteca.column(SAMPLE, "xCoordList"), divided)
        self.assertEqual(nozhuiteca.column(SAMPLE, "chainIdList"), ["A", "B"])
        self.assertEqual(nozhuiteca.column(SAMPLE, "altLocList"), 35 * "\0" + "AB")
        self.assertEqual(nozhuiteca.column(SAMPLE, "atomIdList"), array.array("i", range(1, 38)))
        self.assertEqual(len(nozhuiteca.column(SAMPLE, "secStructList")), 7)

    def test_a_field_of_one_s_own(self) -> None:
        """A name that is not in the table is decoded by its codec; a named field with a codec of another kind is refused."""
        column = nozhuiteca.encode(FixedPoint([1, 2], 7), 12)
        file = made.structure(ownColumn=column, groupIdList=column, title=column)
        self.assertEqual(nozhuiteca.column(file, "ownColumn"), FixedPoint(array.array("i", [1, 2]), 7))
        self.assertEqual(nozhuiteca.column(file, "title"), nozhuiteca.column(file, "ownColumn"))
        self.refused(15, nozhuiteca.column, file, "groupIdList")
        self.refused(14, nozhuiteca.column, file, "numAtoms")
        self.refused(26, nozhuiteca.column, file, "noSuchField")

    def test_bits_are_kept(self) -> None:
        """Every bit of a float of codec 1, those of a NaN too."""
        payload = bytes.fromhex("7fa00001 ffc12345 80000000 7f800000 00000001")
        column = made.column(1, 5, 0, payload)
        floats = nozhuiteca.decode(column)
        self.assertEqual([struct.pack(">I", bits) for bits in array.array("I", floats.tobytes())],
                         [payload[at:at + 4] for at in range(0, 20, 4)])
        self.assertEqual(nozhuiteca.encode(floats, 1), column)
        self.assertTrue(math.isnan(nozhuiteca.cell(column, 0)))
        self.assertEqual((nozhuiteca.cell(column, 3), nozhuiteca.cell(column, 4)), (math.inf, 2.0**-149))

    def test_cells(self) -> None:
        rows = [(made.column(4, 2, 0, struct.pack(">ii", -5, 2**31 - 1)), -5, 2**31 - 1),
                (nozhuiteca.encode([-128, 127], 2), -128, 127),
                (nozhuiteca.encode([-32768, 1], 3), -32768, 1), (nozhuiteca.encode("A\x7f", 6), "A", "\x7f"),
                (nozhuiteca.encode([0.5, -1.0], 1), 0.5, -1.0), (nozhuiteca.encode(FixedPoint([3, -3], 4), 12), 0.75, -0.75)]
        for column, first, second in rows:
            self.assertEqual((nozhuiteca.cell(column, 0), nozhuiteca.cell(column, 1)), (first, second))
            self.assertIs(type(nozhuiteca.cell(column, 0)), type(first))
            self.refused(28, nozhuiteca.cell, column, 2)
        self.refused(15, nozhuiteca.cell, nozhuiteca.encode(["A"], 5), 0)

    def test_header(self) -> None:
        self.assertEqual(nozhuiteca.header(struct.pack(">iii", 7, MOST, -2**31)), (7, MOST, 0))
        self.refused(15, nozhuiteca.header, struct.pack(">iii", -1, 2**31 - 1, -2**31))
        self.refused(16, nozhuiteca.header, struct.pack(">iii", 7, MOST + 1, 0))
        self.refused(17, nozhuiteca.header, nozhuiteca.encode([7], 4)[:-1])
        column = nozhuiteca.encode([7], 4)
        self.assertEqual(nozhuiteca.header(memoryview(column)), nozhuiteca.Header(codec=4, length=1, parameter=0))
        self.refused(14, nozhuiteca.header, bytes(11))


def text_of(cell: int | list[int]) -> str:
    """A cell of text as the vectors have it, by the number of its character or by those of all its characters."""
    return chr(cell) if isinstance(cell, int) else "".join(map(chr, cell))


class Encoders(Case):
    def test_iterables(self) -> None:
        expected = made.column(4, 3, 0, struct.pack(">iii", 1, 2, 3))
        for values in ([1, 2, 3], (1, 2, 3), range(1, 4), iter([1, 2, 3]), (n for n in (1, 2, 3)), b"\1\2\3",
                       array.array("i", [1, 2, 3]), array.array("b", [1, 2, 3]), array.array("q", [1, 2, 3]), [True, 2, 3]):
            self.assertEqual(nozhuiteca.encode(values, 4), expected)
        self.assertEqual(nozhuiteca.encode(range(-2, 1), 2), made.column(2, 3, 0, b"\xfe\xff\x00"))
        self.assertEqual(nozhuiteca.encode((n / 2 for n in (1, 3)), 1), made.column(1, 2, 0, struct.pack(">ff", 0.5, 1.5)))
        self.assertEqual(nozhuiteca.encode(array.array("d", [0.1]), 1), made.column(1, 1, 0, struct.pack(">f", 0.1)))
        self.assertEqual(nozhuiteca.encode(bytearray(b"AAB"), 6), nozhuiteca.encode("AAB", 6))
        self.assertEqual(nozhuiteca.encode(FixedPoint((1, 2), 5), 11), made.column(11, 2, 5, b"\0\1\0\2"))

    def test_sizes_of_names(self) -> None:
        for size in (1, 2, 4, 255):
            names = ["", "A", "B" * size]
            column = nozhuiteca.encode(names, 5, size=size)
            self.assertEqual(nozhuiteca.header(column), (5, 3, size))
            self.assertEqual(len(column), 12 + 3 * size)
            self.assertEqual(nozhuiteca.decode(column), names)
        for size in (0, -1, 256, 2**31, -2**40, 10**30):
            self.refused(16, nozhuiteca.encode, ["A"], 5, size=size)
            self.refused(16, nozhuiteca.encode, [], 5, size=size)

    def test_elements_that_do_not_fit(self) -> None:
        """18 for an element that the codec cannot hold; a divisor out of range comes first."""
        for codec in (4, 7, 8, 14, 15):
            for number in (2**31, -2**31 - 1, 2**32, 2**32 + 1, 10**30):
                self.refused(18, nozhuiteca.encode, [0, number], codec)
        for codec, most in ((2, 127), (16, 127), (3, 32767)):
            self.assertEqual(list(nozhuiteca.decode(nozhuiteca.encode([most, -most - 1], codec))), [most, -most - 1])
            for number in (most + 1, -most - 2, 2**32, -2**32, 2**64):
                self.refused(18, nozhuiteca.encode, [number], codec)
        self.refused(18, nozhuiteca.encode, FixedPoint([32768], 10), 11)
        for codec in range(9, 14):
            self.refused(18, nozhuiteca.encode, FixedPoint([2**31], 10), codec)
            for divisor in (0, -1, 2**31, -2**31 - 1, 2**32 + 1):
                self.refused(16, nozhuiteca.encode, FixedPoint([2**31], divisor), codec)
        for text in ("\x80", "é", "\u0100", "\u4e2d", "\ud800", b"\x80"):
            self.refused(18, nozhuiteca.encode, text, 6)
        for name in ("ABCDE", "é", "A\0B", "\u0141"):
            self.refused(18, nozhuiteca.encode, ["A", name], 5)
        for number in (1e39, -1e39, 3.4028236e38, 10**400, -10**400):
            self.refused(18, nozhuiteca.encode, [0.0, number], 1)
        infinite = bytes.fromhex("7f800000ff800000")
        self.assertEqual(nozhuiteca.encode([math.inf, -math.inf], 1), made.column(1, 2, 0, infinite))

    def test_codecs(self) -> None:
        for codec in (0, -1, 17, 2**31 - 1, -2**31, *BEYOND, 2**32 + 4):
            self.refused(15, nozhuiteca.encode, [1], codec)

    def test_wrong_kinds(self) -> None:
        wrong = [([1.5], 4), (["1"], 4), ([None], 4), (4, 4), (None, 4), ("AB", 4), (["1.5"], 1), ([1j], 1), ([65], 6),
                 (None, 6), ("AB", 5), ([b"AB"], 5), ([5], 5), ([1], 10), (([1], 10), 10), ([1], "4"), ([1], 4.0),
                 ([1], None)]
        for values, codec in wrong:
            with self.assertRaises(TypeError):
                nozhuiteca.encode(values, codec)
        for values in (FixedPoint([1], 1.0), FixedPoint([1.0], 1), FixedPoint(None, 1)):
            with self.assertRaises(TypeError):
                nozhuiteca.encode(values, 10)

    def test_packing(self) -> None:
        """Numbers at the ends of each width, differences that wrap, and columns that need more room than the first given."""
        numbers = [0, 1, -1, 126, 127, 128, 254, 255, -127, -128, -129, -256, -257, 32766, 32767, 32768, 65534, 65535,
                   -32767, -32768, -32769, -65536, -65537, 2**23, -2**23]
        for codec in (14, 15):
            for number in numbers:
                self.back([number], codec)
            self.back(numbers, codec)
        for codec in (10, 12, 13):
            self.back(FixedPoint(numbers, 3), codec)
        for pair in ([2**31 - 1, -2**31], [-2**31, 2**31 - 1], [-2**31, -2**31], [2**31 - 1] * 3, [-1, 2**31 - 1]):
            for codec in (4, 7, 8, 14):
                self.back(pair, codec)
            for codec in (9, 10, 12):
                self.back(FixedPoint(pair, 1), codec)

    def back(self, values: Any, codec: int) -> None:
        """Encoded and decoded, the values are what they were."""
        column = nozhuiteca.encode(values, codec)
        again = nozhuiteca.decode(column)
        numbers, back = (values.values, again.values) if isinstance(values, FixedPoint) else (values, again)
        self.assertEqual(list(back), list(numbers))

    def test_too_long_a_column(self) -> None:
        """Packing to 8 bits that would take more bytes than a column of runs ever does is refused with 25."""
        self.assertEqual(len(nozhuiteca.encode([2**31 - 1], 15)), 12 + (2**31 - 1) // 127 + 1)
        self.refused(25, nozhuiteca.encode, [2**31 - 1] * 8, 15)
        self.refused(25, nozhuiteca.encode, FixedPoint([-2**31] * 8, 1), 13)
        self.assertEqual(_columns._COLUMN_ROOM, 134_217_740)

    def test_long_names(self) -> None:
        """A column of names has all the room it needs, also above the limit of packed columns, which is made small here."""
        with unittest.mock.patch.object(_columns, "_COLUMN_ROOM", 100):
            self.assertEqual(len(nozhuiteca.encode(50 * ["ABCD"], 5)), 212)
            self.assertEqual(len(nozhuiteca.encode([127 * 80], 15)), 12 + 81)
            self.refused(25, nozhuiteca.encode, [127 * 90], 15)


class Limits(Case):
    """Columns of 16,777,216 results and one more, and memory that a header asks for."""

    def test_longest(self) -> None:
        run = lambda codec, length: made.column(codec, length, made.parameter_of(codec), struct.pack(">ii", 1, length))
        for codec in (7, 8, 9, 6, 16):
            values = nozhuiteca.decode(run(codec, MOST))
            values = values.values if codec == 9 else values
            self.assertEqual(len(values), MOST)
            self.assertEqual(values[-1], {6: "\x01", 8: MOST}.get(codec, 1))
            self.refused(16, nozhuiteca.decode, run(codec, MOST + 1))

    def test_longest_encoded(self) -> None:
        zeros = array.array("i", [0]) * MOST
        self.assertEqual(nozhuiteca.encode(zeros, 7), made.column(7, MOST, 0, struct.pack(">ii", 0, MOST)))
        self.assertEqual(len(nozhuiteca.encode(zeros, 4)), 12 + 4 * MOST)
        zeros.append(0)
        self.refused(16, nozhuiteca.encode, zeros, 7)
        self.refused(16, nozhuiteca.encode, bytes(MOST + 1), 6)

    def test_claims(self) -> None:
        """A header that claims the most, without a payload: refused, with no more memory than the claim allows."""
        for codec in nozhuiteca.CODECS:
            number = 17 if codec in (*made.PLAIN_WIDTH, 5) else 19
            column = made.column(codec, MOST, 255 if codec == 5 else made.parameter_of(codec))
            peak = self.peak(lambda: self.refused(number, nozhuiteca.decode, column))
            self.assertLess(peak, 2**17 if number == 17 else 4 * MOST + 2**17)
        for length in (MOST + 1, 2**31 - 1, -1, -2**31):
            for codec in nozhuiteca.CODECS:
                column = made.column(codec, length, made.parameter_of(codec))
                self.assertLess(self.peak(lambda: self.refused(16, nozhuiteca.decode, column)), 2**17)
        for codec, own in nozhuiteca.CODECS.items():
            column = made.column(codec, MOST, 2**31 - 1)
            for kind in set(nozhuiteca.CODECS.values()) - {own, "float32"}:
                self.assertLess(self.peak(lambda: self.refused(15, nozhuiteca.decode, column, kind)), 2**17)

    def peak(self, call: Callable[[], Any]) -> int:
        """The most memory that a call takes."""
        tracemalloc.start()
        try:
            call()
            return tracemalloc.get_traced_memory()[1]
        finally:
            tracemalloc.stop()

    def test_copies(self) -> None:
        """What the package says about copies is so."""
        file = (DATA / "derived/4V5A.mmtf").read_bytes()
        large, small = len(file), 2**16
        writable = bytearray(file)
        for lent in (file, memoryview(file), writable, memoryview(writable), memoryview(writable)[:]):
            self.assertLess(self.peak(lambda: nozhuiteca.verdict(lent)), small)
            self.assertLess(self.peak(lambda: nozhuiteca.view(lent, "xCoordList")), small)
            self.assertLess(self.peak(lambda: nozhuiteca.receipt(lent, 1, 1)), small)
            self.assertLess(self.peak(lambda: nozhuiteca.matrix(lent, 0, 0)), small)
            cells = len(nozhuiteca.column(lent, "atomIdList"))
            self.assertLess(self.peak(lambda: nozhuiteca.column(lent, "atomIdList")), 4 * cells + small)
        for lent in (memoryview(file + b"<")[:-1], memoryview(writable).toreadonly()):
            peak = self.peak(lambda: nozhuiteca.verdict(lent))
            self.assertTrue(large <= peak < large + small, peak)
        self.assertGreaterEqual(self.peak(lambda: nozhuiteca.verdict(memoryview(writable)[::-1])), large)
        for lent in (file, memoryview(file + b"<")[:-1], writable):
            opened = nozhuiteca.read(lent)
            self.assertLess(self.peak(lambda: opened["atomIdList"]), 4 * cells + small)
            self.assertLess(self.peak(lambda: opened.view("xCoordList")), small)

"""What may be lent to a call, and that it is given back as it was; numbers that C cannot hold."""

from __future__ import annotations

import array
import ctypes
import mmap
import pathlib
import threading
from typing import Any

import dump
import made
import nozhuiteca
from nozhuiteca import _memory
from shared import BEYOND, HOME, SAMPLE, Case


class Memory(Case):
    """What may be lent, and that it is given back as it was."""

    def lendings(self, data: bytes) -> list[Any]:
        spaced = bytearray(2 * len(data))
        spaced[::2] = data
        inside = memoryview(b"<" + data + b">")[1:-1]
        writable_inside = memoryview(bytearray(b"<" + data + b">"))[1:-1]
        return [data, bytearray(data), memoryview(data), memoryview(bytearray(data)), array.array("B", data),
                memoryview(bytearray(data)).toreadonly(), array.array("b", data), memoryview(spaced)[::2], inside,
                writable_inside,
                memoryview(bytearray(data)).cast("B", [2, len(data) // 2]), type("Named", (bytes,), {})(data)]

    def test_every_way_to_lend(self) -> None:
        column = bytes(nozhuiteca.view(SAMPLE, "xCoordList"))
        receipt = nozhuiteca.receipt(SAMPLE, 7, 12)
        rows = nozhuiteca.matrix(SAMPLE, 0, 0)
        for lent in self.lendings(SAMPLE):
            self.assertEqual(nozhuiteca.verdict(lent), 0)
            self.assertEqual(nozhuiteca.container(lent), 0)
            self.assertEqual(nozhuiteca.view(lent, "xCoordList"), column)
            self.assertEqual(nozhuiteca.column(lent, "xCoordList", "fixed_point"), nozhuiteca.decode(column))
            self.assertEqual(nozhuiteca.receipt(lent, 7, 12), receipt)
            self.assertEqual(nozhuiteca.matrix(lent, 0, 0), rows)
            self.assertEqual(bytes(memoryview(lent).cast("B") if memoryview(lent).c_contiguous else lent), SAMPLE)
        for lent in self.lendings(column):
            self.assertEqual(nozhuiteca.decode(lent), nozhuiteca.decode(column))
            self.assertEqual(nozhuiteca.cell(lent, 36), nozhuiteca.cell(column, 36))
            self.assertEqual(nozhuiteca.header(lent), nozhuiteca.header(column))
        for lent in self.lendings(receipt[:-1] + b"\n"):
            self.assertEqual(nozhuiteca.read_receipt(lent), nozhuiteca.read_receipt(receipt))
            self.assertEqual(nozhuiteca.bill(lent).rows, ((7, 1, 0),))

    def test_words_of_four_bytes(self) -> None:
        """Memory of another type is taken as its bytes."""
        self.assertEqual(nozhuiteca.decode(array.array("i", nozhuiteca.encode([1, 2], 4))), array.array("i", [1, 2]))
        column = (ctypes.c_uint16 * 10).from_buffer_copy(nozhuiteca.encode([1, 2], 4))
        self.assertEqual(nozhuiteca.decode(column), array.array("i", [1, 2]))

    def test_mapped_file(self) -> None:
        with open(HOME / "samples/4QXX.mmtf", "rb") as stream:
            with mmap.mmap(stream.fileno(), 0, access=mmap.ACCESS_READ) as mapped:
                self.assertTrue(nozhuiteca.verdict(mapped).accepted)
                self.assertEqual(nozhuiteca.column(mapped, "chainIdList"), ["A", "B"])
            with mmap.mmap(stream.fileno(), 0, access=mmap.ACCESS_COPY) as mapped:
                self.assertTrue(nozhuiteca.verdict(mapped).accepted)

    def test_nothing(self) -> None:
        for lent in (b"", bytearray(), memoryview(b""), memoryview(bytearray()), array.array("i")):
            self.assertEqual((nozhuiteca.verdict(lent), nozhuiteca.container(lent)), (2, 2))
            self.refused(2, nozhuiteca.view, lent, "a")
            self.refused(2, nozhuiteca.column, lent, "a")
            self.refused(2, nozhuiteca.matrix, lent, 0, 0)
            self.refused(14, nozhuiteca.decode, lent)
            self.refused(14, nozhuiteca.cell, lent, 0)
            self.refused(14, nozhuiteca.header, lent)
            self.refused(29, nozhuiteca.read_receipt, lent)
            self.assertEqual(nozhuiteca.read_receipt(nozhuiteca.receipt(lent, 1, 1)).verdict, 2)
            self.assertEqual(nozhuiteca.bill(lent).text, "total=0\n")

    def test_what_cannot_be_lent(self) -> None:
        for wrong in (None, 5, "text", 1.5, [1, 2], {}, object(), pathlib.Path("x"), memoryview):
            for call, *more in ((nozhuiteca.read,), (nozhuiteca.verdict,), (nozhuiteca.container,), (nozhuiteca.fields,),
                                (nozhuiteca.receipt, 1, 1), (nozhuiteca.read_receipt,), (nozhuiteca.bill,),
                                (nozhuiteca.view, "a"), (nozhuiteca.column, "a"), (nozhuiteca.decode,), (nozhuiteca.header,),
                                (nozhuiteca.cell, 0), (nozhuiteca.matrix, 0, 0)):
                with self.assertRaises(TypeError):
                    call(wrong, *more)
        for name in (None, 5, ["a"]):
            with self.assertRaises(TypeError):
                nozhuiteca.view(SAMPLE, name)
            with self.assertRaises(TypeError):
                nozhuiteca.column(SAMPLE, name)

    def test_given_back(self) -> None:
        """A bytearray can be resized after every call, also while its refusal is handled."""
        file = bytearray(SAMPLE)
        for call, *more in ((nozhuiteca.verdict,), (nozhuiteca.container,), (nozhuiteca.fields,), (nozhuiteca.receipt, 1, 1),
                            (nozhuiteca.column, "xCoordList"), (nozhuiteca.matrix, 0, 0)):
            call(file, *more)
            file.append(0)
            file.pop()
        for call, *more in ((nozhuiteca.receipt, 0, 1), (nozhuiteca.read_receipt,), (nozhuiteca.bill,), (nozhuiteca.view, "z"),
                            (nozhuiteca.column, "z"), (nozhuiteca.column, "title"), (nozhuiteca.decode,),
                            (nozhuiteca.cell, 0), (nozhuiteca.matrix, 9, 9)):
            try:
                call(file, *more)
                self.fail("not refused")
            except nozhuiteca.RefusedError:
                file.append(0)
                file.pop()
        values = array.array("i", [2**20])
        try:
            nozhuiteca.encode(values, 2)
        except nozhuiteca.RefusedError:
            values.append(1)
        self.assertEqual(len(values), 2)
        self.assertEqual(file, SAMPLE)

    def test_a_view_is_a_part(self) -> None:
        file = bytearray(made.document({"a": "xyz", "b": [5], "": ""}))
        part = nozhuiteca.view(file, "a")
        self.assertEqual((type(part), part.readonly, part.nbytes, part.format), (memoryview, True, 3, "B"))
        also = nozhuiteca.view(memoryview(file).toreadonly(), "a")
        file[file.index(b"xyz")] = ord("X")
        self.assertEqual((bytes(part), bytes(also)), (b"Xyz", b"Xyz"))
        with self.assertRaises(BufferError):
            file.append(0)
        with self.assertRaises(TypeError):
            part[0] = 0
        self.assertEqual(bytes(nozhuiteca.view(file, "b")), made.document([5]))
        self.assertEqual(bytes(nozhuiteca.view(file, b"")), b"")

    def test_names(self) -> None:
        file = made.document({"é\0": "x", "a": "y"})
        for name in ("é\0", "é\0".encode(), bytearray("é\0".encode())):
            self.assertEqual(bytes(nozhuiteca.view(file, name)), b"x")
        for name in ("é", "e\0", "", "\ud800", b"\xff", "a\0", "A", 10_000 * "a"):
            self.refused(26, nozhuiteca.view, file, name)

    def test_the_lock(self) -> None:
        """Memory that another thread of Python could write to is read with the lock kept, bytes without it."""
        for lent in (b"a", memoryview(b"a"), memoryview(bytearray(b"a")).toreadonly()):
            self.assertIs(type(_memory.Lent(lent).library), ctypes.CDLL)
        for lent in (bytearray(b"a"), memoryview(bytearray(b"a")), array.array("i", [1])):
            self.assertIs(type(_memory.Lent(lent).library), ctypes.PyDLL)
            self.assertIs(type(_memory.Lent(lent).part(0, 1).library), ctypes.PyDLL)

    def test_threads(self) -> None:
        expected = list(dump.of_file(SAMPLE))
        wrong = []

        def work(lent: Any) -> None:
            for _ in range(20):
                if list(dump.of_file(lent)) != expected:
                    wrong.append(lent)

        threads = [threading.Thread(target=work, args=(lent,)) for lent in 4 * [SAMPLE] + 4 * [bytearray(SAMPLE)]]
        for thread in threads:
            thread.start()
        for thread in threads:
            thread.join()
        self.assertEqual(wrong, [])


class Numbers(Case):
    """Numbers that C cannot hold are refused as the rules refuse them, never cut."""

    def test_indices(self) -> None:
        column = nozhuiteca.encode([5, 6], 4)
        for index in (2, 2**32, 2**32 + 1, *BEYOND):
            self.refused(28, nozhuiteca.cell, column, index)
            self.refused(28, nozhuiteca.matrix, SAMPLE, index, 0)
            self.refused(28, nozhuiteca.matrix, SAMPLE, 0, index + 9 if index == 2 else index)
            self.refused(14, nozhuiteca.cell, b"", index)
            self.refused(26, nozhuiteca.matrix, b"\x80", index, index)
        self.assertEqual(nozhuiteca.cell(column, True), 6)

    def test_stations_and_jobs(self) -> None:
        for station in (0, 100, 2**32 - 1, 2**32, 2**32 + 7, *BEYOND):
            self.refused(29, nozhuiteca.receipt, SAMPLE, station, 12)
        for job in (0, 1_000_000, 2**32 - 1, 2**32, 2**32 + 12, *BEYOND):
            self.refused(29, nozhuiteca.receipt, SAMPLE, 7, job)
        for station, job in ((1, 1), (99, 999_999)):
            read = nozhuiteca.read_receipt(nozhuiteca.receipt(SAMPLE, station, job))
            self.assertEqual((read.station, read.job), (station, job))

    def test_no_integers(self) -> None:
        for wrong in (1.0, "1", None, [1], 1j):
            for call, *words in ((nozhuiteca.cell, nozhuiteca.encode([5, 6], 4), wrong),
                                 (nozhuiteca.matrix, SAMPLE, wrong, 0), (nozhuiteca.matrix, SAMPLE, 0, wrong),
                                 (nozhuiteca.receipt, SAMPLE, wrong, 1), (nozhuiteca.receipt, SAMPLE, 1, wrong)):
                with self.assertRaises(TypeError):
                    call(*words)
            with self.assertRaises(TypeError):
                nozhuiteca.encode(["A"], 5, size=wrong)

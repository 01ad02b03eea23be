"""Files: verdicts, a file that is opened, its keys and parts, and what is refused."""

from __future__ import annotations

import array
import os
import pathlib
import pickle
import struct
import tempfile

import made
import nozhuiteca
from nozhuiteca import Refusal
from shared import DATA, HERE, HOME, KINDS, MEANINGS, MOST, SAMPLE, Case


class Verdicts(Case):
    def test_every_number(self) -> None:
        for number, file in {0: SAMPLE, **made.refused_files()}.items():
            answer = nozhuiteca.verdict(file)
            self.assertIsInstance(answer, Refusal)
            self.assertEqual((answer.value, answer.meaning, answer.accepted), (number, MEANINGS[number], number == 0))
            said = "accepted" if number == 0 else f"refused with {number}: {MEANINGS[number]}"
            self.assertEqual((str(answer), f"{answer}"), (said, said))
            self.assertEqual((f"{answer:d}", f"{answer:3}"), (str(number), f"{number:3}"))
            self.assertEqual(nozhuiteca.container(file), number if number <= 11 else 0)
            self.assertIs(nozhuiteca.read_receipt(nozhuiteca.receipt(file, 1, 1)).verdict, answer)

    def test_as_a_value(self) -> None:
        self.assertIs(nozhuiteca.verdict(b""), Refusal.CUT_SHORT)
        self.assertEqual((Refusal.CUT_SHORT, Refusal(2).name), (2, "CUT_SHORT"))
        self.assertIs(pickle.loads(pickle.dumps(Refusal.CUT_SHORT)), Refusal.CUT_SHORT)
        with self.assertRaises(ValueError):
            Refusal(31)

    def test_file_at_the_limit(self) -> None:
        """67,108,864 bytes are not over the limit; one more is."""
        head = b"\x81\xa1a\xc6"
        size = 67_108_864 - len(head) - 4
        file = head + struct.pack(">I", size) + bytes(size)
        self.assertEqual(nozhuiteca.container(file).value, 0)
        self.assertEqual(len(nozhuiteca.view(file, "a")), size)
        self.assertEqual(nozhuiteca.container(file + b"\x00").value, 1)
        self.refused(1, nozhuiteca.view, file + b"\x00", "a")


class Files(Case):
    """A file that is checked once."""

    def test_agrees(self) -> None:
        """Of every structure file the verdict, the keys, every view and every column, and the receipt."""
        for path in sorted(DATA.glob("*/*.mmtf")):
            data = path.read_bytes()
            file = nozhuiteca.open(path)
            self.assertIs(file.verdict, nozhuiteca.verdict(data))
            self.assertEqual(file.accepted, file.verdict == 0)
            self.assertEqual(file.receipt(7, 12), nozhuiteca.receipt(data, 7, 12))
            self.assertEqual(len(file), nozhuiteca.read_receipt(file.receipt(7, 12)).fields)
            if not file.accepted:
                self.refused(file.verdict, nozhuiteca.fields, data)
                continue
            self.assertEqual(list(nozhuiteca.fields(data)), list(file))
            for name in nozhuiteca.FIELDS:
                if name not in file:
                    self.refused(26, nozhuiteca.view, data, name)
                    self.assertRaises(KeyError, file.view, name)
                    continue
                self.assertEqual(bytes(file.view(name)), bytes(nozhuiteca.view(data, name)))
                if name in KINDS:
                    expected = nozhuiteca.column(data, name)
                    self.assertEqual(file[name], list(expected) if isinstance(expected, str) else expected)
            for name in ("xCoordList", "yCoordList", "zCoordList", "bFactorList", "occupancyList"):
                self.assertEqual(file.fixed_point(name), nozhuiteca.column(data, name, "fixed_point"))

    def test_keys(self) -> None:
        """The fields that are there, in their order, whatever the order in the file."""
        given = made.fields()
        del given["rFree"], given["title"]
        file = nozhuiteca.read(made.document({"own": 5, **dict(reversed(given.items()))}))
        self.assertEqual(list(file), [name for name in nozhuiteca.FIELDS if name in given])
        self.assertEqual((list(file.keys()), len(file)), (list(file), 37))
        self.assertEqual(list(file.items()), [(name, file[name]) for name in file])
        self.assertEqual(("numAtoms" in file, "rFree" in file, "own" in file, 5 in file), (True, False, False, False))
        self.assertEqual((file.get("title"), file.get("title", "none"), file.get("numAtoms")), (None, "none", 0))

    def test_other_names(self) -> None:
        """What is no named field of the file is a KeyError; its bytes are there where it is an outer key."""
        file = nozhuiteca.read(SAMPLE)
        for name in ("sequenceIdList", "sequenceIndexList", "", "noSuchField", "\ud800", 5, None):
            with self.assertRaises(KeyError) as caught:
                file[name]
            self.assertEqual(caught.exception.args, (name,))
            self.assertRaises(KeyError, file.fixed_point, name)
        for name in ("sequenceIdList", "", "noSuchField", "\ud800"):
            self.assertRaises(KeyError, file.view, name)
        self.assertEqual(file.view("sequenceIndexList"), nozhuiteca.view(SAMPLE, "sequenceIndexList"))
        self.assertEqual(nozhuiteca.decode(file.view("sequenceIndexList")).typecode, "i")

    def test_refused(self) -> None:
        """A file for each number of a verdict: it has a verdict and a receipt, and no field."""
        for number, data in made.refused_files().items():
            file = nozhuiteca.read(data)
            self.assertIs(file.verdict, Refusal(number))
            self.assertEqual((file.accepted, list(file), len(file), "title" in file), (False, [], 0, False))
            self.assertEqual(nozhuiteca.read_receipt(file.receipt(1, 1)).verdict, number)
            self.refused(number, nozhuiteca.fields, data)
            for call in (file.__getitem__, file.get, file.view, file.fixed_point):
                for name in ("title", "xCoordList", "noSuchField"):
                    self.refused(number, call, name)

    def test_reals(self) -> None:
        """Fixed point numbers that are not exact in single precision are refused as floats, and whole as integers."""
        run = struct.pack(">ii", MOST + 1, 1)
        counts = dict.fromkeys(("numModels", "numChains", "numGroups", "numAtoms"), 1)
        given = made.fields(**counts, chainsPerModel=[1], groupsPerChain=[1])
        kept = {name: value for name, value in given.items() if name not in KINDS}
        atom = {**made.GROUP_TYPE, "formalChargeList": [0], "atomNameList": ["C"], "elementList": ["C"]}
        columns = {name: made.column(9, 1, 10, run) for name in ("xCoordList", "yCoordList")}
        columns["zCoordList"] = made.column(1, 1, 0, struct.pack(">f", 1.5))
        whole = {name: made.column(7, 1, 0, struct.pack(">ii", 0, 1)) for name in ("groupIdList", "groupTypeList")}
        chain = made.column(5, 1, 4, b"A\0\0\0")
        file = nozhuiteca.read(made.document({**kept, **columns, **whole, "groupList": [atom], "chainIdList": chain}))
        self.assertIs(file.verdict, Refusal.ACCEPTED)
        self.refused(27, file.__getitem__, "xCoordList")
        self.assertEqual(file.fixed_point("xCoordList"), nozhuiteca.FixedPoint(array.array("i", [MOST + 1]), 10))
        self.assertEqual(file["zCoordList"], array.array("f", [1.5]))
        self.refused(15, file.fixed_point, "zCoordList")
        self.refused(15, file.fixed_point, "groupIdList")

    def test_memory(self) -> None:
        """Every way to lend the bytes; a bytearray keeps its size."""
        lent = bytearray(SAMPLE)
        file = nozhuiteca.read(lent)
        for given in (SAMPLE, memoryview(SAMPLE), memoryview(b"." + SAMPLE)[1:]):
            other = nozhuiteca.read(given)
            self.assertEqual(other, file)
            self.assertEqual(list(other), list(file))
        with self.assertRaises(BufferError):
            lent.clear()
        self.assertTrue(file.view("title").readonly)
        del file, other
        lent.clear()
        self.assertEqual(nozhuiteca.read(lent).verdict, 2)

    def test_open(self) -> None:
        """A path of every type; one that cannot be read is an OSError; of a file over the limit no more is read."""
        path = HOME / "samples/4QXX.mmtf"
        for given in (path, str(path), os.fsencode(path)):
            self.assertEqual(nozhuiteca.open(given)["structureId"], "4QXX")
        self.assertRaises(FileNotFoundError, nozhuiteca.open, HERE / "noSuchFile")
        self.assertRaises(IsADirectoryError, nozhuiteca.open, HERE)
        self.assertRaises(TypeError, nozhuiteca.open, None)
        with tempfile.TemporaryDirectory() as folder:
            large = pathlib.Path(folder, "large")
            with large.open("wb") as stream:
                stream.truncate(2**33)
            file = nozhuiteca.open(large)
        self.assertEqual((file.verdict, repr(file)[:33]), (1, "<nozhuiteca.File of 67108865 byte"))

    def test_written_as_text(self) -> None:
        self.assertEqual(repr(nozhuiteca.read(SAMPLE)), "<nozhuiteca.File of 3578 bytes, accepted, with 38 named fields>")


class Exceptions(Case):
    def test_as_a_value(self) -> None:
        error = self.refused(26, nozhuiteca.view, b"\x80", "title")
        self.assertIsInstance(error, ValueError)
        self.assertEqual(error.args, (26, 'The view of "title"'))
        self.assertEqual(str(error), 'The view of "title" is refused with 26: there is no such field.')
        again = pickle.loads(pickle.dumps(error))
        self.assertEqual((again.number, again.meaning, str(again)), (26, error.meaning, str(error)))

    def test_sentences(self) -> None:
        file = made.structure(xCoordList=bytes(11))
        self.assertEqual(str(self.refused(14, nozhuiteca.column, file, "xCoordList")),
                         'The column "xCoordList" is refused with 14: a column is under 12 bytes.')
        self.assertEqual(str(self.refused(14, nozhuiteca.decode, b"")),
                         "The column is refused with 14: a column is under 12 bytes.")
        self.assertEqual(str(self.refused(29, nozhuiteca.receipt, file, 0, 1)),
                         "The receipt is refused with 29: the receipt is malformed.")
        self.assertIn(r'"\xed\xa0\x80"', str(self.refused(26, nozhuiteca.view, file, "\ud800")))

    def test_of_a_container(self) -> None:
        for number, file in made.refused_containers().items():
            for call in (nozhuiteca.view, nozhuiteca.column):
                self.refused(number, call, file, "xCoordList")
            self.refused(number, nozhuiteca.matrix, file, 0, 0)

    def test_of_a_column(self) -> None:
        for number, column in made.refused_columns().items():
            self.refused(number, nozhuiteca.decode, column, "int32")
            file = made.structure(groupIdList=column)
            self.refused(number, nozhuiteca.column, file, "groupIdList")
            if number != 15:
                self.refused(number, nozhuiteca.decode, column)
                self.refused(number, nozhuiteca.cell, column, 0)

    def test_each_decoder(self) -> None:
        """Every decoder gives every number of a column, by a column that is its own but for the fault."""
        short = {"int32": 4, "int16": 3, "int8": 2, "fixed_point": 11, "float32": 1, "chars": 6, "strings": 5}
        for kind, codec in short.items():
            parameter = made.parameter_of(codec)
            other = 4 if kind != "int32" else 2
            self.refused(14, nozhuiteca.decode, bytes(11), kind)
            self.refused(15, nozhuiteca.decode, made.column(other, 0, 0), kind)
            self.refused(15, nozhuiteca.decode, made.column(17, 0, 0), kind)
            self.refused(16, nozhuiteca.decode, made.column(codec, MOST + 1, parameter), kind)
            self.refused(17, nozhuiteca.decode, made.column(codec, 1, parameter, bytes(5)), kind)

    def test_numbers_not_allowed(self) -> None:
        self.refused(18, nozhuiteca.decode, made.column(6, 1, 0, struct.pack(">ii", 128, 1)), "chars")
        self.refused(18, nozhuiteca.decode, made.column(16, 1, 0, struct.pack(">ii", 128, 1)), "int8")
        self.refused(18, nozhuiteca.decode, made.column(5, 1, 4, b"A\0B\0"), "strings")
        self.refused(19, nozhuiteca.decode, made.column(16, 1, 0, struct.pack(">ii", 127, 2)), "int8")
        self.refused(19, nozhuiteca.decode, made.column(6, 3, 0, struct.pack(">ii", 65, 2)), "chars")
        for kind in ("fixed_point", "float32"):
            self.refused(18, nozhuiteca.decode, made.column(9, 1, 1, struct.pack(">ii", 1, 0)), kind)
            self.refused(19, nozhuiteca.decode, made.column(9, 1, 1, struct.pack(">ii", 1, 2)), kind)

    def test_not_exact(self) -> None:
        column = made.column(9, 2, 10, struct.pack(">iiii", MOST, 1, MOST + 1, 1))
        self.refused(27, nozhuiteca.decode, column, "float32")
        self.refused(27, nozhuiteca.cell, column, 1)
        self.assertEqual(nozhuiteca.cell(column, 0), struct.unpack("f", struct.pack("f", MOST / 10))[0])
        self.assertEqual(nozhuiteca.decode(column), nozhuiteca.FixedPoint(array.array("i", [MOST, MOST + 1]), 10))
        self.refused(27, nozhuiteca.column, made.structure(xCoordList=column), "xCoordList")

    def test_kinds(self) -> None:
        for kind in ("", "real", "INT32", "_integers", 4):
            with self.assertRaisesRegex(ValueError, "is no kind of column. The kinds are int32, "):
                nozhuiteca.decode(made.column(4, 0, 0), kind)

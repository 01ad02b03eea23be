"""Values of a file as Python values: every kind, against the file's bytes and the library's own answers; NumPy's memory."""

from __future__ import annotations

import array
import importlib.util
import random
import struct
import typing
import unittest

import made
import nozhuiteca
from nozhuiteca import _names
from nozhuiteca._values import value_of
from shared import KINDS, SAMPLE, Case, derived


class Values(Case):
    def test_sample(self) -> None:
        """Values of 4QXX, written down."""
        file = nozhuiteca.read(SAMPLE)
        self.assertEqual((file["structureId"], file["mmtfVersion"], file["numAtoms"]), ("4QXX", "1.0.0", 37))
        self.assertEqual((file["groupsPerChain"], file["experimentalMethods"]), ([5, 2], ["X-RAY DIFFRACTION"]))
        self.assertEqual(file["resolution"], struct.unpack("f", struct.pack("f", 1.445))[0])
        self.assertEqual(array.array("f", file["unitCell"]), array.array("f", [4.755, 16.816, 35.759, 90, 90, 90]))
        self.assertEqual([entity["description"] for entity in file["entityList"]], ["Bone marrow proteoglycan", "water"])
        self.assertEqual(file["groupList"][0]["atomNameList"], ["N", "CA", "C", "O", "CB", "CG1", "CG2"])
        self.assertEqual((file["chainIdList"], file["altLocList"]), (["A", "B"], 35 * ["\0"] + ["A", "B"]))
        self.assertEqual((file["groupIdList"], file["groupIdList"].typecode),
                         (array.array("i", [1, 2, 3, 4, 5, 101, 102]), "i"))
        self.assertEqual((file["secStructList"], file["secStructList"].typecode),
                         (array.array("b", [7, 7, 7, 7, 7, -1, -1]), "b"))
        self.assertEqual((len(file["xCoordList"]), file["xCoordList"].typecode), (37, "f"))

    def test_text(self) -> None:
        """Texts are UTF-8, in fields and inside them."""
        file = nozhuiteca.read(made.structure(title="é中\0", experimentalMethods=["\U0001f9ec", ""]))
        self.assertEqual((file["title"], file["experimentalMethods"]), ("é中\0", ["\U0001f9ec", ""]))

    def test_bytes_again(self) -> None:
        """Of every structure file: each value that is no column, written again, is the file's bytes."""
        written = 0
        for data in derived():
            file = nozhuiteca.read(data)
            for name in file.keys() - KINDS.keys():
                again = file[name].encode() if nozhuiteca.FIELDS[name] == "text" else made.shortest(file[name])
                self.assertEqual(again, bytes(file.view(name)), name)
                written += 1
        self.assertGreater(written, 8 * 18)

    def test_against_the_library(self) -> None:
        """Of every structure file: the counts are those of the receipt, the matrices those of the library."""
        matrices = 0
        for file, data in ((nozhuiteca.read(data), data) for data in derived()):
            if not file.accepted:
                continue
            receipt = nozhuiteca.read_receipt(file.receipt(1, 1))
            self.assertEqual([file[name] for name in ("numModels", "numChains", "numGroups", "numAtoms", "numBonds")],
                             [receipt.models, receipt.chains, receipt.groups, receipt.atoms, receipt.bonds])
            for number, assembly in enumerate(file["bioAssemblyList"]):
                for place, transform in enumerate(assembly["transformList"]):
                    rows = nozhuiteca.matrix(data, number, place)
                    self.assertEqual(transform["matrix"], [value for row in rows for value in row])
                    matrices += 1
        self.assertGreater(matrices, 60)

    def test_heads(self) -> None:
        """A value by each form of a head."""
        rows = {
            "00": 0, "7f": 127, "cc00": 0, "ccff": 255, "cdffff": 65535, "ce7fffffff": 2**31 - 1, "e0": -32, "ff": -1,
            "d080": -128, "d07f": 127, "d18000": -32768, "d280000000": -2**31, "ca3fc00000": 1.5, "ca80000000": -0.0,
            "a0": "", "a3524e41": "RNA", "d903524e41": "RNA", "da0003524e41": "RNA", "db00000003524e41": "RNA",
            "a2c3a9": "é",
            "c400": b"", "c402ff00": b"\xff\0", "c50002ff00": b"\xff\0", "c600000002ff00": b"\xff\0",
            "90": [], "92017f": [1, 127], "dc000101": [1], "dd0000000101": [1], "919190": [[[]]],
            "80": {}, "81a16105": {"a": 5}, "de0001a16105": {"a": 5}, "df00000001a16105": {"a": 5},
        }
        for written, value in rows.items():
            found = value_of(memoryview(bytes.fromhex(written)))
            self.assertEqual((repr(found), type(found)), (repr(value), type(value)), written)

    def test_generated(self) -> None:
        """Values written with long heads and with short ones are read as they were."""
        chance = random.Random(8)
        for _ in range(400):
            value = made.generated_value(chance, 3)
            for written in (made.document(value), made.shortest(value)):
                self.assertEqual(repr(value_of(memoryview(written))), repr(value))

    def test_other_bytes(self) -> None:
        """Bytes that are not one value: a lead byte outside the subset, a value cut short or followed, keys at fault."""
        leads = [0xC0, 0xC1, 0xC2, 0xC3, 0xC7, 0xC8, 0xC9, 0xCB, 0xCF, *range(0xD3, 0xD9)]
        faults = [bytes([lead]) + bytes(size) for lead in leads for size in range(40)]
        faults += [b"", b"\0\0", b"\xa1\xff", b"\x81\0\0", b"\x82\xa1a\0\xa1a\0"]
        whole = made.document({"a": ["x", 1.5, b"y", -3], "b": {"c": 2**20}})
        for fault in [*faults, *(whole[:end] for end in range(len(whole))), whole + b"\0"]:
            with self.assertRaises(ValueError, msg=fault.hex()):
                value_of(memoryview(fault))

    def test_types(self) -> None:
        """Every value is of the type that the hints say of its name."""
        says = {
            _names.TextName: str, _names.IntegerName: int, _names.FloatName: float,
            _names.IntegersName: array.array, _names.FloatsName: array.array, _names.StringsName: [str],
            _names.IntegerListName: [int], _names.FloatListName: [float], _names.FloatListsName: [[float]],
            _names.MapsName: [dict],
        }
        types = {name: value for names, value in says.items() for name in typing.get_args(names)}
        self.assertEqual(sorted(types), sorted(nozhuiteca.FIELDS))
        self.assertEqual(sum(len(typing.get_args(names)) for names in says), len(nozhuiteca.FIELDS))
        for data in [*derived(), made.structure(ncsOperatorList=[16 * [1.0]])]:
            for name, value in nozhuiteca.read(data).items():
                self.assertTrue(is_of(value, types[name]), (name, value))
        for names, code in ((_names.IntegersName, "ib"), (_names.FloatsName, "f")):
            for name in typing.get_args(names):
                self.assertIn(nozhuiteca.read(made.structure())[name].typecode, code)

    @unittest.skipUnless(hasattr(typing, "get_overloads"), "Python before 3.11 keeps no overloads")
    def test_overloads(self) -> None:
        """The hints of the file's values name each set of names once, and any other name last."""
        names = [typing.get_type_hints(one)["name"] for one in typing.get_overloads(nozhuiteca.File.__getitem__)]
        known = [value for name, value in vars(_names).items() if name.endswith("Name")]
        self.assertEqual((sorted(map(str, names[:-1])), names[-1]), (sorted(map(str, known)), str))


def is_of(value: object, form: object) -> bool:
    """Whether a value is of a type, or a list of such values."""
    if isinstance(form, list):
        return type(value) is list and all(is_of(entry, form[0]) for entry in value)
    return type(value) is form


class Memory(Case):
    """The memory of columns."""

    def columns(self) -> typing.Iterator[array.array]:
        """A column of each type, by a file and by its integers."""
        file = nozhuiteca.read(SAMPLE)
        yield from (file["xCoordList"], file["groupIdList"], file["secStructList"], file.fixed_point("xCoordList").values)
        yield nozhuiteca.decode(made.column(3, 2, 0, bytes(4)))

    def test_lent(self) -> None:
        """A column lends its own memory, of its own type: what is written there is in the column."""
        for column in self.columns():
            with memoryview(column) as lent:
                self.assertEqual((lent.format, lent.contiguous, lent.readonly, len(lent)),
                                 (column.typecode, True, False, len(column)))
                lent[1] = 42
            self.assertEqual(column[1], 42)

    def test_each_its_own(self) -> None:
        """A value that is changed changes neither the file nor the value that is asked for next."""
        file = nozhuiteca.read(SAMPLE)
        for name in ("xCoordList", "chainIdList", "groupsPerChain"):
            value = file[name]
            before = list(value)
            value[0] = value[1]
            self.assertEqual(list(file[name]), before)

    @unittest.skipUnless(importlib.util.find_spec("numpy"), "there is no NumPy here")
    def test_numpy(self) -> None:
        """NumPy takes a column without a copy."""
        import numpy

        for column in self.columns():
            taken = numpy.asarray(column)
            self.assertEqual((taken.dtype.char, taken.shape), (column.typecode, (len(column),)))
            taken[1] = 42
            self.assertEqual(column[1], 42)
            self.assertTrue(numpy.shares_memory(taken, numpy.frombuffer(column, dtype=taken.dtype)))

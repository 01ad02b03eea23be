"""The tables of the package are those of the C header, of the shared library, and of the files that are accepted."""

from __future__ import annotations

import ctypes
import dataclasses
import re
import subprocess
from typing import Any

import dump
import made
import nozhuiteca
from nozhuiteca import _library, _tables
from shared import BUILT, KINDS, MEANINGS, Case, header_numbers, header_text


class Tables(Case):
    """The package's tables are those of the repository."""

    def test_refusals(self) -> None:
        """The names, the numbers and the meanings."""
        self.assertEqual(sorted(MEANINGS), list(range(31)))
        self.assertEqual({f"MMTF_{refusal.name}": refusal.value for refusal in nozhuiteca.Refusal}, header_numbers())
        self.assertEqual({refusal.value: refusal.meaning for refusal in nozhuiteca.Refusal}, MEANINGS)
        self.assertEqual((MEANINGS[0], MEANINGS[25]), ("accepted", "the buffer is too small"))

    def test_limits(self) -> None:
        """The package's limits and sizes are those of the header."""
        macros = {name: int(number) for name, number in re.findall(r"#define MMTF_(\w+) (\d+)", header_text())}
        kinds = {name: int(number) for name, number in re.findall(r" MMTF_(CELL_\w+) = (\d+)", header_text())}
        ours = {name: value for name, value in vars(_tables).items() if isinstance(value, int)}
        self.assertEqual(len(ours), 8)
        self.assertEqual({name: {**macros, **kinds}.get(name) for name in ours}, ours)
        self.assertEqual(len(dataclasses.fields(nozhuiteca.Receipt)), macros["RECEIPT_NUMBERS"])

    def test_version(self) -> None:
        """The version of the package is that of the header and of the library."""
        self.assertIn(f'#define MMTF_VERSION "{nozhuiteca.__version__}"\n', header_text())
        major, minor, patch = map(int, nozhuiteca.__version__.split("."))
        for library in (_library.library, _library.library_with_lock):
            self.assertEqual(library.mmtf_version(), 10000 * major + 100 * minor + patch)

    def test_codecs(self) -> None:
        rows = re.findall(r"^ \* {1,2}(\d+) {5}(\w+(?: point)?) ", header_text(), re.MULTILINE)
        self.assertEqual(nozhuiteca.CODECS, {int(codec): kind.replace(" ", "_") for codec, kind in rows})
        self.assertEqual(sorted(nozhuiteca.CODECS), list(range(1, 17)))

    def test_fields(self) -> None:
        """The named fields are those of the header, in its order, and those that a made file has."""
        listed = re.search(r"enum mmtf_field \{(.*?)\};", header_text(), re.DOTALL)
        rows = re.findall(r"(MMTF_\w+) = (\d+), +/\* (\w+) \*/", listed[1])
        self.assertEqual([(int(number), name) for _, number, name in rows], list(enumerate(nozhuiteca.FIELDS)))
        self.assertEqual([constant for constant, _, _ in rows],
                         ["MMTF_" + re.sub(r"([A-Z])", r"_\1", name).upper() for name in nozhuiteca.FIELDS])
        self.assertIn(f"MMTF_FIELD_COUNT = {len(nozhuiteca.FIELDS)}\n", header_text())
        self.assertEqual(list(nozhuiteca.FIELDS), list(made.fields()))

    def test_kinds_of_columns(self) -> None:
        """An empty column of each codec in each field: the file is accepted exactly if the codec is of the field's kind."""
        self.assertEqual(set(KINDS), {name for name, value in made.fields().items() if isinstance(value, bytes)})
        for name, kind in KINDS.items():
            kinds = {kind, "fixed_point"} if kind == "float32" else {kind}
            for codec in range(0, 18):
                file = made.structure(**{name: made.column(codec, 0, made.parameter_of(codec))})
                expected = 0 if nozhuiteca.CODECS.get(codec) in kinds else 15
                self.assertEqual(nozhuiteca.verdict(file).value, expected, (name, codec))

    def test_other_kinds(self) -> None:
        """A field that is no column takes a text exactly if its kind is text."""
        for name in nozhuiteca.FIELDS.keys() - KINDS.keys():
            expected = 0 if nozhuiteca.FIELDS[name] == "text" else 13
            self.assertEqual(nozhuiteca.verdict(made.structure(**{name: "1.0"})).value, expected, name)

    def test_names_of_dump(self) -> None:
        self.assertEqual(dump.NAMES, [*made.fields(), "sequenceIndexList", "", "noSuchField"])

    def test_calls(self) -> None:
        """The parameters that the package tells ctypes of are those of the header."""
        prototypes = re.findall(r"^uint8_t (mmtf_\w+)\((.*?)\);", header_text(), re.DOTALL | re.MULTILINE)
        expected = {name: tuple(c_type(word) for word in words.split(",")) for name, words in prototypes}
        self.assertGreater(len(expected), 20)
        self.assertEqual(_library.CALLS, expected)
        for library in (_library.library, _library.library_with_lock):
            for name, parameters in expected.items():
                call = getattr(library, name)
                self.assertEqual((call.restype, tuple(call.argtypes)), (ctypes.c_uint8, parameters))

    def test_exports(self) -> None:
        """The shared library shows the header's calls and nothing else."""
        words = ["nm", "-D", "--defined-only", BUILT / "libmmtf.so"]
        said = subprocess.run(words, capture_output=True, text=True, check=True).stdout
        self.assertEqual({line.split()[-1] for line in said.splitlines()}, {*_library.CALLS, "mmtf_version"})


def c_type(word: str) -> Any:
    """What ctypes has for a parameter of C. What is lent with a length is an address; out parameters are pointers."""
    parameter = re.fullmatch(r"\s*(const )?(\w+) (\*?)(\w+)((?:\[\w+\])*)\s*", word)
    constant, name, star, called, dimensions = parameter.groups()
    plain = {"uint8_t": ctypes.c_uint8, "int32_t": ctypes.c_int32, "uint32_t": ctypes.c_uint32, "uint64_t": ctypes.c_uint64,
             "size_t": ctypes.c_size_t, "float": ctypes.c_float}[name]
    if dimensions == "[4][4]":
        return ctypes.POINTER(plain * 4)
    if dimensions:
        return ctypes.POINTER(plain)
    if star:
        return ctypes.c_void_p if constant or called == "buffer" else ctypes.POINTER(plain)
    return plain

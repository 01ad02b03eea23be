"""Receipts and matrices."""

from __future__ import annotations

import dataclasses
import math

import made
import nozhuiteca
from nozhuiteca import Refusal
from shared import DATA, MOST, SAMPLE, Case

NUMBERS = [field.name for field in dataclasses.fields(nozhuiteca.Receipt)]


class Receipts(Case):
    TEXT = b"station=7\njob=12\nverdict=0\nmodels=1\nchains=2\ngroups=7\natoms=37\nbonds=33\nfields=38\nunits=1\n"

    def test_written(self) -> None:
        self.assertEqual(nozhuiteca.receipt(SAMPLE, 7, 12), self.TEXT)
        self.assertIs(type(nozhuiteca.receipt(SAMPLE, 7, 12)), bytes)
        refused = nozhuiteca.receipt(made.structure(mmtfVersion="2.0"), 99, 999_999)
        self.assertEqual(refused, b"station=99\njob=999999\nverdict=24\nmodels=0\nchains=0\ngroups=0\natoms=0\nbonds=0\n"
                                  b"fields=0\nunits=0\n")

    def test_read(self) -> None:
        self.assertEqual(nozhuiteca.read_receipt(self.TEXT), nozhuiteca.Receipt(7, 12, 0, 1, 2, 7, 37, 33, 38, 1))
        self.assertIs(nozhuiteca.read_receipt(self.TEXT).verdict, Refusal.ACCEPTED)
        self.assertEqual(NUMBERS, [line.split("=")[0] for line in self.TEXT.decode().splitlines()])
        counts = b"".join(b"%s=16777216\n" % name for name in (b"models", b"chains", b"groups", b"atoms", b"bonds"))
        longest = b"station=99\njob=999999\nverdict=0\n" + counts + b"fields=39\nunits=1\n"
        self.assertEqual(len(longest), 128)
        self.assertEqual(dataclasses.astuple(nozhuiteca.read_receipt(longest)),
                         (99, 999_999, 0, MOST, MOST, MOST, MOST, MOST, 39, 1))

    def test_malformed(self) -> None:
        """Every byte of a receipt changed, removed or doubled: no receipt, or one that is written the same again."""
        written = set()
        for at in range(len(self.TEXT)):
            before, byte, after = self.TEXT[:at], self.TEXT[at:at + 1], self.TEXT[at + 1:]
            others = (before + bytes([other]) + after for other in b"\0 09=a\n\xff")
            for changed in (before, before + after, before + byte + byte + after, *others):
                try:
                    numbers = nozhuiteca.read_receipt(changed)
                except nozhuiteca.RefusedError as error:
                    self.assertEqual(error.number, 29)
                    continue
                written.add(changed)
                lines = "".join(f"{name}={getattr(numbers, name):d}\n" for name in NUMBERS)
                self.assertEqual(lines.encode(), changed)
        self.assertIn(self.TEXT.replace(b"12", b"10"), written)
        self.refused(29, nozhuiteca.read_receipt, self.TEXT + b"\n")
        self.refused(29, nozhuiteca.read_receipt, self.TEXT.replace(b"units=1", b"units=0"))

    def test_structure_files(self) -> None:
        for path in sorted(DATA.glob("*/*.mmtf")):
            file = path.read_bytes()
            numbers = nozhuiteca.read_receipt(nozhuiteca.receipt(file, 1, 2))
            self.assertIs(numbers.verdict, nozhuiteca.verdict(file))
            self.assertEqual(numbers.units, 1 if numbers.verdict.accepted else 0)
            if numbers.units:
                self.assertEqual(numbers.atoms, len(nozhuiteca.column(file, "atomIdList")))
                self.assertEqual(numbers.groups, len(nozhuiteca.column(file, "groupIdList")))
                self.assertEqual(numbers.chains, len(nozhuiteca.column(file, "chainIdList")))


class Matrices(Case):
    def test_rows(self) -> None:
        transforms = [{"chainIndexList": [], "matrix": [float(16 * t + n) for n in range(16)]} for t in range(3)]
        assemblies = [{"name": "1", "transformList": transforms[:1]}, {"name": "2", "transformList": transforms[1:]}]
        file = made.structure(bioAssemblyList=assemblies)
        rows = ((0.0, 1.0, 2.0, 3.0), (4.0, 5.0, 6.0, 7.0), (8.0, 9.0, 10.0, 11.0), (12.0, 13.0, 14.0, 15.0))
        self.assertEqual(nozhuiteca.matrix(file, 0, 0), rows)
        self.assertEqual(nozhuiteca.matrix(file, 1, 1)[3], (44.0, 45.0, 46.0, 47.0))
        self.assertEqual(nozhuiteca.matrix(file, 1, 0)[0], (16.0, 17.0, 18.0, 19.0))
        self.refused(28, nozhuiteca.matrix, file, 0, 1)
        self.refused(28, nozhuiteca.matrix, file, 2, 0)

    def test_refused(self) -> None:
        self.refused(26, nozhuiteca.matrix, b"\x80", 0, 0)
        self.refused(13, nozhuiteca.matrix, made.structure(bioAssemblyList=[5]), 0, 0)
        self.refused(28, nozhuiteca.matrix, made.structure(), 0, 0)

    def test_bits(self) -> None:
        numbers = [math.inf, -math.inf, -0.0, 2.0**-149] + 12 * [math.nan]
        file = made.structure(bioAssemblyList=[{"name": "", "transformList": [{"chainIndexList": [], "matrix": numbers}]}])
        rows = nozhuiteca.matrix(file, 0, 0)
        self.assertEqual((rows[0][:2], math.copysign(1, rows[0][2]), rows[0][3]), ((math.inf, -math.inf), -1.0, 2.0**-149))
        self.assertTrue(all(math.isnan(number) for row in rows[1:] for number in row))

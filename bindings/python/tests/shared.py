"""What the tests share: places, the sample, and what the C header says."""

from __future__ import annotations

import pathlib
import re
import unittest
from typing import Any, Callable, Iterator

import nozhuiteca

HERE = pathlib.Path(__file__).resolve().parents[1]
HOME = HERE.parents[1]
BUILT = HOME / "target/python"
DATA = HOME / "tests/data"
SAMPLE = (HOME / "samples/4QXX.mmtf").read_bytes()
MOST = 16_777_216

# The named columns with their kinds, and the columns of every derived file: all of these but sequenceIdList, and one
# that is not named.
KINDS = {name: kind for name, kind in nozhuiteca.FIELDS.items() if kind not in ("text", "value")}
COLUMNS = [name for name in KINDS if name != "sequenceIdList"] + ["sequenceIndexList"]

# Numbers outside 64 bits, at their ends, and negative.
BEYOND = (-1, -2**31 - 1, -2**63 - 1, -2**64, 2**63, 2**64 - 1, 2**64, 2**64 + 1, 10**40)


class Case(unittest.TestCase):
    """What the tests share."""

    def refused(self, number: int, call: Callable[..., Any], *words: Any, **more: Any) -> nozhuiteca.RefusedError:
        """The call is refused with the number, and the exception has it with its meaning."""
        with self.assertRaises(nozhuiteca.RefusedError) as caught:
            call(*words, **more)
        error = caught.exception
        self.assertEqual((error.number, error.meaning), (number, MEANINGS[number]))
        self.assertTrue(str(error).endswith(f" is refused with {number:d}: {MEANINGS[number]}."), str(error))
        return error


def derived() -> Iterator[bytes]:
    """The structure files that are read, one of them refused."""
    return (path.read_bytes() for path in sorted(DATA.glob("derived/*.mmtf")))


def header_text() -> str:
    """The text of the C header."""
    return (HOME / "include/mmtf.h").read_text()


def header_numbers() -> dict[str, int]:
    """The refusal numbers by their names in C."""
    listed = re.search(r"enum mmtf_refusal \{(.*?)\};", header_text(), re.DOTALL)
    return {name: int(number) for name, number in re.findall(r"(MMTF_\w+) = (\d+)", listed[1])}


def meanings_of_header() -> dict[int, str]:
    """The meanings that stand beside the numbers of the C header."""
    listed = re.search(r"enum mmtf_refusal \{(.*?)\};", header_text(), re.DOTALL)
    return {int(number): words for number, words in re.findall(r"MMTF_\w+ = (\d+),? +/\* (.*) \*/", listed[1])}


MEANINGS = meanings_of_header()

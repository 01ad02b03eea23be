"""What the package answers is, to the byte, what a C program writes that calls libmmtf.a."""

from __future__ import annotations

import pathlib
import random
import re
import subprocess
import tempfile
from typing import Iterable

import dump
import made
import nozhuiteca
from shared import BUILT, COLUMNS, DATA, KINDS, SAMPLE, Case


class AgainstC(Case):
    """What the package answers is, to the byte, what a C program writes that calls libmmtf.a."""

    def compare(self, files: Iterable[bytes]) -> str:
        """The text about the files, which both ways agree on."""
        with tempfile.TemporaryDirectory() as folder:
            paths = []
            texts = []
            for number, file in enumerate(files):
                paths.append(pathlib.Path(folder, str(number)))
                paths[-1].write_bytes(file)
                texts.extend(dump.of_file(file))
            said = subprocess.run([BUILT / "dump", *paths], capture_output=True, text=True, check=True).stdout
        for ours, theirs in zip(texts, said.splitlines()):
            self.assertEqual(ours[:200], theirs[:200])
            self.assertTrue(ours == theirs, "the lines differ after 200 characters: " + ours[:200])
        self.assertEqual(len(texts), len(said.splitlines()))
        return said

    def test_derived(self) -> None:
        files = sorted(DATA.glob("derived/*.mmtf"))
        self.assertEqual(len(files), 9)
        said = self.compare(path.read_bytes() for path in files)
        self.assertEqual(said.count("container 0, verdict 0\n"), 8)
        self.assertEqual(said.count("container 0, verdict 24\n"), 1)
        self.assertGreater(len(re.findall(r"^view of \w+: [0-9a-f]+\n", said, re.MULTILINE)), 9 * 32)
        self.assertGreaterEqual(len(re.findall(r"^encoded by \d+ [0-9a-f]+\n", said, re.MULTILINE)), 9 * 16)

    def test_published(self) -> None:
        files = sorted(DATA.glob("published/*.mmtf"))
        self.assertEqual(len(files), 8)
        said = self.compare(path.read_bytes() for path in files)
        self.assertEqual(said.count("container 3, verdict 3\n"), 8)

    def test_refused(self) -> None:
        """A file for each number of a verdict, all but the one of 67,108,865 bytes."""
        files = made.refused_files()
        del files[1]
        said = self.compare(files.values())
        for number in files:
            self.assertIn(f", verdict {number}\n", said)

    def test_damaged(self) -> None:
        chance = random.Random(6)
        said = self.compare(made.damaged_copies(chance, SAMPLE, 300))
        verdicts = set(re.findall(r"verdict (\d+)\n", said))
        self.assertGreater(len(verdicts), 8, verdicts)

    def test_generated_columns(self) -> None:
        chance = random.Random(7)
        said = self.compare(made.generated_column(chance) for _ in range(1500))
        for kind in ("int32", "int16", "int8", "fixed_point", "float32", "chars", "strings"):
            decoded = re.findall(rf"^{kind} (?!refused)", said, re.MULTILINE)
            self.assertGreater(len(decoded), 20, kind)
        for codec in range(1, 17):
            self.assertGreater(said.count(f"encoded by {codec} "), 20, codec)
        for number in range(14, 20):
            self.assertGreater(said.count(f"refused {number}\n"), 10, number)
        self.assertIn("float32 refused 27\n", said)

    def test_generated_runs(self) -> None:
        chance = random.Random(9)
        said = self.compare(made.generated_run(chance) for _ in range(300))
        self.assertGreater(len(re.findall(r"^bill [0-9a-f]+\n", said, re.MULTILINE)), 100)
        for number in (29, 30):
            self.assertGreater(said.count(f"bill refused {number}\n"), 20, number)

    def test_columns_by_name(self) -> None:
        """`column`, which copies nothing, gives what `view` and `decode` give."""
        for path in sorted(DATA.glob("derived/*.mmtf")):
            file = path.read_bytes()
            for name in COLUMNS:
                part = nozhuiteca.view(file, name)
                kind = KINDS.get(name)
                self.assertEqual(nozhuiteca.column(file, name), nozhuiteca.decode(part, kind))
                self.assertEqual(nozhuiteca.column(bytearray(file), name.encode()), nozhuiteca.decode(part, kind))
                own = nozhuiteca.CODECS[nozhuiteca.header(part).codec]
                self.assertEqual(nozhuiteca.column(file, name, own), nozhuiteca.decode(part))

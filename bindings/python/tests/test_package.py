"""The package as it is built, installed, loaded, run, hinted and documented."""

from __future__ import annotations

import ast
import base64
import doctest
import hashlib
import importlib
import inspect
import os
import pathlib
import subprocess
import sys
import tempfile
import typing
import unittest
import zipfile

import nozhuiteca
from shared import BUILT, HERE, HOME, Case

PACKAGE = HERE / "nozhuiteca"
ACCEPTED, REFUSED = HOME / "samples/4QXX.mmtf", HOME / "samples/refused-4QXX.mmtf"
MODULES = [importlib.import_module(f"nozhuiteca.{path.stem}") for path in sorted(PACKAGE.glob("_[a-z]*.py"))] + [nozhuiteca]


def said(*words: object, **environment: str) -> tuple[int, str, str]:
    """What a run of Python says: its status, its output and its errors."""
    known = {**os.environ, **environment}
    done = subprocess.run([sys.executable, "-B", *words], capture_output=True, text=True, env=known)
    return done.returncode, done.stdout, done.stderr


class Installed(Case):
    """The wheel, built and installed by pip, which asks no network."""

    @classmethod
    def setUpClass(cls) -> None:
        folder = tempfile.TemporaryDirectory()
        cls.addClassCleanup(folder.cleanup)
        cls.folder = pathlib.Path(folder.name)
        cls.pip("wheel", "--no-build-isolation", "--wheel-dir", cls.folder / "wheels", HERE)
        cls.pip("install", "--target", cls.folder / "site", *cls.folder.glob("wheels/*"))

    @staticmethod
    def pip(*words: object) -> None:
        """Runs pip without a network, and without what the tests put into the environment."""
        known = {name: value for name, value in os.environ.items() if name not in ("NOZHUITECA_LIBRARY", "PYTHONPATH")}
        offline = ["--isolated", "--no-index", "--no-deps", "--no-cache-dir", "--disable-pip-version-check"]
        done = subprocess.run([sys.executable, "-m", "pip", words[0], *offline, *words[1:]], capture_output=True, text=True,
                              env=known)
        if done.returncode != 0:
            raise AssertionError(done.stdout + done.stderr)

    def isolated(self, program: str) -> str:
        """What a program says that has the installed package and nothing else of this environment."""
        known = {name: value for name, value in os.environ.items() if name != "NOZHUITECA_LIBRARY"}
        program = f"import sys; sys.path.insert(0, {str(self.folder / 'site')!r}); import nozhuiteca\n{program}"
        done = subprocess.run([sys.executable, "-I", "-B", "-W", "error", "-c", program], capture_output=True, text=True,
                              env=known, cwd=self.folder)
        self.assertEqual((done.returncode, done.stderr), (0, ""))
        return done.stdout

    def test_files(self) -> None:
        """The wheel has the package's files and the shared library, byte for byte, and nothing else."""
        [wheel] = self.folder.glob("wheels/*")
        self.assertRegex(wheel.name, rf"^nozhuiteca-{nozhuiteca.__version__}-py3-none-linux_\w+\.whl$")
        expected = {f"nozhuiteca/{path.name}": path.read_bytes() for path in PACKAGE.iterdir() if path.is_file()}
        self.assertIn("nozhuiteca/py.typed", expected)
        expected["nozhuiteca/libmmtf.so"] = (BUILT / "libmmtf.so").read_bytes()
        with zipfile.ZipFile(wheel) as archive:
            found = {name: archive.read(name) for name in archive.namelist() if ".dist-info/" not in name}
        self.assertEqual(found, expected)

    def test_same_again(self) -> None:
        """The wheel of the same files is the same bytes; an environment of pip's own, which has nothing, can build it."""
        self.pip("wheel", "--wheel-dir", self.folder / "again", HERE)
        [first], [again] = self.folder.glob("wheels/*"), self.folder.glob("again/*")
        self.assertEqual((first.name, first.read_bytes()), (again.name, again.read_bytes()))

    def test_record(self) -> None:
        """The wheel's record has every file with its size and digest."""
        [wheel] = self.folder.glob("wheels/*")
        with zipfile.ZipFile(wheel) as archive:
            found = {name: archive.read(name) for name in archive.namelist()}
        [record] = [name for name in found if name.endswith(".dist-info/RECORD")]
        rows = dict(line.split(",", 1) for line in found[record].decode().splitlines())
        self.assertEqual((rows.pop(record), list(rows)), (",", [name for name in found if name != record]))
        for name, row in rows.items():
            digest = base64.urlsafe_b64encode(hashlib.sha256(found[name]).digest()).decode().rstrip("=")
            self.assertEqual(row, f"sha256={digest},{len(found[name])}")

    def test_metadata(self) -> None:
        """What the installed package says of itself."""
        told = self.isolated("from importlib.metadata import metadata\n"
                             "said = metadata('nozhuiteca')\n"
                             "print(*(said[name] for name in ('Name', 'Version', 'Requires-Python', 'Summary')), sep='\\n')")
        self.assertEqual(told.splitlines(), ["nozhuiteca", nozhuiteca.__version__, ">=3.9",
                                             "An MMTF reader over a library whose calls are proved"])

    def test_used(self) -> None:
        """The installed package loads the library that it carries, and reads a file."""
        told = self.isolated(f"f = nozhuiteca.open({str(ACCEPTED)!r})\n"
                             "from nozhuiteca import _library\n"
                             "print(nozhuiteca.__file__, _library.library._name)\n"
                             "print(nozhuiteca.__version__, f.verdict, f['xCoordList'][0], f['entityList'][1]['type'])\n"
                             f"print(nozhuiteca.open({str(REFUSED)!r}).verdict)")
        site = self.folder / "site/nozhuiteca"
        self.assertEqual(told.splitlines(), [
            f"{site}/__init__.py {site.resolve()}/libmmtf.so",
            f"{nozhuiteca.__version__} accepted -0.8209999799728394 water",
            "refused with 3: a lead byte is not in the subset"])


class Loaded(Case):
    """Where the library is, and how the package is run and built."""

    def test_where_the_library_is(self) -> None:
        status, _, error = said("-c", "import nozhuiteca", NOZHUITECA_LIBRARY="/nowhere/libmmtf.so")
        self.assertEqual(status, 1)
        self.assertIn("ImportError: There is no /nowhere/libmmtf.so: ", error)
        status, _, error = said("-c", "import nozhuiteca", NOZHUITECA_LIBRARY="")
        self.assertEqual(status, 1)
        self.assertIn(f"ImportError: There is no {PACKAGE}/libmmtf.so: ", error)

    def test_another_version(self) -> None:
        """A library of another version is not taken."""
        with tempfile.TemporaryDirectory() as folder:
            source, other = pathlib.Path(folder, "other.c"), pathlib.Path(folder, "other.so")
            source.write_text("unsigned mmtf_version(void) { return 12345; }\n")
            subprocess.run(["gcc", "-shared", "-fPIC", "-o", other, source], check=True)
            status, _, error = said("-c", "import nozhuiteca", NOZHUITECA_LIBRARY=str(other))
        self.assertEqual(status, 1)
        self.assertIn(f"other.so is of version 1.23.45, and the package of version {nozhuiteca.__version__}.", error)

    def test_command(self) -> None:
        program = ("-m", "nozhuiteca")
        self.assertEqual(said(*program, ACCEPTED), (0, f"{ACCEPTED} is accepted.\n", ""))
        self.assertEqual(said(*program, REFUSED),
                         (1, f"{REFUSED} is refused with 3: a lead byte is not in the subset.\n", ""))
        self.assertEqual(said(*program, HERE), (2, "", f"{HERE} cannot be read: Is a directory.\n"))
        self.assertEqual(said(*program, "nothing"), (2, "", "nothing cannot be read: No such file or directory.\n"))
        self.assertEqual(said(*program), (2, "", "Usage: python3 -m nozhuiteca FILE\n"))

    def test_build_without_an_archive(self) -> None:
        known = {**os.environ, "MMTF_LIB_DIR": "/nowhere"}
        done = subprocess.run([HERE / "build"], capture_output=True, text=True, env=known)
        self.assertEqual((done.returncode, done.stderr),
                         (1, "There is no /nowhere/libmmtf.a: bin/build library makes it.\n"))


class Documented(Case):
    def test_documentation(self) -> None:
        tried = 0
        for module in MODULES:
            failed, examples = doctest.testmod(module)
            self.assertEqual(failed, 0, module)
            tried += examples
        self.assertGreater(tried, 25)
        for name in nozhuiteca.__all__:
            value = getattr(nozhuiteca, name)
            if inspect.isclass(value) or inspect.isfunction(value):
                self.assertTrue(value.__doc__, name)

    def test_sample_of_the_readme(self) -> None:
        failed, tried = doctest.testfile(str(HERE / "README.md"), module_relative=False, globs={"home": HOME})
        self.assertEqual(failed, 0)
        self.assertGreater(tried, 10)

    def test_calls_of_the_readme(self) -> None:
        """The README names every public name."""
        text = (HERE / "README.md").read_text()
        for name in nozhuiteca.__all__:
            self.assertIn(f"`{name}", text)

    def test_first_lines(self) -> None:
        for module in MODULES:
            self.assertRegex(module.__doc__, r"^[A-Z].+[.:]", module)


class Hinted(Case):
    """Every parameter and result of the package has a hint, and none is Any."""

    def test_hints(self) -> None:
        functions = 0
        for path in PACKAGE.glob("*.py"):
            for node in ast.walk(ast.parse(path.read_text())):
                self.assertNotIn("Any", (getattr(node, "id", ""), getattr(node, "attr", ""), getattr(node, "name", "")))
                if not isinstance(node, ast.FunctionDef):
                    continue
                functions += 1
                words = node.args
                given = [*words.posonlyargs, *words.args, *words.kwonlyargs, words.vararg, words.kwarg]
                bare = [word.arg for word in given if word and not word.annotation and word.arg not in ("self", "cls")]
                self.assertEqual((bare, node.returns is None), ([], False), f"{path.name}: {node.name}")
        self.assertGreater(functions, 50)

    @unittest.skipIf(sys.version_info < (3, 10), "Python before 3.10 does not read all hints")
    def test_hints_are_read(self) -> None:
        """The names that hints have are there."""
        for module in MODULES:
            for value in vars(module).values():
                if inspect.isfunction(value) and value.__module__ == module.__name__:
                    typing.get_type_hints(value)
        for name, value in vars(nozhuiteca.File).items():
            if inspect.isfunction(value):
                typing.get_type_hints(value)

    def test_no_star(self) -> None:
        for path in PACKAGE.glob("*.py"):
            self.assertNotIn("import *", path.read_text())

"""The names that a document cites, held to the sources. A document cites a definition as *crate* `File.name` (the crate stands for the names
after it too), a function, a constant or a type as `crate::name` or `crate::module::name`, a law as `name` (crate `File`), a wrong program as
`crate/name`, a test as `file.rs` with the names of its tests, and a file by its path."""

import re

from sources import HOME, read

CITED = re.compile(
    r"(?:\*law\* )?(?P<laws>`[^`]+`(?:, `[^`]+`)*) \((?P<in_crate>\w+) `(?P<in_file>\w+)`\)"
    r"|`(?P<crate>\w+)::(?P<function>(?:\w+::)*(?:\w+|\*))`(?: and its like)?(?: \((?P<clauses>\*\w+\*(?:, \*\w+\*)*)\))?"
    r"|`(?P<test>\w+\.rs)`(?P<names>(?:,? \w+(?=[,;| ]|$))*)"
    r"|\*(?P<italic>[a-z_0-9]+)\*|`(?P<code>[^`]+)`"
)

faults = []


def fault(line, words, document=None):
    """Notes a fault, of a line of a document or of the repository."""
    faults.append(f"{document.relative_to(HOME)}, line {line}: {words}" if line else words)


class Names:
    """Looks up the names that one document cites."""

    def __init__(self, repository, document):
        self.repository, self.document = repository, document

    def fault(self, line, words):
        fault(line, words, self.document)

    def check(self, line, text):
        """Every name of a text."""
        crate = None
        for found in CITED.finditer(text):
            if found["laws"]:
                for name in re.findall(r"`([^`]+)`", found["laws"]):
                    if not self.repository.has_law(found["in_crate"], found["in_file"], name):
                        self.fault(line, f"there is no law {name} in {found['in_file']} of {found['in_crate']}")
            elif found["crate"]:
                self.contract(line, found)
            elif found["test"]:
                self.test(line, found)
            elif found["italic"]:
                if found["italic"] in self.repository.crates:
                    crate = found["italic"]
                elif found["italic"] not in self.repository.clauses:
                    self.fault(line, f"nothing is called {found['italic']}")
            else:
                self.code(line, crate, found["code"])

    def contract(self, line, found):
        crate, name, functions = found["crate"], found["function"], self.repository.functions
        if crate.isupper():
            return
        if crate not in functions:
            self.fault(line, f"there is no crate {crate}")
        elif not name.endswith("*") and name not in functions[crate] and name not in self.repository.declared[crate]:
            self.fault(line, f"there is no {crate}::{name}")
        elif found["clauses"]:
            for clause in re.findall(r"\w+", found["clauses"]):
                if not re.search(rf"ensures {clause} \{{", functions[crate][name][1]):
                    self.fault(line, f"{crate}::{name} has no clause {clause}")

    def test(self, line, found):
        path = HOME / "tests" / "tests" / found["test"]
        if not path.exists():
            self.fault(line, f"there is no {found['test']}")
            return
        if not found["names"]:
            self.fault(line, f"no test of {found['test']} is named")
        for name in re.findall(r"\w+", found["names"]):
            if not re.search(rf"#\[test\]\s+fn {name}\(", read(path)):
                self.fault(line, f"{found['test']} has no test {name}")

    def code(self, line, crate, code):
        """A name in code: a definition of the crate named before it, a wrong program, a file, or any word of the sources."""
        edit = re.fullmatch(r"(\w+)/(\w+)", code)
        if edit and edit[1] in self.repository.crates:
            if not self.repository.has_edit(edit[1], edit[2]):
                self.fault(line, f"there is no edit {code}")
        elif crate and re.fullmatch(r"[A-Z]\w*\.\S+", code):
            if not self.repository.definition(crate, code):
                self.fault(line, f"there is no definition {code} of {crate}")
        elif "CRATE" in code:
            return
        elif not (HOME / code.split()[0]).exists() and code not in self.repository.words:
            self.fault(line, f"nothing is called {code}")

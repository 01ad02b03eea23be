"""What the repository has: crates, functions, definitions, laws and wrong programs. The scripts of this folder look names up here."""

import re
import textwrap
from pathlib import Path

HOME = Path(__file__).resolve().parent.parent
FUNCTION = re.compile(r'^(?P<public>pub )?(?:pub\(crate\) )?(?:extern "C" )?fn (?P<name>\w+)(?P<said>.*?)(?:^\{| \{$)', re.M | re.S)
BODY = re.compile(r'^(?:pub )?(?:pub\(crate\) )?(?:extern "C" )?fn (?P<name>\w+).*?(?:^\{| \{$)(?P<body>.*?)^\}', re.M | re.S)
METHODS = re.compile(r"^impl(?:<[^>]*>)? (?P<type>\w+)(?:<[^>]*>)? \{$(?P<body>.*?)^\}", re.M | re.S)
# The folders of a crate that its source is in.
PARTS = ("src", "specs", "proofs")
PASSED_OVER = re.compile(r"^\s*(?:$|--|//|use |pub use |ghost use |mod |pub mod |module )")

# The crates whose functions are calls, those whose sources name calls, and the calls whose form the rules name, which C cannot take.
BOUNDARY, CALLERS = "mmtf", ("mmtf", "commands", "station")
MATRICES = {"transforms::matrix", "transforms::matrix_refusal"}


def read(path):
    return path.read_text(encoding="utf-8")


def listed():
    """The crates of crates.txt in their order, each with those that it uses."""
    lines = [line.split("#")[0] for line in read(HOME / "crates.txt").splitlines()]
    return {line.split()[0].split(":")[0]: line.split(":")[1].split() for line in lines if ":" in line}


def files_of(crate):
    """The files of a crate's code, without comments, each with its module: none for the crate's own file."""
    paths = sorted((HOME / "crates" / crate / "src").glob("*.rt"))
    return [("" if path.stem in ("lib", "main") else path.stem, re.sub(r"//.*", "", read(path))) for path in paths]


def source(crate):
    """The code of a crate, without comments."""
    return "\n".join(text for _, text in files_of(crate))


def modules_of(crate):
    """The modules of a crate that other crates can name."""
    return set(re.findall(r"^pub mod (\w+);", source(crate), re.M))


def finds(pattern, text):
    """What a pattern finds in a text, each with its name: Type::name for a method."""
    for match in pattern.finditer(text):
        yield match["name"], match
    for block in METHODS.finditer(text):
        for match in pattern.finditer(textwrap.dedent(block["body"])):
            yield f"{block['type']}::{match['name']}", match


def by_name(crate, pattern):
    """What a pattern finds in the files of a crate, by its group `name`: crate::module::name has the key module::name. What stands
    in a module that other crates cannot name is found by its bare name too, if nothing else has that."""
    modules, found = modules_of(crate), {}
    for module, text in files_of(crate):
        for name, match in finds(pattern, text):
            if module:
                found[f"{module}::{name}"] = (module, match)
            if module not in modules and (not module or name not in found):
                found[name] = (module, match)
    return found


def functions_of(crate):
    """The functions of a crate, each with whether other crates can name it, and its contract."""
    modules = modules_of(crate) | {""}
    return {name: (bool(match["public"]) and module in modules, match["said"]) for name, (module, match) in by_name(crate, FUNCTION).items()}


def bodies_of(crate):
    """The bodies of a crate's functions, each with the file that it stands in."""
    home = "main" if (HOME / "crates" / crate / "src" / "main.rt").exists() else "lib"
    return {name: (f"crates/{crate}/src/{module or home}.rt", match["body"]) for name, (module, match) in by_name(crate, BODY).items()}


def refusals():
    """The refusals of the table by their numbers, each with the name of its variant."""
    return {int(n): name for name, n in re.findall(r"^    (\w+) = (\d+),$", source("refusal"), re.M)}


def declared_in(crate):
    """The constants and types of a crate."""
    found = set()
    for module, text in files_of(crate):
        names = re.findall(r"^(?:pub )?(?:const|struct|enum) (\w+)", text, re.M)
        found |= {f"{module}::{name}" if module else name for name in names}
    return found


def names_of_functions(text):
    """The functions, and other things, that a text names as crate::name or crate::module::name; a module that it takes by `use` has its crate."""
    for crate, taken in re.findall(r"^use (\w+)::(\w+|\{[^}]*\});", text, re.M):
        for module in re.findall(r"\b[a-z_]\w*\b", taken):
            text = re.sub(rf"(?<!::)\b{module}::", f"{crate}::{module}::", text)
    return set(re.findall(r"\b\w+(?:::\w+)+", text))


def methods_in(text, public):
    """The methods among public functions that a text calls, as Type::method or of a value; of which type the value is, is not looked at."""
    found = set()
    for name in public:
        *_, last, method = name.split("::")
        if last[0].isupper() and re.search(rf"(?:\b{last}::|\.){method}\(", text):
            found.add(name)
    return found


def path_of(crate, file):
    return HOME / "crates" / crate / "specs" / f"{file}.antt"


def has_line(path, pattern):
    return re.search(rf"^ *(?:[a-z]+ )*{pattern}", read(path), re.M) is not None


def lines_of(text):
    """The lines of a text that are no comment, no import and not empty."""
    return sum(1 for line in text.splitlines() if not PASSED_OVER.match(line))


class Repository:
    """What the repository has, to look names up."""

    def __init__(self):
        self.crates = list(listed())
        self.functions = {crate: functions_of(crate) for crate in self.crates}
        self.declared = {crate: declared_in(crate) for crate in self.crates}
        self.clauses = set(re.findall(r"ensures (\w+) \{", " ".join(c for f in self.functions.values() for _, c in f.values())))
        paths = [path for crate in self.crates for part in PARTS for path in (HOME / "crates" / crate / part).rglob("*.*t")]
        self.words = "".join(read(path) for path in paths + [HOME / "crates.txt", HOME / ".ci" / "run", HOME / "include" / "mmtf.h"])

    def public(self):
        """The public functions as crate::function, each with its contract."""
        return {f"{c}::{name}": said for c, named in self.functions.items() for name, (public, said) in named.items() if public}

    def calls(self):
        """The public functions that C, Python and the program reach, and those of matrices."""
        public, named = set(self.public()), {f"{BOUNDARY}::{name}" for name in self.functions[BOUNDARY]} | MATRICES
        for crate in CALLERS:
            named |= names_of_functions(source(crate)) | methods_in(source(crate), public)
        return public & named

    def unused(self):
        """The inner steps that no crate names but their own."""
        public, named = set(self.public()), set()
        for crate in self.crates:
            others = {name for name in public if not name.startswith(f"{crate}::")}
            named |= names_of_functions(source(crate)) & others | methods_in(source(crate), others)
        return public - self.calls() - named

    def definition(self, crate, cited):
        """The text of a definition that is cited as File.name, from its signature to the next empty line, or None."""
        file, name = cited.split(".", 1)
        if not path_of(crate, file).exists():
            return None
        found = re.search(rf"^ *(?:[a-z]+ )*pub (?:record |data )?{re.escape(name)}(?=[ :(]).*?(?=\n\n|\Z)", read(path_of(crate, file)), re.M | re.S)
        return found and found[0]

    def has_law(self, crate, file, name):
        paths = [HOME / "crates" / crate / part / "Laws" / f"{file}.antt" for part in ("specs", "proofs")]
        return any(path.exists() and has_line(path, rf"(?:pub )?{re.escape(name)} :") for path in paths)

    def has_edit(self, crate, name):
        """A wrong program stands below a line '# NAME in FUNCTION: ..', '# NAME in Type::METHOD: ..' or '# NAME in laws FILE: ..' of one of the
        crate's edits."""
        headed = re.compile(rf"^# {name} in (?:laws )?[\w:]+(?: and [\w:]+)*(?: at \S+)?: ", re.M)
        return any(headed.search(read(path)) for path in (HOME / "crates" / crate / "must-fail").glob("*.edit"))

"""What the sources say of themselves: public functions with their contracts, and the definitions that a name stands for."""
import re
from pathlib import Path

ROOT = Path(__file__).resolve().parent.parent
CRATES = ROOT / "crates"


class Function:
    """A public function of a library: where it stands, its path in the proofs, its arguments and its clauses."""

    def __init__(self, crate, file, line, path, signature, clauses):
        self.crate, self.file, self.line, self.path = crate, file, line, path
        self.name = path[-1]
        self.signature, self.clauses = signature, clauses
        self.requires = [c for c in clauses if c.startswith("requires")]
        self.ensures = [c for c in clauses if c.startswith("ensures")]

    def __str__(self):
        return f"{self.file.relative_to(ROOT)}:{self.line}: {'.'.join(self.path)}"


def exports():
    """The static libraries: NAME_c has the functions of NAME as C calls them."""
    return re.findall(r"^(\w+) staticlib:", (ROOT / "crates.txt").read_text(), re.M)


def libraries():
    """The crates with a src/lib.rt that others use, by name."""
    return sorted(d.name for d in CRATES.iterdir() if (d / "src/lib.rt").exists() and d.name not in exports())


def for_programs_only():
    """The crates that docs/OPEN-ANSWERS.md names in its table: programs alone use them."""
    rows = [l for l in (ROOT / "docs/OPEN-ANSWERS.md").read_text().splitlines() if l.startswith("| `")]
    return {name for row in rows for name in re.findall(r"`(\w+)`", row.split("|")[1])}


def for_crates_only():
    """The crates whose functions others of the library share, and that no user is pointed to."""
    return {
        "wire", "answer", "dss_measure", "dss_row", "dss_salvage", "dss_salvage_row", "text", "lines",
        "gateway_words", "gateway_row", "lent_rows",
    }


def public_functions(crate):
    """The functions of a crate that are `pub`, in the order of its files."""
    for file in sorted((CRATES / crate / "src").rglob("*.rt")):
        module = list(file.relative_to(CRATES / crate / "src").with_suffix("").parts)
        module = [] if module == ["lib"] else module
        lines = file.read_text().splitlines()
        owner = []
        for i, line in enumerate(lines):
            if match := re.match(r"impl(?:<[^>]*>)? (\w+)", line):
                owner = [match[1]]
            elif line == "}":
                owner = []
            match = re.match(r' *pub (?:extern "C" )?fn (\w+)', line)
            if not match:
                continue
            head = []  # up to the body
            for part in lines[i:]:
                if part.strip() == "{":
                    break
                head.append(part.strip())
                if part.endswith(" {"):
                    break
            clauses = [p for p in head if re.match(r"(requires|ensures)\*? ", p)]
            signature = " ".join(p for p in head if p not in clauses)
            yield Function(crate, file, i + 1, module + owner + [match[1]], signature, clauses)


# ---- definitions


def module_file(module):
    """The file of a module of this repository, or None: Rattle.wire.specs.Bytes is crates/wire/specs/Bytes.antt."""
    match = re.match(r"Rattle\.(\w+)\.(.*)", module)
    if not match:
        return None
    file = CRATES / match[1] / (match[2].replace(".", "/") + ".antt")
    return file if file.exists() else None


# a first line: of a record or a type; or a name with its type, a definition's where it has a mark, else a theorem's
HEADER = re.compile(r" *(abbrev |unfoldable )?(?:pub )?(?:(record|data) ([^\s:({]+)|([^\s:({]+)(?: \{[^}]*\})* :)")


class Source:
    """A file of definitions or of code: what its names stand for."""

    known = {}

    @classmethod
    def of(cls, file):
        if file not in cls.known:
            cls.known[file] = cls(file)
        return cls.known[file]

    def __init__(self, file):
        self.file = file
        self.imported = {}  # name here: (file, name there)
        self.modules = {}  # name here: file
        self.defined = {}  # name: text
        self.theorems = set()
        self.inside = {}  # a constructor's or a field's name: the name of its type
        self.sections = ""  # what the sections' heads say
        text = file.read_text()
        for match in re.finditer(r"^ *(?:ghost )?use (\S+?)(?:\.\{([^}]*)\})?(?: as (\S+?))?;?$", text, re.M):
            self._use(*match.groups())
        if file.suffix == ".antt":
            self._define(text.splitlines())

    def _use(self, module, names, alias):
        target = module_file(module)
        if target is None:
            return
        if names is None:
            self.modules[alias or module.split(".")[-1]] = target
            return
        for name in names.split(","):
            there, _, here = name.strip().partition(" as ")
            self.imported[here or there] = (target, there)

    def _define(self, lines):
        name, depth, kind = None, 0, None
        for line in lines:
            indent = len(line) - len(line.lstrip())
            if re.match(r" *(--|use |pub mod )", line) or not line.strip():
                continue
            if re.match(r" *module ", line):
                name = None
                self.sections += line + "\n"
                continue
            match = HEADER.match(line)
            if match and (name is None or indent <= depth):
                name, depth, kind = match[3] or match[4], indent, match[2]
                self.defined[name] = ""
                if not match[1] and not kind:
                    self.theorems.add(name)
            if name is None:
                continue
            if kind and match and indent > depth:
                self.inside[match[4] or match[3]] = name
            self.defined[name] += line.strip() + "\n"

    def believed(self, name):
        """What of a name has to be read: of a theorem its type, of a definition all."""
        if name not in self.theorems:
            return self.defined[name]
        out = []
        for line in self.defined[name].splitlines():
            if out and (line.startswith(name + " ") or line.startswith("unfolding")):
                break
            out.append(line)
        return "\n".join(out).partition(" : ")[2]

    def resolve(self, text):
        """The definitions that a text here names, as (source, name)."""
        for word in set(re.split(r"[\s(){}\[\];,λ]+", text)):
            word = word.lstrip(".")
            first, _, rest = word.partition(".")
            if first in self.modules and rest:
                yield from Source.of(self.modules[first]).own(rest.split(".")[0])
            elif first in self.imported:
                file, there = self.imported[first]
                yield from Source.of(file).own(there)
            else:
                yield from self.own(first)
            for field in rest.split("."):
                yield from self.own(field)

    def own(self, name):
        if name in self.defined:
            yield self, name
        elif name in self.inside:
            yield self, self.inside[name]


def reached(starts):
    """All definitions that texts reach, from (source, text) on: {file: names}."""
    found, todo = {}, [d for source, text in starts for d in source.resolve(text)]
    while todo:
        source, name = todo.pop()
        names = found.setdefault(source.file, set())
        if name in names:
            continue
        names.add(name)
        todo.extend(source.resolve(source.defined[name]))
    return found

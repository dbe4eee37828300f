"""Reads what the crates define and promise: the definitions of specs/, and the contracts of src/.

A definition cites another one where its name stands in its text, as the file's imports say. That is read by names, not by types: a
variable with the name of a definition counts as a citation of it, so a list made from this may have a few names too many, and lacks none.
"""
import pathlib
import re

ROOT = pathlib.Path(__file__).resolve().parent.parent.parent
CRATES = ROOT / "crates"
IMPORT = re.compile(r"^\s*(?:ghost )?use Rattle\.(\w+)\.specs\.([\w.]+?)(?:\.\{(.*)\}| as (\w+))?;?$")
OTHER = re.compile(r"^\s*(?:ghost )?use (?:Rattle\.)?(\w+)\.[\w.]+\.\{(.*)\};?$")
TOKEN = re.compile(r"[^\s(){}\[\],;λ]+")
WORDS_BEFORE = re.compile(r"^(abbrev |unfoldable |opaque |pub |record |data )+")


def crate_order():
    """The crates in the order of crates.txt, with the name of the layer of each."""
    order, layer = {}, ""
    for line in (ROOT / "crates.txt").read_text().splitlines():
        if found := re.match(r"# \d+ (.+)", line):
            layer = found.group(1)
        elif found := re.match(r"(\w+)[^:#]*:", line):
            order[found.group(1)] = layer
    return order


def crates_of_tests():
    return {crate for crate, layer in crate_order().items() if layer == "tests"}


class Module:
    """A file of specs/: its definitions, each with its lines, and what its names mean."""

    def __init__(self, crate, name, path):
        self.crate, self.name, self.path = crate, name, path
        self.definitions, self.makers, self.scope = {}, {}, Scope()
        self.read(path.read_text().splitlines())

    def read(self, lines):
        current = None
        for line in lines:
            if line.startswith("use "):
                self.scope.read(line)
            elif line.startswith(("pub mod", "pub use", "--")) or not line.strip():
                continue
            else:
                if not line[0].isspace() and line[0] not in "})]":
                    current = WORDS_BEFORE.sub("", line).split()[0].rstrip(":")
                    self.definitions.setdefault(current, [])
                if current:
                    self.definitions[current].append(line)
        for name, text in self.definitions.items():
            if "data" in text[0].split()[:2]:
                for line in text[1:]:
                    for maker in line.split(" :")[0].split() if " :" in line else []:
                        self.makers[maker] = name


class Scope:
    """What the imports of a file make its names mean."""

    def __init__(self):
        self.names, self.modules, self.kit = {}, {}, {}

    def read(self, line):
        if found := IMPORT.match(line):
            crate, module, listed, alias = found.groups()
            if not (CRATES / crate).is_dir():
                self.read_kit(crate, listed or "")
            elif alias:
                self.modules[alias] = (crate, module)
            else:
                for name, renamed in imported(listed or ""):
                    self.names[renamed] = (crate, module, name)
        elif found := OTHER.match(line):
            self.read_kit(found.group(1), found.group(2))

    def read_kit(self, crate, listed):
        for _, renamed in imported(listed):
            self.kit[renamed] = crate


def imported(listed):
    """Each name of an import with what it is called here."""
    for item in filter(None, (item.strip() for item in listed.split(","))):
        name, _, renamed = item.partition(" as ")
        yield name.strip(), (renamed or name).strip()


def read_modules():
    """All files of specs/, by crate and name."""
    modules = {}
    for path in sorted(CRATES.glob("*/specs/**/*.antt")):
        crate = path.relative_to(CRATES).parts[0]
        name = ".".join(path.relative_to(CRATES / crate / "specs").with_suffix("").parts)
        if name != "Lib":
            modules[crate, name] = Module(crate, name, path)
    return modules


def targets(text, scope, module=None):
    """What the names of a text mean: (crate, module, name) each."""
    for token in TOKEN.findall(text):
        head, _, rest = token.strip(".").partition(".")
        if rest and head in scope.modules:
            yield (*scope.modules[head], rest.split(".")[0])
        elif module and head in module.definitions:
            yield module.crate, module.name, head
        elif module and head in module.makers:
            yield module.crate, module.name, module.makers[head]
        elif head in scope.names:
            yield scope.names[head]


class House:
    """All definitions, and what each cites."""

    def __init__(self):
        self.modules = read_modules()
        self.cited = {}

    def find(self, target):
        """The definition that a target is, as (crate, module, name), or None for a type of the code."""
        crate, name, what = target
        module = self.modules.get((crate, name))
        if module and what in module.definitions:
            return target
        return (crate, name, module.makers[what]) if module and what in module.makers else None

    def cites(self, key):
        if key not in self.cited:
            module = self.modules[key[0], key[1]]
            found = list(targets("\n".join(module.definitions[key[2]]), module.scope, module))
            self.cited[key] = {self.find(target) for target in found} - {None, key}
        return self.cited[key]

    def unfold(self, keys):
        """All definitions that these are made of, themselves among them."""
        seen, left = set(), [key for key in keys if key]
        while left:
            key = left.pop()
            if key not in seen:
                seen.add(key)
                left += self.cites(key)
        return seen

    def code_types(self, keys):
        """The types of the code that these definitions name, as (crate, file, type)."""
        types = set()
        for key in keys:
            module = self.modules[key[0], key[1]]
            for crate, name, _ in targets("\n".join(module.definitions[key[2]]), module.scope, module):
                parts = name.split(".")
                if parts[0] == "declared":
                    parts = [part for part in parts[1:] if part != "TheVariants"]
                    types.add((crate, "/".join(parts[:-1]) or "lib", parts[-1]))
        return types

    def kit_names(self, keys):
        """The names of the kit's crates that these definitions use, as (crate, name)."""
        names = set()
        for key in keys:
            module = self.modules[key[0], key[1]]
            for token in TOKEN.findall("\n".join(module.definitions[key[2]])):
                head = token.strip(".").split(".")[0]
                if head in module.scope.kit:
                    names.add((module.scope.kit[head], head))
        return names

    def lines(self, keys):
        return sum(len(self.modules[crate, module].definitions[name]) for crate, module, name in keys)


class Contract:
    """A function's contract: where it stands, and the definitions that it cites."""

    def __init__(self, house, path, function):
        self.path = CRATES / path
        lines = self.path.read_text().splitlines()
        self.at = next((n for n, line in enumerate(lines) if re.search(r"\bfn %s\b" % function, line)), None)
        if self.at is None:
            raise KeyError("%s has no function %s" % (path, function))
        self.scope = Scope()
        for line in lines:
            self.scope.read(line)
        self.house = house
        self.text = []
        for line in lines[self.at:]:
            if line.rstrip() in ("{", "}", "    {", "    }") or line.strip() == "{}":
                break
            self.text.append(re.sub(r"//.*", "", line))

    def line(self, clause=None):
        """The number of the line of a clause, or of the function."""
        if clause is None:
            return self.at + 1
        for n, text in enumerate(self.text):
            if re.match(r"\s*(ensures|requires) %s \{" % clause, text):
                return self.at + n + 1
        raise KeyError("%s: no clause %s" % (self.path.name, clause))

    def clause(self, clause):
        """The text of a clause."""
        first = self.line(clause) - self.at - 1
        last = next((n for n in range(first + 1, len(self.text)) if re.match(r"\s*(ensures|requires)\b", self.text[n])), len(self.text))
        return "\n".join(self.text[first:last])

    def cites(self, clause=None):
        text = self.clause(clause) if clause else "\n".join(self.text)
        return {self.house.find(target) for target in targets(text, self.scope)} - {None}

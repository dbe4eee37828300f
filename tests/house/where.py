#!/usr/bin/env python3
"""Holds the tables of CONTRIBUTING.md, and the names of ARCHITECTURE.md, against the code.

  tests/house/where.py [--write]

"Where to change what": each file that a row names is there, and each other name stands in a file of its cell, or, where the cell has none,
somewhere in the crates. Each check that it names is one of tests/run.

"Limits": the number of a row stands in the files of its code and its definition, on the line of the name or near it, and in each document.
Where else the crates have that number is counted by file in tests/house/numbers.json (comments, proofs and crates of tests aside): a file
may have it no oftener than the list says. Where it has it less often, that is said, and --write shortens the list; it never adds to it.

ARCHITECTURE.md, and the README.md of a crate: each name in backticks, and each call of an example, is one of the crates, of their files
or of what stands in them.
"""
import argparse
import json
import re
import sys

from definitions import CRATES, ROOT, crates_of_tests

CONTRIBUTING = ROOT / "CONTRIBUTING.md"
ARCHITECTURE = ROOT / "ARCHITECTURE.md"
NUMBERS = ROOT / "tests" / "house" / "numbers.json"
TABLES = {"where": "## Where to change what", "limits": "### Limits"}
TOPS = ("docs/", "tests/", "examples/", "bench/", "crates/", "tools/", "README.md")
NUMBER = re.compile(r"(?<![\w.,])\d[\d_]*(?:(?:u8|u16|u32|u64|usize|i64)\b)?(?!\w)")
NEAR = 16  # lines from a name on in which its number stands
SMALL = 48  # numbers below it mean too much else to be counted


def table(text, heading):
    """The rows of the table under a heading, each as its cells."""
    rows = []
    for line in text.partition(heading)[2].splitlines()[1:]:
        if line.startswith("#") and rows:
            break
        if line.startswith("| ") and not line.startswith(("| to change", "| limit |")):
            rows.append([cell.strip() for cell in line.strip("|").split("|")])
    return rows


def names_in(cell):
    return re.findall(r"`([^`]+)`", cell)


def is_path(name):
    return "/" in name


def file_of(name):
    return ROOT / name if name.startswith(TOPS) else CRATES / name


class Code:
    """All that stands in the crates, and who has which word."""

    def __init__(self):
        self.texts = {path: path.read_text() for part in ("src", "specs", "proofs") for path in CRATES.glob("*/%s/**/*" % part)
                      if path.suffix in (".rt", ".antt")}
        self.words = set()
        for text in self.texts.values():
            self.words.update(re.findall(r"\w+", text))

    def has(self, name, paths):
        """Whether the name stands in one of these files, or in any where there are none."""
        if not paths:
            return name in self.words
        return any(re.search(r"(?<!\w)%s(?!\w)" % re.escape(name), path.read_text()) for path in paths if path.is_file())


def checks_there():
    return set(re.findall(r"^(?:check|by_name) (\w+) ", (ROOT / "tests" / "run").read_text(), re.M))


def cell_faults(code, said, cell):
    """What a cell names that isn't there."""
    paths = [file_of(name) for name in names_in(cell) if is_path(name)]
    for path in paths:
        if not path.exists():
            yield "%s: there is no %s" % (said, path.relative_to(ROOT))
    for name in names_in(cell):
        if not is_path(name) and not code.has(name, paths) and not code.has(name, []):
            yield "%s: nothing is named %s" % (said, name)
        elif not is_path(name) and paths and not code.has(name, paths):
            yield "%s: %s doesn't stand in %s" % (said, name, " or ".join(str(path.relative_to(ROOT)) for path in paths))


def where_faults(code):
    checks = checks_there()
    for said, *cells, last in table(CONTRIBUTING.read_text(), TABLES["where"]):
        for part in (part for cell in cells for part in re.split(r"[,;] (?=`)", cell)):
            yield from cell_faults(code, said, part)
        for name in names_in(last):
            if name not in checks and name != "rt check":
                yield "%s: tests/run has no check %s" % (said, name)


def value(text):
    return int(re.sub(r"[_,]|u\d+$|usize$|i64$", "", text))


def numbers_of(text):
    return {value(found) for found in NUMBER.findall(text)}


def numbers_said(text):
    """The numbers of a document, with commas or not."""
    return {value(found) for found in re.findall(r"(?<![\d.,])\d{1,3}(?:[,_]\d{3})+(?![\d_])|(?<![\d.,_])\d+(?![\d_])", text)}


def stands_named(path, name, wanted):
    """Whether the number stands where the file has the name, or in the next lines; anywhere in it, where there is no name."""
    lines = path.read_text().splitlines()
    starts = [n for n, line in enumerate(lines) if name is None or re.search(r"(?<!\w)%s(?!\w)" % re.escape(name), line)]
    return any(wanted & numbers_of("\n".join(lines[n:n + NEAR])) for n in starts)


def limit_faults(code):
    for said, number, source, definition, documents in table(CONTRIBUTING.read_text(), TABLES["limits"]):
        yield from cell_faults(code, said, source)
        yield from cell_faults(code, said, definition)
        wanted = numbers_said(number)
        yield from (fault for name in names_in(documents) if not is_path(name) for fault in cell_faults(code, said, "`%s`" % name))
        for cell in (source, definition):
            path, *name = names_in(cell)
            if file_of(path).exists() and not stands_named(file_of(path), name[0] if name else None, wanted):
                yield "%s: %s has no %s" % (said, cell, number)
        for name in filter(is_path, names_in(documents)):
            if not file_of(name).exists():
                yield "%s: there is no %s" % (said, name)
            elif not wanted & numbers_said(file_of(name).read_text()):
                yield "%s: %s doesn't say %s" % (said, name, number)


def bare(path):
    """A file's text without comments and texts in quotes."""
    mark = "//" if path.suffix == ".rt" else "--"
    return re.sub(r'"(?:[^"\\\n]|\\.)*"', '""', re.sub(r"(?m)%s.*$" % mark, "", path.read_text()))


def counts(limits, of_tests):
    """How often each limit's number stands in each file, but for the lines that give it its name."""
    named = {(file_of(names_in(cell)[0]), name) for row in limits for cell in row[2:4] for name in names_in(cell)[1:]}
    wanted = {number for row in limits for number in numbers_said(row[1]) if number >= SMALL}
    found = {}
    for path in sorted([*CRATES.glob("*/src/**/*.rt"), *CRATES.glob("*/specs/**/*.antt")]):
        file = str(path.relative_to(CRATES))
        if file.split("/")[0] in of_tests:
            continue
        for line in bare(path).splitlines():
            if any(path == other and re.search(r"\b%s\b.*=" % name, line) for other, name in named):
                continue
            for text in NUMBER.findall(line):
                if value(text) in wanted:
                    holders = found.setdefault(str(value(text)), {})
                    holders[file] = holders.get(file, 0) + 1
    return found


def number_faults(write):
    limits = table(CONTRIBUTING.read_text(), TABLES["limits"])
    found = counts(limits, crates_of_tests())
    allowed = json.loads(NUMBERS.read_text()) if NUMBERS.exists() else found
    shorter = {}
    for number in sorted(set(found) | set(allowed), key=int):
        for file in sorted(set(found.get(number, {})) | set(allowed.get(number, {}))):
            now, may = found.get(number, {}).get(file, 0), allowed.get(number, {}).get(file, 0)
            if now > may:
                yield "%s stands %d times unnamed in crates/%s, and may %d times" % (number, now, file, may)
            elif now < may and not write:
                print("%s stands %d times unnamed in crates/%s, not %d: where.py --write shortens the list" % (number, now, file, may))
            if min(now, may):
                shorter.setdefault(number, {})[file] = min(now, may)
    if write:
        NUMBERS.write_text(json.dumps(shorter, indent=1, sort_keys=True) + "\n")


def page_faults(code):
    """What ARCHITECTURE.md and the crates' pages name that isn't there."""
    known = {path.name for path in CRATES.iterdir()} | checks_there() | {"txt", "py", "tests", "step_", "run", "bench"}
    for page in [ARCHITECTURE, *sorted(CRATES.glob("*/README.md"))]:
        for name in sorted(set(names_in(re.sub(r"```.*?```", "", page.read_text(), flags=re.S)))):
            if is_path(name) and not name.startswith("tests/run "):
                if not (ROOT / name).exists() and not (page.parent / name).exists() and not re.match(r"[A-Z]+ /|(src|specs)/$", name):
                    yield "%s: there is no %s" % (page.relative_to(ROOT), name)
            else:
                for word in re.findall(r"[A-Za-z_]\w+", name):
                    if word not in code.words and word not in known:
                        yield "%s: nothing is named %s" % (page.relative_to(ROOT), word)
        for example in re.findall(r"```rust\n(.*?)```", page.read_text(), re.S):
            bare_example = re.sub(r'//.*|r#".*?"#|"[^"\n]*"', "", example)
            for word in sorted(set(re.findall(r"\b([A-Za-z]\w+)(?=\(|::| \{)", bare_example)) - code.words):
                yield "%s: nothing is named %s, which an example has" % (page.relative_to(ROOT), word)


def main():
    words = argparse.ArgumentParser(description=__doc__, formatter_class=argparse.RawDescriptionHelpFormatter)
    words.add_argument("--write", action="store_true", help="shorten the list of numbers")
    given = words.parse_args()
    code = Code()
    text = CONTRIBUTING.read_text()
    said = ["CONTRIBUTING.md has no table under %s" % heading for heading in TABLES.values() if not table(text, heading)]
    said += [*where_faults(code), *limit_faults(code), *number_faults(given.write), *page_faults(code)]
    for fault in said:
        print(fault)
    unnamed = sum(sum(files.values()) for files in json.loads(NUMBERS.read_text()).values()) if NUMBERS.exists() else 0
    print("%d rows, %d limits, %d numbers unnamed, %d faults" % (
        len(table(text, TABLES["where"])), len(table(text, TABLES["limits"])), unnamed, len(said)))
    return 1 if said else 0


if __name__ == "__main__":
    sys.exit(main())

#!/usr/bin/env python3
"""Counts the adapters: the code by which the program touches the machine, and of which no clause says what it hands on.

  tests/house/adapters.py [--write]

It reads host_io, the devices of rail_io, the clock by which `serve` goes, the one by which a journal's writes are timed, and `main` with what it needs. A function is untold if it has no
`ensures` of its own, and nor has the trait whose method it is, or if its device tells nothing (`λ _. None`). Of each file with such a
function two numbers are given: its lines but for empty ones, comments and imports, and those of the untold functions without their
contracts. They have to be the table in docs/proved.md, which --write makes anew, and the sums may only fall: a sum above the one that
stands there is refused, also by --write. The last row leaves out the files of what the program couldn't do when a review counted 704 lines.
"""
import argparse
import pathlib
import re
import sys

from definitions import CRATES, ROOT

PAGE = ROOT / "docs" / "proved.md"
HEAD = "| file | lines | untold functions | their lines |"
FILES = ["host_io/src/*.rt", "host_window/src/clock.rt", "host_window/src/journal.rt", "rail_io/src/file_shelf.rt", "rail_io/src/system_*.rt",
         "rail_io/src/standard.rt", "rail_host/src/main.rt"]
# Those of a journal, of the operator's window and of an address came after the review's count.
LATER = ["host_window `journal.rt`", "host_io `system_files.rt`", "host_io `noting.rt`", "host_io `asked.rt`", "host_io `window.rt`"]
# A clause of this method speaks of the sink as a whole, also where it tells no bytes.
OF_ITSELF = {("Sink", "hold_until")}
IMPORT = re.compile(r"\s*(?:pub(?:\(crate\))? |ghost )?use ")
FUNCTION = re.compile(r"^( *)(?:pub(?:\(crate\))? )?(?:const )?fn (\w+)")
CLAUSE = re.compile(r"\s*(requires|ensures)\b")
BLOCK = re.compile(r"^(?:impl|(?:pub )?trait)\b")


def is_code(line):
    return bool(line.strip()) and not line.strip().startswith("//")


def without_imports(lines):
    """The lines but for those of imports, of which one may have several."""
    kept, inside = [], False
    for line in lines:
        inside = inside or IMPORT.match(line) is not None
        if not inside:
            kept.append(line)
        inside = inside and not line.endswith(";")
    return kept


class Function:
    """A function that begins at a line: its name, its last line, whether it promises something, and its lines without its contract."""

    def __init__(self, lines, begin):
        indent, self.name = FUNCTION.match(lines[begin]).groups()
        contract, at = [], begin
        while not opens_body(lines[at], indent, contract) and not lines[at].endswith(";"):
            at += 1
            if contract or CLAUSE.match(lines[at]):
                contract.append(at)
        self.end = at
        if opens_body(lines[at], indent, contract) and not lines[at].endswith("}"):
            self.end = next(n for n in range(at, len(lines)) if lines[n] == indent + "}")
        self.ensures = any("ensures" in lines[n] for n in contract)
        self.lines = sum(is_code(lines[n]) for n in range(begin, self.end + 1) if n not in contract or n >= at)


def opens_body(line, indent, contract):
    """Whether the body of a function begins here: after a contract its brace stands on a line of its own."""
    if contract:
        return line == indent + "{"
    return line.endswith("{") or re.search(r"\{.*\}$", line) is not None


def functions_in(lines):
    found, n = [], 0
    while n < len(lines):
        if FUNCTION.match(lines[n]):
            found.append(Function(lines, n))
            n = found[-1].end
        n += 1
    return found


def blocks_of(lines):
    """The blocks of impls and traits as lists of lines, and what stands outside of them."""
    blocks, outside, n = [], [], 0
    while n < len(lines):
        if BLOCK.match(lines[n]):
            end = n if lines[n].endswith("{}") else lines.index("}", n)
            blocks.append(lines[n:end + 1])
            n = end + 1
        else:
            outside.append(lines[n])
            n += 1
    return blocks, outside


def contracts_of_traits():
    """The methods of this house's traits that have an `ensures`, as pairs of names."""
    found = set()
    for path in CRATES.glob("*/src/*.rt"):
        for block in blocks_of(path.read_text().splitlines())[0]:
            trait = re.match(r"(?:pub )?trait (\w+)", block[0])
            if trait:
                found |= {(trait.group(1), function.name) for function in functions_in(block[1:]) if function.ensures}
    return found


def trait_of(head):
    """The trait that a block implements, or None: the word before `for`, without what stands in angles."""
    before, is_for, _ = head.partition(" for ")
    while is_for and before.endswith(">"):
        depth, at = 1, len(before) - 1
        while depth:
            at -= 1
            depth += {">": 1, "<": -1}.get(before[at], 0)
        before = before[:at]
    return before.split()[-1].split("::")[-1] if is_for else None


def untold_in(lines, promised):
    blocks, outside = blocks_of(lines)
    untold = [function for function in functions_in(outside) if not function.ensures]
    for block in blocks:
        head = " ".join(line.strip() for line in block[:8]).split("{")[0]
        if head.startswith(("trait", "pub trait")):
            continue
        trait = trait_of(head)
        tells = not any("{ λ _. None }" in line for line in block)
        for function in functions_in(block[1:]):
            called = (trait, function.name)
            if not function.ensures and not (called in promised and (tells or called in OF_ITSELF)):
                untold.append(function)
    return untold


def rows():
    promised = contracts_of_traits()
    for pattern in FILES:
        for path in sorted(CRATES.glob(pattern)):
            lines = path.read_text().splitlines()
            untold = untold_in(lines, promised)
            if untold:
                crate, _, name = path.relative_to(CRATES).as_posix().partition("/src/")
                names = ", ".join("`%s`" % function.name for function in untold)
                yield "%s `%s`" % (crate, name), sum(map(is_code, without_imports(lines))), names, sum(function.lines for function in untold)


def table():
    made = list(rows())
    sums = sums_of(made)
    lines = [HEAD, "|---|---|---|---|"] + ["| %s | %d | %s | %d |" % row for row in made]
    early = sums_of([row for row in made if row[0] not in LATER])
    return lines + ["| together | %d | | %d |" % sums, "| without a journal, the window and an address | %d | | %d |" % early], sums


def sums_of(made):
    """The lines of files, and those of untold functions, of all these rows."""
    return sum(row[1] for row in made), sum(row[3] for row in made)


def table_there(page):
    """Where the page has the table, and its sums."""
    start = page.index(HEAD)
    together = next(n for n in range(start, len(page)) if page[n].startswith("| together "))
    end = next(n for n in range(together, len(page)) if not page[n].startswith("|"))
    return start, end, tuple(map(int, re.findall(r"\d+", page[together])))


def main():
    parser = argparse.ArgumentParser(description=__doc__, formatter_class=argparse.RawDescriptionHelpFormatter)
    parser.add_argument("--write", action="store_true", help="make the table of docs/proved.md anew")
    write = parser.parse_args().write
    page = PAGE.read_text().splitlines()
    made, sums = table()
    start, end, before = table_there(page)
    if any(now > then for now, then in zip(sums, before)):
        sys.exit("the adapters have grown: %d lines, %d of untold functions; docs/proved.md says %d and %d" % (*sums, *before))
    if write:
        PAGE.write_text("\n".join(page[:start] + made + page[end:]) + "\n")
    elif page[start:end] != made:
        sys.exit("the table of the adapters in docs/proved.md isn't that of the code: tests/house/adapters.py --write makes it anew")
    print("the adapters: %d lines in files with an untold function, %d in the functions" % sums)


if __name__ == "__main__":
    main()

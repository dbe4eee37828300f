#!/usr/bin/env python3
"""What is too large to read at once in the crates, which may only become less.

  tests/house/sizes.py [--write] [--list]

Counted by crate, those of tests aside: lines of more than 120 columns in source and in specs, and imports of them apart; definitions of
more than 6 arguments; functions of more than 6 parameters, or with more than 40 lines of code in their body. tests/house/sizes.json says how
many of each a crate may have; where it says nothing, there may be none. --list shows each, and --write shortens the list.
"""
import argparse
import json
import re
import sys

from adapters import FUNCTION, IMPORT, is_code
from definitions import CRATES, ROOT, crates_of_tests

SIZES = ROOT / "tests" / "house" / "sizes.json"
COLUMNS, ARGUMENTS, LINES = 120, 6, 40
MOST_HEAD = 40  # lines of a function's head
DEFINED = re.compile(r"^(?:abbrev |unfoldable )*pub (\S+) : (.*(?:\n +→.*)*)", re.M)
RECORD = re.compile(r"^pub record (\S+)", re.M)
CLAUSE = re.compile(r"\s*(?:requires|ensures)\b")


def parts(text, mark):
    """The text in parts, at a mark that stands in no brackets. The head of an arrow closes none."""
    found, depth = [""], 0
    for last, letter in zip(" " + text, text):
        depth += (letter in "([{<") - (letter in ")]}>" and last not in "-=")
        if letter == mark and depth == 0:
            found.append("")
        else:
            found[-1] += letter
    return found


def arguments(text):
    """(name, how many arguments) of each definition in a file of specs."""
    for name, kind in DEFINED.findall(text):
        yield name, len(parts(re.sub(r"\{[^{}]*\} *→", "", kind), "→")) - 1
    for found in RECORD.finditer(text):
        head = text[found.end():].partition(" where")[0]
        yield found.group(1), sum(len(group.split()) for group in re.findall(r"\(([^:()]*) :", head))


def parameters(text):
    """How many parameters the function has with whose name the text begins."""
    head = re.sub(r"^\w+(?=<)", "", text.replace("->", "  "))
    while head.startswith("<"):
        head = without_first(head, "<", ">")
    inside = head[head.index("(") + 1:len(head) - len(without_first(head[head.index("("):], "(", ")")) - 1]
    return sum(bool(part.strip()) for part in parts(inside, ","))


def without_first(text, opening, closing):
    """What follows the brackets with which the text begins."""
    depth = 0
    for at, letter in enumerate(text):
        depth += (letter == opening) - (letter == closing)
        if depth == 0:
            return text[at + 1:]
    return ""


def body(lines, begin, indent):
    """The lines of code in the body of the function that begins at a line. Where it has none, none."""
    contract = False
    for at in range(begin, len(lines)):
        contract = contract or CLAUSE.match(lines[at]) is not None
        if lines[at] == indent + "{" or (lines[at].endswith("{") and not contract):
            end = lines.index(indent + "}", at)
            return [line for line in lines[at + 1:end] if is_code(line)]
        if lines[at] == "}" or lines[at].endswith(("{}", ";")) or (at > begin and FUNCTION.match(lines[at])):
            break
    return []


def wide(part, lines):
    """Each line that is too wide, with its number."""
    for number, line in enumerate(lines, 1):
        if len(line) > COLUMNS:
            kind = "imports" if IMPORT.match(line) else "lines of " + part
            yield "%s over %d columns" % (kind, COLUMNS), "%d: %d columns" % (number, len(line))


def of_source(lines):
    yield from wide("source", lines)
    for at, line in enumerate(lines):
        if found := FUNCTION.match(line):
            count = parameters("\n".join(lines[at:at + MOST_HEAD])[found.start(2):])
            if count > ARGUMENTS:
                yield "functions of more than %d parameters" % ARGUMENTS, "%d: %s has %d" % (at + 1, found.group(2), count)
            long = len(body(lines, at, found.group(1)))
            if long > LINES:
                yield "bodies of more than %d lines" % LINES, "%d: %s has %d" % (at + 1, found.group(2), long)


def of_specs(lines):
    yield from wide("specs", lines)
    for name, count in arguments("\n".join(lines)):
        if count > ARGUMENTS:
            yield "definitions of more than %d arguments" % ARGUMENTS, "%s has %d" % (name, count)


def found_in():
    """(kind, crate, where) of each."""
    tests = crates_of_tests()
    for pattern, faults in (("*/src/**/*.rt", of_source), ("*/specs/**/*.antt", of_specs)):
        for path in sorted(CRATES.glob(pattern)):
            crate = path.relative_to(CRATES).parts[0]
            if crate not in tests:
                for kind, said in faults(path.read_text().splitlines()):
                    yield kind, crate, "%s:%s" % (path.relative_to(ROOT), said)


def main():
    words = argparse.ArgumentParser(description=__doc__, formatter_class=argparse.RawDescriptionHelpFormatter)
    words.add_argument("--write", action="store_true", help="shorten the list")
    words.add_argument("--list", action="store_true", help="show each")
    given = words.parse_args()
    allowed = json.loads(SIZES.read_text()) if SIZES.exists() else None
    now = {}
    for kind, crate, where in found_in():
        now.setdefault(kind, {}).setdefault(crate, []).append(where)
    failed, shorter = 0, {}
    for kind, crates in sorted(now.items()):
        for crate, places in sorted(crates.items()):
            may = len(places) if allowed is None else allowed.get(kind, {}).get(crate, 0)
            if given.list or len(places) > may:
                print("%s, %s: %d, and may have %d\n  %s" % (crate, kind, len(places), may, "\n  ".join(places)))
            failed += len(places) > may
            if min(len(places), may):
                shorter.setdefault(kind, {})[crate] = min(len(places), may)
    if given.write or allowed is None:
        SIZES.write_text(json.dumps(shorter, indent=1, sort_keys=True) + "\n")
    elif shorter != allowed:
        print("there is less than sizes.json says: sizes.py --write shortens it")
    print("; ".join("%s: %d" % (kind, sum(map(len, crates.values()))) for kind, crates in sorted(now.items())))
    return 1 if failed else 0


if __name__ == "__main__":
    sys.exit(main())

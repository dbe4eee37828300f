#!/usr/bin/env python3
"""Holds crates.txt against the crates and against their map.

  tests/crates.py [--unused] [--write]

The map is the first table of docs/layers.md. Each crate of crates.txt has to stand there once, in a layer that is none above those of the
crates that stand on it, and crates.txt has to name them in the map's order, layer by layer. The picture in ARCHITECTURE.md has each crate
of the map once, but for those of the tests, and no other. The invariants there that are about names are held here too (`KEPT`): which
crates alone may name something, and which must not. The last line tells the longest chain of crates.
--unused fails where a line names a crate that its crate never uses. --write puts crates.txt into the map's order; no line's names change.
"""
import argparse
import pathlib
import re
import sys

ROOT = pathlib.Path(__file__).resolve().parent.parent
ROW = re.compile(r"^\| (\d+) ([^|]+?) *\| `(\w+)` *\|")
LINE = re.compile(r"^(\w+)[^:#]*:([^#]*)")
PICTURE = re.compile(r"## The picture\s+```text\n(.*?)```", re.S)
TESTS = "tests"  # the layer whose crates have tests alone
SERVICES = {"shop", "service_rules", "booking_service", "reservation_service", "trade_service", "search_service"}

# What an invariant is about: its words, a pattern of names in the code, and the crates that alone may have them (the tests aside).
KEPT = [
    ("only one crate touches words", r"\batomic_table\b", {"claim_rule"}),
    ("the system is touched at the edge alone", r"\bstd::(fs|net(?!::IpAddr)|env|process|io|time)\b", {"rail_io", "host_io", "host_window", "rail_host"}),
    ("no call waits, but where its type says Wait", r"\bWait\b", {"worker_pool", "answer_gate", "host_journal", "host_serve", "host_window", "rail_host"}),
    ("threads start in three crates", r"\bthread::(scope|join|for_each_mut|spawn)\b", {"worker_pool", "host_drill", "rail_host"}),
    ("no check of the compiler is passed by", r"\bunsafe\b", {"osdm_parts"}),
    (
        "the search of trips is cited by nobody",
        r"\btrip_builder\.specs\.(declared\.(best|boards?|bounds|ends|found|hints|ranks|reached|rests|rides|shortest)|Best|Boards|Bounds|Ends|Keeping|Reached|Search|Shortest)\b",
        {"trip_builder"},
    ),
]
# And the names that a group of crates must not have at all.
SHUNNED = [("services name no HTTP and no device", r"\b(http_wire|session_loop|rail_io|httparse|matchit)\b", SERVICES)]


def read_lines():
    """Each crate's line of crates.txt, and the libraries that it names."""
    lines, names = {}, {}
    for line in (ROOT / "crates.txt").read_text().splitlines():
        if found := LINE.match(line):
            lines[found.group(1)] = line
            names[found.group(1)] = found.group(2).split()
    return lines, names


def read_map():
    """Each crate of the map, in its order, with the number and the name of its layer."""
    crates = []
    for line in (ROOT / "docs" / "layers.md").read_text().splitlines():
        if found := ROW.match(line):
            crates.append((found.group(3), int(found.group(1)), found.group(2)))
        elif crates:
            break
    return crates


def text_of(crate, parts=("src", "specs", "proofs"), tests=True):
    """All that a crate's files say, without comments, and without its tests (src/tests.rt) where they aren't asked for."""
    texts = []
    for part in parts:
        for path in sorted((ROOT / "crates" / crate / part).rglob("*")):
            if path.suffix in (".rt", ".antt") and (tests or path.name != "tests.rt"):
                texts.append(re.sub(r"(?m)(^|\s)(//|--).*$", "", path.read_text()))
    return "\n".join(texts)


def unused(names):
    for crate, libraries in names.items():
        text = text_of(crate)
        never = [library for library in libraries if not re.search(r"\b%s\b" % library, text)]
        if never:
            yield crate, never


def longest_chain(names):
    chains = {}

    def chain(crate):
        if crate not in chains:
            below = [chain(library) for library in names[crate] if library in names]
            chains[crate] = max(below, key=len, default=[]) + [crate]
        return chains[crate]

    return max((chain(crate) for crate in names), key=len)


def faults(names, crates):
    layer = {crate: number for crate, number, _ in crates}
    for crate in sorted(set(names) - set(layer)):
        yield "%s is in crates.txt, and not in the map" % crate
    for crate in sorted(set(layer) - set(names)):
        yield "%s is in the map, and not in crates.txt" % crate
    for crate in sorted({crate for crate, _, _ in crates if [name for name, _, _ in crates].count(crate) > 1}):
        yield "%s stands twice in the map" % crate
    for crate, libraries in names.items():
        for library in libraries:
            if layer.get(library, 0) > layer.get(crate, 99):
                yield "%s is in layer %d, and stands on %s of layer %d" % (crate, layer[crate], library, layer[library])


def picture_faults(crates):
    """Where the picture of ARCHITECTURE.md isn't of the map's crates."""
    found = PICTURE.search((ROOT / "ARCHITECTURE.md").read_text())
    shown = re.findall(r"\b[a-z]+(?:_[a-z]+)+\b|\bshop\b|\btariff\b|\bavailability\b", found.group(1)) if found else []
    wanted = [crate for crate, _, layer in crates if layer != TESTS]
    for crate in sorted(set(wanted) - set(shown)):
        yield "%s isn't in the picture of ARCHITECTURE.md" % crate
    for crate in sorted(set(shown) - set(wanted)):
        yield "the picture of ARCHITECTURE.md has %s, which is no crate of layers 1 to 9" % crate
    for crate in sorted({crate for crate in shown if shown.count(crate) > 1}):
        yield "%s stands twice in the picture of ARCHITECTURE.md" % crate


def name_faults(crates):
    """Where a crate names what an invariant of ARCHITECTURE.md keeps from it."""
    for crate, _, layer in crates:
        code = "" if layer == TESTS else text_of(crate, ["src"], tests=False)
        for said, pattern, may in KEPT:
            if crate not in may and (found := re.search(pattern, code)):
                yield "%s names %s: %s (%s)" % (crate, found.group(0), said, " ".join(sorted(may)))
        for said, pattern, group in SHUNNED:
            if crate in group and (found := re.search(pattern, code)):
                yield "%s names %s: %s" % (crate, found.group(0), said)


def in_order(lines, crates):
    """crates.txt in the map's order."""
    text, last = ["# The crates, layer by layer, lowest first; docs/layers.md says what each is for."], None
    for crate, number, name in crates:
        if number != last:
            text += ["", "# %d %s" % (number, name)]
            last = number
        text.append(lines[crate])
    return "\n".join(text) + "\n"


def main():
    words = argparse.ArgumentParser(description=__doc__, formatter_class=argparse.RawDescriptionHelpFormatter)
    words.add_argument("--unused", action="store_true")
    words.add_argument("--write", action="store_true")
    given = words.parse_args()
    (lines, names), crates = read_lines(), read_map()
    said = list(faults(names, crates)) + list(picture_faults(crates)) + list(name_faults(crates))
    if not said and given.write:
        (ROOT / "crates.txt").write_text(in_order(lines, crates))
    if not said and (ROOT / "crates.txt").read_text() != in_order(lines, crates):
        said.append("crates.txt isn't in the map's order; tests/crates.py --write puts it so")
    never = list(unused(names))
    if given.unused:
        said += ["%s never uses %s" % (crate, " ".join(libraries)) for crate, libraries in never]
    for fault in said:
        print(fault)
    chain = longest_chain(names)
    print("%d crates, %d names never used, %d faults; longest chain %d: %s" % (
        len(names), sum(len(libraries) for _, libraries in never), len(said), len(chain), " ".join(chain)))
    return 1 if said else 0


if __name__ == "__main__":
    sys.exit(main())

"""Random exports: of what a host came to in the first part of a connection, as it stands or changed by hand."""
import random
import re

import service
from catalogue import Catalogue
from export import write_export
from random_texts import chance

NUMBERS = ["0", "1", "2", "3", "62", "63", "64", "126", "65535", "65536", "4102444799", "4102444800", "4294967295", "4294967296",
           "99999999999", "100000000000", "18446744073709551615", "18446744073709551616", "100000000000000000000", "00", "01", "", "-1", "+1"]
LETTERS = "PCFrefx"


def export_of(catalogue: Catalogue, data: bytes, start: int, tick: int) -> tuple:
    """The export of a host that has served the data, and the moment of its clock's next reading."""
    host, clock = service.Host(catalogue), service.Clock(start, tick)
    host.serve(data, clock)
    return write_export(host.books), clock.next_moment


def changed_export(rng: random.Random, text: bytes) -> bytes:
    """The text with one or two changes, which may leave it right all the same."""
    lines = text.decode("ascii").split("\n")
    for _ in range(rng.choice([1, 1, 1, 2])):
        rng.choice(CHANGES)(rng, lines)
    return "\n".join(lines).encode("latin-1")


def some_row(rng: random.Random, lines: list, letters: str = LETTERS):
    """The number of a booking's line in one of these phases, or None."""
    rows = [at for at, line in enumerate(lines) if re.match("row [0-9]+ [0-9]+ [%s] " % letters, line)]
    return rng.choice(rows) if rows else None


def changed_field(rng: random.Random, lines: list):
    at = rng.randrange(len(lines))
    fields = lines[at].split(" ")
    field = rng.randrange(len(fields))
    if fields[field].isdigit() and chance(rng, 0.4):
        fields[field] = str(max(int(fields[field]) + rng.choice([-1, 1]), 0))
    else:
        fields[field] = rng.choice(NUMBERS)
    lines[at] = " ".join(fields)


def changed_lines(rng: random.Random, lines: list):
    """A line left out, put twice or moved, with the count of the last line as it has to be or not."""
    at = rng.randrange(len(lines))
    kind = rng.randrange(4)
    if kind == 0:
        del lines[at]
    elif kind == 1:
        lines.insert(at, lines[at])
    elif kind == 2:
        lines.insert(rng.randrange(len(lines)), lines.pop(at))
    else:
        lines.insert(at, rng.choice(["", "row", "end 0", "rail-export 1 1 1", "x"]))
    if chance(rng, 0.6):
        for last, line in enumerate(lines):
            if line.startswith("end "):
                lines[last] = "end %d" % sum(other.startswith("row ") for other in lines)


def changed_letter(rng: random.Random, lines: list):
    at = some_row(rng, lines)
    if at is not None:
        fields = lines[at].split(" ")
        fields[3] = rng.choice(LETTERS + "pcREX")
        lines[at] = " ".join(fields)


def changed_end(rng: random.Random, lines: list):
    """The amount, the moment or the successor of an end."""
    at = some_row(rng, lines, "refx")
    if at is None:
        return
    fields = lines[at].split(" ")
    which = rng.choice([-3, -2, -1, -1])
    own = "%s.%s" % (fields[1], fields[2])
    fields[which] = {-3: rng.choice(["p0", "m0", "m1", "p1", "p00", "x1", "m99999999999", "m100000000000", "p100009999999", "p100010000000"]),
                     -2: rng.choice([fields[5], str(int(fields[5]) + 1) if fields[5].isdigit() else "1"] + NUMBERS),
                     -1: rng.choice([own, own, "-", "0.0", "1.0", "1.1", "0.65536", "5000000000.0", "1", "1.", "0.00"])}[which]
    lines[at] = " ".join(fields)


def changed_item(rng: random.Random, lines: list):
    """An item that is another booking's, twice the same, of another place or other legs."""
    at, other = some_row(rng, lines), some_row(rng, lines)
    if at is None:
        return
    fields, others = lines[at].split(" "), lines[other].split(" ")
    items = [number for number, field in enumerate(fields) if field.count(".") == 2]
    if not items:
        return
    place, start, end = fields[items[0]].split(".")
    fields[rng.choice(items)] = rng.choice([field for field in others if field.count(".") == 2] + [
        "%s.%s.%s" % (place, start, str(int(end) + 1)), "%s.%s.%s" % (place, end, end), "%s.%s.%s" % (place, end, start),
        "%s.%s.%s" % (rng.choice(NUMBERS), start, end), "%s.0.%s" % (place, end), "%s.%s" % (place, start), "0.62.64"])
    lines[at] = " ".join(fields)


def changed_byte(rng: random.Random, lines: list):
    at = rng.randrange(len(lines))
    line = lines[at]
    where = rng.randrange(len(line) + 1)
    lines[at] = line[:where] + rng.choice([" ", "0", ".", "\r", "\0", "x", ""]) + line[where + rng.randrange(2):]


CHANGES = [changed_field, changed_field, changed_lines, changed_letter, changed_end, changed_end, changed_end, changed_item, changed_item,
           changed_byte]

"""The text of a journal, read and written from the rules of its form alone.

Its first line is `rail-journal 1 PLACES ROWS PRINT`. Cuts follow, each as `cut NUMBER LINES BYTES BEFORE`, its lines of rows, and `sum SUM`.
SUM is the SHA-256 of the cut's text before it, BEFORE the sum of the cut before, or of the first line. A journal is its first whole cuts; what
follows them is a torn end and is dropped, unless a whole cut begins in it. Its export has the last line of each row.
"""
import hashlib
import re
from dataclasses import dataclass

LARGEST = 4_294_967_295
MOST_ROWS = 262_144
GREATEST_NUMBER = 18_446_744_073_709_551_615
NUMBER = rb"(0|[1-9][0-9]{0,19})"
SUM = rb"([0-9a-f]{64})"
HEAD = re.compile(rb"rail-journal 1 %s %s %s\n" % (NUMBER, NUMBER, SUM))
OPENING = re.compile(rb"cut %s %s %s %s\n" % (NUMBER, NUMBER, NUMBER, SUM))
CLOSING = re.compile(rb"sum %s\n" % SUM)
ROW = re.compile(rb"row %s [^\n]*\n" % NUMBER)


class JournalFault(Exception):
    """A journal is refused. The text is that of the program's note."""


@dataclass(frozen=True)
class Cut:
    """A whole cut, and where it stands in its text."""
    start: int
    end: int
    number: int
    count: int
    before: bytes
    sum: bytes
    body: bytes


@dataclass(frozen=True)
class Journal:
    places: int
    rows: int
    print: bytes
    cuts: list
    lines: dict  # the last line of each row, with its line feed

    def export(self) -> bytes:
        kept = [self.lines[row] for row in sorted(self.lines)]
        return b"rail-export 1 %d %d\n%send %d\n" % (self.places, self.rows, b"".join(kept), len(kept))

    def whole(self) -> int:
        """How many bytes stand before the torn end."""
        return self.cuts[-1].end if self.cuts else len(head(self.places, self.rows, self.print))


def digest(data: bytes) -> bytes:
    return hashlib.sha256(data).hexdigest().encode("ascii")


# Writing


def head(places: int, rows: int, own_print: bytes) -> bytes:
    return b"rail-journal 1 %d %d %s\n" % (places, rows, own_print)


def cut(number: int, before: bytes, lines: list, count: int = None) -> bytes:
    """The text of a cut, whose sum is right, whatever its lines are."""
    body = b"".join(lines)
    text = b"cut %d %d %d %s\n%s" % (number, len(lines) if count is None else count, len(body), before, body)
    return text + b"sum %s\n" % digest(text)


def journal(places: int, rows: int, own_print: bytes, bodies: list) -> bytes:
    """The text with a cut for each of these lists of lines."""
    parts = [head(places, rows, own_print)]
    before = digest(parts[0])
    for number, lines in enumerate(bodies, 1):
        parts.append(cut(number, before, lines))
        before = parts[-1][-65:-1]
    return b"".join(parts)


# Reading


def numbers(fields) -> list:
    """The values of the fields, or None where one is too great."""
    values = [int(field) for field in fields]
    return values if all(value <= GREATEST_NUMBER for value in values) else None


def whole_cut(data: bytes, at: int):
    """The cut that begins there, or None where none does that is whole."""
    opening = OPENING.match(data, at)
    values = numbers(opening.groups()[:3]) if opening else None
    if values is None or opening.end() + values[2] > len(data):
        return None
    closing = CLOSING.match(data, opening.end() + values[2])
    if not closing or digest(data[at:closing.start()]) != closing.group(1):
        return None
    return Cut(at, closing.end(), values[0], values[1], opening.group(4), closing.group(1), data[opening.end():closing.start()])


def holds_cut(data: bytes, at: int) -> bool:
    """Whether a whole cut begins from there on."""
    while (at := data.find(b"cut ", at)) >= 0:
        if whole_cut(data, at):
            return True
        at += 1
    return False


def put_lines(lines: dict, rows: int, found: Cut):
    """Puts the lines of the cut, or raises for the first that isn't in its place."""
    at, least = 0, 0
    for line in range(found.count):
        row = ROW.match(found.body, at)
        values = numbers(row.groups()) if row else None
        if values is None or not least <= values[0] < rows:
            raise JournalFault("journal fault 2 at line %d of cut %d" % (line + 1, found.number))
        lines[values[0]] = row.group(0)
        at, least = row.end(), values[0] + 1
    if at != len(found.body):
        raise JournalFault("journal fault 2 at line %d of cut %d" % (found.count + 1, found.number))


def read(data: bytes) -> Journal:
    """The journal of the text, or its first fault."""
    first = HEAD.match(data)
    values = numbers(first.groups()[:2]) if first else None
    if values is None or values[1] > MOST_ROWS:
        raise JournalFault("journal fault 1")
    cuts, lines, at, before = [], {}, first.end(), digest(first.group(0))
    while (found := whole_cut(data, at)) and (found.number, found.before) == (len(cuts) + 1, before):
        put_lines(lines, values[1], found)
        cuts.append(found)
        at, before = found.end, found.sum
    if holds_cut(data, at):
        raise JournalFault("journal fault 3 at cut %d" % (len(cuts) + 1))
    return Journal(values[0], values[1], first.group(3), cuts, lines)

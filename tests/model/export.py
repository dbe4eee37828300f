"""Bookings as a text: what a host writes of its bookings, how a later one reads it, and the settlement table of them.

A line of the text stands for each row whose present booking is kept, in rising number: a booking that lives or has ended, or
of a row that was kept after a refusal and serves again only that its former bookings are gone.
"""
import re
from dataclasses import dataclass

import moments
from bookings import BORDER, Booking, Books, Ending, Item, Phase
from catalogue import Catalogue, Span
from offers import LAST_GENERATION, Row

LARGEST_EXPORT = 268_435_456
MOST_ITEMS = 48
GREATEST_NUMBER = 18_446_744_073_709_551_615
GREATEST_RETAILER = 4_294_967_295
GREATEST_AMOUNT = 99_999_999_999
GREATEST_DIFFERENCE = 100_009_999_999

LETTERS = {
    Phase.PREBOOKED: "P", Phase.CONFIRMED: "C", Phase.FULFILLED: "F",
    Phase.RELEASED: "r", Phase.EXPIRED: "e", Phase.REFUNDED: "f", Phase.EXCHANGED: "x",
}
PHASES = {letter: phase for phase, letter in LETTERS.items()}
# The amounts that an end may have.
AMOUNTS = {
    Phase.RELEASED: (0, 0), Phase.EXPIRED: (0, 0), Phase.REFUNDED: (0, GREATEST_AMOUNT),
    Phase.EXCHANGED: (-GREATEST_AMOUNT, GREATEST_DIFFERENCE),
}
NUMBER = "(0|[1-9][0-9]*)"
FIRST_LINE = re.compile("rail-export 1 %s %s" % (NUMBER, NUMBER))
HEAD = re.compile("row %s %s ([PCFrefx]) %s %s %s %s" % ((NUMBER,) * 6))
ITEM = re.compile(r" %s\.%s\.%s" % ((NUMBER,) * 3))
END = re.compile(r" (p%s|m([1-9][0-9]*)) %s (-|%s\.%s)" % ((NUMBER,) * 4))
LAST_LINE = re.compile("end %s" % NUMBER)


class ExportFault(Exception):
    """An export is refused, with the number of the first fault that it has."""

    def __init__(self, number: int):
        super().__init__(number)
        self.number = number

    def note(self) -> str:
        return "export fault %d" % self.number


@dataclass(frozen=True)
class Line:
    """What a line says. The numbers may be any."""
    row: Row
    phase: Phase
    retailer: int
    limit: int
    total: int
    items: list
    ending: Ending

    def is_live(self) -> bool:
        return self.ending is None


# Writing


def stub(row: Row) -> Booking:
    """What stands for a row that serves again and has no booking yet. It is no retailer's."""
    return Booking(row, 0, 0, 0, [Item(0, Span(0, 1))], Phase.RELEASED, Ending(0, 0))


def kept_bookings(books: Books) -> list:
    kept = list(books.bookings)
    if books.kept_row is not None and books.kept_row.generation > 0:
        kept.append(stub(books.kept_row))
    return sorted(kept, key=lambda booking: booking.row.number)


def write_export(books: Books) -> bytes:
    kept = kept_bookings(books)
    lines = ["rail-export 1 %d %d" % (len(books.catalogue.places), books.catalogue.rows)]
    lines += [booking_line(booking) for booking in kept] + ["end %d" % len(kept)]
    return "".join(line + "\n" for line in lines).encode("ascii")


def booking_line(booking: Booking) -> str:
    fields = ["row", str(booking.row.number), str(booking.row.generation), LETTERS[booking.phase], str(booking.retailer)]
    fields += [str(booking.limit), str(booking.total), str(len(booking.items))]
    fields += ["%d.%d.%d" % (item.place, item.span.start, item.span.end) for item in booking.items]
    if booking.ending is not None:
        fields += end_fields(booking.ending)
    return " ".join(fields)


def end_fields(ending: Ending) -> list:
    amount = "m%d" % -ending.amount if ending.amount < 0 else "p%d" % ending.amount
    successor = "-" if ending.successor is None else "%d.%d" % (ending.successor.number, ending.successor.generation)
    return [amount, str(ending.moment), successor]


# Reading


def read_export(catalogue: Catalogue, text: bytes) -> list:
    """The bookings of the text, or the first fault that it has."""
    places, rows, lines = read_text(text)
    if (places, rows) != (len(catalogue.places), catalogue.rows):
        raise ExportFault(2)
    said = {line.row.number: line for line in lines}
    if not all(is_right(catalogue, line, said) for line in lines):
        raise ExportFault(3)
    if overlaps(lines):
        raise ExportFault(4)
    if any(line.ending is not None and line.ending.successor is not None and line.ending.successor.number == line.row.number
           for line in lines):
        raise ExportFault(5)
    return [Booking(line.row, line.retailer, line.limit, line.total, line.items, line.phase, line.ending) for line in lines]


def read_text(text: bytes) -> tuple:
    """The numbers of places and rows, and what the lines of bookings say. A text of any other form is the first fault."""
    *lines, rest = text.split(b"\n")
    texts = [line.decode("latin-1") for line in lines]
    if rest or len(texts) < 2:
        raise ExportFault(1)
    places, rows = numbers_of(FIRST_LINE.fullmatch(texts[0]))
    said = [read_line(line) for line in texts[1:-1]]
    count, = numbers_of(LAST_LINE.fullmatch(texts[-1]))
    rising = all(a.row.number < b.row.number for a, b in zip(said, said[1:]))
    if not rising or count != len(said):
        raise ExportFault(1)
    return places, rows, said


def numbers_of(found) -> list:
    if not found:
        raise ExportFault(1)
    return [number_of(text) for text in found.groups()]


def number_of(text: str) -> int:
    if len(text) > 20 or int(text) > GREATEST_NUMBER:
        raise ExportFault(1)
    return int(text)


def read_line(text: str) -> Line:
    found = HEAD.match(text)
    if not found:
        raise ExportFault(1)
    row, generation, letter, *others = found.groups()
    retailer, limit, total, count = [number_of(other) for other in others]
    phase, items, at = PHASES[letter], [], found.end()
    row = Row(number_of(row), number_of(generation))
    while len(items) < count:
        item = ITEM.match(text, at)
        place, start, end = numbers_of(item)
        items.append(Item(place, Span(start, end)))
        at = item.end()
    ending = None
    if phase in AMOUNTS:
        ending = read_ending(END.match(text, at))
        at = END.match(text, at).end()
    if at != len(text):
        raise ExportFault(1)
    return Line(row, phase, retailer, limit, total, items, ending)


def read_ending(found) -> Ending:
    if not found:
        raise ExportFault(1)
    _, paid, owed, moment, name, row, generation = found.groups()
    amount = number_of(paid) if owed is None else -number_of(owed)
    successor = None if name == "-" else Row(number_of(row), number_of(generation))
    return Ending(number_of(moment), amount, successor)


def is_right(catalogue: Catalogue, line: Line, said: dict) -> bool:
    """The line is one of these books: its numbers are in range, its items are pieces that don't meet, and its end could have come."""
    in_range = (line.row.number < catalogue.rows and line.row.generation <= LAST_GENERATION and line.retailer <= GREATEST_RETAILER
                and line.limit <= moments.LAST_MOMENT and line.total <= GREATEST_AMOUNT)
    return (in_range and 1 <= len(line.items) <= MOST_ITEMS and all(is_within(catalogue, item) for item in line.items)
            and not any(meet(a, b) for index, a in enumerate(line.items) for b in line.items[:index])
            and (line.ending is None or is_end_right(line, said)))


def is_within(catalogue: Catalogue, item: Item) -> bool:
    if item.place >= len(catalogue.places):
        return False
    legs = len(catalogue.runs[catalogue.places[item.place].run].stops) - 1
    start, end = item.span.start, item.span.end
    return start < end <= legs and (end <= BORDER or start >= BORDER)


def meet(one: Item, other: Item) -> bool:
    return one.place == other.place and one.span.meets(other.span)


def is_end_right(line: Line, said: dict) -> bool:
    ending, (low, high) = line.ending, AMOUNTS[line.phase]
    if ending.moment > moments.LAST_MOMENT or not low <= ending.amount <= high:
        return False
    if line.phase is Phase.EXPIRED and ending.moment <= line.limit:
        return False
    if line.phase is not Phase.EXCHANGED:
        return ending.successor is None
    if ending.successor is None or ending.successor.number not in said:
        return False
    return ending.successor.generation <= said[ending.successor.number].row.generation


def overlaps(lines: list) -> bool:
    taken = {}
    for line in lines:
        for item in line.items if line.is_live() else []:
            if any(other.meets(item.span) for other in taken.setdefault(item.place, [])):
                return True
        for item in line.items if line.is_live() else []:
            taken[item.place].append(item.span)
    return False


# Settlement

SOLD = (Phase.CONFIRMED, Phase.FULFILLED, Phase.REFUNDED, Phase.EXCHANGED)


def settlement(bookings: list) -> bytes:
    """A record for each retailer that has a booking, in rising number, and how many ended bookings gave their rows away."""
    records = [("retailer", "bookings", "live", "sold", "refunded", "exchanged")]
    for retailer in sorted({booking.retailer for booking in bookings} - {0}):
        own = [booking for booking in bookings if booking.retailer == retailer]
        records.append((retailer, len(own), sum(booking.is_live() for booking in own),
                        sum(booking.total for booking in own if booking.phase in SOLD),
                        sum(booking.ending.amount for booking in own if booking.phase is Phase.REFUNDED),
                        sum(booking.ending.amount for booking in own if booking.phase is Phase.EXCHANGED)))
    records.append(("forgotten", sum(booking.row.generation for booking in bookings), 0, 0, 0, 0))
    return "".join(",".join(str(field) for field in record) + "\n" for record in records).encode("ascii")

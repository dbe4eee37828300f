"""Trips, prices, and the texts of ids and codes."""
import re
from dataclasses import dataclass

from catalogue import LARGEST_NUMBER, Catalogue, Fare, Run, Span, Terms, TravelClass
from moments import LAST_MOMENT

LONGEST_WAIT = 14_400
MOST_SEGMENTS = 3
MOST_TRIPS = 16
MOST_PASSENGERS = 8
LAST_RUN = 4_095
LAST_STOP = 126
LAST_CODED_ROW = 262_143
LAST_GENERATION = 65_535
LARGEST_AMOUNT = 99_999_999_999
CLASS_DIGITS = {TravelClass.FIRST: "1", TravelClass.SECOND: "2"}


@dataclass(frozen=True)
class Segment:
    run: int
    span: Span


@dataclass(frozen=True)
class OfferCode:
    made: int
    adults: int
    children: int
    travel_class: TravelClass
    wanted: int
    segments: tuple


@dataclass(frozen=True)
class Row:
    """A booking's row, and which of the row's bookings it is, from 0 on."""
    number: int
    generation: int = 0


@dataclass(frozen=True)
class RefundCode:
    row: Row
    made: int
    fulfilled: bool
    amount: int


@dataclass(frozen=True)
class ExchangeCode:
    row: Row
    made: int
    fulfilled: bool
    difference: int
    offer: OfferCode


# Trips


def departure(catalogue: Catalogue, segment: Segment) -> int:
    return catalogue.runs[segment.run].stops[segment.span.start].depart


def arrival(catalogue: Catalogue, segment: Segment) -> int:
    return catalogue.runs[segment.run].stops[segment.span.end].arrive


def origin(catalogue: Catalogue, segment: Segment) -> str:
    return catalogue.runs[segment.run].stops[segment.span.start].station


def destination(catalogue: Catalogue, segment: Segment) -> str:
    return catalogue.runs[segment.run].stops[segment.span.end].station


def holds(catalogue: Catalogue, segment: Segment) -> bool:
    """The run exists and has both stops."""
    return segment.run < len(catalogue.runs) and segment.span.end < len(catalogue.runs[segment.run].stops)


def may_follow(catalogue: Catalogue, before: list, segment: Segment) -> bool:
    """The segment may come next: on another run, from where the last one ended, after the change and not too late."""
    if any(earlier.run == segment.run for earlier in before):
        return False
    station = destination(catalogue, before[-1])
    if origin(catalogue, segment) != station:
        return False
    wait = departure(catalogue, segment) - arrival(catalogue, before[-1])
    return catalogue.stations[station].change <= wait <= LONGEST_WAIT


def is_chain(catalogue: Catalogue, segments: list) -> bool:
    """1 to 3 segments of which each may follow those before it."""
    if not 1 <= len(segments) <= MOST_SEGMENTS:
        return False
    return all(may_follow(catalogue, segments[:at], segments[at]) for at in range(1, len(segments)))


def all_segments(catalogue: Catalogue) -> list:
    """Every run with every pair of its stops, the earlier one first."""
    found = []
    for run in catalogue.runs:
        for start in range(len(run.stops)):
            for end in range(start + 1, len(run.stops)):
                found.append(Segment(run.number, Span(start, end)))
    return found


def trips(catalogue: Catalogue, start: str, end: str, earliest: int, latest: int) -> list:
    """The first 16 of all trips from the one station to the other whose first departure lies in the window.

    They are in the order of the last arrival, then the later first departure, then fewer segments, then the list of
    runs and stops.
    """
    segments = all_segments(catalogue)
    firsts = [[segment] for segment in segments
              if origin(catalogue, segment) == start and earliest <= departure(catalogue, segment) <= latest]
    seconds = [chain + [segment] for chain in firsts for segment in segments if may_follow(catalogue, chain, segment)]
    thirds = [chain + [segment] for chain in seconds for segment in segments if may_follow(catalogue, chain, segment)]
    found = [chain for chain in firsts + seconds + thirds if destination(catalogue, chain[-1]) == end]

    def order(chain: list):
        listing = [(segment.run, segment.span.start, segment.span.end) for segment in chain]
        return arrival(catalogue, chain[-1]), -departure(catalogue, chain[0]), len(chain), listing

    return sorted(found, key=order)[:MOST_TRIPS]


def is_offered(catalogue: Catalogue, code: OfferCode) -> bool:
    """The segments are a trip of the catalogue between two stations, which doesn't depart before the offer was made."""
    segments = list(code.segments)
    if not all(holds(catalogue, segment) for segment in segments) or not is_chain(catalogue, segments):
        return False
    if origin(catalogue, segments[0]) == destination(catalogue, segments[-1]):
        return False
    return departure(catalogue, segments[0]) >= code.made


# Prices


def price(fare: Fare, legs: int, adults: int, children: int) -> int:
    """A child pays half of an adult's price, rounded down."""
    adult = fare.base + fare.per_leg * legs
    return adults * adult + children * (adult * 5_000 // 10_000)


def segment_price(run: Run, span: Span, travel_class: TravelClass, adults: int, children: int) -> int:
    return price(run.fares[travel_class], span.end - span.start, adults, children)


def offer_price(catalogue: Catalogue, code: OfferCode) -> int:
    return sum(segment_price(catalogue.runs[segment.run], segment.span, code.travel_class, code.adults, code.children)
               for segment in code.segments)


def refund_value(terms: Terms, total: int, seconds_before: int, fulfilled: bool) -> int:
    """The total less the fee of the first step that has begun, and less the ticket's fee once it is collected."""
    fee = next(step.fee for step in terms.steps if step.before <= seconds_before)
    amount = total * (10_000 - fee) // 10_000
    return max(amount - terms.ticket_fee, 0) if fulfilled else amount


def exchange_difference(terms: Terms, refund: int, new_total: int) -> int:
    return new_total + terms.exchange_fee - refund


# Texts of ids and codes. A number is decimal digits without a leading zero, but for 0 itself.

NUMBER = "(?:0|[1-9][0-9]*)"
SEGMENT = r"%s\.%s\.%s" % (NUMBER, NUMBER, NUMBER)
OFFER = "O({0})-({0})-({0})-([12])-({0})-({1}(?:_{1}){{0,2}})".format(NUMBER, SEGMENT)
OFFER_TEXT = re.compile(OFFER)
LATER = "[1-9][0-9]*"
CODED_ROW = r"({0})(?:\.({1}))?".format(NUMBER, LATER)
REFUND_TEXT = re.compile("R{0}-({1})-([CF])-({1})".format(CODED_ROW, NUMBER))
EXCHANGE_TEXT = re.compile("X{0}-({1})-([CF])-(p{1}|m{2})-(O.*)".format(CODED_ROW, NUMBER, LATER), re.DOTALL)
BOOKING_TEXT = re.compile("B([0-9]{6}|[1-9][0-9]{6,})(?:-(%s))?" % LATER)


def number_up_to(digits: str, last: int):
    """The number, or None where it is above the last one."""
    if len(digits) > len(str(last)) or int(digits) > last:
        return None
    return int(digits)


def row_up_to(digits: str, generation_digits, last: int):
    """The row, or None where its number or its generation is above the last one. Generation 0 isn't written."""
    number, generation = number_up_to(digits, last), number_up_to(generation_digits or "0", LAST_GENERATION)
    return None if None in (number, generation) else Row(number, generation)


def row_text(number_form: str, mark: str, row: Row) -> str:
    return number_form % row.number + (mark + str(row.generation) if row.generation else "")


def read_booking_id(text: str):
    """The row, or None where the text is no booking id."""
    found = BOOKING_TEXT.fullmatch(text)
    return row_up_to(found.group(1), found.group(2), LARGEST_NUMBER) if found else None


def write_booking_id(row: Row) -> str:
    return row_text("B%06d", "-", row)


def read_offer(text: str):
    """The offer's code, or None where the text isn't its one spelling."""
    found = OFFER_TEXT.fullmatch(text)
    if not found:
        return None
    made = number_up_to(found.group(1), LAST_MOMENT)
    adults = number_up_to(found.group(2), MOST_PASSENGERS)
    children = number_up_to(found.group(3), MOST_PASSENGERS)
    travel_class = TravelClass.FIRST if found.group(4) == "1" else TravelClass.SECOND
    wanted = number_up_to(found.group(5), 31)
    if None in (made, adults, children, wanted) or not 1 <= adults + children <= MOST_PASSENGERS:
        return None
    segments = []
    for part in found.group(6).split("_"):
        run_digits, start_digits, end_digits = part.split(".")
        run = number_up_to(run_digits, LAST_RUN)
        start, end = number_up_to(start_digits, LAST_STOP), number_up_to(end_digits, LAST_STOP)
        if None in (run, start, end) or not start < end:
            return None
        segments.append(Segment(run, Span(start, end)))
    return OfferCode(made, adults, children, travel_class, wanted, tuple(segments))


def write_offer(code: OfferCode) -> str:
    segments = "_".join("%d.%d.%d" % (segment.run, segment.span.start, segment.span.end) for segment in code.segments)
    return "O%d-%d-%d-%s-%d-%s" % (code.made, code.adults, code.children, CLASS_DIGITS[code.travel_class], code.wanted,
                                   segments)


def read_refund(text: str):
    found = REFUND_TEXT.fullmatch(text)
    if not found:
        return None
    row = row_up_to(found.group(1), found.group(2), LAST_CODED_ROW)
    made = number_up_to(found.group(3), LAST_MOMENT)
    amount = number_up_to(found.group(5), LARGEST_AMOUNT)
    if None in (row, made, amount):
        return None
    return RefundCode(row, made, found.group(4) == "F", amount)


def write_refund(code: RefundCode) -> str:
    return "%s-%d-%s-%d" % (row_text("R%d", ".", code.row), code.made, "F" if code.fulfilled else "C", code.amount)


def read_exchange(text: str):
    found = EXCHANGE_TEXT.fullmatch(text)
    if not found:
        return None
    row = row_up_to(found.group(1), found.group(2), LAST_CODED_ROW)
    made = number_up_to(found.group(3), LAST_MOMENT)
    size = number_up_to(found.group(5)[1:], LARGEST_AMOUNT)
    offer = read_offer(found.group(6))
    if None in (row, made, size, offer):
        return None
    difference = size if found.group(5)[0] == "p" else -size
    return ExchangeCode(row, made, found.group(4) == "F", difference, offer)


def write_exchange(code: ExchangeCode) -> str:
    size = "p%d" % code.difference if code.difference >= 0 else "m%d" % -code.difference
    return "%s-%d-%s-%s-%s" % (row_text("X%d", ".", code.row), code.made, "F" if code.fulfilled else "C", size, write_offer(code.offer))

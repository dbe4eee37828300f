"""The host on one thread: a plain list of bookings, and at most one row that was kept after a refusal. A row's booking that
has ended leaves the list where its row is wanted again.

A place is free on a span where no item of a live booking stands at it with a span that meets. Nothing else is kept:
no words, no bits, no history. An item lies on one side of the border between legs 62 and 63: a passenger whose span goes
over it has two items, one after the other, which an answer shows as one reservation.
"""
import enum
from dataclasses import dataclass

import moments
from catalogue import Catalogue, Span, TravelClass
from offers import (LAST_GENERATION, ExchangeCode, OfferCode, RefundCode, Row, Segment, departure, exchange_difference, offer_price,
                    refund_value, segment_price)

QUOTE_SECONDS = 900
BORDER = 63


class Phase(enum.Enum):
    """How a booking stands. The texts are those of its status."""
    PREBOOKED = "PREBOOKED"
    CONFIRMED = "CONFIRMED"
    FULFILLED = "FULFILLED"
    RELEASED = "RELEASED"
    EXPIRED = "EXPIRED"
    REFUNDED = "REFUNDED"
    EXCHANGED = "EXCHANGED"


LIVE = (Phase.PREBOOKED, Phase.CONFIRMED, Phase.FULFILLED)


@dataclass(frozen=True)
class Item:
    place: int
    span: Span


def pieces(span: Span) -> list:
    """The span itself where it lies on one side of the border, else what it has before the border and what behind."""
    if span.end <= BORDER or span.start >= BORDER:
        return [span]
    return [Span(span.start, BORDER), Span(BORDER, span.end)]


def goes_on(item: Item, following: Item) -> bool:
    """The next item is the second piece of the same passenger's span."""
    return following.place == item.place and item.span.end == BORDER == following.span.start


def reservations(items: list) -> list:
    """The items, in their order, with two neighbours that are the pieces of one span joined to one."""
    joined = []
    for item in items:
        if joined and goes_on(joined[-1], item):
            joined[-1] = Item(item.place, Span(joined[-1].span.start, item.span.end))
        else:
            joined.append(item)
    return joined


@dataclass
class Ending:
    moment: int
    amount: int
    successor: Row = None


@dataclass
class Booking:
    row: Row
    retailer: int
    limit: int
    total: int
    items: list
    phase: Phase
    ending: Ending = None

    def is_live(self) -> bool:
        return self.phase in LIVE


@dataclass(frozen=True)
class Swept:
    expired: int
    lost: int
    waiting: int


class Refusal(Exception):
    """A request is refused with this code, and with a detail where the code has one."""

    def __init__(self, code: str, detail: str = None):
        super().__init__(code, detail)
        self.code = code
        self.detail = detail


class Books:
    """The bookings of one host."""

    def __init__(self, catalogue: Catalogue):
        self.catalogue = catalogue
        self.bookings = []
        self.kept_row = None

    # What is there

    def is_free(self, place: int, span: Span) -> bool:
        return not any(item.place == place and item.span.meets(span)
                       for booking in self.bookings if booking.is_live() for item in booking.items)

    def free_candidates(self, segment: Segment, travel_class: TravelClass, wanted: int) -> list:
        candidates = self.catalogue.candidates(segment.run, travel_class, wanted)
        return [place.number for place in candidates if self.is_free(place.number, segment.span)]

    def free_stretch(self, segment: Segment, travel_class: TravelClass, wanted: int, passengers: int):
        """The first so many neighbours of the candidates that are all free, in one coach and at rising numbers one by one, or None."""
        candidates = self.catalogue.candidates(segment.run, travel_class, wanted)
        for first in range(len(candidates) - passengers + 1):
            stretch = candidates[first:first + passengers]
            side_by_side = all((place.coach, place.label) == (stretch[0].coach, stretch[0].label + index)
                               for index, place in enumerate(stretch))
            if side_by_side and all(self.is_free(place.number, segment.span) for place in stretch):
                return [place.number for place in stretch]
        return None

    def booking_of(self, row, retailer: int) -> Booking:
        """This retailer's booking in the row. An id that was no spelling has no row."""
        for booking in self.bookings:
            if booking.row == row and booking.retailer == retailer:
                return booking
        raise Refusal("UnknownBooking")

    def first_departure(self, booking: Booking) -> int:
        places = self.catalogue.places
        return min(departure(self.catalogue, Segment(places[item.place].run, item.span)) for item in booking.items)

    def refund_at(self, booking: Booking, made: int, fulfilled: bool) -> int:
        """What a refund quoted at that moment pays back."""
        seconds_before = max(self.first_departure(booking) - made, 0)
        return refund_value(self.catalogue.terms, booking.total, seconds_before, fulfilled)

    # Making a booking

    def choose_row(self) -> Row:
        """The row that was kept; else the least one without a booking; else the least one whose booking has ended, in the
        next generation: that booking is then gone, whatever becomes of the request.
        """
        if self.kept_row is not None:
            return self.kept_row
        used = {booking.row.number for booking in self.bookings}
        free = [number for number in range(len(used) + 1) if number not in used and number < self.catalogue.rows]
        if free:
            return Row(free[0])
        ended = [booking for booking in self.bookings if not booking.is_live() and booking.row.generation < LAST_GENERATION]
        if not ended:
            raise Refusal("RowsFull")
        given_away = min(ended, key=lambda booking: booking.row.number)
        self.bookings.remove(given_away)
        return Row(given_away.row.number, given_away.row.generation + 1)

    def take(self, segments, travel_class: TravelClass, wanted: int, passengers: int, together: bool) -> tuple:
        """A row, and for each segment in order the pieces of its span at a place for each passenger: where they are to sit
        together at the first free stretch, and else, or without one, at the first free candidates.

        Where some segment has too few, nothing is taken and the row is kept for the next booking.
        """
        row = self.choose_row()
        items = []
        for segment in segments:
            stretch = self.free_stretch(segment, travel_class, wanted, passengers) if together else None
            free = stretch or self.free_candidates(segment, travel_class, wanted)
            if len(free) < passengers:
                self.kept_row = row
                raise Refusal("NoPlace")
            items.extend(Item(place, piece) for place in free[:passengers] for piece in pieces(segment.span))
        self.kept_row = None
        return row, items

    def make(self, retailer: int, now: int, total: int, segments, travel_class, wanted, passengers, together, phase) -> Booking:
        row, items = self.take(segments, travel_class, wanted, passengers, together)
        limit = moments.later(now, self.catalogue.terms.confirm_seconds)
        booking = Booking(row, retailer, limit, total, items, phase)
        self.bookings.append(booking)
        return booking

    def book(self, retailer: int, code: OfferCode, now: int, together: bool = False, phase: Phase = Phase.PREBOOKED) -> Booking:
        return self.make(retailer, now, offer_price(self.catalogue, code), code.segments, code.travel_class, code.wanted,
                         code.adults + code.children, together, phase)

    def reserve(self, retailer: int, segment: Segment, travel_class, count: int, wanted: int, together: bool, now: int) -> Booking:
        total = segment_price(self.catalogue.runs[segment.run], segment.span, travel_class, count, 0)
        return self.make(retailer, now, total, [segment], travel_class, wanted, count, together, Phase.PREBOOKED)

    # Changing a booking

    def confirm(self, retailer: int, row, now: int) -> Booking:
        booking = self.booking_of(row, retailer)
        need_phase(booking, Phase.PREBOOKED)
        if now > booking.limit:
            raise Refusal("TooLate", two_moments(booking.limit, now))
        booking.phase = Phase.CONFIRMED
        return booking

    def fulfil(self, retailer: int, row) -> Booking:
        booking = self.booking_of(row, retailer)
        need_phase(booking, Phase.CONFIRMED)
        booking.phase = Phase.FULFILLED
        return booking

    def release(self, retailer: int, row, now: int) -> Booking:
        """Also after the limit."""
        booking = self.booking_of(row, retailer)
        need_phase(booking, Phase.PREBOOKED)
        return end(booking, Phase.RELEASED, Ending(now, 0))

    def sweep(self, now: int) -> Swept:
        """Ends every prebooked booking, of any retailer, whose limit is over."""
        prebooked = [booking for booking in self.bookings if booking.phase is Phase.PREBOOKED]
        late = [booking for booking in prebooked if booking.limit < now]
        for booking in late:
            end(booking, Phase.EXPIRED, Ending(now, 0))
        return Swept(len(late), 0, len(prebooked) - len(late))

    # Refund

    def quote_refund(self, retailer: int, row, now: int) -> RefundCode:
        booking = self.booking_of(row, retailer)
        need_phase(booking, Phase.CONFIRMED, Phase.FULFILLED)
        fulfilled = booking.phase is Phase.FULFILLED
        return RefundCode(booking.row, now, fulfilled, self.refund_at(booking, now, fulfilled))

    def accept_refund(self, retailer: int, code: RefundCode, now: int) -> Booking:
        booking = self.booking_of(code.row, retailer)
        if self.refund_at(booking, code.made, code.fulfilled) != code.amount:
            raise Refusal("QuoteWrong")
        need_phase(booking, Phase.FULFILLED if code.fulfilled else Phase.CONFIRMED)
        return end(booking, Phase.REFUNDED, Ending(now, code.amount))

    # Exchange

    def difference_at(self, booking: Booking, made: int, fulfilled: bool, offer: OfferCode) -> int:
        refund = self.refund_at(booking, made, fulfilled)
        return exchange_difference(self.catalogue.terms, refund, offer_price(self.catalogue, offer))

    def quote_exchange(self, retailer: int, row, offer: OfferCode, now: int) -> ExchangeCode:
        booking = self.booking_of(row, retailer)
        need_phase(booking, Phase.CONFIRMED, Phase.FULFILLED)
        fulfilled = booking.phase is Phase.FULFILLED
        return ExchangeCode(booking.row, now, fulfilled, self.difference_at(booking, now, fulfilled, offer), offer)

    def accept_exchange(self, retailer: int, code: ExchangeCode, now: int) -> Booking:
        """The new booking, which is confirmed at once. Its places are sought while the old one still has its own."""
        old = self.booking_of(code.row, retailer)
        if self.difference_at(old, code.made, code.fulfilled, code.offer) != code.difference:
            raise Refusal("QuoteWrong")
        need_phase(old, Phase.FULFILLED if code.fulfilled else Phase.CONFIRMED)
        new = self.book(retailer, code.offer, now, phase=Phase.CONFIRMED)
        end(old, Phase.EXCHANGED, Ending(now, code.difference, new.row))
        return new


def need_phase(booking: Booking, *taken: Phase):
    if booking.phase not in taken:
        raise Refusal("WrongState", booking.phase.value)


def end(booking: Booking, phase: Phase, ending: Ending) -> Booking:
    booking.phase = phase
    booking.ending = ending
    return booking


def two_moments(first: int, second: int) -> str:
    return moments.write_moment(first) + " " + moments.write_moment(second)

"""The service: routes, the order of refusals, the fields of bodies, and the answers of one connection."""
from dataclasses import dataclass

import moments
import wire
from bookings import QUOTE_SECONDS, Booking, Books, Phase, Refusal, reservations, two_moments
from catalogue import TRAITS, Catalogue, TravelClass
from json_text import NotJson, is_text, is_whole, read_json, write_json
from offers import (OfferCode, Segment, arrival, departure, destination, is_offered, offer_price, origin,
                    read_booking_id, read_exchange, read_offer, read_refund, trips, write_booking_id, write_exchange,
                    write_offer, write_refund)

LONGEST_WINDOW = 172_800
DEFAULT_WINDOW = 86_400


@dataclass
class Clock:
    """Readings that go up by a tick and stop at the last moment."""
    next_moment: int
    tick: int

    def now(self) -> int:
        moment = self.next_moment
        self.next_moment = moments.later(moment, self.tick)
        return moment


# Routes


ROUTES = [
    ("POST", "/offers", "offers"),
    ("POST", "/bookings", "book"),
    ("POST", "/reservations", "reserve"),
    ("GET", "/bookings/{id}", "show"),
    ("DELETE", "/bookings/{id}", "release"),
    ("POST", "/bookings/{id}/fulfillments", "confirm"),
    ("PATCH", "/bookings/{id}/fulfillments", "fulfil"),
    ("POST", "/bookings/{id}/refund-offers", "quote_refund"),
    ("PATCH", "/bookings/{id}/refund-offers/{offer}", "accept_refund"),
    ("POST", "/exchange-offers", "quote_exchange"),
    ("POST", "/bookings/{id}/exchange-operations", "accept_exchange"),
    ("GET", "/runs/{run}/places/{from}/{to}", "places"),
    ("POST", "/sweeps", "sweep"),
]


def match(pattern: str, path: str):
    """The values of the pattern's parameters, in order, or None. A parameter is one part of the path, and not empty."""
    wanted, given = pattern.split("/"), path.split("/")
    if len(wanted) != len(given):
        return None
    values = []
    for want, give in zip(wanted, given):
        if want.startswith("{"):
            if not give:
                return None
            values.append(give)
        elif want != give:
            return None
    return values


def find_route(method: str, path: str) -> tuple:
    """The command's name and the path's parameters."""
    matching = [(route_method, name, match(pattern, path)) for route_method, pattern, name in ROUTES
                if match(pattern, path) is not None]
    if not matching:
        raise Refusal("NoRoute")
    for route_method, name, parameters in matching:
        if route_method == method:
            return name, parameters
    raise Refusal("NoMethod")


# Fields of a body


REQUIRED = object()


def read_body(data: bytes) -> dict:
    try:
        body = read_json(data)
    except NotJson:
        raise Refusal("NotJson") from None
    if not isinstance(body, dict):
        raise Refusal("BadField", "body")
    return body


def number_field(body: dict, name: str, low: int, high: int, default=REQUIRED) -> int:
    if name not in body and default is not REQUIRED:
        return default
    value = body.get(name)
    if not is_whole(value) or not low <= value <= high:
        raise Refusal("BadField", name)
    return value


def text_field(body: dict, name: str) -> str:
    value = body.get(name)
    if not is_text(value):
        raise Refusal("BadField", name)
    return value


def class_field(body: dict) -> TravelClass:
    if "class" not in body:
        return TravelClass.SECOND
    value = text_field(body, "class")
    if value not in ("FIRST", "SECOND"):
        raise Refusal("BadField", "class")
    return TravelClass(value)


def wanted_field(body: dict) -> int:
    """The sum of the bits of the wanted traits."""
    names = body.get("wanted", [])
    if not isinstance(names, list) or not all(is_text(name) and name in TRAITS for name in names):
        raise Refusal("BadField", "wanted")
    return sum(bit for trait, bit in TRAITS.items() if trait in names)


def together_field(body: dict) -> bool:
    together = body.get("together", False)
    if not isinstance(together, bool):
        raise Refusal("BadField", "together")
    return together


def moment_field(body: dict, name: str) -> int:
    moment = moments.read_moment(text_field(body, name))
    if isinstance(moment, moments.MomentFault):
        raise Refusal("BadField", name)
    return moment


def status_field(body: dict, wanted: str):
    if text_field(body, "status") != wanted:
        raise Refusal("BadField", "status")


# Answers


class Host:
    """A host with one connection: the catalogue, the books, and the connection's retailer once a key is known."""

    def __init__(self, catalogue: Catalogue):
        self.catalogue = catalogue
        self.books = Books(catalogue)
        self.retailer = None

    def answer(self, request: wire.Request, now: int) -> bytes:
        """The bytes of the answer to one whole request at one moment."""
        try:
            self.admit(request.key)
            name, parameters = find_route(request.method.decode("ascii"), request.path.decode("utf-8"))
            status, reply = getattr(self, "answer_" + name)(parameters, request.body, now)
        except Refusal as refusal:
            return wire.write_problem(refusal.code, refusal.detail, request.last)
        return wire.write_answer(status, False, write_json(reply), request.last)

    def serve(self, data: bytes, clock: Clock) -> tuple:
        """The bytes of all answers to one connection, and its rest. The clock is read once for each whole request."""
        requests, rest = wire.read_requests(data)
        answers = [self.answer(request, clock.now()) for request in requests]
        if rest in wire.FAULTS:
            answers.append(wire.write_fault(rest))
        return b"".join(answers), rest

    def admit(self, key: bytes):
        """The first known key of the connection is its retailer's for good."""
        retailer = None if key is None else self.catalogue.retailers.get(key.decode("latin-1"))
        if retailer is None:
            raise Refusal("NoRetailer")
        if self.retailer is None:
            self.retailer = retailer
        if self.retailer != retailer:
            raise Refusal("OtherRetailer")

    def need_station(self, code: str, name: str):
        if code not in self.catalogue.stations:
            raise Refusal("UnknownStation", name)

    def need_offer(self, code: OfferCode):
        """The id spells a trip of the catalogue."""
        if code is None or not is_offered(self.catalogue, code):
            raise Refusal("UnknownOffer")

    # Searching

    def answer_offers(self, _parameters, data: bytes, now: int) -> tuple:
        body = read_body(data)
        adults = number_field(body, "adults", 0, 8)
        children = number_field(body, "children", 0, 8, 0)
        if not 1 <= adults + children <= 8:
            raise Refusal("BadField", "adults")
        travel_class = class_field(body)
        wanted = wanted_field(body)
        start = text_field(body, "origin")
        end = text_field(body, "destination")
        if start == end:
            raise Refusal("BadField", "destination")
        earliest = moment_field(body, "earliest")
        latest = moment_field(body, "latest") if "latest" in body else moments.later(earliest, DEFAULT_WINDOW)
        if not earliest <= latest <= earliest + LONGEST_WINDOW:
            raise Refusal("BadField", "latest")
        self.need_station(start, "origin")
        self.need_station(end, "destination")
        found = trips(self.catalogue, start, end, max(earliest, now), latest)
        codes = [OfferCode(now, adults, children, travel_class, wanted, tuple(trip)) for trip in found]
        return 200, {"offers": [self.offer_reply(code) for code in codes]}

    def answer_places(self, parameters, _data: bytes, _now: int) -> tuple:
        run, start, end = parameters
        segment = self.read_segment(self.known_run(run), start, end)
        return 200, {"places": [self.place_reply(place, segment) for place in self.catalogue.places_of(segment.run)]}

    def known_run(self, digits: str) -> int:
        """A known run's number, written as digits without a leading zero."""
        for run in self.catalogue.runs:
            if digits == str(run.number):
                return run.number
        raise Refusal("BadField", "run")

    def read_segment(self, run: int, start: str, end: str) -> Segment:
        self.need_station(start, "from")
        self.need_station(end, "to")
        span = self.catalogue.runs[run].span_between(start, end)
        if span is None:
            raise Refusal("BadField", "to")
        return Segment(run, span)

    # Booking

    def answer_book(self, _parameters, data: bytes, now: int) -> tuple:
        body = read_body(data)
        code = read_offer(text_field(body, "offerId"))
        together = together_field(body)
        self.need_fresh_offer(code, now)
        return 201, self.booking_reply(self.books.book(self.retailer, code, now, together))

    def need_fresh_offer(self, code: OfferCode, now: int):
        self.need_offer(code)
        self.need_made(code.made, now)

    def need_made(self, made: int, now: int):
        """It was made at most 900 seconds ago."""
        if made > now:
            raise Refusal("UnknownOffer")
        if now - made > QUOTE_SECONDS:
            raise Refusal("OfferTooOld", two_moments(made, now))

    def answer_reserve(self, _parameters, data: bytes, now: int) -> tuple:
        body = read_body(data)
        run = number_field(body, "run", 0, len(self.catalogue.runs) - 1)
        travel_class = class_field(body)
        count = number_field(body, "count", 1, 8, 1)
        wanted = wanted_field(body)
        start = text_field(body, "from")
        end = text_field(body, "to")
        together = together_field(body)
        segment = self.read_segment(run, start, end)
        return 201, self.booking_reply(self.books.reserve(self.retailer, segment, travel_class, count, wanted, together, now))

    def answer_show(self, parameters, _data: bytes, _now: int) -> tuple:
        return 200, self.booking_reply(self.books.booking_of(read_booking_id(parameters[0]), self.retailer))

    def answer_release(self, parameters, _data: bytes, now: int) -> tuple:
        return 200, self.booking_reply(self.books.release(self.retailer, read_booking_id(parameters[0]), now))

    def answer_confirm(self, parameters, _data: bytes, now: int) -> tuple:
        return 200, self.booking_reply(self.books.confirm(self.retailer, read_booking_id(parameters[0]), now))

    def answer_fulfil(self, parameters, data: bytes, _now: int) -> tuple:
        status_field(read_body(data), "FULFILLED")
        return 200, self.booking_reply(self.books.fulfil(self.retailer, read_booking_id(parameters[0])))

    def answer_sweep(self, _parameters, _data: bytes, now: int) -> tuple:
        swept = self.books.sweep(now)
        return 200, {"expired": swept.expired, "lost": swept.lost, "waiting": swept.waiting}

    # Refund

    def answer_quote_refund(self, parameters, _data: bytes, now: int) -> tuple:
        code = self.books.quote_refund(self.retailer, read_booking_id(parameters[0]), now)
        return 201, {"amount": self.amount(code.amount), "id": write_refund(code), "validUntil": valid_until(code.made)}

    def answer_accept_refund(self, parameters, data: bytes, now: int) -> tuple:
        status_field(read_body(data), "CONFIRMED")
        code = read_refund(parameters[1])
        if code is None or code.row != read_booking_id(parameters[0]):
            raise Refusal("UnknownOffer")
        self.need_made(code.made, now)
        return 200, self.booking_reply(self.books.accept_refund(self.retailer, code, now))

    # Exchange

    def answer_quote_exchange(self, _parameters, data: bytes, now: int) -> tuple:
        body = read_body(data)
        row = read_booking_id(text_field(body, "bookingId"))
        offer = read_offer(text_field(body, "offerId"))
        self.need_fresh_offer(offer, now)
        code = self.books.quote_exchange(self.retailer, row, offer, now)
        difference = self.amount(code.difference)
        return 201, {"difference": difference, "id": write_exchange(code), "validUntil": valid_until(code.made)}

    def answer_accept_exchange(self, parameters, data: bytes, now: int) -> tuple:
        code = read_exchange(text_field(read_body(data), "exchangeOfferId"))
        if code is None or code.row != read_booking_id(parameters[0]):
            raise Refusal("UnknownOffer")
        if not 0 <= code.made - code.offer.made <= QUOTE_SECONDS:
            raise Refusal("UnknownOffer")
        self.need_offer(code.offer)
        self.need_made(code.made, now)
        new = self.books.accept_exchange(self.retailer, code, now)
        return 201, {"booking": self.booking_reply(new), "difference": self.amount(code.difference),
                     "replaced": write_booking_id(code.row)}

    # Parts of replies

    def amount(self, number: int) -> dict:
        return {"amount": number, "currency": self.catalogue.currency, "scale": 2}

    def offer_reply(self, code: OfferCode) -> dict:
        segments = [self.segment_reply(segment, code) for segment in code.segments]
        return {"id": write_offer(code), "price": self.amount(offer_price(self.catalogue, code)), "segments": segments,
                "validUntil": valid_until(code.made)}

    def segment_reply(self, segment: Segment, code: OfferCode) -> dict:
        return {
            "arrive": moments.write_moment(arrival(self.catalogue, segment)),
            "depart": moments.write_moment(departure(self.catalogue, segment)),
            "free": len(self.books.free_candidates(segment, code.travel_class, code.wanted)),
            "from": origin(self.catalogue, segment),
            "run": segment.run,
            "to": destination(self.catalogue, segment),
            "train": self.catalogue.runs[segment.run].train,
        }

    def place_reply(self, place, segment: Segment) -> dict:
        return {
            "class": place.travel_class.value,
            "coach": place.coach,
            "free": self.books.is_free(place.number, segment.span),
            "place": place.label,
            "traits": [trait for trait, bit in TRAITS.items() if place.traits & bit],
        }

    def booking_reply(self, booking: Booking) -> dict:
        reply = {
            "confirmableUntil": moments.write_moment(booking.limit),
            "id": write_booking_id(booking.row),
            "price": self.amount(booking.total),
            "reservations": [self.item_reply(item) for item in reservations(booking.items)],
            "settled": booking.ending is not None,
            "status": booking.phase.value,
        }
        if booking.ending is not None:
            reply["endAmount"] = self.amount(booking.ending.amount)
            reply["endedAt"] = moments.write_moment(booking.ending.moment)
        if booking.phase is Phase.EXCHANGED:
            reply["successor"] = write_booking_id(booking.ending.successor)
        return reply

    def item_reply(self, item) -> dict:
        place = self.catalogue.places[item.place]
        segment = Segment(place.run, item.span)
        return {
            "coach": place.coach,
            "from": origin(self.catalogue, segment),
            "place": place.label,
            "run": place.run,
            "to": destination(self.catalogue, segment),
            "train": self.catalogue.runs[place.run].train,
        }


def valid_until(made: int) -> str:
    return moments.write_moment(moments.later(made, QUOTE_SECONDS))

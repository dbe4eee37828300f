"""A random stream of requests over a catalogue, which goes by the answers that the model gives to it."""
import json
import random

import moments
import service
import wire
from bookings import BORDER, Phase
from catalogue import TRAITS, Catalogue, Run, Span, TravelClass
from offers import (ExchangeCode, OfferCode, RefundCode, Row, Segment, all_segments, departure, may_follow, read_exchange,
                    read_refund, write_booking_id, write_exchange, write_offer, write_refund)
from random_texts import (BROKEN, WHOLE_BUT_ODD, Twice, chance, changed_text, json_text, junk, moment_text,
                          wrong_moment_text)

AGES = [0] * 12 + [1, 450, 899, 900, 900, 900, 901, 5_000, -1]
METHODS = ["GET", "POST", "PUT", "PATCH", "DELETE", "HEAD", "OPTIONS", "get", "X-M!"]
PATHS = ["/", "*", "offers", "/offers/", "//offers", "/bookings/", "/bookings//fulfillments", "/bookings/B000000/",
         "/bookings/B000000/fulfillments/", "/bookings/B000000/refund-offers/", "/bookings/B000000/x", "/sweeps/1", "/runs",
         "/runs/0/places/A", "/runs//places/A/B", "/runs/0/places//B", "/runs/0/places/A/", "/offer", "/OFFERS", "/exchange-offers/",
         "/bookings/B000000/refund-offers/a/b", "/%6fffers", "/bookings/B000000/exchange-operation", "http://h/offers",
         "/offers#x", "/\u00e9", "/bookings/{id}/x", "/reservations/", "/offers;a"]


class Stream:
    """Requests one after the other, each answered by the model at once. `pieces` are the bytes of each."""

    def __init__(self, rng: random.Random, catalogue: Catalogue, start: int, tick: int):
        self.rng = rng
        self.catalogue = catalogue
        self.segments = all_segments(catalogue)
        self.clock = service.Clock(start, tick)
        self.host = service.Host(catalogue)
        self.keys = list(catalogue.retailers)
        self.key = rng.choice(self.keys)
        self.pieces = []
        self.closed = False
        self.offers = []
        self.refunds = []
        self.exchanges = []

    def chance(self, share: float) -> bool:
        return chance(self.rng, share)

    def now(self) -> int:
        """The moment of the next request."""
        return self.clock.next_moment

    # Sending

    def send(self, method: str, path: str, body: bytes = b"", key: str = None):
        """Writes one request in a random form, and learns from the answer of the model."""
        piece = request_bytes(self.rng, method, path, body, self.key if key is None else key)
        self.pieces.append(piece)
        requests, rest = wire.read_requests(piece)
        if not requests:
            self.closed = True
            return
        answer = self.host.answer(requests[0], self.clock.now())
        self.closed = rest is not wire.Rest.END
        self.learn(json.loads(answer.partition(b"\r\n\r\n")[2]))

    def learn(self, reply: dict):
        self.offers.extend(offer["id"] for offer in reply.get("offers", []))
        code = reply.get("id", "")
        if code.startswith("R"):
            self.refunds.append(code)
        if code.startswith("X"):
            self.exchanges.append(code)

    def send_body(self, method: str, path: str, body: dict):
        self.send(method, path, self.body_bytes(body))

    def body_bytes(self, body: dict) -> bytes:
        """The text of the body. Now and then a member is left out, is another value, or stands twice."""
        body = dict(body)
        kind = self.rng.random() * (1 if len(body) > 2 else 2)
        if kind < 0.05 and body:
            del body[self.rng.choice(list(body))]
        elif kind < 0.11 and body:
            body[self.rng.choice(list(body))] = junk(self.rng)
        elif kind < 0.13 and body:
            name = self.rng.choice(list(body))
            body[name] = Twice(junk(self.rng), body[name])
        elif kind < 0.15 and body:
            name = self.rng.choice(list(body))
            body[name] = Twice(body[name], junk(self.rng))
        elif kind < 0.18:
            body["x" + self.rng.choice(list(body) or [""])] = junk(self.rng)
        elif kind < 0.21:
            return self.rng.choice(BROKEN).encode("utf-8")
        elif kind < 0.23:
            return self.rng.choice(WHOLE_BUT_ODD).encode("utf-8")
        elif kind < 0.24:
            text = json_text(self.rng, body, True).encode("utf-8")
            at = self.rng.randrange(len(text))
            return text[:at] + bytes([self.rng.randrange(256)]) + text[at + self.rng.choice([0, 1]):]
        text = json_text(self.rng, body, self.chance(0.5)).encode("utf-8")
        if self.chance(0.004):
            return text + b" " * self.rng.choice([16_000, 100_000, 262_144 - len(text)])
        return text

    # Picking

    def booking(self, *phases: Phase):
        """One of the bookings, and mostly one in one of these phases, or None."""
        bookings = self.host.books.bookings
        fitting = [booking for booking in bookings if booking.phase in phases]
        if fitting and self.chance(0.85):
            return self.rng.choice(fitting)
        return self.rng.choice(bookings) if bookings else None

    def booking_id(self, *phases: Phase) -> str:
        booking = self.booking(*phases)
        if booking is None or self.chance(0.04):
            return self.rng.choice(["B000000", "B000777", "B%06d" % self.catalogue.rows, "B4294967295", "B4294967296", "B0000000",
                                    "B000000-1", "B000000-0", "B000000-01", "B000000-65535", "B000000-65536", "B000000-", "B000001--1",
                                    "B00000", "b000000", "x", "B00000\u0660", "B1000000", "B%20", "B-00001",
                                    write_booking_id(self.host.books.kept_row or Row(0))])
        row = booking.row
        if self.chance(0.04):
            row = Row(row.number, max(row.generation + self.rng.choice([-1, -1, 1]), 0))
        text = write_booking_id(row)
        return changed_path_part(self.rng, text) if self.chance(0.03) else text

    def random_segments(self) -> list:
        """Mostly a trip, else any segments one after the other."""
        chain = [self.rng.choice(self.segments)]
        while len(chain) < 3 and self.chance(0.55):
            following = [segment for segment in self.segments if may_follow(self.catalogue, chain, segment)]
            if following and self.chance(0.95):
                chain.append(self.rng.choice(following))
            elif self.chance(0.2):
                chain.append(self.rng.choice(self.segments))
            else:
                break
        return chain

    def two_stops(self, run: Run) -> tuple:
        """Two stops of the run, the earlier one first; in a run that goes over the border, often one on either side."""
        if len(run.stops) > BORDER + 1 and self.chance(0.6):
            return self.rng.choice([0, 1, 60, 62, self.rng.randrange(BORDER)]), self.rng.randrange(BORDER + 1, len(run.stops))
        start = self.rng.randrange(len(run.stops) - 1)
        return start, self.rng.randrange(start + 1, len(run.stops))

    def random_offer(self) -> str:
        """An offer that was answered, at whatever age, or one that is spelled here."""
        if self.offers and self.chance(0.4):
            text = self.rng.choice(self.offers[-6:] if self.chance(0.8) else self.offers)
        else:
            text = write_offer(self.spelled_offer())
        return changed_text(self.rng, text) if self.chance(0.04) else text

    def spelled_offer(self) -> OfferCode:
        segments = self.random_segments()
        later = [chain for chain in (self.random_segments() for _ in range(10))
                 if departure(self.catalogue, chain[0]) >= self.now()]
        if later and self.chance(0.9):
            segments = later[0]
        if self.chance(0.03):
            segments = segments + [Segment(self.rng.choice([len(self.catalogue.runs), 4_095, 0]), Span(0, self.rng.choice([1, 9, 63, 126, 127])))]
        made = self.now() - self.rng.choice(AGES)
        if self.chance(0.08):
            made = departure(self.catalogue, segments[0]) + self.rng.choice([-1, 0, 1])
        adults, children = self.passengers()
        if self.chance(0.03):
            adults, children = self.rng.choice([(0, 0), (8, 1), (5, 4), (1, 8), (8, 8), (9, 0), (0, 9)])
        known_runs = [segment.run for segment in segments if segment.run < len(self.catalogue.runs)]
        travel_class, wanted = self.wish(self.rng.choice(known_runs))
        return OfferCode(min(max(made, 0), moments.LAST_MOMENT), adults, children, travel_class, wanted, tuple(segments[:3]))

    def passengers(self) -> tuple:
        return self.rng.choice([(1, 0)] * 8 + [(2, 0), (1, 1), (0, 1), (2, 1), (3, 0), (4, 4), (8, 0), (0, 8), (1, 2)])

    def wish(self, run: int) -> tuple:
        """A class and wanted traits, mostly those of a place of the run."""
        if self.chance(0.15):
            return self.rng.choice(list(TravelClass)), self.rng.choice([0, 1, 2, 4, 8, 16, 3, self.rng.randrange(32)])
        place = self.rng.choice(self.catalogue.places_of(run))
        return place.travel_class, place.traits & self.rng.choice([0, 0, 1, 2, 31, self.rng.randrange(32)])

    def with_wish(self, body: dict, run: int) -> dict:
        """Class and wanted traits, each left out where it may be."""
        travel_class, bits = self.wish(run)
        wanted = [trait for trait, bit in TRAITS.items() if bits & bit]
        self.rng.shuffle(wanted)
        if self.chance(0.1):
            wanted += wanted[:1]
        if travel_class is TravelClass.FIRST or self.chance(0.6):
            body["class"] = travel_class.value
        if wanted or self.chance(0.3):
            body["wanted"] = wanted
        if self.chance(0.02):
            body["class"] = self.rng.choice(["first", "THIRD", "", 1, None])
        if self.chance(0.02):
            body["wanted"] = self.rng.choice([["window"], "WINDOW", [1], None, {}, ["WINDOW", None], ["WINDOW "]])
        return body

    # What a retailer may ask

    def ask_offers(self):
        adults, children = self.passengers()
        if self.chance(0.05):
            adults, children = self.rng.choice([(0, 0), (8, 1), (9, 0), (5, 4), (-1, 2), (0, 9), (8, 8)])
        chain = self.random_segments()
        first, last = chain[0], chain[-1]
        start = self.catalogue.runs[first.run].stops[first.span.start].station
        end = self.catalogue.runs[last.run].stops[last.span.end].station
        if self.chance(0.06):
            start = self.rng.choice(["NOWHERE", "", end, "basel", "\u00c9", start + " "])
        if self.chance(0.06):
            end = self.rng.choice(["NOWHERE", "", start, "bern", "x" * 40])
        departs = departure(self.catalogue, first)
        earliest = self.rng.choice([self.now(), departs, departs, departs - 1, departs + 1, departs - 3_600, self.now() - 7_200,
                                    departs - 86_400, departs - 86_401])
        body = {"adults": adults}
        if children or self.chance(0.3):
            body["children"] = children
        self.with_wish(body, first.run)
        body["origin"], body["destination"] = start, end
        earliest = min(max(earliest, 0), moments.LAST_MOMENT)
        body["earliest"] = moment_text(self.rng, earliest, False)
        if self.chance(0.5):
            latest = self.rng.choice([departs, departs, departs - 1, departs + 1, earliest, earliest - 1, earliest + 172_800,
                                      earliest + 172_801, earliest + 40_000])
            body["latest"] = moment_text(self.rng, min(max(latest, 0), moments.LAST_MOMENT), False)
        if self.chance(0.14):
            body[self.rng.choice(["earliest", "latest"])] = wrong_moment_text(self.rng, departs)
        self.send_body("POST", "/offers", body)

    def book(self):
        body = {"offerId": self.random_offer()}
        self.with_together(body)
        self.send_body("POST", "/bookings", body)

    def with_together(self, body: dict):
        """Whether the passengers are to sit side by side, left out where it may be."""
        if self.chance(0.4):
            body["together"] = self.chance(0.8)
        if self.chance(0.02):
            body["together"] = self.rng.choice([1, 0, "true", None, [], {}])

    def reserve(self):
        run = self.rng.choice(self.catalogue.runs)
        start, end = self.two_stops(run)
        body = {"run": run.number, "from": run.stops[start].station, "to": run.stops[end].station}
        self.with_wish(body, run.number)
        if self.chance(0.4):
            body["count"] = self.rng.choice([1, 1, 2, 3, 4, 8])
        self.with_together(body)
        if self.chance(0.05):
            body["count"] = self.rng.choice([0, 9, -1, 2 ** 40])
        if self.chance(0.05):
            body["run"] = self.rng.choice([len(self.catalogue.runs), -1, 4_096, 2 ** 63, "0"])
        if self.chance(0.08):
            body[self.rng.choice(["from", "to"])] = self.rng.choice(list(self.catalogue.stations) + ["NOWHERE", "", "basel"])
        if self.chance(0.02):
            body["from"], body["to"] = "NOWHERE", "NOWHERE"
        self.send_body("POST", "/reservations", body)

    def fill(self):
        """One reservation after the other until places or rows run out, or a few were made."""
        run = self.rng.choice(self.catalogue.runs)
        body = {"run": run.number, "from": run.stops[0].station, "to": run.stops[-1].station,
                "class": self.wish(run.number)[0].value, "count": self.rng.choice([1, 1, 2])}
        for _ in range(self.rng.randint(2, 6)):
            if not self.closed:
                self.send("POST", "/reservations", json_text(self.rng, body, True).encode("ascii"))

    def show(self, *phases: Phase):
        self.send("GET", "/bookings/" + self.booking_id(*(phases or Phase)), self.stray_body())

    def release(self):
        self.send("DELETE", "/bookings/" + self.booking_id(Phase.PREBOOKED), self.stray_body())

    def confirm(self):
        self.send("POST", "/bookings/%s/fulfillments" % self.booking_id(Phase.PREBOOKED), self.stray_body())

    def fulfil(self):
        status = "FULFILLED" if self.chance(0.93) else self.rng.choice(["fulfilled", "CONFIRMED", "", 1, None])
        self.send_body("PATCH", "/bookings/%s/fulfillments" % self.booking_id(Phase.CONFIRMED), {"status": status})

    def stray_body(self) -> bytes:
        """A body that the route doesn't read."""
        if self.chance(0.004):
            return b"\r\n" * self.rng.choice([8_000, 50_000, 131_072])
        return b"" if self.chance(0.9) else self.rng.choice([b"{}", b"{", b"\xff", b"x" * 300, b"{\"status\":\"FULFILLED\"}"])

    def sweep(self):
        self.send("POST", "/sweeps", self.stray_body())
        if not self.closed and self.chance(0.4):
            self.show(Phase.EXPIRED)

    def life(self):
        """A booking that is confirmed, perhaps collected, and then refunded or exchanged, one step right after the other."""
        count = len(self.host.books.bookings)
        steps = [self.reserve, self.confirm]
        if self.chance(0.4):
            steps.append(self.fulfil)
        steps += self.rng.choice([[self.quote_refund, self.accept_refund], [self.quote_exchange, self.accept_exchange],
                                  [self.quote_exchange, self.quote_refund, self.accept_exchange, self.accept_refund]])
        for step in steps:
            if not self.closed and len(self.host.books.bookings) > count or step == self.reserve:
                step()
        if not self.closed:
            self.show()

    def meet_limit(self):
        """Waits until the clock stands at a booking's limit, or just over it, and then confirms, sweeps or releases."""
        booking = self.booking(Phase.PREBOOKED)
        if booking is None or not self.clock.tick:
            return
        waits = (booking.limit - self.now()) // self.clock.tick + self.rng.choice([0, 0, 1])
        if not 0 <= waits <= 15:
            return
        for _ in range(waits):
            if not self.closed:
                self.send("GET", "/sweeps")
        if not self.closed:
            row = write_booking_id(booking.row)
            self.send(*self.rng.choice([("POST", "/sweeps"), ("POST", "/bookings/%s/fulfillments" % row), ("DELETE", "/bookings/" + row)]))

    def quote_refund(self):
        row = self.booking_id(Phase.CONFIRMED, Phase.FULFILLED)
        self.send("POST", "/bookings/%s/refund-offers" % row, self.stray_body())

    def accept_refund(self):
        code = self.random_refund()
        if code is None:
            return
        read = read_refund(code)
        row = write_booking_id(read.row) if read and self.chance(0.93) else self.booking_id(*Phase)
        status = "CONFIRMED" if self.chance(0.95) else self.rng.choice(["confirmed", "FULFILLED", 0, None])
        self.send_body("PATCH", "/bookings/%s/refund-offers/%s" % (row, code), {"status": status})

    def random_refund(self):
        """A quote that was answered, or one that is spelled here with an amount that is right or nearly so."""
        if self.refunds and self.chance(0.5):
            code = self.rng.choice(self.refunds[-3:])
            return changed_path_part(self.rng, code) if self.chance(0.06) else code
        booking = self.booking(Phase.CONFIRMED, Phase.FULFILLED)
        if booking is None:
            return None
        made = min(max(self.now() - self.rng.choice(AGES), 0), moments.LAST_MOMENT)
        fulfilled = (booking.phase is Phase.FULFILLED) != self.chance(0.1)
        amount = self.host.books.refund_at(booking, made, fulfilled) + self.rng.choice([0, 0, 0, 0, 1, -1])
        code = write_refund(RefundCode(booking.row, made, fulfilled, max(amount, 0)))
        return changed_path_part(self.rng, code) if self.chance(0.06) else code

    def quote_exchange(self):
        body = {"bookingId": self.booking_id(Phase.CONFIRMED, Phase.FULFILLED), "offerId": self.random_offer()}
        self.send_body("POST", "/exchange-offers", body)

    def accept_exchange(self):
        code = self.random_exchange()
        if code is None:
            return
        read = read_exchange(code)
        row = write_booking_id(read.row) if read and self.chance(0.93) else self.booking_id(*Phase)
        self.send_body("POST", "/bookings/%s/exchange-operations" % row, {"exchangeOfferId": code})
        if not self.closed and self.chance(0.5):
            self.show(Phase.EXCHANGED)

    def random_exchange(self):
        if self.exchanges and self.chance(0.5):
            code = self.rng.choice(self.exchanges[-3:])
            return changed_text(self.rng, code) if self.chance(0.06) else code
        booking = self.booking(Phase.CONFIRMED, Phase.FULFILLED)
        if booking is None:
            return None
        made = min(max(self.now() - self.rng.choice(AGES), 0), moments.LAST_MOMENT)
        offer = self.spelled_offer()
        offer_made = min(max(made - self.rng.choice([0] * 8 + [1, 899, 900, 900, 901, -1]), 0), moments.LAST_MOMENT)
        offer = OfferCode(offer_made, offer.adults, offer.children, offer.travel_class, offer.wanted, offer.segments)
        fulfilled = (booking.phase is Phase.FULFILLED) != self.chance(0.1)
        difference = 0
        if service.is_offered(self.catalogue, offer):
            difference = self.host.books.difference_at(booking, made, fulfilled, offer) + self.rng.choice([0, 0, 0, 0, 1, -1])
        code = write_exchange(ExchangeCode(booking.row, made, fulfilled, difference, offer))
        if self.chance(0.06):
            sizes = ["m0", "p00", "-1", "+1", "0", "m", "p", "p99999999999", "p100000000000", "m99999999999", "m100000000000"]
            parts = code.split("-")
            return "-".join(parts[:3] + [self.rng.choice(sizes)] + parts[4:])
        return changed_text(self.rng, code) if self.chance(0.06) else code

    def places(self):
        run = self.rng.choice(self.catalogue.runs)
        start, end = self.two_stops(run)
        digits, origin, destination = str(run.number), run.stops[start].station, run.stops[end].station
        kind = self.rng.random()
        if kind < 0.07:
            digits = self.rng.choice(["00", "+0", "-0", str(len(self.catalogue.runs)), "4294967296", "x", "0x0", "0" + digits, "1e0", "_",
                                      "9" * 23, "%30", "\u0661"] + [str(run.number + 2 ** bits) for bits in (8, 16, 32, 64)])
        elif kind < 0.14:
            origin = self.rng.choice(list(self.catalogue.stations) + ["NOWHERE", "basel", "%42ASEL", "\u00e9"])
        elif kind < 0.21:
            destination = self.rng.choice(list(self.catalogue.stations) + ["NOWHERE", "basel", "BERN.", "\u00e9"])
        elif kind < 0.24:
            origin, destination = "NOWHERE", "nowhere"
        elif kind < 0.27:
            digits, origin = str(len(self.catalogue.runs)), "NOWHERE"
        self.send("GET", "/runs/%s/places/%s/%s" % (digits, origin, destination), self.stray_body())

    # What nobody should ask

    def wrong_route(self):
        self.send(self.rng.choice(METHODS), self.rng.choice(PATHS), self.stray_body())

    def wrong_method(self):
        route_method, pattern, _ = self.rng.choice(service.ROUTES)
        path = pattern
        for name, value in (("{id}", self.booking_id(*Phase)), ("{offer}", "R0-0-C-0"), ("{run}", "0"), ("{from}", "A"), ("{to}", "B")):
            path = path.replace(name, value)
        self.send(self.rng.choice([method for method in METHODS if method != route_method]), path, self.stray_body())

    def wrong_key(self):
        others = [key for key in self.keys if key != self.key]
        key = self.rng.choice(others * 3 + ["east", "", "NORTH", self.key + "x", "\u00e9", self.key.upper(), "n orth"])
        path = self.rng.choice(["/sweeps", "/nowhere", "/bookings/B000000"])
        self.send(self.rng.choice(["GET", "POST"]), path, self.stray_body(), key)

    def without_key(self):
        self.send("POST", "/sweeps", b"", "")

    def last_words(self):
        """Bytes that are no whole request, or that are the last, and what stands behind them."""
        self.pieces.append(wrong_bytes(self.rng, self.key))
        if self.chance(0.5):
            self.pieces.append(request_bytes(self.rng, "POST", "/sweeps", b"", self.key))


ACTIONS = [
    (Stream.ask_offers, 9), (Stream.book, 11), (Stream.reserve, 11), (Stream.fill, 1), (Stream.life, 6), (Stream.show, 5), (Stream.release, 4),
    (Stream.confirm, 12), (Stream.fulfil, 6), (Stream.sweep, 3), (Stream.meet_limit, 6), (Stream.quote_refund, 7),
    (Stream.accept_refund, 8), (Stream.quote_exchange, 8), (Stream.accept_exchange, 10), (Stream.places, 5), (Stream.wrong_route, 2),
    (Stream.wrong_method, 2), (Stream.wrong_key, 2), (Stream.without_key, 1),
]


def random_pieces(rng: random.Random, catalogue: Catalogue, start: int, tick: int) -> list:
    """The bytes of one connection, request by request."""
    stream = Stream(rng, catalogue, start, tick)
    for _ in range(rng.choice([5, 15, 30, 45]) if chance(rng, 0.985) else 300):
        if stream.closed:
            break
        action = rng.choices([action for action, _ in ACTIONS], [weight for _, weight in ACTIONS])[0]
        if not stream.host.books.bookings and chance(rng, 0.6):
            action = rng.choice([Stream.ask_offers, Stream.book, Stream.reserve])
        action(stream)
    if chance(rng, 0.35):
        stream.last_words()
    return stream.pieces


def changed_path_part(rng: random.Random, text: str) -> str:
    """The text with a change, without what can't stand in a part of a path."""
    changed = changed_text(rng, text).replace(" ", "_").replace("\n", "_").replace("?", "_")
    return changed or "x"


# The bytes of requests


def request_bytes(rng: random.Random, method: str, path: str, body: bytes, key: str) -> bytes:
    """One whole request, in one of the many forms that mean the same; rarely one that ends its connection."""
    if chance(rng, 0.5):
        version, ends, first = "HTTP/1.1", ["\r\n"], ""
        fields = [("Host", "h"), ("Retailer-Key", key), ("Content-Length", str(len(body)))]
        return assembled(rng, first, method, path, version, fields, ends, body)
    version = "HTTP/1.0" if chance(rng, 0.006) else "HTTP/1.1"
    ends = rng.choice([["\r\n"], ["\n"], ["\r\n", "\n"]])
    first = "".join(rng.choice(["\r\n", "\n"]) for _ in range(rng.choice([0, 0, 0, 1, 2, 5])))
    fields = [(cased(rng, "Retailer-Key"), padded(rng, key))] if key or chance(rng, 0.3) else []
    if body or chance(rng, 0.6):
        fields.append((cased(rng, "Content-Length"), padded(rng, str(len(body)))))
        if chance(rng, 0.06):
            fields.append(("content-length", "%010d" % len(body)))
    for _ in range(rng.choice([0, 0, 1, 2, 60])):
        fields.append((rng.choice(["Host", "Accept", "X-a!#$%&'*+.^_`|~9", "Expect", "Cookie", "Retailer-Keys", "Retailer"]),
                       padded(rng, rng.choice(["h", "", "100-continue", "a:b", "\u00e9", "\t x\ty", "close", "~"]))))
    if chance(rng, 0.1):
        fields.append(("Connection", rng.choice(["keep-alive", "", "closed", "x, y", "close;q=1", "\"close\"", "clo se", ",", "upgrade,"])))
    if chance(rng, 0.008):
        fields.append((cased(rng, "Connection"), rng.choice(["close", "CLOSE", "x,close", "a, Close ,b", "\tclose\t", "keep-alive,cLoSe"])))
    rng.shuffle(fields)
    if chance(rng, 0.05) and key:
        fields.append(("retailer-key", "south"))
    if chance(rng, 0.1):
        path += rng.choice(["?", "?x=1", "?a/b", "??", "?\u00e9"])
    return assembled(rng, first, method, path, version, fields[:64], ends, body)


def assembled(rng: random.Random, first: str, method: str, path: str, version: str, fields: list, ends: list, body: bytes) -> bytes:
    lines = ["%s %s %s" % (method, path, version)]
    lines += [name + ":" + rng.choice([" ", "", "  ", "\t"]) + value for name, value in fields]
    return (first + "".join(line + rng.choice(ends) for line in lines + [""])).encode("utf-8") + body


def cased(rng: random.Random, name: str) -> str:
    return rng.choice([name, name.lower(), name.upper(), name.swapcase()])


def padded(rng: random.Random, value: str) -> str:
    return rng.choice(["", "", " ", "\t ", "   "]) + value + rng.choice(["", "", " ", " \t"])


def wrong_bytes(rng: random.Random, key: str) -> bytes:
    """A request that is cut, or whose head is wrong in one of the ways that are told apart, or changed anywhere."""
    whole = request_bytes(rng, "POST", "/reservations", b"{\"run\":0}", key)
    plain = b"POST /sweeps HTTP/1.1\r\nRetailer-Key: %s\r\n" % key.encode("ascii")
    kind = rng.randrange(7)
    if kind == 0:
        return whole[:rng.randrange(1, len(whole))]
    if kind == 1:
        at = rng.randrange(len(whole))
        return whole[:at] + bytes([rng.choice([0, 9, 10, 13, 32, 58, 127, 128, 255, rng.randrange(256)])]) + whole[at + rng.choice([0, 1]):]
    if kind == 2:
        length = rng.choice([b"+3", b"", b"00000000017", b"1 2", b"0x1", b"-0", b"1,1", b"9999999999", b"262145", b"262144", b"abc", b"1.0",
                             b"4294967296", b"00262145", b"12345678901"])
        return plain + b"Content-Length: " + length + b"\r\n\r\n{}"
    if kind == 3:
        one, two = rng.choice([(b"3", b"4"), (b"2", b"02"), (b"2", b""), (b"262145", b"262145"), (b"262145", b"1"), (b"2", b"x")])
        return plain + b"Content-Length: " + one + b"\r\ncontent-length:" + two + b"\r\n\r\n{}"
    if kind == 4:
        coding = rng.choice([b"Transfer-Encoding: chunked", b"transfer-encoding:", b"TRANSFER-ENCODING: identity", b"Transfer-Encodings: x"])
        more = rng.choice([b"", b"Content-Length: x\r\n", b"Content-Length: 300000\r\n", b"bad line\r\n"])
        return plain + coding + b"\r\n" + more + b"\r\n"
    if kind == 5:
        return rng.choice([
            plain + b"a: b\r\n" * rng.choice([62, 63, 64, 65]) + rng.choice([b"", b"\r\n"]),
            plain + b"bad line\r\n" * rng.choice([63, 64]) + b"\r\n",
            plain + b"a: " + b"b" * (rng.choice([16_383, 16_384, 16_385, 16_390]) - len(plain) - 7) + b"\r\n\r\n",
            b"\r\n" * rng.choice([8_191, 8_192, 8_193]), b"\n" * rng.choice([16_383, 16_384]) + plain + b"\r\n",
            b"G" * rng.choice([16_383, 16_384]), plain + b"a: " + b"b" * 16_400,
        ])
    return wrong_head(rng, plain)


def wrong_head(rng: random.Random, plain: bytes) -> bytes:
    """One head that isn't one, or nearly, with or without its end."""
    head = rng.choice([
        b"GET\r\n", b"GET / HTTP/1.2\r\n", b"GET / HTTP/2.0\r\n", b"GET / http/1.1\r\n", b"GET /\r\n", b"GET  / HTTP/1.1\r\n",
        b"GET / HTTP/1.1 \r\n", b" GET / HTTP/1.1\r\n", b"G(T / HTTP/1.1\r\n", b"GET /a b HTTP/1.1\r\n", b"GET /\x7f HTTP/1.1\r\n",
        b"GET /\xff HTTP/1.1\r\n", b"GET /\xc3\xa9 HTTP/1.1\r\n", b"GET /\xed\xa0\x80 HTTP/1.1\r\n", b"GET /?\xff HTTP/1.1\r\n",
        b"\r\r\n", b"\r", b"\x00\r\n", b"GET / HTTP/1.1\r\r\n", plain + b" folded\r\n", plain + b"a b: c\r\n", plain + b"a : c\r\n",
        plain + b": c\r\n", plain + b"a\r\n", plain + b"a: \x00\r\n", plain + b"a: \x7f\r\n", plain + b"a: b\rc\r\n", plain + b"a: \x80\xff\r\n",
        plain + b"a(: b\r\n", plain + b"\xc3\xa9: b\r\n", plain + b"\r\r\n", plain + b"a: b\r\r\n", plain + b"\ta: b\r\n", plain + b"a:\x0bb\r\n",
    ])
    return head + rng.choice([b"\r\n", b"\n", b"\r\n", b"", b"\r", b"\n\r\n", b"\r\n\r\n"])

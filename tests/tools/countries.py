"""Countries of chance, and sales in them by the model of the host."""
import random

import kit
import export
import moments
import offers
from bookings import Booking, Books, Item, Phase, Refusal, pieces
from catalogue import Catalogue, Span, TravelClass, read_catalogue

START = 1_780_293_600  # 2026-06-01T06:00:00Z
DAY = 86_400
KEYS = [(1, "north"), (2, "south"), (7, "west")]
TRAITS = ["WINDOW", "AISLE", "TABLE", "QUIET", "POWER"]
STEPS = [[(86_400, 0), (3_600, 2_500), (0, 10_000)], [(7_200, 500), (0, 9_000)], [(0, 0)]]


def layout(rng: random.Random) -> list:
    """One to four coaches, each with a class and some groups of seats, with gaps between."""
    coaches = []
    for number in sorted(rng.sample(range(1, 12), rng.choice([1, 2, 2, 3, 4]))):
        at, groups = rng.choice([1, 1, 11]), []
        for _ in range(rng.choice([1, 2, 2, 3])):
            last = at + rng.choice([0, 1, 2, 3, 5])
            groups.append({"first": at, "last": last, "traits": rng.sample(TRAITS, rng.choice([0, 1, 1, 2]))})
            at = last + rng.choice([1, 1, 4])
        coaches.append({"coach": number, "class": rng.choice(["FIRST", "SECOND", "SECOND"]), "places": groups})
    return coaches


def stops(rng: random.Random, codes: list, begin: int) -> list:
    made, at = [], begin
    for index, code in enumerate(codes):
        stop = {"station": code}
        if index:
            at += 60 * rng.randint(3, 15)
            stop["arrive"] = moments.write_moment(at)
        if index < len(codes) - 1:
            at += 60 * rng.randint(0, 3) if index else 0
            stop["depart"] = moments.write_moment(at)
        made.append(stop)
    return made


def run(rng: random.Random, train: int, codes: list, begin: int, coaches: list) -> dict:
    fares = {kind: {"base": rng.randrange(2_000), "perLeg": rng.randrange(900)} for kind in ("first", "second")}
    return {"train": train, "stops": stops(rng, codes, begin), "fares": fares, "coaches": coaches}


def country(rng: random.Random, runs: int = None) -> dict:
    """A line of stations with runs both ways over some part of it, a few hours after START. Some are longer than a
    place's first half.
    """
    long = rng.random() < 0.08
    codes = ["S%d" % index for index in range(rng.choice([66, 100, 127]) if long else rng.randint(3, 6))]
    layouts = [layout(rng) for _ in range(2)]
    made = []
    for train in rng.sample(range(1, 99_999), runs or rng.randint(3, 6)):
        first, last = sorted(rng.sample(range(len(codes)), 2)) if rng.random() < 0.4 else (0, len(codes) - 1)
        part = codes[first:last + 1]
        begin = START + 60 * rng.randint(30, 420)
        made.append(run(rng, train, part if rng.random() < 0.8 else part[::-1], begin, rng.choice(layouts)))
    return {
        "currency": "EUR", "rows": rng.choice([40, 60, 400]), "confirmSeconds": 900,
        "retailers": [{"number": number, "key": key} for number, key in KEYS],
        "stations": [{"code": code, "change": rng.choice([60, 900, 2_400])} for code in codes],
        "refundSteps": [{"before": before, "fee": fee} for before, fee in rng.choice(STEPS)],
        "ticketFee": rng.choice([0, 500]), "exchangeFee": rng.choice([0, 300]), "runs": made,
    }


class Seller:
    """Sells by the model, as retailers do. `ledger` keeps what became of each booking, also of those whose row was
    given away.
    """

    def __init__(self, rng: random.Random, catalogue: Catalogue, kept: list = ()):
        self.rng, self.catalogue, self.books = rng, catalogue, Books(catalogue)
        self.books.bookings = list(kept)
        self.segments = [segment for segment in offers.all_segments(catalogue)
                         if len(catalogue.runs[segment.run].stops) < 20 or rng.random() < 0.05]
        self.from_station = {}
        for segment in self.segments:
            self.from_station.setdefault(offers.origin(catalogue, segment), []).append(segment)
        self.ledger = {}

    def note(self, booking):
        self.ledger[booking.row] = booking
        return booking

    def trip(self, now: int):
        """One to three segments that may be sold now, or None."""
        some = [self.rng.choice(self.segments) for _ in range(12)]
        some = [segment for segment in some if offers.departure(self.catalogue, segment) >= now]
        if not some:
            return None
        trip = [some[0]]
        while len(trip) < 3 and self.rng.random() < 0.5:
            next_ones = self.from_station.get(offers.destination(self.catalogue, trip[-1]), [])
            next_ones = [segment for segment in next_ones if offers.may_follow(self.catalogue, trip, segment)]
            if not next_ones:
                break
            trip.append(self.rng.choice(next_ones))
        ends_where_it_began = offers.origin(self.catalogue, trip[0]) == offers.destination(self.catalogue, trip[-1])
        return trip[:1] if ends_where_it_began else trip

    def offer(self, now: int):
        trip = self.trip(now)
        if trip is None:
            return None
        adults = self.rng.choice([1, 1, 2, 2, 3, 4, 6, 8])
        wanted = self.rng.choice([0, 0, 0, 1, 2, 4, 8, 16, 3])
        kind = self.rng.choice([TravelClass.FIRST, TravelClass.SECOND, TravelClass.SECOND])
        return offers.OfferCode(now, adults, self.rng.choice([0, 8 - adults, 1]) if adults < 8 else 0, kind, wanted,
                                tuple(trip))

    def life(self, now: int):
        """One booking, as far as chance brings it."""
        retailer, offer = self.rng.choice(KEYS)[0], self.offer(now)
        if offer is None:
            return
        try:
            booking = self.note(self.books.book(retailer, offer, now, self.rng.random() < 0.5))
            fate = self.rng.random()
            if fate < 0.12:
                return
            if fate < 0.2:
                self.books.release(retailer, booking.row, now)
                return
            self.books.confirm(retailer, booking.row, now)
            if self.rng.random() < 0.4:
                self.books.fulfil(retailer, booking.row)
            self.trade(retailer, booking, now)
        except Refusal:
            pass

    def trade(self, retailer: int, booking, now: int):
        fate = self.rng.random()
        if fate < 0.12:
            self.books.accept_refund(retailer, self.books.quote_refund(retailer, booking.row, now), now)
        elif fate < 0.3:
            offer = self.offer(now)
            if offer is not None:
                code = self.books.quote_exchange(retailer, booking.row, offer, now)
                self.note(self.books.accept_exchange(retailer, code, now))

    def export(self) -> bytes:
        return export.write_export(self.books)


def with_blocks(rng, seller):
    """Some free places are nobody's to sell: confirmed bookings of retailer 0, whom no key names."""
    books, used = seller.books, {booking.row.number for booking in seller.books.bookings}
    for place in rng.sample(seller.catalogue.places, min(5, len(seller.catalogue.places))):
        legs = len(seller.catalogue.runs[place.run].stops) - 1
        whole = Span(0, legs)
        row = next(number for number in range(seller.catalogue.rows + 1) if number not in used)
        if row < seller.catalogue.rows and books.is_free(place.number, whole):
            used.add(row)
            items = [Item(place.number, piece) for piece in pieces(whole)]
            books.bookings.append(Booking(offers.Row(row), 0, 0, 0, items, Phase.CONFIRMED))


def sold_country(rng: random.Random) -> tuple:
    """A country's catalogue as bytes, the seller after some sales, and the moment then."""
    data = kit.json.dumps(country(rng)).encode()
    seller = Seller(rng, read_catalogue(data))
    for step in range(rng.choice([5, 20, 40, 60])):
        seller.life(START + step)
    if rng.random() < 0.5:
        seller.books.sweep(START + rng.choice([100, 910, 940]))
    return data, seller, START + 60


def money(lines: list) -> dict:
    """What the settlement table says of each retailer: sold, refunded, exchanged."""
    sums = {}
    for line in lines:
        if line.retailer == 0:
            continue
        sold, refunded, exchanged = sums.get(line.retailer, (0, 0, 0))
        if line.phase in (Phase.CONFIRMED, Phase.FULFILLED, Phase.REFUNDED, Phase.EXCHANGED):
            sold += line.total
        refunded += line.ending.amount if line.phase is Phase.REFUNDED else 0
        exchanged += line.ending.amount if line.phase is Phase.EXCHANGED else 0
        sums[line.retailer] = (sold, refunded, exchanged)
    return sums

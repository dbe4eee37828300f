"""A recorded history: all calls of a storm, what each asked and was answered, and what all answers together say of a booking.

Here stands what needs no order: each answer by itself is one that the rules can give (its members, prices, moments and codes are those of
the model), and no two answers, of which the export at the end is one, say unlike things of one booking.
"""
import calendar
import json
import pathlib
import sys
import time
from dataclasses import dataclass, field

sys.path.insert(0, str(pathlib.Path(__file__).resolve().parents[1] / "model"))
import service  # noqa: E402
import wire  # noqa: E402
from bookings import Booking, Ending, Item, Phase, QUOTE_SECONDS, Refusal, reservations  # noqa: E402
from catalogue import Span, read_catalogue  # noqa: E402
from export import ExportFault, read_export  # noqa: E402
from offers import (ExchangeCode, OfferCode, RefundCode, Row, Segment, exchange_difference, is_offered, offer_price,  # noqa: E402
                    read_booking_id, read_exchange, read_offer, read_refund, refund_value, segment_price, trips,
                    write_booking_id)

SECOND = 1_000_000_000  # in nanoseconds, as begins and ends are counted
ENDED = ("RELEASED", "EXPIRED", "REFUNDED", "EXCHANGED")
KINDS_OF_BOOKINGS = ("book", "reserve", "accept_exchange")

# The problems that each command of a storm may be answered. No storm sends what is refused for another one.
ANSWERED = {
    "book": ("RowsFull", "NoPlace", "Contended"), "reserve": ("RowsFull", "NoPlace", "Contended"), "show": ("UnknownBooking",),
    "confirm": ("UnknownBooking", "WrongState", "TooLate"), "fulfil": ("UnknownBooking", "WrongState"),
    "release": ("UnknownBooking", "WrongState"), "quote_refund": ("UnknownBooking", "WrongState"),
    "quote_exchange": ("UnknownBooking", "WrongState"), "accept_refund": ("UnknownBooking", "QuoteWrong", "WrongState"),
    "accept_exchange": ("UnknownBooking", "QuoteWrong", "WrongState", "RowsFull", "NoPlace", "Contended"),
}


class Refused(Exception):
    """The history is refused, for this reason."""


@dataclass(frozen=True)
class Values:
    """What a booking is from its seal on. Of a booking that no answer shows the limit may be known only to be no less."""
    retailer: int
    limit: int
    total: int
    items: tuple
    mask: int
    sure: bool = True


@dataclass(frozen=True)
class End:
    """How a booking ended. A successor is the row and the generation."""
    status: str
    amount: int
    moment: int
    successor: Row


@dataclass(frozen=True)
class Wish:
    """What a booking is asked for: for each segment its span and its candidates, each with the bits of its place's legs."""
    segments: tuple
    candidates: tuple
    passengers: int
    together: bool
    total: int

    @property
    def mask(self) -> int:
        return sum(mask for one in self.candidates for _place, mask in one)


@dataclass
class Call:
    """One call. `end` is None where the client was gone before its answer; then neither is there an answer."""
    number: int
    client: int
    connection: int
    key: str
    method: str
    path: str
    body: str
    begin: int
    end: int
    status: int
    answer: dict
    kind: str = ""
    row: Row = None
    wish: Wish = None
    code: object = None
    moments: tuple = ()
    made: tuple = field(default=None)

    @property
    def answered(self) -> bool:
        return self.end is not None

    @property
    def problem(self) -> str:
        """The code of the problem that it was answered, or nothing."""
        return self.answer.get("code") if self.answered and self.status >= 400 else None

    @property
    def now(self) -> range:
        """The readings of the clock that it may have had."""
        return range(self.begin // SECOND, self.end // SECOND + 1)

    def __str__(self) -> str:
        asked = "%s %s %s" % (self.method, self.path, self.body)
        got = "%d %s" % (self.status, json.dumps(self.answer, separators=(",", ":"))) if self.answered else "nothing: its client was gone"
        return "call %d (client %d, %s): %s, answered %s" % (self.number, self.client, self.key, asked.strip(), got)


def seconds(moment: str) -> int:
    return calendar.timegm(time.strptime(moment, "%Y-%m-%dT%H:%M:%SZ"))


class History:
    """The calls of a storm in the order of their begins, the facts that the answers tell, and the export at the end."""

    def __init__(self, record: dict):
        self.catalogue = read_catalogue(json.dumps(record["catalogue"]).encode())
        self.host = service.Host(self.catalogue)
        self.export = record["export"]
        self.closed = {int(name): moment for name, moment in record["closed"].items()}
        self.legs = max(len(run.stops) for run in self.catalogue.runs)
        self.labels = {(place.run, place.coach, place.label): place.number for place in self.catalogue.places}
        self.values, self.ends, self.makers, self.enders = {}, {}, {}, {}
        self.calls = [self.read(number, one) for number, one in enumerate(sorted(record["calls"], key=lambda one: one["begin"]))]
        for call in self.calls:
            self.judge(call)
        self.judge_export()

    # What a call asks

    def read(self, number: int, one: dict) -> Call:
        call = Call(number, one["client"], one["connection"], one["key"], one["method"], one["path"], one["body"], one["begin"],
                    one["end"], one["status"], one["answer"])
        call.kind, parameters = service.find_route(call.method, call.path)
        body = json.loads(call.body) if call.body else {}
        if parameters and call.kind != "places":
            call.row = read_booking_id(parameters[0])
        getattr(self, "read_" + call.kind, lambda *_: None)(call, parameters, body)
        return call

    def read_reserve(self, call: Call, _parameters, body: dict):
        segment = self.segment(body["run"], body["from"], body["to"])
        count = body.get("count", 1)
        travel_class = service.class_field(body)
        total = segment_price(self.catalogue.runs[segment.run], segment.span, travel_class, count, 0)
        call.wish = self.wish([segment], travel_class, service.wanted_field(body), count, body.get("together", False), total)

    def read_book(self, call: Call, _parameters, body: dict):
        call.code = read_offer(body["offerId"])
        call.wish = self.wish_of(call.code, body.get("together", False))

    def read_accept_exchange(self, call: Call, _parameters, body: dict):
        call.code = read_exchange(body["exchangeOfferId"])
        call.wish = self.wish_of(call.code.offer, False)

    def read_accept_refund(self, call: Call, parameters, _body):
        call.code = read_refund(parameters[1])

    def read_quote_exchange(self, call: Call, _parameters, body: dict):
        call.row, call.code = read_booking_id(body["bookingId"]), read_offer(body["offerId"])

    def read_places(self, call: Call, parameters, _body):
        call.code = self.segment(int(parameters[0]), parameters[1], parameters[2])

    def segment(self, run: int, start: str, end: str) -> Segment:
        return Segment(run, self.catalogue.runs[run].span_between(start, end))

    def wish_of(self, code: OfferCode, together: bool) -> Wish:
        return self.wish(code.segments, code.travel_class, code.wanted, code.adults + code.children, together,
                         offer_price(self.catalogue, code))

    def wish(self, segments, travel_class, wanted: int, passengers: int, together: bool, total: int) -> Wish:
        candidates = [tuple((place.number, self.mask(place.number, segment.span))
                            for place in self.catalogue.candidates(segment.run, travel_class, wanted)) for segment in segments]
        return Wish(tuple(segments), tuple(candidates), passengers, together, total)

    def mask(self, place: int, span: Span) -> int:
        """A bit for each leg of the span at the place."""
        return sum(1 << (place * self.legs + leg) for leg in range(span.start, span.end))

    def mask_of(self, items) -> int:
        return sum(self.mask(item.place, item.span) for item in items)

    def retailer(self, call: Call) -> int:
        return self.catalogue.retailers[call.key]

    # What an answer says by itself

    def judge(self, call: Call):
        """Refuses an answer that no host of these rules gives, at whatever moment of the call."""
        if not call.answered:
            return
        if call.end < call.begin:
            raise Refused("%s: it ended before it began" % call)
        if call.problem:
            return self.judge_problem(call)
        wanted = getattr(self, "judge_" + call.kind)(call)
        if (call.status, call.answer) != wanted:
            raise Refused("%s: the rules give %s" % (call, wanted))

    def judge_problem(self, call: Call):
        status, title = wire.PROBLEMS.get(call.problem, (0, ""))
        wanted = {"code": call.problem, "status": status, "title": title}
        if "detail" in call.answer:
            wanted["detail"] = call.answer["detail"]
        self.need(call, call.problem in ANSWERED.get(call.kind, ()), "this call is never answered so")
        if call.answer != wanted or call.status != status or ("detail" in wanted) != (call.problem in ("WrongState", "TooLate")):
            raise Refused("%s: there is no such problem" % call)
        if call.problem == "QuoteWrong" and self.is_right_quote(call):
            raise Refused("%s: the quote is what the booking was worth" % call)
        if call.problem == "TooLate":
            limit, now = [seconds(moment) for moment in call.answer["detail"].split(" ")]
            call.moments = (now,)
            if call.kind != "confirm" or now not in call.now or limit >= now or self.values_at(call.row, limit) is None:
                raise Refused("%s: it was not too late" % call)

    def values_at(self, row: Row, limit: int):
        """What is known of the booking where its limit may be this one."""
        known = self.values.get(row)
        return False if known is None else known if known.limit == limit else None

    def is_right_quote(self, call: Call) -> bool:
        known = self.values.get(call.row)
        if known is None or known.retailer != self.retailer(call):
            return False
        worth = self.worth(known, call.code.made, call.code.fulfilled)
        if call.kind == "accept_refund":
            return call.code.amount == worth
        return call.code.difference == exchange_difference(self.catalogue.terms, worth, call.wish.total)

    def worth(self, values: Values, made: int, fulfilled: bool) -> int:
        """What a refund pays for the booking that was quoted at this moment."""
        runs = self.catalogue.runs
        first = min(runs[self.catalogue.places[item.place].run].stops[item.span.start].depart for item in values.items)
        return refund_value(self.catalogue.terms, values.total, max(first - made, 0), fulfilled)

    def judge_offers(self, call: Call) -> tuple:
        """The offers of one moment, but for the numbers of free places, which an order has to explain."""
        body = json.loads(call.body)
        for now in call.now:
            found = trips(self.catalogue, body["origin"], body["destination"], max(seconds(body["earliest"]), now),
                          seconds(body["earliest"]) + 86_400)
            wish = body["adults"], 0, service.class_field(body), service.wanted_field(body)
            codes = [OfferCode(now, *wish, tuple(trip)) for trip in found]
            wanted = {"offers": [self.host.offer_reply(code) for code in codes]}
            if without_free(wanted) == without_free(call.answer):
                call.made = tuple((segment, self.wish_of(code, False).candidates[at], said["free"])
                                  for code, offer in zip(codes, call.answer["offers"])
                                  for at, (segment, said) in enumerate(zip(code.segments, offer["segments"])))
                return 200, call.answer
        return 200, wanted

    def judge_places(self, call: Call) -> tuple:
        wanted = [self.host.place_reply(place, call.code) for place in self.catalogue.places_of(call.code.run)]
        for place, said in zip(wanted, call.answer["places"]):
            place["free"] = bool(said["free"])
        return 200, {"places": wanted}

    def judge_sweep(self, call: Call) -> tuple:
        counts = {name: call.answer.get(name) for name in ("expired", "lost", "waiting")}
        if not all(isinstance(count, int) and count >= 0 for count in counts.values()):
            raise Refused("%s: a count is wrong" % call)
        return 200, counts

    def judge_show(self, call: Call) -> tuple:
        return 200, self.observe(call, call.answer, call.row)

    def judge_confirm(self, call: Call) -> tuple:
        wanted = self.observe(call, call.answer, call.row, "CONFIRMED")
        self.need(call, call.begin // SECOND <= seconds(call.answer["confirmableUntil"]), "its limit was over")
        return 200, wanted

    def judge_fulfil(self, call: Call) -> tuple:
        return 200, self.observe(call, call.answer, call.row, "FULFILLED")

    def judge_release(self, call: Call) -> tuple:
        return 200, self.observe_end(call, call.row, End("RELEASED", 0, self.moment(call), None))

    def judge_accept_refund(self, call: Call) -> tuple:
        wanted = self.observe_end(call, call.row, End("REFUNDED", call.code.amount, self.moment(call), None))
        self.need_fresh(call, call.code.made)
        self.need(call, self.is_right_quote(call), "the quote is wrong")
        return 200, wanted

    def observe_end(self, call: Call, row: Row, end: End) -> dict:
        """The call ended the booking so."""
        if row in self.enders:
            raise Refused("%s: %s was ended before, by %s" % (call, write_booking_id(row), self.enders[row]))
        self.enders[row] = call
        self.learn_end(call, row, end)
        return self.observe(call, call.answer, row, end.status, settled=True)

    def moment(self, call: Call) -> int:
        """The moment of an end that the answer tells."""
        now = seconds(call.answer.get("endedAt", "1970-01-01T00:00:00Z"))
        self.need(call, now in call.now, "that is no moment of this call")
        call.moments = (now,)
        return now

    def need(self, call: Call, holds: bool, why: str):
        if not holds:
            raise Refused("%s: %s" % (call, why))

    def need_fresh(self, call: Call, made: int):
        call.moments = tuple(now for now in call.now if 0 <= now - made <= QUOTE_SECONDS) if not call.moments else call.moments
        self.need(call, call.moments, "the code isn't fresh")

    def judge_quote_refund(self, call: Call) -> tuple:
        code = read_refund(call.answer["id"])
        self.need(call, code is not None and code.row == call.row and code.made in call.now, "the code is wrong")
        call.code = code
        known = self.values.get(call.row)
        amount = self.worth(known, code.made, code.fulfilled) if known else code.amount
        wanted = RefundCode(call.row, code.made, code.fulfilled, amount)
        return 201, {"amount": self.host.amount(amount), "id": service.write_refund(wanted), "validUntil": service.valid_until(code.made)}

    def judge_quote_exchange(self, call: Call) -> tuple:
        code = read_exchange(call.answer["id"])
        is_of_call = code is not None and (code.row, code.offer) == (call.row, call.code) and code.made in call.now
        self.need(call, is_of_call, "the code is wrong")
        self.need(call, is_offered(self.catalogue, call.code), "the offer is none")
        known = self.values.get(call.row)
        difference = code.difference
        if known:
            refund = self.worth(known, code.made, code.fulfilled)
            difference = exchange_difference(self.catalogue.terms, refund, offer_price(self.catalogue, code.offer))
        wanted = ExchangeCode(call.row, code.made, code.fulfilled, difference, code.offer)
        call.code = code
        return 201, {"difference": self.host.amount(difference), "id": service.write_exchange(wanted),
                     "validUntil": service.valid_until(code.made)}

    def judge_reserve(self, call: Call) -> tuple:
        return 201, self.observe_new(call, call.answer, "PREBOOKED")

    def judge_book(self, call: Call) -> tuple:
        wanted = self.observe_new(call, call.answer, "PREBOOKED")
        self.need_fresh(call, call.code.made)
        return 201, wanted

    def judge_accept_exchange(self, call: Call) -> tuple:
        new = self.observe_new(call, call.answer["booking"], "CONFIRMED")
        self.need_fresh(call, call.code.made)
        self.need(call, self.is_right_quote(call) or call.row not in self.values, "the quote is wrong")
        if call.row in self.enders:
            raise Refused("%s: the old booking was ended before, by %s" % (call, self.enders[call.row]))
        self.enders[call.row] = call
        self.learn_end(call, call.row, End("EXCHANGED", call.code.difference, call.moments[0], call.made[0]))
        return 201, {"booking": new, "difference": self.host.amount(call.code.difference), "replaced": write_booking_id(call.row)}

    # What it says of a booking

    def observe_new(self, call: Call, said: dict, status: str) -> dict:
        """The call made this booking, with what it asked for."""
        row = read_booking_id(said["id"])
        if row in self.makers:
            raise Refused("%s: %s was made before, by %s" % (call, said["id"], self.makers[row]))
        wanted = self.observe(call, said, row, status)
        values = self.values[row]
        now = values.limit - self.catalogue.terms.confirm_seconds
        self.need(call, now in call.now, "its limit is that of no moment of this call")
        self.need(call, is_wished(call.wish, values), "that isn't what was asked for")
        call.moments, call.made = (now,), (row, values)
        self.makers[row] = call
        return wanted

    def observe(self, call: Call, said: dict, row: Row, status: str = None, settled: bool = None) -> dict:
        """Learns what is said of the booking, and gives what has to be said of it."""
        status = said["status"] if status is None else status
        settled = said["settled"] if settled is None else settled
        self.need(call, not settled or status in ENDED, "that is no end")
        items = tuple(Item(self.labels.get((one["run"], one["coach"], one["place"])), self.segment(one["run"], one["from"], one["to"]).span)
                      for one in said["reservations"])
        self.need(call, all(item.place is not None for item in items), "there is no such place")
        values = Values(self.retailer(call), seconds(said["confirmableUntil"]), said["price"]["amount"], items, self.mask_of(items))
        self.learn(call, row, values)
        ending = None
        if settled:
            self.need(call, "endedAt" in said, "it lacks its end")
            successor = read_booking_id(said["successor"]) if "successor" in said else None
            ending = Ending(seconds(said["endedAt"]), said["endAmount"]["amount"], successor)
            self.learn_end(call, row, End(status, ending.amount, ending.moment, successor))
        phase = Phase(status)
        booking = Booking(row, values.retailer, values.limit, values.total, list(items), phase, ending)
        if phase is Phase.EXCHANGED and not settled:
            return dict(self.host.booking_reply(Booking(row, values.retailer, values.limit, values.total, list(items), Phase.PREBOOKED)),
                        status=status)
        return dict(self.host.booking_reply(booking), settled=settled)

    def learn(self, where, row: Row, values: Values):
        known = self.values.setdefault(row, values)
        if known != values:
            raise Refused("%s: %s was another one elsewhere: %s" % (where, write_booking_id(row), known))

    def learn_end(self, where, row: Row, end: End):
        known = self.ends.setdefault(row, end)
        if known != end:
            raise Refused("%s: %s ended otherwise elsewhere: %s" % (where, write_booking_id(row), known))

    def read_export(self) -> list:
        try:
            return read_export(self.catalogue, self.export.encode("ascii"))
        except ExportFault as fault:
            raise Refused("the export has fault %d: %r" % (fault.number, self.export)) from None

    def judge_export(self):
        """The export is of this catalogue, and says nothing else of a booking than the answers."""
        self.last = {}
        for booking in self.read_export():
            self.last[booking.row.number] = booking
            if booking.retailer == 0:
                continue
            items = tuple(reservations(booking.items))
            self.learn("the export", booking.row, Values(booking.retailer, booking.limit, booking.total, items, self.mask_of(items)))
            if booking.ending is not None:
                end = booking.ending
                self.learn_end("the export", booking.row, End(booking.phase.value, end.amount, end.moment, end.successor))


def without_free(answer: dict) -> dict:
    return {"offers": [dict(offer, segments=[dict(segment, free=0) for segment in offer["segments"]]) for offer in answer["offers"]]}


def is_wished(wish: Wish, values: Values) -> bool:
    """For each segment in order one candidate for each passenger, in the order of the candidates, at the total that was asked for."""
    count, items = wish.passengers, values.items
    if values.total != wish.total or len(items) != count * len(wish.segments):
        return False
    for at, (segment, candidates) in enumerate(zip(wish.segments, wish.candidates)):
        own = items[at * count:(at + 1) * count]
        places = [item.place for item in own]
        order = [place for place, _mask in candidates if place in places]
        if places != order or any(item.span != segment.span for item in own):
            return False
    return True


__all__ = ["Call", "End", "ENDED", "History", "KINDS_OF_BOOKINGS", "Refusal", "Refused", "Row", "SECOND", "Values", "Wish", "is_wished",
           "seconds", "write_booking_id"]

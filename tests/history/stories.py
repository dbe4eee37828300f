"""Short histories that were written by hand, with an order or without one: STORIES says which, and why."""
import json

import calls  # with it the model's folder is on the path
import service
import wire
from bookings import Booking, Ending, Item, Phase
from catalogue import Span, read_catalogue
from export import booking_line, stub
from offers import OfferCode, ExchangeCode, Row, Segment, exchange_difference, refund_value, write_exchange
from storm import catalogue_of

BEGIN = 1_780_000_000  # the moment at which all stories begin
MILLISECOND = 1_000_000


class Story:
    """Calls of clients who each have a connection, on three places of a run of three legs."""

    def __init__(self, rows: int = 2, confirm_seconds: int = 900):
        self.text = catalogue_of(False, rows, confirm_seconds)
        self.catalogue = read_catalogue(json.dumps(self.text).encode())
        self.host = service.Host(self.catalogue)
        self.calls, self.closed, self.last = [], {}, {}

    def record(self) -> dict:
        lines = ["rail-export 1 3 %d" % self.catalogue.rows] + [booking_line(self.last[row]) for row in sorted(self.last)]
        text = "".join(line + "\n" for line in lines + ["end %d" % len(self.last)])
        return {"catalogue": self.text, "calls": self.calls, "closed": self.closed, "export": text}

    def call(self, client: int, when: tuple, asked: tuple, status: int, answer: dict) -> "Story":
        """A call from one millisecond to another; without a second one the client was gone before the answer."""
        begin, end = [None if at is None else BEGIN * calls.SECOND + round(at * MILLISECOND) for at in when]
        method, path, body = asked
        if end is None:
            self.closed[client] = begin
        self.calls.append({"client": client, "connection": client, "key": "north", "method": method, "path": path,
                           "body": json.dumps(body) if body is not None else "", "begin": begin, "end": end,
                           "status": status if end else None, "answer": answer if end else None})
        return self

    def problem(self, client: int, when: tuple, asked: tuple, code: str, detail: str = None) -> "Story":
        status, title = wire.PROBLEMS[code]
        answer = {"code": code, "status": status, "title": title}
        return self.call(client, when, asked, status, dict(answer, detail=detail) if detail else answer)

    def booking(self, row: Row, places: list, phase: Phase = Phase.PREBOOKED, ending: Ending = None) -> Booking:
        """A booking of one leg that was made when the story began, and which the export has as it was told last."""
        items = [Item(place, Span(0, 1)) for place in places]
        total = len(places) * 150
        self.last[row.number] = Booking(row, 1, BEGIN + self.catalogue.terms.confirm_seconds, total, items, phase, ending)
        return self.last[row.number]

    def sold(self, client: int, when: tuple, booking: Booking) -> "Story":
        return self.call(client, when, reserves(len(booking.items)), 201, self.host.booking_reply(booking))

    def shown(self, client: int, when: tuple, booking: Booking, **members) -> "Story":
        """The booking is shown, with these members as they are given."""
        return self.call(client, when, path_of("GET", booking.row), 200, dict(self.host.booking_reply(booking), **members))

    def listed(self, client: int, when: tuple, free: list) -> "Story":
        segment = Segment(0, Span(0, 1))
        places = [dict(self.host.place_reply(place, segment), free=is_free) for place, is_free in zip(self.catalogue.places, free)]
        return self.call(client, when, ("GET", "/runs/0/places/A/B", None), 200, {"places": places})

    def swept(self, client: int, when: tuple, **counts) -> "Story":
        return self.call(client, when, ("POST", "/sweeps", None), 200, dict({"expired": 0, "lost": 0, "waiting": 0}, **counts))


def path_of(method: str, row: Row, rest: str = "") -> tuple:
    return method, "/bookings/%s%s" % (service.write_booking_id(row), rest), None


def reserves(count: int) -> tuple:
    return "POST", "/reservations", {"run": 0, "from": "A", "to": "B", "count": count}


FIRST, SECOND_ROW, AGAIN = Row(0), Row(1), Row(0, 1)


def refusals(*wants) -> Story:
    """Clients who are all refused: from when to when, and how many places each wants."""
    story = Story()
    for client, (begin, end, count) in enumerate(wants):
        story.problem(client, (begin, end), reserves(count), "NoPlace")
    return story


def passed_over(begin: int, end: int, place: int) -> Story:
    """One of three places is sold, one client is refused the three of them, and another is sold this place."""
    story = Story(rows=3)
    story.sold(0, (0, 1), story.booking(FIRST, [0]))
    story.problem(1, (2, 8), reserves(3), "NoPlace")
    return story.sold(2, (begin, end), story.booking(Row(2), [place]))


def released(begin: int, end: int, free: bool) -> Story:
    """A booking is released from 2 to 8, and a list says whether its place is free."""
    story = Story()
    booking = story.booking(FIRST, [0])
    story.sold(0, (0, 1), booking).shown(1, (3, 3.5), booking, status="RELEASED")
    ended = story.booking(FIRST, [0], phase=Phase.RELEASED, ending=Ending(BEGIN, 0))
    story.call(0, (2, 8), path_of("DELETE", FIRST), 200, story.host.booking_reply(ended))
    return story.listed(2, (begin, end), [free, True, True])


def exchanged(old_is_there: bool, new_is_there: bool) -> Story:
    """A booking is exchanged from 10 to 20. In the middle the old one is shown, and then the new one."""
    story = Story()
    old = story.booking(FIRST, [0])
    story.sold(0, (0, 1), old)
    confirmed = story.booking(FIRST, [0], phase=Phase.CONFIRMED)
    story.call(0, (2, 3), path_of("POST", FIRST, "/fulfillments"), 200, story.host.booking_reply(confirmed))
    offer = OfferCode(BEGIN, 1, 0, service.TravelClass.SECOND, 0, (Segment(0, Span(0, 1)),))
    terms = story.catalogue.terms
    code = ExchangeCode(FIRST, BEGIN, False, exchange_difference(terms, refund_value(terms, 150, 1, False), 150), offer)
    new = story.booking(SECOND_ROW, [1], phase=Phase.CONFIRMED)
    answer = {"booking": story.host.booking_reply(new), "difference": story.host.amount(code.difference), "replaced": "B000000"}
    path = ("POST", "/bookings/B000000/exchange-operations", {"exchangeOfferId": write_exchange(code)})
    story.call(0, (10, 20), path, 201, answer)
    if old_is_there:
        story.shown(1, (14, 15), confirmed)
    else:
        story.shown(1, (14, 15), confirmed, status="EXCHANGED")
    story.booking(FIRST, [0], phase=Phase.EXCHANGED, ending=Ending(BEGIN, code.difference, SECOND_ROW))
    return story.shown(2, (12, 13), new) if new_is_there else story.problem(2, (16, 17), path_of("GET", SECOND_ROW), "UnknownBooking")


def swept_and_released(is_released: bool) -> Story:
    """A booking is late, a sweep says that it lost it, and it was released meanwhile, or is still there."""
    story = Story(confirm_seconds=1)
    booking = story.booking(FIRST, [0])
    story.sold(0, (0, 1), booking).swept(1, (2_500, 2_510), lost=1)
    if not is_released:
        return story.shown(2, (2_600, 2_601), booking)
    ended = story.booking(FIRST, [0], phase=Phase.RELEASED, ending=Ending(BEGIN + 2, 0))
    return story.call(2, (2_501, 2_505), path_of("DELETE", FIRST), 200, story.host.booking_reply(ended))


def expired(seconds: int) -> Story:
    """The host itself ends a booking so many seconds after it was made, with a second to confirm it."""
    story = Story(confirm_seconds=1)
    story.sold(0, (0, 1), story.booking(FIRST, [0]))
    ended = story.booking(FIRST, [0], phase=Phase.EXPIRED, ending=Ending(BEGIN + seconds, 0))
    return story.shown(1, (3_000, 3_001), ended)


def gone(place: int) -> Story:
    """A client is gone before its answer, and its booking is shown all the same."""
    story = Story()
    story.call(0, (0, None), reserves(1), 0, None)
    return story.shown(1, (5, 6), story.booking(FIRST, [place]))


def kept(row: Row) -> Story:
    """A client is refused, and then another one is sold a place in this row."""
    story = Story()
    story.problem(0, (0, 1), reserves(4), "NoPlace")
    return story.sold(1, (2, 3), story.booking(row, [0]))


def again(lists: bool) -> Story:
    """A released booking's row is started again by a client who is refused; the old booking is unknown then, or still shown."""
    story = Story(rows=1)
    story.sold(0, (0, 1), story.booking(FIRST, [0]))
    ended = story.booking(FIRST, [0], phase=Phase.RELEASED, ending=Ending(BEGIN, 0))
    story.call(0, (2, 3), path_of("DELETE", FIRST), 200, story.host.booking_reply(ended))
    story.problem(1, (4, 5), reserves(4), "NoPlace")
    story.last[0] = stub(AGAIN)
    return story.shown(2, (6, 7), ended) if lists else story.problem(2, (6, 7), path_of("GET", FIRST), "UnknownBooking")


# What a story tells, the story, and why it has no order, or None where it has one.
STORIES = [
    ("four of three places", refusals((0, 9, 4)), None),
    ("two who want all places meet", refusals((0, 5, 3), (4, 9, 3)), None),
    ("one wants a place, and is refused", refusals((0, 9, 1)), "all places are free, and nobody else asks"),
    ("two who want all places", refusals((0, 4, 3), (5, 9, 3)), "they didn't meet, so neither could hold what the other wants"),
    ("two who want two places meet", refusals((0, 5, 2), (4, 9, 2)), "of three places one of them gets two"),
    ("one wants three places, one wants one", refusals((0, 5, 3), (4, 9, 1)), "the other may hold two at most"),
    ("three who want all places meet", refusals((0, 9, 3), (1, 9, 3), (2, 9, 3)), "there are two rows, so the third can't try"),
    ("a place is passed over while another call may hold it", passed_over(4, 6, 2), None),
    ("the first free place is sold beside that call", passed_over(4, 6, 1), None),
    ("a place is passed over", passed_over(9, 10, 2), "the call that may have held it was over"),
    ("a place is taken while its booking is released", released(4, 5, False), None),
    ("a place is free while its booking is released", released(4, 5, True), None),
    ("a place is taken after its booking was released", released(9, 10, False), "nothing holds it any more"),
    ("in an exchange the old booking is ending and the new one not yet there", exchanged(False, False), None),
    ("in an exchange the new booking is there before the old one is ending", exchanged(True, True), "the old one is turned first"),
    ("in an exchange neither has changed", exchanged(True, False), None),
    ("a sweep loses a booking to a release", swept_and_released(True), None),
    ("a sweep loses a booking that stays", swept_and_released(False), "no other call turned it"),
    ("the host ends a booking after its limit", expired(2), None),
    ("the host ends a booking at its limit", expired(1), "at the limit itself it may still be confirmed"),
    ("a client is gone, and its booking is there", gone(0), None),
    ("a client is gone, and its booking has the second place", gone(1), "the first one was free"),
    ("another row is sold than the one that is kept", kept(SECOND_ROW), None),
    ("the kept row is sold to another client", kept(FIRST), "its worker keeps it"),
    ("a booking is gone once its row was started again", again(False), None),
    ("a booking is shown though its row was started again", again(True), "its row was given away before"),
]

#!/usr/bin/env python3
"""The built program at its limits, where memory is ample: it may never say that there is none.

  limits.py PROGRAM [--small]

The most rows and places, an export of as many bookings with as many items as there may be, a catalogue of the greatest size, lists of the
most places over the most legs, and the longest bodies and answers: minutes, and some 2 GB. `--small` goes over what a body might take for
enough (70,000 rows, 20,000 bookings) in less than a minute. What has to come is the model's answer, or is written here by the rules.
"""
import argparse
import bisect
import json
import os
import pathlib
import socket
import subprocess
import sys
import tempfile
import time
from dataclasses import dataclass

TESTS = pathlib.Path(__file__).resolve().parents[1]
sys.path[:0] = [str(TESTS / "model"), str(TESTS)]
import service  # noqa: E402
import wire  # noqa: E402
from bookings import Booking, Books, Ending, Item, Phase  # noqa: E402
from catalogue import (Catalogue, Fare, Place, RefundStep, Run, Span, Station, Stop, Terms, TravelClass,  # noqa: E402
                       read_catalogue)
from export import LETTERS, booking_line, write_export  # noqa: E402
from moments import LAST_MOMENT, write_moment  # noqa: E402
from offers import LAST_GENERATION, OfferCode, Row, Segment, write_offer  # noqa: E402
from ports import free_port  # noqa: E402

SECONDS = 300
LARGEST_CATALOGUE, LARGEST_EXPORT, LARGEST_BODY = 33_554_432, 268_435_456, 262_144
LONG_STOPS, LEGS, MOST_OF_A_RUN, ITEMS = 127, 126, 1_200, 48
COACH, FIRST_COACH, FIRST_NUMBER = 100, 988, 9_900  # how many places a coach has; twelve coaches of the longest numbers
START, DEPARTS = "2026-06-01T06:00:00Z", 1_780_300_800  # two hours before the first departure
NOW = DEPARTS - 7_200
LIVE = (Phase.PREBOOKED, Phase.CONFIRMED, Phase.FULFILLED)
ALL_TRAITS = ["WINDOW", "AISLE", "TABLE", "QUIET", "POWER"]


@dataclass(frozen=True)
class Sizes:
    rows: int
    places: int
    bookings: int
    catalogue: int
    served: int
    retailers: int


FULL = Sizes(rows=262_144, places=4_194_304, bookings=262_144, catalogue=LARGEST_CATALOGUE, served=262_144, retailers=65_536)
SMALL = Sizes(rows=70_000, places=120_000, bookings=20_000, catalogue=5_000_000, served=70_000, retailers=20_000)


class Wrong(Exception):
    """The program did something else."""


# A catalogue by its runs, each of so many stops and places, as a text and as the model has it


class Plan:
    """Runs of two stops and of 127, whose places stand in coaches of a hundred."""

    def __init__(self, rows: int, runs: list, retailers: int = 1):
        self.rows, self.runs, self.retailers = rows, runs, retailers
        self.firsts = [0]
        for _stops, places in runs:
            self.firsts.append(self.firsts[-1] + places)

    @property
    def places(self) -> int:
        return self.firsts[-1]

    def text(self, size: int = None) -> bytes:
        """The file, which a member that the host ignores brings to the size."""
        parts = ['{"currency":"EUR","rows":%d,"confirmSeconds":900,"ticketFee":500,"exchangeFee":300,' % self.rows,
                 '"refundSteps":[{"before":3600,"fee":2500},{"before":0,"fee":10000}],"retailers":[{"number":1,"key":"north"}',
                 "".join(',{"number":%d,"key":"key-%d"}' % (number, number) for number in range(2, self.retailers + 1)),
                 '],"stations":[', ",".join('{"code":"S%d"}' % stop for stop in range(LONG_STOPS)), '],"runs":[',
                 ",".join(self.run_text(number) for number in range(len(self.runs))), "]"]
        text = "".join(parts)
        if size is not None:
            text += ',"about":"%s"' % ("x" * (size - len(text) - len(',"about":""}')))
        return (text + "}").encode("ascii")

    def run_text(self, number: int) -> str:
        stops, places = self.runs[number]
        traits = json.dumps(ALL_TRAITS, separators=(",", ":"))
        coaches = ",".join('{"coach":%d,"class":"SECOND","places":[{"first":%d,"last":%d,"traits":%s}]}' %
                           (FIRST_COACH + coach, FIRST_NUMBER, FIRST_NUMBER + min(COACH, places - coach * COACH) - 1, traits)
                           for coach in range(-(-places // COACH)))
        return ('{"train":%d,"stops":[%s],"fares":{"first":{"base":1000,"perLeg":20},"second":{"base":500,"perLeg":10}},"coaches":[%s]}' %
                (number % 99_999 + 1, stops_text(stops), coaches))

    def model(self) -> "PlainCatalogue":
        fares = {TravelClass.FIRST: Fare(1000, 20), TravelClass.SECOND: Fare(500, 10)}
        catalogue = PlainCatalogue("EUR", self.rows, Terms([RefundStep(3600, 2500), RefundStep(0, 10_000)], 500, 300, 900))
        catalogue.retailers = {"north": 1, **{"key-%d" % number: number for number in range(2, self.retailers + 1)}}
        catalogue.stations = {"S%d" % stop: Station("S%d" % stop, 300) for stop in range(LONG_STOPS)}
        catalogue.runs = [Run(number, number % 99_999 + 1, model_stops(stops), fares) for number, (stops, _places) in enumerate(self.runs)]
        catalogue.places = PlannedPlaces(self)
        return catalogue


def stop_moment(stop: int) -> int:
    return DEPARTS + 60 * stop


STOP_TEXTS, MODEL_STOPS = {}, {}


def stops_text(count: int) -> str:
    if count not in STOP_TEXTS:
        moments = [write_moment(stop_moment(stop)) for stop in range(count)]
        STOP_TEXTS[count] = ",".join('{"station":"S%d","arrive":"%s","depart":"%s"}' % (stop, moment, moment)
                                     for stop, moment in enumerate(moments))
    return STOP_TEXTS[count]


def model_stops(count: int) -> list:
    if count not in MODEL_STOPS:
        MODEL_STOPS[count] = [Stop("S%d" % stop, stop_moment(stop), stop_moment(stop)) for stop in range(count)]
    return MODEL_STOPS[count]


class PlannedPlaces:
    """The places of a plan, of which each is made where it is asked for."""

    def __init__(self, plan: Plan):
        self.plan = plan

    def __len__(self) -> int:
        return self.plan.places

    def __getitem__(self, number: int) -> Place:
        run = bisect.bisect_right(self.plan.firsts, number) - 1
        at = number - self.plan.firsts[run]
        return Place(number, run, FIRST_COACH + at // COACH, FIRST_NUMBER + at % COACH, TravelClass.SECOND, 31)


class PlainCatalogue(Catalogue):
    def places_of(self, run: int) -> list:
        firsts = self.places.plan.firsts
        return [self.places[number] for number in range(firsts[run], firsts[run + 1])]


def plan_of(sizes: Sizes) -> Plan:
    """Runs of two stops with the most places, one with what is left, and after them as many runs of 127 stops as the items want."""
    long_runs = -(-sizes.bookings * ITEMS // (MOST_OF_A_RUN * LEGS))
    whole, left = divmod(sizes.places - long_runs * MOST_OF_A_RUN, MOST_OF_A_RUN)
    return Plan(sizes.rows, [(2, MOST_OF_A_RUN)] * whole + [(2, left)] * (left > 0) + [(LONG_STOPS, MOST_OF_A_RUN)] * long_runs)


# Requests, and what a run of the program answers


def request(method: str, path: str, body=None, pad: int = 0) -> bytes:
    """A request of north, whose body is brought to a length by blanks in its front."""
    text = json.dumps(body, separators=(",", ":")).encode() if body is not None else b""
    text = b" " * (pad - len(text)) + text
    return ("%s %s HTTP/1.1\r\nRetailer-Key: north\r\nContent-Length: %d\r\n\r\n" % (method, path, len(text))).encode() + text


def reserve(run: int, start: int, end: int, **members) -> bytes:
    return request("POST", "/reservations", {"run": run, "from": "S%d" % start, "to": "S%d" % end, **members})


def listed(run: int, start: int, end: int) -> bytes:
    return request("GET", "/runs/%d/places/S%d/S%d" % (run, start, end))


class Runs:
    """Runs of the program in a folder of its own."""

    def __init__(self, program: str, folder: str):
        self.program, self.folder = program, folder

    def path(self, name: str) -> str:
        return os.path.join(self.folder, name)

    def write(self, name: str, *pieces: bytes):
        with open(self.path(name), "wb") as file:
            for piece in pieces:
                file.write(piece)

    def expect(self, what: str, words: list, data: bytes, wanted: bytes, status: int = 0, note: bytes = b""):
        """The run ends so, with just this output."""
        with open(self.path("in"), "wb") as file:
            file.write(data)
        with open(self.path("in"), "rb") as source, open(self.path("out"), "wb") as sink:
            done = subprocess.run([self.program] + words, cwd=self.folder, stdin=source, stdout=sink, stderr=subprocess.PIPE,
                                  timeout=SECONDS)
        if (done.returncode, done.stderr) != (status, note):
            raise Wrong("%s: status %d, note %r" % (what, done.returncode, done.stderr[:200]))
        with open(self.path("out"), "rb") as file:
            same_bytes(what, file.read(), wanted)

    def expect_answers(self, what: str, words: list, host: service.Host, requests: list):
        """The answers are the model's, all at one moment."""
        data = b"".join(requests)
        wanted, rest = host.serve(data, service.Clock(NOW, 0))
        if rest is not wire.Rest.END:
            raise Wrong("%s: these are no whole requests" % what)
        self.expect(what, ["replay", "k.json", "--start", START] + words, data, wanted)


def same_bytes(what: str, got: bytes, wanted: bytes):
    if got == wanted:
        return
    at = next((at for at, (one, other) in enumerate(zip(got, wanted)) if one != other), min(len(got), len(wanted)))
    raise Wrong("%s: %d bytes for %d, which differ after byte %d: %r for %r" %
                (what, len(got), len(wanted), at, got[max(0, at - 40):at + 60], wanted[max(0, at - 40):at + 60]))


# The parts


def greatest_table(runs: Runs, sizes: Sizes):
    """So many rows and places: the first place and the last one are sold and shown, and a list of the last run."""
    plan = plan_of(sizes)
    runs.write("k.json", plan.text())
    last, places = len(plan.runs) - 1, MOST_OF_A_RUN
    requests = [reserve(0, 0, 1), reserve(last, 0, LEGS), reserve(last, 62, 64, count=8, together=True),
                request("GET", "/bookings/B000000"), request("GET", "/bookings/B%06d" % (sizes.rows - 1)),
                listed(last, 0, 1), listed(last, 63, 64)]
    host = service.Host(plan.model())
    runs.expect_answers("%d rows, %d places" % (sizes.rows, plan.places), [], host, requests)
    line = b"".join((booking_line(booking) + "\n").encode() for booking in host.books.bookings)
    wanted = b"rail-export 1 %d %d\n%send %d\n" % (plan.places, sizes.rows, line, len(host.books.bookings))
    runs.expect("an export of it", ["export", "k.json", "--start", START], b"".join(requests[:3]), wanted)
    return "%d rows and %d places, the last run of %d" % (sizes.rows, plan.places, places)


PHASES = [Phase.PREBOOKED, Phase.CONFIRMED, Phase.FULFILLED, Phase.RELEASED, Phase.EXPIRED, Phase.REFUNDED, Phase.EXCHANGED,
          Phase.CONFIRMED]
GREATEST = 99_999_999_999


class Sold:
    """So many bookings of 48 items each, all at the places of the long runs: those of one booking at neighbours, on one leg."""

    def __init__(self, plan: Plan, bookings: int):
        self.plan, self.bookings = plan, bookings
        self.first = next(first for first, (stops, _places) in zip(plan.firsts, plan.runs) if stops == LONG_STOPS)
        self.width = plan.places - self.first
        self.released = set()

    def phase(self, row: int) -> Phase:
        return Phase.PREBOOKED if row + 1 == self.bookings else PHASES[row % len(PHASES)]

    def generation(self, row: int) -> int:
        """A booking that ended is its row's last one, so that no row can be started again."""
        return row % 1_000 if self.phase(row) in LIVE else LAST_GENERATION

    def retailer(self, row: int) -> int:
        return 1 if row + 1 == self.bookings else row % 300 + 1

    def ending(self, row: int):
        phase = self.phase(row)
        if phase in LIVE:
            return None
        amount = {Phase.REFUNDED: GREATEST - row, Phase.EXCHANGED: row - GREATEST if row % 16 < 8 else GREATEST - row}.get(phase, 0)
        return Ending(LAST_MOMENT, amount, Row(row + 1, 0) if phase is Phase.EXCHANGED else None)

    def booking(self, row: int) -> Booking:
        items = [self.item(row * ITEMS + at) for at in range(ITEMS)]
        return Booking(Row(row, self.generation(row)), self.retailer(row), LAST_MOMENT - 1, GREATEST - row, items, self.phase(row),
                       self.ending(row))

    def item(self, number: int) -> Item:
        leg, at = divmod(number, self.width)
        return Item(self.first + at, Span(leg, leg + 1))

    def is_taken(self, place: int, leg: int) -> bool:
        row = (leg * self.width + place - self.first) // ITEMS
        return place >= self.first and row < self.bookings and self.phase(row) in LIVE and row not in self.released

    def lines(self):
        """The export, in pieces: the form of `booking_line`, written out since there are millions of items."""
        yield "rail-export 1 %d %d\n" % (self.plan.places, self.plan.rows)
        for row in range(self.bookings):
            leg, at = divmod(row * ITEMS, self.width)
            if at + ITEMS <= self.width:
                items = ["%d.%d.%d" % (place, leg, leg + 1) for place in range(self.first + at, self.first + at + ITEMS)]
            else:
                items = ["%d.%d.%d" % (item.place, item.span.start, item.span.end) for item in self.booking(row).items]
            ending = self.ending(row)
            end = ""
            if ending is not None:
                amount = "m%d" % -ending.amount if ending.amount < 0 else "p%d" % ending.amount
                end = " %s %d %s" % (amount, ending.moment, "%d.%d" % (ending.successor.number, 0) if ending.successor else "-")
            yield "row %d %d %s %d %d %d %d %s%s\n" % (row, self.generation(row), LETTERS[self.phase(row)], self.retailer(row),
                                                       LAST_MOMENT - 1, GREATEST - row, ITEMS, " ".join(items), end)
        yield "end %d\n" % self.bookings

    def table(self) -> bytes:
        """The settlement, by a loop over the bookings."""
        sums = {}
        for row in range(self.bookings):
            phase, own = self.phase(row), sums.setdefault(self.retailer(row), [0, 0, 0, 0, 0])
            own[0] += 1
            own[1] += phase in LIVE
            own[2] += GREATEST - row if phase in (Phase.CONFIRMED, Phase.FULFILLED, Phase.REFUNDED, Phase.EXCHANGED) else 0
            own[3] += self.ending(row).amount if phase is Phase.REFUNDED else 0
            own[4] += self.ending(row).amount if phase is Phase.EXCHANGED else 0
        lines = ["retailer,bookings,live,sold,refunded,exchanged"]
        lines += ["%d,%s" % (retailer, ",".join(str(one) for one in own)) for retailer, own in sorted(sums.items())]
        lines.append("forgotten,%d,0,0,0,0" % sum(self.generation(row) for row in range(self.bookings)))
        return "".join(line + "\n" for line in lines).encode("ascii")


class SoldBooks(Books):
    """The model's books with these bookings besides those that it keeps."""

    def __init__(self, catalogue: Catalogue, sold: Sold):
        super().__init__(catalogue)
        self.sold = sold

    def is_free(self, place: int, span: Span) -> bool:
        return super().is_free(place, span) and not any(self.sold.is_taken(place, leg) for leg in range(span.start, span.end))


def export_and_import(runs: Runs, sizes: Sizes):
    """An export of so many bookings is read, written back byte for byte, summed, and served."""
    plan = plan_of(sizes)
    sold = Sold(plan, sizes.bookings)
    text = "".join(sold.lines()).encode("ascii")
    if len(text) > LARGEST_EXPORT:
        raise Wrong("the export has %d bytes" % len(text))
    runs.write("k.json", plan.text())
    runs.write("x.txt", text)
    what = "%d bookings in %d bytes" % (sizes.bookings, len(text))
    runs.expect(what + ", written back", ["export", "k.json", "--from", "x.txt"], b"", text)
    runs.expect(what + ", settled", ["settle", "k.json", "x.txt"], b"", sold.table())
    host = service.Host(plan.model())
    host.books = SoldBooks(host.catalogue, sold)
    last = sold.booking(sizes.bookings - 1)
    host.books.bookings.append(last)
    if sizes.bookings == sizes.rows:
        fill_and_sell(runs, what, host, sold, last)
    else:
        host.books.kept_row = Row(sizes.bookings)  # the least row without a booking
        lists = [listed(len(plan.runs) - 1, leg, leg + 1) for leg in (0, LEGS - 1)]
        shown = request("GET", "/bookings/" + service.write_booking_id(last.row))
        runs.expect_answers(what + ", served", ["--from", "x.txt"], host, [shown, reserve(0, 0, 1)] + lists)
    return what


def fill_and_sell(runs: Runs, what: str, host: service.Host, sold: Sold, last: Booking):
    """All rows are full, until the last one's booking is released: then it serves again, in the next generation."""
    path = "/bookings/" + service.write_booking_id(last.row)
    lists = [listed(len(sold.plan.runs) - 1, leg, leg + 1) for leg in (0, LEGS - 2, LEGS - 1)]
    before, rest = [request("GET", path)] + lists, [request("DELETE", path), reserve(0, 0, 1)] + lists
    data = b"".join([reserve(0, 0, 1)] + before + rest)
    full = wire.write_problem("RowsFull", None, False)
    wanted = full + host.serve(b"".join(before + rest[:1]), service.Clock(NOW, 0))[0]
    sold.released.add(last.row.number)
    host.books.bookings.remove(last)
    host.books.kept_row = Row(last.row.number, last.row.generation + 1)  # the only row whose booking has ended before the last generation
    wanted += host.serve(b"".join(rest[1:]), service.Clock(NOW, 0))[0]
    runs.expect(what + ", served", ["replay", "k.json", "--start", START, "--from", "x.txt"], data, wanted)


def long_lists(runs: Runs, _sizes: Sizes):
    """The most places of a run are listed over the most legs, in both halves and over the border, with some of them sold."""
    plan = Plan(1_000, [(LONG_STOPS, MOST_OF_A_RUN)])
    runs.write("k.json", plan.text())
    sales = [reserve(0, 0, LEGS, count=8), reserve(0, 62, 63, count=8), reserve(0, 63, 64, count=8, together=True), reserve(0, 125, 126)]
    lists = [listed(0, start, end) for start, end in [(0, LEGS), (0, 63), (63, LEGS), (62, 64), (125, 126), (0, 1)]]
    runs.expect_answers("1,200 places over 126 legs", [], service.Host(plan.model()), lists + sales + lists)
    host, party = service.Host(plan.model()), ITEMS // 2
    for row in range(MOST_OF_A_RUN // party):
        items = [Item(row * party + at, piece) for at in range(party) for piece in (Span(0, 63), Span(63, LEGS))]
        host.books.bookings.append(Booking(Row(row), 1, LAST_MOMENT, 0, items, Phase.CONFIRMED))
    runs.write("x.txt", write_export(host.books))
    runs.expect_answers("1,200 places that are all sold", ["--from", "x.txt"], host, [lists[0]])
    return "1,200 places over 126 legs, free and sold"


def longest_messages(runs: Runs, _sizes: Sizes):
    """Bodies of the most bytes, a booking of 48 items, sixteen offers of three segments, and the most requests of a connection."""
    plan = Plan(2_000, [(LONG_STOPS, MOST_OF_A_RUN)] * 3)
    runs.write("k.json", plan.text())
    code = write_offer(OfferCode(NOW, 8, 0, TravelClass.SECOND, 31, (Segment(0, Span(0, 65)),)))
    wish = {"run": 1, "from": "S0", "to": "S126", "count": 8, "class": "SECOND", "wanted": ALL_TRAITS}
    long_wish = dict(wish, more="y" * (LARGEST_BODY - 1_000))
    requests = [request("POST", "/reservations", wish, pad=LARGEST_BODY), request("POST", "/reservations", long_wish, pad=LARGEST_BODY),
                request("POST", "/bookings", {"offerId": code}, pad=LARGEST_BODY), request("GET", "/bookings/B000000"),
                request("POST", "/bookings/B000000/fulfillments"), request("GET", "/bookings/B000002")]
    requests += [request("GET", "/bookings/B999999")] * (wire.MOST_REQUESTS - len(requests))
    data = b"".join(requests)
    wanted, _rest = service.Host(plan.model()).serve(data + requests[-1], service.Clock(NOW, 0))
    runs.expect("the longest bodies", ["replay", "k.json", "--start", START], data + requests[-1], wanted)
    return "bodies of %d bytes among %d requests" % (LARGEST_BODY, wire.MOST_REQUESTS)


def longest_booking(runs: Runs, _sizes: Sizes):
    """Three trains that follow one another, each over the border: a booking of eight with 48 items, and sixteen offers."""
    catalogue = three_trains()
    text = json.dumps(catalogue, separators=(",", ":")).encode()
    runs.write("k.json", text)
    host = service.Host(read_catalogue(text))
    spans = tuple(Segment(run, Span(0, LEGS)) for run in range(3))
    code = write_offer(OfferCode(NOW, 8, 0, TravelClass.SECOND, 31, spans))
    search = {"adults": 8, "origin": "A0", "destination": "A378", "earliest": START, "latest": "2026-06-03T06:00:00Z", "wanted": ALL_TRAITS}
    requests = [request("POST", "/bookings", {"offerId": code, "together": True}), request("GET", "/bookings/B000000"),
                request("POST", "/offers", search, pad=LARGEST_BODY)]
    runs.expect_answers("a booking of 48 items", [], host, requests)
    if len(host.books.bookings) != 1 or len(host.books.bookings[0].items) != ITEMS:
        raise Wrong("a booking of 48 items: the model sold another one")
    return "a booking of 48 items"


def three_trains() -> dict:
    """Each has 126 legs of a minute; the next one goes on from its last station, ten minutes later. Others go all the way."""
    fare = {"base": 500, "perLeg": 10}
    coach = {"coach": 999, "class": "SECOND", "places": [{"first": 9_000, "last": 9_099, "traits": ALL_TRAITS}]}

    def run(train: int, stations: list, begin: int) -> dict:
        stops = [{"station": "A%d" % station, "arrive": write_moment(begin + 60 * at), "depart": write_moment(begin + 60 * at)}
                 for at, station in enumerate(stations)]
        return {"train": train, "stops": stops, "fares": {"first": fare, "second": fare}, "coaches": [coach]}

    runs = [run(99_990 + at, list(range(LEGS * at, LEGS * at + LONG_STOPS)), DEPARTS + at * (60 * LEGS + 600)) for at in range(3)]
    runs += [run(1 + at, [0, 378], DEPARTS + 900 * at) for at in range(14)]
    return {"currency": "EUR", "rows": 10, "retailers": [{"number": 1, "key": "north"}], "refundSteps": [{"before": 0, "fee": 0}],
            "stations": [{"code": "A%d" % station} for station in range(379)], "runs": runs}


def large_catalogue(runs: Runs, sizes: Sizes):
    """A catalogue of so many bytes, most of which are runs of 127 stops; where that is the most, one byte more is refused."""
    one = len(Plan(1, [(LONG_STOPS, 1)]).run_text(0)) + 8
    count = (sizes.catalogue - sizes.retailers * 40) // one
    plan = Plan(4_096, [(LONG_STOPS, 1)] * count, sizes.retailers)
    text = plan.text(sizes.catalogue)
    if len(text) != sizes.catalogue:
        raise Wrong("the catalogue has %d bytes" % len(text))
    runs.write("k.json", text)
    requests = [reserve(count - 1, 0, LEGS), listed(count - 1, 125, 126), listed(count // 2, 0, LEGS), reserve(0, 5, 9)]
    runs.expect_answers("a catalogue of %d bytes" % len(text), [], service.Host(plan.model()), requests)
    runs.write("k.json", text[:-1], b" ", text[-1:])
    note = b"rail_host: catalogue too large\n"
    if len(text) == LARGEST_CATALOGUE:
        runs.expect("one byte more", ["replay", "k.json"], b"", b"", 1, note)
    return "a catalogue of %d runs and %d retailers in %d bytes" % (count, sizes.retailers, len(text))


# A host that sells all its rows


class Client:
    """A connection to a host, whose answers are read in the order of the requests."""

    def __init__(self, port: int):
        until = time.monotonic() + SECONDS
        while True:
            try:
                self.socket = socket.create_connection(("127.0.0.1", port), timeout=SECONDS)
                break
            except ConnectionRefusedError:
                if time.monotonic() > until:
                    raise
                time.sleep(0.05)
        self.held = b""

    def answers(self, data: bytes, count: int) -> list:
        """Sends all requests at once, and reads so many bodies."""
        self.socket.sendall(data)
        found, at = [], 0
        while len(found) < count:
            head = self.held.find(b"\r\n\r\n", at)
            if head >= 0:
                begin = head + 4
                end = begin + int(self.held[self.held.index(b"Content-Length: ", at) + 16:head].split(b"\r\n")[0])
                if len(self.held) >= end:
                    found.append(self.held[begin:end])
                    at = end
                    continue
            self.held, at = self.held[at:] + self.more(), 0
        self.held = self.held[at:]
        return found

    def more(self) -> bytes:
        piece = self.socket.recv(1 << 20)
        if not piece:
            raise Wrong("the host ended a connection")
        return piece


BATCH, OF_A_CONNECTION = 500, 60_000


def served_full(runs: Runs, sizes: Sizes):
    """A host sells a place in each of its rows, row by row, is full, and writes an export of all of them at its end."""
    plan = Plan(sizes.served, [(2, MOST_OF_A_RUN)] * (-(-sizes.served // MOST_OF_A_RUN)))
    runs.write("k.json", plan.text())
    connections = -(-sizes.served // OF_A_CONNECTION)
    port = free_port()
    words = ["serve", "k.json", "--port", str(port), "--workers", "2", "--connections", str(connections), "--sweep", "1", "--export"]
    with open(runs.path("notes"), "wb") as notes:
        host = subprocess.Popen([runs.program] + words, cwd=runs.folder, stdout=subprocess.PIPE, stderr=notes)
        try:
            lines = sell_all(plan, sizes.served, port)
            output, _ = host.communicate(timeout=SECONDS)
        finally:
            host.kill()
            host.communicate()
    if (host.returncode, output) != (0, b""):
        raise Wrong("serve ended with %d" % host.returncode)
    wanted = "rail-export 1 %d %d\n%send %d\n" % (plan.places, plan.rows, "".join(lines), plan.rows)
    with open(runs.path("notes"), "rb") as file:
        same_bytes("the export of a host with %d rows" % sizes.served, file.read(), wanted.encode())
    return "a host that sold %d rows" % sizes.served


def sell_all(plan: Plan, rows: int, port: int) -> list:
    """Sells a place in each row, and gives the lines of an export of them."""
    lines, model = [], plan.model()
    host = service.Host(model)
    for first in range(0, rows, OF_A_CONNECTION):
        client = Client(port)
        for begin in range(first, min(first + OF_A_CONNECTION, rows), BATCH):
            batch = range(begin, min(begin + BATCH, first + OF_A_CONNECTION, rows))
            bodies = client.answers(b"".join(reserve(row // MOST_OF_A_RUN, 0, 1) for row in batch), len(batch))
            lines += [sold_line(host, row, body) for row, body in zip(batch, bodies)]
        if first + OF_A_CONNECTION >= rows:
            refused = json.loads(client.answers(reserve(0, 0, 1), 1)[0])
            if refused.get("code") != "RowsFull":
                raise Wrong("after the last row a reservation was answered %s" % refused)
        client.socket.close()
    return lines


def sold_line(host: service.Host, row: int, body: bytes) -> str:
    """The line of the booking in this row, whose answer has to be the model's for its limit, which has to be near."""
    limit = service.moments.read_moment(json.loads(body)["confirmableUntil"]) if b'"confirmableUntil"' in body else 0
    if not isinstance(limit, int) or not 0 <= limit - time.time() <= 901:
        raise Wrong("row %d was answered %r" % (row, body))
    booking = Booking(Row(row), 1, limit, 510, [Item(row, Span(0, 1))], Phase.PREBOOKED)
    same_bytes("row %d" % row, body, service.write_json(host.booking_reply(booking)))
    return booking_line(booking) + "\n"


PARTS = [greatest_table, export_and_import, long_lists, longest_messages, longest_booking, large_catalogue, served_full]


def main() -> int:
    words = argparse.ArgumentParser(description=__doc__, formatter_class=argparse.RawDescriptionHelpFormatter)
    words.add_argument("program")
    words.add_argument("--small", action="store_true", help="in less than a minute")
    words.add_argument("--part", choices=[part.__name__ for part in PARTS], help="this part alone")
    given = words.parse_args()
    sizes, program = SMALL if given.small else FULL, os.path.abspath(given.program)
    parts = [part for part in PARTS if given.part in (None, part.__name__)]
    for part in parts:
        begin = time.monotonic()
        with tempfile.TemporaryDirectory() as folder:
            try:
                told = part(Runs(program, folder), sizes)
            except (Wrong, OSError, subprocess.TimeoutExpired) as failure:
                print("%s: %s" % (part.__name__, failure))
                return 1
        print("%s (%.0f s)" % (told, time.monotonic() - begin), flush=True)
    print("%d limits, and memory for each" % len(parts))
    return 0


if __name__ == "__main__":
    sys.exit(main())

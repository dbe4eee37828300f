"""One storm: eight clients at once against `serve` on three places and two rows, all of whose calls are recorded. In every sixth there are
four rows, so that more of them are in each other's way at the places.

The clients are played by one thread, which sends the requests of some of them one right after the other and reads the answers as they
come. So a call's begin is taken before its first byte is sent, and its end when its last byte was read. Some clients reset their
connection in the middle of a request, or after a whole one whose answer they don't wait for, and come again.
"""
import json
import os
import random
import selectors
import socket
import struct
import subprocess
import tempfile
import time

import calls
import service
from catalogue import read_catalogue
from offers import (ExchangeCode, OfferCode, RefundCode, Segment, exchange_difference, offer_price, refund_value, write_booking_id,
                    write_exchange, write_offer, write_refund, Row)

CLIENTS, RESETS = 8, 4
ROWS, MORE_ROWS = 2, 4
KEYS = ["north"] * 5 + ["south"] * 3
HOST_SECONDS = 60
DAY = "2099-06-01T"
# How often each command is asked: where all ask for places at once; by a retailer that knows of no booking that lives; and by one that
# does, by its status.
RUSH = {"reserve": 60, "book": 30, "places": 5, "offers": 5}
FRESH = {"reserve": 60, "book": 30, "places": 6, "offers": 6, "sweep": 2, "show": 4}
AIMED = {
    "PREBOOKED": {"confirm": 30, "release": 30, "show": 8, "reserve": 14, "book": 8, "places": 5, "offers": 5, "fulfil": 2,
                  "quote_refund": 1},
    "CONFIRMED": {"fulfil": 6, "accept_refund": 25, "accept_exchange": 25, "show": 6, "reserve": 14, "book": 8, "places": 5, "offers": 5,
                  "quote_refund": 3, "quote_exchange": 3, "release": 2},
    "FULFILLED": {"accept_refund": 25, "accept_exchange": 25, "show": 6, "reserve": 14, "book": 8, "places": 5, "offers": 5},
}


def catalogue_of(two_runs: bool, rows: int, confirm_seconds: int) -> dict:
    """Three places on a run of three legs; or two on one of two legs, and one on a run that goes on from its end."""
    fare = {"base": 100, "perLeg": 50}
    fares = {"first": fare, "second": fare}

    def stops(codes: str, minute: int) -> list:
        times = ["%s08:%02d:00Z" % (DAY, minute + 5 * at) for at in range(len(codes))]
        return [{"station": code, "arrive": at, "depart": at} for code, at in zip(codes, times)]

    def coach(first: int, last: int, traits: list) -> dict:
        return {"coach": 1, "class": "SECOND", "places": [{"first": first, "last": last, "traits": traits}]}

    if two_runs:
        runs = [{"train": 1, "stops": stops("ABC", 0), "fares": fares, "coaches": [coach(1, 2, ["WINDOW"])]},
                {"train": 2, "stops": stops("CD", 30), "fares": fares, "coaches": [coach(1, 1, ["WINDOW"])]}]
    else:
        runs = [{"train": 1, "stops": stops("ABCD", 0), "fares": fares, "coaches": [coach(1, 2, ["WINDOW"]), coach(3, 3, [])]}]
    return {"currency": "EUR", "rows": rows, "confirmSeconds": confirm_seconds, "ticketFee": 50, "exchangeFee": 30,
            "retailers": [{"number": 1, "key": "north"}, {"number": 2, "key": "south"}], "stations": [{"code": code} for code in "ABCD"],
            "refundSteps": [{"before": 0, "fee": 2500}], "runs": runs}


class ClockSet(Exception):
    """The clock of the day was set while a storm lasted, so that the moments of its calls say nothing."""


class Connection:
    """A connection to the host, and what has come of the answer to its request."""

    def __init__(self, port: int, number: int):
        self.number, self.held, self.call = number, b"", None
        self.socket = connect(port)

    def take(self) -> bool:
        """Reads what is there. True where the answer is whole."""
        piece = self.socket.recv(65_536)
        if not piece:
            raise EOFError("the host ended connection %d" % self.number)
        self.held += piece
        head, parted, body = self.held.partition(b"\r\n\r\n")
        return bool(parted) and len(body) >= int(head.split(b"Content-Length: ")[1].split(b"\r\n")[0])

    def answer(self) -> tuple:
        head, _, body = self.held.partition(b"\r\n\r\n")
        self.held = b""
        return int(head[9:12]), json.loads(body)

    def reset(self):
        self.socket.setsockopt(socket.SOL_SOCKET, socket.SO_LINGER, struct.pack("ii", 1, 0))
        self.socket.close()


def connect(port: int) -> socket.socket:
    until = time.monotonic() + HOST_SECONDS
    while True:
        try:
            client = socket.create_connection(("127.0.0.1", port), timeout=HOST_SECONDS)
            client.setsockopt(socket.IPPROTO_TCP, socket.TCP_NODELAY, 1)
            return client
        except ConnectionRefusedError:
            if time.monotonic() > until:
                raise
            time.sleep(0.01)


class Storm:
    """The clients, what they know, and the record of their calls."""

    def __init__(self, seed: int):
        self.rng = random.Random(seed)
        self.slow = seed % 4 == 3  # its bookings come to their limits
        self.most = 160 if self.slow else 250
        self.rows = MORE_ROWS if seed % 6 == 5 else ROWS
        self.text = catalogue_of(seed % 2 == 1, self.rows, 1 if self.slow else 900)
        self.catalogue = read_catalogue(json.dumps(self.text).encode())
        self.calls, self.closed, self.opened, self.resets = [], {}, 0, RESETS
        self.known = {}  # what is known of a booking: its retailer's key, its answer, and when that came
        self.generations = [0] * self.rows  # the last that were seen
        self.answers = {}  # of each client, how its last booking was answered
        self.half = 0

    # What is asked

    def request(self, client: int) -> tuple:
        """Method, path and body of something that this client may ask now."""
        self.key, self.last = KEYS[client], self.answers.get(client)
        own = [name for name in self.known if self.known[name][0] == self.key and self.known[name][1]["status"] in AIMED]
        self.aim = self.rng.choice(own[-2:]) if own and self.rng.random() < 0.9 else None
        weights = self.weights()
        kind = self.rng.choices(list(weights), weights.values())[0]
        return getattr(self, "ask_" + kind)()

    def weights(self) -> dict:
        """How often what is asked: where no booking is known to live, all ask for places at once; where all rows are known to be taken,
        or were found so, few do. In a storm whose bookings come to their limits many are let alone.
        """
        living = sum(answer["status"] in AIMED for _key, answer, _end in self.known.values())
        if not living:
            return dict(RUSH, reserve=4, book=2, show=16) if self.last == "RowsFull" else RUSH
        weights = dict(AIMED[self.known[self.aim][1]["status"]] if self.aim else FRESH)
        if living >= self.rows:
            weights.update(reserve=4, book=2)
        if self.last == "NoPlace":
            weights.update(reserve=40, book=20)
        if self.slow:
            weights.update(confirm=weights.get("confirm", 0) // 6, release=weights.get("release", 0) // 8, sweep=4)
        return weights

    def segment(self) -> tuple:
        run = self.rng.choice(self.catalogue.runs)
        start = self.rng.randrange(len(run.stops) - 1)
        return run, start, self.rng.randrange(start + 1, len(run.stops))

    def ask_reserve(self) -> tuple:
        run, start, end = self.segment()
        count = 1 if self.last == "NoPlace" else self.rng.choice([1, 1, 2, 2, 3])
        body = {"run": run.number, "from": run.stops[start].station, "to": run.stops[end].station, "count": count}
        if self.rng.random() < 0.3:
            body["together"] = True
        if self.rng.random() < 0.2:
            body["wanted"] = ["WINDOW"]
        return "POST", "/reservations", body

    def offer(self) -> OfferCode:
        """The code of an offer of this moment: a segment, or one of each run."""
        run, start, end = self.segment()
        segments = [Segment(run.number, calls.Span(start, end))]
        if len(self.catalogue.runs) == 2 and self.rng.random() < 0.6:
            segments = [Segment(0, calls.Span(self.rng.randrange(2), 2)), Segment(1, calls.Span(0, 1))]
        count = self.rng.choice([1, 1, 1, 2]) if len(segments) == 1 else 1
        return OfferCode(int(time.time()), count, 0, service.TravelClass.SECOND, self.rng.choice([0, 0, 1]), tuple(segments))

    def ask_book(self) -> tuple:
        body = {"offerId": write_offer(self.offer())}
        if self.rng.random() < 0.2:
            body["together"] = True
        return "POST", "/bookings", body

    def booking(self) -> str:
        """The id of a booking that was sold, most often of one of the last; now and then of one that perhaps isn't there yet."""
        if self.aim and self.rng.random() < 0.95:
            return self.aim
        if self.known and self.rng.random() < 0.3:
            return self.rng.choice(list(self.known))
        row = self.rng.randrange(self.rows)
        return write_booking_id(Row(row, self.generations[row] + self.rng.randrange(2)))

    def path(self, rest: str = "") -> str:
        return "/bookings/" + self.booking() + rest

    def ask_show(self) -> tuple:
        return "GET", self.path(), None

    def ask_confirm(self) -> tuple:
        return "POST", self.path("/fulfillments"), None

    def ask_fulfil(self) -> tuple:
        return "PATCH", self.path("/fulfillments"), {"status": "FULFILLED"}

    def ask_release(self) -> tuple:
        return "DELETE", self.path(), None

    def ask_quote_refund(self) -> tuple:
        return "POST", self.path("/refund-offers"), None

    def is_fulfilled(self) -> bool:
        """Whether the code is to name a ticket that was collected: most often as the booking aimed at was seen last."""
        last = self.aim is not None and self.known[self.aim][1]["status"] == "FULFILLED"
        return last != (self.rng.random() < 0.1)

    def refund(self, name: str, fulfilled: bool) -> int:
        """What a refund of the booking pays, by the rules; now and then another amount."""
        total = self.known[name][1]["price"]["amount"] if name in self.known else 100
        amount = refund_value(self.catalogue.terms, total, 1, fulfilled)
        return amount + (self.rng.random() < 0.05)

    def ask_accept_refund(self) -> tuple:
        name, fulfilled = self.booking(), self.is_fulfilled()
        code = RefundCode(calls.read_booking_id(name), int(time.time()), fulfilled, self.refund(name, fulfilled))
        return "PATCH", "/bookings/%s/refund-offers/%s" % (name, write_refund(code)), {"status": "CONFIRMED"}

    def ask_quote_exchange(self) -> tuple:
        return "POST", "/exchange-offers", {"bookingId": self.booking(), "offerId": write_offer(self.offer())}

    def ask_accept_exchange(self) -> tuple:
        name, offer, fulfilled = self.booking(), self.offer(), self.is_fulfilled()
        difference = exchange_difference(self.catalogue.terms, self.refund(name, fulfilled), offer_price(self.catalogue, offer))
        code = ExchangeCode(calls.read_booking_id(name), offer.made, fulfilled, difference, offer)
        return "POST", "/bookings/%s/exchange-operations" % name, {"exchangeOfferId": write_exchange(code)}

    def ask_places(self) -> tuple:
        run, start, end = self.segment()
        return "GET", "/runs/%d/places/%s/%s" % (run.number, run.stops[start].station, run.stops[end].station), None

    def ask_offers(self) -> tuple:
        start, end = sorted(self.rng.sample("ABCD", 2))
        return "POST", "/offers", {"adults": 1, "origin": start, "destination": end, "earliest": DAY + "00:00:00Z"}

    def ask_sweep(self) -> tuple:
        return "POST", "/sweeps", None

    # How it is asked

    def prepare(self, client: int) -> tuple:
        """The call that this client makes next, and its bytes."""
        method, path, body = self.request(client)
        text = json.dumps(body, separators=(",", ":")) if body is not None else ""
        head = "%s %s HTTP/1.1\r\nRetailer-Key: %s\r\nContent-Length: %d\r\n\r\n" % (method, path, KEYS[client], len(text))
        call = {"client": client, "connection": self.clients[client].number, "key": KEYS[client], "method": method, "path": path,
                "body": text, "begin": None, "end": None, "status": None, "answer": None}
        return client, call, (head + text).encode()

    def send(self, prepared: list):
        """Sends one request right after the other. Those of clients that reset come last, and only a whole one is a call."""
        for client, call, data in prepared:
            call["begin"] = time.time_ns()
            self.clients[client].socket.sendall(data)
            self.clients[client].call = call
            self.calls.append(call)

    def send_and_reset(self, client: int, call: dict, data: bytes):
        """Half of the request, or all of it, and then no word more: the client comes again on another connection."""
        if self.rng.random() < 0.5:
            data = data[:self.rng.randrange(1, len(data))]
            self.half += 1
        else:
            call["begin"] = time.time_ns()
            self.calls.append(call)
        self.clients[client].socket.sendall(data)
        self.clients[client] = self.reset(client, self.clients[client])

    def reset(self, client: int, connection: Connection) -> Connection:
        """Ends the connection without another word, and gives the next one."""
        self.resets -= 1
        self.selector.unregister(connection.socket)
        self.closed[connection.number] = time.time_ns()
        connection.reset()
        return self.open(client)

    def open(self, client: int) -> Connection:
        connection = Connection(self.port, self.opened)
        self.opened += 1
        self.selector.register(connection.socket, selectors.EVENT_READ, client)
        return connection

    def read(self, limit: float):
        """Takes the answers that are there, or come in this time."""
        for key, _events in self.selector.select(limit):
            connection = self.clients[key.data]
            if connection.take():
                end = time.time_ns()
                call, connection.call = connection.call, None
                call["end"] = end
                call["status"], call["answer"] = connection.answer()
                self.learn(call)

    def learn(self, call: dict):
        answer = call["answer"].get("booking", call["answer"])
        if call["answer"].get("code") in ("UnknownBooking", "WrongState"):
            for name in [name for name in self.known if name in call["path"]]:
                del self.known[name]
        if "reservations" in answer:
            self.known[answer["id"]] = (call["key"], answer, call["end"])
            row = calls.read_booking_id(answer["id"])
            self.generations[row.number] = max(self.generations[row.number], row.generation)
        if call["path"] in ("/reservations", "/bookings") or "exchange-operations" in call["path"]:
            self.answers[call["client"]] = answer.get("code")

    def round(self):
        """Some of the clients that wait for nothing ask, one right after the other."""
        idle = [client for client, connection in enumerate(self.clients) if connection.call is None]
        self.rng.shuffle(idle)
        prepared = [self.prepare(client) for client in idle[:self.rng.choice([1, 2, 3, 5, 8, 8])]]
        resets = int(self.resets > 0 and len(prepared) > 0 and self.rng.random() < 0.03)
        self.send(prepared[resets:])
        if resets:
            self.send_and_reset(*prepared[0])
        self.read(self.rng.choice([0, 0.001, 0.01]))
        if self.slow and prepared:
            time.sleep(self.rng.choice([0, 0, 0.25]))

    def play(self):
        self.clients = []
        for client in range(CLIENTS):
            self.clients.append(self.open(client))
        until = time.monotonic() + HOST_SECONDS
        while len(self.calls) < self.most and time.monotonic() < until:
            self.round()
        until = time.monotonic() + HOST_SECONDS
        while any(connection.call for connection in self.clients) and time.monotonic() < until:
            self.read(1)
        if any(connection.call for connection in self.clients):
            raise EOFError("an answer never came")

    def run(self, program: str) -> dict:
        """The record of the storm, with the host's own export at its end."""
        ahead = clock_ahead()
        with tempfile.TemporaryDirectory() as folder, selectors.DefaultSelector() as self.selector:
            with open(os.path.join(folder, "k.json"), "w", encoding="utf-8") as file:
                json.dump(self.text, file)
            own = own_port()
            self.port = own.getsockname()[1]
            words = ["serve", "k.json", "--port", self.port, "--workers", CLIENTS, "--connections", CLIENTS + RESETS, "--sweep", 1,
                     "--export"]
            host = subprocess.Popen([program] + [str(word) for word in words], cwd=folder, stdout=subprocess.PIPE, stderr=subprocess.PIPE)
            try:
                self.play()
                for client in range(CLIENTS):
                    self.clients[client].socket.close()
                for _ in range(CLIENTS + RESETS - self.opened):
                    connect(self.port).close()
                output, notes = host.communicate(timeout=HOST_SECONDS)
            finally:
                host.kill()
                host.communicate()
                own.close()
        if (host.returncode, output) != (0, b""):
            raise EOFError("the host ended with %s, %r, %r" % (host.returncode, output, notes))
        if abs(clock_ahead() - ahead) > 2_000_000:
            raise ClockSet()
        return {"catalogue": self.text, "calls": self.calls, "closed": self.closed, "export": notes.decode("ascii"), "half": self.half}


def clock_ahead() -> int:
    """How far the clock of the day is ahead of the one that nobody sets. The greatest of some readings, since pauses make it less."""
    return max(time.time_ns() - time.monotonic_ns() for _ in range(20))


def own_port() -> socket.socket:
    """A port that nobody else is given while this socket is open; the host may still listen there."""
    own = socket.socket()
    own.setsockopt(socket.SOL_SOCKET, socket.SO_REUSEADDR, 1)
    own.bind(("127.0.0.1", 0))
    return own

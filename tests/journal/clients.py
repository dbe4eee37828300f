"""Clients that sell over a host until it ends: every command, several sent ahead of their answers, and looks at each other's bookings."""
import json
import random
import threading
from dataclasses import dataclass

from ledger import Ledger, Told
from world import DAY, KEYS, LETTERS, Reader, STATIONS, connect, name_of, request

MOST_AHEAD, MOST_LIVE = 8, 10
REFUSALS = {409, 410, 503, 507}


@dataclass(frozen=True)
class Asked:
    """A command that was sent: its kind, the name of its booking, and what was read of the ledger before."""
    kind: str
    name: str = None
    before: Told = None


class Client:
    """A retailer's program. Its bookings outlive each host."""

    def __init__(self, number: int, ledger: Ledger, seed: int, runs: int):
        self.rng, self.ledger, self.runs = random.Random(seed * 1_000 + number), ledger, runs
        self.retailer, self.key = number % len(KEYS) + 1, KEYS[number % len(KEYS)]
        self.mine, self.offers, self.refunds, self.exchanges, self.pending = {}, [], {}, {}, []

    # Requests, each with what was asked

    def ask(self, method: str, path: str, kind: str, name: str = None, fields: dict = None) -> tuple:
        body = b"" if fields is None else json.dumps(fields, separators=(",", ":")).encode("ascii")
        return request(b"%s %s" % (method.encode(), path.encode()), body, key=self.key), Asked(kind, name, self.ledger.told.get(name))

    def stretch(self) -> tuple:
        begin = self.rng.randrange(len(STATIONS) - 1)
        return STATIONS[begin], STATIONS[self.rng.randrange(begin + 1, len(STATIONS))]

    def reserve(self) -> tuple:
        origin, destination = self.stretch()
        wish = {"class": self.rng.choice(["FIRST", "SECOND"]), "count": self.rng.randrange(1, 5), "from": origin, "to": destination,
                "run": self.rng.randrange(self.runs), "together": self.rng.random() < 0.3}
        return self.ask("POST", "/reservations", "reserve", fields=wish)

    def search(self) -> tuple:
        origin, destination = self.stretch()
        wish = {"adults": self.rng.randrange(1, 4), "origin": origin, "destination": destination, "earliest": DAY + "T00:00:00Z"}
        return self.ask("POST", "/offers", "search", fields=wish)

    def look(self) -> tuple:
        return self.ask("GET", "/runs/%d/places/%s/%s" % (self.rng.randrange(self.runs), *self.stretch()), "look")

    def book(self) -> tuple:
        return self.ask("POST", "/bookings", "book", fields={"offerId": self.rng.choice(self.offers)})

    def show(self, name: str) -> tuple:
        return self.ask("GET", "/bookings/" + name, "show", name)

    def guess(self) -> tuple:
        """A look at a booking that was made about last, by whomever, also before that was answered."""
        return self.show(name_of(max(self.ledger.newest + self.rng.randrange(-3, 5), 0), 0))

    def act(self, name: str) -> tuple:
        """A step of a booking's life, by how far it has gone."""
        path = "/bookings/" + name
        if self.mine[name] == "P":
            confirm = self.rng.random() < 0.7
            return self.ask("POST", path + "/fulfillments", "confirm", name) if confirm else self.ask("DELETE", path, "release", name)
        return self.ask(*self.rng.choice(self.later_steps(name, path)))

    def later_steps(self, name: str, path: str) -> list:
        """What may be asked of a booking that was confirmed."""
        steps = [("POST", path + "/refund-offers", "quote", name)]
        if self.mine[name] == "C":
            steps.append(("PATCH", path + "/fulfillments", "fulfil", name, {"status": "FULFILLED"}))
        if self.offers:
            steps.append(("POST", "/exchange-offers", "trade", name, {"bookingId": name, "offerId": self.rng.choice(self.offers)}))
        if name in self.refunds:
            steps.append(("PATCH", "%s/refund-offers/%s" % (path, self.refunds[name]), "refund", name, {"status": "CONFIRMED"}))
        if name in self.exchanges:
            steps.append(("POST", path + "/exchange-operations", "exchange", name, {"exchangeOfferId": self.exchanges[name]}))
        return steps

    def next(self) -> tuple:
        chance, names = self.rng.random(), list(self.mine)
        if chance < 0.04:
            return self.search()
        if chance < 0.07:
            return self.look()
        if chance < 0.14:
            return self.guess()
        if chance < 0.16:
            return self.ask("POST", "/sweeps", "sweep")
        if not names or (chance < 0.4 and len(names) < MOST_LIVE):
            return self.book() if self.offers and chance < 0.27 else self.reserve()
        return self.show(self.rng.choice(names)) if chance < 0.5 else self.act(self.rng.choice(names))

    # Answers

    def take(self, asked: Asked, status: int, body: dict):
        """What an answer tells."""
        self.ledger.answers += 1
        if status in (200, 201):
            return getattr(self, "take_" + asked.kind)(asked, body)
        if status == 409 and body["code"] == "WrongState":
            self.forget(asked.name, LETTERS[body["detail"]])
            return self.ledger.tell(asked.name, Told(LETTERS[body["detail"]]))
        if status == 404 and body["code"] == "UnknownBooking":
            if asked.before and asked.before.base and asked.before.base[0] == str(self.retailer) and self.ledger.is_ample():
                self.ledger.fault("%s is unknown, and was told as %s" % (asked.name, asked.before))
            return self.forget(asked.name, "r")
        if status not in REFUSALS and (status, body["code"]) != (404, "QuoteWrong"):
            self.ledger.fault("%s of %s was answered %d: %s" % (asked.kind, asked.name, status, body))

    def forget(self, name: str, letter: str):
        """Keeps as the client's own what still lives."""
        if name in self.mine:
            self.mine[name] = letter
            if letter not in "PCF":
                for own in (self.mine, self.refunds, self.exchanges):
                    own.pop(name, None)

    def take_search(self, _asked, body):
        self.offers = [offer["id"] for offer in body["offers"]] or self.offers

    def take_look(self, _asked, _body):
        pass

    def take_sweep(self, _asked, body):
        with self.ledger.lock:
            self.ledger.expired += body["expired"]

    def take_reserve(self, _asked, body):
        self.ledger.make(self.retailer, body)
        self.mine[body["id"]] = LETTERS[body["status"]]

    take_book = take_reserve

    def take_show(self, asked, body):
        self.ledger.tell_booking(self.retailer, body)
        self.forget(body["id"], LETTERS[body["status"]])

    take_confirm = take_fulfil = take_release = take_refund = take_show

    def take_quote(self, asked, body):
        self.refunds[asked.name] = body["id"]

    def take_trade(self, asked, body):
        self.exchanges[asked.name] = body["id"]

    def take_exchange(self, asked, body):
        self.take_reserve(asked, body["booking"])
        self.forget(body["replaced"], "x")
        self.ledger.tell(body["replaced"], Told("x"))

    # A connection

    def sell(self, port: int, stop: threading.Event):
        """Sells over one connection until the host is gone, or until it is told to stop."""
        self.pending = []
        try:
            with connect(port) as stream:
                self.serve(stream, stop)
        except (OSError, EOFError):
            pass
        except Exception as error:  # told in the summary
            self.ledger.fault("a client failed: %r" % error)

    def serve(self, stream, stop: threading.Event):
        reader = Reader(stream)
        while not stop.is_set():
            batch = [self.next() for _ in range(self.rng.choice([1, 1, 2, 4, MOST_AHEAD]))]
            self.pending = [asked for _, asked in batch]
            stream.sendall(b"".join(data for data, _ in batch))
            for _, asked in batch:
                status, body = reader.answer()
                self.take(asked, status, body)
                self.pending.pop(0)

    def unanswered(self) -> list:
        return [(asked.kind, asked.name, self.retailer) for asked in self.pending]


def start(clients: list, port: int, stop: threading.Event) -> list:
    """A thread for each client, which has begun."""
    threads = [threading.Thread(target=client.sell, args=(port, stop), daemon=True) for client in clients]
    for thread in threads:
        thread.start()
    return threads


def unanswered(clients: list) -> list:
    return [entry for client in clients for entry in client.unanswered()]

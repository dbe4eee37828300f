#!/usr/bin/env python3
"""Sixteen clients at once against `serve --export`, and then the export against what they were answered.

    tests/clients/exported.py PROGRAM

Each client reserves, confirms, collects, releases, refunds and exchanges on two trains that all share, for a bounded number of rounds,
until the trains are full. Ends with status 0 where what the host wrote to its notes is, byte for byte, the export of the bookings as they
were answered last: each with its retailer, limit, total, places, phase and end, none more and none twice; where bookings of each phase are
among them; and where a host that begins with that export shows each of them as it was.
"""
import calendar
import datetime
import json
import os
import subprocess
import sys
import tempfile
import threading
import time

from at_once import ROOT, Reader, connect, request
from ports import free_port

CLIENTS, ROUNDS = 16, 12
KEYS = [b"north", b"south"]
LETTERS = {"PREBOOKED": "P", "CONFIRMED": "C", "FULFILLED": "F", "RELEASED": "r", "REFUNDED": "f", "EXCHANGED": "x"}
REFUSALS = {(409, "NoPlace"), (503, "Contended")}


class Client:
    """One connection of a retailer, and its bookings as they were answered last."""

    def __init__(self, port, number):
        self.stream = connect(port)
        self.reader = Reader(self.stream)
        self.number, self.key, self.shown, self.refused, self.faults = number, KEYS[number % 2], {}, 0, []

    def ask(self, line, fields=None):
        body = b"" if fields is None else json.dumps(fields, separators=(",", ":")).encode()
        self.stream.sendall(request(line, body, key=self.key))
        return self.reader.answer()

    def fails(self, status, body):
        self.faults.append(f"client {self.number} was answered {status}: {body}")

    def change(self, line, wanted=200, fields=None):
        """The id of the booking that was answered. None where there was no place for it."""
        status, body = self.ask(line, fields)
        if (status, body.get("code")) in REFUSALS:
            self.refused += 1
            return None
        if status != wanted:
            return self.fails(status, body)
        booking = body.get("booking", body)
        self.shown[booking["id"]] = booking
        return booking["id"]

    def quote(self, line, wanted, fields=None):
        status, body = self.ask(line, fields)
        if status != wanted:
            self.fails(status, body)
        return body.get("offers", [body])[-1].get("id", "")

    def refund(self, path):
        quote = self.quote(b"POST " + path + b"/refund-offers", 201)
        self.change(b"PATCH " + path + b"/refund-offers/" + quote.encode(), fields={"status": "CONFIRMED"})

    def exchange(self, name, path, day):
        """For one place on the last train of the day."""
        wish = {"adults": 1, "class": "SECOND", "origin": "BASEL", "destination": "BERN", "earliest": day + "T00:00:00Z"}
        offer = self.quote(b"POST /offers", 200, wish)
        quote = self.quote(b"POST /exchange-offers", 201, {"bookingId": name, "offerId": offer})
        self.change(b"POST " + path + b"/exchange-operations", 201, {"exchangeOfferId": quote})
        self.change(b"GET " + path)

    def round(self, turn, day):
        """One booking, brought as far as the turn says."""
        wish = {"class": "SECOND", "count": 1 + turn % 3, "from": "BASEL", "run": (self.number + turn) % 2, "to": "BERN"}
        name = self.change(b"POST /reservations", 201, wish)
        if name is None:
            return
        path, end = b"/bookings/" + name.encode(), turn % 5
        if end == 0:
            self.change(b"DELETE " + path)
        if end > 1:
            self.change(b"POST " + path + b"/fulfillments")
        if end == 2:
            self.change(b"PATCH " + path + b"/fulfillments", fields={"status": "FULFILLED"})
        if end == 3:
            self.refund(path)
        if end == 4:
            self.exchange(name, path, day)

    def run(self, day):
        try:
            for turn in range(ROUNDS):
                self.round(turn, day)
            self.stream.close()
        except Exception as error:  # told in the summary
            self.faults.append(repr(error))


def catalogue_of(day):
    """The sample catalogue on this day, with a second train as the first, and a further coach in both."""
    with open(os.path.join(ROOT, "examples", "k1.json"), encoding="utf-8") as file:
        catalogue = json.loads(file.read().replace("2026-06-01", day))
    catalogue["rows"] = 4_096
    catalogue["runs"].insert(1, dict(catalogue["runs"][0], train=502))
    for run in catalogue["runs"][:2]:
        run["coaches"] = run["coaches"] + [{"coach": 30, "class": "SECOND", "places": [{"first": 1, "last": 80}]}]
    return catalogue


class Exports:
    """What an export says of a booking, by a catalogue whose runs have at most 63 legs."""

    def __init__(self, catalogue):
        self.rows, runs = catalogue["rows"], list(enumerate(catalogue["runs"]))
        places = [(run, coach["coach"], number) for run, one in runs for coach in one["coaches"]
                  for group in coach["places"] for number in range(group["first"], group["last"] + 1)]
        self.places = {place: number for number, place in enumerate(places)}
        self.stops = {(run, stop["station"]): number for run, one in runs for number, stop in enumerate(one["stops"])}

    def item(self, one):
        run = one["run"]
        place = self.places[run, one["coach"], one["place"]]
        return "%d.%d.%d" % (place, self.stops[run, one["from"]], self.stops[run, one["to"]])

    def line(self, retailer, booking):
        row, generation = row_of(booking["id"])
        items = [self.item(one) for one in booking["reservations"]]
        fields = ["row", row, generation, LETTERS[booking["status"]], retailer, seconds(booking["confirmableUntil"]),
                  booking["price"]["amount"], len(items)] + items
        if booking["settled"]:
            amount = booking["endAmount"]["amount"]
            successor = "%d.%d" % row_of(booking["successor"]) if "successor" in booking else "-"
            fields += ["m%d" % -amount if amount < 0 else "p%d" % amount, seconds(booking["endedAt"]), successor]
        return " ".join(str(field) for field in fields)

    def text(self, clients):
        """The export of all bookings of the clients."""
        shown = [(row_of(name)[0], self.line(client.number % 2 + 1, booking)) for client in clients for name, booking in client.shown.items()]
        lines = [line for _, line in sorted(shown)]
        return "\n".join(["rail-export 1 %d %d" % (len(self.places), self.rows)] + lines + ["end %d\n" % len(lines)])


def row_of(name):
    row, _, generation = name[1:].partition("-")
    return int(row), int(generation or 0)


def seconds(moment):
    return calendar.timegm(time.strptime(moment, "%Y-%m-%dT%H:%M:%SZ"))


def sold(program, folder, day):
    """The clients once they are through, the status of the host, and what it wrote to its notes."""
    port = free_port()
    words = ["serve", "k.json", "--port", str(port), "--workers", "8", "--connections", str(CLIENTS), "--sweep", "1", "--export"]
    with open(os.path.join(folder, "x.txt"), "wb") as notes:
        server = subprocess.Popen([program] + words, cwd=folder, stderr=notes)
    clients = [Client(port, number) for number in range(CLIENTS)]
    threads = [threading.Thread(target=client.run, args=(day,)) for client in clients]
    for thread in threads:
        thread.start()
    for thread in threads:
        thread.join(300)
    try:
        status = server.wait(60)
    except subprocess.TimeoutExpired:
        server.kill()
        status = -1
    with open(os.path.join(folder, "x.txt"), encoding="latin-1") as file:
        return clients, status, file.read()


def unlike(text, wanted):
    """The lines that one of two exports has and the other hasn't."""
    own, others = set(text.split("\n")), set(wanted.split("\n"))
    lines = ["in the export, and never answered: " + line for line in sorted(own - others)]
    lines += ["answered, and not in the export: " + line for line in sorted(others - own)]
    return lines if lines or text == wanted else ["a line stands twice, or in another order"]


def unlike_shown(program, folder, clients):
    """The bookings that a host which begins with the export doesn't show as they were answered."""
    for number, key in enumerate(KEYS):
        shown = {name: booking for client in clients[number::2] for name, booking in client.shown.items()}
        asked = b"".join(request(b"GET /bookings/" + name.encode(), key=key) for name in shown)
        words = [program, "replay", "k.json", "--from", "x.txt", "--start", "2026-06-01T06:00:00Z"]
        answers = subprocess.run(words, cwd=folder, input=asked, capture_output=True).stdout
        bodies = [json.loads(part.split(b"\r\n\r\n", 1)[1]) for part in answers.split(b"HTTP/1.1 ")[1:]]
        if len(bodies) != len(shown):
            yield f"{len(bodies)} answers of {len(shown)} to {key}"
        yield from [f"{name} is shown as {body}" for (name, booking), body in zip(shown.items(), bodies) if body != booking]


def main():
    program = os.path.abspath(sys.argv[1])
    day = (datetime.date.today() + datetime.timedelta(days=2)).isoformat()
    catalogue = catalogue_of(day)
    with tempfile.TemporaryDirectory() as folder:
        with open(os.path.join(folder, "k.json"), "w", encoding="utf-8") as file:
            json.dump(catalogue, file)
        clients, status, text = sold(program, folder, day)
        faults = [fault for client in clients for fault in client.faults]
        faults += [] if status == 0 else [f"the host ended with {status}"]
        faults += unlike(text, Exports(catalogue).text(clients))
        faults += unlike_shown(program, folder, clients)
    phases = {booking["status"] for client in clients for booking in client.shown.values()}
    faults += [f"no booking is {phase}" for phase in LETTERS if phase not in phases]
    refused = sum(client.refused for client in clients)
    faults += [] if refused else ["no one was refused a place"]
    for fault in faults[:10]:
        print(fault)
    count = sum(len(client.shown) for client in clients)
    print(f"{count} bookings of {CLIENTS} clients in the export, {refused} refused, {len(faults)} faults, status {status}")
    sys.exit(1 if faults else 0)


if __name__ == "__main__":
    main()

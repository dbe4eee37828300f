#!/usr/bin/env python3
"""Twelve clients at once against `serve`, who book parties side by side in one coach of twenty places, and one another's way.

    tests/clients/parties.py PROGRAM

Each client reserves three or four places with `"together":true`, shows and releases them, for a bounded number of rounds and seconds. The
coach is nearly full all the time, so that a stretch which one of them was shown free is often taken by another before it is won whole.
Ends with status 0 where each party that was answered has all its places, no place was held by two at once, both ways of sitting and a
refusal were met, and at the end, when all is released, a party finds the first places again: none is left behind by a try that failed.
"""
import json
import os
import subprocess
import sys
import tempfile
import threading
import time

from at_once import ROOT, Reader, connect, request
from ports import free_port

CLIENTS, PLACES, ROUNDS, SECONDS, MOST_SECONDS = 12, 20, 400, 8, 120


def wish(count):
    fields = {"class": "SECOND", "count": count, "from": "BASEL", "run": 0, "to": "BERN", "wanted": ["QUIET"], "together": True}
    return json.dumps(fields, separators=(",", ":")).encode()


class Ledger:
    """What all clients together were answered, from now on."""

    def __init__(self):
        self.lock, self.held, self.faults, self.begin = threading.Lock(), {}, [], time.monotonic()
        self.beside = self.apart = self.refused = 0

    def goes_on(self, turn):
        """Until the rounds or the seconds are over, and on until both ways of sitting and a refusal were met, but not for ever."""
        seconds = time.monotonic() - self.begin
        enough = min(self.beside, self.apart, self.refused) > 0 and (turn >= ROUNDS or seconds > SECONDS)
        return not self.faults and not enough and seconds < MOST_SECONDS

    def fault(self, what):
        with self.lock:
            self.faults.append(what)

    def seated(self, booking, count):
        places = sorted((one["coach"], one["place"]) for one in booking["reservations"])
        coach, first = places[0]
        beside = places == [(coach, first + number) for number in range(count)]
        with self.lock:
            if len(set(places)) != count:
                self.faults.append(f"a party of {count} was given {places}")
            for place in places:
                if place in self.held:
                    self.faults.append(f"{place} is held by {self.held[place]} and {booking['id']}")
                self.held[place] = booking["id"]
            self.beside += beside
            self.apart += not beside
        return places

    def releases(self, places):
        with self.lock:
            for place in places:
                del self.held[place]


def ask(stream, reader, line, body=b"", last=False):
    stream.sendall(request(line, body, last))
    return reader.answer()


def seat_parties(port, ledger, number):
    """One client: a party of three or of four each round, released before the next."""
    stream = connect(port)
    reader = Reader(stream)
    turn = 0
    while ledger.goes_on(turn):
        turn += 1
        count = 3 + (number + turn) % 2
        status, booking = ask(stream, reader, b"POST /reservations", wish(count))
        if status == 201:
            places, path = ledger.seated(booking, count), b"/bookings/" + booking["id"].encode()
            status, shown = ask(stream, reader, b"GET " + path)
            if status != 200 or shown["reservations"] != booking["reservations"]:
                ledger.fault(f"GET {booking['id']}: {status} {shown}")
            ledger.releases(places)
            status, released = ask(stream, reader, b"DELETE " + path)
            if status != 200 or released["status"] != "RELEASED":
                ledger.fault(f"DELETE {booking['id']}: {status} {released}")
        elif (status, booking["code"]) in ((409, "NoPlace"), (503, "Contended")):
            with ledger.lock:
                ledger.refused += 1
        else:
            ledger.fault(f"a party of {count} was answered {status}: {booking}")
    stream.close()


def client(port, ledger, number):
    try:
        seat_parties(port, ledger, number)
    except Exception as error:  # told in the summary
        ledger.fault(repr(error))


def last_party(port, ledger):
    """When all is released, a party of eight sits side by side at the first places."""
    stream = connect(port)
    status, booking = ask(stream, Reader(stream), b"POST /reservations", wish(8), last=True)
    stream.close()
    places = [one["place"] for one in booking["reservations"]] if status == 201 else None
    if places != list(range(1, 9)):
        ledger.fault(f"the last party was answered {status}: {booking}")


def main():
    program, port = os.path.abspath(sys.argv[1]), free_port()
    with open(os.path.join(ROOT, "examples", "k1.json"), encoding="utf-8") as file:
        catalogue = json.load(file)
    coach = {"coach": 30, "class": "SECOND", "places": [{"first": 1, "last": PLACES, "traits": ["QUIET"]}]}
    catalogue["runs"][0]["coaches"].append(coach)
    with tempfile.TemporaryDirectory() as folder:
        with open(os.path.join(folder, "parties.json"), "w", encoding="utf-8") as file:
            json.dump(catalogue, file)
        words = [program, "serve", "parties.json", "--port", str(port), "--workers", str(CLIENTS)]
        words += ["--connections", str(CLIENTS + 1), "--sweep", "1"]
        server = subprocess.Popen(words, cwd=folder)
        ledger = Ledger()
        threads = [threading.Thread(target=client, args=(port, ledger, number)) for number in range(CLIENTS)]
        for thread in threads:
            thread.start()
        for thread in threads:
            thread.join(2 * MOST_SECONDS)
        last_party(port, ledger)
        try:
            status = server.wait(60)
        except subprocess.TimeoutExpired:
            server.kill()
            status = -1
    if min(ledger.beside, ledger.apart, ledger.refused) == 0 or status != 0:
        ledger.fault("a way of sitting or a refusal was never met, or the host didn't end well")
    for fault in ledger.faults[:10]:
        print(fault)
    met = f"{ledger.beside} parties side by side, {ledger.apart} apart, {ledger.refused} refused"
    print(f"{met}, {len(ledger.faults)} faults, status {status}")
    sys.exit(1 if ledger.faults else 0)


if __name__ == "__main__":
    main()

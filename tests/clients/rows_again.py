#!/usr/bin/env python3
"""Sixteen clients at once against `serve` on a catalogue of 64 rows, whose rows are used again and again.

    tests/clients/rows_again.py PROGRAM

Each client keeps up to two bookings, shows and releases them, and reserves anew, for a bounded number of rounds and seconds. So some rows
always have a booking that has ended, and a host that is full all the same answers 507. Ends with status 0 where no place was held by two
bookings at once, no id was answered for two bookings, an id that was released is RELEASED or unknown, no answer was 507, and rows were
used again.
"""
import json
import os
import subprocess
import sys
import tempfile
import threading
import time

from at_once import BODY, ROOT, Reader, connect, request
from ports import free_port

CLIENTS, ROWS, ROUNDS, SECONDS, MOST_SECONDS = 16, 64, 400, 10, 120
MISSED = {(409, "NoPlace"), (503, "Contended")}


class Ledger:
    """What all clients together were answered, from now on."""

    def __init__(self):
        self.lock, self.held, self.ids, self.faults = threading.Lock(), {}, set(), []
        self.again, self.missed, self.begin = 0, 0, time.monotonic()

    def goes_on(self, turn):
        """Until the rounds or the seconds are over, and on until rows were used again, but not for ever."""
        seconds = time.monotonic() - self.begin
        enough = self.again > ROWS and (turn >= ROUNDS or seconds > SECONDS)
        return not self.faults and not enough and seconds < MOST_SECONDS

    def sold(self, booking):
        place = (booking["reservations"][0]["coach"], booking["reservations"][0]["place"])
        with self.lock:
            if booking["id"] in self.ids:
                self.faults.append(f"{booking['id']} was answered twice")
            if place in self.held:
                self.faults.append(f"{place} is held by {self.held[place]} and {booking['id']}")
            self.ids.add(booking["id"])
            self.again += "-" in booking["id"]
            self.held[place] = booking["id"]
        return booking["id"], place

    def releases(self, place):
        with self.lock:
            del self.held[place]

    def misses(self):
        with self.lock:
            self.missed += 1

    def is_fine(self, holds, what):
        if not holds:
            with self.lock:
                self.faults.append(what)


def ask(stream, reader, line, body=b""):
    stream.sendall(request(line, body))
    return reader.answer()


def reserve(stream, reader, ledger):
    """What was sold. A place that others take and give back meanwhile may be missed, so that there is none, and the client asks again."""
    status, booking = ask(stream, reader, b"POST /reservations", BODY)
    if status == 201:
        return [ledger.sold(booking)]
    ledger.is_fine((status, booking["code"]) in MISSED, f"a reservation was answered {status}: {booking}")
    ledger.misses()
    return []


def sell_and_release(port, ledger):
    """One client: two bookings a round, both shown and released."""
    stream = connect(port)
    reader = Reader(stream)
    turn = 0
    while ledger.goes_on(turn):
        turn += 1
        kept = reserve(stream, reader, ledger) + reserve(stream, reader, ledger)
        for name, place in kept:
            path = b"/bookings/" + name.encode()
            status, booking = ask(stream, reader, b"GET " + path)
            ledger.is_fine(status == 200 and booking["id"] == name and booking["status"] == "PREBOOKED", f"{name}: {status} {booking}")
            ledger.releases(place)
            status, booking = ask(stream, reader, b"DELETE " + path)
            ledger.is_fine(status == 200 and booking["status"] == "RELEASED", f"DELETE {name}: {status} {booking}")
            status, booking = ask(stream, reader, b"GET " + path)
            gone = status == 404 and booking["code"] == "UnknownBooking"
            ledger.is_fine(gone or status == 200 and booking["id"] == name and booking["status"] == "RELEASED", f"{name}: {status} {booking}")
    stream.close()


def client(port, ledger):
    try:
        sell_and_release(port, ledger)
    except Exception as error:  # told in the summary
        ledger.is_fine(False, repr(error))


def main():
    program, port = os.path.abspath(sys.argv[1]), free_port()
    with open(os.path.join(ROOT, "examples", "k1.json"), encoding="utf-8") as file:
        catalogue = json.load(file)
    catalogue["rows"] = ROWS
    catalogue["runs"][0]["coaches"].append({"coach": 30, "class": "SECOND", "places": [{"first": 1, "last": 2 * CLIENTS}]})
    with tempfile.TemporaryDirectory() as folder:
        with open(os.path.join(folder, "rows.json"), "w", encoding="utf-8") as file:
            json.dump(catalogue, file)
        words = [program, "serve", "rows.json", "--port", str(port), "--workers", str(CLIENTS), "--connections", str(CLIENTS), "--sweep", "1"]
        server = subprocess.Popen(words, cwd=folder)
        ledger = Ledger()
        threads = [threading.Thread(target=client, args=(port, ledger)) for _ in range(CLIENTS)]
        for thread in threads:
            thread.start()
        for thread in threads:
            thread.join(2 * MOST_SECONDS)
        try:
            status = server.wait(60)
        except subprocess.TimeoutExpired:
            server.kill()
            status = -1
    ledger.is_fine(ledger.again > ROWS, f"after {MOST_SECONDS} seconds only {ledger.again} rows were used again")
    ledger.is_fine(20 * ledger.missed < len(ledger.ids), f"{ledger.missed} reservations were refused")
    ledger.is_fine(status == 0, "the host didn't end well")
    for fault in ledger.faults[:10]:
        print(fault)
    print(f"{len(ledger.ids)} bookings on {ROWS} rows, {ledger.again} of them on rows used before, {ledger.missed} refused for others that came and "
          f"went, {len(ledger.faults)} faults, status {status}")
    sys.exit(1 if ledger.faults else 0)


if __name__ == "__main__":
    main()

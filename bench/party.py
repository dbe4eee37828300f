#!/usr/bin/env python3
"""Parties of four on a run of 600 places half of which are sold, beside four single reservations: processor time of `replay`.

  bench/party.py PROGRAM

Blocks of eight places are sold and free by turns. A party asks for four places side by side and is released; the same with four places
that are asked for one by one, and with a party that asks for four without sitting together.
"""
import json
import os
import resource
import subprocess
import sys
import tempfile

PLACES, BLOCK, ROUNDS = 600, 8, 6_000
KEY = b"Retailer-Key: north\r\n"


def post(body):
    text = json.dumps(body).encode()
    return b"POST /reservations HTTP/1.1\r\n%sContent-Length: %d\r\n\r\n%s" % (KEY, len(text), text)


def delete(row, generation=0):
    name = b"B%06d" % row + (b"-%d" % generation if generation else b"")
    return b"DELETE /bookings/%s HTTP/1.1\r\n%s\r\n" % (name, KEY)


def seconds(program, folder, requests):
    before = resource.getrusage(resource.RUSAGE_CHILDREN).ru_utime
    ran = subprocess.run([program, "replay", "k.json", "--start", "2026-06-01T06:00:00Z"], input=b"".join(requests), cwd=folder, stdout=subprocess.PIPE, check=True)
    assert ran.stdout.count(b"HTTP/1.1 20") == len(requests), ran.stdout[-300:]
    return resource.getrusage(resource.RUSAGE_CHILDREN).ru_utime - before


def main():
    program = os.path.abspath(sys.argv[1])
    wish = {"run": 0, "from": "A", "to": "B"}
    catalogue = {
        "currency": "EUR", "rows": 60_000, "retailers": [{"number": 1, "key": "north"}], "stations": [{"code": "A"}, {"code": "B"}],
        "refundSteps": [{"before": 0, "fee": 0}], "ticketFee": 0, "exchangeFee": 0,
        "runs": [{"train": 1, "stops": [{"station": "A", "depart": "2026-06-01T08:00:00Z"}, {"station": "B", "arrive": "2026-06-01T09:00:00Z"}],
                  "fares": {"first": {"base": 1, "perLeg": 1}, "second": {"base": 1, "perLeg": 1}},
                  "coaches": [{"coach": coach, "class": "SECOND", "places": [{"first": 1, "last": 100}]} for coach in range(1, PLACES // 100 + 1)]}],
    }
    sold = [post(wish) for _ in range(PLACES)] + [delete(row) for row in range(PLACES) if row // BLOCK % 2]
    with tempfile.TemporaryDirectory() as folder:
        with open(os.path.join(folder, "k.json"), "w") as file:
            json.dump(catalogue, file)
        begin = min(seconds(program, folder, sold) for _ in range(3))
        for name, step, wishes in (("four side by side", 1, [{**wish, "count": 4, "together": True}]), ("four as they come", 1, [{**wish, "count": 4}]), ("one by one", 4, [wish] * 4)):
            more = []
            for turn in range(ROUNDS):
                row = PLACES + turn * step
                more += [post(one) for one in wishes] + [delete(row + number) for number in range(step)]
            spent = min(seconds(program, folder, sold + more) for _ in range(3)) - begin
            print("%-18s %6.1f us, with its release" % (name, spent / ROUNDS * 1e6))


main()

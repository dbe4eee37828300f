#!/usr/bin/env python3
"""What a reservation costs on a host whose rows are all used, of which one has ended: the search for it goes through the rows.

  bench/full_host.py PROGRAM [ROWS..]

For each number of rows (64, 4,096, 65,536 and 262,144 by default) it starts PROGRAM with `serve`, makes a booking for every row, and then
again and again releases the newest and reserves anew: the row that has ended is the last one, so each reservation looks at every row. It
prints processor time of the host for one release with one reservation, and for one reservation while there were unused rows.
"""
import json
import os
import socket
import subprocess
import sys
import tempfile
import time

PLACES, MOST_REQUESTS, BATCH, PAIRS = 1_200, 65_000, 256, 200
KEY = b"Retailer-Key: north\r\n"


def catalogue(rows):
    runs = [{
        "train": number + 1,
        "stops": [{"station": "A", "depart": "2099-06-01T08:00:00Z"}, {"station": "B", "arrive": "2099-06-01T09:00:00Z"}],
        "fares": {"first": {"base": 1, "perLeg": 1}, "second": {"base": 1, "perLeg": 1}},
        "coaches": [{"coach": coach + 1, "class": "SECOND", "places": [{"first": 1, "last": 100}]} for coach in range(PLACES // 100)],
    } for number in range(rows // PLACES + 1)]
    return {"currency": "EUR", "rows": rows, "confirmSeconds": 86_400, "retailers": [{"number": 1, "key": "north"}],
            "stations": [{"code": "A"}, {"code": "B"}], "refundSteps": [{"before": 0, "fee": 0}], "ticketFee": 0, "exchangeFee": 0, "runs": runs}


def reservation(number):
    body = b'{"from":"A","run":%d,"to":"B"}' % (number // PLACES)
    return b"POST /reservations HTTP/1.1\r\n%sContent-Length: %d\r\n\r\n%s" % (KEY, len(body), body)


class Connection:
    def __init__(self, port):
        self.stream, self.held, self.requests = socket.create_connection(("127.0.0.1", port)), b"", 0

    def ask(self, requests):
        """Sends the requests at once, and gives their bodies."""
        self.stream.sendall(b"".join(requests))
        self.requests += len(requests)
        return [self.answer() for _ in requests]

    def answer(self):
        while b"\r\n\r\n" not in self.held:
            self.held += self.more()
        head, self.held = self.held.split(b"\r\n\r\n", 1)
        length = int(head.lower().split(b"content-length:")[1].split(b"\r\n")[0])
        while len(self.held) < length:
            self.held += self.more()
        body, self.held = self.held[:length], self.held[length:]
        return json.loads(body)

    def more(self):
        got = self.stream.recv(1 << 20)
        if not got:
            raise EOFError("the host ended the connection")
        return got


def seconds_of(pid):
    fields = open("/proc/%d/stat" % pid).read().rsplit(")", 1)[1].split()
    return (int(fields[11]) + int(fields[12])) / os.sysconf("SC_CLK_TCK")


def measure(program, rows):
    with tempfile.TemporaryDirectory() as folder:
        with open(os.path.join(folder, "k.json"), "w") as file:
            json.dump(catalogue(rows), file)
        with socket.socket() as probe:
            probe.bind(("127.0.0.1", 0))
            port = probe.getsockname()[1]
        host = subprocess.Popen([program, "serve", "k.json", "--port", str(port), "--workers", "1", "--sweep", "86400"], cwd=folder)
        try:
            for _ in range(200):
                time.sleep(0.1)
                try:
                    connection = Connection(port)
                    break
                except OSError:
                    continue
            begin, newest = seconds_of(host.pid), None
            for first in range(0, rows, BATCH):
                if connection.requests + BATCH > MOST_REQUESTS:
                    connection.stream.close()
                    connection = Connection(port)
                newest = connection.ask([reservation(number) for number in range(first, min(first + BATCH, rows))])[-1]["id"]
            filled = seconds_of(host.pid)
            connection.stream.close()
            connection = Connection(port)
            for _ in range(PAIRS):
                released, booking = connection.ask([b"DELETE /bookings/%s HTTP/1.1\r\n%s\r\n" % (newest.encode(), KEY), reservation(rows - 1)])
                assert released["status"] == "RELEASED" and booking["id"].startswith("B%06d-" % (rows - 1)), (released, booking)
                newest = booking["id"]
            ended = seconds_of(host.pid)
            print("%7d rows: %8.1f us a release and a reservation that looks at all rows, %6.1f us a reservation on an unused row" % (
                rows, (ended - filled) / PAIRS * 1e6, (filled - begin) / rows * 1e6))
        finally:
            host.kill()
            host.wait()


for rows in [int(word) for word in sys.argv[2:]] or [64, 4_096, 65_536, 262_144]:
    measure(os.path.abspath(sys.argv[1]), rows)

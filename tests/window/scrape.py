"""The operator's window of a host: what it counts adds up with what the clients counted.

  scrape.py PROGRAM [--port N] [--clients N] [--rounds N]

Clients send a mixed load to a host, some of it refused, and count what they send and are answered. Then the window is asked: its counts must be
theirs. `promtool check metrics`, of Debian's package prometheus, must find nothing in its text, where it is installed.
"""
import argparse
import collections
import json
import os
import re
import shutil
import socket
import subprocess
import sys
import tempfile
import threading
import time

EXAMPLE = os.path.join(os.path.dirname(__file__), "..", "..", "examples", "k1.json")
SECONDS = 60
ROWS = 65_536  # as many as a catalogue has that says none
SAMPLE = re.compile(r'^(\w+)(?:\{((?:\w+="[^"]*",?)+)\})? (\d+)(e-9)?$')
LABEL = re.compile(r'\w+="([^"]*)"')
PROBLEM = re.compile(rb'^\{"code":"(\w+)"')


class Refusal(Exception):
    """What was wrong."""


def expect(holds: bool, what: str) -> None:
    if not holds:
        raise Refusal(what)


# HTTP by hand, so that every byte is counted


def connect(port: int) -> socket.socket:
    """A connection to a port that may not be listened at yet."""
    end = time.monotonic() + SECONDS
    while True:
        try:
            return socket.create_connection(("127.0.0.1", port), timeout=SECONDS)
        except ConnectionRefusedError:
            expect(time.monotonic() < end, f"nobody listens at {port}")
            time.sleep(0.05)


def answer_from(stream) -> tuple:
    """The next answer: its status, its head and its body."""
    head = b""
    while not head.endswith(b"\r\n\r\n"):
        line = stream.readline()
        expect(line != b"", "the connection ended inside an answer")
        head += line
    size = int(re.search(rb"Content-Length: (\d+)", head).group(1))
    return int(head.split(b" ")[1]), head, stream.read(size)


def ask(port: int, request: bytes) -> tuple:
    """The answer to the one request of a connection."""
    with connect(port) as link:
        link.sendall(request)
        with link.makefile("rb") as stream:
            return answer_from(stream)


def get(port: int, path: str, method: str = "GET") -> tuple:
    return ask(port, f"{method} {path} HTTP/1.1\r\nHost: h\r\nConnection: close\r\n\r\n".encode())


# The load


def request(method: str, path: str, fields: dict = None, key: str = "north", last: bool = False) -> bytes:
    body = b"" if fields is None else json.dumps(fields).encode()
    close = "Connection: close\r\n" if last else ""
    return f"{method} {path} HTTP/1.1\r\nHost: h\r\nRetailer-Key: {key}\r\n{close}Content-Length: {len(body)}\r\n\r\n".encode() + body


WISH = {"class": "SECOND", "from": "BERN", "run": 1, "to": "THUN", "wanted": []}

# Requests, each with its route, where it has one, and whether it is carried out: it isn't, where its key or its body is refused.
Asked = collections.namedtuple("Asked", "text route done")
LOAD = [
    Asked(request("POST", "/reservations", WISH), "reserve", True),
    Asked(request("GET", "/nowhere"), None, False),
    Asked(request("PUT", "/offers"), None, False),
    Asked(request("POST", "/offers", {"adults": 0}), "offers", False),
    Asked(request("GET", "/bookings/none"), "show", True),
    Asked(request("POST", "/reservations", WISH, key="nobody"), "reserve", False),
    Asked(request("GET", "/runs/1/places/BERN/THUN"), "places", True),
]
LAST = Asked(request("GET", "/bookings/none", last=True), "show", True)


class Tally:
    """What the clients counted."""

    def __init__(self):
        self.lock = threading.Lock()
        self.statuses, self.codes, self.ends = collections.Counter(), collections.Counter(), collections.Counter()
        self.routes, self.done = collections.Counter(), collections.Counter()
        self.sent = self.received = self.connections = 0

    def add(self, status: int, head: bytes, body: bytes, asked: Asked) -> None:
        code = PROBLEM.match(body)
        with self.lock:
            self.statuses[str(status)] += 1
            self.sent += len(asked.text)
            self.received += len(head) + len(body)
            if status >= 400:
                self.codes[code.group(1).decode()] += 1
            if asked.route:
                self.routes[asked.route] += 1
                self.done[asked.route] += asked.done

    def end(self, cause: str) -> None:
        with self.lock:
            self.connections += 1
            self.ends[cause] += 1


def talk(port: int, number: int, rounds: int, tally: Tally) -> None:
    """One connection: requests one by one and several at once, and an end by the client or by the host."""
    with connect(port) as link, link.makefile("rb") as stream:
        for turn in range(rounds):
            ahead = LOAD if turn % 2 else [LOAD[(number + turn) % len(LOAD)]]
            link.sendall(b"".join(asked.text for asked in ahead))
            for asked in ahead:
                tally.add(*answer_from(stream), asked)
        if number % 2:
            link.sendall(LAST.text)
            tally.add(*answer_from(stream), LAST)
            expect(stream.read() == b"", "bytes after the last answer")
        else:
            link.shutdown(socket.SHUT_WR)
            expect(stream.read() == b"", "bytes that nobody asked for")
    tally.end("host" if number % 2 else "client")


def run_load(port: int, clients: int, rounds: int) -> Tally:
    tally, faults = Tally(), []

    def client(number: int) -> None:
        try:
            talk(port, number, rounds, tally)
        except (Refusal, OSError) as fault:
            faults.append(fault)

    threads = [threading.Thread(target=client, args=(number,)) for number in range(clients)]
    for thread in threads:
        thread.start()
    for thread in threads:
        thread.join()
    expect(not faults, f"a client failed: {faults[:1]}")
    return tally


# The window


def scraped(port: int) -> tuple:
    """The page's text, and its numbers: by name, and by name and label."""
    status, head, body = get(port, "/metrics")
    expect(status == 200 and b"Content-Type: text/plain; version=0.0.4; charset=utf-8\r\n" in head, f"not a page for Prometheus: {head}")
    text, numbers = body.decode(), {}
    for line in text.splitlines():
        if not line.startswith("#"):
            found = SAMPLE.match(line)
            expect(found, f"no sample: {line}")
            key = found.group(1) if found.group(2) is None else (found.group(1), *LABEL.findall(found.group(2)))
            numbers[key] = int(found.group(3)) * (1e-9 if found.group(4) else 1)
    return text, numbers


def settled(port: int, connections: int) -> tuple:
    """The page once so many connections have ended."""
    end = time.monotonic() + SECONDS
    while True:
        text, numbers = scraped(port)
        if sum(value for name, value in numbers.items() if name[0] == "sumacgate_connections_ended_total") == connections:
            return text, numbers
        expect(time.monotonic() < end, f"{connections} connections don't end: {numbers}")
        time.sleep(0.05)


def wait_sweep(port: int) -> None:
    end = time.monotonic() + SECONDS
    while scraped(port)[1]["sumacgate_sweeps_total"] == 0:
        expect(time.monotonic() < end, "no sweep is counted")
        time.sleep(0.1)


def table(numbers: dict, name: str) -> dict:
    return {key[1]: value for key, value in numbers.items() if key[0] == name and value}


def compare(numbers: dict, tally: Tally) -> None:
    for name, here in (("answers", tally.statuses), ("problems", tally.codes), ("connections_ended", tally.ends), ("requests", tally.routes)):
        there = table(numbers, f"sumacgate_{name}_total")
        expect(there == dict(here), f"{name}: the host counted {there}, the clients {dict(here)}")
    for name, here in (("connections_total", tally.connections), ("received_bytes_total", tally.sent), ("sent_bytes_total", tally.received),
                       ("workers_busy", 0), ("workers", 4), ("healthy", 1), ("write_failures_total", 0), ("journal_write_start_seconds", 0), ("journal_lost", 0)):
        there = numbers["sumacgate_" + name]
        expect(there == here, f"{name}: the host counted {there}, the clients {here}")


def compare_books(numbers: dict, tally: Tally) -> None:
    """What looks at the books show: each booking that a client was told of is prebooked in a row, with one place of second class."""
    booked, phases = tally.statuses["201"], table(numbers, "sumacgate_rows")
    expect(booked > 0 and phases.pop("prebooked", 0) == booked, f"{booked} bookings, and rows in phases {table(numbers, 'sumacgate_rows')}")
    kept = phases.pop("making", 0)
    expect(not phases and kept <= 4, f"rows of no booking: {phases}, {kept} in the making")
    expect(numbers["sumacgate_rows_never_used"] == ROWS - booked - kept, f"{numbers['sumacgate_rows_never_used']} rows were never used")
    sold = table(numbers, "sumacgate_places_sold")
    expect(sold == {"second": booked}, f"{booked} places are booked, and sold are {sold}")
    expect(numbers["sumacgate_greatest_generation"] == 0, "a row was used again")


def compare_sweeps(port: int, tally: Tally) -> None:
    """What the last of two further sweeps found: all bookings wait to be confirmed."""
    end, begun = time.monotonic() + SECONDS, scraped(port)[1]["sumacgate_sweeps_total"]
    while scraped(port)[1]["sumacgate_sweeps_total"] < begun + 2:
        expect(time.monotonic() < end, "no sweep is counted")
        time.sleep(0.1)
    numbers = scraped(port)[1]
    found = [numbers["sumacgate_" + name] for name in ("sweeps_expired_total", "sweeps_lost_total", "sweep_waiting")]
    expect(found == [0, 0, tally.statuses["201"]], f"sweeps expired, lost and left {found}")


def compare_times(numbers: dict, tally: Tally, seconds: float) -> None:
    """Each route's times: as many as were carried out, in buckets that only grow, and together no longer than the load took its workers."""
    for route in {key[1] for key in numbers if key[0] == "sumacgate_answer_seconds_count"}:
        count, spent = (numbers["sumacgate_answer_seconds_" + name, route] for name in ("count", "sum"))
        within = [value for key, value in numbers.items() if key[:2] == ("sumacgate_answer_seconds_bucket", route)]
        expect(count == tally.done[route], f"{route}: the host carried out {count}, the clients were told of {tally.done[route]}")
        expect(within == sorted(within) and len(within) == 15 and within[-1] == count, f"{route}: buckets {within}")
        expect((spent > 0) == (count > 0) and spent < 4 * seconds, f"{route}: {count} requests took {spent} s")


def wait_well(port: int) -> None:
    """Until the host takes connections: the window is there a moment before."""
    end = time.monotonic() + SECONDS
    while True:
        status, _, body = get(port, "/healthz")
        if status == 200:
            return expect(body == b"ok\n", f"well: {body}")
        expect((status, body) == (503, b"the host doesn't listen yet\n"), f"not well: {status} {body}")
        expect(time.monotonic() < end, "the host doesn't begin")
        time.sleep(0.05)


def check_pages(port: int) -> None:
    wait_well(port)
    status, head, _ = get(port, "/metrics", "POST")
    expect(status == 405 and b"\r\nAllow: GET\r\n" in head, f"POST is {status}")
    expect(get(port, "/")[0] == 404, "there is a page /")
    expect(ask(port, b"what\r\n\r\n")[0] == 400, "what is no request isn't refused")


def check_slow(port: int, window: int) -> None:
    """Whoever is slow at the window holds up no retailer."""
    with connect(window) as slow:
        slow.sendall(b"GET /metrics HTTP/1.1\r\n")
        begun = time.monotonic()
        for _ in range(20):
            ask(port, request("GET", "/runs/1/places/BERN/THUN", last=True))
        expect(time.monotonic() - begun < 4, "a slow client of the window holds up retailers")


def check_text(text: str) -> str:
    tool = shutil.which("promtool")
    if tool is None:
        return "promtool isn't installed"
    said = subprocess.run([tool, "check", "metrics"], input=text, text=True, capture_output=True, timeout=SECONDS)
    expect(said.returncode == 0 and not said.stdout + said.stderr, f"promtool: {said.stdout}{said.stderr}")
    return "promtool finds nothing"


def try_host(program: str, port: int, clients: int, rounds: int, folder: str) -> str:
    window, journal, slow = port + 1, os.path.join(folder, "journal"), 20
    words = ["serve", EXAMPLE, "--port", str(port), "--window", str(window), "--sweep", "1", "--journal", journal,
             "--connections", str(clients + slow + 1)]
    host = subprocess.Popen([program, *words], stderr=subprocess.PIPE)
    try:
        check_pages(window)
        begun = time.monotonic()
        tally = run_load(port, clients, rounds)
        text, numbers = settled(window, clients)
        compare(numbers, tally)
        compare_times(numbers, tally, time.monotonic() - begun)
        compare_books(numbers, tally)
        compare_sweeps(window, tally)
        said = check_text(text)
        check_slow(port, window)
        expect(numbers["sumacgate_journal_cuts_total"] > 0, "no cut of the journal is counted")
        with connect(port) as last:
            time.sleep(0.5)
            status, _, body = get(window, "/healthz")
            expect((status, body) == (503, b"the last connection is taken\n"), f"draining: {status} {body}")
            wait_sweep(window)
            last.shutdown(socket.SHUT_WR)
        host.wait(SECONDS)
        expect((host.returncode, host.stderr.read()) == (0, b""), f"the host ended with {host.returncode}")
        return f"{sum(tally.statuses.values())} answers on {clients} connections add up; {said}"
    finally:
        host.kill()
        host.wait()


def main() -> int:
    words = argparse.ArgumentParser(description=__doc__, formatter_class=argparse.RawDescriptionHelpFormatter)
    words.add_argument("program")
    words.add_argument("--port", type=int, default=17_440, help="the host's port; the window has the next one")
    words.add_argument("--clients", type=int, default=40)
    words.add_argument("--rounds", type=int, default=20)
    said = words.parse_args()
    with tempfile.TemporaryDirectory() as folder:
        try:
            print(try_host(said.program, said.port, said.clients, said.rounds, folder))
        except Refusal as refusal:
            print(f"scrape: {refusal}")
            return 1
    return 0


if __name__ == "__main__":
    sys.exit(main())

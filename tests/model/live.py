"""Compares `serve` with the plain model over TCP: connections of several retailers, one after the other, on one worker.

  tests/model/live.py PROGRAM [--seeds N] [--from N]

What one retailer sold is there for the next one, who tries the same ids. The second at which a request is answered isn't known
beforehand: the model is asked at each one from before the request went out until its answer was there, and has to give the
answer at one of them. A connection sends its next request only then. Each host ends with an export, which has to be the model's,
and a second one begins with it.
"""
import argparse
import collections
import copy
import os
import pathlib
import random
import socket
import subprocess
import sys
import tempfile
import time

import random_requests
import wire
from bookings import Books
from catalogue import Catalogue, read_catalogue
from export import read_export, write_export
from random_catalogues import catalogue_bytes, random_catalogue
from random_requests import ACTIONS, Stream

sys.path.append(str(pathlib.Path(__file__).resolve().parents[1]))
from ports import free_port  # noqa: E402

# No booking comes to its limit while a run lasts, so that the sweeps of the host change nothing.
LEAST_CONFIRM_SECONDS = 900
LIMIT_SECONDS = 60


class Difference(Exception):
    """The host answered what the model doesn't."""


class SystemClock:
    """The system's clock, in whole seconds. No request moves it on."""
    tick = 0

    @property
    def next_moment(self) -> int:
        return int(time.time())

    def now(self) -> int:
        return self.next_moment


class Connection:
    """The bytes of one connection."""

    def __init__(self, port: int):
        self.socket = connect(port)
        self.held = b""

    def send(self, data: bytes):
        self.socket.sendall(data)

    def read_answer(self) -> bytes:
        """The next answer: its head, and as many bytes as the head says."""
        end = self.read_to(lambda: self.held.find(b"\r\n\r\n") + 4 if b"\r\n\r\n" in self.held else None)
        lines = self.held[:end].split(b"\r\n")
        length = next(int(line.split(b": ")[1]) for line in lines if line.startswith(b"Content-Length: "))
        end = self.read_to(lambda: end + length if len(self.held) >= end + length else None)
        answer, self.held = self.held[:end], self.held[end:]
        return answer

    def read_to(self, find_end) -> int:
        while (end := find_end()) is None:
            data = self.socket.recv(1 << 16)
            if not data:
                raise Difference("the connection ended after %r" % self.held)
            self.held += data
        return end

    def close(self, ended: bool):
        """Where the host has to have ended it, nothing more comes."""
        if ended and (self.held or self.socket.recv(1)):
            raise Difference("something came behind the last answer")
        self.socket.close()


def connect(port: int) -> socket.socket:
    """A connection, as soon as the host listens."""
    end = time.monotonic() + LIMIT_SECONDS
    while True:
        try:
            return socket.create_connection(("127.0.0.1", port), timeout=LIMIT_SECONDS)
        except ConnectionRefusedError:
            if time.monotonic() > end:
                raise
            time.sleep(0.02)


class LiveStream(Stream):
    """Requests of one retailer, each answered by the host and by the model at once."""

    def __init__(self, rng: random.Random, catalogue: Catalogue, connection: Connection, before: Stream = None):
        super().__init__(rng, catalogue, 0, 0)
        self.clock = SystemClock()
        self.connection = connection
        self.statuses = collections.Counter()
        if before is not None:
            self.host.books = before.host.books
            self.offers, self.refunds, self.exchanges = before.offers, before.refunds, before.exchanges

    def send(self, method: str, path: str, body: bytes = b"", key: str = None):
        piece = random_requests.request_bytes(self.rng, method, path, body, self.key if key is None else key)
        (request,), rest = wire.read_requests(piece)
        first = self.clock.now()
        self.connection.send(piece)
        answer = self.connection.read_answer()
        self.follow(request, answer, range(first, self.clock.now() + 1))
        self.closed = rest is not wire.Rest.END
        (status, reply), = wire.split_answers(answer)
        self.statuses[status] += 1
        self.learn(reply)

    def follow(self, request: wire.Request, answer: bytes, seconds: range):
        """Takes the model to where it gives this answer."""
        books, retailer, wanted = self.host.books, self.host.retailer, b""
        for second in seconds:
            self.host.books, self.host.retailer = books_like(books), retailer
            wanted = self.host.answer(request, second)
            if wanted == answer:
                return
        raise Difference("%r\nhost  %r\nmodel %r" % (request, answer, wanted))


def books_like(books: Books) -> Books:
    alike = Books(books.catalogue)
    alike.bookings = copy.deepcopy(books.bookings)
    alike.kept_row = books.kept_row
    return alike


def sellable_catalogue(rng: random.Random) -> bytes:
    catalogue = random_catalogue(rng, int(time.time()), 0)
    if catalogue.get("confirmSeconds", LEAST_CONFIRM_SECONDS) < LEAST_CONFIRM_SECONDS:
        catalogue["confirmSeconds"] = LEAST_CONFIRM_SECONDS
    return catalogue_bytes(rng, catalogue)


def sell(rng: random.Random, catalogue: Catalogue, port: int, connections: int, stream: Stream) -> tuple:
    """So many connections, each with a few requests. How often each status was answered, and the last of them."""
    statuses = collections.Counter()
    for _ in range(connections):
        stream = LiveStream(rng, catalogue, Connection(port), stream)
        for _ in range(rng.choice([5, 15, 30])):
            if not stream.closed:
                rng.choices([action for action, _ in ACTIONS], [weight for _, weight in ACTIONS])[0](stream)
        stream.connection.close(stream.closed)
        statuses += stream.statuses
    return statuses, stream


def run_host(program: str, rng: random.Random, folder: str, catalogue: Catalogue, before: Stream) -> tuple:
    """One host from its start to its end, behind the last connection of one before it: how often each status was answered, and its
    own last connection."""
    connections, port = rng.randint(2, 6), free_port()
    words = ["serve", "k.json", "--port", str(port), "--workers", "1", "--connections", str(connections), "--sweep", "1", "--export"]
    if before is not None:
        words += ["--from", "x.txt"]
    host = subprocess.Popen([program] + words, cwd=folder, stdout=subprocess.PIPE, stderr=subprocess.PIPE)
    try:
        statuses, stream = sell(rng, catalogue, port, connections, before)
        output, notes = host.communicate(timeout=LIMIT_SECONDS)
    finally:
        host.kill()
        host.communicate()
    wanted = write_export(stream.host.books)
    if (output, notes, host.returncode) != (b"", wanted, 0):
        raise Difference("it ended with status %r, %r and %r\nmodel %r" % (host.returncode, output, notes, wanted))
    return statuses, stream


def run(program: str, seed: int) -> collections.Counter:
    """Two hosts, of which the second begins with the export of the first."""
    rng = random.Random(seed)
    data = sellable_catalogue(rng)
    catalogue = read_catalogue(data)
    with tempfile.TemporaryDirectory() as folder:
        write(folder, "k.json", data)
        statuses, stream = run_host(program, rng, folder, catalogue, None)
        text = write_export(stream.host.books)
        write(folder, "x.txt", text)
        stream.host.books = Books(catalogue)
        stream.host.books.bookings = read_export(catalogue, text)
        return statuses + run_host(program, rng, folder, catalogue, stream)[0]


def write(folder: str, name: str, data: bytes):
    with open(os.path.join(folder, name), "wb") as file:
        file.write(data)


def main() -> int:
    parser = argparse.ArgumentParser(description=__doc__, formatter_class=argparse.RawDescriptionHelpFormatter)
    parser.add_argument("program")
    parser.add_argument("--seeds", type=int, default=20)
    parser.add_argument("--from", dest="first", type=int, default=0)
    given = parser.parse_args()
    statuses = collections.Counter()
    for seed in range(given.first, given.first + given.seeds):
        try:
            statuses += run(os.path.abspath(given.program), seed)
        except (Difference, OSError, subprocess.TimeoutExpired) as difference:
            print("seed %d: %s" % (seed, difference))
            return 1
    print("  " + ", ".join("%d %d" % entry for entry in sorted(statuses.items())))
    print("%d hosts with %d answers and %d exports compared, 0 differ" % (2 * given.seeds, sum(statuses.values()), 2 * given.seeds))
    return 0


if __name__ == "__main__":
    sys.exit(main())

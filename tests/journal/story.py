"""One journal through all its hosts: what clients were answered, what each file leaves, and what the next host answers."""
import os
import random
import tempfile
import threading
import time

import text
import world
from clients import Client, start, unanswered
from ledger import Ledger
from world import KEYS, Host, catalogue, catalogue_bytes, recover

import wire  # of the model, whose path world adds
from bookings import Books
from catalogue import read_catalogue
from export import ExportFault, read_export
from service import Host as ModelHost

RUNS, PLACES, ASKED = 6, 40, 60


class Story:
    """The folder has the catalogue `k.json`, and the journal."""

    def __init__(self, program: str, folder: str, rows: int, seed: int, clients: int, confirm_seconds: int = 2):
        self.program, self.folder, self.rng = program, folder, random.Random(seed)
        self.own = catalogue(rows, RUNS, PLACES, confirm_seconds)
        world.write(folder, "k.json", catalogue_bytes(self.own))
        self.model, self.ledger = read_catalogue(catalogue_bytes(self.own)), Ledger(self.own)
        self.clients = [Client(number, self.ledger, seed, RUNS) for number in range(clients)]
        self.bookings, self.torn, self.compared, self.scratch = [], 0, 0, tempfile.TemporaryDirectory()

    def start_clients(self, port: int) -> list:
        self.stop = threading.Event()
        return start(self.clients, port, self.stop)

    def pending(self, threads: list) -> list:
        """The commands without an answer, once the host is gone."""
        end = time.monotonic() + world.LIMIT_SECONDS
        for thread in threads:
            thread.join(max(end - time.monotonic(), 0))
        if any(thread.is_alive() for thread in threads):
            self.ledger.fault("the host neither ends nor lets its clients go")
            self.stop.set()
        return unanswered(self.clients)

    def read_export(self, export: bytes) -> list:
        """The bookings of an export, by the model, which also finds double sales and half exchanges."""
        try:
            return read_export(self.model, export)
        except ExportFault as fault:
            self.ledger.fault("the journal's export has fault %d" % fault.number)
            return []

    def judge(self, data: bytes, pending: list, go_on: bool = True):
        """Holds the bookings that this file leaves against all that was answered. The story goes on with them, or they are one of the ways in
        which it might."""
        try:
            journal = text.read(data)
        except text.JournalFault as fault:
            return self.ledger.fault("the file that a host left: %s" % fault)
        self.torn += journal.whole() < len(data)
        export = journal.export()
        world.write(self.scratch.name, "left", data)
        if (came := recover(self.program, self.folder, os.path.join(self.scratch.name, "left"))) != (0, export, ""):
            self.ledger.fault("recover gives another text than the file's cuts: status %d, %s" % (came[0], came[2]))
        bookings, lines = self.read_export(export), fields_of(export)
        self.ledger.judge(lines, pending, int(time.time()) + 1)
        if go_on:
            self.bookings = bookings
            self.ledger.adopt(lines)

    # The next host, and the model with the bookings of the file

    def compare(self, port: int):
        now, by_row = int(time.time()), {booking.row.number: booking for booking in self.bookings}
        names = self.rng.sample(sorted(self.ledger.told), min(ASKED, len(self.ledger.told)))
        asked = [(name, by_row.get(world.row_of(name)[0])) for name in names]
        asked = [(name, booking) for name, booking in asked if is_steady(booking, now)]
        for number, key in enumerate(KEYS):
            own = asked[number::len(KEYS)]
            data = [world.request(b"GET /bookings/" + name.encode(), key=key) for name, _ in own]
            books = [[booking] if booking else [] for _, booking in own]
            if all(is_steady(booking, now) for booking in self.bookings):
                data.append(world.request(b"GET /runs/%d/places/AARAU/DAVOS" % number, key=key))
                books.append([booking for booking in self.bookings if booking.is_live()])
            for piece, bookings in zip(data, books):
                self.compare_answer(port, piece, bookings)

    def compare_answer(self, port: int, data: bytes, bookings: list):
        """The host's answer to this request, and the model's with these bookings."""
        data = data.replace(b"\r\n\r\n", b"\r\nConnection: close\r\n\r\n", 1)
        with world.connect(port) as stream:
            stream.sendall(data)
            came = b"".join(iter(lambda: stream.recv(1 << 16), b""))
        model = ModelHost(self.model)
        model.books = Books(self.model)
        model.books.bookings = bookings
        wanted = model.answer(wire.read_requests(data)[0][0], int(time.time()))
        self.compared += 1
        if came != wanted:
            self.differ(came, wanted)

    def differ(self, came: bytes, wanted: bytes):
        self.ledger.fault("the next host's answer differs\nhost  %r\nmodel %r" % (came[:3000], wanted[:3000]))

    def begin(self):
        """A host that listens, or None where it didn't begin, which is a fault."""
        host = Host(self.program, self.folder)
        if host.wait():
            return host
        self.ledger.fault("a host didn't begin: %s" % (host.ended(),))
        return None


def is_steady(booking, now: int) -> bool:
    """No sweep changes it in the next seconds."""
    return booking is None or booking.phase.value != "PREBOOKED" or booking.limit > now + 10


def fields_of(export: bytes) -> dict:
    """The fields of each booking's line, by row."""
    lines = [line.split(" ") for line in export.decode("ascii").split("\n")[1:-2]]
    return {int(fields[1]): fields for fields in lines}

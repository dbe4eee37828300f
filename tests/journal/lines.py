#!/usr/bin/env python3
"""Small books through a host with a journal: its file is, byte for byte, what the rules make of what was asked and answered.

  tests/journal/lines.py PROGRAM [--step N]

Hosts begin with new books, with an export that has a booking in each phase, ended in each way, and with a journal. One connection asks. After each
answer the file has to be the first line with its print and a cut for each change, with the lines of the bookings that it changed, and nothing more
for a look, a search or a refusal. A row that serves again has the line of no booking until one is made there; one that serves for the first time
has none. Then `recover` reads a worked journal that is cut off at each byte of its last two cuts (or at each N-th, --step), as it is and with zeros
or noise after it, and one with each byte of a cut changed.
"""
import argparse
import concurrent.futures
import json
import os
import sys
import tempfile

import text
import world
from world import JOURNAL, LETTERS, Host, Lines, Reader, catalogue, catalogue_bytes, recover, request

from catalogue import read_catalogue  # noqa: E402  (of the model, whose path world adds)
from journals import print_of  # noqa: E402

NEVER = 86_400  # seconds between two sweeps: none comes while a host is asked
# A booking in each phase, ended in each way, and a row that serves again, whose booking was never made.
EACH = [b"row 0 0 P 1 4000000000 600 1 16.0.1\n", b"row 1 2 C 3 4000000000 4400 4 8.0.2 9.0.2 10.0.2 11.0.2\n",
        b"row 2 0 F 1 4000000000 800 1 4.1.2\n", b"row 3 0 r 1 1780294500 2200 1 0.0.2 p0 1780293600 -\n",
        b"row 4 0 e 1 1780294500 2200 1 0.0.2 p0 1780294501 -\n", b"row 6 1 f 1 1780294500 2200 1 0.0.2 p1100 1780293600 -\n",
        b"row 7 0 x 1 1780294500 2200 1 0.0.2 m1400 1780293600 2.0\n", b"row 9 3 r 0 0 0 1 0.0.1 p0 0 -\n"]
RELEASED = b"row 0 4 r 1 1780294500 2200 1 0.0.2 p0 1780293600 -\n"
NO_BOOKING = b"row 0 5 r 0 0 0 1 0.0.1 p0 0 -\n"
# The lines of a worked journal's cuts, and what may stand after its torn end.
WORKED = [[b"row 0 0 P 1 4000000000 600 1 16.0.1\n", b"row 3 0 P 1 4000000000 1100 1 4.0.2\n"],
          [b"row 0 0 C 1 4000000000 600 1 16.0.1\n", b"row 7 0 P 2 4000000000 600 1 17.0.1\n"],
          [b"row 7 0 r 2 4000000000 600 1 17.0.1 p0 1780293600 -\n"],
          [b"row 3 0 r 1 4000000000 1100 1 4.0.2 p0 1780293600 -\n", b"row 5 2 P 2 4000000000 800 1 9.0.1\n"]]
ENDS = [b"", bytes(70), b"c", b"7" * 70]
CHANGED = 1  # the cut, from 0, of which each byte is changed


class Books:
    """A host with a journal, one connection to it, and the lines of the cuts that its file has to have."""

    def __init__(self, trial, rows: int, begins: list = None):
        self.trial, own = trial, catalogue(rows, runs=1, places=20)
        self.model, self.lines, self.bodies = read_catalogue(catalogue_bytes(own)), Lines(own), [begins or []]
        world.write(trial.folder, "k.json", catalogue_bytes(own))
        if begins:
            places = len(self.model.places)
            world.write(trial.folder, "x.txt", b"rail-export 1 %d %d\n%send %d\n" % (places, rows, b"".join(begins), len(begins)))
        self.rows, self.begins = rows, begins
        self.begin("x.txt" if begins else None)

    def begin(self, export: str = None):
        self.host = Host(self.trial.program, self.trial.folder, sweep=NEVER, begins=export)
        if not self.host.wait():
            raise OSError("no host began: %s" % (self.host.ended(),))
        self.stream = world.connect(self.host.port)
        self.reader = Reader(self.stream)
        self.look("as the host begins")

    def end(self):
        self.stream.close()
        self.host.end()
        self.look("after the host's end")

    def look(self, when: str):
        """Holds the file against the cuts that there are to be."""
        wanted = text.journal(len(self.model.places), self.rows, print_of(self.model), self.bodies)
        if (came := world.read(self.trial.folder)) != wanted:
            self.trial.faults.append("%s the journal is\n%s\nand not\n%s" % (when, came.decode("latin-1"), wanted.decode("latin-1")))

    def send(self, line: str, fields: dict = None) -> tuple:
        body = b"" if fields is None else json.dumps(fields, separators=(",", ":")).encode("ascii")
        self.stream.sendall(request(line.encode("ascii"), body))
        return self.reader.answer()

    def same(self, status: int, line: str, fields: dict = None) -> dict:
        """What is answered to a request that changes no booking."""
        came, answer = self.send(line, fields)
        if came != status:
            self.trial.faults.append("%s is answered %d: %s" % (line, came, answer))
        self.look("after " + line)
        return answer

    def change(self, line: str, fields: dict = None) -> dict:
        """What is answered to a request that changes the booking of its answer, and the booking that it replaces."""
        came, answer = self.send(line, fields)
        file, booking = world.read(self.trial.folder), answer.get("booking", answer)
        if came not in (200, 201):
            self.trial.faults.append("%s is answered %d: %s" % (line, came, answer))
            return answer
        self.bodies.append([self.line(booking)])
        if "booking" in answer:
            _, old = self.send("GET /bookings/" + line.split("/")[2])
            self.bodies[-1].insert(0, self.line(old))
        self.look("after " + line)
        if file != world.read(self.trial.folder):
            self.trial.faults.append("%s was answered before its cut was kept" % line)
        return booking

    def line(self, booking: dict) -> bytes:
        end = self.lines.end(booking)
        fields = ("row %d %d" % world.row_of(booking["id"]), LETTERS[booking["status"]], *self.lines.base(1, booking), *(end or ()))
        return (" ".join(fields) + "\n").encode("ascii")

    def reserve(self, **more) -> str:
        return self.change("POST /reservations", {"class": "SECOND", "from": "AARAU", "run": 0, "to": "CHUR", **more})["id"]

    def confirmed(self, **more) -> str:
        name = self.reserve(**more)
        self.change("POST /bookings/%s/fulfillments" % name)
        return name

    def refuse(self):
        """A reservation without a place: no place has the trait."""
        self.same(409, "POST /reservations", {"class": "SECOND", "from": "AARAU", "run": 0, "to": "CHUR", "wanted": ["AISLE"]})


def lives(trial):
    """Bookings from their sale to each end, on new books; and the next host's file."""
    books = Books(trial, 8)
    collected = books.confirmed(count=2)
    books.change("PATCH /bookings/%s/fulfillments" % collected, {"status": "FULFILLED"})
    books.same(200, "GET /bookings/" + collected)
    released = books.reserve()
    books.change("DELETE /bookings/" + released)
    books.same(409, "POST /bookings/%s/fulfillments" % released)
    refunded = books.confirmed(**{"class": "FIRST"})
    quote = books.same(201, "POST /bookings/%s/refund-offers" % refunded)
    books.change("PATCH /bookings/%s/refund-offers/%s" % (refunded, quote["id"]), {"status": "CONFIRMED"})
    exchange(books)
    books.same(200, "GET /runs/0/places/AARAU/DAVOS")
    books.end()
    books.bodies = [[line for _, line in sorted(text.read(world.read(trial.folder)).lines.items())]]
    books.begin()
    books.end()


def exchange(books: Books):
    """Exchanges a booking for another stretch: one cut has both lines."""
    name = books.confirmed()
    wish = {"adults": 1, "origin": "BASEL", "destination": "DAVOS", "earliest": world.DAY + "T00:00:00Z"}
    offer = books.same(200, "POST /offers", wish)["offers"][0]["id"]
    quote = books.same(201, "POST /exchange-offers", {"bookingId": name, "offerId": offer})
    books.change("POST /bookings/%s/exchange-operations" % name, {"exchangeOfferId": quote["id"]})


def opened(trial):
    """Books that open with bookings: all are in the first cut, and none is in another one before it changes."""
    books = Books(trial, 10, EACH)
    books.same(200, "GET /bookings/B000000")
    books.same(409, "PATCH /bookings/B000002/fulfillments", {"status": "FULFILLED"})
    books.change("POST /bookings/B000000/fulfillments")
    books.end()


def again(trial):
    """A row that serves again has the line of no booking until one is made there, and once."""
    books = Books(trial, 1, [RELEASED])
    books.bodies.append([NO_BOOKING])
    books.refuse()
    books.refuse()
    books.same(404, "GET /bookings/B000000-4")
    if books.reserve() != "B000000-5":
        trial.faults.append("the row doesn't serve again")
    books.end()


def first(trial):
    """A row that serves for the first time has no line before its booking is made."""
    books = Books(trial, 70)
    books.refuse()
    books.same(404, "GET /bookings/B000000")
    books.reserve(count=3)
    books.end()


class Trial:
    def __init__(self, program: str, folder: str):
        self.program, self.folder, self.faults = program, folder, []

    def run(self, story):
        before = len(self.faults)
        try:
            story(self)
        except (OSError, EOFError) as fault:
            self.faults.append("%s: %s" % (story.__name__, fault))
        if len(self.faults) > before:
            self.faults.insert(before, "%s. %s" % (story.__name__, story.__doc__))
        os.remove(os.path.join(self.folder, JOURNAL))

    def worked(self, step: int) -> list:
        """Texts, each with what `recover` has to make of it."""
        own = catalogue(8, runs=1, places=20)
        world.write(self.folder, "k.json", catalogue_bytes(own))
        model = read_catalogue(catalogue_bytes(own))
        data = text.journal(len(model.places), 8, print_of(model), WORKED)
        cuts = text.read(data).cuts
        texts = [(data[:at] + end, (0, text.read(data[:max(cut.end for cut in cuts if cut.end <= at)]).export(), ""))
                 for at in range(cuts[-2].start, len(data), step) for end in ENDS]
        broken = (1, b"", "rail_host: journal fault 3 at cut %d\n" % (CHANGED + 1))
        return texts + [(data[:at] + bytes([data[at] ^ 1]) + data[at + 1:], broken)
                        for at in range(cuts[CHANGED].start, cuts[CHANGED].end)]

    def recover(self, number: int, case: tuple):
        torn, wanted = case
        name = "text%d" % number
        world.write(self.folder, name, torn)
        if (came := recover(self.program, self.folder, name)) != wanted:
            self.faults.append("of %d bytes: %s and not %s" % (len(torn), came, wanted))
        os.remove(os.path.join(self.folder, name))


def main() -> int:
    parser = argparse.ArgumentParser(description=__doc__, formatter_class=argparse.RawDescriptionHelpFormatter)
    parser.add_argument("program")
    parser.add_argument("--step", type=int, default=1)
    given = parser.parse_args()
    stories = [lives, opened, again, first]
    with tempfile.TemporaryDirectory() as folder:
        trial = Trial(os.path.abspath(given.program), folder)
        for story in stories:
            trial.run(story)
        texts = trial.worked(given.step)
        with concurrent.futures.ThreadPoolExecutor(4) as pool:
            list(pool.map(trial.recover, range(len(texts)), texts))
    for fault in trial.faults[:10]:
        print(fault)
    print("%d hosts' journals, %d torn or changed texts, %d faults" % (len(stories) + 1, len(texts), len(trial.faults)))
    return 1 if trial.faults else 0


if __name__ == "__main__":
    sys.exit(main())

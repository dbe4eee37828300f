#!/usr/bin/env python3
"""A journal that has grown far past what its bookings take is made short again while the host sells, and the host is killed about then.

  tests/journal/grow.py PROGRAM [--rounds N] [--seed N]

Sixteen clients reserve and release on 256 rows, on /dev/shm where there is one, since that syncs at once. Once the file has come near 16 MB the
host is killed at a random moment of the next second. In the first of the rounds (4) it isn't killed before the file was made short. Each file is
judged as by kill.py. Ends with status 0 where all was right, and a file was made short.
"""
import argparse
import os
import sys
import tempfile
import time

import world
from clients import Client
from story import Story

CLIENTS, ROWS = 16, 256
NEAR, ROUND_SECONDS = 15_500_000, 400
SHARED = "/dev/shm"


class Busy(Client):
    """Reserves six places and gives them back, again and again."""

    def next(self) -> tuple:
        names = list(self.mine)
        if len(names) > 1:
            return self.ask("DELETE", "/bookings/" + names[0], "release", names[0])
        return self.reserve()

    def reserve(self) -> tuple:
        wish = {"class": "SECOND", "count": 6, "from": world.STATIONS[0], "to": world.STATIONS[-1], "run": self.rng.randrange(self.runs)}
        return self.ask("POST", "/reservations", "reserve", fields=wish)

    def serve(self, stream, stop):
        self.rng.choice = lambda sizes: 1  # one request in flight: more cuts, and so a file that grows faster
        super().serve(stream, stop)


class Growing(Story):
    shortened = 0

    def size(self) -> int:
        return os.path.getsize(os.path.join(self.folder, world.JOURNAL))

    def round(self, waits: bool):
        host = self.begin()
        if host is None:
            return
        threads = self.start_clients(host.port)
        greatest = self.grow(host, NEAR)
        end = time.monotonic() + (ROUND_SECONDS if waits else self.rng.random())
        while time.monotonic() < end and not host.has_ended():
            greatest, before = max(greatest, self.size()), greatest
            if self.size() < before:
                self.shortened += 1
                break
            time.sleep(0.001)
        time.sleep(self.rng.random() * 0.05)
        if host.has_ended():
            return self.ledger.fault("a host ended by itself: %s" % (host.ended(),))
        host.end()
        self.judge(world.read(self.folder), self.pending(threads))

    def grow(self, host, size: int) -> int:
        end = time.monotonic() + ROUND_SECONDS
        while self.size() < size and not host.has_ended() and time.monotonic() < end:
            time.sleep(0.005)
        return self.size()


def main() -> int:
    parser = argparse.ArgumentParser(description=__doc__, formatter_class=argparse.RawDescriptionHelpFormatter)
    parser.add_argument("program")
    parser.add_argument("--rounds", type=int, default=4)
    parser.add_argument("--seed", type=int, default=1)
    given = parser.parse_args()
    with tempfile.TemporaryDirectory(dir=SHARED if os.access(SHARED, os.W_OK) else None) as folder:
        story = Growing(os.path.abspath(given.program), folder, ROWS, given.seed, CLIENTS, 900)
        story.clients = [Busy(number, story.ledger, given.seed, 6) for number in range(CLIENTS)]
        for number in range(given.rounds):
            if not story.ledger.faults:
                story.round(number == 0)
    for fault in story.ledger.faults[:10]:
        print(fault)
    print("%d rounds, %d files made short, %d answers, %d bookings, %d faults"
          % (given.rounds, story.shortened, story.ledger.answers, len(story.ledger.made), len(story.ledger.faults)))
    return 1 if story.ledger.faults or not story.shortened else 0


if __name__ == "__main__":
    sys.exit(main())

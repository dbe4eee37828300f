#!/usr/bin/env python3
"""Journals whose end is torn off, overwritten or changed: right bookings or a named refusal, never others.

  tests/journal/torn.py PROGRAM [--step N] [--starts N] [--seed N]

A real journal is cut off at each byte of its last two cuts (or at each N-th, --step), as it is and with zeros, with noise, and with the zeros of
a file that was made longer after it; and each of those bytes is changed for another. `recover` has to give the export of the cuts that are whole
before that byte, or, where a later cut is whole, to refuse with the fault and its cut. Some of these texts (--starts, 12) are tried on `serve`:
what is refused leaves the file as it was, and what is taken is served, and is the same text after the next kill.
"""
import argparse
import concurrent.futures
import os
import random
import sys
import tempfile

import text
import world
from expected import NOTE, recovered, sold
from world import JOURNAL, Host, catalogue, catalogue_bytes

from catalogue import read_catalogue  # noqa: E402  (of the model, whose path world adds)

CUTS = 24
ZEROS = 4096


def torn_texts(data: bytes, at: int, rng: random.Random) -> list:
    """The journal with its end torn at this byte, in several ways."""
    noise = bytes(rng.randrange(256) for _ in range(rng.randrange(1, 200)))
    other = bytes([data[at] ^ (1 << rng.randrange(8))])
    return [data[:at], data[:at] + bytes(len(data) - at), data[:at] + bytes(ZEROS), data[:at] + noise, data[:at] + other + data[at + 1:]]


def wanted_of(journal: text.Journal, data: bytes, torn: bytes, at: int) -> tuple:
    """What has to come of it: the cuts before the byte, unless the last cut is still whole after it."""
    cuts = [cut for cut in journal.cuts if cut.end <= at]
    last = journal.cuts[-1]
    if at < last.start and torn[last.start:] == data[last.start:]:
        return 1, b"", NOTE % ("journal fault 3 at cut %d" % (len(cuts) + 1))
    return 0, text.read(data[:cuts[-1].end]).export(), ""


class Trial:
    def __init__(self, program: str, folder: str, seed: int):
        own = catalogue(256, confirm_seconds=900)
        world.write(folder, "k.json", catalogue_bytes(own))
        self.program, self.folder, self.rng, self.faults = program, folder, random.Random(seed), []
        self.data = sold(program, folder, own, CUTS, seed)
        self.journal, self.model = text.read(self.data), read_catalogue(catalogue_bytes(own))

    def cases(self, step: int) -> list:
        """Each text with the byte at which it is torn and what has to come of it."""
        begin = self.journal.cuts[-2].start
        return [(at, torn, wanted_of(self.journal, self.data, torn, at)) for at in range(begin, len(self.data), step)
                for torn in torn_texts(self.data, at, self.rng)]

    def recover(self, number: int, case: tuple):
        at, torn, wanted = case
        name = "torn%d" % number
        world.write(self.folder, name, torn)
        came = world.recover(self.program, self.folder, name)
        if came != wanted or wanted != recovered(self.model, self.journal.print, torn):
            self.faults.append("torn at byte %d (%d of %d): %s and not %s" % (at, len(torn), len(self.data), came, wanted))
        elif world.read(self.folder, name) != torn:
            self.faults.append("recover changed the file that was torn at byte %d" % at)
        os.remove(os.path.join(self.folder, name))

    def serve(self, case: tuple):
        at, torn, (status, export, note) = case
        world.write(self.folder, JOURNAL, torn)
        host = Host(self.program, self.folder, sweep=60)
        if host.wait() != (status == 0):
            self.faults.append("serve began, or not, with a file torn at byte %d: %s" % (at, host.end()))
        elif status and (host.ended() != (status, note) or world.read(self.folder) != torn):
            self.faults.append("serve ended with %s, or changed the file torn at byte %d" % (host.ended(), at))
        elif not status:
            host.end()
            after = text.read(world.read(self.folder))
            if after.export() != export or len(after.cuts) != 1:
                self.faults.append("the file of a host that began with one torn at byte %d has other bookings" % at)


def main() -> int:
    parser = argparse.ArgumentParser(description=__doc__, formatter_class=argparse.RawDescriptionHelpFormatter)
    parser.add_argument("program")
    parser.add_argument("--step", type=int, default=1)
    parser.add_argument("--starts", type=int, default=12)
    parser.add_argument("--seed", type=int, default=1)
    given = parser.parse_args()
    with tempfile.TemporaryDirectory() as folder:
        trial = Trial(os.path.abspath(given.program), folder, given.seed)
        cases = trial.cases(given.step)
        with concurrent.futures.ThreadPoolExecutor(4) as pool:
            list(pool.map(trial.recover, range(len(cases)), cases))
        for case in trial.rng.sample(cases, given.starts):
            trial.serve(case)
    refused = sum(wanted[0] != 0 for _, _, wanted in cases)
    for fault in trial.faults[:10]:
        print(fault)
    print("%d torn journals, %d of them refused, %d served, %d faults" % (len(cases), refused, given.starts, len(trial.faults)))
    return 1 if trial.faults or not 0 < refused < len(cases) else 0


if __name__ == "__main__":
    sys.exit(main())

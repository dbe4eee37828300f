#!/usr/bin/env python3
"""The machine dies at one call of the journal's file after another, and only what was synced is sure to be there.

  tests/journal/power.py PROGRAM [--calls N] [--only N] [--seed N]

The host of each round is gone before its call number 1, 2, .. 200 (or only N of these) that writes, syncs, renames or empties the journal's
file; eight clients sell until then. The next machine finds what was synced, and of what was written after that nothing, a part, all, or zeros;
after a rename whose folder wasn't synced it finds the old file or the new one. Each such file has to leave all that was answered, and one of
them, drawn by lot, is what the next host begins with. Further machines (at most 60) die until an end was torn and something was answered. Needs
gcc and the C library of the host to be linked dynamically.
"""
import argparse
import os
import random
import sys
import tempfile

import disk
import world
from story import Story
from world import JOURNAL, Host

CLIENTS, ROWS, CALLS, MORE = 8, 8_192, 200, 60
MOST_SECONDS = 60


class Machine(Story):
    """A story of machines that die."""
    died, states, unanswered = 0, 0, 0

    def play(self, library: str, calls: list):
        """A death at each of these calls, and at more of them as long as no end was torn or nothing was answered."""
        for at in calls + self.rng.choices(calls, k=MORE):
            if self.ledger.faults or (self.died >= len(calls) and self.torn and self.ledger.answers):
                return
            self.round(library, at)
            self.died += 1
        if not (self.torn and self.ledger.answers):
            self.ledger.fault("%d torn ends and %d answers" % (self.torn, self.ledger.answers))

    def round(self, library: str, at: int):
        before = world.read(self.folder)
        host = Host(self.program, self.folder, env=disk.environment(library, self.folder, at, "die"))
        pending = []
        if host.wait():
            self.compare_while_it_lives(host)
            pending = self.pending(self.start_clients(host.port))
        status, note = host.ended(MOST_SECONDS)
        if status != -9:
            return self.ledger.fault("a host whose machine dies at call %d ended with %s, %s" % (at, status, note))
        self.find(disk.read_log(self.folder, before), pending)

    def compare_while_it_lives(self, host: Host):
        """The machine may die meanwhile, which breaks an answer off."""
        try:
            self.compare(host.port)
        except OSError as error:
            if host.ended(MOST_SECONDS)[0] != -9:
                self.ledger.fault("an answer broke off, and no machine died: %r" % error)

    def differ(self, came: bytes, wanted: bytes):
        if wanted.startswith(came):
            raise ConnectionAbortedError("%d bytes of %d" % (len(came), len(wanted)))
        super().differ(came, wanted)

    def find(self, died: disk.Disk, pending: list):
        """What the next machine may find."""
        texts = died.texts(self.folder, self.rng)
        self.states += len(texts)
        self.unanswered += len(pending)
        for data in texts:
            if data is not None:
                self.judge(data, pending, go_on=False)
            elif self.ledger.told:
                self.ledger.fault("there may be no file, and answers were told")
        self.next_machine(self.rng.choice(texts), pending)

    def next_machine(self, data: bytes, pending: list):
        if data is None:
            os.remove(os.path.join(self.folder, JOURNAL)) if world.read(self.folder) is not None else None
        else:
            world.write(self.folder, JOURNAL, data)
            self.judge(data, pending)


def main() -> int:
    parser = argparse.ArgumentParser(description=__doc__, formatter_class=argparse.RawDescriptionHelpFormatter)
    parser.add_argument("program")
    parser.add_argument("--calls", type=int, default=CALLS)
    parser.add_argument("--only", type=int)
    parser.add_argument("--seed", type=int, default=1)
    given = parser.parse_args()
    calls = list(range(1, given.calls + 1))
    if given.only:
        calls = calls[:given.only // 2] + sorted(random.Random(given.seed).sample(calls[given.only // 2:], given.only - given.only // 2))
    with tempfile.TemporaryDirectory() as folder, tempfile.TemporaryDirectory() as other:
        library = disk.built(other)
        story = Machine(os.path.abspath(given.program), folder, ROWS, given.seed, CLIENTS)
        story.play(library, calls)
    ledger = story.ledger
    for fault in ledger.faults[:10]:
        print(fault)
    print("%d machines died, %d files found after them, %d answers, %d bookings, %d commands without an answer, %d torn ends, %d faults"
          % (story.died, story.states, ledger.answers, len(ledger.made), story.unanswered, story.torn, len(ledger.faults)))
    return 1 if ledger.faults else 0


if __name__ == "__main__":
    sys.exit(main())

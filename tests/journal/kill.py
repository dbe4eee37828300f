#!/usr/bin/env python3
"""A selling host with a journal is killed again and again, and goes on each time with all that it had answered.

  tests/journal/kill.py PROGRAM [--rounds N] [--seed N] [--rows N] [--longest SECONDS]

In each round (8) sixteen clients send every command, several ahead of their answers, until the host is killed at a random moment. Now and then a
host is killed while it begins, which counts as no round. After each kill the file is folded here and by `recover`, which have to come to the
same text, and held against all that was answered in all rounds: each booking is there as it was told, or has gone forward by a command without
an answer or by its limit. Nothing was sold twice, no id was given twice, and what nobody was told comes of commands without an answer. The next
host begins with the file, and its answers are the model's for the bookings of that text. Further rounds (at most 60) follow until bookings of
each kind of end were met, in whatever round, and an answer was compared; a sweep's count of expired ones counts, since their rows may be given away
soon. Ends with status 0 where all was so.
"""
import argparse
import os
import signal
import sys
import tempfile
import time

import world
from ledger import RANKS
from story import Story, fields_of
from world import KEYS, Host, recover

CLIENTS = 16
STARTS, RECOVERS = 0.15, 0.3
WANTED, MORE = "CFrefx", 60


class Kills(Story):
    """A story of hosts that are killed."""
    kills, starts, recovered = 0, 0, 0
    met = frozenset()

    def play(self, rounds: int, longest: float):
        """So many rounds, and more, each of the whole length, as long as something wasn't met."""
        while not self.ledger.faults and (self.kills < rounds or self.missing()):
            if self.kills == rounds + MORE:
                return self.ledger.fault("after %d rounds there was still %s" % (self.kills, self.missing()))
            self.round(longest * self.rng.random() if self.kills < rounds else longest)

    def missing(self) -> str:
        """What wasn't met so far, empty where all was."""
        self.met |= {told.letter for told in self.ledger.told.values()} | ({"e"} if self.ledger.expired else set())
        letters = [letter for letter in WANTED if letter not in self.met]
        return "no booking that is one of %s" % letters if letters else "" if self.compared else "no answer to compare"

    def round(self, seconds: float):
        if self.rng.random() < STARTS:
            return self.kill_a_start()
        host = self.begin()
        if host is None:
            return
        self.compare(host.port)
        self.sweep(host.port)
        threads = self.start_clients(host.port)
        self.sell(host, seconds)
        host.end(self.rng.choice([signal.SIGKILL] * 4 + [signal.SIGTERM]))
        self.kills += 1
        self.judge(world.read(self.folder), self.pending(threads))

    def sweep(self, port: int):
        """Asks for a sweep, so that a booking of an earlier round whose limit has passed is met as expired."""
        with world.connect(port) as stream:
            stream.sendall(world.request(b"POST /sweeps", key=KEYS[0]))
            status, body = world.Reader(stream).answer()
        if status != 200:
            return self.ledger.fault("a sweep was answered %d: %s" % (status, body))
        self.ledger.expired += body["expired"]

    def kill_a_start(self):
        """What is killed while it begins leaves the file as it was, or as it was begun anew."""
        host = Host(self.program, self.folder)
        time.sleep(self.rng.random() * 0.1)
        host.end()
        self.starts += 1
        if world.read(self.folder) is not None:
            self.judge(world.read(self.folder), [])

    def sell(self, host: Host, seconds: float):
        time.sleep(seconds / 2)
        if self.rng.random() < RECOVERS:
            self.recover_meanwhile()
        time.sleep(seconds / 2)
        if host.has_ended():
            self.ledger.fault("a host ended by itself: %s" % (host.ended(),))

    def recover_meanwhile(self):
        """`recover` reads the file of a host that writes it: all that was told before is there."""
        before = dict(self.ledger.told)
        status, output, note = recover(self.program, self.folder)
        self.recovered += 1
        if status != 0:
            return self.ledger.fault("recover of a file that is being written: %d, %s" % (status, note))
        self.read_export(output)
        lines = fields_of(output)
        for name, told in before.items():
            row, generation = world.row_of(name)
            found = (int(lines[row][2]), RANKS[lines[row][3]]) if row in lines else (-1, 0)
            if found < (generation, RANKS[told.letter]) and found[0] <= generation:
                self.ledger.fault("%s, told as %s, isn't so far in what recover reads meanwhile: %s" % (name, told, lines.get(row)))


def summary(story: Kills) -> str:
    ledger = story.ledger
    return ("%d kills, %d of them at a start, %d answers, %d bookings made, %d torn ends, %d recovered meanwhile, %d answers as the model's, %d faults"
            % (story.kills + story.starts, story.starts, ledger.answers, len(ledger.made), story.torn, story.recovered, story.compared,
               len(ledger.faults)))


def main() -> int:
    parser = argparse.ArgumentParser(description=__doc__, formatter_class=argparse.RawDescriptionHelpFormatter)
    parser.add_argument("program")
    parser.add_argument("--rounds", type=int, default=8)
    parser.add_argument("--seed", type=int, default=1)
    parser.add_argument("--rows", type=int, default=8_192)
    parser.add_argument("--longest", type=float, default=1.5)
    given = parser.parse_args()
    with tempfile.TemporaryDirectory() as folder:
        story = Kills(os.path.abspath(given.program), folder, given.rows, given.seed, CLIENTS)
        story.play(given.rounds, given.longest)
        for fault in story.ledger.faults[:10]:
            print(fault)
    print(summary(story))
    return 1 if story.ledger.faults else 0


if __name__ == "__main__":
    sys.exit(main())

#!/usr/bin/env python3
"""Memory is refused to a selling host with a journal, one allocation after another: what it answered is there, and nothing that it refused.

  tests/journal/memory.py PROGRAM [--rounds N] [--seed N]

In each round (60) one allocation of a host fails, or that one and all later ones: the allocations of its start by turns, and those of its
commands, answers and cuts by lot. Two clients sell meanwhile; an answer 500 says that nothing was done. The host goes on until it is killed a
moment after that, or ends: with status 5 or 3 and its note where it has served nobody, and with 4 and its note where it had no memory for a cut.
Further rounds (at most 200) follow until each of these was met, and an answer 500. Each file is judged as by kill.py. Last, `recover` reads the
file with each of its allocations refused, and writes the export or ends with status 5. Needs cc and the C library of the host to be linked
dynamically.
"""
import argparse
import os
import struct
import subprocess
import sys
import tempfile
import time

import world
from clients import Client
from story import RUNS, Story
from world import HERE, JOURNAL, Host

CLIENTS, ROWS, ROUNDS = 2, 2_048, 60
REFUSER = HERE.parent / "host" / "refuse.c"
NO_MEMORY = (5, "rail_host: no memory\n")
ENDS = {False: [NO_MEMORY, (3, "rail_host: journal failed\n")], True: [(4, "rail_host: journal lost\n")]}
REACH, MORE = 700, 200  # the allocations after a start that may be refused (a connection takes 125), and further rounds
MOST_SECONDS, END_SECONDS, MOMENT = 20, 3, 0.3


class Poor(Client):
    """A client whose commands may be refused for lack of memory, which then weren't done."""
    refused = 0

    def take(self, asked, status: int, body: dict):
        if (status, body.get("code")) == (500, "NoMemory"):
            self.refused += 1
        else:
            super().take(asked, status, body)


class Scarce(Story):
    """A story of hosts to which memory is refused."""

    def __init__(self, program: str, folder: str, other: str, seed: int):
        super().__init__(program, folder, ROWS, seed, 0)
        self.clients = [Poor(number, self.ledger, seed, RUNS) for number in range(CLIENTS)]
        self.library, self.count = os.path.join(other, "refuse.so"), os.path.join(other, "count")
        subprocess.run(["cc", "-O2", "-shared", "-fPIC", "-o", self.library, str(REFUSER)], check=True)
        world.write(other, "count", bytes(8))
        self.ended = {"never began": 0, "lost its journal": 0, "went on": 0}

    def environment(self, at: int, goes_on: bool) -> dict:
        more = {"LD_PRELOAD": self.library, "REFUSED": str(at), "REFUSED_COUNT": self.count}
        return dict(os.environ, **more, **({"REFUSED_ON": "1"} if goes_on else {}))

    def allocations(self) -> int:
        with open(self.count, "rb") as file:
            return struct.unpack("=Q", file.read())[0]

    def of_a_start(self) -> int:
        """How many allocations a host makes until it listens."""
        host = Host(self.program, self.folder, env=self.environment(0, False))
        if not host.wait():
            self.ledger.fault("a host didn't begin: %s" % (host.ended(),))
        count = self.allocations()
        host.end()
        return count

    def play(self, rounds: int):
        start, played = self.of_a_start(), 0
        while not self.ledger.faults and (played < rounds or self.missing()):
            if played == rounds + MORE:
                return self.ledger.fault("after %d rounds there was no %s" % (played, self.missing()))
            at = self.rng.randrange(start) + 1 if played % 3 == 0 else start + self.rng.randrange(REACH)
            self.round(at, played % 2 == 1)
            played += 1

    def refused(self) -> int:
        return sum(client.refused for client in self.clients)

    def missing(self) -> str:
        """What wasn't met so far, empty where all was."""
        met = dict(self.ended, **{"answer": self.ledger.answers, "answer 500": self.refused()})
        return ", ".join(what for what, count in met.items() if not count)

    def round(self, at: int, goes_on: bool):
        host, answered = Host(self.program, self.folder, env=self.environment(at, goes_on)), self.answered()
        listened, pending = host.wait(), []
        if listened:
            threads = self.start_clients(host.port)
            self.wait_for(lambda: self.allocations() >= at or host.has_ended(), MOST_SECONDS)
            time.sleep(self.rng.random() * MOMENT)
            # Where no client is served any more the host may be about to end, after its sweeper's next tick.
            self.wait_for(lambda: any(thread.is_alive() for thread in threads) or host.has_ended(), END_SECONDS)
        if not listened or host.has_ended():
            self.hold_end(host.ended(), listened, self.answered() > answered, at)
        else:
            self.ended["went on"] += 1
            host.end()
        if listened:
            pending = self.pending(threads)
        if world.read(self.folder) is not None:
            self.judge(world.read(self.folder), pending)
        elif self.ledger.told:
            self.ledger.fault("the file is gone")

    def wait_for(self, what, seconds: float):
        """Until it is so, but no longer than this."""
        end = time.monotonic() + seconds
        while not what() and time.monotonic() < end:
            time.sleep(0.005)

    def answered(self) -> int:
        return self.ledger.answers + self.refused()

    def hold_end(self, ended: tuple, listened: bool, answered: bool, at: int):
        # One that wasn't seen to listen may have begun and lost its journal between two looks. One that listens may
        # still have no memory for those who are to serve: it has answered nobody.
        self.ended["lost its journal" if ended in ENDS[True] else "never began"] += 1
        if ended not in ENDS[True] + ([] if answered else ENDS[False]):
            self.ledger.fault("with allocation %d refused a host ended with %s" % (at, ended))

    def recover(self) -> int:
        """`recover` of the last file with each of its allocations refused: how many there were."""
        whole = self.recovered(0)
        count = self.allocations()
        for at in range(1, count + 1):
            came = self.recovered(at)
            if came not in (whole, (NO_MEMORY[0], b"", NO_MEMORY[1])):
                self.ledger.fault("recover, with allocation %d refused: %d, %s" % (at, came[0], came[2]))
        return count

    def recovered(self, at: int) -> tuple:
        words = [self.program, "recover", "k.json", JOURNAL]
        done = subprocess.run(words, cwd=self.folder, stdin=subprocess.DEVNULL, capture_output=True, env=self.environment(at, False))
        return done.returncode, done.stdout, done.stderr.decode("latin-1")


def main() -> int:
    parser = argparse.ArgumentParser(description=__doc__, formatter_class=argparse.RawDescriptionHelpFormatter)
    parser.add_argument("program")
    parser.add_argument("--rounds", type=int, default=ROUNDS)
    parser.add_argument("--seed", type=int, default=1)
    given = parser.parse_args()
    with tempfile.TemporaryDirectory() as folder, tempfile.TemporaryDirectory() as other:
        story = Scarce(os.path.abspath(given.program), folder, other, given.seed)
        story.play(given.rounds)
        read = story.recover()
    ledger = story.ledger
    for fault in ledger.faults[:10]:
        print(fault)
    print("hosts without memory: %s; %d answers, %d of them 500, %d bookings; recover with %d allocations, %d faults"
          % (", ".join("%d %s" % (count, what) for what, count in story.ended.items()), ledger.answers + story.refused(), story.refused(),
             len(ledger.made), read, len(ledger.faults)))
    return 1 if ledger.faults else 0


if __name__ == "__main__":
    sys.exit(main())

#!/usr/bin/env python3
"""Storms of eight clients on three places and two rows, or four: the whole history of each has to be explained by one order.

  tests/history/storms.py PROGRAM [--storms N] [--from N] [--keep FOLDER]

Each storm is a host of its own, of whose clients some reset, and in every fourth bookings come to their limits (`storm.py`). What an order
explains is said in `checker.py`. First the planted wrong answers of `planted.py` have to be refused. A history that has no order is kept
in the folder, or else printed. Where the clock was set meanwhile, or the search comes to its bounds, another storm is played. More of them
(at most 400) follow until each thing that 200 storms have was met. The last line counts.
"""
import argparse
import collections
import json
import multiprocessing
import os
import sys

import checker
import planted
from calls import Refused
from storm import ClockSet, Storm

AT_ONCE = 8  # storms that are played side by side; most of their time they wait
MORE = 400
DECIDED = 20  # of so many histories one may be too much for the search


def play(seed: int, program: str) -> tuple:
    """One storm: its record, what was wrong (None where nothing was), and counts of what it had."""
    counts = collections.Counter(storms=1)
    try:
        storm = Storm(seed)
        record = storm.run(program)
    except ClockSet:
        return seed, None, None, collections.Counter()
    except (OSError, EOFError) as failure:
        return seed, None, "storm %d: %r" % (seed, failure), counts
    counts.update(calls=len(record["calls"]), half=record["half"], gone=sum(call["end"] is None for call in record["calls"]))
    counts.update(kind_of(call) for call in record["calls"])
    try:
        search, stack = checker.check(record)
    except checker.Undecided:
        return seed, record, None, collections.Counter(undecided=1)
    except Refused as refused:
        return seed, record, "storm %d: %s" % (seed, refused), counts
    counts.update("no place: " + checker.kind_needed(ways, call) for call, ways in checker.explained(search, stack))
    counts.update(expired=sum("expires" in frame.point[1] for frame in stack if frame.point), states=search.states)
    return seed, record, None, counts


def kind_of(call: dict) -> str:
    """The command and how it was answered."""
    parts = call["path"].split("/")
    told = "nothing" if call["end"] is None else call["answer"].get("code", str(call["status"]))
    return "%s %s %s" % (call["method"], parts[-1] if len(parts) == 2 else "/".join(parts[1:2] + parts[3:4]), told)


def tell(record: dict, what: str, folder: str, seed: int):
    print(what)
    if record and folder:
        with open(os.path.join(folder, "storm_%d.json" % seed), "w", encoding="utf-8") as file:
            json.dump(record, file)
    elif record:
        print(json.dumps(record, separators=(",", ":")))


# What has to have happened in some storm.
NEEDED = ["POST reservations 201", "POST reservations NoPlace", "POST reservations RowsFull", "POST bookings 201", "GET bookings 200",
          "GET bookings UnknownBooking", "POST bookings/fulfillments 200", "POST bookings/fulfillments WrongState",
          "PATCH bookings/fulfillments 200", "DELETE bookings 200", "POST bookings/refund-offers 201", "PATCH bookings/refund-offers 200",
          "PATCH bookings/refund-offers WrongState", "PATCH bookings/refund-offers QuoteWrong", "POST exchange-offers 201",
          "POST bookings/exchange-operations 201", "POST bookings/exchange-operations NoPlace", "GET runs/places 200", "POST offers 200",
          "POST sweeps 200", "half", "gone", "expired", "no place: sold"]


class Storms:
    """Storms one seed after another, and what they had."""

    def __init__(self, given: argparse.Namespace):
        self.given, self.total, self.wrong, self.next = given, collections.Counter(), 0, given.first

    def missing(self) -> list:
        return [name for name in NEEDED if not self.total[name]] if self.given.storms >= 200 else []

    def wanted(self) -> int:
        """How many storms are still to be played."""
        left = self.given.first + self.given.storms + MORE - self.next
        lack = max(self.given.storms - self.total["storms"], AT_ONCE if self.missing() else 0)
        return 0 if self.wrong else min(lack, left)

    def play(self):
        with multiprocessing.Pool(AT_ONCE) as pool:
            while count := self.wanted():
                jobs = [(seed, os.path.abspath(self.given.program)) for seed in range(self.next, self.next + count)]
                self.next += count
                for seed, record, what, counts in pool.starmap(play, jobs, chunksize=1):
                    self.total += counts
                    if what:
                        self.wrong += 1
                        tell(record, what, self.given.keep, seed)

    def faults(self):
        if missing := self.missing():
            yield "never met: " + ", ".join(missing)
        if self.total["undecided"] * DECIDED > self.total["storms"]:
            yield "%d histories were not decided" % self.total["undecided"]
        if not self.wrong and self.total["storms"] < self.given.storms:
            yield "only %d storms were decided" % self.total["storms"]


def main() -> int:
    words = argparse.ArgumentParser(description=__doc__, formatter_class=argparse.RawDescriptionHelpFormatter)
    words.add_argument("program")
    words.add_argument("--storms", type=int, default=240)
    words.add_argument("--from", type=int, default=0, dest="first")
    words.add_argument("--keep", help="a folder for histories without an order")
    words.add_argument("--counts", action="store_true", help="print what the storms had")
    given = words.parse_args()
    refused = planted.refused()
    if refused is None:
        return 1
    storms = Storms(given)
    storms.play()
    total, faults = storms.total, list(storms.faults())
    for name in sorted(total) if given.counts else []:
        print("%7d %s" % (total[name], name))
    for fault in faults:
        print(fault)
    holds = ", ".join("%d %s" % (total["no place: " + kind], kind) for kind in checker.KINDS)
    print("%d storms, %d calls, %d not decided, %d without an order; what was in the way of refusals: %s; %d planted answers refused" %
          (total["storms"], total["calls"], total["undecided"], storms.wrong, holds, refused))
    return 1 if storms.wrong or faults else 0


if __name__ == "__main__":
    sys.exit(main())

#!/usr/bin/env python3
"""A journal under other catalogues: taken where its numbers mean the same seats, and refused by name where they don't.

  tests/journal/seats.py PROGRAM

The journal of a host is read by `recover`, and begun with by `serve`, under catalogues that differ in one thing each: keys, fares, terms, times,
traits, a station's change may differ; two runs in each other's places, another train's number, station, coach, place, class or number of rows
may not. Its first line has to have the print that the rules come to. A second host on the same file is refused at once, and one with an export too.
"""
import copy
import os
import sys
import tempfile

import text
import world
from expected import sold
from world import JOURNAL, Host, catalogue, catalogue_bytes, recover

from catalogue import read_catalogue  # noqa: E402  (of the model, whose path world adds)
from journals import print_of  # noqa: E402

CUTS = 12
OTHER, ROWS = "rail_host: journal fault 4\n", "rail_host: export fault 2\n"
LOCKED = "rail_host: journal locked\n"


def later_times(own: dict):
    for run in own["runs"]:
        for stop in run["stops"]:
            for end in ("arrive", "depart"):
                stop[end] = stop[end].replace("0:00Z", "0:30Z")


def change_class(own: dict):
    own["runs"][1]["coaches"][0]["class"] = "SECOND"


def set_in(*path):
    """A change that puts the last of these at the path of the others."""
    *steps, last, value = path

    def change(own):
        for step in steps:
            own = own[step]
        own[last] = value
    return change


CHANGES = [
    ("nothing", lambda own: None, ""),
    ("a key", set_in("retailers", 0, "key", "another"), ""),
    ("a fare", set_in("runs", 0, "fares", "first", "base", 7), ""),
    ("the terms", set_in("refundSteps", [{"before": 0, "fee": 5}]), ""),
    ("the time to confirm", set_in("confirmSeconds", 60), ""),
    ("times", later_times, ""),
    ("traits", set_in("runs", 0, "coaches", 0, "places", 0, "traits", ["QUIET"]), ""),
    ("a change of trains", set_in("stations", 0, "change", 60), ""),
    ("two runs in each other's places", lambda own: own["runs"].reverse(), OTHER),
    ("a train's number", set_in("runs", 2, "train", 999), OTHER),
    ("a coach's number", set_in("runs", 2, "coaches", 1, "coach", 9), OTHER),
    ("the places' numbers", set_in("runs", 2, "coaches", 1, "places", [{"first": 2, "last": 81}]), OTHER),
    ("a class", change_class, OTHER),
    ("a station", lambda own: (own["stations"].append({"code": "EBIKON"}), set_in("runs", 3, "stops", 1, "station", "EBIKON")(own)), OTHER),
    ("a place more", set_in("runs", 5, "coaches", 1, "places", [{"first": 1, "last": 81}]), OTHER),
    ("a row less", set_in("rows", 255), ROWS),
]


class Trial:
    def __init__(self, program: str, folder: str):
        self.program, self.folder, self.own, self.faults = program, folder, catalogue(256), []
        self.take(self.own)
        self.data = sold(program, folder, self.own, CUTS)
        self.export = text.read(self.data).export()
        if text.read(self.data).print != print_of(read_catalogue(catalogue_bytes(self.own))):
            self.faults.append("the first line has another print: %s" % text.read(self.data).print)

    def take(self, own: dict):
        world.write(self.folder, "k.json", catalogue_bytes(own))

    def try_change(self, what: str, change, note: str):
        other = copy.deepcopy(self.own)
        change(other)
        self.take(other)
        world.write(self.folder, JOURNAL, self.data)
        wanted = (1, b"", note) if note else (0, self.export, "")
        if (came := recover(self.program, self.folder)) != wanted:
            self.faults.append("%s: recover gave %d, %s" % (what, came[0], came[2]))
        host = Host(self.program, self.folder, sweep=60)
        if host.wait() != (not note):
            self.faults.append("%s: serve began, or didn't" % what)
        elif note and (host.ended() != (1, note) or world.read(self.folder) != self.data):
            self.faults.append("%s: serve gave %s, or changed the file" % (what, host.ended()))
        host.end()

    def try_second(self):
        """Two hosts on one file: the second is refused, and the first goes on."""
        self.take(self.own)
        world.write(self.folder, JOURNAL, self.data)
        first = Host(self.program, self.folder, sweep=60)
        first.wait()
        before = world.read(self.folder)
        second = Host(self.program, self.folder)
        if second.wait() or second.ended() != (1, LOCKED):
            self.faults.append("a second host on one file gave %s" % (second.end(),))
        if world.read(self.folder) != before or first.has_ended():
            self.faults.append("a second host changed the file or ended the first")
        status, output, _ = recover(self.program, self.folder)
        if (status, output) != (0, self.export):
            self.faults.append("recover beside a host gave %d" % status)
        first.end()


def main() -> int:
    if len(sys.argv) != 2 or sys.argv[1].startswith("-"):
        print(__doc__.strip())
        return 0 if sys.argv[1:] == ["--help"] else 2
    with tempfile.TemporaryDirectory() as folder:
        trial = Trial(os.path.abspath(sys.argv[1]), folder)
        for change in CHANGES:
            trial.try_change(*change)
        trial.try_second()
    for fault in trial.faults[:10]:
        print(fault)
    print("%d other catalogues, %d of them refused, and a second host, %d faults"
          % (len(CHANGES), sum(bool(note) for _, _, note in CHANGES), len(trial.faults)))
    return 1 if trial.faults else 0


if __name__ == "__main__":
    sys.exit(main())

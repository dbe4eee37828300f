#!/usr/bin/env python3
"""Searches in networks where many trips are alike or most ways lead nowhere: the program's answers against the model's.

  tests/model/networks.py PROGRAM

The model goes over all lists of one to three stretches, and takes the first sixteen trips. Each network is a catalogue
of its own, and each search is made at six in the morning, for a day. It prints each search that differs, and its last
line counts.
"""
import argparse
import json
import os
import subprocess
import sys
import tempfile

import moments
import service
import wire
from catalogue import read_catalogue

AT_SIX, DAY, SECONDS = 1_780_293_600, 86_400, 300
FARE = {"base": 500, "perLeg": 300}
EIGHT = ["S%d" % number for number in range(8)]


def moment(seconds: int) -> str:
    return moments.write_moment(AT_SIX + seconds)


def run_of(times: list) -> dict:
    """A run by its stations, each reached and left at these seconds after six."""
    stops = [{"station": code, "arrive": moment(arrive), "depart": moment(depart)} for code, arrive, depart in times]
    del stops[0]["arrive"], stops[-1]["depart"]
    coach = {"coach": 1, "class": "SECOND", "places": [{"first": 1, "last": 1}]}
    return {"train": 1, "stops": stops, "fares": {"first": FARE, "second": FARE}, "coaches": [coach]}


def leg(start: int, depart: int, end: int, arrive: int) -> dict:
    return run_of([(EIGHT[start], depart, depart), (EIGHT[end], arrive, arrive)])


def crossing() -> list:
    """Twelve runs, each at six of eight stations, ten minutes apart."""
    runs = []
    for number in range(12):
        arrivals = [600 * number + 1200 * stop for stop in range(6)]
        runs.append(run_of([(EIGHT[(number + 3 * stop) % 8], at, at + 60) for stop, at in enumerate(arrivals)]))
    return runs


def arriving_together() -> list:
    """Twelve runs in pairs that stop at the same stations and arrive in the same seconds.

    In every other pair both depart together too, so the later departure, fewer trains and the lower numbers decide.
    """
    runs = []
    for number in range(12):
        line = number % 6
        stay = 60 + 30 * (number // 6) * (line % 2)
        arrivals = [1500 * line + 1200 * stop for stop in range(6)]
        runs.append(run_of([(EIGHT[(line + 3 * stop) % 8], at, at + stay) for stop, at in enumerate(arrivals)]))
    return runs


def three_lines(more: list) -> list:
    """Forty runs from each of three stations to the next, half a minute apart, which is 64,000 ways to the fourth.

    More runs go on from the third station to the fifth, left and reached at these seconds.
    """
    departures = [(line, 4000 * line + 30 * run) for line in range(3) for run in range(40)]
    lines = [leg(line, depart, line + 1, depart + 1800) for line, depart in departures]
    return lines + [leg(2, depart, 4, arrive) for depart, arrive in more]


PAIRS = [(start, end) for start in EIGHT for end in EIGHT if start != end]
ONWARDS = [(5_000, 9_000), (90_000, 95_000), (6_100, 12_000), (8_000, 11_000)]  # two in vain, and two reached in time
NETWORKS = [(crossing(), PAIRS), (arriving_together(), PAIRS[:28])]
NETWORKS += [(three_lines(ONWARDS[:count]), [("S0", "S4")]) for count in (0, 2, 3, 4)]


def catalogue_of(runs: list) -> bytes:
    catalogue = {"currency": "EUR", "retailers": [{"number": 1, "key": "north"}], "rows": 1, "runs": runs}
    catalogue["stations"] = [{"code": code} for code in EIGHT]
    catalogue["refundSteps"] = [{"before": 0, "fee": 0}]
    return json.dumps(catalogue).encode()


def search(start: str, end: str) -> bytes:
    wish = {"adults": 1, "class": "SECOND", "origin": start, "destination": end}
    body = json.dumps({**wish, "earliest": moment(0), "latest": moment(DAY)}).encode()
    return b"POST /offers HTTP/1.1\r\nRetailer-Key: north\r\nContent-Length: %d\r\n\r\n%s" % (len(body), body)


def answers(program: str, catalogue: bytes, data: bytes) -> list:
    with tempfile.TemporaryDirectory() as folder:
        with open(os.path.join(folder, "k.json"), "wb") as file:
            file.write(catalogue)
        words = [os.path.abspath(program), "replay", "k.json", "--start", moment(0), "--tick", "0"]
        process = subprocess.run(words, cwd=folder, input=data, stdout=subprocess.PIPE, timeout=SECONDS)
    return wire.split_answers(process.stdout)


def compare(program: str, runs: list, pairs: list) -> tuple:
    """How many trips were found in a network, and the searches that are answered otherwise than by the model."""
    catalogue, data = catalogue_of(runs), b"".join(search(*pair) for pair in pairs)
    output, _rest = service.Host(read_catalogue(catalogue)).serve(data, service.Clock(AT_SIX, 0))
    wanted, came = wire.split_answers(output), answers(program, catalogue, data)
    wrong = [pair for number, pair in enumerate(pairs) if came[number:number + 1] != wanted[number:number + 1]]
    return sum(len(body["offers"]) for _status, body in wanted), wrong


def main() -> int:
    parser = argparse.ArgumentParser(description=__doc__, formatter_class=argparse.RawDescriptionHelpFormatter)
    parser.add_argument("program")
    program = parser.parse_args().program
    if not os.access(program, os.X_OK):
        print("networks: there is no program %s" % program, file=sys.stderr)
        return 2
    found = [compare(program, runs, pairs) for runs, pairs in NETWORKS]
    for number, (_trips, wrong) in enumerate(found, 1):
        for pair in wrong:
            print("network %d, from %s to %s: another answer than the model's" % (number, *pair))
    searches = sum(len(pairs) for _runs, pairs in NETWORKS)
    trips, differ = sum(trips for trips, _wrong in found), sum(len(wrong) for _trips, wrong in found)
    print("%d networks, %d searches, %d trips, %d differ" % (len(found), searches, trips, differ))
    return 1 if differ or not trips else 0


if __name__ == "__main__":
    sys.exit(main())

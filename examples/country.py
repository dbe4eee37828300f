#!/usr/bin/env python3
"""Writes the catalogue of a small country: 288 runs of one day between sixteen stations.

  examples/country.py [--day YYYY-MM-DD] > CATALOGUE

Without --day the day is 2026-06-01, and the output is examples/country.json. Moments are in UTC. A host sells what has not departed yet, so a
host that runs by the system's clock wants a day to come.
"""
import argparse
import datetime
import json

# A line: its name, minutes between two trains, and its stations, each with the minutes from the one before.
LINES = [
    (1, 30, [("HARBOUR", 0), ("DUNES", 9), ("MILLS", 14), ("CAPITAL", 21), ("OLDTOWN", 12), ("QUARRY", 19), ("SUMMIT", 26)]),
    (2, 30, [("LAKESIDE", 0), ("ORCHARD", 17), ("CAPITAL", 23), ("MEADOWS", 15), ("BORDER", 28)]),
    (3, 30, [("CAPITAL", 0), ("AIRPORT", 11), ("COLLEGE", 8)]),
    (4, 60, [("HARBOUR", 0), ("LIGHTHSE", 22), ("CAPE", 31)]),
    (5, 60, [("QUARRY", 0), ("FOREST", 25), ("BORDER", 34)]),
]
FIRST_HOUR, LAST_HOUR = 5, 22
STOP_MINUTES = 2
COACHES = [
    (1, "FIRST", [(1, 12, ["WINDOW", "POWER"]), (21, 28, ["AISLE", "POWER"]), (31, 34, ["AISLE", "TABLE", "POWER"])]),
    (2, "SECOND", [(1, 24, ["WINDOW", "QUIET"]), (31, 54, ["AISLE", "QUIET"])]),
    (3, "SECOND", [(1, 24, ["WINDOW"]), (31, 54, ["AISLE"]), (61, 68, ["TABLE"])]),
    (4, "SECOND", [(1, 24, ["WINDOW"]), (31, 54, ["AISLE"]), (61, 68, ["TABLE", "POWER"])]),
]


def moment(day, minutes):
    return (day + datetime.timedelta(minutes=minutes)).strftime("%Y-%m-%dT%H:%M:%SZ")


def stops_of(day, begin, stations):
    """The stops of a train that leaves its first station `begin` minutes into the day."""
    stops, at = [], begin
    for number, (code, minutes) in enumerate(stations):
        at += minutes
        stop = {"station": code}
        if number > 0:
            stop["arrive"] = moment(day, at)
        if 0 < number < len(stations) - 1:
            at += STOP_MINUTES
        if number < len(stations) - 1:
            stop["depart"] = moment(day, at)
        stops.append(stop)
    return stops


def reversed_line(stations):
    """The same stations the other way, each with the minutes from the one before."""
    codes = [code for code, _ in stations][::-1]
    minutes = [0] + [m for _, m in stations][:0:-1]
    return list(zip(codes, minutes))


def coaches():
    return [
        {"coach": number, "class": kind, "places": [{"first": first, "last": last, "traits": traits} for first, last, traits in groups]}
        for number, kind, groups in COACHES
    ]


def runs(day):
    for line, every, stations in LINES:
        for way, calls in enumerate([stations, reversed_line(stations)]):
            for turn, begin in enumerate(range(FIRST_HOUR * 60, (LAST_HOUR + 1) * 60, every)):
                yield {
                    "train": line * 1000 + turn * 2 + way + 1,
                    "stops": stops_of(day, begin + 4 * line, calls),
                    "fares": {"first": {"base": 600, "perLeg": 480}, "second": {"base": 400, "perLeg": 300}},
                    "coaches": coaches(),
                }


def main():
    words = argparse.ArgumentParser(description=__doc__, formatter_class=argparse.RawDescriptionHelpFormatter)
    words.add_argument("--day", default="2026-06-01", type=datetime.date.fromisoformat)
    given = words.parse_args().day
    day = datetime.datetime(given.year, given.month, given.day)
    codes = list(dict.fromkeys(code for _, _, stations in LINES for code, _ in stations))
    top = {
        "currency": "EUR",
        "rows": 65536,
        "confirmSeconds": 900,
        "retailers": [{"number": n + 1, "key": key} for n, key in enumerate(["north", "south", "west"])],
        "stations": [{"code": code, "change": 240 if code == "CAPITAL" else 180} for code in codes],
        "refundSteps": [{"before": 86400, "fee": 0}, {"before": 3600, "fee": 2500}, {"before": 0, "fee": 10000}],
        "ticketFee": 200,
        "exchangeFee": 300,
    }
    lines = ",\n".join(json.dumps(run, separators=(",", ":")) for run in runs(day))
    print('%s,"runs":[\n%s]}' % (json.dumps(top, separators=(",", ":"))[:-1], lines))


main()

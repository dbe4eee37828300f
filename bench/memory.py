#!/usr/bin/env python3
"""What a row and a place take: the memory of `replay` without requests, by rows and by places, the last time with the most of both.

  bench/memory.py [--program PATH]
"""
import argparse
import json
import pathlib
import subprocess
import sys
import tempfile

from replay import PROGRAM

MOST_OF_A_RUN = 1_200
SIZES = [(1, 1_200), (65_536, 1_200), (262_144, 1_200), (1, 1_200_000), (1, 4_194_304), (262_144, 4_194_304)]


def run(places):
    """A run of one leg with its places in one group."""
    return {
        "train": 1,
        "stops": [{"station": "A", "depart": "2026-06-01T08:00:00Z"}, {"station": "B", "arrive": "2026-06-01T09:00:00Z"}],
        "fares": {"first": {"base": 0, "perLeg": 0}, "second": {"base": 0, "perLeg": 0}},
        "coaches": [{"coach": 1, "class": "SECOND", "places": [{"first": 1, "last": places}]}],
    }


def catalogue(rows, places):
    whole, rest = divmod(places, MOST_OF_A_RUN)
    return {
        "currency": "EUR",
        "rows": rows,
        "retailers": [{"number": 1, "key": "north"}],
        "stations": [{"code": "A"}, {"code": "B"}],
        "refundSteps": [{"before": 0, "fee": 0}],
        "runs": [run(MOST_OF_A_RUN)] * whole + [run(rest)] * (rest > 0),
    }


def measured(program, folder, rows, places):
    """The greatest memory in bytes of a host of so many rows and places, and the size of its catalogue."""
    path = pathlib.Path(folder) / "catalogue.json"
    path.write_text(json.dumps(catalogue(rows, places), separators=(",", ":")))
    timed = subprocess.run(["/usr/bin/time", "-f", "%M", program, "replay", str(path)], stdin=subprocess.DEVNULL, capture_output=True, text=True)
    if timed.returncode != 0:
        sys.exit(timed.stderr)
    return int(timed.stderr.split()[-1]) * 1024, path.stat().st_size


def main():
    words = argparse.ArgumentParser(description=__doc__, formatter_class=argparse.RawDescriptionHelpFormatter)
    words.add_argument("--program", default=str(PROGRAM))
    given = words.parse_args()
    if not pathlib.Path(given.program).is_file():
        sys.exit("%s is not built: rt run in crates/rail_host builds it" % given.program)
    with tempfile.TemporaryDirectory() as folder:
        least, _ = measured(given.program, folder, *SIZES[0])
        for rows, places in SIZES:
            memory, size = measured(given.program, folder, rows, places)
            more, each = memory - least, ""
            if rows > 1 and places == SIZES[0][1]:
                each = ", %.0f bytes a row more" % (more / (rows - 1))
            elif rows == 1 and places > SIZES[0][1]:
                each = ", %.0f bytes a place more, its run and the reading among them" % (more / (places - SIZES[0][1]))
            print("%7d rows, %9d places: %6.1f MB, the file %5.1f MB%s" % (rows, places, memory / 1e6, size / 1e6, each), flush=True)


if __name__ == "__main__":
    main()

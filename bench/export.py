#!/usr/bin/env python3
"""What an export, an import and a settlement cost, at the most bookings that a host keeps: 262,144 with eight items each.

  bench/export.py PROGRAM [--rows N]

It makes an export of so many bookings of 300 retailers, lives and ends of each kind among them, and the catalogue for it. Then it runs
PROGRAM, each time without an input: `replay`, `replay --from`, `export --from` and `settle`. The differences of processor time and of the
greatest memory are those of reading the export, of writing it, and of the table. It ends with status 1 where the export that is written
isn't the one that was read, or the table isn't the one that plain loops over the export's lines come to.
"""
import argparse
import csv
import io
import json
import os
import resource
import subprocess
import sys
import tempfile

ITEMS, PLACES, RETAILERS = 8, 1_200, 300
LIMIT, ENDED = 4_000_000_000, 4_000_000_001
PHASES = "PCFrefxC"


def catalogue(rows):
    run = {
        "train": 1,
        "stops": [{"station": "A", "depart": "2026-06-01T08:00:00Z"}, {"station": "B", "arrive": "2026-06-01T09:00:00Z"}],
        "fares": {"first": {"base": 0, "perLeg": 0}, "second": {"base": 0, "perLeg": 0}},
        "coaches": [{"coach": 1, "class": "SECOND", "places": [{"first": 1, "last": PLACES}]}],
    }
    return {"currency": "EUR", "rows": rows, "retailers": [{"number": 1, "key": "north"}], "stations": [{"code": "A"}, {"code": "B"}],
            "refundSteps": [{"before": 0, "fee": 0}], "runs": [run] * places_of(rows)[0]}


def places_of(rows):
    runs = -(-rows * ITEMS // PLACES)
    return runs, runs * PLACES


def export(rows):
    """A line for each row. An exchanged booking's successor is the one behind it."""
    lines = ["rail-export 1 %d %d" % (places_of(rows)[1], rows)]
    for row in range(rows):
        phase = PHASES[row % len(PHASES)]
        phase = "r" if phase == "x" and row + 1 == rows else phase
        items = " ".join("%d.0.1" % (row * ITEMS + item) for item in range(ITEMS))
        end = {"r": " p0 %d -" % ENDED, "e": " p0 %d -" % ENDED, "f": " p%d %d -" % (row % 5_000, ENDED),
               "x": " %s %d %d.0" % ("m%d" % (row % 900 + 1) if row % 3 else "p%d" % (row % 900), ENDED, row + 1)}.get(phase, "")
        lines.append("row %d %d %s %d %d %d %d %s%s" % (row, 0, phase, row % RETAILERS + 1, LIMIT, 1_000 + row, ITEMS, items, end))
    return "\n".join(lines + ["end %d\n" % rows]).encode("ascii")


def table(text):
    """The settlement table, by a loop over the lines."""
    sums = {}
    for line in text.decode("ascii").split("\n")[1:-2]:
        fields = line.split(" ")
        phase, retailer, total = fields[3], int(fields[4]), int(fields[6])
        own = sums.setdefault(retailer, [0, 0, 0, 0, 0])
        own[0] += 1
        own[1] += phase in "PCF"
        own[2] += total if phase in "CFfx" else 0
        if phase in "fx":
            amount = fields[8 + ITEMS]
            own[3 if phase == "f" else 4] += int(amount[1:]) if amount[0] == "p" else -int(amount[1:])
    written = io.StringIO()
    writer = csv.writer(written, lineterminator="\n")
    writer.writerow(["retailer", "bookings", "live", "sold", "refunded", "exchanged"])
    writer.writerows([retailer] + own for retailer, own in sorted(sums.items()))
    writer.writerow(["forgotten", 0, 0, 0, 0, 0])
    return written.getvalue().encode("ascii")


def run(program, folder, words):
    """The output, the processor seconds and the greatest memory in bytes."""
    before = resource.getrusage(resource.RUSAGE_CHILDREN)
    timed = subprocess.run(["/usr/bin/time", "-f", "%M", program] + words, cwd=folder, stdin=subprocess.DEVNULL, capture_output=True)
    after = resource.getrusage(resource.RUSAGE_CHILDREN)
    if timed.returncode != 0:
        sys.exit(timed.stderr.decode())
    seconds = after.ru_utime + after.ru_stime - before.ru_utime - before.ru_stime
    return timed.stdout, seconds, int(timed.stderr.split()[-1]) * 1024


def main():
    words = argparse.ArgumentParser(description=__doc__, formatter_class=argparse.RawDescriptionHelpFormatter)
    words.add_argument("program")
    words.add_argument("--rows", type=int, default=262_144)
    given = words.parse_args()
    program, text = os.path.abspath(given.program), export(given.rows)
    with tempfile.TemporaryDirectory() as folder:
        with open(os.path.join(folder, "k.json"), "w", encoding="ascii") as file:
            json.dump(catalogue(given.rows), file, separators=(",", ":"))
        with open(os.path.join(folder, "x.txt"), "wb") as file:
            file.write(text)
        _, start, least = run(program, folder, ["replay", "k.json"])
        _, read, reading = run(program, folder, ["replay", "k.json", "--from", "x.txt"])
        again, wrote, writing = run(program, folder, ["export", "k.json", "--from", "x.txt"])
        summed, settled, _ = run(program, folder, ["settle", "k.json", "x.txt"])
    print("%d bookings of %d items: an export of %.1f MB; a start without it %.2f s, %.0f MB" % (given.rows, ITEMS, len(text) / 1e6, start, least / 1e6))
    print("import  %.2f s, %.1f times the text's size more memory" % (read - start, (reading - least) / len(text)))
    print("export  %.2f s, %.1f times the text's size more memory than the import" % (wrote - read, (writing - reading) / len(text)))
    print("table   %.2f s beyond the import" % (settled - read))
    if again != text or summed != table(text):
        sys.exit("the export that was written, or the table, is another than it has to be")


if __name__ == "__main__":
    main()

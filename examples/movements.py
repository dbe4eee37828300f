#!/usr/bin/env python3
"""Lists each movement of money that an export of a host shows, as comma-separated values for an accountant.

  examples/movements.py CATALOGUE EXPORT [--retailer N] > LIST

CATALOGUE is the host's catalogue, also without its keys, and EXPORT what a host wrote at its end. The first line of the
list has the names of its columns:

  retailer,booking,kind,replaces,moment,train,day,amount,currency

`kind` is `sale` (a booking was paid), `exchange` (a booking was paid by giving another one back, which `replaces`
names, and by a difference) or `refund`. `amount` is what came in, and less than 0 where money went back; so the sum of
the column is what stays, which the standard error says too. `moment` is when it was, in UTC; an export doesn't tell it
of a sale. `train` has the trains of the booking, joined by `+`, and `day` the day of the first, as the catalogue
has it.

It looks only at what it needs: `rail_host settle CATALOGUE EXPORT` says whether the host takes the export. It ends with
status 0, or with 1 and a line that says what is wrong. Where ended bookings have given their rows away the list is not
complete, and a line on the standard error says so.
"""
import argparse
import bisect
import collections
import csv
import datetime
import json
import re
import sys

COLUMNS = ["retailer", "booking", "kind", "replaces", "moment", "train", "day", "amount", "currency"]
FIRST_LINE = re.compile(r"rail-export 1 (\d+) \d+")
ROW = re.compile(r"row (\d+) (\d+) ([PCFrefx]) (\d+) \d+ (\d+) \d+((?: \d+\.\d+\.\d+)+)(?: ([pm])(\d+) (\d+) (\S+))?")
LAST_LINE = re.compile(r"end (\d+)")
# The states of bookings that were paid: confirmed, collected, refunded, exchanged.
PAID, REFUNDED, EXCHANGED = "CFfx", "f", "x"

Booking = collections.namedtuple("Booking", "row generation phase retailer total places amount moment successor")
Movement = collections.namedtuple("Movement", "retailer booking kind replaces moment trip amount")


class Refused(Exception):
    """Why a file is not taken."""


def identity(row, generation):
    return "B%06d" % row + ("-%d" % generation if generation else "")


def booking_of(line, number):
    match = ROW.fullmatch(line)
    if not match:
        raise Refused("line %d is no line of an export" % number)
    row, generation, phase, retailer, total, items, sign, amount, moment, successor = match.groups()
    places = [int(item.split(".")[0]) for item in items.split()]
    signed = int(amount or 0) * (-1 if sign == "m" else 1)
    told = tuple(map(int, successor.split("."))) if successor not in (None, "-") else None
    return Booking(int(row), int(generation), phase, int(retailer), int(total), places, signed, int(moment or 0), told)


def read_export(text):
    """The number of places, and the bookings."""
    lines = text.split("\n")
    first, last = FIRST_LINE.fullmatch(lines[0]), LAST_LINE.fullmatch(lines[-2]) if len(lines) > 2 else None
    if not first or not last or lines[-1] or int(last.group(1)) != len(lines) - 3:
        raise Refused("it is no export, or was cut off")
    return int(first.group(1)), [booking_of(line, number) for number, line in enumerate(lines[1:-2], 2)]


class Trains:
    """Which train has a place, and its day."""

    def __init__(self, catalogue):
        self.runs, self.firsts, self.places = catalogue["runs"], [], 0
        for run in self.runs:
            self.firsts.append(self.places)
            groups = [group for coach in run["coaches"] for group in coach["places"]]
            self.places += sum(group["last"] - group["first"] + 1 for group in groups)

    def trip(self, places):
        """The trains of the places, joined by `+`, and the day on which the first one leaves."""
        runs = list(dict.fromkeys(bisect.bisect_right(self.firsts, place) - 1 for place in places))
        begin = self.runs[runs[0]]["stops"][0]
        day = begin.get("depart", begin.get("arrive"))[:10]
        return "+".join(str(self.runs[run]["train"]) for run in runs), day


def movements(bookings, trains):
    """The movements of the bookings, in the order of their lines."""
    by_id = {(booking.row, booking.generation): booking for booking in bookings}
    replaced = {booking.successor for booking in bookings if booking.phase == EXCHANGED}
    for booking in bookings:
        # Retailer 0 is nobody: a row that was kept, or a place that the operator keeps from being sold.
        if booking.retailer == 0 or booking.phase not in PAID:
            continue
        name, trip = identity(booking.row, booking.generation), trains.trip(booking.places)
        if (booking.row, booking.generation) not in replaced:
            yield Movement(booking.retailer, name, "sale", "", "", trip, booking.total)
        when = text_of(booking.moment)
        if booking.phase == REFUNDED:
            yield Movement(booking.retailer, name, "refund", "", when, trip, -booking.amount)
        if booking.phase == EXCHANGED:
            # The new booking may have given its row away since.
            new = by_id.get(booking.successor)
            other = trains.trip(new.places) if new else ("", "")
            other_name = identity(*booking.successor)
            yield Movement(booking.retailer, other_name, "exchange", name, when, other, booking.amount)


def text_of(moment):
    return datetime.datetime.fromtimestamp(moment, datetime.timezone.utc).strftime("%Y-%m-%dT%H:%M:%SZ")


def decimal(amount):
    return "%s%d.%02d" % ("-" if amount < 0 else "", abs(amount) // 100, abs(amount) % 100)


def write_list(found, currency, out):
    writer = csv.writer(out, lineterminator="\n")
    writer.writerow(COLUMNS)
    for one in found:
        writer.writerow([*one[:5], *one.trip, decimal(one.amount), currency])


def sums(found, currency):
    """A line for each retailer, and where there are several one for all."""
    retailers = sorted({one.retailer for one in found})
    groups = [("retailer %d" % number, [one for one in found if one.retailer == number]) for number in retailers]
    if len(groups) != 1:
        groups.append(("all", found))
    for name, some in groups:
        yield "%s: %d movements, %s %s stay" % (name, len(some), decimal(sum(one.amount for one in some)), currency)


def read_file(name, read):
    """What `read` makes of the file's text; a fault names the file."""
    try:
        with open(name, encoding="utf-8") as file:
            return read(file.read())
    except OSError as error:
        raise Refused("%s: %s" % (name, error.strerror)) from error
    except (Refused, ValueError) as error:
        raise Refused("%s: %s" % (name, error)) from error


def main():
    words = argparse.ArgumentParser(description=__doc__, formatter_class=argparse.RawDescriptionHelpFormatter)
    words.add_argument("catalogue")
    words.add_argument("export")
    words.add_argument("--retailer", type=int, metavar="N", help="the movements of this retailer alone")
    given = words.parse_args()
    try:
        catalogue = read_file(given.catalogue, json.loads)
        places, bookings = read_file(given.export, read_export)
        if not isinstance(catalogue, dict) or "runs" not in catalogue:
            raise Refused("%s: it is no catalogue" % given.catalogue)
        trains = Trains(catalogue)
        if places != trains.places:
            raise Refused("%s: it is of %d places, and the catalogue has %d" % (given.export, places, trains.places))
    except Refused as refused:
        return "movements: %s" % refused
    found = [one for one in movements(bookings, trains) if given.retailer in (None, one.retailer)]
    write_list(found, catalogue["currency"], sys.stdout)
    sys.stdout.flush()
    for line in sums(found, catalogue["currency"]):
        print("movements: " + line, file=sys.stderr)
    forgotten = sum(booking.generation for booking in bookings)
    if forgotten:
        said = "not complete: up to %d ended bookings have given their rows away, and their money isn't here" % forgotten
        print("movements: " + said, file=sys.stderr)
        print("movements: a sale may be an exchange whose first booking is among them", file=sys.stderr)
    return 0


if __name__ == "__main__":
    sys.exit(main())

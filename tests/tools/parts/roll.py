"""tools/roll through a month of thirty days, with sales over each change, twice: with rows for all of it, and with rows
that have to serve again.
"""
import copy
import csv
import io
import json
import pathlib
import random
import re
import tempfile

import countries
import kit
import export
import moments
import offers
from bookings import Phase, Refusal
from catalogue import read_catalogue

DAYS, HORIZON, DAY = 30, 3, countries.DAY
MIDNIGHT = countries.START - 6 * 3_600
# When the day changes: after the last trains of the evening, while the night train is on its way.
CHANGE = 2 * 3_600
# On these days a train of the next day is cancelled at noon, and its passengers move to another one or are paid back.
CANCELLED = (3, 6, 9, 12, 13, 16, 20, 25)
# It has left its last stop but one more than 900 seconds before the change, and has not arrived.
LONG_ON_ITS_WAY = 107


class Timetable:
    """The same trains each day, on two layouts: some by day, one that departs just before the change, and one over it.
    """

    def __init__(self, rng, rows):
        self.rng, self.rows = rng, rows
        self.codes = ["S%d" % number for number in range(4)]
        layouts = [[{"coach": 1, "class": "FIRST", "places": [{"first": 1, "last": 3}]},
                    {"coach": 2, "class": "SECOND", "places": [{"first": 11, "last": 18, "traits": ["WINDOW"]}]}],
                   [{"coach": 5, "class": "SECOND",
                     "places": [{"first": 1, "last": 6}, {"first": 8, "last": 9, "traits": ["QUIET"]}]}]]
        hours = [7 * 60, 12 * 60, 18 * 60, 23 * 60 + 30, 24 * 60 + 90, 24 * 60 + 110, 24 * 60 + 117, 24 * 60 + 60]
        self.trains = [(100 + at, minutes, layouts[at % 2], self.codes if at % 3 else self.codes[::-1]) for at,
                       minutes in enumerate(hours)]

    def run(self, day, train, minutes, coaches, codes):
        rng = random.Random(train)
        run = countries.run(rng, train, codes, MIDNIGHT + day * DAY + minutes * 60, copy.deepcopy(coaches))
        if train == LONG_ON_ITS_WAY:
            last = run["stops"][-1]
            last["arrive"] = moments.write_moment(moments.read_moment(last["arrive"]) + 3_000)
        return run

    def catalogue(self, day):
        """The days to come from this one on, as a catalogue."""
        runs = [self.run(to, *train) for to in range(day, day + HORIZON) for train in self.trains]
        self.rng.shuffle(runs)
        return {"currency": "EUR", "rows": self.rows, "confirmSeconds": 900,
                "retailers": [{"number": number, "key": key} for number, key in countries.KEYS],
                "stations": [{"code": code, "change": 300} for code in self.codes],
                "refundSteps": [{"before": 86_400, "fee": 0}, {"before": 0, "fee": 4_000}],
                "ticketFee": 50, "exchangeFee": 30, "runs": runs}


def trains_of(catalogue, code):
    """The trains of an offer, whatever their numbers."""
    return [(catalogue.runs[s.run].train, catalogue.runs[s.run].stops[0].depart, offers.origin(catalogue, s),
             offers.destination(catalogue, s))
            for s in code.segments]


def places_of(catalogue, line):
    found = []
    for item in line.items:
        place = catalogue.places[item.place]
        run = catalogue.runs[place.run]
        found.append((run.train, run.stops[0].depart, place.coach, place.label, item.span))
    return found


class Month:
    """A host that goes on from day to day, by the model, and all that was ever sold."""

    def __init__(self, found, program, folder, seed, rows):
        self.found, self.program, self.folder, self.rng = found, program, folder, random.Random(seed)
        self.timetable = Timetable(self.rng, rows)
        self.data = json.dumps(self.timetable.catalogue(0)).encode()
        self.seller = countries.Seller(self.rng, read_catalogue(self.data))
        self.ledger, self.told, self.over_change, self.reused, self.moved = {}, 0, 0, 0, 0

    def note_sales(self, seller):
        """Each booking of the day is one of an id that never was."""
        for row, booking in seller.ledger.items():
            self.found.need(row not in self.ledger, "the id %s comes twice", row)
            self.ledger[row] = booking
            self.reused += row.generation > 0
        seller.ledger.clear()

    def sell(self, begin, end, count):
        for _ in range(count):
            now = self.rng.randrange(begin, end)
            self.seller.life(now)
        self.seller.books.sweep(end)
        self.trade_old(end)
        self.note_sales(self.seller)

    def trade_old(self, now):
        """Refunds and exchanges of what was sold on some day before."""
        live = [b for b in self.seller.books.bookings if b.phase in (Phase.CONFIRMED, Phase.FULFILLED) and b.retailer]
        for booking in self.rng.sample(live, min(3, len(live))):
            try:
                self.seller.trade(booking.retailer, booking, now)
            except Refusal:
                pass

    def cancel(self, day):
        """A train of tomorrow is cancelled: the host is ended, its export amended, and the next one goes on."""
        now = moments.write_moment(MIDNIGHT + day * DAY + 12 * 3_600)
        trains = real_departures(self.data)
        first = MIDNIGHT + (day + 1) * DAY + 6 * 3_600
        later = sorted((at for at, (_, departs) in enumerate(trains) if departs > first), key=lambda at: trains[at][1])
        number, *others = later[max(range(len(later) - 1), key=lambda at: self.passengers(later[at])):]
        for name, text in (("old.json", self.data), ("old.export", self.seller.export()),
                           ("plan", ("cancel run %d\nmove run %d to %s\nrefund run %d\n" % (
                               number, number, " ".join(map(str, others[:6])), number)).encode())):
            (self.folder / name).write_bytes(text)
        _, changed, _ = kit.run_tool("amend", "--catalogue", self.folder / "old.json", self.folder / "plan")
        (self.folder / "amended.json").write_text(changed)
        files = [self.folder / name for name in ("old.json", "amended.json", "old.export", "plan")]
        status, said, notes = kit.run_tool("amend", *files, "--now", now, "--affected", self.folder / "affected.csv")
        self.found.need(status == 0 and "no place" not in notes, "day %d: amend ends with %d: %s", day, status, notes)
        self.data = changed.encode()
        self.begin(read_catalogue(self.data), said.encode())
        self.moved += len((self.folder / "affected.csv").read_text().splitlines()) - 1

    def passengers(self, number):
        places = {place.number for place in self.seller.catalogue.places_of(number)}
        return sum(item.place in places for b in self.seller.books.bookings if b.is_live() for item in b.items)

    def begin(self, catalogue, text):
        """The next host begins with the export."""
        kept = export.read_export(catalogue, text)
        self.seller = countries.Seller(self.rng, catalogue, kept)
        self.ledger.update((line.row, line) for line in kept if line.retailer)
        return kept

    def offers_before(self, now):
        """What a search of the last 900 seconds may have told, also of the train that departs last before the change.
        """
        found = []
        for made in (now - 900, now - 880, now - 180, now - 1):
            found += [offer for offer in (self.seller.offer(made) for _ in range(12)) if offer]
            found += [offers.OfferCode(made, 1, 0, offer.travel_class, 0, offer.segments[:1]) for offer in found[-3:]]
        # A search looks two days ahead, and so tells none of a train that is cancelled.
        found = [offer for offer in found
                 if all(offers.departure(self.seller.catalogue, s) < now + 7 * DAY for s in offer.segments)]
        return found

    def change(self, day):
        """The day changes: the export is rolled, and the next host begins with it."""
        now = MIDNIGHT + (day + 1) * DAY + CHANGE
        told = self.offers_before(now)
        old, lines = self.seller.catalogue, export.kept_bookings(self.seller.books)
        for name, text in (("old.json", self.data), ("old.export", self.seller.export()),
                           ("coming.json", json.dumps(self.timetable.catalogue(day + 1)).encode())):
            (self.folder / name).write_bytes(text)
        words = [self.folder / name for name in ("old.json", "coming.json", "old.export")]
        words += ["--catalogue", self.folder / "new.json", "--archive", self.folder / "archive.csv", "--now",
                  moments.write_moment(now)]
        status, said, notes = kit.run_tool("roll", *words)
        if not self.found.need(status == 0, "day %d: status %d, %s", day, status, notes):
            raise SystemExit("\n".join(self.found))
        self.data = (self.folder / "new.json").read_bytes()
        (self.folder / "new.export").write_text(said)
        new = read_catalogue(self.data)
        kept = self.begin(new, said.encode())
        taken = kit.host(self.program, "export", self.folder / "new.json", "--from", self.folder / "new.export")
        self.found.need(taken == (0, said.encode(), ""), "day %d: the host says %s", day, taken[2])
        self.try_change(day, now, old, new, lines, kept)
        self.try_offers(day, now, old, new, told)
        self.try_missing(day, notes, lines)

    def try_change(self, day, now, old, new, lines, kept):
        """No booking is kept that is of runs that are over alone; all others are as they were, on the same train and
        places.
        """
        after = {line.row.number: line for line in kept}
        trains = real_departures((self.folder / "old.json").read_bytes())
        shut = {place.number for place in old.places if old.runs[place.run].stops[0].depart != trains[place.run][1]
                and trains[place.run][1] < now - 7_200}
        self.found.need(set(after) == {line.row.number for line in lines}, "day %d: other rows have lines", day)
        for line in lines:
            now_so = after[line.row.number]
            self.found.need(now_so.row == line.row, "day %d: row %s is %s", day, line.row, now_so.row)
            over = all(is_over(old.runs[old.places[item.place].run], now) or item.place in shut for item in line.items)
            if over and line.retailer:
                self.found.need(now_so.retailer == 0 and now_so.phase is Phase.RELEASED, "day %d: %s is kept", day,
                                line.row)
            elif line.retailer:
                same = (now_so.retailer, now_so.phase, now_so.total, now_so.limit) == (line.retailer, line.phase,
                                                                                       line.total, line.limit)
                self.found.need(same and places_of(old, line) == places_of(new, now_so),
                                "day %d: %s is another booking", day, line.row)
        wanted = set(real_departures(json.dumps(self.timetable.catalogue(day + 1)).encode()))
        there = real_departures(self.data)
        self.found.need(wanted <= set(there) and len(set(there)) == len(there),
                        "day %d: runs to come are missing, or stand twice", day)
        self.found.need(len(new.runs) <= (HORIZON + 2) * len(self.timetable.trains), "day %d: %d slots are used", day,
                        len(new.runs))

    def try_offers(self, day, now, old, new, told):
        """An offer of before the change is of the same trains after it, or is refused."""
        for code in told:
            later = now + 1
            if later - code.made > 900 or not offers.is_offered(old, code):
                continue
            if offers.is_offered(new, code):
                self.found.need(trains_of(old, code) == trains_of(new, code), "day %d: an offer is of another train",
                                day)
                self.over_change += 1
            else:
                self.found.need(False, "day %d: an offer is lost", day)

    def try_missing(self, day, notes, lines):
        """What roll says of bookings that came to no archive is what is known of."""
        archived = set(archive_of(self.folder))
        present = {line.row.number: line.row.generation for line in lines}
        gone = [row for row in self.ledger if row.generation < present.get(row.number, 0)
                and offers.write_booking_id(row) not in archived]
        before = sum(row.generation < present.get(row.number, 0) for row in self.ledger)
        unused = sum(present.values()) - before
        told = re.search("came to the archive: at most ([0-9]+);", notes)
        self.told = int(told.group(1)) if told else 0
        self.found.need(len(gone) <= self.told <= len(gone) + unused, "day %d: roll misses %d, and %d are gone", day,
                        self.told, len(gone))

    def gone(self):
        """The bookings that are neither in the archive nor in the last export."""
        there = set(archive_of(self.folder)) | {offers.write_booking_id(b.row) for b in self.seller.books.bookings
                                                if b.retailer}
        return [booking for row, booking in self.ledger.items() if offers.write_booking_id(row) not in there]


def real_departures(data):
    """The train and the first departure of each run, also of one that was cancelled."""
    return [(run["train"], moments.read_moment(run.get("planned", run["stops"])[0]["depart"]))
            for run in json.loads(data)["runs"]]


def is_over(run, now):
    return run.stops[-1].arrive <= now and run.stops[-2].depart + 900 < now


def archive_of(folder):
    with open(folder / "archive.csv", newline="") as file:
        return {record["booking"]: record for record in csv.DictReader(file)}


def table_of(text):
    """Sold, refunded and exchanged of each retailer, by a table."""
    rows = csv.DictReader(io.StringIO(text))
    return {int(row["retailer"]): tuple(int(row[name]) for name in ("sold", "refunded", "exchanged"))
            for row in rows if row["retailer"] != "forgotten"}


def together(*tables):
    sums = {}
    for table in tables:
        for retailer, values in table.items():
            sums[retailer] = tuple(a + b for a, b in zip(sums.get(retailer, (0, 0, 0)), values))
    return sums


def try_month(found, program, seed, rows):
    """The whole month, and then the money: what the archive and the last settlement say is all that was ever sold."""
    with tempfile.TemporaryDirectory() as name:
        folder = pathlib.Path(name)
        month = Month(found, program, folder, seed, rows)
        for day in range(DAYS):
            begin = MIDNIGHT + day * DAY + (CHANGE + 2 if day else 0)
            if day in CANCELLED:
                month.sell(begin, MIDNIGHT + day * DAY + 12 * 3_600, 20)
                month.cancel(day)
                begin = MIDNIGHT + day * DAY + 12 * 3_600
            month.sell(begin, MIDNIGHT + (day + 1) * DAY + CHANGE, 50)
            month.change(day)
        (folder / "last.export").write_bytes(month.seller.export())
        status, settled, _ = kit.host(program, "settle", folder / "new.json", folder / "last.export")
        table = kit.run_tool("roll", "--table", folder / "archive.csv")
        found.need(status == 0 and table[0] == 0, "the tables end with %d and %d", status, table[0])
        gone = month.gone()
        wanted = countries.money(month.ledger.values())
        sums = together(table_of(settled.decode()), table_of(table[1]), countries.money(gone))
        found.need(sums == wanted, "archive and settlement have %s, and sold was %s", sums, wanted)
        found.need(len(month.ledger) > 300 and month.over_change > 100, "%d bookings, %d offers over a change",
                   len(month.ledger), month.over_change)
        found.need(month.moved > 5, "%d bookings were on cancelled trains", month.moved)
        found.need(min(total for total, _, _ in wanted.values()) > 10_000, "too little is sold: %s", wanted)
        return month.reused, len(gone)


def faults(program):
    found = kit.Faults()
    reused, gone = try_month(found, program, 1, 5_000)
    found.need(reused == 0 and gone == 0, "with rows for all %d were used again, and %d bookings are lost", reused,
               gone)
    reused, _ = try_month(found, program, 2, 150)
    found.need(reused > 100, "with few rows %d were used again", reused)
    return found

#!/usr/bin/env python3
"""Holds examples/movements.py against the answers of random lives: each confirmation, refund and exchange that was
answered is one line of the list, with its amount, train and day, and what stays is what came in.

  tests/people/movements.py PROGRAM

Two retailers sell one after the other: the second begins with the first one's export. The last lives have so few rows
that bookings give theirs away, which the list has to say. `settle` gives the same sums where both can tell them.
"""
import csv
import json
import pathlib
import random
import re
import subprocess
import sys
import tempfile

ROOT = pathlib.Path(__file__).resolve().parents[2]
START, LATER, TICK = "2026-06-01T04:00:00Z", "2026-06-01T05:00:00Z", 20
SEEDS, ROWS, FEW_ROWS = 40, 64, 6
STRETCHES = [(0, "BASEL", "OLTEN"), (0, "BASEL", "BERN"), (0, "OLTEN", "BERN"), (1, "BERN", "THUN")]
DAYS = {501: "2026-06-01", 812: "2026-06-02"}


class Session:
    """One retailer's connection, and what its answers say of money."""

    def __init__(self, words, key):
        self.process = subprocess.Popen(words, stdin=subprocess.PIPE, stdout=subprocess.PIPE)
        self.key, self.sent, self.bookings, self.lines = key, b"", {}, []

    def ask(self, method, path, body=None):
        data = json.dumps(body).encode() if body is not None else b""
        head = "%s %s HTTP/1.1\r\nRetailer-Key: %s\r\nContent-Length: %d\r\n\r\n" % (method, path, self.key, len(data))
        self.sent += head.encode() + data
        self.process.stdin.write(head.encode() + data)
        self.process.stdin.flush()
        status, length = int(self.process.stdout.readline()[9:12]), 0
        while (line := self.process.stdout.readline()) != b"\r\n":
            length = int(line.split(b":")[1]) if line.startswith(b"Content-Length") else length
        return status, json.loads(self.process.stdout.read(length))

    def line(self, kind, booking, amount, replaces=""):
        trains = list(dict.fromkeys(place["train"] for place in booking["reservations"]))
        trip = ["+".join(map(str, trains)), DAYS[trains[0]]]
        self.lines.append([booking["id"], kind, replaces, *trip, "%.2f" % (amount / 100), "EUR"])

    def turn(self, rng):
        """One step of a life, as the session's bookings allow."""
        live = [one for one in self.bookings.values() if not one["settled"]]
        if not live or rng.random() < 0.4:
            return self.book(rng)
        booking = rng.choice(live)
        if booking["status"] == "PREBOOKED":
            return self.confirm(booking) if rng.random() < 0.7 else self.keep(self.ask("DELETE", path_of(booking)))
        return rng.choice([self.collect, self.refund, self.exchange])(booking)

    def keep(self, answered):
        status, booking = answered
        if status < 300:
            self.bookings[booking["id"]] = booking
        return status < 300

    def book(self, rng):
        if rng.random() < 0.3:
            offers = self.offers()
            return bool(offers) and self.keep(self.ask("POST", "/bookings", {"offerId": offers[0]["id"]}))
        run, begin, end = rng.choice(STRETCHES)
        party = {"run": run, "from": begin, "to": end, "count": rng.randint(1, 3)}
        return self.keep(self.ask("POST", "/reservations", party))

    def offers(self):
        wish = {"adults": 1, "children": 1, "origin": "BASEL", "destination": "OLTEN", "earliest": START}
        return self.ask("POST", "/offers", wish)[1]["offers"]

    def confirm(self, booking):
        if self.keep(self.ask("POST", path_of(booking) + "/fulfillments")):
            self.line("sale", booking, booking["price"]["amount"])

    def collect(self, booking):
        self.keep(self.ask("PATCH", path_of(booking) + "/fulfillments", {"status": "FULFILLED"}))

    def refund(self, booking):
        quote = self.ask("POST", path_of(booking) + "/refund-offers")[1]
        answered = self.ask("PATCH", path_of(booking) + "/refund-offers/" + quote["id"], {"status": "CONFIRMED"})
        if self.keep(answered):
            self.line("refund", booking, -answered[1]["endAmount"]["amount"])

    def exchange(self, booking):
        offers = self.offers()
        if not offers:
            return
        quote = self.ask("POST", "/exchange-offers", {"bookingId": booking["id"], "offerId": offers[0]["id"]})[1]
        accepted = {"exchangeOfferId": quote["id"]}
        status, done = self.ask("POST", path_of(booking) + "/exchange-operations", accepted)
        if status == 201:
            self.keep((201, done["booking"]))
            self.bookings.pop(booking["id"])
            self.line("exchange", done["booking"], done["difference"]["amount"], booking["id"])

    def close(self):
        self.process.stdin.close()
        self.process.wait()


def path_of(booking):
    return "/bookings/" + booking["id"]


def session(program, catalogue, key, rng, folder, start, before=None):
    """A session of random steps, and the export at its end."""
    words = [str(catalogue), "--start", start, "--tick", str(TICK)] + (["--from", str(before)] if before else [])
    played = Session([program, "replay", *words], key)
    for _ in range(rng.randint(5, 40)):
        played.turn(rng)
    played.close()
    made = subprocess.run([program, "export", *words], input=played.sent, capture_output=True, check=True)
    path = folder / ("%s.export" % key)
    path.write_bytes(made.stdout)
    return played, path


def listed(catalogue, export, *words):
    command = [sys.executable, str(ROOT / "examples" / "movements.py"), str(catalogue), str(export), *words]
    done = subprocess.run(command, capture_output=True, text=True, check=True)
    return list(csv.reader(done.stdout.splitlines())), done.stderr


def faults_of_lives(program, catalogue, seed, folder):
    rng = random.Random(seed)
    north, export = session(program, catalogue, "north", rng, folder, START)
    south, export = session(program, catalogue, "south", rng, folder, LATER, export)
    rows, said = listed(catalogue, export)
    if rows[0] != "retailer,booking,kind,replaces,moment,train,day,amount,currency".split(","):
        yield "the first line is %s" % rows[0]
    wanted = [["1"] + line for line in north.lines] + [["2"] + line for line in south.lines]
    shown = [row[:4] + row[5:] for row in rows[1:]]
    if sorted(shown) != sorted(wanted):
        yield "shown are\n%s\nwhere\n%s\nwere answered" % (sorted(shown), sorted(wanted))
    for row in rows[1:]:
        if (row[2] == "sale") != (row[4] == ""):
            yield "the moment of %s" % row
    if said.splitlines() != list(sums(wanted)):
        yield "what stays is %s, and it says %s" % (list(sums(wanted)), said)
    yield from beside_settle(program, catalogue, export, rows[1:])


def sums(wanted):
    """What stays, by retailer and where there isn't just one for all."""
    retailers = sorted({line[0] for line in wanted})
    groups = [("retailer " + number, [line for line in wanted if line[0] == number]) for number in retailers]
    for name, lines in groups + ([] if len(groups) == 1 else [("all", wanted)]):
        stays = sum(round(float(line[-2]) * 100) for line in lines)
        yield "movements: %s: %d movements, %s EUR stay" % (name, len(lines), decimal(stays))


def decimal(amount):
    return "%s%d.%02d" % ("-" if amount < 0 else "", abs(amount) // 100, abs(amount) % 100)


def beside_settle(program, catalogue, export, rows):
    """The table's refunds and exchanges are the list's, and its sales are those of the list and of the successors."""
    table = subprocess.run([program, "settle", str(catalogue), str(export)], capture_output=True, text=True, check=True)
    for line in table.stdout.splitlines()[1:-1]:
        number, _, _, _, refunded, exchanged = line.split(",")
        sums = {kind: 0 for kind in ("refund", "exchange")}
        for row in rows:
            if row[0] == number and row[2] in sums:
                sums[row[2]] += round(float(row[7]) * 100)
        if (int(refunded), int(exchanged)) != (-sums["refund"], sums["exchange"]):
            yield "settle says %s, and the list %s" % (line, sums)


def faults_of_few_rows(program, catalogue, folder):
    """Rows are used again: what is left is a part of what was answered, but for exchanges whose first half is gone."""
    told = 0
    for seed in range(10):
        north, export = session(program, catalogue, "north", random.Random(seed), folder, START)
        rows, said = listed(catalogue, export)
        # A row's generation counts the bookings that it had before.
        gone = sum(int(n) for n in re.findall(r"^row \d+ (\d+) ", export.read_text(), re.MULTILINE))
        if ("not complete: up to %d ended bookings" % gone in said) != (gone > 0):
            yield "rows were given away %d times, and it says %s" % (gone, said)
        shown, answered = [row[1:4] + row[5:] for row in rows[1:]], list(north.lines)
        for row in shown:
            if row[1] != "sale" and not (row in answered or row[3] == ""):
                yield "%s was never answered" % row
        told += gone > 0
    if told == 0:
        yield "no row was used again"


def faults_of_nobody(catalogue, folder):
    """A booking of retailer 0 keeps a place from being sold, and nobody paid it."""
    path = folder / "nobody.export"
    path.write_text("rail-export 1 18 %d\nrow 0 0 C 0 1780294500 0 1 0.0.2\nend 1\n" % ROWS)
    rows, _ = listed(catalogue, path)
    if len(rows) != 1:
        yield "nobody's booking is %s" % rows[1:]


def faults_of_refusals(catalogue, folder):
    good = (folder / "south.export").read_text()
    texts = [
        ("cut off", good[:-3], "it is no export, or was cut off"),
        ("empty", "", "it is no export, or was cut off"),
        ("a line by hand", good.replace("\nend", "\nrow x\nend", 1), "it is no export"),
        ("another catalogue's", good.replace("rail-export 1 18 ", "rail-export 1 19 "), "it is of 19 places, and the"),
    ]
    for what, text, wanted in texts:
        path = folder / "wrong.export"
        path.write_text(text)
        command = [sys.executable, str(ROOT / "examples" / "movements.py"), str(catalogue), str(path)]
        done = subprocess.run(command, capture_output=True, text=True)
        refused = done.returncode == 1 and done.stderr.startswith("movements: ") and not done.stdout
        if not refused or wanted not in done.stderr:
            yield "%s: status %d, %s" % (what, done.returncode, done.stderr)
    command[2:] = [str(catalogue), "/nowhere"]
    done = subprocess.run(command, capture_output=True, text=True)
    if (done.returncode, done.stderr) != (1, "movements: /nowhere: No such file or directory\n"):
        yield "no file: status %d, %s" % (done.returncode, done.stderr)


def main():
    program, found = str(pathlib.Path(sys.argv[1]).resolve()), []
    with tempfile.TemporaryDirectory() as name:
        folder = pathlib.Path(name)
        # The second train leaves a day later, so that the day is the train's own.
        text = (ROOT / "examples" / "k1.json").read_text()
        for moment in ("T09:10:00Z", "T09:30:00Z"):
            text = text.replace("2026-06-01" + moment, "2026-06-02" + moment)
        catalogue, small = folder / "catalogue.json", folder / "small.json"
        catalogue.write_text(text.replace('"EUR",', '"EUR","rows":%d,' % ROWS))
        small.write_text(text.replace('"EUR",', '"EUR","rows":%d,' % FEW_ROWS))
        for seed in range(SEEDS):
            found += ["seed %d: %s" % (seed, fault) for fault in faults_of_lives(program, catalogue, seed, folder)]
        found += faults_of_refusals(catalogue, folder)
        found += faults_of_nobody(catalogue, folder)
        found += ["few rows: %s" % fault for fault in faults_of_few_rows(program, small, folder)]
    for fault in found:
        print("movements: " + fault)
    print("movements: %d random lives of two retailers, few rows, and wrong exports: %d wrong" % (SEEDS, len(found)))
    return 1 if found else 0


sys.exit(main())

#!/usr/bin/env python3
"""Feeds in GTFS, and the catalogues that examples/gtfs.py makes of them.

  tests/people/timetables.py PROGRAM

A feed of 3,000 trips of a day is made here, with services, platforms, trips past midnight and faults of each kind. What its catalogue has to
be is worked out from the same trips by the rules of docs/timetables.md, on four days, two of which change the clock. The checker and the
host take it, and the host sells what the templates say. Then come limits, refusals, and the page's own commands.
"""
import csv
import io
import json
import os
import pathlib
import random
import re
import shlex
import shutil
import subprocess
import sys
import tempfile
import zipfile

ROOT = pathlib.Path(__file__).resolve().parents[2]
GTFS, CHECKER = ROOT / "examples" / "gtfs.py", ROOT / "examples" / "check_catalogue.py"
BUILT, PAGE = "crates/rail_host/out/rail_host", "docs/timetables.md"
# Seconds since 1970 from which the times of a service day count: twelve hours before noon in Zurich. It is one hour off midnight on the days
# on which the clock changes: noon of 29 March is 10:00 UTC, noon of 25 October 11:00.
ZERO = {
    "2026-06-01": 1780264800,  # 2026-05-31T22:00:00Z
    "2026-03-29": 1774735200,  # 2026-03-28T22:00:00Z
    "2026-10-25": 1792882800,  # 2026-10-24T23:00:00Z
    "2026-12-25": 1798153200,  # 2026-12-24T23:00:00Z
}
# Which services run then: a Monday, two Sundays, and a Friday on which the working days' trains are replaced.
RUNNING = {
    "2026-06-01": {"daily", "weekday"},
    "2026-03-29": {"daily", "sunday"},
    "2026-10-25": {"daily", "sunday"},
    "2026-12-25": {"daily", "holiday"},
}
CALENDAR = [("daily", "1111111"), ("weekday", "1111100"), ("sunday", "0000001"), ("saturday", "0000010")]
DATES = [("weekday", "20261225", 2), ("holiday", "20261225", 1), ("holiday", "20260102", 1)]
# Stations: id, stop_code, name, how many platforms, and the code that the rules give it.
STATIONS = [
    ("8503000", "", "Zürich HB", 3, "8503000"),
    ("de:1:zh", "", "Zürich HB", 0, "ZURICHHB"),
    ("de:2:zh", "", "Zürich Hbf", 2, "ZURICHH2"),
    ("fr:strasbourg", "", "Straßburg", 0, "STRASSBU"),
    ("given", "", "Köln", 0, "COLOGNE"),
    ("station-7", "BERN", "Bern", 2, "BERN"),
    ("OLTEN", "no code", "Olten", 0, "OLTEN"),
    ("twice", "BERN", "Bern Ost", 0, "BERNOST"),
    *[("de:%d:zh" % n, "", "Zürich Hbf", 0, "ZURICHH%d" % n if n < 10 else "ZURICH%d" % n) for n in range(3, 12)],
] + [("s-%d" % n, "", "Halt %d" % n, n % 3, "HALT%d" % n) for n in range(132)]
CODE = {station[0]: station[4] for station in STATIONS}
PLATFORMS = {station[0]: station[3] for station in STATIONS}
HALTS = ["s-%d" % n for n in range(132)]
# What a route is sold by: places in second class from this number on, base and fare of a leg in minor units; places of the template.
LONG, LOCAL, NONE = "long-distance", "local", None
SECOND = {LONG: (2, 11, 500, 300), LOCAL: (1, 1, 300, 200)}
PLACES = {LONG: 28 + 40 + 40 + 64, LOCAL: 60 + 12}
ROUTES = [("R-%02d" % n, "IC %d" % n, 102, LONG) for n in range(12)] + [("L-%02d" % n, "S %d" % n, 109, LOCAL) for n in range(18)]
BUS = ("B-1", "7", 700, NONE)
TEMPLATE = {route[0]: route[3] for route in ROUTES}


class Trip:
    """A trip as its operator knows it: calls are (station, arrival, departure) in seconds of its service day."""

    def __init__(self, id_, route, service, calls, number=None):
        self.id, self.route, self.service, self.calls, self.number = id_, route, service, calls, number
        self.rows, self.fault = [list(call) + ["", ""] for call in calls], None

    def spoilt(self, why, *changes):
        """The same trip with cells of its rows changed, so that it is told."""
        self.fault = why
        for row, column, value in changes:
            self.rows[row][column] = value
        return self


def moment(seconds):
    """RFC 3339 in UTC, by the calendar's rule."""
    days, rest = divmod(seconds, 86400)
    year, month = 1970, 0
    while days >= 365 + (year % 4 == 0):
        days -= 365 + (year % 4 == 0)
        year += 1
    lengths = [31, 28 + (year % 4 == 0), 31, 30, 31, 30, 31, 31, 30, 31, 30, 31]
    while days >= lengths[month]:
        days -= lengths[month]
        month += 1
    return "%04d-%02d-%02dT%02d:%02d:%02dZ" % (year, month + 1, days + 1, rest // 3600, rest // 60 % 60, rest % 60)


def clock(seconds, rng):
    """As GTFS writes a time, with a leading zero or without."""
    text = "%d:%02d:%02d" % (seconds // 3600, seconds // 60 % 60, seconds % 60)
    return text if rng.random() < 0.3 else text.rjust(8, "0")


def made_calls(rng, stations, begin):
    calls, at = [], begin
    for _ in stations:
        arrive = at
        depart = arrive + rng.choice([0, 0, 60, 120, 300])
        calls.append((stations[len(calls)], arrive, depart))
        at = depart + rng.choice([1, 60, 300, 1800])
    return calls


def made_trips(count, rng):
    """Trips that run on 1 June, and trips of other days; numbers are given but for each fifth."""
    ids, trips = [station[0] for station in STATIONS], []
    for number in range(count + count // 3):
        route, service = rng.choice(ROUTES)[0], rng.choice(["daily", "weekday"])
        if number >= count:
            service = rng.choice(["sunday", "saturday", "holiday"])
        begin = rng.randrange(0, 26 * 3600)
        calls = made_calls(rng, rng.sample(ids, rng.randint(2, 14)), begin)
        trips.append(Trip("T%05d" % number, route, service, calls, None if number % 5 == 4 else 100 + number))
    return trips


def calls_of(stations, begin=36000, step=600):
    return [(station, begin + step * n, begin + step * n + 60) for n, station in enumerate(stations)]


def faulty_trips():
    """A trip for each thing that a run can't have, with the words by which it is told."""
    four = HALTS[:4]
    made = lambda id_, stations=four, route="R-00": Trip(id_, route, "daily", calls_of(stations), 7)
    return [
        made("F-many", HALTS[:128]).spoilt("it has 128 stops, and a run 2 to 127"),
        made("F-one", HALTS[:1]).spoilt("it has 1 stop, and a run 2 to 127"),
        made("F-none", []).spoilt("it has no stop in stop_times.txt"),
        made("F-equal").spoilt("it comes to s-2 at 10:11:00, no later than it left the stop before, at 10:11:00", (2, 1, 36660)),
        made("F-back").spoilt("it leaves s-1 at 10:09:59, before it comes there, at 10:10:00", (1, 2, 36599)),
        made("F-twice", [*four, HALTS[0]]).spoilt("it stops at s-0 twice"),
        made("F-unknown").spoilt("stops.txt has no stop 'nowhere'", (1, 0, "nowhere")),
        made("F-untimed").spoilt("its first or last stop has no time", (3, 1, ""), (3, 2, "")),
        made("F-often").spoilt("trips by frequency are not supported"),
    ]


def odd_trips():
    """Trips that run all the same, with what is told of them: a stop without a time, one where nobody gets on or off, one for a way alone."""
    passing = Trip("O-pass", "R-01", "daily", calls_of(HALTS[:2] + HALTS[3:5], 40000), 901)
    passing.rows.insert(2, [HALTS[2], 40900, 40900, "1", "1"])
    untimed = Trip("O-untimed", "R-01", "daily", calls_of([HALTS[5], HALTS[7]], 41000), 902)
    untimed.rows.insert(1, [HALTS[6], "", "", "", ""])
    out_alone = Trip("O-out", "R-01", "daily", calls_of(HALTS[8:11], 42000), 903)
    out_alone.rows[1][3] = "1"
    half = Trip("O-half", "R-01", "daily", calls_of(HALTS[11:15], 43000), 904)
    half.calls[1:3] = [(HALTS[12], 43600, 43600), (HALTS[13], 44200, 44200)]
    half.rows[1:3] = [[HALTS[12], 43600, "", "", ""], [HALTS[13], "", 44200, "", ""]]
    night = Trip("O-night", "L-00", "daily", [(HALTS[130], 88200, 88200), (HALTS[131], 90000, 90000)], 999)
    return [passing, untimed, out_alone, half, night]


TOLD_OF_ODD = [
    "trip O-untimed: stop s-6: it has no time there, so the run doesn't stop",
    "trip O-out: stop s-9: passengers may only get out there, and the host sells both",
]


# The feed's files


def table(head, rows, rng, sort=False):
    """A file as some exporter writes it: with a column more, in another order of columns, and rows as they come."""
    columns = list(range(len(head)))
    rng.shuffle(columns)
    out = io.StringIO()
    writer = csv.writer(out, lineterminator=rng.choice(["\n", "\r\n"]), quoting=rng.choice([csv.QUOTE_ALL, csv.QUOTE_MINIMAL]))
    writer.writerow([head[c] for c in columns] + ["note"])
    if not sort:
        rng.shuffle(rows)
    for row in rows:
        writer.writerow([row[c] for c in columns] + ['with "quotes", and a comma'])
    return out.getvalue()


def stop_rows():
    for id_, code, name, platforms, _ in STATIONS:
        yield [id_, code, name, "1" if platforms else "", ""]
        for number in range(platforms):
            yield ["%s:%d" % (id_, number), str(number), name, "0", id_]


def call_rows(trip, rng):
    sequence = 0
    for station, arrive, depart, entry, leave in trip.rows:
        sequence += rng.randint(1, 9)
        platforms = PLATFORMS.get(station, 0)
        stop = "%s:%d" % (station, rng.randrange(platforms)) if platforms else station
        times = [text if text == "" else clock(text, rng) for text in (arrive, depart)]
        yield [trip.id, *times, stop, sequence, entry, leave]


def feed_files(trips, rng):
    numbered = [[t.route, t.service, t.id, "" if t.number is None else rng.choice(["%d", "IC %d", "R 3 / %d"]) % t.number] for t in trips]
    week = ["monday", "tuesday", "wednesday", "thursday", "friday", "saturday", "sunday"]
    calendar = [[service, *days, "20260101", "20261231"] for service, days in CALENDAR]
    stop_times = ["trip_id", "arrival_time", "departure_time", "stop_id", "stop_sequence", "pickup_type", "drop_off_type"]
    calls = [row for trip in trips for row in call_rows(trip, rng)]
    return {
        "agency.txt": table(["agency_id", "agency_name", "agency_timezone"], [["1", "A", "Europe/Zurich"], ["2", "B", "Europe/Zurich"]], rng),
        "stops.txt": table(["stop_id", "stop_code", "stop_name", "location_type", "parent_station"], list(stop_rows()), rng, sort=True),
        "routes.txt": table(["route_id", "route_short_name", "route_type"], [route[:3] for route in [*ROUTES, BUS]], rng),
        "trips.txt": table(["route_id", "service_id", "trip_id", "trip_short_name"], numbered, rng),
        "stop_times.txt": table(stop_times, calls, rng),
        "calendar.txt": table(["service_id", *week, "start_date", "end_date"], calendar, rng),
        "calendar_dates.txt": table(["service_id", "date", "exception_type"], [list(row) for row in DATES], rng),
        "frequencies.txt": table(["trip_id", "start_time", "end_time", "headway_secs"], [["F-often", "06:00:00", "9:00:00", "600"]], rng),
    }


def write_zip(path, files):
    with zipfile.ZipFile(path, "w", zipfile.ZIP_DEFLATED) as archive:
        for name, text in files.items():
            archive.writestr(name, ("\ufeff" + text).encode())


def templates_text(**members):
    """The example's templates, with a station's code for this feed, and two groups that part its routes by their numbers."""
    made = json.loads((ROOT / "examples" / "templates.json").read_text())
    made["stations"] = {"given": {"code": "COLOGNE", "change": 600}}
    made["groups"] = [{"name": "north", "routes": ["R-0*", "L-0*"]}, {"name": "south", "routes": ["R-1*", "L-1*"]}]
    made.update(members)
    return json.dumps(made)


# What has to come of it


def runs_wanted(trips, day):
    """The runs of the day: each sound trip that runs, by its first departure and its id."""
    chosen = [trip for trip in trips if trip.service in RUNNING[day] and not trip.fault and trip.route != BUS[0]]
    chosen.sort(key=lambda trip: (trip.calls[0][2], trip.id))
    free = iter(sorted(set(range(1, 20000)) - {trip.number for trip in chosen}))
    return [(trip, next(free) if trip.number is None else trip.number) for trip in chosen]


def stops_wanted(trip, day):
    stops = []
    for station, arrive, depart in trip.calls:
        stops.append({"station": CODE[station], "arrive": moment(ZERO[day] + arrive), "depart": moment(ZERO[day] + depart)})
    del stops[0]["arrive"], stops[-1]["depart"]
    return stops


def faults_of_catalogue(made, wanted, day, templates):
    """Where the catalogue isn't the one that the rules give."""
    by_name = {item["name"]: item for item in templates["templates"]}
    got = made["runs"]
    if len(got) != len(wanted):
        yield "%s: %d runs, not %d" % (day, len(got), len(wanted))
    for index, (run, (trip, number)) in enumerate(zip(got, wanted)):
        template = by_name[TEMPLATE[trip.route]]
        right = {"train": number, "stops": stops_wanted(trip, day), "fares": template["fares"], "coaches": template["coaches"]}
        if run != right:
            yield "%s: run %d, trip %s: %s, not %s" % (day, index, trip.id, run, right)
            return
    called = {station for trip, _ in wanted for station, _, _ in trip.calls}
    stations = [{"code": s[4], "change": 600 if s[0] == "given" else 240} for s in STATIONS if s[0] in called]
    if made["stations"] != stations:
        yield "%s: stations %s, not %s" % (day, made["stations"], stations)
    for name in ("currency", "rows", "retailers", "refundSteps", "ticketFee", "exchangeFee"):
        if made[name] != templates[name]:
            yield "%s: %s is %s" % (day, name, made[name])
    if set(made) & {"templates", "groups", "change"}:
        yield "%s: the catalogue has members of the templates" % day


def faults_of_told(said, trips, wanted, day):
    running = [trip for trip in trips if trip.service in RUNNING[day]]
    lines = ["trip %s: %s: left out" % (trip.id, trip.fault) for trip in running if trip.fault] + TOLD_OF_ODD
    bus = sum(trip.route == BUS[0] for trip in running)
    lines += ["routes.txt: route B-1: it has no template: %s left out" % ("1 trip" if bus == 1 else "%d trips" % bus)]
    lines += ["%s in Europe/Zurich: %s of %s trips are runs" % (day, format(len(wanted), ","), format(len(running), ","))]
    for line in lines:
        if sum(text.endswith(line) for text in said.splitlines()) != 1:
            yield "%s: %r is not told once" % (day, line)
    left = [text for text in said.splitlines() if text.endswith(": left out")]
    if len(left) != sum(bool(trip.fault) for trip in running):
        yield "%s: told are\n%s" % (day, "\n".join(left))


# Running it


def run(*words):
    return subprocess.run(list(map(str, words)), stdin=subprocess.DEVNULL, capture_output=True, text=True, timeout=120)


def gtfs(feed, templates, *words, day="2026-06-01"):
    return run(sys.executable, GTFS, feed, "--day", day, "--templates", templates, *words)


def faults_of_days(folder, trips, count):
    """The catalogues of four days, and the path of the first."""
    feed, templates = folder / "feed.zip", folder / "templates.json"
    write_zip(feed, feed_files(trips, random.Random(2)))
    templates.write_text(templates_text())
    for day in ZERO:
        done, wanted = gtfs(feed, templates, "--stations", folder / "stations.csv", day=day), runs_wanted(trips, day)
        if done.returncode:
            yield "%s: status %d: %s" % (day, done.returncode, done.stderr)
            continue
        if day == "2026-06-01" and len(wanted) != count:
            yield "%s: the test makes %d runs" % (day, len(wanted))
        yield from faults_of_catalogue(json.loads(done.stdout), wanted, day, json.loads(templates.read_text()))
        yield from faults_of_told(done.stderr, trips, wanted, day)
        if day == "2026-06-01":
            (folder / "catalogue.json").write_text(done.stdout)
            yield from faults_of_codes(folder / "stations.csv", wanted)


def faults_of_codes(path, wanted):
    called = {station for trip, _ in wanted for station, _, _ in trip.calls}
    rows = [[s[4], s[0], s[2]] for s in STATIONS if s[0] in called]
    with open(path, newline="", encoding="utf-8") as file:
        got = list(csv.reader(file))
    if got != [["code", "stop_id", "stop_name"], *rows]:
        yield "stations: %s" % got[:9]


def faults_of_checker(path, wanted):
    done = run(sys.executable, CHECKER, path, "--now", "2026-05-01T00:00:00Z")
    places = sum(PLACES[TEMPLATE[trip.route]] for trip, _ in wanted)
    line = "the host takes this catalogue: %s runs, %s places\n" % (format(len(wanted), ","), format(places, ","))
    if done.returncode or ": fault" in done.stdout or not done.stdout.endswith(line):
        yield "the checker: %s" % done.stdout[-1000:]


def request(method, path, body):
    text = json.dumps(body)
    return "%s %s HTTP/1.1\r\nRetailer-Key: north\r\nContent-Length: %d\r\n\r\n%s" % (method, path, len(text), text)


def answers(text):
    """The status and the body of each answer."""
    while text:
        head, _, rest = text.partition("\r\n\r\n")
        length = int(re.search(r"Content-Length: (\d+)", head).group(1))
        yield int(head.split()[1]), json.loads(rest[:length])
        text = rest[length:]


def reservation_wanted(index, trip, number, start):
    """Two adults over the whole run: the first two places of second class, at base and leg for each of both."""
    coach, first, base, leg = SECOND[TEMPLATE[trip.route]]
    ends = {"from": CODE[trip.calls[0][0]], "run": index, "to": CODE[trip.calls[-1][0]], "train": number}
    price = {"amount": 2 * (base + leg * (len(trip.calls) - 1)), "currency": "CHF", "scale": 2}
    reservations = [{"coach": coach, "place": place, **ends} for place in (first, first + 1)]
    return {"confirmableUntil": moment(start + 900), "price": price, "reservations": reservations, "settled": False, "status": "PREBOOKED"}


def faults_of_sale(program, path, wanted):
    """A search for the one train of two stations, past midnight, its booking, and a reservation on each hundredth run."""
    start = ZERO["2026-06-01"] + 3600
    night = next(index for index, (trip, _) in enumerate(wanted) if trip.id == "O-night")
    depart, arrive = (ZERO["2026-06-01"] + seconds for seconds in (88200, 90000))
    chosen = [index for index in range(0, len(wanted), 100) if index != night]
    wish = {"adults": 1, "origin": "HALT130", "destination": "HALT131", "earliest": moment(depart), "latest": moment(depart)}
    asked = request("POST", "/offers", wish)
    for index in chosen:
        trip = wanted[index][0]
        ends = {"from": CODE[trip.calls[0][0]], "to": CODE[trip.calls[-1][0]]}
        asked += request("POST", "/reservations", {"class": "SECOND", "count": 2, "run": index, **ends})
    words = [str(program), "replay", str(path), "--start", moment(start)]
    done = subprocess.run(words, input=asked.encode(), capture_output=True, timeout=60)
    if done.returncode or done.stderr:
        yield "the host: status %d, %s" % (done.returncode, done.stderr)
        return
    (status, found), *sold = answers(done.stdout.decode())
    segment = {"arrive": moment(arrive), "depart": moment(depart), "free": 60, "from": "HALT130", "run": night, "to": "HALT131", "train": 999}
    direct = [offer for offer in found["offers"] if offer["segments"] == [segment]]
    if status != 200 or len(direct) != 1 or direct[0]["price"]["amount"] != 500:
        yield "the search: %d %s" % (status, found)
    for index, (status, booking) in zip(chosen, sold):
        booking.pop("id", None)
        right = reservation_wanted(index, *wanted[index], start)
        if (status, booking) != (201, right):
            yield "run %d: %d %s, not %s" % (index, status, booking, right)
    if len(sold) != len(chosen):
        yield "the host gave %d answers" % (len(sold) + 1)


def faults_of_parts(folder, program):
    """4,200 trips are too many for one host, and not for two."""
    rng = random.Random(3)
    trips = [Trip("P%d" % n, ["R-00", "R-10", "R-11"][n % 3], "daily", calls_of(HALTS[:2], 10 * n), n + 1) for n in range(4200)]
    trips += [Trip("Q1", "L-05", "daily", calls_of(HALTS[:2]), 5000)]
    feed, templates = folder / "many.zip", folder / "templates.json"
    write_zip(feed, feed_files(trips, rng))
    one = gtfs(feed, templates)
    if one.returncode != 1 or one.stdout or "the catalogue: not written: 4,201 runs, and a host has at most 4,096" not in one.stderr:
        yield "4,201 runs in one: status %d, %s" % (one.returncode, one.stderr[-400:])
    groups = [{"name": "north", "routes": ["R-0*"]}, {"name": "south", "routes": ["R-1*"]}]
    templates.write_text(templates_text(groups=groups))
    two = gtfs(feed, templates, "--parts", folder / "parts")
    if two.returncode or "route L-05: it is in no group: 1 trip left out" not in two.stderr:
        yield "in two: status %d, %s" % (two.returncode, two.stderr[-400:])
        return
    for name, count in (("north", 1400), ("south", 2800)):
        path = folder / "parts" / (name + ".json")
        if len(json.loads(path.read_text())["runs"]) != count or run(program, "replay", path).returncode:
            yield "in two: %s" % name
    templates.write_text(templates_text(groups=[*groups, {"name": "west", "routes": ["X*"]}]))
    three = gtfs(feed, templates, "--parts", folder / "parts")
    if three.returncode != 1 or "west.json: not written: it has no run on 2026-06-01" not in three.stderr:
        yield "an empty part: status %d, %s" % (three.returncode, three.stderr[-400:])


# A change of the example's feed or templates, the status, and what is told.
REFUSED = [
    ("stop_times.txt", None, "", 3, "stop_times.txt: the feed has no such file"),
    ("stops.txt", "stop_id", "stop", 3, "stops.txt:1: there is no column stop_id"),
    ("agency.txt", "Europe/Zurich", "Europe/Nowhere", 3, "agency.txt: this machine knows no time zone Europe/Nowhere"),
    ("agency.txt", "Europe/Zurich\n", "Europe/Zurich\n2,B,,Europe/Paris\n", 3, "agency.txt: its agencies are of different time zones"),
    ("calendar.txt", "20261231", "2026-12-31", 3, "calendar.txt:2: '2026-12-31' is no date, as 20260601"),
    ("calendar.txt", "20260101", "20260701", 3, "no trip runs on 2026-06-01; the feed's services run from 2026-07-01 to 2026-12-31"),
    ("calendar_dates.txt", ",2\n", ",3\n", 3, "calendar_dates.txt:2: '3' is no exception_type, 1 or 2"),
    ("routes.txt", ",102\n", ",rail\n", 3, "routes.txt:2: 'rail' is no route_type"),
    ("trips.txt", "R-61,daily", "R-62,daily", 3, "trips.txt:3: routes.txt has no route R-62"),
    ("stop_times.txt", "10:25:00", "10h25", 3, "stop_times.txt:3: '10h25' is no time, as 25:10:00"),
    ("stops.txt", ",0,8500010\n", ",0,8500019\n", 3, "stops.txt:3: parent_station 8500019 is no other stop"),
    ("stop_times.txt", "13:10:00,8507000:7,1\n", "13:10:00,8507000:7,1,1\n", 0, "2026-06-01 in Europe/Zurich: 4 of 6 trips are runs"),
    ("templates", None, "", 3, "templates.json: No such file or directory"),
    ("templates", '"currency"', "currency", 3, "templates.json: Expecting property name enclosed in double quotes: line 2 column 3 (char 4)"),
    ("templates", '"base": 1000', '"base": 10.5', 3, "template long-distance: fares.first.base: 10.5 is no whole number. Write digits without quotes, point and exponent, 0 to 10,000,000 minor units"),
    ("templates", '"first": 51', '"first": 50', 3, "template long-distance: coaches[1].places[1]: place 50 of coach 2 stands twice in the run, first in line 2. Groups of one coach number must not overlap"),
    ("templates", '"code": "THUN"', '"code": "Thun"', 3, 'stations, de:thun: code: "Thun" is not 1 to 8 of the letters A to Z and digits. Write 1 to 8 of the letters A to Z and digits'),
    ("templates", '"name": "local"', '"name": "long-distance"', 3, "templates.json: a template's name stands twice"),
    ("templates", '"types"', '"kinds"', 3, "templates.json: template local: there is no member kinds"),
    ("templates", '"rows": 65536', '"row": 65536', 0, "hint: row: the host ignores this member; is rows meant? Without it, it is 65,536"),
    ("templates", '"de:thun"', '"de:thur"', 0, "stops.txt: there is no station de:thur, which the templates name"),
]


def faults_of_refusals(folder):
    for number, (name, old, new, status, line) in enumerate(REFUSED):
        feed = folder / ("refused-%d" % number)
        shutil.copytree(ROOT / "examples" / "feed", feed)
        shutil.copy(ROOT / "examples" / "templates.json", feed / "templates.json")
        file = feed / ("templates.json" if name == "templates" else name)
        if old is None:
            file.unlink()
        elif old not in file.read_text():
            yield "%s: %r is not there" % (name, old)
        else:
            file.write_text(file.read_text().replace(old, new))
        done = gtfs(feed, feed / "templates.json")
        if done.returncode != status or not any(text.endswith(line) for text in done.stderr.splitlines()):
            yield "%s, %r: status %d, %s" % (name, new, done.returncode, done.stderr)
    unwritten = gtfs(ROOT / "examples" / "feed", ROOT / "examples" / "templates.json", "--stations", folder)
    if (unwritten.returncode, unwritten.stderr.splitlines()[-1]) != (3, "gtfs: %s: Is a directory" % folder):
        yield "stations into a folder: status %d, %s" % (unwritten.returncode, unwritten.stderr)
    for words in (["--day", "1969-01-01"], ["--day", "2026-6-1"], []):
        done = run(sys.executable, GTFS, ROOT / "examples" / "feed", "--templates", ROOT / "examples" / "templates.json", *words)
        if done.returncode != 2:
            yield "refused words %s: status %d" % (words, done.returncode)


def faults_of_page(program, folder):
    """The commands of the page, and each line that it shows of their output."""
    text = (ROOT / PAGE).read_text()
    commands = "\n".join(re.findall(r"^```sh\n(.*?)^```$", text, re.MULTILINE | re.DOTALL))
    shown = re.findall(r"^```text\n(.*?)^```$", text, re.MULTILINE | re.DOTALL)
    script = "set -eu\n" + commands.replace("/tmp/", "%s/" % folder).replace(BUILT, shlex.quote(str(program)))
    done = subprocess.run(["bash", "-c", script], cwd=ROOT, stdout=subprocess.PIPE, stderr=subprocess.STDOUT, text=True, timeout=60)
    if done.returncode:
        yield "%s: status %d, %s" % (PAGE, done.returncode, done.stdout[-800:])
    for line in "".join(shown).splitlines():
        if line.replace("/tmp/", "%s/" % folder) not in done.stdout.splitlines():
            yield "%s shows a line that doesn't come: %s" % (PAGE, line)


def main():
    program = pathlib.Path(sys.argv[1]).resolve()
    trips = made_trips(2995, random.Random(1)) + odd_trips() + faulty_trips() + [Trip("B1", BUS[0], "daily", calls_of(HALTS[:3]), 1)]
    with tempfile.TemporaryDirectory() as name:
        folder = pathlib.Path(name)
        found = list(faults_of_days(folder, trips, 3000))
        wanted = runs_wanted(trips, "2026-06-01")
        if (folder / "catalogue.json").exists():
            found += faults_of_checker(folder / "catalogue.json", wanted)
            found += faults_of_sale(program, folder / "catalogue.json", wanted)
        found += faults_of_parts(folder, program)
        found += faults_of_refusals(folder)
        found += faults_of_page(program, folder)
    for fault in found:
        print("timetables: " + fault)
    print("timetables: a feed of %d trips on %d days, its limits, %d refusals and the page: %d wrong" % (len(trips), len(ZERO), len(REFUSED), len(found)))
    return 1 if found else 0


sys.exit(main())

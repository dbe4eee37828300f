#!/usr/bin/env python3
"""Makes a catalogue of one day of a timetable in GTFS.

  examples/gtfs.py FEED --day YYYY-MM-DD --templates FILE > CATALOGUE
  examples/gtfs.py FEED --day YYYY-MM-DD --templates FILE --parts FOLDER

FEED is a folder or a zip archive with agency.txt, stops.txt, routes.txt, trips.txt, stop_times.txt, and calendar.txt or
calendar_dates.txt or both. Each trip of the day is a run. The coaches and fares of its route come from the file of
templates, as do the catalogue's retailers and terms. With --parts each group of routes that the file names has a
catalogue of its own, FOLDER/GROUP.json. docs/timetables.md has the rules and the file of templates.

What a catalogue can't have is left out, and told on standard error, a line each: `FILE:LINE: what: why`. The last line
counts. It ends with status 0 where each catalogue is written, 1 where one isn't, 2 for refused words, and 3 for a feed
or a file of templates that can't be read, and for a file that can't be written.
"""
import argparse
import csv
import datetime
import fnmatch
import io
import itertools
import json
import pathlib
import re
import sys
import unicodedata
import zipfile
import zoneinfo
from dataclasses import dataclass

sys.dont_write_bytecode = True
from check_catalogue import checked

MOST_STOPS, MOST_RUNS, MOST_STATIONS = 127, 4_096, 65_536
MOST_PLACES, LARGEST_FILE, LAST_TRAIN = 4_194_304, 33_554_432, 99_999
FIRST_DAY, LAST_DAY = datetime.date(1970, 1, 3), datetime.date(2099, 11, 15)
WEEKDAYS = ["monday", "tuesday", "wednesday", "thursday", "friday", "saturday", "sunday"]
CODE, TIME = re.compile("[A-Z0-9]{1,8}"), re.compile(r"(\d{1,3}):([0-5]\d):([0-5]\d)", re.ASCII)
GROUP_NAME, LAST_NUMBER = re.compile("[A-Za-z0-9_-]+"), re.compile(r"(?<!\d)\d{1,5}(?!.*\d)", re.ASCII)
NEVER = "1"  # of pickup_type and drop_off_type
# The members of the file of templates that are no members of a catalogue.
OWN = ["change", "stations", "templates", "groups"]


class Refusal(Exception):
    """Why a feed or a file of templates isn't read."""


class LeftOut(Exception):
    """Why a trip is in no catalogue, and the line of its file that shows it."""

    def __init__(self, file, line, why):
        super().__init__(why)
        self.place = "%s:%d" % (file, line)


class Feed:
    """The files of a folder or a zip archive."""

    def __init__(self, path):
        self.path = path
        try:
            self.archive = None if path.is_dir() else zipfile.ZipFile(path)
        except (OSError, zipfile.BadZipFile) as error:
            raise Refusal("%s: no folder and no zip archive (%s)" % (path, error)) from None
        self.names = {file.name for file in path.iterdir()} if path.is_dir() else set(self.archive.namelist())

    def opened(self, name):
        file = self.archive.open(name) if self.archive else open(self.path / name, "rb")
        return io.TextIOWrapper(file, encoding="utf-8-sig", newline="")

    def rows(self, name, needed, others=()):
        """Each row's line, and its cells of these columns: empty for one of the others that isn't there."""
        if name not in self.names:
            raise Refusal("%s: the feed has no such file" % name)
        with self.opened(name) as file:
            reader = csv.reader(file)
            try:
                head = [cell.strip() for cell in next(reader, [])]
                lacking = [column for column in needed if column not in head]
                if lacking:
                    raise Refusal("%s:1: there is no column %s" % (name, lacking[0]))
                places = [head.index(column) if column in head else len(head) for column in (*needed, *others)]
                for row in reader:
                    if row:
                        row = (row + [""] * len(head))[:len(head)] + [""]
                        yield (reader.line_num, *[row[place].strip() for place in places])
            except (UnicodeDecodeError, csv.Error, zipfile.BadZipFile) as error:
                raise Refusal("%s:%d: %s" % (name, reader.line_num + 1, error)) from None


# The file of templates


class Choice:
    """A template or a group: the routes that it is for."""

    def __init__(self, kind, made, has_types):
        self.name, self.patterns, self.types = made.get("name"), made.get("routes", []), made.get("types", [])
        if not isinstance(self.name, str) or not GROUP_NAME.fullmatch(self.name):
            raise Refusal("a %s has no name of letters, digits, - and _" % kind)
        where = "%s %s" % (kind, self.name)
        if not isinstance(self.patterns, list) or not all(isinstance(item, str) for item in self.patterns):
            raise Refusal("%s: its routes are no list of texts" % where)
        if not isinstance(self.types, list) or not all(type(item) is int for item in self.types):
            raise Refusal("%s: its types are no list of numbers" % where)
        known = ["name", "routes"] + (["types", "fares", "coaches"] if has_types else [])
        for member in made:
            if member not in known:
                raise Refusal("%s: there is no member %s" % (where, member))

    def fits(self, route):
        names = [name for name in (route.id, route.name) if name]
        matched = any(fnmatch.fnmatchcase(name, pattern) for name in names for pattern in self.patterns)
        return matched or route.type in self.types


@dataclass
class Template:
    choice: Choice
    fares: dict
    coaches: list

    def places(self):
        return sum(group["last"] - group["first"] + 1 for coach in self.coaches for group in coach["places"])


class Templates:
    """What the operator adds to a timetable."""

    def __init__(self, made):
        self.top = {name: value for name, value in made.items() if name not in OWN}
        self.change, self.stations = made.get("change", 300), made.get("stations", {})
        listed, groups = made.get("templates"), made.get("groups", [])
        for name, value in (("templates", listed), ("groups", groups)):
            if not isinstance(value, list) or not all(isinstance(item, dict) for item in value):
                raise Refusal("%s is no list of objects" % name)
        if not listed:
            raise Refusal("there is no template")
        if not isinstance(self.stations, dict) or not all(isinstance(item, dict) for item in self.stations.values()):
            raise Refusal("stations is no object of objects")
        choices = [Choice("template", item, True) for item in listed]
        self.templates = [Template(c, item.get("fares"), item.get("coaches")) for c, item in zip(choices, listed)]
        self.groups = [Choice("group", item, False) for item in groups]
        for kind, chosen in (("template", choices), ("group", self.groups)):
            names = [choice.name for choice in chosen]
            if len(set(names)) != len(names):
                raise Refusal("a %s's name stands twice" % kind)
        self.hints = list(self.checked())

    def checked(self):
        """The checker's hints on a catalogue with a run of each template. Its first fault is a refusal."""
        sample, given = Catalogue(self), [item.get("code") for item in self.stations.values()]
        free = (code for code in made_codes("X") if code not in given)
        sample.stations = [{"code": next(free), "change": self.change} for _ in range(2)]
        sample.stations += [{"code": next(free), **item} for item in self.stations.values()]
        first, last = (station["code"] for station in sample.stations[:2])
        ends = [
            {"station": first, "depart": "1970-01-02T00:00:00Z"},
            {"station": last, "arrive": "1970-01-02T01:00:00Z"},
        ]
        sample.runs = [{"train": 1, "stops": ends, **sold(template)} for template in self.templates]
        for kind, path, _, why in checked(sample.bytes(), 0).found:
            text = "%s: %s" % (self.place(path), why)
            if kind != "hint":
                raise Refusal(text)
            yield text

    def place(self, path):
        """A path of the sample in the words of the file."""
        found = re.fullmatch(r"runs\[(\d+)\]\.?(.*)", path)
        if found:
            return "template %s: %s" % (self.templates[int(found.group(1))].choice.name, found.group(2) or "as a whole")
        found = re.fullmatch(r"stations\[(\d+)\]\.?(.*)", path)
        if found and int(found.group(1)) > 1:
            return "stations, %s: %s" % (list(self.stations)[int(found.group(1)) - 2], found.group(2))
        return found.group(2) if found else path or "as a whole"


def sold(template):
    made = {"fares": template.fares, "coaches": template.coaches}
    return {name: value for name, value in made.items() if value is not None}


def read_templates(path):
    try:
        made = json.loads(path.read_bytes())
        if not isinstance(made, dict):
            raise Refusal("it is no object")
        return Templates(made)
    except OSError as error:
        raise Refusal("%s: %s" % (path, error.strerror)) from None
    except (ValueError, Refusal) as error:
        raise Refusal("%s: %s" % (path, error)) from None


# What a feed says of the day


@dataclass(frozen=True)
class Station:
    """Where trips call: a station with all its platforms, or a stop alone."""
    id: str
    name: str
    own_code: str
    kind: str


@dataclass
class Route:
    id: str
    name: str
    type: int
    template: Template = None
    group: str = None
    left_out: int = 0


@dataclass
class Trip:
    id: str
    route: Route
    number: int
    line: int
    calls: list


@dataclass
class Call:
    """A row of stop_times.txt."""
    line: int
    sequence: int
    stop: str
    arrive: int
    depart: int
    no_entry: bool
    no_exit: bool


def zone_of(feed):
    """The zone of all times: each agency of a feed has the same."""
    names = {zone for _, zone in feed.rows("agency.txt", ["agency_timezone"])}
    if not names:
        raise Refusal("agency.txt: there is no agency")
    if len(names) > 1:
        raise Refusal("agency.txt: its agencies are of different time zones")
    name = names.pop()
    try:
        return zoneinfo.ZoneInfo(name)
    except (zoneinfo.ZoneInfoNotFoundError, ValueError, OSError):
        raise Refusal("agency.txt: this machine knows no time zone %s" % (name or "without a name")) from None


def date_of(text, file, line):
    try:
        return datetime.datetime.strptime(text, "%Y%m%d").date()
    except ValueError:
        raise Refusal("%s:%d: %r is no date, as 20260601" % (file, line, text)) from None


class Services:
    """Which services run on the day, and on which days the feed has any."""

    def __init__(self, feed, day):
        self.running, self.days = set(), []
        if not {"calendar.txt", "calendar_dates.txt"} & feed.names:
            raise Refusal("calendar.txt: the feed has neither this file nor calendar_dates.txt")
        if "calendar.txt" in feed.names:
            self.weekly(feed, day)
        if "calendar_dates.txt" in feed.names:
            self.single(feed, day)

    def weekly(self, feed, day):
        columns = ["service_id", "start_date", "end_date", *WEEKDAYS]
        for line, service, start, end, *week in feed.rows("calendar.txt", columns):
            start, end = (date_of(text, "calendar.txt", line) for text in (start, end))
            self.days += [start, end]
            if start <= day <= end and week[day.weekday()] == "1":
                self.running.add(service)

    def single(self, feed, day):
        for line, service, date, change in feed.rows("calendar_dates.txt", ["service_id", "date", "exception_type"]):
            date = date_of(date, "calendar_dates.txt", line)
            if change not in ("1", "2"):
                raise Refusal("calendar_dates.txt:%d: %r is no exception_type, 1 or 2" % (line, change))
            if change == "1":
                self.days.append(date)
            if date == day:
                (self.running.add if change == "1" else self.running.discard)(service)


def routes_of(feed, templates):
    found = {}
    for line, id_, kind, name in feed.rows("routes.txt", ["route_id", "route_type"], ["route_short_name"]):
        if not kind.isdecimal():
            raise Refusal("routes.txt:%d: %r is no route_type" % (line, kind))
        route = Route(id_, name, int(kind))
        route.template = next((template for template in templates.templates if template.choice.fits(route)), None)
        route.group = next((group.name for group in templates.groups if group.fits(route)), None)
        found[id_] = route
    return found


def number_of(short_name):
    """The last number of a trip's name that passengers know, or None."""
    found = LAST_NUMBER.search(short_name)
    return int(found.group()) or None if found else None


def trips_of(feed, running, routes):
    found = {}
    columns = ["route_id", "service_id", "trip_id"]
    for line, route, service, id_, name in feed.rows("trips.txt", columns, ["trip_short_name"]):
        if route not in routes:
            raise Refusal("trips.txt:%d: routes.txt has no route %s" % (line, route))
        if service in running:
            found[id_] = Trip(id_, routes[route], number_of(name), line, [])
    return found


def seconds_of(text, line):
    """Seconds of the service day, which may go past midnight; None where there is no time."""
    if not text:
        return None
    found = TIME.fullmatch(text)
    if not found:
        raise Refusal("stop_times.txt:%d: %r is no time, as 25:10:00" % (line, text))
    hours, minutes, seconds = map(int, found.groups())
    return hours * 3600 + minutes * 60 + seconds


def read_calls(feed, day_trips):
    """Gives each trip its calls, in their order."""
    columns = ["trip_id", "arrival_time", "departure_time", "stop_id", "stop_sequence"]
    for line, id_, arrive, depart, stop, sequence, entry, leave in feed.rows(
        "stop_times.txt", columns, ["pickup_type", "drop_off_type"]
    ):
        if id_ not in day_trips:
            continue
        if not sequence.isdecimal():
            raise Refusal("stop_times.txt:%d: %r is no stop_sequence" % (line, sequence))
        times = seconds_of(arrive, line), seconds_of(depart, line)
        day_trips[id_].calls.append(Call(line, int(sequence), stop, *times, entry == NEVER, leave == NEVER))
    for trip in day_trips.values():
        trip.calls.sort(key=lambda call: call.sequence)


def stations_of(feed):
    """Each stop's station: the uppermost of its parents, or itself."""
    rows = {}
    others = ["stop_name", "stop_code", "location_type", "parent_station"]
    for line, id_, name, code, kind, parent in feed.rows("stops.txt", ["stop_id"], others):
        rows[id_] = (line, parent, Station(id_, name, code, kind))
    found = {}
    for id_, (line, parent, station) in rows.items():
        seen = {id_}
        while parent:
            if parent not in rows or parent in seen:
                raise Refusal("stops.txt:%d: parent_station %s is no other stop" % (line, parent))
            seen.add(parent)
            _, parent, station = rows[parent]
        found[id_] = station
    return found


# Codes of stations


def made_codes(name):
    """Codes made of a name: its letters and digits, then with a number."""
    plain = unicodedata.normalize("NFKD", name).upper()
    base = re.sub("[^A-Z0-9]", "", plain) or "S"
    yield base[:8]
    for number in itertools.count(2):
        yield base[:8 - len(str(number))] + str(number)


def codes_of(stations, templates):
    """A code for each station of the feed, on whatever day it is called at: so codes stay from day to day."""
    served = list(dict.fromkeys(station for station in stations.values() if station.kind in ("", "0", "1")))
    given = {id_: item["code"] for id_, item in templates.stations.items() if "code" in item}
    codes, taken = {}, set(given.values())
    for station in served:
        own = [text for text in (station.own_code, station.id) if CODE.fullmatch(text)]
        wished = itertools.chain(own, made_codes(station.name))
        codes[station.id] = given.get(station.id) or next(code for code in wished if code not in taken)
        taken.add(codes[station.id])
    return codes


# Runs


@dataclass
class Run:
    trip: Trip
    stops: list  # (station, arrive, depart), in seconds of the service day

    def order(self):
        return self.stops[0][2], self.trip.id


class Maker:
    """Makes runs of trips, and tells what it leaves out."""

    def __init__(self, stations, told):
        self.stations, self.told = stations, told

    def run(self, trip):
        calls = self.used(trip)
        stops = [self.stop(trip, call, place, len(calls)) for place, call in enumerate(calls)]
        kept = [(call, stop) for call, stop in zip(calls, stops) if stop]
        self.check(trip, kept)
        return Run(trip, [stop for _, stop in kept])

    def used(self, trip):
        """The calls at which someone gets on or off."""
        if not trip.calls:
            raise LeftOut("trips.txt", trip.line, "it has no stop in stop_times.txt")
        calls = [call for call in trip.calls if not (call.no_entry and call.no_exit)]
        for call in calls[1:-1]:
            if call.no_entry or call.no_exit:
                way = "out" if call.no_entry else "in"
                self.tell(trip, call, "passengers may only get %s there, and the host sells both" % way)
        return calls

    def stop(self, trip, call, place, count):
        """The station with its times, or None for a stop in between that has none."""
        if call.stop not in self.stations:
            raise LeftOut("stop_times.txt", call.line, "stops.txt has no stop %r" % call.stop)
        times = [time for time in (call.arrive, call.depart) if time is not None]
        is_first, is_last = place == 0, place == count - 1
        if not times:
            if is_first or is_last:
                raise LeftOut("stop_times.txt", call.line, "its first or last stop has no time")
            self.tell(trip, call, "it has no time there, so the run doesn't stop")
            return None
        arrive, depart = times[-1 if is_first else 0], times[0 if is_last else -1]
        return self.stations[call.stop], arrive, depart

    def check(self, trip, kept):
        if not 2 <= len(kept) <= MOST_STOPS:
            why = "it has %s, and a run 2 to %d" % (counted(len(kept), "stop"), MOST_STOPS)
            raise LeftOut("stop_times.txt", kept[-1][0].line if kept else trip.calls[0].line, why)
        seen, left = set(), None
        for call, (station, arrive, depart) in kept:
            why = fault_of_stop(station.id, arrive, depart, seen, left)
            if why:
                raise LeftOut("stop_times.txt", call.line, why)
            seen.add(station.id)
            left = depart

    def tell(self, trip, call, why):
        self.told("stop_times.txt:%d: trip %s: stop %s: %s" % (call.line, trip.id, call.stop, why))


def fault_of_stop(id_, arrive, depart, seen, left):
    """What a run can't have of a stop, after the stations that it has seen and left the last of."""
    if id_ in seen:
        return "it stops at %s twice" % id_
    if left is not None and arrive <= left:
        return "it comes to %s at %s, no later than it left the stop before, at %s" % (id_, clock(arrive), clock(left))
    if depart < arrive:
        return "it leaves %s at %s, before it comes there, at %s" % (id_, clock(depart), clock(arrive))
    return None


def clock(seconds):
    return "%02d:%02d:%02d" % (seconds // 3600, seconds // 60 % 60, seconds % 60)


def frequent(feed):
    """The trips that frequencies.txt repeats."""
    if "frequencies.txt" not in feed.names:
        return {}
    found = {}
    for line, id_ in feed.rows("frequencies.txt", ["trip_id"]):
        found.setdefault(id_, line)
    return found


def runs_of(feed, day_trips, stations, told):
    """The day's runs, in the order of their departure."""
    repeated, maker, runs = frequent(feed), Maker(stations, told), []
    for trip in day_trips:
        if trip.route.template is None:
            trip.route.left_out += 1
            continue
        try:
            if trip.id in repeated:
                raise LeftOut("frequencies.txt", repeated[trip.id], "trips by frequency are not supported")
            runs.append(maker.run(trip))
        except LeftOut as error:
            told("%s: trip %s: %s: left out" % (error.place, trip.id, error))
    return sorted(runs, key=Run.order)


def number_the_rest(runs, told):
    """Gives trips without a number the least numbers that no other trip of the day has."""
    nameless = [run.trip for run in runs if run.trip.number is None]
    taken = {run.trip.number for run in runs}
    free = (number for number in range(1, LAST_TRAIN + 1) if number not in taken)
    for trip, number in zip(nameless, free):
        trip.number = number
    if nameless:
        count = counted(len(nameless), "trip")
        told("trips.txt: %s without a number in trip_short_name: given the least free ones" % count)


def counted(count, thing):
    return "1 " + thing if count == 1 else "%s %ss" % (format(count, ","), thing)


# Catalogues


class Catalogue:
    def __init__(self, templates):
        self.templates, self.stations, self.runs, self.places = templates, [], [], 0

    def add(self, run, codes, midnight):
        template = run.trip.route.template
        stops = [made_stop(codes[station.id], midnight, *times) for station, *times in run.stops]
        del stops[0]["arrive"], stops[-1]["depart"]
        self.runs.append({"train": run.trip.number, "stops": stops, **sold(template)})
        self.places += template.places()

    def bytes(self):
        top = {**self.templates.top, "stations": self.stations}
        lines = ",\n".join(json.dumps(run, separators=(",", ":")) for run in self.runs)
        return ('%s,"runs":[\n%s]}\n' % (json.dumps(top, separators=(",", ":"))[:-1], lines)).encode()

    def excess(self, size):
        """What there is too much of for one host, or None."""
        for what, count, most in (
            ("runs", len(self.runs), MOST_RUNS),
            ("stations", len(self.stations), MOST_STATIONS),
            ("places", self.places, MOST_PLACES),
            ("bytes", size, LARGEST_FILE),
        ):
            if count > most:
                return "%s %s, and a host has at most %s" % (format(count, ","), what, format(most, ","))
        return None


def made_stop(code, midnight, arrive, depart):
    return {"station": code, "arrive": moment(midnight, arrive), "depart": moment(midnight, depart)}


def moment(midnight, seconds):
    return (midnight + datetime.timedelta(seconds=seconds)).strftime("%Y-%m-%dT%H:%M:%SZ")


def midnight_of(day, zone):
    """The moment from which a service day's times count: twelve hours before its noon."""
    noon = datetime.datetime(day.year, day.month, day.day, 12, tzinfo=zone)
    return noon.astimezone(datetime.timezone.utc) - datetime.timedelta(hours=12)


def catalogue_of(runs, templates, codes, midnight):
    made = Catalogue(templates)
    for run in runs:
        made.add(run, codes, midnight)
    called = {station.id for run in runs for station, _, _ in run.stops}
    for id_, code in codes.items():
        if id_ in called:
            change = templates.stations.get(id_, {}).get("change", templates.change)
            made.stations.append({"code": code, "change": change})
    return made


class Day:
    """The runs of a day with all that a catalogue of some of them needs."""

    def __init__(self, feed, day, templates, told):
        self.templates, self.told, self.day = templates, told, day
        self.zone, services = zone_of(feed), Services(feed, day)
        routes = routes_of(feed, templates)
        self.trips = trips_of(feed, services.running, routes)
        if not self.trips:
            days = "from %s to %s" % (min(services.days), max(services.days)) if services.days else "on no day"
            raise Refusal("no trip runs on %s; the feed's services run %s" % (day, days))
        read_calls(feed, self.trips)
        self.stations = stations_of(feed)
        self.codes = codes_of(self.stations, templates)
        for id_ in templates.stations:
            if id_ not in self.codes:
                told("stops.txt: there is no station %s, which the templates name" % id_)
        self.runs = runs_of(feed, self.trips.values(), self.stations, told)
        for route in routes.values():
            if route.left_out:
                count = counted(route.left_out, "trip")
                told("routes.txt: route %s: it has no template: %s left out" % (route.id, count))
        number_the_rest(self.runs, told)

    def catalogue(self, runs):
        return catalogue_of(runs, self.templates, self.codes, midnight_of(self.day, self.zone))

    def write_stations(self, path):
        """The codes beside the feed's ids and names, for those who sell."""
        called = {station.id for run in self.runs for station, _, _ in run.stops}
        with open(path, "w", newline="", encoding="utf-8") as file:
            table = csv.writer(file, lineterminator="\n")
            table.writerow(["code", "stop_id", "stop_name"])
            for station in dict.fromkeys(self.stations.values()):
                if station.id in called:
                    table.writerow([self.codes[station.id], station.id, station.name])


def write_part(day, runs, name, write):
    """Writes a catalogue, or tells why there is none. Answers how many runs are in it."""
    made = day.catalogue(runs)
    data = made.bytes()
    excess = made.excess(len(data)) if runs else "it has no run on %s" % day.day
    if excess:
        day.told("%s: not written: %s" % (name, excess))
        return 0
    write(data)
    return len(runs)


def write_parts(day, folder):
    """A catalogue for each group. Answers the runs that are written, and whether all of them are."""
    if not day.templates.groups:
        raise Refusal("the file of templates has no groups to part by")
    lost = sorted({run.trip.route.id for run in day.runs if run.trip.route.group is None})
    for id_ in lost:
        count = counted(sum(run.trip.route.id == id_ for run in day.runs), "trip")
        day.told("routes.txt: route %s: it is in no group: %s left out" % (id_, count))
    folder.mkdir(parents=True, exist_ok=True)
    counts = []
    for group in day.templates.groups:
        runs = [run for run in day.runs if run.trip.route.group == group.name]
        path = folder / (group.name + ".json")
        counts.append(write_part(day, runs, str(path), path.write_bytes))
    return sum(counts), all(counts)


def write_whole(day):
    count = write_part(day, day.runs, "the catalogue", sys.stdout.buffer.write)
    return count, count > 0


def day_given(text):
    day = datetime.date.fromisoformat(text)
    if not FIRST_DAY <= day <= LAST_DAY:
        raise argparse.ArgumentTypeError("from %s to %s" % (FIRST_DAY, LAST_DAY))
    return day


def told(line):
    print("gtfs: " + line, file=sys.stderr)


def main():
    words = argparse.ArgumentParser(description=__doc__, formatter_class=argparse.RawDescriptionHelpFormatter)
    words.add_argument("feed", type=pathlib.Path, help="a folder or a zip archive")
    words.add_argument("--day", type=day_given, required=True, help="the service day, as the feed counts it")
    words.add_argument("--templates", type=pathlib.Path, required=True, help="coaches, fares, retailers and terms")
    words.add_argument("--parts", type=pathlib.Path, metavar="FOLDER", help="a catalogue for each group of routes")
    words.add_argument("--stations", type=pathlib.Path, metavar="FILE", help="codes beside stop_id and name, as CSV")
    given = words.parse_args()
    try:
        templates = read_templates(given.templates)
        for hint in templates.hints:
            told("%s: hint: %s" % (given.templates, hint))
        day = Day(Feed(given.feed), given.day, templates, told)
        count, is_whole = write_parts(day, given.parts) if given.parts else write_whole(day)
        if given.stations:
            day.write_stations(given.stations)
    except Refusal as error:
        told(str(error))
        return 3
    except OSError as error:
        told("%s: %s" % (error.filename or "standard output", error.strerror))
        return 3
    told("%s in %s: %s of %s are runs" % (day.day, day.zone, format(count, ","), counted(len(day.trips), "trip")))
    return 0 if is_whole else 1


if __name__ == "__main__":
    sys.exit(main())

"""Catalogues and exports of a rail host: read, checked and written as docs/catalogue.md and docs/definitions.md have
them.

The programs beside this file use it, and other scripts may. `read_catalogue` and `read_export` take just what the host
takes. What it refuses is a Refusal, with the host's note and the place.
"""
import bisect
import datetime
import json
import math
import re
import sys
from dataclasses import dataclass, field, replace
from typing import NamedTuple, Optional

LARGEST_CATALOGUE, LARGEST_EXPORT, DEEPEST = 33_554_432, 268_435_456, 127
MOST_ROWS, MOST_LISTED, MOST_STEPS, MOST_ITEMS, LAST_GENERATION = 262_144, 65_536, 64, 48, 65_535
MOST_STOPS, MOST_RUNS, MOST_PLACES_OF_A_RUN, MOST_PLACES = 127, 4_096, 1_200, 4_194_304
LARGEST_NUMBER, LARGEST_FARE, LARGEST_FEE, WHOLE_FEE = 4_294_967_295, 10_000_000, 10_000_000, 10_000
LARGEST_WORD, LARGEST_AMOUNT, LARGEST_DIFFERENCE = 18_446_744_073_709_551_615, 99_999_999_999, 100_009_999_999
LAST_MOMENT, BORDER, CODES_LAST, LONGEST_WAIT = 4_102_444_799, 63, 900, 14_400
# A run that is shut stands on one of these days, where no search looks: one that is cancelled is far away, so that a
# booking left on it is worth what it is long before departure, and one that is closed has departed. Its member
# `planned`, which the host ignores, has the stops that it had.
CANCELLED_DAY, CLOSED_DAY, PLANNED = "2099-12-31", "1970-01-01", "planned"
TRAITS = ("WINDOW", "AISLE", "TABLE", "QUIET", "POWER")
STATES = {
    "P": "PREBOOKED", "C": "CONFIRMED", "F": "FULFILLED",
    "r": "RELEASED", "e": "EXPIRED", "f": "REFUNDED", "x": "EXCHANGED",
}
LIVE = "PCF"


class Refusal(Exception):
    """Why a text is not taken, in one line or more."""

    def __init__(self, *lines):
        super().__init__(*lines)
        self.lines = lines


# Moments


DATE = r"(?:(?:\+00)?(?P<year>\d{4}))(?P<dash>-?)(?P<month>\d\d)(?P=dash)(?P<day>\d\d)"
TIME = (r"(?P<hour>\d\d)(?:(?P<colon>:?)(?P<minute>\d\d)(?:(?P=colon)(?P<second>\d\d)(?:[.,]\d{1,9})?)?)?")
AWAY = (r"(?:[Zz]|(?P<sign>[+-])(?P<hours>\d\d)"
        r"(?:(?P<colons>:?)(?P<minutes>\d\d)(?:(?P=colons)(?P<seconds>\d\d)(?:[.,](?P<part>\d)\d{0,8})?)?)?)")
NAME = r"[A-Za-z_.][A-Za-z0-9_.+-]*"
VALUE = r"\[[a-z_][a-z0-9_-]*=[A-Za-z0-9]+(?:-[A-Za-z0-9]+)*\]"
ZONE = r"\[!?(?:%s(?:/%s)*|[+-](?:[01]\d|2[0-5])(?::?[0-5]\d)?)\]" % (NAME, NAME)
INSTANT = re.compile("%s[Tt ]%s%s(?:%s)?(?:%s)*" % (DATE, TIME, AWAY, ZONE, VALUE), re.ASCII)
EPOCH = datetime.datetime(1970, 1, 1)


class Moment(NamedTuple):
    """Whole seconds since 1970, and how far east of UTC the text was written."""
    seconds: int
    away: int

    def clock(self):
        """The time of day as it was written, `HH:MM`."""
        return self._local().strftime("%H:%M")

    def day(self):
        """The day as it was written, `YYYY-MM-DD`."""
        return self._local().strftime("%Y-%m-%d")

    def _local(self):
        return EPOCH + datetime.timedelta(seconds=self.seconds + self.away)


def read_moment(text) -> Optional[Moment]:
    """The moment of a text, or None where the host takes it for none: it isn't one, or isn't from 1970 to 2099."""
    found = INSTANT.fullmatch(text)
    if not found:
        return None
    year, month, day, hour, minute, second = (int(found.group(name) or 0) for name in
                                              ("year", "month", "day", "hour", "minute", "second"))
    hours, minutes, seconds = (int(found.group(name) or 0) for name in ("hours", "minutes", "seconds"))
    if year == 0 or second > 60 or minutes > 59 or seconds > 59 or hours > 25:
        return None
    away = hours * 3600 + minutes * 60 + seconds + (1 if (found.group("part") or "0") >= "5" else 0)
    try:
        local = datetime.datetime(year, month, day, hour, minute, min(second, 59))
    except ValueError:
        return None
    away = -away if found.group("sign") == "-" else away
    moment = (local - EPOCH).days * 86_400 + (local - EPOCH).seconds - away
    return Moment(moment, away) if abs(away) <= 93_599 and 0 <= moment <= LAST_MOMENT else None


def write_moment(seconds):
    return (EPOCH + datetime.timedelta(seconds=seconds)).strftime("%Y-%m-%dT%H:%M:%SZ")


# JSON


def read_json(data):
    """The value of the bytes, as the host reads them: whole numbers are int, all others float. A Refusal where they are
    no JSON.
    """
    try:
        text = data.decode("utf-8")
        value = json.loads(text, parse_constant=_no_constant, parse_int=_whole, parse_float=_fraction)
        deep = _depth(text) > DEEPEST
        halves = "\\u" in text and re.search("[\ud800-\udfff]", json.dumps(value, ensure_ascii=False))
    except (ValueError, RecursionError):
        raise Refusal("catalogue fault 1: no JSON in UTF-8") from None
    if deep or halves:
        raise Refusal("catalogue fault 1: no JSON in UTF-8, or nested deeper than %d" % DEEPEST)
    return value


def _no_constant(text):
    raise ValueError(text)


def _whole(text):
    if text != "-0" and len(text) <= 20:
        number = int(text)
        if -2**63 <= number < 2**64:
            return number
    return _fraction(text)


def _fraction(text):
    number = float(text)
    if math.isinf(number):
        raise ValueError(text)
    return number


def _depth(text):
    deepest = depth = 0
    for sign in re.findall(r'"(?:[^"\\]|\\.)*"|[][{}]', text, re.DOTALL):
        if sign[0] in "[{":
            depth += 1
            deepest = max(deepest, depth)
        elif sign[0] in "]}":
            depth -= 1
    return deepest


# Catalogues


class Seat(NamedTuple):
    """A place as passengers know it."""
    coach: int
    number: int
    kind: str
    traits: frozenset

    def name(self):
        return "%d/%d" % (self.coach, self.number)

    def words(self):
        return " ".join([self.kind] + [trait for trait in TRAITS if trait in self.traits])


class Stop(NamedTuple):
    station: str
    arrive: Moment
    depart: Moment


@dataclass
class Run:
    """A train on a day. `first` is the number of its first place, and place `first + n` is `seats[n]`."""
    number: int
    train: int
    stops: list
    fares: dict
    first: int
    seats: tuple
    planned: Optional[list] = None
    _index: dict = None

    def legs(self):
        return len(self.stops) - 1

    def day(self):
        """The day of its first departure, as the catalogue writes it. For one that is shut it is that of no train."""
        return self.stops[0].depart.day()

    def is_shut(self):
        """Its times are not those of a train."""
        return self.day() in (CANCELLED_DAY, CLOSED_DAY)

    def real_stops(self):
        """The stops with the times of the train, or None where it is shut and they aren't known."""
        return self.planned if self.is_shut() else self.stops

    def codes(self):
        return [stop.station for stop in self.stops]

    def places(self):
        return range(self.first, self.first + len(self.seats))

    def seat(self, place):
        return self.seats[place - self.first]

    def place_of(self, coach, number):
        """The place of that number in that coach, or None."""
        if self._index is None:
            self._index = {(seat.coach, seat.number): at for at, seat in enumerate(self.seats)}
        at = self._index.get((coach, number))
        return None if at is None else self.first + at

    def span_between(self, origin, destination):
        """From which leg to which the run goes from the one station to the other, or None."""
        codes = self.codes()
        if origin not in codes or destination not in codes:
            return None
        start, end = codes.index(origin), codes.index(destination)
        return (start, end) if start < end else None

    def real_day(self):
        """The day of its first departure, or the empty text where it is shut and that isn't known."""
        stops = self.real_stops()
        return stops[0].depart.day() if stops else ""

    def title(self):
        """`train 501 of 2026-06-01`, and whether it is shut."""
        day, shut = self.real_day(), {CANCELLED_DAY: ", cancelled", CLOSED_DAY: ", closed"}.get(self.day(), "")
        return "train %d%s%s" % (self.train, " of " + day if day else "", shut)


@dataclass
class Catalogue:
    """What a catalogue says. `tree` is its JSON, as it was read."""
    tree: dict
    currency: str = ""
    rows: int = 65_536
    confirm_seconds: int = 900
    retailers: dict = field(default_factory=dict)
    stations: dict = field(default_factory=dict)
    steps: list = field(default_factory=list)
    ticket_fee: int = 0
    exchange_fee: int = 0
    runs: list = field(default_factory=list)
    places: int = 0
    _firsts: list = field(default_factory=list)

    def run_of(self, place):
        return self.runs[bisect.bisect_right(self._firsts, place) - 1]

    def add_run(self, run):
        self.runs.append(run)
        self._firsts.append(run.first)

    def money(self, amount):
        return "%s%d.%02d %s" % ("-" if amount < 0 else "", abs(amount) // 100, abs(amount) % 100, self.currency)


def read_catalogue(data):
    """The catalogue of the bytes. Its members are read in the host's order, and the first fault is a Refusal."""
    if len(data) > LARGEST_CATALOGUE:
        raise Refusal("catalogue too large")
    return _CatalogueReader(read_json(data)).read()


class _CatalogueReader:
    """Reads a tree from its front. A path is as the host tells it: `runs[0].stops[1].arrive`."""

    def __init__(self, tree):
        self.tree, self.kept, self.interned = tree, None, {}

    def read(self):
        tree = self.tree
        if not isinstance(tree, dict):
            self.wrong("")
        self.kept = kept = Catalogue(tree)
        kept.currency = self.text(tree, "currency", "", "[A-Z]{3}")
        kept.rows = self.number(tree, "rows", "", (1, MOST_ROWS), 65_536)
        kept.confirm_seconds = self.number(tree, "confirmSeconds", "", (1, 86_400), 900)
        self.retailers()
        self.stations()
        self.terms()
        for path, item in self.items(tree, "runs", "", 1, None):
            self.run(item, path)
        return kept

    def wrong(self, path):
        raise Refusal("catalogue fault 2 at " + path)

    def fault(self, number, path):
        raise Refusal("catalogue fault %d, found at %s" % (number, path))

    def number(self, holder, name, path, limits, default=None):
        if name not in holder and default is not None:
            return default
        value = holder.get(name)
        if type(value) is not int or not limits[0] <= value <= limits[1]:
            self.wrong(path + name)
        return value

    def text(self, holder, name, path, rule=None):
        value = holder.get(name)
        if not isinstance(value, str) or rule and not re.fullmatch(rule, value):
            self.wrong(path + name)
        return value

    def items(self, holder, name, path, least, most):
        value = holder.get(name)
        if not isinstance(value, list) or len(value) < least or most is not None and len(value) > most:
            self.wrong(path + name)
        for index, item in enumerate(value):
            if not isinstance(item, dict):
                self.wrong("%s%s[%d]" % (path, name, index))
            yield "%s%s[%d]." % (path, name, index), item

    def retailers(self):
        keys = set()
        for path, item in self.items(self.tree, "retailers", "", 1, MOST_LISTED):
            number = self.number(item, "number", path, (1, LARGEST_NUMBER))
            if number in self.kept.retailers:
                self.fault(7, path + "number")
            key = self.text(item, "key", path, "[A-Za-z0-9_-]{1,32}")
            if key in keys:
                self.fault(7, path + "key")
            keys.add(key)
            self.kept.retailers[number] = key

    def stations(self):
        for path, item in self.items(self.tree, "stations", "", 2, MOST_LISTED):
            code = self.text(item, "code", path, "[A-Z0-9]{1,8}")
            if code in self.kept.stations:
                self.fault(7, path + "code")
            self.kept.stations[code] = self.number(item, "change", path, (0, 14_400), 300)

    def terms(self):
        kept = self.kept
        for path, item in self.items(self.tree, "refundSteps", "", 0, MOST_STEPS):
            before = self.number(item, "before", path, (0, LARGEST_NUMBER))
            kept.steps.append((before, self.number(item, "fee", path, (0, LARGEST_NUMBER))))
        kept.ticket_fee = self.number(self.tree, "ticketFee", "", (0, LARGEST_NUMBER), 0)
        kept.exchange_fee = self.number(self.tree, "exchangeFee", "", (0, LARGEST_NUMBER), 0)
        befores = [before for before, _ in kept.steps]
        falls = all(later < earlier for earlier, later in zip(befores, befores[1:]))
        if not befores or not falls or befores[-1] != 0 or any(fee > WHOLE_FEE for _, fee in kept.steps):
            self.fault(5, "refundSteps")
        if max(kept.ticket_fee, kept.exchange_fee) > LARGEST_FEE:
            self.fault(5, "ticketFee" if kept.ticket_fee > LARGEST_FEE else "exchangeFee")

    def run(self, item, path):
        train = self.number(item, "train", path, (1, 99_999))
        stops = self.stops(item, path)
        self.course(stops, path)
        fares = item.get("fares") if isinstance(item.get("fares"), dict) else {}
        read = {}
        for name in ("first", "second"):
            fare = fares.get(name) if isinstance(fares.get(name), dict) else {}
            read[name] = tuple(self.number(fare, part, "%sfares.%s." % (path, name), (0, LARGEST_FARE))
                               for part in ("base", "perLeg"))
        seats, planned = self.seats(item, path), self.planned(item, stops)
        self.kept.add_run(Run(len(self.kept.runs), train, stops, read, self.kept.places, seats, planned))
        self.kept.places += len(self.kept.runs[-1].seats)

    def stops(self, item, path):
        stops, count = [], len(item["stops"]) if isinstance(item.get("stops"), list) else 0
        for index, (at, stop) in enumerate(self.items(item, "stops", path, 0, None)):
            station = self.text(stop, "station", at)
            if station not in self.kept.stations:
                self.fault(6, at + "station")
            lacks_arrival = index == 0 and count > 1 and "arrive" not in stop
            lacks_departure = index == count - 1 and count > 1 and "depart" not in stop
            arrive = None if lacks_arrival else self.moment(stop, "arrive", at)
            depart = None if lacks_departure else self.moment(stop, "depart", at)
            stops.append(Stop(station, arrive or depart, depart or arrive))
        return stops

    def planned(self, item, stops):
        """The stops that a run had which is shut. The host ignores them, so they are no fault where they are none."""
        try:
            planned = self.stops({"stops": item.get(PLANNED)}, "")
            self.course(planned, "planned.")
        except Refusal:
            return None
        return planned if [stop.station for stop in planned] == [stop.station for stop in stops] else None

    def moment(self, holder, name, path):
        moment = read_moment(self.text(holder, name, path))
        if moment is None:
            self.wrong(path + name)
        return moment

    def course(self, stops, path):
        """Fault 3: too few or too many stops, times that don't rise, a station twice, too many runs."""
        rises = all(stop.arrive.seconds <= stop.depart.seconds for stop in stops)
        rises = rises and all(a.depart.seconds < b.arrive.seconds for a, b in zip(stops, stops[1:]))
        once = len({stop.station for stop in stops}) == len(stops)
        if not 2 <= len(stops) <= MOST_STOPS or not rises or not once or len(self.kept.runs) >= MOST_RUNS:
            self.fault(3, path[:-1])

    def seats(self, item, path):
        seats, taken = [], set()
        for at, coach in self.items(item, "coaches", path, 1, None):
            self.coach(coach, at, seats, taken)
        return self.interned.setdefault(tuple(seats), tuple(seats))

    def coach(self, item, path, seats, taken):
        coach = self.number(item, "coach", path, (1, 999))
        kind, before = self.text(item, "class", path, "FIRST|SECOND"), len(seats)
        for at, group in self.items(item, "places", path, 1, None):
            first = self.number(group, "first", at, (1, 9_999))
            last = self.number(group, "last", at, (first, 9_999))
            traits = self.traits(group, at)
            seats.extend(Seat(coach, number, kind, traits) for number in range(first, last + 1))
        added = {(seat.coach, seat.number) for seat in seats[before:]}
        if len(seats) > MOST_PLACES_OF_A_RUN or self.kept.places + len(seats) > MOST_PLACES:
            self.fault(4, path[:-1])
        if len(added) < len(seats) - before or added & taken:
            self.fault(4, path[:-1])
        taken |= added

    def traits(self, group, path):
        listed = group.get("traits", [])
        if not isinstance(listed, list):
            self.wrong(path + "traits")
        for index, name in enumerate(listed):
            if not isinstance(name, str) or name not in TRAITS:
                self.wrong("%straits[%d]" % (path, index))
        return frozenset(listed)


def write_catalogue(tree):
    """The tree as JSON, with a line for each run."""
    top = json.dumps({name: value for name, value in tree.items() if name != "runs"}, separators=(",", ":"))
    runs = ",\n".join(json.dumps(run, separators=(",", ":")) for run in tree["runs"])
    return '%s,"runs":[\n%s]}\n' % (top[:-1], runs)


# Exports


class Item(NamedTuple):
    """A place on the legs from `start` to `end` - 1, all on one side of the border."""
    place: int
    start: int
    end: int

    def mask(self):
        return (1 << self.end) - (1 << self.start)


class Row(NamedTuple):
    number: int
    generation: int

    def name(self):
        """The booking's id."""
        return "B%06d" % self.number + ("-%d" % self.generation if self.generation else "")


class End(NamedTuple):
    amount: int
    moment: int
    successor: Optional[Row]


@dataclass(frozen=True)
class Booking:
    """A line of an export. `phase` is its letter, and `end` is None while the booking lives."""
    row: Row
    phase: str
    retailer: int
    limit: int
    total: int
    items: tuple
    end: Optional[End] = None

    def is_live(self):
        return self.phase in LIVE

    def is_block(self):
        """A booking of nobody's that keeps its places from being sold."""
        return self.is_live() and self.retailer == 0

    def is_stub(self):
        """A row that was given free, and whose former bookings are gone."""
        return not self.is_live() and self.retailer == 0

    def is_sold(self):
        """It lives and is a retailer's."""
        return self.is_live() and self.retailer > 0

    def with_items(self, items):
        return replace(self, items=tuple(items))

    def ended(self, amount, moment):
        """The booking as it is once it was ended: one that was only prebooked is released, and another one refunded."""
        return replace(self, phase="r" if self.phase == "P" else "f", end=End(amount, moment, None))


class Ride(NamedTuple):
    """A passenger on one train: the place, and the legs from `start` to `end` - 1."""
    place: int
    start: int
    end: int


class Segment(NamedTuple):
    """A booking on one train, with a ride for each passenger."""
    run: int
    rides: list


def stub(row):
    """What stands for a row that is given free: its next booking has the next generation, so no id comes back."""
    return Booking(row, "r", 0, 0, 0, (Item(0, 0, 1),), End(0, 0, None))


def block(row, items):
    """A booking of nobody's. No retailer has number 0, so it can't be shown, confirmed or refunded."""
    return Booking(row, "C", 0, 0, 0, tuple(items))


def rides_of(items):
    """The rides of items: two pieces of a place that touch at the border are one passenger's."""
    rides = []
    for place, start, end in items:
        last = rides[-1] if rides else None
        if last and last.place == place and last.end == start == BORDER:
            rides[-1] = Ride(place, last.start, end)
        else:
            rides.append(Ride(place, start, end))
    return rides


def items_of(rides):
    """The items of rides, in their order."""
    items = []
    for place, start, end in rides:
        cut = [start, BORDER, end] if start < BORDER < end else [start, end]
        items += [Item(place, a, b) for a, b in zip(cut, cut[1:])]
    return items


def segments_of(catalogue, booking):
    """The booking's rides, train by train in the order of its items. All passengers of a segment have one stretch."""
    found = {}
    for ride in rides_of(booking.items):
        found.setdefault((catalogue.run_of(ride.place).number, ride.start, ride.end), []).append(ride)
    return [Segment(run, rides) for (run, _, _), rides in found.items()]


NUMBER = "(0|[1-9][0-9]*)"
FIRST_LINE = re.compile("rail-export 1 %s %s" % (NUMBER, NUMBER))
HEAD = re.compile("row %s %s ([PCFrefx]) %s %s %s %s" % ((NUMBER,) * 6))
PIECE = re.compile(r" %s\.%s\.%s" % ((NUMBER,) * 3))
ENDS = re.compile(r" (?:p%s|m([1-9][0-9]*)) %s (?:-|%s\.%s)" % ((NUMBER,) * 4))
LAST_LINE = re.compile("end %s" % NUMBER)


def read_export(catalogue, data):
    """The bookings of an export of a host with the catalogue. The first fault, in the host's order, is a Refusal."""
    if len(data) > LARGEST_EXPORT:
        raise Refusal("export too large")
    places, rows, bookings = _read_lines(data)
    if (places, rows) != (catalogue.places, catalogue.rows):
        raise Refusal("export fault 2: it is of %d places and %d rows, and the catalogue has %d and %d"
                      % (places, rows, catalogue.places, catalogue.rows))
    said = {booking.row.number: booking for booking in bookings}
    for booking in bookings:
        if not _is_right(catalogue, booking, said):
            raise Refusal("export fault 3 at row %d: its numbers can't be" % booking.row.number)
    overlap = first_overlap(bookings)
    if overlap is not None:
        raise Refusal("export fault 4: two live bookings overlap at place %d" % overlap)
    for booking in bookings:
        if booking.end and booking.end.successor and booking.end.successor.number == booking.row.number:
            raise Refusal("export fault 5 at row %d: it was exchanged for a booking of its own row"
                          % booking.row.number)
    return bookings


def _no_export(line):
    raise Refusal("export fault 1 at line %d: this is no export, or it was cut off or changed by hand" % line)


def _number(text, line):
    number = int(text) if len(text) <= 20 else LARGEST_WORD + 1
    return number if number <= LARGEST_WORD else _no_export(line)


def _read_lines(data):
    *lines, rest = data.split(b"\n")
    texts = [line.decode("latin-1") for line in lines]
    head = FIRST_LINE.fullmatch(texts[0]) if texts else None
    if not head:
        _no_export(1)
    places, rows = (_number(number, 1) for number in head.groups())
    bookings = []
    for at, text in enumerate(texts[1:], 2):
        last = LAST_LINE.fullmatch(text)
        if last and _number(last.group(1), at) == len(bookings):
            if rest or at != len(texts):
                _no_export(at + 1)
            return places, rows, bookings
        booking = _read_line(text, at)
        if bookings and booking.row.number <= bookings[-1].row.number:
            _no_export(at)
        bookings.append(booking)
    return _no_export(len(texts) + 1)


def _read_line(text, line):
    head = HEAD.match(text)
    if not head:
        _no_export(line)
    row, generation, phase, *others = head.groups()
    retailer, limit, total, count = (_number(other, line) for other in others)
    items, at, end = [], head.end(), None
    while len(items) < count:
        piece = PIECE.match(text, at)
        if not piece:
            _no_export(line)
        items.append(Item(*(_number(number, line) for number in piece.groups())))
        at = piece.end()
    if phase not in LIVE:
        found = ENDS.match(text, at)
        if not found:
            _no_export(line)
        end, at = _read_end(found, line), found.end()
    if at != len(text):
        _no_export(line)
    return Booking(Row(_number(row, line), _number(generation, line)), phase, retailer, limit, total, tuple(items), end)


def _read_end(found, line):
    paid, owed, moment, row, generation = (None if text is None else _number(text, line) for text in found.groups())
    return End(-owed if paid is None else paid, moment, None if row is None else Row(row, generation))


def _is_right(catalogue, booking, said):
    """Its numbers are in range, its items are pieces that don't meet, and its end could have come."""
    in_range = (booking.row.number < catalogue.rows and booking.row.generation <= LAST_GENERATION
                and booking.retailer <= LARGEST_NUMBER and booking.limit <= LAST_MOMENT
                and booking.total <= LARGEST_AMOUNT)
    return (in_range and 1 <= len(booking.items) <= MOST_ITEMS
            and all(is_piece(catalogue, item) for item in booking.items)
            and first_overlap([replace(booking, phase="C")]) is None
            and (booking.end is None or _is_end_right(booking, said)))


def is_piece(catalogue, item):
    """The item lies in the catalogue, within the place's legs, and on one side of the border."""
    if item.place >= catalogue.places:
        return False
    legs = catalogue.run_of(item.place).legs()
    return item.start < item.end <= legs and (item.end <= BORDER or item.start >= BORDER)


def _is_end_right(booking, said):
    end = booking.end
    low = -LARGEST_AMOUNT if booking.phase == "x" else 0
    high = {"f": LARGEST_AMOUNT, "x": LARGEST_DIFFERENCE}.get(booking.phase, 0)
    if end.moment > LAST_MOMENT or not low <= end.amount <= high:
        return False
    if booking.phase == "e" and end.moment <= booking.limit:
        return False
    if booking.phase != "x" or end.successor is None:
        return (booking.phase == "x") == (end.successor is not None)
    after = said.get(end.successor.number)
    return after is not None and end.successor.generation <= after.row.generation


def first_overlap(bookings):
    """The least place at which live items meet, or None."""
    taken, worst = {}, None
    for booking in bookings:
        for item in booking.items if booking.is_live() else ():
            if taken.get(item.place, 0) & item.mask():
                worst = item.place if worst is None else min(worst, item.place)
            taken[item.place] = taken.get(item.place, 0) | item.mask()
    return worst


def write_export(places, rows, bookings):
    """The export of bookings, whatever their order."""
    ordered = sorted(bookings, key=lambda booking: booking.row.number)
    lines = ["rail-export 1 %d %d" % (places, rows)] + [line_of(booking) for booking in ordered]
    return "".join(line + "\n" for line in lines + ["end %d" % len(ordered)])


def line_of(booking):
    row, end = booking.row, booking.end
    fields = ["row", row.number, row.generation, booking.phase, booking.retailer, booking.limit, booking.total,
              len(booking.items)]
    fields += ["%d.%d.%d" % item for item in booking.items]
    if end is not None:
        successor = "-" if end.successor is None else "%d.%d" % end.successor
        fields += ["p%d" % end.amount if end.amount >= 0 else "m%d" % -end.amount, end.moment, successor]
    return " ".join(map(str, fields))


def same_day(old, new):
    """The two runs leave on one day: as both catalogues write it, or since they leave at the same moment."""
    return old.stops[0].depart.seconds == new.stops[0].depart.seconds or old.day() == new.day()


# Programs


def read_file(name):
    try:
        with open(name, "rb") as file:
            return file.read()
    except OSError as error:
        raise Refusal("%s: %s" % (name, (error.strerror or "it can't be read").lower())) from None


def named(name, read, *words):
    """What `read` makes of the file's bytes. A Refusal names the file."""
    data = read_file(name)
    try:
        return read(*words, data)
    except Refusal as refusal:
        raise Refusal(*("%s: %s" % (name, line) for line in refusal.lines)) from None


def moment_word(text):
    """A moment as a word of a command, in seconds."""
    moment = read_moment(text)
    if moment is None:
        raise ValueError("no moment")
    return moment.seconds


def run_program(name, main):
    """Ends the process with the status of `main`; a Refusal is told line by line and is status 3."""
    try:
        sys.exit(main())
    except Refusal as refusal:
        for line in refusal.lines:
            print("%s: %s" % (name, line), file=sys.stderr)
        sys.exit(3)
    except BrokenPipeError:
        sys.exit(4)

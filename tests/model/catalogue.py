"""The catalogue: what it holds, and the reader that answers the first fault of a text."""
import enum
import re
from dataclasses import dataclass, field

import moments
from json_text import NotJson, is_text, is_whole, read_json

LARGEST_CATALOGUE = 33_554_432
MOST_ROWS = 262_144
MOST_STOPS = 127
MOST_RUNS = 4_096
MOST_PLACES_OF_A_RUN = 1_200
MOST_PLACES = 4_194_304
MOST_LISTED = 65_536
MOST_STEPS = 64
LARGEST_NUMBER = 4_294_967_295
LARGEST_FARE = 10_000_000
LARGEST_FEE_AMOUNT = 10_000_000
WHOLE_FEE = 10_000

CURRENCY = re.compile(r"[A-Z]{3}")
RETAILER_KEY = re.compile(r"[A-Za-z0-9_-]{1,32}")
STATION_CODE = re.compile(r"[A-Z0-9]{1,8}")


class TravelClass(enum.Enum):
    FIRST = "FIRST"
    SECOND = "SECOND"


TRAITS = {"WINDOW": 1, "AISLE": 2, "TABLE": 4, "QUIET": 8, "POWER": 16}


@dataclass(frozen=True)
class Span:
    """Legs from `start` to `end` - 1."""
    start: int
    end: int

    def meets(self, other: "Span") -> bool:
        """Some leg is in both."""
        return any(other.start <= leg < other.end for leg in range(self.start, self.end))


@dataclass(frozen=True)
class Station:
    code: str
    change: int


@dataclass(frozen=True)
class Stop:
    station: str
    arrive: int
    depart: int


@dataclass(frozen=True)
class Fare:
    base: int
    per_leg: int


@dataclass
class Run:
    number: int
    train: int
    stops: list
    fares: dict = field(default_factory=dict)

    def span_between(self, origin: str, destination: str):
        """The legs from the one station to the other, or None where the run doesn't go so."""
        codes = [stop.station for stop in self.stops]
        if origin not in codes or destination not in codes:
            return None
        start, end = codes.index(origin), codes.index(destination)
        return Span(start, end) if start < end else None


@dataclass(frozen=True)
class Place:
    number: int
    run: int
    coach: int
    label: int
    travel_class: TravelClass
    traits: int

    def has_all(self, wanted: int) -> bool:
        return self.traits & wanted == wanted


@dataclass(frozen=True)
class RefundStep:
    before: int
    fee: int


@dataclass
class Terms:
    steps: list
    ticket_fee: int
    exchange_fee: int
    confirm_seconds: int


@dataclass
class Catalogue:
    currency: str = ""
    rows: int = 0
    terms: Terms = None
    retailers: dict = field(default_factory=dict)
    stations: dict = field(default_factory=dict)
    runs: list = field(default_factory=list)
    places: list = field(default_factory=list)

    def places_of(self, run: int) -> list:
        return [place for place in self.places if place.run == run]

    def candidates(self, run: int, travel_class: TravelClass, wanted: int) -> list:
        """The run's places of that class with all the wanted traits, in rising number."""
        return [place for place in self.places_of(run) if place.travel_class is travel_class and place.has_all(wanted)]


class CatalogueFault(Exception):
    """The first fault of a text: its number, and for a member that is wrong its path."""

    def __init__(self, number: int, path: str = ""):
        super().__init__(number, path)
        self.number = number
        self.path = path

    def note(self) -> str:
        return "catalogue fault %d" % self.number + (" at " + self.path if self.number == 2 else "")


NOT_JSON, WRONG_MEMBER, WRONG_RUN, WRONG_PLACES, WRONG_TERMS, UNKNOWN_STATION, STANDS_TWICE = range(1, 8)
REQUIRED = object()


def read_catalogue(data: bytes) -> Catalogue:
    """The catalogue of the text. The members are read in one fixed order, and the first fault that is met is raised."""
    try:
        top = read_json(data)
    except NotJson:
        raise CatalogueFault(NOT_JSON) from None
    if not isinstance(top, dict):
        raise CatalogueFault(WRONG_MEMBER, "")
    catalogue = Catalogue()
    catalogue.currency = text_member(top, "currency", "currency", CURRENCY)
    catalogue.rows = number_member(top, "rows", "rows", 1, MOST_ROWS, 65_536)
    confirm_seconds = number_member(top, "confirmSeconds", "confirmSeconds", 1, 86_400, 900)
    for path, item in listed(top, "retailers", "retailers", 1, MOST_LISTED):
        read_retailer(catalogue, item, path)
    for path, item in listed(top, "stations", "stations", 2, MOST_LISTED):
        read_station(catalogue, item, path)
    catalogue.terms = read_terms(top, confirm_seconds)
    for path, item in listed(top, "runs", "runs", 1, None):
        read_run(catalogue, item, path)
    return catalogue


def members_of(value) -> dict:
    """The members of an object; anything else has none, so that the first leaf below it is missing."""
    return value if isinstance(value, dict) else {}


def number_member(holder: dict, name: str, path: str, low: int, high: int, default=REQUIRED) -> int:
    """A whole number from low to high. A member that stands and is null is of another kind, not missing."""
    if name not in holder and default is not REQUIRED:
        return default
    value = holder.get(name)
    if not is_whole(value) or not low <= value <= high:
        raise CatalogueFault(WRONG_MEMBER, path)
    return value


def text_member(holder: dict, name: str, path: str, rule=None) -> str:
    value = holder.get(name)
    if not is_text(value) or (rule is not None and not rule.fullmatch(value)):
        raise CatalogueFault(WRONG_MEMBER, path)
    return value


def listed(holder: dict, name: str, path: str, least: int, most):
    """The items of a list of objects with their paths, one after the other. The list's length is tried first."""
    value = holder.get(name)
    if not isinstance(value, list) or len(value) < least or (most is not None and len(value) > most):
        raise CatalogueFault(WRONG_MEMBER, path)
    for index, item in enumerate(value):
        item_path = "%s[%d]" % (path, index)
        if not isinstance(item, dict):
            raise CatalogueFault(WRONG_MEMBER, item_path)
        yield item_path, item


def read_retailer(catalogue: Catalogue, item: dict, path: str):
    number = number_member(item, "number", path + ".number", 1, LARGEST_NUMBER)
    if number in catalogue.retailers.values():
        raise CatalogueFault(STANDS_TWICE)
    key = text_member(item, "key", path + ".key", RETAILER_KEY)
    if key in catalogue.retailers:
        raise CatalogueFault(STANDS_TWICE)
    catalogue.retailers[key] = number


def read_station(catalogue: Catalogue, item: dict, path: str):
    code = text_member(item, "code", path + ".code", STATION_CODE)
    if code in catalogue.stations:
        raise CatalogueFault(STANDS_TWICE)
    change = number_member(item, "change", path + ".change", 0, 14_400, 300)
    catalogue.stations[code] = Station(code, change)


def read_terms(top: dict, confirm_seconds: int) -> Terms:
    steps = []
    for path, item in listed(top, "refundSteps", "refundSteps", 0, MOST_STEPS):
        before = number_member(item, "before", path + ".before", 0, LARGEST_NUMBER)
        fee = number_member(item, "fee", path + ".fee", 0, LARGEST_NUMBER)
        steps.append(RefundStep(before, fee))
    ticket_fee = number_member(top, "ticketFee", "ticketFee", 0, LARGEST_NUMBER, 0)
    exchange_fee = number_member(top, "exchangeFee", "exchangeFee", 0, LARGEST_NUMBER, 0)
    falls = all(later.before < earlier.before for earlier, later in zip(steps, steps[1:]))
    if not steps or not falls or steps[-1].before != 0:
        raise CatalogueFault(WRONG_TERMS)
    if any(step.fee > WHOLE_FEE for step in steps):
        raise CatalogueFault(WRONG_TERMS)
    if ticket_fee > LARGEST_FEE_AMOUNT or exchange_fee > LARGEST_FEE_AMOUNT:
        raise CatalogueFault(WRONG_TERMS)
    return Terms(steps, ticket_fee, exchange_fee, confirm_seconds)


def read_run(catalogue: Catalogue, item: dict, path: str):
    train = number_member(item, "train", path + ".train", 1, 99_999)
    count = len(item["stops"]) if isinstance(item.get("stops"), list) else 0
    stops = []
    for index, (stop_path, stop) in enumerate(listed(item, "stops", path + ".stops", 0, None)):
        stops.append(read_stop(catalogue, stop, stop_path, index == 0, index == count - 1))
    if not runs_as_it_must(stops) or len(catalogue.runs) >= MOST_RUNS:
        raise CatalogueFault(WRONG_RUN)
    run = Run(len(catalogue.runs), train, stops)
    fares = members_of(item.get("fares"))
    for name, travel_class in (("first", TravelClass.FIRST), ("second", TravelClass.SECOND)):
        fare, fare_path = members_of(fares.get(name)), "%s.fares.%s" % (path, name)
        base = number_member(fare, "base", fare_path + ".base", 0, LARGEST_FARE)
        per_leg = number_member(fare, "perLeg", fare_path + ".perLeg", 0, LARGEST_FARE)
        run.fares[travel_class] = Fare(base, per_leg)
    catalogue.runs.append(run)
    for coach_path, coach in listed(item, "coaches", path + ".coaches", 1, None):
        read_coach(catalogue, run, coach, coach_path)


def read_stop(catalogue: Catalogue, item: dict, path: str, is_first: bool, is_last: bool) -> Stop:
    """The first stop may leave out its arrival and the last one its departure; a stop that is both needs both."""
    station = text_member(item, "station", path + ".station")
    if station not in catalogue.stations:
        raise CatalogueFault(UNKNOWN_STATION)
    may_lack_arrival = is_first and not is_last and "arrive" not in item
    may_lack_departure = is_last and not is_first and "depart" not in item
    arrive = None if may_lack_arrival else moment_member(item, "arrive", path + ".arrive")
    depart = None if may_lack_departure else moment_member(item, "depart", path + ".depart")
    return Stop(station, depart if arrive is None else arrive, arrive if depart is None else depart)


def moment_member(holder: dict, name: str, path: str) -> int:
    moment = moments.read_moment(text_member(holder, name, path))
    if isinstance(moment, moments.MomentFault):
        raise CatalogueFault(WRONG_MEMBER, path)
    return moment


def runs_as_it_must(stops: list) -> bool:
    """2 to 127 stops, at stations that differ, each departure not before its arrival and each arrival after the last."""
    if not 2 <= len(stops) <= MOST_STOPS:
        return False
    if any(stop.depart < stop.arrive for stop in stops):
        return False
    if any(after.arrive <= before.depart for before, after in zip(stops, stops[1:])):
        return False
    return len({stop.station for stop in stops}) == len(stops)


def read_coach(catalogue: Catalogue, run: Run, item: dict, path: str):
    """A coach is its number, so two coaches of one number in a run share their places' numbers."""
    coach = number_member(item, "coach", path + ".coach", 1, 999)
    travel_class = TravelClass(text_member(item, "class", path + ".class", re.compile("FIRST|SECOND")))
    added = []
    for group_path, group in listed(item, "places", path + ".places", 1, None):
        first = number_member(group, "first", group_path + ".first", 1, 9_999)
        last = number_member(group, "last", group_path + ".last", first, 9_999)
        traits = traits_member(group, group_path + ".traits")
        added.extend((label, traits) for label in range(first, last + 1))
    in_run = catalogue.places_of(run.number)
    if len(in_run) + len(added) > MOST_PLACES_OF_A_RUN or len(catalogue.places) + len(added) > MOST_PLACES:
        raise CatalogueFault(WRONG_PLACES)
    labels = [place.label for place in in_run if place.coach == coach] + [label for label, _ in added]
    if len(set(labels)) != len(labels):
        raise CatalogueFault(WRONG_PLACES)
    for label, traits in added:
        catalogue.places.append(Place(len(catalogue.places), run.number, coach, label, travel_class, traits))


def traits_member(group: dict, path: str) -> int:
    """The sum of the bits of the traits that are named; a repeat is harmless."""
    if "traits" not in group:
        return 0
    if not isinstance(group["traits"], list):
        raise CatalogueFault(WRONG_MEMBER, path)
    bits = 0
    for index, name in enumerate(group["traits"]):
        if not is_text(name) or name not in TRAITS:
            raise CatalogueFault(WRONG_MEMBER, "%s[%d]" % (path, index))
        bits |= TRAITS[name]
    return bits

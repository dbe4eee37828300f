"""Random small catalogues, and catalogues with a fault."""
import copy
import random

import moments
from random_texts import Raw, Twice, chance, json_text, junk, moment_text, wrong_moment_text

USUAL_START = 1_780_293_600
CODES = ["BASEL", "OLTEN", "BERN", "THUN", "A", "ZZZZZZZZ", "0", "X9", "LYON2", "B000000", "CHUR", "VISP"]
KEYS = ["north", "south", "a", "A-_9", "x" * 32, "0", "-", "Key_1"]
TRAITS = ["WINDOW", "AISLE", "TABLE", "QUIET", "POWER"]


def random_start(rng: random.Random) -> int:
    """Mostly a day in 2026, sometimes close to either end of the moments."""
    kind = rng.random()
    if kind < 0.8:
        return USUAL_START + rng.choice([0, 0, rng.randrange(1_000_000)])
    if kind < 0.88:
        return rng.choice([0, 0, rng.randrange(5_000)])
    if kind < 0.95:
        return moments.LAST_MOMENT - rng.choice([0, 899, 900, 901, rng.randrange(200_000)])
    return rng.randrange(moments.LAST_MOMENT)


def random_tick(rng: random.Random) -> int:
    return rng.choice([0, 0, 0, 1, 1, 1, 7, 30, 60, 100, 150, 225, 300, 450, 899, 900, 901, 1_800, 3_600, 86_400,
                       rng.randrange(3_000), rng.randrange(86_401)])


def random_catalogue(rng: random.Random, start: int, tick: int) -> dict:
    """A catalogue whose departures, change times, refund steps and limits lie close to what the clock will show."""
    kind = rng.random()
    stations = rng.sample(CODES, rng.randint(2, 6))
    if kind < 0.07:
        stations = ["S%d" % index for index in range(rng.choice([30, 64, 65, 66, 100, 127, 127, 127]))]
    changes = {code: rng.choice([None, 0, 60, 300, 300, 14_400, rng.randrange(14_401)]) for code in stations}
    if kind < 0.07:
        runs = long_runs(rng, start + 60 * tick + 600, stations, changes)
    elif kind < 0.19:
        stations = stations[:4]
        changes = {code: rng.choice([0, 0, 600]) for code in stations}
        runs = dense_runs(rng, start, tick, stations)
    else:
        runs = random_runs(rng, start, tick, stations, changes)
    catalogue = {
        "currency": rng.choice(["EUR", "CHF", "ABC"]),
        "retailers": random_retailers(rng),
        "stations": [with_optional({"code": code}, "change", changes[code]) for code in stations],
        "refundSteps": random_steps(rng, start, tick, runs),
        "runs": [run_object(rng, run) for run in runs],
    }
    with_optional(catalogue, "rows", rng.choice([1, 2, 4, 6, 8, 10, 15, 30, 30, None, None]))
    with_optional(catalogue, "confirmSeconds", random_confirm_seconds(rng, tick))
    with_optional(catalogue, "ticketFee", rng.choice([None, 0, 1, 500, 10_000_000, rng.randrange(3_000)]))
    with_optional(catalogue, "exchangeFee", rng.choice([None, 0, 1, 300, 10_000_000, rng.randrange(3_000)]))
    return catalogue


def with_optional(holder: dict, name: str, value) -> dict:
    if value is not None:
        holder[name] = value
    return holder


def random_retailers(rng: random.Random) -> list:
    keys = rng.sample(KEYS, rng.randint(1, 3))
    numbers = rng.sample([1, 2, 3, 9, 77, 65_536, 4_294_967_295], len(keys))
    return [{"number": number, "key": key} for number, key in zip(numbers, keys)]


def random_confirm_seconds(rng: random.Random, tick: int):
    """Often a whole number of ticks, or one second more or less, so that a limit is met to the second."""
    if chance(rng, 0.2):
        return None
    if chance(rng, 0.1):
        return rng.choice([1, 86_400, rng.randint(1, 86_400)])
    return min(max(rng.choice([2, 3, 5, 8, 12, 20]) * max(tick, 1) + rng.choice([-1, 0, 0, 1]), 1), 86_400)


def random_runs(rng: random.Random, start: int, tick: int, stations: list, changes: dict) -> list:
    """Runs as lists of (station, arrival, departure). Some begin just as another one has arrived, some are twins."""
    horizon = max(43_200, 80 * tick)
    runs = []
    for _ in range(rng.choice([1, 2, 3, 4, 5, 6, 7, 9])):
        if runs and chance(rng, 0.2):
            runs.append(list(rng.choice(runs)))
            continue
        stops = rng.sample(stations, rng.randint(2, len(stations)))
        if chance(rng, 0.4):
            stops.sort(key=stations.index, reverse=chance(rng, 0.3))
        depart = start + rng.choice([rng.randrange(-600, 3_600), rng.randrange(horizon), rng.randrange(horizon), horizon])
        if runs and chance(rng, 0.6):
            station, arrive, _ = rng.choice(rng.choice(runs)[1:])
            change = 300 if changes[station] is None else changes[station]
            depart = arrive + rng.choice([change, change, change - 1, change + 1, 14_400, 14_401, change + 600, rng.randrange(15_000)])
            if station in stops and chance(rng, 0.8):
                stops = [station] + [code for code in stops if code != station]
        runs.append(fitted(timed_stops(rng, stops, depart)))
    return runs


def long_runs(rng: random.Random, depart: int, stations: list, changes: dict) -> list:
    """One run through all the stations, and mostly a short one that leaves one of them as soon as one may change there."""
    runs = [timed_stops(rng, stations, depart)]
    if chance(rng, 0.7):
        station, arrive, _ = rng.choice(runs[0][1:])
        others = rng.sample([code for code in stations if code != station], 2)
        change = 300 if changes[station] is None else changes[station]
        runs.append(timed_stops(rng, [station] + others, arrive + change + 60))
    return [fitted(stops) for stops in runs]


def dense_runs(rng: random.Random, start: int, tick: int, stations: list) -> list:
    """Many runs between few stations at times that are whole multiples of ten minutes, so that many trips are alike."""
    first, runs = start + tick * rng.choice([0, 10, 40]), []
    for _ in range(rng.randint(6, 14)):
        stops, arrive = [], first + 600 * rng.randrange(8)
        for station in rng.sample(stations, rng.randint(2, min(3, len(stations)))):
            stops.append((station, arrive, arrive))
            arrive += rng.choice([600, 600, 1_200, 1_800])
        runs.append(fitted(stops))
    return runs


def timed_stops(rng: random.Random, stations: list, depart: int) -> list:
    arrive, stops = depart - rng.choice([0, 0, 60]), []
    for station in stations:
        stops.append((station, arrive, depart))
        arrive = depart + rng.choice([1, 60, 300, 600, 1_800, 3_600, rng.randint(1, 7_200)])
        depart = arrive + rng.choice([0, 0, 60, 120, rng.randrange(900)])
    return stops


def fitted(stops: list) -> list:
    """The same stops, moved so that all lie within the moments."""
    over = max(stops[-1][2] - moments.LAST_MOMENT, 0)
    under = max(-stops[0][1], 0)
    return [(station, arrive - over + under, depart - over + under) for station, arrive, depart in stops]


def random_steps(rng: random.Random, start: int, tick: int, runs: list) -> list:
    befores = {0}
    for _ in range(rng.randint(0, 3)):
        departs = rng.choice(runs)[0][2]
        near = departs - start - tick * rng.randrange(20) + rng.choice([-1, 0, 0, 1])
        befores.add(min(max(rng.choice([near, near, 60, 900, 3_600, 86_400, 4_294_967_295]), 0), 4_294_967_295))
    fees = [0, 2_500, 10_000, 1, 9_999, 3_333, rng.randrange(10_001)]
    return [{"before": before, "fee": rng.choice(fees)} for before in sorted(befores, reverse=True)]


def random_fare(rng: random.Random) -> dict:
    amounts = [0, 1, 7, 500, 999, 1_000, 10_000_000, rng.randrange(5_000), rng.randrange(5_000)]
    return {"base": rng.choice(amounts), "perLeg": rng.choice(amounts)}


def run_object(rng: random.Random, stops: list) -> dict:
    listed = []
    for index, (station, arrive, depart) in enumerate(stops):
        stop = {"station": station}
        if index > 0 or arrive != depart or chance(rng, 0.2):
            stop["arrive"] = arrive
        if index < len(stops) - 1 or arrive != depart or chance(rng, 0.2):
            stop["depart"] = depart
        listed.append(stop)
    for stop in listed:
        for name in ("arrive", "depart"):
            if name in stop:
                stop[name] = Raw("\"%s\"" % moment_text(rng, stop[name], False))
    return {"train": rng.choice([1, 501, 812, 99_999, rng.randint(1, 99_999)]), "stops": listed,
            "fares": {"first": random_fare(rng), "second": random_fare(rng)}, "coaches": random_coaches(rng)}


def random_coaches(rng: random.Random) -> list:
    """One to three coaches of few places; two of them may have one number, with other places."""
    numbers, next_label, coaches = [rng.choice([1, 2, 7, 999]) for _ in range(rng.randint(1, 3))], {}, []
    for number in numbers:
        groups = []
        for _ in range(rng.choice([1, 1, 2, 3])):
            first = next_label.get(number, rng.choice([1, 11, 100])) + rng.choice([0, 0, 3])
            last = first + rng.choice([0, 1, 1, 2, 3, 7])
            next_label[number] = last + 1
            group = {"first": first, "last": last}
            if chance(rng, 0.7):
                group["traits"] = rng.sample(TRAITS, rng.choice([0, 1, 1, 2, 3]))
                if group["traits"] and chance(rng, 0.1):
                    group["traits"].append(group["traits"][0])
            groups.append(group)
        coaches.append({"coach": number, "class": rng.choice(["FIRST", "SECOND", "SECOND"]), "places": groups})
    if chance(rng, 0.2):
        coaches[0]["places"][-1]["last"] = min(coaches[0]["places"][-1]["first"] + 5, 9_999)
        if any(coach["coach"] == coaches[0]["coach"] for coach in coaches[1:]):
            del coaches[1:]
    return coaches


def catalogue_bytes(rng: random.Random, catalogue: dict) -> bytes:
    """The text of a catalogue, often with unknown members and members that stand twice."""
    written = copy.deepcopy(catalogue)
    plain = chance(rng, 0.3)
    if not plain:
        for holder, name in places_in(written):
            if isinstance(holder, dict) and chance(rng, 0.03):
                holder[name] = Twice(junk(rng), holder[name])
            if isinstance(holder, dict) and chance(rng, 0.03):
                holder["x-" + name] = junk(rng)
    return json_text(rng, written, plain).encode("utf-8")


def places_in(value) -> list:
    """Every member and item of the value, however deep, as (holder, name or index)."""
    found = []
    pairs = list(value.items()) if isinstance(value, dict) else list(enumerate(value)) if isinstance(value, list) else []
    for name, inner in pairs:
        found.append((value, name))
        found.extend(places_in(inner))
    return found


# Faults


def faulty_catalogue_bytes(rng: random.Random, catalogue: dict) -> bytes:
    """The text of a catalogue with a fault or two, or of no catalogue at all. Some are right after all."""
    if chance(rng, 0.12):
        return broken_text(rng, catalogue_bytes(rng, catalogue))
    changed = copy.deepcopy(catalogue)
    for _ in range(rng.choice([1, 1, 1, 2, 3])):
        rng.choice(CHANGES)(rng, changed)
    return json_text(rng, changed, chance(rng, 0.5)).encode("utf-8")


def broken_text(rng: random.Random, text: bytes) -> bytes:
    at = rng.randrange(len(text))
    return rng.choice([
        text[:at], text[:at] + bytes([rng.randrange(256)]) + text[at + 1:], text[:at] + text[at + 1:], text + b"x", text + b" ",
        b"\xef\xbb\xbf" + text, b"", b" ", b"[]", b"[" + text + b"]", b"null", b"1", b"\"x\"", b"{}", b"{", b"true", b"1e400",
        text[:-1] + b",\"x\":1e400}", text[:-1] + b",\"x\":\"\\ud800\"}", text[:-1] + b",\"x\":\"\xff\"}",
        text[:-1] + b",\"x\":" + b"[" * 126 + b"]" * 126 + b"}", text[:-1] + b",\"x\":" + b"[" * 127 + b"]" * 127 + b"}",
        text[:-1] + b",\"currency\":\"eur\"}", text[:-1] + b",\"runs\":[]}", b"\n" + text + b"\r\n\t ",
    ])


def change_any(rng: random.Random, catalogue: dict):
    """Leaves something out, or puts something else in its place."""
    holder, name = rng.choice(places_in(catalogue))
    if chance(rng, 0.35):
        del holder[name]
    elif chance(rng, 0.2) and isinstance(holder, list):
        holder.insert(name, rng.choice([copy.deepcopy(holder[name]), junk(rng)]))
    else:
        holder[name] = junk(rng)


def change_number(rng: random.Random, catalogue: dict):
    numbers = [(holder, name) for holder, name in places_in(catalogue) if type(holder[name]) is int]
    if numbers:
        holder, name = rng.choice(numbers)
        holder[name] = rng.choice([
            0, 1, -1, holder[name] + 1, holder[name] - 1, 14_400, 14_401, 86_400, 86_401, 262_144, 262_145, 65_536, 99_999, 100_000,
            999, 1_000, 9_999, 10_000, 10_001, 10_000_000, 10_000_001, 4_294_967_295, 4_294_967_296, 2 ** 63, 2 ** 64 - 1,
            Raw("%d.0" % holder[name]), Raw("%de0" % holder[name]), Raw("-0"), str(holder[name])])


LIMITS = [("rows", 0, 1), ("rows", 262_144, 262_145), ("confirmSeconds", 0, 1), ("confirmSeconds", 86_400, 86_401), ("number", 0, 1),
          ("number", 4_294_967_295, 4_294_967_296), ("change", -1, 0), ("change", 14_400, 14_401), ("before", 4_294_967_295, 4_294_967_296),
          ("fee", 10_000, 10_001), ("fee", 4_294_967_295, 4_294_967_296), ("ticketFee", 10_000_000, 10_000_001),
          ("ticketFee", 4_294_967_295, 4_294_967_296), ("exchangeFee", 10_000_000, 10_000_001),
          ("exchangeFee", 4_294_967_295, 4_294_967_296), ("train", 0, 1), ("train", 99_999, 100_000), ("base", 10_000_000, 10_000_001),
          ("perLeg", 10_000_000, 10_000_001), ("coach", 0, 1), ("coach", 999, 1_000), ("first", 0, 1), ("last", 9_999, 10_000)]


def change_to_limit(rng: random.Random, catalogue: dict):
    """A number stands at the end of its range or just past it."""
    name, under, over = rng.choice(LIMITS)
    holders = [holder for holder, member in places_in(catalogue) if member == name and isinstance(holder, dict)]
    if name == "change":
        holders = objects(catalogue.get("stations"))
    holder = rng.choice(holders) if holders else catalogue
    holder[name] = rng.choice([under, over])
    if name == "last" and holder[name] > 9_000:
        holder["first"] = 9_998


def change_text(rng: random.Random, catalogue: dict):
    texts = [(holder, name) for holder, name in places_in(catalogue) if type(holder[name]) is str]
    if texts:
        holder, name = rng.choice(texts)
        text = holder[name]
        holder[name] = rng.choice([text + "A", text.lower(), "", text + " ", "A" * 8, "A" * 9, "k" * 33, "\u00c4" + text, text[:-1],
                                   "FIRST", "EUR", "EURO", "WINDOW", text + "\n", "NOWHERE", "k" * 32, "a.b"])


def change_moment(rng: random.Random, catalogue: dict):
    stop = any_of(rng, catalogue, "stops")
    if stop:
        name = rng.choice(["arrive", "depart"])
        stop[name] = rng.choice([wrong_moment_text(rng, USUAL_START), moments.write_moment(rng.randrange(moments.LAST_MOMENT)), None, 5])


def change_times(rng: random.Random, catalogue: dict):
    """A time becomes that of another stop, mostly of the one before, or of the same stop's other time."""
    lists = [objects(run.get("stops")) for run in objects(catalogue.get("runs"))]
    lists = [stops for stops in lists if len(stops) > 1]
    if not lists:
        return
    stops = rng.choice(lists)
    at = rng.randrange(1, len(stops))
    stop, other = stops[at], rng.choice([stops[at - 1], stops[at - 1], stops[at], rng.choice(stops)])
    times = [other[name] for name in ("arrive", "depart") if name in other]
    if times:
        stop[rng.choice(["arrive", "arrive", "depart"])] = times[-1] if chance(rng, 0.7) else times[0]


def change_stops(rng: random.Random, catalogue: dict):
    """Too few, too many, or a station that stands twice."""
    stops = [run["stops"] for run in objects(catalogue.get("runs")) if isinstance(run.get("stops"), list) and run["stops"]]
    if not stops:
        return
    chosen = rng.choice(stops)
    kind = rng.randrange(5)
    if kind == 0:
        del chosen[1:]
    elif kind == 1:
        chosen.clear()
    elif kind == 2:
        again = copy.deepcopy(chosen[0])
        again["arrive"] = again["depart"] = moments.write_moment(moments.LAST_MOMENT)
        chosen.append(again)
    elif kind == 3:
        del chosen[1:]
        for name in ("arrive", "depart"):
            chosen[0] = {"station": chosen[0].get("station"), "arrive": moments.write_moment(5), "depart": moments.write_moment(6)}
    else:
        many_stops(rng, catalogue, chosen)


def many_stops(rng: random.Random, catalogue: dict, chosen: list):
    """127 stops or about as many in one run, for which stations are added."""
    count = rng.choice([64, 65, 126, 127, 128, 129])
    if isinstance(catalogue.get("stations"), list):
        catalogue["stations"].extend({"code": "M%d" % index} for index in range(count))
    chosen[:] = [{"station": "M%d" % index, "arrive": moments.write_moment(USUAL_START + 60 * index),
                  "depart": moments.write_moment(USUAL_START + 60 * index + 30)} for index in range(count)]


def change_repeats(rng: random.Random, catalogue: dict):
    """A retailer or a station stands twice, or nearly."""
    name = rng.choice(["retailers", "stations"])
    items = objects(catalogue.get(name))
    if items:
        added = copy.deepcopy(rng.choice(items))
        member = rng.choice(["number", "key", "code", "change", "other"])
        if member in ("number", "key", "code"):
            added[member] = {"number": 12_345, "key": "other", "code": "OTHER"}[member]
        if chance(rng, 0.4):
            name_of_other = {"number": "key", "key": "number", "code": "change", "change": "code"}.get(member, "key")
            added[name_of_other] = junk(rng)
        catalogue[name].insert(rng.randrange(len(catalogue[name]) + 1), added)


def change_steps(rng: random.Random, catalogue: dict):
    steps = objects(catalogue.get("refundSteps"))
    kind = rng.randrange(8)
    if kind == 0 or not steps:
        catalogue["refundSteps"] = []
    elif kind == 1:
        catalogue["refundSteps"] = list(reversed(steps)) + [copy.deepcopy(steps[-1])]
    elif kind == 2:
        steps[-1]["before"] = 1
    elif kind == 3:
        rng.choice(steps)["fee"] = rng.choice([10_000, 10_001, 4_294_967_295])
    elif kind == 4:
        catalogue[rng.choice(["ticketFee", "exchangeFee"])] = rng.choice([10_000_000, 10_000_001, 4_294_967_295, 4_294_967_296])
    elif kind == 5:
        count = rng.choice([63, 64, 65])
        catalogue["refundSteps"] = [{"before": count - 1 - index, "fee": index} for index in range(count)]
    elif kind == 6:
        catalogue["refundSteps"].insert(0, junk(rng))
    else:
        steps[0]["before"] = steps[-1].get("before")


def change_places(rng: random.Random, catalogue: dict):
    """Places that stand twice, or too many of them."""
    runs = [run for run in objects(catalogue.get("runs")) if objects(run.get("coaches"))]
    if not runs:
        return
    coaches = objects(rng.choice(runs)["coaches"])
    coach = rng.choice(coaches)
    groups = objects(coach.get("places"))
    if not groups:
        return
    kind = rng.randrange(7)
    if kind == 6:
        twin = copy.deepcopy(coach)
        twin["class"] = rng.choice(["FIRST", "SECOND"])
        twin["coach"] = rng.choice([coach.get("coach"), coach.get("coach"), 998])
        coaches_of_run = next(run["coaches"] for run in runs if coach in run["coaches"])
        coaches_of_run.append(twin)
    elif kind == 0:
        groups[0]["first"], groups[0]["last"] = 1, rng.choice([1_199, 1_200, 1_201])
    elif kind == 1:
        coach["places"].append(copy.deepcopy(rng.choice(groups)))
    elif kind == 2:
        rng.choice(coaches)["coach"] = coach.get("coach")
    elif kind == 3:
        groups[-1]["last"] = rng.choice([9_999, 10_000, 0, groups[-1].get("first")])
    elif kind == 4:
        groups[0]["traits"] = rng.choice([["WINDOW", "x"], ["window"], [1], "WINDOW", {}, None, ["POWER", None], list(TRAITS)])
    else:
        groups[-1]["last"] = groups[-1].get("last", 1)
        groups[-1]["first"] = rng.choice([groups[0].get("first"), 0, 1, 10_000])


def change_fares(rng: random.Random, catalogue: dict):
    runs = objects(catalogue.get("runs"))
    if runs:
        run = rng.choice(runs)
        fares = run.get("fares")
        kind = rng.randrange(4)
        if kind == 0:
            run.pop("fares", None)
        elif kind == 1 or not isinstance(fares, dict):
            run["fares"] = junk(rng)
        elif kind == 2:
            fares.pop(rng.choice(["first", "second"]), None)
        else:
            fares[rng.choice(["first", "second"])] = rng.choice([junk(rng), {"base": 1}, {"perLeg": 1}, {"base": 10_000_001, "perLeg": 0}])


def objects(value) -> list:
    return [item for item in value if isinstance(item, dict)] if isinstance(value, list) else []


def any_of(rng: random.Random, catalogue: dict, name: str):
    """One of the objects in the lists of that name in all runs, or None."""
    found = [item for run in objects(catalogue.get("runs")) for item in objects(run.get(name))]
    return rng.choice(found) if found else None


CHANGES = [change_any, change_any, change_any, change_number, change_to_limit, change_to_limit, change_to_limit, change_text, change_text,
           change_moment, change_times, change_times, change_stops, change_repeats, change_repeats, change_steps, change_places,
           change_places, change_fares]

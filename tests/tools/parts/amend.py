"""tools/amend on exports and plans of chance, each held against the rules and the host; and what is refused, and why.
"""
import copy
import csv
import json
import pathlib
import random
import tempfile

import countries
import kit
import export
import moments
import offers
from bookings import Books, Phase, reservations
from catalogue import CatalogueFault, read_catalogue

SEEDS = 500
CANCELLED, CLOSED = "2099-12-31", "1970-01-01"
NEVER = 4_000_000_000


# A plan of chance, and the new catalogue that goes with it


class Change:
    """A new catalogue and a plan, made together."""

    def __init__(self, rng, tree):
        self.rng, self.tree, self.lines = rng, copy.deepcopy(tree), []
        self.untouched = list(range(len(tree["runs"])))
        rng.shuffle(self.untouched)
        self.opened = []
        self.cancelled, self.closed, self.moved, self.refunded, self.replaced, self.blocked = [], [], {}, set(), {}, []

    def shut(self, number, day):
        stops = self.tree["runs"][number]["stops"]
        if self.rng.random() < 0.5:
            self.tree["runs"][number]["planned"] = copy.deepcopy(stops)
        for at, stop in enumerate(stops):
            text = "%sT%02d:%02d:00Z" % (day, at // 60, at % 60)
            stop.update({part: text for part in ("arrive", "depart") if part in stop})

    def cancel(self):
        number, rng = self.untouched.pop(), self.rng
        self.cancelled.append(number)
        self.lines.append("cancel run %d" % number)
        self.shut(number, CANCELLED)
        if rng.random() < 0.7:
            self.refunded.add(number)
        if rng.random() < 0.5:
            self.more_trains(number)

    def more_trains(self, number):
        """A train that is put on in its place, at the end of the list."""
        old = self.tree["runs"][number]
        codes = [stop["station"] for stop in old["stops"]]
        begin = countries.START + 60 * self.rng.randint(30, 500)
        self.tree["runs"].append(countries.run(self.rng, old["train"] % 99_999 + 1, codes, begin,
                                               countries.layout(self.rng)))

    def move_all(self):
        for number in self.cancelled:
            others = [other for other in range(len(self.tree["runs"])) if other not in self.cancelled + self.closed]
            if others and self.rng.random() < 0.85:
                self.moved[number] = self.rng.sample(others, self.rng.randint(1, min(3, len(others))))
                self.lines.append("move run %d to %s" % (number, " ".join(map(str, self.moved[number]))))

    def close(self):
        number = self.untouched.pop()
        self.closed.append(number)
        self.lines.append("close  run %d   # no more" % number)
        if self.rng.random() < 0.7:
            self.shut(number, CLOSED)

    def replace(self):
        number, rng = self.untouched.pop(), self.rng
        run = self.tree["runs"][number]
        coach = rng.choice([item["coach"] for item in run["coaches"] if item["class"] == "SECOND"]
                           or [run["coaches"][0]["coach"]])
        old = [item for item in run["coaches"] if item["coach"] == coach]
        rest = [item for item in run["coaches"] if item["coach"] != coach]
        names = [coach] if rng.random() < 0.5 else rng.sample(range(20, 40), rng.choice([1, 2]))
        new = [dict(other_coach(rng, rng.choice(old)), coach=name) for name in names]
        run["coaches"] = rest + new if rng.random() < 0.5 else new + rest
        by = names + [item["coach"] for item in rest if rng.random() < 0.3]
        self.replaced[number, coach] = by
        self.lines.append("replace coach %d of run %d by %s" % (coach, number, " ".join(map(str, dict.fromkeys(by)))))
        if rng.random() < 0.7:
            self.refunded.add(number)

    def open(self):
        self.opened.append(self.untouched[0])
        self.lines.append("open run %d" % self.untouched[0])

    def block(self):
        number = self.rng.randrange(len(self.tree["runs"]))
        coach = self.rng.choice(self.tree["runs"][number]["coaches"])
        group = self.rng.choice(coach["places"])
        self.blocked.append((number, coach["coach"], group["first"], group["last"]))
        self.lines.append("block places %d-%d of coach %d of run %d"
                          % (group["first"], group["last"], coach["coach"], number))

    def besides(self):
        """What the plan doesn't say and NEW may have: other fares, times of the day, coaches in another order, a coach
        and a row more.
        """
        rng, tree = self.rng, self.tree
        tree["rows"] += rng.choice([0, 0, 5, 200])
        tree["exchangeFee"] = 11
        for number in self.untouched:
            run = tree["runs"][number]
            rng.shuffle(run["coaches"])
            if rng.random() < 0.3:
                run["coaches"].insert(0, {"coach": 99, "class": "SECOND", "places": [{"first": 1, "last": 2}]})
            if rng.random() < 0.2:
                late = 60 * rng.randint(1, 20)
                for stop in run["stops"]:
                    stop.update({part: moments.write_moment(moments.read_moment(stop[part]) + late)
                                 for part in ("arrive", "depart") if part in stop})

    def plan(self):
        self.lines += ["refund run %d" % number for number in sorted(self.refunded)]
        self.rng.shuffle(self.lines)
        return "# a plan\n\n" + "\n".join(self.lines) + "\n"


def other_coach(rng, coach):
    """A vehicle in the place of another one: shorter, longer, or laid out anew; of its class mostly."""
    new = copy.deepcopy(coach)
    kind = rng.random()
    if kind < 0.25:
        group = rng.choice(new["places"])
        group["last"] = group["first"]
    elif kind < 0.75:
        new["places"] = [{"first": 50 + at, "last": 50 + at + rng.randint(0, 5),
                          "traits": rng.sample(countries.TRAITS, rng.randint(0, 2))}
                         for at in (0, 10, 30)]
    elif kind < 0.8:
        new["places"].append({"first": 200, "last": 205, "traits": ["WINDOW"]})
    elif kind < 0.9:
        new["places"][0]["traits"] = ["QUIET"]
    if rng.random() < 0.1:
        new["class"] = "FIRST" if new["class"] == "SECOND" else "SECOND"
    return new


def change_of(rng, tree):
    change = Change(rng, tree)
    for step in rng.choice([["cancel"], ["cancel", "cancel"], ["replace"], ["replace", "cancel"], ["close"], ["block"],
                            ["cancel", "close", "replace"], ["block", "block", "close"],
                            ["replace", "replace", "block"], []]):
        if len(change.untouched) > 1:
            getattr(change, step)()
    if change.untouched and rng.random() < 0.2:
        change.open()
    change.move_all()
    change.besides()
    return change


# What has to hold of the result


class Held:
    """OLD and what was sold, NEW and the new lines, by the model; with the records."""

    def __init__(self, seed, change, seller, new, lines, records, now):
        self.seed, self.change, self.old, self.new, self.now = seed, change, seller.catalogue, new, now
        self.before = {line.row.number: line for line in export.kept_bookings(seller.books)}
        self.after = {line.row.number: line for line in lines}
        self.records = [dict(zip(kit.tool("amend").COLUMNS, record)) for record in records]
        self.sold, self.books = seller.export(), Books(new)
        self.books.bookings = lines

    def parts(self, catalogue, booking):
        """By run, in order: the span's stations, and the places."""
        found = {}
        for item in reservations(booking.items):
            run = catalogue.runs[catalogue.places[item.place].run]
            ends = run.stops[item.span.start].station, run.stops[item.span.end].station
            found.setdefault(run.number, (ends, item.span, []))[2].append(catalogue.places[item.place])
        return found

    def is_sold(self, line):
        return line.is_live() and line.retailer > 0


def seat_of(place):
    return place.run, place.coach, place.label


def try_lines(found, held):
    """Rows, ids and prices are kept; what is new are blocks; what ended was refunded by a line."""
    for number, line in held.before.items():
        after = held.after.get(number)
        if not found.need(after is not None, "plan %d: row %d is gone", held.seed, number):
            continue
        same = (after.row, after.retailer, after.limit, after.total) == (line.row, line.retailer, line.limit,
                                                                         line.total)
        found.need(same, "plan %d: row %d is another booking", held.seed, number)
        if line.retailer == 0:
            try_block(found, held, line, after)
        elif not line.is_live():
            found.need((after.phase, after.ending) == (line.phase, line.ending), "plan %d: row %d ended otherwise",
                       held.seed, number)
            try_ended(found, held, line, after)
        elif after.is_live():
            found.need(after.phase is line.phase, "plan %d: row %d is in another state", held.seed, number)
            try_places(found, held, line, after)
        else:
            runs = set(held.parts(held.old, line))
            amount = 0 if line.phase is Phase.PREBOOKED else line.total
            wanted = Phase.RELEASED if line.phase is Phase.PREBOOKED else Phase.REFUNDED
            found.need(runs & held.change.refunded and after.phase is wanted and after.ending.amount == amount
                       and after.ending.moment == held.now, "plan %d: row %d was ended so: %s", held.seed, number,
                       after)
    for number, line in held.after.items():
        if number not in held.before:
            found.need(line.retailer == 0 and line.phase is Phase.CONFIRMED and line.total == 0
                       and line.row.generation == 0,
                       "plan %d: row %d is new", held.seed, number)


def try_block(found, held, line, after):
    """What is nobody's to sell stays so, but on runs that are opened and at seats that are gone."""
    there = {seat_of(place): place.number for place in held.new.places}
    kept = []
    for item in line.items:
        place = held.old.places[item.place]
        named = any((place.run, place.coach) == (run, coach) and first <= place.label <= last
                    for run, coach, first, last in held.change.blocked)
        if seat_of(place) in there and (named or place.run not in held.change.opened):
            kept.append((there[seat_of(place)], item.span))
    items = [(item.place, item.span) for item in after.items] if after.is_live() else []
    found.need(items == kept and after.retailer == 0, "plan %d: of the block %s stays %s", held.seed, line, after)


def try_ended(found, held, line, after):
    """An ended booking shows the seats that it had, where NEW has them."""
    there = {seat_of(place) for place in held.new.places}
    for a, b in zip(line.items, after.items):
        one, other = held.old.places[a.place], held.new.places[b.place]
        found.need(a.span == b.span and (seat_of(one) not in there or seat_of(one) == seat_of(other)),
                   "plan %d: an ended booking sits at %s and not at %s", held.seed, seat_of(other), seat_of(one))


def try_places(found, held, line, after):
    """As many passengers in the same class on each train, from and to the same stations; those whom no line moves at
    their own seats.
    """
    ones, others = held.parts(held.old, line), held.parts(held.new, after)
    name = offers.write_booking_id(line.row)
    if not found.need(len(ones) == len(others), "plan %d: %s has other trains", held.seed, name):
        return
    for (run, (ends, _, places)), (new_run, (new_ends, span, new_places)) in zip(ones.items(), others.items()):
        found.need(ends == new_ends, "plan %d: %s goes from %s, and went from %s", held.seed, name, new_ends, ends)
        found.need([place.travel_class for place in places] == [place.travel_class for place in new_places],
                   "plan %d: %s is in another class, or not as many", held.seed, name)
        if run != new_run:
            departs = held.new.runs[new_run].stops[span.start].depart
            found.need(new_run in held.change.moved.get(run, []) and departs >= held.now,
                       "plan %d: %s moved from %d to %d", held.seed, name, run, new_run)
            continue
        for place, new_place in zip(places, new_places):
            by = held.change.replaced.get((run, place.coach))
            fine = new_place.coach in by if by else seat_of(place) == seat_of(new_place)
            found.need(fine, "plan %d: %s sat at %s, and sits at %s", held.seed, name, seat_of(place),
                       seat_of(new_place))
    try_connections(found, held, name, list(ones), list(others.items()))


def try_connections(found, held, name, runs, parts):
    """Beside a part that moved there is time for the change."""
    for at in range(len(parts) - 1):
        (run, (_, span, _)), (next_run, (_, next_span, _)) = parts[at], parts[at + 1]
        if (run, next_run) == (runs[at], runs[at + 1]) or {run, next_run} & set(held.change.closed):
            continue
        segments = [offers.Segment(run, span), offers.Segment(next_run, next_span)]
        found.need(offers.is_chain(held.new, segments), "plan %d: %s has no connection any more", held.seed, name)


def try_money(found, held):
    """Sums before are sums after, and what is owed is refunded."""
    before, after = countries.money(held.before.values()), countries.money(held.after.values())
    owed = {}
    for record in held.records:
        owed[record["retailer"]] = owed.get(record["retailer"], 0) + record["owed"]
    for retailer in set(before) | set(after) | set(owed):
        sold, refunded, exchanged = before.get(retailer, (0, 0, 0))
        wanted = (sold, refunded + owed.get(retailer, 0), exchanged)
        found.need(after.get(retailer) == wanted, "plan %d: retailer %d has %s, not %s", held.seed, retailer,
                   after.get(retailer), wanted)


def try_shut(found, held):
    """Nobody can be sold a place that is shut, and no search tells a train that is."""
    places = [place for place in held.new.places if place.run in held.change.cancelled + held.change.closed]
    for run, coach, first, last in held.change.blocked:
        places += [place for place in held.new.places if (place.run, place.coach) == (run, coach)
                   and first <= place.label <= last]
    taken = {}
    for line in held.after.values():
        for item in line.items if line.is_live() else []:
            taken.setdefault(item.place, set()).update(range(item.span.start, item.span.end))
    for place in places:
        legs = set(range(len(held.new.runs[place.run].stops) - 1))
        found.need(taken.get(place.number) == legs, "plan %d: %s can be sold", held.seed, seat_of(place))


def try_records(found, held):
    """A record says what became of a booking, and where its passengers sit now; who is moved, reseated or ended has
    one.
    """
    told = {}
    for record in held.records:
        row = offers.read_booking_id(record["booking"])
        line, after = held.before[row.number], held.after[row.number]
        parts = held.parts(held.new, after)
        told.setdefault(row.number, {})[record["run"]] = record["became"]
        ends, _, places = held.parts(held.old, line)[record["run"]]
        names = " ".join("%d/%d" % (place.coach, place.label) for place in places)
        found.need((record["from"], record["to"]) == ends and record["places"] == names
                   and record["retailer"] == line.retailer
                   and record["status"] == line.phase.value, "plan %d: a record says %s", held.seed, record)
        if record["new_run"] != "":
            new = " ".join("%d/%d" % (place.coach, place.label) for place in parts[record["new_run"]][2])
            found.need(new == record["new_places"], "plan %d: a record says %s, and it is %s", held.seed, record, new)
        found.need((record["became"] in ("refunded", "released")) == (not after.is_live()),
                   "plan %d: a record says %s of %s", held.seed, record, after)
    for number, line in held.before.items():
        after = held.after[number]
        for run, (_, _, places) in held.parts(held.old, line).items() if held.is_sold(line) else []:
            became = told.get(number, {}).get(run)
            seats = held.parts(held.new, after).get(run)
            gone = seats is None or [seat_of(place) for place in seats[2]] != [seat_of(place) for place in places]
            if gone or not after.is_live():
                found.need(became in ("moved", "reseated", "same numbers", "refunded", "released"),
                           "plan %d: row %d is told as %s", held.seed, number, became)
            elif run in held.change.cancelled:
                found.need(became == "no place", "plan %d: row %d is left on a cancelled train as %s", held.seed,
                           number, became)
                try_no_place(found, held, after, run)


def try_no_place(found, held, booking, run):
    """For whom there is no place there is none: on no train of the line enough of the class are free, in time for the
    others.
    """
    parts = list(held.parts(held.new, booking).items())
    if sum(number in held.change.cancelled for number, _ in parts) > 1 or {n for n,
                                                                           _ in parts} & set(held.change.closed):
        return
    at = [number for number, _ in parts].index(run)
    (start, end), _, places = parts[at][1]
    found.need(run not in held.change.refunded, "plan %d: %s is neither moved nor refunded", held.seed, booking.row)
    for target in held.change.moved.get(run, []):
        span = held.new.runs[target].span_between(start, end)
        if span is None or held.new.runs[target].stops[span.start].depart < held.now or target in [n for n, _ in parts]:
            continue
        trip = [offers.Segment(number, part[1]) for number, part in parts]
        trip[at] = offers.Segment(target, span)
        free = held.books.free_candidates(trip[at], places[0].travel_class, 0)
        fits = len(free) >= len(places) and offers.is_chain(held.new, trip)
        found.need(not fits, "plan %d: %s has places on run %d", held.seed, booking.row, target)


def try_comfort(found, held):
    """Who was moved or seated anew sits no farther apart, and lacks no trait, than what is free would have allowed.

    What is free in the end was free before, where nobody was ended.
    """
    if any(record["became"] in ("refunded", "released") for record in held.records):
        return 0
    told = 0
    for record in held.records:
        row = offers.read_booking_id(record["booking"])
        _, _, before = held.parts(held.old, held.before[row.number])[record["run"]]
        coaches = {place.coach for place in before}
        if record["became"] not in ("moved", "reseated") or record["became"] == "reseated" and len(coaches) > 1:
            continue
        _, span, places = held.parts(held.new, held.after[row.number])[record["new_run"]]
        free = held.books.free_candidates(offers.Segment(record["new_run"], span), places[0].travel_class, 0)
        free = sorted({held.new.places[number] for number in free} | set(places), key=lambda place: place.number)
        if record["became"] == "reseated":
            free = [place for place in free if place.coach in held.change.replaced[record["run"], before[0].coach]]
        try_closeness(found, held, record, before, places, free)
        told += len(places) > 1
    return told


def try_closeness(found, held, record, before, places, free):
    """`free` are the places that the group could have had, its own among them."""
    common = ~0
    for place in before:
        common &= place.traits
    wished = [place for place in free if place.traits & common == common]
    shape, new_shape = closeness(before), closeness(places)
    better = [closer for closer in range(shape, new_shape) if has_shape(free, len(places), closer)]
    found.need(not better, "plan %d: %s sits %d and could sit %s", held.seed, record["booking"], new_shape, better)
    lacks = any(place.traits & common != common for place in places)
    found.need(not (lacks and has_shape(wished, len(places), max(shape, new_shape))),
               "plan %d: %s lacks a trait that is free: %s", held.seed, record["booking"], record)


def closeness(places):
    """0 for neighbours in one coach, 1 for one coach, 2 else; one alone is 2."""
    seats = sorted((place.coach, place.label) for place in places)
    if len(seats) == 1:
        return 2
    if all(b == (a[0], a[1] + 1) for a, b in zip(seats, seats[1:])):
        return 0
    return 1 if len({coach for coach, _ in seats}) == 1 else 2


def has_shape(places, count, shape):
    if shape == 2:
        return len(places) >= count
    by_coach = {}
    for place in places:
        by_coach.setdefault(place.coach, []).append(place.label)
    if shape == 1:
        return any(len(labels) >= count for labels in by_coach.values())
    return any(set(range(label, label + count)) <= set(labels) for labels in by_coach.values() for label in labels)


def try_host(found, program, held, folder, rng):
    """The host begins with the result, gives it back as it is, finds no train that is shut, and sells no place of it.
    """
    said = kit.host(program, "export", folder / "new.json", "--from", folder / "new.export")
    found.need(said == (0, (folder / "new.export").read_bytes(), ""), "plan %d: the host says %s", held.seed, said[2])
    shut = held.change.cancelled + held.change.closed
    if not shut or rng.random() < 0.7:
        return 0
    hidden = [number for number in shut
              if moments.write_moment(held.new.runs[number].stops[0].depart)[:10] in (CANCELLED, CLOSED)]
    asked = []
    for number in shut:
        codes = [stop.station for stop in held.new.runs[number].stops]
        wish = {"adults": 1, "origin": codes[0], "destination": codes[-1], "earliest": moments.write_moment(held.now)}
        asked += [kit.request("POST", "/offers", "north", dict(wish, **{"class": kind}))
                  for kind in ("FIRST", "SECOND")]
        asked += [kit.request("POST", "/reservations", "north",
                              {"run": number, "class": kind, "from": codes[0], "to": codes[1]})
                  for kind in ("FIRST", "SECOND")]
    status, text, _ = kit.host(program, "replay", folder / "new.json", "--from", folder / "new.export",
                               "--start", moments.write_moment(held.now), data=b"".join(asked))
    for number, body in kit.answers(text):
        offered = {segment["run"] for offer in body.get("offers", []) for segment in offer["segments"]}
        found.need(number in (200, 409) and not offered & set(hidden), "plan %d: the host answers %d %s", held.seed,
                   number, body)
        found.need(number == 200 or body["code"] == "NoPlace", "plan %d: the host answers %s", held.seed, body)
    found.need(status == 0, "plan %d: the host ends with %d", held.seed, status)
    return 1


# One plan


def read_all(data, text):
    import rail_texts
    catalogue = rail_texts.read_catalogue(data)
    return catalogue, rail_texts.read_export(catalogue, text)


def amended(tool, old, bookings, new, plan, now):
    import amend_plan
    import rail_texts
    kept, records, without = tool.amended(old, new, bookings, amend_plan.read_plan(plan.encode()), now)
    return None if without else rail_texts.write_export(new.places, new.rows, kept).encode(), records, without


def try_seed(found, program, seed, counts):
    import rail_texts
    rng, tool = random.Random(seed), kit.tool("amend")
    data, seller, now = countries.sold_country(rng)
    if rng.random() < 0.3:
        countries.with_blocks(rng, seller)
    change = change_of(rng, json.loads(data))
    plan, changed = change.plan(), json.dumps(change.tree).encode()
    try:
        model = read_catalogue(changed)
    except CatalogueFault:
        return
    old, bookings = read_all(data, seller.export())
    new = rail_texts.read_catalogue(changed)
    try:
        text, records, without = amended(tool, old, bookings, new, plan, now)
    except tool.CantBe as reasons:
        found.need("too few rows" in reasons.args[0], "plan %d: %s", seed, reasons)
        counts["no rows"] = counts.get("no rows", 0) + 1
        return
    if without:
        counts["without"] = counts.get("without", 0) + 1
        found.need(all(group.part.run.number not in change.refunded for group in without), "plan %d: not refunded",
                   seed)
        return
    held = Held(seed, change, seller, model, export.read_export(model, text), records, now)
    try_result(found, program, held, counts, (data, changed, text, plan))
    again, records, _ = amended(tool, new, rail_texts.read_export(new, text), new, plan, now)
    found.need(again == text, "plan %d: a second time it changes something", seed)
    found.need(not sum(record[-1] for record in records), "plan %d: a second time it owes something", seed)


def try_result(found, program, held, counts, texts):
    """What holds of the result by the rules, and that the host takes it. Counts what was met."""
    data, changed, text, plan = texts
    for check in (try_lines, try_money, try_shut, try_records):
        check(found, held)
    counts["groups"] = counts.get("groups", 0) + try_comfort(found, held)
    with tempfile.TemporaryDirectory() as name:
        folder = pathlib.Path(name)
        (folder / "new.json").write_bytes(changed)
        (folder / "new.export").write_bytes(text)
        counts["searched"] = counts.get("searched", 0) + try_host(found, program, held, folder,
                                                                  random.Random(held.seed))
        if held.seed % 50 == 0:
            try_files(found, held, folder, (data, plan, text))
    for record in held.records:
        counts[record["became"]] = counts.get(record["became"], 0) + 1


def try_files(found, held, folder, texts):
    data, plan, text = texts
    for name, content in (("old.json", data), ("old.export", held.sold), ("plan", plan.encode())):
        (folder / name).write_bytes(content)
    files = [folder / name for name in ("old.json", "new.json", "old.export", "plan")]
    status, said, notes = kit.run_tool("amend", *files, "--now", moments.write_moment(held.now), "--affected",
                                       folder / "affected.csv")
    found.need(status == 0 and said.encode() == text, "plan %d by files: status %d, %s", held.seed, status, notes)
    with open(folder / "affected.csv", newline="") as file:
        found.need(next(csv.reader(file)) == kit.tool("amend").COLUMNS, "plan %d: affected.csv has other columns",
                   held.seed)


def faults(program):
    found, counts = kit.Faults(), {}
    for seed in range(SEEDS):
        try_seed(found, program, seed, counts)
    for what, least in (("moved", 100), ("reseated", 40), ("same numbers", 40), ("refunded", 100), ("released", 10),
                        ("no place", 40),
                        ("stays", 100), ("without", 5), ("searched", 30), ("connection lost", 1), ("groups", 40)):
        found.need(counts.get(what, 0) >= least, "of %d plans only %d came to %s", SEEDS, counts.get(what, 0), what)
    found.need(counts.get("without", 0) + counts.get("no rows", 0) < SEEDS // 4, "too many plans without a result: %s",
               counts)
    return found

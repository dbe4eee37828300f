"""tools/rail_texts.py beside the model of the host: moments, catalogues and exports of chance, right and wrong ones."""
import random

import kit
import rail_texts

import catalogue
import export
import moments
import random_exports
import random_requests
from random_catalogues import catalogue_bytes, faulty_catalogue_bytes, random_catalogue, random_start, random_tick
from random_texts import BROKEN, WHOLE_BUT_ODD, changed_text, moment_text, wrong_moment_text


def wanted_moment(text):
    moment = moments.read_moment(text)
    return None if isinstance(moment, moments.MomentFault) else moment


def try_moments(found, count):
    read = 0
    for seed, rng in kit.seeds(count):
        moment = random_start(rng)
        text = moment_text(rng, moment, False) if seed % 2 else wrong_moment_text(rng, moment)
        for tried in (text, changed_text(rng, text)):
            said, wanted = rail_texts.read_moment(tried), wanted_moment(tried)
            read += wanted is not None
            found.need((said and said.seconds) == wanted, "the moment %r is read as %s, and is %s", tried, said, wanted)
    found.need(read > count // 2, "only %d moments were right", read)


def first_fault(read, *words):
    """The note of the first fault, or None where it is taken."""
    try:
        read(*words)
    except rail_texts.Refusal as refusal:
        return refusal.lines[0].split(",")[0].split(":")[0].split(" at row ")[0].split(" at line ")[0]
    return None


def model_fault(read, *words):
    try:
        read(*words)
    except (catalogue.CatalogueFault, export.ExportFault) as fault:
        return fault.note()
    return None


def try_catalogues(found, count):
    wrong = 0
    for seed, rng in kit.seeds(count):
        made = random_catalogue(rng, random_start(rng), random_tick(rng))
        data = (faulty_catalogue_bytes if seed % 4 else catalogue_bytes)(rng, made)
        said, wanted = first_fault(rail_texts.read_catalogue, data), model_fault(catalogue.read_catalogue, data)
        wrong += wanted is not None
        if found.need(said == wanted, "catalogue %d: %s, the model says %s", seed, said, wanted) and not wanted:
            try_contents(found, seed, rail_texts.read_catalogue(data), catalogue.read_catalogue(data))
    found.need(count // 3 < wrong < count, "%d of %d catalogues were wrong", wrong, count)
    for text in BROKEN + WHOLE_BUT_ODD:
        data = ('{"currency":%s}' % text).encode("utf-8", "surrogatepass")
        said, wanted = first_fault(rail_texts.read_catalogue, data), model_fault(catalogue.read_catalogue, data)
        found.need(said == wanted, "a catalogue with %r: %s, the model says %s", text, said, wanted)


def try_contents(found, seed, said, wanted):
    places = [(run.number, seat.coach, seat.number, seat.kind,
               sum(1 << rail_texts.TRAITS.index(t) for t in seat.traits))
              for run in said.runs for seat in run.seats]
    found.need(places == [(p.run, p.coach, p.label, p.travel_class.value, p.traits) for p in wanted.places],
               "catalogue %d: other places", seed)
    stops = [[(s.station, s.arrive.seconds, s.depart.seconds) for s in run.stops] for run in said.runs]
    found.need(stops == [[(s.station, s.arrive, s.depart) for s in run.stops] for run in wanted.runs],
               "catalogue %d: other stops", seed)
    found.need(all(said.run_of(p.number).number == p.run for p in wanted.places), "catalogue %d: places of other runs",
               seed)
    terms = ([tuple(step) for step in said.steps], said.ticket_fee, said.exchange_fee, said.confirm_seconds, said.rows)
    found.need(terms == ([(s.before, s.fee) for s in wanted.terms.steps], wanted.terms.ticket_fee,
                         wanted.terms.exchange_fee,
                         wanted.terms.confirm_seconds, wanted.rows), "catalogue %d: other terms", seed)
    again = rail_texts.read_catalogue(rail_texts.write_catalogue(said.tree).encode())
    found.need(again.tree == said.tree and again.places == said.places, "catalogue %d: written otherwise", seed)


def try_exports(found, count):
    right = bookings = 0
    for seed, rng in kit.seeds(count):
        start, tick = random_start(rng), random_tick(rng)
        data = catalogue_bytes(rng, random_catalogue(rng, start, tick))
        model, said = catalogue.read_catalogue(data), rail_texts.read_catalogue(data)
        pieces = random_requests.random_pieces(rng, model, start, tick)
        text, _ = random_exports.export_of(model, b"".join(pieces), start, tick)
        for tried in [text] + [random_exports.changed_export(rng, text) for _ in range(3)]:
            mine, wanted = first_fault(rail_texts.read_export, said, tried), model_fault(export.read_export, model,
                                                                                         tried)
            found.need(mine == wanted, "export %d: %s, the model says %s: %r", seed, mine, wanted, tried)
            if mine is None:
                read = rail_texts.read_export(said, tried)
                right, bookings = right + 1, bookings + len(read)
                written = rail_texts.write_export(said.places, said.rows, random.Random(seed).sample(read, len(read)))
                found.need(written.encode() == tried, "export %d is written otherwise", seed)
                found.need(all(tuple(rail_texts.items_of(rail_texts.rides_of(b.items))) == b.items for b in read),
                           "export %d: items that are no rides", seed)
    found.need(right > count and bookings > count, "only %d exports were right, with %d bookings", right, bookings)


WORKED = """rail-export 1 18 65536
row 0 0 x 1 1780294500 2200 1 0.0.2 m550 1780293600 2.0
row 1 0 P 1 1780294500 3600 6 12.0.1 13.0.1 14.0.1 15.0.1 16.0.1 17.0.1
row 2 0 C 1 1780294500 800 1 4.1.2
end 3
"""
# What is changed in the worked export, and what it is refused for.
EDITS = [
    ("", "", None),
    (" 2.0\n", " 0.0\n", "export fault 5 at row 0: it was exchanged for a booking of its own row"),
    (" 4.1.2\n", " 12.0.1\n", "export fault 4: two live bookings overlap at place 12"),
    ("end 3\n", "", "export fault 1 at line 5: this is no export, or it was cut off or changed by hand"),
    ("end 3\n", "end 3", "export fault 1 at line 5: this is no export, or it was cut off or changed by hand"),
    ("end 3\n", "end 3\n\n", "export fault 1 at line 6: this is no export, or it was cut off or changed by hand"),
    ("end 3", "end 4", "export fault 1 at line 5: this is no export, or it was cut off or changed by hand"),
    (" 65536\n", " 65535\n", "export fault 2: it is of 18 places and 65535 rows, and the catalogue has 18 and 65536"),
    ("m550", "m0", "export fault 1 at line 2: this is no export, or it was cut off or changed by hand"),
    ("row 1 0", "row 0 0", "export fault 1 at line 3: this is no export, or it was cut off or changed by hand"),
    (" 4.1.2\n", " 4.1.3\n", "export fault 3 at row 2: its numbers can't be"),
]


def try_worked(found):
    """The worked export of the definitions with one text changed, and items on both sides of the border between the
    halves of a place.
    """
    catalogue = rail_texts.named(kit.ROOT / "examples" / "k1.json", rail_texts.read_catalogue)
    for old, new, wanted in EDITS:
        found.need(said_of(catalogue, WORKED.replace(old, new, 1)) == wanted, "%r for %r: %s", new, old,
                   said_of(catalogue, WORKED.replace(old, new, 1)))
    tree = kit.json.loads((kit.ROOT / "examples" / "k1.json").read_text())
    tree["stations"] = [{"code": "S%d" % at} for at in range(127)]
    del tree["runs"][1]
    tree["runs"][0]["stops"] = [{"station": "S%d" % at, "arrive": kit.moment(60 * at), "depart": kit.moment(60 * at)}
                                for at in range(127)]
    catalogue = rail_texts.read_catalogue(kit.json.dumps(tree).encode())
    for items, wanted in (("1 0.0.63", None), ("1 0.63.126", None), ("2 0.0.63 0.63.126", None),
                          ("1 0.62.64", "export fault 3 at row 0: its numbers can't be")):
        said = said_of(catalogue, "rail-export 1 12 65536\nrow 0 0 C 1 5 5 %s\nend 1\n" % items)
        found.need(said == wanted, "the items %s: %s", items, said)


def said_of(catalogue, text):
    try:
        rail_texts.read_export(catalogue, text.encode())
    except rail_texts.Refusal as refusal:
        return refusal.lines[0]
    return None


def faults(_program):
    found = kit.Faults()
    try_worked(found)
    try_moments(found, 4_000)
    try_catalogues(found, 500)
    try_exports(found, 150)
    return found

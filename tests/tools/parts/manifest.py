"""tools/manifest on countries of chance: who sits where against the host's list of places for every stretch, and the
page's counts against the rules.
"""
import csv
import io
import json
import pathlib
import re
import tempfile

import countries
import kit
from bookings import reservations
from offers import write_booking_id
from export import write_export


def wanted_lines(seller, run):
    """Who sits where on the run by the model's bookings, as the fields of a line."""
    lines, codes = [], [stop.station for stop in run.stops]
    for booking in seller.books.bookings:
        for item in reservations(booking.items) if booking.is_live() else []:
            place = seller.catalogue.places[item.place]
            if place.run == run.number:
                who = ["", "", "BLOCKED"] if booking.retailer == 0 else [write_booking_id(booking.row),
                                                                         str(booking.retailer),
                                                                         booking.phase.value]
                traits = " ".join(trait for number, trait in enumerate(countries.TRAITS) if place.traits >> number & 1)
                lines.append((item.place, item.span.start,
                              [str(place.coach), str(place.label), place.travel_class.value, traits,
                                                            codes[item.span.start], codes[item.span.end]] + who))
    return [fields for _, _, fields in sorted(lines)]


def stretches_of(run, most):
    codes = [stop.station for stop in run.stops]
    pairs = [(a, b) for a in range(len(codes)) for b in range(a + 1, len(codes))]
    return [(codes[a], codes[b]) for a, b in (pairs if len(pairs) <= most else pairs[:most] + pairs[-most:])]


def free_by_lines(run, seats, lines, origin, destination):
    """Whether each seat is free from the one station to the other, by the lines of the manifest."""
    codes = [stop.station for stop in run.stops]
    start, end, taken = codes.index(origin), codes.index(destination), set()
    for line in lines:
        if codes.index(line[4]) < end and start < codes.index(line[5]):
            taken.add((int(line[0]), int(line[1])))
    return [seat not in taken for seat in seats]


def blocks_of_page(page):
    """The tables of the page, by the line above each."""
    return {block.split("\n")[0]: block.split("\n")[1:] for block in page.strip("\n").split("\n\n")}


def try_page(found, seed, run, page, lines, lists):
    """The counts of the page against the host's lists and the lines."""
    codes, tables = [stop.station for stop in run.stops], blocks_of_page(page)
    last, riders = codes[-1], [line for line in lines if line[8] != "BLOCKED"]
    for at, row in enumerate(tables["Stops, and places free from there to the end"][1:]):
        numbers = [int(word) for word in re.findall(r"(?<![:\w])\d+(?![:\w])", row)]
        wanted = [sum(line[4] == codes[at] for line in riders), sum(line[5] == codes[at] for line in riders),
                  sum(codes.index(line[4]) <= at < codes.index(line[5]) for line in riders)]
        if at < len(codes) - 1 and (codes[at], last) in lists:
            free = lists[codes[at], last]
            wanted += [sum(place["class"] == kind and place["free"] for place in free) for kind in ("FIRST", "SECOND")]
            found.need(numbers == wanted, "manifest %d: %s at %s, not %s", seed, numbers, codes[at], wanted)
    for at, row in enumerate(tables["Load by leg"][1:]):
        if (codes[at], codes[at + 1]) in lists:
            wanted = []
            for kind in ("FIRST", "SECOND"):
                here = [line for line in lines if line[2] == kind and codes.index(line[4]) <= at < codes.index(line[5])]
                blocked = sum(line[8] == "BLOCKED" for line in here)
                free = sum(place["class"] == kind and place["free"] for place in lists[codes[at], codes[at + 1]])
                wanted += [len(here) - blocked, blocked, free]
            numbers = [int(word) for word in row.split()[3:]]
            found.need(numbers == wanted, "manifest %d: load %s, not %s", seed, numbers, wanted)
    for row in tables["Totals"][1:]:
        kind, *numbers = row.split()
        mine = [line for line in riders if line[2] == kind]
        wanted = [len({line[6] for line in mine}), len(mine)]
        wanted += [sum(line[8] == state for line in mine) for state in ("PREBOOKED", "CONFIRMED", "FULFILLED")]
        found.need([int(number) for number in numbers[1:]] == wanted, "manifest %d: totals %s, not %s", seed, row,
                   wanted)
    told = [row.split() for name, rows in tables.items() if name.startswith("Coach ") for row in rows[1:]]
    wanted = sorted([line[1], line[2], line[4], line[5]] + [line[6]] * (line[6] != "") + [line[8]] for line in lines)
    found.need(sorted(told) == wanted, "manifest %d: the page's coaches say %s", seed, sorted(told))


def try_run(found, program, seed, folder, seller, run, most):
    tool, (catalogue, bookings) = kit.tool("manifest"), read(folder)
    mine = catalogue.runs[run.number]
    sittings = tool.sittings_of(mine, bookings)
    lines = list(csv.reader(io.StringIO(tool.csv_text(mine, sittings))))
    found.need(lines[0] == tool.COLUMNS and lines[1:] == wanted_lines(seller, run), "manifest %d: lines %s", seed,
               lines)
    stretches = stretches_of(run, most)
    asked = b"".join(kit.request("GET", "/runs/%d/places/%s/%s" % (run.number, a, b), "north") for a, b in stretches)
    status, said, notes = kit.host(program, "replay", folder / "k.json", "--from", folder / "k.export", data=asked)
    found.need(status == 0, "manifest %d: the host ends with %d: %s", seed, status, notes)
    lists = dict(zip(stretches, (body["places"] for _, body in kit.answers(said))))
    for (origin, destination), places in lists.items():
        seats = [(place["coach"], place["place"]) for place in places]
        free = free_by_lines(run, seats, lines[1:], origin, destination)
        found.need(free == [place["free"] for place in places], "manifest %d: run %d from %s to %s", seed, run.number,
                   origin, destination)
    try_page(found, seed, run, tool.page_text(mine, sittings), lines[1:], lists)
    return len(lists), len(lines) - 1


def read(folder):
    import rail_texts
    catalogue = rail_texts.named(folder / "k.json", rail_texts.read_catalogue)
    return catalogue, rail_texts.named(folder / "k.export", rail_texts.read_export, catalogue)


def faults(program):
    found, stretches, sat, longs = kit.Faults(), 0, 0, 0
    for seed, rng in kit.seeds(40):
        data, seller, _ = countries.sold_country(rng)
        countries.with_blocks(rng, seller)
        with tempfile.TemporaryDirectory() as name:
            folder = pathlib.Path(name)
            (folder / "k.json").write_bytes(data)
            (folder / "k.export").write_bytes(write_export(seller.books))
            for run in seller.catalogue.runs:
                is_long, most = len(run.stops) > 64, 30
                if is_long and longs == 0:
                    most, longs = 10_000, 1
                counts = try_run(found, program, seed, folder, seller, run, most)
                stretches, sat = stretches + counts[0], sat + counts[1]
            if seed == 0:
                try_words(found, folder)
    found.need(longs == 1, "no run over the border was tried on all its stretches")
    found.need(stretches > 1_000 and sat > 1_000, "%d stretches with %d places taken", stretches, sat)
    return found


def try_words(found, folder):
    good, csv_of = (folder / "k.json", folder / "k.export"), json.loads((folder / "k.json").read_text())["runs"]
    for words, wanted, note in [((*good, "--run", 0), 0, ""), ((*good, "--run", 0, "--csv"), 0, ""), (good, 2, "--run"),
                                ((*good, "--run", len(csv_of)), 3, "there is no run"),
                                ((*good, "--run", -1), 3, "there is no run"),
                                ((good[0], good[0], "--run", 0), 3, "export fault 1"), (("--help",), 0, "")]:
        status, said, notes = kit.run_tool("manifest", *words)
        found.need(status == wanted and note in notes and bool(said) == (wanted == 0), "manifest %s: %d %s", words,
                   status, notes)

"""tools/same-seats on pairs of catalogues of chance: which places are told, and what the host says of an export of the
one with the other.
"""
import copy
import json
import pathlib
import re
import tempfile

import countries
import kit
import moments
from catalogue import CatalogueFault, read_catalogue
from export import write_export


def shifted(run, seconds):
    for stop in run["stops"]:
        for part in ("arrive", "depart"):
            if part in stop:
                stop[part] = moments.write_moment(moments.read_moment(stop[part]) + seconds)


def swap_runs(rng, tree):
    a, b = rng.sample(range(len(tree["runs"])), 2)
    tree["runs"][a], tree["runs"][b] = tree["runs"][b], tree["runs"][a]


def swap_coaches(rng, tree):
    rng.shuffle(rng.choice(tree["runs"])["coaches"])


def swap_groups(rng, tree):
    rng.shuffle(rng.choice(rng.choice(tree["runs"])["coaches"])["places"])


def move_seats(rng, tree):
    coach = rng.choice(rng.choice(tree["runs"])["coaches"])
    coach["places"][-1]["first"] += 1
    coach["places"][-1]["last"] += 1


def another_coach(rng, tree):
    rng.choice(rng.choice(tree["runs"])["coaches"])["coach"] = rng.randint(20, 30)


def another_class(rng, tree):
    coach = rng.choice(rng.choice(tree["runs"])["coaches"])
    coach["class"] = "FIRST" if coach["class"] == "SECOND" else "SECOND"


def other_traits(rng, tree):
    rng.choice(rng.choice(rng.choice(tree["runs"])["coaches"])["places"])["traits"] = rng.sample(countries.TRAITS, 2)


def another_day(rng, tree):
    shifted(rng.choice(tree["runs"]), countries.DAY)


def a_train_renamed(rng, tree):
    run = rng.choice(tree["runs"])
    run["train"] = run["train"] % 99_999 + 1


def another_way(rng, tree):
    run = rng.choice(tree["runs"])
    codes = [stop["station"] for stop in run["stops"]][::-1]
    for stop, code in zip(run["stops"], codes):
        stop["station"] = code


def a_run_in_two(_rng, tree):
    """The last coach runs as a train of its own, under the same number and at the same times."""
    at, run = next(((at, run) for at, run in enumerate(tree["runs"]) if len(run["coaches"]) > 1), (0, tree["runs"][0]))
    coaches = run["coaches"]
    run["coaches"] = coaches[:1]
    tree["runs"].insert(at + 1, dict(copy.deepcopy(run), coaches=coaches[1:] or coaches))


def one_run_more(_rng, tree):
    tree["runs"].append(copy.deepcopy(tree["runs"][0]))


def fewer_rows(_rng, tree):
    tree["rows"] -= 1


def what_may_change(rng, tree):
    """Fares, fees, keys, times of the day, and a place group written in two."""
    for run in tree["runs"]:
        run["fares"]["second"]["base"] += 7
        shifted(run, 60 * rng.randint(0, 5))
    tree["retailers"][0]["key"] = "another"
    tree["ticketFee"] += 1
    tree["refundSteps"] = [{"before": 0, "fee": 1}]
    coach = rng.choice(rng.choice(tree["runs"])["coaches"])
    group = coach["places"][0]
    if group["first"] < group["last"]:
        coach["places"][:1] = [dict(group, last=group["first"]), dict(group, first=group["first"] + 1)]


CHANGES = [swap_runs, swap_coaches, swap_groups, move_seats, another_coach, another_class, other_traits, another_day,
           a_train_renamed, another_way, a_run_in_two, one_run_more, fewer_rows]


def seats_of(catalogue):
    """What each place number means."""
    return [(place.run, catalogue.runs[place.run].train,
             moments.write_moment(catalogue.runs[place.run].stops[0].depart)[:10],
             [stop.station for stop in catalogue.runs[place.run].stops],
             place.coach, place.label, place.travel_class, place.traits) for place in catalogue.places]


def wanted_lines(old, new):
    """The numbers of the places that differ, and whether a count does."""
    ones, others = seats_of(old), seats_of(new)
    ones += [None] * (len(others) - len(ones))
    others += [None] * (len(ones) - len(others))
    differ = {number for number, (one, other) in enumerate(zip(ones, others)) if one != other}
    return differ, len(old.places) != len(new.places) or old.rows != new.rows


def faults(program):
    found, same, host_takes = kit.Faults(), 0, 0
    tool = kit.tool("same-seats")
    import rail_texts
    for seed, rng in kit.seeds(240):
        by_files = seed % 8 == 0
        if by_files:
            data, seller, _ = countries.sold_country(rng)
        else:
            data = json.dumps(countries.country(rng)).encode()
        tree = json.loads(data)
        what_may_change(rng, tree)
        for change in rng.sample(CHANGES, rng.choice([0, 1, 1, 2])):
            change(rng, tree)
        changed = json.dumps(tree).encode()
        try:
            new = read_catalogue(changed)
        except CatalogueFault:
            continue
        differ, counts = wanted_lines(read_catalogue(data), new)
        lines = list(tool.seat_lines(rail_texts.read_catalogue(data), rail_texts.read_catalogue(changed)))
        told = {int(re.match(r"place (\d+): ", line).group(1)) for line in lines if line.startswith("place ")}
        found.need(told == differ, "pair %d: told %s, and %s differ", seed, sorted(told ^ differ), len(differ))
        found.need((len(lines) > len(told)) == counts, "pair %d: counts differ %s: %s", seed, counts, lines[:2])
        same += not lines
        if by_files:
            host_takes += try_files(found, program, seed, data, changed, seller, lines)
    found.need(20 < same < 200, "%d pairs had the same seats", same)
    found.need(host_takes > 3, "the host was asked of %d pairs with the same seats", host_takes)
    try_words(found)
    return found


def try_files(found, program, seed, data, changed, seller, lines):
    """By files: the status, and where the seats are the same the host begins with the export."""
    with tempfile.TemporaryDirectory() as name:
        folder = pathlib.Path(name)
        for file, text in (("old", data), ("new", changed), ("export", write_export(seller.books))):
            (folder / file).write_bytes(text)
        status, said, notes = kit.run_tool("same-seats", folder / "old", folder / "new")
        found.need(status == (1 if lines else 0) and not notes, "pair %d: status %d, %s", seed, status, notes)
        found.need("north" not in said and "changed: retailer 1: another key\n" in said, "pair %d: keys: %s", seed,
                   said)
        if lines:
            return 0
        taken = kit.host(program, "replay", folder / "new", "--from", folder / "export")
        found.need(taken == (0, b"", ""), "pair %d: the host says %s", seed, taken)
        return 1


def try_words(found):
    k1 = kit.ROOT / "examples" / "k1.json"
    for words, wanted, note in [((k1, k1), 0, ""), ((k1,), 2, "required"), ((k1, "/nowhere"), 3, "no such file"),
                                ((kit.ROOT / "README.md", k1), 3, "catalogue fault 1"), (("--help",), 0, "")]:
        status, said, notes = kit.run_tool("same-seats", *words)
        found.need(status == wanted and note in notes, "same-seats %s: status %d, %s%s", words, status, said, notes)

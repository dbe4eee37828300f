"""Which places a group gets, by tools/seating.py: closeness before traits, and class before both. The values come from
the page's rule.
"""
import json

import kit
import rail_texts
import seating

COACHES = [
    {"coach": 1, "class": "SECOND", "places": [{"first": 1, "last": 3, "traits": ["WINDOW"]}, {"first": 4, "last": 6}]},
    {"coach": 2, "class": "SECOND",
     "places": [{"first": 11, "last": 12, "traits": ["WINDOW"]}, {"first": 13, "last": 16}]},
    {"coach": 3, "class": "FIRST", "places": [{"first": 1, "last": 2, "traits": ["WINDOW"]}]},
]
# Where the group sat in a train like this one, what is taken in this one, the coaches that count, and the places that
# it gets.
CASES = [
    ("one by a window", "1/1", "1/1", None, "1/2"),
    ("one in first class", "3/2", "", None, "3/1"),
    ("neighbours by windows", "1/1 1/2", "", None, "1/1 1/2"),
    ("neighbours by windows in another coach", "1/1 1/2", "1/2", None, "2/11 2/12"),
    ("neighbours, of whom one lacks the window", "1/1 1/2", "1/2 2/11", None, "1/3 1/4"),
    ("neighbours without a wish", "1/4 1/5", "1/1", None, "1/2 1/3"),
    ("neighbours for whom there is one coach, and no stretch", "1/1 1/2", "1/2 1/4 1/6 2/11 2/13 2/15", None,
     "1/1 1/3"),
    ("neighbours who have to part", "1/1 1/2", "1/2 1/3 1/4 1/5 1/6 2/12 2/13 2/14 2/15 2/16", None, "1/1 2/11"),
    ("two of one coach stay in one by windows", "1/1 1/3", "1/2 1/3", None, "2/11 2/12"),
    ("two who sat apart keep their windows rather than sit together", "1/1 2/11", "1/1 1/2 2/12", None, "1/3 2/11"),
    ("three of one coach, of whom one lacks the window", "1/1 1/2 1/3", "1/2 1/5", None, "2/11 2/12 2/13"),
    ("three of one coach apart, of whom one lacks the window", "1/1 1/3 1/2", "1/2 1/5 2/12 2/14", None, "1/1 1/3 1/4"),
    ("four who sat apart get all windows", "1/1 1/3 2/11 2/12", "1/2", None, "1/1 1/3 2/11 2/12"),
    ("in the coach that counts", "1/1 1/2", "", {2}, "2/11 2/12"),
    ("too few in the coach that counts", "1/1 1/2", "2/11 2/12 2/13 2/14 2/15", {2}, None),
    ("too few of the class", "3/1 3/2", "3/1", None, None),
]


def run_of_cases():
    tree = json.loads((kit.ROOT / "examples" / "k1.json").read_text())
    tree["runs"][0]["coaches"] = COACHES
    return rail_texts.read_catalogue(json.dumps(tree).encode()).runs[0]


def faults(_program):
    found, run = kit.Faults(), run_of_cases()

    def places(text):
        return [run.place_of(*map(int, name.split("/"))) for name in text.split()]

    for what, sat, taken, coaches, wanted in CASES:
        legs = seating.Taken()
        legs.take([(place, 0, 2) for place in places(taken)])
        got = seating.places_for(run, coaches, [run.seat(place) for place in places(sat)], (1, 2), legs)
        found.need(got == (None if wanted is None else places(wanted)), "%s: %s", what, got
                   and [run.seat(p).name() for p in got])
    legs = seating.Taken()
    legs.take([(place, 0, 1) for place in run.places()])
    free = seating.places_for(run, None, [run.seat(0)], (1, 2), legs)
    found.need(free == [0], "places that are taken on another leg alone: %s", free)
    found.need(legs.free_stretches(0, 2) == [(1, 2)] and seating.Taken().free_stretches(0, 2) == [(0, 2)],
               "free stretches")
    return found

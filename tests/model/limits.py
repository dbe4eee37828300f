"""Runs of the program at its limits and one step past them, the same at each comparison."""
import random

from catalogue import read_catalogue
from generate import Case
from moments import write_moment
from random_catalogues import catalogue_bytes, random_catalogue, random_start
from random_texts import json_text
from words import Device


def limit_cases() -> list:
    """Each limit of the wire, of the devices and of a catalogue, met and passed by one."""
    rng = random.Random(1)
    start = random_start(rng)
    good = catalogue_bytes(rng, random_catalogue(rng, start, 1))
    key = next(iter(read_catalogue(good).retailers)).encode("ascii")
    sweep = b"POST /sweeps HTTP/1.1\r\nRetailer-Key: %s\r\n\r\n" % key
    replay = [b"replay", b"k.json"]
    reservation = b"POST /reservations HTTP/1.1\r\nContent-Length: 17\r\n\r\n{\"from\":%d,\"to\":%d}"
    rows = [reservation % (number % 9, number % 9 + 1) for number in range(1_030)]
    large = b"POST /sweeps HTTP/1.1\r\nRetailer-Key: " + key + b"\r\nContent-Length: %d\r\n\r\n"
    padding = b" " * (33_554_432 - len(good))
    plain = b"POST /sweeps HTTP/1.1\r\nRetailer-Key: " + key + b"\r\n"
    heads = [
        Case("a head of %d bytes" % size, replay, {"k.json": good},
             [plain + b"a: " + b"b" * (size - len(plain) - 7) + b"\r\n\r\n", sweep]) for size in (16_384, 16_385)
    ] + [
        Case("a head of %d lines" % count, replay, {"k.json": good}, [plain + b"a: b\n" * (count - 1) + b"\n", sweep])
        for count in (64, 65)
    ]
    return heads + limit_catalogues() + refused_exports(rng, start, sweep) + [
        Case("rows of the small host", [b"tiny", b"9", b"1200"], {}, rows),
        Case("the last request that a connection may have", [b"tiny", b"1", b"1"], {}, [b"GET / HTTP/1.1\n\n" * 65_537]),
        Case("a catalogue of the largest size", replay, {"k.json": good + padding}, [sweep]),
        Case("a catalogue that is one byte larger", replay, {"k.json": good + padding + b" "}, [sweep]),
        Case("the largest body", replay, {"k.json": good}, [large % 262_144 + b"x" * 262_144, sweep]),
        Case("a body that is one byte larger", replay, {"k.json": good}, [large % 262_145 + b"x" * 262_145, sweep]),
        Case("a catalogue that isn't there", [b"replay", b"nothere.json"], {}, [sweep]),
        Case("a source that fails", replay, {"k.json": good}, [], Device.SOURCE),
        Case("a sink that fails", replay, {"k.json": good}, [sweep, sweep], Device.SINK),
        Case("a sink that nobody needs", replay, {"k.json": good}, [], Device.SINK),
        Case("a source that fails, of the small host", [b"tiny", b"3", b"2"], {}, [], Device.SOURCE),
        Case("a sink that fails, of the small host", [b"tiny", b"3", b"2"], {}, rows[:1], Device.SINK),
        Case("the most runs", replay, {"k.json": many_runs(4_096)}, [b"GET /runs/4095/places/A/B HTTP/1.1\nRetailer-Key:a\n\n"]),
        Case("one run more", replay, {"k.json": many_runs(4_097)}, [sweep]),
    ]


def limit_catalogues() -> list:
    """Lists of the greatest length, and with one item more. The first run is asked for from its first to its last stop."""
    cases = []
    for count in (64, 65):
        steps = [{"before": count - 1 - index, "fee": index} for index in range(count)]
        cases.append(("%d refund steps" % count, simple_catalogue(2, 1, steps)))
    for count in (63, 64, 65, 127, 128):
        cases.append(("%d stops" % count, simple_catalogue(count, 1, steps[-1:])))
    for count in (1_200, 1_201):
        cases.append(("%d places" % count, simple_catalogue(2, count, steps[-1:])))
    for count in (262_144, 262_145):
        cases.append(("%d rows" % count, dict(simple_catalogue(2, 1, steps[-1:]), rows=count)))
    for count in (65_536, 65_537):
        stations = [{"code": "S%d" % index} for index in range(count)]
        cases.append(("%d stations" % count, dict(simple_catalogue(2, 1, steps[-1:]), stations=stations)))
    retailers = [{"number": 1, "key": "north"}] * 65_537
    cases.append(("65537 retailers", dict(simple_catalogue(2, 1, steps[-1:]), retailers=retailers)))
    words = [b"replay", b"k.json"]
    return [Case(name, words, {"k.json": json_text(random.Random(0), catalogue, True).encode("ascii")}, places_asked(catalogue))
            for name, catalogue in cases]


def places_asked(catalogue: dict) -> list:
    """The places of the first run, on its first leg and on all of them."""
    last = len(catalogue["runs"][0]["stops"]) - 1
    return [b"GET /runs/0/places/S0/S%d HTTP/1.1\r\nRetailer-Key: north\r\n\r\n" % end for end in (1, last)]


def simple_catalogue(stops: int, places: int, steps: list) -> dict:
    fare = {"base": 500, "perLeg": 300}
    timed = [{"station": "S%d" % index, "arrive": write_moment(60 * index), "depart": write_moment(60 * index)} for index in range(stops)]
    coach = {"coach": 1, "class": "SECOND", "places": [{"first": 1, "last": places}]}
    return {"currency": "EUR", "retailers": [{"number": 1, "key": "north"}], "stations": [{"code": stop["station"]} for stop in timed],
            "refundSteps": steps,
            "runs": [{"train": 1, "stops": timed, "fares": {"first": fare, "second": fare}, "coaches": [coach]}]}


def many_runs(count: int) -> bytes:
    """A catalogue of so many equal runs with one place each."""
    run = (b"{\"train\":1,\"stops\":[{\"station\":\"A\",\"depart\":\"2026-06-01T08:00:00Z\"},"
           b"{\"station\":\"B\",\"arrive\":\"2026-06-01T09:00:00Z\"}],"
           b"\"fares\":{\"first\":{\"base\":0,\"perLeg\":0},\"second\":{\"base\":0,\"perLeg\":0}},"
           b"\"coaches\":[{\"coach\":1,\"class\":\"FIRST\",\"places\":[{\"first\":1,\"last\":1}]}]}")
    return (b"{\"currency\":\"EUR\",\"retailers\":[{\"number\":1,\"key\":\"a\"}],\"stations\":[{\"code\":\"A\"},{\"code\":\"B\"}],"
            b"\"refundSteps\":[{\"before\":0,\"fee\":0}],\"runs\":[" + b",".join([run] * count) + b"]}")


def refused_exports(rng: random.Random, start: int, sweep: bytes) -> list:
    """An export of each fault, for a catalogue of some rows, and one that is right."""
    data = catalogue_bytes(rng, random_catalogue(rng, start, 1))
    while read_catalogue(data).rows < 2:
        data = catalogue_bytes(rng, random_catalogue(rng, start, 1))
    catalogue = read_catalogue(data)
    first = "rail-export 1 %d %d\n" % (len(catalogue.places), catalogue.rows)
    live, ended = "row 0 0 C 1 0 0 1 0.0.1\n", "row 0 0 x 1 0 0 1 0.0.1 p0 0 %d.0\n"
    texts = [first + live + "end 1\n", first + live, "rail-export 1 %d %d\nend 0\n" % (len(catalogue.places) + 1, catalogue.rows),
             first + live.replace("0.0.1", "0.0.127") + "end 1\n", first + live + live.replace("row 0", "row 1") + "end 2\n",
             first + ended % 0 + "end 1\n"]
    return [Case("an export of fault %d" % fault, [b"replay", b"k.json", b"--from", b"x.txt"], {"k.json": data, "x.txt": text.encode("ascii")}, [sweep])
            for fault, text in enumerate(texts)]

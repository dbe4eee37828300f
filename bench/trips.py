#!/usr/bin/env python3
"""Searches trips between random stations, and reports the mean, the median and the dearest of a thousand searches.

  bench/trips.py

Each catalogue has runs of ten stops over stations that all runs share, drawn at random with a fixed seed. A search asks from a random
second of the day to the end of the next. The program times each search by `trips` alone; read the figures against one another.

Then one search each of catalogues that give it the most to try, from the first station to the last: runs of one leg from the first
station to the second, from there to the third, and from there to the fourth, all within the longest wait, where none goes to the last
station, two go too early and the next day, or one or two take all who come; where the third kind goes to it, and arrives in one order
or another; their numbers rising or falling with time, some all at once; and long runs along one line.
"""
import datetime
import pathlib
import random
import subprocess
import tempfile

from common import build

START = datetime.datetime(2026, 6, 1)
STOPS = 10
SHAPES = [(50, 20), (400, 20), (400, 200), (4000, 20), (4000, 200), (4000, 2000)]

PROGRAM = """#![tactic(auto)]

use rail_catalogue::{Catalogue, read_catalogue};
use rail_ids::StationNo;
use rail_time::Moment;
use std::alloc::Global;
use std::fs;
use std::io;
use std::time::Instant;
use trip_builder::{TripWish, trips};

fn found(alloc: Global, cat: &Catalogue, wish: &TripWish) -> usize {
    match trips(alloc, cat.runs(), wish) {
        Ok(found) => found.len(),
        Err(_) => 0,
    }
}

fn next(seed: u64) -> u64 {
    seed.wrapping_mul(6_364_136_223_846_793_005).wrapping_add(1_442_695_040_888_963_407)
}

// From the first station to the last, at any time of the day.
fn search_one(rt: &HostRuntime, alloc: Global, cat: &Catalogue, day: Moment) -> io::Result<()> {
    let stations = cat.runs().station_count();
    if stations == 0 {
        return Ok(());
    }
    let wish = TripWish {
        origin: StationNo(0),
        destination: StationNo(stations - 1),
        earliest: day,
        latest: day.later(86_400),
    };
    let start = Instant::now(rt)?;
    let count = found(alloc, cat, &wish);
    let took = start.elapsed(rt)?;
    println!(rt; "{} {} 0 {}", took.as_nanos(), count, stations - 1)
}

fn search_many(rt: &HostRuntime, alloc: Global, cat: &Catalogue, day: Moment) -> io::Result<()> {
    let stations = cat.runs().station_count();
    if stations == 0 {
        return Ok(());
    }
    let mut seed = 7u64;
    for _ in 0..1000 {
        seed = next(seed);
        let origin = ((seed >> 33) % u64::from(stations)) as u32;
        seed = next(seed);
        let destination = ((seed >> 33) % u64::from(stations)) as u32;
        seed = next(seed);
        let wish = TripWish {
            origin: StationNo(origin),
            destination: StationNo(destination),
            earliest: day.later(((seed >> 33) % 86_400) as u32),
            latest: day.later(172_800),
        };
        let start = Instant::now(rt)?;
        let count = found(alloc, cat, &wish);
        let took = start.elapsed(rt)?;
        println!(rt; "{} {} {} {}", took.as_nanos(), count, origin, destination)?;
    }
    Ok(())
}

fn main(rt: HostRuntime) -> io::Result<()> {
    let alloc = rt.alloc();
    let bytes = fs::read(&rt, "catalogue.json")?;
    let Some(day) = Moment::of(1_780_272_000) else {
        return Ok(());
    };
    match read_catalogue(alloc, bytes.as_slice()) {
        Ok(cat) => {
            if fs::read(&rt, "one").is_ok() {
                return search_one(&rt, alloc, &cat, day);
            }
            search_many(&rt, alloc, &cat, day)
        }
        Err(_) => println!(rt; "fault"),
    }
}
"""


def moment(seconds):
    return (START + datetime.timedelta(seconds=seconds)).strftime("%Y-%m-%dT%H:%M:%SZ")


def catalogue(count, stations):
    draw = random.Random(5)
    runs = []
    for run in range(count):
        at = draw.randrange(0, 86_400 - STOPS * 900)
        stops = []
        for station in draw.sample(range(stations), STOPS):
            stops.append('{"station":"S%d","arrive":"%s","depart":"%s"}' % (station, moment(at), moment(at + 60)))
            at += 60 + draw.randrange(300, 900)
        runs.append(
            '{"train":%d,"stops":[%s],"fares":{"first":{"base":1,"perLeg":1},"second":{"base":1,"perLeg":1}},'
            '"coaches":[{"coach":1,"class":"SECOND","places":[{"first":1,"last":1}]}]}' % (run + 1, ",".join(stops))
        )
    codes = ",".join('{"code":"S%d"}' % n for n in range(stations))
    return (
        '{"currency":"EUR","retailers":[{"number":1,"key":"north"}],"stations":[%s],'
        '"refundSteps":[{"before":0,"fee":0}],"runs":[%s]}' % (codes, ",".join(runs))
    )


def leg(train, origin, depart, destination, arrive):
    stops = '{"station":"S%d","arrive":"%s","depart":"%s"},{"station":"S%d","arrive":"%s","depart":"%s"}' % (
        origin,
        moment(depart),
        moment(depart),
        destination,
        moment(arrive),
        moment(arrive),
    )
    return (
        '{"train":%d,"stops":[%s],"fares":{"first":{"base":1,"perLeg":1},"second":{"base":1,"perLeg":1}},'
        '"coaches":[{"coach":1,"class":"SECOND","places":[{"first":1,"last":1}]}]}' % (train, stops)
    )


def network(stations, runs):
    codes = ",".join('{"code":"S%d"}' % n for n in range(stations))
    return (
        '{"currency":"EUR","retailers":[{"number":1,"key":"north"}],"stations":[%s],'
        '"refundSteps":[{"before":0,"fee":0}],"runs":[%s]}' % (codes, ",".join(runs))
    )


def order(count, falls):
    return range(count - 1, -1, -1) if falls else range(count)


def kind(line, count, falls, together):
    """Runs of one leg, a second after another or all at once."""
    seconds = [0 if together else run for run in order(count, falls)]
    return [leg(1, line, 4000 * line + at, line + 1, 4000 * line + 2000 + at) for at in seconds]


def lines(count, last, falls=False, together=False):
    """Three kinds of runs, and trains from the third station to the last one."""
    runs = [run for line in range(3) for run in kind(line, count, falls, together)]
    runs += [leg(2, 2, depart, 4, depart + 2000) for depart in last]
    return network(5, runs)


def to_the_last(count, falls, arrive):
    """Three kinds of runs, the third of which goes to the last station, where each arrives then."""
    runs = [run for line in range(2) for run in kind(line, count, falls, False)]
    runs += [leg(1, 2, 8000 + run, 4, 10_000 + arrive(count, run)) for run in order(count, falls)]
    return network(5, runs)


def stop(station, arrive, depart):
    return '{"station":"S%d","arrive":"%s","depart":"%s"}' % (station, moment(arrive), moment(depart))


def long_run(stops):
    return (
        '{"train":1,"stops":[%s],"fares":{"first":{"base":1,"perLeg":1},"second":{"base":1,"perLeg":1}},'
        '"coaches":[{"coach":1,"class":"SECOND","places":[{"first":1,"last":1}]}]}' % ",".join(stops)
    )


def along(count, stations, wait):
    """Runs along one line, a second after another, from its first station to its last."""
    runs = []
    for run in range(count):
        times = [run + 9000 * n for n in range(stations)]
        runs.append(long_run([stop(n, at, at if n in (0, stations - 1) else at + wait) for n, at in enumerate(times)]))
    return network(stations, runs)


def overtaken(count, stations):
    """One run from the first station to the last, which waits at each; the others run beside it, and end before the last."""
    first = [stop(n, 9000 * n, 9000 * n + (0 if n in (0, stations - 1) else 4300)) for n in range(stations)]
    runs = [long_run(first)]
    for run in range(1, count):
        times = [1000 + run + 9000 * n for n in range(1, stations - 1)]
        runs.append(long_run([stop(n + 1, at, at) for n, at in enumerate(times)]))
    return network(stations, runs)


def behind(count, stations):
    """The same with a run more, which comes behind the first one: each of the others meets both at each station."""
    first = [stop(n, 9000 * n, 9000 * n + (0 if n in (0, stations - 1) else 4300)) for n in range(stations)]
    times = [9000 * n + 4301 for n in range(1, stations)]
    runs = [long_run(first)]
    runs.append(long_run([stop(n + 1, at, at + (0 if n in (0, stations - 2) else 1)) for n, at in enumerate(times)]))
    for run in range(2, count):
        times = [100 + run + 9000 * n for n in range(1, stations - 1)]
        runs.append(long_run([stop(n + 1, at, at) for n, at in enumerate(times)]))
    return network(stations, runs)


ARRIVE = {
    "in one second": lambda count, run: 2000,
    "in turn": lambda count, run: 2000 + run,
    "the last first": lambda count, run: 2000 + count - run,
    "in no order": lambda count, run: 2000 + run * 577 % count,
}


def worst():
    """Name and catalogue of each search that is dear."""
    yield "out of reach", lines(1_364, [])
    yield "last train gone", lines(1_364, [5000, 86_400])
    for falls in (False, True):
        numbers = ", numbers falling" if falls else ""
        yield "one last train" + numbers, lines(1_364, [12_000], falls)
        yield "one last train, all at once" + numbers, lines(1_364, [12_000], falls, True)
        yield "two last trains" + numbers, lines(1_364, [12_000, 12_001], falls)
        for name, arrive in ARRIVE.items():
            yield "three kinds, arriving %s%s" % (name, numbers), to_the_last(1_365, falls, arrive)
    yield "along one line of 12 stations", along(4_096, 12, 60)
    yield "along one line of 127 stations", along(4_096, 127, 60)
    yield "along one line, a long wait", along(4_096, 127, 4_300)
    yield "one train, overtaken by 40 others", overtaken(41, 127)
    yield "one train, overtaken by 4,095 others", overtaken(4_096, 127)
    yield "two trains, one behind the other, and 4,094 others beside", behind(4_096, 127)


def search_worst(folder, program):
    (folder / "one").write_text("")
    for name, text in worst():
        (folder / "catalogue.json").write_text(text)
        said = subprocess.run([str(program)], cwd=folder, capture_output=True, text=True, check=True).stdout.split()
        print("%s: %.1f us, %s trips" % (name, int(said[0]) / 1000, said[1]))


def main():
    with tempfile.TemporaryDirectory() as name:
        folder = pathlib.Path(name)
        program = build(folder, "trip_search", "trip_builder rail_catalogue train_runs rail_ids rail_time", PROGRAM)
        for runs, stations in SHAPES:
            (folder / "catalogue.json").write_text(catalogue(runs, stations))
            said = subprocess.run([str(program)], cwd=folder, capture_output=True, text=True, check=True).stdout
            rows = [[int(word) for word in line.split()] for line in said.splitlines()]
            took = sorted(row[0] / 1000 for row in rows)
            found = sum(row[1] for row in rows) / len(rows)
            dearest = max(rows)
            print(
                "%4d runs, %4d stations: %7.1f us a search, median %7.1f, dearest %8.1f (from S%d to S%d), %4.1f trips"
                % (runs, stations, sum(took) / len(took), took[len(took) // 2], took[-1], dearest[2], dearest[3], found)
            )
        search_worst(folder, program)


main()

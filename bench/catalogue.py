#!/usr/bin/env python3
"""Reads large catalogues, and reports time and memory as ratios.

  bench/catalogue.py [--keep FOLDER]

Makes two catalogue files near the greatest size of 33,554,432 bytes, and a program that reads the file
`catalogue.json` by `read_catalogue` and nothing else. Each file is read by that program and, in the same run, by
Python's own reader of JSON, which builds a tree too and checks nothing. The program is proved and built in a copy of this
repository beside the files; --keep leaves them there.
"""
import argparse
import datetime
import os
import pathlib
import tempfile

from common import build, measured

START = datetime.datetime(2026, 6, 1)

PROGRAM = """#![tactic(auto)]

use rail_catalogue::read_catalogue;
use std::fs;
use std::io;

fn main(rt: HostRuntime) -> io::Result<()> {
    let bytes = fs::read(&rt, "catalogue.json")?;
    match read_catalogue(rt.alloc(), bytes.as_slice()) {
        Ok(catalogue) => {
            let places = catalogue.places().count();
            println!(rt; "{places} places")
        }
        Err(fault) => println!(rt; "{fault:?}"),
    }
}
"""


def moment(seconds):
    return (START + datetime.timedelta(seconds=seconds)).strftime("%Y-%m-%dT%H:%M:%SZ")


def catalogue(stations, runs, stops, coaches):
    """A catalogue of so many stations, and of runs of so many stops, each with these coaches."""
    codes = ",".join('{"code":"S%05d"}' % n for n in range(stations))
    items = []
    for run in range(runs):
        calls = ",".join(
            '{"station":"S%05d","arrive":"%s","depart":"%s"}'
            % ((run * 31 + n * 7) % stations, moment(run * 60 + n * 600), moment(run * 60 + n * 600 + 60))
            for n in range(stops)
        )
        items.append(
            '{"train":%d,"stops":[%s],"fares":{"first":{"base":1,"perLeg":1},"second":{"base":1,"perLeg":1}},"coaches":[%s]}'
            % (run + 1, calls, coaches)
        )
    return (
        '{"currency":"EUR","retailers":[{"number":1,"key":"north"}],"stations":[%s],'
        '"refundSteps":[{"before":0,"fee":0}],"runs":[%s]}' % (codes, ",".join(items))
    )


def coach(number, groups):
    return '{"coach":%d,"class":"SECOND","places":[%s]}' % (number, groups)


def shapes():
    wide = ",".join(coach(n, '{"first":1,"last":64,"traits":["WINDOW"]}') for n in range(1, 17))
    single = ",".join(coach(n, ",".join('{"first":%d,"last":%d}' % (p, p) for p in range(1, 101))) for n in range(1, 12))
    yield "stops (65,536 stations, 4,096 runs of 64 stops, 4,194,304 places in groups of 64)", catalogue(65_536, 4_096, 64, wide)
    yield "groups (1,280 runs of 2 stops, 1,408,000 places in groups of one)", catalogue(2_000, 1_280, 2, single)


def report(folder):
    program = build(folder, "catalogue_reader", "rail_catalogue place_map", PROGRAM)
    tree = ["python3", "-c", "import json; json.load(open('catalogue.json'))"]
    for name, text in shapes():
        (folder / "catalogue.json").write_text(text)
        print("%s, %d bytes" % (name, len(text)))
        for label, words in [("read_catalogue", [str(program)]), ("python json", tree)]:
            seconds, memory, said = measured(words, folder)
            print("  %-14s %5.2f s of processor, %4d MB, %5.1f times the file  %s" % (label, seconds, memory // 1_000_000, memory / len(text), said))


def main():
    options = argparse.ArgumentParser(description=__doc__, formatter_class=argparse.RawDescriptionHelpFormatter)
    options.add_argument("--keep")
    kept = options.parse_args().keep
    if kept:
        os.makedirs(kept, exist_ok=True)
        report(pathlib.Path(kept).resolve())
    else:
        with tempfile.TemporaryDirectory() as folder:
            report(pathlib.Path(folder))


main()

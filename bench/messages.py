#!/usr/bin/env python3
"""Writes the list of all places of a run of 1,200 a thousand times, and reports the time of one list.

  bench/messages.py

The program reads a catalogue of one run with 1,200 places, writes the answer by `reply_text` a thousand times, and prints the
bytes of all. In the same run Python's own writer of JSON writes the same
list as often.
"""
import pathlib
import tempfile

from common import build, measured

TIMES = 1_000

PROGRAM = """#![tactic(auto)]

use osdm_texts::{Reply, reply_text};
use rail_catalogue::{Catalogue, read_catalogue};
use rail_ids::RunNo;
use std::alloc::Global;
use std::fs;
use std::io;

const TIMES: u32 = %d;

fn length_of(alloc: Global, cat: &Catalogue, free: &[bool]) -> usize {
    if cat.places().of_run(RunNo(0)).len() != free.len() {
        return 0;
    }
    match reply_text(alloc, cat, &Reply::PlaceList { run: RunNo(0), free }) {
        Ok(text) => text.len(),
        Err(_) => 0,
    }
}

fn main(rt: HostRuntime) -> io::Result<()> {
    let alloc = rt.alloc();
    let bytes = fs::read(&rt, "catalogue.json")?;
    let free = [true; 1_200];
    match read_catalogue(alloc, bytes.as_slice()) {
        Ok(cat) => {
            let mut length = 0u64;
            for _ in 0..TIMES {
                length = length.saturating_add(length_of(alloc, &cat, free.as_slice()) as u64);
            }
            println!(rt; "{length}")
        }
        Err(fault) => println!(rt; "{fault:?}"),
    }
}
"""

CATALOGUE = (
    '{"currency":"EUR","retailers":[{"number":1,"key":"north"}],"stations":[{"code":"A"},{"code":"B"}],'
    '"refundSteps":[{"before":0,"fee":0}],"runs":[{"train":1,"stops":[{"station":"A","depart":"2026-06-01T08:00:00Z"},'
    '{"station":"B","arrive":"2026-06-01T09:00:00Z"}],"fares":{"first":{"base":1,"perLeg":1},"second":{"base":1,"perLeg":1}},'
    '"coaches":[{"coach":1,"class":"SECOND","places":[{"first":1,"last":1200,"traits":["WINDOW","TABLE"]}]}]}]}'
)

PYTHON = """
import json
places = [{"class": "SECOND", "coach": 1, "free": True, "place": n, "traits": ["WINDOW", "TABLE"]} for n in range(1, 1201)]
print(sum(len(json.dumps({"places": places}, separators=(",", ":"))) for _ in range(%d)))
"""


def main():
    with tempfile.TemporaryDirectory() as name:
        folder = pathlib.Path(name)
        (folder / "catalogue.json").write_text(CATALOGUE)
        program = build(folder, "place_lists", "osdm_texts rail_catalogue place_map rail_ids", PROGRAM % TIMES)
        for label, words in [("reply_text", [str(program)]), ("python json", ["python3", "-c", PYTHON % TIMES])]:
            seconds, memory, said = measured(words, folder)
            print("%-12s %.3f ms of processor for a list of %d bytes, %d MB" % (label, seconds * 1000 / TIMES, int(said) // TIMES, memory // 1_000_000))


main()

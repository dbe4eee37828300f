#!/usr/bin/env python3
"""What a journal costs: reservations that are kept before they are answered, beside a plain loop that writes and syncs on the same disk.

  bench/journal.py [--program PATH] [--seconds N] [--rounds N] [--folder FOLDER]
  bench/journal.py --start [--program PATH] [--rows N]

The first measures by turns, in each round (5) each for some seconds (2): the host with a journal on the disk of FOLDER (the system's folder for
temporary files), over 1 connection and over 16 with one request in flight, and over 4 with 16 in flight; and the last also on tmpfs (/dev/shm),
with a journal there and without one. Before and after each pass on the disk the floor is measured, which is a loop of one append of 100 bytes
and one `fdatasync`: a pass is held against the mean of the two. Shown are the median and the best of the rates, and the median of the ratios.

--start measures a start from the journal of as many bookings (262,144) of 4 items: processor seconds until the host listens, and the greatest
memory until then. It does so with a journal of one cut, with one that has a cut for each booking, and without one.
"""
import argparse
import json
import os
import pathlib
import statistics
import subprocess
import sys
import tempfile
import time

from common import ROOT
from replay import PROGRAM, catalogue, reservation, shown
from serve import built, free_port, loaded, wait_for

sys.path.insert(0, str(ROOT / "tests" / "journal"))
import text  # noqa: E402

RUNS, PLACES, ROWS, MOST_ROWS = 400, 600, 262_144, 262_144
PIECE = b"x" * 99 + b"\n"
SHARED = "/dev/shm"
SWEEP_SECONDS = 1
ITEMS, PLACES_OF_A_RUN = 4, 1_200
# Connections, and requests of each in flight.
LOADS = [(1, 1), (16, 1), (4, 16)]
DEEP = (4, 16)
TITLES = ("what", "connections", "in flight", "answers/s", "best", "by the floor", "p50 us", "p99 us", "refused")


def floor(folder, seconds):
    """Appends that are synced, a second."""
    name = os.path.join(folder, "floor")
    file = os.open(name, os.O_WRONLY | os.O_CREAT | os.O_APPEND, 0o600)
    count, begin = 0, time.perf_counter()
    while time.perf_counter() - begin < seconds:
        os.write(file, PIECE)
        os.fdatasync(file)
        count += 1
    rate = count / (time.perf_counter() - begin)
    os.close(file)
    os.remove(name)
    return rate


def written_requests(folder, connections, number):
    """A file of reservations for each connection, over runs of its own."""
    files, own = [], RUNS // connections
    for connection in range(connections):
        file = os.path.join(folder, "requests%d" % connection)
        with open(file, "w", newline="") as out:
            out.writelines(reservation(own * connection + k % own, 2) for k in range(min(number, own * PLACES)))
        files.append(file)
    return files


class Bench:
    """Hosts that are loaded, with a journal in a folder or without one."""

    def __init__(self, program, work, seconds):
        self.program, self.work, self.seconds = program, work, seconds
        self.load = built(work, "load")
        (work / "catalogue.json").write_text(catalogue(RUNS, 2, PLACES).replace('"rows":65536', '"rows":%d' % ROWS))
        self.files = {}

    def rate(self, connections, depth, folder=None):
        """What load.c prints of one pass."""
        if connections not in self.files:
            self.files[connections] = written_requests(self.work, connections, 60_000)
        words = [self.program, "serve", str(self.work / "catalogue.json"), "--port", str(port := free_port()), "--workers", str(connections)]
        words += ["--connections", str(connections), "--sweep", str(SWEEP_SECONDS)]
        if folder is None:
            return loaded(words, port, self.way(depth), self.files[connections])[0]
        with tempfile.TemporaryDirectory(dir=folder) as own:
            return loaded(words + ["--journal", os.path.join(own, "journal")], port, self.way(depth), self.files[connections])[0]

    def way(self, depth):
        return [self.load, str(self.seconds), str(depth)]


def measure(bench, folder, rounds):
    """The rows of the table, from passes by turns."""
    kinds = [("journal", *load, folder) for load in LOADS] + [("journal on tmpfs", *DEEP, SHARED), ("without, on tmpfs", *DEEP, None)]
    floors, told = [floor(folder, bench.seconds / 2)], {kind: [] for kind in kinds}
    for _ in range(rounds):
        for kind in kinds:
            line = bench.rate(*kind[1:])
            if kind[3] == folder:
                floors.append(floor(folder, bench.seconds / 2))
            told[kind].append((line, statistics.mean(floors[-2:])))
    yield ("floor", "", "", "%.0f" % statistics.median(floors), "%.0f" % max(floors), "1.00", "", "", "")
    for kind in kinds:
        rates = [line[0] / line[2] for line, _ in told[kind]]
        ratio = statistics.median(rate / least for rate, (_, least) in zip(rates, told[kind]))
        middle = [statistics.median(line[at] for line, _ in told[kind]) for at in (3, 5)]
        yield (*kind[:3], "%.0f" % statistics.median(rates), "%.0f" % max(rates), "%.2f" % ratio if kind[3] == folder else "",
               *("%.0f" % one for one in middle), "%.0f" % sum(line[1] for line, _ in told[kind]))


# A start


def large_catalogue(rows):
    runs = -(-rows * ITEMS // PLACES_OF_A_RUN)
    stops = [{"station": "A", "depart": "2026-06-01T08:00:00Z"}, {"station": "B", "arrive": "2026-06-01T09:00:00Z"}]
    fares = {"first": {"base": 0, "perLeg": 0}, "second": {"base": 0, "perLeg": 0}}
    coaches = [{"coach": 1, "class": "SECOND", "places": [{"first": 1, "last": PLACES_OF_A_RUN}]}]
    return {"currency": "EUR", "rows": rows, "retailers": [{"number": 1, "key": "north"}], "stations": [{"code": "A"}, {"code": "B"}],
            "refundSteps": [{"before": 0, "fee": 0}], "runs": [{"train": 1, "stops": stops, "fares": fares, "coaches": coaches}] * runs}


def large_lines(rows):
    """Confirmed bookings, one for each row."""
    for row in range(rows):
        items = " ".join("%d.0.1" % (row * ITEMS + item) for item in range(ITEMS))
        yield b"row %d 0 C 1 4000000000 1000 %d %s\n" % (row, ITEMS, items.encode("ascii"))


def started(program, folder, more):
    """Processor seconds and greatest memory in bytes of a host until it listens."""
    port = free_port()
    host = subprocess.Popen([program, "serve", "k.json", "--port", str(port), *more], cwd=folder)
    try:
        wait_for(port, host)
        spent = pathlib.Path("/proc/%d/stat" % host.pid).read_text().rpartition(")")[2].split()
        memory = pathlib.Path("/proc/%d/status" % host.pid).read_text().split("VmHWM:")[1].split()[0]
        return (int(spent[11]) + int(spent[12])) / os.sysconf("SC_CLK_TCK"), int(memory) * 1024
    finally:
        host.kill()
        host.wait()


def measure_starts(program, rows):
    """A start without a journal, and one from each of two journals of the same bookings."""
    with tempfile.TemporaryDirectory() as folder:
        with open(os.path.join(folder, "k.json"), "w", encoding="ascii") as file:
            json.dump(large_catalogue(rows), file, separators=(",", ":"))
        yield "without a journal", 0, *started(program, folder, [])
        started(program, folder, ["--journal", "journal"])
        path = os.path.join(folder, "journal")
        own = text.read(pathlib.Path(path).read_bytes())
        lines = list(large_lines(rows))
        for label, bodies in (("one cut", [lines]), ("a cut for each booking", [[line] for line in lines])):
            data = text.journal(own.places, own.rows, own.print, bodies)
            pathlib.Path(path).write_bytes(data)
            yield label, len(data), *started(program, folder, ["--journal", "journal"])
            if text.read(pathlib.Path(path).read_bytes()).lines != {row: line for row, line in enumerate(lines)}:
                sys.exit("the host that began with it wrote other bookings")


def main():
    words = argparse.ArgumentParser(description=__doc__, formatter_class=argparse.RawDescriptionHelpFormatter)
    words.add_argument("--program", default=str(PROGRAM))
    words.add_argument("--seconds", type=int, default=2)
    words.add_argument("--rounds", type=int, default=5)
    words.add_argument("--folder", default=tempfile.gettempdir())
    words.add_argument("--start", action="store_true")
    words.add_argument("--rows", type=int, default=MOST_ROWS)
    given = words.parse_args()
    program = os.path.abspath(given.program)
    if given.start:
        rows = [(label, size, "%.2f" % seconds, memory // 1_000_000) for label, size, seconds, memory in measure_starts(program, given.rows)]
        return shown(("start", "bytes", "processor s", "memory MB"), rows)
    with tempfile.TemporaryDirectory() as name, tempfile.TemporaryDirectory(dir=given.folder) as folder:
        shown(TITLES, list(measure(Bench(program, pathlib.Path(name), given.seconds), folder, given.rounds)))


if __name__ == "__main__":
    main()

#!/usr/bin/env python3
"""Replays generated connections of four mixes, and reports the processor time of a request and the memory.

  bench/replay.py [--requests N] [--program PATH]

The program is the built one: `rt run` in crates/rail_host builds it. Each mix is one input of N requests (50,000). Beside it, in the same
run, stand the peer (peer.rs, a plain program that gives the same bytes, built by rustc), and a program in Python that only reads the same input
and writes the same output. What a program takes without requests is taken off its time.
"""
import argparse
import datetime
import filecmp
import pathlib
import subprocess
import sys
import tempfile

from common import ROOT

HERE = pathlib.Path(__file__).resolve().parent
PROGRAM = ROOT / "crates" / "rail_host" / "out" / "rail_host"
START = datetime.datetime(2026, 6, 1, 6)
PIECE = 1 << 16

# Reads the input in pieces, and writes as much of the answers as there is.
BASELINE = """
import sys
answers = open(sys.argv[1], "rb")
while sys.stdin.buffer.read(%d):
    pass
while piece := answers.read(%d):
    sys.stdout.buffer.write(piece)
""" % (PIECE, PIECE)


TITLES = ("mix", "us a request", "the peer's", "ratio", "read and written alone", "MB", "without requests", "the peer's MB", "in MB", "out MB")


def moment(seconds):
    return (START + datetime.timedelta(seconds=seconds)).strftime("%Y-%m-%dT%H:%M:%SZ")


def catalogue(lines, stops, places):
    """A catalogue of one run a line, each over stations of its own."""
    runs = []
    for line in range(lines):
        calls = ",".join(
            '{"station":"L%dS%d","arrive":"%s","depart":"%s"}' % (line, n, moment(7200 + n * 600), moment(7200 + n * 600 + 60))
            for n in range(stops)
        )
        runs.append(
            '{"train":%d,"stops":[%s],"fares":{"first":{"base":1000,"perLeg":600},"second":{"base":500,"perLeg":300}},'
            '"coaches":[{"coach":1,"class":"SECOND","places":[{"first":1,"last":%d}]}]}' % (line + 1, calls, places)
        )
    codes = ",".join('{"code":"L%dS%d"}' % (line, n) for line in range(lines) for n in range(stops))
    return (
        '{"currency":"EUR","rows":65536,"retailers":[{"number":1,"key":"north"}],"stations":[%s],'
        '"refundSteps":[{"before":0,"fee":0}],"runs":[%s]}' % (codes, ",".join(runs))
    )


def request(line, body=""):
    return "%s HTTP/1.1\r\nHost: h\r\nRetailer-Key: north\r\nContent-Length: %d\r\n\r\n%s" % (line, len(body), body)


def reservation(line, stops):
    return request("POST /reservations", '{"class":"SECOND","from":"L%dS0","run":%d,"to":"L%dS%d"}' % (line, line, line, stops - 1))


def reservations(number):
    return (reservation(k % 200, 2) for k in range(number))


def lives(number):
    for k in range(number // 4):
        path = "/bookings/B%06d" % k
        yield reservation(k % 200, 2)
        yield request("POST %s/fulfillments" % path)
        yield request("GET %s" % path)
        yield request("PATCH %s/fulfillments" % path, '{"status":"FULFILLED"}')


def lists(number):
    return (request("GET /runs/0/places/L0S0/L0S1") for _ in range(number))


def offers(number):
    return (
        request("POST /offers", '{"adults":1,"class":"SECOND","destination":"L%dS9","earliest":"%s","origin":"L%dS0"}' % (k % 400, moment(0), k % 400))
        for k in range(number)
    )


MIXES = [
    ("reservations", catalogue(200, 2, 600), reservations),
    ("steps of a life", catalogue(200, 2, 600), lives),
    ("lists of 600 places", catalogue(1, 2, 600), lists),
    ("offers", catalogue(400, 10, 600), offers),
]


def measured(words, folder, source, sink):
    """User and system seconds and the greatest memory in bytes of one run."""
    with open(source, "rb") as stdin, open(sink, "wb") as stdout:
        timed = subprocess.run(["/usr/bin/time", "-f", "%U %S %M"] + words, cwd=folder, stdin=stdin, stdout=stdout, stderr=subprocess.PIPE, text=True)
    if timed.returncode != 0:
        sys.exit("%s: %s" % (words[0], timed.stderr))
    user, system, memory = timed.stderr.split()[-3:]
    return float(user) + float(system), int(memory) * 1024


def built_peer(folder):
    peer = folder / "peer"
    try:
        subprocess.run(["rustc", "-O", "--edition", "2021", "-o", str(peer), str(HERE / "peer.rs")], check=True)
    except FileNotFoundError:
        sys.exit("the peer is built by rustc, which isn't there")
    return str(peer)


def of_requests(words, folder, sink):
    """A program's seconds for the requests alone, and its memory with and without them."""
    without, room = measured(words, folder, "/dev/null", sink)
    seconds, memory = measured(words, folder, folder / "input", sink)
    return seconds - without, memory, room


def mix_row(program, peer, folder, label, number):
    ours, theirs, copy = folder / "output", folder / "peers", folder / "copy"
    seconds, memory, room = of_requests([program, "replay", "catalogue.json", "--start", moment(0)], folder, ours)
    plain, plain_memory, _ = of_requests([peer, "replay", "catalogue.json", moment(0)], folder, theirs)
    alone, _ = measured([sys.executable, str(folder / "baseline.py"), str(ours)], folder, folder / "input", copy)
    if not filecmp.cmp(ours, theirs, shallow=False):
        sys.exit("%s: the two programs' answers differ" % label)
    each = 1e6 / number
    return (
        label,
        "%.1f" % (seconds * each),
        "%.1f" % (plain * each),
        "%.1f" % (seconds / max(plain, 0.001)),
        "%.1f" % (alone * each),
        memory // 1_000_000,
        room // 1_000_000,
        plain_memory // 1_000_000,
        (folder / "input").stat().st_size // 1_000_000,
        ours.stat().st_size // 1_000_000,
    )


def shown(titles, rows):
    """A table, printed once all rows are there."""
    rows = [tuple(map(str, row)) for row in [titles] + rows]
    widths = [max(len(row[n]) for row in rows) for n in range(len(titles))]
    for row in rows:
        print("  ".join(text.ljust(width) if n == 0 else text.rjust(width) for n, (text, width) in enumerate(zip(row, widths))))


def main():
    words = argparse.ArgumentParser(description=__doc__, formatter_class=argparse.RawDescriptionHelpFormatter)
    words.add_argument("--requests", type=int, default=50_000)
    words.add_argument("--program", default=str(PROGRAM))
    given = words.parse_args()
    if not pathlib.Path(given.program).is_file():
        sys.exit("%s is not built: rt run in crates/rail_host builds it" % given.program)
    program, rows = str(pathlib.Path(given.program).resolve()), []
    with tempfile.TemporaryDirectory() as name:
        folder = pathlib.Path(name)
        (folder / "baseline.py").write_text(BASELINE)
        peer = built_peer(folder)
        for label, text, mix in MIXES:
            (folder / "catalogue.json").write_text(text)
            with open(folder / "input", "w", newline="") as file:
                file.writelines(mix(given.requests))
            rows.append(mix_row(program, peer, folder, label, given.requests))
    shown(TITLES, rows)


if __name__ == "__main__":
    main()

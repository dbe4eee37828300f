"""A host that is ended and begun again answers as one that went on.

  tests/model/restart.py PROGRAM [--seeds N] [--from N]

Each random input is cut between two requests. `replay` of the whole input is held against `replay` of what stands before the cut and, after
`export` of the same, `replay --from` that export of what stands behind it: in bytes and in status. Passed over is a cut at which a row was
kept after a refusal, since the export gives its next generation, and one behind which another retailer's key comes first.
"""
import argparse
import os
import random
import subprocess
import sys
import tempfile

import moments
import random_requests
import service
import wire
from catalogue import read_catalogue
from random_catalogues import catalogue_bytes, random_catalogue, random_start, random_tick

LIMIT_SECONDS = 120


def run(program: str, folder: str, words: list, data: bytes) -> tuple:
    process = subprocess.run([program] + words, cwd=folder, input=data, capture_output=True, timeout=LIMIT_SECONDS)
    return process.returncode, process.stdout


def goes_on(catalogue, host: service.Host, rest: wire.Rest, behind: bytes) -> bool:
    """The host has kept no row, its connection has not ended, and the first known key behind the cut is its retailer's."""
    keys = [request.key for request in wire.read_requests(behind)[0] if request.key is not None]
    known = [catalogue.retailers[key.decode("latin-1")] for key in keys if key.decode("latin-1") in catalogue.retailers]
    is_one = host.retailer is None or not known or known[0] == host.retailer
    return rest is wire.Rest.END and host.books.kept_row is None and is_one


def check(program: str, seed: int):
    """None where the cut is passed over, else whether both came to the same, and how many bookings the export had."""
    rng = random.Random(seed)
    start, tick = random_start(rng), random_tick(rng)
    data = catalogue_bytes(rng, random_catalogue(rng, start, tick))
    catalogue = read_catalogue(data)
    pieces = random_requests.random_pieces(rng, catalogue, start, tick)
    cut = rng.randrange(len(pieces) + 1)
    before, behind = b"".join(pieces[:cut]), b"".join(pieces[cut:])
    host, clock = service.Host(catalogue), service.Clock(start, tick)
    _, rest = host.serve(before, clock)
    if not goes_on(catalogue, host, rest, behind):
        return None
    with tempfile.TemporaryDirectory() as folder:
        with open(os.path.join(folder, "k.json"), "wb") as file:
            file.write(data)
        ticks = ["--tick", str(tick), "--start"]
        first = ["k.json"] + ticks + [moments.write_moment(start)]
        then = ["k.json", "--from", "x.txt"] + ticks + [moments.write_moment(clock.next_moment)]
        whole = run(program, folder, ["replay"] + first, before + behind)
        head = run(program, folder, ["replay"] + first, before)
        export = run(program, folder, ["export"] + first, before)
        with open(os.path.join(folder, "x.txt"), "wb") as file:
            file.write(export[1])
        tail = run(program, folder, ["replay"] + then, behind)
    same = head[0] == export[0] == 0 and whole == (tail[0], head[1] + tail[1])
    return same, export[1].count(b"\n") - 2


def main() -> int:
    parser = argparse.ArgumentParser(description=__doc__, formatter_class=argparse.RawDescriptionHelpFormatter)
    parser.add_argument("program")
    parser.add_argument("--seeds", type=int, default=300)
    parser.add_argument("--from", dest="first", type=int, default=0)
    given = parser.parse_args()
    program = os.path.abspath(given.program)
    cuts = bookings = differ = 0
    for seed in range(given.first, given.first + given.seeds):
        came = check(program, seed)
        if came is None:
            continue
        cuts, bookings = cuts + 1, bookings + came[1]
        if not came[0]:
            differ += 1
            print("DIFFERENCE at seed %d" % seed)
    print("%d of %d inputs were cut and begun again, with %d bookings kept, %d differ" % (cuts, given.seeds, bookings, differ))
    return 1 if differ or cuts * 3 < given.seeds or not bookings else 0


if __name__ == "__main__":
    sys.exit(main())

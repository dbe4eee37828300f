"""`serve` over sockets whose calls of the system answer otherwise than usual, held against the plain model.

  calls.py PROGRAM [--seeds N] [--from N] [--journal]

For each seed `calls.c` cuts reads and writes short, interrupts them, and says of those that don't wait that they would
have to; accepts are interrupted, or find the connection given up. A client sends its requests in pieces, and has to get
just the answers that the model gives. Then each of the first 150 calls in turn fails as where the other side has gone,
alone, and with all later ones: a client has to get a beginning of those answers, whatever the call was, and one whose
calls don't fail all of them. Each host has to end with status 0 and without a word. With --journal each has a journal,
so that the answers to what may change bookings wait until it is kept.

It needs cc and glibc, since `calls.c` stands before the C library.
"""
import argparse
import contextlib
import errno
import json
import os
import pathlib
import random
import socket
import struct
import subprocess
import sys
import tempfile
import time

HERE = pathlib.Path(__file__).resolve().parent
sys.path[:0] = [str(HERE.parent / "model"), str(HERE.parent / "host")]
from catalogue import read_catalogue  # noqa: E402
from service import Clock, Host as Model  # noqa: E402
from sockets import ASKS, PLACES, SECONDS, Host, Wrong, expect, largest_run  # noqa: E402

# Answers that no moment changes: short ones, those to what may change a booking, one too long to be held back, and one
# that ends the connection.
ENDS = b"DELETE /bookings/B000000 HTTP/1.1\r\nRetailer-Key: north\r\n\r\n"
NOWHERE = b"GET /nowhere HTTP/1.1\r\nRetailer-Key: north\r\n\r\n"
REQUESTS = [ASKS * 3, ENDS, ENDS * 5 + ASKS, PLACES, ASKS, NOWHERE * 2, PLACES * 2, ASKS * 40]
LAST = b"GET /bookings/B000000 HTTP/1.1\r\nRetailer-Key: north\r\nConnection: close\r\n\r\n"
PARTS = [ASKS + ENDS, ASKS * 2 + PLACES, ASKS[:30], ASKS[30:] + PLACES * 2 + ASKS, LAST]
MOST_FAILING = 150
ERRORS = [errno.ECONNRESET, errno.EPIPE, errno.ETIMEDOUT, errno.EIO]


class Calls:
    """The library that stands before the C library, and what it is told by the environment."""

    def __init__(self, program: str, folder: pathlib.Path, keeps: bool):
        self.program, self.count = os.path.abspath(program), folder / "count"
        self.words = ["--journal", folder / "journal"] if keeps else []
        self.library, self.catalogue = folder / "calls.so", folder / "largest.json"
        words = ["cc", "-O2", "-shared", "-fPIC", "-o", self.library, HERE / "calls.c"]
        subprocess.run(words, check=True)
        self.count.write_bytes(bytes(8))
        self.catalogue.write_text(json.dumps(largest_run()))

    @contextlib.contextmanager
    def host(self, connections: int, **told):
        """A host whose calls answer so."""
        more = {"LD_PRELOAD": str(self.library), "CALLS_COUNT": str(self.count)}
        more.update({"CALLS_" + name.upper(): str(value) for name, value in told.items() if value is not None})
        before = dict(os.environ)
        os.environ.update(more)
        try:
            host = Host(self.program, connections, 1, catalogue=str(self.catalogue), more=self.words)
        finally:
            os.environ.clear()
            os.environ.update(before)
        with host:
            yield host

    def calls(self) -> int:
        """How many calls the last host made."""
        return struct.unpack("=Q", self.count.read_bytes())[0]

    def wanted(self, data: bytes) -> bytes:
        """The model's answers."""
        return Model(read_catalogue(self.catalogue.read_bytes())).serve(data, Clock(0, 0))[0]


def send_pieces(client: socket.socket, data: bytes, rng: random.Random):
    """Sends all of it in pieces, with a pause after some. That the host has ended the connection is no fault here."""
    with contextlib.suppress(ConnectionError):
        while data:
            size = rng.choice([1, 7, 60, 500, len(data)])
            client.sendall(data[:size])
            data = data[size:]
            if rng.random() < 0.1:
                time.sleep(0.002)


def read_all(client: socket.socket) -> bytes:
    """All that comes until the connection ends, in whatever way."""
    pieces = []
    with contextlib.suppress(ConnectionError):
        while piece := client.recv(1 << 16):
            pieces.append(piece)
    client.close()
    return b"".join(pieces)


def try_seed(calls: Calls, seed: int):
    """Calls that answer by chance. What is sent and how is by chance too."""
    rng = random.Random(seed)
    data = b"".join(rng.choice(REQUESTS) for _ in range(rng.randrange(1, 6))) + LAST
    with calls.host(2, seed=seed) as host:
        for _ in range(2):
            client = host.connect()
            send_pieces(client, data, rng)
            got, wanted = read_all(client), calls.wanted(data)
            same = os.path.commonprefix([got, wanted])
            expect(got == wanted, "seed %d: %d bytes where the model has %d, other from byte %d" %
                   (seed, len(got), len(wanted), len(same)))
        host.end()


def ask_slowly(host: Host) -> bytes:
    """Sends the parts with pauses between them, so that the host reads several times, and gives all that comes."""
    client = host.connect()
    with contextlib.suppress(ConnectionError):
        for part in PARTS:
            client.sendall(part)
            time.sleep(0.01)
    return read_all(client)


def try_failing(calls: Calls, wanted: bytes, number: int, goes_on: bool):
    """One call fails, or it and all later ones. Whether the first connection gets so far is a matter of chance."""
    told = {"fail": number, "error": ERRORS[number % len(ERRORS)], "fail_on": 1 if goes_on else None}
    with calls.host(1 if goes_on else 2, **told) as host:
        got = [ask_slowly(host) for _ in range(1 if goes_on else 2)]
        for answers in got:
            expect(wanted.startswith(answers), "call %d fails: %d bytes, which are no beginning of the answers" %
                   (number, len(answers)))
        expect(goes_on or wanted in got, "call %d fails, and no client gets all answers" % number)
        host.end()


def main():
    parser = argparse.ArgumentParser(description=__doc__, formatter_class=argparse.RawDescriptionHelpFormatter)
    parser.add_argument("program")
    parser.add_argument("--seeds", type=int, default=200, help="how many seeds (default: 200)")
    parser.add_argument("--from", type=int, default=1, dest="first", help="the first seed (default: 1)")
    parser.add_argument("--journal", action="store_true", help="each host has a journal")
    options = parser.parse_args()
    with tempfile.TemporaryDirectory() as name:
        calls = Calls(options.program, pathlib.Path(name), options.journal)
        for seed in range(options.first, options.first + options.seeds):
            try_seed(calls, seed)
        wanted = calls.wanted(b"".join(PARTS))
        with calls.host(1) as host:
            expect(ask_slowly(host) == wanted, "without failures: other answers than the model's")
            host.end()
        last = min(calls.calls(), MOST_FAILING)
        for number in range(1, last + 1):
            for goes_on in (False, True):
                try_failing(calls, wanted, number, goes_on)
    print("%d seeds, and each of %d calls failing alone and with all later ones" % (options.seeds, last))


if __name__ == "__main__":
    try:
        main()
    except (Wrong, OSError, subprocess.SubprocessError) as error:
        sys.exit("calls.py: %s" % error)

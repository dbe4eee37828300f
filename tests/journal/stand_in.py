#!/usr/bin/env python3
"""A plain host with a journal, which the checks of this folder are tried on: the model behind a socket, and a thread that takes cuts.

  stand_in.py serve CATALOGUE --port N --journal FILE [..]      other options are passed over
  stand_in.py recover CATALOGUE FILE

FAULT in the environment plants one: `early` answers before its cut is kept, `reads` lets looks at bookings go before, on a slow disk, `lost`
leaves a changed row out of one cut in ten, `halves` takes cuts of single rows, `again` gives the ids of the rows that were used last once more
at a start, `unsynced` and `folder` leave a sync out, `goes on` serves after a failed write.
"""
import os
import pathlib
import random
import socket
import sys
import threading
import time

HERE = pathlib.Path(__file__).resolve().parent
sys.path[:0] = [str(HERE.parent / "model")]
import text  # noqa: E402
import wire  # noqa: E402
from bookings import Books, Refusal  # noqa: E402
from catalogue import read_catalogue  # noqa: E402
from expected import recovered  # noqa: E402
from export import booking_line, kept_bookings, read_export  # noqa: E402
from service import Host, find_route  # noqa: E402

FAULT = os.environ.get("FAULT", "")
APART, TELLS = {"offers", "places"}, {"show", "quote_refund", "quote_exchange"}
PRINT = text.digest(b"the stand-in takes any catalogue of this size")


def reach(request: wire.Request) -> str:
    """What a request has to do with bookings."""
    try:
        name, _ = find_route(request.method.decode(), request.path.decode())
    except (Refusal, UnicodeDecodeError):
        return "apart"
    return "apart" if name in APART else "tells" if name in TELLS else "changes"


class Kept:
    """Books, their journal, and who waits for which cut."""

    def __init__(self, catalogue, path: str):
        self.catalogue, self.path, self.books = catalogue, path, Books(catalogue)
        self.change = threading.Condition()
        self.written, self.taken, self.kept, self.dirty = {}, 0, 0, False

    def begin(self):
        if os.path.exists(self.path):
            with open(self.path, "rb") as file:
                status, export, note = recovered(self.catalogue, PRINT, file.read())
            if status:
                sys.stderr.write(note)
                sys.exit(status)
            self.books.bookings = read_export(self.catalogue, export)
            if FAULT == "again":
                self.books.bookings = self.books.bookings[:-3]
        lines = [line for _, line in sorted(self.lines().items())]
        whole = text.journal(len(self.catalogue.places), self.catalogue.rows, PRINT, [lines])
        with open(self.path + ".new", "wb") as file:
            file.write(whole)
            file.flush()
            os.fsync(file.fileno())
        os.rename(self.path + ".new", self.path)
        if FAULT != "folder":
            folder = os.open(os.path.dirname(self.path) or ".", os.O_RDONLY)
            os.fsync(folder)
            os.close(folder)
        self.file, self.written, self.taken, self.kept = os.open(self.path, os.O_WRONLY | os.O_APPEND), self.lines(), 1, 1
        self.sum = text.read(whole).cuts[0].sum

    def lines(self) -> dict:
        return {booking.row.number: booking_line(booking).encode() + b"\n" for booking in kept_bookings(self.books)}

    def changed(self) -> list:
        now = self.lines()
        rows = [row for row in sorted(now) if self.written.get(row) != now[row]]
        if FAULT == "lost" and random.random() < 0.1:
            rows = rows[1:]
        self.written = now
        return [now[row] for row in rows]

    def commit(self):
        """Takes cuts for ever."""
        while True:
            with self.change:
                while not self.dirty:
                    self.change.wait()
                lines, self.dirty = self.changed(), False
                self.taken += 1
                number = self.taken
            for piece in self.pieces(number, lines):
                self.append(piece)
            with self.change:
                self.kept = number
                self.change.notify_all()

    def append(self, piece: bytes):
        try:
            while piece:
                piece = piece[os.write(self.file, piece):]
            if FAULT == "reads":
                time.sleep(0.05)
            if FAULT != "unsynced":
                os.fdatasync(self.file)
        except OSError:
            if FAULT != "goes on":
                leave(4, "journal lost")

    def pieces(self, number: int, lines: list):
        """The cut, or with a fault one for each row."""
        for each in [[line] for line in lines] if FAULT == "halves" else [lines]:
            self.count = getattr(self, "count", 1) + 1
            written = text.cut(self.count, self.sum, each)
            self.sum = text.digest(written[:-69])
            yield written
            if FAULT == "halves":
                time.sleep(0.002)

    def answer(self, host: Host, request: wire.Request) -> bytes:
        kind = reach(request)
        with self.change:
            host.books = self.books
            answer = host.answer(request, int(time.time()))
            if kind == "changes":
                self.dirty = True
                self.change.notify_all()
            until = self.taken + 1 if self.dirty else self.taken
            waits = kind == "changes" or (kind == "tells" and FAULT != "reads")
            while waits and FAULT != "early" and self.kept < until:
                self.change.wait()
        return answer


def serve_stream(kept: Kept, stream: socket.socket):
    host, held = Host(kept.catalogue), b""
    with stream:
        while data := stream.recv(1 << 16):
            held += data
            while not isinstance(found := wire.read_request(held, 0, 1), wire.Rest):
                request, at = found
                held = held[at:]
                stream.sendall(kept.answer(host, request))
                if request.last:
                    return


def sweep(kept: Kept):
    while True:
        time.sleep(1)
        with kept.change:
            kept.books.sweep(int(time.time()))
            kept.dirty = True
            kept.change.notify_all()


def leave(status: int, note: str):
    sys.stderr.write("rail_host: %s\n" % note)
    sys.stderr.flush()
    os._exit(status)


def serve(catalogue, port: int, path: str):
    kept = Kept(catalogue, path)
    try:
        kept.begin()
    except OSError:
        leave(3, "journal failed")
    for work in (kept.commit, lambda: sweep(kept)):
        threading.Thread(target=work, daemon=True).start()
    with socket.create_server(("127.0.0.1", port), backlog=64) as listener:
        while True:
            threading.Thread(target=serve_stream, args=(kept, listener.accept()[0]), daemon=True).start()


def main():
    if len(sys.argv) < 4 or sys.argv[1] not in ("serve", "recover"):
        print(__doc__.strip())
        sys.exit(0 if sys.argv[1:] == ["--help"] else 2)
    with open(sys.argv[2], "rb") as file:
        catalogue = read_catalogue(file.read())
    if sys.argv[1] == "recover":
        with open(sys.argv[3], "rb") as file:
            status, output, note = recovered(catalogue, PRINT, file.read())
        sys.stdout.buffer.write(output)
        sys.stderr.write(note)
        sys.exit(status)
    else:
        options = dict(zip(sys.argv[3::2], sys.argv[4::2]))
        serve(catalogue, int(options["--port"]), options["--journal"])


if __name__ == "__main__":
    main()

"""`serve` over real sockets: idle and stalled connections, requests sent ahead, long answers, refusals of long bodies,
want of file handles, a booking that comes to its limit, members side by side, a listener that goes, and its end.

  sockets.py PROGRAM

Time limits are held against wide bounds, so that a busy machine changes nothing.
"""
import calendar
import contextlib
import ctypes
import json
import os
import resource
import socket
import subprocess
import sys
import tempfile
import threading
import time

sys.path.append(os.path.join(os.path.dirname(os.path.abspath(__file__)), ".."))
from ports import free_port  # noqa: E402

EXAMPLE = os.path.join(os.path.dirname(__file__), "..", "..", "examples", "k1.json")
ASKS = b"GET /bookings/B000000 HTTP/1.1\r\nRetailer-Key: north\r\n\r\n"
HALF = b"GET /bookings/B000000 HTTP/1.1\r\nRetailer-"
REST = b"Key: north\r\n\r\n"
UNKNOWN = b'{"code":"UnknownBooking","status":404,"title":"Unknown booking"}'
CHUNKED = b"POST /offers HTTP/1.1\r\nTransfer-Encoding: chunked\r\n\r\n"
CODING = b'{"code":"Coding","status":501,"title":"Coding not supported"}'
LONG = b"POST /offers HTTP/1.1\r\nContent-Length: 5000000\r\n\r\n"
LONG_ENOUGH = b"POST /offers HTTP/1.1\r\nRetailer-Key: north\r\nContent-Length: 500\r\n\r\n"
TOO_LARGE = b'{"code":"BodyTooLarge","status":413,"title":"Body too large"}'
PLACES = b"GET /runs/0/places/A/B HTTP/1.1\r\nRetailer-Key: north\r\n\r\n"
RESERVES = (b"POST /reservations HTTP/1.1\r\nRetailer-Key: north\r\nConnection: close\r\nContent-Length: 53\r\n\r\n"
            b'{"class":"SECOND","from":"BASEL","run":0,"to":"BERN"}')
MOST_PLACES = 1_200
MOST_HELD = 65_536  # bytes of answers that the host holds back to send them together
SECONDS = 90


class Wrong(Exception):
    """The host did something else."""


def expect(is_so: bool, what: str):
    if not is_so:
        raise Wrong(what)


class Host:
    """The program, serving so many connections at a free port."""

    def __init__(self, program: str, connections: int, workers: int, sweep: int = 1, handles: int = None,
                 catalogue: str = EXAMPLE, more: list = ()):
        self.port = free_port()
        limit = (lambda: resource.setrlimit(resource.RLIMIT_NOFILE, (handles, handles))) if handles else None
        words = ["serve", catalogue, "--port", self.port, "--connections", connections, "--workers", workers, "--sweep", sweep,
                 *more]
        self.process = subprocess.Popen([program] + [str(word) for word in words], stdin=subprocess.DEVNULL,
                                        stdout=subprocess.PIPE, stderr=subprocess.PIPE, preexec_fn=limit)

    def __enter__(self):
        return self

    def __exit__(self, *_):
        self.process.kill()
        self.process.communicate()

    def connect(self) -> socket.socket:
        """A connection. The first one waits until the host listens; no connection is used up by that."""
        until = time.monotonic() + SECONDS
        while True:
            try:
                client = socket.create_connection(("127.0.0.1", self.port), timeout=SECONDS)
                client.setsockopt(socket.IPPROTO_TCP, socket.TCP_NODELAY, 1)
                return client
            except ConnectionRefusedError:
                expect(self.process.poll() is None and time.monotonic() < until, "the host doesn't listen")
                time.sleep(0.02)

    def end(self):
        """It ends with status 0, and without a word."""
        output, notes = self.process.communicate(timeout=SECONDS)
        expect((self.process.returncode, output, notes) == (0, b"", b""), "the host ended with %d, %r, %r" %
               (self.process.returncode, output, notes))


def read_answer(client: socket.socket, body: bytes):
    """Reads up to this body, at which an answer ends."""
    got = b""
    while not got.endswith(body):
        piece = client.recv(65_536)
        expect(piece != b"", "the connection ended behind %r" % got)
        got += piece


def read_end(client: socket.socket):
    """Nothing more comes, and the connection ends in order."""
    expect(client.recv(65_536) == b"", "something came behind the last answer")
    client.close()


def closes_between(client: socket.socket, least: float, most: float, what: str):
    begin = time.monotonic()
    read_end(client)
    took = time.monotonic() - begin
    expect(least <= took <= most, "%s ended after %.1f seconds" % (what, took))


def silent(host: Host):
    closes_between(host.connect(), 3, 28, "a connection that sends nothing")


def idle(host: Host):
    client = host.connect()
    for _ in range(3):
        client.sendall(ASKS)
        read_answer(client, UNKNOWN)
    closes_between(client, 3, 28, "an idle connection")


def stalled(host: Host):
    client = host.connect()
    client.sendall(HALF)
    closes_between(client, 24, 85, "a request that stalls")


def slow(host: Host):
    """A request whose halves are further apart than an idle connection may be; and so is the next one."""
    client = host.connect()
    for _ in range(2):
        client.sendall(HALF)
        time.sleep(8)
        client.sendall(REST)
        read_answer(client, UNKNOWN)
    client.shutdown(socket.SHUT_WR)
    read_end(client)


def time_limits(program: str):
    clients = [silent, idle, stalled, slow]
    failures = []

    def play(client, host):
        try:
            client(host)
        except (Wrong, OSError) as failure:
            failures.append("%s: %r" % (client.__name__, failure))

    with Host(program, len(clients), len(clients)) as host:
        threads = [threading.Thread(target=play, args=(client, host)) for client in clients]
        for thread in threads:
            thread.start()
        for thread in threads:
            thread.join()
        expect(not failures, "; ".join(failures))
        host.end()


def drip(client: socket.socket, asked: bytes, pause: float):
    """Sends a byte at a time, until the other side has ended the connection."""
    for byte in asked:
        try:
            client.sendall(bytes([byte]))
            client.settimeout(pause)
            expect(client.recv(65_536) == b"", "something was answered to a request that isn't whole")
            return
        except ConnectionError:  # it had ended before the byte came
            return
        except socket.timeout:
            client.settimeout(SECONDS)
    raise Wrong("the request is longer than the host waits")


def dripped(program: str):
    """A request that isn't whole 60 seconds after its first byte ends its connection, however often a byte comes, in its
    head and in its body, also where an answer went before it; a worker is free again then. One that is whole before is
    answered."""
    ends = {"a head": (b"", b"GET /" + b"x" * 500), "a body": (LONG_ENOUGH, b"{" * 500),
            "a second request": (ASKS, HALF + b"y" * 500)}
    failures = []

    def play(host: Host, what: str, first: bytes, asked: bytes):
        try:
            client = host.connect()
            begin = time.monotonic()
            client.sendall(first)
            if first == ASKS:
                read_answer(client, UNKNOWN)
                time.sleep(3)
                begin = time.monotonic()
            drip(client, asked, 0.25)
            took = time.monotonic() - begin
            expect(58 <= took <= 85, "%s ended after %.1f seconds" % (what, took))
            client.close()
        except (Wrong, OSError) as failure:
            failures.append("%s: %r" % (what, failure))

    with Host(program, len(ends) + 2, len(ends) + 1) as host:
        threads = [threading.Thread(target=play, args=(host, what, *said)) for what, said in ends.items()]
        for thread in threads:
            thread.start()
        client = host.connect()
        for at in range(len(ASKS)):
            client.sendall(ASKS[at:at + 1])
            time.sleep(0.8)
        read_answer(client, UNKNOWN)
        client.close()
        for thread in threads:
            thread.join()
        expect(not failures, "; ".join(failures))
        last = host.connect()
        last.sendall(ASKS)
        read_answer(last, UNKNOWN)
        last.close()
        host.end()


def refusals(program: str):
    """A client that sends all of a long body before it reads sees why it was refused, and then the end."""
    cases = [(CHUNKED, CODING), (LONG, TOO_LARGE), (CHUNKED, CODING)]
    with Host(program, len(cases) + 1, 2) as host:
        for head, body in cases:
            client = host.connect()
            client.sendall(head + b"x" * 5_000_000)
            read_answer(client, body)
            read_end(client)
        client = host.connect()
        client.sendall(ASKS)
        read_answer(client, UNKNOWN)
        client.close()
        host.end()


def ahead(program: str):
    """Requests that come together are answered in order, and all that are whole before the host waits for the rest of the next one."""
    with Host(program, 1, 1) as host:
        client = host.connect()
        for count in [1, 40, 400]:
            client.sendall(ASKS * count + HALF)
            answers = b""
            while answers.count(UNKNOWN) < count:
                piece = client.recv(65_536)
                expect(piece != b"", "the connection ended behind %d answers" % answers.count(UNKNOWN))
                answers += piece
            first = answers[:answers.index(UNKNOWN)] + UNKNOWN
            expect(answers == first * count, "there are other answers than those of %d requests" % count)
            client.sendall(REST)
            read_answer(client, UNKNOWN)
        client.sendall(ASKS * 3)
        client.shutdown(socket.SHUT_WR)
        answers = b""
        while piece := client.recv(65_536):
            answers += piece
        expect(answers == first * 3, "there are other answers than those of the last 3 requests")
        client.close()
        host.end()


def largest_run() -> dict:
    """A catalogue of one run with as many places as a run may have."""
    fare = {"base": 500, "perLeg": 300}
    stops = [{"station": "A", "depart": "2099-06-01T08:00:00Z"}, {"station": "B", "arrive": "2099-06-01T09:00:00Z"}]
    places = {"first": 1, "last": MOST_PLACES, "traits": ["WINDOW", "TABLE"]}
    coach = {"coach": 1, "class": "SECOND", "places": [places]}
    return {"currency": "EUR", "retailers": [{"number": 1, "key": "north"}], "stations": [{"code": "A"}, {"code": "B"}],
            "refundSteps": [{"before": 0, "fee": 0}], "rows": 64,
            "runs": [{"train": 1, "stops": stops, "fares": {"first": fare, "second": fare}, "coaches": [coach]}]}


def as_replay(program: str, asked: bytes, lists: int, late: float = 0):
    """The answers to requests that come together, so many lists of all places among them, are those of replay. The client
    may read late."""
    with tempfile.TemporaryDirectory() as folder:
        catalogue = os.path.join(folder, "largest.json")
        with open(catalogue, "w") as file:
            json.dump(largest_run(), file)
        replay = [program, "replay", catalogue]
        wanted = subprocess.run(replay, input=asked, stdout=subprocess.PIPE, timeout=SECONDS, check=True).stdout
        expect(wanted.count(b'"free":true') == lists * MOST_PLACES, "replay gives other lists: %r" % wanted[:200])
        expect(len(wanted) > lists * MOST_HELD, "the lists are too short to pass what is held")
        with Host(program, 1, 1, catalogue=catalogue) as host:
            client = host.connect()
            client.sendall(asked)
            client.shutdown(socket.SHUT_WR)
            time.sleep(late)
            pieces = []
            while piece := client.recv(65_536):
                pieces.append(piece)
            answers = b"".join(pieces)
            same = os.path.commonprefix([answers, wanted])
            expect(answers == wanted, "the answers differ from those of replay behind byte %d: %r for %r" %
                   (len(same), answers[len(same):][:80], wanted[len(same):][:80]))
            client.close()
            host.end()


def long_answers(program: str):
    """A body that is too long to be held goes out behind its head and the answers that are, by one call for both pieces."""
    as_replay(program, ASKS + PLACES * 4 + ASKS, 4)


def late_reader(program: str):
    """Where more is answered than the system holds for a client that reads late, the host waits to write the rest."""
    as_replay(program, (ASKS * 20 + PLACES) * 80, 80, late=1)


def handles(program: str):
    """With six handles of files two connections are open at once; a third one waits until one of them has ended."""
    with Host(program, 6, 4, handles=6) as host:
        clients = [host.connect() for _ in range(2)]
        for client in clients:
            client.sendall(ASKS)
            read_answer(client, UNKNOWN)
        for _ in range(4):
            waiting = host.connect()
            waiting.sendall(ASKS)
            waiting.settimeout(0.4)
            try:
                waiting.recv(1)
                raise Wrong("a third connection was served")
            except socket.timeout:
                waiting.settimeout(SECONDS)
            clients.pop(0).close()
            read_answer(waiting, UNKNOWN)
            clients.append(waiting)
            for client in clients:
                client.sendall(ASKS)
                read_answer(client, UNKNOWN)
        for client in clients:
            client.close()
        host.end()


def ticks(program: str):
    """The sweeping member waits for its tick: the host doesn't end before it."""
    begin = time.monotonic()
    with Host(program, 1, 1, sweep=4) as host:
        client = host.connect()
        client.sendall(ASKS)
        read_answer(client, UNKNOWN)
        client.close()
        host.end()
        expect(time.monotonic() - begin > 3, "the host ended before its tick")


@contextlib.contextmanager
def catalogue_with(**members):
    """The name of a file with the example's catalogue, in which these members are others."""
    with tempfile.TemporaryDirectory() as folder, open(EXAMPLE, encoding="utf-8") as file:
        name = os.path.join(folder, "k.json")
        with open(name, "w", encoding="utf-8") as changed:
            json.dump(dict(json.load(file), **members), changed)
        yield name


def asked(client: socket.socket, head: bytes, body: bytes = b"") -> dict:
    """The body of the answer to one request of the retailer north."""
    client.sendall(head + b" HTTP/1.1\r\nRetailer-Key: north\r\nContent-Length: %d\r\n\r\n" % len(body) + body)
    got = b""
    while b"\r\n\r\n" not in got:
        got += client.recv(65_536)
    head, got = got.split(b"\r\n\r\n", 1)
    length = int(head.split(b"Content-Length: ")[1].split(b"\r\n")[0])
    while len(got) < length:
        got += client.recv(65_536)
    return json.loads(got)


def seconds_of(moment: str) -> int:
    return calendar.timegm(time.strptime(moment, "%Y-%m-%dT%H:%M:%SZ"))


def until_expired(client: socket.socket, booking: dict) -> dict:
    """The booking after the host's own member has ended it: nobody confirms it, and nobody asks for a sweep."""
    until = time.monotonic() + 30
    while booking["status"] == "PREBOOKED" and time.monotonic() < until:
        time.sleep(0.2)
        booking = asked(client, b"GET /bookings/" + booking["id"].encode())
    expect(booking["status"] == "EXPIRED", "half a minute after its limit it is %r" % booking)
    expect(booking["endedAt"] > booking["confirmableUntil"], "it has expired before its limit was over: %r" % booking)
    return booking


def expiry(program: str):
    """Two bookings come to their limits by the system's clock, one after the other, and two sweeps of the host's member
    end them, each at a reading of its own. The host ends with its last connection."""
    wish, ended = b'{"from":"BERN","run":1,"to":"THUN"}', []
    with catalogue_with(confirmSeconds=1) as name, Host(program, 1, 1, catalogue=name) as host:
        client = host.connect()
        for _ in range(2):
            begin = int(time.time())
            booking = asked(client, b"POST /reservations", wish)
            expect(booking.get("status") == "PREBOOKED", "a reservation was answered %r" % booking)
            limit = seconds_of(booking["confirmableUntil"])
            expect(begin + 1 <= limit <= time.time() + 1, "a second's time ends at %d, asked at %d" % (limit, begin))
            ended.append(until_expired(client, booking)["endedAt"])
        expect(ended[0] < ended[1], "two sweeps have the moments %r" % ended)
        client.close()
        host.end()


def late_at_the_start(program: str):
    """The host begins with a booking whose time is over. It expires beside a connection that is open, and the host ends
    with that connection."""
    late = "rail-export 1 18 65536\nrow 0 0 P 1 %d 1100 1 4.0.2\nend 1\n" % (time.time() - 1)
    with tempfile.NamedTemporaryFile("w", suffix=".txt") as export:
        export.write(late)
        export.flush()
        with Host(program, 1, 1, more=["--from", export.name]) as host:
            client = host.connect()
            until_expired(client, asked(client, b"GET /bookings/B000000"))
            client.close()
            host.end()


def read_booking(client: socket.socket) -> dict:
    """The booking that a last request was answered, after which the connection ends in order."""
    got = b""
    while piece := client.recv(65_536):
        got += piece
    client.close()
    expect(got.startswith(b"HTTP/1.1 201 Created\r\n"), "a reservation was answered %r" % got)
    return json.loads(got.split(b"\r\n\r\n", 1)[1])


def two_at_once(program: str):
    """Two connections with a reservation each, of which the first sends its end only once the second was answered. Both
    are let go while the host serves a third, and at its end the books have both, at different places. A host of one
    thread, or one that serves under its listener's lock, answers one alone."""
    with Host(program, 3, 2, more=["--export"]) as host:
        first, second = host.connect(), host.connect()
        first.sendall(RESERVES[:40])
        time.sleep(0.3)
        second.sendall(RESERVES)
        bookings = [read_booking(second)]
        first.sendall(RESERVES[40:])
        bookings.append(read_booking(first))
        third = host.connect()
        bookings.append(asked(third, b"GET /bookings/B000001"))
        third.close()
        output, notes = host.process.communicate(timeout=SECONDS)
    ids = [booking["id"] for booking in bookings]
    expect(ids == ["B000000", "B000001", "B000001"] and bookings[1] == bookings[2], "the bookings are %r" % bookings)
    rows = [row.split(" ")[2:5] + row.split(" ")[6:] for row in notes.decode().split("\n")[1:3]]
    wanted = [["0", "P", "1", "1100", "1", "4.0.2"], ["0", "P", "1", "1100", "1", "5.0.2"]]
    expect((host.process.returncode, output, rows) == (0, b"", wanted), "it ended with %d, %r, %r" %
           (host.process.returncode, output, notes))


def side_by_side(program: str):
    """While clients hold all workers but one in the middle of a request, that one serves others; then the halves are answered."""
    for workers in (2, 4):
        with Host(program, workers + 2, workers) as host:
            held = [host.connect() for _ in range(workers - 1)]
            for client in held:
                client.sendall(HALF)
            time.sleep(0.3)
            for _ in range(3):
                begin = time.monotonic()
                client = host.connect()
                client.sendall(ASKS)
                read_answer(client, UNKNOWN)
                client.close()
                expect(time.monotonic() - begin < 28, "a connection waited for another worker's client")
            for client in held:
                client.sendall(REST)
                read_answer(client, UNKNOWN)
                client.close()
            host.end()


PIDFD_GETFD = 438  # the number of this call of Linux


def listening_socket(host: Host) -> socket.socket:
    """The host's own listening socket."""
    libc = ctypes.CDLL(None, use_errno=True)
    process = os.pidfd_open(host.process.pid)
    for number in range(3, 64):
        handle = libc.syscall(PIDFD_GETFD, process, number, 0)
        if handle >= 0:
            ours = socket.socket(fileno=handle) if is_socket(handle) else os.close(handle)
            if ours and ours.getsockopt(socket.SOL_SOCKET, socket.SO_ACCEPTCONN):
                os.close(process)
                return ours
            if ours:
                ours.close()
    raise Wrong("the host's listening socket isn't found, error %d" % ctypes.get_errno())


def is_socket(handle: int) -> bool:
    return os.readlink("/proc/self/fd/%d" % handle).startswith("socket:")


def listener_that_goes(program: str):
    """The accept fails for good: the host ends with status 3, and what it sold stands in its notes, before the word of it."""
    example = "rail-export 1 18 65536\nrow 0 0 C 1 1780294500 800 1 4.1.2\n"
    wish = b'{"from":"BERN","run":1,"to":"THUN"}'
    with tempfile.NamedTemporaryFile("w", suffix=".txt") as export:
        export.write(example + "end 1\n")
        export.flush()
        with Host(program, 4, 2, more=["--from", export.name, "--export"]) as host:
            client = host.connect()
            booking = asked(client, b"POST /reservations", wish)
            listener = listening_socket(host)
            listener.shutdown(socket.SHUT_RDWR)
            listener.close()
            client.close()
            output, notes = host.process.communicate(timeout=SECONDS)
    limit = seconds_of(booking["confirmableUntil"])
    wanted = example + "row 1 0 P 1 %d 600 1 12.0.1\nend 2\nrail_host: read fault\n" % limit
    got = (host.process.returncode, output, notes.decode())
    expect(got == (3, b"", wanted), "it ended with %r and not with the export and the note %r" % (got, wanted))


def main() -> int:
    program = os.path.abspath(sys.argv[1])
    parts = [ticks, refusals, ahead, long_answers, late_reader, handles, expiry, late_at_the_start]
    parts += [two_at_once, side_by_side, listener_that_goes, time_limits, dripped]
    for part in parts:
        try:
            part(program)
        except (Wrong, OSError, subprocess.TimeoutExpired) as failure:
            print("%s: %s" % (part.__name__, failure))
            return 1
    print("%d tries of serve over sockets, as wanted" % len(parts))
    return 0


if __name__ == "__main__":
    sys.exit(main())

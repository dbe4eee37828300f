"""Streams of requests as RFC 9112 has them, at their limits and one past them, whole and in pieces of every size.

  streams.py PROGRAM

Each stream has the requests that its row says, and after them what its row says: an answer for each, and one for what
ends the connection. The model reads it so too. It comes to `replay` in reads of 1, 2, 3 and 7 bytes and whole
(`standard.c`), and to `serve` over connections that are cut up by their clients, of which some read a byte at a time.
Last, clients that send in pieces and read a byte at a time get long answers whole.

It needs cc and glibc, since `standard.c` stands before the C library.
"""
import concurrent.futures
import contextlib
import json
import os
import pathlib
import socket
import subprocess
import sys
import tempfile

HERE = pathlib.Path(__file__).resolve().parent
sys.path[:0] = [str(HERE.parent / "model"), str(HERE.parent / "host")]
from sockets import Host, Wrong, expect  # noqa: E402
from standard import INPUT_CUT, INPUT_REFUSED, Standard  # noqa: E402
from wire import read_requests  # noqa: E402

SIZES = [1, 2, 3, 7, 1_000_000]
WORKERS = 8
LONG = 4_000  # bytes of a stream that isn't sent over a connection a byte at a time
LONG_SIZES = [1_000, 1_000_000]
LIST_SIZES = [1, 2, 3, 7, 60, 1_000_000]

GET = b"GET / HTTP/1.1\r\n"
LAST = b"GET / HTTP/1.0\r\n\r\n"
OFFERS = b"POST /offers HTTP/1.1\r\n"
SWEEPS = b"POST /sweeps HTTP/1.%d\r\nRetailer-Key: north\r\n"

# Streams, how many requests they have, and what comes after these: the end, what isn't whole, a fault, or bytes behind
# the last request of a connection, which are left unread. A head has 16,384 bytes at most and 64 lines after its first;
# a body has 262,144 at most.
STREAMS = [
    (b"", 0, "End"),
    (b"\r\n\n\r\n", 0, "End"),
    (b"\n" * 16_383, 0, "End"),
    (b"\r", 0, "Cut"),
    (b"\r\r\n", 0, "Cut"),
    (b"NO HEAD\r\n", 0, "Cut"),
    (GET + b"\r\n", 1, "End"),
    (b"\r\n\nGET / HTTP/1.1\n\n\nGET / HTTP/1.1\n\r\n", 2, "End"),
    (LAST + GET + b"\r\n", 1, "Last"),
    (GET + b"Connection: keep-alive, Close\r\n\r\nGET", 1, "Last"),
    (GET + b"Connection: closed\r\n\r\n", 1, "End"),
    (GET + b"Content-Length: 3\r\ncontent-length: 03\r\n\r\nabcGET", 1, "Cut"),
    (GET + b"a: b\r\n" * 64 + b"\r\n", 1, "End"),
    (GET + b"a: " + b"b" * 16_361 + b"\r\n\r\n", 1, "End"),
    (GET + b"a: " + b"b" * 16_364, 0, "Cut"),
    (GET + b"Content-Length: 262144\r\n\r\n" + b"x" * 262_144, 1, "End"),
    (GET + b"Content-Length: 262144\r\n\r\n" + b"x" * 262_143, 0, "Cut"),
    (b"GET / HTTP/1.2\r\n\r\n", 0, "BadHead"),
    (b"GET /\r\n\r\n", 0, "BadHead"),
    (b"GET\r\n\r\n", 0, "BadHead"),
    (GET + b"no colon\r\n\r\n", 0, "BadHead"),
    (GET + b"a: b\0c\r\n\r\n", 0, "BadHead"),
    (b"\n" * 16_384, 0, "HeadTooLarge"),
    (GET + b"a: b\r\n" * 65, 0, "HeadTooLarge"),
    (GET + b"a: b\r\n" * 65 + b"\r\n", 0, "HeadTooLarge"),
    (b"NO HEAD\r\n" + b"no line\r\n" * 65, 0, "HeadTooLarge"),
    (GET + b"a: " + b"b" * 16_362 + b"\r\n\r\n", 0, "HeadTooLarge"),
    (GET + b"a: " + b"b" * 16_365, 0, "HeadTooLarge"),
    (b"GET /" + b"a" * 16_379, 0, "HeadTooLarge"),
    (GET + b"Transfer-Encoding: chunked\r\nContent-Length: x\r\n\r\n", 0, "Coding"),
    (OFFERS + b"Transfer-Encoding: chunked\r\n\r\n", 0, "Coding"),
    (GET + b"Content-Length: 3\r\nContent-Length: 4\r\n\r\nabcd", 0, "BadLength"),
    (GET + b"Content-Length: 262145\r\nContent-Length: x\r\n\r\n", 0, "BadLength"),
    (GET + b"Content-Length: 00000000003\r\n\r\nabc", 0, "BadLength"),
    (GET + b"Content-Length: +3\r\n\r\nabc", 0, "BadLength"),
    (GET + b"Content-Length:\r\n\r\n", 0, "BadLength"),
    (OFFERS + b"Content-Length: \r\n\r\nabc", 0, "BadLength"),
    (OFFERS + b"Content-Length: 262145\r\n\r\n", 0, "BodyTooLarge"),
    (SWEEPS % 0 + b"\r\n" + SWEEPS % 1 + b"\r\n", 1, "Last"),
    (SWEEPS % 1 + b"Connection: keep-alive, Close\r\n\r\n" + SWEEPS % 1 + b"\r\n", 1, "Last"),
]

# What ends a connection, with its answer.
FAULTS = {
    "BadHead": ("400 Bad Request", '{"code":"BadHead","status":400,"title":"Bad head"}'),
    "HeadTooLarge": ("431 Request Header Fields Too Large",
                     '{"code":"HeadTooLarge","status":431,"title":"Head too large"}'),
    "Coding": ("501 Not Implemented", '{"code":"Coding","status":501,"title":"Coding not supported"}'),
    "BadLength": ("400 Bad Request", '{"code":"BadLength","status":400,"title":"Bad length"}'),
    "BodyTooLarge": ("413 Content Too Large", '{"code":"BodyTooLarge","status":413,"title":"Body too large"}'),
}
NO_RETAILER = ("401 Unauthorized", '{"code":"NoRetailer","status":401,"title":"No retailer"}')
SWEPT = ("200 OK", '{"expired":0,"lost":0,"waiting":0}')


def answer(said: tuple, last: bool) -> bytes:
    """The bytes of an answer."""
    status, body = said
    media = "json" if status.startswith("2") else "problem+json"
    close = "Connection: close\r\n" if last else ""
    head = "HTTP/1.1 %s\r\nContent-Type: application/%s\r\nContent-Length: %d\r\n%s\r\n"
    return (head % (status, media, len(body), close) + body).encode()


def answers_to(row: tuple) -> bytes:
    """A row's answers. A request without a key is one of no retailer, and a sweep finds nothing to do."""
    stream, count, after = row
    to_each = SWEPT if b"Retailer-Key" in stream else NO_RETAILER
    answers = [answer(to_each, after == "Last" and number == count - 1) for number in range(count)]
    if after in FAULTS:
        answers.append(answer(FAULTS[after], True))
    return b"".join(answers)


def outcome_of(row: tuple) -> tuple:
    """The status, the answers and the note of a row."""
    after = row[2]
    if after in FAULTS:
        return 6, answers_to(row), INPUT_REFUSED
    return (6, answers_to(row), INPUT_CUT) if after == "Cut" else (0, answers_to(row), "")


def by_the_model(standard: Standard):
    """What the model reads of each stream."""
    for stream, count, after in STREAMS:
        requests, rest = read_requests(stream)
        wanted = (count, "Closed" if after == "Last" else after)
        standard.check("the model: %r" % stream[:60], (len(requests), rest.value), wanted)


def over_standard_input(standard: Standard):
    for number, row in enumerate(STREAMS):
        for size in SIZES:
            got = standard.run("replay k1.json", row[0], size=size)[:3]
            standard.check("stream %d, by %d: %r" % (number, size, row[0][:60]), got, outcome_of(row))


def send_pieces(client: socket.socket, data: bytes, size: int):
    """Sends all of it in pieces, unless the host ends the connection before, and then no more."""
    with contextlib.suppress(ConnectionError, OSError):
        for at in range(0, len(data), size):
            client.sendall(data[at:at + size])
        client.shutdown(socket.SHUT_WR)


def read_pieces(client: socket.socket, size: int) -> bytes:
    """All that comes, in pieces of so many bytes at most, until the connection ends."""
    pieces = []
    with contextlib.suppress(ConnectionError):
        while piece := client.recv(size):
            pieces.append(piece)
    client.close()
    return b"".join(pieces)


def asked(host: Host, data: bytes, size: int, reads: int) -> bytes:
    """What a client gets that sends and reads so."""
    client = host.connect()
    client.setsockopt(socket.SOL_SOCKET, socket.SO_RCVBUF, 2_048)
    send_pieces(client, data, size)
    return read_pieces(client, reads)


def over_connections(program: str) -> int:
    """Each stream at once with others, some of whose clients read a byte at a time."""
    plays = [(row, size, reads) for row in STREAMS
             for size, reads in zip(SIZES if len(row[0]) < LONG else LONG_SIZES, [1, 65_536, 1, 65_536, 1])]
    with Host(program, len(plays), WORKERS) as host, concurrent.futures.ThreadPoolExecutor(WORKERS) as pool:
        gets = [pool.submit(asked, host, row[0], size, reads) for row, size, reads in plays]
        for (row, size, _), got in zip(plays, gets):
            expect(got.result() == answers_to(row), "%r by %d over a connection: %r" %
                   (row[0][:60], size, got.result()[:200]))
        host.end()
    return len(plays)


def slow_readers(program: str) -> int:
    """Lists of places, asked for in pieces of each size, and read a byte at a time."""
    case = json.loads((HERE.parent / "cases" / "list-of-forty-places.json").read_text(encoding="utf-8"))
    data, wanted = case["stdin"].encode("latin-1") * 3, case["stdout"].encode("latin-1") * 3
    with tempfile.TemporaryDirectory() as folder:
        catalogue = os.path.join(folder, "k.json")
        pathlib.Path(catalogue).write_text(case["files"][case["words"][1]], encoding="latin-1")
        with Host(program, len(LIST_SIZES), WORKERS, catalogue=catalogue) as host, \
                concurrent.futures.ThreadPoolExecutor(WORKERS) as pool:
            for size, got in [(size, pool.submit(asked, host, data, size, 1)) for size in LIST_SIZES]:
                expect(got.result() == wanted, "by %d, read a byte at a time: other answers than the case has" % size)
            host.end()
    return len(LIST_SIZES)


def main() -> int:
    program = sys.argv[1]
    with tempfile.TemporaryDirectory() as name:
        standard = Standard(program, pathlib.Path(name))
        by_the_model(standard)
        over_standard_input(standard)
    connections = over_connections(program) + slow_readers(program)
    return standard.end("%d streams: %d runs at standard input, %d connections" %
                        (len(STREAMS), standard.runs, connections))


if __name__ == "__main__":
    try:
        sys.exit(main())
    except (Wrong, OSError, subprocess.SubprocessError) as error:
        sys.exit("streams.py: %s" % error)

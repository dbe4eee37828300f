"""Calls of the system that are cut short, are interrupted, or fail, each in its turn.

  interrupts.py PROGRAM

At standard input and output (`standard.c`) the usual life comes in pieces of each size, and goes out a byte at a time.
Up to a thousand interrupts of each call change nothing, and one more is a fault. Each read fails in its turn: the
requests that are whole before it are answered, and no more. Each write fails in its turn: what goes out is a beginning
of the answers. Nothing is read behind the last request but what came with it.

At sockets (`calls.c`) each call of a connection fails in its turn, while a retailer reserves, confirms and collects. It
gets a beginning of the defined answers. The export at the host's end then has the booking as it was answered last, or
as the one request after that leaves it. Last, calls are cut short and interrupted by chance.

It needs cc and glibc, since both libraries stand before the C library.
"""
import json
import os
import pathlib
import re
import subprocess
import sys
import tempfile

from calls import Calls, ERRORS, read_all, try_seed
from sockets import SECONDS, Wrong, expect
from standard import INPUT_CUT, READ_FAULT, START, WRITE_FAULT, Standard
from wire import read_request

CASES = pathlib.Path(__file__).resolve().parent.parent / "cases"
SIZES = [1, 2, 3, 7, 1_000_000]
READ_SIZE, WRITE_SIZE = 64, 100
MOST_INTERRUPTS = 1_000
REPLAY = "replay k1.json --start %s --tick 60" % START
TINY = b'POST /reservations HTTP/1.1\r\nHost: h\r\nContent-Length: 17\r\n\r\n{"from":0,"to":2}'
TINY_HEAD = b"HTTP/1.1 201 Created\r\nContent-Type: application/json\r\nContent-Length: 27\r\n\r\n"
SOLD = TINY_HEAD + b'{"from":0,"place":0,"to":2}'

# Streams of requests, how many bytes a read gives, and how many are left unread at the end.
ONE = b"GET / HTTP/1.0\r\n\r\nbehind"
TWO = b"GET / HTTP/1.1\r\n\r\nGET / HTTP/1.0\r\n\r\nbehind"
BODY = b"PUT / HTTP/1.0\r\nContent-Length: 2\r\n\r\nhibehind"
LEFT = [(ONE, 1, 6), (ONE, 7, 3), (TWO, 1, 6), (TWO, 18, 6), (TWO, 20, 2), (TWO, 36, 6), (TWO, 42, 0), (BODY, 1, 6),
        (BODY, 7, 3)]

# The life of a booking over a socket: what is asked, and what is answered. A # stands for a digit of its limit.
BOOKING = ('{"confirmableUntil":"####-##-##T##:##:##Z","id":"B000000",'
           '"price":{"amount":600,"currency":"EUR","scale":2},'
           '"reservations":[{"coach":1,"from":"BERN","place":11,"run":1,"to":"THUN","train":812}],'
           '"settled":false,"status":"%s"}')
ROUTES = [
    ("POST /reservations", '{"from":"BERN","run":1,"to":"THUN"}', "201 Created", BOOKING % "PREBOOKED"),
    ("POST /bookings/B000000/fulfillments", "", "200 OK", BOOKING % "CONFIRMED"),
    ("PATCH /bookings/B000000/fulfillments", '{"status":"FULFILLED"}', "200 OK", BOOKING % "FULFILLED"),
]
LETTERS = [None, "P", "C", "F"]
FAILING = 30  # more calls than a connection makes, unless its host looks in vain for what comes
SEEDS = 10


def request(line: str, body: str) -> bytes:
    head = "%s HTTP/1.1\r\nRetailer-Key: north\r\nContent-Length: %d\r\n\r\n" % (line, len(body))
    return (head + body).encode()


def answer(status: str, body: str) -> bytes:
    head = "HTTP/1.1 %s\r\nContent-Type: application/json\r\nContent-Length: %d\r\n\r\n" % (status, len(body))
    return (head + body).encode()


ASKED = [request(line, body) for line, body, _, _ in ROUTES]
ANSWERED = [answer(status, body) for _, _, status, body in ROUTES]


def usual_life() -> tuple:
    """The bytes of the usual life and of its answers, as its case has them."""
    case = json.loads((CASES / "usual-life.json").read_text(encoding="utf-8"))
    return case["stdin"].encode("latin-1"), case["stdout"].encode("latin-1")


def ends_of_requests(data: bytes) -> list:
    """Where each request of these bytes ends."""
    ends, at = [], 0
    while at < len(data):
        _, at = read_request(data, at, len(ends) + 1)
        ends.append(at)
    return ends


def ends_of_answers(data: bytes) -> list:
    """Where each answer of these bytes ends, from the beginning on, where none does."""
    ends = [0]
    while ends[-1] < len(data):
        body = data.index(b"\r\n\r\n", ends[-1]) + len(b"\r\n\r\n")
        length = re.search(rb"Content-Length: (\d+)", data[ends[-1]:body])
        ends.append(body + int(length.group(1)))
    return ends


def pieces(standard: Standard, asked: bytes, answered: bytes):
    for size in SIZES:
        standard.check("in pieces of %d" % size, standard.run(REPLAY, asked, size=size)[:3], (0, answered, ""))


def interrupts(standard: Standard, asked: bytes, answered: bytes):
    """Each read, and each write, is interrupted so often before it is made."""
    for count in (1, MOST_INTERRUPTS):
        for told in ({"input_interrupts": count}, {"output_interrupts": count}):
            got = standard.run(REPLAY, asked, size=READ_SIZE, **told)[:3]
            standard.check("after %d interrupts: %s" % (count, told), got, (0, answered, ""))
    count = MOST_INTERRUPTS + 1
    got = standard.run(REPLAY, asked, input_interrupts=count)[:3]
    standard.check("a read after too many", got, (3, b"", READ_FAULT))
    got = standard.run(REPLAY, asked, output_interrupts=count)[:3]
    standard.check("a write after too many", got, (4, b"", WRITE_FAULT))


def failing_reads(standard: Standard, asked: bytes, answered: bytes):
    """What is whole in the bytes before the read that fails is answered, and no more. The last read finds the end."""
    requests, answers = ends_of_requests(asked), ends_of_answers(answered)
    reads = -(-len(asked) // READ_SIZE)
    for number in range(1, reads + 3):
        read = (number - 1) * READ_SIZE
        whole = sum(end <= read for end in requests)
        wanted = (3, answered[:answers[whole]], READ_FAULT) if number <= reads + 1 else (0, answered, "")
        got = standard.run(REPLAY, asked, size=READ_SIZE, read=number)[:3]
        standard.check("read %d fails" % number, got, wanted)


def failing_writes(standard: Standard, asked: bytes, answered: bytes):
    """A beginning of the answers goes out, and more of them with each write."""
    before, number = -1, 1
    while True:
        status, output, note, _ = standard.run(REPLAY, asked, size=WRITE_SIZE, write=number)
        if (status, output, note) == (0, answered, ""):
            break
        grows = before < len(output) <= before + 1 + WRITE_SIZE and output == answered[:len(output)]
        standard.check("write %d fails" % number, (status, grows, note), (4, True, WRITE_FAULT))
        if not grows:
            break
        before, number = len(output), number + 1
    standard.check("writes of all answers", number > len(answered) // WRITE_SIZE, True)


def tiny(standard: Standard):
    """The same of `tiny`, whose answers go out by a call each, head and body together; each front of a request; and
    notes that can't be written."""
    standard.check("tiny: read 1 fails", standard.run("tiny 3 2", TINY, read=1)[:3], (3, b"", READ_FAULT))
    standard.check("tiny: read 2 fails", standard.run("tiny 3 2", TINY, read=2)[:3], (3, SOLD, READ_FAULT))
    standard.check("tiny: write 1 fails", standard.run("tiny 3 2", TINY, write=1)[:3], (4, b"", WRITE_FAULT))
    got = standard.run("tiny 3 2", TINY * 2, write=2)[:3]
    standard.check("tiny: two answers by two writes", got, (4, SOLD, WRITE_FAULT))
    head = standard.run("tiny 3 2", TINY, write=2, size=len(TINY_HEAD))[:3]
    standard.check("tiny: write 2 fails", head, (4, TINY_HEAD, WRITE_FAULT))
    for length in range(len(TINY)):
        wanted = (6, b"", INPUT_CUT) if length else (0, b"", "")
        standard.check("tiny: %d bytes" % length, standard.run("tiny 3 2", TINY[:length])[:3], wanted)
    with open("/dev/full", "wb") as full:
        standard.check("tiny: no notes", standard.run("tiny 3 2", TINY, notes=full)[:2], (0, SOLD))
        got = standard.run("tiny 3 2", TINY, notes=full, write=1)[:2]
        standard.check("tiny: write 1 and the note fail", got, (4, b""))


def no_more_than_needed(standard: Standard):
    """What stands behind the last request is left unread, but for what came with the end of that request."""
    for data, size, left in LEFT:
        status, _, note, got = standard.run("replay k1.json", data, size=size)
        standard.check("%r by %d" % (data, size), (status, note, got), (0, "", left))


def is_beginning(got: bytes, wanted: bytes) -> bool:
    """Whether the bytes are a beginning of the answers, in which # stands for a digit."""
    digits = b"0123456789"
    fits = all(byte == other or other == ord("#") and byte in digits for byte, other in zip(got, wanted))
    return fits and len(got) <= len(wanted)


def live(host) -> bytes:
    """Sends each request once the one before is answered, and gives all that comes."""
    client, got = host.connect(), b""
    try:
        for number, asked in enumerate(ASKED):
            client.sendall(asked)
            wanted = len(b"".join(ANSWERED[:number + 1]))
            while len(got) < wanted:
                piece = client.recv(1 << 16)
                if not piece:
                    return got
                got += piece
    except ConnectionError:
        return got
    finally:
        client.close()
    return got


def ended(host) -> tuple:
    """The status of a host that has ended, and the letter of its booking in the export. None where there is none."""
    output, notes = host.process.communicate(timeout=SECONDS)
    expect(output == b"" and notes.startswith(b"rail-export 1 "), "the host ended with %r and %r" % (output, notes))
    row = re.search(rb"\nrow 0 0 ([A-Za-z]) 1 \d+ 600 1 12\.0\.1\nend 1\n$", notes)
    expect(row or notes.endswith(b"\nend 0\n"), "the export is %r" % notes)
    return host.process.returncode, row.group(1).decode() if row else None


def failing_calls(calls: Calls):
    """Each call of a connection fails in its turn."""
    with calls.host(1) as host:
        expect(is_beginning(live(host), b"".join(ANSWERED)), "without failures: other answers than the defined ones")
        expect(ended(host) == (0, "F"), "without failures: the booking isn't collected")
    met = set()
    for number in range(1, FAILING + 1):
        told = {"fail": number, "error": ERRORS[number % len(ERRORS)]}
        with calls.host(1, **told) as host:
            got = live(host)
            expect(is_beginning(got, b"".join(ANSWERED)), "call %d fails: got %r" % (number, got))
            whole = sum(len(b"".join(ANSWERED[:count])) <= len(got) for count in (1, 2, 3))
            status, letter = ended(host)
            done = LETTERS.index(letter)
            if whole < len(ASKED):
                met.add(done - whole)
            expect(status == 0 and done in (whole, whole + 1),
                   "call %d fails: status %d, %d answers, the booking is %s" % (number, status, whole, letter))
    expect(met == {0, 1}, "of %d failing calls none was met before its command, or none after" % FAILING)


def main() -> int:
    program = sys.argv[1]
    with tempfile.TemporaryDirectory() as name:
        folder = pathlib.Path(name)
        standard, life = Standard(program, folder), usual_life()
        for part in (pieces, interrupts, failing_reads, failing_writes):
            part(standard, *life)
        tiny(standard)
        no_more_than_needed(standard)
        calls = Calls(program, folder, False)
        for seed in range(1, SEEDS + 1):
            try_seed(calls, seed)
        calls.catalogue, calls.words = folder / "k1.json", ["--export"]
        failing_calls(calls)
    return standard.end("%d runs at standard input and output, %d failing calls at sockets, %d seeds" %
                        (standard.runs, FAILING, SEEDS))


if __name__ == "__main__":
    try:
        sys.exit(main())
    except (Wrong, OSError, subprocess.SubprocessError) as error:
        sys.exit("interrupts.py: %s" % error)

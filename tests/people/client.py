#!/usr/bin/env python3
"""Runs examples/client.py over a host that a fault stands before: each fault at each of its first requests, TLS, and
nothing that listens; what it makes of a day's offers, of bookings that it kept, and of the operator's trains; and codes
that nobody was answered.

  tests/people/client.py PROGRAM

The client has to end well, and its table has to show each step. What it lost on the way it has found or made again,
once: there is no place for a booking that was made twice.
"""
import concurrent.futures
import datetime
import json
import pathlib
import subprocess
import sys
import tempfile

from bridge import FAULTS, Bridge

ROOT = pathlib.Path(__file__).resolve().parents[2]
sys.path.append(str(ROOT / "tests"))
from ports import free_port  # noqa: E402

START = "2026-06-01T06:00:00Z"
# Of a life without faults: bookings, confirmations, collection, refund, exchange and release.
CHANGES = (2, 3, 4, 6, 8, 9, 12, 15, 16)
BOOKINGS = (2, 8, 15)
# So many bookings does a life make: one that is refunded, one that is exchanged, its successor, and one to release.
MADE = 4
TRIP = ["--earliest", START, "--origin", "BASEL", "--destination", "THUN"]
DAY = ["--earliest", START, "--origin", "CAPE", "--destination", "BORDER", "--timetable"]
# Without this train another offer is worth showing, which it beat.
SOLD_OUT_RUN, SEATS = 5, 160


def run_client(*words):
    command = [sys.executable, str(ROOT / "examples" / "client.py"), *map(str, words)]
    return subprocess.run(command, capture_output=True, text=True, timeout=120)


def client(port, *words):
    return run_client("--port", port, *TRIP, *words)


def ask(bridge, method, path, body=None):
    """A request past the client and its faults: the status and what was answered."""
    data = json.dumps(body).encode() if body else b""
    head = "%s %s HTTP/1.1\r\nRetailer-Key: north\r\nContent-Length: %d\r\n\r\n" % (method, path, len(data))
    answer = bridge.replay.answer(head.encode() + data)
    return int(answer[9:12]), json.loads(answer.split(b"\r\n\r\n", 1)[1])


def faults_of(program, catalogue, name, at):
    """What is wrong with a life whose request `at` meets the fault."""
    bridge = Bridge(program, catalogue, START, fault=lambda number, method, target: name if number == at else None)
    try:
        done = client(bridge.port())
        if done.returncode != 0:
            yield "status %d: %s" % (done.returncode, done.stderr.strip())
        if bridge.faults != [name]:
            yield "the fault was met %d times" % len(bridge.faults)
        steps = [("confirm", "CONFIRMED"), ("collect", "FULFILLED"), ("refund", "REFUNDED"), ("release", "RELEASED")]
        for step, state in steps:
            if not any(line.startswith(step) and state in line for line in done.stdout.splitlines()):
                yield "no %s that came to %s" % (step, state)
        if "replaced by" not in done.stdout:
            yield "no exchange"
        if ("look for it" in done.stdout) != (at in BOOKINGS and name not in ("busy", "no memory")):
            yield "it looked for a lost booking, or didn't"
        if ask(bridge, "GET", "/bookings/B%06d" % (MADE - 1))[0] != 200:
            yield "there are too few bookings"
        if ask(bridge, "GET", "/bookings/B%06d" % MADE)[0] != 404:
            yield "a booking was made twice"
    finally:
        bridge.close()


def lost_far_away(program, catalogue):
    """The client's first booking is lost on a host that has made 300: it is found when the next one shows where."""
    bridge = Bridge(program, catalogue, START, fault=lambda number, method, target: "lost" if number == 2 else None)
    try:
        for number in range(300):
            ask(bridge, "POST", "/reservations", {"run": 1, "from": "BERN", "to": "THUN"})
            ask(bridge, "DELETE", "/bookings/B%06d" % number)
        done = client(bridge.port())
        if done.returncode != 0 or done.stdout.count("look for it") != 2:
            yield "status %d: %s\n%s" % (done.returncode, done.stderr.strip(), done.stdout)
        states = [ask(bridge, "GET", "/bookings/B%06d" % number)[1]["status"] for number in (300, 301)]
        if states != ["RELEASED", "REFUNDED"]:
            yield "the lost booking and the one after it are %s" % states
    finally:
        bridge.close()


def kept_bookings(program, folder):
    """A kept booking is looked at before it is used, and is compared with what was kept."""
    catalogue, kept = ROOT / "examples" / "k1.json", folder / "kept.json"
    bridge = Bridge(program, catalogue, START)
    try:
        for turn, wanted in enumerate(["step", "kept              GET /bookings/B000002", "GET /bookings/B000006"]):
            done = client(bridge.port(), "--keep", kept)
            before = done.stdout.split("search")[0]
            if done.returncode != 0 or wanted not in before or before.count("CONFIRMED") != turn:
                yield "run %d with kept bookings: %s\n%s" % (turn, done.stderr.strip(), done.stdout)
    finally:
        bridge.close()
    # Another host, where the first of the kept ids is another booking of the same retailer.
    bridge = Bridge(program, catalogue, START)
    try:
        for _ in range(3):
            ask(bridge, "POST", "/reservations", {"run": 1, "from": "BERN", "to": "THUN"})
        done = client(bridge.port(), "--keep", kept)
        if done.returncode != 1 or "B000002 is another booking now" not in done.stderr:
            yield "status %d of a host that began anew: %s" % (done.returncode, done.stderr.strip())
        if "POST" in done.stdout:
            yield "it went on with a host that began anew"
    finally:
        bridge.close()


def whole_day(catalogue):
    """All trips of the day from CAPE to BORDER by the plain model, but those that want the sold out train."""
    sys.path.insert(0, str(ROOT / "tests" / "model"))
    import catalogue as texts
    import moments
    import offers

    read = texts.read_catalogue(catalogue.read_bytes())
    from_station = {}
    for segment in offers.all_segments(read):
        from_station.setdefault(offers.origin(read, segment), []).append(segment)
    earliest = moments.read_moment(START)
    chains = [[s] for s in from_station["CAPE"] if offers.departure(read, s) >= earliest]
    found = list(chains)
    for _ in range(2):
        pairs = [(c, s) for c in chains for s in from_station[offers.destination(read, c[-1])]]
        chains = [c + [s] for c, s in pairs if offers.may_follow(read, c, s)]
        found += chains
    for chain in found:
        if offers.destination(read, chain[-1]) != "BORDER" or any(s.run == SOLD_OUT_RUN for s in chain):
            continue
        depart, arrive = offers.departure(read, chain[0]), offers.arrival(read, chain[-1])
        # Two adults and a child, by the fare that all runs of the country have.
        legs = [s.span.end - s.span.start for s in chain]
        yield -depart, arrive, len(chain), sum(2 * (400 + 300 * n) + (400 + 300 * n) // 2 for n in legs)


def best_of(trips):
    """What no other trip beats in departure, arrival, trains and price."""
    kept = set()
    for trip in set(trips):
        if not any(all(a <= b for a, b in zip(other, trip)) for other in kept):
            kept = {other for other in kept if not all(a <= b for a, b in zip(trip, other))} | {trip}
    return sorted((-depart, arrive, price) for depart, arrive, _, price in kept)


def seconds_of(text):
    return int(datetime.datetime.fromisoformat(text.replace("Z", "+00:00")).timestamp())


def day_of_offers(program):
    """A whole day, of which one train is sold out, beside the plain model's."""
    catalogue = ROOT / "examples" / "country.json"
    bridge = Bridge(program, catalogue, START)
    try:
        for _ in range(SEATS // 8):
            party = {"run": SOLD_OUT_RUN, "count": 8, "from": "HARBOUR", "to": "SUMMIT"}
            status, _ = ask(bridge, "POST", "/reservations", party)
            if status != 201:
                yield "the train can't be sold out: %d" % status
        done = run_client("--port", bridge.port(), *DAY)
    finally:
        bridge.close()
    shown = []
    for line in done.stdout.splitlines()[2:-1]:
        depart, arrive, price = line.split()[:3]
        shown.append((seconds_of(depart), seconds_of(arrive), int(price.replace(".", ""))))
    wanted = best_of(whole_day(catalogue))
    if done.returncode != 0 or sorted(shown) != wanted:
        yield "a day's offers: %d are shown where there are %d: %s" % (len(shown), len(wanted), done.stderr.strip())


def made_up_codes(program):
    """Codes that were never answered, as docs/retailers.md has them under "Ids and limits"."""
    train, seat = {"run": 0, "from": "BASEL", "to": "BERN"}, {"run": 1, "from": "BERN", "to": "THUN"}
    # At 07:10:00 and one second later with each request: 11.00 paid, and nothing worth since 07:00.
    bridge = Bridge(program, ROOT / "examples" / "k1.json", "2026-06-01T07:10:00Z")
    try:
        ask(bridge, "POST", "/reservations", train)
        ask(bridge, "POST", "/bookings/B000000/fulfillments")
        quoted = ask(bridge, "POST", "/bookings/B000000/refund-offers")[1]["amount"]["amount"]
        made_up = "/bookings/B000000/refund-offers/R0-1780297199-C-825"
        paid = ask(bridge, "PATCH", made_up, {"status": "CONFIRMED"})[1]["endAmount"]["amount"]
        if (quoted, paid) != (0, 825):
            yield "a quote of %d, and %d paid for one that was never asked for" % (quoted, paid)
    finally:
        bridge.close()
    # The train leaves at 08:00. At 08:15:00 its offer of 08:00:00 is 900 seconds old, and a second later too old.
    bridge = Bridge(program, ROOT / "examples" / "k1.json", "2026-06-01T08:15:00Z")
    try:
        offer = {"offerId": "O1780300800-1-0-2-0-0.0.2"}
        said = [ask(bridge, "POST", "/bookings", offer)[0], ask(bridge, "POST", "/bookings", offer)[0]]
        sold = ask(bridge, "POST", "/reservations", train)[0]
        if (said, sold) != ([201, 410], 201):
            yield "offers of a train that has left are answered %s, and a reservation %d" % (said, sold)
    finally:
        bridge.close()
    # At 08:29:58 a seat for 6.00 is reserved and confirmed. At 08:30:00 it is exchanged, by a quote of 08:15:00, when
    # nothing was paid back, for an offer of 08:00:00: three adults and a child, on a train that has left.
    bridge = Bridge(program, ROOT / "examples" / "k1.json", "2026-06-01T08:29:58Z")
    try:
        ask(bridge, "POST", "/reservations", seat)
        ask(bridge, "POST", "/bookings/B000000/fulfillments")
        quote = "X0-1780301700-C-p%d-O1780300800-3-1-2-0-0.0.2" % (3 * 1100 + 550 + 300)
        accepted = {"exchangeOfferId": quote}
        status, said = ask(bridge, "POST", "/bookings/B000000/exchange-operations", accepted)
        if status != 201 or len(said["booking"]["reservations"]) != 4:
            yield "an exchange for four on a train that left 1,800 seconds ago is answered %d: %s" % (status, said)
    finally:
        bridge.close()


def ticket_lines(program):
    catalogue = ROOT / "examples" / "k1.json"
    words = ["--program", program, "--catalogue", catalogue, *TRIP]
    done = run_client(*words, "--trains", catalogue)
    wanted = [
        "Ticket B000002, CONFIRMED, 17.00 EUR",
        "  2026-06-01  train 501  08:00Z BASEL - 09:00Z BERN  second class, coach 2, place 12",
        "  2026-06-01  train 812  09:10Z BERN - 09:30Z THUN  second class, coach 1, place 12",
    ]
    if done.stdout.splitlines()[-3:] != wanted:
        yield "the ticket is\n%s" % "\n".join(done.stdout.splitlines()[-3:])
    other = run_client(*words, "--trains", ROOT / "examples" / "country.json")
    if other.returncode != 1 or "its run 0 is not train 501" not in other.stderr:
        yield "a ticket by another host's trains: %s" % other.stderr.strip()
    missing = run_client(*words, "--trains", "/nowhere")
    if missing.returncode != 1 or "/nowhere can't be read as a list of trains" not in missing.stderr:
        yield "a ticket by no trains: %s" % missing.stderr.strip()


def over_tls(program, catalogue, folder):
    cert = (str(folder / "cert.pem"), str(folder / "key.pem"))
    words = "openssl req -x509 -newkey rsa:2048 -nodes -days 2 -subj /CN=localhost -addext subjectAltName=DNS:localhost"
    subprocess.run(words.split() + ["-out", cert[0], "-keyout", cert[1]], check=True, capture_output=True)
    bridge = Bridge(program, catalogue, START, cert=cert)
    try:
        done = client(bridge.port(), "--host", "localhost", "--tls", "--cacert", cert[0])
        if done.returncode != 0:
            yield "status %d: %s" % (done.returncode, done.stderr.strip())
        untrusted = client(bridge.port(), "--host", "localhost", "--tls")
        if untrusted.returncode != 1 or "CERTIFICATE_VERIFY_FAILED" not in untrusted.stderr:
            yield "a certificate that nobody signed was taken: %s" % untrusted.stderr.strip()
    finally:
        bridge.close()


def nothing_listens():
    done = client(free_port())
    if done.returncode != 1 or "client: given up after 6 tries: no connection" not in done.stderr:
        yield "status %d: %s" % (done.returncode, done.stderr.strip())


def main():
    program, found = pathlib.Path(sys.argv[1]).resolve(), []
    cases = [(name, at) for name in sorted(FAULTS) for at in (CHANGES if "lost" in name else (1, 2))]
    with tempfile.TemporaryDirectory() as name:
        folder = pathlib.Path(name)
        # Four places on the second train: enough for what a life holds at once, and for no booking beside it.
        text = (ROOT / "examples" / "k1.json").read_text()
        catalogue, roomy = folder / "k1.json", folder / "roomy.json"
        catalogue.write_text(text.replace(',\n                                                    {"first":15,"last":16,"traits":["AISLE"]}', ""))
        roomy.write_text(text.replace('"last":16', '"last":40').replace('"last":18', '"last":40'))
        with concurrent.futures.ThreadPoolExecutor(8) as crew:
            lives = crew.map(lambda case: list(faults_of(program, catalogue, *case)), cases)
        for (name, at), faults in zip(cases, lives):
            found += ["%s at request %d: %s" % (name, at, fault) for fault in faults]
        found += ["TLS: %s" % fault for fault in over_tls(program, catalogue, folder)]
        found += ["lost far away: %s" % fault for fault in lost_far_away(program, roomy)]
        found += ["kept: %s" % fault for fault in kept_bookings(program, folder)]
    found += ["nothing listens: %s" % fault for fault in nothing_listens()]
    found += ["%s" % fault for fault in day_of_offers(program)]
    found += ["%s" % fault for fault in ticket_lines(program)]
    found += ["%s" % fault for fault in made_up_codes(program)]
    for fault in found:
        print("client: " + fault)
    said = "%d lives with a fault, one over TLS, one of nothing, a lost booking far away, kept ones, a day, a ticket and codes"
    print("client: " + said % len(cases) + ": %d wrong" % len(found))
    return 1 if found else 0


sys.exit(main())

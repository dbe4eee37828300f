"""The catalogue of these checks, bookings as lines of an export, and hosts that are started and ended."""
import calendar
import datetime
import json
import os
import pathlib
import signal
import socket
import subprocess
import sys
import time

HERE = pathlib.Path(__file__).resolve().parent
sys.path[:0] = [str(HERE.parent / "model"), str(HERE.parent / "clients"), str(HERE.parent)]
from at_once import Reader, request  # noqa: E402
from ports import free_port  # noqa: E402

LETTERS = {"PREBOOKED": "P", "CONFIRMED": "C", "FULFILLED": "F", "RELEASED": "r", "EXPIRED": "e", "REFUNDED": "f", "EXCHANGED": "x"}
KEYS = [b"north", b"south", b"west"]
STATIONS = ["AARAU", "BASEL", "CHUR", "DAVOS"]
JOURNAL = "sold.journal"
LIMIT_SECONDS = 60
DAY = (datetime.date.today() + datetime.timedelta(days=2)).isoformat()


def catalogue(rows: int, runs: int = 6, places: int = 80, confirm_seconds: int = 900) -> dict:
    """Trains of the day after tomorrow, each over all stations with two coaches."""
    def run(number):
        stops = [{"station": code, "arrive": "%sT%02d:%02d:00Z" % (DAY, 6 + number, 10 * stop),
                  "depart": "%sT%02d:%02d:00Z" % (DAY, 6 + number, 10 * stop + 5)} for stop, code in enumerate(STATIONS)]
        coaches = [{"coach": coach, "class": kind, "places": [{"first": 1, "last": places}]} for coach, kind in ((1, "FIRST"), (2, "SECOND"))]
        return {"train": 100 + number, "stops": stops, "coaches": coaches,
                "fares": {"first": {"base": 1000, "perLeg": 600}, "second": {"base": 500, "perLeg": 300}}}

    return {"currency": "EUR", "rows": rows, "confirmSeconds": confirm_seconds, "ticketFee": 500, "exchangeFee": 300,
            "retailers": [{"number": number, "key": key.decode()} for number, key in enumerate(KEYS, 1)],
            "stations": [{"code": code} for code in STATIONS],
            "refundSteps": [{"before": 3600, "fee": 2500}, {"before": 0, "fee": 10000}],
            "runs": [run(number) for number in range(runs)]}


class Lines:
    """What an export says of a booking that was answered. No run of the catalogue has more than 63 legs."""

    def __init__(self, own: dict):
        runs = list(enumerate(own["runs"]))
        places = [(run, coach["coach"], number) for run, one in runs for coach in one["coaches"]
                  for group in coach["places"] for number in range(group["first"], group["last"] + 1)]
        self.places = {place: number for number, place in enumerate(places)}
        self.stops = {(run, stop["station"]): number for run, one in runs for number, stop in enumerate(one["stops"])}

    def item(self, one: dict) -> str:
        run = one["run"]
        return "%d.%d.%d" % (self.places[run, one["coach"], one["place"]], self.stops[run, one["from"]], self.stops[run, one["to"]])

    def base(self, retailer: int, booking: dict) -> tuple:
        """What stays as it is from the sale on: retailer, limit, total, count and items."""
        items = [self.item(one) for one in booking["reservations"]]
        return (str(retailer), str(seconds(booking["confirmableUntil"])), str(booking["price"]["amount"]), str(len(items)), *items)

    def end(self, booking: dict):
        """Amount, moment and successor of a booking that has ended, None of another one."""
        if not booking["settled"]:
            return None
        amount = booking["endAmount"]["amount"]
        successor = "%d.%d" % row_of(booking["successor"]) if "successor" in booking else "-"
        return ("m%d" % -amount if amount < 0 else "p%d" % amount, str(seconds(booking["endedAt"])), successor)


def row_of(name: str) -> tuple:
    row, _, generation = name[1:].partition("-")
    return int(row), int(generation or 0)


def name_of(row: int, generation: int) -> str:
    return "B%06d" % row + ("-%d" % generation if generation else "")


def seconds(moment: str) -> int:
    return calendar.timegm(time.strptime(moment, "%Y-%m-%dT%H:%M:%SZ"))


class Host:
    """A host with a journal in a folder, on a port of its own."""

    def __init__(self, program: str, folder: str, env: dict = None, prepare=None, sweep: int = 1, begins: str = None):
        self.port = free_port()
        words = [program, "serve", "k.json", "--port", str(self.port), "--journal", JOURNAL, "--workers", "16", "--sweep", str(sweep)]
        words += ["--from", begins] if begins else []
        self.process = subprocess.Popen(words, cwd=folder, env=env, preexec_fn=prepare, stdin=subprocess.DEVNULL, stdout=subprocess.DEVNULL,
                                        stderr=subprocess.PIPE)

    def has_ended(self) -> bool:
        return self.process.poll() is not None

    def listens(self) -> bool:
        line = " 0100007F:%04X 00000000:0000 0A " % self.port
        return line in pathlib.Path("/proc/net/tcp").read_text()

    def wait(self) -> bool:
        """Until it listens, or has ended: whether it listens."""
        end = time.monotonic() + LIMIT_SECONDS
        while not self.listens():
            if self.has_ended():
                return False
            if time.monotonic() > end:
                raise TimeoutError("a host neither listens nor ends")
            time.sleep(0.005)
        return True

    def end(self, number: int = signal.SIGKILL) -> tuple:
        """Its status and its note, after this signal."""
        if not self.has_ended():
            self.process.send_signal(number)
        return self.ended()

    def ended(self, limit: float = LIMIT_SECONDS) -> tuple:
        """The same of a host that ends by itself."""
        try:
            _, note = self.process.communicate(timeout=limit)
        except subprocess.TimeoutExpired:
            self.process.kill()
            self.process.communicate()
            return None, "it doesn't end"
        return self.process.returncode, note.decode("latin-1")


def connect(port: int) -> socket.socket:
    """A connection to a host that listens."""
    return socket.create_connection(("127.0.0.1", port), timeout=LIMIT_SECONDS)


def recover(program: str, folder: str, name: str = JOURNAL) -> tuple:
    """Status, output and note of `recover`."""
    done = subprocess.run([program, "recover", "k.json", name], cwd=folder, stdin=subprocess.DEVNULL, capture_output=True, timeout=LIMIT_SECONDS)
    return done.returncode, done.stdout, done.stderr.decode("latin-1")


def write(folder: str, name: str, data: bytes):
    with open(os.path.join(folder, name), "wb") as file:
        file.write(data)


def read(folder: str, name: str = JOURNAL):
    """The bytes of a file, None where there is none."""
    try:
        with open(os.path.join(folder, name), "rb") as file:
            return file.read()
    except FileNotFoundError:
        return None


def catalogue_bytes(own: dict) -> bytes:
    return json.dumps(own, separators=(",", ":")).encode("ascii")


__all__ = ["DAY", "HERE", "Host", "JOURNAL", "KEYS", "LETTERS", "LIMIT_SECONDS", "Lines", "Reader", "STATIONS", "catalogue", "catalogue_bytes",
           "connect", "name_of", "read", "recover", "request", "row_of", "seconds", "write"]

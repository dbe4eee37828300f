"""The commands of the built program, one run each: their words, their files, and devices that fail.

  commands.py PROGRAM

Every run is compared with the status, the output and the note that the documents give it.
"""
import json
import os
import resource
import socket
import struct
import subprocess
import sys
import tempfile
import time
from datetime import datetime, timedelta

sys.path.append(os.path.join(os.path.dirname(os.path.abspath(__file__)), ".."))
from ports import free_port  # noqa: E402

SECONDS = 60
REFUSED = "rail_host: words refused\n"
READ_FAULT = "rail_host: read fault\n"
WRITE_FAULT = "rail_host: write fault\n"
NO_MEMORY = "rail_host: no memory\n"
LARGEST = 33_554_432
LARGEST_EXPORT = 268_435_456
EXAMPLE = os.path.join(os.path.dirname(__file__), "..", "..", "examples", "k1.json")

TINY = b'POST /reservations HTTP/1.1\r\nHost: h\r\nContent-Length: 17\r\n\r\n{"from":0,"to":2}'
SOLD = (b"HTTP/1.1 201 Created\r\nContent-Type: application/json\r\nContent-Length: 27\r\n\r\n"
        b'{"from":0,"place":0,"to":2}')
WISH = b'{"class":"SECOND","from":"BERN","run":1,"to":"THUN","wanted":[]}'
RESERVES = (b"POST /reservations HTTP/1.1\r\nRetailer-Key: north\r\nContent-Length: %d\r\n\r\n" % len(WISH)) + WISH

# Words that say something: the clock's first reading in seconds of 1970, and the seconds from one reading to the next.
REPLAYS = [
    ("replay k1.json", 0, 0),
    ("replay k1.json --start 2026-06-01T06:00:00Z --tick 60", 1_780_293_600, 60),
    ("replay --tick=86400 --start=2026-06-01T02:00:00.9+02:00 k1.json", 1_780_272_000, 86_400),
    ("replay --tick +5 k1.json", 0, 5),
    ("replay --tick 007 k1.json", 0, 7),
    ("replay --tick=-0 k1.json", 0, 0),
    ("replay -- --tick", 0, 0),
]

# Words that name a file that isn't there: they are taken, and nothing is read of the input.
MISSING = [
    "replay ''", "replay help", "replay nothere.json --start 2099-12-31T23:59:59Z",
    "serve nothere.json --port 8080", "serve --port=1 nothere.json",
    "serve nothere.json --sweep 1 --connections 1 --workers 1 --port 65535",
    "serve nothere.json --port +7 --workers 016 --connections=4294967295 --sweep=86400",
    "serve nothere.json --port 80 --address ::", "serve nothere.json --address=10.0.0.7 --port 80",
    "serve --port 80 -- --sweep", "serve --export nothere.json --port 80", "serve nothere.json --from nothere.txt --port 80",
    "serve nothere.json --export --from= --port 80", "serve --port 80 --export -- nothere.json",
    "serve nothere.json --port 80 --from nothere.txt --journal new.journal", "recover nothere.json new.journal", "recover --help -",
]

# Words that name an export that isn't there, beside a catalogue that is.
WITHOUT_EXPORT = [
    "serve k1.json --port 80 --from nothere.txt", "serve --from=nothere.txt --export --port=80 k1.json", "serve k1.json --port 80 --from ''",
    "serve k1.json --port 80 --from -", "serve k1.json --port 80 --from=-x --export",
    "replay k1.json --from nothere.txt", "export --from=nothere.txt k1.json", "settle k1.json --help",
    "serve k1.json --port 80 --journal=new.journal --from nothere.txt", "serve k1.json --port 80 --from '' --journal new.journal",
]

WORDS_REFUSED = [
    "", "help", "--help", "--version", "Tiny 3 2", "exports k1.json", "settle", "settle k1.json", "settle k1.json x y",
    "export", "export k1.json k2.json", "export k1.json --from", "replay k1.json --from x --from x", "replay k1.json --export",
    "tiny", "tiny 3", "tiny 3 2 1", "tiny 0 2", "tiny 127 2", "tiny 03 2", "tiny +3 2", "tiny 3 0", "tiny 3 1201", "tiny 3 x",
    "tiny '' 2", "replay", "replay --help", "replay -h", "replay k1.json --help", "replay --version", "replay k1.json -V",
    "replay k1.json k2.json", "replay k1.json --tick", "replay k1.json --tick -5", "replay k1.json --tick=-5",
    "replay k1.json --tick 86401", "replay k1.json --tick 4294967296", "replay k1.json --tick 1.0",
    "replay k1.json --tick ''", "replay k1.json --tick 1 --tick 1", "replay k1.json --tic 1", "replay k1.json --start",
    "replay k1.json --start ''", "replay k1.json --start 2026-06-01", "replay k1.json --start 1969-12-31T23:59:59Z",
    "replay k1.json --start 2100-01-01T00:00:00Z", "replay --tick 1", "replay k1.json --seed 1",
    "serve", "serve k1.json", "serve --port 80", "serve k1.json --port", "serve k1.json --port 0", "serve k1.json --port 65536",
    "serve k1.json --port -1", "serve k1.json --port http", "serve k1.json k2.json --port 80",
    "serve k1.json --port 80 --port 81", "serve k1.json --port 80 --workers 0", "serve k1.json --port 80 --workers 17",
    "serve k1.json --port 80 --connections 0", "serve k1.json --port 80 --connections 4294967296",
    "serve k1.json --port 80 --sweep 0", "serve k1.json --port 80 --sweep 86401", "serve k1.json --port 80 --tick 1",
    "serve k1.json --port 80 --help", "serve --help", "serve -V", "serve k1.json --port 80 --from", "serve k1.json --port 80 --from --export",
    "serve k1.json --port 80 --from x --from x", "serve k1.json --port 80 --export --export", "serve k1.json --port 80 --export=",
    "serve k1.json --port 80 --journal", "serve k1.json --port 80 --journal x --journal x", "serve k1.json --port 80 --from x --journal --export",
    "recover", "recover k1.json", "recover k1.json x y", "replay k1.json --journal x", "export k1.json --journal x",
    "serve k1.json --port 80 --address", "serve k1.json --port 80 --address ::1 --address ::1", "serve k1.json --port 80 --address localhost",
    "serve k1.json --port 80 --address 127.0.0.1:80", "serve k1.json --port 80 --address 10.0.7", "serve k1.json --port 80 --address 10.0.0.256",
    "serve k1.json --port 80 --address [::1]", "serve k1.json --port 80 --address ::1%1", "serve k1.json --port 80 --address ''",
    "serve k1.json --port 80 --address 010.0.0.7", "serve k1.json --port 80 --window 0", "serve k1.json --port 80 --window 65536",
    "replay k1.json --address ::1", "serve k1.json --port 80 --export=true", "serve k1.json --port 80 --export true", "serve k1.json --port 80 --exp", "serve --export --port 80",
    "drill", "drill --help", "drill --seed 7 --workers 4 --size 40", "drill --seed 7 --workers 4 --places 30",
    "drill --seed 7 --size 40 --places 30", "drill --workers 4 --size 40 --places 30",
    "drill --seed 65536 --workers 4 --size 40 --places 30", "drill --seed 7 --workers 0 --size 40 --places 30",
    "drill --seed 7 --workers 17 --size 40 --places 30", "drill --seed 7 --workers 4 --size 0 --places 30",
    "drill --seed 7 --workers 4 --size 2001 --places 30", "drill --seed 7 --workers 4 --size 40 --places 0",
    "drill --seed 7 --workers 4 --size 40 --places 1201", "drill --seed 7 --workers 4 --size 40 --places 30 more",
]

# Legs 7, 0 and 3 are asked for 40, 80 and 40 times, by any number of workers; legs 0, 1 and 4 for 8,000, 16,000 and 8,000.
DRILLS = [
    ("drill --seed 7 --workers 4 --size 40 --places 30", "requests 160 sold 90 refused 70 busy 0 double 0\n"),
    ("drill --seed 7 --workers 1 --size 160 --places 30", "requests 160 sold 90 refused 70 busy 0 double 0\n"),
    ("drill --places=30 --size=10 --workers=16 --seed=7", "requests 160 sold 90 refused 70 busy 0 double 0\n"),
    ("drill --seed 0 --workers +1 --size 001 --places 1", "requests 1 sold 1 refused 0 busy 0 double 0\n"),
    ("drill --seed 0 --workers 16 --size 2000 --places 1200",
     "requests 32000 sold 3600 refused 28400 busy 0 double 0\n"),
]

# Names as long as a shell's word often is, and longer.
LONG_NAMES = ["k" * 64, "k" * 65, "folder/" + "k" * 200, "./" * 900 + "k1.json"]

# What stands in the example's place, once, and the note on it.
CATALOGUES = [
    ("{\"currency\"", "[\"currency\"", "catalogue fault 1"),
    ("\"EUR\"", "\"EURO\"", "catalogue fault 2 at currency"),
    ("\"number\":2", "\"number\":0", "catalogue fault 2 at retailers[1].number"),
    ("T08:25:00Z", "T09:25:00Z", "catalogue fault 3"),
    ("\"first\":15,\"last\":18", "\"first\":14,\"last\":18", "catalogue fault 4"),
    ("\"fee\":2500", "\"fee\":10001", "catalogue fault 5"),
    ("{\"station\":\"THUN\"", "{\"station\":\"SPIEZ\"", "catalogue fault 6"),
    ("\"south\"", "\"north\"", "catalogue fault 7"),
]

# What stands in the place of the one name of runs, what follows the whole, and the note; without one it is as the example.
DEEP = "[" * 125 + "]" * 125
RUNS = [
    ("\"runs\":[],\"runs\":", "}", ""),
    ("\"runs\":[{\"train\":0}],\"\\u0072uns\":", "}", ""),
    ("\"\\u0072uns\":7,\"runs\":", ",\"other\":{\"runs\":[]}}", ""),
    ("\"runs\":[%s],\"runs\":" % DEEP, "}", ""),
    ("\"runs\":[[%s]],\"runs\":" % DEEP, "}", "catalogue fault 1"),
    ("\"runs\":[{\"train\":1e999}],\"runs\":", "}", "catalogue fault 1"),
    ("\"runs\":[{\"train\":01}],\"runs\":", "}", "catalogue fault 1"),
    ("\"runs\":", ",\"runs\":[{}]}", "catalogue fault 2 at runs[0].train"),
    ("\"runs\":", ",\"\\u0072uns\":[]}", "catalogue fault 2 at runs"),
    ("\"runs\":", ",\"runs\":{\"train\":1}}", "catalogue fault 2 at runs"),
    ("\"runs\":", ",\"runs\":[{\"train\":1e999}]}", "catalogue fault 1"),
    ("\"runs\":", ",\"currency\":\"EURO\",\"runs\":[{}]}", "catalogue fault 2 at currency"),
    ("\"Runs\":", "}", "catalogue fault 2 at runs"),
]

# Lines of an export for the example, and the note on it.
FIRST_LINE = "rail-export 1 18 65536\n"
SOLD_LINE = "row 0 0 C 1 1780294500 800 1 4.1.2\n"
EXPORTS = [
    (FIRST_LINE + SOLD_LINE, "export fault 1"),
    (FIRST_LINE + SOLD_LINE + "end 2\n", "export fault 1"),
    ("rail-export 1 17 65536\n" + SOLD_LINE + "end 1\n", "export fault 2"),
    (FIRST_LINE + SOLD_LINE.replace("4.1.2", "4.1.3") + "end 1\n", "export fault 3"),
    (FIRST_LINE + SOLD_LINE + SOLD_LINE.replace("row 0", "row 1") + "end 2\n", "export fault 4"),
    (FIRST_LINE + SOLD_LINE.replace("C", "x").replace("\n", " p0 0 0.0\n") + "end 1\n", "export fault 5"),
]

TEXTS = [
    (b"[]", "catalogue fault 2 at "),
    (b"{", "catalogue fault 1"),
    (b"\n" * LARGEST, "catalogue fault 1"),
    (b"\n" * (LARGEST + 1), "catalogue too large"),
]

REFUSED_INPUT = b"GET / HTTP/1.1\r\nContent-Length: 3\r\nContent-Length: 4\r\n\r\nabcd"
CUT_INPUT = b"GET / HTTP/1.1\r\nContent-Length: 10\r\n\r\nbody"


def words_of(line: str) -> list:
    """The words of a line, parted by single spaces; `''` is the empty one."""
    return ["" if word == "''" else word for word in line.split(" ")] if line else []


class Runs:
    """Runs of the program in a folder of its own, and what differs."""

    def __init__(self, program: str, folder: str):
        self.program = os.path.abspath(program)
        self.folder = folder
        self.count = 0
        self.differences = []

    def run(self, line: str, data=b"", memory: int = None, **devices) -> tuple:
        """The status, the output and the note."""
        self.count += 1
        limit = (lambda: resource.setrlimit(resource.RLIMIT_AS, (memory, memory))) if memory else None
        if "stdin" not in devices:
            devices["input"] = data
        for name in ("stdout", "stderr"):
            devices.setdefault(name, subprocess.PIPE)
        try:
            done = subprocess.run([self.program] + words_of(line), cwd=self.folder, timeout=SECONDS, preexec_fn=limit, **devices)
        except subprocess.TimeoutExpired:
            return "no end in %d s" % SECONDS, b"", ""
        return done.returncode, done.stdout or b"", (done.stderr or b"").decode()

    def check(self, title: str, got, wanted):
        if got != wanted:
            self.differences.append("%s\n  got    %r\n  wanted %r" % (title, got, wanted))

    def write(self, name: str, content: bytes):
        with open(os.path.join(self.folder, name), "wb") as file:
            file.write(content)

    def holds(self, name: str) -> bool:
        """Whether the folder has the name, of a file or of a link."""
        return os.path.lexists(os.path.join(self.folder, name))

    def read(self, name: str) -> bytes:
        with open(os.path.join(self.folder, name), "rb") as file:
            return file.read()


def moment(seconds: int) -> str:
    return (datetime(1970, 1, 1) + timedelta(seconds=seconds)).strftime("%Y-%m-%dT%H:%M:%SZ")


def limits_in(output: bytes) -> list:
    """The limits of confirmation that the answers say."""
    texts = [part.split(b"\r\n\r\n", 1)[1] for part in output.split(b"HTTP/1.1 ")[1:]]
    return [json.loads(text).get("confirmableUntil") for text in texts]


def words(runs: Runs):
    for line in WORDS_REFUSED:
        runs.check(line, runs.run(line, TINY), (2, b"", REFUSED))
    for line in MISSING:
        runs.check(line, runs.run(line, TINY), (1, b"", "rail_host: catalogue missing\n"))
    for line in WITHOUT_EXPORT:
        runs.check(line, runs.run(line, TINY), (1, b"", "rail_host: export missing\n"))
    for line, start, tick in REPLAYS:
        status, output, note = runs.run(line, RESERVES * 2)
        wanted = [moment(start + 900), moment(start + tick + 900)]
        runs.check(line, (status, limits_in(output), note), (0, wanted, ""))
    runs.check("a word that isn't UTF-8", subprocess.run([runs.program, b"tiny\xff", b"3", b"2"], capture_output=True).returncode, 2)
    runs.check("the most of tiny", runs.run("tiny 126 1200", TINY), (0, SOLD, ""))


def long_words(runs: Runs):
    """Words of 64 letters and more: a catalogue's and an export's name, and names of nothing."""
    sold = runs.run("replay k1.json", RESERVES)
    with open(EXAMPLE, "rb") as file:
        example = file.read()
    for name in LONG_NAMES:
        runs.write(name, example)
        runs.check("a catalogue's name of %d letters" % len(name), runs.run("replay " + name, RESERVES), sold)
        runs.check("the same by --from", runs.run("replay k1.json --from " + name), (1, b"", "rail_host: export fault 1\n"))
        runs.check("the same, missing", runs.run("replay %s.x" % name), (1, b"", "rail_host: catalogue missing\n"))
        runs.check("the same after a whole command", runs.run("tiny 3 2 " + name, TINY), (2, b"", REFUSED))
        runs.check("the same in a number", runs.run("drill --seed %s7 --workers 1 --size 1 --places 1" % ("0" * len(name))),
                   (0, b"requests 1 sold 1 refused 0 busy 0 double 0\n", ""))


def drills(runs: Runs):
    for line, printed in DRILLS:
        runs.check(line, runs.run(line), (0, printed.encode(), ""))


def catalogues(runs: Runs):
    with open(EXAMPLE, encoding="utf-8") as file:
        example = file.read()
    runs.write("k1.json", example.encode())
    runs.write("--tick", example.encode())
    texts = [(example.replace(old, new, 1).encode(), note) for old, new, note in CATALOGUES]
    for number, (text, note) in enumerate(texts + TEXTS):
        runs.write("wrong.json", text)
        runs.check("catalogue %d" % number, runs.run("replay wrong.json", RESERVES), (1, b"", "rail_host: %s\n" % note))
    sold = runs.run("replay k1.json", RESERVES)
    for number, (name, end, note) in enumerate(RUNS):
        text = example.replace("\"runs\":", name, 1).rstrip()[:-1] + end
        runs.write("wrong.json", text.encode())
        runs.check("runs %d" % number, runs.run("replay wrong.json", RESERVES), (1, b"", "rail_host: %s\n" % note) if note else sold)
    largest(runs, example, sold)
    os.mkdir(os.path.join(runs.folder, "folder"))
    for line in ("replay folder", "serve folder --port 8080"):
        runs.check(line + ", which is no file", runs.run(line, RESERVES), (3, b"", READ_FAULT))


def largest(runs: Runs, example: str, sold: tuple):
    """Catalogues whose last byte counts, of up to three bytes less than the most, of the most, and of one byte more."""
    text = example.rstrip()
    for size in range(LARGEST - 3, LARGEST + 2):
        runs.write("large.json", text[:-1].encode() + b" " * (size - len(text)) + text[-1:].encode())
        wanted = sold if size <= LARGEST else (1, b"", "rail_host: catalogue too large\n")
        runs.check("a catalogue of %d bytes" % size, runs.run("replay large.json", RESERVES), wanted)


def exports(runs: Runs):
    """Exports that are refused, and one that is served: all that a host sold, written to its notes."""
    for number, (text, note) in enumerate(EXPORTS):
        runs.write("wrong.txt", text.encode("ascii"))
        for line in ("serve k1.json --port 8080 --from wrong.txt --export", "replay k1.json --from wrong.txt"):
            runs.check("export %d: %s" % (number, line), runs.run(line), (1, b"", "rail_host: %s\n" % note))
    line = "serve k1.json --port 8080 --from wrong.txt"
    for size, note in [(LARGEST_EXPORT, "export fault 1"), (LARGEST_EXPORT + 1, "export too large")]:
        os.truncate(os.path.join(runs.folder, "wrong.txt"), size)
        runs.check("an export of %d bytes" % size, runs.run(line), (1, b"", "rail_host: %s\n" % note))
    runs.write("refused.json", b"no JSON")
    for line in ("serve k1.json --port 8080 --from folder", "replay k1.json --from folder"):
        runs.check(line + ", which is no file", runs.run(line), (3, b"", READ_FAULT))
    runs.check("a refused catalogue goes before it", runs.run("replay refused.json --from folder"),
               (1, b"", "rail_host: catalogue fault 1\n"))
    text = FIRST_LINE + SOLD_LINE + "end 1\n"
    runs.write("x.txt", text.encode("ascii"))
    for words, wanted in [("--from x.txt --export", text), ("--from x.txt", ""), ("--export", FIRST_LINE + "end 0\n")]:
        runs.check("serve " + words, served_once(runs, words), (0, b"", wanted))
    for status, device in notes_that_fail():
        runs.check("serve --export: notes that fail, " + status, served_once(runs, "--from x.txt --export", device)[:2], (4, b""))
        runs.check("serve: notes that fail, " + status, served_once(runs, "--from x.txt", device)[:2], (0, b""))
        os.close(device)


def journals(runs: Runs):
    """Journals that begin with an export, and files that are there: beside these an export is refused, and they stay as they are."""
    text = (FIRST_LINE + SOLD_LINE + "end 1\n").encode("ascii")
    for name, content in [("x.txt", text), ("empty", b""), ("wrong.txt", text[:-1])]:
        runs.write(name, content)
    for note, wrong in [("export missing", "nothere.txt"), ("export fault 1", "wrong.txt")]:
        line = "serve k1.json --port 8080 --journal sold.journal --from " + wrong
        runs.check(line, runs.run(line), (1, b"", "rail_host: %s\n" % note))
        runs.check(line + ": the file", runs.holds("sold.journal"), False)
    for words, wanted in [("--from x.txt --journal sold.journal", ""), ("--journal sold.journal --export", text.decode())]:
        runs.check("serve " + words, served_once(runs, words), (0, b"", wanted))
        runs.check("recover after " + words, runs.run("recover k1.json sold.journal"), (0, text, ""))
    for there in ("sold.journal", "x.txt", "empty"):
        before = runs.read(there)
        for export in ("x.txt", "nothere.txt"):
            line = "serve k1.json --port 8080 --journal %s --from %s" % (there, export)
            runs.check(line, runs.run(line), (1, b"", "rail_host: journal exists\n"))
            runs.check(line + ": the file", runs.read(there), before)
    os.symlink("gone.journal", os.path.join(runs.folder, "link.journal"))
    runs.check("a link to no file", runs.run("serve k1.json --port 8080 --journal link.journal"), (3, b"", "rail_host: journal failed\n"))
    runs.check("what is at the link", (runs.holds("link.journal"), runs.holds("gone.journal")), (True, False))
    runs.check("recover without a journal", runs.run("recover k1.json nothere.journal"), (1, b"", "rail_host: journal missing\n"))
    runs.check("recover a folder", runs.run("recover k1.json ."), (3, b"", READ_FAULT))
    runs.check("recover a catalogue", runs.run("recover sold.journal k1.json"), (1, b"", "rail_host: catalogue fault 1\n"))
    with open("/dev/full", "wb") as full:
        runs.check("recover: a full device", runs.run("recover k1.json sold.journal", stdout=full), (4, b"", WRITE_FAULT))


def notes_that_fail():
    """A device that is full, and a pipe that nobody reads."""
    yield "a full device", os.open("/dev/full", os.O_WRONLY)
    reading, writing = os.pipe()
    os.close(reading)
    yield "a pipe that nobody reads", writing


def served_once(runs: Runs, words: str, notes=subprocess.PIPE) -> tuple:
    """A host of one connection that says nothing: its status, its output and its notes."""
    runs.count += 1
    port = free_port()
    line = "serve k1.json --port %d --connections 1 --sweep 1 %s" % (port, words)
    host = subprocess.Popen([runs.program] + words_of(line), cwd=runs.folder, stdout=subprocess.PIPE, stderr=notes)
    try:
        say_nothing(host, port)
        output, said = host.communicate(timeout=SECONDS)
    finally:
        host.kill()
        host.communicate()
    return host.returncode, output, (said or b"").decode()


def say_nothing(host, port: int):
    """A connection, as soon as the host listens, that is closed at once."""
    while host.poll() is None:
        try:
            return socket.create_connection(("127.0.0.1", port), timeout=SECONDS).close()
        except ConnectionRefusedError:
            time.sleep(0.05)


def inputs(runs: Runs):
    for line in ("tiny 3 2", "replay k1.json"):
        runs.check(line + ": nothing", runs.run(line, b""), (0, b"", ""))
        runs.check(line + ": cut", runs.run(line, CUT_INPUT)[::2], (6, "rail_host: input cut\n"))
        runs.check(line + ": refused", runs.run(line, REFUSED_INPUT)[::2], (6, "rail_host: input refused\n"))


def full_pipe() -> tuple:
    """Both ends of a pipe that takes nothing more."""
    reading, writing = os.pipe()
    os.set_blocking(writing, False)
    try:
        while True:
            os.write(writing, b"x" * 4096)
    except BlockingIOError:
        return reading, writing


def outputs(runs: Runs):
    """An output that takes nothing, and notes that take nothing."""
    lines = [("tiny 3 2", TINY), ("replay k1.json", RESERVES), (DRILLS[0][0], b"")]
    for line, data in lines:
        with open("/dev/full", "wb") as full:
            runs.check(line + ": a full device", runs.run(line, data, stdout=full), (4, b"", WRITE_FAULT))
        reading, writing = full_pipe()
        runs.check(line + ": a full pipe", runs.run(line, data, stdout=writing), (4, b"", WRITE_FAULT))
        os.close(reading)
        os.close(writing)
        reading, writing = os.pipe()
        os.close(reading)
        runs.check(line + ": a pipe that nobody reads", runs.run(line, data, stdout=writing), (4, b"", WRITE_FAULT))
        os.close(writing)
    with open("/dev/full", "wb") as full:
        runs.check("a full device for notes", runs.run("tiny 3", TINY, stderr=full)[:2], (2, b""))


def broken_input(runs: Runs):
    """An input that fails: at once, and behind a request that was answered."""
    for line in ("tiny 3 2", "replay k1.json"):
        folder = os.open(runs.folder, os.O_RDONLY)
        runs.check(line + ": a folder as input", runs.run(line, stdin=folder), (3, b"", READ_FAULT))
        os.close(folder)
    listener = socket.create_server(("127.0.0.1", 0))
    ours = socket.create_connection(listener.getsockname())
    theirs, _ = listener.accept()
    done = subprocess.Popen([runs.program, "tiny", "3", "2"], stdin=theirs, stdout=subprocess.PIPE, stderr=subprocess.PIPE)
    theirs.close()
    ours.sendall(TINY)
    answered = done.stdout.read(len(SOLD))
    ours.setsockopt(socket.SOL_SOCKET, socket.SO_LINGER, struct.pack("ii", 1, 0))
    ours.close()
    output, note = done.communicate(timeout=SECONDS)
    runs.check("an input that is reset", (done.returncode, answered + output, note.decode()), (3, SOLD, READ_FAULT))


def listeners(runs: Runs):
    """A port that is taken; where the catalogue is missing, that is told first."""
    taken = socket.create_server(("127.0.0.1", 0))
    port = taken.getsockname()[1]
    runs.check("a taken port", runs.run("serve k1.json --port %d" % port), (3, b"", READ_FAULT))
    runs.check("a taken port without a catalogue", runs.run("serve nothere.json --port %d" % port),
               (1, b"", "rail_host: catalogue missing\n"))


def memories(runs: Runs):
    """A process that gets little memory."""
    for line in (DRILLS[0][0], "serve k1.json --port 8080", "replay k1.json"):
        runs.check(line + ": little memory", runs.run(line, RESERVES, memory=12_000_000), (5, b"", NO_MEMORY))


def main() -> int:
    with tempfile.TemporaryDirectory() as folder:
        runs = Runs(sys.argv[1], folder)
        for part in (catalogues, words, long_words, exports, journals, drills, inputs, outputs, broken_input, listeners, memories):
            part(runs)
    for difference in runs.differences:
        print(difference)
    print("%d runs of commands, %d unlike" % (runs.count, len(runs.differences)))
    return 1 if runs.differences else 0


if __name__ == "__main__":
    sys.exit(main())

"""Runs the program and the plain model on random connections and compares output, status and notes byte for byte.

  tests/model/compare.py PROGRAM [--seeds N] [--from N] [--without-limits] [--show SEED]

At a difference it prints the smallest connection that it finds which still differs, and both answers. At the end it
prints how often each route, status, problem, state and fault was met, and fails where one was never met.
"""
import argparse
import collections
import dataclasses
import os
import subprocess
import sys
import tempfile
import threading

import generate
import limits
import service
import wire
import words
from bookings import BORDER, Phase
from catalogue import Catalogue, read_catalogue
from offers import read_booking_id
from words import Device, Outcome

LIMIT_SECONDS = 120
IDLE = b"GET / HTTP/1.1\r\n\r\n"
COMMANDS = ("tiny", "replay", "export", "settle", "drill", "serve")
NEVER_MET = ("Contended", "NoMemory")
NEVER_ANSWERED = (500, 503)


def run_program(program: str, case: generate.Case) -> Outcome:
    with tempfile.TemporaryDirectory() as folder:
        for name, content in case.files.items():
            with open(os.path.join(folder, name), "wb") as file:
                file.write(content)
        source = open("/proc/self/mem", "rb", buffering=0) if case.failing is Device.SOURCE else subprocess.PIPE
        sink = open("/dev/full", "wb", buffering=0) if case.failing is Device.SINK else subprocess.PIPE
        process = subprocess.Popen([program.encode()] + case.words, cwd=folder, stdin=source, stdout=sink, stderr=subprocess.PIPE)
        data = b"".join(case.pieces)
        try:
            if case.failing is None and case.part_sizes:
                writer = threading.Thread(target=write_in_parts, args=(process.stdin, data, case.part_sizes))
                writer.start()
                process.stdin = None
                output, notes = process.communicate(timeout=LIMIT_SECONDS)
                writer.join()
            else:
                output, notes = process.communicate(data if source == subprocess.PIPE else None, timeout=LIMIT_SECONDS)
        except subprocess.TimeoutExpired:
            process.kill()
            process.communicate()
            return Outcome(b"", "no end in %d seconds" % LIMIT_SECONDS, b"")
        finally:
            for stream in (source, sink):
                if stream != subprocess.PIPE:
                    stream.close()
    return Outcome(output or b"", process.returncode, notes)


def write_in_parts(pipe, data: bytes, sizes: list):
    """Writes the data a few bytes at a time; the sizes are used in turn. A program that has ended reads no more."""
    at, turn = 0, 0
    try:
        while at < len(data):
            size = sizes[turn % len(sizes)]
            pipe.write(data[at:at + size])
            pipe.flush()
            at, turn = at + size, turn + 1
        pipe.close()
    except OSError:
        pass


def run_model(case: generate.Case) -> Outcome:
    return words.run(case.words, case.files, b"".join(case.pieces), case.failing)


def differs(program: str, case: generate.Case) -> bool:
    return run_program(program, case) != run_model(case)


def smallest(program: str, case: generate.Case) -> generate.Case:
    """Fewer and shorter pieces that still differ: some are left out, and some stand for a tick of the clock alone."""
    case = fewest(program, case)
    for at, piece in enumerate(case.pieces):
        for shorter in (IDLE, plain_form(piece)):
            changed = dataclasses.replace(case, pieces=case.pieces[:at] + [shorter] + case.pieces[at + 1:])
            if len(shorter) < len(case.pieces[at]) and differs(program, changed):
                case = changed
    return case


def plain_form(piece: bytes) -> bytes:
    """The request with no more lines than it needs, or the bytes as they are where they are no single whole request."""
    requests, rest = wire.read_requests(piece)
    if len(requests) != 1 or rest is not wire.Rest.END:
        return piece
    request = requests[0]
    lines = [b"%s %s HTTP/1.1" % (request.method, request.path)]
    if request.key is not None:
        lines.append(b"Retailer-Key: " + request.key)
    if request.body:
        lines.append(b"Content-Length: %d" % len(request.body))
    return b"\r\n".join(lines) + b"\r\n\r\n" + request.body


def fewest(program: str, case: generate.Case) -> generate.Case:
    """Leaves pieces out, first many at once and then one by one, from the end to the front, while a difference remains."""
    size = max(len(case.pieces) // 2, 1)
    while case.pieces:
        at, before = len(case.pieces) - size, len(case.pieces)
        while at > -size:
            fewer = dataclasses.replace(case, pieces=case.pieces[:max(at, 0)] + case.pieces[at + size:])
            if differs(program, fewer):
                case = fewer
            at -= size
        if size == 1 and len(case.pieces) == before:
            return case
        size = max(size // 2, 1)
    return case


def show(program: str, case: generate.Case):
    """Both answers to a case that differs."""
    print("DIFFERENCE at %s, shown with as few requests as were found" % case.name)
    case = smallest(program, case)
    got, wanted = run_program(program, case), run_model(case)
    print("  words   %r" % case.words)
    for name, content in case.files.items():
        print("  file    %s: %s" % (name, shortened(content)))
    for piece in case.pieces:
        print("  input   %s" % shortened(piece))
    at = next((index for index, (a, b) in enumerate(zip(got.output, wanted.output)) if a != b),
              min(len(got.output), len(wanted.output)))
    start = max(got.output.rfind(b"HTTP/1.1 ", 0, at), wanted.output.rfind(b"HTTP/1.1 ", 0, at), 0)
    for title, outcome in (("program", got), ("model", wanted)):
        print("  %-7s status %s, notes %r, output of %d bytes from byte %d: %r"
              % (title, outcome.status, outcome.note, len(outcome.output), start, outcome.output[start:start + 1_500]))
    sys.stdout.flush()


def shortened(data: bytes) -> str:
    text = repr(data)
    return text if len(text) <= 6_000 else "%s.. (%d bytes) ..%s" % (text[:2_000], len(data), text[-500:])


# What was met


class Met:
    """How often each thing that a run can show was met."""

    def __init__(self):
        self.requests = 0
        self.counts = collections.Counter()

    def count(self, case: generate.Case, outcome: Outcome):
        command = case.words[0].decode("latin-1") if case.words else ""
        self.counts["end", outcome.status] += 1
        self.counts["command", "%s %d" % (command if command in COMMANDS else "other", outcome.status)] += 1
        note = outcome.note.decode("utf-8").strip()
        if note.startswith("rail_host: catalogue"):
            self.counts["catalogue", " ".join(note.split(" ")[1:4])] += 1
        if note.startswith("rail_host: export"):
            self.counts["export", note.partition(": ")[2]] += 1
            self.counts["no export for", command] += 1
        if command == "export" and outcome.status == 0:
            for line in outcome.output.decode("ascii").split("\n")[1:-2]:
                self.counts["line", line.split(" ")[3]] += 1
                self.counts["line of", "a row kept" if line.split(" ")[4] == "0" else "a booking"] += 1
        if "--from" in b" ".join(case.words).decode("latin-1") and outcome.status == 0:
            self.counts["begun with an export", command] += 1
        if command not in ("tiny", "replay") or outcome.status not in (0, 6):
            return
        requests, rest = wire.read_requests(b"".join(case.pieces))
        answers = wire.split_answers(outcome.output)
        self.requests += len(answers)
        self.counts["rest", rest.value] += 1
        for status, body in answers:
            self.counts["status", status] += 1
            if "code" in body:
                self.counts["problem", body["code"]] += 1
            if body.get("code") in ("BadField", "UnknownStation"):
                self.counts["detail", body["code"] + " " + body["detail"]] += 1
            booking = body.get("booking", body)
            if isinstance(booking.get("status"), str):
                self.counts["state", booking["status"]] += 1
                self.counts["generation", min(read_booking_id(booking["id"]).generation, 3)] += 1
            if body.get("code") == "WrongState":
                self.counts["wrong state", body["detail"]] += 1
        if command == "replay":
            catalogue = read_catalogue(case.files["k.json"])
            for request, (status, body) in zip(requests, answers):
                self.count_route(request, status)
                self.count_together(request, body)
                self.count_over_border(catalogue, body)

    def count_route(self, request: wire.Request, status: int):
        try:
            name, _ = service.find_route(request.method.decode("ascii"), request.path.decode("utf-8"))
        except service.Refusal:
            return
        self.counts["route", name] += 1
        if status < 300:
            self.counts["served", name] += 1

    def count_together(self, request: wire.Request, body: dict):
        """Whether parties that asked for it got places side by side, or only apart."""
        try:
            wish = service.read_body(request.body)
        except service.Refusal:
            return
        if wish.get("together") is not True or len(body.get("reservations", [])) < 2:
            return
        places = [(segment["run"], segment["coach"], segment["place"]) for segment in body["reservations"]]
        beside = all(b == (a[0], a[1], a[2] + 1) for a, b in zip(places, places[1:]) if a[0] == b[0])
        self.counts["together", "side by side" if beside else "apart"] += 1

    def count_over_border(self, catalogue: Catalogue, body: dict):
        """What an answer shows of spans that go over the border: bookings by their status, and offers."""
        booking = body.get("booking", body)
        shown = [(booking["status"], segment) for segment in booking.get("reservations", [])]
        shown += [("offered", segment) for offer in body.get("offers", []) for segment in offer["segments"]]
        for how, segment in shown:
            span = catalogue.runs[segment["run"]].span_between(segment["from"], segment["to"])
            if span.start < BORDER < span.end:
                self.counts["over the border", how] += 1

    def wanted(self) -> list:
        """What has to be met at least once."""
        names = [name for _, _, name in service.ROUTES]
        wanted = [("route", name) for name in names] + [("served", name) for name in names]
        wanted += [("status", status) for status in wire.REASONS if status not in NEVER_ANSWERED]
        wanted += [("problem", code) for code in wire.PROBLEMS if code not in NEVER_MET]
        wanted += [("state", phase.value) for phase in Phase] + [("wrong state", phase.value) for phase in Phase]
        wanted += [("generation", generation) for generation in range(4)]
        wanted += [("together", how) for how in ("side by side", "apart")]
        wanted += [("over the border", phase.value) for phase in Phase] + [("over the border", "offered")]
        wanted += [("rest", rest.value) for rest in wire.Rest]
        wanted += [("catalogue", "catalogue fault %d" % number) for number in range(1, 8)]
        wanted += [("catalogue", "catalogue missing"), ("export", "export missing")]
        wanted += [("export", "export fault %d" % number) for number in range(1, 6)]
        wanted += [("line", letter) for letter in "PCFrefx"] + [("line of", "a row kept"), ("line of", "a booking")]
        wanted += [("begun with an export", command) for command in ("replay", "export")]
        wanted += [("no export for", command) for command in ("replay", "export", "settle", "serve")]
        wanted += [("command", "%s %d" % ended) for ended in (("tiny", 0), ("tiny", 2), ("tiny", 6), ("replay", 0), ("replay", 1),
                                                              ("replay", 2), ("replay", 6), ("drill", 0), ("drill", 2),
                                                              ("export", 0), ("export", 1), ("export", 2), ("export", 6),
                                                              ("settle", 0), ("settle", 1), ("settle", 2),
                                                              ("serve", 1), ("serve", 2), ("other", 2))]
        return wanted

    def print(self):
        groups = collections.defaultdict(list)
        for (group, name), count in sorted(self.counts.items(), key=str):
            groups[group].append("%s %d" % (name, count))
        for group, entries in groups.items():
            print("  %s: %s" % (group, ", ".join(entries)))

    def missing(self) -> list:
        return [what for what in self.wanted() if not self.counts[what]]


def main() -> int:
    parser = argparse.ArgumentParser(description=__doc__, formatter_class=argparse.RawDescriptionHelpFormatter)
    parser.add_argument("program")
    parser.add_argument("--seeds", type=int, default=1_000)
    parser.add_argument("--from", dest="first", type=int, default=0)
    parser.add_argument("--without-limits", action="store_true")
    parser.add_argument("--most-shown", type=int, default=5)
    given = parser.parse_args()
    program = os.path.abspath(given.program)
    cases = [] if given.without_limits else limits.limit_cases()
    met, compared, different = Met(), 0, 0
    seeds = range(given.first, given.first + given.seeds)
    for make in [lambda case=case: case for case in cases] + [lambda seed=seed: generate.random_case(seed) for seed in seeds]:
        case = make()
        wanted, got = run_model(case), run_program(program, case)
        met.count(case, wanted)
        compared += 1
        if got != wanted:
            different += 1
            if different <= given.most_shown:
                show(program, case)
            else:
                print("DIFFERENCE at %s" % case.name)
    met.print()
    for group, name in met.missing():
        print("never met: %s %s" % (group, name))
    print("%d runs with %d answers compared, %d differ" % (compared, met.requests, different))
    return 1 if different or met.missing() or not compared else 0


if __name__ == "__main__":
    sys.exit(main())

#!/usr/bin/env python3
"""Says in short what a host with a catalogue answers to requests, one after another.

  examples/recipes/ask.py CATALOGUE [--start MOMENT] [--tick N] [--from EXPORT] [--key KEY] REQUEST..

A REQUEST is one word, as 'POST /reservations {"run":0,"from":"HARBOUR","to":"CAPITAL"}': a method, a path, and a body where there is one. In it
`@` stands for the first id in the answer before. The host is `replay`, which begins anew at each call, at MOMENT (2026-06-01T06:00:00Z), and whose clock
goes on by N seconds with each request. The program is that of RAIL_HOST, or else of crates/rail_host/out.

Each answer is a line: the status, and what came. Places are written as coach/place. Status 0 says that there is an answer to each request,
whatever it is; 1 that the host took the catalogue, the export or a request for none; 2 that the words are refused.
"""
import argparse
import contextlib
import json
import os
import pathlib
import re
import subprocess
import sys

BUILT = pathlib.Path(__file__).resolve().parents[2] / "crates" / "rail_host" / "out" / "rail_host"
REQUEST = re.compile(r"([A-Z]+) (\S+)(?: (.*))?", re.DOTALL)
START = "2026-06-01T06:00:00Z"


class NoAnswer(Exception):
    """The host has ended."""


class Replay:
    """A host that serves one connection, through pipes."""

    def __init__(self, program, words):
        self.process = subprocess.Popen([str(program), "replay", *words], stdin=subprocess.PIPE, stdout=subprocess.PIPE)

    def answer(self, request):
        """The bytes of the answer to the bytes of one request."""
        try:
            self.process.stdin.write(request)
            self.process.stdin.flush()
        except BrokenPipeError:
            raise NoAnswer from None
        head = []
        while not head or head[-1] != b"\r\n":
            head.append(self.process.stdout.readline())
            if not head[-1]:
                raise NoAnswer
        length = next(int(line.split(b":")[1]) for line in head if line.lower().startswith(b"content-length:"))
        return b"".join(head) + self.process.stdout.read(length)

    def close(self):
        with contextlib.suppress(BrokenPipeError):
            self.process.stdin.close()
        self.process.wait()


def money(amount):
    sign, digits, scale = "-" if amount["amount"] < 0 else "", str(abs(amount["amount"])), amount["scale"]
    digits = digits.rjust(scale + 1, "0")
    return "%s%s.%s %s" % (sign, digits[:-scale], digits[-scale:], amount["currency"])


def rides(reservations):
    """The trains of a booking, each with its places."""
    found = {}
    for one in reservations:
        found.setdefault("train %d %s-%s" % (one["train"], one["from"], one["to"]), []).append("%d/%d" % (one["coach"], one["place"]))
    return "; ".join("%s %s" % (ride, " ".join(places)) for ride, places in found.items())


def offer(one):
    trains = " and ".join("%d %s %s to %s %s, free %d" % (s["train"], s["from"], s["depart"][11:16], s["to"], s["arrive"][11:16], s["free"]) for s in one["segments"])
    return "\n    %s: train %s" % (money(one["price"]), trains)


def place(one):
    return "\n    %d/%d %s%s" % (one["coach"], one["place"], " ".join([one["class"], *one["traits"]]), "" if one["free"] else ", taken")


def said(body):
    """What an answer's body says, in short."""
    if "code" in body:
        return body["code"] + (" " + body["detail"] if "detail" in body else "")
    if "offers" in body:
        return "offers: %d" % len(body["offers"]) + "".join(map(offer, body["offers"]))
    if "places" in body:
        return "places: %d" % len(body["places"]) + "".join(map(place, body["places"]))
    if "replaced" in body:
        return "%s, in the place of %s for %s" % (said(body["booking"]), body["replaced"], money(body["difference"]))
    if "reservations" in body:
        paid = ", %s" % money(body["endAmount"]) if "endAmount" in body else ""
        return "%s %s%s, price %s: %s" % (body["id"], body["status"], paid, money(body["price"]), rides(body["reservations"]))
    if "id" in body:
        return "quote of %s" % money(body.get("amount", body.get("difference")))
    return json.dumps(body)


def bytes_of(request, key):
    method, path, body = REQUEST.fullmatch(request).groups()
    body = (body or "").encode()
    return b"%s %s HTTP/1.1\r\nRetailer-Key: %s\r\nContent-Length: %d\r\n\r\n%s" % (method.encode(), path.encode(), key.encode(), len(body), body)


def lines(answer, requests, key):
    """A line for each request; `answer` gives the bytes of an answer to those of a request."""
    known = ""
    for request in requests:
        head, _, body = answer(bytes_of(request.replace("@", known), key)).decode().partition("\r\n\r\n")
        known = next(iter(re.findall('"id":"([^"]*)"', body)), known)
        yield "%s %s" % (head.split()[1], said(json.loads(body)))


def words():
    parser = argparse.ArgumentParser(description=__doc__, formatter_class=argparse.RawDescriptionHelpFormatter)
    parser.add_argument("catalogue")
    parser.add_argument("requests", nargs="+", metavar="REQUEST")
    parser.add_argument("--start", default=START, metavar="MOMENT")
    parser.add_argument("--tick", default="0", metavar="N")
    parser.add_argument("--from", dest="export", metavar="EXPORT")
    parser.add_argument("--key", default="north")
    return parser


def main():
    parser = words()
    given = parser.parse_args()
    for request in given.requests:
        if not REQUEST.fullmatch(request):
            parser.error("%r is no request: write a method, a path, and a body where there is one" % request)
    program = os.environ.get("RAIL_HOST", BUILT)
    if not os.access(program, os.X_OK):
        parser.error("%s is not built" % program)
    taken = [given.catalogue, "--start", given.start, "--tick", given.tick] + (["--from", given.export] if given.export else [])
    host = Replay(program, taken)
    try:
        for line in lines(host.answer, given.requests, given.key):
            print(line)
    except NoAnswer:
        print("ask.py: no answer: the host has ended", file=sys.stderr)
        return 1
    finally:
        host.close()
    return 0


if __name__ == "__main__":
    sys.exit(main())

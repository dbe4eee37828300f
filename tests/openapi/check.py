#!/usr/bin/env python3
"""Checks docs/openapi.yaml and the host's answers against each other.

  tests/openapi/check.py PROGRAM

The document has to be a valid one, and its examples have to meet its schemas. Then answers of the program are held against it: to the
requests beside this file, to the inputs of the cases of `replay`, and of a short run of `serve`. An answer that the document doesn't allow
fails the check; so does an answer or a problem code of the document that nothing has shown, but for those of UNFORCED.
"""
import argparse
import copy
import datetime
import json
import pathlib
import re
import socket
import subprocess
import sys
import tempfile
import time

import yaml
from jsonschema import Draft202012Validator
from openapi_spec_validator import validate

from inputs import BROKEN, CASES
from references import without_references

TESTS = pathlib.Path(__file__).resolve().parent.parent
sys.path.append(str(TESTS))
from ports import free_port
from stages import cases, files_of, input_of

ROOT = TESTS.parent
START = "2026-06-01T06:00:00Z"
WIRE = {"BadHead", "HeadTooLarge", "BodyTooLarge", "Coding", "BadLength"}
# No input brings these about: one needs other connections at just that moment, and the other a machine without memory.
UNFORCED = {"Contended", "NoMemory"}
# Fields with rules that no schema of the document says.
RULED = {"adults", "destination", "earliest", "latest", "run", "to"}


def codes_of(schema):
    """The problem codes that a schema allows."""
    if isinstance(schema, list):
        return set().union(*map(codes_of, schema))
    if not isinstance(schema, dict):
        return set()
    code = schema.get("properties", {}).get("code", {}).get("const")
    return ({code} if code else set()) | codes_of(schema.get("oneOf", [])) | codes_of(schema.get("allOf", []))


class Document:
    """The document, what it allows, and what of it was shown."""

    def __init__(self, path):
        read = yaml.safe_load(path.read_text())
        validate(read)
        self.whole = without_references(read, copy.deepcopy(read))
        self.shown, self.faults, self.answers = set(), [], 0

    def operations(self):
        for path, item in self.whole["paths"].items():
            for method in item:
                if method != "parameters":
                    yield path, method.upper(), item[method]

    def found(self, method, target):
        """Whether a target has a path, and the operation of the method on it."""
        parts = target.split("?")[0].split("/")
        for path, item in self.whole["paths"].items():
            names = path.split("/")
            if len(names) == len(parts) and all(p and n.startswith("{") or n == p for n, p in zip(names, parts)):
                return True, item.get(method.lower()) if method.isupper() else None
        return False, None

    def check_examples(self):
        for path, method, operation in self.operations():
            medias = [("request", operation.get("requestBody", {}).get("content", {}))]
            medias += [(status, response["content"]) for status, response in operation["responses"].items()]
            for where, content in medias:
                for media in content.values():
                    for name, example in media.get("examples", {}).items():
                        for error in Draft202012Validator(media["schema"]).iter_errors(example["value"]):
                            self.faults.append("%s %s %s: the example %s: %s" % (method, path, where, name, error.message))

    def check(self, where, request, answer):
        """Holds one answer against the document."""
        self.answers += 1
        code = answer.json.get("code") if isinstance(answer.json, dict) else None
        response, operation = None, None
        if code in WIRE:
            response = next(r for r in self.any_responses() if code in codes_of_response(r))
        elif request is None:
            return self.fault(where, answer, "an answer to no request")
        else:
            known, operation = self.found(request["method"], request["target"])
            if operation:
                response = operation["responses"].get(str(answer.status))
            elif code in {"NoRetailer", "OtherRetailer", "NoMemory", "NoMethod" if known else "NoRoute"}:
                response = self.whole["components"]["responses"][code]
        if response is None:
            return self.fault(where, answer, "no such answer stands in the document")
        said = list(faults_of(response, answer, code))
        if operation and said == []:
            said = list(faults_of_request(operation, request, answer))
        for fault in said:
            self.fault(where, answer, fault)
        self.shown.add((operation["operationId"] if operation else None, code or answer.status))

    def any_responses(self):
        for _, _, operation in self.operations():
            yield from operation["responses"].values()

    def fault(self, where, answer, why):
        self.faults.append("%s: %s\n    %s" % (where, why, answer.text[:300]))

    def never_shown(self):
        wire, wanted = set(), {(None, "NoRoute"), (None, "NoMethod")}
        for _, _, operation in self.operations():
            for status, response in operation["responses"].items():
                codes = codes_of_response(response)
                wire |= codes & WIRE
                wanted |= {(operation["operationId"], code) for code in codes - WIRE - UNFORCED}
                if not codes:
                    wanted.add((operation["operationId"], int(status)))
        wanted |= {(None, code) for code in wire}
        return sorted(wanted - self.shown, key=str)


def codes_of_response(response):
    return set().union(*(codes_of(media["schema"]) for media in response["content"].values()))


def faults_of(response, answer, code):
    """Why an answer is not the one described."""
    if set(response["content"]) != {answer.fields.get("content-type")}:
        yield "the media type is another"
    for name, header in response["headers"].items():
        value = answer.fields.get(name.lower())
        if value is None:
            if header.get("required"):
                yield "the field %s is missing" % name
        elif not Draft202012Validator(header["schema"]).is_valid(int(value) if value.isdigit() else value):
            yield "the field %s says %s" % (name, value)
    extra = set(answer.fields) - {"content-type"} - {name.lower() for name in response["headers"]}
    if extra:
        yield "fields that are not described: %s" % ", ".join(sorted(extra))
    for media in response["content"].values():
        for error in Draft202012Validator(media["schema"]).iter_errors(answer.json):
            yield "%s at %s" % (error.message[:200], error.json_path)
    if json.dumps(answer.json, separators=(",", ":"), sort_keys=True, ensure_ascii=False) != answer.text:
        yield "the body is not compact, or its members are not in order"
    if code and answer.json["status"] != answer.status:
        yield "the status of the body is another"


def faults_of_request(operation, request, answer):
    """Whether the document would have a body refused that was taken, or taken that was refused."""
    body = operation.get("requestBody")
    code = answer.json.get("code")
    if not body or answer.status >= 300 and code != "BadField":
        return
    errors = [e.message for e in Draft202012Validator(body["content"]["application/json"]["schema"]).iter_errors(json.loads(request["body"]))]
    if answer.status < 300 and errors:
        yield "the body was taken, and the document refuses it: %s" % errors[0]
    if code == "BadField" and not errors and answer.json["detail"] not in RULED:
        yield "the body was refused, and the document allows it"


class Answer:
    def __init__(self, status, fields, body):
        self.status, self.fields, self.text = status, fields, body.decode()
        self.json = json.loads(self.text)


def answer_at(data, at):
    """The answer that begins there and where it ends, or None where it isn't whole."""
    end = data.find(b"\r\n\r\n", at)
    if end < 0:
        return None
    first, *lines = data[at:end].decode().split("\r\n")
    fields = {name.lower(): value for name, value in (line.split(": ", 1) for line in lines)}
    body = end + 4
    after = body + int(fields["content-length"])
    if after > len(data):
        return None
    return Answer(int(first.split(" ")[1]), fields, data[body:after]), after


def answers_of(data):
    at, answers = 0, []
    while at < len(data) and (found := answer_at(data, at)):
        answer, at = found
        answers.append(answer)
    return answers, data[at:]


HEAD = re.compile(rb"(?:\r?\n)*((?:[^\r\n][^\n]*\n)+?)\r?\n")


def requests_of(data):
    """The requests of an input, up to its end or to the first part that is none."""
    at, requests = 0, []
    while head := HEAD.match(data, at):
        first, *lines = head.group(1).decode("latin-1").splitlines()
        fields = [(name.strip().lower(), value.strip()) for name, _, value in (line.partition(":") for line in lines)]
        lengths = {value for name, value in fields if name == "content-length"} or {"0"}
        length = lengths.pop()
        words = first.split(" ")
        if lengths or not length.isdigit() or len(words) != 3 or head.end() + int(length) > len(data):
            break
        at = head.end() + int(length)
        requests.append({"method": words[0], "target": words[1], "body": data[head.end():at]})
    return requests


def hold(document, where, given, written):
    """Holds the answers of one connection against the document."""
    requests = requests_of(given)
    answers, rest = answers_of(written)
    if rest:
        document.faults.append("%s: %d bytes that are no whole answer" % (where, len(rest)))
    for turn, answer in enumerate(answers):
        document.check("%s, answer %d" % (where, turn + 1), requests[turn] if turn < len(requests) else None, answer)


def replayed(program, folder, words, given):
    return subprocess.run([program] + words, cwd=folder, input=given, capture_output=True, timeout=300).stdout


def as_bytes(method, path, body, key):
    fields = "Retailer-Key: %s\r\n" % key if key else ""
    return ("%s %s HTTP/1.1\r\n%sContent-Length: %d\r\n\r\n%s" % (method, path, fields, len(body), body)).encode()


def read_line(line):
    key = "north"
    if line.startswith("key="):
        key, line = line[4:].split(" ", 1)
    method, path, *body = line.split(" ", 2)
    return as_bytes(method, path, body[0] if body else "", key)


def key_cases(document):
    """Each operation without a key, and with another retailer's key on a connection that has one."""
    for path, method, operation in document.operations():
        item = document.whole["paths"][path]
        target = path
        for parameter in item.get("parameters", []):
            target = target.replace("{%s}" % parameter["name"], parameter["example"])
        body = operation.get("requestBody")
        text = json.dumps(next(iter(body["content"]["application/json"]["examples"].values()))["value"]) if body else ""
        yield method + " " + path, as_bytes(method, target, text, ""), as_bytes("POST", "/sweeps", "", "north") + as_bytes(method, target, text, "south")


def example_cases(document):
    """Each example of a body, as it stands."""
    for path, method, operation in document.operations():
        target = path
        for parameter in document.whole["paths"][path].get("parameters", []):
            target = target.replace("{%s}" % parameter["name"], parameter["example"])
        body = operation.get("requestBody")
        for name, example in (body["content"]["application/json"]["examples"] if body else {}).items():
            yield "%s %s, example %s" % (method, path, name), as_bytes(method, target, json.dumps(example["value"]), "north")


def hold_own_cases(document, program):
    text = (ROOT / "examples" / "k1.json").read_text()
    with tempfile.TemporaryDirectory() as name:
        folder = pathlib.Path(name)
        (folder / "k1.json").write_text(text)
        words = ["replay", "k1.json", "--start", START]
        for label, tick, rows, lines in CASES:
            (folder / "rows.json").write_text(text.replace("{", '{"rows":%d,' % rows, 1))
            given = b"".join(map(read_line, lines))
            hold(document, label, given, replayed(program, folder, ["replay", "rows.json", "--start", START, "--tick", str(tick)], given))
        for label, given in BROKEN:
            hold(document, label, given.encode(), replayed(program, folder, words, given.encode()))
        for label, given in example_cases(document):
            hold(document, label, given, replayed(program, folder, words, given))
        for label, without, other in key_cases(document):
            for given in [without, other]:
                hold(document, "keys, " + label, given, replayed(program, folder, words, given))


def hold_cases(document, program):
    for case in cases():
        if case["words"][:1] != ["replay"] or case.get("env"):
            continue
        with tempfile.TemporaryDirectory() as folder:
            for name, data in files_of(case).items():
                (pathlib.Path(folder) / name).write_bytes(data)
            hold(document, "case " + case["name"], input_of(case), replayed(program, folder, case["words"], input_of(case)))


class Connection:
    """A connection to serve, of which each answer is held against the document."""

    def __init__(self, document, port, key):
        self.document, self.key = document, key
        self.stream = socket.create_connection(("127.0.0.1", port), timeout=30)

    def send(self, given):
        self.stream.sendall(given)
        data = b""
        while not (found := answer_at(data, 0)):
            piece = self.stream.recv(65536)
            if not piece:
                raise OSError("the connection ended within an answer: %r" % data[:200])
            data += piece
        requests = requests_of(given)
        self.document.check("serve", requests[0] if requests else None, found[0])
        return found[0].json

    def ask(self, method, path, body=None, key=None):
        return self.send(as_bytes(method, path, json.dumps(body) if body else "", self.key if key is None else key))

    def close(self):
        self.stream.close()


def walk(document, port, day):
    """Every operation once, by system time, on three connections."""
    north = Connection(document, port, "north")
    wish = {"adults": 2, "destination": "THUN", "earliest": day + "T00:00:00Z", "origin": "BASEL", "wanted": ["WINDOW"]}
    booked = north.ask("POST", "/bookings", {"offerId": north.ask("POST", "/offers", wish)["offers"][0]["id"]})["id"]
    north.ask("POST", "/bookings/%s/fulfillments" % booked)
    north.ask("PATCH", "/bookings/%s/fulfillments" % booked, {"status": "FULFILLED"})
    quote = north.ask("POST", "/bookings/%s/refund-offers" % booked)["id"]
    north.ask("PATCH", "/bookings/%s/refund-offers/%s" % (booked, quote), {"status": "CONFIRMED"})
    held = north.ask("POST", "/reservations", {"class": "FIRST", "from": "BASEL", "run": 0, "to": "BERN"})["id"]
    north.ask("POST", "/bookings/%s/fulfillments" % held)
    offer = north.ask("POST", "/offers", {**wish, "adults": 1, "destination": "BERN"})["offers"][0]["id"]
    quote = north.ask("POST", "/exchange-offers", {"bookingId": held, "offerId": offer})["id"]
    north.ask("POST", "/bookings/%s/exchange-operations" % held, {"exchangeOfferId": quote})
    north.ask("GET", "/bookings/%s" % held)
    north.ask("DELETE", "/bookings/%s" % north.ask("POST", "/reservations", {"from": "BERN", "run": 1, "to": "THUN"})["id"])
    north.ask("GET", "/runs/0/places/BASEL/BERN")
    north.ask("POST", "/sweeps")
    south = Connection(document, port, "south")
    south.ask("GET", "/bookings/" + booked)
    south.ask("GET", "/bookings/" + booked, key="north")
    south.ask("GET", "/bookings/" + booked, key="east")
    south.close()
    north.close()
    broken = Connection(document, port, "north")
    broken.send(b"GET\r\n\r\n")
    broken.close()


def hold_serve(document, program):
    """Holds the answers of a short run of `serve` against the document."""
    day = (datetime.date.today() + datetime.timedelta(days=2)).isoformat()
    port = free_port()
    with tempfile.TemporaryDirectory() as name:
        catalogue = pathlib.Path(name) / "k1.json"
        catalogue.write_text((ROOT / "examples" / "k1.json").read_text().replace("2026-06-01", day))
        words = [program, "serve", str(catalogue), "--port", str(port), "--workers", "2", "--connections", "3", "--sweep", "1"]
        host = subprocess.Popen(words, stdin=subprocess.DEVNULL, stderr=subprocess.PIPE, text=True)
        try:
            if not listens(host, port):
                said = host.stderr.read() if host.poll() is not None else "it doesn't listen"
                document.faults.append("serve: status %s: %s" % (host.poll(), said))
                return
            walk(document, port, day)
            if host.wait(timeout=60) != 0:
                document.faults.append("serve: status %d: %s" % (host.returncode, host.stderr.read()))
        except (OSError, KeyError, IndexError, subprocess.TimeoutExpired) as error:
            document.faults.append("serve: %s: %s" % (type(error).__name__, error))
        finally:
            if host.poll() is None:
                host.kill()
            host.wait()
            host.stderr.close()


def listens(host, port):
    """Whether the host comes to listen at the port; the kernel's table is read, since a try would count as a connection."""
    line = " 0100007F:%04X 00000000:0000 0A " % port
    for _ in range(300):
        if host.poll() is not None:
            return False
        if line in pathlib.Path("/proc/net/tcp").read_text():
            return True
        time.sleep(0.1)
    return False


def main():
    words = argparse.ArgumentParser(description=__doc__, formatter_class=argparse.RawDescriptionHelpFormatter)
    words.add_argument("program")
    program = str(pathlib.Path(words.parse_args().program).resolve())
    document = Document(ROOT / "docs" / "openapi.yaml")
    document.check_examples()
    hold_cases(document, program)
    hold_own_cases(document, program)
    hold_serve(document, program)
    never = document.never_shown()
    document.faults += ["%s of %s is shown by no case" % (code, operation or "any request") for operation, code in never]
    for fault in document.faults[:40]:
        print(fault)
    print("%d answers held against docs/openapi.yaml, %d faults" % (document.answers, len(document.faults)))
    return 1 if document.faults else 0


sys.exit(main())

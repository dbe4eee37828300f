#!/usr/bin/env python3
"""Wrong catalogues: what `replay` says of each, and what examples/check_catalogue.py says, with the place, the line and what to do.

  tests/people/catalogues.py PROGRAM

Each is examples/k1.json with one text in the place of another; files with a byte order mark, and empty ones; and notes of the host with what
the checker makes of them. docs/catalogue.schema.json has to take the two examples and to refuse those of
the table that a schema can see. Last, what the checker holds to be the host's first fault is compared with the model of the host
beside this folder, on catalogues of chance.
"""
import json
import os
import pathlib
import random
import re
import socket
import subprocess
import sys
import tempfile

import jsonschema

ROOT = pathlib.Path(__file__).resolve().parents[2]
sys.path.append(str(ROOT / "tests"))
from ports import free_port  # noqa: E402

CHECKER = ROOT / "examples" / "check_catalogue.py"
NOW = "2026-05-01T00:00:00Z"
SEEDS = 600
MANY_STOPS = ",".join('{"station":"BASEL","arrive":"2026-06-01T08:00:00Z","depart":"2026-06-01T08:00:00Z"}' for _ in range(125))
BERN_ARRIVES = '{"station":"BERN","arrive":"2026-06-01T09:00:00Z"}'
# What is wrong, the text that is replaced, what stands in its place, what the host says (None: it takes it), the checker's line, what it says
# first of all on that line, and whether the schema refuses it.
CASES = [
    ("a comma too many", '"key":"south"}]', '"key":"south"},]', "fault 1", 2, "fault 1: no JSON: no value begins here, at column 69. The line, or the one before, has to be repaired", True),
    ("a comment", '"ticketFee"', '// in cents\n "ticketFee"', "fault 1", 5, "fault 1: no JSON: a member's name in quotes is wanted here, at column 2. The line, or the one before, has to be repaired", True),
    ("a currency in small letters", '"EUR"', '"eur"', "fault 2 at currency", 1, 'fault 2 at currency: "eur" is not three letters from A to Z. Write three letters from A to Z', True),
    ("no rows at all", '"EUR",', '"EUR","rows":0,', "fault 2 at rows", 1, "fault 2 at rows: 0 is out of range. It may be 1 to 262,144", True),
    ("a number in quotes", '"EUR",', '"EUR","confirmSeconds":"900",', "fault 2 at confirmSeconds", 1, 'fault 2 at confirmSeconds: "900" is no whole number. Write digits without quotes, point and exponent, 1 to 86,400 seconds', True),
    ("no retailers", '"retailers"', '"resellers"', "fault 2 at retailers", 1, "fault 2 at retailers: it is missing. Write a list of objects: [{..}, {..}]", True),
    ("a retailer's number 0", '"number":2', '"number":0', "fault 2 at retailers[1].number", 2, "fault 2 at retailers[1].number: 0 is out of range. It may be 1 to 4,294,967,295", True),
    ("a key with a space", '"south"', '"south west"', "fault 2 at retailers[1].key", 2, 'fault 2 at retailers[1].key: "south west" is not 1 to 32 of letters, digits, - and _. Write 1 to 32 of letters, digits, - and _', True),
    ("a key twice", '"south"', '"north"', "fault 7", 2, 'fault 7 at retailers[1].key: "north" stands twice, first in line 2. Give each retailer\'s key once', False),
    ("a retailer's number twice", '"number":2', '"number":1', "fault 7", 2, "fault 7 at retailers[1].number: 1 stands twice, first in line 2. Give each retailer's number once", False),
    ("a code of nine letters", '{"code":"OLTEN"}', '{"code":"OLTENOST1"}', "fault 2 at stations[1].code", 3, 'fault 2 at stations[1].code: "OLTENOST1" is not 1 to 8 of the letters A to Z and digits. Write 1 to 8 of the letters A to Z and digits', True),
    ("a code twice", '{"code":"OLTEN"}', '{"code":"BERN"}', "fault 7", 3, 'fault 7 at stations[2].code: "BERN" stands twice, first in line 3. Give each station\'s code once', False),
    ("a change of minutes with a fraction", '{"code":"BERN"}', '{"code":"BERN","change":7.5}', "fault 2 at stations[2].change", 3, "fault 2 at stations[2].change: 7.5 is no whole number. Write digits without quotes, point and exponent, 0 to 14,400 seconds", True),
    ("no refund step", '[{"before":86400,"fee":0},{"before":3600,"fee":2500},{"before":0,"fee":10000}]', "[]", "fault 5", 4, 'fault 5 at refundSteps: there is no step. Write at least {"before":0,"fee":..}', True),
    ("steps that rise", '{"before":86400,"fee":0},', '{"before":1800,"fee":0},', "fault 5", 4, "fault 5 at refundSteps[1].before: 3,600 comes after 1,800. Begin with the step that is longest before departure, and let each further one be shorter", False),
    ("a last step before departure", '{"before":0,', '{"before":60,', "fault 5", 4, 'fault 5 at refundSteps[2].before: the last step begins at 60 seconds. End with a step of "before":0, which counts up to departure and after', False),
    ("a fee over all of the price", '"fee":2500', '"fee":25000', "fault 5", 4, "fault 5 at refundSteps[1].fee: 25,000 is over 10,000, which is 100 %. Fees are in hundredths of a percent: 2500 is 25 %", True),
    ("a ticket fee over the most", '"ticketFee":500', '"ticketFee":10000001', "fault 5", 5, "fault 5 at ticketFee: 10,000,001 is over 10,000,000. Amounts are in minor units, as cents", True),
    ("no train", '"train":501', '"train":0', "fault 2 at runs[0].train", 7, "fault 2 at runs[0].train: 0 is out of range. It may be 1 to 99,999", True),
    ("one stop alone", '"stops":[{"station":"BERN","depart":"2026-06-01T09:10:00Z"},', '"stops":[', "fault 2 at runs[1].stops[0].depart", 17, "fault 2 at runs[1].stops[0].depart: it is missing. Write a moment of 1970 to 2099 with its offset, as 2026-06-01T08:00:00Z", True),
    ("125 stops more", BERN_ARRIVES, MANY_STOPS + "," + BERN_ARRIVES, "fault 3", 8, "fault 3 at runs[0].stops: the run has 128 stops. It has to have 2 to 127", True),
    ("an arrival before the last departure", '"arrive":"2026-06-01T09:00:00Z"', '"arrive":"2026-06-01T08:27:00Z"', "fault 3", 10, "fault 3 at runs[0].stops[2].arrive: it arrives (2026-06-01T08:27:00Z) no later than it left the stop before (2026-06-01T08:27:00Z). Times have to rise from stop to stop; look at the day and the offset", False),
    ("a departure before the arrival", '"depart":"2026-06-01T08:27:00Z"', '"depart":"2026-06-01T08:24:00Z"', "fault 3", 9, "fault 3 at runs[0].stops[1].depart: it departs (2026-06-01T08:24:00Z) before it arrives (2026-06-01T08:25:00Z). A train may leave in the second of its arrival, and not before", False),
    ("a station twice in a run", BERN_ARRIVES, BERN_ARRIVES.replace("BERN", "BASEL"), "fault 3", 10, 'fault 3 at runs[0].stops[2].station: "BASEL" is stopped at twice, first in line 8. A run stops once at a station: make two runs of it', False),
    ("a station that is not listed", '"station":"THUN"', '"station":"THUNN"', "fault 6", 17, 'fault 6 at runs[1].stops[1].station: "THUNN" is not listed under stations. Is THUN meant?', False),
    ("a moment without an offset", '"arrive":"2026-06-01T08:25:00Z"', '"arrive":"2026-06-01T08:25:00"', "fault 2 at runs[0].stops[1].arrive", 9, 'fault 2 at runs[0].stops[1].arrive: "2026-06-01T08:25:00" is not a moment of 1970 to 2099 with its offset, as 2026-06-01T08:00:00Z. Write a moment of 1970 to 2099 with its offset, as 2026-06-01T08:00:00Z', False),
    ("a stop without an arrival", '"arrive":"2026-06-01T08:25:00Z",', "", "fault 2 at runs[0].stops[1].arrive", 9, "fault 2 at runs[0].stops[1].arrive: it is missing. Write a moment of 1970 to 2099 with its offset, as 2026-06-01T08:00:00Z", False),
    ("no fares", '"fares":{"first":{"base":800', '"fare":{"first":{"base":800', "fault 2 at runs[1].fares.first.base", 15, "fault 2 at runs[1].fares.first.base: it is missing. Write a whole number, 0 to 10,000,000 minor units", True),
    ("a third class", '"class":"FIRST"', '"class":"THIRD"', "fault 2 at runs[0].coaches[0].class", 12, 'fault 2 at runs[0].coaches[0].class: "THIRD" is not FIRST or SECOND. Write FIRST or SECOND', True),
    ("a last place before the first", '"first":15,"last":18', '"first":15,"last":14', "fault 2 at runs[0].coaches[1].places[1].last", 14, "fault 2 at runs[0].coaches[1].places[1].last: 14 is out of range. It may be 15 to 9,999", False),
    ("places that overlap", '"first":15,"last":18', '"first":14,"last":18', "fault 4", 14, "fault 4 at runs[0].coaches[1].places[1]: place 14 of coach 2 stands twice in the run, first in line 13. Groups of one coach number must not overlap", False),
    ("over 1,200 places", '"first":15,"last":18', '"first":15,"last":1300', "fault 4", 13, "fault 4 at runs[0].coaches[1]: with this coach the run has 1,294 places. It may have 1,200: make two runs of one train", False),
    ("a misspelt optional member", '"exchangeFee":300', '"exchangefee":300', None, 5, "hint at exchangefee: the host ignores this member; is exchangeFee meant? Without it, it is 0", True),
    ("a fee in percent", '"fee":2500', '"fee":25', None, 4, "hint at refundSteps[1].fee: 25 is 0.25 % of the price, since fees are in hundredths of a percent; 25 % is 2500", False),
]


def run(*words):
    return subprocess.run(list(map(str, words)), stdin=subprocess.DEVNULL, capture_output=True, text=True, timeout=60)


def faults_of_case(program, path, case):
    what, _, _, host, line, said, _ = case
    replay = run(program, "replay", path)
    wanted = (1, "rail_host: catalogue %s\n" % host) if host else (0, "")
    if (replay.returncode, replay.stderr) != wanted:
        yield "%s: replay says %r and ends with %d" % (what, replay.stderr, replay.returncode)
    checker = run(sys.executable, CHECKER, path, "--now", NOW)
    lines = checker.stdout.splitlines()
    if "%s:%d: %s" % (path, line, said) not in lines:
        yield "%s: the checker says\n%s" % (what, checker.stdout + checker.stderr)
    if checker.returncode != (1 if host else 0):
        yield "%s: the checker ends with %d" % (what, checker.returncode)
    if host and lines[-1] != "the host says: rail_host: catalogue " + host:
        yield "%s: the checker's last line is %r" % (what, lines[-1])


def faults_of_hints(path, text):
    """Runs of the past, a member that stands twice, and a fee of whole units."""
    path.write_text(text)
    past = run(sys.executable, CHECKER, path, "--now", "2026-06-01T08:30:00Z").stdout
    if "k1.json:8: hint at runs[0].stops[0].depart: 1 of 2 runs have, this one first, departed already" not in past:
        yield "a run of the past: " + past
    path.write_text(text.replace('"ticketFee":500', '"ticketFee":5,"ticketFee":5'))
    twice = run(sys.executable, CHECKER, path, "--now", NOW).stdout
    for wanted in ["k1.json:5: hint at ticketFee: the member stands twice", "k1.json:5: hint at ticketFee: 5 is 0.05, since amounts are in minor units as cents; 5.00 is 500"]:
        if wanted not in twice:
            yield "hints: no %r in\n%s" % (wanted, twice)


def faults_of_decimals(path, text):
    """A hint for each currency whose minor unit isn't a hundredth, and none for the others."""
    said = {
        **dict.fromkeys(["JPY", "KRW", "ISK"], 'hint at currency: %s has no decimals, and the host\'s amounts always have two ("scale":2): 100 is 1 %s, so 1,100 %s are 110000'),
        **dict.fromkeys(["BHD", "IQD", "JOD", "KWD", "LYD", "OMR", "TND"], 'hint at currency: %s has three decimals, and the host\'s amounts always have two ("scale":2): 100 is 1.00 %s, and a thousandth can\'t be written'),
        **dict.fromkeys(["EUR", "CHF", "USD"], None),
    }
    for currency, hint in said.items():
        path.write_text(text.replace('"EUR"', '"%s"' % currency))
        lines = run(sys.executable, CHECKER, path, "--now", NOW).stdout.splitlines()
        wanted = ["%s:1: %s" % (path, hint.replace("%s", currency))] if hint else []
        if lines[:-1] != wanted:
            yield "%s: the checker says %s" % (currency, lines)


def faults_of_last_fees(path, text):
    """What a ticket is worth after the ride: a hint where it is something, and there is something to pay."""
    free = re.sub(r'"(base|perLeg)":[0-9]+', r'"\1":0', text)
    for fee, left, priced in [(10_000, None, text), (9_999, "0.01", text), (2_550, "74.50", text), (0, "100.00", text), (0, None, free)]:
        path.write_text(priced.replace('{"before":0,"fee":10000}', '{"before":0,"fee":%d}' % fee))
        lines = run(sys.executable, CHECKER, path, "--now", NOW).stdout.splitlines()
        worth = "with %s, a ticket is worth %s %% of its price after the ride, less ticketFee, in a refund or an exchange" % (format(fee, ","), left)
        wanted = ["%s:4: hint at refundSteps[2].fee: the last step goes on after departure: %s. 10,000 ends that" % (path, worth)] if left else []
        if lines[:-1] != wanted:
            yield "a last fee of %d: the checker says %s" % (fee, lines)


def faults_of_rows(path, text):
    """Rows for all that is sold: half as many as the 18 places, or as many as --sales says."""
    places = "The 18 places of 2 runs, each sold once and two to a booking, take 9"
    for rows, sales, wanted in [(9, None, None), (8, None, places), (1, 1, None), (100, 100, None), (100, 101, "--sales says 101"), (None, 65_536, None), (None, 65_537, "--sales says 65,537")]:
        path.write_text(text.replace('"EUR",', '"EUR",' + ('"rows":%d,' % rows if rows else "")))
        lines = run(sys.executable, CHECKER, path, "--now", NOW, *(["--sales", sales] if sales else [])).stdout.splitlines()
        said = "%s:1: hint at rows: rows is %s, and a booking that has travelled never gives its row back. %s" % (path, format(rows or 65_536, ","), wanted)
        if lines[:-1] != ([said] if wanted else []):
            yield "%s rows for %s: the checker says %s" % (rows, sales, lines)


def faults_of_starts(program, path, text):
    """Files that are no text of JSON from their first byte on: the host's note, and the checker's cause."""
    said = [
        ("an empty file", b"", "the file is empty"),
        ("a file of space", b" \r\n\t", "the file has nothing but space"),
        ("a mark of UTF-8", b"\xef\xbb\xbf" + text.encode(), "the file begins with a byte order mark of UTF-8"),
        ("a mark of UTF-16", text.encode("utf-16"), "the file begins with a byte order mark of UTF-16"),
        ("a mark of UTF-32", text.encode("utf-32"), "the file begins with a byte order mark of UTF-32"),
    ]
    for what, data, cause in said:
        path.write_bytes(data)
        replay, checker = run(program, "replay", path), run(sys.executable, CHECKER, path)
        if (replay.returncode, replay.stderr) != (1, "rail_host: catalogue fault 1\n"):
            yield "%s: replay says %r and ends with %d" % (what, replay.stderr, replay.returncode)
        if checker.returncode != 1 or "%s:1: fault 1: %s" % (path, cause) not in checker.stdout:
            yield "%s: the checker says\n%s" % (what, checker.stdout)


def as_nobody(path, port):
    """What the checker explains to a user who is not root, as which this process sees the machine for a moment."""
    sys.path.insert(0, str(ROOT / "examples"))
    import check_catalogue

    root = os.geteuid() == 0
    try:
        if root:
            os.seteuid(65534)
        return check_catalogue.explained("rail_host: read fault", path, port, 0)
    finally:
        if root:
            os.seteuid(0)


def faults_of_notes(program, folder, text):
    """--explain beside a host that refuses: a taken port, a folder, a file of another user, a low port, no file."""
    path = folder / "notes.json"
    path.write_text(text)

    def explained(note, *words, file=path):
        done = run(sys.executable, CHECKER, file, "--explain", note, *words)
        return done.returncode, done.stdout

    port = free_port()
    with socket.create_server(("127.0.0.1", port)):
        host = run(program, "serve", path, "--port", port)
        if (host.returncode, host.stderr) != (3, "rail_host: read fault\n"):
            yield "serve at a taken port says %r" % host.stderr
        status, said = explained(host.stderr.strip(), "--port", port)
        if status or "port %d is taken, by process %d (" % (port, os.getpid()) not in said:
            yield "a taken port: %s" % said
    status, said = explained("read fault", "--port", port)
    if status != 1 or "port %d is free now" % port not in said:
        yield "a free port: %s" % said
    host = run(program, "serve", folder, "--port", port)
    status, said = explained(host.stderr.strip(), "--port", port, file=folder)
    if status or "is a folder" not in said:
        yield "a folder: %r, %s" % (host.stderr, said)
    host = run(program, "replay", folder / "nothing")
    status, said = explained(host.stderr.strip(), file=folder / "nothing")
    if status or "there is no file" not in said:
        yield "no file: %r, %s" % (host.stderr, said)
    path.write_text(text.replace('"EUR"', '"eur"'))
    host = run(program, "replay", path)
    status, said = explained(host.stderr.strip())
    if status or 'fault 2 in line 1 at currency: "eur" is not' not in said:
        yield "a refused file: %r, %s" % (host.stderr, said)
    for note in ("no memory", "words refused", "write fault", "input cut", "export fault 2"):
        path.write_text(text)
        if explained(note)[0]:
            yield "%s is not explained" % note
    if explained("read error")[0] != 1:
        yield "a note that the host doesn't have is explained"
    folder.chmod(0o755)
    path.chmod(0o644)
    low = as_nobody(path, 80)
    path.chmod(0o000)
    if not ("may not read" in as_nobody(path, None) and "port 80 is below" in low):
        yield "to another user: %s; %s" % (as_nobody(path, None), low)


def faults_of_schema(text):
    schema = json.loads((ROOT / "docs" / "catalogue.schema.json").read_text())
    jsonschema.Draft202012Validator.check_schema(schema)
    validator = jsonschema.Draft202012Validator(schema)
    for name in ["k1", "country"]:
        for error in validator.iter_errors(json.loads((ROOT / "examples" / (name + ".json")).read_text())):
            yield "the schema refuses %s: %s" % (name, error.message)
    for what, old, new, _, _, _, refused in CASES:
        try:
            value = json.loads(text.replace(old, new, 1))
        except ValueError:
            continue
        if validator.is_valid(value) == refused:
            yield "the schema %s: %s" % ("takes" if refused else "refuses", what)


def faults_of_chance():
    """The checker's verdict beside that of the plain model, on catalogues of chance, most of them wrong in one place."""
    sys.path[:0] = [str(ROOT / "tests" / "model"), str(ROOT / "examples")]
    import catalogue
    import check_catalogue
    import moments
    import random_catalogues

    def moment_of(text):
        moment = moments.read_moment(text)
        return None if isinstance(moment, moments.MomentFault) else moment

    # The host reads a few spellings more than the checker, which the catalogues of chance have.
    check_catalogue.moment_of = moment_of
    for seed in range(SEEDS):
        rng = random.Random(seed)
        made = random_catalogues.random_catalogue(rng, random_catalogues.random_start(rng), random_catalogues.random_tick(rng))
        data = (random_catalogues.faulty_catalogue_bytes if seed % 4 else random_catalogues.catalogue_bytes)(rng, made)
        try:
            catalogue.read_catalogue(data)
            wanted = None
        except catalogue.CatalogueFault as fault:
            wanted = fault.note()
        said = check_catalogue.checked(data, 0).note()
        if said != wanted:
            yield "catalogue of chance %d: the checker says %s, the model %s" % (seed, said, wanted)


def main():
    program, found = pathlib.Path(sys.argv[1]).resolve(), []
    text = (ROOT / "examples" / "k1.json").read_text()
    if len(CASES) != 34 or len({case[0] for case in CASES}) != 34:
        found.append("there are %d cases" % len(CASES))
    with tempfile.TemporaryDirectory() as name:
        path = pathlib.Path(name) / "k1.json"
        for case in CASES:
            if case[1] not in text:
                found.append("%s: nothing is replaced" % case[0])
            path.write_text(text.replace(case[1], case[2], 1))
            found += faults_of_case(program, path, case)
        found += faults_of_hints(path, text)
        found += faults_of_decimals(path, text)
        found += faults_of_last_fees(path, text)
        found += faults_of_rows(path, text)
        found += faults_of_starts(program, path, text)
        found += faults_of_notes(program, pathlib.Path(name), text)
        written = run(sys.executable, ROOT / "examples" / "k1.py").stdout
        moved = run(sys.executable, ROOT / "examples" / "k1.py", "--day", "2031-02-03").stdout
        if written != text or moved != text.replace("2026-06-01", "2031-02-03"):
            found.append("examples/k1.py writes another catalogue")
    found += faults_of_schema(text)
    found += faults_of_chance()
    for fault in found:
        print("catalogues: " + fault)
    print("catalogues: %d wrong ones, the schema, beginnings, notes, and %d of chance: %d wrong" % (len(CASES), SEEDS, len(found)))
    return 1 if found else 0


sys.exit(main())

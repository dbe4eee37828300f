"""What tools/roll refuses, what it does with runs that are shut, and that it may be run again. All over
examples/k1.json.
"""
import copy
import json
import pathlib
import tempfile

import kit

LATE, BETWEEN, EARLY = "2026-06-01T12:00:00Z", "2026-06-01T09:26:00Z", "2026-06-01T08:00:00Z"
ARCHIVED = ("B000000,1,FULFILLED,4250,,,,train 501 of 2026-06-01 BASEL to BERN 2/11 2/12 2/13; "
            "train 812 of 2026-06-01 BERN to THUN 1/11 1/12 1/13")
HEAD = "booking,retailer,status,price,end_amount,ended_at,successor,trains"


class Rolls:
    """A folder with K1 of the day before as OLD, one booking in its export, and K1 of the next day as COMING."""

    def __init__(self, found, program, folder):
        self.found, self.folder, self.program = found, folder, program
        self.text = (kit.ROOT / "examples" / "k1.json").read_text()
        self.write("old.json", self.text)
        self.write("coming.json", self.text.replace("2026-06-01", "2026-06-02"))
        sold = (kit.ROOT / "examples" / "whole_booking.http").read_bytes()
        words = ("export", folder / "old.json", "--start", "2026-06-01T06:00:00Z")
        (folder / "old.export").write_bytes(kit.host(program, *words, data=sold)[1])

    def write(self, name, text):
        (self.folder / name).write_text(text if isinstance(text, str) else json.dumps(text))

    def roll(self, old="old.json", coming="coming.json", export="old.export", now=LATE):
        """The status, the export and the notes. NEW and ARCHIVE are new.json and archive.csv."""
        words = [self.folder / name for name in (old, coming, export)]
        return kit.run_tool("roll", *words, "--catalogue", self.folder / "new.json", "--archive",
                            self.folder / "archive.csv", "--now", now)

    def clear(self):
        for name in ("new.json", "archive.csv"):
            (self.folder / name).unlink(missing_ok=True)


def with_runs(text, runs):
    return dict(json.loads(text), runs=runs)


def cases(text):
    """What COMING is instead, or the archive, and the status with the words."""
    tree = json.loads(text.replace("2026-06-01", "2026-06-02"))
    fewer = [code for code in tree["stations"] if code["code"] != "OLTEN"]
    other = copy.deepcopy(json.loads(text))
    other["runs"][1]["coaches"][0]["coach"] = 9
    many = [dict(tree["runs"][1], train=train, coaches=tree["runs"][1]["coaches"]) for train in range(1, 4_096)]
    yield dict(tree, currency="CHF"), None, 1, "the currency is EUR in OLD and CHF in COMING"
    yield with_runs(json.dumps(dict(tree, stations=fewer)),
                    tree["runs"][1:]), None, 1, "COMING has no station OLTEN, and a run of OLD stops there"
    stands = "run 1 of COMING, train 812 of 2026-06-01, stands in OLD with other stations or seats: amend changes it"
    yield other, None, 1, stands
    yield dict(tree, runs=many), None, 1, "4097 runs with 24588 places are more than a host takes"
    yield {}, None, 3, "coming.json: catalogue fault 2 at currency"
    yield tree, "booking\n", 3, "archive.csv: this is no archive, or it was cut off"
    yield tree, HEAD + "\n" + ARCHIVED, 3, "archive.csv: this is no archive, or it was cut off"
    yield tree, HEAD + "\nx,1,FULFILLED,1,,,,\n", 3, "archive.csv: this is no archive, or it was cut off"


def try_refusals(rolls):
    found = rolls.found
    for coming, archive, wanted, words in cases(rolls.text):
        rolls.clear()
        rolls.write("coming.json", coming)
        if archive is not None:
            rolls.write("archive.csv", archive)
        # The train of before is kept where it is over and still has its booking's other train to wait for.
        status, said, notes = rolls.roll(now=BETWEEN)
        found.need(status == wanted and words in notes and not said, "roll, %r wanted: status %d, %s", words, status,
                   notes)
        found.need(not (rolls.folder / "new.json").exists(), "roll writes a catalogue at status %d", status)
    rolls.write("coming.json", rolls.text.replace("2026-06-01", "2026-06-02"))
    rolls.write("archive.csv", HEAD + "\n" + ARCHIVED.replace("4250", "4251") + "\n")
    status, _, notes = rolls.roll()
    found.need(status == 1 and "the archive has another booking B000000: is it another host's?" in notes,
               "another archive: %d %s", status, notes)
    rolls.write("few.json", rolls.text.replace('"currency":"EUR"', '"currency":"EUR","rows":1'))
    rolls.write("two.export", "rail-export 1 18 65536\nrow 5 0 C 1 5 5 1 12.0.1\nend 1\n")
    status, _, notes = rolls.roll(coming="few.json", export="two.export", now=EARLY)
    found.need(status == 1 and "COMING has 1 rows, and 6 are in use" in notes, "too few rows: %d %s", status, notes)


def try_again(rolls):
    """Twice with the same files is once; and what stands there already isn't added."""
    found = rolls.found
    rolls.clear()
    first = rolls.roll()
    archive = (rolls.folder / "archive.csv").read_text()
    new = (rolls.folder / "new.json").read_text()
    found.need(first[0] == 0 and archive == HEAD + "\n" + ARCHIVED + "\n", "the archive is %s", archive)
    found.need((rolls.folder / "new.json").stat().st_mode & 0o777 == 0o600, "others may read the keys")
    found.need(json.loads(new) == json.loads(rolls.text.replace("2026-06-01", "2026-06-02")), "NEW is %s", new)
    second = rolls.roll()
    found.need(second == first and (rolls.folder / "archive.csv").read_text() == archive,
               "a second time it does otherwise: %s", second)
    rolls.write("next.json", new)
    rolls.write("next.export", first[1])
    third = rolls.roll(old="next.json", export="next.export")
    found.need("runs over: 0; coming runs in their slots: 0, at the end: 0, there already: 2" in third[2]
               and third[1] == first[1],
               "what stands there is added: %s", third[2])
    wish = kit.request("GET", "/bookings/B000000", "north") + kit.request("POST", "/reservations", "north",
                                                                          {"run": 0, "from": "BASEL", "to": "BERN"})
    (_, gone), (status, made) = kit.answers(kit.host(rolls.program, "replay", rolls.folder / "new.json", "--from",
                                                     rolls.folder / "next.export", data=wish)[1])
    found.need((gone["code"], status, made["id"]) == ("UnknownBooking", 201, "B000001"), "the host says %s and %s",
               gone, made)


def try_shut(rolls):
    """A run that is shut is over by the times that it had; where these aren't known, once nobody's booking lives on it.
    """
    found = rolls.found
    tree = json.loads(rolls.text)
    planned = tree["runs"][0]["stops"]
    for day, is_planned, items, now, over in [
            ("2099-12-31", True, "4.0.2", LATE, 1), ("2099-12-31", True, "4.0.2", EARLY, 0),
            ("1970-01-01", True, "4.0.2", LATE, 1), ("1970-01-01", True, "4.0.2", EARLY, 0),
            ("2099-12-31", False, "4.0.2", LATE, 0), ("2099-12-31", False, "12.0.1", EARLY, 1),
            ("1970-01-01", False, "4.0.2", LATE, 0), ("1970-01-01", False, "12.0.1", EARLY, 1)]:
        rolls.clear()
        shut = json.loads(rolls.text.replace("2026-06-01", day))["runs"][0]
        rolls.write("shut.json", dict(tree,
                                      runs=[dict(shut, **({"planned": planned} if is_planned else {})),
                                            tree["runs"][1]]))
        rolls.write("shut.export", "rail-export 1 18 65536\nrow 0 0 C 1 5 5 1 %s\nend 1\n" % items)
        rolls.write("coming.json", with_runs(rolls.text.replace("2026-06-01", "2026-06-02"), tree["runs"][1:]))
        status, _, notes = rolls.roll(old="shut.json", export="shut.export", now=now)
        both = over + (now == LATE)
        found.need(status == 0 and "runs over: %d;" % both in notes, "shut on %s, %s at %s: %d, %s", day, is_planned,
                   now, status, notes)


def faults(program):
    found = kit.Faults()
    with tempfile.TemporaryDirectory() as name:
        rolls = Rolls(found, program, pathlib.Path(name))
        try_refusals(rolls)
        try_again(rolls)
        try_shut(rolls)
    for words, wanted in ((("--help",), 0), (("a", "b", "c"), 2), (("--table", "/no"), 3), (("--now", "x"), 2)):
        status, _, notes = kit.run_tool("roll", *words)
        found.need(status == wanted, "roll %s: status %d, %s", words, status, notes)
    return found

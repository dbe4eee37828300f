"""What tools/amend refuses, and in which words; its new catalogue; and a run that is opened again. All over
examples/k1.json.
"""
import json
import pathlib
import tempfile

import kit
import export
from bookings import Phase
from catalogue import read_catalogue

NOW = "2026-06-01T06:05:00Z"
SWAPPED = object()
DAY = ("2026-06-01", "2026-06-02")
TWO_SEATS = (
    '{"first":11,"last":14,"traits":["WINDOW"]},\n' + " " * 52 + '{"first":15,"last":18',
    '{"first":17,"last":18',
)
# The plan, what is another text in NEW, the status, and what is said.
CASES = [
    ("", (), 0, "bookings touched: 0; owed: 0.00 EUR"),
    ("# nothing\n\n   \n", (), 0, "bookings touched: 0; owed: 0.00 EUR"),
    ("cancle run 0", (), 3, 'plan line 1: "cancle run 0" is no line of a plan. Lines are: cancel run N;'),
    ("\ncancel run\nclose run x", (), 3, 'plan line 3: "close run x" is no line'),
    ("block places 12-11 of coach 2 of run 0", (), 3, "plan line 1: the last place is before the first"),
    ("cancel run 0\nmove run 0 to 0", (), 3, "plan line 2: run 0 is moved to itself"),
    ("move run 0 to 1\nmove run 0 to 1", (), 3, "plan line 2: run 0 is moved twice"),
    ("replace coach 2 of run 0 by 2\nreplace coach 2 of run 0 by 1", (), 3,
     "plan line 2: coach 2 of run 0 is replaced twice"),
    ("cancel run 7", (), 1, "there is no run 7: the last one is 1"),
    ("cancel run 0\nclose run 0", (), 1, "run 0 is cancelled and closed"),
    ("open run 0\nclose run 0", (), 1, "run 0 is opened, and cancelled or closed"),
    ("move run 0 to 1", (), 1, "run 0 is moved and not cancelled, so it would be sold again: add `cancel run 0`"),
    ("refund run 0", (), 1, "run 0 is refunded, and is neither cancelled nor has a coach that is replaced"),
    ("cancel run 0\nclose run 1\nmove run 0 to 1", (), 1, "run 0 is moved to run 1, which is cancelled or closed"),
    ("cancel run 0\nreplace coach 2 of run 0 by 2", (), 1, "run 0 is cancelled, and a coach of it is replaced"),
    ("replace coach 1 of run 0 by 2\nreplace coach 2 of run 0 by 2", (), 1,
     "coach 2 of run 0 takes passengers, and is replaced itself"),
    ("cancel run 0", (), 1, "run 0 is cancelled, and its times in NEW are not on 2099-12-31"),
    ("close run 0", DAY, 1, "run 0 is closed, and its times in NEW are neither on 1970-01-01 nor on the day they were"),
    ("close run 0", (), 0, "run 0, train 501: 1 stays"),
    ("", ("2026-06-01T09:10:00Z", "2026-06-01T09:04:00Z"), 0, "run 1, train 812: 1 connection lost"),
    ("", ("2026-06-01T09:10:00Z", "2026-06-01T09:05:00Z"), 0, "bookings touched: 0; owed: 0.00 EUR"),
    ("", ("EUR", "CHF"), 1, "the currency is EUR in OLD and CHF in NEW"),
    ("", DAY, 1, "run 0 is train 501 of 2026-06-01 in OLD and of 2026-06-02 in NEW"),
    ("", ('"train":501', '"train":502'), 1,
     "run 0 is train 501 BASEL-OLTEN-BERN in OLD, and train 502 BASEL-OLTEN-BERN in NEW"),
    ("", SWAPPED, 1, "run 0 is train 501 BASEL-OLTEN-BERN in OLD, and train 812 BERN-THUN in NEW"),
    ("", ('"coach":2', '"coach":7'), 1,
     "run 0: coach 2 seat 11 is SECOND WINDOW in OLD and not there in NEW; is `replace coach 2 of run 0 by ..` meant?"),
    ("", ('"coach":2,"class":"SECOND"', '"coach":2,"class":"FIRST"'), 1,
     "coach 2 seat 11 is SECOND WINDOW in OLD and FIRST WINDOW in NEW"),
    ("", ('"last":14,"traits":["WINDOW"]', '"last":14,"traits":["QUIET"]'), 1,
     "coach 2 seat 11 is SECOND WINDOW in OLD and SECOND QUIET in NEW"),
    ("", ('"first":15,"last":18', '"first":15,"last":17'), 1,
     "run 0: coach 2 seat 18 is SECOND AISLE in OLD and not there in NEW"),
    ("", ('"first":15,"last":18', '"first":15,"last":19'), 0, "bookings touched: 0; owed: 0.00 EUR"),
    ("", ('"currency":"EUR"', '"currency":"EUR","rows":1'), 0, "bookings touched: 0; owed: 0.00 EUR"),
    ("block places 15-16 of coach 2 of run 0", ('"currency":"EUR"', '"currency":"EUR","rows":1'), 1,
     "NEW has too few rows for what is blocked: 1 more are needed"),
    ("block places 15-26 of coach 2 of run 0", (), 1, "coach 2 of run 0 has no places 15 to 26 in NEW"),
    ("block places 11-12 of coach 2 of run 0", (), 0, "run 0, train 501: 1 stays"),
    ("replace coach 2 of run 0 by 9", ('"coach":2', '"coach":7'), 1, "run 0 has no coach 9 in NEW"),
    ("replace coach 5 of run 0 by 7", ('"coach":2', '"coach":7'), 1, "run 0 has no coach 5 in OLD"),
    ("replace coach 2 of run 0 by 7", ('"coach":2', '"coach":7'), 0, "run 0, train 501: 1 same numbers"),
    ("replace coach 2 of run 0 by 2", ('"first":11,"last":14', '"first":21,"last":24'), 0,
     "run 0, train 501: 1 reseated"),
    ("replace coach 2 of run 0 by 2", TWO_SEATS, 1,
     "booking B000000 has no place in run 0; `refund run 0` would pay it back"),
    ("replace coach 2 of run 0 by 2", ('"coach":2,"class":"SECOND"', '"coach":2,"class":"FIRST"'), 1,
     "booking B000000 has no place in run 0"),
    ("replace coach 2 of run 0 by 2\nrefund run 0", ('"coach":2,"class":"SECOND"', '"coach":2,"class":"FIRST"'), 0,
     "owed: 42.50 EUR"),
]


def new_text(text, change):
    if change is SWAPPED:
        tree = json.loads(text)
        tree["runs"].reverse()
        return json.dumps(tree)
    return text.replace(*change, 1) if change and change is not DAY else text.replace(*change) if change else text


def try_case(found, folder, text, case):
    plan, change, wanted, words = case
    changed = new_text(text, change)
    found.need(not change or changed != text, "%r: nothing is replaced", case)
    (folder / "plan").write_text(plan)
    (folder / "new.json").write_text(changed)
    status, said, notes = kit.run_tool("amend", folder / "old.json", folder / "new.json", folder / "old.export",
                                       folder / "plan",
                                       "--now", NOW, "--affected", folder / "affected.csv")
    found.need(status == wanted and words in notes, "%r with %r: status %d, %s", plan, change, status, notes)
    found.need(bool(said) == (status == 0), "%r: an export is written at status %d", plan, status)


def try_catalogue(found, folder, text):
    """`--catalogue` moves the times of what is shut, and nothing else."""
    (folder / "plan").write_text("cancel run 0\nclose run 1\nrefund run 0\n")
    status, said, notes = kit.run_tool("amend", "--catalogue", folder / "old.json", folder / "plan")
    found.need(status == 0 and not notes, "--catalogue: status %d, %s", status, notes)
    (folder / "new.json").write_text(said)
    old, new = read_catalogue(text.encode()), read_catalogue(said.encode())
    found.need(old.places == new.places and old.terms == new.terms and old.retailers == new.retailers,
               "--catalogue changes more")
    days = [{stop.depart // 86_400 for stop in run.stops} | {stop.arrive // 86_400 for stop in run.stops}
            for run in new.runs]
    found.need(days == [{47_481}, {0}], "--catalogue has the days %s", days)
    status, said, notes = kit.run_tool("amend", folder / "old.json", folder / "new.json", folder / "old.export",
                                       folder / "plan",
                                       "--now", NOW, "--affected", folder / "affected.csv")
    found.need(status == 0, "its catalogue doesn't fit its plan: %s", notes)
    (folder / "plan").write_text("open run 0\nopen run 1\n")
    status, again, notes = kit.run_tool("amend", "--catalogue", folder / "new.json", folder / "plan")
    found.need(status == 0 and json.loads(again) == json.loads(text), "--catalogue doesn't open what it shut: %s",
               notes)
    (folder / "plan").write_text("cancel run 5\n")
    status, _, notes = kit.run_tool("amend", "--catalogue", folder / "old.json", folder / "plan")
    found.need(status == 1 and "there is no run 5 in OLD" in notes, "--catalogue of an unknown run: %d %s", status,
               notes)


def try_open(found, program, folder, text):
    """What is blocked isn't sold; what is opened is sold again, and the row of the block stays given away."""
    (folder / "plan").write_text("block places 1-4 of coach 1 of run 0\n")
    words = [folder / "old.json", folder / "old.json"]
    last = ("--now", NOW, "--affected", folder / "affected.csv")
    _, blocked, _ = kit.run_tool("amend", *words, folder / "old.export", folder / "plan", *last)
    (folder / "blocked").write_text(blocked)
    (folder / "plan").write_text("open run 0\n")
    _, opened, _ = kit.run_tool("amend", *words, folder / "blocked", folder / "plan", *last)
    (folder / "opened").write_text(opened)
    wish = kit.request("POST", "/reservations", "north", {"run": 0, "class": "FIRST", "from": "BASEL", "to": "BERN"})
    for name, wanted in (("old.export", (201, "B000001")), ("blocked", (409, None)), ("opened", (201, "B000002"))):
        _, said, _ = kit.host(program, "replay", folder / "old.json", "--from", folder / name, "--start", NOW,
                              data=wish)
        (status, body), = kit.answers(said)
        found.need((status, body.get("id")) == wanted, "of %s the host answers %d %s", name, status, body)
    lines = export.read_export(read_catalogue(text.encode()), opened.encode())
    found.need([line.phase for line in lines] == [Phase.FULFILLED, Phase.RELEASED], "opened: %s", opened)


# What a retailer sees of run 0 once it is shut: the plan, whether its times in NEW stay as they are, and what comes of
# a search from BASEL to BERN (the free places of each offer), of an offer for it, of one that goes on to THUN, of a
# reservation, of a refund of who is left (it was 11.00), and how many of its places are free.
SEEN = [
    ("", True, [5], 201, 201, 201, 825, 9),
    ("cancel run 0", False, [], "NoPlace", "UnknownOffer", "NoPlace", 1100, 0),
    ("close run 0", False, [], "UnknownOffer", "UnknownOffer", "NoPlace", 0, 0),
    ("close run 0", True, [0], "NoPlace", "NoPlace", "NoPlace", 825, 0),
]


def try_seen(found, program, folder, text):
    """The page's table of what a retailer sees, over the host. Two hours before departure 25 % of a refund are kept."""
    old, new, now = folder / "old.json", folder / "new.json", "2026-06-01T05:59:00Z"
    sold = [kit.request("POST", "/reservations", "north", {"run": 0, "from": "BASEL", "to": "BERN", "count": count})
            for count in (1, 2)]
    sold += [kit.request("POST", "/bookings/B000000/fulfillments", "north"),
             kit.request("POST", "/bookings/B000001/fulfillments", "north")]
    (folder / "sold.export").write_bytes(kit.host(program, "export", old, "--start", now, data=b"".join(sold))[1])
    for plan, stays, search, direct, onward, reserved, worth, free in SEEN:
        (folder / "plan").write_text(plan)
        new.write_text(text if stays else kit.run_tool("amend", "--catalogue", old, folder / "plan")[1])
        status, said, notes = kit.run_tool("amend", old, new, folder / "sold.export", folder / "plan", "--affected",
                                           folder / "affected.csv")
        (folder / "shut.export").write_text(said)
        made = 1_780_293_540 - 60
        asked = [kit.request("POST", "/offers", "north",
                             {"adults": 1, "origin": "BASEL", "destination": "BERN", "earliest": now}),
                 kit.request("GET", "/runs/0/places/BASEL/BERN", "north"),
                 kit.request("POST", "/bookings", "north", {"offerId": "O%d-1-0-2-0-0.0.2" % made}),
                 kit.request("POST", "/bookings", "north", {"offerId": "O%d-1-0-2-0-0.0.2_1.0.1" % made}),
                 kit.request("POST", "/reservations", "north", {"run": 0, "from": "BASEL", "to": "OLTEN"}),
                 kit.request("POST", "/bookings/B000000/refund-offers", "north")]
        bodies = kit.answers(kit.host(program, "replay", new, "--from", folder / "shut.export", "--start", now,
                                      data=b"".join(asked))[1])
        came = [[segment["free"] for offer in bodies[0][1]["offers"] for segment in offer["segments"]]]
        came += [body.get("code", number) for number, body in bodies[2:5]] + [bodies[5][1]["amount"]["amount"]]
        came.append(sum(place["free"] for place in bodies[1][1]["places"]))
        found.need(status == 0 and came == [search, direct, onward, reserved, worth, free], "%r: a retailer sees %s %s",
                   plan, came, notes)


# A train that is put on: from and to with its times, which of the two trains of a booking is cancelled, and what
# becomes of it. At BERN a change takes 300 seconds; train 501 arrives there at 09:00 and train 812 departs at 09:10.
# Nobody waits for more than four hours.
PUT_ON = [
    ("BERN 09:05 THUN 09:40", 1, "moved"),
    ("BERN 09:04 THUN 09:40", 1, "no place"),
    ("BERN 13:00 THUN 13:30", 1, "moved"),
    ("BERN 13:01 THUN 13:30", 1, "no place"),
    ("BASEL 08:10 BERN 09:05", 0, "moved"),
    ("BASEL 08:10 BERN 09:06", 0, "no place"),
    ("BASEL 04:50 BERN 05:30", 0, "no place"),
    ("BASEL 06:04 BERN 06:30", 0, "no place"),
    ("BASEL 06:05 BERN 06:30", 0, "moved"),
    ("BASEL 08:10 OLTEN 09:00", 0, "no place"),
]


def try_put_on(found, folder, text):
    """Time for the change to the other train is kept, to the minute; and no train is taken that has left by now, 06:05.
    """
    for train, cancelled, wanted in PUT_ON:
        origin, departs, destination, arrives = train.split()
        tree = json.loads(text)
        stops = [{"station": origin, "depart": "2026-06-01T%s:00Z" % departs},
                 {"station": destination, "arrive": "2026-06-01T%s:00Z" % arrives}]
        tree["runs"].append(dict(tree["runs"][1 if cancelled else 0], train=900, stops=stops))
        (folder / "more.json").write_text(json.dumps(tree))
        (folder / "plan").write_text("cancel run %d\nmove run %d to 2\n" % (cancelled, cancelled))
        _, changed, _ = kit.run_tool("amend", "--catalogue", folder / "more.json", folder / "plan")
        (folder / "new.json").write_text(changed)
        files = [folder / name for name in ("old.json", "new.json", "old.export", "plan")]
        status, _, notes = kit.run_tool("amend", *files, "--now", NOW, "--affected", folder / "affected.csv")
        found.need(status == 0 and "1 %s\n" % wanted in notes, "with a train %s: status %d, %s", train, status, notes)


def try_serve(found, program, folder):
    """`serve` begins with the result of a plan too, shows what became of a booking, and gives the same export at its
    end.
    """
    (folder / "plan").write_text("cancel run 0\nrefund run 0\n")
    _, changed, _ = kit.run_tool("amend", "--catalogue", folder / "old.json", folder / "plan")
    (folder / "new.json").write_text(changed)
    files = [folder / name for name in ("old.json", "new.json", "old.export", "plan")]
    _, said, _ = kit.run_tool("amend", *files, "--now", NOW, "--affected", folder / "affected.csv")
    (folder / "new.export").write_text(said)
    shown, export_text = kit.served(program, folder / "new.json", folder / "new.export",
                                    kit.request("GET", "/bookings/B000000", "north"))
    (status, booking), = kit.answers(shown)
    found.need((status, booking["status"], booking["endAmount"]["amount"]) == (200, "REFUNDED", 4250),
               "serve shows %d %s", status, booking)
    found.need(export_text == said, "serve gives another export: %s", export_text)


def faults(program):
    found = kit.Faults()
    text = (kit.ROOT / "examples" / "k1.json").read_text()
    sold = (kit.ROOT / "examples" / "whole_booking.http").read_bytes()
    with tempfile.TemporaryDirectory() as name:
        folder = pathlib.Path(name)
        (folder / "old.json").write_text(text)
        start = ("--start", "2026-06-01T06:00:00Z")
        (folder / "old.export").write_bytes(kit.host(program, "export", folder / "old.json", *start, data=sold)[1])
        for case in CASES:
            try_case(found, folder, text, case)
        try_catalogue(found, folder, text)
        try_open(found, program, folder, text)
        try_seen(found, program, folder, text)
        try_put_on(found, folder, text)
        try_serve(found, program, folder)
    for words, wanted in ((("--help",), 0), (("a",), 2), (("a", "b", "c", "d", "--now", "x"), 2),
                          (("/no", "/no", "/no", "/no"), 3)):
        status, _, notes = kit.run_tool("amend", *words)
        found.need(status == wanted, "amend %s: status %d, %s", words, status, notes)
    return found

#!/usr/bin/env python3
"""Exports with one part written otherwise: program and model refuse each for the fault that is named here.

  tests/model/exports.py PROGRAM

The text is one of three bookings in books of four rows: one that was exchanged, one of six items, and the successor.
As it stands, and with legs that an ended booking had, it is read and written back as it was. It prints what comes
otherwise, and its last line counts.
"""
import argparse
import json
import os
import pathlib
import subprocess
import sys
import tempfile

import export
from catalogue import read_catalogue

SECONDS = 60
SAMPLE = pathlib.Path(__file__).resolve().parents[1] / "cases" / "restart-m0.json"
TEXT = """rail-export 1 18 4
row 0 0 x 1 1780294500 2200 1 0.0.2 m550 1780293600 2.0
row 1 0 P 1 1780294500 3600 6 12.0.1 13.0.1 14.0.1 15.0.1 16.0.1 17.0.1
row 2 0 C 1 1780294500 800 1 4.1.2
end 3
"""
# The successor and its row, within the books and after them.
FAR = TEXT[TEXT.index("2.0\nrow 1"):TEXT.index(" 0 C")]
FURTHER = "4.0" + FAR[3:-1] + "4"

NO_EXPORT = [
    ("", "x"), ("export 1", "export 2"), (" 18 ", " 018 "), (" 4\n", " 4 \n"), ("end 3\n", ""), ("end 3\n", "end 3"),
    ("end 3\n", "end 2\n"), ("end 3\n", "end 3\n\n"), ("end 3\n", "end 3\nx"), ("m550", "m0"), ("m550", "550"),
    ("2200 1", "2200 2"), (" 2.0\n", "\n"), ("row 1 0 P", "row 0 0 P"), ("row 1 0 P", "row 1 0 Q"),
    (" 3600 ", " 18446744073709551616 "), ("row 2 ", "ROW 2 "),
]
OTHER_SIZES = [(" 4\n", " 3\n"), (" 18 ", " 17 ")]
WRONG_ROWS = [
    (" 3600 ", " 18446744073709551615 "), ("row 2 ", "row 4 "), (FAR, FURTHER), ("row 2 0", "row 2 65536"),
    ("1780294500 800", "4102444800 800"), ("800 1 4.1.2", "800 0"), ("4.1.2", "4.1.3"), ("4.1.2", "18.0.1"),
    ("4.1.2", "4.1.1"), ("13.0.1", "12.0.1"), ("m550", "p100010000000"), (" x ", " r "), (" 2.0\n", " -\n"),
    (" 2.0\n", " 2.1\n"), (" 2.0\n", " 3.0\n"),
]
TWO_AT_ONE_PLACE = [("4.1.2", "12.0.1")]
ITS_OWN_SUCCESSOR = [(" 2.0\n", " 0.0\n")]
REFUSED = [NO_EXPORT, OTHER_SIZES, WRONG_ROWS, TWO_AT_ONE_PLACE, ITS_OWN_SUCCESSOR]  # by their faults, from 1
RIGHT = [("", ""), ("4.1.2", "0.1.2")]


def sample() -> bytes:
    """The sample catalogue, with four rows."""
    text = json.loads(SAMPLE.read_text())["files"]["k1.json"]
    return text.replace("{", '{"rows":4,', 1).encode()


def by_model(catalogue: bytes, text: bytes) -> tuple:
    try:
        export.read_export(read_catalogue(catalogue), text)
    except export.ExportFault as fault:
        return 1, b"", "rail_host: %s\n" % fault.note()
    return 0, text, ""


def by_program(program: str, catalogue: bytes, text: bytes) -> tuple:
    with tempfile.TemporaryDirectory() as folder:
        for name, content in (("k.json", catalogue), ("x.txt", text)):
            with open(os.path.join(folder, name), "wb") as file:
                file.write(content)
        words = [os.path.abspath(program), "export", "k.json", "--from", "x.txt"]
        ran = subprocess.run(words, cwd=folder, stdin=subprocess.DEVNULL, capture_output=True, timeout=SECONDS)
    return ran.returncode, ran.stdout, ran.stderr.decode()


def wanted() -> list:
    """Each text, the part that was changed, and how it has to be taken."""
    faults = [(edit, fault) for fault, edits in enumerate(REFUSED, 1) for edit in edits]
    found = [(edit, (1, b"", "rail_host: export fault %d\n" % fault)) for edit, fault in faults]
    found += [(edit, None) for edit in RIGHT]
    return [(TEXT.replace(*edit, 1).encode(), edit, end) for edit, end in found]


def main() -> int:
    parser = argparse.ArgumentParser(description=__doc__, formatter_class=argparse.RawDescriptionHelpFormatter)
    parser.add_argument("program")
    program = parser.parse_args().program
    if not os.access(program, os.X_OK):
        print("exports: there is no program %s" % program, file=sys.stderr)
        return 2
    catalogue, wrong, texts = sample(), 0, wanted()
    for text, edit, end in texts:
        want = end or (0, text, "")
        for who, came in (("program", by_program(program, catalogue, text)), ("model", by_model(catalogue, text))):
            if came != want:
                wrong += 1
                print("%r for %r, the %s: %r and not %r" % (edit[1], edit[0], who, came, want))
    print("%d texts, %d of them refused, %d wrong" % (len(texts), len(texts) - len(RIGHT), wrong))
    return 1 if wrong else 0


if __name__ == "__main__":
    sys.exit(main())

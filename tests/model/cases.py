"""Holds the model against the cases of the stage that is built.

  tests/model/cases.py [--stage STAGE]

Cases with a device that fails are passed over: the model has no devices.
"""
import argparse
import pathlib
import sys

import words

sys.path.append(str(pathlib.Path(__file__).resolve().parent.parent))
from stages import BUILT, STAGES, cases, files_of, input_of, readings


def main() -> int:
    parser = argparse.ArgumentParser(description=__doc__, formatter_class=argparse.RawDescriptionHelpFormatter)
    parser.add_argument("--stage", choices=STAGES, default=BUILT)
    given = parser.parse_args()
    held = failed = passed_over = 0
    for case in cases(given.stage):
        if case.get("env"):
            passed_over += 1
            continue
        got = words.run([word.encode() for word in case["words"]], files_of(case), input_of(case))
        wanted = [words.Outcome(*reading) for reading in readings(case)]
        if got in wanted:
            held += 1
        else:
            failed += 1
            print("%s\n  got      %r\n  expected %r" % (case["name"], got, wanted[0]))
    print("%d cases held, %d failed, %d passed over" % (held, failed, passed_over))
    return 1 if failed or not held else 0


if __name__ == "__main__":
    sys.exit(main())

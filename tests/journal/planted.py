#!/usr/bin/env python3
"""The checks of this folder on the stand-in: they find nothing as it is, and each of the faults that can be planted in it.

  tests/journal/planted.py [FAULT..]      all of them, or these

The stand-in (`stand_in.py`) is a plain host with a journal, in Python. Ends with status 0 where each fault is found by its check, by a line
that names a booking or a file, and the stand-in without one passes.
"""
import argparse
import os
import pathlib
import subprocess
import sys

HERE = pathlib.Path(__file__).resolve().parent
KILL, POWER, DISKS = ["kill.py", "--rounds"], ["power.py", "--calls"], ["faults.py", "--full"]
# A fault, the check that finds it, and a part of what that says.
PLANTED = [
    ("", [*KILL, "8"], "0 faults"),
    ("early", [*KILL, "30"], "told as"),
    ("reads", [*KILL, "60"], "told as"),
    ("lost", [*KILL, "30"], "told as"),
    ("halves", [*KILL, "60"], "export has fault"),
    ("again", [*KILL, "30"], "told as"),
    ("", [*POWER, "30", "--only", "6"], "0 faults"),
    ("unsynced", [*POWER, "30", "--only", "12"], "told as"),
    ("folder", [*POWER, "30", "--only", "12"], "told as"),
    ("", [*DISKS, "1", "--only", "2"], "0 faults"),
    ("goes on", [*DISKS, "1", "--only", "2"], "more was done with the file"),
]


def main() -> int:
    parser = argparse.ArgumentParser(description=__doc__, formatter_class=argparse.RawDescriptionHelpFormatter)
    parser.add_argument("faults", nargs="*", metavar="FAULT")
    wanted = parser.parse_args().faults
    wrong = tried = 0
    for fault, (script, *words), part in PLANTED:
        if wanted and fault not in wanted:
            continue
        run = subprocess.run([sys.executable, HERE / script, HERE / "stand_in.py", *words], capture_output=True, text=True,
                             env=dict(os.environ, FAULT=fault))
        tried += 1
        if run.returncode != (1 if fault else 0) or part not in run.stdout or run.stderr:
            wrong += 1
            print("%s on %s: status %d\n%s%s" % (script, fault or "the stand-in", run.returncode, run.stdout[-1500:], run.stderr[-1500:]))
    print("%d runs on the stand-in, %d of which said something else" % (tried, wrong))
    return 1 if wrong or not tried else 0


if __name__ == "__main__":
    sys.exit(main())

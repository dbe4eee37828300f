#!/usr/bin/env python3
"""Tries the programs of tools/ and the module they share.

  tests/tools/try.py PROGRAM [PART..]

PROGRAM is the built host. The parts are the files of parts/. Without a PART all are tried.
"""
import importlib
import pathlib
import sys
import time

PARTS = ["texts", "seats", "manifest", "seating", "amend", "refusals", "roll", "roll_cases"]


def main():
    program, found, took = pathlib.Path(sys.argv[1]).resolve(), [], []
    parts = sys.argv[2:] or PARTS
    for part in parts:
        begin = time.time()
        found += ["%s: %s" % (part, fault) for fault in importlib.import_module("parts." + part).faults(program)]
        took.append("%s %d s" % (part, time.time() - begin))
    for fault in found[:40]:
        print("tools: " + fault)
    print("tools: %s: %d wrong" % (", ".join(took), len(found)))
    return 1 if found else 0


sys.exit(main())

#!/usr/bin/env python3
"""Plays the cases on the built program, and compares its output, its status and its note byte for byte.

  tests/play.py PROGRAM [--stage STAGE] [--match TEXT] [--pieces]

--pieces plays those that have an input, and gives it in pieces of 1, 2, 3 and 7 bytes and larger ones. The last line counts; the status is 0
only where nothing failed and something passed.
"""
import argparse
import os
import pathlib
import subprocess
import sys
import tempfile
import threading

from stages import BUILT, STAGES, cases, files_of, input_of, readings

LIMIT_SECONDS = 120
SIZES = [1, 2, 3, 7, 64, 1000, 30000]


def write_in_pieces(pipe, data):
    at = turn = 0
    try:
        while at < len(data):
            size = SIZES[turn % len(SIZES)]
            pipe.write(data[at:at + size])
            pipe.flush()
            at, turn = at + size, turn + 1
        pipe.close()
    except OSError:
        pass  # the program may end before it has read all


def ended(process, data, pieces):
    """The output, the status and the notes of a process that is given this input."""
    if not pieces:
        out, notes = process.communicate(data, timeout=LIMIT_SECONDS)
        return out or b"", process.returncode, notes
    pipe, process.stdin = process.stdin, None
    writer = threading.Thread(target=write_in_pieces, args=(pipe, data), daemon=True)
    writer.start()
    out, notes = process.communicate(timeout=LIMIT_SECONDS)
    writer.join(LIMIT_SECONDS)
    return out, process.returncode, notes


def opened(path, flags):
    """The device that a case names for a stream, or a pipe."""
    return os.open(path, flags) if path else subprocess.PIPE


def has_pieces(case):
    return input_of(case) != b"" and not case.get("env")


def run(program, case, pieces):
    devices = case.get("env") or {}
    source = opened(devices.get("stdin"), os.O_RDONLY)
    sink = opened(devices.get("stdout"), os.O_WRONLY)
    with tempfile.TemporaryDirectory() as folder:
        for name, data in files_of(case).items():
            (pathlib.Path(folder) / name).write_bytes(data)
        process = subprocess.Popen([program] + case["words"], cwd=folder, stdin=source, stdout=sink, stderr=subprocess.PIPE)
        try:
            return ended(process, None if devices.get("stdin") else input_of(case), pieces)
        except subprocess.TimeoutExpired:
            process.kill()
            process.communicate()
            return b"", "no end in %d s" % LIMIT_SECONDS, b""
        finally:
            for device in (source, sink):
                if device != subprocess.PIPE:
                    os.close(device)


def show(got, wanted):
    (out, status, notes), (text, code, note) = got, wanted
    if out != text:
        at = next((i for i, (a, b) in enumerate(zip(out, text)) if a != b), min(len(out), len(text)))
        print("    output differs at byte %d of %d (wanted %d)" % (at, len(out), len(text)))
        print("      got    ..%r" % out[max(0, at - 60):at + 120])
        print("      wanted ..%r" % text[max(0, at - 60):at + 120])
    if status != code:
        print("    status %s, wanted %s" % (status, code))
    if notes != note:
        print("    notes %r, wanted %r" % (notes[:300], note))


def main():
    words = argparse.ArgumentParser(description=__doc__, formatter_class=argparse.RawDescriptionHelpFormatter)
    words.add_argument("program")
    words.add_argument("--stage", choices=STAGES, default=BUILT)
    words.add_argument("--match", default="")
    words.add_argument("--pieces", action="store_true")
    given = words.parse_args()
    program, passed, failed = os.path.abspath(given.program), 0, 0
    for case in cases(given.stage):
        if given.match not in case["name"] or given.pieces and not has_pieces(case):
            continue
        got, wanted = run(program, case, given.pieces), list(readings(case))
        if got in wanted:
            passed += 1
        else:
            failed += 1
            print("FAIL %s" % case["name"])
            show(got, wanted[0])
    print("%d cases passed, %d failed" % (passed, failed))
    return 0 if passed and not failed else 1


if __name__ == "__main__":
    sys.exit(main())

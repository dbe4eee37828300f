#!/usr/bin/env python3
"""Builds the program without proving anything: as `rt try` does, but optimised, without AddressSanitizer, and kept.

  tests/unproved.py OUT

The program tests each index and sum as it runs, so it is slower than the proved one. Its answers are the same. Only the
kit and this repository are needed. Nothing is said for minutes.
"""
import os
import pathlib
import subprocess
import sys
import tempfile

ROOT = pathlib.Path(__file__).resolve().parents[1]
sys.dont_write_bytecode = True
sys.path.insert(0, str(ROOT / "bench"))
from words import rt_itself, try_words

# What links in the place of the kit's linker, and keeps what it made.
LINKER = """#!%s
import shutil, subprocess, sys
status = subprocess.run(["%s", *sys.argv[1:]]).returncode
if status == 0:
    shutil.copy(sys.argv[sys.argv.index("-o") + 1], "%s")
sys.exit(status)
"""


def build(out):
    """Builds the program at this path, or ends with what the kit says."""
    out.unlink(missing_ok=True)
    os.chdir(ROOT / "crates/rail_host")
    with tempfile.TemporaryDirectory() as name:
        folder = pathlib.Path(name)
        kit, library = rt_itself()
        words = try_words(kit, library, ROOT, folder)
        linker = folder / "toolchain/bin/ld.lld"
        linker.unlink()
        linker.write_text(LINKER % (sys.executable, kit / "toolchain/bin/ld.lld", out))
        linker.chmod(0o755)
        environment = {**os.environ, "TMPDIR": name}
        done = subprocess.run(words, env=environment, stdin=subprocess.DEVNULL, capture_output=True, text=True)
    if not out.exists():
        sys.exit("unproved: nothing was built, status %d\n%s%s" % (done.returncode, done.stdout, done.stderr))


def main():
    if len(sys.argv) != 2 or sys.argv[1].startswith("-"):
        print(__doc__)
        return 0 if sys.argv[1:] in (["--help"], ["-h"]) else 2
    out = pathlib.Path(sys.argv[1]).resolve()
    build(out)
    out.chmod(0o755)
    return 0


sys.exit(main())

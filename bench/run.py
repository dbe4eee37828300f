#!/usr/bin/env python3
"""All figures of the built program in one go: `replay` and `serve` beside the peer and their baselines, and the memory of rows and places.

  bench/run.py [--program PATH] [--requests N] [--seconds N]

Without --program it is the proved one, which `rt run` builds here first where it isn't there. (`rt run` proves what isn't kept, which takes hours
of processor time on a machine that has proved nothing yet.) --requests and --seconds are those of replay.py and serve.py.
"""
import datetime
import os
import pathlib
import platform
import subprocess
import sys

from replay import PROGRAM
from serve import load_words

HERE = pathlib.Path(__file__).resolve().parent


def processor():
    for line in pathlib.Path("/proc/cpuinfo").read_text().splitlines():
        if line.startswith("model name"):
            return line.split(":", 1)[1].strip()
    return platform.machine()


def part(title, words):
    print("\n%s\n" % title, flush=True)
    subprocess.run([sys.executable, str(HERE / words[0])] + words[1:], check=True)


def main():
    given = load_words(__doc__)
    if not pathlib.Path(given.program).is_file():
        if given.program != str(PROGRAM):
            sys.exit("%s is not there" % given.program)
        subprocess.run(["rt", "run", "--", "tiny", "3", "2"], cwd=PROGRAM.parent.parent, stdin=subprocess.DEVNULL, check=True)
    now = datetime.datetime.now(datetime.timezone.utc).strftime("%Y-%m-%d %H:%M UTC")
    print("%s, %s, %d processors, load %.1f, %s" % (now, processor(), os.cpu_count(), os.getloadavg()[0], given.program))
    program = ["--program", str(pathlib.Path(given.program).resolve())]
    part("replay: one connection over standard input and output", ["replay.py", "--requests", str(given.requests)] + program)
    part("memory of replay without requests", ["memory.py"] + program)
    part("serve: connections over sockets", ["serve.py", "--requests", str(given.requests), "--seconds", str(given.seconds)] + program)


if __name__ == "__main__":
    main()

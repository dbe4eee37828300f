#!/usr/bin/env python3
"""Measures what the operator's window costs a reservation: instructions and processor time of a host with `--window` and without.

  bench/window.py [--program PATH] [--port N] [--rounds N] [--requests N] [--instructions [--each]]

One connection and one worker. The processor time is the host's own, the system's part of it included: each round starts a host without the
window and one with it, and has each answer N reservations (20,000), first with one in flight and then with 16. `load.c` sends them. Run as a
user who may, hosts and load go before all else (`chrt -r 1`).

--instructions counts instead, by `valgrind --tool=callgrind`, what a reservation takes that is made (201), and one that is refused (409), with
one in flight. How often a host looks at its stream, and what else waits and spins, differs from run to run by more than the window takes. So
what counts is taken function by function: what the function itself took in a run of 2,500 requests, less what it took in one of 500, by the
2,000 between them. Three such pairs of runs are made without the window and three with it, by turns, and of each function the middle figure
stands. A function of the program is left out where its figures without the window differ by an instruction, and one of the C library where its
figures differ at all, but for the clock's. Those left out are the looks and what they call. The share is that of all functions' instructions,
looks included. --each prints each function that takes more or less with the window. The program has to have its symbols. What is left to chance
is the time itself: under callgrind a reservation takes some 0.1 ms and not some microseconds, and a longer time takes more steps to find its bound.
"""
import argparse
import collections
import contextlib
import glob
import pathlib
import re
import shutil
import signal
import socket
import statistics
import subprocess
import sys
import tempfile
import time

from replay import PROGRAM, catalogue, request, reservation

HERE = pathlib.Path(__file__).resolve().parent
FEW, MANY = 500, 2_500
COUNTED = 3
STEADY = 0.05
SECONDS = 120


def refused(number):
    """Reservations of a class that the run doesn't have."""
    body = '{"class":"FIRST","from":"L0S0","run":0,"to":"L0S1"}'
    return (request("POST /reservations", body) for _ in range(number))


def made(number):
    return (reservation(k % 200, 2) for k in range(number))


@contextlib.contextmanager
def serving(before, program, folder, port, window):
    """A host that serves the catalogue, and that ends with this."""
    words = [*before, str(program), "serve", str(folder / "catalogue.json"), "--port", str(port), "--workers", "1", "--connections", "2", "--sweep", "3000"]
    host = subprocess.Popen(words + (["--window", str(port + 1)] if window else []), stdout=subprocess.DEVNULL, stderr=subprocess.PIPE, text=True)
    try:
        wait_for(port, host)
        yield host
    finally:
        host.send_signal(signal.SIGTERM)
        host.wait(SECONDS)


def wait_for(port, host):
    """Until the port is listened at: asked of the system, since a connection would be served."""
    wanted, end = f":{port:04X} ", time.monotonic() + SECONDS
    while not any(wanted in line and " 0A " in line for line in open("/proc/net/tcp")):
        if host.poll() is not None or time.monotonic() > end:
            sys.exit(f"window: nobody listens at port {port}")
        time.sleep(0.1)


# Processor time


def processor_time(host):
    """Nanoseconds that the host's threads have run."""
    return sum(int(open(path).read().split()[0]) for path in glob.glob(f"/proc/{host.pid}/task/*/schedstat"))


def time_of(given, folder, window, depth):
    """Microseconds of processor of an answer."""
    first = ["chrt", "-r", "1"] if given.first else []
    with serving(first, given.program, folder, given.port, window) as host:
        before = processor_time(host)
        words = [*first, str(folder / "load"), str(given.port), str(SECONDS), str(depth), str(folder / "requests")]
        answers, others = subprocess.run(words, check=True, capture_output=True, text=True).stdout.split()[:2]
        if (int(answers), others) != (given.requests, "0"):
            sys.exit(f"window: {answers} answers, {others} of another status than 2xx")
        return (processor_time(host) - before) / 1_000 / given.requests


def compare_times(given, folder):
    (folder / "requests").write_text("".join(made(given.requests)))
    subprocess.run(["gcc", "-O2", "-D_GNU_SOURCE", "-pthread", "-o", str(folder / "load"), str(HERE / "load.c")], check=True)
    for depth in (1, 16):
        off, on = [], []
        for turn in range(given.rounds):
            for window in (False, True) if turn % 2 else (True, False):
                (on if window else off).append(time_of(given, folder, window, depth))
        more = statistics.median(b - a for a, b in zip(off, on))
        print(f"{depth} in flight: {statistics.median(off):.2f} us without it, {statistics.median(on):.2f} with it (least {min(off):.2f}, {min(on):.2f};"
              f" median of the differences {more:.2f})")


# Instructions


def answered(port, requests, status):
    """Sends the requests one after another, and reads each answer."""
    with socket.create_connection(("127.0.0.1", port), timeout=SECONDS) as link, link.makefile("rb") as stream:
        for text in requests:
            link.sendall(text.encode())
            head = b""
            while not head.endswith(b"\r\n\r\n"):
                line = stream.readline()
                if not line:
                    sys.exit("window: the connection ended early")
                head += line
            stream.read(int(re.search(rb"Content-Length: (\d+)", head).group(1)))
            if head[9:12] != status:
                sys.exit(f"window: an answer {head[9:12].decode()}")


def functions(path):
    """Instructions that each function took itself, by its name, from what callgrind wrote."""
    taken, current, of_call = collections.Counter(), None, False
    for line in open(path):
        if line.startswith("fn="):
            current = line[3:].strip()
        elif line.startswith("calls="):
            of_call = True
        elif line[0].isdigit() and current:
            if not of_call:
                taken[current] += int(line.split()[1])
            of_call = False
    return taken


def counted(given, folder, window, requests, status):
    """Instructions by function of a host that answers these."""
    kept = folder / "counts"
    words = ["--compress-strings=no", "--compress-pos=no", f"--callgrind-out-file={kept}"]
    with serving(["valgrind", "--tool=callgrind", *words], given.program, folder, given.port, window) as host:
        answered(given.port, requests, status)
    host.stderr.read()
    return functions(kept)


def per_request(given, folder, window, requests, status):
    """What each function takes of a request."""
    few, many = (counted(given, folder, window, requests(number), status) for number in (FEW, MANY))
    return {name: (many[name] - few[name]) / (MANY - FEW) for name in few.keys() | many.keys()}


def spread(figures):
    return max(figures) - min(figures)


def compared(without, with_it):
    """Of each function that counts: its name, what it takes without the window, and what it takes more with it."""
    for name in set().union(*without, *with_it):
        off, on = ([run.get(name, 0) for run in runs] for runs in (without, with_it))
        ours = "::" in name or name.startswith("clock_gettime")
        if spread(off) < 1 if ours else spread(off + on) < STEADY:
            yield name, statistics.median(off), statistics.median(on) - statistics.median(off)


def compare_counts(given, folder):
    for name, requests, status in (("made", made, b"201"), ("refused", refused, b"409")):
        runs = {False: [], True: []}
        for _ in range(COUNTED):
            for window in runs:
                runs[window].append(per_request(given, folder, window, requests, status))
        rows = sorted(compared(runs[False], runs[True]), key=lambda row: -abs(row[2]))
        more = sum(row[2] for row in rows)
        least, greatest = (find(sum(run.values()) for run in runs[False]) for find in (min, max))
        print(f"{name}: {least:,.0f} to {greatest:,.0f} instructions without the window, of which {sum(row[1] for row in rows):,.0f} are compared;"
              f" {more:,.1f} more with it ({100 * more / least:.2f} %)")
        for function, off, difference in rows if given.each else ():
            if abs(difference) >= STEADY:
                print(f"  {difference:7.2f} more than {off:8.2f}  {function}")


def main():
    words = argparse.ArgumentParser(description=__doc__, formatter_class=argparse.RawDescriptionHelpFormatter)
    words.add_argument("--program", default=str(PROGRAM))
    words.add_argument("--port", type=int, default=17_460, help="the host's port; the window has the next one")
    words.add_argument("--rounds", type=int, default=20)
    words.add_argument("--requests", type=int, default=20_000)
    words.add_argument("--instructions", action="store_true")
    words.add_argument("--each", action="store_true", help="with --instructions: each function that takes more or less with the window")
    given = words.parse_args()
    given.first = shutil.which("chrt") and subprocess.run(["chrt", "-r", "1", "true"], capture_output=True).returncode == 0
    with tempfile.TemporaryDirectory() as name:
        folder = pathlib.Path(name)
        (folder / "catalogue.json").write_text(catalogue(200, 2, 600))
        (compare_counts if given.instructions else compare_times)(given, folder)


if __name__ == "__main__":
    main()

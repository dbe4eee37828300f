#!/usr/bin/env python3
"""Loads `serve` over 1, 2 and 4 connections, beside the peer and beside a server that answers a fixed text, on the same sockets.

  bench/serve.py [--program PATH] [--requests N] [--seconds N]

Each connection sends its requests one after another, each after the answer of the one before, and at last with 16 of them in flight:
N of them (20,000), for at most so many seconds (10). There is a worker for each connection. load.c sends and measures, for all servers
alike. The peer (peer.rs) is a plain program of the same job; fixed.c answers every request with the first answer that the host gave in that
mix, so as many bytes over the same sockets.
"""
import argparse
import os
import pathlib
import socket
import subprocess
import sys
import tempfile
import time

from replay import PROGRAM, built_peer, catalogue, lists, offers, reservation, shown

HERE = pathlib.Path(__file__).resolve().parent


def apart(connection, number):
    """Reservations over runs that no other connection asks for."""
    return (reservation(50 * connection + k % 50, 2) for k in range(number))


def together(connection, number):
    """Reservations over the same runs in the same order."""
    return (reservation(k % 200, 2) for k in range(number))


MIXES = [
    ("reservations on runs of its own", catalogue(200, 2, 600), apart),
    ("reservations on the same runs", catalogue(200, 2, 600), together),
    ("lists of 600 places", catalogue(1, 2, 600), lambda connection, number: lists(number)),
    ("offers", catalogue(400, 10, 600), lambda connection, number: offers(number)),
]
# Connections, and how many requests of each are in flight.
LOADS = [(1, 1), (2, 1), (4, 1), (4, 16)]
MOST_ROWS = 262_144
# The host ends at a tick of its sweeping member, so this is how long its end may take; one sweep in so many seconds is part of the load.
SWEEP_SECONDS = 3
TITLES = ("mix", "connections", "in flight", "answers/s", "by the peer", "by fixed text", "p50 us", "p90", "p99", "greatest", "peer p50", "fixed p50", "refused", "memory MB")


def built(folder, name):
    program = folder / name
    subprocess.run(["gcc", "-O2", "-D_GNU_SOURCE", "-pthread", "-o", str(program), str(HERE / (name + ".c"))], check=True)
    return str(program)


def free_port():
    with socket.create_server(("127.0.0.1", 0)) as free:
        return free.getsockname()[1]


def wait_for(port, server):
    """Until the server listens; the system's table is read, since a try would count as a connection."""
    line = " 0100007F:%04X 00000000:0000 0A " % port
    for _ in range(600):
        if server.poll() is not None:
            sys.exit("the server ended with status %d" % server.returncode)
        if line in pathlib.Path("/proc/net/tcp").read_text():
            return
        time.sleep(0.05)
    sys.exit("the server doesn't listen")


def ended(server):
    """The greatest memory in bytes of a server that has to end by itself, with status 0."""
    for _ in range(1200):
        number, status, used = os.wait4(server.pid, os.WNOHANG)
        if number:
            server.returncode = os.waitstatus_to_exitcode(status)
            if server.returncode != 0:
                sys.exit("the server ended with status %d" % server.returncode)
            return used.ru_maxrss * 1024
        time.sleep(0.05)
    sys.exit("the server doesn't end")


def loaded(words, port, load, files):
    """What the load printed of a server that these words start, and the server's greatest memory."""
    server = subprocess.Popen(words, stdin=subprocess.DEVNULL, stdout=subprocess.DEVNULL)
    try:
        wait_for(port, server)
        told = subprocess.run(load[:1] + [str(port)] + load[1:] + files, capture_output=True, text=True)
        if told.returncode != 0:
            sys.exit("load: %s" % told.stderr)
        return [float(number) for number in told.stdout.split()], ended(server)
    finally:
        if server.returncode is None and server.poll() is None:
            server.kill()
            server.wait()


def first_answer(program, folder, given):
    """What `replay` answers to the first request."""
    words = [program, "replay", str(folder / "catalogue.json"), "--start", "2026-06-01T06:00:00Z"]
    return subprocess.run(words, input=given.encode(), capture_output=True).stdout


def measure(program, peer, folder, load, fixed, number, seconds):
    for label, text, mix in MIXES:
        rows = min(MOST_ROWS, 4 * number)
        (folder / "catalogue.json").write_text(text.replace('"rows":65536', '"rows":%d' % rows))
        (folder / "answer").write_bytes(first_answer(program, folder, next(iter(mix(0, 1)))))
        for connections, depth in LOADS:
            way = [load, str(seconds), str(depth)]
            files = []
            for connection in range(connections):
                file = folder / ("requests%d" % connection)
                with open(file, "w", newline="") as out:
                    out.writelines(mix(connection, number))
                files.append(str(file))
            port = free_port()
            ours = [program, "serve", str(folder / "catalogue.json"), "--port", str(port), "--workers", str(connections)]
            told, memory = loaded(ours + ["--connections", str(connections), "--sweep", str(SWEEP_SECONDS)], port, way, files)
            port = free_port()
            theirs = [peer, "serve", str(folder / "catalogue.json"), str(port), str(connections), str(connections)]
            plain, _ = loaded(theirs, port, way, files)
            port = free_port()
            text_alone, _ = loaded([fixed, str(port), str(connections), str(connections), str(folder / "answer")], port, way, files)
            rate = told[0] / told[2]
            yield (
                label,
                connections,
                depth,
                "%.0f" % rate,
                "%.2f" % (rate * plain[2] / plain[0]),
                "%.2f" % (rate * text_alone[2] / text_alone[0]),
                *("%.0f" % told[n] for n in range(3, 7)),
                "%.0f" % plain[3],
                "%.0f" % text_alone[3],
                "%.0f" % told[1],
                memory // 1_000_000,
            )


def load_words(text):
    """The words of a command that loads the program, which its text describes."""
    words = argparse.ArgumentParser(description=text, formatter_class=argparse.RawDescriptionHelpFormatter)
    words.add_argument("--program", default=str(PROGRAM))
    words.add_argument("--requests", type=int, default=20_000)
    words.add_argument("--seconds", type=int, default=10)
    return words.parse_args()


def main():
    given = load_words(__doc__)
    if not pathlib.Path(given.program).is_file():
        sys.exit("%s is not built: rt run in crates/rail_host builds it" % given.program)
    with tempfile.TemporaryDirectory() as name:
        folder = pathlib.Path(name)
        load, fixed, peer = built(folder, "load"), built(folder, "fixed"), built_peer(folder)
        shown(TITLES, list(measure(given.program, peer, folder, load, fixed, given.requests, given.seconds)))


if __name__ == "__main__":
    main()

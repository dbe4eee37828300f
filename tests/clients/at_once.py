#!/usr/bin/env python3
"""Sixteen clients at once against `serve` on loopback.

    tests/clients/at_once.py PROGRAM [PORT]

Without PORT a free one is taken. PROGRAM may be `-`, for one that runs already.

Starts PROGRAM with `serve examples/k1.json`, four workers and sixteen connections. One client stays silent, one sends half a request
and resets, one sends garbage, and each of the others reserves a place, asks for its booking, and is to be answered whole: 201 and then
200 with the same id, or 409 where the train is full. Each phase is bounded in time. Ends with status 0 where all was as it should be.
"""
import json
import os
import socket
import struct
import subprocess
import sys
import threading
import time

ROOT = os.path.dirname(os.path.dirname(os.path.dirname(os.path.abspath(__file__))))
sys.path.append(os.path.join(ROOT, "tests"))
from ports import free_port  # noqa: E402

BODY = b'{"class":"SECOND","from":"BASEL","run":0,"to":"BERN","wanted":[]}'


def connect(port, limit=20.0):
    """A connection, once the port listens."""
    end = time.time() + limit
    while True:
        try:
            return socket.create_connection(("127.0.0.1", port), timeout=60)
        except OSError:
            if time.time() > end:
                raise
            time.sleep(0.1)


def request(line, body=b"", last=False, key=b"north"):
    close = b"Connection: close\r\n" if last else b""
    head = line + b" HTTP/1.1\r\nRetailer-Key: " + key + b"\r\n" + close + b"Content-Length: %d\r\n\r\n" % len(body)
    return head + body


class Reader:
    """Reads answers of a connection, one after the other."""

    def __init__(self, stream):
        self.stream, self.held = stream, b""

    def more(self):
        got = self.stream.recv(65536)
        if not got:
            raise EOFError
        self.held += got

    def answer(self):
        while b"\r\n\r\n" not in self.held:
            self.more()
        head, self.held = self.held.split(b"\r\n\r\n", 1)
        length = 0
        for line in head.split(b"\r\n")[1:]:
            name, value = line.split(b":", 1)
            if name.lower() == b"content-length":
                length = int(value)
        while len(self.held) < length:
            self.more()
        body, self.held = self.held[:length], self.held[length:]
        return int(head.split(b" ")[1]), json.loads(body)


def sell(port, results, number):
    """One client that is to be served whole."""
    try:
        stream = connect(port)
        reader = Reader(stream)
        stream.sendall(request(b"POST /reservations", BODY))
        status, booking = reader.answer()
        if status == 201:
            stream.sendall(request(b"GET /bookings/" + booking["id"].encode(), last=True))
            shown, same = reader.answer()
            fine = shown == 200 and same["id"] == booking["id"]
            fine = fine and same["reservations"] == booking["reservations"]
            place = (booking["reservations"][0]["coach"], booking["reservations"][0]["place"])
        else:
            fine, place = status == 409 and booking["code"] == "NoPlace", None
        results[number] = (fine, place)
        stream.close()
    except Exception as error:  # told in the summary
        results[number] = (False, repr(error))


def silent(port, done):
    stream = connect(port)
    done.wait(50)
    stream.close()


def reset(port):
    stream = connect(port)
    stream.sendall(b"POST /reservations HTTP/1.1\r\nContent-Len")
    time.sleep(0.2)
    stream.setsockopt(socket.SOL_SOCKET, socket.SO_LINGER, struct.pack("ii", 1, 0))
    stream.close()


def garbage(port, results):
    try:
        stream = connect(port)
        stream.sendall(b"\x00\xff garbage\r\n\r\n")
        status, _body = Reader(stream).answer()
        results["garbage"] = status == 400
        stream.close()
    except Exception as error:
        results["garbage"] = repr(error)


def main():
    program = sys.argv[1]
    port = int(sys.argv[2]) if len(sys.argv) > 2 else free_port()
    server = None
    if program != "-":
        words = ["serve", os.path.join(ROOT, "examples", "k1.json"), "--port", str(port)]
        words += ["--workers", "4", "--connections", "16", "--sweep", "1"]
        server = subprocess.Popen([program] + words)
    results, done = {}, threading.Event()
    quiet = threading.Thread(target=silent, args=(port, done))
    others = [threading.Thread(target=reset, args=(port,)), threading.Thread(target=garbage, args=(port, results))]
    others += [threading.Thread(target=sell, args=(port, results, number)) for number in range(13)]
    quiet.start()
    time.sleep(0.2)
    for other in others:
        other.start()
    for other in others:
        other.join(60)
    done.set()
    quiet.join(60)
    bad = [(who, what) for who, what in results.items() if not (what is True or (isinstance(what, tuple) and what[0] is True))]
    places = [what[1] for what in results.values() if isinstance(what, tuple) and what[0] is True and what[1]]
    doubled = len(places) - len(set(places))
    missing = 14 - len(results)
    for who, what in bad:
        print(who, what)
    status = 0
    if server is not None:
        try:
            status = server.wait(60)
        except subprocess.TimeoutExpired:
            server.kill()
            status = -1
    print(f"served {len(places)} refused {13 - len(places)} doubled {doubled} wrong {len(bad)} missing {missing}, status {status}")
    sys.exit(0 if not bad and doubled == 0 and missing == 0 and status == 0 else 1)


if __name__ == "__main__":
    main()

#!/usr/bin/env python3
"""What HTTP libraries stumble over, as docs/retailers.md has it under "Your HTTP library" and "Keys and connections", over real sockets.

  tests/people/library.py PROGRAM
  tests/people/library.py --port N       at a host with the catalogue examples/k1.json that listens already, with 4 workers or more

It takes about 40 seconds, most of them waiting for the host to end what stalls.
"""
import concurrent.futures
import http.client
import json
import pathlib
import socket
import ssl
import subprocess
import sys
import time

ROOT = pathlib.Path(__file__).resolve().parents[2]
sys.path.append(str(ROOT / "tests"))
from ports import free_port  # noqa: E402

KEY = {"Retailer-Key": "north"}
LOOK = "/bookings/B000777"


def connected(port):
    return http.client.HTTPConnection("127.0.0.1", port, timeout=60)


def code_of(answer):
    return answer.status, json.loads(answer.read())["code"]


def refused_body(port, **words):
    """What a client of Python's library sees of a body that is refused while it is still being sent."""
    connection = connected(port)
    try:
        connection.request("POST", "/offers", headers=KEY, **words)
        return code_of(connection.getresponse())
    finally:
        connection.close()


def chunked(port):
    return refused_body(port, body=(b"{}" for _ in range(3)), encode_chunked=True), (501, "Coding")


def little_too_long(port):
    return refused_body(port, body=b"x" * 300_000), (413, "BodyTooLarge")


def much_too_long(port):
    """The host reads none of the body and closes. A client that sends it all first sees the answer after a failed write."""
    with socket.create_connection(("127.0.0.1", port), timeout=60) as stream:
        stream.sendall(b"POST /offers HTTP/1.1\r\nRetailer-Key: north\r\nContent-Length: 3000000\r\n\r\n")
        try:
            stream.sendall(b"x" * 3_000_000)
        except OSError:
            pass
        answer = http.client.HTTPResponse(stream)
        answer.begin()
        return code_of(answer), (413, "BodyTooLarge")


def head(port):
    with socket.create_connection(("127.0.0.1", port), timeout=60) as stream:
        stream.sendall(b"HEAD %s HTTP/1.1\r\nRetailer-Key: north\r\nConnection: close\r\n\r\n" % LOOK.encode())
        said = b"".join(iter(lambda: stream.recv(65536), b""))
    return (said[9:12], said.split(b"\r\n\r\n")[1]), (b"405", b'{"code":"NoMethod","status":405,"title":"No method"}')


def looked(port, path=LOOK, **fields):
    connection = connected(port)
    connection.request("GET", path, headers={**KEY, **fields})
    answer = connection.getresponse()
    found = code_of(answer) + (answer.getheader("Connection"), answer.getheader("Date"))
    connection.close()
    return found


def expect(port):
    return looked(port, Expect="100-continue"), (404, "UnknownBooking", None, None)


def query(port):
    return looked(port, LOOK + "?a=1"), (404, "UnknownBooking", None, None)


def old_version(port):
    with socket.create_connection(("127.0.0.1", port), timeout=60) as stream:
        stream.sendall(b"GET %s HTTP/1.0\r\nRetailer-Key: north\r\n\r\n" % LOOK.encode())
        said = b"".join(iter(lambda: stream.recv(65536), b""))
    return (said[:12], b"Connection: close" in said), (b"HTTP/1.1 404", True)


def escapes(port):
    """A booking is known by its id as it stands alone."""
    connection = connected(port)
    connection.request("POST", "/reservations", body=b'{"from":"BASEL","run":0,"to":"BERN"}', headers=KEY)
    booking = json.loads(connection.getresponse().read())["id"]
    found = []
    for spelling in (booking, "%%42%s" % booking[1:]):
        connection.request("GET", "/bookings/" + spelling, headers=KEY)
        answer = connection.getresponse()
        answer.read()
        found.append(answer.status)
    connection.request("DELETE", "/bookings/" + booking, headers=KEY)
    connection.getresponse().read()
    connection.close()
    return found, [200, 404]


def shared_pool(port):
    connection = connected(port)
    found = []
    for key in ("north", "south", "north"):
        connection.request("GET", LOOK, headers={"Retailer-Key": key})
        found.append(code_of(connection.getresponse()))
    connection.close()
    return found, [(404, "UnknownBooking"), (403, "OtherRetailer"), (404, "UnknownBooking")]


def other_address(port):
    try:
        socket.create_connection(("::1", port), timeout=5).close()
        return "connected", "refused"
    except OSError:
        return "refused", "refused"


def ended(port, first, after):
    """What comes, and whether the host ends a connection that sends this and no more after so many seconds. They are counted from before the
    host's, and on a busy machine more of them may pass."""
    begin = time.monotonic()
    with socket.create_connection(("127.0.0.1", port), timeout=60) as stream:
        stream.sendall(first)
        said = b"".join(iter(lambda: stream.recv(65536), b""))
    seconds = time.monotonic() - begin
    return (said[9:12], after <= seconds <= after + 20 or round(seconds, 1)), (b"404" if b"\r\n\r\n" in first else b"", True)


def idle(port):
    return ended(port, b"GET %s HTTP/1.1\r\nRetailer-Key: north\r\n\r\n" % LOOK.encode(), 5)


def silent(port):
    return ended(port, b"", 5)


def stalled(port):
    return ended(port, b"GET /bookings/B0", 30)


def handshake(port):
    begin = time.monotonic()
    try:
        with socket.create_connection(("127.0.0.1", port), timeout=60) as stream:
            ssl.create_default_context().wrap_socket(stream, server_hostname="localhost")
        return "a handshake", "none"
    except OSError:
        return ("none" if time.monotonic() - begin < 50 else "none, after %.0f seconds" % (time.monotonic() - begin)), "none"


QUICK = [chunked, little_too_long, much_too_long, head, expect, query, old_version, escapes, shared_pool, other_address]
SLOW = [idle, silent, stalled, handshake]


def tried(case, port):
    try:
        found, wanted = case(port)
    except (OSError, http.client.HTTPException, ValueError) as error:
        return "%s: %s: %s" % (case.__name__, type(error).__name__, error)
    return None if found == wanted else "%s: %s, wanted %s" % (case.__name__, found, wanted)


def try_all(port):
    faults = [tried(case, port) for case in QUICK]
    with concurrent.futures.ThreadPoolExecutor(len(SLOW)) as crew:
        faults += crew.map(lambda case: tried(case, port), SLOW)
    return [fault for fault in faults if fault]


def main():
    if sys.argv[1] == "--port":
        found = try_all(int(sys.argv[2]))
    else:
        port = free_port()
        words = [sys.argv[1], "serve", str(ROOT / "examples" / "k1.json"), "--port", str(port), "--workers", "8"]
        host = subprocess.Popen(words, stdin=subprocess.DEVNULL)
        try:
            line = " 0100007F:%04X 00000000:0000 0A " % port
            while line not in pathlib.Path("/proc/net/tcp").read_text():
                if host.poll() is not None:
                    raise SystemExit("library: the host ended with status %d" % host.returncode)
                time.sleep(0.1)
            found = try_all(port)
        finally:
            host.kill()
            host.wait()
    for fault in found:
        print("library: " + fault)
    print("library: %d stumbles of HTTP libraries: %d wrong" % (len(QUICK) + len(SLOW), len(found)))
    return 1 if found else 0


sys.exit(main())

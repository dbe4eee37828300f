#!/usr/bin/env python3
"""Runs examples/nginx.conf before a host, with other ports: pools by key, what is kept open while idle, the log,
the page, the host's health, and a proxy that is closed while the host is started again.

  tests/people/proxy.py PROGRAM

It needs nginx, openssl and pgrep (`apt-get install nginx openssl procps`).
"""
import concurrent.futures
import datetime
import http.client
import json
import pathlib
import re
import shutil
import ssl
import subprocess
import sys
import tempfile
import time

ROOT = pathlib.Path(__file__).resolve().parents[2]
sys.path.append(str(ROOT / "tests"))
from ports import free_port  # noqa: E402

WORKERS, TRIES = 4, 3  # of which one has to be right: on a busy machine an answer may come late
# A key, the pool that the log has to name, and the answer to a look at a booking that isn't there.
KEYS = [("north", "retailer_1", 404), ("south", "retailer_2", 404), ("west", "retailer_3", 404), ("NORTH", "unkept", 401), ("north ", "retailer_1", 404), ("northern", "unkept", 401), ("", "unkept", 401)]
LINE = re.compile(r'(\S+) 127\.0\.0\.1 "(GET|POST|HEAD) (\S+) HTTP/1\.1" (\d+) (\d+) pool=(\S+) request=[\d.]+ connect=([\d.]+|-) answer=([\d.]+|-)')


def established(port):
    """How many connections stand to the port, as the kernel has them."""
    said = subprocess.run(["ss", "-tnH", "state", "established", "( dport = :%d )" % port], capture_output=True, text=True, check=True).stdout
    return len(said.splitlines())


def until(what, seconds=60):
    for _ in range(seconds * 10):
        if what():
            return True
        time.sleep(0.1)
    return False


def listens(port):
    return " 0100007F:%04X 00000000:0000 0A " % port in pathlib.Path("/proc/net/tcp").read_text() or " 00000000:%04X 00000000:0000 0A " % port in pathlib.Path("/proc/net/tcp").read_text()


class Proxy:
    def __init__(self, program, folder, workers=WORKERS):
        self.folder, self.port, self.host_port, self.window_port = folder, free_port(), free_port(), free_port()
        text = (ROOT / "examples" / "nginx.conf").read_text().replace("8443", str(self.port)).replace("127.0.0.1:8080", "127.0.0.1:%d" % self.host_port)
        text = text.replace("127.0.0.1:8081", "127.0.0.1:%d" % self.window_port)
        (folder / "nginx.conf").write_text(text)
        # The workers of an nginx that root has started are another user's, and have to reach the page.
        folder.chmod(0o755)
        shutil.copy(ROOT / "examples" / "counter.html", folder)
        words = "openssl req -x509 -newkey rsa:2048 -nodes -days 2 -subj /CN=localhost -addext subjectAltName=DNS:localhost -keyout key.pem -out cert.pem"
        subprocess.run(words.split(), cwd=folder, check=True, capture_output=True)
        self.day = (datetime.date.today() + datetime.timedelta(days=2)).isoformat()
        catalogue = folder / "country.json"
        catalogue.write_bytes(subprocess.run([sys.executable, str(ROOT / "examples" / "country.py"), "--day", self.day], check=True, capture_output=True).stdout)
        trains = json.loads(catalogue.read_bytes())
        del trains["retailers"]
        (folder / "for_retailers.json").write_text(json.dumps(trains))
        words = ["serve", str(catalogue), "--port", str(self.host_port), "--workers", str(workers), "--window", str(self.window_port)]
        self.host = subprocess.Popen([str(program), *words], stdin=subprocess.DEVNULL)
        try:
            assert until(lambda: listens(self.host_port)), "the host doesn't listen"
            self.nginx("-t")
            self.nginx()
            assert until(lambda: listens(self.port)), "nginx doesn't listen"
        except BaseException:
            self.close()
            raise

    def nginx(self, *words):
        subprocess.run(["nginx", "-p", str(self.folder), "-c", "nginx.conf", *words], check=True, capture_output=True)

    def reload(self, change):
        """The changed file in the place of the one that nginx was started with, as docs/operators.md does it."""
        file = self.folder / "nginx.conf"
        file.write_text(change(file.read_text()))
        self.nginx("-s", "reload")

    def crew(self):
        """How many worker processes nginx has: one more while an old one finishes what it has begun."""
        said = subprocess.run(["pgrep", "-c", "-P", (self.folder / "nginx.pid").read_text().strip()], capture_output=True, text=True)
        return int(said.stdout)

    def ask(self, key, method="GET", path="/bookings/B000000", body=None):
        connection = http.client.HTTPSConnection("localhost", self.port, timeout=60, context=ssl.create_default_context(cafile=str(self.folder / "cert.pem")))
        connection.request(method, path, body=body, headers={"Retailer-Key": key} if key else {})
        answer = connection.getresponse()
        found = answer.status, answer.read()
        connection.close()
        return found

    def close(self):
        if (self.folder / "nginx.pid").is_file():
            self.nginx("-s", "quit")
        self.host.kill()
        self.host.wait()


def beside_kept_ones(proxy):
    """How many connections are kept open while idle, and the status and the seconds of an answer of the host itself: while they are kept a
    worker is free, so that it answers at once."""
    for key in ("north", "south", "west"):
        proxy.ask(key)
    kept, begin = established(proxy.host_port), time.monotonic()
    connection = http.client.HTTPConnection("127.0.0.1", proxy.host_port, timeout=30)
    connection.request("POST", "/sweeps", body=b"", headers={"Retailer-Key": "north"})
    status = connection.getresponse().status
    connection.close()
    return kept, status, round(time.monotonic() - begin, 1)


def faults_of(proxy):
    for key, _, wanted in KEYS:
        status, _ = proxy.ask(key)
        if status != wanted:
            yield "the key %r is answered %d" % (key, status)
    # Many at once, of three keys that change places: no pool may bring one key's request over another's connection.
    with concurrent.futures.ThreadPoolExecutor(24) as crew:
        statuses = {status for status, _ in crew.map(lambda turn: proxy.ask(["north", "south", "west"][turn % 3]), range(240))}
    if statuses != {404}:
        yield "240 requests of three keys are answered %s" % sorted(statuses)
    tries = [beside_kept_ones(proxy) for _ in range(TRIES)]
    if not any(0 < kept < WORKERS and status == 200 and seconds < 3 for kept, status, seconds in tries):
        yield "connections kept open while idle, with %d workers, and how and when the host answers beside them: %s" % (WORKERS, tries)
    if not until(lambda: established(proxy.host_port) == 0, 30):
        yield "%d connections are kept open after 30 idle seconds" % established(proxy.host_port)
    status, page = proxy.ask("", path="/counter.html")
    if status != 200 or page != (ROOT / "examples" / "counter.html").read_bytes():
        yield "the page is answered %d" % status
    status, trains = proxy.ask("", path="/for_retailers.json")
    if status != 200 or len(json.loads(trains)["runs"]) != 288 or b"north" in trains:
        yield "the trains are answered %d" % status
    if proxy.ask("", path="/healthz") != (200, b"ok\n"):
        yield "the health is answered %s %s" % proxy.ask("", path="/healthz")
    if proxy.ask("north", path="/metrics")[0] != 404:
        yield "the counts are handed on"
    if proxy.ask("north", "HEAD")[0] != 405:
        yield "HEAD is not refused"
    lines = (proxy.folder / "access.log").read_text().splitlines()
    pools = []
    for line in lines:
        match = LINE.fullmatch(line)
        if not match:
            yield "the log has another form: " + line
            return
        pools.append(match.group(6))
    if pools[: len(KEYS)] != [pool for _, pool, _ in KEYS]:
        yield "pools by the log: %s" % pools[: len(KEYS)]


def faults_of_closing(proxy):
    """The proxy is closed for a restart of the host, and opened again."""
    open_line, closed_line = "127.0.0.1:%d;" % proxy.host_port, "127.0.0.1:%d down;" % proxy.host_port
    proxy.ask("north")
    proxy.reload(lambda text: text.replace(open_line, closed_line))
    if not until(lambda: proxy.ask("north")[0] == 502 and proxy.crew() == 1):
        yield "a closed proxy answers %d, with %d worker processes" % (proxy.ask("north")[0], proxy.crew())
    statuses = {proxy.ask(key)[0] for key, _, _ in KEYS for _ in range(5)}
    if statuses != {502}:
        yield "a closed proxy answers %s" % sorted(statuses)
    if not until(lambda: established(proxy.host_port) == 0, 30):
        yield "a closed proxy keeps %d connections to the host" % established(proxy.host_port)
    proxy.reload(lambda text: text.replace(closed_line, open_line))
    if not until(lambda: proxy.ask("north")[0] == 404):
        yield "a proxy that was opened again answers %d" % proxy.ask("north")[0]


def main():
    program, found = pathlib.Path(sys.argv[1]).resolve(), []
    if not all(map(shutil.which, ("nginx", "openssl", "pgrep"))):
        print("proxy: it needs nginx, openssl and pgrep: apt-get install nginx openssl procps")
        return 1
    with tempfile.TemporaryDirectory() as folder:
        proxy = Proxy(program, pathlib.Path(folder))
        try:
            found += faults_of(proxy)
            found += faults_of_closing(proxy)
        finally:
            proxy.close()
    for fault in found:
        print("proxy: " + fault)
    print("proxy: %d keys, 240 requests at once, idle connections, the log, the page, the trains, the health, and closed for a restart: %d wrong" % (len(KEYS), len(found)))
    return 1 if found else 0


if __name__ == "__main__":
    sys.exit(main())

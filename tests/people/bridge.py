"""A port before one `rail_host replay`, so that clients over TCP meet a host whose clock a test has set.

All requests of all connections are handed to the one connection of `replay`, one after another; so they have to be of one retailer.
A test may put faults in: `fault(number, method, target)` is asked before each request, numbered from 1, and answers None or one of FAULTS.
"""
import http.server
import json
import socketserver
import ssl
import subprocess
import threading

FAULTS = {
    "refused by the proxy": "502 without JSON; the host has not seen the request",
    "lost by the proxy": "502 without JSON; the host has carried the request out",
    "cut": "the connection ends without an answer; the host has not seen the request",
    "lost": "the connection ends without an answer; the host has carried the request out",
    "cut inside": "the connection ends inside the answer; the host has carried the request out",
    "busy": "503 Contended; the host has not seen the request",
    "no memory": "500 NoMemory; the host has not seen the request",
}
PROBLEMS = {"busy": (503, "Contended", "Contended"), "no memory": (500, "NoMemory", "No memory")}
PAGE = b"<html>\r\n<head><title>502 Bad Gateway</title></head>\r\n<body>nginx</body>\r\n</html>\r\n"


class Replay:
    """The one connection of a process of `replay`."""

    def __init__(self, program, catalogue, start, tick):
        words = [str(program), "replay", str(catalogue), "--start", start, "--tick", str(tick)]
        self.process = subprocess.Popen(words, stdin=subprocess.PIPE, stdout=subprocess.PIPE)
        self.lock = threading.Lock()

    def answer(self, request):
        """The bytes of the answer to the bytes of one request."""
        with self.lock:
            self.process.stdin.write(request)
            self.process.stdin.flush()
            head = b""
            while not head.endswith(b"\r\n\r\n"):
                byte = self.process.stdout.read(1)
                if not byte:
                    return b""
                head += byte
            length = next(int(line.split(b":")[1]) for line in head.split(b"\r\n") if line.lower().startswith(b"content-length:"))
            return head + self.process.stdout.read(length)

    def close(self):
        self.process.stdin.close()
        self.process.wait()


class Handler(http.server.BaseHTTPRequestHandler):
    protocol_version = "HTTP/1.1"

    def log_message(self, *words):
        pass

    def pass_on(self):
        body = self.rfile.read(int(self.headers.get("Content-Length") or 0))
        fault = self.server.next_fault(self.command, self.path)
        if fault in PROBLEMS:
            status, code, title = PROBLEMS[fault]
            text = json.dumps({"code": code, "status": status, "title": title}, separators=(",", ":")).encode()
            return self.say(status, "application/problem+json", text)
        if fault == "refused by the proxy":
            return self.say(502, "text/html", PAGE)
        if fault == "cut":
            self.close_connection = True
            return None
        lines = ["%s %s HTTP/1.1" % (self.command, self.path)]
        lines += ["%s: %s" % (name, value) for name, value in self.headers.items() if name.lower() in ("retailer-key", "transfer-encoding")]
        lines += ["Content-Length: %d" % len(body)]
        answer = self.server.replay.answer("\r\n".join(lines).encode() + b"\r\n\r\n" + body)
        if fault == "lost by the proxy":
            return self.say(502, "text/html", PAGE)
        if fault in ("lost", "cut inside"):
            self.wfile.write(answer[: len(answer) - 10 if fault == "cut inside" else 0])
            self.close_connection = True
            return None
        self.wfile.write(answer)

    def say(self, status, media, text):
        self.send_response(status)
        self.send_header("Content-Type", media)
        self.send_header("Content-Length", str(len(text)))
        self.end_headers()
        self.wfile.write(text)

    do_GET = do_POST = do_PATCH = do_DELETE = do_PUT = pass_on


class Bridge(socketserver.ThreadingMixIn, http.server.HTTPServer):
    daemon_threads = True
    allow_reuse_address = True

    def __init__(self, program, catalogue, start, tick=1, port=0, fault=lambda number, method, target: None, cert=None):
        self.replay, self.fault, self.number, self.faults = Replay(program, catalogue, start, tick), fault, 0, []
        super().__init__(("127.0.0.1", port), Handler)
        if cert:
            context = ssl.SSLContext(ssl.PROTOCOL_TLS_SERVER)
            context.load_cert_chain(*cert)
            self.socket = context.wrap_socket(self.socket, server_side=True)
        threading.Thread(target=self.serve_forever, daemon=True).start()

    def next_fault(self, method, target):
        self.number += 1
        fault = self.fault(self.number, method, target)
        if fault:
            assert fault in FAULTS, fault
            self.faults.append(fault)
        return fault

    def port(self):
        return self.server_address[1]

    def close(self):
        self.shutdown()
        self.server_close()
        self.replay.close()

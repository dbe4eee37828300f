"""What the checks of tools/ share: the programs as modules, the host, the model, and countries of chance with sales."""
import functools
import importlib.machinery
import importlib.util
import json
import pathlib
import random
import socket
import subprocess
import sys
import time

sys.dont_write_bytecode = True
ROOT = pathlib.Path(__file__).resolve().parents[2]
TOOLS = ROOT / "tools"
sys.path[:0] = [str(TOOLS), str(ROOT / "tests" / "model"), str(ROOT / "tests")]
from ports import free_port  # noqa: E402

LIMIT = 120


@functools.lru_cache(None)
def tool(name):
    """The program of that name as a module, which is not run."""
    loader = importlib.machinery.SourceFileLoader(name.replace("-", "_"), str(TOOLS / name))
    module = importlib.util.module_from_spec(importlib.util.spec_from_loader(loader.name, loader))
    loader.exec_module(module)
    return module


def run_tool(name, *words):
    """Its status, output and notes, run as a user runs it."""
    words = [str(TOOLS / name)] + [str(word) for word in words]
    done = subprocess.run(words, stdin=subprocess.DEVNULL, capture_output=True, text=True, timeout=LIMIT)
    return done.returncode, done.stdout, done.stderr


def host(program, *words, data=b""):
    """The host's status, output and notes."""
    done = subprocess.run([str(program)] + [str(word) for word in words], input=data, capture_output=True,
                          timeout=LIMIT)
    return done.returncode, done.stdout, done.stderr.decode()


def served(program, catalogue, export, data):
    """The answers of `serve --from` to one connection, and the export that it gives at its end."""
    port = free_port()
    words = ["serve", catalogue, "--port", port, "--workers", 1, "--connections", 1, "--sweep", 1, "--from", export,
             "--export"]
    process = subprocess.Popen([str(program)] + [str(word) for word in words], stderr=subprocess.PIPE)
    try:
        stream, answer = connected(port), b""
        with stream:
            stream.sendall(data)
            stream.shutdown(socket.SHUT_WR)
            for part in iter(lambda: stream.recv(65_536), b""):
                answer += part
        return answer, process.communicate(timeout=LIMIT)[1].decode()
    finally:
        process.kill()


def connected(port):
    """A connection, as soon as the port listens."""
    for _ in range(400):
        try:
            return socket.create_connection(("127.0.0.1", port), timeout=LIMIT)
        except ConnectionRefusedError:
            time.sleep(0.05)
    raise TimeoutError(port)


def request(method, path, key, body=None):
    text = b"" if body is None else json.dumps(body).encode()
    head = "%s %s HTTP/1.1\r\nRetailer-Key: %s\r\nContent-Length: %d\r\n\r\n" % (method, path, key, len(text))
    return head.encode() + text


def answers(data):
    """The status and the body of each answer."""
    found = []
    while data:
        head, _, data = data.partition(b"\r\n\r\n")
        length = next(int(line.split(b":")[1]) for line in head.split(b"\r\n")
                      if line.lower().startswith(b"content-length:"))
        found.append((int(head.split(b" ")[1]), json.loads(data[:length])))
        data = data[length:]
    return found


def moment(seconds):
    from rail_texts import write_moment
    return write_moment(seconds)


class Faults(list):
    """What was wrong, as lines."""

    def need(self, holds, text, *values):
        if not holds:
            self.append(text % values if values else text)
        return bool(holds)


def seeds(count, first=0):
    return ((seed, random.Random(seed)) for seed in range(first, first + count))

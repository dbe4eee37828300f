"""Ports for the hosts that checks start."""
import random
import socket

FIRST, AFTER_LAST = 20_000, 32_000


def free_port() -> int:
    """A port that is free, and below those that the system gives to connections: one of them could else take it before the host listens, and
    a client that waits for the host could meet itself."""
    for port in random.SystemRandom().sample(range(FIRST, AFTER_LAST), 1_000):
        with socket.socket() as probe:
            try:
                probe.bind(("127.0.0.1", port))
                return port
            except OSError:
                continue
    raise OSError("no port is free")

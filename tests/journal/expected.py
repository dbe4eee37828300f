"""What `recover` has to say of a text, by the rules of its form and by the model, and journals to try it on."""
import threading

import text
import world
from clients import Client, start
from export import ExportFault, read_export
from ledger import Ledger

NOTE = "rail_host: %s\n"


def recovered(model, own_print: bytes, data: bytes) -> tuple:
    """Status, output and note of `recover` with this catalogue."""
    if len(data) > text.LARGEST:
        return 1, b"", NOTE % "journal too large"
    try:
        journal = text.read(data)
        if journal.print != own_print:
            raise text.JournalFault("journal fault 4")
        read_export(model, journal.export())
    except text.JournalFault as fault:
        return 1, b"", NOTE % fault
    except ExportFault as fault:
        return 1, b"", NOTE % fault.note()
    return 0, journal.export(), ""


def sold(program: str, folder: str, own: dict, cuts: int, seed: int = 1) -> bytes:
    """The journal of a host that sold to three retailers until its file had that many cuts, and was then killed."""
    host = world.Host(program, folder, sweep=60)
    if not host.wait():
        raise OSError("no host began: %s" % (host.ended(),))
    clients, stop = [Client(number, Ledger(own), seed, len(own["runs"])) for number in range(3)], threading.Event()
    threads = start(clients, host.port, stop)
    while any(thread.is_alive() for thread in threads) and world.read(folder).count(b"\ncut ") < cuts:
        stop.wait(0.01)
    host.end()
    stop.set()
    for thread in threads:
        thread.join(world.LIMIT_SECONDS)
    data = world.read(folder)
    return data[:text.read(data).whole()]

"""A disk that fails and a machine that dies: `disk.c` before the C library of a host, and what its log says was kept."""
import os
import pathlib
import random
import subprocess
from dataclasses import dataclass, field

import world

HERE = pathlib.Path(__file__).resolve().parent
LOG = "disk.log"


def built(folder: str) -> str:
    """The library."""
    library = os.path.join(folder, "disk.so")
    subprocess.run(["gcc", "-shared", "-fPIC", "-O1", "-Wall", "-pthread", "-o", library, str(HERE / "disk.c")], check=True)
    return library


def environment(library: str, folder: str, at: int = 0, does: str = "", error: int = 0) -> dict:
    """What a host is started with, so that this happens at the call of that number."""
    log = os.path.join(folder, LOG)
    if os.path.exists(log):
        os.remove(log)
    path = os.path.join(os.path.realpath(folder), world.JOURNAL)
    return dict(os.environ, LD_PRELOAD=library, DISK_PATH=path, DISK_LOG=log, DISK_AT=str(at), DISK_DOES=does, DISK_ERRNO=str(error))


@dataclass
class Disk:
    """What the calls of one host did. `before` is the file that it found, which was kept."""
    before: bytes
    calls: list = field(default_factory=list)
    synced: dict = field(default_factory=dict)  # by inode: how many bytes of it are kept
    names: list = field(default_factory=lambda: [None])  # the inodes that the name may lead to; None is the file that was found

    def current(self, folder: str) -> bytes:
        return world.read(folder)

    def texts(self, folder: str, rng: random.Random) -> list:
        """The contents that the journal's name may lead to once the machine runs again, without a file as None."""
        texts = [self.before] if None in self.names else []
        now = [inode for inode in self.names if inode is not None]
        return texts + [text for inode in now for text in self.contents(folder, inode, rng)]

    def contents(self, folder: str, inode: int, rng: random.Random) -> list:
        """What was synced, with some of the rest, with all, or with zeros in its place."""
        written = world.read(folder)
        kept = self.synced.get(inode, 0)
        rest = len(written) - kept
        return [written[:kept], written[:kept + rng.randrange(rest + 1)], written, written[:kept] + bytes(rest)]


def read_log(folder: str, before: bytes) -> Disk:
    """The disk that the log tells of."""
    disk = Disk(before)
    lines = (world.read(folder, LOG) or b"").decode("ascii").splitlines()
    for number, call, inode, size in (line.split(" ") for line in lines):
        disk.calls.append(call)
        if call == "sync":
            disk.synced[int(inode)] = int(size)
        elif call == "truncate":
            disk.synced[int(inode)] = 0
        elif call == "rename":
            disk.names.append(int(inode))
        elif call == "folder":
            disk.names = disk.names[-1:]
    return disk

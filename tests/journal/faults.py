#!/usr/bin/env python3
"""The disk of a selling host fails, or is full: no answer leaves that isn't kept, nothing is tried again, and the next host goes on.

  tests/journal/faults.py PROGRAM [--calls N] [--only N] [--full N] [--seed N]

At each of the first calls (50) on the journal's file, a write or a sync fails with EIO, and once more with ENOSPC after half of a write. Then
the disk is full N times (6): a small tmpfs where this process may mount one, else a limit on the size of files. Eight clients sell until the
host ends, and one only searches, without a pause, and never leaves. It has to end with status 4 and its note where it served, and with 3 and its
note where it didn't begin, which leaves the file whole. After the call that failed no other one is made. What was synced by then, and what was
written, each have to leave all that was answered; one of them, drawn by lot, is what the next host begins with. Needs gcc and the C library of
the host to be linked dynamically.
"""
import argparse
import errno
import os
import random
import resource
import signal
import subprocess
import sys
import tempfile

import disk
import world
from clients import Client
from story import RUNS, Story
from world import JOURNAL, Host

CLIENTS, ROWS, CALLS, FULL = 8, 8_192, 50, 6
LOST = (4, "rail_host: journal lost\n")
FAILED = (3, "rail_host: journal failed\n")
# The last call on the journal's file before a host serves.
SERVES = "folder"
SYSTEM_SECONDS = 60


class Searcher(Client):
    """Only searches, whatever becomes of the others."""

    def next(self) -> tuple:
        return self.search() if self.rng.random() < 0.5 else self.look()


class Failing(Story):
    """A story of disks that fail."""
    served = refused = 0

    def __init__(self, program: str, folder: str, rows: int, seed: int):
        super().__init__(program, folder, rows, seed, CLIENTS)
        self.clients.append(Searcher(CLIENTS, self.ledger, seed, RUNS))

    def round(self, library: str, at: int, does: str, error: int):
        before = world.read(self.folder)
        host = Host(self.program, self.folder, env=disk.environment(library, self.folder, at, does, error))
        _, pending = self.sell(host)
        ended, name = host.ended(SYSTEM_SECONDS), "%s at call %d" % (does, at)
        after = disk.read_log(self.folder, before)
        if "fail" not in after.calls:
            return self.ledger.fault("%s: no call failed, and the host ended with %s" % (name, ended))
        self.hold_end(ended, [LOST if SERVES in after.calls else FAILED])
        if after.calls[-1] != "fail":
            self.ledger.fault("%s: more was done with the file after it: %s" % (name, after.calls[-3:]))
        self.find(after, pending)

    def sell(self, host: Host) -> tuple:
        """Until the host is gone: whether it was seen to listen, and the commands without an answer."""
        return (True, self.pending(self.start_clients(host.port))) if host.wait() else (False, [])

    def hold_end(self, ended: tuple, wanted: list):
        if ended not in wanted:
            self.ledger.fault("a host whose disk failed ended with %s" % (ended,))
        self.served += ended == LOST
        self.refused += ended == FAILED

    def find(self, after: disk.Disk, pending: list):
        """A disk that failed has what was synced, and maybe more."""
        texts = after.texts(self.folder, self.rng)
        for data in texts:
            if data is not None:
                self.judge(data, pending, go_on=False)
        data = self.rng.choice([data for data in texts if data is not None] or [None])
        if data is not None:
            world.write(self.folder, JOURNAL, data)
            self.judge(data, pending)

    # A disk that is full

    def fill(self, kilobytes: int, limit: bool):
        """A host with room for this much more; then one with room again."""
        size = kilobytes * 1024 + len(world.read(self.folder))
        host = Host(self.program, self.folder, prepare=(lambda: limit_files(size)) if limit else None)
        listened, pending = self.sell(host)
        # One that wasn't seen to listen may have begun and lost its journal between two looks.
        self.hold_end(host.ended(SYSTEM_SECONDS), [LOST] if listened else [FAILED, LOST])
        if world.read(self.folder) is not None:
            self.judge(world.read(self.folder), pending)
        elif self.ledger.told:
            self.ledger.fault("a full disk took the file away")


def limit_files(size: int):
    """No file of this process may grow over the size; a write that would is told so by an error."""
    signal.signal(signal.SIGXFSZ, signal.SIG_IGN)
    resource.setrlimit(resource.RLIMIT_FSIZE, (size, size))


class Tmpfs:
    """A folder on a small tmpfs, where this process may mount one."""

    def __init__(self, folder: str):
        self.folder = folder

    def mount(self, kilobytes: int) -> bool:
        words = ["mount", "-t", "tmpfs", "-o", "size=%dk" % kilobytes, "journal", self.folder]
        return subprocess.run(words, capture_output=True).returncode == 0

    def resize(self, kilobytes: int):
        subprocess.run(["mount", "-o", "remount,size=%dk" % kilobytes, self.folder], check=True)

    def unmount(self):
        subprocess.run(["umount", self.folder], capture_output=True)


def fail_calls(program: str, seed: int, calls: list) -> Story:
    with tempfile.TemporaryDirectory() as folder, tempfile.TemporaryDirectory() as other:
        library = disk.built(other)
        story = Failing(os.path.abspath(program), folder, ROWS, seed)
        for at in calls:
            for does, error in (("error", errno.EIO), ("short", errno.ENOSPC)):
                if not story.ledger.faults:
                    story.round(library, at, does, error)
    return story


def fill_disks(program: str, seed: int, times: int) -> tuple:
    """The story, and what was full."""
    with tempfile.TemporaryDirectory() as folder:
        tmpfs = Tmpfs(folder)
        mounted = tmpfs.mount(4_096)
        try:
            story = Failing(os.path.abspath(program), folder, 2_048, seed)
            first = story.begin()
            if first:
                first.end()
            for turn in range(times):
                if not story.ledger.faults:
                    fill_once(story, tmpfs if mounted else None, 16 << turn % 4)
        finally:
            tmpfs.unmount()
    return story, "tmpfs" if mounted else "limit of size"


def fill_once(story: Failing, tmpfs: Tmpfs, kilobytes: int):
    if tmpfs is None:
        return story.fill(kilobytes, limit=True)
    used = sum(os.stat(os.path.join(story.folder, name)).st_blocks // 2 for name in os.listdir(story.folder))
    tmpfs.resize(used + kilobytes)
    story.fill(kilobytes, limit=False)
    tmpfs.resize(65_536)


def main() -> int:
    parser = argparse.ArgumentParser(description=__doc__, formatter_class=argparse.RawDescriptionHelpFormatter)
    parser.add_argument("program")
    parser.add_argument("--calls", type=int, default=CALLS)
    parser.add_argument("--only", type=int)
    parser.add_argument("--full", type=int, default=FULL)
    parser.add_argument("--seed", type=int, default=1)
    given = parser.parse_args()
    calls = list(range(1, given.calls + 1))
    if given.only:
        calls = sorted(random.Random(given.seed).sample(calls, given.only))
    failed = fail_calls(given.program, given.seed, calls)
    filled, what = fill_disks(given.program, given.seed, given.full)
    faults = failed.ledger.faults + filled.ledger.faults
    for fault in faults[:10]:
        print(fault)
    print("%d disks failed, %d before anything was served; %d were full (%s), %d before; %d answers, %d bookings, %d faults"
          % (failed.served + failed.refused, failed.refused, filled.served + filled.refused, what, filled.refused,
             failed.ledger.answers + filled.ledger.answers, len(failed.ledger.made) + len(filled.ledger.made), len(faults)))
    return 1 if faults or not failed.served or not filled.served else 0


if __name__ == "__main__":
    sys.exit(main())

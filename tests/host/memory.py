"""Refuses the built program one allocation at a time, over the usual life and the exchange, and holds each end against the model.

  memory.py PROGRAM [--checked FROM TO]

Each request is followed by two that list the places of both runs. For each allocation of a run the program runs
twice: with that one refused, and with that one and all later ones. What may come of it:

- no memory: status 5 with its note, and nothing is written; or
- every answer is written, and each is the one that the model gives, where a request that is answered 500 changed nothing.

`export` of the usual life with a cut request behind it then runs with each allocation refused. It writes nothing, and
ends with status 5 just where the export of the same requests without the cut does, else with that of a cut input.

It needs cc and glibc: `refuse.c` stands before the C library and refuses. --checked tries `rt try --fail-alloc` for
these numbers in their place, which builds the program without proofs and with checks; a minute for each number.
"""
import argparse
import collections
import copy
import os
import pathlib
import struct
import subprocess
import sys
import tempfile

HERE = pathlib.Path(__file__).resolve().parent
sys.path[:0] = [str(HERE.parent / "model"), str(HERE.parent)]
import moments  # noqa: E402
import wire  # noqa: E402
from catalogue import read_catalogue  # noqa: E402
from service import Clock, Host  # noqa: E402
from stages import cases, files_of, input_of  # noqa: E402

SECONDS = 60
NAMES = ["usual-life", "exchange"]
NO_MEMORY = b"rail_host: no memory\n"
CUT = b"rail_host: input cut\n"
LOOKS = b"".join(b"GET %s HTTP/1.1\r\nRetailer-Key: north\r\n\r\n" % path
                 for path in (b"/runs/0/places/BASEL/BERN", b"/runs/1/places/BERN/THUN"))


class Differs(Exception):
    """What a run must not do."""


class Run:
    """A case with looks at all places behind each request, and what may come of it where memory is refused."""

    def __init__(self, case: dict):
        self.name, self.words, self.files = case["name"], case["words"], files_of(case)
        self.data = with_looks(input_of(case))
        options = dict(zip(self.words[2::2], self.words[3::2]))
        self.start = moments.read_moment(options.get("--start", "1970-01-01T00:00:00Z"))
        self.tick = int(options.get("--tick", "0"))

    def judge(self, output: bytes, status: int, note: bytes) -> str:
        """The kind of this end. Raises where there is no such end."""
        if status == 5:
            if output or note != NO_MEMORY:
                raise Differs("status 5 with %d bytes written and note %r" % (len(output), note))
            return "no memory"
        if status != 0 or note:
            raise Differs("status %d and note %r" % (status, note))
        refused = self.count_refused(output)
        return "%d answered 500" % refused if refused else "as with memory"

    def count_refused(self, output: bytes) -> int:
        """How many requests were answered 500. Each other answer is the model's, for which those requests did nothing."""
        host, clock = Host(read_catalogue(self.files[self.words[1]])), Clock(self.start, self.tick)
        at = refused = 0
        for number, request in enumerate(wire.read_requests(self.data)[0]):
            now = clock.now()
            no_memory = wire.write_problem("NoMemory", None, request.last)
            if output.startswith(no_memory, at):
                host.admit(request.key)
                refused, at = refused + 1, at + len(no_memory)
                continue
            answer = host.answer(request, now)
            if not output.startswith(answer, at):
                given = output[at:at + len(answer)]
                raise Differs("answer %d is %r where the model has %r" % (number + 1, given, answer))
            at += len(answer)
        if at != len(output):
            raise Differs("%d bytes behind the last answer" % (len(output) - at))
        return refused


def with_looks(data: bytes) -> bytes:
    """The requests, each followed by looks at all places."""
    parts, at = [], 0
    for number in range(1, len(wire.read_requests(data)[0]) + 1):
        _, end = wire.read_request(data, at, number)
        parts += [data[at:end], LOOKS]
        at = end
    return b"".join(parts)


class Refuser:
    """Runs the built program with memory refused by the library of refuse.c."""

    def __init__(self, program: str, folder: pathlib.Path):
        self.program, self.folder, self.count = os.path.abspath(program), folder, folder / "count"
        self.library = folder / "refuse.so"
        subprocess.run(["cc", "-O2", "-shared", "-fPIC", "-o", self.library, HERE / "refuse.c"], check=True)
        self.count.write_bytes(bytes(8))

    def run(self, run: Run, refused: int, goes_on: bool) -> tuple:
        """Output, status and note, and how many allocations there were."""
        more = {"LD_PRELOAD": str(self.library), "REFUSED": str(refused), "REFUSED_COUNT": str(self.count)}
        more.update({"REFUSED_ON": "1"} if goes_on else {})
        ended = subprocess.run([self.program, *run.words], input=run.data, cwd=self.folder, capture_output=True,
                               timeout=SECONDS, env={**os.environ, **more})
        return ended.stdout, ended.returncode, ended.stderr, struct.unpack("=Q", self.count.read_bytes())[0]


def sweep(refuser: Refuser, run: Run) -> collections.Counter:
    """Refuses each allocation in turn."""
    for name, data in run.files.items():
        (refuser.folder / name).write_bytes(data)
    output, status, note, all_calls = refuser.run(run, 0, False)
    if run.judge(output, status, note) != "as with memory" or not all_calls:
        raise Differs("with memory: status %d, note %r, %d allocations" % (status, note, all_calls))
    kinds = collections.Counter()
    for refused in range(1, all_calls + 1):
        for goes_on in (False, True):
            output, status, note, _ = refuser.run(run, refused, goes_on)
            try:
                kinds[run.judge(output, status, note)] += 1
            except Exception as error:
                call = "%s, allocation %d of %d%s" % (run.name, refused, all_calls, " and on" * goes_on)
                raise Differs("%s: %s" % (call, error)) from error
    print("%s, each of %d allocations refused alone, and with all later ones:" % (run.name, all_calls))
    for kind, times in sorted(kinds.items()):
        print("  %5d runs: %s" % (times, kind))
    return kinds


def sweep_cut(refuser: Refuser, run: Run) -> collections.Counter:
    """Exports the requests with and without a cut behind them, and refuses each allocation of the first in both."""
    whole, cut = copy.copy(run), copy.copy(run)
    whole.words = cut.words = ["export", *run.words[1:]]
    cut.data = run.data + b"GET /"
    *end, all_calls = refuser.run(cut, 0, False)
    if end != [b"", 6, CUT]:
        raise Differs("%s, cut: %r" % (run.name, end))
    kinds = collections.Counter()
    for refused in range(1, all_calls + 1):
        short = refuser.run(whole, refused, False)[1] == 5
        *end, _ = refuser.run(cut, refused, False)
        if end != ([b"", 5, NO_MEMORY] if short else [b"", 6, CUT]):
            raise Differs("%s, cut, allocation %d of %d: %r" % (run.name, refused, all_calls, end))
        kinds["no memory" if short else "input cut"] += 1
    print("%s, cut, exported with each of %d allocations refused alone: %s" % (run.name, all_calls, dict(kinds)))
    return kinds


def try_checked(run: Run, folder: pathlib.Path, first: int, last: int):
    """The same by `rt try`, whose notes stand among its own lines."""
    data = [word for name, text in run.files.items() for word in ("--data", "%s=%s" % (name, folder / name))
            if (folder / name).write_bytes(text)]
    for refused in range(first, last + 1):
        words = ["rt", "try", "--fail-alloc", str(refused), *data, "--", *run.words]
        ended = subprocess.run(words, input=run.data, cwd=HERE.parents[1] / "crates/rail_host", capture_output=True)
        note = NO_MEMORY if NO_MEMORY in ended.stderr else b""
        kind = run.judge(ended.stdout, ended.returncode, note)
        print("%s, allocation %d, checked: %s" % (run.name, refused, kind), flush=True)


def main() -> int:
    words = argparse.ArgumentParser(description=__doc__, formatter_class=argparse.RawDescriptionHelpFormatter)
    words.add_argument("program")
    words.add_argument("--checked", nargs=2, type=int, metavar=("FROM", "TO"))
    given = words.parse_args()
    runs = [Run(case) for case in cases() if case["name"] in NAMES]
    kinds = collections.Counter()
    try:
        with tempfile.TemporaryDirectory() as folder:
            if given.checked:
                for run in runs:
                    try_checked(run, pathlib.Path(folder), *given.checked)
                return 0
            refuser = Refuser(given.program, pathlib.Path(folder))
            for run in runs:
                kinds += sweep(refuser, run)
            kinds += sweep_cut(refuser, runs[-1])
    except Differs as differs:
        print(differs)
        return 1
    if len(runs) != len(NAMES) or not any("500" in kind for kind in kinds):
        print("a run is missing, or nothing was answered 500")
        return 1
    print("%d runs with memory refused, 0 differ from the model" % sum(kinds.values()))
    return 0


if __name__ == "__main__":
    sys.exit(main())

"""The stages in which the host grows, the one that is built, and the cases that hold at it.

A case is a file of `cases/`: a run of the program with the bytes that have to come of it, from stage `since` to stage `until`. Its texts are
bytes as Latin-1. Where the rules leave a reading open it lists `alternatives`, of which any may be given. Who builds a stage adds its cases
and raises BUILT, and nothing else.
"""
import json
import pathlib

STAGES = ["first-path", "machine", "wire", "service", "refunds", "drill", "long-runs", "reuse", "party", "restart", "settlement"]
BUILT = "settlement"
CASES = pathlib.Path(__file__).resolve().parent / "cases"


def cases(stage=BUILT):
    """The cases that hold at a stage, by name."""
    now = STAGES.index(stage)
    for path in sorted(CASES.glob("*.json")):
        case = json.loads(path.read_text(encoding="utf-8"))
        if STAGES.index(case["since"]) <= now <= STAGES.index(case["until"]):
            yield case


def input_of(case):
    return case["stdin"].encode("latin-1")


def files_of(case):
    return {name: text.encode("latin-1") for name, text in case["files"].items()}


def readings(case):
    """What a run of the case may give: its output, its status and its note, in each reading."""
    for reading in [case] + case.get("alternatives", []):
        note = reading["note"]
        yield reading["stdout"].encode("latin-1"), reading["status"], (note + "\n").encode() if note else b""

#!/usr/bin/env python3
"""Runs every command of docs/recipes.md as it stands: what comes has to be, block by block, just what the page shows.

  tests/people/recipes.py PROGRAM
  tests/people/recipes.py --model CATALOGUE WORD..      what examples/recipes/ask.py prints, where the model is the host

The commands are those of the page's blocks marked `sh`, together one script of bash; the block marked `text` after one is its output. Only the
folder /tmp and the program's path are others. They are run twice: by the program, and with `ask` by the model beside this folder, which is
written from the rules alone. Each catalogue of examples/recipes has to be named by the page, and be taken by the checker without a hint, by the
schema and by the host.
"""
import json
import os
import pathlib
import re
import shlex
import subprocess
import sys
import tempfile

ROOT = pathlib.Path(__file__).resolve().parents[2]
PAGE = ROOT / "docs" / "recipes.md"
FOLDER = ROOT / "examples" / "recipes"
ASK = FOLDER / "ask.py"
BUILT = "crates/rail_host/out/rail_host"
BY_ASK = "python3 examples/recipes/ask.py"
NOW = "2026-05-01T00:00:00Z"
K1 = "examples/k1.json"
BLOCK = re.compile(r"^```sh\n(.*?)^```$(?:\n+^```text\n(.*?)^```$)?", re.MULTILINE | re.DOTALL)
MARK = "-- the end of block %d --"


def blocks():
    """(commands, output) of each block of the page; output is None where none is shown."""
    return [(found.group(1), found.group(2)) for found in BLOCK.finditer(PAGE.read_text())]


def outputs(program, by_ask):
    """What the page's blocks print, up to the first one that fails, and the script's status."""
    with tempfile.TemporaryDirectory() as name:
        script = "set -eu\n" + "".join("%secho '%s'\n" % (commands, MARK % at) for at, (commands, _) in enumerate(blocks()))
        script = script.replace("/tmp/", name + "/").replace(BY_ASK, by_ask).replace(BUILT, shlex.quote(str(program)))
        done = subprocess.run(["bash", "-c", script], cwd=ROOT, env=dict(os.environ, RAIL_HOST=str(program)), stdin=subprocess.DEVNULL, stdout=subprocess.PIPE, stderr=subprocess.STDOUT, text=True, timeout=300)
    said = done.stdout.replace(name + "/", "/tmp/")
    return re.split("|".join(re.escape(MARK % at) + "\n" for at in range(len(blocks()))), said), done.returncode


def faults_of_page(program, by_ask, who):
    said, status = outputs(program, by_ask)
    for (commands, wanted), got in zip(blocks(), said):
        if wanted is not None and got != wanted:
            yield "%s: after\n%sthe page shows\n%sand there comes\n%s" % (who, commands, wanted, got)
    if status or len(said) != len(blocks()) + 1:
        yield "%s: the commands end with %d in block %d: %s" % (who, status, len(said), said[-1])


def faults_of_catalogues(program):
    try:
        import jsonschema
    except ImportError:
        yield "this needs jsonschema: apt-get install python3-jsonschema"
        return
    validator = jsonschema.Draft202012Validator(json.loads((ROOT / "docs" / "catalogue.schema.json").read_text()))
    page, paths = PAGE.read_text(), sorted(FOLDER.glob("*.json"))
    if not paths:
        yield "there are no catalogues in %s" % FOLDER
    for path in paths:
        checker = run(sys.executable, ROOT / "examples" / "check_catalogue.py", path, "--now", NOW)
        if checker.returncode or not checker.stdout.startswith("the host takes this catalogue"):
            yield "%s: the checker says %s" % (path.name, checker.stdout)
        host = run(program, "replay", path)
        if (host.returncode, host.stderr) != (0, ""):
            yield "%s: the host says %r" % (path.name, host.stderr)
        if not validator.is_valid(json.loads(path.read_text())):
            yield "%s: the schema refuses it" % path.name
        if "`%s" % path.name not in page:
            yield "%s isn't named in docs/recipes.md" % path.name


def faults_of_ask(program):
    """What ask.py ends with where there is nothing to print."""
    tries = [
        ("a folder for a catalogue", [str(FOLDER), "GET /"], 1),
        ("no catalogue", ["nothing.json", "GET /"], 1),
        ("no export", [K1, "--from", "nothing", "GET /"], 1),
        ("no moment", [K1, "--start", "noon", "GET /"], 1),
        ("no request", [K1, "reserve"], 2),
        ("no requests", [K1], 2),
        ("an unknown key", [K1, "--key", "east", "GET /"], 0),
    ]
    for what, words, wanted in tries:
        done = run(sys.executable, ASK, *words, env=dict(os.environ, RAIL_HOST=str(program)))
        if done.returncode != wanted or "Traceback" in done.stderr:
            yield "ask.py, %s: status %d, %s" % (what, done.returncode, done.stdout + done.stderr)
    done = run(sys.executable, ASK, K1, "GET /", env=dict(os.environ, RAIL_HOST="/nothing"))
    if done.returncode != 2 or "/nothing is not built" not in done.stderr:
        yield "ask.py without a program: status %d, %s" % (done.returncode, done.stderr)


def run(*words, env=None):
    return subprocess.run(list(map(str, words)), cwd=ROOT, env=env, stdin=subprocess.DEVNULL, capture_output=True, text=True, timeout=60)


def by_model(words):
    """ask.py, with the model as its host."""
    sys.path[:0] = [str(ROOT / "tests" / "model"), str(FOLDER)]
    import ask
    import words as model

    given = ask.words().parse_args(words)
    names = [given.catalogue] + ([given.export] if given.export else [])
    options = ["--start", given.start, "--tick", given.tick] + (["--from", given.export] if given.export else [])
    host, clock = model.open_host([given.catalogue, *options], {name: pathlib.Path(name).read_bytes() for name in names})
    for line in ask.lines(lambda request: host.serve(request, clock)[0], given.requests, given.key):
        print(line)
    return 0


def main():
    if sys.argv[1] == "--model":
        return by_model(sys.argv[2:])
    program = pathlib.Path(sys.argv[1]).resolve()
    found = list(faults_of_page(program, BY_ASK, "the program"))
    found += faults_of_page(program, "python3 tests/people/recipes.py --model", "the model")
    found += faults_of_catalogues(program)
    found += faults_of_ask(program)
    for fault in found:
        print("recipes: " + fault)
    shown = sum(wanted is not None for _, wanted in blocks())
    print("recipes: %d blocks of docs/recipes.md by the program and the model, %d with their output, and the catalogues: %d wrong" % (len(blocks()), shown, len(found)))
    return 1 if found else 0


sys.exit(main())

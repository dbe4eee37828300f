"""What the benchmarks share: small programs built on the repository's crates, and measured runs."""
import pathlib
import resource
import shutil
import subprocess
import sys

ROOT = pathlib.Path(__file__).resolve().parent.parent


def build(folder, name, libraries, source):
    """A program of this source, proved and built in a copy of the repository with what its own checks kept."""
    copy = folder / "copy"
    shutil.copytree(ROOT, copy, ignore=shutil.ignore_patterns(".git"))
    crate = copy / "crates" / name
    for part in ["src", "specs", "proofs"]:
        (crate / part).mkdir(parents=True)
    (crate / "src" / "main.rt").write_text(source)
    for part in ["specs", "proofs"]:
        (crate / part / "Lib.antt").write_text("")
    with open(copy / "crates.txt", "a") as lines:
        lines.write("%s: %s\n" % (name, libraries))
    subprocess.run(["git", "init", "-q"], cwd=copy, check=True)
    built = subprocess.run(["rt", "run"], cwd=crate, capture_output=True, text=True)
    program = crate / "out" / name
    if not program.exists():
        sys.exit("the program was not built:\n%s%s" % (built.stdout[-2000:], built.stderr[-2000:]))
    return program


def measured(words, folder):
    """Processor seconds and greatest memory in bytes of one run, and what it printed."""
    before = resource.getrusage(resource.RUSAGE_CHILDREN).ru_utime
    timed = subprocess.run(["/usr/bin/time", "-f", "%M"] + words, cwd=folder, capture_output=True, text=True)
    if timed.returncode != 0:
        sys.exit("%s: %s" % (words[0], timed.stderr))
    after = resource.getrusage(resource.RUSAGE_CHILDREN).ru_utime
    return after - before, int(timed.stderr.split()[-1]) * 1024, timed.stdout.strip()

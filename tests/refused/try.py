#!/usr/bin/env python3
"""Tries the programs beside this file, each as a crate over rail_service in a copy of the repository.

A program that drops a stream which a listener handed out, a hold or an ending has to be refused, and just for that; so has one that takes
the stream apart. The same program that serves it has to be built. No must-fail edit can say this, since such a program never reaches the prover: the compiler
refuses it, so a build without proofs (`rt try`) tells, and no crate below is proved once more. Ends with status 1 where one of them doesn't
go so.
"""
import pathlib
import shutil
import subprocess
import sys
import tempfile

HERE = pathlib.Path(__file__).resolve().parent
ROOT = HERE.parent.parent
# why a program is refused, by the first word of its name
WHY = {"drops": "error[linear-value-let-go]", "takes": "error[private-field]"}
LIBRARIES = "rail_service rail_io catalogue_contents booking_rows claim_rule"
# `rt try` builds a library with its tests alone
TEST = "\n#[test]\nfn is_built() {}\n"


def name_of(program):
    return program.name.split(".")[0]


def tried(copy, program):
    """What a build says of the program as a crate of the copy."""
    crate = copy / "crates" / name_of(program)
    for part in ["specs", "proofs"]:
        (crate / part).mkdir(parents=True)
        (crate / part / "Lib.antt").write_text("")
    (crate / "src").mkdir()
    (crate / "src" / "lib.rt").write_text(program.read_text() + TEST)
    with open(copy / "crates.txt", "a") as lines:
        lines.write("%s: %s\n" % (name_of(program), LIBRARIES))
    return subprocess.run(["rt", "try", "--test"], cwd=crate, capture_output=True, text=True)


def main():
    tried_ones = failed = 0
    with tempfile.TemporaryDirectory() as folder:
        copy = pathlib.Path(folder) / "copy"
        shutil.copytree(ROOT, copy, ignore=shutil.ignore_patterns(".git", "out"))
        subprocess.run(["git", "init", "-q"], cwd=copy, check=True)
        for program in sorted(HERE.glob("*.rt.txt")):
            build = tried(copy, program)
            said = build.stdout + build.stderr
            why = WHY.get(name_of(program).split("_")[0])
            if why:
                good = build.returncode != 0 and said.count(": error[") == 1 and why in said
            else:
                good = build.returncode == 0
            tried_ones += 1
            if not good:
                failed += 1
                print("%s: NOT as it must be\n%s" % (program.name, said[-2000:]))
    print("%d programs tried, %d not as they must be" % (tried_ones, failed))
    return 0 if tried_ones and not failed else 1


if __name__ == "__main__":
    sys.exit(main())

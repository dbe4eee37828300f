#!/usr/bin/env python3
"""Makes docs/rail_host.1, the manual page, out of docs/commands.md, and says whether it is the one that lies there.

  tests/people/manpage.py [--write]
  tests/people/manpage.py PROGRAM         also runs the commands that the page shows, but for `serve`

With --write it writes the page. A heading is a section, a table with two columns a list of terms, and a link its text.
"""
import pathlib
import re
import shlex
import subprocess
import sys
import textwrap

ROOT = pathlib.Path(__file__).resolve().parents[2]
SOURCE, PAGE = ROOT / "docs" / "commands.md", ROOT / "docs" / "rail_host.1"
BUILT = "crates/rail_host/out/rail_host"
TOP = r'''.\" Made of docs/commands.md by tests/people/manpage.py: change that page, not this one.
.TH RAIL_HOST 1 2026-11-28 "Sumacgate" "User commands"
.SH NAME
rail_host \- a rail reservation host'''


def plain(text):
    """A line as roff takes it."""
    text = text.replace("\\", "\\e").replace("-", "\\-")
    return "\\&" + text if text[:1] in (".", "'") else text


def running(text):
    """Running text: code is bold, a link is its text, and the rest is as it stands."""
    text = re.sub(r"\[([^\]]*)\]\([^)]*\)", r"\1", text)
    parts = re.split(r"`([^`]*)`", text)
    return "".join("\\fB%s\\fR" % plain(part) if index % 2 else plain(part).removeprefix("\\&") for index, part in enumerate(parts))


def wrapped(text):
    """Running text in lines that people can read in the source too."""
    lines = textwrap.wrap(running(text), 78, break_on_hyphens=False, break_long_words=False)
    return ["\\&" + line if line[0] in ".'" else line for line in lines]


def blocks_of(text):
    """The blocks of the page: headings, tables, code and paragraphs."""
    lines = iter(text.splitlines())
    block = []
    for line in lines:
        if line.startswith("```"):
            if block:
                yield "text", block
            code = []
            for inner in lines:
                if inner.startswith("```"):
                    break
                code.append(inner)
            yield "code", code
            block = []
        elif line.startswith("#") or not line:
            if block:
                yield ("table" if block[0].startswith("|") else "text"), block
            block = []
            if line:
                yield "heading", [line.lstrip("# ")]
        else:
            block.append(line)
    if block:
        yield ("table" if block[0].startswith("|") else "text"), block


def page():
    out, first = [TOP], True
    for kind, lines in blocks_of(SOURCE.read_text()):
        if kind == "heading":
            first = not out[1:] and lines[0].startswith("rail_host")
            if not first:
                out += [".SH " + plain(lines[0]).upper()]
        elif first:
            # What stands under the title is about the page itself.
            continue
        elif kind == "code":
            out += ([] if out[-1].startswith(".SH") else [".PP"]) + [".nf", ".RS 4", *map(plain, lines), ".RE", ".fi"]
        elif kind == "table":
            for line in lines[2:]:
                term, meaning = [cell.strip() for cell in line.strip("|").split(" | ")]
                out += [".TP", running(term), *wrapped(meaning)]
        else:
            out += ([] if out[-1].startswith(".SH") else [".PP"]) + wrapped(" ".join(lines))
    return "\n".join(out) + "\n"


def faults_of_commands(program):
    for kind, lines in blocks_of(SOURCE.read_text()):
        text = "\n".join(lines)
        if kind != "code" or BUILT not in text or " serve " in text:
            continue
        done = subprocess.run(["bash", "-c", "set -euo pipefail\n" + text.replace(BUILT, shlex.quote(program))], cwd=ROOT, capture_output=True, text=True, timeout=60)
        wanted = {"replay": '"status":"FULFILLED"', "settle": "1,1,1,4250,0,0\n", "recover": "row 0 0 F 1 1780294500 4250 ", "export": "row 0 0 F 1 1780294500 4250 ", "drill": "requests 160 sold 90 refused 70 busy 0 double 0", "tiny": '{"from":0,"place":0,"to":2}'}
        name = next(name for name in wanted if " %s " % name in text)
        if done.returncode or wanted[name] not in done.stdout:
            yield "%s: status %d, %s" % (name, done.returncode, done.stdout[-300:] + done.stderr)


def main():
    if sys.argv[1:] == ["--write"]:
        PAGE.write_text(page())
        return 0
    found = [] if PAGE.is_file() and PAGE.read_text() == page() else ["docs/rail_host.1 is not the page that docs/commands.md makes: tests/people/manpage.py --write"]
    if sys.argv[1:]:
        found += faults_of_commands(str(pathlib.Path(sys.argv[1]).resolve()))
    for fault in found:
        print("manpage: " + fault)
    print("manpage: docs/rail_host.1 and the commands of docs/commands.md: %d wrong" % len(found))
    return 1 if found else 0


sys.exit(main())

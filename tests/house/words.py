#!/usr/bin/env python3
"""Plain English in the documents, and in the comments of the crates.

  tests/house/words.py [--write] [--list] [FILE..]

Looked for are words of the list below with what to say instead, sentences of more than 40 words, and, in the maintainers' documents, what
belongs into a diary. Code, in blocks or in backticks, is passed over; tables are read for words, not for the length of their sentences.
Each file may have as many of these as tests/house/words.json says, none where it says nothing: that list may only get shorter. --write
shortens it where a file has fewer. --list, or the name of a file, shows each with its line.
"""
import argparse
import json
import re
import sys

from definitions import CRATES, ROOT

BUDGET = ROOT / "tests" / "house" / "words.json"
MOST_WORDS = 40
THINGS = r"(?:a|an|the|its|their|one|each|such|any|both|these|those|our|your|his|her|\w+'s)"
HIDING = "proxy|proxies|nginx|traits?|adapters?|locks?|listeners?|firewall|balancer|gateway|TLS|door|x alone"

# What not to say, as a pattern of the text in one line, and what to say. Each pattern passes over the uses that are plain English.
WORDS = [
    (r"(?<!functions )(?<!reason )(?<!idea )(?<!lies )(?<!none )\bbehind\b(?! (?:%s )?(?:[\w-]+ )?(?:%s))" % (THINGS, HIDING),
     "after, or followed by"),
    (r"\bwant of\b", "out of, lack of"),
    (r"\bat the mean\b", "on average"),
    (r"\brooms? of (?:its|their) own\b", "a crate of its own"),
    (r"\bso many\b(?! [\w ]{1,30} that\b)", "as many, that many, or the number"),
    (r"(?<!sits )(?<!sit )(?<!seats )(?<!places )(?<!stands )(?<!stand )\bbeside\b(?! each other| one another)", "besides, next to, with"),
    (r"\bdear(?:er|est|ly)?\b", "expensive, costly"),
    (r"\btold by\b", "caught by, shown by"),
    (r"\b[Aa]sked(?: of [^.:]{1,40})?:|\b(?:is|are) asked of\b", "required"),
    (r"(?:^|[.;:] )For: ", "a sentence with a subject"),
    (r"\b(?:is|are|was|were|be) had\b", "there is, one gets"),
    (r"\bwho of\b", "which of"),
    (r"\b[Ww]hereof\b|\b[Tt]hereof\b|\b[Tt]hereby\b", "plain words"),
    (r"\bto no other end\b", "only to"),
    (r"\bnone are\b", "none is"),
]
WHO = (r"^Who\b(?!.*\?$)(?: \S+){5}", "Whoever")  # at the beginning of a sentence that asks nothing
DIARY = [
    (r"\b(?:that|this|the) (?:morning|evening|afternoon|night)\b", "no diary"),
    (r"\bat \d\d:\d\d\b(?![\d:, and]* of a clock)", "no diary"),
    (r"\b(?:before|after|since) (?:these|this|those) changes?\b", "no diary"),
    (r"\ban hour (?:before|ago|later)\b", "no diary"),
    (r"\b(?:yesterday|tonight|last night|nowadays)\b", "no diary"),
    (r"\b[Ww]hat went\b", "no diary"),
    (r"\b(?:last|this) session\b", "no diary"),
]
MAINTAINERS = ("ARCHITECTURE.md", "CONTRIBUTING.md", "README.md", "tests/README.md", "bench/README.md", "docs/DECISIONS.md",
               "docs/definitions.md", "docs/layers.md", "docs/proved.md", "docs/trust.md")


def documents():
    """The documents that are held, but for what is history."""
    tops = [ROOT / name for name in ("README.md", "ARCHITECTURE.md", "CONTRIBUTING.md", "tests/README.md", "bench/README.md")]
    return [path for path in tops + sorted(ROOT.glob("docs/*.md")) + sorted(CRATES.glob("*/README.md")) if path.exists()]


def paragraphs_of_document(text):
    """(line, text, whether it is a row of a table) of each paragraph, item or row, without code and with the text of links alone."""
    text = re.sub(r"<!--.*?-->", lambda found: "\n" * found.group(0).count("\n"), text, flags=re.S)
    fenced, at, held = False, 0, []
    for number, line in enumerate([*text.splitlines(), ""], 1):
        if line.lstrip().startswith("```"):
            fenced = not fenced
            line = ""
        row = line.startswith("|")
        if held and (fenced or row or not line.strip() or re.match(r"\s*(?:[-*]|\d+\.) |#", line)):
            yield at, plain(" ".join(held)), False
            held = []
        if row:
            yield number, plain(line), True
        elif not fenced and line.strip() and not line.startswith("    "):
            at = at if held else number
            held.append(line.strip())


def paragraphs_of_code(text):
    """The same of the comments of a file of code."""
    at, held = 0, []
    for number, line in enumerate([*text.splitlines(), ""], 1):
        said = re.match(r"\s*(?://[/!]?|--) ?(.*)$", line)
        if held and (not said or not said.group(1).strip() or said.group(1).startswith("- ")):
            yield at, plain(" ".join(held)), held[0].startswith("|")
            held = []
        if said and said.group(1).strip():
            at = at if held else number
            held.append(said.group(1).strip())


def plain(text):
    """A text as it is read: code as one word, links as their text, without marks."""
    text = re.sub(r"`[^`]*`", "x", text)
    text = re.sub(r"!?\[([^\]]*)\]\([^)]*\)", r"\1", text)
    text = re.sub(r"^(?:[-*]|\d+\.|#+) +", "", text)
    return re.sub(r"[*_]{1,2}(?=\w)|(?<=[\w.,:)])[*_]{1,2}", "", text)


def sentences(text):
    return [part for part in re.split(r"(?<=[.!?])[\"')]* +(?=[A-Z0-9\"'(x])", text) if part.strip()]


def faults_of(path):
    """(line, what was found, what to say instead) of each fault of a file."""
    text = path.read_text()
    code = path.suffix in (".rt", ".antt")
    name = str(path.relative_to(ROOT))
    patterns = WORDS + (DIARY if name in MAINTAINERS else [])
    for line, paragraph, row in paragraphs_of_code(text) if code else paragraphs_of_document(text):
        for pattern, better in patterns:
            for found in re.finditer(pattern, paragraph):
                yield line, "%s: say %s" % (around(paragraph, found), better)
        for sentence in sentences(paragraph) if not row else []:
            if re.search(WHO[0], sentence):
                yield line, "%.40s: say %s" % (sentence, WHO[1])
            if len(sentence.split()) > MOST_WORDS:
                yield line, "%.60s ..: %d words" % (sentence, len(sentence.split()))


def around(text, found):
    return text[max(0, found.start() - 20):found.end() + 20].strip()


def held():
    """Each file, or group of files, that has a budget."""
    groups = {str(path.relative_to(ROOT)): [path] for path in documents()}
    groups["the crates' comments"] = [path for part in ("src/**/*.rt", "specs/**/*.antt") for path in sorted(CRATES.glob("*/" + part))]
    return groups


def main():
    words = argparse.ArgumentParser(description=__doc__, formatter_class=argparse.RawDescriptionHelpFormatter)
    words.add_argument("--write", action="store_true", help="shorten the list")
    words.add_argument("--list", action="store_true", help="show all that is found")
    words.add_argument("files", nargs="*", metavar="FILE", help="show what is found in these, or under these folders")
    given = words.parse_args()
    budget = json.loads(BUDGET.read_text()) if BUDGET.exists() else None
    now, failed = {}, []
    for name, paths in held().items():
        found = [(path, line, said) for path in paths for line, said in faults_of(path)]
        may = len(found) if budget is None else budget.get(name, 0)
        now[name] = min(len(found), may)
        if len(found) > may:
            failed.append("%s: %d, and may have %d" % (name, len(found), may))
        elif len(found) < may and not given.write:
            print("%s: %d, and may have %d: words.py --write shortens the list" % (name, len(found), may))
        for path, line, said in found:
            at = str(path.relative_to(ROOT))
            if given.list or any(at.startswith(file) for file in given.files) or (len(found) > may and may == 0):
                print("%s:%d: %s" % (at, line, said))
    if given.write or budget is None:
        BUDGET.write_text(json.dumps({name: count for name, count in now.items() if count}, indent=1) + "\n")
    for fault in failed:
        print(fault)
    print("%d files of plain English, %d with something left (%d in all)" % (
        sum(1 for count in now.values() if not count), sum(1 for count in now.values() if count), sum(now.values())))
    return 1 if failed else 0


if __name__ == "__main__":
    sys.exit(main())

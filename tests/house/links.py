#!/usr/bin/env python3
"""Each relative link of a document names a file that is there, and a heading of it; each path in backticks is there too.

  tests/house/links.py

A path in backticks counts where it begins with a folder at the top. Passed over are those with a capital word or a `*` in them, which
stand for others, and what builds leave in `out`.
"""
import re
import sys

from definitions import CRATES, ROOT

TOPS = ("bench/", "crates/", "docs/", "edits/", "examples/", "packaging/", "tests/", "tools/")
STANDS_FOR = re.compile(r"\*|\b[A-Z]{2,}\b|(?:^|/)out(?:/|$)")


def pages():
    folders = [ROOT, *(ROOT / name for name in ("docs", "tests", "bench", "examples", "tools", "packaging"))]
    return [page for folder in folders for page in sorted(folder.glob("*.md"))] + sorted(CRATES.glob("*/README.md"))


def without_blocks(text):
    return re.sub(r"^```.*?^```", "", text, flags=re.S | re.M)


def anchors(page):
    """What a link may name after `#`: each heading in small letters, without marks, with `-` for spaces."""
    headings = re.findall(r"^#+ (.*)$", without_blocks(page.read_text()), re.M)
    plain = [re.sub(r"\[([^\]]*)\]\([^)]*\)", r"\1", heading).strip().lower() for heading in headings]
    return {re.sub(r"[^\w\- ]", "", heading).replace(" ", "-") for heading in plain}


def faults_of_link(page, link):
    name, _, anchor = link.partition("#")
    target = (page.parent / name).resolve() if name else page
    if not target.exists():
        yield "%s isn't there" % link
    elif anchor and target.suffix == ".md" and anchor not in anchors(target):
        yield "%s: there is no such heading" % link


def links_of(text):
    found = re.findall(r"\]\(([^)\s]+)\)", without_blocks(text))
    return [link for link in found if not link.startswith(("http:", "https:", "mailto:"))]


def paths_of(text):
    found = re.findall(r"`([\w.-]+/[\w./-]*)`", without_blocks(text))
    return [path for path in found if path.startswith(TOPS) and not STANDS_FOR.search(path)]


def main():
    seen, faults = 0, []
    for page in pages():
        text = page.read_text()
        links, paths = links_of(text), paths_of(text)
        seen += len(links) + len(paths)
        said = [fault for link in links for fault in faults_of_link(page, link)]
        said += ["`%s` isn't there" % path for path in paths if not (ROOT / path).exists()]
        faults += ["%s: %s" % (page.relative_to(ROOT), fault) for fault in said]
    print("".join(fault + "\n" for fault in faults), end="")
    print("%d links and paths in documents, %d wrong" % (seen, len(faults)))
    return 1 if faults else 0


if __name__ == "__main__":
    sys.exit(main())

#!/usr/bin/env python3
"""Counts the words of the pages, and checks their links.

    docs/pages.py

The pages are README.md, those of docs, and CALLING.md of each crate. Code blocks, and so the contracts that CALLING.md quotes, do
not count. Fails at a link whose file or heading does not exist, and at a file of the repository that is named and does not exist.
"""

import pathlib
import re
import sys

ROOT = pathlib.Path(__file__).resolve().parent.parent


def prose(page):
    """A page without its code blocks and comments."""
    text = re.sub(r"^```.*?^```$", "", page.read_text(encoding="utf-8"), flags=re.DOTALL | re.MULTILINE)
    return re.sub(r"<!--.*?-->", "", text, flags=re.DOTALL)


def anchors(page):
    """The anchors of the headings of a page."""
    headings = re.findall(r"^#+ (.*)", prose(page), re.MULTILINE)
    return {re.sub(r"[^\w -]", "", heading).lower().replace(" ", "-") for heading in headings}


def broken(page):
    """The links and the files that a page names and that do not exist."""
    text = prose(page)
    for link in re.findall(r"\]\(([^)\s]+)\)", text):
        name, _, anchor = link.partition("#")
        target = page.parent / name if name else page
        if not target.exists() or (anchor and anchor not in anchors(target)):
            yield link
    for name in re.findall(r"\b(?:bench|docs|replay)/[\w/]+\.[a-z]+\b", text):
        if not (ROOT / name).exists():
            yield name


def main():
    total, is_good = 0, True
    for page in [ROOT / "README.md", *sorted(ROOT.glob("docs/*.md")), *sorted(ROOT.glob("crates/*/CALLING.md"))]:
        words = len(prose(page).split())
        total += words
        print(f"{words:6} {page.relative_to(ROOT)}")
        for name in broken(page):
            is_good = False
            print(f"{page.relative_to(ROOT)}: {name} does not exist")
    print(f"{total:6} in all")
    sys.exit(not is_good)


main()

#!/usr/bin/env python3
"""Checks the pages of the repository: lengths of lines and pages, words that readers from the field don't know, and links to files.

    python3 scripts/documents.py

A page is README.md, CONTRIBUTING.md, examples/README.md or a page of docs/. Each fault is printed with its page and line; the status is 1
if there is one.
"""
import pathlib
import re
import sys

TOP = pathlib.Path(__file__).resolve().parent.parent
PAGES = ["README.md", "CONTRIBUTING.md", "examples/README.md", *(f"docs/{page.name}" for page in sorted((TOP / "docs").glob("*.md")))]
WIDTH = 120
MOST_LINES = {"README.md": 150, "docs/MAP.md": 120, "docs/ROADMAP.md": 80, "docs/PROVER_NOTES.md": 150, "docs/PERFORMANCE.md": 150}

# Phrases that a reader from the field would have to learn first.
PHRASES = [
    r"want of memory", r"who(ever)? waits", r"what it came to", r"stands? apart", r"by itself", r"a way of its own", r"short way",
    r"is told", r"are told", r"was told", r"were told", r"tells", r"poised", r"a deed",
]
FOUND = re.compile("|".join(rf"\b{phrase}\b".replace(" ", r"\s+") for phrase in PHRASES), re.IGNORECASE)
# A file of the repository that a page names, such as `docs/MAP.md` or `bench/steps.py`.
NAMED = re.compile(r"`((?:docs|bench|scripts|examples)/[\w./-]+\.\w+)`")


def faults(page):
    """Yields the faults of a page, each with its line."""
    text = (TOP / page).read_text(encoding="utf-8")
    lines = text.splitlines()
    if len(lines) > MOST_LINES.get(page, len(lines)):
        yield len(lines), f"has {len(lines)} lines, {MOST_LINES[page]} at most"
    for number, line in enumerate(lines, 1):
        if len(line) > WIDTH:
            yield number, f"has {len(line)} characters, {WIDTH} at most"
        for name in NAMED.findall(line):
            if not (TOP / name).exists():
                yield number, f"names {name}, which isn't there"
    for found in FOUND.finditer(text):
        yield text.count("\n", 0, found.start()) + 1, f"says '{' '.join(found.group().split())}'"


def main():
    wrong = [(page, *fault) for page in PAGES for fault in faults(page)]
    for page, number, fault in wrong:
        print(f"{page}:{number}: {fault}")
    print(f"documents: {len(PAGES)} pages, {len(wrong)} faults")
    sys.exit(1 if wrong else 0)


if __name__ == "__main__":
    main()

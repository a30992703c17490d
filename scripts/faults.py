#!/usr/bin/env python3
"""Checks that docs/FAULTS.md has the same words for each refusal as the program's table, and that both have all refusals.

    python3 scripts/faults.py

The table is `FAULTS` of crates/explain/src/faults.rt, which `plan_tool explain N` prints; numbers and names are those of `Fault` in
crates/volume_model/src/fault.rt. Each difference is printed; the status is 1 if there is one.
"""
import pathlib
import re
import sys

TOP = pathlib.Path(__file__).resolve().parent.parent
PAGE = TOP / "docs/FAULTS.md"
TABLE = TOP / "crates/explain/src/faults.rt"
NAMES = TOP / "crates/volume_model/src/fault.rt"

ITEM = re.compile(r"^- \*\*(\d+) (\w+)\*\* \(([^)]*)\): (.*?)(?=^- \*\*|\Z)", re.MULTILINE | re.DOTALL)
ENTRY = re.compile(r'FaultWords \{\s*fault: Fault::(\w+),\s*of: "(.*?)",\s*words: "(.*?)",\s*\}', re.DOTALL)
VARIANT = re.compile(r"^    (\w+) = (\d+),$", re.MULTILINE)


def joined(text):
    """Returns a text as one line, with one space for each break between words."""
    return " ".join(text.replace("\\\n", "\n").split())


def of_page():
    """Returns the page's entries: number, name, what refuses, and why."""
    return [(int(number), name, joined(of), joined(words)) for number, name, of, words in ITEM.findall(PAGE.read_text())]


def of_table(numbers):
    """Returns the table's entries, in the same form."""
    return [(numbers[name], name, joined(of), joined(words)) for name, of, words in ENTRY.findall(TABLE.read_text())]


def main():
    numbers = {name: int(number) for name, number in VARIANT.findall(NAMES.read_text())}
    page, table = of_page(), of_table(numbers)
    faults = [f"docs/FAULTS.md has, and the table doesn't: {item}" for item in page if item not in table]
    faults += [f"the table has, and docs/FAULTS.md doesn't: {item}" for item in table if item not in page]
    listed = [name for _, name, _, _ in table]
    faults += [f"the table has {listed.count(name)} entries of {name}" for name in numbers if listed.count(name) != 1]
    if [number for number, *_ in page] != sorted(numbers.values()):
        faults.append("docs/FAULTS.md doesn't have each number once, in growing order")
    for fault in faults:
        print(fault)
    print(f"faults: {len(table)} entries, {len(faults)} differences")
    sys.exit(1 if faults or not table else 0)


if __name__ == "__main__":
    main()

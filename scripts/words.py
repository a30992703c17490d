#!/usr/bin/env python3
"""Checks the names and the comments of the crates for words that a reader from the field would have to learn first.

    python3 scripts/words.py

A name is any identifier of a file `.rt` or `.antt`; a comment is a doc line, a line comment, or a line of a definition or proof that begins
with `--`. Each fault is printed with its file and line; the status is 1 where there is one. `scripts/documents.py` does the same for pages.
"""
import pathlib
import re
import sys

TOP = pathlib.Path(__file__).resolve().parent.parent

# Old names, each with the present one.
NAMES = {
    "Told": "a result, outcome or completion", "told": "a result", "poised": "reserve_step", "IsPoised": "IsReadyToStep", "Standing": "GroupState",
    "Standings": "GroupStates", "Covered": "DurabilityTracker", "Waits": "PendingRecords", "woken": "released", "awaited": "pending",
    "Lasts": "LastLsns", "Entrant": "PendingInsert", "Desk": "CompletionTable", "Tally": "RunCounts", "Crew": "Workers", "FindEnd": "RecoveryOutcome",
    "WriterEnd": "WriterOutcome", "ClientDeed": "ClientAction", "NodeDeed": "NodeAction", "deed": "action", "Deed": "LineAction",
    "LentClaim": "ClaimRef", "AnswersLate": "AnswersAfterGrowth", "act_late": "act_after_growth", "Halts": "RecordsAttempt",
    "conclude": "commit_or_note", "leave": "leak", "Reach": "StealHandle", "Turn": "Assignment",
}
# (crate, word): the word means something else in this crate.
OTHER = {("volume_model", "Lasts"), ("explain", "leave"), ("plan_edit", "leave")}
PHRASES = [
    r"want of memory", r"short way", r"(?:is|are|was|were) told", r"tells", r"who(?:ever)? waits", r"stands apart", r"by itself", r"but for",
    r"what it came to", r"poised", r"deeds?", r"woken", r"a way of its own",
]
FOUND = re.compile("|".join(rf"\b{phrase}\b" for phrase in PHRASES), re.IGNORECASE)
WORD = re.compile(r"\b[A-Za-z_]\w*\b")


def parted(line, is_code):
    """The code of a line and its comment."""
    if not is_code:
        return ("", line) if line.lstrip().startswith("--") else (line, "")
    at = line.find("//")
    return (line, "") if at < 0 or '"' in line[:at] else (line[:at], line[at:])


def faults(file):
    """Yields the faults of a file, each with its line."""
    crate = file.relative_to(TOP / "crates").parts[0]
    for number, line in enumerate(file.read_text(encoding="utf-8").splitlines(), 1):
        code, comment = parted(line, file.suffix == ".rt")
        for word in WORD.findall(code):
            if word in NAMES and (crate, word) not in OTHER:
                yield number, f"names {word}: say {NAMES[word]}"
        for found in FOUND.finditer(comment):
            yield number, f"says '{found.group()}'"


def main():
    files = [file for kind in ("*.rt", "*.antt") for file in sorted((TOP / "crates").rglob(kind)) if "out" not in file.parts]
    # The help is text that the program prints.
    files = [file for file in files if file.name != "help.rt"]
    wrong = [(file.relative_to(TOP), *fault) for file in files for fault in faults(file)]
    for file, number, fault in wrong:
        print(f"{file}:{number}: {fault}")
    print(f"words: {len(files)} files, {len(wrong)} faults")
    sys.exit(1 if wrong else 0)


if __name__ == "__main__":
    main()

#!/usr/bin/env python3
"""Runs the program over texts of the greatest allowed length, and over texts that are one byte or one line longer.

    python3 scripts/limits.py [crates/plan_tool/out/plan_tool]

Such texts are too long for a case file. The answers are those of docs/PLANS.md and docs/SCRIPTS.md: a plan of one byte more than 16,777,216
is over a limit; a script's first line that doesn't lie within the first 16,777,216 bytes, or isn't one of the first 100,000, is bad.
The last case is a script that is a named pipe which nobody writes: a plan's fault is printed before the script is opened.
"""
import os
import pathlib
import subprocess
import sys
import tempfile

TOP = pathlib.Path(__file__).resolve().parent.parent
BYTES = 16_777_216
LINES = 100_000
SECONDS = 60
PLAN = (TOP / "examples/six_copies.json").read_bytes()
YES = (0, "yes: 1 groups, 1 configurations, 1 certificates\n", "")
OVER = (1, "no: 34 OverLimit\n", "")
RUN = (0, "writer 1 durable 0 next 1\n", "")
FLEET = (0, "steps 0\nrefused 0\nwriter 1 durable 0 next 1\njournal yes\n", "")


def bad(line):
    """The answer to a script whose first bad line is this one."""
    return 2, "", f"input: line {line}\n"


def comment(length):
    """A comment of this many bytes."""
    return b"#" * length


def plans():
    """Yields texts of plans, each with the answer of `check`."""
    yield "a plan of 16,777,216 bytes", PLAN.ljust(BYTES), YES
    yield "a plan of one byte more", PLAN.ljust(BYTES + 1), OVER
    yield "spaces of one byte more", b" " * (BYTES + 1), OVER


def scripts():
    """Yields texts of scripts, each with the number of its first bad line, if it has one."""
    yield "a comment of 16,777,216 bytes", comment(BYTES), None
    yield "a comment and a newline of 16,777,216 bytes", comment(BYTES - 1) + b"\n", None
    yield "a comment of one byte more", comment(BYTES + 1), 1
    yield "a newline that is one byte more", comment(BYTES) + b"\n", 1
    yield "a second line behind 16,777,216 bytes", comment(BYTES - 1) + b"\n#", 2
    yield "100,000 lines", b"#\n" * LINES, None
    yield "100,000 lines without the last newline", b"#\n" * (LINES - 1) + b"#", None
    yield "100,001 lines", b"#\n" * (LINES + 1), LINES + 1
    yield "a bad line behind 100,000", b"#\n" * LINES + b"x", LINES + 1


def answer(tool, *words):
    """Runs the program. Returns its status and both outputs."""
    ran = subprocess.run([tool, *map(str, words)], capture_output=True, text=True, timeout=SECONDS)
    return ran.returncode, ran.stdout, ran.stderr


def cases(tool, folder):
    """Yields what was tried, the answer, and the expected answer."""
    plan, script = folder / "plan.json", folder / "text.script"
    for name, text, due in plans():
        plan.write_bytes(text)
        yield f"check, {name}", answer(tool, "check", plan), due
    for name, text, line in scripts():
        script.write_bytes(text)
        files = [TOP / "examples/six_copies.json", script]
        yield f"run, {name}", answer(tool, "run", *files), bad(line) if line else RUN
        yield f"fleet, {name}", answer(tool, "fleet", *files, "-w", "2"), bad(line) if line else FLEET
    pipe, faulty = folder / "pipe.script", TOP / "examples/write_three.json"
    os.mkfifo(pipe)
    for command in "run", "fleet", "explain":
        yield f"{command}, a plan with a fault and a pipe", answer(tool, command, faulty, pipe), answer(tool, "check", faulty)


def main():
    tool = sys.argv[1] if len(sys.argv) > 1 else TOP / "crates/plan_tool/out/plan_tool"
    with tempfile.TemporaryDirectory() as folder:
        tried = list(cases(tool, pathlib.Path(folder)))
    wrong = [(name, said, due) for name, said, due in tried if said != due]
    for name, said, due in wrong:
        print(f"{name}: answers {said}, due is {due}")
    print(f"limits: {len(tried)} texts, {len(wrong)} answered otherwise")
    sys.exit(1 if wrong else 0)


if __name__ == "__main__":
    main()

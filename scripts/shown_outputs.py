#!/usr/bin/env python3
"""Runs each command that README, docs/ and examples/ show, and compares its output with the output shown.

    python3 scripts/shown_outputs.py [crates/plan_tool/out/plan_tool]

A shown command is an indented line that begins with `$`. The indented lines after it are its standard output and standard error together;
a line `..` stands for any number of lines. The commands of a page run in order in one folder, which has the examples and in which
`plan_tool` is on the path; a file that a command writes is there for the next one. A command in brackets needs the kit and isn't run.
"""
import os
import pathlib
import shutil
import subprocess
import sys
import tempfile

TOP = pathlib.Path(__file__).resolve().parent.parent
INDENT = "    "
PAGES = ["README.md", "examples/README.md", *(f"docs/{page.name}" for page in sorted((TOP / "docs").glob("*.md")))]
SECONDS = 60


def shown(page):
    """Yields each shown command of a page, with its line and the lines of its output."""
    command = None
    for number, line in enumerate((TOP / page).read_text().splitlines(), 1):
        if line.startswith(f"{INDENT}$ "):
            if command:
                yield command
            command = (number, line[len(INDENT) + 2 :], [])
        elif command and line.startswith(INDENT):
            command[2].append(line[len(INDENT) :])
        elif command:
            yield command
            command = None
    if command:
        yield command


def fits(said, due):
    """Whether the printed lines are the expected ones, in which `..` stands for any number of lines."""
    if not due:
        return not said
    if due[0] == "..":
        return any(fits(said[skipped:], due[1:]) for skipped in range(len(said) + 1))
    return bool(said) and said[0] == due[0] and fits(said[1:], due[1:])


def run(command, folder, tool):
    """Returns the lines that a command prints in a folder."""
    path = f"{tool.parent}:{os.environ['PATH']}"
    ran = subprocess.run(command, shell=True, cwd=folder, env={**os.environ, "PATH": path}, text=True, timeout=SECONDS,
                         stdout=subprocess.PIPE, stderr=subprocess.STDOUT)
    return ran.stdout.splitlines()


def check(page, tool):
    """Runs the commands of a page. Returns how many ran, and how many printed something else."""
    ran = wrong = 0
    with tempfile.TemporaryDirectory() as folder:
        shutil.copytree(TOP / "examples", f"{folder}/examples")
        for number, command, due in shown(page):
            if command.startswith("("):
                continue
            ran += 1
            said = run(command, folder, tool)
            if not fits(said, due):
                wrong += 1
                print(f"{page}:{number}: {command}\n  prints " + "\n         ".join(said[:8]))
    return ran, wrong


def main():
    sys.setrecursionlimit(100_000)
    tool = pathlib.Path(sys.argv[1] if len(sys.argv) > 1 else TOP / "crates/plan_tool/out/plan_tool").resolve()
    counts = [check(page, tool) for page in PAGES]
    ran, wrong = (sum(each) for each in zip(*counts))
    print(f"shown outputs: {ran} commands, {wrong} print something else")
    sys.exit(1 if wrong or not ran else 0)


if __name__ == "__main__":
    main()

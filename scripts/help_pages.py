#!/usr/bin/env python3
"""Makes the man page and the completions for bash from what `plan_tool --help` prints.

    scripts/help_pages.py [--check] [crates/plan_tool/out/plan_tool]

Writes docs/plan_tool.1 and docs/plan_tool.bash. With --check it writes nothing, and says which file isn't what it would write; the status is 1 then.
"""
import argparse
import pathlib
import re
import subprocess
import sys

TOP = pathlib.Path(__file__).resolve().parent.parent
MAN, BASH = TOP / "docs/plan_tool.1", TOP / "docs/plan_tool.bash"
HEADS = ("Usage:", "Arguments:", "Options:", "Commands:")

COMPLETION = """\
# Completions of plan_tool for bash, made by scripts/help_pages.py: source this file, or copy it to
# /usr/share/bash-completion/completions/plan_tool.
_plan_tool() {{
    local word=${{COMP_WORDS[COMP_CWORD]}} command=${{COMP_WORDS[1]}} options=
    if [ "$COMP_CWORD" -eq 1 ]; then
        COMPREPLY=($(compgen -W "{commands} help --help --version" -- "$word"))
        return
    fi
    case $command in
{cases}
    help) options="{commands}" ;;
    esac
    case $word in
    -*) COMPREPLY=($(compgen -W "$options" -- "$word")) ;;
    *) [ "$command" = help ] && COMPREPLY=($(compgen -W "$options" -- "$word")) || COMPREPLY=($(compgen -f -- "$word")) ;;
    esac
}}
complete -o filenames -F _plan_tool plan_tool
"""


class Help:
    """What --help prints of the program or of a command: its first line, its lists by their heading, and the notes."""

    def __init__(self, tool, *command):
        text = subprocess.run([tool, *command, "--help"], capture_output=True, text=True, check=True).stdout
        parts = text.rstrip("\n").split("\n\n")
        self.about = parts.pop(0)
        self.lists, self.notes = {}, []
        for part in parts:
            head = next((each for each in HEADS if part.startswith(each)), None)
            if head:
                self.lists[head] = part[len(head):].strip("\n")
            else:
                self.notes.append(" ".join(part.split("\n")))

    def rows(self, head):
        """The rows of a list: each its words and what they mean."""
        rows = []
        for line in self.lists.get(head, "").split("\n"):
            found = re.match(r"\s{2,6}(\S.*?)(?:\s{2,}(.*))?$", line)
            if found and line[:6].strip():
                rows.append((found[1], found[2] or ""))
            elif line.strip() and len(line) - len(line.lstrip()) <= 6:
                words, _, means = line.strip().partition("  ")
                rows.append((words, means.strip()))
            elif line.strip() and rows:
                rows[-1] = (rows[-1][0], f"{rows[-1][1]} {line.strip()}".strip())
        return rows

    def usage(self):
        """The words behind the program's name."""
        return self.lists["Usage:"].split(maxsplit=1)[1]


def roff(text):
    """A text as roff takes it."""
    text = text.replace("\\", "\\e").replace("-", "\\-")
    return f"\\&{text}" if text.startswith((".", "'")) else text


def paragraphs(notes):
    """The notes of a command, without the heading of its exit status."""
    return "".join(f".PP\n{roff(note)}\n" for note in notes)


def rows(all_rows):
    return "".join(f".TP\n.B {roff(words)}\n{roff(means)}\n" for words, means in all_rows)


def man(program, commands, version):
    """The man page."""
    text = '.\\" Made by scripts/help_pages.py from plan_tool --help.\n'
    text += f'.TH PLAN_TOOL 1 "" "{version}" "User Commands"\n.SH NAME\nplan_tool \\- {roff(program.about[0].lower() + program.about[1:])}\n'
    text += f".SH SYNOPSIS\n.B plan_tool\n{roff(program.usage())}\n.SH COMMANDS\n"
    for name, each in commands.items():
        text += f".SS plan_tool {roff(each.usage())}\n{roff(each.about)}.\n"
        text += rows(each.rows("Arguments:")) + rows(each.rows("Options:")) + paragraphs(each.notes)
    text += f".SH OPTIONS\n{rows(program.rows('Options:'))}.SH NOTES\n{paragraphs(program.notes)}"
    return text


def bash(commands):
    """The completions for bash."""
    cases = []
    for name, each in commands.items():
        options = re.findall(r"(?<![\w-])--?\w[\w-]*", " ".join(words for words, _ in each.rows("Options:")))
        cases.append(f'    {name}) options="{" ".join(options)}" ;;')
    return COMPLETION.format(commands=" ".join(commands), cases="\n".join(cases))


def main():
    parser = argparse.ArgumentParser()
    parser.add_argument("--check", action="store_true")
    parser.add_argument("tool", nargs="?", default=TOP / "crates/plan_tool/out/plan_tool")
    given = parser.parse_args()
    tool = pathlib.Path(given.tool).resolve()
    program = Help(tool)
    names = [words for words, _ in program.rows("Commands:") if words != "help"]
    commands = {name: Help(tool, name) for name in names}
    version = subprocess.run([tool, "--version"], capture_output=True, text=True, check=True).stdout.strip()
    stale = 0
    for file, text in [(MAN, man(program, commands, version)), (BASH, bash(commands))]:
        if not given.check:
            file.write_text(text, encoding="utf-8")
        elif not file.exists() or file.read_text(encoding="utf-8") != text:
            stale += 1
            print(f"{file.relative_to(TOP)} isn't what --help says: run scripts/help_pages.py")
    print(f"help pages: {len(commands)} commands, {stale} stale")
    sys.exit(1 if stale else 0)


if __name__ == "__main__":
    main()

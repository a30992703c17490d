"""Tests of where a text goes and comes from: `-o`, `--pretty`, standard input, and the progress of random runs.

Used by `scripts/program_tests`. What `-o` writes is compared with what the same words print without it.
"""
import json
import os
import pathlib
import pty
import re
import shutil
import subprocess

TOP = pathlib.Path(__file__).resolve().parent.parent
EXAMPLES = TOP / "examples"
OLD = "what the file held\n"
MADE = [
    ["search", "p.json"],
    ["new", "--members", "0-5"],
    ["new", "--zones", "0,1/2,3/4,5", "--survive", "zone+1", "--groups", "4", "--born", "1"],
    ["replace", "p.json", "--out", "5", "--in", "6"],
    ["draw", "p.json"],
    ["draw", "p.json", "s.txt"],
]
# Words whose status isn't 0: what is printed without -o is printed with it, and the file isn't touched.
UNMADE = [
    ["search", "fails.json"],
    ["search", "faulty.json"],
    ["search", "none"],
    ["new", "--members", "0-5", "--read", "3", "--write", "3"],
    ["new", "--members", "0-5,3"],
    ["replace", "p.json", "--out", "7", "--in", "8"],
    ["replace", "fails.json", "--out", "5", "--in", "6"],
    ["draw", "faulty.json"],
    ["draw", "fails.json", "s.txt"],
    ["draw", "p.json", "bad.txt"],
]

# Calls of the system that fail: the one with the number NTH of those that -o makes. Which one it was goes to a file.
FAILING = """\
#define _GNU_SOURCE
#include <dlfcn.h>
#include <errno.h>
#include <fcntl.h>
#include <stdarg.h>
#include <stdlib.h>
#include <string.h>
#include <sys/syscall.h>
#include <unistd.h>

static int fails(const char *call) {
  static int seen;
  const char *nth = getenv("NTH"), *log = getenv("LOG");
  if (++seen != atoi(nth)) return 0;
  int file = syscall(SYS_openat, AT_FDCWD, log, O_WRONLY | O_CREAT | O_TRUNC, 0600);
  syscall(SYS_write, file, call, strlen(call));
  syscall(SYS_close, file);
  errno = EIO;
  return 1;
}

int open(const char *name, int how, ...) {
  va_list more;
  va_start(more, how);
  int mode = va_arg(more, int);
  va_end(more);
  if (how & O_CREAT && fails("open")) return -1;
  return syscall(SYS_openat, AT_FDCWD, name, how, mode);
}

ssize_t write(int file, const void *from, size_t size) {
  if (file > 2 && fails("write")) return -1;
  if (file > 2 && size > 100) size = size / 2;
  return syscall(SYS_write, file, from, size);
}

int fsync(int file) { return fails("fsync") ? -1 : (int)syscall(SYS_fsync, file); }
int fchmod(int file, mode_t mode) { return fails("fchmod") ? -1 : (int)syscall(SYS_fchmod, file, mode); }
int rename(const char *old, const char *new) {
  return fails("rename") ? -1 : (int)syscall(SYS_rename, old, new);
}
"""


def files(program):
    """The files of the folder, and what they hold."""
    return {each.name: each.read_bytes() for each in sorted(program.folder.iterdir()) if each.is_file()}


def written(program):
    """Plans and scripts, with a claim that fails, with another fault, and with a bad line."""
    plan = json.loads((EXAMPLES / "six_copies.json").read_text())
    root = plan["groups"][0]["configurations"][0]
    program.write("fails.json", json.dumps({**plan, "groups": [{"configurations": [{**root, "write": root["read"], "meets": None}]}]}))
    program.write("faulty.json", json.dumps({**plan, "groups": [{"configurations": [{**root, "parent": 0}]}]}))
    program.write("bad.txt", "opne 2\n")


def placed(program):
    """`-o FILE`: the file gets what is printed without it, or is left as it was; nothing else is left in the folder."""
    written(program)
    before = files(program)
    for words in MADE:
        status, out, err = program.answer(*words)
        yield f"{words}: made", (status, bool(out), err), (0, True, "")
        for name, held in [("new", None), ("old", OLD)]:
            if held:
                program.write(name, held)
            yield f"{words} -o {name}", program.answer(*words, "-o", name), (0, "", "")
            yield f"{words} -o {name}: files", files(program), {**before, name: out.encode()}
            (program.folder / name).unlink()
    for words in UNMADE:
        printed = program.answer(*words)
        yield f"{words}: isn't made", printed[0] > 0, True
        program.write("old", OLD)
        for name in "new", "old":
            yield f"{words} -o {name}", program.answer(*words, "-o", name), printed
            yield f"{words} -o {name}: files", files(program), {**before, "old": OLD.encode()}
        (program.folder / "old").unlink()
    yield from in_place(program)
    yield from unwritable(program)
    yield from failing(program)


def in_place(program):
    """A plan's own file, permissions, a symbolic link, a leftover beside the file, and a folder of its own."""
    out = program.answer("search", "p.json")[1]
    path = program.folder / "kept.json"
    for mode in 0o600, 0o664, 0o755:
        shutil.copy(program.folder / "p.json", path)
        path.chmod(mode)
        yield f"mode {mode:o}", program.answer("search", "kept.json", "-o", "kept.json"), (0, "", "")
        yield f"mode {mode:o}: kept", (path.read_text(), path.stat().st_mode & 0o777), (out, mode)
    link = program.folder / "link.json"
    link.symlink_to("kept.json")
    shutil.copy(program.folder / "p.json", path)
    yield "a link", program.answer("search", "link.json", "-o", "link.json"), (0, "", "")
    yield "a link: kept", (link.is_symlink(), path.read_text()), (True, out)
    program.write("kept.json.new0", OLD)
    yield "a leftover", program.answer("search", "p.json", "-o", "kept.json"), (0, "", "")
    yield "a leftover: kept", (program.folder / "kept.json.new0").read_text(), OLD
    (program.folder / "kept.json.new0").unlink()
    (program.folder / "below").mkdir()
    yield "another folder", program.answer("search", "p.json", "-o", "below/new.json"), (0, "", "")
    yield "another folder: kept", [(each.name, each.read_text()) for each in (program.folder / "below").iterdir()], [("new.json", out)]


def unwritable(program):
    """Names that no file can have, and things that aren't files: a line says so, and nothing is left behind."""
    os.mkfifo(program.folder / "pipe")
    before = files(program)
    for name in ["none/new", ".", "below", "pipe", "/dev/null", "/dev/full", "p.json/new", "", "x" * 300]:
        due = (2, "", f"output: cannot write {name}\n")
        yield f"-o '{name}'", program.answer("new", "--members", "0-5", "-o", name), due
        yield f"-o '{name}': files", files(program), before
    yield "no name", program.answer("new", "--members", "0-5", "-o")[0], 2
    for words in [["check", "p.json"], ["run", "p.json", "s.txt"], ["explain", "p.json"], ["simulate", "p.json"]]:
        yield f"{words} -o", program.answer(*words, "-o", "new")[0], 2
    yield "draw --pretty", program.answer("draw", "p.json", "--pretty")[0], 2


def failing(program):
    """Each call that writes the file fails in turn: the file is as it was, and the new one is gone."""
    if not shutil.which("cc"):
        print("program tests: writes that fail aren't tested, since there is no cc")
        return
    library = program.folder / "failing.so"
    subprocess.run(["cc", "-shared", "-fPIC", "-o", library, program.folder / program.write("failing.c", FAILING)], check=True)
    program.write("old", OLD)
    seen = set()
    before = files(program)
    for nth in range(1, 50):
        how = {"LD_PRELOAD": str(library), "NTH": str(nth), "LOG": str(program.folder / "log")}
        answer = program.answer("new", "--members", "0-5", "-o", "old", env=how)
        call = program.folder / "log"
        if not call.exists():
            yield "no call fails", (answer, (program.folder / "old").read_text() != OLD), ((0, "", ""), True)
            break
        seen.add(call.read_text())
        call.unlink()
        yield f"call {nth} fails", (answer, files(program)), ((2, "", "output: cannot write old\n"), before)
    yield "all calls", seen, {"open", "write", "fsync", "fchmod", "rename"}


def standard_input(program):
    """`-` in place of a plan's or a script's file: the same answer as with the file; for both, a mistake."""
    written(program)
    commands = ["check -", "search -", "run - s.txt", "run p.json -", "fleet - s.txt -w 1", "fleet p.json - -w 1", "draw -",
                "draw - s.txt", "draw p.json -", "replace - --out 5 --in 6", "simulate - --runs 5", "steps - -c 0", "explain - s.txt"]
    for line in commands:
        name = "s.txt" if line.startswith(("run p", "fleet p", "draw p")) else "p.json"
        due = program.answer(*[name if word == "-" else word for word in line.split()])
        with open(program.folder / name, "rb") as file:
            yield line, program.answer(*line.split(), stdin=file), due
    with open(program.folder / "faulty.json", "rb") as file:
        yield "a fault", program.answer("check", "-", stdin=file), program.answer("check", "faulty.json")
    yield "no input", program.answer("check", "-"), program.answer("check", program.write("empty", ""))
    for command in "run", "fleet", "explain", "draw":
        status, out, err = program.answer(command, "-", "-")
        yield f"{command} - -", (status, out, err.startswith("error: standard input is read once")), (2, "", True)
    with open(program.folder / "p.json", "rb") as file:
        yield "to a file", program.answer("search", "-", "-o", "new", stdin=file), (0, "", "")
    yield "to a file: kept", (program.folder / "new").read_text(), program.answer("search", "p.json")[1]


def pretty_plans(program):
    """`--pretty`: the same JSON in the same order, over several lines of which none has two configurations."""
    written(program)
    texts = [(path.name, path.read_text()) for path in sorted(EXAMPLES.glob("*.json"))]
    for name, text in [*texts, ("a claim that fails", (program.folder / "fails.json").read_text())]:
        plan = program.write("plan.json", text)
        yield from laid_out(program, f"search {name}", ["search", plan])
    for words in MADE[:4]:
        yield from laid_out(program, f"{words}", words)
    due = (EXAMPLES / "README.md").exists() and program.answer("new", "--members", "0-2", "--pretty")[1]
    yield "new --members 0-2", re.sub(r'"meets":\{.*\}', '"meets":..', due), PRETTY
    yield "with -o", program.answer("new", "--members", "0-2", "--pretty", "-o", "new"), (0, "", "")
    yield "with -o: kept", (program.folder / "new").read_text(), due
    yield from too_long(program)


PRETTY = """\
{"format":1,
 "groups":[
  {"configurations":[
    {"full":[0,1,2],
     "meets":..,
     "members":[0,1,2],
     "parent":null,
     "read":{"k":2,"of":"all"},
     "step":null,
     "write":{"k":2,"of":"all"}}]}],
 "lal":10000000}
"""


def laid_out(program, name, words):
    """A plan that is laid out: no bytes but blanks are added, and it reads back as the same plan."""
    status, line, err = program.answer(*words)
    answer = program.answer(*words, "--pretty")
    yield f"{name}: status", (answer[0], answer[2]), (status, err)
    if not line.startswith("{"):
        yield f"{name}: line", answer[1], line
        return
    yield f"{name}: blanks", re.sub(r"\n *", "", answer[1]), line.rstrip("\n")
    yield f"{name}: JSON", json.loads(answer[1]), json.loads(line)
    count = sum(len(group["configurations"]) for group in json.loads(line)["groups"])
    yield f"{name}: lines", answer[1].count("\n"), 3 + len(json.loads(line)["groups"]) + 7 * count + line.count('"born"')
    for command in "check", "search":
        due = program.answer(command, program.write("line.json", line))
        yield f"{name}: {command}", program.answer(command, program.write("pretty.json", answer[1])), due


def too_long(program):
    """A plan whose line has 16,777,216 bytes is printed as a line: laid out it would have more."""
    plan = json.loads(program.answer("new", "--members", "0-5")[1])
    root = plan["groups"][0]["configurations"][0]
    bare = {**root, "meets": None}
    plan["groups"] = [{"configurations": [bare]}]
    text = json.dumps(plan, sort_keys=True, separators=(",", ":"))
    least = program.answer("search", program.write("plan.json", text))[1]
    yield "a short one", len(program.answer("search", "plan.json", "--pretty")[1]) > len(least), True


def progress(program):
    """Random runs whose standard error is a terminal: it shows how many have ended, and standard output is the same."""
    words = ["simulate", "p.json", "--runs", "100"]
    printed = program.answer(*words)
    yield "no terminal", (printed[0], printed[2]), (0, "")
    master, slave = pty.openpty()
    answer = program.answer(*words, stderr=slave)
    os.close(slave)
    seen = b""
    while True:
        try:
            part = os.read(master, 65536)
        except OSError:
            break
        if not part:
            break
        seen += part
    os.close(master)
    yield "a terminal", answer, printed
    shown = [int(number) for number in re.findall(rb"\rsimulate: (\d+) of 100 runs", seen)]
    yield "a terminal: shown", (shown, seen.endswith(b"\r\x1b[K")), (list(range(1, 101)), True)


# A newcomer's plans, made by the words of `--help` alone.
WALK = [
    ("copies", "new --zones 0,1/2,3/4,5 --survive zone+1", "replace --out 5 --in 6"),
    ("full", "new --members 0-5 --tail 3-5", "replace --out 5 --in 6"),
    ("growing", "new --members 0-5 --groups 4 --born 1", "replace --out 0 --in 6 -g 3"),
]


def newcomer(program):
    """Makes each plan, replaces a member with the way back, draws, explains, tries each step and makes random runs; no JSON by hand."""
    for name, first, second in WALK:
        plan, more = f"{name}.json", f"{name}_more.json"
        yield f"{name}: new", program.answer(*first.split(), "-o", plan), (0, "", "")
        command, *options = second.split()
        yield f"{name}: replace", program.answer(command, plan, *options, "-o", more), (0, "", "")
        for each in plan, more:
            yield f"{each}: check", program.answer("check", each)[0], 0
            yield f"{each}: draw", program.answer("draw", each, "-o", "picture.svg"), (0, "", "")
            yield f"{each}: picture", (program.folder / "picture.svg").read_text().startswith("<svg "), True
            status, out, err = program.answer("explain", each)
            yield f"{each}: explain", (status, err, out.count("survives the loss of any") > 1), (0, "", True)
            words = ["simulate", each, "--crash", "--replace"]
            status, out, err = program.answer(*words)
            yield f"{each}: simulate", (status, out.startswith("1,000 runs, "), out.count("0 promises broken"), err), (0, True, 1, "")
        group = options[options.index("-g") + 1] if "-g" in options else "0"
        for number in 1, 2, 3:
            status, out, err = program.answer("steps", more, "-g", group, "-c", number)
            yield f"{name}: step {number}", (status, err), (0, "")
            yield f"{name}: run {number}", program.answer("run", more, program.write("step.txt", out))[0], 0


TESTS = [placed, standard_input, pretty_plans, progress, newcomer]

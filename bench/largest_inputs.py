#!/usr/bin/env python3
"""Runs `new`, `replace`, `steps`, `draw` and `simulate` over the largest legal inputs, and fails where one takes more than its bound.

    python3 bench/largest_inputs.py [--small] [crates/plan_tool/out/plan_tool]

The inputs: 64 members, 64 configurations a group, 16 groups, weights, zones, chains of steps, plans of 15 MB, scripts of 2,000 events, certificates
as deep as JSON may nest. Each run may take 2 seconds of processor time, and must end with the status that is due. With `--small` only those that take
less than half a second are run.
"""
import json
import os
import pathlib
import resource
import subprocess
import sys
import tempfile

sys.dont_write_bytecode = True
from big_plan import plan_text
from hostile_plans import choices, deep, plan

TOP = pathlib.Path(__file__).resolve().parent.parent
PROGRAM = TOP / "crates" / "plan_tool" / "out" / "plan_tool"
SECONDS = 2
LONGEST = 60
ALL = "0-63"
WEIGHTS = ",".join(f"{member}={255 - member}" for member in range(64))


def by_twos(count):
    """Zones of two members."""
    return "/".join(f"{2 * zone},{2 * zone + 1}" for zone in range(count))


def chain(count):
    """A group of 64 members in which each configuration's parent is the one before it."""
    configurations = []
    for number in range(count):
        members = list(range(64))
        threshold = {"k": 33, "of": "all"}
        configurations.append({"parent": number - 1 if number else None, "members": members, "full": members, "read": threshold,
                               "write": threshold, "meets": None, "step": None})
    return json.dumps({"format": 1, "lal": 10, "groups": [{"configurations": configurations}]})


def majorities(groups, count):
    """Groups of configurations of 63 members, of which 32 read and 32 write."""
    members = list(range(63))
    threshold = {"k": 32, "of": members}
    root = {"parent": None, "members": members, "full": members, "read": threshold, "write": threshold, "meets": None, "step": None}
    configurations = [root] + [{**root, "parent": 0}] * (count - 1)
    return json.dumps({"format": 1, "lal": 10, "groups": [{"configurations": configurations}] * groups})


def cut(text, group, count):
    """A plan of which a group has only its first configurations."""
    found = json.loads(text)
    found["groups"][group]["configurations"] = found["groups"][group]["configurations"][:count]
    return json.dumps(found, separators=(",", ":"))


def nested(levels):
    """A plan with a certificate as deep as JSON may nest, which is deeper than a certificate may be."""
    leaf = {"rule": "clash", "left": 0, "right": 0}
    for _ in range(levels):
        leaf = {"rule": "open", "side": "left", "item": 0, "then": leaf}
    found = json.loads(plan_text(1))
    found["groups"][0]["configurations"][0]["meets"] = leaf
    return json.dumps(found)


def long_script(events):
    """A script of so many events: records, each delivered to four members, whose answers the writer takes."""
    lines = []
    while len(lines) < events:
        line = len(lines) + 1
        lines.append(f"issue 1 0:{line % 16}:0:61")
        lines += [f"deliver 0 {member} {line}.1" for member in range(4)]
        lines += [f"take 1 {line + place}.1" for place in range(1, 5)]
    return "".join(f"{line}\n" for line in lines[:events])


def cases(make):
    """Each run: its name, its words, the status that is due, and whether it is one of the small ones."""
    yield "new: 64 members, 16 groups", ["new", "--members", ALL, "--groups", "16", "--born", "1"], 0, True
    yield "new: 64 weights", ["new", "--members", ALL, "--weights", WEIGHTS, "--groups", "16"], 0, True
    yield "new: 32 full, 32 tail", ["new", "--members", ALL, "--tail", "32-63", "--groups", "16"], 0, True
    yield "new: any 31 losses", ["new", "--members", ALL, "--survive", "31", "--groups", "16"], 0, True
    yield "new: 32 zones of 2", ["new", "--zones", by_twos(32), "--survive", "zone+1", "--groups", "16"], 0, True
    yield "new: 3 zones of 21", ["new", "--zones", "0-20/21-41/42-62", "--survive", "zone+1", "--groups", "16"], 0, True
    yield "new: 3 zones of 21, zone", ["new", "--zones", "0-20/21-41/42-62", "--survive", "zone", "--groups", "16"], 0, True
    six = make("six.json", lambda: plan_text(1))
    most = make("most.json", lambda: cut(plan_text(16), 0, 61))
    swap = ["--out", "5", "--in", "63", "-c", "0"]
    yield "replace: 16 groups of 64 configurations", ["replace", most, *swap], 0, False
    full = make("full.json", lambda: plan_text(16))
    yield "replace: no place", ["replace", full, *swap], 1, True
    plain = make("plain.json", lambda: majorities(16, 61))
    yield "replace: 976 configurations of 63 members", ["replace", plain, *swap], 0, False
    long = make("chain.json", lambda: chain(64))
    found = make("chain_found.json", lambda: ["search", long])
    yield "steps: a chain of 64 configurations of 64 members", ["steps", found, "-c", "63"], 0, True
    yield "steps: 16 groups of 64 configurations", ["steps", full, "-g", "15", "-c", "63"], 0, True
    yield "draw: a chain of 64 configurations of 64 members", ["draw", found], 0, True
    yield "draw: 16 groups of 64 configurations", ["draw", full], 0, True
    wide = make("wide.json", lambda: plan(1024, choices(6, 2, 3, 250)))
    yield "draw: 1,024 configurations of overlapping triples", ["draw", wide], 0, False
    large = make("large.json", lambda: plan(1024, choices(5, 2, 3, 1200)))
    yield "draw: 15 MB", ["draw", large], 0, False
    yield "steps: 15 MB that isn't certified", ["steps", large, "-c", "1"], 1, False
    yield "simulate: 15 MB that isn't certified", ["simulate", large], 1, False
    heavy = make("heavy.json", lambda: plan(64, choices(5, 2, 3, 4000)))
    yield "draw: 64 configurations of 4,000 parts", ["draw", heavy], 0, False
    nests = make("nests.json", lambda: plan(64, deep(8, 1)))
    yield "draw: 64 children six deep", ["draw", nests], 0, False
    deepest = make("deepest.json", lambda: nested(118))
    yield "draw: a certificate that is too deep", ["draw", deepest], 1, True
    script = make("long.script", lambda: long_script(2000))
    yield "draw: 2,000 events", ["draw", six, script], 0, True
    yield "draw: 2,000 events over 16 groups of 64 configurations", ["draw", full, script], 0, False
    yield "simulate: 16 groups of 64 configurations", ["simulate", full, "--runs", "10", "--crash", "--replace"], 0, False
    yield "simulate: a chain of 64 configurations of 64 members", ["simulate", found, "--runs", "2", "--crash", "--replace"], 0, False
    grown = make("grown.json", lambda: ["new", "--members", ALL, "--groups", "16", "--born", "1"])
    yield "simulate: 16 groups of 64 members that join", ["simulate", grown, "--runs", "2", "--crash"], 0, False


def main():
    words = sys.argv[1:]
    small = "--small" in words
    tool = pathlib.Path(next((word for word in words if not word.startswith("-")), PROGRAM)).resolve()
    slow = wrong = ran = 0
    with tempfile.TemporaryDirectory() as folder:

        def make(name, text):
            """Writes an input to a file: a text, or what the program prints."""
            made = text()
            path = pathlib.Path(folder, name)
            path.write_text(made if isinstance(made, str) else subprocess.run([tool, *made], capture_output=True, text=True).stdout)
            return str(path)

        for name, case, due, is_small in cases(make):
            if small and not is_small:
                continue
            before = resource.getrusage(resource.RUSAGE_CHILDREN)
            with open(os.devnull, "wb") as nowhere:
                try:
                    status = subprocess.run([tool, *case], stdout=nowhere, stderr=subprocess.STDOUT, timeout=LONGEST).returncode
                except subprocess.TimeoutExpired:
                    status = None
            after = resource.getrusage(resource.RUSAGE_CHILDREN)
            took = after.ru_utime + after.ru_stime - before.ru_utime - before.ru_stime
            size = sum(os.path.getsize(word) for word in case if word.startswith(folder))
            ran, slow, wrong = ran + 1, slow + (took > SECONDS), wrong + (status != due)
            mark = "" if took <= SECONDS and status == due else f"   <- status {status}, {due} is due"
            print(f"{took:6.2f} s  {size / 1e6:5.1f} MB  {name}{mark}", flush=True)
    print(f"largest inputs: {ran} runs, {slow} slower than {SECONDS} s of processor time, {wrong} with another status")
    sys.exit(1 if slow or wrong else 0)


if __name__ == "__main__":
    main()

#!/usr/bin/env python3
"""Measures the most memory that `plan_tool check`, `search` and `run` take over the largest inputs that they accept.

    python3 bench/memory.py [crates/plan_tool/out/plan_tool [OTHER]]

OTHER is a program with the same commands, which is measured too. The inputs are made here: plans of 16 groups of 64
configurations, with certificates for `check` and without for `search`; a plan of nearly 16 MiB whose three certificates have almost
100,000 nodes each; scripts of nearly 100,000 lines; and one of nearly 16 MiB, whose lines issue 32 changes of 64 bytes each. Each job
must end with status 0, and OTHER must print the same. Memory is the most that a process used at once, by GNU
`time`, which has to be installed; the least of some runs counts.
"""
import json
import os
import subprocess
import sys
import tempfile

sys.dont_write_bytecode = True
from big_plan import configuration
from scripts import four_groups, recoveries, six_copies, steady

ROUNDS = 3
LAL = 10_000_000
LARGEST = 16_777_216
NODES = 100_000
MEMBERS = list(range(6))


def plan_text(configurations, groups=1, lal=10):
    """A plan of such groups, on one line."""
    plan = {"format": 1, "lal": lal, "groups": [{"configurations": configurations}] * groups}
    return json.dumps(plan, separators=(",", ":"))


def certified(groups):
    """Certified groups of 64 configurations of six copies."""
    return plan_text([configuration(None)] + [configuration(0)] * 63, groups)


def uncertified(read, write, members, groups=16):
    """Groups of 64 configurations with these expressions and members, without certificates."""
    bare = {"members": members, "full": members, "read": read, "write": write, "meets": None, "step": None}
    return plan_text([{"parent": None, **bare}] + [{"parent": 0, **bare}] * 63, groups)


def halves(least):
    """Two of three zones of six, with `least` members of each."""
    zones = [list(range(6 * zone, 6 * zone + 6)) for zone in range(3)]
    return {"k": 2, "of": [{"k": least, "of": zone} for zone in zones]}


def many_nodes():
    """A certificate for six copies with almost 100,000 nodes: cases of member 63, which doesn't exist, and a match in each."""
    clash = '{"rule":"clash","left":0,"right":0}'
    pairs = ",".join(f"[{member},{member}]" for member in MEMBERS)
    matched = f'{{"rule":"match","left":0,"right":0,"pairs":[{pairs}],"then":[{",".join([clash] * 6)}]}}'
    leaves = NODES // 8

    def cases(count):
        if count == 1:
            return matched
        left = count // 2
        return f'{{"rule":"split","member":63,"left":{cases(left)},"right":{cases(count - left)}}}'

    return cases(leaves)


def wide_plan():
    """Two configurations of six copies, each certificate of almost 100,000 nodes."""
    quorums = f'"members":{MEMBERS},"full":{MEMBERS},"read":{{"k":3,"of":"all"}},"write":{{"k":4,"of":"all"}}'.replace(" ", "")
    nodes = many_nodes()
    root = f'{{"parent":null,{quorums},"meets":{nodes},"step":null}}'
    child = f'{{"parent":0,{quorums},"meets":{nodes},"step":{nodes}}}'
    return f'{{"format":1,"lal":{LAL},"groups":[{{"configurations":[{root},{child}]}}]}}'


def wide_script():
    """Lines that issue 32 changes of 64 bytes, up to the largest script."""
    lines, size = [], 0
    while True:
        number = len(lines)
        changes = " ".join(f"0:{(number + place) % 4096}:0:{number * 32 + place:0128x}" for place in range(32))
        line = f"issue 1 {changes}\n"
        size += len(line)
        if size > LARGEST:
            return "".join(lines)
        lines.append(line)


def text_of(script):
    return "\n".join(script.lines) + "\n"


def inputs():
    """Each job with its words, and the texts of its files."""
    plain = ({"k": 3, "of": "all"}, {"k": 4, "of": "all"}, MEMBERS)
    zones = (halves(3), halves(4), list(range(18)))
    one = six_copies(1)
    yield "check, 2,032 certificates", "check", certified(16), None
    yield "check, three certificates of 100,000 nodes", "check", wide_plan(), None
    for workers in 1, 4:
        yield f"search, 2,032 plain claims, {workers} workers", f"search -w {workers}", uncertified(*plain), None
        yield f"search, 2,032 claims of zones, {workers} workers", f"search -w {workers}", uncertified(*zones), None
    yield "run, steady writing, 100,000 lines", "run", one, text_of(steady(99_999))
    yield "run, four groups, 100,000 lines", "run", six_copies(4), text_of(four_groups(99_999))
    yield "run, recoveries between, 100,000 lines", "run", one, text_of(recoveries(99_999))
    yield "run, issues of 32 changes of 64 bytes, 16 MiB", "run", one, wide_script()


def once(program, words, out):
    """The most memory of a run, in kB, and its status."""
    with open(out, "w") as file:
        measured = subprocess.run(["time", "-q", "-f", "%M", "--", program, *words], stdout=file, stderr=subprocess.PIPE, text=True)
    return int(measured.stderr.split()[-1]), measured.returncode


def least(program, words, out):
    """The least of the most memory of some runs, in MB, and what was printed."""
    most = []
    for _ in range(ROUNDS):
        memory, status = once(program, words, out)
        if status != 0:
            sys.exit(f"{program} {' '.join(words)}: status {status}")
        most.append(memory)
    with open(out) as file:
        return min(most) / 1024, file.read()


def row(programs, folder, name, words, plan, script):
    """A line of the table."""
    paths = [os.path.join(folder, file) for file in ("plan.json", "script", "out")]
    for path, text in zip(paths, (plan, script or "")):
        with open(path, "w") as file:
            file.write(text)
    job, *more = words.split()
    files = paths[:2] if script else paths[:1]
    took = [least(program, [job, *files, *more], paths[2]) for program in programs]
    same = "" if len({printed for _, printed in took}) == 1 else " (prints otherwise)"
    ratio = f" | {took[0][0] / took[1][0]:.2f}" if len(took) > 1 else ""
    size = (len(plan) + len(script or "")) / 1e6
    cells = " | ".join(f"{memory:.1f} MB" for memory, _ in took)
    print(f"| {name}{same} | {size:.1f} MB | {cells}{ratio} |", flush=True)


def main():
    programs = sys.argv[1:3] or ["crates/plan_tool/out/plan_tool"]
    print("| Job | Input | Ours | Plain | Ours / plain |\n|---|---|---|---|---|" if len(programs) > 1 else "| Job | Input | Memory |\n|---|---|---|")
    with tempfile.TemporaryDirectory() as folder:
        for name, words, plan, script in inputs():
            row(programs, folder, name, words, plan, script)


if __name__ == "__main__":
    main()

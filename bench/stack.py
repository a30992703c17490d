#!/usr/bin/env python3
"""Runs `plan_tool` on the deepest possible inputs, with a stack of 256 kB.

    python3 bench/stack.py [crates/plan_tool/out/plan_tool]

The plan has 16 groups of 64 configurations. Each expression is 6 deep; the first certificate of each group is 40 deep, and that of the
first group has almost 100,000 nodes too. `check`, `search`, `run` and `fleet` have to answer as with a normal stack,
and with the answers expected here. The same is tried for texts that are nested too deep to be a plan.
(The limit is that of the first thread. The threads of a search and of a fleet have stacks of the kit's size.)
"""
import os
import resource
import subprocess
import sys
import tempfile

SMALL = 256 * 1024
MEMBERS = "[0,1,2,3,4,5]"
GROUPS, CONFIGURATIONS = 16, 64
DEPTH, NODES = 40, 100_000
CLASH = '{"rule":"clash","left":0,"right":0}'
SCRIPT = "issue 1 0:0:0:61\ndeliver 0 0 1.1\nassign\ntake 2 3.1\ndeliver 0 1 4.1\n"


def deep(k):
    """At least k of six members, below four thresholds of one child each."""
    text = f'{{"k":{k},"of":"all"}}'
    for _ in range(4):
        text = f'{{"k":1,"of":[{text}]}}'
    return text


def closing():
    """A certificate of such a claim: a match for each threshold, and six clashes. It is 6 deep and has 11 nodes."""
    pairs = ",".join(f"[{member},{member}]" for member in range(6))
    text = f'{{"rule":"match","left":0,"right":0,"pairs":[{pairs}],"then":[{",".join([CLASH] * 6)}]}}'
    for _ in range(4):
        text = f'{{"rule":"match","left":0,"right":0,"pairs":[[0,0]],"then":[{text}]}}'
    return text


def split(left, right):
    """The cases of member 63, which doesn't exist."""
    return f'{{"rule":"split","member":63,"left":{left},"right":{right}}}'


def cases(count):
    """`count` closing certificates, as flat as possible."""
    return closing() if count == 1 else split(cases(count // 2), cases(count - count // 2))


def chain(depth):
    """A certificate of this depth."""
    text = closing()
    for _ in range(depth - 6):
        text = split(closing(), text)
    return text


def wide_and_deep():
    """A certificate that is 40 deep and has almost 100,000 nodes."""
    return split(cases((NODES - 12 * DEPTH) // 12), chain(DEPTH - 1))


def configuration(parent, meets, step):
    quorums = f'"members":{MEMBERS},"full":{MEMBERS},"read":{deep(3)},"write":{deep(4)}'
    return f'{{"parent":{parent},{quorums},"meets":{meets},"step":{step}}}'


def plan(certified):
    """The plan, with its certificates or with none."""
    rest, step = (closing(), closing()) if certified else ("null", "null")
    groups = []
    for group in range(GROUPS):
        first = "null" if not certified else wide_and_deep() if group == 0 else chain(DEPTH)
        children = [configuration(0, rest, step)] * (CONFIGURATIONS - 1)
        groups.append(f'{{"configurations":[{",".join([configuration("null", first, "null")] + children)}]}}')
    return f'{{"format":1,"lal":10,"groups":[{",".join(groups)}]}}'


def nested():
    """Texts that are nested too deep, and the expected answers."""
    start = '{"format":1,"lal":10,"groups":'
    yield "brackets", start + "[" * 8_000_000, "input: 13 Malformed\n"
    yield "rules", start + '[{"configurations":[{"parent":null,"meets":' + '{"rule":"open","then":' * 500_000, "input: 13 Malformed\n"


def run(words, small):
    """Runs the program with a small stack or a normal one. Returns its status and its outputs."""

    def limit():
        resource.setrlimit(resource.RLIMIT_STACK, (SMALL, SMALL))

    ran = subprocess.run(words, capture_output=True, text=True, preexec_fn=limit if small else None)
    return ran.returncode, ran.stdout, ran.stderr


def tried(name, words, due=None):
    """Whether a run with a small stack answers as with a normal one, and as expected."""
    small, own = run(words, True), run(words, False)
    right = small == own and small[0] >= 0 and (due is None or small == due)
    print(f"{name}: {'as ever' if right else 'OTHERWISE'}, status {small[0]}, {(small[1] + small[2])[:70]!r}", flush=True)
    return right


def main():
    tool = sys.argv[1] if len(sys.argv) > 1 else "crates/plan_tool/out/plan_tool"
    with tempfile.TemporaryDirectory() as folder:
        certified, bare, script = (os.path.join(folder, name) for name in ("certified.json", "bare.json", "script"))
        for path, text in (certified, plan(True)), (bare, plan(False)), (script, SCRIPT):
            with open(path, "w") as file:
                file.write(text)
        claims = GROUPS * (2 * CONFIGURATIONS - 1)
        yes = f"yes: {GROUPS} groups, {GROUPS * CONFIGURATIONS} configurations, {claims} certificates\n"
        right = tried("check", [tool, "check", certified], (0, yes, ""))
        right &= tried("search", [tool, "search", bare, "-w", "1"])
        right &= tried("search, 4 workers", [tool, "search", bare, "-w", "4"])
        right &= tried("run", [tool, "run", certified, script])
        right &= tried("fleet", [tool, "fleet", certified, script, "-w", "2"])
        for name, text, said in nested():
            path = os.path.join(folder, name)
            with open(path, "w") as file:
                file.write(text)
            right &= tried(f"nested {name}", [tool, "check", path], (2, "", said))
    sys.exit(0 if right else 1)


if __name__ == "__main__":
    main()

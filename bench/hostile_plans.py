#!/usr/bin/env python3
"""Runs `check`, `search` and `explain` over plans that are made to cost much, and fails where one takes more than its bounds.

    python3 bench/hostile_plans.py [--small] [--only WORD] [crates/plan_tool/out/plan_tool]

Each plan is legal, but for the wrong texts at the end: many thresholds that all have to hold, with weights and without, 64 children six deep,
overlapping triples of 64 members, members that weigh nearly alike, walls, a parent of 4,096 subexpressions, and up to 1,024 configurations of
these; keys in another order. `search` runs with one worker and with four. Bounds of each run, in seconds of processor time and in MB of memory:
`check` 5 and 500; `explain` 5 and 500; `search` 10 and 300, and 100 more for each worker. Besides, `search` prints the same with one worker as with
four, `check` of what it prints finds no fault in it but a claim without a certificate, and `explain` ends with the status and the last line of `check`.
With `--small` the plans are smaller, and all takes less than two minutes.
"""
import filecmp
import itertools
import json
import os
import pathlib
import random
import resource
import subprocess
import sys
import tempfile

from big_plan import plan_text
from families import block, each, heaviest_apart, plane_lines, some, wall, weighted, whole

TOP = pathlib.Path(__file__).resolve().parent.parent
PROGRAM = TOP / "crates" / "plan_tool" / "out" / "plan_tool"
TEXT = 16_777_216
MEMBERS = block(0, 64)
CHECK = 5, 500
EXPLAIN = 5, 500
SEARCH = 10, 300
A_WORKER = 100
LONGEST = 60


def compact(value):
    return json.dumps(value, separators=(",", ":"))


def plan(count, expression, form=1):
    """A plan of `count` configurations, 64 a group, each with a read and a write expression of its own."""
    groups = []
    while count > 0:
        here = min(64, count)
        count -= here
        groups.append(
            {"configurations": [
                {"parent": 0 if i else None, "members": MEMBERS, "full": [], "read": expression(), "write": expression(), "meets": None, "step": None}
                for i in range(here)
            ]}
        )
    return compact({"format": form, "lal": 10, "groups": groups})


def grouped(thresholds):
    """All of these thresholds, in groups of at most 60."""
    groups = -(-len(thresholds) // 60)
    return each([each(thresholds[i::groups]) for i in range(groups)])


def choices(seed, k, width, nodes):
    """All of many random thresholds, each k of `width` members."""
    rng = random.Random(seed)
    return lambda: grouped([some(k, sorted(rng.sample(MEMBERS, width))) for _ in range(max(1, nodes // (width + 1)))])


def weighted_choices(seed, width, nodes):
    """All of many random weighted thresholds over `width` members."""
    rng = random.Random(seed)

    def one():
        weights = [rng.randint(1, 255) for _ in range(width)]
        return weighted(rng.randint(sum(weights) // 3, sum(weights) // 2), sorted(rng.sample(MEMBERS, width)), weights)

    return lambda: grouped([one() for _ in range(max(1, nodes // (width + 1)))])


def deep(seed, nested, form=1):
    """64 children, six deep; at each level `nested` of them are thresholds."""
    rng = random.Random(seed)

    def level(depth):
        inner = nested if depth else 0
        of = rng.sample(MEMBERS, 64 - inner) + [level(depth - 1) for _ in range(inner)]
        rng.shuffle(of)
        if form == 1:
            return some(rng.randint(24, 40), of)
        weights = [rng.randint(1, 255) for _ in of]
        return weighted(rng.randint(sum(weights) * 3 // 8, sum(weights) * 5 // 8), of, weights)

    return lambda: level(4)


def alike(seed, members, least=200):
    """Members with nearly equal weights, of which little more than half are enough."""
    rng = random.Random(seed)

    def side():
        weights = [rng.randint(least, 255) for _ in range(members)]
        return weighted(sum(weights) * 11 // 20, block(0, members), weights)

    return side


def just_met(seed, members, least=200):
    """Members with nearly equal weights, whose quorums just meet: the read and write expressions of a few pairs in turn."""
    rng = random.Random(seed)
    sides = []
    while len(sides) < 12:
        read, write = [weighted(1, block(0, members), [rng.randint(least, 255) for _ in range(members)]) for _ in range(2)]
        read["k"] = sum(read["weights"]) * rng.randint(30, 70) // 100
        write["k"] = heaviest_apart(read, write, members) + 1
        if write["k"] <= sum(write["weights"]):
            sides += [read, write]
    return itertools.cycle(sides).__next__


def alternating(one, other):
    """Both in turn."""
    turn = [one, other]

    def next_one():
        turn.reverse()
        return turn[1]()

    return next_one


def heavy_parent(count):
    """Configurations whose parent has as many subexpressions as there may be."""
    heavy, light = choices(3, 2, 3, 4000), choices(4, 2, 3, 40)
    first = iter([heavy, heavy])
    return plan(count, lambda: next(first, light)())


def turned(value):
    """The same value with the keys of each object in the reverse order."""
    if isinstance(value, dict):
        return {key: turned(value[key]) for key in reversed(value)}
    return [turned(one) for one in value] if isinstance(value, list) else value


def plans(small):
    """Each plan with its name."""
    most = 40 if small else 1024
    few = 3 if small else 64
    nodes = 600 if small else 4000
    for k, width in (2, 3), (1, 3), (3, 5), (2, 4):
        yield f"{k} of {width} members, one configuration of 80", lambda: plan(1, choices(5, k, width, 80))
        yield f"{k} of {width} members, one configuration of {nodes}", lambda: plan(1, choices(5, k, width, nodes))
        yield f"{k} of {width} members, {few} configurations of {nodes}", lambda: plan(few, choices(5, k, width, nodes))
    yield f"triples of 64 members, {most} configurations", lambda: plan(most, choices(6, 2, 3, 250))
    yield f"triples of 64 members, {most} small configurations", lambda: plan(most, choices(6, 2, 3, 60))
    for width in (4, 16, 64):
        yield f"weighted choices of {width}, one configuration", lambda: plan(1, weighted_choices(7, width, nodes), 2)
        yield f"weighted choices of {width}, {few} configurations", lambda: plan(few, weighted_choices(7, width, nodes), 2)
        yield f"weighted choices of {width}, {most} configurations", lambda: plan(most, weighted_choices(7, width, nodes // 8), 2)
    for nested in (1, 2):
        yield f"64 children six deep, {nested} nested, {few} configurations", lambda: plan(few, deep(8, nested))
        yield f"weighted children six deep, {nested} nested, {few} configurations", lambda: plan(few, deep(8, nested, 2), 2)
    yield f"64 children six deep, {most} configurations", lambda: plan(most, deep(8, 1))
    for members in (14, 16):
        yield f"{members} members whose quorums just meet, one configuration", lambda: plan(1, just_met(9, members), 2)
        yield f"{members} members whose quorums just meet, 16 configurations", lambda: plan(16, just_met(9, members), 2)
        yield f"{members} members whose quorums just meet, {most} configurations", lambda: plan(most, just_met(9, members), 2)
    for members in (20, 64):
        yield f"{members} members that weigh alike, one configuration", lambda: plan(1, alike(9, members), 2)
        yield f"{members} members that weigh alike, {most} configurations", lambda: plan(most, alike(9, members), 2)
    yield f"weights of all sizes, {most} configurations", lambda: plan(most, alike(9, 14, 1), 2)
    yield f"walls, {few} configurations", lambda: plan(few, lambda: wall([2] * (16 if small else 32)))
    yield f"planes, {most} configurations", lambda: plan(most, lambda: whole(plane_lines(5 if small else 7)))
    yield f"plain and alike, {most} configurations", lambda: plan(most, alternating(just_met(9, 12), lambda: some(33, MEMBERS)), 2)
    yield f"plain, {most} configurations", lambda: plan(most, lambda: some(33, MEMBERS))
    yield f"a parent of 4,000, {few} configurations", lambda: heavy_parent(few)
    yield f"large and many, {most} configurations", lambda: plan(most, choices(5, 2, 3, nodes * 3 // 10))
    yield "the most configurations", lambda: plan_text(16)
    yield "keys in the reverse order", lambda: compact(turned(json.loads(plan(most // 2, choices(6, 2, 3, 250)))))


def wrong_texts(small):
    """Texts that are no plans, each with its name."""
    size = TEXT // 64 if small else TEXT
    head = '{"format":1,"lal":10,"groups":['
    legal = lambda: plan(3 if small else 64, choices(5, 2, 3, 600 if small else 4000))
    yield "brackets", lambda: "[" * size
    yield "numbers", lambda: (head + "0," * size)[: size - 2] + "]}"
    yield "empty objects", lambda: (head + "{}," * size)[: size - 3] + "{}"
    yield "a string", lambda: head + '"' + "a" * (size - 40) + '"]}'
    yield "escapes", lambda: head + '"' + "\\u0041" * (size // 6 - 10) + '"]}'
    yield "keys", lambda: head + "{" + ",".join(f'"{i}":0' for i in range(size // 12)) + "}]}"
    yield "members", lambda: head + '{"configurations":[{"parent":null,"members":[' + ",".join(["1"] * (size // 2 - 60)) + "]}]}]}"
    yield "a plan without its end", lambda: plan(40 if small else 1024, choices(5, 2, 3, 300 if small else 2000))[:size][:-2]
    yield "one plan after another", lambda: (legal() * (size // 10_000))[:size]
    yield "a plan and spaces", lambda: legal()[:-2].ljust(size - 2) + "]}"


def written(file, make):
    """Lets another process write a text, since this one's memory would count for the programs that it starts."""
    writer = os.fork()
    if writer == 0:
        file.write_text(make())
        os._exit(0)
    if os.waitpid(writer, 0)[1]:
        sys.exit(f"{file} could not be written")


class Run:
    """A run of the program: its status, time and memory, and the files with its output."""

    def __init__(self, program, folder, words):
        name = "_".join(words).replace("/", "_")[-40:]
        self.out, self.err = folder / f"{name}.out", folder / f"{name}.err"
        with open(self.out, "wb") as out, open(self.err, "wb") as err:
            ran = subprocess.Popen([program, *words], stdout=out, stderr=err)
            resource.prlimit(ran.pid, resource.RLIMIT_CPU, (LONGEST, LONGEST))
            _, status, used = os.wait4(ran.pid, 0)
        ran.returncode = self.status = os.waitstatus_to_exitcode(status)
        self.seconds = used.ru_utime + used.ru_stime
        self.megabytes = used.ru_maxrss / 1024

    def passes(self, seconds, megabytes):
        return self.seconds <= seconds and self.megabytes <= megabytes and self.status in (0, 1, 2)

    def last_line(self):
        """The last line of what it printed, to either output."""
        return (self.out.read_bytes() or self.err.read_bytes()).splitlines()[-1:]

    def shown(self):
        return f"{self.seconds:.2f} s {self.megabytes:.0f} MB"


class Judge:
    """Counts failures."""

    def __init__(self, program, folder):
        self.program, self.folder, self.failures = program, folder, 0

    def fail(self, name, why):
        self.failures += 1
        print(f"FAILED {name}: {why}", flush=True)

    def run(self, name, bounds, *words):
        ran = Run(self.program, self.folder, words)
        if not ran.passes(*bounds):
            self.fail(name, f"{' '.join(words[:1] + words[2:])} took {ran.shown()}, status {ran.status}")
        return ran

    def judge(self, name, make):
        file = self.folder / "plan.json"
        written(file, make)
        checked = self.run(name, CHECK, "check", str(file))
        explained = self.run(name, EXPLAIN, "explain", str(file))
        if explained.status != checked.status or explained.last_line() != checked.last_line():
            self.fail(name, "explain ends otherwise than check")
        searches = [self.run(name, (SEARCH[0], SEARCH[1] + A_WORKER * n), "search", str(file), "-w", str(n)) for n in (1, 4)]
        one, four = searches
        printed = one.out.stat().st_size
        is_plan = one.out.open("rb").read(1) == b"{"
        unfound = one.err.read_text(errors="replace").count("unfound")
        print(f"{name}: {file.stat().st_size} bytes; check {checked.shown()}; explain {explained.shown()}; search {one.shown()}, {four.shown()}; {printed} bytes, {unfound} unfound", flush=True)
        if not (filecmp.cmp(one.out, four.out, False) and filecmp.cmp(one.err, four.err, False)):
            self.fail(name, "one worker and four print different texts")
        if is_plan:
            again = self.run(name, CHECK, "check", str(one.out))
            verdict = again.out.read_text() or again.err.read_text()
            if not verdict.startswith(("yes:", "no: 32")) or (unfound == 0) != verdict.startswith("yes:"):
                self.fail(name, f"what search prints is checked as {verdict.strip()}")


def main(words):
    small = "--small" in words
    only = words[words.index("--only") + 1] if "--only" in words else ""
    rest = [word for word in words if not word.startswith("--") and word != only]
    resource.setrlimit(resource.RLIMIT_CORE, (0, 0))
    with tempfile.TemporaryDirectory() as folder:
        judge = Judge(rest[0] if rest else str(PROGRAM), pathlib.Path(folder))
        for name, make in plans(small):
            if only in name:
                judge.judge(name, make)
        for name, make in wrong_texts(small):
            if only in name:
                judge.judge(f"wrong: {name}", make)
    print(f"{judge.failures} failed")
    sys.exit(1 if judge.failures else 0)


if __name__ == "__main__":
    main(sys.argv[1:])

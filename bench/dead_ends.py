#!/usr/bin/env python3
"""Compares what `explain` says of a run's steps with a search through everything that may still happen.

    python3 bench/dead_ends.py [--runs N] [--seed N] [PLAN_TOOL]

Each run has a plan of one group with two or three steps that `search` certifies, and a random script: advances, StepTos, requests for copies, copies and
hydrations, in any order. `explain --json` says of each advance whether it waited, and since which line no later recovery can read the group. Here both are
worked out by a breadth-first search over the membership steps, copies and hydrations that may follow each line, up to a state in which the whole members
satisfy the read expression of the last configuration. The search shares no rule with the program's closure. If an advance waited and no later one didn't, the
group must be readable.

The status is 1 if a run differs.
"""
import argparse
import itertools
import json
import pathlib
import random
import subprocess
import sys
import tempfile

TOP = pathlib.Path(__file__).resolve().parent.parent


def configuration(parent, members, read, write=None):
    """A configuration of which any `read` read and any `write` write, by default so many that each read set meets each write set."""
    write = write or len(members) + 1 - read
    return {"parent": parent, "members": sorted(members), "full": sorted(members), "read": {"k": read, "of": "all"},
            "write": {"k": write, "of": "all"}, "meets": None, "step": None}


# Three members, of which each step replaces one.
ROLLING = [configuration(None, [0, 1, 2], 2), configuration(0, [0, 1, 3], 2), configuration(1, [0, 3, 4], 2), configuration(2, [3, 4, 5], 2)]

# What is worked out by hand: configurations, a script, for each advance whether it waited, and the line since which the group is lost.
CASES = [
    ("all members are new", [configuration(None, range(6), 3), configuration(0, range(6, 12), 3)], "advance 0 1", [False], 1),
    ("copies of the first step can still be sent", ROLLING, "advance 0 1; advance 0 2", [True, False], None),
    ("a delivery takes them away", ROLLING, "advance 0 1; advance 0 2; deliver 0 0 2.1", [True, False], 3),
    ("the write quorum alone is whole", [configuration(None, [0, 1, 2], 2), configuration(0, [0, 1, 3, 4], 3, 2)], "advance 0 1", [False], 1),
    ("the read quorum alone is whole", [configuration(None, range(6), 3), configuration(0, [0, 1, 2, 6, 7, 8], 3)], "advance 0 1", [True], None),
    ("a recovery that has cut opens all the same", ROLLING,
     "assign; take 2 1.1; deliver 0 0 2.1; deliver 0 1 2.1; take 2 3.1; take 2 4.1; cut 2; deliver 0 0 7.1; deliver 0 1 7.1; advance 0 1; advance 0 2;"
     " deliver 0 0 11.1; deliver 0 1 11.1; deliver 0 2 11.1; take 2 8.1; take 2 9.1; open 2", [True, False], 12),
]


def random_plan(rng):
    """A plan of a root of three members and steps that change one or two of them."""
    members, fresh = [0, 1, 2], itertools.count(3)
    all_of = [configuration(None, members, rng.choice([1, 2, 2]))]
    for number in range(rng.choice([1, 2, 2])):
        members = list(members)
        for _ in range(rng.choice([1, 1, 2])):
            members[rng.randrange(len(members))] = next(fresh)
        all_of.append(configuration(number, members, rng.choice([2, 2, 3])))
    return plan_of(all_of)


def plan_of(configurations):
    """A plan of one group."""
    return {"format": 1, "lal": 10, "groups": [{"configurations": configurations}]}


class Group:
    """A group's steps as the rules of nodes give them: `at`, the index of each member's step; who is whole; who has sent copies at which step; at which
    steps copies were asked for."""

    def __init__(self, configurations):
        self.all = configurations
        members = sorted({member for each in configurations for member in each["members"]})
        self.at = {member: 0 for member in members}
        self.whole = set(configurations[0]["members"])
        self.sent, self.asked, self.path = set(), set(), [0]

    def reads(self, index, members):
        """Whether the members are a read set of the configuration at this step."""
        each = self.all[self.path[index]]
        return len(set(members) & set(each["members"])) >= each["read"]["k"]

    def state(self):
        return (tuple(sorted(self.at.items())), frozenset(self.whole), frozenset(self.sent), frozenset(self.asked))

    def nexts(self, state):
        """All states that one more delivery or hydration makes."""
        at, whole, sent, asked = dict(state[0]), state[1], state[2], state[3]
        for member in at:
            for index in range(at[member] + 1, len(self.path)):
                more = asked if member in whole else asked | {index}
                yield (tuple(sorted({**at, member: index}.items())), whole, sent, more)
            if member in whole and at[member] in asked and (at[member], member) not in sent:
                yield (state[0], whole, sent | {(at[member], member)}, asked)
            here = [sender for index, sender in sent if index == at[member]]
            own = self.all[self.path[at[member]]]
            if member not in whole and member in own["members"] and self.reads(at[member], here):
                yield (state[0], whole | {member}, sent, asked)

    def can_be_read(self):
        """Whether some state that may follow has enough whole members."""
        seen, queue = {self.state()}, [self.state()]
        while queue:
            state = queue.pop()
            if self.reads(len(self.path) - 1, state[1]):
                return True
            for each in self.nexts(state):
                if each not in seen:
                    seen.add(each)
                    queue.append(each)
        return False


class Run:
    """A random script, with what must be said of it."""

    def __init__(self, rng, plan):
        self.group = Group(plan["groups"][0]["configurations"])
        self.lines, self.advances, self.lost = [], [], None
        self.steps, self.asks, self.copies = {}, {}, {}
        while len(self.lines) < 40 and rng.random() < 0.97:
            getattr(self, rng.choice(["advance", "step", "step", "ask", "ask", "copy", "copy", "hydrate"]))(rng)
            if self.lost is None and self.lines and not self.group.can_be_read():
                self.lost = len(self.lines)

    def advance(self, rng):
        group, child = self.group, len(self.group.path)
        if child < len(group.all):
            group.path.append(child)
            self.lines.append(f"advance 0 {child}")
            self.steps[child] = len(self.lines)
            self.advances.append({"line": len(self.lines), "group": 0, "configuration": child, "waited": group.reads(child, group.whole)})

    def step(self, rng):
        group = self.group
        if self.steps:
            index, member = rng.choice(sorted(self.steps)), rng.choice(sorted(group.at))
            self.lines.append(f"deliver 0 {member} {self.steps[index]}.1")
            if group.at[member] < index:
                group.at[member] = index
                if member not in group.whole:
                    group.asked.add(index)
                    self.asks.setdefault(index, len(self.lines))

    def ask(self, rng):
        group = self.group
        if self.asks:
            index, member = rng.choice(sorted(self.asks)), rng.choice(sorted(group.at))
            self.lines.append(f"deliver 0 {member} {self.asks[index]}.1")
            if member in group.whole and group.at[member] == index:
                group.sent.add((index, member))
                self.copies[index, member] = len(self.lines)

    def copy(self, rng):
        group = self.group
        if self.copies:
            index, sender = rng.choice(sorted(self.copies))
            for member in sorted(group.at):
                if member not in group.whole and group.at[member] == index:
                    self.lines.append(f"deliver 0 {member} {self.copies[index, sender]}.1")

    def hydrate(self, rng):
        """Lets a member become whole from all copies of its step that were sent."""
        group = self.group
        waiting = [member for member in sorted(group.at) if member not in group.whole]
        if not waiting:
            return
        member = rng.choice(waiting)
        index = group.at[member]
        here = [sender for at, sender in group.sent if at == index]
        for sender in sorted(set(here)):
            self.lines.append(f"deliver 0 {member} {self.copies[index, sender]}.1")
        self.lines.append(f"hydrate 0 {member}")
        if index and member in group.all[group.path[index]]["members"] and group.reads(index, here):
            group.whole.add(member)


def told(tool, folder, plan, lines):
    """What `explain` says of the advances and of lost groups."""
    script = folder / "s.txt"
    script.write_text("".join(f"{line}\n" for line in lines))
    ran = subprocess.run([tool, "explain", "--json", plan, script], capture_output=True, text=True)
    facts = json.loads(ran.stdout)
    return facts["advances"], facts["lost"]


def certified(tool, file, value):
    """Writes a plan with its certificates into the file. Returns whether all were found."""
    file.write_text(json.dumps(value))
    found = subprocess.run([tool, "search", file], capture_output=True, text=True)
    file.write_text(found.stdout)
    return found.returncode == 0


def by_hand(tool, folder):
    """The number of cases, and of those that `explain` answers otherwise."""
    wrong = 0
    for name, configurations, script, waited, line in CASES:
        certified(tool, folder / "p.json", plan_of(configurations))
        advances, lost = told(tool, folder, folder / "p.json", script.split("; "))
        answer = [advance["waited"] for advance in advances], [group["line"] for group in lost]
        if answer != (waited, [] if line is None else [line]):
            wrong += 1
            print(f"{name}: says {answer}, due is {waited}, {line}")
    return len(CASES), wrong


def main():
    parser = argparse.ArgumentParser()
    parser.add_argument("--runs", type=int, default=300)
    parser.add_argument("--seed", type=int, default=1)
    parser.add_argument("tool", nargs="?", default=TOP / "crates/plan_tool/out/plan_tool")
    given = parser.parse_args()
    tool, rng = pathlib.Path(given.tool).resolve(), random.Random(given.seed)
    ran = advances = lost = 0
    with tempfile.TemporaryDirectory() as folder:
        folder = pathlib.Path(folder)
        plan = folder / "p.json"
        cases, wrong = by_hand(tool, folder)
        while ran < given.runs:
            value = random_plan(rng)
            if not certified(tool, plan, value):
                continue
            for _ in range(5):
                run = Run(rng, value)
                due = (run.advances, [] if run.lost is None or not run.advances else [{"group": 0, "line": run.lost}])
                answer = told(tool, folder, plan, run.lines)
                ran, advances, lost = ran + 1, advances + len(run.advances), lost + len(due[1])
                if answer != due:
                    wrong += 1
                    print(json.dumps(value), *run.lines, f"says {answer}, due is {due}", sep="\n")
    print(f"dead ends: {cases} cases by hand, {ran} runs, {advances} advances, {lost} groups lost, {wrong} wrong")
    sys.exit(1 if wrong else 0)


if __name__ == "__main__":
    main()

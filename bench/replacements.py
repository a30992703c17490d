#!/usr/bin/env python3
"""Replaces members of the classical quorum systems by `plan_tool replace`, and checks each plan that it prints by `plan_tool check`.

    python3 bench/replacements.py [crates/plan_tool/out/plan_tool] [--direct] [--every N]

Of each claim of `families.py` with at most 25 members it makes a plan of one configuration, and replaces every member in turn; and in each plan that was
printed so, the next member too, from the new membership on. It prints a line a family: how many claims it has, how many replacements were tried, how many
were printed, how many second ones were tried and printed, the longest line in bytes and the longest time of a replacement in milliseconds; below that how
often each reason was given for a plan that wasn't printed. The status is 1 if a printed plan isn't certified, or if no reason was given. With `--direct` the
joint configuration is left out. With `--every N` only every Nth claim is taken, of the families that have more than 100.
"""
import argparse
import collections
import pathlib
import re
import subprocess
import sys
import tempfile
import time

sys.dont_write_bytecode = True
from families import configuration, members_of, plan_text, true_claims

TOP = pathlib.Path(__file__).resolve().parent.parent
MOST = 25
MANY = 100


class Tally:
    """What came of the replacements of a family."""

    def __init__(self):
        self.tried, self.printed, self.longest, self.slowest = [0, 0], [0, 0], 0, 0.0
        self.reasons = collections.Counter()
        self.wrong = []


def ran(*words):
    """What the program answers: its status, standard output and standard error."""
    said = subprocess.run([*map(str, words)], capture_output=True, text=True)
    return said.returncode, said.stdout, said.stderr


def replaced(tool, tally, source, target, old, new, turn, options):
    """Replaces a member of the plan in a file. Returns whether the new plan was written to the other file."""
    tally.tried[turn] += 1
    start = time.perf_counter()
    status, out, err = ran(tool, "replace", source, "--out", old, "--in", new, *options)
    tally.slowest = max(tally.slowest, (time.perf_counter() - start) * 1e3)
    if status:
        reason = re.sub(r"\d+", "N", (out or err).strip())
        tally.reasons[reason] += 1
        if status != 1 or not out.startswith("no: ") or err:
            tally.wrong.append((source.read_text(), old, new, options, status, out, err))
        return False
    target.write_text(out)
    tally.longest = max(tally.longest, len(out))
    status, said, _ = ran(tool, "check", target)
    if status or not said.startswith("yes: ") or err:
        tally.wrong.append((source.read_text(), old, new, options, status, said, err))
    tally.printed[turn] += 1
    return True


def family(tool, folder, claims, direct):
    """Replaces the members of each claim's plan."""
    tally, files = Tally(), [folder / f"{name}.json" for name in ("given", "once", "twice")]
    for _, read, write in claims:
        members = sorted(members_of(read) | members_of(write))
        fresh = [number for number in range(64) if number not in members]
        files[0].write_text(plan_text([{"configurations": [configuration(None, read, write)]}]))
        for at, old in enumerate(members):
            if not replaced(tool, tally, files[0], files[1], old, fresh[0], 0, direct):
                continue
            new_membership = "1" if direct else "2"
            following = members[(at + 1) % len(members)]
            if following != old:
                replaced(tool, tally, files[1], files[2], following, fresh[1], 1, [*direct, "-c", new_membership])
    return tally


def main():
    parser = argparse.ArgumentParser()
    parser.add_argument("tool", nargs="?", default=TOP / "crates/plan_tool/out/plan_tool")
    parser.add_argument("--direct", action="store_true")
    parser.add_argument("--every", type=int, default=1)
    given = parser.parse_args()
    tool, direct = given.tool, ["--direct"] if given.direct else []
    wrong = 0
    print("| Family | Claims | Tried | Printed | Second ones | Printed | Longest | Slowest |\n|---|---|---|---|---|---|---|---|")
    for name, claims in true_claims():
        claims = [claim for claim in claims if len(members_of(claim[1]) | members_of(claim[2])) <= MOST]
        if len(claims) > MANY:
            claims = claims[:: given.every]
        with tempfile.TemporaryDirectory() as folder:
            tally = family(tool, pathlib.Path(folder), claims, direct)
        counts = f"{tally.tried[0]:,} | {tally.printed[0]:,} | {tally.tried[1]:,} | {tally.printed[1]:,}"
        print(f"| {name} | {len(claims)} | {counts} | {tally.longest:,} | {tally.slowest:,.0f} ms |", flush=True)
        for reason, count in tally.reasons.most_common():
            print(f"  {count} times {reason}", flush=True)
        for one in tally.wrong[:3]:
            print("wrong:", *one, flush=True)
        wrong += len(tally.wrong)
    print(f"replacements: {wrong} wrong")
    sys.exit(1 if wrong else 0)


if __name__ == "__main__":
    main()

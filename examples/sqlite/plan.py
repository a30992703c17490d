#!/usr/bin/env python3
"""Prints the plan of this folder, without its certificates.

    examples/sqlite/plan.py > OPEN
    plan_tool search OPEN > examples/sqlite/plan.json

Four groups of six members; three of the groups exist from birth. A write quorum has four members, a read quorum three.
In each group the members N are replaced one after the other by N + 6, each through a configuration that has both.
"""
import json

GROUPS, BORN, SIX, REPLACED = 4, 3, 6, 6


def threshold(k, members):
    return {"k": k, "of": members}


def configuration(parent, members, sixes):
    """Returns a configuration: it reads from a quorum of any of the sixes, and writes to a quorum of each."""
    read, write = ([threshold(k, six) for six in sixes] for k in (3, 4))
    alone = len(sixes) == 1
    return {
        "parent": parent, "members": members, "full": members,
        "read": read[0] if alone else threshold(1, read), "write": write[0] if alone else threshold(2, write),
        "meets": None, "step": None,
    }


def configurations():
    six = list(range(SIX))
    made = [configuration(None, six, [six])]
    for fresh in range(SIX, SIX + REPLACED):
        after = sorted(set(six) - {fresh - SIX} | {fresh})
        made.append(configuration(len(made) - 1, sorted(six + [fresh]), [six, after]))
        made.append(configuration(len(made) - 1, after, [after]))
        six = after
    return made


def main():
    groups = [{"configurations": configurations()} for _ in range(GROUPS)]
    print(json.dumps({"format": 3, "lal": 10000000, "born": BORN, "groups": groups}, separators=(",", ":")))


if __name__ == "__main__":
    main()

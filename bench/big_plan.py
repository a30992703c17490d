"""Prints a plan of N groups (16 by default) of 64 configurations each: a root and its children, all of six full copies."""
import json
import sys

ALL = [0, 1, 2, 3, 4, 5]
CLASH = {"rule": "clash", "left": 0, "right": 0}
MATCH = {"rule": "match", "left": 0, "right": 0, "pairs": [[i, i] for i in ALL], "then": [CLASH] * 6}


def configuration(parent):
    return {
        "parent": parent,
        "members": ALL,
        "full": ALL,
        "read": {"k": 3, "of": "all"},
        "write": {"k": 4, "of": "all"},
        "meets": MATCH,
        "step": None if parent is None else MATCH,
    }


def plan_text(groups):
    group = {"configurations": [configuration(None)] + [configuration(0)] * 63}
    return json.dumps({"format": 1, "lal": 10, "groups": [group] * groups}, separators=(",", ":"))


if __name__ == "__main__":
    print(plan_text(int(sys.argv[1]) if len(sys.argv) > 1 else 16))

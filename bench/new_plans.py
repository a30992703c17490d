#!/usr/bin/env python3
"""Checks new plans that survive the loss of zones or members, by brute force.

    python3 bench/new_plans.py [PROGRAM]

Goes through all ways to divide up to 12 members into zones, by the zones' sizes, and through all numbers of members
that may be lost. With PROGRAM it reads the plans that `PROGRAM new` prints; without it, it makes the thresholds by
the rule in crates/plan_edit/src/picking.rt. Read sets must survive what is asked, write sets too, and each read set
must meet each write set. A plan may be refused only if two sets of survivors are disjoint.
"""
import itertools
import json
import subprocess
import sys

MOST = 12


def shapes(count, most=None):
    """The ways to write a number as a sum, in falling order."""
    if count == 0:
        yield []
    for size in range(min(count, most or count), 0, -1):
        for rest in shapes(count - size, size):
            yield [size, *rest]


def zones_of(sizes):
    """Zones of these sizes, of members numbered from 0, as masks."""
    zones, at = [], 0
    for size in sizes:
        zones.append(((1 << size) - 1) << at)
        at += size
    return zones


def picked_counts(count, lost, more):
    """The rule for thresholds over all members."""
    if 2 * lost + more >= count:
        return None
    everyone = list(range(count))
    return {"k": lost + 1, "of": everyone}, {"k": count - lost, "of": everyone}


def picked_zones(zones, more):
    """The rule for zones."""
    count, largest = sum(zone.bit_count() for zone in zones), max(zone.bit_count() for zone in zones)
    whole = (1 << count) - 1
    if any((whole & ~one & ~other).bit_count() <= more for one in zones for other in zones):
        return None
    plain = picked_counts(count, largest, more)
    if plain:
        return plain
    parts = {False: [], True: []}
    for zone in zones:
        size = zone.bit_count()
        counts = (1, size) if more and len(zones) == 3 else (size - size // 2, size // 2 + 1)
        for is_write, k in zip((False, True), counts):
            parts[is_write].append({"k": k, "of": [at for at in range(count) if zone >> at & 1]})
    return {"k": 2, "of": parts[False]}, {"k": len(zones) - 1, "of": parts[True]}


def printed(program, words, members):
    """The expressions of the plan that the program prints, or None if it refuses with two disjoint sets."""
    made = subprocess.run([program, "new", *words], text=True, capture_output=True)
    if made.returncode:
        if "are disjoint" not in made.stdout + made.stderr:
            sys.exit(f"new_plans: {words}: {made.stdout}{made.stderr}")
        return None
    checked = subprocess.run([program, "explain", "-"], input=made.stdout, text=True, capture_output=True)
    if checked.returncode:
        sys.exit(f"new_plans: {words}: {checked.stdout}{checked.stderr}")
    root = json.loads(made.stdout)["groups"][0]["configurations"][0]
    if root["members"] != members:
        sys.exit(f"new_plans: {words}: other members")
    return root["read"], root["write"]


def holds(expression, members, everyone):
    """Whether a set satisfies an expression."""
    if isinstance(expression, int):
        return bool(members >> expression & 1)
    of = everyone if expression["of"] == "all" else expression["of"]
    return sum(holds(one, members, everyone) for one in of) >= expression["k"]


def check(name, count, expressions, read_left, write_left):
    """Checks expressions against the sets that are left after each loss."""
    possible = all(left & other for left in read_left for other in write_left)
    if expressions is None:
        if possible:
            sys.exit(f"new_plans: {name}: refused")
        return False
    read, write = expressions
    everyone = list(range(count))
    if not possible:
        sys.exit(f"new_plans: {name}: made, but survivors may be disjoint")
    if not all(holds(read, left, everyone) for left in read_left):
        sys.exit(f"new_plans: {name}: reads don't survive")
    if not all(holds(write, left, everyone) for left in write_left):
        sys.exit(f"new_plans: {name}: writes don't survive")
    whole = (1 << count) - 1
    if any(holds(read, one, everyone) and holds(write, whole & ~one, everyone) for one in range(1 << count)):
        sys.exit(f"new_plans: {name}: a read set and a write set are disjoint")
    return True


def zone_words(zones, count):
    """Zones as a word of the command line."""
    return "/".join(",".join(str(at) for at in range(count) if zone >> at & 1) for zone in zones)


def main():
    program = sys.argv[1] if len(sys.argv) == 2 else None
    if len(sys.argv) > 2:
        sys.exit(__doc__)
    made = refused = 0
    for count in range(1, MOST + 1):
        whole, everyone = (1 << count) - 1, list(range(count))
        for lost in range(count + 1):
            left = [whole & ~sum(1 << at for at in gone) for gone in itertools.combinations(everyone, lost)]
            words = ["--members", f"0-{count - 1}" if count > 1 else "0", "--survive", str(lost)]
            found = printed(program, words, everyone) if program else picked_counts(count, lost, 0)
            good = check(f"{lost} of {count}", count, found, left, left)
            made, refused = made + good, refused + (not good)
        for sizes in shapes(count):
            zones = zones_of(sizes)
            left = [whole & ~zone for zone in zones]
            for more in (0, 1):
                words = ["--zones", zone_words(zones, count), "--survive", "zone+1" if more else "zone"]
                found = printed(program, words, everyone) if program else picked_zones(zones, more)
                reads = [one & ~(1 << at) for one in left for at in everyone] if more else left
                good = check(f"zones of {sizes} {words[-1]}", count, found, reads, left)
                made, refused = made + good, refused + (not good)
    print(f"new_plans: {made} plans survive what was asked, {refused} refused since survivors may be disjoint")


if __name__ == "__main__":
    main()

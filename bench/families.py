#!/usr/bin/env python3
"""Measures which of the classical quorum systems the certificate search finds, how large the certificates are and how long it takes.

    python3 bench/families.py

It builds a small program over the crates `plan` and `cert_search` in a folder of its own, which takes some minutes, and then searches each claim of each
family three times, with the budget of `plan_tool`. With `--false` it does the same for false claims that are close to those of the families. With
`--weighted` it searches claims of weighted thresholds over up to 16 members, made from a fixed seed, and compares what is found with the truth, which it
computes by trying every set of members. With `--plans FOLDER` it writes the plans there and builds nothing.
"""
import itertools
import json
import pathlib
import random
import subprocess
import sys
import tempfile

from building import built

PROGRAM = r"""//! Searches each claim of a plan, and prints how many nodes its certificate has, 0 where there is none, and the nanoseconds it took.
#![tactic(auto)]

ghost use Rattle.std.specs.Prelude.{◌≡◌};

use cert_search::search_one;
use plan::{Plan, claims, read_plan};
use refutation::Refutation;
use std::alloc::{Allocator, Global};
use std::fs::read;
use std::process::ExitCode;
use std::rt::{Clock, Env, Files};
use std::time::Instant;
use std::{env, io};

/// How many nodes a tree has.
fn nodes<A: Allocator>(tree: &Refutation<A>) -> u64 {
    match tree {
        Refutation::Dead { .. } | Refutation::Clash { .. } => 1,
        Refutation::Open { then, .. } => nodes(then).saturating_add(1),
        Refutation::Pick { then, .. } | Refutation::Match { then, .. } => {
            let mut sum = 1u64;
            for branch in then {
                sum = sum.saturating_add(nodes(branch));
            }
            sum
        }
        Refutation::Split { left, right, .. } => nodes(left).saturating_add(nodes(right)).saturating_add(1),
    }
}

/// Prints what is found of each claim.
fn searched<R: Clock + Print>(rt: &R, alloc: Global, plan: &Plan) -> io::Result<()> {
    let Ok(named) = claims(alloc, plan) else {
        return Ok(());
    };
    for one in &named {
        let start = Instant::now(rt)?;
        let answer = search_one(alloc, &one.claim, 100_000);
        let took = start.elapsed(rt)?.as_nanos();
        let size = match &answer {
            Ok(Some(certificate)) => nodes(certificate.tree()),
            _ => 0,
        };
        println!(rt; "{size} {took}")?;
    }
    Ok(())
}

fn run<R: Clock + Print + Files + Env>(rt: &R, alloc: Global) -> io::Result<()> {
    let words: Vec<String> = env::args(&(rt, alloc))?.collect(alloc)?;
    for file in words.as_slice().iter().skip(1) {
        let text = read(&(rt, alloc), file.as_str())?;
        if let Ok(plan) = read_plan(alloc, text.as_slice()) {
            searched(rt, alloc, &plan)?;
        }
    }
    Ok(())
}

fn main(rt: HostRuntime) -> ExitCode {
    match run(&rt, rt.alloc()) {
        Ok(()) => ExitCode::from(0),
        Err(_) => ExitCode::from(1),
    }
}
"""


def some(k, of):
    """At least k of a list."""
    return {"k": k, "of": list(of)}


def each(of):
    return some(len(of), of)


def most(of):
    return some(len(of) // 2 + 1, of)


def block(first, size):
    return list(range(first, first + size))


def shapes(least, limit=64):
    """All pairs of numbers, each at least so much, whose product is at most the limit."""
    return [(a, b) for a in range(least, limit + 1) for b in range(least, limit // a + 1)]


def zones(p, q, z, m):
    return some(p, [some(q, block(m * i, m)) for i in range(z)])


def rows_of(r, c):
    return [block(c * i, c) for i in range(r)]


def columns_of(r, c):
    return [list(range(j, r * c, c)) for j in range(c)]


def one_each(lists):
    return each([some(1, members) for members in lists])


def whole(lists):
    return some(1, [each(members) for members in lists])


def column_and_one_each(r, c):
    return each([whole(columns_of(r, c)), one_each(columns_of(r, c))])


def levels(sizes, first=0, less=0):
    """Majorities of majorities, at the lowest level of fewer."""
    if not sizes:
        return first
    step = 1
    for size in sizes[1:]:
        step *= size
    of = [levels(sizes[1:], first + i * step, less) for i in range(sizes[0])]
    return some(max(1, sizes[0] // 2 + 1 - (less if len(sizes) == 1 else 0)), of)


def tree(height, root=0, k=2):
    """A member with one of its subtrees, or both of them."""
    if height == 1:
        return root
    return some(k, [root, tree(height - 1, 2 * root + 1, k), tree(height - 1, 2 * root + 2, k)])


def plane_lines(q):
    """The lines of the projective plane over the integers modulo a prime."""
    points = [(1, y, z) for y in range(q) for z in range(q)] + [(0, 1, z) for z in range(q)] + [(0, 0, 1)]
    on = lambda a, b: sum(x * y for x, y in zip(a, b)) % q == 0
    return [[i for i, point in enumerate(points) if on(line, point)] for line in points]


def wall(widths, below=True):
    """A whole row, and one of each row below it."""
    starts = [sum(widths[:i]) for i in range(len(widths))]
    rows = [block(start, width) for start, width in zip(starts, widths)]
    return some(1, [each([each(row)] + ([some(1, low) for low in rows[i + 1 :]] if below else [])) for i, row in enumerate(rows)])


def replaced(base, pending):
    """All sets that some of the pending replacements make of a set; number i replaces the i-th last member by member base + i."""
    sets = []
    for chosen in itertools.product([False, True], repeat=len(pending)):
        members = block(0, base)
        for number, done in zip(pending, chosen):
            if done:
                members[base - 1 - number] = base + number
        sets.append(members)
    return sets


WALLS = [[1, 2, 3], [1, 3, 3, 4], [2, 3, 4], [1, 15], [1, 63], [2, 2, 2, 2], [3, 3, 3, 3], [1, 2, 3, 4, 5], [4] * 16, [2] * 32, [8] * 8, [1] + [9] * 7, list(range(1, 11)), [16] * 4]
LEVELS = [sizes for sizes in itertools.product(range(2, 17), repeat=3) if sizes[0] * sizes[1] * sizes[2] <= 64]
PENDING = [list(range(n)) for n in range(5)] + [[1], [2], [3], [1, 2], [0, 3], [1, 3], [0, 2, 3]]


def true_claims():
    """Each family with its claims: a name, a read and a write expression."""
    yield "majorities", [(n, most(block(0, n)), most(block(0, n))) for n in range(1, 65)]
    yield "2f + 1 of 3f + 1", [(3 * f + 1, some(2 * f + 1, block(0, 3 * f + 1)), some(2 * f + 1, block(0, 3 * f + 1))) for f in range(1, 22)]
    of_zones = [(p, q, z, m) for z, m in shapes(1) for p in range(1, z + 1) for q in range(1, m + 1)]
    yield "zones and their duals", [((p, q, z, m), zones(p, q, z, m), zones(z - p + 1, m - q + 1, z, m)) for p, q, z, m in of_zones]
    yield "grids, one of each row, a row", [((r, c), one_each(rows_of(r, c)), whole(rows_of(r, c))) for r, c in shapes(1)]
    yield "grids, a row, one of each row", [((r, c), whole(rows_of(r, c)), one_each(rows_of(r, c))) for r, c in shapes(1)]
    yield "grids, a column and one of each", [((r, c), column_and_one_each(r, c), column_and_one_each(r, c)) for r, c in shapes(1)]
    yield "grids, one of each, with a column", [((r, c), one_each(columns_of(r, c)), column_and_one_each(r, c)) for r, c in shapes(1)]
    yield "grids, with a column, one of each", [((r, c), column_and_one_each(r, c), one_each(columns_of(r, c))) for r, c in shapes(1)]
    yield "majorities of three levels", [(sizes, levels(sizes), levels(sizes)) for sizes in LEVELS]
    yield "trees", [(2**h - 1, tree(h), tree(h)) for h in range(2, 7)]
    yield "projective planes", [(q * q + q + 1, whole(plane_lines(q)), whole(plane_lines(q))) for q in (2, 3, 5, 7)]
    yield "crumbling walls", [(tuple(widths), wall(widths), wall(widths)) for widths in WALLS]
    yield "full and tail", [
        ((n, f), each([some(r, block(0, n)), some(1, block(0, f))]), some(1, [some(n + 1 - r, block(0, n)), each(block(0, f))]))
        for n in range(2, 65, 4) for f in (1, n // 2, n - 1) if f for r in (1, n // 2, n)
    ]


def false_claims():
    """The same for false claims."""
    yield "majorities, one less", [(n, most(block(0, n)), some(n - n // 2 - 1, block(0, n))) for n in range(3, 65)]
    yield "f + 1 and 2f of 3f + 1", [(3 * f + 1, some(f + 1, block(0, 3 * f + 1)), some(2 * f, block(0, 3 * f + 1))) for f in range(1, 22)]
    of_zones = [(p, q, z, m) for z, m in shapes(1) for p in range(1, z + 1) for q in range(1, m + 1)]
    yield "zones, a zone less", [((p, q, z, m), zones(p, q, z, m), zones(z - p, m - q + 1, z, m)) for p, q, z, m in of_zones if p < z]
    yield "zones, a member less", [((p, q, z, m), zones(p, q, z, m), zones(z - p + 1, m - q, z, m)) for p, q, z, m in of_zones if q < m]
    yield "grids, one of each row but one, a row", [((r, c), some(r - 1, one_each(rows_of(r, c))["of"]), whole(rows_of(r, c))) for r, c in shapes(2)]
    yield "grids, a row but one, one of each", [((r, c), some(1, [some(c - 1, row) for row in rows_of(r, c)]), one_each(rows_of(r, c))) for r, c in shapes(2)]
    yield "grids, a column, a column", [((r, c), whole(columns_of(r, c)), whole(columns_of(r, c))) for r, c in shapes(2)]
    yield "grids, a column, one of each but one", [((r, c), column_and_one_each(r, c), some(c - 1, [some(1, x) for x in columns_of(r, c)[:-1]] + [each(columns_of(r, c)[-1])])) for r, c in shapes(2)]
    yield "majorities of three levels, one less", [(sizes, levels(sizes), levels(sizes, less=1)) for sizes in LEVELS if sizes[2] % 2]
    yield "trees, with one of three", [(2**h - 1, tree(h), tree(h, k=1)) for h in range(2, 7)]
    yield "planes, a point less", [(q * q + q + 1, whole(plane_lines(q)), some(1, [some(q, x) for x in plane_lines(q)])) for q in (2, 3, 5, 7)]
    yield "planes, two lines of one point less", [(q * q + q + 1, some(1, [some(q, x) for x in plane_lines(q)]), some(1, [some(q, x) for x in plane_lines(q)])) for q in (2, 3, 5, 7)]
    yield "walls, rows alone", [(tuple(widths), wall(widths, False), wall(widths, False)) for widths in WALLS if len(widths) > 1]
    yield "walls, a row alone", [(tuple(widths), wall(widths), wall(widths, False)) for widths in WALLS if len(widths) > 1]
    yield "sets of replacements, writes one less", [
        ((base, k, pending), some(1, [some(k, x) for x in replaced(base, pending)]), each([some(base - k, x) for x in replaced(base, pending)]))
        for base, k in ((6, 3), (16, 8), (60, 30)) for pending in PENDING
    ]
    yield "full and tail, without a full one", [
        ((n, f), some(r, block(0, n)), some(1, [some(n + 1 - r, block(0, n)), each(block(0, f))])) for n in range(4, 65, 4) for f in (1, n // 2) for r in (1, n // 2) if r + f <= n
    ]


def weighted(k, of, weights):
    """Children that weigh at least k."""
    return {"k": k, "of": list(of), "weights": list(weights)}


def weights_of(expression):
    return expression.get("weights", [1] * len(expression["of"]))


def held(expression, n):
    """For each set of n members (a number whose bits are the members), the weight of the children that it satisfies."""
    if all(isinstance(child, int) for child in expression["of"]):
        sums = [0]
        of_member = dict.fromkeys(range(n), 0)
        for child, weight in zip(expression["of"], weights_of(expression)):
            of_member[child] += weight
        for member in range(n):
            sums += [old + of_member[member] for old in sums]
        return sums
    sums = [0] * 2**n
    for child, weight in zip(expression["of"], weights_of(expression)):
        holds = [x >> child & 1 for x in range(2**n)] if isinstance(child, int) else [x >= child["k"] for x in held(child, n)]
        sums = [old + weight if yes else old for old, yes in zip(sums, holds)]
    return sums


def heaviest_apart(read, write, n):
    """The greatest weight of the write expression's children in a set that shares no member with some read set."""
    apart = zip(held(read, n), reversed(held(write, n)))
    return max(other for one, other in apart if one >= read["k"])


def some_weights(rng, count, most=255):
    return [rng.randint(1, most) for _ in range(count)]


def at_random(rng, of, weights):
    """These children with a random threshold."""
    return weighted(rng.randint(1, sum(weights)), of, weights)


def two_sides(rng, n, weights, others):
    return at_random(rng, block(0, n), weights), weighted(1, block(0, n), others)


def deciding(rng, n):
    """Small weights, and one that is more than all of them."""
    weights = some_weights(rng, n, 6)
    weights[rng.randrange(n)] = rng.randint(100, 255)
    return weights


def zone(rng, first, size, is_weighted):
    weights = some_weights(rng, size) if is_weighted else [1] * size
    k = rng.randint(1, sum(weights))
    return weighted(k, block(first, size), weights) if is_weighted else some(k, block(first, size))


def some_zones(rng, n, count, is_weighted):
    """Two quorums of the same zones, of which one is heavier than the others."""
    ends = sorted(rng.sample(range(1, n), count - 1))
    sizes = [end - start for start, end in zip([0, *ends], [*ends, n])]
    sides = []
    for _ in range(2):
        weights = [1] * count
        weights[0] = rng.randint(2, 5)
        rng.shuffle(weights)
        of = [zone(rng, sum(sizes[:i]), size, is_weighted) for i, size in enumerate(sizes)]
        sides.append(at_random(rng, of, weights))
    return sides


def closest(n, read, write):
    """The least write threshold with which the quorums meet, if there is one, and the one below it."""
    most_apart = heaviest_apart(read, write, n)
    if most_apart < sum(weights_of(write)):
        yield n, read, write | {"k": most_apart + 1}
    if most_apart:
        yield n, read, write | {"k": most_apart}


def weighted_claims():
    """Each family with its claims: the number of members, a read and a write expression. Their truth is computed from these."""
    rng = random.Random(15)
    numbers = [n for n in range(2, 17) for _ in range(4)] + [16] * 40
    pairs = []
    for n in numbers:
        weights = some_weights(rng, n)
        read = at_random(rng, block(0, n), weights)
        pairs.append((n, read, weighted(sum(weights) + 1 - read["k"], block(0, n), weights)))
    yield "weighted majorities", pairs

    def near(name, sides, least=2):
        return name, [claim for n in numbers if n >= least for claim in closest(n, *sides(n))]

    def equal(n):
        weights = some_weights(rng, n)
        return two_sides(rng, n, weights, weights)

    def like(n):
        return two_sides(rng, n, [rng.randint(200, 255) for _ in range(n)], [rng.randint(200, 255) for _ in range(n)])

    yield near("the same weights on both sides", equal)
    yield near("other weights on each side", lambda n: two_sides(rng, n, some_weights(rng, n), some_weights(rng, n)))
    yield near("weights of 1 to 4", lambda n: two_sides(rng, n, some_weights(rng, n, 4), some_weights(rng, n, 4)))
    yield near("weights of 200 to 255", like)
    yield near("one member that decides on both sides", lambda n: two_sides(rng, n, *[deciding(rng, n)] * 2))
    yield near("one member that decides on each side", lambda n: two_sides(rng, n, deciding(rng, n), deciding(rng, n)))
    yield near("weighted reads, plain writes", lambda n: two_sides(rng, n, some_weights(rng, n), [1] * n))
    yield near("plain reads, weighted writes", lambda n: two_sides(rng, n, [1] * n, some_weights(rng, n)))
    yield near("two zones, one of them heavier", lambda n: some_zones(rng, n, 2, False))
    yield near("two zones of weighted members", lambda n: some_zones(rng, n, 2, True))
    yield near("three zones, one of them heavier", lambda n: some_zones(rng, n, 3, False), 3)
    yield near("three zones of weighted members", lambda n: some_zones(rng, n, 3, True), 3)


def configuration(parent, read, write):
    members = sorted(members_of(read) | members_of(write))
    return {"parent": parent, "members": members, "full": members, "read": read, "write": write, "meets": None, "step": None}


def members_of(expression):
    if isinstance(expression, int):
        return {expression}
    return set().union(*(members_of(child) for child in expression["of"]))


def plan_text(groups, form=1):
    return json.dumps({"format": form, "lal": 10, "groups": groups}, separators=(",", ":"))


def plans_of(claims, form=1):
    """Plans of one configuration a group, sixteen groups each."""
    groups = [{"configurations": [configuration(None, read, write)]} for _, read, write in claims]
    return [plan_text(groups[i : i + 16], form) for i in range(0, len(groups), 16)]


def among(parent, sets, k):
    """Any k of one of the sets read, and just enough of each set to meet these write."""
    return configuration(parent, some(1, [some(k, x) for x in sets]), each([some(len(x) + 1 - k, x) for x in sets]))


def step_plans(base, k, less=0):
    """Steps among the sets of up to four replacements, in which any k of one of the sets read, and fewer after a step: from the sets of some pending
    replacements to those of others, and from each set to each other one through both."""
    groups = []
    for old, new in itertools.permutations(PENDING, 2):
        groups.append({"configurations": [among(None, replaced(base, old), k), among(0, replaced(base, new), k - less)]})
    for old, new in itertools.permutations(replaced(base, PENDING[4]), 2):
        groups.append({"configurations": [among(None, [old], k), among(0, [old, new], k - less), among(1, [new], k - 2 * less)]})
    return [plan_text(groups[i : i + 16]) for i in range(0, len(groups), 16)]


def families(chosen):
    """Each family with the texts of its plans, and how many claims they have."""
    if chosen == "weighted":
        for name, claims in weighted_claims():
            yield name, plans_of(claims, 2)
        return
    for name, claims in true_claims() if chosen == "true" else false_claims():
        yield name, plans_of(claims)
    if chosen == "true":
        for base, k in (6, 3), (5, 3), (3, 2), (7, 4), (16, 8), (60, 30):
            yield f"steps, {k} of {base}", step_plans(base, k)
    else:
        for base, k in (6, 3), (16, 8):
            yield f"steps, {k} of {base}, then less", step_plans(base, k, 1)


def searched(program, files):
    """The number of nodes of each claim's certificate, and the nanoseconds of the search."""
    out = subprocess.run([program, *map(str, files)], check=True, capture_output=True, text=True).stdout
    return [tuple(map(int, line.split())) for line in out.splitlines()]


def searches(program, folder, texts):
    """The number of nodes of each claim's certificate, and the least milliseconds of three searches."""
    files = []
    for number, text in enumerate(texts):
        files.append(folder / f"plan_{number}.json")
        files[-1].write_text(text)
    seen = [searched(program, files) for _ in range(3)]
    return [(one[0][0], min(took for _, took in one) / 1e6) for one in zip(*seen)]


def row(program, folder, name, texts):
    """A line of the table."""
    seen = searches(program, folder, texts)
    found = [size for size, _ in seen if size]
    slowest = max(took for _, took in seen)
    print(f"| {name} | {len(seen):,} | {len(found):,} | {max(found, default=0):,} | {slowest:,.2f} ms |", flush=True)


def weighted_row(program, folder, name, claims):
    """A line of the table of weighted claims, and below it the true claims that weren't found. No false claim may be found."""
    holds = [heaviest_apart(read, write, n) < write["k"] for n, read, write in claims]
    seen = searches(program, folder, plans_of(claims, 2))
    true = [one for one, holding in zip(seen, holds) if holding]
    false = [one for one, holding in zip(seen, holds) if not holding]
    assert not any(size for size, _ in false), name
    found = [size for size, _ in true if size]
    slowest = [max((took for _, took in some), default=0) for some in (true, false)]
    print(f"| {name} | {len(true):,} | {len(found):,} | {max(found, default=0):,} | {slowest[0]:,.2f} ms | {len(false):,} | {slowest[1]:,.2f} ms |", flush=True)
    for (size, _), holding, claim in zip(seen, holds, claims):
        if holding and not size:
            print("missed:", json.dumps(claim))


def main():
    chosen = next((kind for kind in ("false", "weighted") if f"--{kind}" in sys.argv), "true")
    if "--plans" in sys.argv:
        folder = pathlib.Path(sys.argv[sys.argv.index("--plans") + 1])
        folder.mkdir(parents=True, exist_ok=True)
        for number, (name, texts) in enumerate(families(chosen)):
            for part, text in enumerate(texts):
                (folder / f"{chosen}_{number:02}_{part:04}.json").write_text(text)
            print(number, name, len(texts))
        return
    with tempfile.TemporaryDirectory() as folder:
        top = pathlib.Path(folder)
        first = top / "first.json"
        first.write_text(plans_of([("", most([0, 1, 2]), most([0, 1, 2]))])[0])
        program = built(top, "family_work", PROGRAM, ["quorum_expr", "refutation", "plan", "cert_search", "quorum_checker"], [str(first)])
        if chosen == "weighted":
            print("| Family | Claims that hold | Found | Nodes, at most | Slowest | Others | Slowest |\n|---|---|---|---|---|---|---|")
            for name, claims in weighted_claims():
                weighted_row(program, top, name, claims)
            return
        print("| Family | Claims | Found | Nodes, at most | Slowest |\n|---|---|---|---|---|")
        for name, texts in families(chosen):
            row(program, top, name, texts)


if __name__ == "__main__":
    main()

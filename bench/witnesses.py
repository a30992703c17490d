#!/usr/bin/env python3
"""Checks the witnesses of the false claims of `families.py --false`: each must be two disjoint sets that satisfy the claim's two sides, the first
without a fresh member. The claims are computed here from the plan's text.

    python3 bench/witnesses.py
    python3 bench/witnesses.py --losses [crates/plan_tool/out/plan_tool]

It builds a small program over the crates `plan` and `quorum_checker` in a folder of its own, without proofs, and prints a line a family: how many
claims fail, and for how many a witness was found.

With `--losses` it builds nothing: it checks what `explain --json` says of 500 expressions by a fixed seed, over up to 12 members, by trying each loss:
how many losses each survives, a smallest loss that stops it, the members that stop it alone, and which lists in its list may be lost whole.
"""
import itertools
import json
import pathlib
import random
import subprocess
import sys
import tempfile

from building import TOP, tried
from families import families, members_of, most, plan_text, plans_of

EXPRESSIONS = 500

PROGRAM = r"""//! Decides each claim of a plan, and prints the two sets of its witness, `holds`, or `unknown`.
#![tactic(auto)]

use plan::{Plan, claims, read_plan};
use quorum_checker::{Decision, decide};
use quorum_expr::{MEMBERS, MemberSet};
use std::alloc::Global;
use std::fs::read;
use std::process::ExitCode;
use std::rt::{Env, Files};
use std::{env, io};

/// Prints the members of a set.
fn print_set<R: Print>(rt: &R, members: MemberSet) -> io::Result<()> {
    for member in 0..MEMBERS {
        if members.contains(member) {
            print!(rt; "{member} ")?;
        }
    }
    Ok(())
}

/// Prints what is decided of each claim.
fn decided<R: Print>(rt: &R, alloc: Global, plan: &Plan) -> io::Result<()> {
    let Ok(named) = claims(alloc, plan) else {
        return Ok(());
    };
    for one in &named {
        match decide(alloc, &one.claim, 12) {
            Ok(Decision::Fails(witness)) => {
                print_set(rt, witness.left)?;
                print!(rt; "| ")?;
                print_set(rt, witness.right)?;
                println!(rt; "")?;
            }
            Ok(Decision::Holds(_)) => println!(rt; "holds")?,
            _ => println!(rt; "unknown")?,
        }
    }
    Ok(())
}

fn run<R: Print + Files + Env>(rt: &R, alloc: Global) -> io::Result<()> {
    let words: Vec<String> = env::args(&(rt, alloc))?.collect(alloc)?;
    for file in words.as_slice().iter().skip(1) {
        let text = read(&(rt, alloc), file.as_str())?;
        if let Ok(plan) = read_plan(alloc, text.as_slice()) {
            decided(rt, alloc, &plan)?;
        }
    }
    Ok(())
}

fn main(rt: HostRuntime) -> ExitCode {
    match run(&rt, rt.alloc()) {
        Ok(()) => ExitCode::from(0),
        Err(_) => ExitCode::from(1),
    }
}
"""


def listed(of, configuration):
    """The children of a threshold."""
    if of == "all":
        return configuration["members"]
    if of == "full":
        return configuration["full"]
    if of == "tail":
        return [member for member in configuration["members"] if member not in configuration["full"]]
    return of


def holds(expression, members, configuration):
    """Whether a set of members satisfies an expression."""
    if isinstance(expression, int):
        return expression in members
    of = listed(expression["of"], configuration)
    weights = expression.get("weights", [1] * len(of))
    return sum(weight for weight, child in zip(weights, of) if holds(child, members, configuration)) >= expression["k"]


def claims_of(plan):
    """Each claim of a plan: the tests of its two sides, and the members that the first set may not have."""
    for group in plan["groups"]:
        for this in group["configurations"]:
            def reads(members, of=this):
                return holds(of["read"], members, of)

            def writes(members, of=this):
                return holds(of["write"], members, of)

            yield reads, writes, set()
            if this["parent"] is not None:
                parent = group["configurations"][this["parent"]]

                def dual(members, of=parent):
                    return not holds(of["read"], set(range(64)) - members, of)

                yield reads, dual, set(this["members"]) - set(parent["members"])


def judged(line, claim):
    """Whether a line is a witness of a claim. It must be one if it is two sets."""
    if "|" not in line:
        return False
    left, right = (set(map(int, part.split())) for part in line.split("|"))
    reads, writes, fresh = claim
    assert not left & right and not left & fresh and reads(left) and writes(right), line
    return True


def any_expression(rng, members, levels):
    """An expression over these members, or a member."""
    if levels == 0 or rng.randrange(3) == 0:
        return rng.choice(members)
    of = [any_expression(rng, members, levels - 1) for _ in range(rng.randint(1, 6))]
    weights = [rng.choice((1, 1, 2, 5)) for _ in of]
    return {"k": rng.randint(1, sum(weights)), "of": of, "weights": weights}


def any_configuration(rng):
    members = sorted(rng.sample(range(64), rng.randint(1, 12)))
    read, write = (any_expression(rng, members, 4) for _ in range(2))
    return {"parent": None, "members": members, "full": members, "read": read, "write": write, "meets": None, "step": None}


def stops(expression, configuration, lost):
    """Whether the loss of these members stops an expression."""
    return not holds(expression, set(configuration["members"]) - set(lost), configuration)


def judge_expression(facts, expression, configuration):
    """Fails unless these facts of an expression are right."""
    members = configuration["members"]
    losses = (lost for size in range(len(members) + 1) for lost in itertools.combinations(members, size))
    least = len(next(lost for lost in losses if stops(expression, configuration, lost)))
    assert facts["survives"] == least - 1 and len(facts["stopped_by"]) == least, (facts, expression)
    assert stops(expression, configuration, facts["stopped_by"]), (facts, expression)
    assert facts["single"] == [member for member in members if stops(expression, configuration, [member])], (facts, expression)
    lists = [] if isinstance(expression, int) else [child for child in expression["of"] if not isinstance(child, int)]
    blocks = [{"members": sorted(members_of(child)), "survived": not stops(expression, configuration, members_of(child))} for child in lists]
    assert facts["blocks"] == blocks, (facts, expression)


def explained(program, file, text):
    """What is said of the configurations of a plan."""
    file.write_text(text)
    ran = subprocess.run([program, "explain", "--json", str(file)], capture_output=True, text=True)
    assert ran.returncode < 2 and not ran.stderr, ran.stderr
    return json.loads(ran.stdout)["configurations"]


def judge_losses(program):
    rng = random.Random(12)
    with tempfile.TemporaryDirectory() as folder:
        for _ in range(EXPRESSIONS // 20):
            configurations = [any_configuration(rng) for _ in range(10)]
            text = plan_text([{"configurations": [configuration]} for configuration in configurations], 2)
            for facts, configuration in zip(explained(program, pathlib.Path(folder) / "plan.json", text), configurations, strict=True):
                for side in "read", "write":
                    judge_expression(facts[side], configuration[side], configuration)
    print(f"{EXPRESSIONS} expressions survive what is said of them")


def main():
    if "--losses" in sys.argv:
        judge_losses(next((word for word in sys.argv[1:] if word != "--losses"), str(TOP / "crates" / "plan_tool" / "out" / "plan_tool")))
        return
    with tempfile.TemporaryDirectory() as folder:
        top = pathlib.Path(folder)
        first = top / "first.json"
        first.write_text(plans_of([("", most([0, 1, 2]), most([0, 1, 2]))])[0])
        program = tried(top, "witness_work", PROGRAM, ["quorum_expr", "plan", "quorum_checker"], [str(first)])
        print("| Family | Claims | That hold | With a witness | Unknown |\n|---|---|---|---|---|")
        for name, texts in families("false"):
            file = top / "plan.json"
            counts = [0, 0, 0]
            for text in texts:
                file.write_text(text)
                lines = subprocess.run([program, str(file)], check=True, capture_output=True, text=True).stdout.splitlines()
                claims = list(claims_of(json.loads(text)))
                assert len(lines) == len(claims), name
                for line, claim in zip(lines, claims):
                    counts[0 if line == "holds" else 1 if judged(line, claim) else 2] += 1
            print(f"| {name} | {sum(counts):,} | {counts[0]:,} | {counts[1]:,} | {counts[2]:,} |", flush=True)


if __name__ == "__main__":
    main()

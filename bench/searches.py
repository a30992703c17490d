#!/usr/bin/env python3
"""Measures how many claims a second the certificate search finds, with 1, 2 and 4 workers.

    python3 bench/searches.py

It builds a small program over the crates `plan` and `cert_search` in another folder, which takes some minutes, and then times it on two plans: one of
2,032 claims that are true because enough members are equal, and one with the claims of steps among sets of six. It times only `search_all`, many
times in one process, and the best of five processes counts.
"""
import json
import pathlib
import subprocess
import tempfile

from big_plan import plan_text
from building import built

PROGRAM = r"""//! Searches the certificates of a plan, with so many workers and so often as it is told.
#![tactic(auto)]

ghost use Rattle.std.specs.Prelude.{◌<◌, ◌≤◌};

use cert_search::{Gate, search_all};
use plan::{Plan, read_plan};
use std::alloc::Global;
use std::fs::read;
use std::process::ExitCode;
use std::rt::{Clock, Env, Files};
use std::sync::Wait;
use std::thread::Threads;
use std::time::Instant;
use std::{env, io};

/// A gate that lets all claims through.
#[derive(Drop)]
struct Through;

impl Gate for Through {
    fn started(&self, _claim: usize) {}

    fn finished(&self, _claim: usize) {}
}

/// The nanoseconds of so many searches, where each finds all certificates.
fn searched<R: Clock + Threads + Wait + Sync>(
    rt: &R,
    alloc: Global,
    plan: &Plan,
    workers: usize,
    rounds: u64,
) -> io::Result<Option<u128>>
    requires { (0 < workers) × (workers ≤ 16) }
{
    let mut took = 0u128;
    for _ in 0..rounds {
        let start = Instant::now(rt)?;
        let answers = search_all(rt, alloc, plan, workers, 100_000, &Through);
        took = took.saturating_add(start.elapsed(rt)?.as_nanos());
        let Ok(answers) = answers else {
            return Ok(None);
        };
        if answers.iter().any(|answer| answer.is_none()) {
            return Ok(None);
        }
    }
    Ok(Some(took))
}

fn run<R: Clock + Print + Files + Env + Threads + Wait + Sync>(rt: &R, alloc: Global) -> io::Result<()> {
    let words: Vec<String> = env::args(&(rt, alloc))?.collect(alloc)?;
    let [_, file, workers, rounds] = words.as_slice() else {
        return Ok(());
    };
    let text = read(&(rt, alloc), file.as_str())?;
    let Ok(plan) = read_plan(alloc, text.as_slice()) else {
        return Ok(());
    };
    let workers = workers.as_str().parse::<usize>().unwrap_or(1).clamp(1, 16);
    let rounds = rounds.as_str().parse::<u64>().unwrap_or(0);
    if let Some(took) = searched(rt, alloc, &plan, workers, rounds)? {
        println!(rt; "{took}")?;
    }
    Ok(())
}

fn main(rt: HostRuntime) -> ExitCode {
    match run(&rt, rt.alloc()) {
        Ok(()) => ExitCode::from(0),
        Err(_) => ExitCode::from(1),
    }
}
"""

SIX, WITH_G, WITH_H, WITH_BOTH = [0, 1, 2, 3, 4, 5], [0, 1, 2, 3, 4, 6], [0, 1, 2, 3, 5, 7], [0, 1, 2, 3, 6, 7]


def configuration(parent, sets):
    """A configuration that reads 3 of one of the sets, and writes 4 of each."""
    members = sorted({member for six in sets for member in six})
    return {
        "parent": parent,
        "members": members,
        "full": members,
        "read": {"k": 1, "of": [{"k": 3, "of": six} for six in sets]},
        "write": {"k": len(sets), "of": [{"k": 4, "of": six} for six in sets]},
        "meets": None,
        "step": None,
    }


def steps_text():
    """Sixteen groups, each of a root, a child with a seventh member, and 62 children of that with an eighth."""
    root = configuration(None, [SIX])
    child = configuration(0, [SIX, WITH_G])
    grandchild = configuration(1, [SIX, WITH_G, WITH_H, WITH_BOTH])
    group = {"configurations": [root, child] + [grandchild] * 62}
    return json.dumps({"format": 1, "lal": 10, "groups": [group] * 16}, separators=(",", ":"))


def microseconds(program, plan, workers, rounds):
    """The microseconds for each claim, in the best of five runs of `rounds` searches."""
    words = [program, str(plan), str(workers), str(rounds)]
    best = min(int(subprocess.run(words, check=True, capture_output=True, text=True).stdout) for _ in range(5))
    return best / rounds / 2032 / 1000


def main():
    with tempfile.TemporaryDirectory() as folder:
        top = pathlib.Path(folder)
        plain, steps = top / "plain.json", top / "steps.json"
        plain.write_text(plan_text(16))
        steps.write_text(steps_text())
        program = built(top, "search_work", PROGRAM, ["plan", "cert_search"], [str(plain), "1", "1"])
        for name, plan, rounds in ("plain claims", plain, 100), ("claims of steps among sets", steps, 20):
            for workers in 1, 2, 4:
                each = microseconds(program, plan, workers, rounds)
                print(f"{name}, {workers} workers: {1e6 / each:,.0f} a second, {each:.2f} us each")


if __name__ == "__main__":
    main()

#!/usr/bin/env python3
"""Measures what one uncontended step of a fleet costs: the calls alone, in one process, on one thread.

    python3 bench/steps.py [--draft OUT] [OTHER]

It builds a small program over the crate `node_fleet` in another folder, which takes some minutes, and then times it, with one pass and with four that
step in turn. A round issues sixteen transactions of one change of 8 bytes, or of eight, which the journal copies (issued) or takes
(given) in turn; delivers each record to four of six nodes; takes each acknowledgement; and restarts a node 64 times. Each of these four is a window.
If OTHER is named, a program with the same words and the same output, both run in turn. Printed are, in nanoseconds for each call, the least of the runs' lower quartiles, and the least window.

With `--draft` the program is built without its proof, as `bench/draft.py` builds plan_tool, and is left as OUT. If the machine is busy with other work,
instructions say more than times: each kind of step is a separate function (`issue`, `give`, `deliver`, `take`, `restart`), so that
`valgrind --tool=callgrind` counts each, and the difference between two runs with more and fewer rounds is the cost of the additional steps.

    valgrind --tool=callgrind --toggle-collect='step_work::take::*' OUT CHANGES PASSES ROUNDS
"""
import pathlib
import subprocess
import sys
import tempfile

from building import built, laid_out
from draft import drafted

PROGRAM = r"""//! Times the steps of a fleet, each kind by itself.
#![tactic(auto)]

ghost use Rattle.std.specs.Prelude.{◌≡◌, ◌<◌};
ghost use Rattle.std.specs.Arc.{arc_value};
ghost use Rattle.plan.specs.CheckedModel.{checked_model};
ghost use Rattle.journal.specs.Tokens.{ids_of};
ghost use Rattle.node_fleet.specs.Bases.{passes_of, IsBaseOf};

use node_fleet::{Base, Fleet, FleetSite, Pass, Row, StepGate};
use plan::{CheckedPlan, check_plan, read_plan};
use segment_core::NodeAction;
use std::alloc::{AllocError, Global};
use std::marker::Brand;
use std::process::ExitCode;
use std::rt::{Clock, Env};
use std::sync::{Arc, Wait};
use std::time::Instant;
use std::{env, io};
use wire::Messages;
use world::ClientAction;
use writer_core::Change;

/// Six copies, of which four write and three read.
const PLAN: &[u8] =
    b"{\"format\":1,\"lal\":10000000,\"groups\":[{\"configurations\":[{\"parent\":null,\"members\":[0,1,2,3,4,5],\"full\":[0,1,2,3,4,5],\
\"read\":{\"k\":3,\"of\":\"all\"},\"write\":{\"k\":4,\"of\":\"all\"},\"meets\":{\"rule\":\"match\",\"left\":0,\"right\":0,\
\"pairs\":[[0,0],[1,1],[2,2],[3,3],[4,4],[5,5]],\"then\":[\
{\"rule\":\"clash\",\"left\":0,\"right\":0},{\"rule\":\"clash\",\"left\":0,\"right\":0},{\"rule\":\"clash\",\"left\":0,\"right\":0},\
{\"rule\":\"clash\",\"left\":0,\"right\":0},{\"rule\":\"clash\",\"left\":0,\"right\":0},{\"rule\":\"clash\",\"left\":0,\"right\":0}]},\"step\":null}]}]}";

/// How many transactions a round has.
const ISSUES: u32 = 16;

/// How many nodes a record goes to.
const NODES: u8 = 4;

/// How many blocks there are.
const BLOCKS: u32 = 64;

/// Sees nothing of what nodes answer.
struct Blind;

impl StepGate for Blind {
    fn prepared(&self, _answers: &Messages) {}
}

/// Passes that make steps in turn.
#[derive(Drop)]
struct Callers<'a, L: FleetSite> {
    passes: Vec<Pass<'a, L>>,
    at: usize,
}

impl<'a, L: FleetSite> Callers<'a, L> {
    /// The pass whose turn it is.
    fn next(&mut self) -> Option<&mut Pass<'a, L>> {
        self.at = if self.at < 1 {
            self.passes.len().saturating_sub(1)
        } else {
            self.at - 1
        };
        self.passes.get_mut(self.at)
    }
}

/// How long each window of one kind took, in nanoseconds for each of its steps.
#[derive(Drop)]
struct Times {
    each: Vec<u64>,
}

impl Times {
    /// So many windows, none of them timed.
    fn new(alloc: Global, windows: usize) -> Result<Times, AllocError> {
        Ok(Times {
            each: Vec::with_capacity(alloc, windows)?,
        })
    }

    /// A window of so many steps that began then.
    fn add<R: Clock>(&mut self, rt: &R, start: Instant, steps: usize) -> Option<()> {
        let passed = start.elapsed(rt).ok()?;
        let each = passed.as_nanos() * 10 / u128::try_from(steps.max(1)).ok()?;
        self.each.push(u64::try_from(each).ok()?).ok()
    }

    /// The least and the lower quarter, in tenths of a nanosecond.
    fn told(&mut self) -> Option<(u64, u64)> {
        self.each.sort().ok()?;
        let least = self.each.first()?;
        let quarter = self.each.get(self.each.len() / 4)?;
        Some((*least, *quarter))
    }
}

/// The windows of each kind.
#[derive(Drop)]
struct Table {
    issued: Times,
    given: Times,
    delivered: Times,
    taken: Times,
    restarted: Times,
}

/// The numbers of the messages that a round made.
#[derive(Drop)]
struct Made {
    writes: Vec<u64>,
    acks: Vec<u64>,
}

/// A transaction of so many changes of 8 bytes, to the blocks from this one on.
fn transaction(alloc: Global, first: u32, changes: u32) -> Result<Vec<Change>, AllocError> {
    let mut all = Vec::with_capacity(alloc, changes as usize)?;
    for change in 0..changes {
        let block = first.wrapping_add(change) % BLOCKS;
        all.push(Change::new(alloc, 0, block, 0, &[5; 8])?)?;
    }
    Ok(all)
}

/// The transactions of a round.
fn transactions(alloc: Global, changes: u32) -> Result<Vec<Vec<Change>>, AllocError> {
    let mut all = Vec::with_capacity(alloc, ISSUES as usize)?;
    for issue in 0..ISSUES {
        all.push(transaction(alloc, issue.wrapping_mul(changes), changes)?)?;
    }
    Ok(all)
}

/// Issues the transactions of a round.
#[inline(never)]
fn issue<'a, L: FleetSite, R: Wait + Clock>(
    rt: &R,
    fleet: &Fleet<'a, L>,
    callers: &mut Callers<'a, L>,
    transactions: &[Vec<Change>],
    writes: &mut Vec<u64>,
    times: &mut Times,
) -> Option<()> {
    let start = Instant::now(rt).ok()?;
    for changes in transactions {
        let action = ClientAction::Issue(changes);
        let receipt = fleet.client_step(rt, callers.next()?, 1, action).ok()?;
        for place in 0..receipt.made as u64 {
            writes.push(receipt.first_message.wrapping_add(place)).ok()?;
        }
    }
    times.add(rt, start, transactions.len())
}

/// Issues the transactions of a round, which the journal is given.
#[inline(never)]
fn give<'a, L: FleetSite, R: Wait + Clock>(
    rt: &R,
    fleet: &Fleet<'a, L>,
    callers: &mut Callers<'a, L>,
    transactions: Vec<Vec<Change>>,
    writes: &mut Vec<u64>,
    times: &mut Times,
) -> Option<()> {
    let count = transactions.len();
    let start = Instant::now(rt).ok()?;
    for changes in transactions {
        let receipt = fleet.issue(rt, callers.next()?, 1, changes).ok()?;
        for place in 0..receipt.made as u64 {
            writes.push(receipt.first_message.wrapping_add(place)).ok()?;
        }
    }
    times.add(rt, start, count)
}

/// Delivers the records of a round to the nodes.
#[inline(never)]
fn deliver<'a, L: FleetSite, R: Wait + Clock>(
    rt: &R,
    fleet: &Fleet<'a, L>,
    callers: &mut Callers<'a, L>,
    writes: &[u64],
    acks: &mut Vec<u64>,
    times: &mut Times,
) -> Option<()> {
    let start = Instant::now(rt).ok()?;
    for write in writes {
        for node in 0..NODES {
            let receipt = fleet.deliver(rt, callers.next()?, 0, node, *write, &Blind).ok()?;
            acks.push(receipt.first_message).ok()?;
        }
    }
    times.add(rt, start, acks.len())
}

/// Takes the acknowledgements of a round.
#[inline(never)]
fn take<'a, L: FleetSite, R: Wait + Clock>(
    rt: &R,
    fleet: &Fleet<'a, L>,
    callers: &mut Callers<'a, L>,
    acks: &[u64],
    times: &mut Times,
) -> Option<()> {
    let start = Instant::now(rt).ok()?;
    for ack in acks {
        let action = ClientAction::Take { message: *ack };
        let _ = fleet.client_step(rt, callers.next()?, 1, action).ok()?;
    }
    times.add(rt, start, acks.len())
}

/// Restarts the nodes, so many times in all.
#[inline(never)]
fn restart<'a, L: FleetSite, R: Wait + Clock>(
    rt: &R,
    fleet: &Fleet<'a, L>,
    callers: &mut Callers<'a, L>,
    count: usize,
    times: &mut Times,
) -> Option<()> {
    let start = Instant::now(rt).ok()?;
    for _ in 0..count / usize::from(NODES) {
        for node in 0..NODES {
            let _ = fleet.node_step(rt, callers.next()?, 0, node, NodeAction::Restart).ok()?;
        }
    }
    times.add(rt, start, count)
}

/// One round: its records are issued, delivered and acknowledged, and the nodes are restarted as often.
fn round<'a, L: FleetSite, R: Wait + Clock>(
    rt: &R,
    fleet: &Fleet<'a, L>,
    callers: &mut Callers<'a, L>,
    transactions: &Vec<Vec<Change>>,
    gives: bool,
    made: &mut Made,
    table: &mut Table,
) -> Option<()> {
    let Made { writes, acks } = made;
    let Table {
        issued,
        given,
        delivered,
        taken,
        restarted,
    } = table;
    writes.clear();
    acks.clear();
    if gives {
        give(rt, fleet, callers, transactions.clone().ok()?, writes, given)?;
    } else {
        issue(rt, fleet, callers, transactions.as_slice(), writes, issued)?;
    }
    deliver(rt, fleet, callers, writes.as_slice(), acks, delivered)?;
    take(rt, fleet, callers, acks.as_slice(), taken)?;
    restart(rt, fleet, callers, 64, restarted)
}

/// All rounds on a fleet, with transactions of so many changes.
fn rounds<'a, L: FleetSite, R: Wait + Clock>(
    rt: &R,
    alloc: Global,
    fleet: &Fleet<'a, L>,
    passes: Vec<Pass<'a, L>>,
    changes: u32,
    count: u32,
) -> Option<Table> {
    let windows = count as usize;
    let mut table = Table {
        issued: Times::new(alloc, windows).ok()?,
        given: Times::new(alloc, windows).ok()?,
        delivered: Times::new(alloc, windows).ok()?,
        taken: Times::new(alloc, windows).ok()?,
        restarted: Times::new(alloc, windows).ok()?,
    };
    let mut made = Made {
        writes: Vec::with_capacity(alloc, 4096).ok()?,
        acks: Vec::with_capacity(alloc, 16384).ok()?,
    };
    let transactions = transactions(alloc, changes).ok()?;
    let mut callers = Callers { passes, at: 0 };
    for number in 0..count {
        round(rt, fleet, &mut callers, &transactions, number % 2 > 0, &mut made, &mut table)?;
    }
    Some(table)
}

/// All rounds on a new fleet.
fn on_fleet<L: FleetSite, R: Wait + Clock>(
    rt: &R,
    alloc: Global,
    row: &mut Row,
    base: Base,
    plan: Arc<CheckedPlan>,
    changes: u32,
    count: u32,
) -> Option<Table>
    requires plan { checked_model (arc_value plan) ≡ L.plan }
    requires cells { ids_of row.old ≡ L.cells }
    requires slots { L.slots ≡ 64 }
    requires base { IsBaseOf L.plan L.board L.history L.mail L.name L.parts base }
{
    let (fleet, passes) = Fleet::<L>::new(alloc, row, base, plan, 64).ok()?;
    rounds(rt, alloc, &fleet, passes, changes, count)
}

/// All rounds on a fleet with so many passes.
fn timed<R: Wait + Clock>(
    rt: &R,
    alloc: Global,
    changes: u32,
    passes: usize,
    count: u32,
) -> Option<Table>
    requires passes { 0 < passes }
{
    let plan = read_plan(alloc, PLAN).ok()?;
    let checked = check_plan(alloc, plan).ok()?;
    let plan = Arc::new(alloc, checked).ok()?;
    let cells = 1u64.checked_add(2 * 4 * u64::from(changes))? * 16 + 64;
    let mut row = Row::new(alloc, usize::try_from(cells.checked_mul(u64::from(count))?).ok()?).ok()?;
    let base = Base::new(alloc, &plan, passes).ok()?;
    on_fleet::<Brand, R>(rt, alloc, &mut row, base, plan, changes, count)
}

fn told<R: Print>(rt: &R, kind: &str, times: &mut Times) -> io::Result<()> {
    let (least, quarter) = times.told().unwrap_or((0, 0));
    println!(rt; "{kind} {least} {quarter}")
}

fn run<R: Clock + Print + Env + Wait>(rt: &R, alloc: Global) -> io::Result<bool> {
    let words: Vec<String> = env::args(&(rt, alloc))?.collect(alloc)?;
    let [_, changes, passes, rounds] = words.as_slice() else {
        return Ok(false);
    };
    let changes = changes.as_str().parse::<u32>().unwrap_or(1).clamp(1, 32);
    let passes = passes.as_str().parse::<usize>().unwrap_or(1).clamp(1, 16);
    let rounds = rounds.as_str().parse::<u32>().unwrap_or(1).clamp(1, 10000);
    let Some(mut table) = timed(rt, alloc, changes, passes, rounds) else {
        return Ok(false);
    };
    told(rt, "issued", &mut table.issued)?;
    told(rt, "given", &mut table.given)?;
    told(rt, "delivered", &mut table.delivered)?;
    told(rt, "taken", &mut table.taken)?;
    told(rt, "restarted", &mut table.restarted)?;
    Ok(true)
}

fn main(rt: HostRuntime) -> ExitCode {
    match run(&rt, rt.alloc()) {
        Ok(true) => ExitCode::from(0),
        _ => ExitCode::from(1),
    }
}
"""

SITE = """-- The fleet's site is what the arguments of the call are.
use Rattle.std.specs.Arc.{arc_value}
use Rattle.board.specs.Seats.{board_table}
use Rattle.plan.specs.CheckedModel.{checked_model}
use Rattle.journal.specs.Fronts.{book_of}
use Rattle.journal.specs.Tokens.{ids_of}
use Rattle.node_fleet.specs.Bases.{mail_in, passes_of}
use Rattle.step_work.proofs.timed.Given as goal

abbrev pub ghosts-on_fleet-L-Ledger : goal.ghosts-on_fleet-L-Ledger
ghosts-on_fleet-L-Ledger g a = record { name = a.base.blank.name; parts = passes_of a.base }

abbrev pub ghosts-on_fleet-L-Site : goal.ghosts-on_fleet-L-Site
ghosts-on_fleet-L-Site g a = record { plan = checked_model (arc_value a.plan); cells = ids_of a.row.now; board = board_table a.base.board; history = book_of a.base.opened; slots = 64 }

abbrev pub ghosts-on_fleet-L-FleetSite : goal.ghosts-on_fleet-L-FleetSite
ghosts-on_fleet-L-FleetSite g a = record { mail = mail_in a.base }
"""

CRATES = ["volume_model", "plan", "redo_record", "wire", "epochs", "segment_core", "writer_core", "world", "board", "journal", "node_fleet"]

# Changes a transaction, passes, rounds.
JOBS = [(1, 1, 200), (1, 4, 200), (8, 1, 30), (8, 4, 30)]

RUNS = 7


def run(program, job):
    """The least window and the lower quartile of each kind, in nanoseconds for each call."""
    text = subprocess.run([program, *map(str, job)], check=True, capture_output=True, text=True).stdout
    lines = (line.split() for line in text.splitlines())
    return {kind: (int(least) / 10, int(quarter) / 10) for kind, least, quarter in lines}


def least(runs):
    """The least of all runs for each kind."""
    return {kind: tuple(min(run[kind][i] for run in runs) for i in range(2)) for kind in runs[0]}


def measured(programs, job):
    """The times of each program, with all of them run in turn."""
    runs = {program: [] for program in programs}
    for _ in range(RUNS):
        for program in programs:
            runs[program].append(run(program, job))
    return [least(runs[program]) for program in programs]


def programs(folder, words):
    """The programs that are measured: the one built here, and those that are named."""
    if words and words[0] == "--draft":
        out = pathlib.Path(words[1]).resolve()
        drafted(out, laid_out(folder, "step_work", PROGRAM, CRATES), ["1", "1", "200"])
        return [out, *words[2:]]
    return [built(folder, "step_work", PROGRAM, CRATES, ["1", "1", "2"], {"timed/Invariants.antt": SITE}), *words]


def main(*words):
    with tempfile.TemporaryDirectory() as folder:
        all_programs = programs(pathlib.Path(folder), words)
        for job in JOBS:
            changes, passes, _ = job
            print(f"{changes} changes a transaction, {passes} passes")
            ours, *others = measured(all_programs, job)
            for kind, (low, quarter) in ours.items():
                text = f"  {kind}: {quarter:.1f} ns, at least {low:.1f}"
                for other in others:
                    least_plain, plain = other.get(kind, other["issued"])
                    text += f"; plain {plain:.1f}, at least {least_plain:.1f}; ratio {quarter / plain:.2f}"
                print(text)


if __name__ == "__main__":
    main(*sys.argv[1:])

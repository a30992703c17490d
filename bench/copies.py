#!/usr/bin/env python3
"""Measures what copies and installs of 1,000 to 1,000,000 records cost, piece by piece.

    python3 bench/copies.py

It builds a small program over the crate `segment_core` in a folder of its own, which takes some minutes where the crates weren't proved before, and then times it on one core. A member with that many records sends copies to new members, each of which takes all pieces and becomes whole; or its contents are installed on it, with one volume epoch after the other. Printed are, for each record, the least time of several runs with ROUNDS copies or installs minus the least of runs with none, and the most memory of a run with one copy or install minus that of a run with none.
"""
import os
import pathlib
import sys
import tempfile

sys.dont_write_bytecode = True
from building import built
from scripts import run

PROGRAM = r"""//! Tells what a segment holds as copies, or has it installed, so often as it is told.
#![tactic(auto)]

use lineage::Lineage;
use plan::{CheckedPlan, check_plan, read_plan};
use redo_record::{Packet, Payload, Record};
use segment_core::Segment;
use std::alloc::Global;
use std::process::ExitCode;
use std::sync::Arc;
use std::{env, io};
use volume_model::Fault;
use wire::{Contents, CopyAsk, Fence, Install, Label, Message, Messages, Place, StepTo, Write};

/// One group. Member 0 alone reads and writes; member 1 joins with the child of the root.
const PLAN: &[u8] = b"{\"format\":1,\"lal\":10,\"groups\":[{\"configurations\":[\
{\"parent\":null,\"members\":[0],\"full\":[0],\"read\":0,\"write\":0,\"meets\":{\"rule\":\"clash\",\"left\":0,\"right\":0},\"step\":null},\
{\"parent\":0,\"members\":[0,1],\"full\":[0],\"read\":0,\"write\":0,\"meets\":{\"rule\":\"clash\",\"left\":0,\"right\":0},\"step\":{\"rule\":\"clash\",\"left\":0,\"right\":0}}]}]}";

/// The step to the child.
const STEP: Message = Message::StepTo(StepTo {
    group: 0,
    place: Place {
        configuration: 1,
        epoch: 2,
    },
});

fn plan(alloc: Global) -> Result<Arc<CheckedPlan>, Fault> {
    let Ok(plan) = read_plan(alloc, PLAN) else {
        return Err(Fault::Malformed);
    };
    let Ok(checked) = check_plan(alloc, plan) else {
        return Err(Fault::NoCertificate);
    };
    Ok(Arc::new(alloc, checked)?)
}

/// The record of a number from 1 to 1,048,576, chained to the one before it.
fn packet(alloc: Global, number: u64) -> Result<Packet, Fault> {
    let Some(bytes) = Payload::new(&[7; 16]) else {
        return Err(Fault::BadField);
    };
    let back = number.saturating_sub(1).min(1_048_575);
    let record = Record {
        lsn: back + 1,
        volume_epoch: 1,
        prev_volume: back,
        prev_group: back,
        prev_block: 0,
        group: 0,
        block: (back % 4096) as u32,
        offset: 0,
        bytes,
        point: true,
    };
    Ok(Packet::pack(alloc, record)?)
}

/// Member 0 with so many records, at membership epoch 2.
fn holder(alloc: Global, plan: &Arc<CheckedPlan>, count: u64) -> Result<Segment, Fault> {
    let mut holder = Segment::new(alloc, plan.clone()?, 0, 0)?;
    let label = Label {
        volume: 1,
        member: 1,
    };
    for before in 0..count {
        let packet = packet(alloc, before.saturating_add(1))?;
        let write = Write {
            group: 0,
            label,
            packet,
        };
        holder.deliver(alloc, &Message::Write(write))?;
    }
    holder.deliver(alloc, &STEP)?;
    Ok(holder)
}

/// Makes a fresh member whole from one copy; its complete point.
fn copied(alloc: Global, plan: &Arc<CheckedPlan>, holder: &mut Segment) -> Result<u64, Fault> {
    let mut fresh = Segment::new(alloc, plan.clone()?, 0, 1)?;
    fresh.deliver(alloc, &STEP)?;
    let ask = Message::CopyAsk(CopyAsk { group: 0, epoch: 2 });
    let pieces = holder.deliver(alloc, &ask)?;
    for at in 0..pieces.len() {
        fresh.deliver(alloc, pieces.at(at))?;
    }
    fresh.hydrate(alloc)?;
    Ok(fresh.scl())
}

/// Installs contents under a volume epoch; the complete point then.
fn installed(
    alloc: Global,
    holder: &mut Segment,
    contents: &Contents,
    volume: u32,
) -> Result<u64, Fault> {
    let label = Label { volume, member: 2 };
    let Ok(of) = u16::try_from(contents.pieces()) else {
        return Err(Fault::Full);
    };
    for piece in 0..of {
        let mut contents = contents.piece(usize::from(piece))?;
        contents.lineage = Lineage::empty(alloc);
        let install = Install {
            group: 0,
            label,
            piece,
            of,
            contents: Box::new(alloc, contents)?,
        };
        holder.deliver(alloc, &Message::Install(install))?;
    }
    Ok(holder.scl())
}

/// What the member reports to a recovery.
fn reported(alloc: Global, holder: &mut Segment) -> Result<Contents, Fault> {
    let fence = Fence {
        group: 0,
        label: Label {
            volume: 2,
            member: 2,
        },
    };
    match holder.deliver(alloc, &Message::Fence(fence))? {
        Messages::One(Message::Report(report)) => Ok(Box::into_inner(report.contents)),
        _ => Err(Fault::NoMessage),
    }
}

/// The complete points after so many copies or installs, added up.
fn work(alloc: Global, job: &str, count: u64, times: u32) -> Result<u64, Fault> {
    let plan = plan(alloc)?;
    let mut holder = holder(alloc, &plan, count)?;
    let mut sum = holder.scl();
    let contents = reported(alloc, &mut holder)?;
    for round in 0..times {
        let point = if job == "copy" {
            copied(alloc, &plan, &mut holder)?
        } else {
            installed(alloc, &mut holder, &contents, round.saturating_add(3))?
        };
        sum = sum.saturating_add(point);
    }
    Ok(sum)
}

fn run(rt: &HostRuntime) -> io::Result<bool> {
    let alloc = rt.alloc();
    let words: Vec<String> = env::args(rt)?.collect(alloc)?;
    let [_, job, count, times] = words.as_slice() else {
        return Ok(false);
    };
    let count = count.as_str().parse::<u64>().unwrap_or(0);
    let times = times.as_str().parse::<u32>().unwrap_or(0);
    let due = count.saturating_mul(u64::from(times).saturating_add(1));
    Ok(work(alloc, job.as_str(), count, times).unwrap_or(0) == due)
}

fn main(rt: HostRuntime) -> ExitCode {
    match run(&rt) {
        Ok(true) => ExitCode::from(0),
        _ => ExitCode::from(1),
    }
}
"""

CRATES = ["volume_model", "plan", "redo_record", "lineage", "wire", "segment_core"]
ROUNDS = {1_000: 1_000, 10_000: 100, 100_000: 10, 1_000_000: 2}
RUNS = 3


def least(program, job, count, times, path):
    """The least seconds and the most memory, in MB, of some runs."""
    ran = [run([program, job, str(count), str(times)], path) for _ in range(RUNS)]
    if any(status != 0 for _, _, status, _ in ran):
        sys.exit(f"{job} of {count:,} records, {times} times: another complete point than was worked out")
    return min(took for took, _, _, _ in ran), max(memory for _, memory, _, _ in ran)


def main():
    os.sched_setaffinity(0, {min(os.sched_getaffinity(0))})
    with tempfile.TemporaryDirectory() as folder:
        program = str(built(pathlib.Path(folder), "copy_work", PROGRAM, CRATES, ["copy", "1", "1"]))
        path = os.path.join(folder, "out")
        print("| What | Records | Pieces | Time a record | Memory a record |")
        print("|---|---|---|---|---|")
        for job in ("copy", "install"):
            for count, rounds in ROUNDS.items():
                bare, held = least(program, job, count, 0, path)
                _, more = least(program, job, count, 1, path)
                took, _ = least(program, job, count, rounds, path)
                each = (took - bare) / rounds / count
                print(f"| {job} | {count:,} | {-(-count // 256):,} | {each * 1e9:.0f} ns | {(more - held) * 1e6 / count:.0f} B |", flush=True)


if __name__ == "__main__":
    main()

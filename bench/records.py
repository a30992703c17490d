#!/usr/bin/env python3
"""Measures how fast records are encoded, decoded and applied to pages.

    python3 bench/records.py

It builds a small program over the crates `redo_record` and `pages` in another folder, which takes some minutes, and then times it: for each job the
time of many rounds minus that of a few, so that the start doesn't count.
"""
import pathlib
import subprocess
import tempfile
import time

from building import built

PROGRAM = r"""//! Encodes records, decodes them, or makes a page of them, so often as it is told.
#![tactic(auto)]

use pages::page_of;
use redo_record::{Packet, Payload, Record, decode, encode};
use std::alloc::Global;
use std::process::ExitCode;
use std::{env, io};
use volume_model::Fault;

/// A record of 64 bytes, with one of eight numbers.
fn record(round: u64) -> Option<Record> {
    Some(Record {
        lsn: 9 + round % 8,
        volume_epoch: 1,
        prev_volume: 8,
        prev_group: 8,
        prev_block: 8,
        group: 0,
        block: 7,
        offset: 64,
        bytes: Payload::new(&[5; 64])?,
        point: true,
    })
}

fn encoded(alloc: Global, times: u64) -> Result<u64, Fault> {
    let mut sum = 0u64;
    for round in 0..times {
        let Some(record) = record(round) else {
            return Err(Fault::BadField);
        };
        let text = encode(alloc, &record)?;
        sum = sum.saturating_add(text.iter().map(|byte| u64::from(*byte)).max().unwrap_or(0));
    }
    Ok(sum)
}

/// The texts of so many records.
fn texts(alloc: Global, count: u64) -> Result<Vec<Vec<u8>>, Fault> {
    let mut texts = Vec::new(alloc);
    for round in 0..count {
        let Some(record) = record(round) else {
            return Err(Fault::BadField);
        };
        texts.push(encode(alloc, &record)?)?;
    }
    Ok(texts)
}

fn decoded(alloc: Global, times: u64) -> Result<u64, Fault> {
    let texts = texts(alloc, 1000)?;
    let mut sum = 0u64;
    'rounds: for _ in 0..times / 1000 + 1 {
        for text in &texts {
            let record = decode(text.as_slice())?;
            sum = sum.saturating_add(record.lsn).saturating_add(u64::from(record.bytes.as_slice().iter().copied().max().unwrap_or(0)));
        }
    }
    Ok(sum)
}

fn paged(alloc: Global, record: Record, times: u64) -> Result<u64, Fault> {
    let lsn = record.lsn;
    let packet = Packet::pack(alloc, record)?;
    let mut packets = Vec::with_capacity(alloc, 16)?;
    for _ in 0..16 {
        packets.push(packet.clone()?)?;
    }
    let mut sum = 0u64;
    for round in 0..times {
        sum = sum.saturating_add(u64::from(page_of(packets.as_slice(), 7, lsn + round % 2)[64]));
    }
    Ok(sum)
}

fn work(alloc: Global, job: &str, times: u64) -> Result<u64, Fault> {
    let Some(record) = record(0) else {
        return Err(Fault::BadField);
    };
    match job {
        "encode" => encoded(alloc, times),
        "decode" => decoded(alloc, times),
        _ => paged(alloc, record, times),
    }
}

fn run(rt: &HostRuntime) -> io::Result<u64> {
    let alloc = rt.alloc();
    let words: Vec<String> = env::args(rt)?.collect(alloc)?;
    let [_, job, times] = words.as_slice() else {
        return Ok(0);
    };
    let times = times.as_str().parse::<u64>().unwrap_or(0);
    Ok(work(alloc, job.as_str(), times).unwrap_or(0))
}

fn main(rt: HostRuntime) -> ExitCode {
    match run(&rt) {
        Ok(done) if done > 0 => ExitCode::from(0),
        _ => ExitCode::from(1),
    }
}
"""

ROUNDS = {"encode": 3_000_000, "decode": 3_000_000, "page": 300_000}
BYTES = {"encode": 109, "decode": 109}


def seconds(program, job, rounds):
    """The least time of five runs."""
    times = []
    for _ in range(5):
        start = time.perf_counter()
        subprocess.run([program, job, str(rounds)], check=True)
        times.append(time.perf_counter() - start)
    return min(times)


def main():
    with tempfile.TemporaryDirectory() as folder:
        program = built(pathlib.Path(folder), "record_work", PROGRAM, ["volume_model", "redo_record", "pages"], ["encode", "1"])
        for job, rounds in ROUNDS.items():
            each = (seconds(program, job, rounds) - seconds(program, job, 1)) / rounds
            if job in BYTES:
                print(f"{job}: {each * 1e9:.0f} ns a record of 64 bytes, {BYTES[job] / each / 1e6:.0f} MB/s")
            else:
                print(f"{job}: {each * 1e9:.0f} ns a page of 16 records, {1 / each:.0f} pages/s")


if __name__ == "__main__":
    main()

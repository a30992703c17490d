#!/usr/bin/env python3
"""Measures what raising and reading the board costs beside a bare `fetch_max` and a bare load of a word.

    python3 bench/board.py

It builds a small program over the crate `board`, which takes some minutes, and then times it: for each job the time of many rounds minus that
of a few, so that the start doesn't count. The jobs run in turn, and the least of ten rounds of each counts.
"""
import pathlib
import subprocess
import tempfile
import time

from building import built

PROGRAM = r"""//! Raises or reads a board, or a bare word, so often as it is told.
#![tactic(auto)]

ghost use Rattle.board.specs.Seats.{IsSeatOf};

use board::{Board, BoardSeat};
use std::alloc::{AllocError, Global};
use std::process::ExitCode;
use std::sync::atomic::{AtomicU64, Ordering};
use std::{env, io};

/// A seat at a board.
#[derive(Drop)]
struct Holder<'b> {
    board: &'b Board,
    seat: BoardSeat,
    ghost of: { IsSeatOf board.now seat },
}

impl Holder<'_> {
    fn raise(&mut self, lsn: u64) {
        let Holder { board, seat, .. } = self;
        board.raise(seat, lsn);
    }

    fn read(&mut self) -> u64 {
        let Holder { board, seat, .. } = self;
        board.durable(seat)
    }
}

fn raised(holder: &mut Holder<'_>, times: u64) -> u64 {
    for lsn in 0..times {
        holder.raise(lsn);
    }
    holder.read()
}

fn read(holder: &mut Holder<'_>, times: u64) -> u64 {
    let mut sum = 0u64;
    for _ in 0..times {
        sum = sum.wrapping_add(holder.read());
    }
    sum
}

fn raised_bare(word: &AtomicU64, times: u64) -> u64 {
    for lsn in 0..times {
        let _ = word.fetch_max(lsn, Ordering::SeqCst);
    }
    word.load(Ordering::SeqCst)
}

fn read_bare(word: &AtomicU64, times: u64) -> u64 {
    let mut sum = 0u64;
    for _ in 0..times {
        sum = sum.wrapping_add(word.load(Ordering::SeqCst));
    }
    sum
}

fn on_board(alloc: Global, reads: bool, times: u64) -> Result<u64, AllocError> {
    let (board, mut seats) = Board::new(alloc, 1)?;
    let Some(seat) = seats.pop() else {
        return Err(AllocError);
    };
    let mut holder = Holder { board: &board, seat };
    Ok(if reads {
        read(&mut holder, times)
    } else {
        raised(&mut holder, times)
    })
}

fn run(rt: &HostRuntime) -> io::Result<u64> {
    let alloc = rt.alloc();
    let words: Vec<String> = env::args(rt)?.collect(alloc)?;
    let [_, job, times] = words.as_slice() else {
        return Ok(0);
    };
    let times = times.as_str().parse::<u64>().unwrap_or(0);
    let word = AtomicU64::new(0);
    Ok(match job.as_str() {
        "raise" => on_board(alloc, false, times)?,
        "read" => on_board(alloc, true, times)?,
        "bare_raise" => raised_bare(&word, times),
        _ => read_bare(&word, times),
    })
}

fn main(rt: HostRuntime) -> ExitCode {
    match run(&rt) {
        Ok(_) => ExitCode::from(0),
        Err(_) => ExitCode::from(1),
    }
}
"""

ROUNDS = {"raise": 20_000_000, "bare_raise": 20_000_000, "read": 200_000_000, "bare_read": 200_000_000}


def seconds(program, job, rounds):
    start = time.perf_counter()
    subprocess.run([program, job, str(rounds)], check=True)
    return time.perf_counter() - start


def main():
    with tempfile.TemporaryDirectory() as folder:
        program = built(pathlib.Path(folder), "board_work", PROGRAM, ["board", "atomic_table"], ["raise", "1"])
        least = {}
        for _ in range(10):
            for job, rounds in ROUNDS.items():
                each = (seconds(program, job, rounds) - seconds(program, job, 1)) / rounds
                least[job] = min(each, least.get(job, each))
        for job, bare in ("raise", "bare_raise"), ("read", "bare_read"):
            print(f"{job}: {least[job] * 1e9:.2f} ns, bare {least[bare] * 1e9:.2f} ns, ratio {least[job] / least[bare]:.2f}")


if __name__ == "__main__":
    main()

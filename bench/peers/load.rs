//! What the programs in Rust share: the transactions of a load, the threads that make them, and the line that is printed.
//!
//! `PROGRAM ROWS READS SPAN WRITES THREADS COUNT WAY`, as in `load.h`. The way is `each`, a lock for each transaction, or `held`, one for 16.
#![allow(dead_code)] // each program uses a part of it

use std::env::args;
use std::process::ExitCode;
use std::sync::atomic::{AtomicU64, Ordering};
use std::thread;
use std::time::Instant;

/// How many transactions a thread takes at a time.
const BATCH: u64 = 16;

/// What each transaction of a load does, and on how many rows.
#[derive(Clone, Copy)]
pub struct Shape {
    pub rows: u64,
    pub reads: u64,
    pub span: u64,
    pub writes: u64,
}

/// A load, and how its transactions are made.
#[derive(Clone, Copy)]
pub struct Task {
    pub shape: Shape,
    threads: u64,
    count: u64,
    /// Whether 16 transactions are made in one holding of the lock.
    pub keeps: bool,
}

/// Numbers that look like chance and are the same in each run.
pub struct Dice(u64);

impl Dice {
    fn below(&mut self, limit: u64) -> u64 {
        // the factor and the summand of Knuth's MMIX
        self.0 = self
            .0
            .wrapping_mul(6_364_136_223_846_793_005)
            .wrapping_add(1_442_695_040_888_963_407);
        (self.0 >> 33) % limit
    }
}

impl Shape {
    /// The first key of the next transaction.
    pub fn first(&self, dice: &mut Dice) -> u64 {
        dice.below(self.rows - self.span)
    }

    /// The key at a place of a transaction.
    pub fn key(&self, first: u64, place: u64) -> u64 {
        (first + place * if self.span > 0 { 1 } else { 7_919 }) % self.rows
    }
}

/// What a write adds to the row at its place.
pub fn amount(place: u64) -> i64 {
    if place % 2 == 0 {
        -1
    } else {
        1
    }
}

impl Task {
    /// The task that the words of the call tell.
    pub fn told() -> Option<Task> {
        let words: Vec<String> = args().skip(1).collect();
        let (way, numbers) = words.split_last()?;
        let numbers: Vec<u64> = numbers
            .iter()
            .map(|word| word.parse().ok())
            .collect::<Option<_>>()?;
        let [rows, reads, span, writes, threads, count] = numbers[..] else {
            return None;
        };
        let shape = Shape {
            rows,
            reads,
            span,
            writes,
        };
        Some(Task {
            shape,
            threads,
            count,
            keeps: way == "held",
        })
    }

    /// Makes transactions until all are made, in one of the threads. The answer is how many it made.
    fn work(&self, thread: u64, given: &AtomicU64, make: &impl Fn(&mut Dice, u64)) -> u64 {
        let mut dice = Dice(thread.wrapping_mul(0x9E37_79B9_7F4A_7C15) | 1);
        let mut made = 0;
        loop {
            let many = self
                .count
                .saturating_sub(given.fetch_add(BATCH, Ordering::SeqCst))
                .min(BATCH);
            if many == 0 {
                return made;
            }
            make(&mut dice, many);
            made += many;
        }
    }

    /// Has threads make transactions, by a call that makes so many, and prints what became of it. `sum` is that of all rows at the end,
    /// and `each` what a transaction adds to it.
    pub fn play(
        &self,
        make: impl Fn(&mut Dice, u64) + Sync,
        sum: impl FnOnce() -> i64,
        each: i64,
    ) -> ExitCode {
        let (given, begun) = (&AtomicU64::new(0), Instant::now());
        let made: Vec<u64> = thread::scope(|scope| {
            let make = &make;
            let threads: Vec<_> = (0..self.threads)
                .map(|thread| scope.spawn(move || self.work(thread, given, make)))
                .collect();
            threads
                .into_iter()
                .map(|thread| thread.join().unwrap_or(0))
                .collect()
        });
        let (micros, all) = (begun.elapsed().as_micros(), made.iter().sum::<u64>());
        let right = all == self.count && sum() == each * all as i64;
        let least = made.iter().min().unwrap_or(&0);
        let told = if right {
            "as it must be"
        } else {
            "and something is wrong"
        };
        println!("{all} committed, 0 backed up, {micros} us, at least {least} by a thread, {told}");
        ExitCode::from(u8::from(!right))
    }
}

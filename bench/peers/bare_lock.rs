//! A lock that is held as often as a store's lock is for the same transactions by a worker, with nothing done in it: once for each read
//! and once for a serial end, all within a lease, which is a second lock.

#[path = "load.rs"]
mod load;

use load::Task;
use std::hint::black_box;
use std::process::ExitCode;
use std::sync::{Mutex, PoisonError};

fn main() -> ExitCode {
    let Some(task) = Task::told() else {
        eprintln!("bare_lock ROWS READS SPAN WRITES THREADS COUNT WAY");
        return ExitCode::from(2);
    };
    let shape = task.shape;
    let events = shape.reads + u64::from(shape.span > 0) + 1;
    let (lease, store) = (Mutex::new(()), Mutex::new(0));
    let locked = || store.lock().unwrap_or_else(PoisonError::into_inner);
    task.play(
        |dice, many| {
            let (leases, in_each) = if task.keeps { (1, many) } else { (many, 1) };
            for _ in 0..leases {
                let _lease = lease.lock();
                for _ in 0..in_each {
                    black_box(shape.key(shape.first(dice), 0));
                    for _ in 0..events {
                        *locked() += 1;
                    }
                }
            }
        },
        || *locked(),
        events as i64,
    )
}

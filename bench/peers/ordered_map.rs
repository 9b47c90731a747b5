//! The loads on an ordered map under one lock, with no log and no validation.

#[path = "load.rs"]
mod load;

use load::{amount, Shape, Task};
use std::collections::BTreeMap;
use std::hint::black_box;
use std::process::ExitCode;
use std::sync::{Mutex, PoisonError};

type Map = BTreeMap<u64, i64>;

/// Does the reads and writes of a transaction.
fn turn(rows: &mut Map, shape: &Shape, first: u64) {
    let mut number = 0;
    if shape.span > 0 {
        for (place, (_, row)) in rows.range(first..first + shape.span).enumerate() {
            let read = black_box(*row);
            number = if place == 0 { read } else { number };
        }
    }
    for place in 0..shape.reads.max(shape.writes) {
        let key = shape.key(first, place);
        if place < shape.reads {
            number = black_box(rows.get(&key).copied().unwrap_or(0));
        }
        if place < shape.writes {
            rows.insert(key, number + amount(place));
        }
    }
}

fn main() -> ExitCode {
    let Some(task) = Task::told() else {
        eprintln!("ordered_map ROWS READS SPAN WRITES THREADS COUNT WAY");
        return ExitCode::from(2);
    };
    let shape = task.shape;
    let map = Mutex::new((0..shape.rows).map(|key| (key, 0)).collect::<Map>());
    let locked = || map.lock().unwrap_or_else(PoisonError::into_inner);
    let each = (0..shape.writes).map(amount).sum();
    task.play(
        |dice, many| {
            let (holdings, in_each) = if task.keeps { (1, many) } else { (many, 1) };
            for _ in 0..holdings {
                let mut rows = locked();
                for _ in 0..in_each {
                    turn(&mut rows, &shape, shape.first(dice));
                }
            }
        },
        || locked().values().sum(),
        each,
    )
}

//! The kernel and the reference, timed side by side: prints the table that
//! docs/PERFORMANCE.md keeps.

mod kernel;
mod lent;
mod numbers;
mod rows;
mod same;
mod show;
mod timing;

use std::hint::black_box;

use rows::Row;
use same::Made;
use timing::{alone, race, Times};

/// All rows are gone through so many times, and the best times kept: what else
/// the machine does may last longer than one measurement.
const TURNS: usize = 5;

/// What each function takes over one row.
#[derive(Clone, Copy)]
pub struct Measured {
    pub decision: Times,
    pub checker: Times,
    pub translation: Times,
    pub key_decision: Times,
    pub reading: Times,
    /// Of the numbers alone, in nanoseconds.
    pub numbers: f64,
}

impl Measured {
    fn best(self, other: Measured) -> Measured {
        Measured {
            decision: self.decision.best(other.decision),
            checker: self.checker.best(other.checker),
            translation: self.translation.best(other.translation),
            key_decision: self.key_decision.best(other.key_decision),
            reading: self.reading.best(other.reading),
            numbers: self.numbers.min(other.numbers),
        }
    }
}

fn main() {
    let rows = rows::all();
    let made: Vec<Made> = rows.iter().map(same::ask).collect();
    let measure_all = || rows.iter().zip(&made).map(|(row, made)| measure(row, made));
    let mut best: Vec<Measured> = measure_all().collect();
    for _ in 1..TURNS {
        for (best, measured) in best.iter_mut().zip(measure_all()) {
            *best = best.best(measured);
        }
    }
    show::table(&rows, &best);
}

fn measure(row: &Row, made: &Made) -> Measured {
    Measured {
        decision: decision(row),
        checker: checker(row, made),
        translation: translation(row),
        key_decision: key_decision(row, made),
        reading: reading(row),
        numbers: numbers(row),
    }
}

fn decision(row: &Row) -> Times {
    let (table, request) = (&row.table, &row.request);
    let (mut sheet, mut derivation) = (lent::sheet(), lent::derivation());
    let (mut other_sheet, mut other_derivation) = (lent::sheet(), lent::derivation());
    race(
        || {
            let (sheet, derivation) = black_box((&mut sheet, &mut derivation));
            black_box(kernel::decide(
                black_box(table),
                black_box(request),
                sheet,
                derivation,
            ));
        },
        || {
            let (sheet, derivation) = black_box((&mut other_sheet, &mut other_derivation));
            black_box(reference::decide(
                black_box(table),
                black_box(request),
                sheet,
                derivation,
            ));
        },
    )
}

fn checker(row: &Row, made: &Made) -> Times {
    let (table, request, derivation) = (&row.table, &row.request, &made.derivation);
    race(
        || {
            let (table, request, derivation) = black_box((table, request, derivation));
            black_box(kernel::check(table, request, derivation));
        },
        || {
            let (table, request, derivation) = black_box((table, request, derivation));
            black_box(reference::check(table, request, derivation));
        },
    )
}

fn translation(row: &Row) -> Times {
    let (mut ours, mut theirs) = (lent::key_table(), lent::key_table());
    race(
        || {
            black_box(kernel::translate(
                black_box(&row.table),
                black_box(&mut ours),
            ));
        },
        || {
            black_box(reference::translate(
                black_box(&row.table),
                black_box(&mut theirs),
            ));
        },
    )
}

fn key_decision(row: &Row, made: &Made) -> Times {
    let (key_table, key_request) = (&made.key_table, &row.key_request);
    race(
        || {
            let (key_table, key_request) = black_box((key_table, key_request));
            black_box(kernel::decide_by_keys(key_table, key_request));
        },
        || {
            let (key_table, key_request) = black_box((key_table, key_request));
            black_box(reference::decide_by_keys(key_table, key_request));
        },
    )
}

fn reading(row: &Row) -> Times {
    race(
        || {
            black_box(kernel::read(black_box(&row.table)));
        },
        || {
            black_box(reference::read_table(black_box(&row.table))).ok();
        },
    )
}

fn numbers(row: &Row) -> f64 {
    alone(|| {
        black_box(numbers::sum(black_box(&row.table))).expect("a good table is numbers alone");
    })
}

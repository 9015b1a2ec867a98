//! The table of times.

use crate::rows::Row;
use crate::timing::Times;
use crate::Measured;

/// The kernel is meant to be this many times as fast as the reference.
const AIM: f64 = 2.0;

/// Prints the table: a line for each row.
pub fn table(rows: &[Row], measured: &[Measured]) {
    println!("Kernel / reference, in microseconds; reading and numbers alone: in megabytes a second. ×: how many times faster the kernel is.");
    println!();
    println!("| table | bytes | decision | checker | translation | key decision | reading | numbers alone |");
    println!("|---|---|---|---|---|---|---|---|");
    for (row, measured) in rows.iter().zip(measured) {
        line(row, measured);
    }
}

fn line(row: &Row, measured: &Measured) {
    println!(
        "| {} | {} | {} | {} | {} | {} | {} | {} |",
        row.name,
        row.table.len(),
        times(measured.decision),
        times(measured.checker),
        times(measured.translation),
        times(measured.key_decision),
        speeds(measured.reading, row.table.len()),
        speed(measured.numbers, row.table.len()),
    );
}

fn times(times: Times) -> String {
    let kernel = figures(times.kernel / 1_000.0);
    let reference = figures(times.reference / 1_000.0);
    format!("{kernel} / {reference}, {}", ratio(times))
}

fn speeds(times: Times, bytes: usize) -> String {
    let kernel = speed(times.kernel, bytes);
    let reference = speed(times.reference, bytes);
    format!("{kernel} / {reference}, {}", ratio(times))
}

/// Bytes in a nanosecond are thousands of megabytes in a second.
fn speed(nanoseconds: f64, bytes: usize) -> String {
    figures(1_000.0 * bytes as f64 / nanoseconds)
}

/// How many times faster; in bold where that is short of the aim.
fn ratio(times: Times) -> String {
    let ratio = times.ratio();
    if ratio < AIM {
        format!("**{ratio:.2}×**")
    } else {
        format!("{ratio:.1}×")
    }
}

/// The number with about three figures.
fn figures(number: f64) -> String {
    match number {
        n if n < 1.0 => format!("{n:.3}"),
        n if n < 10.0 => format!("{n:.2}"),
        n if n < 100.0 => format!("{n:.1}"),
        n => format!("{n:.0}"),
    }
}

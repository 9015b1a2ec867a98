//! Tables in readable columns.

use std::fmt::Write;

use crate::names::Names;
use crate::table::{Key, Space, Table, Target};

/// A table in columns. A path is written with its space, `3:1.2` for the path
/// 1, 2 in space 3; `means` is the key, or `-` where there is no meaning.
pub fn show(table: &Table) -> String {
    let names = Names::of(table);
    let mut out = String::new();
    let parts = [
        show_spaces(table),
        show_bindings(table, &names),
        show_access_records(table, &names),
        show_delegations(table, &names),
    ];
    for (title, rows) in parts {
        let _ = writeln!(out, "{title}: {}", rows.len() - 1);
        if rows.len() > 1 {
            out.push_str(&in_columns(&rows));
        }
    }
    out
}

/// A title, and rows of cells, the headings first.
type Section = (&'static str, Vec<Vec<String>>);

fn row<const N: usize>(cells: [String; N]) -> Vec<String> {
    cells.to_vec()
}

fn headings<const N: usize>(words: [&str; N]) -> Vec<Vec<String>> {
    vec![words.iter().map(|word| word.to_string()).collect()]
}

fn show_spaces(table: &Table) -> Section {
    let mut rows = headings(["no.", "key"]);
    for (number, key) in table.spaces.iter().enumerate() {
        rows.push(row([number.to_string(), key.0.to_string()]));
    }
    ("spaces", rows)
}

fn show_bindings(table: &Table, names: &Names) -> Section {
    let mut rows = headings(["no.", "space", "name", "target", "means"]);
    for (number, binding) in table.bindings.iter().enumerate() {
        rows.push(row([
            number.to_string(),
            binding.space.0.to_string(),
            binding.base_name.to_string(),
            target(&binding.target),
            meaning(names.target(&binding.target)),
        ]));
    }
    ("bindings", rows)
}

fn show_access_records(table: &Table, names: &Names) -> Section {
    let mut rows = headings(["no.", "owner", "object", "right", "path", "means", "depth"]);
    for (number, record) in table.access_records.iter().enumerate() {
        rows.push(row([
            number.to_string(),
            record.owner.0.to_string(),
            record.object.to_string(),
            record.right.to_string(),
            name(record.owner, &record.path),
            meaning(names.path(record.owner, &record.path)),
            record.depth.to_string(),
        ]));
    }
    ("access records", rows)
}

fn show_delegations(table: &Table, names: &Names) -> Section {
    let mut rows = headings([
        "no.",
        "writer",
        "owner",
        "means",
        "object",
        "right",
        "delegatee",
        "means",
        "depth",
    ]);
    for (number, record) in table.delegations.iter().enumerate() {
        let writer = record.writer;
        rows.push(row([
            number.to_string(),
            writer.0.to_string(),
            name(writer, &record.owner_path),
            meaning(names.path(writer, &record.owner_path)),
            record.object.to_string(),
            record.right.to_string(),
            name(writer, &record.delegatee_path),
            meaning(names.path(writer, &record.delegatee_path)),
            record.depth.to_string(),
        ]));
    }
    ("delegations", rows)
}

fn target(target: &Target) -> String {
    match target {
        Target::Key(key) => format!("key {}", key.0),
        Target::Name(space, path) => name(*space, path),
    }
}

fn name(space: Space, path: &[u32]) -> String {
    let path: Vec<String> = path.iter().map(|base_name| base_name.to_string()).collect();
    format!("{}:{}", space.0, path.join("."))
}

fn meaning(key: Option<Key>) -> String {
    key.map_or("-".to_string(), |key| key.0.to_string())
}

/// Rows with each column as wide as its widest cell.
fn in_columns(rows: &[Vec<String>]) -> String {
    let columns = rows.first().map_or(0, |row| row.len());
    let width = |column: usize| rows.iter().map(|row| row[column].len()).max().unwrap_or(0);
    let widths: Vec<usize> = (0..columns).map(width).collect();
    let mut out = String::new();
    for row in rows {
        for (cell, width) in row.iter().zip(&widths) {
            let _ = write!(out, "  {cell:>width$}");
        }
        out.push('\n');
    }
    out
}

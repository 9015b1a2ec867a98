//! The rows: tables, each with a request that is granted.

mod backward;
mod chain;
mod everything;
mod marketplace;
mod random;
mod records;
mod specimen;

use reference::cases::keytables::write_key_request;
use reference::cases::requests::write_request;
use reference::cases::tables::write_table;
use reference::names::Names;
use reference::table::{Key, Target};
use reference::{KeyRequest, Request, Table};

/// A table and what is asked of it, in bytes.
pub struct Row {
    pub name: &'static str,
    pub table: Vec<u8>,
    pub request: Vec<u8>,
    /// The same request, to the table's key table.
    pub key_request: Vec<u8>,
}

/// Every row, in the order in which they are shown.
pub fn all() -> Vec<Row> {
    vec![
        row("specimen", specimen::scene()),
        row("marketplace", marketplace::scene()),
        row("full size, random", random::scene()),
        row("full size, all matches", everything::scene()),
        row("256 bindings backward", backward::scene()),
        row("chain of 16 records", chain::scene()),
    ]
}

fn row(name: &'static str, (table, request): (Table, Request)) -> Row {
    let names = Names::of(&table);
    let key_request = KeyRequest {
        subject: names
            .target(&request.subject)
            .expect("a subject with a meaning"),
        owner: names
            .self_key(request.owner)
            .expect("an owner in the table"),
        object: request.object,
        right: request.right,
    };
    Row {
        name,
        table: write_table(&table),
        request: write_request(&request),
        key_request: write_key_request(&key_request),
    }
}

/// Of these requests the granted one with the longest derivation.
fn hardest(table: &Table, requests: impl Iterator<Item = Request>) -> Request {
    let names = Names::of(table);
    let granted = requests.filter_map(|request| {
        let (derivation, _) = reference::decide::find(table, &names, &request).ok()?;
        let length = derivation.bindings.len() + derivation.delegations.len();
        Some((length, request))
    });
    let hardest = granted.max_by_key(|(length, _)| *length);
    hardest.expect("a request that is granted").1
}

/// A request by a key.
fn asked_by(key: Key, request: &Request) -> Request {
    Request {
        subject: Target::Key(key),
        ..request.clone()
    }
}

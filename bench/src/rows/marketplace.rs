//! A marketplace: the linker, three stores, and four publishers of extensions
//! in each. The stores know the publishers, the publishers their extensions.

use reference::table::{AccessRecord, Binding, Delegation, Key, Space};
use reference::{Request, Table};

use super::records::{access, binding, delegation, key, name};

const STORES: usize = 3;
const PUBLISHERS: usize = 12;
const OBJECTS: usize = 16;

/// The linker owns the objects.
const LINKER: usize = 0;

/// What the linker calls the first of the stores, and the extension that it
/// shows first.
const FIRST_STORE: u32 = 200;
const SHOWN: u32 = 250;
/// What a store calls the first of its publishers.
const FIRST_PUBLISHER: u32 = 300;
/// What a publisher calls the linker, its store, its extension, and that of
/// the publisher it works with.
const THE_LINKER: u32 = 400;
const STORE: u32 = 401;
const EXTENSION: u32 = 402;
const PARTNER: u32 = 403;

/// The rights: to read, to change and to resize.
const READ: u32 = 1;
const CHANGE: u32 = 2;
const RESIZE: u32 = 3;

/// The space of a store, by its number from 0.
fn store(number: usize) -> usize {
    1 + number
}

/// The space of a publisher, by its number from 0, and the number of its store.
fn publisher(number: usize) -> usize {
    1 + STORES + number
}

fn store_of(publisher: usize) -> usize {
    publisher % STORES
}

fn key_of(space: usize) -> Key {
    Key(3_000_000 + 1_000 * space as u32)
}

/// The key of a publisher's extension, which has no space.
fn extension_key(publisher: usize) -> Key {
    Key(9_000_000 + publisher as u32)
}

/// What the linker calls a store, and what a store calls a publisher.
fn store_name(number: usize) -> u32 {
    FIRST_STORE + number as u32
}

fn publisher_name(number: usize) -> u32 {
    FIRST_PUBLISHER + (number / STORES) as u32
}

/// The linker's name of a publisher, two deep.
fn linkers_name(number: usize) -> [u32; 2] {
    [store_name(store_of(number)), publisher_name(number)]
}

fn bindings() -> Vec<Binding> {
    let [first_store, first_publisher] = linkers_name(0);
    let mut bindings = vec![binding(
        LINKER,
        SHOWN,
        name(LINKER, &[first_store, first_publisher, EXTENSION]),
    )];
    for number in 0..STORES {
        bindings.push(binding(
            LINKER,
            store_name(number),
            key(key_of(store(number))),
        ));
    }
    for number in 0..PUBLISHERS {
        let home = publisher(number);
        let its_store = store(store_of(number));
        bindings.push(binding(
            its_store,
            publisher_name(number),
            key(key_of(home)),
        ));
        // The publisher after it in the same store.
        let partner = publisher_name((number + STORES) % PUBLISHERS);
        bindings.push(binding(
            home,
            PARTNER,
            name(home, &[STORE, partner, EXTENSION]),
        ));
        bindings.push(binding(home, THE_LINKER, key(key_of(LINKER))));
        bindings.push(binding(home, STORE, name(its_store, &[])));
        bindings.push(binding(home, EXTENSION, key(extension_key(number))));
    }
    bindings
}

/// Each object may be read by a store, changed by a publisher and resized by
/// an extension.
fn access_records() -> Vec<AccessRecord> {
    (0..OBJECTS)
        .flat_map(|number| {
            let object = 1_000 + number as u32;
            let publisher = number % PUBLISHERS;
            let [store, name] = linkers_name(publisher);
            [
                access(LINKER, (object, READ), &[store], 4),
                access(LINKER, (object, CHANGE), &[store, name], 2),
                access(LINKER, (object, RESIZE), &[store, name, EXTENSION], 0),
            ]
        })
        .collect()
}

/// The store passes the reading of an object on to three of its publishers,
/// whose names of the linker it uses; publishers pass reading on to their
/// extensions, and changing to their partner's.
fn delegations() -> Vec<Delegation> {
    let mut delegations = Vec::new();
    for number in 0..OBJECTS {
        let object = 1_000 + number as u32;
        let publisher_of_object = number % PUBLISHERS;
        let its_store = store_of(publisher_of_object);
        for place in 0..3 {
            let receiver = its_store + STORES * place;
            let called = publisher_name(receiver);
            delegations.push(delegation(
                store(its_store),
                &[called, THE_LINKER],
                (object, READ),
                &[called],
                2,
            ));
            let (right, extension) = if place == 0 {
                (CHANGE, PARTNER)
            } else {
                (READ, EXTENSION)
            };
            let writer = if place == 0 {
                publisher_of_object
            } else {
                receiver
            };
            delegations.push(delegation(
                publisher(writer),
                &[THE_LINKER],
                (object, right),
                &[extension],
                0,
            ));
        }
    }
    delegations
}

/// A publisher's extension, by the linker's name of it, asks to read the last
/// object: the chain goes by the store and the publisher.
pub fn scene() -> (Table, Request) {
    let table = Table {
        spaces: (0..1 + STORES + PUBLISHERS).map(key_of).collect(),
        bindings: bindings(),
        access_records: access_records(),
        delegations: delegations(),
    };
    let last = OBJECTS - 1;
    let its_store = store_of(last % PUBLISHERS);
    let [store, publisher] = linkers_name(its_store + 2 * STORES);
    let request = Request {
        subject: name(LINKER, &[store, publisher, EXTENSION]),
        owner: Space(LINKER),
        object: 1_000 + last as u32,
        right: READ,
    };
    (table, request)
}

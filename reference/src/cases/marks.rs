//! Tables, requests and the rest as rows of numbers, each with the field it
//! stands in, so that damage can aim.

use crate::derivation::Derivation;
use crate::keytable::{KeyRequest, KeyTable};
use crate::limits;
use crate::number::write_number;
use crate::request::Request;
use crate::table::{Space, Table, Target};

/// What a number is.
#[derive(Clone, Copy, Debug, PartialEq, Eq)]
pub enum Field {
    Version,
    CountOfSpaces,
    CountOfBindings,
    CountOfAccessRecords,
    CountOfDelegations,
    CountOfChain,
    SelfKey,
    Key,
    Space,
    BaseName,
    Form,
    PathLength,
    Object,
    Right,
    Depth,
    BindingNumber,
    AccessRecordNumber,
    DelegationNumber,
}

/// A number and its field.
#[derive(Clone, Copy, Debug, PartialEq, Eq)]
pub struct Mark {
    pub field: Field,
    pub value: u32,
}

/// A row of marks that grows.
#[derive(Clone, Debug, Default)]
pub struct Marks(pub Vec<Mark>);

impl Marks {
    fn add(&mut self, field: Field, value: u32) {
        self.0.push(Mark { field, value });
    }

    fn count(&mut self, field: Field, count: usize) {
        self.add(field, count as u32);
    }

    fn space(&mut self, space: Space) {
        self.add(Field::Space, space.0 as u32);
    }

    fn path(&mut self, path: &[u32]) {
        self.count(Field::PathLength, path.len());
        for &base_name in path {
            self.add(Field::BaseName, base_name);
        }
    }

    fn target(&mut self, target: &Target) {
        match target {
            Target::Key(key) => {
                self.add(Field::Form, 0);
                self.add(Field::Key, key.0);
            }
            Target::Name(space, path) => {
                self.add(Field::Form, 1);
                self.space(*space);
                self.path(path);
            }
        }
    }

    fn object_and_right(&mut self, object: u32, right: u32) {
        self.add(Field::Object, object);
        self.add(Field::Right, right);
    }

    /// The bytes, every number in its shortest form.
    pub fn bytes(&self) -> Vec<u8> {
        let mut out = Vec::new();
        for mark in &self.0 {
            write_number(&mut out, mark.value);
        }
        out
    }

    /// The numbers of a table.
    pub fn of_table(table: &Table) -> Marks {
        let mut marks = Marks::default();
        marks.add(Field::Version, limits::TABLE_VERSION);
        marks.count(Field::CountOfSpaces, table.spaces.len());
        for key in &table.spaces {
            marks.add(Field::SelfKey, key.0);
        }
        marks.count(Field::CountOfBindings, table.bindings.len());
        for binding in &table.bindings {
            marks.space(binding.space);
            marks.add(Field::BaseName, binding.base_name);
            marks.target(&binding.target);
        }
        marks.count(Field::CountOfAccessRecords, table.access_records.len());
        for record in &table.access_records {
            marks.space(record.owner);
            marks.object_and_right(record.object, record.right);
            marks.path(&record.path);
            marks.add(Field::Depth, record.depth);
        }
        marks.count(Field::CountOfDelegations, table.delegations.len());
        for delegation in &table.delegations {
            marks.space(delegation.writer);
            marks.path(&delegation.owner_path);
            marks.object_and_right(delegation.object, delegation.right);
            marks.path(&delegation.delegatee_path);
            marks.add(Field::Depth, delegation.depth);
        }
        marks
    }

    /// The numbers of a request.
    pub fn of_request(request: &Request) -> Marks {
        let mut marks = Marks::default();
        marks.target(&request.subject);
        marks.space(request.owner);
        marks.object_and_right(request.object, request.right);
        marks
    }

    /// The numbers of a derivation.
    pub fn of_derivation(derivation: &Derivation) -> Marks {
        let mut marks = Marks::default();
        marks.count(Field::CountOfBindings, derivation.bindings.len());
        for &binding in &derivation.bindings {
            marks.count(Field::BindingNumber, binding);
        }
        marks.count(Field::CountOfChain, derivation.delegations.len() + 1);
        marks.count(Field::AccessRecordNumber, derivation.access_record);
        for &delegation in &derivation.delegations {
            marks.count(Field::DelegationNumber, delegation);
        }
        marks
    }

    /// The numbers of a key table.
    pub fn of_key_table(table: &KeyTable) -> Marks {
        let mut marks = Marks::default();
        marks.add(Field::Version, limits::KEY_TABLE_VERSION);
        marks.count(Field::CountOfAccessRecords, table.access_records.len());
        for record in &table.access_records {
            marks.add(Field::Key, record.owner.0);
            marks.object_and_right(record.object, record.right);
            marks.add(Field::Key, record.subject.0);
            marks.add(Field::Depth, record.depth);
        }
        marks.count(Field::CountOfDelegations, table.delegations.len());
        for delegation in &table.delegations {
            marks.add(Field::Key, delegation.writer.0);
            marks.add(Field::Key, delegation.owner.0);
            marks.object_and_right(delegation.object, delegation.right);
            marks.add(Field::Key, delegation.delegatee.0);
            marks.add(Field::Depth, delegation.depth);
        }
        marks
    }

    /// The numbers of a key request.
    pub fn of_key_request(request: &KeyRequest) -> Marks {
        let mut marks = Marks::default();
        marks.add(Field::Key, request.subject.0);
        marks.add(Field::Key, request.owner.0);
        marks.object_and_right(request.object, request.right);
        marks
    }
}

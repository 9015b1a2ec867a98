//! A plain build of the rules of document 01: what the kernel is compared with.
//!
//! Each rule stands under its sentence of the document. Every public function
//! answers for any bytes and any buffer lengths.

pub mod access;
pub mod answer;
pub mod cases;
pub mod check;
pub mod compare;
pub mod decide;
pub mod derivation;
pub mod keytable;
pub mod limits;
pub mod line;
pub mod names;
pub mod number;
pub mod request;
pub mod rows;
pub mod show;
pub mod table;
pub mod translate;

pub use answer::{Answer, Fault};
pub use check::check;
pub use decide::decide;
pub use derivation::{read_derivation, Derivation};
pub use keytable::{decide_by_keys, read_key_request, read_key_table, KeyRequest, KeyTable};
pub use request::{read_request, Request};
pub use table::{read_table, Table};
pub use translate::translate;

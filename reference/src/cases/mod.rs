//! Cases: inputs for every public function, made from a seed.
//!
//! The same seed gives the same cases on every machine.

pub mod buffers;
pub mod damage;
pub mod derivations;
pub mod file;
pub mod full;
pub mod keytables;
pub mod kinds;
pub mod ladders;
pub mod marks;
pub mod random;
pub mod requests;
pub mod scenes;
pub mod tables;
pub mod walks;
pub mod webs;

pub use file::{read_cases, write_case, Case, Malformed};
pub use kinds::Kind;

use random::Random;

/// The case with this index among those of a seed, of one of these kinds.
pub fn make_case(seed: u64, index: u64, kinds: &[Kind]) -> Case {
    let mut random = Random::of(seed, index);
    let kind = pick_kind(&mut random, kinds);
    let parts = match kind {
        Kind::ReadTable => vec![tables::any_table(&mut random)],
        Kind::ReadRequest => requests::table_and_request(&mut random),
        Kind::ReadDerivation => vec![derivations::any_derivation(&mut random)],
        Kind::ReadKeyTable => vec![keytables::any_key_table(&mut random)],
        Kind::ReadKeyRequest => vec![keytables::any_key_request(&mut random)],
        Kind::NameSheet => vec![tables::mostly_good(&mut random)],
        Kind::Decide => requests::decide_parts(&mut random),
        Kind::Check => derivations::check_parts(&mut random),
        Kind::Translate => tables::translate_parts(&mut random),
        Kind::DecideByKeys => keytables::decide_parts(&mut random),
    };
    Case { kind, parts }
}

/// One of these kinds, the weighty ones more often.
fn pick_kind(random: &mut Random, kinds: &[Kind]) -> Kind {
    let total: u64 = kinds.iter().map(|kind| kind.weight()).sum();
    let mut left = random.below(total.max(1));
    for &kind in kinds {
        if left < kind.weight() {
            return kind;
        }
        left -= kind.weight();
    }
    Kind::ReadTable
}

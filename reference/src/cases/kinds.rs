//! The kinds of cases.

/// What a case asks for.
#[derive(Clone, Copy, Debug, PartialEq, Eq, Hash, PartialOrd, Ord)]
pub enum Kind {
    ReadTable,
    ReadRequest,
    ReadDerivation,
    ReadKeyTable,
    ReadKeyRequest,
    NameSheet,
    Decide,
    Check,
    Translate,
    DecideByKeys,
}

/// Every kind, in the order of their numbers.
pub const ALL: [Kind; 10] = [
    Kind::ReadTable,
    Kind::ReadRequest,
    Kind::ReadDerivation,
    Kind::ReadKeyTable,
    Kind::ReadKeyRequest,
    Kind::NameSheet,
    Kind::Decide,
    Kind::Check,
    Kind::Translate,
    Kind::DecideByKeys,
];

impl Kind {
    /// The kind with this number in a case file.
    pub fn of_number(number: u8) -> Option<Kind> {
        ALL.into_iter().find(|kind| kind.number() == number)
    }

    /// The number of this kind in a case file.
    pub fn number(self) -> u8 {
        match self {
            Kind::ReadTable => 1,
            Kind::ReadRequest => 2,
            Kind::ReadDerivation => 3,
            Kind::ReadKeyTable => 4,
            Kind::ReadKeyRequest => 5,
            Kind::NameSheet => 6,
            Kind::Decide => 10,
            Kind::Check => 11,
            Kind::Translate => 12,
            Kind::DecideByKeys => 13,
        }
    }

    /// The number of parts of a case of this kind.
    pub fn parts(self) -> usize {
        match self {
            Kind::ReadTable | Kind::ReadDerivation => 1,
            Kind::ReadKeyTable | Kind::ReadKeyRequest | Kind::NameSheet => 1,
            Kind::ReadRequest | Kind::Translate | Kind::DecideByKeys => 2,
            Kind::Check => 3,
            Kind::Decide => 4,
        }
    }

    /// How many of a hundred cases of the mixture are of this kind.
    pub fn weight(self) -> u64 {
        match self {
            Kind::ReadTable => 12,
            Kind::ReadRequest => 8,
            Kind::ReadDerivation => 8,
            Kind::ReadKeyTable => 8,
            Kind::ReadKeyRequest => 4,
            Kind::NameSheet => 6,
            Kind::Decide => 22,
            Kind::Check => 16,
            Kind::Translate => 6,
            Kind::DecideByKeys => 10,
        }
    }

    /// What a case of this kind does, in words.
    pub fn words(self) -> &'static str {
        match self {
            Kind::ReadTable => "read table",
            Kind::ReadRequest => "read request",
            Kind::ReadDerivation => "read derivation",
            Kind::ReadKeyTable => "read key table",
            Kind::ReadKeyRequest => "read key request",
            Kind::NameSheet => "name sheet",
            Kind::Decide => "decide",
            Kind::Check => "check",
            Kind::Translate => "translate",
            Kind::DecideByKeys => "decide by keys",
        }
    }
}

//! The limits of document 01, each in one place.

/// "A table holds up to 64 spaces (each with one SELF key)".
pub const SPACES: u32 = 64;
/// "256 bindings".
pub const BINDINGS: u32 = 256;
/// "256 access list records".
pub const ACCESS_RECORDS: u32 = 256;
/// "512 delegations".
pub const DELEGATIONS: u32 = 512;

/// "A key is a number from 1 to 4,294,967,295".
pub const GREATEST_KEY: u32 = 4_294_967_295;
/// "a base name 1 to 65,535".
pub const GREATEST_BASE_NAME: u32 = 65_535;
/// "an object 0 to 65,535".
pub const GREATEST_OBJECT: u32 = 65_535;
/// "a right 1 to 32".
pub const GREATEST_RIGHT: u32 = 32;
/// "Depths run from 0 to 15".
pub const GREATEST_DEPTH: u32 = 15;
/// "Path: length 0 to 4".
pub const PATH_LENGTH: u32 = 4;
/// "count of the chain (1 to 16)".
pub const CHAIN: u32 = 16;

/// "Table: the version 1".
pub const TABLE_VERSION: u32 = 1;
/// "Key table: 0".
pub const KEY_TABLE_VERSION: u32 = 0;

/// A table: "At most 32,768 bytes."
pub const TABLE_BYTES: usize = 32_768;
/// A request or key request: "At most 64 bytes."
pub const REQUEST_BYTES: usize = 64;
/// A derivation: "At most 512 bytes."
pub const DERIVATION_BYTES: usize = 512;
/// A key table: "At most 16,384 bytes."
pub const KEY_TABLE_BYTES: usize = 16_384;
/// "Outputs wanted, else Room: sheet 256 numbers".
pub const SHEET_NUMBERS: usize = 256;

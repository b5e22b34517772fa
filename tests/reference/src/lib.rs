//! An independent implementation of the rules in `01-scope.md`, by hand and
//! from that document alone. It is the yardstick other implementations are
//! compared with, octet for octet. Sentences of 01 are cited in quotes.

#![forbid(unsafe_code)]

pub mod frame;
pub mod listing;
pub mod unit;

/// "the lent buffer has fewer than 1,024 octets" is refusal 6.
pub const LENT: usize = 1024;

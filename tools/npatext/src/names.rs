//! The names of fields and kinds, which making and showing share.

/// Whether a word holds a signed number.
#[derive(Clone, Copy, PartialEq)]
pub enum Sign {
    Signed,
    Unsigned,
}

use Sign::{Signed, Unsigned};

/// Words 2 to 11 of a row.
pub const ROW_WORDS: [(usize, &str, Sign); 10] = [
    (2, "committed", Unsigned),
    (3, "owned", Unsigned),
    (4, "metered", Signed),
    (5, "adjustment", Signed),
    (6, "planned", Unsigned),
    (7, "forced", Unsigned),
    (8, "maximum", Unsigned),
    (9, "minimum", Unsigned),
    (10, "online", Unsigned),
    (11, "lmp", Signed),
];

/// Kinds 0 to 5.
pub const KINDS: [&str; 6] = [
    "generation",
    "demand",
    "efficiency",
    "prd",
    "energy_only",
    "importer",
];

/// Kinds 1 to 3 of a schedule.
pub const SCHEDULE_KINDS: [&str; 3] = ["market", "pls", "cost"];

/// The kinds that have no commitment.
pub const UNCOMMITTED: [u32; 2] = [4, 5];

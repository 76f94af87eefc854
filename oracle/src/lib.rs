//! The Rust and the port on the same inputs. README.md says how to build and run, and what each file is.

pub mod known;
pub mod make;
pub mod model;
pub mod ours;
pub mod rust;
pub mod show;
pub mod tree;

pub use rust::oracle;
pub use tree::{Answer, Part, Tree};

/// The rules of docs/RULES.md, by number; index 0 is unused.
pub const RULES: [&str; 26] = [
    "",
    "number",
    "number_64",
    "quoted",
    "literal",
    "string",
    "astring",
    "nstring",
    "text",
    "sequence_set",
    "uid_set",
    "section",
    "entry_name",
    "envelope",
    "body",
    "APPENDUID",
    "COPYUID",
    "UIDNOTSTICKY",
    "VANISHED",
    "HIGHESTMODSEQ",
    "MODSEQ",
    "BODY section item",
    "METADATA with values",
    "METADATA with names",
    "ENVELOPE item",
    "BODYSTRUCTURE item",
];

//! The differences that docs/DIFFERENCES.md names, and how one is recognised.
//!
//! A difference between our side and the Rust is known only if a cause, or several together, explains it: the model of
//! docs/RULES.md, changed in just those points to what the listing does, must give exactly what the Rust gives: the answer, the
//! bytes taken, the tree, the wanted bytes. Each cause also says where it can be one at all, by rule, answer and input.

use crate::model::{self, Deviations, Four, Stop};
use crate::tree::{from_nodes, Answer};

pub struct Class {
    /// as in docs/DIFFERENCES.md
    pub name: &'static str,
    /// whether it can be a cause here
    possible: fn(rule: u32, s: &[u8], ours: &Four, rust: &Answer) -> bool,
    /// the point in which the model then does as the listing
    deviate: fn(&mut Deviations),
}

pub const CLASSES: [Class; 5] = [
    Class { name: "NIL as an encoding", possible: nil_encoding, deviate: |d| d.nil_encoding = true },
    Class { name: "Tail fields one by one", possible: tail_fields, deviate: |d| d.tail_one_by_one = true },
    Class { name: "answer 3 comes from our limit", possible: levels, deviate: |d| d.no_levels = true },
    Class {
        name: "`check_vendor_comment` says Incomplete on a finished name",
        possible: vendor_incomplete,
        deviate: |d| d.vendor_unfinished = true,
    },
    Class { name: "`slice_to_str` panics on what is not UTF-8", possible: not_utf8_panics, deviate: |d| d.panics = true },
];

fn is_body(rule: u32) -> bool {
    rule == 14 || rule == 25
}

fn has(s: &[u8], word: &[u8]) -> bool {
    s.windows(word.len()).any(|w| w.eq_ignore_ascii_case(word))
}

/// Part 2: the port refuses. A body is then refused or another alternative reads it; the Rust accepts, waits, or refuses.
fn nil_encoding(rule: u32, s: &[u8], _: &Four, _: &Answer) -> bool {
    // the end of the buffer may stand within NIL
    is_body(rule) && (has(s, b" n"))
}

/// Part 2: only where some tail can begin, after a number or a string.
fn tail_fields(rule: u32, s: &[u8], _: &Four, _: &Answer) -> bool {
    is_body(rule) && has(s, b" ")
}

/// Part 1: our answer is 3, or the Rust alone comes so deep, reading in a tail what ours does not read there. Level 17 takes 17
/// open parentheses at least.
fn levels(rule: u32, s: &[u8], ours: &Four, _: &Answer) -> bool {
    is_body(rule) && matches!(ours.answer, 2 | 3) && s.iter().filter(|&&b| b == b'(').count() >= 17
}

/// Part 1: the Rust waits, wanting nothing in particular; ours refuses, or accepts the names before (rule 23).
fn vendor_incomplete(rule: u32, s: &[u8], ours: &Four, rust: &Answer) -> bool {
    matches!(rule, 12 | 22 | 23)
        && matches!(rust, Answer::Incomplete { needed: None, literal: false })
        && (ours.answer == 2 || rule == 23 && ours.answer == 0)
        && has(s, b"/vendor")
}

/// Part 1: the Rust panics on bytes that are not UTF-8. (The buffer may be UTF-8 as a whole: a literal can end within a
/// character.)
fn not_utf8_panics(rule: u32, s: &[u8], _: &Four, rust: &Answer) -> bool {
    matches!(rule, 22 | 23) && matches!(rust, Answer::Panic) && !s.is_ascii()
}

/// The names for answers that come before a reading, or after one.
pub const NO_ROOM: &str = "answer 4 comes from our table";
pub const NO_RULE: &str = "answer 5 comes from our rule numbers";
pub const TOO_LONG: &str = "answer 6 comes from our limit";

/// The names of the causes that explain why our reading (answers 0 to 3) and the Rust's differ, or None.
pub fn class(rule: u32, s: &[u8], ours: &Four, rust: &Answer) -> Option<String> {
    let causes: Vec<&Class> = CLASSES.iter().filter(|c| (c.possible)(rule, s, ours, rust)).collect();
    // fewest causes first
    let mut sets: Vec<u32> = (1..1 << causes.len()).collect();
    sets.sort_by_key(|set| set.count_ones());
    for set in sets {
        let chosen: Vec<&Class> = (0..causes.len()).filter(|i| set >> i & 1 == 1).map(|i| causes[i]).collect();
        let mut deviations = Deviations::default();
        chosen.iter().for_each(|c| (c.deviate)(&mut deviations));
        if explains(rule, s, deviations, rust) {
            return Some(chosen.iter().map(|c| c.name).collect::<Vec<_>>().join(" + "));
        }
    }
    None
}

/// Whether the model with these deviations gives what the Rust gives.
pub fn explains(rule: u32, s: &[u8], deviations: Deviations, rust: &Answer) -> bool {
    let r = model::reading(rule, s, deviations);
    match (r.end, rust) {
        (Ok(end), Answer::Ok(taken, tree)) => end == *taken && from_nodes(rule, s, end, &r.nodes).as_ref() == Ok(tree),
        (Err(Stop::More(n)), Answer::Incomplete { .. }) => n == rust.wanted(),
        (Err(Stop::Refused), Answer::Error) => true,
        (Err(Stop::Panic), Answer::Panic) => true,
        _ => false,
    }
}

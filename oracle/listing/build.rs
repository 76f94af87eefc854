//! Reads the listing of imap-proto 0.17.0, applies ../listing.patch, and puts the result into OUT_DIR, with stand-ins for the
//! files that the listing lacks (missing/).
//!
//! The listing's folder is ELBOMAVUND_LISTING, by default ../../shared/docs/src from the folder oracle/. It has src/ inside.

use std::collections::BTreeMap;
use std::path::{Path, PathBuf};
use std::{env, fs};

const FILES: [&str; 13] = [
    "lib.rs",
    "core.rs",
    "bodystructure.rs",
    "gmail.rs",
    "rfc2087.rs",
    "rfc3501/mod.rs",
    "rfc3501/body.rs",
    "rfc3501/body_structure.rs",
    "rfc4314.rs",
    "rfc4315.rs",
    "rfc4551.rs",
    "rfc5464.rs",
    "rfc7162.rs",
];
const MISSING: [&str; 4] = ["builders.rs", "rfc2971.rs", "rfc5161.rs", "rfc5256.rs"];

fn main() {
    let here = PathBuf::from(env::var("CARGO_MANIFEST_DIR").unwrap());
    let oracle = here.parent().unwrap();
    let listing = match env::var("ELBOMAVUND_LISTING") {
        Ok(folder) => oracle.join(folder),
        Err(_) => oracle.join("../../shared/docs/src"),
    };
    let patch = oracle.join("listing.patch");
    let out = PathBuf::from(env::var("OUT_DIR").unwrap());
    println!("cargo:rerun-if-env-changed=ELBOMAVUND_LISTING");
    println!("cargo:rerun-if-changed={}", patch.display());
    println!("cargo:rerun-if-changed={}", here.join("missing").display());

    let mut changes = read_patch(&patch);
    for name in FILES {
        let from = listing.join("src").join(name);
        println!("cargo:rerun-if-changed={}", from.display());
        let text = fs::read_to_string(&from)
            .unwrap_or_else(|e| panic!("{}: {e}. ELBOMAVUND_LISTING names the folder of the listing.", from.display()));
        let text = apply(name, &text, &changes.remove(name).unwrap_or_default());
        write(&out.join(name), &text);
    }
    assert!(changes.is_empty(), "listing.patch changes files that are not read: {:?}", changes.keys());
    for name in MISSING {
        write(&out.join(name), &fs::read_to_string(here.join("missing").join(name)).unwrap());
    }
}

fn write(to: &Path, text: &str) {
    fs::create_dir_all(to.parent().unwrap()).unwrap();
    fs::write(to, text).unwrap();
}

/// One hunk of a unified diff without context: the first line's number, the lines that stand there, the lines that shall.
struct Hunk {
    line: usize,
    old: Vec<String>,
    new: Vec<String>,
}

/// The hunks by file (below src/). The patch is a unified diff with no lines of context: `patch -p1` reads it too.
fn read_patch(path: &Path) -> BTreeMap<String, Vec<Hunk>> {
    let text = fs::read_to_string(path).unwrap();
    let mut files: BTreeMap<String, Vec<Hunk>> = BTreeMap::new();
    let mut file = None;
    for line in text.lines() {
        if let Some(name) = line.strip_prefix("+++ b/src/") {
            file = Some(name.to_string());
        } else if let Some(rest) = line.strip_prefix("@@ -") {
            let number: String = rest.chars().take_while(char::is_ascii_digit).collect();
            let hunk = Hunk { line: number.parse().unwrap(), old: vec![], new: vec![] };
            files.entry(file.clone().expect("a hunk before a file")).or_default().push(hunk);
        } else if line.starts_with("--- ") || file.is_none() {
            continue;
        } else {
            let hunk = files.get_mut(file.as_ref().unwrap()).and_then(|h| h.last_mut()).expect("a line before a hunk");
            match line.split_at(1) {
                ("-", l) => hunk.old.push(l.to_string()),
                ("+", l) => hunk.new.push(l.to_string()),
                _ => panic!("listing.patch: {line}"),
            }
        }
    }
    files
}

/// The text with the hunks applied; panics where a line is not the one that the patch takes away.
fn apply(name: &str, text: &str, hunks: &[Hunk]) -> String {
    let mut lines: Vec<String> = text.lines().map(str::to_string).collect();
    for h in hunks.iter().rev() {
        assert!(!h.old.is_empty(), "listing.patch only changes lines");
        let range = h.line - 1..h.line - 1 + h.old.len();
        assert_eq!(lines.get(range.clone()), Some(&h.old[..]), "listing.patch does not fit {name}");
        lines.splice(range, h.new.iter().cloned());
    }
    lines.push(String::new());
    lines.join("\n")
}

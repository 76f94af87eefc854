//! Runs the rows of docs/DIFFERENCES.md: does our side, and does the Rust, do what the row says?
//!
//!     rows [FILE]      by default ../docs/DIFFERENCES.md
//!
//! Prints each row that does not hold, and each that it cannot read; exits 1 if one does not hold.

use elbomavund_oracle::tree::{from_nodes, Answer, Node};
use elbomavund_oracle::{oracle, ours, show};

/// The bytes that an input cell names, with the table's words if it says so.
fn input(cell: &str) -> Option<(Vec<u8>, Option<usize>)> {
    let (mut out, mut words, mut times) = (Vec::new(), None, 1);
    let mut rest = cell.trim();
    while !rest.is_empty() {
        if let Some(r) = rest.strip_prefix('`') {
            let end = r.find('`')?;
            (0..times).for_each(|_| out.extend(r[..end].bytes()));
            times = 1;
            rest = &r[end + 1..];
        } else {
            let end = rest.find(' ').unwrap_or(rest.len());
            let word = rest[..end].trim_end_matches(',');
            match word {
                "SP" => out.push(b' '),
                "TAB" => out.push(b'\t'),
                "CR" => out.push(b'\r'),
                "LF" => out.push(b'\n'),
                "words" => words = Some(std::mem::replace(&mut times, 1)),
                "times" => {}
                _ if word.starts_with("%x") => out.push(u8::from_str_radix(&word[2..], 16).ok()?),
                _ => times = word.parse().ok()?,
            }
            rest = &rest[end..];
        }
        rest = rest.trim_start_matches([' ', ',']);
    }
    (times == 1).then_some((out, words))
}

/// The number before or after a word in a cell.
fn number(cell: &str, word: &str) -> Option<usize> {
    let words: Vec<&str> = cell.split([' ', ',']).filter(|w| !w.is_empty()).collect();
    let i = words.iter().position(|w| *w == word)?;
    words.get(i + 1).and_then(|w| w.parse().ok()).or_else(|| words.get(i.checked_sub(1)?)?.parse().ok())
}

fn main() {
    let file = std::env::args().nth(1).unwrap_or("../docs/DIFFERENCES.md".into());
    let text = std::fs::read_to_string(&file).unwrap_or_else(|e| panic!("{file}: {e}"));
    let (mut held, mut failed, mut unread) = (0, 0, 0);
    let (mut by_point, mut inside) = (false, false);
    for line in text.lines() {
        let cells: Vec<&str> = line.split('|').map(str::trim).collect();
        if cells.len() < 5 || cells[1].starts_with("---") {
            inside &= cells.len() >= 5;
            continue;
        }
        if cells[1] == "point" || cells[1] == "rule" {
            (by_point, inside) = (cells[1] == "point", true);
            continue;
        }
        if !inside {
            continue;
        }
        let (rule, cell) = if by_point {
            let (cell, rule) = cells[2].rsplit_once('(').unwrap_or((cells[2], ""));
            (rule.trim_end_matches(')').parse().ok(), cell)
        } else {
            (cells[1].parse::<u32>().ok(), cells[2])
        };
        let (Some(rule), Some((s, words))) = (rule, input(cell)) else {
            println!("not read: {line}");
            unread += 1;
            continue;
        };
        let mut table = vec![0; words.unwrap_or(65536)];
        let f = ours::read(rule, &s, &mut table);
        let nodes: Vec<Node> = table.chunks_exact(4).take(f.nodes as usize).map(|n| n.try_into().unwrap()).collect();
        let rust = oracle(rule, &s);
        let mut wrong: Vec<String> = Vec::new();
        // our side
        let port = cells[3];
        let answer: Option<u32> = port.chars().next().and_then(|c| c.to_digit(10));
        if answer != Some(f.answer) || number(port, "taken").is_some_and(|n| n != f.taken as usize) {
            wrong.push(format!("ours: {f:?}"));
        }
        if number(port, "nodes").is_some_and(|n| n != f.nodes as usize) || number(port, "kind").is_some_and(|k| nodes[0][0] as usize != k) {
            wrong.push(format!("ours: {f:?} {:?}", nodes.first()));
        }
        if port.contains("no names") && f.nodes != 3 {
            wrong.push(format!("ours: {} nodes", f.nodes));
        }
        // the Rust
        let says = cells[4];
        let same = match (f.answer, &rust) {
            (0, Answer::Ok(n, t)) => f.taken as usize == *n && from_nodes(rule, &s, *n, &nodes).as_ref() == Ok(t),
            (1, Answer::Incomplete { .. }) => f.wanted as usize == rust.wanted(),
            (2, Answer::Error) => true,
            _ => false,
        };
        let right = if says.starts_with("same") || says.starts_with("takes the same") {
            same
        } else if says.starts_with("accepts") {
            matches!(&rust, Answer::Ok(n, _) if number(says, "taken").is_none_or(|m| m == *n))
        } else {
            says.starts_with(rust.name()) && !same
        };
        if !right {
            wrong.push(format!("the Rust: {rust:?}"));
        }
        if wrong.is_empty() {
            held += 1;
        } else {
            failed += 1;
            println!("does not hold: {line}\n    input {}\n    {}", show::bytes(&s), wrong.join("\n    "));
        }
    }
    println!("{held} rows hold, {failed} do not, {unread} were not read; our side: {}", ours::NAME);
    std::process::exit((failed > 0) as i32);
}

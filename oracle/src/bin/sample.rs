//! Writes a sample of answers to replay. `sample --help` says how.

use std::collections::{BTreeMap, HashSet};
use std::fmt::Write as _;

use elbomavund_oracle::make::{self, Rng};
use elbomavund_oracle::model::{self, Deviations, Stop};
use elbomavund_oracle::tree::{from_nodes, Answer, Node, Tree};
use elbomavund_oracle::{known, oracle, show};

const HELP: &str = "\
sample [--seed N] [--scale N] [--responses FILE] [--out NAME]
  Writes NAME.inputs (RULE WORDS HEX, HEX - if the buffer is empty), NAME.expected (ANSWER TAKEN NODES WANTED WORD ...) and
  NAME.origin (who says so), line by line. --scale N takes N times as many. FILE has lines of
  RULE HEX; they are taken too, whole. Defaults: 1, 1, none, sample.";

/// Words that the Rust says and words that only the model says.
#[derive(Default)]
struct Words {
    rust: u64,
    model: u64,
}

/// The words of docs/RULES.md, from the Rust's tree; the model's nodes give what the Rust does not keep.
fn words(tree: &Tree, nodes: &[Node], at: &mut usize, out: &mut Vec<Node>, who: &mut Words) {
    let [kind, a, b, size] = nodes[*at];
    *at += 1;
    let mut put = |node: Node, by_rust: u64| {
        out.push(node);
        who.rust += by_rust;
        who.model += 4 - by_rust;
    };
    match tree {
        // NIL or absent, and where, only the model says
        Tree::None => put([kind, a, b, size], 0),
        Tree::Number(n) => put([1, *n as u32, (*n >> 32) as u32, 1], 4),
        Tree::Range(a, b) => put([2, *a, *b, 1], 4),
        Tree::Uid(n) => put([3, *n, *n, 1], 4),
        Tree::Raw(p) | Tree::Text(p) => match p.at {
            Some(start) => put([4, start as u32, (start + p.bytes.len()) as u32, 1], 4),
            None => put([4, a, b, 1], 2),
        },
        Tree::SectionText(n) => put([8, *n, 0, 1], 4),
        Tree::Encoding(n) => put([9, *n, 0, 1], 4),
        Tree::List(children) => {
            put([7, children.len() as u32, 0, size], 3);
            children.iter().for_each(|c| words(c, nodes, at, out, who));
        }
        Tree::Structure(kind, children) => {
            put([*kind, a, b, size], 1);
            children.iter().for_each(|c| words(c, nodes, at, out, who));
        }
    }
}

/// What kind of case it is: rule, answer, and something of its shape.
type Shape = (u32, u32, u64);

struct Case {
    rule: u32,
    words: usize,
    bytes: Vec<u8>,
    expected: String,
    origin: String,
    shape: Shape,
    nodes: usize,
    who: Words,
}

fn case(rule: u32, bytes: Vec<u8>, words_given: impl FnOnce(usize) -> usize) -> Case {
    let mut who = Words::default();
    let m = if (1..=25).contains(&rule) {
        model::reading(rule, &bytes, Deviations::default())
    } else {
        model::Reading { end: Err(Stop::Refused), nodes: vec![] }
    };
    let room = words_given(m.nodes.len());
    let mut table = vec![0; room];
    let f = model::read(rule, &bytes, &mut table);
    let mut nodes = m.nodes.clone();
    let mut taken = f.taken;
    let origin = if f.answer == 5 {
        "docs/RULES.md: no such rule".to_string()
    } else {
        let rust = oracle(rule, &bytes);
        let reading = model::Four { answer: if f.answer == 4 { 0 } else { f.answer }, ..f };
        let same = match (reading.answer, &rust) {
            (0, Answer::Ok(t, tree)) => {
                let same = m.end == Ok(*t) && from_nodes(rule, &bytes, *t, &m.nodes).as_ref() == Ok(tree);
                if same {
                    let mut again = Vec::new();
                    words(tree, &m.nodes, &mut 0, &mut again, &mut who);
                    nodes = again;
                    taken = if f.answer == 0 { *t as u32 } else { 0 };
                }
                same
            }
            (1, Answer::Incomplete { .. }) => rust.wanted() == f.wanted as usize,
            (2, Answer::Error) => true,
            _ => false,
        };
        let room = if f.answer == 4 { "; docs/RULES.md: no room" } else { "" };
        if same {
            format!("Rust{room}")
        } else {
            let why = known::class(rule, &bytes, &reading, &rust).expect("a difference that docs/DIFFERENCES.md does not name");
            format!("docs/RULES.md: {why}; the Rust: {}{room}", rust.name())
        }
    };
    assert_eq!(nodes, m.nodes, "the Rust's words and the model's");
    let mut expected = format!("{} {} {} {}", f.answer, taken, f.nodes, f.wanted);
    if f.answer == 0 {
        for w in nodes.as_flattened() {
            write!(expected, " {w}").unwrap();
        }
    }
    let mut look: u64 = if f.wanted > 0 { 1 } else { 0 };
    for node in &nodes {
        look = look.wrapping_mul(0x100_0000_01b3) ^ node[0] as u64;
    }
    if !origin.starts_with("Rust") {
        look = look.wrapping_add(origin.len() as u64) << 8;
    }
    Case { rule, words: room, bytes, expected, origin, shape: (rule, f.answer, look), nodes: nodes.len(), who }
}

fn main() {
    let (mut seed, mut scale, mut responses, mut out) = (1, 1, vec![], "sample".to_string());
    let mut args = std::env::args().skip(1);
    while let Some(a) = args.next() {
        let value = if a == "--help" { None } else { args.next() };
        match (a.as_str(), value) {
            ("--seed", Some(v)) => seed = v.parse().expect("a number"),
            ("--scale", Some(v)) => scale = v.parse().expect("a number"),
            ("--responses", Some(v)) => responses = make::responses(&v),
            ("--out", Some(v)) => out = v,
            _ => {
                println!("{HELP}");
                return;
            }
        }
    }
    let thread = std::thread::Builder::new().stack_size(1 << 28).spawn(move || run(seed, scale, responses, &out)).unwrap();
    thread.join().unwrap();
}

fn run(seed: u64, scale: usize, responses: Vec<(u32, Vec<u8>)>, out: &str) {
    let mut rng = Rng(seed);
    let mut cases: Vec<Case> = Vec::new();
    let mut there: HashSet<(u32, usize, Vec<u8>)> = HashSet::new();
    // how many of each answer, and of each class of difference, for each rule
    let wanted = |answer: u32| scale * [44, 18, 18, 24, 6, 2, 0][answer as usize];
    for rule in 1..=25u32 {
        let mut have: BTreeMap<(u32, bool, String), usize> = BTreeMap::new();
        let mut shapes: BTreeMap<Shape, usize> = BTreeMap::new();
        let mut keep = |c: Case, cases: &mut Vec<Case>| {
            let answer = c.shape.1;
            let of = if c.origin.starts_with("Rust") { String::new() } else { c.origin.clone() };
            let most = if of.is_empty() || answer == 3 { wanted(answer) } else { scale * 4 };
            let key = (answer, answer == 1 && c.expected != "1 0 0 0", of);
            let count = have.entry(key).or_default();
            // few of each shape
            let shape = shapes.entry(c.shape).or_default();
            let alike = match (answer, c.nodes) {
                (0, 0..=2) => 22,
                (0, _) => 6,
                _ => 40,
            };
            if *count >= most || *shape >= scale * alike {
                return;
            }
            if there.insert((c.rule, c.words, c.bytes.clone())) {
                *count += 1;
                *shape += 1;
                cases.push(c);
            }
        };
        for &(r, s) in make::SEEDS {
            if r == rule {
                keep(case(rule, s.to_vec(), |n| 4 * n), &mut cases);
            }
        }
        for turn in 0..6000 * scale {
            let mut s = make::made(&mut rng, rule);
            if turn % 2 == 1 {
                s = make::damaged(&mut rng, &s);
            }
            if turn % 6 == 5 {
                s.truncate(rng.below(s.len() + 1));
            }
            // kept small
            let longest = if matches!(rule, 14 | 25) && turn % 4 == 0 { 420 } else { 140 };
            if s.len() > longest {
                continue;
            }
            let extra = rng.below(9);
            let less = 1 + rng.below(5);
            let short = rng.one_in(30);
            let room = |n: usize| if short { (4 * n).saturating_sub(less) } else { 4 * n + extra };
            keep(case(rule, s, room), &mut cases);
        }
    }
    for rule in [0, 26, 27, 255, 256, 65537, 1 << 31, u32::MAX] {
        for s in ["", "1 ", "NIL"] {
            cases.push(case(rule, s.as_bytes().to_vec(), |_| 8));
        }
    }
    let made = cases.len();
    for (rule, s) in responses {
        let extra = rng.below(9);
        cases.push(case(rule, s, |n| 4 * n + extra));
    }
    let (mut inputs, mut expected, mut origin) = (String::new(), String::new(), String::new());
    let mut counts: BTreeMap<(u32, u32), u64> = BTreeMap::new();
    let mut by_rust = 0;
    for (i, c) in cases.iter().enumerate() {
        let hex = if c.bytes.is_empty() { "-".into() } else { show::hex(&c.bytes) };
        writeln!(inputs, "{} {} {hex}", c.rule, c.words).unwrap();
        writeln!(expected, "{}", c.expected).unwrap();
        let real = if i < made { "" } else { "; a server's response" };
        writeln!(origin, "{}{real}", c.origin).unwrap();
        *counts.entry((c.rule.min(26), c.shape.1)).or_default() += 1;
        by_rust += c.origin.starts_with("Rust") as u64;
    }
    std::fs::write(format!("{out}.inputs"), inputs).unwrap();
    std::fs::write(format!("{out}.expected"), expected).unwrap();
    std::fs::write(format!("{out}.origin"), origin).unwrap();
    println!("{} cases, {by_rust} of them as the Rust answers, seed {seed}", cases.len());
    let sum = |f: fn(&Words) -> u64| cases.iter().filter(|c| c.shape.1 == 0).map(|c| f(&c.who)).sum::<u64>();
    println!("words of accepted readings: {} from the Rust, {} from the model", sum(|w| w.rust), sum(|w| w.model));
    for rule in 0..=26 {
        let row: Vec<String> = (0..6).map(|a| counts.get(&(rule, a)).map_or("-".into(), |c| c.to_string())).collect();
        println!("rule {rule:>2}: answers 0 to 5: {}", row.join(" "));
    }
}

//! Compares the port with the Rust. `compare --help` says how.

use std::collections::BTreeMap;
use std::time::{Duration, Instant};

use elbomavund_oracle::make::{self, Rng, Source};
use elbomavund_oracle::model::{self, Deviations, Four, Stop};
use elbomavund_oracle::tree::{from_nodes, Answer, Node};
use elbomavund_oracle::{known, oracle, ours, show, RULES};

const HELP: &str = "\
compare [--seconds N] [--inputs N] [--seed N] [--responses FILE]
  Gives the same inputs to the Rust and to our side and compares answers, bytes taken, wanted bytes and nodes.
  --seconds N   stop after so many seconds (55 if neither is given)
  --inputs N    stop after so many inputs; the run is then the same each time
  --seed N      begins the made inputs (1)
  --responses FILE   these too, their cuts, damaged copies and all that is one byte away: lines of RULE HEX, then anything
Exits 1 if a difference is found that docs/DIFFERENCES.md does not name.";

/// A kind of difference: why, what our side says, what the Rust says.
type Kind = (bool, String, String, String);

struct Seen {
    count: u64,
    rules: BTreeMap<u32, u64>,
    smallest: (u32, Vec<u8>, usize),
}

#[derive(Default)]
struct Run {
    inputs: u64,
    agreed: u64,
    /// by rule and answer of our side; 0 stands for numbers that are no rule
    counts: Vec<[u64; 7]>,
    kinds: BTreeMap<Kind, Seen>,
    table_sizes: u64,
    demand_3: u64,
    turn: u64,
    table: Vec<u32>,
}

fn mark(i: usize) -> u32 {
    0xa5a5_0000 ^ (i as u32).wrapping_mul(0x9e37_79b1)
}

/// A fresh table of so many words, and one reading into it.
fn read(table: &mut Vec<u32>, rule: u32, s: &[u8], words: usize) -> Four {
    table.clear();
    table.extend((0..words).map(mark));
    ours::read(rule, s, table)
}

/// What docs/RULES.md says of a call with such a table: the numbers, and the table after it.
fn expected(rule: u32, s: &[u8], r: &model::Reading, words: usize) -> Four {
    let mut f = Four::default();
    if !(1..=25).contains(&rule) {
        f.answer = 5;
    } else if s.len() > model::LONGEST {
        f.answer = 6;
    } else {
        match r.end {
            Ok(_) if r.nodes.len() > words / 4 => (f.answer, f.nodes) = (4, r.nodes.len() as u32),
            Ok(end) => (f.taken, f.nodes) = (end as u32, r.nodes.len() as u32),
            Err(Stop::More(n)) => (f.answer, f.wanted) = (1, n as u32),
            Err(Stop::Refused) => f.answer = 2,
            Err(_) => f.answer = 3,
        }
    }
    f
}

fn table_is(table: &[u32], f: &Four, nodes: &[Node]) -> bool {
    let written = if f.answer == 0 { nodes.as_flattened() } else { &[] };
    table.starts_with(written) && table[written.len()..].iter().enumerate().all(|(i, &w)| w == mark(written.len() + i))
}

fn in_model(rule: u32, s: &[u8]) -> model::Reading {
    if !(1..=25).contains(&rule) || s.len() > model::LONGEST {
        return model::Reading { end: Err(Stop::Refused), nodes: vec![] };
    }
    model::reading(rule, s, Deviations::default())
}

/// Compares one call on both sides: the kind of difference, if any, and what our side says.
fn compare(table: &mut Vec<u32>, rule: u32, s: &[u8], words: impl FnOnce(usize) -> usize) -> (Four, Option<Kind>) {
    let m = in_model(rule, s);
    let words = words(m.nodes.len());
    let f = read(table, rule, s, words);
    let by_model = expected(rule, s, &m, words);
    let unknown = |why: &str, ours: String, rust: String| Some((false, why.to_string(), ours, rust));
    if f != by_model {
        let why = "our numbers are not what the model of docs/RULES.md says";
        let model = format!("{}; the model: {}", oracle(rule, s).name(), by_model.answer);
        return (f, unknown(why, f.answer.to_string(), model));
    }
    if !table_is(table, &f, &m.nodes) {
        let why = "our table is not what the model of docs/RULES.md says";
        return (f, unknown(why, f.answer.to_string(), oracle(rule, s).name().into()));
    }
    let ours = f.answer.to_string();
    match f.answer {
        5 => return (f, Some((true, known::NO_RULE.into(), ours, "has no rule numbers".into()))),
        6 => return (f, Some((true, known::TOO_LONG.into(), ours, oracle(rule, s).name().into()))),
        _ => {}
    }
    let rust = oracle(rule, s);
    // without room: what the reading itself is
    let reading = Four { answer: if f.answer == 4 { 0 } else { f.answer }, ..f };
    let same = match (reading.answer, &rust) {
        (0, Answer::Ok(taken, tree)) => match from_nodes(rule, s, m.end.unwrap(), &m.nodes) {
            Ok(t) => m.end == Ok(*taken) && t == *tree,
            Err(why) => return (f, unknown(&format!("our nodes are not well formed: {why}"), ours, rust.name().into())),
        },
        (1, Answer::Incomplete { .. }) => f.wanted as usize == rust.wanted(),
        (2, Answer::Error) => true,
        _ => false,
    };
    if same && f.answer == 4 {
        return (f, Some((true, known::NO_ROOM.into(), ours, "accepts".into())));
    }
    if same {
        return (f, None);
    }
    let (is_known, why) = match known::class(rule, s, &reading, &rust) {
        Some(why) if f.answer == 4 => (true, format!("{} + {why}", known::NO_ROOM)),
        Some(why) => (true, why),
        None => (false, "not in docs/DIFFERENCES.md".to_string()),
    };
    let rust = match (f.answer, &rust) {
        (0, Answer::Ok(..)) => "accepts, another length or other nodes".into(),
        (1, Answer::Incomplete { .. }) => "Incomplete, wants otherwise".to_string(),
        (_, r) => r.name().to_string(),
    };
    (f, Some((is_known, why, ours, rust)))
}

impl Run {
    fn note(&mut self, kind: Kind, rule: u32, s: &[u8], words: usize) {
        let seen = self.kinds.entry(kind).or_insert_with(|| Seen {
            count: 0,
            rules: BTreeMap::new(),
            smallest: (rule, s.to_vec(), words),
        });
        seen.count += 1;
        *seen.rules.entry(rule).or_default() += 1;
        if (s.len(), s) < (seen.smallest.1.len(), &seen.smallest.1) {
            seen.smallest = (rule, s.to_vec(), words);
        }
    }

    /// One input on both sides, with a table that has room for it and a few words more.
    fn one(&mut self, rule: u32, s: &[u8]) -> Four {
        self.turn += 1;
        let extra = (self.turn % 9) as usize;
        let mut table = std::mem::take(&mut self.table);
        let (f, kind) = compare(&mut table, rule, s, |nodes| 4 * nodes + extra);
        self.table = table;
        self.inputs += 1;
        self.counts[if rule <= 25 { rule as usize } else { 0 }][f.answer.min(6) as usize] += 1;
        match kind {
            None => self.agreed += 1,
            Some(kind) => self.note(kind, rule, s, 4 * f.nodes as usize + extra),
        }
        f
    }

    /// Table sizes around the need of an accepted reading.
    fn table_sizes(&mut self, rule: u32, s: &[u8]) {
        let m = in_model(rule, s);
        if m.end.is_err() {
            return;
        }
        let need = 4 * m.nodes.len();
        let low = if need <= 40 { 0 } else { need - 9 };
        for words in (low..need + 6).chain([0, 1, 3, 4]) {
            self.table_sizes += 1;
            let mut table = std::mem::take(&mut self.table);
            let (f, kind) = compare(&mut table, rule, s, |_| words);
            self.table = table;
            let enough = words >= need;
            let right = if enough { f.answer == 0 } else { f.answer == 4 && f.nodes as usize * 4 == need };
            if !right {
                let said = if f.answer == 4 { "4, another count" } else { "another answer" };
                let kind = (false, "a table size around the need".to_string(), said.to_string(), String::new());
                self.note(kind, rule, s, words);
            } else if let Some(kind) = kind {
                // with room it is an input that was counted before
                if f.answer == 4 || !kind.0 {
                    self.note(kind, rule, s, words);
                    self.counts[rule as usize][4] += 1;
                }
            }
        }
    }

    /// Demand 3, by running our side: cuts, added bytes, the zero byte, exact wants.
    fn demand_3(&mut self, rng: &mut Rng, rule: u32, s: &[u8]) {
        let room = 4 * in_model(rule, s).nodes.len() + 4096;
        let mut table = std::mem::take(&mut self.table);
        let whole = read(&mut table, rule, s, room);
        let words = table[..4 * whole.nodes as usize].to_vec();
        let mut bad: Vec<(&str, Vec<u8>)> = Vec::new();
        let mut readings = 1;
        let mut buffer = s.to_vec();
        for cut in 0..=s.len() {
            let part = &s[..cut];
            let f = read(&mut table, rule, part, room);
            readings += 1;
            if f.answer != 1 {
                // sentence 1, by a cut: what is settled stays
                if f != whole || table[..words.len()] != words[..] {
                    bad.push(("a settled reading changes with more bytes", part.to_vec()));
                }
                continue;
            }
            if f.wanted == 0 {
                // sentence 3: one zero byte settles it
                buffer.clear();
                buffer.extend(part);
                buffer.push(0);
                readings += 1;
                if read(&mut table, rule, &buffer, room).answer == 1 {
                    bad.push(("a zero byte leaves it unfinished", part.to_vec()));
                }
                continue;
            }
            // sentence 2: the count is exact
            let wanted = f.wanted as usize;
            for more in [1, wanted / 2, wanted - 1, wanted] {
                if more == 0 || more > 5000 {
                    continue;
                }
                buffer.clear();
                buffer.extend(part);
                buffer.extend((0..more).map(|_| rng.next() as u8));
                readings += 1;
                let g = read(&mut table, rule, &buffer, room);
                let right = if more < wanted {
                    g.answer == 1 && g.wanted as usize == wanted - more
                } else {
                    !(g.answer == 1 && g.wanted > 0)
                };
                if !right {
                    bad.push(("the count of missing bytes is not exact", part.to_vec()));
                }
            }
        }
        if whole.answer != 1 {
            // sentence 1, by every added byte, and by many
            for b in 0..=256 {
                buffer.clear();
                buffer.extend(s);
                if b < 256 {
                    buffer.push(b as u8);
                } else {
                    buffer.extend((0..40).map(|_| rng.next() as u8));
                }
                readings += 1;
                let f = read(&mut table, rule, &buffer, room);
                if f != whole || table[..words.len()] != words[..] {
                    bad.push(("an added byte changes a settled reading", s.to_vec()));
                }
            }
        }
        self.table = table;
        self.demand_3 += readings;
        for (why, part) in bad {
            self.note((false, format!("demand 3: {why}"), String::new(), String::new()), rule, &part, room);
        }
    }

    fn report(&self, took: Duration, seed: u64) {
        println!("our side: {}", ours::NAME);
        println!(
            "{} inputs in {:.1} s, seed {seed}; besides {} table sizes and {} readings for demand 3 (our side alone)",
            self.inputs,
            took.as_secs_f64(),
            self.table_sizes,
            self.demand_3
        );
        println!("{} inputs agree in answer, bytes taken, wanted bytes and nodes\n", self.agreed);
        println!("our answers by rule (the column of 4 is from table sizes):");
        println!("{:>5}  {:<21}{}", "rule", "", (0..7).map(|a| format!("{a:>10}")).collect::<String>());
        for (rule, counts) in self.counts.iter().enumerate() {
            let name = if rule == 0 { "no rule" } else { RULES[rule] };
            println!("{rule:>5}  {name:<21}{}", counts.iter().map(|c| format!("{c:>10}")).collect::<String>());
        }
        let sums: Vec<u64> = (0..7).map(|a| self.counts.iter().map(|c| c[a]).sum()).collect();
        println!("{:>5}  {:<21}{}", "", "all", sums.iter().map(|c| format!("{c:>10}")).collect::<String>());
        for is_known in [true, false] {
            let kinds: Vec<_> = self.kinds.iter().filter(|k| k.0 .0 == is_known).collect();
            let which = if is_known { "named in docs/DIFFERENCES.md" } else { "NOT named in docs/DIFFERENCES.md" };
            println!("\n{} kinds of difference {which}", kinds.len());
            for ((_, why, ours, rust), seen) in kinds {
                let rules: Vec<String> = seen.rules.iter().map(|(r, c)| format!("{r} ({c})")).collect();
                println!("- {why}: ours {ours}, the Rust {rust}");
                println!("    {} times, rules {}", seen.count, rules.join(", "));
                let (rule, s, words) = &seen.smallest;
                println!("    smallest: rule {rule}, {words} words: {}", show::bytes(s));
            }
        }
    }

    /// Makes each smallest input smaller, as long as it is of its kind.
    fn shrink(&mut self) {
        let kinds: Vec<Kind> = self.kinds.keys().cloned().collect();
        for kind in kinds {
            let (rule, mut s, words) = self.kinds[&kind].smallest.clone();
            if s.len() > 5000 || ["demand 3", "a table size"].iter().any(|k| kind.1.starts_with(k)) || kind.2 == "4" {
                continue;
            }
            let mut table = Vec::new();
            let mut is = |s: &[u8]| compare(&mut table, rule, s, |_| words.max(4096)).1.as_ref() == Some(&kind);
            loop {
                let before = s.len();
                for size in (1..=s.len()).rev() {
                    for put in [&b""[..], b"1", b"\"\"", b"NIL"] {
                        let mut at = 0;
                        // one part taken out, or something shorter in its place
                        while put.len() < size && size <= 60 + 1000 * put.is_empty() as usize && at + size <= s.len() {
                            let mut t = s.clone();
                            t.splice(at..at + size, put.iter().copied());
                            if is(&t) {
                                s = t;
                            } else {
                                at += 1;
                            }
                        }
                    }
                }
                if s.len() == before {
                    break;
                }
            }
            self.kinds.get_mut(&kind).unwrap().smallest = (rule, s, words);
        }
    }
}

/// One from each source in turn, so that a short run has some of all.
struct Turns {
    sources: Vec<(Source, usize, usize)>,
    at: usize,
}

impl Turns {
    fn next(&mut self) -> Option<(u32, Vec<u8>)> {
        while !self.sources.is_empty() {
            self.at %= self.sources.len();
            let (source, i, len) = &mut self.sources[self.at];
            if i == len {
                self.sources.swap_remove(self.at);
                continue;
            }
            let input = (source.rule(), source.get(*i));
            *i += 1;
            self.at += 1;
            return Some(input);
        }
        None
    }
}

fn run(seconds: Option<u64>, inputs: Option<u64>, seed: u64, responses: Vec<(u32, Vec<u8>)>) -> i32 {
    let begun = Instant::now();
    let mut r = Run { counts: vec![[0; 7]; 26], ..Run::default() };
    let mut rng = Rng(seed);
    let until = |r: &Run| inputs.is_some_and(|n| r.inputs >= n) || seconds.is_some_and(|n| begun.elapsed().as_secs() >= n);
    let mut turns = Turns { sources: vec![], at: 0 };
    let real = responses.iter().map(|(rule, s)| Source::Near { rule: *rule, seed: s.clone() });
    for source in make::exhaustive().into_iter().chain(make::near()).chain(real) {
        let len = source.len();
        turns.sources.push((source, 0, len));
    }
    let fixed: usize = turns.sources.iter().map(|s| s.2).sum();
    for (rule, s) in make::limits() {
        r.one(rule, &s);
        if s.len() < 5000 {
            r.table_sizes(rule, &s);
        }
    }
    for &(rule, s) in make::SEEDS {
        r.demand_3(&mut rng, rule, s);
        r.table_sizes(rule, s);
    }
    println!("{} inputs around limits", r.inputs);
    let before = r.inputs;
    // each chosen or real input by all other rules
    for (rule, s) in make::SEEDS.iter().map(|(rule, s)| (*rule, *s)).chain(responses.iter().map(|(rule, s)| (*rule, &s[..]))) {
        for other in (1..=25).filter(|other| *other != rule) {
            r.one(other, s);
        }
    }
    println!("{} inputs that are another rule's", r.inputs - before);
    let before = r.inputs;
    for (rule, s) in &responses {
        r.one(*rule, s);
        r.table_sizes(*rule, s);
        r.demand_3(&mut rng, *rule, s);
        for cut in 0..s.len() {
            r.one(*rule, &s[..cut]);
        }
        for _ in 0..200 {
            r.one(*rule, &make::damaged(&mut rng, s));
        }
    }
    if !responses.is_empty() {
        println!("{} inputs from {} responses", r.inputs - before, responses.len());
    }
    println!("{fixed} exhaustive ones and neighbours of chosen and real ones, mixed with made ones");
    let mut left = true;
    while !until(&r) {
        // exhaustive ones
        for _ in 0..400 {
            match turns.next() {
                Some((rule, s)) => {
                    let f = r.one(rule, &s);
                    if f.answer == 0 && r.turn % 40 == 0 {
                        r.table_sizes(rule, &s);
                    }
                }
                None => {
                    if left {
                        left = false;
                        println!("the exhaustive ones are done at {} inputs, {:.1} s", r.inputs, begun.elapsed().as_secs_f64());
                    }
                    break;
                }
            }
        }
        // made ones and damaged copies
        for _ in 0..20 {
            let rule = match rng.below(40) {
                n @ 0..=24 => n as u32 + 1,
                25..=30 => 14,
                31..=32 => 25,
                33..=34 => 13,
                35..=36 => 22,
                37 => 23,
                38 => 12,
                _ => 21,
            };
            let s = make::made(&mut rng, rule);
            let f = r.one(rule, &s);
            for _ in 0..8 {
                let t = make::damaged(&mut rng, &s);
                r.one(rule, &t);
            }
            if rng.one_in(12) {
                for cut in 0..s.len() {
                    r.one(rule, &s[..cut]);
                }
            }
            if f.answer == 0 && rng.one_in(12) {
                r.table_sizes(rule, &s);
            }
            if f.answer == 0 && rng.one_in(30) {
                r.demand_3(&mut rng, rule, &s);
            }
            if f.answer == 0 && s.len() < 120 && rng.one_in(600) {
                // all that is one byte away
                let near = Source::Near { rule, seed: s.clone() };
                for i in 0..near.len() {
                    r.one(rule, &near.get(i));
                }
            }
            if rng.one_in(20) {
                // another rule's input
                let other = 1 + rng.below(25) as u32;
                r.one(other, &s);
            }
        }
    }
    let took = begun.elapsed();
    r.shrink();
    r.report(took, seed);
    let unknown = r.kinds.keys().filter(|k| !k.0).count();
    println!("\n{}", if unknown == 0 { "no other difference" } else { "DIFFERENCES" });
    (unknown > 0) as i32
}

fn main() {
    let (mut seconds, mut inputs, mut seed, mut responses) = (None, None, 1, vec![]);
    let mut args = std::env::args().skip(1);
    while let Some(a) = args.next() {
        if a == "--responses" {
            responses.extend(make::responses(&args.next().unwrap_or_else(|| fail())));
            continue;
        }
        let mut number = || args.next().and_then(|v| v.replace('_', "").parse::<u64>().ok()).unwrap_or_else(|| fail());
        match a.as_str() {
            "--seconds" => seconds = Some(number()),
            "--inputs" => inputs = Some(number()),
            "--seed" => seed = number(),
            "--help" => {
                println!("{HELP}");
                return;
            }
            _ => fail(),
        }
    }
    if seconds.is_none() && inputs.is_none() {
        seconds = Some(55);
    }
    // the Rust calls itself for each level, without a limit
    let thread = std::thread::Builder::new().stack_size(1 << 29).spawn(move || run(seconds, inputs, seed, responses)).unwrap();
    let code = thread.join().unwrap_or(2);
    std::process::exit(code);
}

fn fail() -> ! {
    eprintln!("{HELP}");
    std::process::exit(2)
}

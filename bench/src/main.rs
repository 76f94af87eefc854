//! Measures the port and the Rust on the same inputs. `bench/run` makes the inputs and calls it; ../docs/PERFORMANCE.md says what
//! the numbers mean.

use std::hint::black_box;
use std::time::Duration;

use elbomavund_oracle::tree::{from_nodes, Answer, Node};
use elbomavund_oracle::{make, oracle, ours};
use imap_proto::reach;

const HELP: &str = "\
bench MADE RESPONSES [--runs N] [--only TEXT]
  MADE is the folder that inputs.py filled, RESPONSES is data/responses.txt. --runs N: batches of each side (21). --only TEXT:
  inputs whose line has it.
bench MADE RESPONSES --only TEXT --times N --side port|count|rust
  Reads so many times by one side, within the function `measured`, for a profiler; measures nothing. It prints the bytes.
bench MADE RESPONSES --list
  Prints what --only can choose, a line for each input.";

/// One line of the table: pieces that are read one after another.
struct Input {
    group: String,
    what: String,
    real: bool,
    pieces: Vec<(u32, Vec<u8>)>,
    /// of all pieces, once they are known to be accepted
    bytes: usize,
    nodes: usize,
}

/// By the Rust. Its value is made and dropped, as a caller's would be.
fn rust(rule: u32, s: &[u8]) {
    macro_rules! by {
        ($($n:literal $f:ident)+) => {
            match rule {
                $($n => drop(black_box(reach::$f(black_box(s)))),)+
                _ => unreachable!(),
            }
        };
    }
    by! {
        1 number 2 number_64 3 quoted 4 literal 5 string 6 astring 7 nstring 8 text 9 sequence_set 10 uid_set 11 section
        12 entry_name 13 envelope 14 body 15 resp_text_code_append_uid 16 resp_text_code_copy_uid 17 resp_text_code_uid_not_sticky
        18 resp_vanished 19 resp_text_code_highest_mod_seq 20 msg_att_mod_seq 21 msg_att_body_section 22 metadata_solicited
        23 metadata_unsolicited 24 msg_att_envelope 25 msg_att_body_structure
    }
}

/// By the port, into a table that is not cleared between readings.
fn port(rule: u32, s: &[u8], table: &mut [u32]) -> u32 {
    let mut out = [0; 4];
    let answer = ours::read_into(rule, black_box(s), table, &mut out);
    black_box(&out);
    black_box(&table);
    answer
}

/// The processor's time of this thread: other programs on the machine are not in it.
fn spent() -> Duration {
    #[repr(C)]
    struct Timespec {
        seconds: i64,
        nanoseconds: i64,
    }
    unsafe extern "C" {
        fn clock_gettime(clock: i32, to: *mut Timespec) -> i32;
    }
    const CLOCK_THREAD_CPUTIME_ID: i32 = 3;
    let mut t = Timespec { seconds: 0, nanoseconds: 0 };
    // SAFETY: 64-bit Linux; t is a timespec.
    let failed = unsafe { clock_gettime(CLOCK_THREAD_CPUTIME_ID, &mut t) };
    assert_eq!(failed, 0, "clock_gettime");
    Duration::new(t.seconds as u64, t.nanoseconds as u32)
}

#[derive(Clone, Copy, PartialEq)]
enum Side {
    Port,
    /// the port with no table: it counts the nodes and answers 4, so this is its first pass alone
    Count,
    Rust,
}

/// Not inlined and with this name, so that a profiler can count within it alone.
#[inline(never)]
#[unsafe(no_mangle)]
fn measured(side: Side, input: &Input, table: &mut [u32], times: u32) {
    for _ in 0..times {
        for (rule, s) in &input.pieces {
            match side {
                Side::Port => _ = port(*rule, s, table),
                Side::Count => _ = port(*rule, s, &mut []),
                Side::Rust => rust(*rule, s),
            }
        }
    }
}

fn batch(side: Side, input: &Input, table: &mut [u32], times: u32) -> Duration {
    let begun = spent();
    measured(side, input, table, times);
    spent() - begun
}

/// Whether both sides accept a piece with the same length and tree; then the bytes taken and the nodes.
fn agree(rule: u32, s: &[u8], table: &mut [u32]) -> Option<(usize, usize)> {
    let f = ours::read(rule, s, table);
    if f.answer != 0 {
        return None;
    }
    let nodes: Vec<Node> = table.chunks_exact(4).take(f.nodes as usize).map(|n| n.try_into().unwrap()).collect();
    let taken = f.taken as usize;
    let tree = from_nodes(rule, s, taken, &nodes).expect("well-formed nodes");
    (oracle(rule, s) == Answer::Ok(taken, tree)).then_some((taken, nodes.len()))
}

fn median(times: &mut [f64]) -> f64 {
    times.sort_by(f64::total_cmp);
    times[times.len() / 2]
}

fn digits(x: f64) -> String {
    match x {
        _ if x >= 100.0 => format!("{x:.0}"),
        _ if x >= 1.0 => format!("{x:.2}"),
        _ if x >= 0.01 => format!("{x:.3}"),
        _ => format!("{x:.6}"),
    }
}

fn inputs(made: &str, responses: &str) -> Vec<Input> {
    let mut all = Vec::new();
    let real = make::responses(responses);
    let groups: [(&str, &[u32]); 5] = [
        ("ENVELOPE", &[13, 24]),
        ("BODYSTRUCTURE", &[14, 25]),
        ("sets", &[9, 10, 15, 16, 18]),
        ("METADATA", &[22]),
        ("BODY items", &[21]),
    ];
    for (group, rules) in groups {
        let pieces: Vec<_> = real.iter().filter(|p| rules.contains(&p.0)).cloned().collect();
        all.push(Input { group: group.into(), what: "pieces of real servers' responses".into(), real: true, pieces, bytes: 0, nodes: 0 });
    }
    let index = std::fs::read_to_string(format!("{made}/index")).unwrap_or_else(|e| panic!("{made}/index: {e}"));
    for line in index.lines() {
        let [group, rule, file, what] = line.split('|').collect::<Vec<_>>().try_into().expect("four columns");
        let bytes = std::fs::read(format!("{made}/{file}")).unwrap();
        let pieces = vec![(rule.parse().unwrap(), bytes)];
        all.push(Input { group: group.into(), what: what.into(), real: false, pieces, bytes: 0, nodes: 0 });
    }
    // each kind together, real ones first
    let order = ["ENVELOPE", "BODYSTRUCTURE", "sets", "METADATA", "long quoted", "1 MB literal", "BODY items"];
    all.sort_by_key(|i| order.iter().position(|g| *g == i.group));
    all
}

fn main() {
    let mut args = std::env::args().skip(1);
    let (Some(made), Some(responses)) = (args.next(), args.next()) else {
        eprintln!("{HELP}");
        std::process::exit(2);
    };
    let (mut runs, mut only, mut times, mut side, mut list) = (21, String::new(), None, Side::Port, false);
    while let Some(a) = args.next() {
        if a == "--list" {
            list = true;
            continue;
        }
        match (a.as_str(), args.next()) {
            ("--runs", Some(v)) => runs = v.parse().expect("a number"),
            ("--only", Some(v)) => only = v,
            ("--times", Some(v)) => times = Some(v.parse().expect("a number")),
            ("--side", Some(v)) => {
                side = match v.as_str() {
                    "port" => Side::Port,
                    "count" => Side::Count,
                    _ => Side::Rust,
                }
            }
            _ => {
                eprintln!("{HELP}");
                std::process::exit(2);
            }
        }
    }
    let mut table = vec![1u32; 1 << 20];
    let line = |i: &Input| format!("{} {} {}", i.group, if i.real { "servers" } else { "made" }, i.what);
    let mut all = inputs(&made, &responses);
    if list {
        all.iter().for_each(|i| println!("{}", line(i)));
        return;
    }
    all.retain(|i| line(i).contains(&only));
    // only what both sides accept, with the same tree
    let mut left_out = 0;
    for input in &mut all {
        let before = input.pieces.len();
        input.pieces.retain(|(rule, s)| match agree(*rule, s, &mut table) {
            Some((taken, count)) => {
                input.bytes += taken;
                input.nodes += count;
                true
            }
            None => false,
        });
        left_out += before - input.pieces.len();
        assert!(!input.pieces.is_empty() && (input.real || before == input.pieces.len()), "{}: not accepted", input.what);
    }
    if let Some(times) = times {
        for i in &all {
            measured(side, i, &mut table, times);
            println!("{}", i.bytes * times as usize);
        }
        return;
    }
    println!("| Input | Origin | Pieces | Bytes | Nodes | Port, ns a byte | Rust, ns a byte | Ratio | Port, ns a reading | First pass |");
    println!("|---|---|---|---|---|---|---|---|---|---|");
    for input in all {
        let (bytes, nodes) = (input.bytes, input.nodes);
        // as many passes as take 10 ms, and all warm
        let sides = [Side::Port, Side::Rust, Side::Count];
        let counts = sides.map(|side| {
            let mut n = 1;
            while batch(side, &input, &mut table, n) < Duration::from_millis(10) {
                n *= 2;
            }
            n
        });
        let mut spent: [Vec<f64>; 3] = Default::default();
        for _ in 0..runs {
            for i in 0..3 {
                let t = batch(sides[i], &input, &mut table, counts[i]);
                spent[i].push(t.as_nanos() as f64 / counts[i] as f64);
            }
        }
        // the ratio of each run, to show how steady it is
        let mut ratios: Vec<f64> = spent[0].iter().zip(&spent[1]).map(|(p, r)| p / r).collect();
        let [port, rust, count] = spent.each_mut().map(|s| median(s));
        median(&mut ratios);
        let (low, high) = (ratios[ratios.len() / 4], ratios[ratios.len() * 3 / 4]);
        println!(
            "| {}: {} | {} | {} | {} | {} | {} | {} | {:.2} ({:.2} to {:.2}) | {} | {:.0} % |",
            input.group,
            input.what,
            if input.real { "servers" } else { "made" },
            input.pieces.len(),
            bytes,
            nodes,
            digits(port / bytes as f64),
            digits(rust / bytes as f64),
            port / rust,
            low,
            high,
            digits(port / input.pieces.len() as f64),
            100.0 * count / port,
        );
    }
    println!("\n{runs} runs of each side in turn; medians, and in brackets the middle half of the runs' ratios.");
    println!("Left out: {left_out} pieces of real responses that are not accepted by both sides (docs/DIFFERENCES.md).");
}

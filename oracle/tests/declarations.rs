//! The declarations in src/ours.rs: they are the header's, and every word that the functions return or write is checked.
#![cfg(feature = "port")]

use std::io::Write as _;
use std::process::{Command, Stdio};

use elbomavund_oracle::ours::{self, read_into, view_into};
use elbomavund_oracle::{make, model};

const MARK: u32 = 0xdead_beef;
const MARK_64: u64 = 0xdead_beef_0bad_cafe;

fn file(name: &str) -> String {
    let path = format!("{}/{name}", env!("CARGO_MANIFEST_DIR"));
    std::fs::read_to_string(&path).unwrap_or_else(|e| panic!("{path}: {e}"))
}

/// A function of either language: name, parameters as (name, Rust type), result.
type Function = (String, Vec<(String, String)>, String);

fn words(s: &str) -> String {
    s.split_whitespace().collect::<Vec<_>>().join(" ")
}

fn rust_type(c: &str) -> String {
    let c = words(&c.replace('*', " * "));
    match c.as_str() {
        "uint32_t" => "u32",
        "size_t" => "usize",
        "const uint8_t *" => "*const u8",
        "uint32_t *" => "*mut u32",
        "const uint32_t *" => "*const u32",
        "uint64_t *" => "*mut u64",
        other => panic!("the header's type {other}"),
    }
    .into()
}

/// The prototypes of include/elbomavund.h.
fn header() -> Vec<Function> {
    let mut text = file("../include/elbomavund.h");
    while let Some(from) = text.find("/*") {
        let to = from + text[from..].find("*/").expect("a comment's end") + 2;
        text.replace_range(from..to, " ");
    }
    let mut out = Vec::new();
    for statement in text.split(';') {
        // a prototype begins behind the last line that is for the preprocessor, or behind extern "C" {
        let Some(open) = statement.find('(') else { continue };
        let line = statement[..open].lines().last().unwrap();
        let (result, name) = line.rsplit_once(' ').expect("a result and a name");
        let inside = &statement[open + 1..statement.rfind(')').unwrap()];
        let parameter = |p: &str| {
            let at = p.rfind(|c: char| !(c.is_alphanumeric() || c == '_')).unwrap() + 1;
            (p[at..].to_string(), rust_type(&p[..at]))
        };
        out.push((name.to_string(), inside.split(',').map(|p| parameter(p.trim())).collect(), rust_type(result)));
    }
    out
}

/// The functions that src/ours.rs declares.
fn declared() -> Vec<Function> {
    let text = file("src/ours.rs");
    let from = text.find("unsafe extern \"C\" {").expect("the declarations") + 19;
    let block = &text[from..from + text[from..].find("\n}").unwrap()];
    let one = |statement: &str| {
        let statement = words(statement);
        let rest = statement.strip_prefix("pub fn ")?;
        let (name, rest) = rest.split_once('(')?;
        let (inside, result) = rest.rsplit_once(") -> ")?;
        let parameter = |p: &str| p.trim().split_once(": ").map(|(n, t)| (n.to_string(), t.to_string()));
        let parameters = inside.trim_end().trim_end_matches(',').split(',').map(|p| parameter(p).unwrap()).collect();
        Some((name.to_string(), parameters, result.to_string()))
    };
    block.split(';').filter_map(one).collect()
}

#[test]
fn the_declarations_are_the_header_s() {
    let header = header();
    assert_eq!(header.iter().map(|f| f.0.as_str()).collect::<Vec<_>>(), ["elbomavund_read", "elbomavund_view"]);
    assert_eq!(declared(), header);
    // and the compiler takes them so: a pointer to each, with every type
    let _: unsafe extern "C" fn(u32, *const u8, usize, *mut u32, usize, *mut u64, usize) -> u32 = ours::elbomavund_read;
    let _: unsafe extern "C" fn(usize, *const u32, usize, usize, *mut u64, usize) -> u32 = ours::elbomavund_view;
}

/// One input for each answer, 0 to 6, with the table's words and the four numbers.
fn one_of_each() -> Vec<(u32, Vec<u8>, usize, [u64; 4])> {
    vec![
        (10, b"4:2,7 ".to_vec(), 14, [0, 5, 3, 0]),
        (4, b"{4294967295}\r\nab".to_vec(), 4, [1, 0, 0, 4294967293]),
        (4, b"{3}\r".to_vec(), 4, [1, 0, 0, 0]),
        (1, b"x".to_vec(), 4, [2, 0, 0, 0]),
        (14, vec![b'('; 17], 60, [3, 0, 0, 0]),
        (10, b"4:2,7 ".to_vec(), 11, [4, 0, 3, 0]),
        (0, b"1 ".to_vec(), 8, [5, 0, 0, 0]),
        (26, b"1 ".to_vec(), 8, [5, 0, 0, 0]),
        (u32::MAX, vec![], 0, [5, 0, 0, 0]),
        (257, b"1 ".to_vec(), 8, [5, 0, 0, 0]),
        (1, vec![b'1'; 16_777_217], 8, [6, 0, 0, 0]),
    ]
}

#[test]
fn every_out_word_and_nothing_beyond() {
    for (rule, s, room, numbers) in one_of_each() {
        for length in 0..=5 {
            let mut out = [MARK_64; 8];
            let mut table = vec![MARK; room + 5];
            let answer = read_into(rule, &s, &mut table[..room], &mut out[..length]);
            // the answer is returned, whatever room out has, and is out[0]
            assert_eq!(answer as u64, numbers[0], "rule {rule}, out of {length}");
            if length >= 4 {
                assert_eq!(out[..4], numbers, "rule {rule}, out of {length}");
                assert_eq!(answer as u64, out[0]);
                assert_eq!(out[4..], [MARK_64; 4]);
            } else {
                assert_eq!(out, [MARK_64; 8], "rule {rule}, out of {length}: nothing is written");
            }
            // the table is the same with each
            let written = if answer == 0 { 4 * numbers[2] as usize } else { 0 };
            assert!(table[written..].iter().all(|&w| w == MARK), "rule {rule}: words beyond the nodes");
            if answer == 0 {
                assert_eq!(table[..written], [7, 2, 0, 3, 2, 2, 4, 1, 3, 7, 7, 1]);
            }
        }
    }
}

#[test]
fn the_order_of_answers_5_and_6() {
    let longest = vec![b' '; 16_777_216];
    let longer = vec![b' '; 16_777_217];
    let ask = |rule: u32, s: &[u8], words: usize| {
        let mut out = [MARK_64; 4];
        let mut table = vec![MARK; words];
        read_into(rule, s, &mut table, &mut out);
        assert!(table.iter().all(|&w| w == MARK));
        out
    };
    for rule in [0, 26, 27, 255, 256, 257, 1 << 16, (1 << 16) + 1, 1 << 31, (1 << 31) + 1, u32::MAX] {
        // 5 comes before 6
        assert_eq!(ask(rule, &longer, 0), [5, 0, 0, 0]);
        assert_eq!(ask(rule, &longer, 64), [5, 0, 0, 0]);
        assert_eq!(ask(rule, &longest, 64), [5, 0, 0, 0]);
        assert_eq!(ask(rule, b"", 0), [5, 0, 0, 0]);
    }
    for rule in 1..=25 {
        // 6 comes before the reading (2 here; 8 would accept) and before 4
        assert_eq!(ask(rule, &longer, 0), [6, 0, 0, 0], "rule {rule}");
        assert_eq!(ask(rule, &longer, 64), [6, 0, 0, 0], "rule {rule}");
        let at_limit = if rule == 8 { 1 } else { 2 };
        assert_eq!(ask(rule, &longest, 0), [at_limit, 0, 0, 0], "rule {rule}");
        assert_eq!(ask(rule, b"", 0), [1, 0, 0, 0], "rule {rule}");
    }
    // 4 only for a complete reading
    assert_eq!(ask(1, b"1", 0), [1, 0, 0, 0]);
    assert_eq!(ask(1, b"1 ", 0), [4, 0, 1, 0]);
    assert_eq!(ask(1, b"x", 0), [2, 0, 0, 0]);
    assert_eq!(ask(14, &[b'('; 17], 0), [3, 0, 0, 0]);
}

/// What docs/RULES.md says of a view: the answer, offset and length.
fn viewed(length: usize, table: &[u32], node: usize) -> (u32, [u64; 2]) {
    if node < table.len() / 4 {
        let [kind, start, end] = [0, 1, 2].map(|i| table[4 * node + i] as usize);
        if kind == 4 && start <= end && end <= length {
            return (0, [start as u64, (end - start) as u64]);
        }
    }
    (7, [0, 0])
}

#[test]
fn views_answer_0_and_7() {
    let view = |length: usize, table: &[u32], node: usize| {
        let mut all = None;
        for room in 0..=4 {
            let mut out = [MARK_64; 6];
            let answer = view_into(length, table, node, &mut out[..room]);
            if room >= 2 {
                assert_eq!(out[2..], [MARK_64; 4]);
                all = Some((answer, [out[0], out[1]]));
            } else {
                assert_eq!(out, [MARK_64; 6], "out of {room}: nothing is written");
            }
            assert_eq!(answer, viewed(length, table, node).0, "{length} bytes, {table:?}, node {node}, out of {room}");
        }
        let all = all.unwrap();
        assert_eq!(all, viewed(length, table, node));
        all
    };
    assert_eq!(view(9, &[4, 2, 5, 1], 0), (0, [2, 3]));
    assert_eq!(view(5, &[4, 2, 5, 1], 0), (0, [2, 3]));
    assert_eq!(view(9, &[4, 5, 5, 1], 0), (0, [5, 0]));
    assert_eq!(view(0, &[4, 0, 0, 1], 0), (0, [0, 0]));
    // the end exceeds the buffer; the start exceeds the end
    assert_eq!(view(4, &[4, 2, 5, 1], 0), (7, [0, 0]));
    assert_eq!(view(9, &[4, 5, 4, 1], 0), (7, [0, 0]));
    assert_eq!(view(usize::MAX, &[4, u32::MAX, u32::MAX, 1], 0), (0, [u32::MAX as u64, 0]));
    assert_eq!(view(9, &[4, 0, u32::MAX, 1], 0), (7, [0, 0]));
    // no other kind
    for kind in (0..40).chain([260, 1 << 16 | 4, 1 << 31 | 4, u32::MAX]) {
        assert_eq!(view(9, &[kind, 2, 5, 1], 0).0, if kind == 4 { 0 } else { 7 });
    }
    // the index is outside the table's room: whole nodes only, and no product that wraps
    let table: Vec<u32> = [4, 1, 2, 1].repeat(3);
    for words in 0..=12 {
        for node in (0..5).chain([1 << 30, (1 << 30) + 1, 1 << 62, (1 << 62) + 1, usize::MAX / 4, usize::MAX]) {
            assert_eq!(view(9, &table[..words], node).0, if node < words / 4 { 0 } else { 7 });
        }
    }
    // words around each other's limits
    for start in 0..6 {
        for end in 0..6 {
            for length in 0..6 {
                view(length, &[7, 1, 0, 2, 4, start, end, 1], 1);
                view(length, &[7, 1, 0, 2, 4, start, end, 1], 0);
            }
        }
    }
}

/// Every bytes node that a reading leaves can be viewed, and the view is what the node names.
#[test]
fn views_of_readings() {
    let mut seen = 0;
    for &(rule, s) in make::SEEDS {
        let mut table = vec![MARK; 1000];
        let f = ours::read(rule, s, &mut table);
        for node in 0..f.nodes as usize {
            let mut out = [MARK_64; 2];
            let answer = view_into(s.len(), &table, node, &mut out);
            assert_eq!((answer, out), viewed(s.len(), &table, node));
            assert_eq!(answer == 0, table[4 * node] == 4);
            seen += (answer == 0) as usize;
        }
    }
    assert!(seen > 50, "{seen} views");
}

/// A C program, made with the header and the archive by `cc`, gives the same on every line of the stored sample, with out of 0 to
/// 5 words: so the header's types are the archive's, and ours.
#[test]
fn a_c_program_gives_the_same() {
    let here = env!("CARGO_MANIFEST_DIR");
    let program = format!("{}/header_c", env!("CARGO_TARGET_TMPDIR"));
    let cc = std::env::var("CC").unwrap_or("cc".into());
    let made = Command::new(&cc)
        .args(["-std=c11", "-Wall", "-Wextra", "-Werror", "-pedantic", "-O1"])
        .arg(format!("-I{here}/../include"))
        .args([&format!("{here}/tests/header.c"), env!("ELBOMAVUND_ARCHIVE"), "-o", &program])
        .status()
        .unwrap_or_else(|e| panic!("{cc}: {e}"));
    assert!(made.success(), "{cc} does not compile tests/header.c");
    let inputs = file("sample.inputs");
    let mut child = Command::new(&program).stdin(Stdio::piped()).stdout(Stdio::piped()).spawn().unwrap();
    let mut stdin = child.stdin.take().unwrap();
    let text = inputs.clone();
    let writer = std::thread::spawn(move || stdin.write_all(text.as_bytes()).unwrap());
    let output = child.wait_with_output().unwrap();
    writer.join().unwrap();
    assert!(output.status.success(), "{}: {}", program, output.status);
    let text = String::from_utf8(output.stdout).unwrap();
    let mut lines = text.lines();
    let mut count = 0;
    for (i, line) in inputs.lines().enumerate() {
        let (rule, words, s) = sample_line(line);
        let length = i % 6;
        let mut out = [MARK_64; 6];
        let mut table = vec![MARK; words + 1];
        let answer = read_into(rule, &s, &mut table[..words], &mut out[..length]);
        let mut view = [MARK_64; 2];
        let node = i % 4;
        let seen = view_into(s.len(), &table[..words], node, &mut view);
        let mut said = format!("{answer}");
        out.iter().for_each(|w| said += &format!(" {w}"));
        said += &format!(" | {seen} {} {} |", view[0], view[1]);
        table.iter().for_each(|w| said += &format!(" {w}"));
        assert_eq!(lines.next(), Some(said.as_str()), "line {} of the sample", i + 1);
        count += 1;
    }
    assert_eq!(lines.next(), None);
    assert!(count >= 2000);
}

fn sample_line(line: &str) -> (u32, usize, Vec<u8>) {
    let mut words = line.split(' ');
    let mut next = || words.next().unwrap();
    let (rule, room, hex) = (next().parse().unwrap(), next().parse().unwrap(), next());
    let hex = if hex == "-" { "" } else { hex };
    (rule, room, (0..hex.len() / 2).map(|i| u8::from_str_radix(&hex[2 * i..2 * i + 2], 16).unwrap()).collect())
}

/// The stored sample, replayed on the port; and the model gives the same, so that it is not an old one.
#[test]
fn the_stored_sample() {
    let (inputs, expected) = (file("sample.inputs"), file("sample.expected"));
    assert_eq!(inputs.lines().count(), expected.lines().count());
    assert_eq!(inputs.lines().count(), file("sample.origin").lines().count());
    for (i, (line, expected)) in inputs.lines().zip(expected.lines()).enumerate() {
        let (rule, words, s) = sample_line(line);
        for read in [ours::read, model::read] {
            let mut table = vec![MARK; words];
            let f = read(rule, &s, &mut table);
            let written = if f.answer == 0 { 4 * f.nodes as usize } else { 0 };
            let mut said = format!("{} {} {} {}", f.answer, f.taken, f.nodes, f.wanted);
            table[..written].iter().for_each(|w| said += &format!(" {w}"));
            if table[written..].iter().any(|&w| w != MARK) {
                said += " touched";
            }
            assert_eq!(said, expected, "line {} of the sample", i + 1);
        }
    }
}

/// Memory whose last byte stands before a page that no program may touch.
struct Fenced {
    at: *mut u8,
    size: usize,
}

const PAGE: usize = 65536;

impl Fenced {
    fn new(most: usize) -> Fenced {
        unsafe extern "C" {
            fn mmap(at: *mut u8, size: usize, may: i32, flags: i32, file: i32, from: i64) -> *mut u8;
            fn mprotect(at: *mut u8, size: usize, may: i32) -> i32;
        }
        let size = most.next_multiple_of(PAGE);
        // SAFETY: Linux; fresh private memory (PROT_READ | PROT_WRITE, MAP_PRIVATE | MAP_ANONYMOUS), its last page shut.
        unsafe {
            let at = mmap(std::ptr::null_mut(), size + PAGE, 3, 0x22, -1, 0);
            assert!(at as isize != -1 && mprotect(at.add(size), PAGE, 0) == 0);
            Fenced { at, size }
        }
    }

    /// The last so many elements.
    fn last<T>(&mut self, count: usize) -> &mut [T] {
        let bytes = count * size_of::<T>();
        assert!(bytes <= self.size);
        // SAFETY: inside the memory, and aligned: the fence stands at a page.
        unsafe { std::slice::from_raw_parts_mut(self.at.add(self.size - bytes).cast(), count) }
    }
}

/// No byte behind the buffer is read, and none behind the table or out is written: a fence stands there.
#[test]
fn nothing_beyond_the_slices_is_touched() {
    let (mut buffer, mut table, mut out) = (Fenced::new(PAGE), Fenced::new(4 * PAGE), Fenced::new(PAGE));
    let inputs = file("sample.inputs");
    for (i, line) in inputs.lines().enumerate() {
        let (rule, words, s) = sample_line(line);
        for cut in [s.len(), s.len() / 2, s.len().saturating_sub(1)] {
            let buffer = buffer.last(cut);
            buffer.copy_from_slice(&s[..cut]);
            let mut expected = vec![MARK; words];
            let f = model::read(rule, buffer, &mut expected);
            let table = table.last(words);
            table.fill(MARK);
            let out = out.last(4 + i % 2);
            let answer = read_into(rule, buffer, table, out);
            assert_eq!((answer, &out[..4]), (f.answer, &[f.answer, f.taken, f.nodes, f.wanted].map(u64::from)[..]));
            assert_eq!(table, expected);
            read_into(rule, buffer, table, &mut out[..i % 4]);
        }
    }
}

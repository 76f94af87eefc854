//! The sample readings of docs/RULES.md, on our side and on the Rust; and the shape of the declarations in src/ours.rs.

use elbomavund_oracle::tree::{from_nodes, Answer, Node};
use elbomavund_oracle::{oracle, ours};

const MARK: u32 = 0xdead_beef;

/// Reads with so many words; all four numbers, the nodes' words, and that nothing else was written.
fn check(rule: u32, s: &[u8], words: usize, numbers: [u32; 4], nodes: &[Node]) {
    let mut table = vec![MARK; words + 3];
    let f = ours::read(rule, s, &mut table[..words]);
    assert_eq!([f.answer, f.taken, f.nodes, f.wanted], numbers, "rule {rule} on {:?}", String::from_utf8_lossy(s));
    let written = 4 * nodes.len();
    assert_eq!(table[..written], *nodes.as_flattened());
    let count = if f.answer == 0 { 4 * f.nodes as usize } else { 0 };
    assert!(table[count..].iter().all(|&w| w == MARK), "words beyond the nodes");
    let all: Vec<Node> = table[..count].chunks_exact(4).map(|n| n.try_into().unwrap()).collect();
    match (f.answer, oracle(rule, s)) {
        (0, Answer::Ok(taken, tree)) => {
            assert_eq!(taken, f.taken as usize);
            assert_eq!(from_nodes(rule, s, taken, &all), Ok(tree));
        }
        (1, rust @ Answer::Incomplete { .. }) => assert_eq!(rust.wanted(), f.wanted as usize),
        (2, Answer::Error) | (4, Answer::Ok(..)) | (5, Answer::Error) => {}
        // known differences: levels, and a vendor's name that is missing
        (3, Answer::Incomplete { .. }) => {}
        (2, Answer::Incomplete { needed: None, literal: false }) if rule == 12 => {}
        (_, rust) => panic!("rule {rule}: {f:?} and {rust:?}"),
    }
}

#[test]
fn samples_of_document_01() {
    check(1, b"4294967295;", 4, [0, 10, 1, 0], &[[1, 4294967295, 0, 1]]);
    check(1, b"4294967296;", 4, [2, 0, 0, 0], &[]);
    check(1, b"4294967296", 4, [1, 0, 0, 0], &[]);
    check(4, b"{0}\r\n", 4, [0, 5, 1, 0], &[[4, 5, 5, 1]]);
    check(4, b"{3}\r\nab", 4, [1, 0, 0, 1], &[]);
    check(3, b"\"a\\\"b\"", 4, [0, 6, 1, 0], &[[4, 1, 5, 1]]);
    check(10, b"4:2,7 ", 12, [0, 5, 3, 0], &[[7, 2, 0, 3], [2, 2, 4, 1], [3, 7, 7, 1]]);
    check(9, b"4:2,7 ", 12, [0, 5, 3, 0], &[[7, 2, 0, 3], [2, 4, 2, 1], [2, 7, 7, 1]]);
    check(9, b"4:* ", 12, [0, 1, 2, 0], &[[7, 1, 0, 2], [2, 4, 4, 1]]);
    check(11, b"[1.MIME]", 16, [0, 8, 4, 0], &[[18, 1, 7, 4], [7, 1, 0, 2], [1, 1, 0, 1], [8, 2, 0, 1]]);
    check(12, b"/private/vendor ", 16, [2, 0, 0, 0], &[]);
    check(14, b"(\"TEXT\" \"PLAIN\" NIL NIL NIL \"7BIT\" 5)", 60, [0, 37, 13, 0], &[[12, 0, 37, 13]]);
    check(14, b"(\"TEXT\" \"PLAIN\" NIL NIL NIL \"7BIT\" 5 2)", 60, [0, 39, 13, 0], &[[13, 0, 39, 13]]);
    check(14, &[b'('; 16], 60, [1, 0, 0, 0], &[]);
    check(14, &[b'('; 17], 60, [3, 0, 0, 0], &[]);
    check(10, b"4:2,7 ", 11, [4, 0, 3, 0], &[]);
    check(10, b"4:2,7 ", 0, [4, 0, 3, 0], &[]);
}

#[test]
fn answers_before_a_reading() {
    for rule in [0, 26, 256 + 1, u32::MAX] {
        check(rule, b"1 ", 8, [5, 0, 0, 0], &[]);
    }
    let long = vec![b' '; 16_777_217];
    for rule in 1..=25 {
        let mut table = vec![MARK; 8];
        let f = ours::read(rule, &long, &mut table);
        assert_eq!([f.answer, f.taken, f.nodes, f.wanted], [6, 0, 0, 0]);
        assert_eq!(table, [MARK; 8]);
    }
    assert_eq!(ours::read(26, &long, &mut []).answer, 5);
    assert_eq!(ours::read(1, &long[1..], &mut []).answer, 2);
}

#[test]
fn every_word_of_the_four_numbers_is_its_own() {
    // large values in each: 64-bit numbers, long buffers, wanted beyond 31 bits
    check(2, b"18446744073709551614 ", 4, [0, 20, 1, 0], &[[1, u32::MAX - 1, u32::MAX, 1]]);
    check(4, b"{4294967295}\r\n", 4, [1, 0, 0, u32::MAX], &[]);
    let mut s = vec![b'"'];
    s.resize(16_777_215, b'a');
    s.push(b'"');
    check(3, &s, 4, [0, 16_777_216, 1, 0], &[[4, 1, 16_777_215, 1]]);
}

/// NIL and absent are None; the language is a list of one; a text and a message have no child for their type.
#[test]
fn trees() {
    let s = b"(\"TEXT\" \"P\" NIL NIL \"\xff\" \"8bit\" 1 2 NIL NIL \"en\")";
    let mut table = vec![0; 100];
    let f = ours::read(14, s, &mut table);
    assert_eq!((f.answer, f.nodes), (0, 14));
    let nodes: Vec<Node> = table[..56].chunks_exact(4).map(|n| n.try_into().unwrap()).collect();
    let tree = from_nodes(14, s, s.len(), &nodes).unwrap();
    assert_eq!(oracle(14, s), Answer::Ok(s.len(), tree));
    // a wrong word anywhere is seen: the tree is another, or none
    for i in 0..56 {
        let mut wrong = nodes.clone();
        wrong[i / 4][i % 4] += 1;
        let same = from_nodes(14, s, s.len(), &wrong).is_ok_and(|t| oracle(14, s) == Answer::Ok(s.len(), t));
        // but for a NIL that becomes absent: (5, a, b) is never (6, 0, 0), and an empty place has no other
        assert!(!same, "word {i} of {:?}", nodes[i / 4]);
    }
}

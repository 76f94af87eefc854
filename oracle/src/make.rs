//! Inputs: exhaustive short ones, all that stand one byte away from chosen ones, made ones by grammar, and damaged copies.

/// Numbers that look random and are the same for a seed (splitmix64).
#[derive(Clone)]
pub struct Rng(pub u64);

impl Rng {
    pub fn next(&mut self) -> u64 {
        self.0 = self.0.wrapping_add(0x9e37_79b9_7f4a_7c15);
        let z = (self.0 ^ self.0 >> 30).wrapping_mul(0xbf58_476d_1ce4_e5b9);
        let z = (z ^ z >> 27).wrapping_mul(0x94d0_49bb_1331_11eb);
        z ^ z >> 31
    }

    pub fn below(&mut self, n: usize) -> usize {
        (self.next() % n as u64) as usize
    }

    pub fn one_in(&mut self, n: usize) -> bool {
        self.below(n) == 0
    }

    pub fn pick<'a, T: ?Sized>(&mut self, from: &[&'a T]) -> &'a T {
        from[self.below(from.len())]
    }
}

/// Bytes that mean something somewhere, and some that do not.
pub const ODD: &[u8] = b"\"\\(){}[]<>.,:*% \t\r\n\x00\x19\x1a\x1f\x7f\x80\xc3\xff019NnTa/";

// deterministic inputs ------------------------------------------------------------------------------------------------------

/// A list of inputs of one rule, each made from its index.
pub enum Source {
    /// `before`, then up to `most` of the tokens, then `after`
    Tokens { rule: u32, before: Vec<u8>, tokens: Vec<Vec<u8>>, most: u32, after: Vec<u8> },
    /// all that can be made of a seed by one cut, one byte changed, put in, left out or doubled
    Near { rule: u32, seed: Vec<u8> },
}

impl Source {
    pub fn len(&self) -> usize {
        match self {
            Source::Tokens { tokens, most, .. } => (0..=*most).map(|l| tokens.len().pow(l)).sum(),
            Source::Near { seed, .. } => {
                let n = seed.len();
                n + 1 + 256 * n + ODD.len() * (n + 1) + n + n
            }
        }
    }

    pub fn is_empty(&self) -> bool {
        self.len() == 0
    }

    pub fn rule(&self) -> u32 {
        match self {
            Source::Tokens { rule, .. } | Source::Near { rule, .. } => *rule,
        }
    }

    pub fn get(&self, mut i: usize) -> Vec<u8> {
        match self {
            Source::Tokens { before, tokens, after, .. } => {
                let mut out = before.clone();
                let mut length = 0;
                while i >= tokens.len().pow(length) {
                    i -= tokens.len().pow(length);
                    length += 1;
                }
                for _ in 0..length {
                    out.extend(&tokens[i % tokens.len()]);
                    i /= tokens.len();
                }
                out.extend(after);
                out
            }
            Source::Near { seed, .. } => {
                let n = seed.len();
                let mut out = seed.clone();
                if i <= n {
                    out.truncate(i);
                    return out;
                }
                i -= n + 1;
                if i < 256 * n {
                    out[i / 256] = i as u8;
                    return out;
                }
                i -= 256 * n;
                if i < ODD.len() * (n + 1) {
                    out.insert(i / ODD.len(), ODD[i % ODD.len()]);
                    return out;
                }
                i -= ODD.len() * (n + 1);
                if i < n {
                    out.remove(i);
                } else {
                    out.insert(i - n, out[i - n]);
                }
                out
            }
        }
    }
}

fn tokens(rule: u32, before: &[u8], tokens: &[&[u8]], most: u32, after: &[u8]) -> Source {
    let tokens = tokens.iter().map(|t| t.to_vec()).collect();
    Source::Tokens { rule, before: before.to_vec(), tokens, most, after: after.to_vec() }
}

fn letters(rule: u32, before: &[u8], bytes: &[u8], most: u32) -> Source {
    let tokens = bytes.iter().map(|&b| vec![b]).collect();
    Source::Tokens { rule, before: before.to_vec(), tokens, most, after: vec![] }
}

/// Exhaustive short inputs of every rule, over a small alphabet of bytes or of words.
pub fn exhaustive() -> Vec<Source> {
    let all: Vec<u8> = (0..=255).collect();
    let mut v: Vec<Source> = (1..=25).map(|rule| letters(rule, b"", &all, if rule <= 12 { 2 } else { 1 })).collect();
    v.push(letters(1, b"", b"0149 x\x00\xff", 5));
    v.push(letters(1, b"429496729", b"0123456789 ", 3));
    v.push(letters(2, b"", b"019 x\x00\xff", 4));
    v.push(letters(2, b"1844674407370955161", b"0123456789 ", 3));
    v.push(letters(3, b"\"", b"\"\\a \x00\r\n\x80", 5));
    for rule in [4, 5] {
        v.push(letters(rule, b"{", b"012}\r\na\x00", 5));
        v.push(letters(rule, b"{2}\r\n", b"\x00a\r\n\x80", 3));
        v.push(letters(rule, b"{1", b"}\r\n0a", 5));
    }
    v.push(letters(5, b"", b"\"{}0\\a\r\n", 5));
    v.push(letters(6, b"", b"a]\"\\({} %*\x7f\x80\x1f\x00", 4));
    v.push(tokens(6, b"", &[b"a", b"\"", b"{1}", b"\r\n", b" ", b"\\", b"\xe9"], 5, b""));
    v.push(letters(7, b"", b"NILnil\"a{0}\r\n", 4));
    v.push(letters(8, b"", b"a\r\n\x00\x80 ", 6));
    v.push(letters(9, b"", b"017:, *", 6));
    v.push(letters(10, b"", b"017:, *", 6));
    let section: &[&[u8]] =
        &[b"]", b"1", b"0", b".", b"HEADER", b".FIELDS", b".NOT", b" ", b"(", b")", b"A", b"text", b"MIME", b"H"];
    v.push(tokens(11, b"[", section, 4, b""));
    v.push(tokens(11, b"[", section, 3, b"]"));
    let fields: &[&[u8]] = &[b" ", b"(", b")", b"A", b"\"", b"]", b".NOT", b"{1}\r\n"];
    v.push(tokens(11, b"[HEADER.FIELDS", fields, 6, b""));
    v.push(tokens(11, b"[1.header.fields (", fields, 4, b")]"));
    let entry: &[&[u8]] = &[
        b"/private", b"/shared", b"/comment", b"/admin", b"/vendor", b"/", b"a", b" ", b"*", b"\r", b"\x80", b"\x1a", b"\x19",
        b"\x7f",
    ];
    v.push(tokens(12, b"", entry, 4, b" "));
    v.push(tokens(12, b"\"", entry, 4, b"\""));
    v.push(tokens(12, b"{14}\r\n/shared/admin", entry, 2, b" "));
    v.push(tokens(12, b"\"/shared/comment", entry, 4, b"\""));
    v.push(tokens(12, b"/private/vendor", entry, 4, b")"));
    let field: &[&[u8]] = &[b"NIL", b" ", b"\"\"", b"(", b")", b"(NIL NIL NIL NIL)"];
    for (rule, word) in [(13, ""), (24, "ENVELOPE ")] {
        let begin = |s: &str| [word.as_bytes(), s.as_bytes()].concat();
        v.push(tokens(rule, &begin("("), field, 5, b""));
        v.push(tokens(rule, &begin("(NIL NIL "), field, 5, b" NIL NIL NIL NIL NIL NIL NIL)"));
        v.push(tokens(rule, &begin("(NIL NIL NIL NIL NIL NIL NIL NIL"), field, 5, b""));
        v.push(tokens(rule, &begin("(NIL NIL (("), field, 5, b""));
    }
    let bit: &[&[u8]] = &[b" ", b")", b"(", b"NIL", b"\"\"", b"1"];
    let whole: &[&[u8]] =
        &[b" NIL", b" \"\"", b" 1", b" (\"\" NIL)", b" (\"\")", b" (1)", b" (\"\" (\"\" \"\"))", b")", b" ", b" (\"\" \"\")"];
    let basic = r#"("" "" NIL NIL NIL "" 1"#;
    let text = r#"("TEXT" "" NIL NIL NIL "" 1"#;
    let envelope = "(NIL NIL NIL NIL NIL NIL NIL NIL NIL NIL)";
    let message = format!(r#"("MESSAGE" "RFC822" NIL NIL NIL "" 1 {envelope} {basic}) 1"#);
    let multipart = format!("({basic}) \"\"");
    for (rule, word) in [(14, ""), (25, "BODYSTRUCTURE ")] {
        let begin = |s: &str| [word.as_bytes(), s.as_bytes()].concat();
        v.push(tokens(rule, &begin(basic), bit, 6, b""));
        v.push(tokens(rule, &begin(&multipart), bit, 6, b""));
        for prefix in [basic, text, &message, &multipart] {
            v.push(tokens(rule, &begin(prefix), whole, 4, b")"));
            v.push(tokens(rule, &begin(prefix), whole, 3, b""));
        }
        let inside: &[&[u8]] = &[b"NIL", b" ", b"\"\"", b"(", b")", b"1", b"\"7BIT\"", b"n"];
        v.push(tokens(rule, &begin("(\"\" \"\" "), inside, 5, b""));
        v.push(tokens(rule, &begin("(\"\" \"\" NIL NIL NIL "), inside, 5, b""));
        v.push(tokens(rule, &begin("(\"\" \"\" NIL NIL NIL \"\" 1 NIL NIL NIL NIL"), inside, 5, b""));
        let outside: &[&[u8]] =
            &[b"(", b")", b"\"\"", b" ", b"NIL", b"1", b"\"TEXT\"", b"\"MESSAGE\" \"RFC822\"", b"(\"\" \"\" NIL NIL NIL \"\" 1)"];
        v.push(tokens(rule, &begin(""), outside, 5, b""));
        v.push(tokens(rule, &begin("("), outside, 4, b")"));
        v.push(tokens(rule, &begin(&message[..message.len() - 2]), outside, 4, b""));
        let encodings: &[&[u8]] = &[
            b"7BIT", b"8bit", b"BINARY", b"base64", b"Quoted-Printable", b"7", b"B", b"\"", b"\\", b"\\\"", b" 1)", b"NIL", b"{4}\r\n",
        ];
        v.push(tokens(rule, &begin("(\"\" \"\" NIL NIL NIL \""), encodings, 3, b"\" 1)"));
        v.push(tokens(rule, &begin("(\"\" \"\" NIL NIL NIL "), encodings, 3, b" 1)"));
    }
    let set: &[u8] = b"10 ,:]";
    v.push(letters(15, b"APPENDUID ", set, 6));
    v.push(letters(16, b"COPYUID ", set, 6));
    v.push(letters(16, b"COPYUID 1 2:1,3 ", set, 5));
    let vanished: &[&[u8]] = &[b" ", b"\t", b"(EARLIER)", b"1", b":", b",", b"(", b"(earlie"];
    v.push(tokens(18, b"VANISHED", vanished, 6, b""));
    v.push(letters(19, b"HIGHESTMODSEQ ", b"019 ]x", 5));
    v.push(letters(19, b"HIGHESTMODSEQ 1844674407370955161", b"0123456789]", 2));
    v.push(letters(20, b"MODSEQ ", b"()10 x", 6));
    let item: &[&[u8]] = &[b"[", b"]", b"<", b">", b"1", b" ", b"NIL", b"\"\"", b"TEXT", b".", b"{1}\r\n"];
    v.push(tokens(21, b"BODY", item, 5, b""));
    v.push(tokens(21, b"BODY[]", item, 4, b" NIL"));
    let metadata: &[&[u8]] = &[
        b"(", b")", b" ", b"/shared/comment", b"/private/vendor", b"/a", b"NIL", b"\"\"", b"\t", b"\"\x80\"", b"{1}\r\n\xff",
    ];
    v.push(tokens(22, b"METADATA \"\" ", metadata, 5, b""));
    v.push(tokens(22, b"METADATA \"\x80\" (/shared/comment NIL", metadata, 3, b")"));
    let names: &[&[u8]] =
        &[b" ", b"/shared/comment", b"/shared/vendor", b"/a", b"\r", b"\"", b"\x80", b"\"/shared/admin\r\xff\"", b"{0}\r\n"];
    v.push(tokens(23, b"METADATA \"\" ", names, 5, b""));
    v.push(tokens(23, b"METADATA \"\xff\" ", names, 3, b"\r"));
    v.push(tokens(23, b"METADATA ", &[b"\"", b"a", b" ", b"NIL", b"/shared/comment", b"\\", b"\x80"], 5, b"\r\n"));
    v
}

/// Chosen inputs, with the rule.
pub const SEEDS: &[(u32, &[u8])] = &[
    (1, b"4294967295;"),
    (1, b"00000000004294967296 "),
    (2, b"18446744073709551615;"),
    (3, b"\"a\\\"b\\\\\xc3\xa4\""),
    (4, b"{12}\r\nab\x00\r\n\xff\"{}()\\x"),
    (5, b"{003}\r\na\"b "),
    (6, b"a]b\x7f\x80c "),
    (6, b"\"a b\""),
    (7, b"nIL"),
    (7, b"\"NIL\""),
    (8, b"text \x80 with (some) \"bytes\"\r\n"),
    (9, b"1,4:2,4294967295:0,00 "),
    (10, b"1,4:2,4294967295:0,00 "),
    (11, b"[]"),
    (11, b"[1.2.03.MIME]"),
    (11, b"[1.HEADER.FIELDS.NOT (A \"b\" {1}\r\nc )]"),
    (11, b"[HEADER.FIELDS ()]"),
    (11, b"[TEXT]"),
    (12, b"/private/comment/a//b/ "),
    (12, b"\"/shared/admin \x80*\""),
    (12, b"{19}\r\n/shared/vendor/a/\x1ab"),
    (12, b"/shared/vendor/ab "),
    (13, b"(NIL \"s\" ((NIL NIL \"a\" \"b\")(NIL NIL {1}\r\nx NIL) ) NIL NIL NIL NIL ((\"\" NIL NIL NIL)) nil \"\xff\")"),
    (14, b"(\"TEXT\" \"PLAIN\" NIL NIL NIL \"7BIT\" 5)"),
    (14, b"(\"TEXT\" \"PLAIN\" NIL NIL NIL \"7BIT\" 5 2)"),
    (14, b"(\"text\" \"p\" (\"a\" \"b\" \"c\" \"d\"\t ) \"i\" {1}\r\nd \"quoted-printable\" 5 2 \"m\" (\"x\" (\"y\" \"z\")) (\"en\" \"de\" ) \"l\" (1 (\"e\" NIL)))"),
    (14, b"((\"a\" \"b\" NIL NIL NIL \"x\" 1)(\"TEXT\" \"b\" NIL NIL NIL \"8BIT\" 1 2) \"mixed\" (\"b\" \"=\") (\"i\" NIL) \"en\" NIL 7)"),
    (14, b"(\"MESSAGE\" \"RFC822\" NIL NIL NIL \"BINARY\" 1 (NIL NIL NIL NIL NIL NIL NIL NIL NIL NIL) (\"\" \"\" NIL NIL NIL \"\" 1) 3 NIL NIL \"en\")"),
    (14, b"(\"\" \"\" NIL NIL NIL NIL 1)"),
    (14, b"(\"\" \"\" NIL NIL NIL \"BASE64\" 1 NIL (\"\" NIL) 2)"),
    (14, b"(\"\" \"\" NIL NIL NIL \"\xe9\" 1 NIL NIL NIL NIL ((((((((((((((((1)))))))))))))))))"),
    (15, b"APPENDUID 38505 3955,1:2]"),
    (16, b"COPYUID 38505 304,319:320 3956:3958]"),
    (17, b"UIDNOTSTICKY]"),
    (18, b"VANISHED \t(EARLIER) 41,43:116,118\r\n"),
    (18, b"VANISHED 405,407\r\n"),
    (19, b"HIGHESTMODSEQ 715194045007]"),
    (20, b"MODSEQ (624140003)"),
    (21, b"BODY[1.TEXT]<0> \"ab\""),
    (21, b"BODY[HEADER.FIELDS (DATE)] {2}\r\n\x00a"),
    (21, b"body[] nil"),
    (22, b"METADATA \"INBOX\" (/private/comment \"My own\" /shared/vendor/x {2}\r\nab /shared/admin nil\t)"),
    (22, b"METADATA \"\xff\" (\"/shared/admin \xc3\xa4\" \"\x80\")"),
    (23, b"METADATA \"\" /shared/comment /private/vendor/a \"/shared/admin\"\r\n"),
    (23, b"METADATA \"\" /shared/comment /shared/vendor\r\n"),
    (24, b"ENVELOPE (\"d\" NIL NIL NIL NIL NIL NIL NIL NIL NIL)"),
    (25, b"BODYSTRUCTURE ((\"TEXT\" \"PLAIN\" NIL NIL NIL \"7BIT\" 5 2) \"mixed\")"),
];

/// Everything one byte away from each seed.
pub fn near() -> Vec<Source> {
    SEEDS.iter().map(|&(rule, seed)| Source::Near { rule, seed: seed.to_vec() }).collect()
}

/// Inputs around each limit: numbers, counts, levels, lengths, rule numbers. The large ones (16 MB) come last.
pub fn limits() -> Vec<(u32, Vec<u8>)> {
    let mut v: Vec<(u32, Vec<u8>)> = Vec::new();
    let mut put = |rule: u32, s: String| v.push((rule, s.into_bytes()));
    for rule in [0, 26, 27, 100, 255, 256, 257, 65536 + 1, 1 << 31, u32::MAX] {
        put(rule, String::new());
        put(rule, "1 ".into());
    }
    let mut numbers: Vec<String> = Vec::new();
    for base in [u32::MAX as u128, u64::MAX as u128, 1 << 63, 9_999_999_999_999_999_999, 99_999_999_999_999_999_999] {
        for d in 0..20 {
            numbers.push((base + 10 - d).to_string());
            numbers.push(format!("{}{}", "0".repeat(d as usize * 3), base + 2 - d % 4));
            numbers.push(format!("{}0", base + 5 - d));
        }
    }
    for n in &numbers {
        put(1, format!("{n} "));
        put(1, n.clone());
        put(2, format!("{n} "));
        put(2, n.clone());
        put(9, format!("1,{n}:{n} "));
        put(10, format!("{n}:1,{n} "));
        put(4, format!("{{{n}}}\r\nabc"));
        put(7, format!("{{{n}}}\r\n"));
        put(11, format!("[{n}.{n}.{n}]"));
        put(11, format!("[1.{n}.TEXT]"));
        put(14, format!("(\"\" \"\" NIL NIL NIL \"\" {n})"));
        put(14, format!("(\"TEXT\" \"\" NIL NIL NIL \"\" 1 {n})"));
        put(14, format!("(\"\" \"\" NIL NIL NIL \"\" 1 NIL NIL NIL NIL {n})"));
        put(14, format!("(\"\" \"\" NIL NIL {{{n}}}\r\nab"));
        put(15, format!("APPENDUID {n} {n}]"));
        put(16, format!("COPYUID {n} {n} {n}:1]"));
        put(18, format!("VANISHED {n}:{n}\r"));
        put(19, format!("HIGHESTMODSEQ {n}]"));
        put(20, format!("MODSEQ ({n})"));
        put(21, format!("BODY[]<{n}> NIL"));
        put(22, format!("METADATA \"\" (/shared/comment {{{n}}}\r\nab"));
    }
    // levels: bodies in messages, in multiparts and mixed, with an extension list of every depth in the innermost or outermost
    let basic = "(\"\" \"\" NIL NIL NIL \"\" 1)";
    let envelope = "(NIL NIL NIL NIL NIL NIL NIL NIL NIL NIL)";
    for levels in 1..20usize {
        for shape in 0..3 {
            for lists in [0, 1, 2, 16usize.saturating_sub(levels), 17usize.saturating_sub(levels), 15, 16, 17] {
                let list = if lists == 0 { "1".into() } else { format!("{}1{}", "(".repeat(lists), ")".repeat(lists)) };
                for place in 0..3 {
                    let ext = |here: bool| if here { format!(" NIL NIL NIL NIL {list}") } else { String::new() };
                    let mut s = format!("{}{})", &basic[..basic.len() - 1], ext(place == 0));
                    for l in 1..levels {
                        let outermost = l == levels - 1;
                        s = if shape == 0 || shape == 2 && l % 2 == 0 {
                            format!("({s} \"m\"{})", ext(place == 1 && outermost))
                        } else {
                            format!("(\"MESSAGE\" \"RFC822\" NIL NIL NIL \"\" 1 {envelope} {s} 1{})", ext(place == 1 && outermost))
                        };
                    }
                    put(14, s.clone());
                    put(25, format!("BODYSTRUCTURE {s}"));
                }
            }
        }
        for tail in ["", " ", ")", "\"", "x", "1", "NIL", "(", "\r"] {
            put(14, format!("{}{tail}", "(".repeat(levels)));
            let begin = "(\"\" \"\" NIL NIL NIL \"\" 1 NIL NIL NIL NIL ";
            put(14, format!("{begin}{}{tail}", "(".repeat(levels)));
            put(25, format!("BODYSTRUCTURE {begin}{}{tail}", "(".repeat(levels)));
            // a disposition's or a language's parenthesis opens no level
            put(14, format!("(\"\" \"\" NIL NIL NIL \"\" 1 NIL {}{tail}", "(".repeat(levels)));
            put(14, format!("(\"\" \"\" NIL NIL NIL \"\" 1 NIL NIL {}{tail}", "(".repeat(levels)));
        }
    }
    put(14, "(".repeat(500));
    // lengths
    for n in [255usize, 256, 257, 4095, 4096, 4097, 65535, 65536, 65537] {
        put(3, format!("\"{}\"", "a".repeat(n)));
        put(3, format!("\"{}\"", "\\\\".repeat(n)));
        put(6, format!("{} ", "a".repeat(n)));
        put(8, format!("{}\r", "a".repeat(n)));
        put(9, format!("{}1 ", "1,".repeat(n / 4)));
        put(10, format!("{}1 ", "3:1,".repeat(n / 4)));
        put(11, format!("[1{}]", ".1".repeat(n / 4)));
        put(11, format!("[HEADER.FIELDS (A{})]", " A".repeat(n / 4)));
        put(12, format!("/shared/comment{} ", "/a".repeat(n / 4)));
        for d in [n - 1, n, n + 1] {
            put(4, format!("{{{n}}}\r\n{}", "a".repeat(d)));
            put(21, format!("BODY[] {{{n}}}\r\n{}", "\0".repeat(d)));
        }
    }
    let mut raw = |rule: u32, head: &str, fill: u8, total: usize, end: &[u8]| {
        let mut s = head.as_bytes().to_vec();
        s.resize(total - end.len(), fill);
        s.extend(end);
        v.push((rule, s));
    };
    const MB16: usize = 16_777_216;
    for total in [MB16 - 1, MB16, MB16 + 1] {
        raw(4, &format!("{{{}}}\r\n", total - 12), 0, total, b"");
        raw(4, &format!("{{{}}}\r\n", total - 11), 0, total, b"");
        raw(3, "\"", b'a', total, b"\"");
        raw(1, "7 ", b'a', total, b"");
        raw(14, "x", b'(', total, b"");
        raw(6, "", b'a', total, b" ");
        raw(8, "", 0x80, total, b"\r");
        raw(8, "", b'a', total, b"");
        raw(21, &format!("BODY[] {{{}}}\r\n", total - 19), b'"', total, b"(");
        raw(14, &format!("(\"\" \"\" NIL NIL {{{}}}\r\n", total - 33), b')', total, b" \"\" 1)");
        raw(22, &format!("METADATA \"\" (/shared/admin {{{}}}\r\n", total - 40), b'v', total, b")");
        raw(12, "/shared/admin/", b'a', total, b" ");
        raw(2, "", b'0', total, b"7 ");
    }
    raw(0, "", b'1', MB16 + 1, b"");
    raw(26, "", b'1', MB16 + 1, b"");
    // many nodes
    v.push((9, [&b"1,".repeat(300_000)[..], b"1 "].concat()));
    v.push((10, [&b"3:1,".repeat(200_000)[..], b"1 "].concat()));
    v.push((14, [&b"("[..], &b"(\"\" \"\" NIL NIL NIL \"\" 1)".repeat(20_000), b" \"\")"].concat()));
    v
}

// made inputs ---------------------------------------------------------------------------------------------------------------

/// Makes an input for a rule by its grammar, seldom with something odd in it.
pub struct Maker<'r> {
    pub rng: &'r mut Rng,
    pub s: Vec<u8>,
    /// one in so many places is odd
    pub odd: usize,
}

pub fn made(rng: &mut Rng, rule: u32) -> Vec<u8> {
    let odd = [1_000_000, 300, 80, 25][rng.below(4)];
    let mut m = Maker { rng, s: Vec::new(), odd };
    m.rule(rule);
    let end = m.rng.pick::<[u8]>(&[b" ", b")", b"\r\n", b"]", b"", b"x", b"\x00", b" (", b";"]);
    m.s.extend(end);
    m.s
}

impl Maker<'_> {
    fn put(&mut self, s: &str) {
        self.s.extend(s.as_bytes());
    }

    fn strange(&mut self) -> bool {
        self.rng.one_in(self.odd)
    }

    /// A word in some case.
    fn word(&mut self, s: &str) {
        let mixed = self.rng.one_in(4);
        for b in s.bytes() {
            let flip = mixed && self.rng.one_in(2);
            self.s.push(if flip { b ^ (b.is_ascii_alphabetic() as u8) << 5 } else { b });
        }
    }

    fn space(&mut self) {
        if self.strange() {
            let s = self.rng.pick(&["", "  ", "\t", " \t ", "\r\n"]);
            self.put(s);
        } else {
            self.put(" ");
        }
    }

    fn rule(&mut self, rule: u32) {
        match rule {
            1 => self.number(),
            2 => self.number_64(),
            3 => self.quoted(),
            4 => self.literal(),
            5 => self.string(),
            6 => self.astring(),
            7 => self.nstring(),
            8 => {
                for _ in 0..self.rng.below(12) {
                    let b = self.any();
                    self.s.push(b);
                }
            }
            9 | 10 => self.set(),
            11 => self.section(),
            12 => self.entry(),
            13 => self.envelope(),
            14 => self.outer(),
            15 => {
                self.word("APPENDUID ");
                self.number();
                self.space();
                self.set();
            }
            16 => {
                self.word("COPYUID ");
                self.number();
                self.space();
                self.set();
                self.space();
                self.set();
            }
            17 => self.word("UIDNOTSTICKY"),
            18 => {
                self.word("VANISHED");
                self.blanks();
                if self.rng.one_in(2) {
                    self.word("(EARLIER)");
                    self.blanks();
                }
                self.set();
            }
            19 => {
                self.word("HIGHESTMODSEQ ");
                self.number_64();
            }
            20 => {
                self.word("MODSEQ ");
                self.put("(");
                self.number_64();
                self.put(")");
            }
            21 => {
                self.word("BODY");
                self.section();
                if self.rng.one_in(3) {
                    self.put("<");
                    self.number();
                    self.put(">");
                }
                self.space();
                self.nstring();
            }
            22 => {
                self.metadata();
                self.put("(");
                for i in 0..1 + self.rng.below(4) {
                    if i > 0 {
                        self.space();
                    }
                    self.entry();
                    self.space();
                    self.nstring();
                }
                self.close();
            }
            23 => {
                self.metadata();
                for i in 0..self.rng.below(5) {
                    if i > 0 {
                        self.space();
                    }
                    self.entry();
                }
            }
            24 => {
                self.word("ENVELOPE ");
                self.envelope();
            }
            25 => {
                self.word("BODYSTRUCTURE ");
                self.outer();
            }
            _ => {}
        }
    }

    fn any(&mut self) -> u8 {
        if self.rng.one_in(3) {
            ODD[self.rng.below(ODD.len())]
        } else {
            self.rng.next() as u8
        }
    }

    fn blanks(&mut self) {
        let s = self.rng.pick(&[" ", " ", "  ", "\t", " \t", "\t "]);
        self.put(s);
        if self.strange() {
            self.s.pop();
        }
    }

    fn close(&mut self) {
        if self.rng.one_in(8) {
            let s = self.rng.pick(&[" ", "\t", "  ", " \t "]);
            self.put(s);
        }
        self.put(")");
    }

    fn number(&mut self) {
        let n = match self.rng.below(12) {
            0 => (1u64 << 32) - 3 + self.rng.below(if self.odd < 100 { 6 } else { 3 }) as u64,
            1..=2 => self.rng.next() & 0xffff_ffff,
            3..=6 => self.rng.below(10) as u64,
            _ => self.rng.below(100_000) as u64,
        };
        if self.rng.one_in(15) {
            let zeros = "0".repeat(self.rng.below(14));
            self.put(&zeros);
        }
        self.put(&n.to_string());
    }

    fn number_64(&mut self) {
        match self.rng.below(4) {
            0 => {
                let n = u64::MAX as u128 - 2 + self.rng.below(if self.odd < 100 { 6 } else { 3 }) as u128;
                self.put(&n.to_string());
            }
            1 => {
                let n = self.rng.next();
                self.put(&n.to_string());
            }
            _ => self.number(),
        }
    }

    fn letters(&mut self) {
        for _ in 0..1 + self.rng.below(6) {
            let b = b'a' + self.rng.below(26) as u8;
            self.s.push(b);
        }
    }

    fn quoted(&mut self) {
        self.put("\"");
        match self.rng.below(6) {
            0 => {}
            1..=3 => self.letters(),
            _ => {
                for _ in 0..self.rng.below(9) {
                    match self.rng.below(10) {
                        0 => self.put("\\\""),
                        1 => self.put("\\\\"),
                        2 => self.put("é"),
                        3 => self.put("€"),
                        4 => {
                            let b = 128 + self.rng.below(128) as u8;
                            self.s.push(b);
                        }
                        5 => {
                            let s = self.rng.pick(&["(", ")", "{", "}", "{3}", "[", "]", "%", "*", "NIL", " ", "\t", "\x7f", "\x01"]);
                            self.put(s);
                        }
                        _ => self.letters(),
                    }
                    if self.strange() {
                        let b = self.any();
                        self.s.push(b);
                    }
                }
            }
        }
        self.put("\"");
    }

    fn literal(&mut self) {
        let content: Vec<u8> = (0..self.rng.below(10)).map(|_| self.any()).collect();
        self.put("{");
        if self.rng.one_in(10) {
            self.put("00");
        }
        let count = if self.strange() { content.len() + self.rng.below(5) } else { content.len() };
        self.put(&count.to_string());
        let end = if self.strange() { self.rng.pick(&["}\n", "}\r", "\r\n", "+}\r\n", "} \r\n"]) } else { "}\r\n" };
        self.put(end);
        self.s.extend(content);
    }

    fn string(&mut self) {
        if self.rng.one_in(5) {
            self.literal();
        } else {
            self.quoted();
        }
    }

    fn nstring(&mut self) {
        if self.rng.one_in(2) {
            self.word("NIL");
        } else {
            self.string();
        }
    }

    fn astring(&mut self) {
        match self.rng.below(3) {
            0 => self.string(),
            1 => self.letters(),
            _ => {
                for _ in 0..1 + self.rng.below(5) {
                    let b = if self.rng.one_in(2) { 128 + self.rng.below(128) as u8 } else { b"a]Z}+&/\x7f~"[self.rng.below(9)] };
                    self.s.push(b);
                }
            }
        }
    }

    fn set(&mut self) {
        for i in 0..1 + self.rng.below(5) {
            if i > 0 {
                self.put(",");
            }
            self.number();
            if self.rng.one_in(2) {
                self.put(":");
                if self.strange() {
                    self.put("*");
                } else {
                    self.number();
                }
            }
        }
    }

    fn section(&mut self) {
        self.put("[");
        let parts = if self.rng.one_in(2) { self.rng.below(5) } else { 0 };
        for i in 0..parts {
            if i > 0 {
                self.put(".");
            }
            self.number();
        }
        if self.rng.one_in(2) {
            if parts > 0 {
                self.put(".");
            }
            match self.rng.below(6) {
                0 => self.word("HEADER"),
                1 => self.word("TEXT"),
                2 if parts > 0 || self.strange() => self.word("MIME"),
                _ => {
                    self.word("HEADER.FIELDS");
                    if self.rng.one_in(2) {
                        self.word(".NOT");
                    }
                    self.space();
                    self.put("(");
                    for i in 0..self.rng.below(4) {
                        if i > 0 {
                            self.space();
                        }
                        self.astring();
                    }
                    if self.rng.one_in(5) {
                        self.space();
                    }
                    self.put(")");
                }
            }
        }
        self.put("]");
    }

    fn entry(&mut self) {
        let form = self.rng.below(6);
        let mut name = Vec::new();
        std::mem::swap(&mut name, &mut self.s);
        let begin = self.rng.pick(&[
            "/private/comment",
            "/shared/comment",
            "/shared/admin",
            "/private/vendor/a",
            "/shared/vendor/x.y",
        ]);
        self.put(begin);
        for _ in 0..self.rng.below(3) {
            self.put("/");
            if !self.rng.one_in(6) {
                self.letters();
            }
        }
        if self.rng.one_in(12) {
            let odd = self.rng.pick(&["/shared/vendor", "/private/vendor", "/shared/vendorx", "/private/admin", "/x", "/private", ""]);
            self.s = odd.as_bytes().to_vec();
        }
        if self.strange() || form == 0 && self.rng.one_in(4) {
            let at = self.rng.below(self.s.len() + 1);
            let b = self.any();
            self.s.insert(at, b);
        }
        if form == 0 && self.rng.one_in(4) {
            let tail = self.rng.pick::<[u8]>(&[b"\r", b"\r\xff", b" \x80", b" x", b"/\x1a", b"/*", b"//", b"/\xc3\xa4", b" \xc3\xa4"]);
            self.s.extend(tail);
        }
        std::mem::swap(&mut name, &mut self.s);
        match form {
            0 => {
                self.put(&format!("{{{}}}\r\n", name.len()));
                self.s.extend(name);
            }
            1..=2 => {
                self.put("\"");
                self.s.extend(name);
                self.put("\"");
            }
            _ => self.s.extend(name),
        }
    }

    fn metadata(&mut self) {
        self.word("METADATA ");
        if self.rng.one_in(3) {
            self.put("\"\"");
        } else if self.strange() {
            self.astring();
        } else {
            self.quoted();
        }
        self.space();
    }

    fn address(&mut self) {
        self.put("(");
        for i in 0..4 {
            if i > 0 {
                self.space();
            }
            self.nstring();
        }
        self.put(")");
    }

    fn addresses(&mut self) {
        if self.rng.one_in(2) {
            self.word("NIL");
            return;
        }
        self.put("(");
        for _ in 0..1 + self.rng.below(3) {
            self.address();
            if self.rng.one_in(6) {
                self.space();
            }
        }
        self.put(")");
    }

    fn envelope(&mut self) {
        self.put("(");
        let plain = self.rng.one_in(3);
        for i in 0..10 {
            if i > 0 {
                self.space();
            }
            if plain && !self.rng.one_in(10) {
                self.put("NIL");
            } else if (2..8).contains(&i) {
                self.addresses();
            } else {
                self.nstring();
            }
        }
        self.put(")");
    }

    fn params(&mut self) {
        if self.rng.one_in(2) {
            self.word("NIL");
            return;
        }
        self.put("(");
        for i in 0..1 + self.rng.below(3) {
            if i > 0 {
                self.space();
            }
            self.string();
            self.space();
            self.string();
        }
        self.close();
    }

    fn encoding(&mut self) {
        match self.rng.below(10) {
            0 => self.word("NIL"),
            1 => self.string(),
            2 => self.put("\"7BITS\""),
            3 => self.put("{4}\r\n7BIT"),
            _ => {
                let word = self.rng.pick(&["\"7BIT\"", "\"8BIT\"", "\"BINARY\"", "\"BASE64\"", "\"QUOTED-PRINTABLE\""]);
                self.word(word);
            }
        }
    }

    fn fields(&mut self) {
        self.params();
        self.space();
        self.nstring();
        self.space();
        self.nstring();
        self.space();
        if self.odd < 1000 {
            self.encoding();
        } else {
            self.put("\"BASE64\"");
        }
        self.space();
        self.number();
    }

    fn extension(&mut self, levels: usize) {
        match self.rng.below(4) {
            0 => self.number(),
            1 => self.nstring(),
            _ if levels == 0 => self.nstring(),
            _ => {
                self.put("(");
                for i in 0..1 + self.rng.below(3) {
                    if i > 0 {
                        self.space();
                    }
                    self.extension(levels - 1);
                }
                self.close();
            }
        }
    }

    fn language(&mut self) {
        if self.rng.one_in(2) {
            return self.nstring();
        }
        self.put("(");
        for i in 0..1 + self.rng.below(3) {
            if i > 0 {
                self.space();
            }
            self.string();
        }
        self.close();
    }

    fn disposition(&mut self) {
        if self.rng.one_in(2) {
            return self.word("NIL");
        }
        self.put("(");
        self.string();
        self.space();
        self.params();
        self.put(")");
    }

    fn tail(&mut self, levels: usize, multipart: bool) {
        let last = self.rng.below(6);
        for field in 0..last {
            // seldom one is left out or another stands there
            let field = if self.odd < 1000 && self.rng.one_in(12) { self.rng.below(5) } else { field };
            self.space();
            match field {
                0 if multipart => self.params(),
                0 | 3 => self.nstring(),
                1 => self.disposition(),
                2 => self.language(),
                _ => self.extension(levels),
            }
        }
    }

    fn outer(&mut self) {
        if self.rng.one_in(12) {
            self.deep();
        } else {
            let levels = 1 + self.rng.below(4);
            self.body(levels);
        }
    }

    fn body(&mut self, levels: usize) {
        self.put("(");
        match self.rng.below(if levels > 1 { 8 } else { 4 }) {
            0..=1 => {
                self.word("\"TEXT\"");
                self.space();
                self.string();
                self.space();
                self.fields();
                self.space();
                self.number();
                self.tail(levels, false);
            }
            2..=3 => {
                self.string();
                self.space();
                self.string();
                self.space();
                self.fields();
                self.tail(levels, false);
            }
            4..=5 => {
                self.message_head();
                self.body(levels - 1);
                self.space();
                self.number();
                self.tail(levels, false);
            }
            _ => {
                for _ in 0..1 + self.rng.below(3) {
                    self.body(levels - 1);
                    if self.strange() {
                        self.put(" ");
                    }
                }
                self.space();
                self.string();
                self.tail(levels, true);
            }
        }
        self.put(")");
    }

    fn message_head(&mut self) {
        self.word("\"MESSAGE\" \"RFC822\"");
        self.space();
        self.fields();
        self.space();
        self.envelope();
        self.space();
    }

    /// A narrow body around the deepest level.
    fn deep(&mut self) {
        let depth = 13 + self.rng.below(6);
        let lists = self.rng.below(4);
        let mut ends: Vec<bool> = Vec::new();
        for _ in 0..depth.saturating_sub(lists) {
            self.put("(");
            let message = self.rng.one_in(4);
            if message {
                self.put("\"MESSAGE\" \"RFC822\" NIL NIL NIL \"\" 1 (NIL NIL NIL NIL NIL NIL NIL NIL NIL NIL) ");
            }
            ends.push(message);
        }
        self.put("(\"\" \"\" NIL NIL NIL \"\" 1");
        if lists > 0 {
            self.put(" NIL NIL NIL NIL ");
            self.put(&"(".repeat(lists));
            self.put("1");
            self.put(&")".repeat(lists));
        }
        self.put(")");
        while let Some(message) = ends.pop() {
            self.put(if message { " 1" } else { " \"m\"" });
            if self.rng.one_in(10) {
                self.tail(1, !message);
            }
            self.put(")");
        }
    }
}

/// A damaged copy.
pub fn damaged(rng: &mut Rng, s: &[u8]) -> Vec<u8> {
    let mut out = s.to_vec();
    for _ in 0..1 + rng.below(3) {
        let n = out.len();
        let at = rng.below(n + 1);
        match rng.below(9) {
            0 if n > 0 => out[at.min(n - 1)] ^= 1 << rng.below(8),
            1 if n > 0 => out[at.min(n - 1)] = ODD[rng.below(ODD.len())],
            2 => out.insert(at, ODD[rng.below(ODD.len())]),
            3 if n > 0 => {
                out.remove(at.min(n - 1));
            }
            4 => {
                // some bytes twice
                let to = (at + 1 + rng.below(12)).min(n);
                let piece = out[at..to].to_vec();
                out.splice(at..at, piece);
            }
            5 => {
                // some bytes left out
                let to = (at + rng.below(12)).min(n);
                out.drain(at..to);
            }
            6 => out.truncate(at),
            7 => {
                // a word put in place of one
                let word = rng.pick::<[u8]>(&[
                    b"NIL", b"\"\"", b"1", b"(1)", b"(\"\")", b"(\"\" NIL)", b"(\"\" \"\")", b"{1}\r\na", b"{0}\r\n", b"(NIL NIL NIL NIL)",
                    b"4294967296", b" ", b"",
                ]);
                let begin = out[..at].iter().rposition(|b| b" (".contains(b)).map_or(0, |i| i + 1);
                let end = out[at..].iter().position(|b| b" )".contains(b)).map_or(n, |i| at + i);
                out.splice(begin..end, word.iter().copied());
            }
            _ => out.insert(at, rng.next() as u8),
        }
    }
    out
}

/// Lines of RULE HEX; what follows, and lines that begin otherwise, are not looked at.
pub fn responses(file: &str) -> Vec<(u32, Vec<u8>)> {
    let text = std::fs::read_to_string(file).unwrap_or_else(|e| panic!("{file}: {e}"));
    let line = |l: &str| {
        let mut words = l.split_whitespace();
        let rule = words.next()?.parse().ok()?;
        let hex = words.next()?;
        let bytes = (0..hex.len() / 2).map(|i| u8::from_str_radix(&hex[2 * i..2 * i + 2], 16).ok()).collect::<Option<_>>()?;
        Some((rule, bytes))
    };
    text.lines().filter_map(line).collect()
}

//! docs/RULES.md in plain Rust: the reading of a rule, with nodes, levels, limits and answers 0 to 6.
//!
//! It is written from docs/RULES.md, apart from the definition in antt and from the code in Rattle. It says what the Rust does
//! not keep (ranges, subtree counts), stands in for the port until that is linked, and is the port's second judge after that.
//!
//! `Deviations` turn single points into what the listing does there. known.rs uses them to say why the two differ.

use crate::tree::Node;

pub const LONGEST: usize = 16_777_216;
pub const DEEPEST: u32 = 16;

/// The four numbers of an answer.
#[derive(Clone, Copy, Debug, Default, PartialEq, Eq)]
pub struct Four {
    pub answer: u32,
    pub taken: u32,
    pub nodes: u32,
    pub wanted: u32,
}

impl Four {
    fn only(answer: u32) -> Four {
        Four { answer, ..Four::default() }
    }
}

/// Points in which the listing does otherwise than docs/RULES.md.
#[derive(Clone, Copy, Debug, Default, PartialEq, Eq)]
pub struct Deviations {
    /// NIL is read as the encoding 7BIT
    pub nil_encoding: bool,
    /// each field of a tail is tried by itself
    pub tail_one_by_one: bool,
    /// no deepest level
    pub no_levels: bool,
    /// a finished entry name without a vendor's name is unfinished
    pub vendor_unfinished: bool,
    /// METADATA's strings must be UTF-8, or the reading panics
    pub panics: bool,
}

/// How a reading ends that accepts nothing.
#[derive(Clone, Copy, Debug, PartialEq, Eq)]
pub enum Stop {
    Refused,
    More(usize),
    Deep,
    /// only with the deviation of that name
    Panic,
}

/// What a rule reads, before rule numbers, limits and the table's room are looked at.
#[derive(Clone, Debug, PartialEq, Eq)]
pub struct Reading {
    pub end: Result<usize, Stop>,
    pub nodes: Vec<Node>,
}

pub fn reading(rule: u32, s: &[u8], deviations: Deviations) -> Reading {
    let levels = if deviations.no_levels { u32::MAX } else { DEEPEST };
    let mut m = Model { s, nodes: Vec::new(), levels, deviations };
    let end = m.rule(rule);
    if end.is_err() {
        m.nodes.clear();
    }
    Reading { end, nodes: m.nodes }
}

/// A whole call: the four numbers, with the nodes in the table where they are 0.
pub fn read(rule: u32, s: &[u8], table: &mut [u32]) -> Four {
    if !(1..=25).contains(&rule) {
        return Four::only(5);
    }
    if s.len() > LONGEST {
        return Four::only(6);
    }
    let r = reading(rule, s, Deviations::default());
    let count = r.nodes.len();
    match r.end {
        Err(Stop::More(n)) => Four { wanted: n as u32, ..Four::only(1) },
        Err(Stop::Refused) => Four::only(2),
        Err(Stop::Deep) => Four::only(3),
        Err(Stop::Panic) => unreachable!(),
        Ok(_) if count > table.len() / 4 => Four { nodes: count as u32, ..Four::only(4) },
        Ok(end) => {
            for (words, node) in table.chunks_exact_mut(4).zip(&r.nodes) {
                words.copy_from_slice(node);
            }
            Four { taken: end as u32, nodes: count as u32, ..Four::only(0) }
        }
    }
}

/// The place after what was read.
type Place = Result<usize, Stop>;

struct Model<'a> {
    s: &'a [u8],
    nodes: Vec<Node>,
    levels: u32,
    deviations: Deviations,
}

// classes of bytes

fn is_digit(b: u8) -> bool {
    (48..=57).contains(&b)
}

fn is_text(b: u8) -> bool {
    !matches!(b, 0 | 10 | 13)
}

fn is_astring(b: u8) -> bool {
    b >= 32 && !b"(){ %*\"\\".contains(&b)
}

fn is_blank(b: u8) -> bool {
    b == 32 || b == 9
}

impl Model<'_> {
    fn rule(&mut self, rule: u32) -> Place {
        match rule {
            1 => self.number(0),
            2 => self.number_64(0),
            3 => self.quoted(0),
            4 => self.literal(0),
            5 => self.string(0),
            6 => self.astring(0),
            7 => self.nstring(0),
            8 => self.text(0),
            9 => self.sequence_set(0),
            10 => self.uid_set(0),
            11 => self.section(0),
            12 => self.entry_name(0),
            13 => self.envelope(0),
            14 => self.body(0, 1),
            15 => self.structure(0, 20, |m, at| {
                let at = m.keyword(at, "APPENDUID ")?;
                let at = m.number(at)?;
                let at = m.space(at)?;
                m.uid_set(at)
            }),
            16 => self.structure(0, 21, |m, at| {
                let at = m.keyword(at, "COPYUID ")?;
                let at = m.number(at)?;
                let at = m.space(at)?;
                let at = m.uid_set(at)?;
                let at = m.space(at)?;
                m.uid_set(at)
            }),
            17 => self.structure(0, 22, |m, at| m.keyword(at, "UIDNOTSTICKY")),
            18 => self.vanished(0),
            19 => {
                let at = self.keyword(0, "HIGHESTMODSEQ ")?;
                self.number_64(at)
            }
            20 => {
                let at = self.keyword(0, "MODSEQ ")?;
                let at = self.byte(at, b'(')?;
                let at = self.number_64(at)?;
                self.byte(at, b')')
            }
            21 => self.body_item(0),
            22 => self.metadata(0, |m, at| m.nonempty(at, |m, at| m.structure(at, 17, Self::entry_and_value))),
            23 => self.metadata(0, |m, at| m.items(at, 0, Self::name)),
            24 => {
                let at = self.keyword(0, "ENVELOPE ")?;
                self.envelope(at)
            }
            25 => {
                let at = self.keyword(0, "BODYSTRUCTURE ")?;
                self.body(at, 1)
            }
            _ => Err(Stop::Refused),
        }
    }

    // nodes

    fn put(&mut self, kind: u32, a: usize, b: usize) {
        self.nodes.push([kind, a as u32, b as u32, 1]);
    }

    /// What `f` reads, as a structure that holds its start and end.
    fn structure(&mut self, at: usize, kind: u32, f: impl FnOnce(&mut Self, usize) -> Place) -> Place {
        let first = self.nodes.len();
        self.put(kind, at, 0);
        let end = f(self, at)?;
        self.nodes[first][2] = end as u32;
        self.nodes[first][3] = (self.nodes.len() - first) as u32;
        Ok(end)
    }

    /// The nodes from `first` on are the subtree of a list with so many children.
    fn close_list(&mut self, first: usize, children: usize) {
        let size = (self.nodes.len() - first) as u32;
        self.nodes[first] = [7, children as u32, 0, size];
    }

    /// What `f` reads; if it fails, nothing was read and its nodes are gone.
    fn option(&mut self, at: usize, f: impl FnOnce(&mut Self, usize) -> Place) -> Result<Option<usize>, Stop> {
        let before = self.nodes.len();
        match f(self, at) {
            Ok(next) => Ok(Some(next)),
            Err(Stop::Refused) => {
                self.nodes.truncate(before);
                Ok(None)
            }
            Err(stop) => Err(stop),
        }
    }

    /// As `option`, with a node for what is not there.
    fn or_absent(&mut self, at: usize, f: impl FnOnce(&mut Self, usize) -> Place) -> Result<(usize, bool), Stop> {
        Ok(match self.option(at, f)? {
            Some(next) => (next, true),
            None => {
                self.put(6, 0, 0);
                (at, false)
            }
        })
    }

    /// A list node over items with single spaces between them.
    fn items(&mut self, at: usize, least: usize, item: impl Fn(&mut Self, usize) -> Place) -> Place {
        self.separated(at, b' ', least, item)
    }

    fn separated(&mut self, at: usize, separator: u8, least: usize, item: impl Fn(&mut Self, usize) -> Place) -> Place {
        let first = self.nodes.len();
        self.put(7, 0, 0);
        let mut end = match self.option(at, &item)? {
            Some(next) => next,
            None if least == 0 => {
                self.close_list(first, 0);
                return Ok(at);
            }
            None => return Err(Stop::Refused),
        };
        let mut count = 1;
        while let Some(next) = self.option(end, |m, at| {
            let at = m.byte(at, separator)?;
            item(m, at)
        })? {
            count += 1;
            end = next;
        }
        self.close_list(first, count);
        Ok(end)
    }

    // primitives

    /// The bytes of a word; `fold` says whether ASCII case is ignored.
    fn word(&mut self, at: usize, word: &[u8], fold: bool) -> Place {
        for (i, &w) in word.iter().enumerate() {
            let &b = self.s.get(at + i).ok_or(Stop::More(0))?;
            if b != w && !(fold && b.eq_ignore_ascii_case(&w)) {
                return Err(Stop::Refused);
            }
        }
        Ok(at + word.len())
    }

    fn keyword(&mut self, at: usize, word: &str) -> Place {
        self.word(at, word.as_bytes(), true)
    }

    fn byte(&mut self, at: usize, b: u8) -> Place {
        self.word(at, &[b], false)
    }

    fn space(&mut self, at: usize) -> Place {
        self.byte(at, b' ')
    }

    fn run(&mut self, at: usize, least: usize, class: impl Fn(u8) -> bool) -> Place {
        let mut end = at;
        loop {
            match self.s.get(end) {
                None => return Err(Stop::More(0)),
                Some(&b) if class(b) => end += 1,
                Some(_) if end - at < least => return Err(Stop::Refused),
                Some(_) => return Ok(end),
            }
        }
    }

    // lexical rules

    fn digits(&mut self, at: usize, largest: u64) -> Result<(usize, u64), Stop> {
        let end = self.run(at, 1, is_digit)?;
        let mut value: u64 = 0;
        for &b in &self.s[at..end] {
            value = value
                .checked_mul(10)
                .and_then(|v| v.checked_add((b - 48) as u64))
                .filter(|&v| v <= largest)
                .ok_or(Stop::Refused)?;
        }
        Ok((end, value))
    }

    fn put_number(&mut self, value: u64) {
        self.nodes.push([1, value as u32, (value >> 32) as u32, 1]);
    }

    fn number(&mut self, at: usize) -> Place {
        let (end, value) = self.digits(at, u32::MAX as u64)?;
        self.put_number(value);
        Ok(end)
    }

    fn number_64(&mut self, at: usize) -> Place {
        let (end, value) = self.digits(at, u64::MAX)?;
        self.put_number(value);
        Ok(end)
    }

    fn quoted(&mut self, at: usize) -> Place {
        let start = self.byte(at, b'"')?;
        let mut i = start;
        loop {
            match self.s.get(i).ok_or(Stop::More(0))? {
                b'"' => break,
                b'\\' => match self.s.get(i + 1).ok_or(Stop::More(0))? {
                    b'"' | b'\\' => i += 2,
                    _ => return Err(Stop::Refused),
                },
                &b if is_text(b) => i += 1,
                _ => return Err(Stop::Refused),
            }
        }
        self.put(4, start, i);
        Ok(i + 1)
    }

    fn literal(&mut self, at: usize) -> Place {
        let at = self.byte(at, b'{')?;
        let (at, count) = self.digits(at, u32::MAX as u64)?;
        let at = self.byte(at, b'}')?;
        let at = self.word(at, b"\r\n", false)?;
        let (count, there) = (count as usize, self.s.len() - at);
        if there < count {
            return Err(Stop::More(count - there));
        }
        self.put(4, at, at + count);
        Ok(at + count)
    }

    fn string(&mut self, at: usize) -> Place {
        match self.option(at, Self::quoted)? {
            Some(end) => Ok(end),
            None => self.literal(at),
        }
    }

    fn astring(&mut self, at: usize) -> Place {
        match self.option(at, |m, at| m.run(at, 1, is_astring))? {
            Some(end) => {
                self.put(4, at, end);
                Ok(end)
            }
            None => self.string(at),
        }
    }

    fn nil(&mut self, at: usize) -> Place {
        let end = self.keyword(at, "NIL")?;
        self.put(5, at, end);
        Ok(end)
    }

    fn nstring(&mut self, at: usize) -> Place {
        match self.option(at, Self::nil)? {
            Some(end) => Ok(end),
            None => self.string(at),
        }
    }

    fn text(&mut self, at: usize) -> Place {
        let end = self.run(at, 0, is_text)?;
        self.put(4, at, end);
        Ok(end)
    }

    /// `(`, items with single spaces between, any blanks, `)`.
    fn nonempty(&mut self, at: usize, item: impl Fn(&mut Self, usize) -> Place) -> Place {
        let at = self.byte(at, b'(')?;
        let at = self.items(at, 1, item)?;
        let at = self.run(at, 0, is_blank)?;
        self.byte(at, b')')
    }

    // sets

    fn range(&mut self, at: usize) -> Result<(usize, u32, u32), Stop> {
        let (at, first) = self.digits(at, u32::MAX as u64)?;
        let at = self.byte(at, b':')?;
        let (at, last) = self.digits(at, u32::MAX as u64)?;
        Ok((at, first as u32, last as u32))
    }

    fn set(&mut self, at: usize, ordered: bool, single: u32) -> Place {
        self.separated(at, b',', 1, |m, at| {
            let ranged = m.option(at, |m, at| {
                let (end, a, b) = m.range(at)?;
                let (a, b) = if ordered && b < a { (b, a) } else { (a, b) };
                m.nodes.push([2, a, b, 1]);
                Ok(end)
            })?;
            if let Some(end) = ranged {
                return Ok(end);
            }
            let (end, n) = m.digits(at, u32::MAX as u64)?;
            m.nodes.push([single, n as u32, n as u32, 1]);
            Ok(end)
        })
    }

    fn sequence_set(&mut self, at: usize) -> Place {
        self.set(at, false, 2)
    }

    fn uid_set(&mut self, at: usize) -> Place {
        self.set(at, true, 3)
    }

    fn vanished(&mut self, at: usize) -> Place {
        let first = self.nodes.len();
        let end = self.structure(at, 23, |m, at| {
            let at = m.keyword(at, "VANISHED")?;
            let earlier = m.option(at, |m, at| {
                let at = m.run(at, 1, is_blank)?;
                m.keyword(at, "(EARLIER)")
            })?;
            if earlier.is_some() {
                m.nodes[first][0] = 24;
            }
            let at = m.run(earlier.unwrap_or(at), 1, is_blank)?;
            m.sequence_set(at)
        })?;
        Ok(end)
    }

    // sections

    fn section_text(&mut self, at: usize, mime: bool) -> Place {
        let before = self.nodes.len();
        let fields = self.option(at, |m, at| {
            let at = m.keyword(at, "HEADER.FIELDS")?;
            let at = m.option(at, |m, at| m.keyword(at, ".NOT"))?.unwrap_or(at);
            let at = m.space(at)?;
            let at = m.byte(at, b'(')?;
            let at = m.items(at, 0, Self::astring)?;
            let at = m.option(at, Self::space)?.unwrap_or(at);
            m.byte(at, b')')
        })?;
        if let Some(end) = fields {
            // the names have no nodes
            self.nodes.truncate(before);
            self.put(8, 1, 0);
            return Ok(end);
        }
        let words: &[(&str, usize)] = &[("HEADER", 1), ("TEXT", 3), ("MIME", 2)];
        for &(word, number) in &words[..if mime { 3 } else { 2 }] {
            if let Some(end) = self.option(at, |m, at| m.keyword(at, word))? {
                self.put(8, number, 0);
                return Ok(end);
            }
        }
        Err(Stop::Refused)
    }

    fn section_path(&mut self, at: usize) -> Place {
        if let Some(end) = self.option(at, |m, at| m.section_text(at, false))? {
            return Ok(end);
        }
        self.structure(at, 18, |m, at| {
            let at = m.separated(at, b'.', 1, Self::number)?;
            let text = |m: &mut Self, at| {
                let at = m.byte(at, b'.')?;
                m.section_text(at, true)
            };
            Ok(m.or_absent(at, text)?.0)
        })
    }

    fn section(&mut self, at: usize) -> Place {
        let at = self.byte(at, b'[')?;
        let (at, _) = self.or_absent(at, Self::section_path)?;
        self.byte(at, b']')
    }

    fn body_item(&mut self, at: usize) -> Place {
        self.structure(at, 19, |m, at| {
            let at = m.keyword(at, "BODY")?;
            let at = m.section(at)?;
            let (at, _) = m.or_absent(at, |m, at| {
                let at = m.byte(at, b'<')?;
                let at = m.number(at)?;
                m.byte(at, b'>')
            })?;
            let at = m.space(at)?;
            m.nstring(at)
        })
    }

    // METADATA

    /// The bytes of the newest node.
    fn newest(&self) -> &[u8] {
        let [_, a, b, _] = self.nodes[self.nodes.len() - 1];
        &self.s[a as usize..b as usize]
    }

    fn entry_name(&mut self, at: usize) -> Place {
        let end = self.astring(at)?;
        match entry(self.newest()) {
            Entry::Good => Ok(end),
            Entry::NoVendor if self.deviations.vendor_unfinished => Err(Stop::More(0)),
            _ => Err(Stop::Refused),
        }
    }

    fn must_be_utf8(&self, bytes: &[u8]) -> Result<(), Stop> {
        if self.deviations.panics && std::str::from_utf8(bytes).is_err() {
            return Err(Stop::Panic);
        }
        Ok(())
    }

    fn name(&mut self, at: usize) -> Place {
        let end = self.entry_name(at)?;
        self.must_be_utf8(self.newest())?;
        Ok(end)
    }

    fn entry_and_value(&mut self, at: usize) -> Place {
        let at = self.name(at)?;
        let at = self.space(at)?;
        let end = self.nstring(at)?;
        self.must_be_utf8(self.newest())?;
        Ok(end)
    }

    fn metadata(&mut self, at: usize, list: impl FnOnce(&mut Self, usize) -> Place) -> Place {
        self.structure(at, 25, |m, at| {
            let at = m.keyword(at, "METADATA ")?;
            let at = m.quoted(at)?;
            let [_, a, b, _] = m.nodes[m.nodes.len() - 1];
            let at = m.space(at)?;
            let end = list(m, at)?;
            // the Rust looks at the mailbox last
            m.must_be_utf8(&m.s[a as usize..b as usize])?;
            Ok(end)
        })
    }

    // envelopes

    fn address(&mut self, at: usize) -> Place {
        self.structure(at, 11, |m, at| {
            let at = m.byte(at, b'(')?;
            let mut at = m.nstring(at)?;
            for _ in 0..3 {
                at = m.space(at)?;
                at = m.nstring(at)?;
            }
            m.byte(at, b')')
        })
    }

    fn addresses(&mut self, at: usize) -> Place {
        if let Some(end) = self.option(at, Self::nil)? {
            return Ok(end);
        }
        let at = self.byte(at, b'(')?;
        let first = self.nodes.len();
        self.put(7, 0, 0);
        let (mut at, mut count) = (at, 0);
        while let Some(next) = self.option(at, Self::address)? {
            count += 1;
            at = self.option(next, Self::space)?.unwrap_or(next);
        }
        if count == 0 {
            return Err(Stop::Refused);
        }
        self.close_list(first, count);
        self.byte(at, b')')
    }

    fn envelope(&mut self, at: usize) -> Place {
        self.structure(at, 10, |m, at| {
            let mut at = m.byte(at, b'(')?;
            for field in 0..10 {
                if field > 0 {
                    at = m.space(at)?;
                }
                at = if (2..8).contains(&field) { m.addresses(at)? } else { m.nstring(at)? };
            }
            m.byte(at, b')')
        })
    }

    // bodies

    /// The `(` of a body or an extension list at a level.
    fn open(&mut self, at: usize, level: u32) -> Place {
        let next = self.byte(at, b'(')?;
        if level > self.levels {
            return Err(Stop::Deep);
        }
        Ok(next)
    }

    fn params(&mut self, at: usize) -> Place {
        if let Some(end) = self.option(at, Self::nil)? {
            return Ok(end);
        }
        self.nonempty(at, |m, at| {
            m.structure(at, 17, |m, at| {
                let at = m.string(at)?;
                let at = m.space(at)?;
                m.string(at)
            })
        })
    }

    fn disposition(&mut self, at: usize) -> Place {
        if let Some(end) = self.option(at, Self::nil)? {
            return Ok(end);
        }
        self.structure(at, 16, |m, at| {
            let at = m.byte(at, b'(')?;
            let at = m.string(at)?;
            let at = m.space(at)?;
            let at = m.params(at)?;
            m.byte(at, b')')
        })
    }

    fn language(&mut self, at: usize) -> Place {
        if let Some(end) = self.option(at, Self::nil)? {
            return Ok(end);
        }
        let one = self.option(at, |m, at| {
            m.put(7, 0, 0);
            let first = m.nodes.len() - 1;
            let end = m.string(at)?;
            m.close_list(first, 1);
            Ok(end)
        })?;
        match one {
            Some(end) => Ok(end),
            None => self.nonempty(at, Self::string),
        }
    }

    fn encoding(&mut self, at: usize) -> Place {
        if self.deviations.nil_encoding {
            if let Some(end) = self.option(at, |m, at| m.keyword(at, "NIL"))? {
                self.put(9, 1, 0);
                return Ok(end);
            }
        }
        let known = self.option(at, |m, at| {
            let at = m.byte(at, b'"')?;
            for (i, word) in ["7BIT", "8BIT", "BINARY", "BASE64", "QUOTED-PRINTABLE"].into_iter().enumerate() {
                if let Some(end) = m.option(at, |m, at| m.keyword(at, word))? {
                    m.put(9, i + 1, 0);
                    return m.byte(end, b'"');
                }
            }
            Err(Stop::Refused)
        })?;
        match known {
            Some(end) => Ok(end),
            None => self.string(at),
        }
    }

    fn fields(&mut self, at: usize) -> Place {
        let at = self.params(at)?;
        let at = self.space(at)?;
        let at = self.nstring(at)?;
        let at = self.space(at)?;
        let at = self.nstring(at)?;
        let at = self.space(at)?;
        let at = self.encoding(at)?;
        let at = self.space(at)?;
        self.number(at)
    }

    /// An extension of a body, or of a list, at this level.
    fn extension(&mut self, at: usize, level: u32) -> Place {
        if let Some(end) = self.option(at, Self::number)? {
            return Ok(end);
        }
        if let Some(end) = self.option(at, Self::nstring)? {
            return Ok(end);
        }
        self.open(at, level + 1)?;
        self.nonempty(at, |m, at| m.extension(at, level + 1))
    }

    /// Five fields, each after a space and only if the one before was read.
    fn tail(&mut self, at: usize, level: u32, multipart: bool) -> Place {
        let (mut at, mut there) = (at, true);
        for field in 0..5 {
            if !there {
                self.put(6, 0, 0);
                continue;
            }
            (at, there) = self.or_absent(at, |m, at| {
                let at = m.space(at)?;
                match field {
                    0 if multipart => m.params(at),
                    0 | 3 => m.nstring(at),
                    1 => m.disposition(at),
                    2 => m.language(at),
                    _ => m.extension(at, level),
                }
            })?;
            there |= self.deviations.tail_one_by_one;
        }
        Ok(at)
    }

    fn body(&mut self, at: usize, level: u32) -> Place {
        self.open(at, level)?;
        let first = self.nodes.len();
        self.structure(at, 0, |m, at| {
            let at = m.byte(at, b'(')?;
            let alternatives = [Self::text_body, Self::message_body, Self::basic_body, Self::multipart_body];
            for (kind, alternative) in [13, 14, 12, 15].into_iter().zip(alternatives) {
                if let Some(end) = m.option(at, |m, at| alternative(m, at, level))? {
                    m.nodes[first][0] = kind;
                    return m.byte(end, b')');
                }
            }
            Err(Stop::Refused)
        })
    }

    fn text_body(&mut self, at: usize, level: u32) -> Place {
        let at = self.keyword(at, "\"TEXT\"")?;
        let at = self.space(at)?;
        let at = self.string(at)?;
        let at = self.space(at)?;
        let at = self.fields(at)?;
        let at = self.space(at)?;
        let at = self.number(at)?;
        self.tail(at, level, false)
    }

    fn message_body(&mut self, at: usize, level: u32) -> Place {
        let at = self.keyword(at, "\"MESSAGE\" \"RFC822\"")?;
        let at = self.space(at)?;
        let at = self.fields(at)?;
        let at = self.space(at)?;
        let at = self.envelope(at)?;
        let at = self.space(at)?;
        let at = self.body(at, level + 1)?;
        let at = self.space(at)?;
        let at = self.number(at)?;
        self.tail(at, level, false)
    }

    fn basic_body(&mut self, at: usize, level: u32) -> Place {
        let at = self.string(at)?;
        let at = self.space(at)?;
        let at = self.string(at)?;
        let at = self.space(at)?;
        let at = self.fields(at)?;
        self.tail(at, level, false)
    }

    fn multipart_body(&mut self, at: usize, level: u32) -> Place {
        let first = self.nodes.len();
        self.put(7, 0, 0);
        let (mut at, mut count) = (at, 0);
        while let Some(next) = self.option(at, |m, at| m.body(at, level + 1))? {
            count += 1;
            at = next;
        }
        if count == 0 {
            return Err(Stop::Refused);
        }
        self.close_list(first, count);
        let at = self.space(at)?;
        let at = self.string(at)?;
        self.tail(at, level, true)
    }
}

enum Entry {
    Good,
    Bad,
    NoVendor,
}

/// /private or /shared; then /comment, /vendor/NAME or, shared, /admin; then components.
fn entry(name: &[u8]) -> Entry {
    let component = |b: u8| (0x1a..0x80).contains(&b) && !b"*%/".contains(&b);
    let (rest, shared) = match (name.strip_prefix(b"/private"), name.strip_prefix(b"/shared")) {
        (Some(rest), _) => (rest, false),
        (_, Some(rest)) => (rest, true),
        _ => return Entry::Bad,
    };
    let mut path = match (rest.strip_prefix(b"/admin"), rest.strip_prefix(b"/comment"), rest.strip_prefix(b"/vendor")) {
        (Some(path), _, _) if shared => path,
        (_, Some(path), _) => path,
        (_, _, Some(path)) => match path {
            [b'/', b, ..] if component(*b) => path,
            _ => return Entry::NoVendor,
        },
        _ => return Entry::Bad,
    };
    loop {
        match path {
            [] | [b' ' | b'\r', ..] => return Entry::Good,
            [b'/', rest @ ..] => {
                let n = rest.iter().take_while(|&&b| component(b)).count();
                path = &rest[n..];
            }
            _ => return Entry::Bad,
        }
    }
}

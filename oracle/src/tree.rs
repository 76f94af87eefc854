//! What a reading gives, in one form for both sides, so that they can be compared with `==`.

/// A byte string: where it begins in the buffer, if that is known, and its bytes.
///
/// The Rust's slices are parts of the buffer, so their place is known; an owned string's or an empty one's is not. Two
/// strings are equal if their bytes are, and their places where both are known.
#[derive(Clone, Debug)]
pub struct Part {
    pub at: Option<usize>,
    pub bytes: Vec<u8>,
}

impl PartialEq for Part {
    fn eq(&self, other: &Part) -> bool {
        self.bytes == other.bytes && (self.at.is_none() || other.at.is_none() || self.at == other.at)
    }
}

/// What was read. Children stand in the order of docs/RULES.md. Kinds 5 and 6 are both `None`.
#[derive(Clone, Debug, PartialEq)]
pub enum Tree {
    None,
    Number(u64),
    Range(u32, u32),
    Uid(u32),
    /// bytes where the Rust keeps bytes
    Raw(Part),
    /// text where the Rust keeps text; bytes that are not UTF-8 are replaced as `from_utf8_lossy` does
    Text(Part),
    List(Vec<Tree>),
    /// 1 header, 2 mime, 3 text
    SectionText(u32),
    /// 1 to 5
    Encoding(u32),
    /// kinds 10 to 25
    Structure(u32, Vec<Tree>),
}

/// What the Rust answers.
#[derive(Clone, Debug, PartialEq)]
pub enum Answer {
    Ok(usize, Tree),
    /// The bytes that nom asks for, if it says how many; `literal` if a literal's content lacks them.
    Incomplete { needed: Option<usize>, literal: bool },
    Error,
    /// nom's `Err::Failure`: nothing in the listing makes one
    Failure,
    Panic,
}

impl Answer {
    /// What docs/RULES.md calls wanted.
    pub fn wanted(&self) -> usize {
        match self {
            Answer::Incomplete { needed, literal: true } => needed.unwrap_or(0),
            _ => 0,
        }
    }

    pub fn name(&self) -> &'static str {
        match self {
            Answer::Ok(..) => "accepts",
            Answer::Incomplete { .. } => "Incomplete",
            Answer::Error => "Error",
            Answer::Failure => "Failure",
            Answer::Panic => "panics",
        }
    }
}

/// A node as docs/RULES.md has it: kind, a, b, nodes in its subtree.
pub type Node = [u32; 4];

/// The tree of an accepted reading's nodes, or what is wrong with them. Everything that docs/RULES.md says of the words is
/// checked here: counts, kinds in their places, ranges in order and inside what was taken.
pub fn from_nodes(rule: u32, buffer: &[u8], taken: usize, nodes: &[Node]) -> Result<Tree, String> {
    let mut w = Walk { buffer, taken, nodes };
    let (tree, next) = w.node(0, (0, taken), rule == 8)?;
    if next != nodes.len() {
        return Err(format!("{} nodes, the first has {next}", nodes.len()));
    }
    root_fits(rule, taken, nodes)?;
    Ok(tree)
}

/// The first node's kind and range are the rule's.
fn root_fits(rule: u32, taken: usize, nodes: &[Node]) -> Result<(), String> {
    let [kind, a, b, _] = nodes[0];
    let whole = a == 0 && b as usize == taken;
    let inner = |prefix: u32| a == prefix && b as usize == taken;
    let good = match rule {
        1 | 2 | 19 | 20 => kind == 1,
        3..=6 | 8 | 12 => kind == 4,
        7 => kind == 4 || kind == 5 && whole,
        9 | 10 => kind == 7,
        11 => match kind {
            6 => taken == 2,
            8 => true,
            _ => kind == 18 && a == 1 && b as usize == taken - 1,
        },
        13 => kind == 10 && whole,
        14 => (12..=15).contains(&kind) && whole,
        15..=17 => kind == rule + 5 && whole,
        18 => (23..=24).contains(&kind) && whole,
        21 => kind == 19 && whole,
        22 | 23 => kind == 25 && whole,
        24 => kind == 10 && inner(9),
        25 => (12..=15).contains(&kind) && inner(14),
        _ => false,
    };
    if good {
        Ok(())
    } else {
        Err(format!("rule {rule} took {taken} and has a first node {:?}", nodes[0]))
    }
}

struct Walk<'a> {
    buffer: &'a [u8],
    taken: usize,
    nodes: &'a [Node],
}

impl Walk<'_> {
    /// The node at `i`, inside `span` of the buffer, and the index after its subtree.
    fn node(&mut self, i: usize, span: (usize, usize), text: bool) -> Result<(Tree, usize), String> {
        let node = *self.nodes.get(i).ok_or("a child is missing")?;
        let [kind, a, b, size] = node;
        let bad = |why: &str| Err(format!("node {i} {node:?}: {why}"));
        let end = i + size as usize;
        if size == 0 || end > self.nodes.len() {
            return bad("nodes in its subtree");
        }
        let (start, stop) = (a as usize, b as usize);
        let ranged = matches!(kind, 4 | 5 | 10..=25);
        if ranged && !(span.0 <= start && start <= stop && stop <= span.1 && stop <= self.taken) {
            return bad("its range is not inside what holds it");
        }
        let leaf = |tree| if size == 1 { Ok((tree, end)) } else { bad("a leaf with children") };
        match kind {
            1 => leaf(Tree::Number(a as u64 | (b as u64) << 32)),
            2 => leaf(Tree::Range(a, b)),
            3 if a == b => leaf(Tree::Uid(a)),
            4 => {
                let raw = &self.buffer[start..stop];
                leaf(if text {
                    Tree::Text(Part { at: Some(start), bytes: String::from_utf8_lossy(raw).into_owned().into_bytes() })
                } else {
                    Tree::Raw(Part { at: Some(start), bytes: raw.to_vec() })
                })
            }
            5 if self.buffer[start..stop].eq_ignore_ascii_case(b"NIL") => leaf(Tree::None),
            6 if a == 0 && b == 0 => leaf(Tree::None),
            7 if b == 0 => {
                let (children, next) = self.children(i + 1, a as usize, end, span, text)?;
                self.ends(i, next, end)?;
                Ok((Tree::List(children), end))
            }
            8 if (1..=3).contains(&a) && b == 0 => leaf(Tree::SectionText(a)),
            9 if (1..=5).contains(&a) && b == 0 => leaf(Tree::Encoding(a)),
            10..=25 => {
                // strings are bytes in an envelope and a BODY item, text in bodies and METADATA
                let (count, text) = match kind {
                    10 => (10, false),
                    11 => (4, false),
                    12 | 13 => (12, true),
                    14 => (13, true),
                    15 => (7, true),
                    16 | 17 => (2, true),
                    18 => (2, false),
                    19 => (3, false),
                    20 => (2, false),
                    21 => (3, false),
                    22 => (0, false),
                    23 | 24 => (1, false),
                    _ => (2, true),
                };
                let (children, next) = self.children(i + 1, count, end, (start, stop), text)?;
                self.ends(i, next, end)?;
                Ok((Tree::Structure(kind, children), end))
            }
            _ => bad("no such node"),
        }
    }

    fn ends(&self, i: usize, next: usize, end: usize) -> Result<(), String> {
        if next == end {
            Ok(())
        } else {
            Err(format!("node {i} {:?}: its children end at {next}", self.nodes[i]))
        }
    }

    /// The children from `i` on; those with a range stand behind each other.
    fn children(
        &mut self,
        mut i: usize,
        count: usize,
        end: usize,
        span: (usize, usize),
        text: bool,
    ) -> Result<(Vec<Tree>, usize), String> {
        let mut out = Vec::new();
        let mut from = span.0;
        while out.len() < count {
            if i >= end {
                return Err(format!("children are missing before node {end}"));
            }
            let node = self.nodes[i];
            let (tree, next) = self.node(i, (from, span.1), text)?;
            if matches!(node[0], 4 | 5 | 10..=25) {
                from = node[2] as usize;
            }
            out.push(tree);
            i = next;
        }
        Ok((out, i))
    }
}

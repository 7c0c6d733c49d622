//! The program image: its reader, with the refusals 1 to 8 in document 01's order.

/// Document 01's limits.
pub const NAMES: u32 = 128;
pub const NODES: u32 = 2048;
pub const TEXT: u32 = 8192;
pub const NAME_BYTES: u32 = 64;
pub const DEPTH: usize = 64;

pub const HEADER_BYTES: usize = 32;
pub const NAME_RECORD_BYTES: usize = 20;
pub const NODE_RECORD_BYTES: usize = 24;

/// Node kinds, by document 01's numbers.
pub mod kind {
    pub const BREAK: u32 = 1;
    pub const CONTINUE: u32 = 2;
    pub const PASS: u32 = 3;
    pub const CLASS: u32 = 4;
    pub const ASSIGN: u32 = 5;
    pub const EXPR: u32 = 6;
    pub const RETURN: u32 = 7;
    pub const IF: u32 = 8;
    pub const WHILE: u32 = 9;
    pub const FOR: u32 = 10;
    pub const DEF: u32 = 11;
    pub const BLOCK: u32 = 12;
    pub const PARAM: u32 = 13;
    pub const LITERAL: u32 = 20;
    pub const VARIABLE: u32 = 21;
    pub const UNARY: u32 = 22;
    pub const BINARY: u32 = 23;
    pub const CALL: u32 = 24;
    pub const ATTRIBUTE: u32 = 25;
    pub const LIST: u32 = 26;
    pub const DICT: u32 = 27;
    pub const TUPLE: u32 = 28;
    pub const SET: u32 = 29;
    pub const TREE_SET: u32 = 30;
    pub const INDEX: u32 = 31;
    pub const LAMBDA: u32 = 32;
}
use kind::*;

#[derive(Debug, Clone, Copy, PartialEq, Eq)]
pub enum Role {
    Plain,
    Exactly(u32),
    Between(u32, u32),
    Any,
    Takes(u32),
}

#[derive(Debug, Clone, PartialEq, Eq)]
pub struct Name {
    pub text: String,
    pub role: Role,
}

#[derive(Debug, Clone, Copy, PartialEq, Eq)]
pub struct Node {
    pub kind: u32,
    pub arg: u32,
    pub children: u32,
    pub end: u32,
    pub span_start: u32,
    pub span_end: u32,
}

#[derive(Debug, Clone, PartialEq, Eq)]
pub struct Image {
    pub names: Vec<Name>,
    pub nodes: Vec<Node>,
}

impl Image {
    /// Code 14: the lowest TreeSet, wherever it stands.
    pub fn retired(&self) -> Option<u32> {
        self.nodes.iter().position(|node| node.kind == TREE_SET).map(|node| node as u32)
    }
}

/// A refusal of the image itself: code 1 to 8 and its place.
#[derive(Debug, Clone, Copy, PartialEq, Eq)]
pub struct Fault {
    pub code: u32,
    pub place: u32,
}

fn fault<T>(code: u32, place: usize) -> Result<T, Fault> {
    Err(Fault { code, place: place as u32 })
}

/// The word at byte `at`, which must be there.
fn word(bytes: &[u8], at: usize) -> u32 {
    u32::from_le_bytes([bytes[at], bytes[at + 1], bytes[at + 2], bytes[at + 3]])
}

/// Reads an image, or says by document 01's table how it is refused.
pub fn read(bytes: &[u8]) -> Result<Image, Fault> {
    if bytes.len() < HEADER_BYTES || word(bytes, 0) != 1 {
        return fault(1, 0);
    }
    let (name_count, node_count, text_count) = (word(bytes, 4), word(bytes, 12), word(bytes, 20));
    if name_count > NAMES || !(1..=NODES).contains(&node_count) || text_count > TEXT {
        return fault(2, 0);
    }
    let names_at = HEADER_BYTES;
    let nodes_at = names_at + NAME_RECORD_BYTES * name_count as usize;
    let texts_at = nodes_at + NODE_RECORD_BYTES * node_count as usize;
    let total = texts_at + text_count as usize;
    let stated = [word(bytes, 8), word(bytes, 16), word(bytes, 24), word(bytes, 28)];
    if stated != [names_at as u32, nodes_at as u32, texts_at as u32, total as u32] || bytes.len() != total {
        return fault(3, 0);
    }
    let names = read_names(&bytes[names_at..nodes_at], &bytes[texts_at..])?;
    for (i, name) in names.iter().enumerate() {
        if would_panic(name) {
            return fault(5, i);
        }
    }
    let nodes = read_nodes(&bytes[nodes_at..texts_at], name_count)?;
    check_nesting(&nodes)?;
    check_depth(&nodes)?;
    Ok(Image { names, nodes })
}

/// Code 4, lowest name first; texts that stop short of their area's end are the fault of no name, but of N.
fn read_names(records: &[u8], texts: &[u8]) -> Result<Vec<Name>, Fault> {
    let mut names: Vec<Name> = Vec::new();
    let mut from = 0usize;
    for (i, record) in records.chunks(NAME_RECORD_BYTES).enumerate() {
        let (start, length) = (word(record, 0), word(record, 4));
        let (p, q) = (word(record, 12), word(record, 16));
        let role = match (word(record, 8), p, q) {
            (0, 0, 0) => Role::Plain,
            (1, p, 0) => Role::Exactly(p),
            (2, p, q) => Role::Between(p, q),
            (3, 0, 0) => Role::Any,
            (4, p, 0) => Role::Takes(p),
            _ => return fault(4, i),
        };
        let to = from + length as usize;
        if start as usize != from || !(1..=NAME_BYTES).contains(&length) || to > texts.len() {
            return fault(4, i);
        }
        let bytes = &texts[from..to];
        if bytes.iter().any(|b| !(33..=126).contains(b)) {
            return fault(4, i);
        }
        let text = String::from_utf8(bytes.to_vec()).expect("bytes 33 to 126 are UTF-8");
        if let Some(last) = names.last() {
            if last.text.as_bytes() >= bytes {
                return fault(4, i);
            }
        }
        names.push(Name { text, role });
        from = to;
    }
    if from != texts.len() {
        return fault(4, names.len());
    }
    Ok(names)
}

/// Code 5: T takes `args[0]`, or `args[1]`, of a call whose arity lets it be absent.
fn would_panic(name: &Name) -> bool {
    let needed = match name.text.as_str() {
        "int" | "float" | "bool" | "str" | "len" | "assert" => 1,
        "map" | "filter" => 2,
        _ => 0,
    };
    (0..needed).any(|count| match name.role {
        Role::Exactly(p) => p == count,
        Role::Between(p, q) => p <= count && count <= q,
        Role::Any => true,
        Role::Plain | Role::Takes(_) => false,
    })
}

/// Code 6: what one record shows by itself.
fn read_nodes(records: &[u8], name_count: u32) -> Result<Vec<Node>, Fault> {
    let node_count = records.len() / NODE_RECORD_BYTES;
    let mut nodes = Vec::with_capacity(node_count);
    for (i, record) in records.chunks(NODE_RECORD_BYTES).enumerate() {
        let node = Node {
            kind: word(record, 0),
            arg: word(record, 4),
            children: word(record, 8),
            end: word(record, 12),
            span_start: word(record, 16),
            span_end: word(record, 20),
        };
        // How many args there are to choose from: an unused arg can only be 0.
        let args = match node.kind {
            FOR | DEF | PARAM | VARIABLE => name_count,
            LITERAL => 5,
            UNARY => 3,
            BINARY => 14,
            BREAK..=WHILE | BLOCK | CALL..=LAMBDA => 1,
            _ => return fault(6, i),
        };
        let c = node.children;
        let count_fits = match node.kind {
            BREAK | CONTINUE | PASS | CLASS | PARAM | LITERAL | VARIABLE | LAMBDA => c == 0,
            EXPR | RETURN | UNARY | ATTRIBUTE => c == 1,
            ASSIGN | WHILE | FOR | BINARY | INDEX => c == 2,
            IF => c >= 2,
            DEF | CALL => c >= 1,
            DICT => c % 2 == 0,
            _ => true,
        };
        let spanless = node.kind == BLOCK || node.kind == PARAM;
        let span_fits = !spanless || (node.span_start == 0 && node.span_end == 0);
        let end_fits = (i as u32) < node.end && node.end <= node_count as u32;
        if !(node.arg < args && count_fits && span_fits && end_fits) {
            return fault(6, i);
        }
        nodes.push(node);
    }
    Ok(nodes)
}

pub fn is_statement(k: u32) -> bool {
    (BREAK..=DEF).contains(&k)
}

pub fn is_expression(k: u32) -> bool {
    (LITERAL..=LAMBDA).contains(&k)
}

/// Code 7, lowest parent first.
fn check_nesting(nodes: &[Node]) -> Result<(), Fault> {
    if nodes[0].kind != BLOCK || nodes[0].end as usize != nodes.len() {
        return fault(7, 0);
    }
    for (i, parent) in nodes.iter().enumerate() {
        let mut child = i + 1;
        for nth in 0..parent.children {
            // A child count may be far above what is there: the first child that isn't inside ends the search.
            if child >= parent.end as usize || !belongs(parent, nth, nodes[child].kind) {
                return fault(7, i);
            }
            child = nodes[child].end as usize;
        }
        if child != parent.end as usize {
            return fault(7, i);
        }
    }
    Ok(())
}

/// Whether a node of kind `child` has business as that parent's `nth` child.
fn belongs(parent: &Node, nth: u32, child: u32) -> bool {
    let last = nth + 1 == parent.children;
    match parent.kind {
        BLOCK => is_statement(child),
        // Condition, Block, condition, Block, .. and, where the count is odd, an else Block.
        IF if last || nth % 2 == 1 => child == BLOCK,
        WHILE | FOR | DEF if last => child == BLOCK,
        DEF => child == PARAM,
        _ => is_expression(child),
    }
}

/// Code 8, once the nodes are known to nest.
fn check_depth(nodes: &[Node]) -> Result<(), Fault> {
    let mut open: Vec<u32> = Vec::new();
    for (i, node) in nodes.iter().enumerate() {
        while open.last().map_or(false, |end| *end <= i as u32) {
            open.pop();
        }
        open.push(node.end);
        if open.len() > DEPTH {
            return fault(8, i);
        }
    }
    Ok(())
}

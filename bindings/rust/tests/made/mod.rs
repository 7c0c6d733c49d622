//! Images that tests make: programs as trees, each node with a span of its own, over names with their roles.

// Each test takes what it needs.
#![allow(dead_code)]

/// Words of an image, as document 01 has them.
pub const VERSION: u32 = 1;
pub const HEADER: usize = 8;
pub const NAME: usize = 5;
pub const NODE: usize = 6;
pub const WORD: usize = 4;
pub const PASS: u32 = 3;
pub const ASSIGN: u32 = 5;
pub const EXPR: u32 = 6;
pub const RETURN: u32 = 7;
pub const IF: u32 = 8;
pub const WHILE: u32 = 9;
pub const FOR: u32 = 10;
pub const DEF: u32 = 11;
pub const BLOCK: u32 = 12;
pub const PARAM: u32 = 13;
pub const LITERAL: u32 = 20;
pub const VARIABLE: u32 = 21;
pub const BINARY: u32 = 23;
pub const CALL: u32 = 24;
pub const ATTRIBUTE: u32 = 25;
pub const LIST: u32 = 26;
pub const DICT: u32 = 27;
pub const TUPLE: u32 = 28;
pub const SET: u32 = 29;
pub const TREE_SET: u32 = 30;
pub const INDEX: u32 = 31;
pub const BOOL: u32 = 0;
pub const INT: u32 = 1;
pub const STRING: u32 = 2;
pub const PLUS: u32 = 0;
/// Roles: a plain name, a builtin of any count, and a function of one.
pub const PLAIN_NAME: u32 = 0;
pub const ANY_COUNT: u32 = 3;
pub const FUNCTION: u32 = 4;
/// A record's words by their place in it.
pub const NODE_COUNT: usize = 3;
pub const TEXT_LENGTH: usize = 1;
pub const KIND: usize = 0;
pub const ARG: usize = 1;
pub const CHILDREN: usize = 2;
pub const END: usize = 3;
/// The most that an image may have: the bytes of a name too, and how deep its tree may be.
pub const MOST_NAMES: usize = 128;
pub const MOST_NODES: usize = 2048;
pub const LONGEST_NAME: usize = 64;
pub const DEEPEST: usize = 64;

/// What a node's number is added to for its span, a different number in each byte.
const SPAN_START: u32 = 0x0102_0304;
const SPAN_END: u32 = 0x1516_1718;

pub fn span_of(place: usize) -> (u32, u32) {
    (SPAN_START + place as u32, SPAN_END + place as u32)
}

/// A node: kind, arg and children.
#[derive(Clone)]
pub struct Tree(pub u32, pub u32, pub Vec<Tree>);

pub fn block(body: Vec<Tree>) -> Tree {
    Tree(BLOCK, 0, body)
}

/// A node's record, and those of all that it holds, behind the others.
fn record(tree: &Tree, records: &mut Vec<[u32; NODE]>) {
    let Tree(kind, arg, children) = tree;
    let place = records.len();
    let (start, end) = if matches!(*kind, BLOCK | PARAM) { (0, 0) } else { span_of(place) };
    records.push([*kind, *arg, children.len() as u32, 0, start, end]);
    for child in children {
        record(child, records);
    }
    records[place][END] = records.len() as u32;
}

/// The nodes of a program.
pub fn nodes(program: Vec<Tree>) -> Vec<[u32; NODE]> {
    let mut records = vec![];
    record(&block(program), &mut records);
    records
}

/// The image of nodes over names, each with its role and that role's number.
pub fn image_over<T: AsRef<str>>(names: &[(T, u32, u32)], nodes: &[[u32; NODE]]) -> Vec<u8> {
    let text: String = names.iter().map(|(text, ..)| text.as_ref()).collect();
    let names_at = WORD * HEADER;
    let nodes_at = names_at + WORD * NAME * names.len();
    let text_at = nodes_at + WORD * NODE * nodes.len();
    let header = [names.len(), names_at, nodes.len(), nodes_at, text.len(), text_at, text_at + text.len()];
    let mut words = vec![VERSION];
    words.extend(header.map(|n| n as u32));
    let mut start = 0;
    for (text, role, count) in names {
        let length = text.as_ref().len() as u32;
        words.extend([start, length, *role, *count, 0]);
        start += length;
    }
    words.extend(nodes.iter().flatten());
    let mut image: Vec<u8> = words.iter().flat_map(|word| word.to_le_bytes()).collect();
    image.extend(text.as_bytes());
    image
}

//! Programs as the generator makes them, and the images that spell them.

use crate::image::kind::*;

/// A name with its role, as a name record holds it.
#[derive(Debug, Clone, PartialEq, Eq)]
pub struct Named {
    pub text: Vec<u8>,
    pub role: u32,
    pub p: u32,
    pub q: u32,
}

/// A node with its children. Where `arg` names, it is an index into the program's names, whatever order
/// they stand in.
#[derive(Debug, Clone, PartialEq, Eq)]
pub struct Item {
    pub kind: u32,
    pub arg: u32,
    pub parts: Vec<Item>,
    pub span: Option<(u32, u32)>,
}

/// What the span words of an image are, where an item has none of its own. Spans are carried unread, so any
/// values must do.
#[derive(Debug, Clone, Copy, PartialEq, Eq)]
pub enum Spans {
    /// Each node has its own.
    Apart,
    /// All are equal.
    Same,
    /// Any words, starts behind ends too.
    Any(u32),
}

#[derive(Debug, Clone, PartialEq, Eq)]
pub struct Program {
    pub names: Vec<Named>,
    pub body: Vec<Item>,
    pub spans: Spans,
}

pub fn names_something(kind: u32) -> bool {
    matches!(kind, FOR | DEF | PARAM | VARIABLE)
}

impl Item {
    pub fn new(kind: u32, arg: u32, parts: Vec<Item>) -> Item {
        Item { kind, arg, parts, span: None }
    }

    pub fn at(mut self, start: usize, end: usize) -> Item {
        self.span = Some((start as u32, end as u32));
        self
    }

    fn mark(&self, used: &mut [bool]) {
        if names_something(self.kind) {
            used[self.arg as usize] = true;
        }
        self.parts.iter().for_each(|part| part.mark(used));
    }

    fn renumber(&mut self, number: &[u32]) {
        if names_something(self.kind) {
            self.arg = number[self.arg as usize];
        }
        self.parts.iter_mut().for_each(|part| part.renumber(number));
    }

    /// How many nodes it has.
    pub fn size(&self) -> usize {
        1 + self.parts.iter().map(Item::size).sum::<usize>()
    }
}

impl Program {
    pub fn new() -> Program {
        Program { names: Vec::new(), body: Vec::new(), spans: Spans::Apart }
    }

    /// The index of a name, which is added as a plain one if it is new.
    pub fn name(&mut self, text: &str) -> u32 {
        let known = self.names.iter().position(|name| name.text == text.as_bytes());
        known.unwrap_or_else(|| {
            self.names.push(Named { text: text.as_bytes().to_vec(), role: 0, p: 0, q: 0 });
            self.names.len() - 1
        }) as u32
    }

    /// The index of a name, which gets this role.
    pub fn role(&mut self, text: &str, role: u32, p: u32, q: u32) -> u32 {
        let index = self.name(text);
        let name = &mut self.names[index as usize];
        name.role = role;
        name.p = p;
        name.q = q;
        index
    }

    /// Drops the names that no node names.
    pub fn prune(&mut self) {
        let mut used = vec![false; self.names.len()];
        self.body.iter().for_each(|item| item.mark(&mut used));
        let mut left = 0;
        let number: Vec<u32> = used
            .iter()
            .map(|used| {
                left += u32::from(*used);
                left.saturating_sub(1)
            })
            .collect();
        self.body.iter_mut().for_each(|item| item.renumber(&number));
        let mut flags = used.iter();
        self.names.retain(|_| *flags.next().expect("a flag for each name"));
    }

    /// How many nodes its image has.
    pub fn size(&self) -> usize {
        1 + self.body.iter().map(Item::size).sum::<usize>()
    }

    /// The program image: names in byte order, nodes in preorder.
    pub fn image(&self) -> Vec<u8> {
        let mut order: Vec<usize> = (0..self.names.len()).collect();
        order.sort_by(|a, b| self.names[*a].text.cmp(&self.names[*b].text));
        let mut number = vec![0u32; order.len()];
        for (place, index) in order.iter().enumerate() {
            number[*index] = place as u32;
        }
        let mut nodes: Vec<[u32; 6]> = Vec::new();
        let root = Item::new(BLOCK, 0, Vec::new());
        self.lay(&root, &self.body, &number, &mut nodes);

        let mut name_words: Vec<u32> = Vec::new();
        let mut texts: Vec<u8> = Vec::new();
        for index in &order {
            let name = &self.names[*index];
            name_words.extend_from_slice(&[texts.len() as u32, name.text.len() as u32, name.role, name.p, name.q]);
            texts.extend_from_slice(&name.text);
        }
        lay_out(&name_words, &nodes.concat(), &texts)
    }

    fn lay(&self, item: &Item, parts: &[Item], number: &[u32], nodes: &mut Vec<[u32; 6]>) {
        let node = nodes.len();
        let arg = if names_something(item.kind) { number[item.arg as usize] } else { item.arg };
        let (start, end) = match item.kind {
            BLOCK | PARAM => (0, 0),
            _ => item.span.unwrap_or_else(|| self.spans.of(node as u32)),
        };
        nodes.push([item.kind, arg, parts.len() as u32, 0, start, end]);
        for part in parts {
            self.lay(part, &part.parts, number, nodes);
        }
        nodes[node][3] = nodes.len() as u32;
    }
}

impl Spans {
    fn of(self, node: u32) -> (u32, u32) {
        match self {
            Spans::Apart => (8 * node, 8 * node + 5),
            Spans::Same => (7, 7),
            Spans::Any(seed) => {
                let word = |salt: u32| (node ^ seed).wrapping_mul(0x9e37_79b1).rotate_left(salt) ^ salt;
                (word(7), word(19))
            }
        }
    }
}

/// An image of these areas, with the header that belongs to them.
pub fn lay_out(name_words: &[u32], node_words: &[u32], texts: &[u8]) -> Vec<u8> {
    let (n, m, t) = (name_words.len() / 5, node_words.len() / 6, texts.len());
    let nodes_at = 32 + 20 * n;
    let texts_at = nodes_at + 24 * m;
    let header = [1, n, 32, m, nodes_at, t, texts_at, texts_at + t];
    let mut bytes: Vec<u8> = header.iter().flat_map(|word| (*word as u32).to_le_bytes()).collect();
    bytes.extend(name_words.iter().chain(node_words).flat_map(|word| word.to_le_bytes()));
    bytes.extend_from_slice(texts);
    bytes
}

// ---- nodes by name

pub const BOOL: u32 = 0;
pub const INT: u32 = 1;
pub const STRING: u32 = 2;
pub const FLOAT: u32 = 3;
pub const NONE: u32 = 4;

pub fn literal(which: u32) -> Item {
    Item::new(LITERAL, which, Vec::new())
}
pub fn variable(name: u32) -> Item {
    Item::new(VARIABLE, name, Vec::new())
}
pub fn unary(op: u32, inner: Item) -> Item {
    Item::new(UNARY, op, vec![inner])
}
pub fn binary(op: u32, left: Item, right: Item) -> Item {
    Item::new(BINARY, op, vec![left, right])
}
pub fn call(callee: Item, mut args: Vec<Item>) -> Item {
    args.insert(0, callee);
    Item::new(CALL, 0, args)
}
pub fn attribute(object: Item) -> Item {
    Item::new(ATTRIBUTE, 0, vec![object])
}
pub fn list(parts: Vec<Item>) -> Item {
    Item::new(LIST, 0, parts)
}
pub fn dict(parts: Vec<Item>) -> Item {
    Item::new(DICT, 0, parts)
}
pub fn tuple(parts: Vec<Item>) -> Item {
    Item::new(TUPLE, 0, parts)
}
pub fn set(parts: Vec<Item>) -> Item {
    Item::new(SET, 0, parts)
}
pub fn tree_set(parts: Vec<Item>) -> Item {
    Item::new(TREE_SET, 0, parts)
}
pub fn index(object: Item, at: Item) -> Item {
    Item::new(INDEX, 0, vec![object, at])
}
pub fn lambda() -> Item {
    Item::new(LAMBDA, 0, Vec::new())
}
pub fn simple(kind: u32) -> Item {
    Item::new(kind, 0, Vec::new())
}
pub fn assign(target: Item, value: Item) -> Item {
    Item::new(ASSIGN, 0, vec![target, value])
}
pub fn expr(value: Item) -> Item {
    Item::new(EXPR, 0, vec![value])
}
pub fn returned(value: Item) -> Item {
    Item::new(RETURN, 0, vec![value])
}
pub fn block(body: Vec<Item>) -> Item {
    Item::new(BLOCK, 0, body)
}
/// Conditions with their bodies, and perhaps a last body.
pub fn if_else(arms: Vec<(Item, Vec<Item>)>, last: Option<Vec<Item>>) -> Item {
    let mut parts: Vec<Item> = arms.into_iter().flat_map(|(condition, body)| vec![condition, block(body)]).collect();
    parts.extend(last.map(block));
    Item::new(IF, 0, parts)
}
pub fn while_loop(condition: Item, body: Vec<Item>) -> Item {
    Item::new(WHILE, 0, vec![condition, block(body)])
}
pub fn for_loop(name: u32, iterable: Item, body: Vec<Item>) -> Item {
    Item::new(FOR, name, vec![iterable, block(body)])
}
pub fn def(name: u32, params: &[u32], body: Vec<Item>) -> Item {
    let mut parts: Vec<Item> = params.iter().map(|param| Item::new(PARAM, *param, Vec::new())).collect();
    parts.push(block(body));
    Item::new(DEF, name, parts)
}

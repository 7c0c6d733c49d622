//! Smaller forms of an image, for showing a difference in as little as possible.

use crate::image::kind::*;
use crate::program::{lay_out, names_something};
use std::time::{Duration, Instant};

/// An image taken apart, damaged or not, so that parts can be dropped and the rest fitted together again.
#[derive(Clone)]
struct Parts {
    names: Vec<[u32; 5]>,
    nodes: Vec<[u32; 6]>,
    text: Vec<u8>,
    /// Header words that are not what the counts make them.
    header: Vec<(usize, u32)>,
    /// Bytes behind the total.
    tail: Vec<u8>,
}

fn word(bytes: &[u8], at: usize) -> u32 {
    u32::from_le_bytes([bytes[at], bytes[at + 1], bytes[at + 2], bytes[at + 3]])
}

impl Parts {
    /// None where the areas that the counts speak of are not there.
    fn read(bytes: &[u8]) -> Option<Parts> {
        if bytes.len() < 32 {
            return None;
        }
        let (n, m, t) = (word(bytes, 4) as usize, word(bytes, 12) as usize, word(bytes, 20) as usize);
        let total = 32u64 + 20 * n as u64 + 24 * m as u64 + t as u64;
        if total > bytes.len() as u64 {
            return None;
        }
        let words: Vec<u32> = (8..8 + 5 * n + 6 * m).map(|i| word(bytes, 4 * i)).collect();
        let names = words[..5 * n].chunks_exact(5).map(|w| [w[0], w[1], w[2], w[3], w[4]]).collect();
        let nodes = words[5 * n..].chunks_exact(6).map(|w| [w[0], w[1], w[2], w[3], w[4], w[5]]).collect();
        let total = total as usize;
        let mut parts = Parts {
            names,
            nodes,
            text: bytes[total - t..total].to_vec(),
            header: Vec::new(),
            tail: bytes[total..].to_vec(),
        };
        let plain = parts.bytes();
        for field in 0..8 {
            if word(bytes, 4 * field) != word(&plain, 4 * field) {
                parts.header.push((field, word(bytes, 4 * field)));
            }
        }
        Some(parts)
    }

    fn bytes(&self) -> Vec<u8> {
        let mut bytes = lay_out(&self.names.concat(), &self.nodes.concat(), &self.text);
        for (field, word) in &self.header {
            bytes[4 * field..4 * field + 4].copy_from_slice(&word.to_le_bytes());
        }
        bytes.extend_from_slice(&self.tail);
        bytes
    }

    /// The innermost node that holds node `i`.
    fn parent(&self, i: usize) -> Option<usize> {
        (0..i).rev().find(|k| self.nodes[*k][3] as usize > i)
    }

    /// Nodes `from..to` dropped, as `children` children of their parent.
    fn without(&self, from: usize, to: usize, children: i64) -> Parts {
        let mut parts = self.clone();
        if let Some(parent) = self.parent(from) {
            let count = i64::from(parts.nodes[parent][2]) - children;
            parts.nodes[parent][2] = count.max(0) as u32;
        }
        parts.nodes.drain(from..to);
        let gone = (to - from) as u32;
        for node in parts.nodes.iter_mut() {
            if node[3] as usize >= to {
                node[3] -= gone;
            } else if node[3] as usize > from {
                node[3] = from as u32;
            }
        }
        parts
    }

    /// Node `i` and what it holds give way to the part `from..to` of it, which counts as `children` children.
    fn hoisted(&self, i: usize, from: usize, to: usize, children: i64) -> Parts {
        let end = self.nodes[i][3] as usize;
        let behind = self.without(to, end, 0);
        let mut parts = behind.without(i, from, 1 - children);
        // Dropping behind the part took its parent to be inside: set the counts right.
        if let (Some(old), Some(new)) = (self.parent(i), parts.parent(i)) {
            if old == new {
                parts.nodes[new][2] = (i64::from(self.nodes[old][2]) - 1 + children).max(0) as u32;
            }
        }
        parts
    }

    fn with_node(&self, i: usize, node: [u32; 6]) -> Parts {
        let mut parts = self.clone();
        parts.nodes[i] = node;
        parts
    }

    fn without_name(&self, name: usize) -> Parts {
        let mut parts = self.clone();
        let record = parts.names.remove(name);
        let (from, length) = (record[0] as usize, record[1] as usize);
        if from.saturating_add(length) <= parts.text.len() {
            parts.text.drain(from..from + length);
            for other in parts.names[name..].iter_mut() {
                other[0] = other[0].wrapping_sub(length as u32);
            }
        }
        for node in parts.nodes.iter_mut() {
            if names_something(node[0]) && node[1] as usize > name {
                node[1] -= 1;
            }
        }
        parts
    }

    /// The last byte of a name's text dropped, or all but the first.
    fn with_shorter_name(&self, name: usize, keep: usize) -> Option<Parts> {
        let mut parts = self.clone();
        let (from, length) = (parts.names[name][0] as usize, parts.names[name][1] as usize);
        if length <= keep || from.saturating_add(length) > parts.text.len() {
            return None;
        }
        parts.text.drain(from + keep..from + length);
        parts.names[name][1] = keep as u32;
        for other in parts.names[name + 1..].iter_mut() {
            other[0] = other[0].wrapping_sub((length - keep) as u32);
        }
        Some(parts)
    }
}

/// How large a form is: bytes first, then what its words and bytes come to.
fn size(bytes: &[u8]) -> (usize, u64) {
    (bytes.len(), bytes.iter().map(|b| u64::from(*b)).sum())
}

/// Forms of an image that are smaller than it, the smallest first.
pub fn candidates(bytes: &[u8]) -> Vec<Vec<u8>> {
    let mut found: Vec<Vec<u8>> = Vec::new();
    match Parts::read(bytes) {
        Some(parts) => {
            let mut smaller: Vec<Parts> = Vec::new();
            drop_nodes(&parts, &mut smaller);
            simplify(&parts, &mut smaller);
            found.extend(smaller.iter().map(Parts::bytes));
        }
        None => {
            found.extend((0..bytes.len()).step_by(4).map(|at| {
                let mut zeroed = bytes.to_vec();
                let end = (at + 4).min(zeroed.len());
                zeroed[at..end].iter_mut().for_each(|b| *b = 0);
                zeroed
            }));
        }
    }
    if bytes.len() < 64 {
        found.extend((0..bytes.len()).map(|length| bytes[..length].to_vec()));
    }
    let whole = size(bytes);
    found.retain(|form| size(form) < whole);
    found.sort_by(|a, b| size(a).cmp(&size(b)).then_with(|| a.cmp(b)));
    found.dedup();
    found
}

fn drop_nodes(parts: &Parts, found: &mut Vec<Parts>) {
    let count = parts.nodes.len();
    for i in 1..count {
        let node = parts.nodes[i];
        let end = node[3] as usize;
        if end <= i || end > count {
            continue;
        }
        found.push(parts.without(i, end, 1));
        // A pair: a Dict's key and value, an elif's condition and body.
        if end < count && parts.parent(end) == parts.parent(i) {
            let second = parts.nodes[end][3] as usize;
            if second > end && second <= count {
                found.push(parts.without(i, second, 2));
            }
        }
        // One of its children instead of it; for a Block all that it holds.
        let mut child = i + 1;
        for _ in 0..node[2].min(64) {
            if child >= end {
                break;
            }
            let child_end = parts.nodes[child][3] as usize;
            if child_end <= child || child_end > end {
                break;
            }
            found.push(parts.hoisted(i, child, child_end, 1));
            if parts.nodes[child][0] == BLOCK {
                found.push(parts.hoisted(i, child + 1, child_end, i64::from(parts.nodes[child][2])));
            }
            child = child_end;
        }
        // A leaf instead of it; Break is the shortest error.
        if end > i + 1 {
            let leaves: &[u32] = if node[0] <= DEF { &[PASS, BREAK] } else { &[LITERAL] };
            for leaf in leaves {
                let mut bare = parts.without(i + 1, end, i64::from(node[2]));
                bare.nodes[i] = [*leaf, u32::from(*leaf == LITERAL), 0, i as u32 + 1, node[4], node[5]];
                found.push(bare);
            }
        }
    }
}

fn simplify(parts: &Parts, found: &mut Vec<Parts>) {
    for name in 0..parts.names.len() {
        let used = parts.nodes.iter().any(|node| names_something(node[0]) && node[1] as usize == name);
        if !used {
            found.push(parts.without_name(name));
        } else if name > 0 {
            // Another name in its place.
            let mut same = parts.clone();
            for node in same.nodes.iter_mut().filter(|node| names_something(node[0]) && node[1] as usize == name) {
                node[1] = 0;
            }
            found.push(same);
        }
        for keep in [1, 2, 3].iter() {
            found.extend(parts.with_shorter_name(name, *keep));
        }
        for field in 2..5 {
            for value in [0, parts.names[name][field] / 2, parts.names[name][field].saturating_sub(1)].iter() {
                let mut plain = parts.clone();
                plain.names[name][field] = *value;
                found.push(plain);
            }
        }
        let mut plain = parts.clone();
        plain.names[name][2..].iter_mut().for_each(|field| *field = 0);
        found.push(plain);
    }
    for i in 0..parts.nodes.len() {
        let node = parts.nodes[i];
        found.push(parts.with_node(i, [node[0], node[1], node[2], node[3], 0, 0]));
        if !names_something(node[0]) && node[1] > 0 {
            for arg in [0, 1, node[1] / 2, node[1] - 1].iter() {
                found.push(parts.with_node(i, [node[0], *arg, node[2], node[3], node[4], node[5]]));
            }
        }
        if node[2] > 0 && node[2] as usize > parts.nodes.len() {
            found.push(parts.with_node(i, [node[0], node[1], node[2] / 2, node[3], node[4], node[5]]));
        }
    }
    let mut spanless = parts.clone();
    for node in spanless.nodes.iter_mut() {
        node[4] = 0;
        node[5] = 0;
    }
    found.push(spanless);
    for i in 0..parts.header.len() {
        let mut plain = parts.clone();
        plain.header.remove(i);
        found.push(plain);
    }
    if !parts.text.is_empty() {
        // Text that no name needs.
        for keep in [0, parts.text.len() / 2, parts.text.len() - 1].iter() {
            let mut shorter = parts.clone();
            shorter.text.truncate(*keep);
            found.push(shorter);
        }
    }
    if !parts.tail.is_empty() {
        for keep in [0, parts.tail.len() / 2, parts.tail.len() - 1].iter() {
            let mut shorter = parts.clone();
            shorter.tail.truncate(*keep);
            found.push(shorter);
        }
    }
}

/// How many candidates are asked about at a time.
const ASKED: usize = 300;

/// What has been found by then must do: an image that costs T long is not worth more.
const PATIENCE: Duration = Duration::from_secs(60);

/// The smallest form for which `differs` still holds, as far as dropping and simplifying gets. `differs` is
/// asked about many forms at once and answers for each.
pub fn shrink<E>(bytes: &[u8], mut differs: impl FnMut(&[Vec<u8>]) -> Result<Vec<bool>, E>) -> Result<Vec<u8>, E> {
    let started = Instant::now();
    let mut best = bytes.to_vec();
    'smaller: loop {
        for some in candidates(&best).chunks(ASKED) {
            if started.elapsed() > PATIENCE {
                return Ok(best);
            }
            let answers = differs(some)?;
            if let Some(at) = answers.iter().position(|differs| *differs) {
                best = some[at].clone();
                continue 'smaller;
            }
        }
        return Ok(best);
    }
}

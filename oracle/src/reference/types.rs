//! Types as numbers in a table: equal number means equal type.

use std::collections::HashMap;

/// A type's number. Plain types have document 01's sheet numbers; structured ones follow as they are formed.
pub type Ty = u32;

pub const UNKNOWN: Ty = 0;
pub const INT: Ty = 1;
pub const BOOL: Ty = 2;
pub const STRING: Ty = 3;
pub const FLOAT: Ty = 4;
pub const NONE_TYPE: Ty = 5;
pub const RANGE: Ty = 6;
pub const FUNCTION: Ty = 7;

/// Kinds of structured types, by document 01's numbers; a plain type's kind is its number.
pub const LIST: u32 = 8;
pub const DICT: u32 = 9;
pub const TUPLE: u32 = 10;
pub const MAP_ITER: u32 = 11;
pub const FILTER_ITER: u32 = 12;

const PLAIN: [&str; 8] = ["Unknown", "Int", "Bool", "String", "Float", "NoneType", "Range", "Function"];

#[derive(Clone)]
struct Structured {
    kind: u32,
    parts: Vec<Ty>,
    /// Nodes of the tree that T would have for it.
    weight: u64,
    /// Bytes of its text. Texts double with each shared tuple, so even this may only be a bound that no
    /// buffer reaches.
    length: u128,
}

#[derive(Clone)]
pub struct Types {
    structured: Vec<Structured>,
    numbers: HashMap<(u32, Vec<Ty>), Ty>,
    /// A mistake: Tuples are written without their square brackets.
    bare_tuples: bool,
}

impl Types {
    pub fn new(bare_tuples: bool) -> Types {
        Types { structured: Vec::new(), numbers: HashMap::new(), bare_tuples }
    }

    /// What stands before and behind the parts in a type's text.
    fn around(&self, kind: u32) -> (&'static str, &'static str) {
        match kind {
            LIST => ("List(", ")"),
            DICT => ("Dict(", ")"),
            TUPLE if self.bare_tuples => ("Tuple(", ")"),
            TUPLE => ("Tuple([", "])"),
            MAP_ITER => ("MapIter(", ")"),
            FILTER_ITER => ("FilterIter(", ")"),
            other => unreachable!("{} is no structured kind", other),
        }
    }

    fn at(&self, t: Ty) -> Option<&Structured> {
        (t as usize).checked_sub(PLAIN.len()).map(|i| &self.structured[i])
    }

    pub fn kind(&self, t: Ty) -> u32 {
        self.at(t).map_or(t, |s| s.kind)
    }

    pub fn parts(&self, t: Ty) -> &[Ty] {
        self.at(t).map_or(&[], |s| &s.parts)
    }

    pub fn weight(&self, t: Ty) -> u64 {
        self.at(t).map_or(1, |s| s.weight)
    }

    /// How many structured types have been formed.
    pub fn formed(&self) -> u32 {
        self.structured.len() as u32
    }

    /// The type of this kind and these parts, formed if there is none yet.
    pub fn form(&mut self, kind: u32, parts: Vec<Ty>) -> Ty {
        let key = (kind, parts);
        if let Some(t) = self.numbers.get(&key) {
            return *t;
        }
        let parts = key.1.clone();
        let weight = parts.iter().fold(1u64, |sum, part| sum.saturating_add(self.weight(*part)));
        let commas = 2 * parts.len().saturating_sub(1) as u128;
        let (opening, closing) = self.around(kind);
        let around = (opening.len() + closing.len()) as u128;
        let length = parts.iter().fold(around + commas, |sum, part| sum.saturating_add(self.length(*part)));
        let t = (PLAIN.len() + self.structured.len()) as Ty;
        self.structured.push(Structured { kind, parts, weight, length });
        self.numbers.insert(key, t);
        t
    }

    /// The length of a type's text, saturating.
    pub fn length(&self, t: Ty) -> u128 {
        self.at(t).map_or_else(|| PLAIN[t as usize].len() as u128, |s| s.length)
    }

    /// Writes a type's text in Rust's Debug form, and no more than `room` bytes in all.
    pub fn text(&self, t: Ty, out: &mut Vec<u8>, room: usize) {
        if out.len() >= room {
            return;
        }
        match self.at(t) {
            None => out.extend_from_slice(PLAIN[t as usize].as_bytes()),
            Some(s) => {
                let (opening, closing) = self.around(s.kind);
                out.extend_from_slice(opening.as_bytes());
                for (i, part) in s.parts.iter().enumerate() {
                    if i > 0 {
                        out.extend_from_slice(b", ");
                    }
                    self.text(*part, out, room);
                }
                out.extend_from_slice(closing.as_bytes());
            }
        }
        out.truncate(room);
    }

    /// The type that all share, or Unknown.
    pub fn common(&self, types: &[Ty]) -> Ty {
        match types.split_first() {
            Some((first, rest)) if rest.iter().all(|t| t == first) => *first,
            _ => UNKNOWN,
        }
    }
}

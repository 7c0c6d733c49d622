//! The type sheet, written from names with types as T hands them out: as trees.

use crate::semantic::Tree;
use std::collections::HashMap;

/// The first number of a structured type; plain types have those below.
const STRUCTURED: u32 = 8;

/// The sheet's types so far. A type is known by its kind and the numbers of its parts.
#[derive(Default)]
struct Types {
    numbers: HashMap<(u32, Vec<u32>), u32>,
    records: Vec<[u32; 3]>,
    elements: Vec<u32>,
}

impl Types {
    /// The number of a type. Its parts are completed first, left to right; a type that is met again keeps
    /// the number it has.
    fn number(&mut self, tree: &Tree) -> u32 {
        match tree {
            Tree::Unknown => 0,
            Tree::Int => 1,
            Tree::Bool => 2,
            Tree::String => 3,
            Tree::Float => 4,
            Tree::NoneType => 5,
            Tree::Range => 6,
            Tree::Function => 7,
            Tree::List(part) => self.structured(8, &[part]),
            Tree::Dict(key, value) => self.structured(9, &[key, value]),
            Tree::Tuple(parts) => self.structured(10, &parts.iter().collect::<Vec<&Tree>>()),
            Tree::MapIter(part) => self.structured(11, &[part]),
            Tree::FilterIter(part) => self.structured(12, &[part]),
        }
    }

    fn structured(&mut self, kind: u32, parts: &[&Tree]) -> u32 {
        let parts: Vec<u32> = parts.iter().map(|part| self.number(part)).collect();
        let key = (kind, parts);
        if let Some(number) = self.numbers.get(&key) {
            return *number;
        }
        let parts = &key.1;
        let record = if kind == 10 {
            let before = self.elements.len() as u32;
            self.elements.extend_from_slice(parts);
            [kind, before, parts.len() as u32]
        } else {
            [kind, parts[0], parts.get(1).copied().unwrap_or(0)]
        };
        let number = STRUCTURED + self.records.len() as u32;
        self.records.push(record);
        self.numbers.insert(key, number);
        number
    }
}

/// The sheet of the names that are listed.
pub fn sheet(listed: &HashMap<String, Tree>) -> Vec<u8> {
    let mut names: Vec<(&String, &Tree)> = listed.iter().collect();
    names.sort_unstable_by(|a, b| a.0.as_bytes().cmp(b.0.as_bytes()));

    let mut types = Types::default();
    let mut name_records: Vec<[u32; 3]> = Vec::new();
    let mut texts: Vec<u8> = Vec::new();
    for (text, tree) in names {
        name_records.push([texts.len() as u32, text.len() as u32, types.number(tree)]);
        texts.extend_from_slice(text.as_bytes());
    }

    let types_at = 40;
    let elements_at = types_at + 12 * types.records.len() as u32;
    let names_at = elements_at + 4 * types.elements.len() as u32;
    let texts_at = names_at + 12 * name_records.len() as u32;
    let total = texts_at + texts.len() as u32;
    let header = [
        1,
        types.records.len() as u32,
        types_at,
        types.elements.len() as u32,
        elements_at,
        name_records.len() as u32,
        names_at,
        texts.len() as u32,
        texts_at,
        total,
    ];
    let mut bytes = Vec::with_capacity(total as usize);
    let mut put = |words: &[u32]| words.iter().for_each(|word| bytes.extend_from_slice(&word.to_le_bytes()));
    put(&header);
    types.records.iter().for_each(|record| put(record));
    put(&types.elements);
    name_records.iter().for_each(|record| put(record));
    bytes.extend_from_slice(&texts);
    bytes
}

//! The second opinion on a sheet: what it seems to say, read with as few questions as possible, then written
//! again by the oracle's two writers. It is a sheet if the same bytes come out.

use super::plan::*;
use crate::mistakes::Mind;
use crate::reference::types::*;
use crate::semantic::Tree;
use crate::sheet;
use std::collections::{BTreeMap, HashMap};

/// Larger types are left to the writer that works on numbers: as trees they may double with each step.
const TREE_NODES: u64 = 20_000;

pub fn is_sheet(bytes: &[u8]) -> bool {
    let plan = match Seeming::new(bytes).and_then(Seeming::plan) {
        Some(plan) => plan,
        None => return false,
    };
    let same = plan.sheet(Mind::SOUND) == bytes;
    let nodes = plan.names.values().fold(0u64, |sum, t| sum.saturating_add(plan.types.weight(*t)));
    if nodes <= TREE_NODES {
        let text = |name: &[u8]| String::from_utf8(name.to_vec()).expect("its bytes are 33 to 126");
        let frame: HashMap<String, Tree> =
            plan.names.iter().map(|(name, t)| (text(name), tree(&plan.types, *t))).collect();
        assert_eq!(same, sheet::sheet(&frame) == bytes, "the two writers differ");
    }
    same
}

fn tree(types: &Types, t: Ty) -> Tree {
    let parts = types.parts(t);
    let part = |i: usize| Box::new(tree(types, parts[i]));
    match types.kind(t) {
        UNKNOWN => Tree::Unknown,
        INT => Tree::Int,
        BOOL => Tree::Bool,
        STRING => Tree::String,
        FLOAT => Tree::Float,
        NONE_TYPE => Tree::NoneType,
        RANGE => Tree::Range,
        FUNCTION => Tree::Function,
        LIST => Tree::List(part(0)),
        DICT => Tree::Dict(part(0), part(1)),
        TUPLE => Tree::Tuple(parts.iter().map(|part| tree(types, *part)).collect()),
        MAP_ITER => Tree::MapIter(part(0)),
        FILTER_ITER => Tree::FilterIter(part(0)),
        other => unreachable!("{} is no kind", other),
    }
}

/// Bytes that are taken to be a sheet. Everything is found where the header and the records say that it is,
/// wherever that may be.
struct Seeming<'a> {
    bytes: &'a [u8],
    types: usize,
    types_at: usize,
    elements: usize,
    elements_at: usize,
    names: usize,
    names_at: usize,
    texts_at: usize,
    /// What has been formed of the records: not begun, begun, or done.
    formed: Vec<Option<Option<Ty>>>,
    table: Types,
}

impl<'a> Seeming<'a> {
    fn new(bytes: &'a [u8]) -> Option<Seeming<'a>> {
        let word = |i: usize| word(bytes, 4 * i);
        let (types, elements, names) = (word(1)?, word(3)?, word(5)?);
        // The writers would write more than a reader takes.
        if types > TYPES || elements > ELEMENTS || names > NAMES {
            return None;
        }
        Some(Seeming {
            bytes,
            types,
            types_at: word(2)?,
            elements,
            elements_at: word(4)?,
            names,
            names_at: word(6)?,
            texts_at: word(8)?,
            formed: vec![None; types],
            table: Types::new(false),
        })
    }

    fn plan(mut self) -> Option<Plan> {
        let mut names = BTreeMap::new();
        for i in 0..self.names {
            let record = |field: usize| word(self.bytes, self.names_at + 12 * i + 4 * field);
            let (start, length, number) = (record(0)?, record(1)?, record(2)?);
            let text = self.bytes.get(self.texts_at + start..self.texts_at + start + length)?;
            // The writers take names of any length and any bytes, and so does not the reader.
            if text.is_empty() || text.len() > NAME_BYTES || text.iter().any(|byte| *byte < 33 || *byte > 126) {
                return None;
            }
            let t = self.form(number)?;
            names.insert(text.to_vec(), t);
        }
        Some(Plan { types: self.table, names })
    }

    /// The type of a number; none if there is no end to it, or none such. Forward references do no harm here: the
    /// writers will put the type where it belongs.
    fn form(&mut self, number: usize) -> Option<Ty> {
        if number < 8 {
            return Some(number as Ty);
        }
        let i = number - 8;
        if i >= self.types {
            return None;
        }
        if let Some(known) = self.formed[i] {
            return known;
        }
        self.formed[i] = Some(None);
        let record = |field: usize| word(self.bytes, self.types_at + 12 * i + 4 * field);
        let (kind, p, q) = (record(0)?, record(1)?, record(2)?);
        let numbers = match kind {
            8 | 11 | 12 => vec![p],
            9 => vec![p, q],
            10 if q <= self.elements => {
                (0..q).map(|k| word(self.bytes, self.elements_at + 4 * (p + k))).collect::<Option<Vec<usize>>>()?
            }
            _ => return None,
        };
        let parts = numbers.into_iter().map(|number| self.form(number)).collect::<Option<Vec<Ty>>>()?;
        let t = self.table.form(kind as u32, parts);
        self.formed[i] = Some(Some(t));
        Some(t)
    }
}

fn word(bytes: &[u8], at: usize) -> Option<usize> {
    let found = bytes.get(at..at + 4)?;
    Some(u32::from_le_bytes([found[0], found[1], found[2], found[3]]) as usize)
}

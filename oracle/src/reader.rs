//! The sheet reader, refusal 12: document 01's section "The type sheet", rule by rule.
//!
//! A sheet has one form only, so a reader could write what it has read again and compare. This one does not, and
//! takes nothing from the two writers: each rule stands here by itself, so that it can be held against readers
//! that do write again. Any rule can be left out by name, which shows what a list of sheets is worth.

use std::collections::BTreeSet;

/// What is read: the structured types, numbered from 8, and each name's text and type.
#[derive(Debug, Clone, PartialEq, Eq)]
pub struct Sheet {
    pub types: Vec<Type>,
    pub names: Vec<(Vec<u8>, u32)>,
}

/// A kind from 8 to 12, and the parts' numbers: one for List, MapIter and FilterIter, key and value for Dict, the
/// elements for Tuple.
#[derive(Debug, Clone, PartialEq, Eq, PartialOrd, Ord)]
pub struct Type {
    pub kind: u32,
    pub parts: Vec<u32>,
}

const MOST_TYPES: u32 = 2_048;
const MOST_ELEMENTS: u32 = 2_047;
const MOST_NAMES: u32 = 128;
const LONGEST_NAME: u32 = 64;

/// Ten words.
const HEADER: usize = 40;
/// Numbers below this are plain types, which are never stored.
const FIRST_STORED: u32 = 8;

const LIST: u32 = 8;
const DICT: u32 = 9;
const TUPLE: u32 = 10;
const MAP_ITER: u32 = 11;
const FILTER_ITER: u32 = 12;

#[derive(Debug, Clone, Copy, PartialEq, Eq, PartialOrd, Ord)]
pub enum Rule {
    Version,
    TypeCount,
    ElementCount,
    NameCount,
    TypeOffset,
    ElementOffset,
    NameOffset,
    TextOffset,
    Total,
    Length,
    Kind,
    UnusedQ,
    LowerPart,
    ElementStart,
    ElementsWithin,
    ElementsFill,
    Distinct,
    Reachable,
    Order,
    TextStart,
    NameNotEmpty,
    NameNotLong,
    TextsWithin,
    TextsFill,
    TextByte,
    Ascending,
    NameType,
}

/// The rules, and what each says. Those without which nothing could be read at all (`false`) cannot be left out.
pub const RULES: [(Rule, &str, bool, &str); 27] = [
    (Rule::Version, "version", true, "the version is 1"),
    (Rule::TypeCount, "type-count", true, "at most 2,048 structured types"),
    (Rule::ElementCount, "element-count", true, "at most 2,047 elements"),
    (Rule::NameCount, "name-count", true, "at most 128 names"),
    (Rule::TypeOffset, "type-offset", true, "the types start at byte 40"),
    (Rule::ElementOffset, "element-offset", true, "the elements start where the types end"),
    (Rule::NameOffset, "name-offset", true, "the names start where the elements end"),
    (Rule::TextOffset, "text-offset", true, "the texts start where the names end"),
    (Rule::Total, "total", true, "the total is where the texts end"),
    (Rule::Length, "length", true, "there are as many bytes as the areas take"),
    (Rule::Kind, "kind", true, "a record's kind is 8 to 12"),
    (Rule::UnusedQ, "unused-q", true, "q of List, MapIter and FilterIter is 0"),
    (Rule::LowerPart, "lower-part", true, "a part is plain, or stored before the whole"),
    (Rule::ElementStart, "element-start", true, "a Tuple's p is the number of elements before it, also when q is 0"),
    (Rule::ElementsWithin, "elements-within", false, "a Tuple's elements are there"),
    (Rule::ElementsFill, "elements-fill", true, "the Tuples' elements fill their area"),
    (Rule::Distinct, "distinct", true, "no type stands twice"),
    (Rule::Reachable, "reachable", true, "each type is reachable from the names"),
    (Rule::Order, "order", true, "types stand as the walk of the names first completes them"),
    (Rule::TextStart, "text-start", true, "a name's text starts where the one before ends"),
    (Rule::NameNotEmpty, "name-not-empty", true, "a name has at least 1 byte"),
    (Rule::NameNotLong, "name-not-long", true, "a name has at most 64 bytes"),
    (Rule::TextsWithin, "texts-within", false, "a name's text is there"),
    (Rule::TextsFill, "texts-fill", true, "the names' texts fill their area"),
    (Rule::TextByte, "text-byte", true, "a name's bytes are 33 to 126"),
    (Rule::Ascending, "ascending", true, "names ascend strictly as byte strings"),
    (Rule::NameType, "name-type", true, "a name's type is plain or stored"),
];

/// What the bytes hold if they are a sheet; none is refusal 12, place 0.
pub fn read(bytes: &[u8]) -> Option<Sheet> {
    examine(bytes, None).ok()
}

/// The same, with the first rule that is broken, or with one rule left out.
pub fn examine(bytes: &[u8], without: Option<Rule>) -> Result<Sheet, Rule> {
    let held = |rule: Rule, holds: bool| if holds || without == Some(rule) { Ok(()) } else { Err(rule) };

    if bytes.len() < HEADER {
        return Err(Rule::Length);
    }
    let header = words(&bytes[..HEADER]);
    let (types, elements, names, texts) = (header[1], header[3], header[5], header[7]);
    held(Rule::Version, header[0] == 1)?;
    held(Rule::TypeCount, types <= MOST_TYPES)?;
    held(Rule::ElementCount, elements <= MOST_ELEMENTS)?;
    held(Rule::NameCount, names <= MOST_NAMES)?;

    // Where the areas lie follows from the counts. In 64 bits: four counts of 32 bits cannot wrap it.
    let elements_at = HEADER as u64 + 12 * u64::from(types);
    let names_at = elements_at + 4 * u64::from(elements);
    let texts_at = names_at + 12 * u64::from(names);
    let total = texts_at + u64::from(texts);
    held(Rule::TypeOffset, header[2] == HEADER as u32)?;
    held(Rule::ElementOffset, u64::from(header[4]) == elements_at)?;
    held(Rule::NameOffset, u64::from(header[6]) == names_at)?;
    held(Rule::TextOffset, u64::from(header[8]) == texts_at)?;
    held(Rule::Total, u64::from(header[9]) == total)?;
    held(Rule::Length, bytes.len() as u64 == total)?;
    // A reader that does not mind more bytes cannot go on with fewer.
    if (bytes.len() as u64) < total {
        return Err(Rule::Length);
    }
    let records = words(&bytes[HEADER..elements_at as usize]);
    let elements = words(&bytes[elements_at as usize..names_at as usize]);
    let name_records = words(&bytes[names_at as usize..texts_at as usize]);
    let texts = &bytes[texts_at as usize..total as usize];

    let types = read_types(&records, &elements, &held)?;
    let names = read_names(&name_records, texts, types.len() as u32, &held)?;

    // Of two equal types take the pair whose higher number is lowest: all below it are distinct, so its parts are
    // equal as numbers. It is enough to look for that.
    let mut seen = BTreeSet::new();
    held(Rule::Distinct, types.iter().all(|one| seen.insert(one)))?;

    let completed = walk(&types, &names);
    let reached: BTreeSet<u32> = completed.iter().copied().collect();
    held(Rule::Reachable, reached.len() == types.len())?;
    held(Rule::Order, completed.windows(2).all(|pair| pair[0] < pair[1]))?;
    Ok(Sheet { types, names })
}

fn words(bytes: &[u8]) -> Vec<u32> {
    bytes.chunks_exact(4).map(|b| u32::from_le_bytes([b[0], b[1], b[2], b[3]])).collect()
}

fn read_types(
    records: &[u32],
    elements: &[u32],
    held: &dyn Fn(Rule, bool) -> Result<(), Rule>,
) -> Result<Vec<Type>, Rule> {
    let mut types: Vec<Type> = Vec::new();
    // Elements that the Tuples so far have taken.
    let mut taken = 0;
    for (record, number) in records.chunks_exact(3).zip(FIRST_STORED..) {
        let (kind, p, q) = (record[0], record[1], record[2]);
        let parts = match kind {
            LIST | MAP_ITER | FILTER_ITER => {
                held(Rule::UnusedQ, q == 0)?;
                vec![p]
            }
            DICT => vec![p, q],
            TUPLE => {
                held(Rule::ElementStart, p as usize == taken)?;
                if q as usize > elements.len() - taken {
                    return Err(Rule::ElementsWithin);
                }
                let own = elements[taken..taken + q as usize].to_vec();
                taken += q as usize;
                own
            }
            _ => {
                held(Rule::Kind, false)?;
                Vec::new()
            }
        };
        held(Rule::LowerPart, parts.iter().all(|part| *part < number))?;
        types.push(Type { kind, parts });
    }
    held(Rule::ElementsFill, taken == elements.len())?;
    Ok(types)
}

fn read_names(
    records: &[u32],
    texts: &[u8],
    types: u32,
    held: &dyn Fn(Rule, bool) -> Result<(), Rule>,
) -> Result<Vec<(Vec<u8>, u32)>, Rule> {
    let mut names: Vec<(Vec<u8>, u32)> = Vec::new();
    // Bytes that the names so far have taken.
    let mut taken = 0;
    for record in records.chunks_exact(3) {
        let (start, length, number) = (record[0], record[1], record[2]);
        held(Rule::TextStart, start as usize == taken)?;
        held(Rule::NameNotEmpty, length >= 1)?;
        held(Rule::NameNotLong, length <= LONGEST_NAME)?;
        if length as usize > texts.len() - taken {
            return Err(Rule::TextsWithin);
        }
        let text = &texts[taken..taken + length as usize];
        taken += length as usize;
        held(Rule::TextByte, text.iter().all(|byte| (33..=126).contains(byte)))?;
        held(Rule::Ascending, names.last().map_or(true, |(before, _)| before.as_slice() < text))?;
        held(Rule::NameType, number < FIRST_STORED + types)?;
        names.push((text.to_vec(), number));
    }
    held(Rule::TextsFill, taken == texts.len())?;
    Ok(names)
}

/// The numbers of the stored types in the order in which a walk of the names completes them: parts left to right
/// and before the whole, each once. By a list of its own and not by recursion, since a type may be 2,048 deep.
fn walk(types: &[Type], names: &[(Vec<u8>, u32)]) -> Vec<u32> {
    let stored = |number: u32| number.checked_sub(FIRST_STORED).and_then(|i| types.get(i as usize));
    let mut entered = BTreeSet::new();
    let mut completed = Vec::new();
    for (_, number) in names {
        // Types that are entered and not complete, outermost first, each with how many parts are done.
        let mut open: Vec<(u32, usize)> = Vec::new();
        if stored(*number).is_some() && entered.insert(*number) {
            open.push((*number, 0));
        }
        while let Some((whole, done)) = open.last_mut() {
            let parts = stored(*whole).map_or(&[][..], |one| &one.parts);
            match parts.get(*done) {
                None => {
                    completed.push(*whole);
                    open.pop();
                }
                Some(part) => {
                    *done += 1;
                    if stored(*part).is_some() && entered.insert(*part) {
                        open.push((*part, 0));
                    }
                }
            }
        }
    }
    completed
}

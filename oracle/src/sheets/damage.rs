//! Sheets with one thing wrong.

use super::plan::*;
use crate::mistakes::{Mind, Mistake};
use crate::random::Random;

/// A sheet taken apart: kinds and parts of the types in their order, texts and types of the names in theirs.
struct Loose {
    types: Vec<(u32, Vec<u32>)>,
    names: Vec<(Vec<u8>, u32)>,
}

const TUPLE: u32 = 10;

impl Loose {
    /// Of a good sheet.
    fn of(sheet: &[u8]) -> Loose {
        let at = Areas::of(sheet);
        let mut types = Vec::new();
        for i in 0..at.types {
            let record = |field: usize| word(sheet, 40 + 12 * i + 4 * field);
            let (kind, p, q) = (record(0), record(1), record(2));
            let parts = match kind {
                9 => vec![p, q],
                TUPLE => (p..p + q).map(|k| word(sheet, at.elements_at + 4 * k as usize)).collect(),
                _ => vec![p],
            };
            types.push((kind, parts));
        }
        let mut names = Vec::new();
        for i in 0..at.names {
            let record = |field: usize| word(sheet, at.names_at + 12 * i + 4 * field);
            let start = at.texts_at + record(0) as usize;
            names.push((sheet[start..start + record(1) as usize].to_vec(), record(2)));
        }
        Loose { types, names }
    }

    /// Put together as it is, with a header that fits.
    fn bytes(&self) -> Vec<u8> {
        let mut records = Vec::new();
        let mut elements = Vec::new();
        for (kind, parts) in &self.types {
            if *kind == TUPLE {
                records.push([TUPLE, elements.len() as u32, parts.len() as u32]);
                elements.extend_from_slice(parts);
            } else {
                records.push([*kind, parts[0], parts.get(1).copied().unwrap_or(0)]);
            }
        }
        let mut names = Vec::new();
        let mut texts = Vec::new();
        for (text, t) in &self.names {
            names.push([texts.len() as u32, text.len() as u32, *t]);
            texts.extend_from_slice(text);
        }
        lay_out(&records, &elements, &names, &texts)
    }

    /// Each reference to a type, of parts and of names.
    fn references(&mut self) -> impl Iterator<Item = &mut u32> {
        let parts = self.types.iter_mut().flat_map(|(_, parts)| parts.iter_mut());
        parts.chain(self.names.iter_mut().map(|(_, t)| t))
    }

    fn renumber(&mut self, new: impl Fn(u32) -> u32) {
        self.references().for_each(|t| *t = new(*t));
    }

    /// Puts a type in at place `i`; all above get one more.
    fn insert(&mut self, i: usize, kind: u32, parts: Vec<u32>) {
        self.renumber(|t| if t >= 8 + i as u32 { t + 1 } else { t });
        self.types.insert(i, (kind, parts));
    }

    /// Two types change places, and all that refer to them follow.
    fn swap(&mut self, i: usize, j: usize) {
        let (a, b) = (8 + i as u32, 8 + j as u32);
        self.renumber(|t| {
            if t == a {
                b
            } else if t == b {
                a
            } else {
                t
            }
        });
        self.types.swap(i, j);
    }

    /// Puts the types where the walk of the names completes them. All must be reachable, and none be its own part.
    fn in_walk_order(&mut self) {
        fn complete(types: &[(u32, Vec<u32>)], t: u32, order: &mut Vec<u32>) {
            if t >= 8 && !order.contains(&t) {
                types[t as usize - 8].1.iter().for_each(|part| complete(types, *part, order));
                order.push(t);
            }
        }
        let mut order = Vec::new();
        self.names.iter().for_each(|(_, t)| complete(&self.types, *t, &mut order));
        self.types = order.iter().map(|t| self.types[*t as usize - 8].clone()).collect();
        let place = |t: u32| order.iter().position(|one| *one == t).map_or(t, |i| 8 + i as u32);
        self.renumber(place);
    }

    /// The places of Tuples of `least` or more elements.
    fn tuples(&self, least: usize) -> Vec<usize> {
        let fits = |i: &usize| self.types[*i].0 == TUPLE && self.types[*i].1.len() >= least;
        (0..self.types.len()).filter(fits).collect()
    }

    /// The places of types that have parts.
    fn wholes(&self) -> Vec<usize> {
        (0..self.types.len()).filter(|i| !self.types[*i].1.is_empty()).collect()
    }
}

/// These areas behind a header that fits.
pub fn lay_out(records: &[[u32; 3]], elements: &[u32], names: &[[u32; 3]], texts: &[u8]) -> Vec<u8> {
    let elements_at = 40 + 12 * records.len();
    let names_at = elements_at + 4 * elements.len();
    let texts_at = names_at + 12 * names.len();
    let total = texts_at + texts.len();
    let (t, e, n) = (records.len(), elements.len(), names.len());
    let header = [1, t, 40, e, elements_at, n, names_at, texts.len(), texts_at, total];
    let mut words: Vec<u32> = header.iter().map(|word| *word as u32).collect();
    words.extend(records.iter().flatten());
    words.extend(elements);
    words.extend(names.iter().flatten());
    let mut bytes: Vec<u8> = words.iter().flat_map(|word| word.to_le_bytes()).collect();
    bytes.extend(texts);
    bytes
}

/// Where things lie in a good sheet.
struct Areas {
    types: usize,
    elements: usize,
    elements_at: usize,
    names: usize,
    names_at: usize,
    texts_at: usize,
}

impl Areas {
    fn of(sheet: &[u8]) -> Areas {
        let header = |i: usize| word(sheet, 4 * i) as usize;
        Areas {
            types: header(1),
            elements: header(3),
            elements_at: header(4),
            names: header(5),
            names_at: header(6),
            texts_at: header(8),
        }
    }
}

fn word(bytes: &[u8], at: usize) -> u32 {
    u32::from_le_bytes([bytes[at], bytes[at + 1], bytes[at + 2], bytes[at + 3]])
}

fn put(bytes: &mut [u8], at: usize, word: u32) {
    bytes[at..at + 4].copy_from_slice(&word.to_le_bytes());
}

/// Another word: a neighbour, an edge, one with the same low byte or low half, or any; they take turns.
fn other(old: u32, random: &mut Random, round: u64) -> u32 {
    let turns = [
        old.wrapping_add(1),
        old.wrapping_sub(1),
        0,
        u32::MAX,
        old ^ 0x1_0000,
        old.wrapping_add(12),
        1 << 31,
        old ^ 0x100,
        random.below(40) as u32,
        random.next() as u32,
    ];
    let found = turns[round as usize % turns.len()];
    if found == old {
        old ^ 1 << random.below(32)
    } else {
        found
    }
}

/// The header's words by the names of their damages.
const HEADER: [&str; 10] = [
    "version",
    "type-count",
    "type-offset",
    "element-count",
    "element-offset",
    "name-count",
    "name-offset",
    "text-count",
    "text-offset",
    "total",
];

/// What the reference's writer can get wrong in a sheet.
const WRITERS: [Mistake; 11] = [
    Mistake::WholeBeforeParts,
    Mistake::PartsRightToLeft,
    Mistake::TypesAsFormed,
    Mistake::UnreachableKept,
    Mistake::TypesPerName,
    Mistake::ElementsShared,
    Mistake::EmptyTupleAtZero,
    Mistake::TextStartInSheet,
    Mistake::UnknownLeftOut,
    Mistake::NumbersOfT,
    Mistake::NumbersOfLiterals,
];

/// The plan's sheet with the damage that is named; none if it has nothing that this damage could be done to.
pub fn damaged(plan: &Plan, damage: &str, round: u64, random: &mut Random) -> Option<Vec<u8>> {
    let good = plan.sheet(Mind::SOUND);
    let bad = done(plan, &good, damage, round, random)?;
    if bad == good {
        None
    } else {
        Some(bad)
    }
}

fn done(plan: &Plan, good: &[u8], damage: &str, round: u64, random: &mut Random) -> Option<Vec<u8>> {
    let at = Areas::of(good);
    let mut bytes = good.to_vec();
    let mut loose = Loose::of(good);
    let some = |from: &[usize], random: &mut Random| if from.is_empty() { None } else { Some(*random.pick(from)) };
    let every = |count: usize| (0..count).collect::<Vec<usize>>();
    if let Some(field) = HEADER.iter().position(|name| *name == damage) {
        put(&mut bytes, 4 * field, other(word(good, 4 * field), random, round));
        return Some(bytes);
    }
    match damage {
        // Bytes.
        "cut" => bytes.truncate(if round % 2 == 0 { bytes.len() - 1 } else { random.below(bytes.len()) }),
        "longer" => bytes.extend((0..[1, 1, 4, 12, 40][round as usize % 5]).map(|_| 65)),
        "cut-texts" | "longer-texts" => {
            // With a header that fits.
            let texts = good.len() - at.texts_at;
            if damage == "longer-texts" {
                bytes.extend((0..random.within(1, 3)).map(|_| b'~'));
            } else {
                bytes.truncate(good.len() - random.within(1, texts.clamp(1, 3)).min(texts));
            }
            let (total, texts_at) = (bytes.len(), at.texts_at);
            put(&mut bytes, 28, (total - texts_at) as u32);
            put(&mut bytes, 36, total as u32);
        }
        "byte" => {
            let i = random.below(bytes.len());
            bytes[i] = if round % 2 == 0 { bytes[i] ^ 1 << random.below(8) } else { random.below(256) as u8 };
        }
        "word" => {
            let i = 4 * random.below(at.texts_at / 4);
            put(&mut bytes, i, other(word(good, i), random, round));
        }
        "words" => {
            for _ in 0..random.within(2, 3) {
                let i = 4 * random.below(at.texts_at / 4);
                let small = random.below(14) as u32;
                put(&mut bytes, i, small);
            }
        }
        "noise" => {
            bytes = (0..random.within(0, 200)).map(|_| random.below(256) as u8).collect();
        }
        "noise-behind-header" => {
            // The header fits; what it speaks of are small words.
            let (t, e, n) = (random.below(3), random.below(3), random.below(2));
            let mut words = |count: usize| -> Vec<u32> { (0..count).map(|_| random.below(14) as u32).collect() };
            let records: Vec<[u32; 3]> = (0..t).map(|_| words(3)).map(|w| [w[0] % 5 + 8, w[1], w[2] % 3]).collect();
            let elements = words(e);
            let names: Vec<[u32; 3]> = (0..n).map(|_| [0, 1, words(1)[0]]).collect();
            bytes = lay_out(&records, &elements, &names, &b"x"[..n]);
        }
        "areas-moved" => {
            // A record more and three elements fewer, or the other way about: the header fits.
            let (t, e) = (word(good, 4), word(good, 12));
            let more = if round % 2 == 0 { (t + 1, e.checked_sub(3)?) } else { (t.checked_sub(1)?, e + 3) };
            put(&mut bytes, 4, more.0);
            put(&mut bytes, 12, more.1);
            put(&mut bytes, 16, 40 + 12 * more.0);
        }

        // Records.
        "record-kind" => {
            let i = 40 + 12 * some(&every(at.types), random)?;
            put(&mut bytes, i, random.within(8, 12) as u32);
        }
        "no-kind" => {
            let i = 40 + 12 * some(&every(at.types), random)?;
            let old = word(good, i);
            put(&mut bytes, i, [7, 13, 0, u32::MAX, old + 256, old + 0x1_0000, 1, 14][round as usize % 8]);
        }
        "record-p" | "record-q" => {
            let i = 40 + 12 * some(&every(at.types), random)? + if damage == "record-p" { 4 } else { 8 };
            put(&mut bytes, i, other(word(good, i), random, round));
        }
        "unused-q" => {
            let unused: Vec<usize> = (0..at.types).filter(|i| [8, 11, 12].contains(&loose.types[*i].0)).collect();
            let i = some(&unused, random)?;
            put(&mut bytes, 40 + 12 * i + 8, other(0, random, round));
        }
        "element" => {
            let i = at.elements_at + 4 * some(&every(at.elements), random)?;
            put(&mut bytes, i, other(word(good, i), random, round));
        }

        // Parts.
        "part-itself" | "part-above" | "part-nowhere" => {
            let i = some(&loose.wholes(), random)?;
            let own = 8 + i as u32;
            let end = 8 + at.types as u32;
            let new = match damage {
                "part-itself" => own,
                "part-above" if own + 1 < end => random.within(own as usize + 1, end as usize - 1) as u32,
                "part-above" => return None,
                _ => [end, end + 1, u32::MAX, 1 << 31, end + 0x1_0000][round as usize % 5],
            };
            let k = random.below(loose.types[i].1.len());
            loose.types[i].1[k] = new;
            return Some(loose.bytes());
        }

        // Elements.
        "element-start" => {
            let i = some(&loose.tuples(1), random)?;
            put(&mut bytes, 40 + 12 * i + 4, other(word(good, 40 + 12 * i + 4), random, round));
        }
        "empty-tuple-start" => {
            let empty: Vec<usize> = loose.tuples(0).into_iter().filter(|i| loose.types[*i].1.is_empty()).collect();
            let i = some(&empty, random)?;
            let old = word(good, 40 + 12 * i + 4);
            // 0 and the end of the area are what one would write by mistake.
            let new = [0, at.elements as u32, old + 1, old.wrapping_sub(1), u32::MAX][round as usize % 5];
            put(&mut bytes, 40 + 12 * i + 4, new);
        }
        "elements-left" => {
            // Elements that no Tuple has, at the end of their area.
            let more: Vec<u8> = (0..random.within(1, 2)).flat_map(|_| (random.below(8) as u32).to_le_bytes()).collect();
            bytes.splice(at.names_at..at.names_at, more.iter().copied());
            put(&mut bytes, 12, (at.elements + more.len() / 4) as u32);
            for field in [6, 8, 9] {
                put(&mut bytes, 4 * field, word(good, 4 * field) + more.len() as u32);
            }
        }
        "elements-missing" => {
            // The last Tuple's last elements are not there.
            let last = *loose.tuples(1).last()?;
            let fewer = random.within(1, loose.types[last].1.len());
            bytes.drain(at.names_at - 4 * fewer..at.names_at);
            put(&mut bytes, 12, (at.elements - fewer) as u32);
            for field in [6, 8, 9] {
                put(&mut bytes, 4 * field, word(good, 4 * field) - 4 * fewer as u32);
            }
        }
        "elements-out-of-order" => {
            // Two Tuples have their elements in each other's place, and know it.
            let tuples = loose.tuples(1);
            let a = some(&tuples, random)?;
            let b = some(&tuples, random)?;
            let (first, second) = (a.min(b), a.max(b));
            let elements_of = |i: usize| loose.types[i].1.clone();
            if first == second {
                return None;
            }
            let (before, behind) = (word(good, 40 + 12 * first + 4), word(good, 40 + 12 * second + 4));
            let between = before as usize + elements_of(first).len();
            let mut elements: Vec<u32> = elements_of(second);
            elements.extend((between..behind as usize).map(|k| word(good, at.elements_at + 4 * k)));
            let moved = elements.len() as u32;
            elements.extend(elements_of(first));
            for (k, element) in elements.iter().enumerate() {
                put(&mut bytes, at.elements_at + 4 * (before as usize + k), *element);
            }
            put(&mut bytes, 40 + 12 * first + 4, before + moved);
            put(&mut bytes, 40 + 12 * second + 4, before);
            // Tuples between them move with their elements.
            let shift = elements_of(second).len() as i64 - elements_of(first).len() as i64;
            for i in loose.tuples(0).into_iter().filter(|i| first < *i && *i < second) {
                let old = i64::from(word(good, 40 + 12 * i + 4));
                put(&mut bytes, 40 + 12 * i + 4, (old + shift) as u32);
            }
        }

        // Types.
        "types-swapped" => {
            let (a, b) = (some(&every(at.types), random)?, some(&every(at.types), random)?);
            loose.swap(a, b);
            return Some(loose.bytes());
        }
        "neighbours-swapped" => {
            // Neither has the other for a part, so all parts still come before their wholes.
            let apart = |i: &usize| !loose.types[i + 1].1.contains(&(8 + *i as u32));
            let places: Vec<usize> = (0..at.types.saturating_sub(1)).filter(apart).collect();
            let i = some(&places, random)?;
            loose.swap(i, i + 1);
            return Some(loose.bytes());
        }
        "type-doubled" => {
            let i = some(&every(at.types), random)?;
            let (kind, parts) = loose.types[i].clone();
            let own = 8 + i as u32;
            if round % 4 == 3 {
                // The copy stands behind, and has the last reference, perhaps the only one.
                loose.insert(i + 1, kind, parts);
                *loose.references().filter(|t| **t == own).last()? = own + 1;
                return Some(loose.bytes());
            }
            // Both are referred to, and each stands where the walk completes it: nothing else is wrong.
            if loose.references().filter(|t| **t == own).count() < 2 {
                return None;
            }
            loose.types.push((kind, parts));
            let copy = 7 + loose.types.len() as u32;
            *loose.references().filter(|t| **t == own).last()? = copy;
            loose.in_walk_order();
            return Some(loose.bytes());
        }
        "type-unreachable" => {
            // One that is not there yet, at the end or before.
            let i = if round % 2 == 0 { at.types } else { random.below(at.types + 1) };
            let part = random.below(8 + i) as u32;
            let (kind, parts) = random
                .pick(&[
                    (8, vec![part]),
                    (9, vec![part, 1]),
                    (TUPLE, vec![part, 2]),
                    (11, vec![part]),
                    (12, vec![part]),
                ])
                .clone();
            if loose.types.contains(&(kind, parts.clone())) {
                return None;
            }
            loose.insert(i, kind, parts);
            return Some(loose.bytes());
        }
        "name-dropped" => {
            // The types of a name that is gone stay.
            let i = some(&every(at.names), random)?;
            loose.names.remove(i);
            return Some(loose.bytes());
        }

        // Names.
        "name-start" | "name-length" | "name-type" => {
            let field = ["name-start", "name-length", "name-type"].iter().position(|name| *name == damage)?;
            let i = at.names_at + 12 * some(&every(at.names), random)? + 4 * field;
            put(&mut bytes, i, other(word(good, i), random, round));
        }
        "name-type-nowhere" => {
            let i = at.names_at + 12 * some(&every(at.names), random)? + 8;
            let end = 8 + at.types as u32;
            put(&mut bytes, i, [end, end + 1, u32::MAX, 1 << 31, end + 0x1_0000][round as usize % 5]);
        }
        "names-swapped" => {
            // Types that are plain do not mind the order of the names.
            let (a, b) = (some(&every(at.names), random)?, some(&every(at.names), random)?);
            loose.names.swap(a, b);
            return Some(loose.bytes());
        }
        "texts-swapped" => {
            // The names' types stay where they are, so only the texts are out of order.
            let (a, b) = (some(&every(at.names), random)?, some(&every(at.names), random)?);
            let text = loose.names[a].0.clone();
            loose.names[a].0 = std::mem::replace(&mut loose.names[b].0, text);
            return Some(loose.bytes());
        }
        "names-equal" => {
            let i = some(&every(at.names), random)?;
            let (text, t) = loose.names[i].clone();
            loose.names.insert(i + 1, (text, if round % 2 == 0 { t } else { 1 }));
            return Some(loose.bytes());
        }
        "name-empty" => {
            // Before all others it would ascend.
            let i = if round % 2 == 0 { 0 } else { random.below(at.names + 1) };
            loose.names.insert(i, (Vec::new(), random.below(8) as u32));
            return Some(loose.bytes());
        }
        "name-too-long" => {
            let i = some(&every(at.names), random)?;
            let length = [65, 65, 66, 128, 300][round as usize % 5];
            loose.names[i].0.resize(length, b'~');
            return Some(loose.bytes());
        }
        "name-byte" => {
            // In the last byte of the last name, or alone, it may ascend all the same.
            let i = if round % 2 == 0 { at.names.checked_sub(1)? } else { some(&every(at.names), random)? };
            let bad = [127, 32, 128, 255, 0, 10, 31][round as usize / 2 % 7];
            let text = &mut loose.names[i].0;
            let k = if round % 2 == 0 { text.len() - 1 } else { random.below(text.len()) };
            text[k] = bad;
            return Some(loose.bytes());
        }
        "name-high-byte" => {
            // Behind all others, where it ascends.
            let text = [b"~~~\x7f", b"~~~\x80", b"~~~\xff", b"\x7f~~~", b"\x80~~~"][round as usize % 5].to_vec();
            loose.names.push((text, 1));
            return Some(loose.bytes());
        }

        // Too many. None of these comes from the plan, which could not hold them.
        "types-too-many" => {
            let count = [TYPES + 1, TYPES + 1, TYPES + 2][round as usize % 3];
            let kinds: &[u32] = if round % 2 == 0 { &[8] } else { &[8, 11, 12] };
            loose.types =
                (0..count).map(|i| (*random.pick(kinds), vec![if i == 0 { 1 } else { 7 + i as u32 }])).collect();
            loose.names = vec![(b"x".to_vec(), 7 + count as u32)];
            return Some(loose.bytes());
        }
        "elements-too-many" => {
            let count = [ELEMENTS + 1, ELEMENTS + 1, ELEMENTS + 2][round as usize % 3];
            let first = if round % 2 == 0 { count } else { random.within(1, count - 1) };
            loose.types = vec![(TUPLE, vec![random.below(8) as u32; first])];
            if first < count {
                loose.types.push((TUPLE, vec![8; count - first]));
            }
            loose.names = vec![(b"x".to_vec(), 7 + loose.types.len() as u32)];
            return Some(loose.bytes());
        }
        "names-too-many" => {
            let count = [NAMES + 1, NAMES + 1, NAMES + 2, 2 * NAMES + 1][round as usize % 4];
            loose.types.clear();
            loose.names = (0..count).map(|i| (format!("n{:03}", i).into_bytes(), random.below(8) as u32)).collect();
            return Some(loose.bytes());
        }

        "writer-slips" => return Some(plan.sheet(Mind(Some(WRITERS[round as usize % WRITERS.len()])))),
        other => panic!("no damage {}", other),
    }
    Some(bytes)
}

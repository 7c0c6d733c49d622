//! Sheets for readers: good ones that programs make, good ones that no program makes, and damaged ones; and the
//! reader of reader.rs held against a second opinion on them.

pub mod damage;
pub mod plan;
pub mod second;

use crate::answer::fnv1a;
use crate::batch;
use crate::mistakes::Mind;
use crate::random::Random;
use crate::reader::{self, Rule, RULES};
use crate::reference::types::Ty;
use plan::*;
use std::collections::{BTreeMap, HashSet};
use std::fs;
use std::path::Path;

/// What must come of a sheet.
#[derive(Debug, Clone, Copy, PartialEq, Eq)]
pub enum Fate {
    Read,
    Refused,
    /// The damage may by chance give another good sheet: only the second opinion can tell.
    Either,
}
use Fate::*;

/// The kinds of sheets, with what must come of them.
pub const KINDS: [(&str, Fate, &str); 63] = [
    ("program", Read, "of accepted programs, the families in turn"),
    ("plain", Read, "names over plain types, none to 128"),
    ("chain", Read, "one-part types in each other, up to 2,048"),
    ("iters", Read, "MapIter and FilterIter of anything"),
    ("long-names", Read, "up to 128 names of 64 bytes"),
    ("wide", Read, "up to 2,047 elements"),
    ("empty-tuples", Read, "the empty Tuple behind other Tuples"),
    ("shared", Read, "types that as trees double with each step"),
    ("table", Read, "any table, with any names over it"),
    ("full", Read, "as much as there may be of everything: 42,532 bytes"),
    ("version", Refused, "another word in the header: neighbours, 0, huge, same low byte or half, any"),
    ("type-count", Refused, "the same"),
    ("type-offset", Refused, "the same"),
    ("element-count", Refused, "the same"),
    ("element-offset", Refused, "the same"),
    ("name-count", Refused, "the same"),
    ("name-offset", Refused, "the same"),
    ("text-count", Refused, "the same"),
    ("text-offset", Refused, "the same"),
    ("total", Refused, "the same"),
    ("cut", Refused, "shorter"),
    ("longer", Refused, "longer"),
    ("cut-texts", Refused, "shorter, with a header that fits"),
    ("longer-texts", Refused, "longer, with a header that fits"),
    ("byte", Either, "one byte changed"),
    ("word", Either, "one word changed"),
    ("words", Either, "two or three words made small"),
    ("noise", Refused, "any bytes; 2^32 to 1 against a version of 1"),
    ("noise-behind-header", Either, "a header that fits, small words behind it"),
    ("areas-moved", Refused, "a record for three elements or the other way about, with a header that fits"),
    ("record-kind", Either, "another kind"),
    ("no-kind", Refused, "a kind of 7, 13 or the like"),
    ("record-p", Either, "another p"),
    ("record-q", Either, "another q"),
    ("unused-q", Refused, "q of a List, MapIter or FilterIter"),
    ("element", Either, "another element"),
    ("part-itself", Refused, "a type that is its own part"),
    ("part-above", Refused, "a part that stands behind the whole"),
    ("part-nowhere", Refused, "a part that is no type"),
    ("element-start", Refused, "another p of a Tuple with elements"),
    ("empty-tuple-start", Refused, "another p of an empty Tuple"),
    ("elements-left", Refused, "elements that no Tuple has"),
    ("elements-missing", Refused, "a last Tuple whose elements are not all there"),
    ("elements-out-of-order", Refused, "two Tuples' elements in each other's place"),
    ("types-swapped", Refused, "two types in each other's place, references put right"),
    ("neighbours-swapped", Refused, "the same with parts still before wholes"),
    ("type-doubled", Refused, "a type twice, both reached"),
    ("type-unreachable", Refused, "a type that nothing refers to"),
    ("name-dropped", Either, "a name gone, its types left"),
    ("name-start", Refused, "another text start"),
    ("name-length", Refused, "another length"),
    ("name-type", Either, "another type of a name"),
    ("name-type-nowhere", Refused, "a name's type that is none"),
    ("names-swapped", Refused, "two names in each other's place"),
    ("texts-swapped", Refused, "two names' texts in each other's place"),
    ("names-equal", Refused, "a name twice"),
    ("name-empty", Refused, "an empty name"),
    ("name-too-long", Refused, "a name of 65 bytes or more"),
    ("name-byte", Refused, "a byte outside 33 to 126"),
    ("name-high-byte", Refused, "a byte above 126 in a name that ascends"),
    ("types-too-many", Refused, "2,049 types"),
    ("elements-too-many", Refused, "2,048 elements"),
    ("names-too-many", Refused, "129 names"),
];

/// A kind of its own, behind the others: each mistake of the reference's writer in turn.
pub const SLIPS: (&str, Fate, &str) = ("writer-slips", Either, "written with a mistake of the reference's writer");

pub fn kinds() -> Vec<(&'static str, Fate, &'static str)> {
    let mut all = KINDS.to_vec();
    all.push(SLIPS);
    all
}

/// A sheet, and for a good one what it says.
pub struct Made {
    pub kind: &'static str,
    pub fate: Fate,
    pub bytes: Vec<u8>,
    pub plan: Option<Plan>,
}

/// Sheet number `number` of a seed: the kinds take turns.
pub fn made(seed: u64, number: u64) -> Made {
    let all = kinds();
    let count = all.len() as u64;
    of_kind(seed, all[(number % count) as usize], number / count)
}

fn of_kind(seed: u64, (kind, fate, _): (&'static str, Fate, &'static str), round: u64) -> Made {
    let mut random = Random::of(seed, kind, round);
    if fate == Read {
        let plan = good(seed, kind, round, &mut random);
        return Made { kind, fate, bytes: plan.sheet(Mind::SOUND), plan: Some(plan) };
    }
    loop {
        // A sheet that the damage cannot be done to gives way to another.
        let plan = whole(seed, round, &mut random);
        if let Some(bytes) = damage::damaged(&plan, kind, round, &mut random) {
            return Made { kind, fate, bytes, plan: None };
        }
    }
}

fn good(seed: u64, kind: &str, round: u64, random: &mut Random) -> Plan {
    match kind {
        "program" => Plan::drawn(seed, round),
        "plain" => Plan::plain(random, round),
        "chain" => {
            let wanted = [TYPES, TYPES - 1, 1, 2, random.within(3, 60), random.within(3, 60)][round as usize % 6];
            Plan::chain(random, round, wanted)
        }
        "iters" => Plan::iters(random),
        "long-names" => Plan::long_names(random, round),
        "wide" => {
            let wanted = [ELEMENTS, ELEMENTS - 1, 1, random.within(2, 90), random.within(2, 90)][round as usize % 5];
            Plan::wide(random, wanted)
        }
        "empty-tuples" => Plan::empty_tuples(random),
        "shared" => Plan::shared(random, round),
        "table" => Plan::table(random),
        "full" => Plan::full(random),
        other => panic!("no kind {}", other),
    }
}

/// A good sheet to be damaged: mostly small, so that a fault is not lost in it.
fn whole(seed: u64, round: u64, random: &mut Random) -> Plan {
    match random.below(16) {
        0 => {
            let number = random.below(400) as u64;
            Plan::drawn(seed ^ round, number)
        }
        1 => {
            let wanted = random.within(1, 30);
            Plan::chain(random, round, wanted)
        }
        2 => Plan::iters(random),
        3 => Plan::shared(random, 5),
        4 => {
            let wanted = random.within(1, 60);
            Plan::wide(random, wanted)
        }
        5..=7 => Plan::empty_tuples(random),
        8 => {
            let names = *random.pick(&[1, 4]);
            Plan::plain(random, names)
        }
        _ => Plan::table(random),
    }
}

/// The line for a sheet: how many names and structured types it has, and the checksum of what writing it again
/// must give, which is the sheet itself.
pub fn line(bytes: &[u8], without: Option<Rule>) -> Vec<u8> {
    match reader::examine(bytes, without) {
        Ok(sheet) => format!("read {} {} #{:016x}", sheet.names.len(), sheet.types.len(), fnv1a(bytes)).into_bytes(),
        Err(_) => b"refused 12 0 0 0 -".to_vec(),
    }
}

/// Whether what was read is what the plan says: the same names, and types that are the same when they are formed
/// in the plan's own table, none more and none fewer than its names reach.
fn says(sheet: &reader::Sheet, plan: &Plan) -> bool {
    let mut types = plan.types.clone();
    let mut numbers: Vec<Ty> = (0..8).collect();
    for one in &sheet.types {
        let parts = one.parts.iter().map(|part| numbers[*part as usize]).collect();
        numbers.push(types.form(one.kind, parts));
    }
    let names: Vec<(Vec<u8>, Ty)> = sheet.names.iter().map(|(text, t)| (text.clone(), numbers[*t as usize])).collect();
    let wanted: Vec<(Vec<u8>, Ty)> = plan.names.iter().map(|(text, t)| (text.clone(), *t)).collect();
    // What the names reach, by the table alone.
    let mut reached: HashSet<Ty> = HashSet::new();
    let mut left: Vec<Ty> = plan.names.values().copied().collect();
    while let Some(t) = left.pop() {
        if t >= 8 && reached.insert(t) {
            left.extend(plan.types.parts(t));
        }
    }
    let read: HashSet<Ty> = numbers[8..].iter().copied().collect();
    names == wanted && read == reached && read.len() == sheet.types.len()
}

#[derive(Default)]
struct Tally {
    made: u64,
    read: u64,
    wrong: u64,
}

/// How many wrong sheets are shown.
const SHOWN: u64 = 5;

/// The reader on `count` sheets: against what must come of each kind, what the good ones say, and the second
/// opinion. With a rule left out it must fail.
pub fn check(seed: u64, count: u64, without: Option<Rule>) -> bool {
    let mut tallies: BTreeMap<&str, Tally> = BTreeMap::new();
    let mut broken: BTreeMap<Rule, u64> = BTreeMap::new();
    let mut wrong = 0;
    for number in 0..count {
        let made = made(seed, number);
        let read = reader::examine(&made.bytes, without);
        let second = second::is_sheet(&made.bytes);
        let as_must_be = match made.fate {
            Read => read.is_ok(),
            Refused => read.is_err(),
            Either => true,
        };
        let said = match (&read, &made.plan) {
            (Ok(sheet), Some(plan)) => says(sheet, plan),
            _ => true,
        };
        let tally = tallies.entry(made.kind).or_default();
        tally.made += 1;
        tally.read += u64::from(read.is_ok());
        if !(as_must_be && said && second == read.is_ok()) {
            tally.wrong += 1;
            wrong += 1;
            if wrong <= SHOWN {
                println!(
                    "sheet {} ({}): must be {:?}, reader {:?}, second opinion {}, said {}\n  {}",
                    number,
                    made.kind,
                    made.fate,
                    read.as_ref().err(),
                    second,
                    said,
                    crate::answer::hex(&made.bytes)
                );
            }
        }
        if let Err(rule) = read {
            *broken.entry(rule).or_insert(0) += 1;
        }
    }
    println!("{:22} {:>7} {:>7} {:>7} {:>7}", "kind", "made", "read", "refused", "wrong");
    let mut total = Tally::default();
    for (kind, fate, _) in kinds() {
        let tally = tallies.remove(kind).unwrap_or_default();
        let chance = if fate == Either { " by chance" } else { "" };
        let refused = tally.made - tally.read;
        println!("{:22} {:>7} {:>7} {:>7} {:>7}{}", kind, tally.made, tally.read, refused, tally.wrong, chance);
        total.made += tally.made;
        total.read += tally.read;
    }
    for (rule, name, _, what) in RULES.iter() {
        println!("first broken: {:16} {:>7}  {}", name, broken.get(rule).copied().unwrap_or(0), what);
    }
    println!("{} sheets, {} read, {} refused, {} wrong", total.made, total.read, total.made - total.read, wrong);
    wrong == 0
}

/// Every sheet of up to two records, two elements and two names over a few words, its header fitting: the reader
/// against the second opinion.
pub fn exhaust() -> bool {
    // None, one or two of them.
    fn up_to_two<T: Clone>(from: &[T]) -> Vec<Vec<T>> {
        let one = from.iter().map(|a| vec![a.clone()]);
        let two = from.iter().flat_map(|a| from.iter().map(move |b| vec![a.clone(), b.clone()]));
        std::iter::once(Vec::new()).chain(one).chain(two).collect()
    }
    let mut record_words = Vec::new();
    for kind in [8, 9, 10, 13] {
        for p in [0, 1, 2, 8, 9] {
            for q in [0, 1, 2, 8] {
                record_words.push([kind, p, q]);
            }
        }
    }
    let (mut sheets, mut read, mut wrong) = (0u64, 0u64, 0u64);
    let elements = up_to_two(&[1, 8, 9]);
    let names = up_to_two(&[1, 8, 9, 10]);
    for records in up_to_two(&record_words) {
        for elements in &elements {
            for types in &names {
                let names: Vec<[u32; 3]> = types.iter().zip(0..).map(|(t, i)| [i, 1, *t]).collect();
                let bytes = damage::lay_out(&records, elements, &names, &b"ab"[..names.len()]);
                let good = reader::read(&bytes).is_some();
                sheets += 1;
                read += u64::from(good);
                if good != second::is_sheet(&bytes) {
                    wrong += 1;
                    if wrong <= SHOWN {
                        println!("two opinions, the reader's {}: {}", good, crate::answer::hex(&bytes));
                    }
                }
            }
        }
    }
    println!("{} sheets, {} read, {} refused, {} wrong", sheets, read, sheets - read, wrong);
    wrong == 0
}

/// How many sheets of a kind are stored, and how large they may be.
fn stored(kind: &str, fate: Fate) -> (usize, usize) {
    match kind {
        "program" => (54, 2_500),
        "table" => (24, 1_000),
        "chain" => (12, 30_000),
        "wide" => (10, 10_000),
        "shared" => (12, 4_000),
        "full" => (2, 43_000),
        "long-names" => (5, 12_000),
        "types-too-many" => (5, 30_000),
        "elements-too-many" => (5, 10_000),
        "names-too-many" => (5, 10_000),
        "writer-slips" => (33, 1_200),
        "byte" | "word" | "noise-behind-header" => (20, 1_000),
        "type-unreachable" | "type-doubled" | "neighbours-swapped" | "name-byte" | "no-kind" => (12, 1_000),
        _ if fate == Read => (12, 2_500),
        "version" | "type-count" | "type-offset" | "element-count" | "element-offset" => (10, 800),
        "name-count" | "name-offset" | "text-count" | "text-offset" | "total" => (10, 800),
        _ => (7, 1_000),
    }
}

/// The stored list: sheets with their kinds.
pub fn stored_list(seed: u64) -> Vec<(&'static str, Vec<u8>)> {
    let mut list = Vec::new();
    let mut seen: HashSet<Vec<u8>> = HashSet::new();
    for kind in kinds() {
        let (wanted, largest) = stored(kind.0, kind.1);
        let mut found = 0;
        // Some kinds have only so many different sheets.
        for round in 0..100 * wanted as u64 {
            let made = of_kind(seed, kind, round);
            if found < wanted && made.bytes.len() <= largest && seen.insert(made.bytes.clone()) {
                list.push((made.kind, made.bytes));
                found += 1;
            }
            if found == wanted {
                break;
            }
        }
    }
    list
}

/// Writes the stored list, the reader's lines and each sheet's kind. A sheet on which the second opinion is
/// another is not stored but told.
pub fn write(seed: u64, folder: &Path) -> Result<String, String> {
    let list = stored_list(seed);
    let mut sheets: Vec<u8> = Vec::new();
    let mut answers: Vec<u8> = Vec::new();
    let mut notes = String::new();
    let mut read = 0;
    for (number, (kind, bytes)) in list.iter().enumerate() {
        let good = reader::read(bytes).is_some();
        if good != second::is_sheet(bytes) {
            return Err(format!("two opinions on sheet {}, {}", number, kind));
        }
        read += usize::from(good);
        batch::write(&mut sheets, bytes).map_err(|e| e.to_string())?;
        answers.extend(line(bytes, None));
        answers.push(b'\n');
        notes.push_str(&format!("{}\t{}\n", number, kind));
    }
    for (file, bytes) in
        [("sheets.batch", &sheets[..]), ("sheets-answers.txt", &answers[..]), ("sheets-notes.txt", notes.as_bytes())]
    {
        let path = folder.join(file);
        fs::write(&path, bytes).map_err(|e| format!("{}: {}", path.display(), e))?;
    }
    Ok(format!(
        "sheets.batch: {} sheets, {} bytes; {} read, {} refused\n",
        list.len(),
        sheets.len(),
        read,
        list.len() - read
    ))
}

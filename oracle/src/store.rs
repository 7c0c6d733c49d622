//! The stored list: images that cover every code, place rule and quirk, and T's answers.

use crate::answer::{has_second, Rooms, Setting};
use crate::batch;
use crate::convert;
use crate::generate::{self, calls, damage, limits};
use crate::image::kind::*;
use crate::judge::{self, Engine};
use crate::program::*;
use crate::source;
use std::collections::HashSet;
use std::fs;
use std::path::Path;

/// The rooms of the second, small list: its sheets and messages lie on both sides of them.
pub const TIGHT: Rooms = Rooms { sheet: 98, message: 69 };

/// Images with what they are about.
pub type List = Vec<(String, Vec<u8>)>;

/// A family, how many of its images are taken, and how large one may be: many small ones tell more than a few large ones, and a
/// reader can follow them.
type Draw = (&'static str, usize, usize);

const DRAWN: [Draw; 16] = [
    ("well", 40, 2_500),
    ("errors", 217, 900),
    ("small", 200, 700),
    ("chaos", 30, 2_000),
    ("merge", 110, 1_500),
    ("stray", 150, 900),
    ("returns", 130, 900),
    ("dropped", 130, 900),
    ("calls", 220, 600),
    ("types", 80, 1_200),
    ("sheets", 44, 2_000),
    ("deep", 22, 2_300),
    ("doubling", 14, 4_000),
    ("names", 200, 600),
    ("damaged", 170, 900),
    ("large", 1, 60_000),
];

/// Drawn behind all that stood before there were these families, so that each image keeps its number.
const DRAWN_LAST: Draw = ("bound", 60, 700);
const DRAWN_FIRST: Draw = ("first", 200, 620);
const DRAWN_RETIRED: Draw = ("treesets", 60, 900);

/// The list that a seed makes, without duplicates.
pub fn stored_list(seed: u64) -> List {
    let mut list = List::new();
    for (title, text) in generate::quirks() {
        list.push((format!("quirk: {}", title), generate::quirk(text).image()));
    }
    for (what, image) in limits::images() {
        list.push((format!("limit: {}", what), image));
    }
    tables(&mut list);
    damages(&mut list);
    // Lengths that wrap at 16, 32 and 64 bits come out small, and must not be taken for it.
    for (steps, end) in
        [(3, 0), (12, 1), (17, 0), (17, 4), (18, 10), (34, 0), (34, 2), (34, 5), (36, 10), (66, 0), (66, 12), (100, 4)]
            .iter()
    {
        let program = limits::doubled(*steps, 2, end % 4, *end);
        list.push((format!("doubling: {} steps, end {}", steps, end), program.image()));
    }
    DRAWN.iter().for_each(|draw| drawn(&mut list, seed, *draw));
    for (title, text) in generate::strict() {
        list.push((format!("strict: {}", title), generate::quirk(text).image()));
    }
    for (title, text) in generate::listed() {
        list.push((format!("bound: {}", title), generate::quirk(text).image()));
    }
    drawn(&mut list, seed, DRAWN_LAST);
    for (title, text) in generate::first_known() {
        list.push((format!("first: {}", title), generate::quirk(text).image()));
    }
    first_spans(&mut list);
    drawn_first(&mut list, seed, DRAWN_FIRST);
    for (title, text) in generate::retired() {
        list.push((format!("retired: {}", title), generate::quirk(text).image()));
    }
    retired_faults(&mut list);
    drawn(&mut list, seed, DRAWN_RETIRED);
    add_converted(&mut list);
    operations(&mut list);
    let mut seen: HashSet<Vec<u8>> = HashSet::new();
    list.retain(|(_, image)| seen.insert(image.clone()));
    list
}

/// With the TreeSets of before: what was stored stays as it is.
fn drawn(list: &mut List, seed: u64, (family, wanted, largest): Draw) {
    let images = (0..).map(|number| (number, generate::former(seed, family, number)));
    let small = images.filter(|(_, image)| image.len() <= largest).take(wanted);
    list.extend(small.map(|(number, image)| (format!("{} {}", family, number), image)));
}

/// As `drawn`, but only images that are refused with 25 or 23, plain or in strict.
fn drawn_first(list: &mut List, seed: u64, (family, wanted, largest): Draw) {
    let images = (0..).map(|number| (number, generate::image(seed, family, number)));
    let told = |image: &[u8], setting: Setting| has_second(judge::judge(image, setting, Rooms::default()).answer.code);
    let small = images
        .filter(|(_, image)| image.len() <= largest && (told(image, Setting::Plain) || told(image, Setting::Strict)));
    list.extend(small.take(wanted).map(|(number, image)| (format!("{} {}", family, number), image)));
}

/// Behind all images the converted ones of those with TreeSets, whose answers are T's to these from before the retirement.
fn add_converted(list: &mut List) {
    let retired = |image: &[u8]| judge::judge(image, Setting::Plain, Rooms::default()).answer.code == 14;
    let with_tree_sets = list.iter().filter(|(_, image)| retired(image));
    let converted = with_tree_sets.map(|(what, image)| {
        let converted = convert::converted(image).expect("it is well formed");
        (format!("converted: {}", what), converted)
    });
    let converted: List = converted.collect();
    list.extend(converted);
}

/// TreeSets beside each fault of an image, which comes before 14.
fn retired_faults(list: &mut List) {
    let base = source::parse("@len exactly 1\nx = t{len}\ny = [x]").expect("it is a program").image();
    let (names_at, nodes_at) = (word(&base, 8) as usize, word(&base, 16) as usize);
    let second = names_at + 20;
    let (root, tree, last) = (nodes_at, nodes_at + 24 * 3, nodes_at + 24 * 8);
    for (what, at, value) in [
        ("a 1", 0, 2),
        ("a 2", 4, 129),
        ("a 3", 28, 1),
        ("a 4 of the last name", second + 20 + 8, 5),
        ("a 5", names_at + 12, 0),
        ("a 6 of the node itself", tree + 4, 1),
        ("a 6 of a later node", last + 4, 3),
        ("a 7 of the node itself", tree + 8, 2),
        ("a 7 of an earlier node", root + 8, 1),
    ]
    .iter()
    {
        let mut changed = base.clone();
        changed[*at..*at + 4].copy_from_slice(&u32::to_le_bytes(*value));
        list.push((format!("retired: {} before 14", what), changed));
    }
    let nested = |kind: u32, depth: usize| (1..depth).fold(simple(kind), |inner, _| Item::new(kind, 0, vec![inner]));
    let mut add = |what: String, body: Vec<Item>| {
        let program = Program { body, ..Program::new() };
        list.push((format!("retired: {}", what), program.image()));
    };
    for depth in [64, 65].iter() {
        add(format!("TreeSets down to depth {}", depth), vec![expr(nested(TREE_SET, depth - 2))]);
        add(format!("a TreeSet behind depth {}", depth), vec![expr(nested(LIST, depth - 2)), expr(simple(TREE_SET))]);
    }
    add("a TreeSet as a statement".to_string(), vec![simple(PASS), simple(TREE_SET)]);
}

/// Spans are carried unread, so the second one may be any two words.
fn first_spans(list: &mut List) {
    for (text, node) in
        [("x = 1\nx = \"s\"", 2), ("for i in [1]: i = \"s\"", 2), ("if True: x = 1\nelse: x = \"s\"", 5)].iter()
    {
        let image = source::parse(text).expect("it is a program").image();
        let nodes_at = word(&image, 16) as usize;
        for (start, end) in [(0, 0), (9, 3), (0, u32::MAX), (u32::MAX, 0), (1 << 31, (1 << 31) + 1)].iter() {
            let mut changed = image.clone();
            let at = nodes_at + 24 * node + 16;
            changed[at..at + 4].copy_from_slice(&u32::to_le_bytes(*start));
            changed[at + 4..at + 8].copy_from_slice(&u32::to_le_bytes(*end));
            list.push((format!("first: the span of node {} is {},{}; {}", node, start, end, text), changed));
        }
    }
}

/// An operand of each kind, in the order of kinds.
const OF_EACH_KIND: [usize; 13] = [0, 1, 2, 3, 4, 5, 6, 7, 8, 10, 12, 15, 16];

/// Every operator on every pair of kinds, and everything that takes one operand on every operand.
fn tables(list: &mut List) {
    for (i, left) in OF_EACH_KIND.iter().enumerate() {
        for (j, right) in OF_EACH_KIND.iter().enumerate() {
            let program = calls::operator_program(*left, *right);
            list.push((format!("operators: {} and {}", left, right), program.image()));
            // Of each code's operators one in turn, for its message.
            let op = [[0; 4], [2; 4], [1, 3, 4, 5], [6, 7, 6, 7], [8, 9, 10, 11]][(i + 2 * j) % 5][j % 4];
            let program = calls::operation(op, *left, *right);
            list.push((format!("operator {}: {} and {}", op, left, right), program.image()));
        }
    }
    // Types that differ inside.
    for (left, right) in
        [(8, 9), (9, 8), (10, 11), (11, 10), (12, 13), (13, 14), (14, 12), (16, 17), (17, 16), (8, 18)].iter()
    {
        for op in [0, 6].iter() {
            let program = calls::operation(*op, *left, *right);
            list.push((format!("operator {}: {} and {}", op, left, right), program.image()));
        }
    }
    for which in 0..calls::OPERANDS {
        list.push((format!("operand {}", which), calls::operand_program(which).image()));
        for thing in 0..calls::things() {
            list.push((format!("operand {}, thing {}", which, thing), calls::operand_alone(which, thing).image()));
        }
        for other in [INT, STRING].iter() {
            let program = calls::element_program(which, *other);
            list.push((format!("element of operand {}, assigned {}", which, other), program.image()));
        }
    }
}

/// Each operator on each pair of kinds by itself, both ways round: what it gives, or how it is refused, and which operand the
/// message names first.
fn operations(list: &mut List) {
    for op in 0..14 {
        for left in OF_EACH_KIND.iter() {
            for right in OF_EACH_KIND.iter() {
                let program = calls::operation_kept(op, *left, *right);
                list.push((format!("operator {} kept: {} and {}", op, left, right), program.image()));
            }
        }
    }
}

/// A program for each node kind, with no more around it than it needs.
fn kind_program(kind: u32) -> Program {
    let mut program = Program::new();
    let (f, x) = (program.name("f"), program.name("x"));
    program.role("f", 4, 1, 0);
    let int = || literal(INT);
    let statement = match kind {
        BREAK | CONTINUE => for_loop(x, variable(f), vec![simple(kind)]),
        PASS | CLASS => simple(kind),
        ASSIGN | VARIABLE => assign(variable(x), int()),
        EXPR | LITERAL => expr(int()),
        RETURN => returned(int()),
        IF => if_else(vec![(literal(BOOL), vec![]), (literal(BOOL), vec![])], Some(vec![simple(PASS)])),
        WHILE => while_loop(literal(BOOL), vec![simple(PASS)]),
        FOR => for_loop(x, list(vec![]), vec![]),
        DEF | PARAM | BLOCK => def(f, &[x], vec![simple(PASS)]),
        UNARY => expr(unary(1, int())),
        BINARY => expr(binary(0, int(), int())),
        CALL => expr(call(variable(f), vec![int()])),
        ATTRIBUTE => expr(attribute(int())),
        DICT => expr(dict(vec![int(), int()])),
        INDEX => expr(index(list(vec![int()]), int())),
        LAMBDA => expr(lambda()),
        _ => expr(Item::new(kind, 0, vec![int(), int()])),
    };
    program.body = vec![statement];
    program
}

fn word(bytes: &[u8], at: usize) -> u32 {
    u32::from_le_bytes([bytes[at], bytes[at + 1], bytes[at + 2], bytes[at + 3]])
}

/// Each header word, and each field of each record kind, changed in all the ways that matter.
fn damages(list: &mut List) {
    let base = source::parse("@f takes 1\nx = f(1)\nz = x").expect("it is a program").image();
    let around = |old: u32| {
        // The last two have the low byte, or the low half, of the right value.
        let mut values = vec![old.wrapping_add(1), old.wrapping_sub(1), 0, 1, u32::MAX, old ^ 0x100, old ^ 0x1_0000];
        values.retain(|value| *value != old);
        values.sort_unstable();
        values.dedup();
        values
    };
    let with = |bytes: &[u8], at: usize, value: u32| {
        let mut changed = bytes.to_vec();
        changed[at..at + 4].copy_from_slice(&value.to_le_bytes());
        changed
    };
    for field in 0..8 {
        for value in around(word(&base, 4 * field)) {
            list.push((format!("header word {} is {}", field, value), with(&base, 4 * field, value)));
        }
    }
    let names = word(&base, 4) as usize;
    for name in 0..names {
        for field in 0..5 {
            let at = 32 + 20 * name + 4 * field;
            for value in around(word(&base, at)) {
                let image = with(&base, at, value);
                list.push((format!("field {} of name {} is {}", field, name, value), image));
            }
        }
    }
    for kind in (BREAK..=PARAM).chain(LITERAL..=LAMBDA) {
        let good = kind_program(kind).image();
        let nodes_at = word(&good, 16) as usize;
        let records = good[nodes_at..word(&good, 24) as usize].chunks(24);
        let node = records.clone().position(|record| word(record, 0) == kind).expect("the kind is there");
        // A Block of its own, not the module's.
        let node = if kind == BLOCK { records.clone().count() - 2 } else { node };
        for field in 0..6 {
            let at = nodes_at + 24 * node + 4 * field;
            let values = match field {
                // Any word does for a span.
                4 | 5 => vec![0, 1, u32::MAX],
                // Beside the neighbours, numbers that are no kind.
                0 => [&around(kind)[..], &[14, 19, 33]].concat(),
                _ => around(word(&good, at)),
            };
            for value in values {
                let image = with(&good, at, value);
                list.push((format!("field {} of a node of kind {} is {}", field, kind, value), image));
            }
        }
    }
    // Two things wrong: which comes first.
    for (what, first, second) in [
        ("a later 4 before a 5", 32 + 20, 32 + 8),
        ("a 6 before a 7", 92 + 24 * 2 + 12, 92 + 24 * 5),
        ("the lower of two 6", 92 + 24 * 4 + 8, 92 + 24 * 6 + 8),
        ("a 4 before a 6", 92 + 24 * 3, 32 + 40),
        ("a 2 before a 3", 4, 28),
        ("a 3 before a 4", 24, 32 + 12),
    ]
    .iter()
    {
        let once = with(&base, *first, u32::MAX);
        list.push((what.to_string(), with(&once, *second, 99)));
    }
    let mut order = orders();
    list.append(&mut order);
    for length in (0..base.len()).step_by(9) {
        list.push((format!("cut to {} bytes", length), base[..length].to_vec()));
    }
    for more in [1, 4, 24].iter() {
        list.push((format!("{} bytes more", more), [&base[..], &vec![0; *more][..]].concat()));
    }
    let texts_at = word(&base, 24) as usize;
    for byte in [0, 10, 31, 32, 33, 34, 126, 127, 128, 255].iter() {
        let mut changed = base.clone();
        changed[texts_at + 2] = *byte;
        list.push((format!("byte {} in a name", byte), changed));
    }
    let mut random = crate::random::Random::new(7);
    for number in 0..24 {
        list.push((format!("damage {}", number), damage::damaged(&base, number, &mut random)));
    }
}

/// Images in which several refusals meet, and shapes of trees that have no business.
fn orders() -> List {
    let mut list = List::new();
    let mut add = |what: &str, names: &[u32], nodes: &[[u32; 6]], texts: &[u8]| {
        list.push((what.to_string(), lay_out(names, &nodes.concat(), texts)));
    };
    let root = |children: u32, end: u32| [BLOCK, 0, children, end, 0, 0];
    let lambda = |end: u32| [LAMBDA, 0, 0, end, 0, 0];
    add("5 of name 0 and 4 of name 1", &[0, 3, 3, 0, 0, 3, 1, 9, 0, 0], &[root(0, 1)], b"intx");
    add("5 of name 0 and texts that stop short", &[0, 3, 3, 0, 0], &[root(0, 1)], b"intx");
    add("5 of names 0 and 1", &[0, 3, 3, 0, 0, 3, 3, 3, 0, 0], &[root(0, 1)], b"intlen");
    add("5 and 6", &[0, 3, 3, 0, 0], &[[99, 0, 0, 1, 0, 0]], b"int");
    add("no names and text", &[], &[root(0, 1)], b"x");
    add("two names and more text", &[0, 1, 0, 0, 0, 1, 1, 0, 0, 0], &[root(0, 1)], b"xyz");
    add("a text past the area", &[0, 1, 0, 0, 0, 1, 2, 0, 0, 0], &[root(0, 1)], b"xy");
    add("equal neighbours", &[0, 1, 0, 0, 0, 1, 1, 0, 0, 0], &[root(0, 1)], b"xx");
    add("descending neighbours", &[0, 1, 0, 0, 0, 1, 1, 0, 0, 0], &[root(0, 1)], b"yx");
    add("a long name before a short one", &[0, 2, 0, 0, 0, 2, 1, 0, 0, 0], &[root(0, 1)], b"aab");
    add("a short name before a long one", &[0, 1, 0, 0, 0, 1, 2, 0, 0, 0], &[root(0, 1)], b"aab");
    add("an empty name", &[0, 0, 0, 0, 0], &[root(0, 1)], b"");
    add("an empty name before another", &[0, 0, 0, 0, 0, 0, 1, 0, 0, 0], &[root(0, 1)], b"x");
    add("text starts that overlap", &[0, 2, 0, 0, 0, 1, 2, 0, 0, 0], &[root(0, 1)], b"xyz");
    add("text starts in the image", &[76, 1, 0, 0, 0], &[root(0, 1)], b"x");
    add("a space in a name", &[0, 3, 0, 0, 0], &[root(0, 1)], b"a b");
    add("a name that is a space", &[0, 1, 0, 0, 0], &[root(0, 1)], b" ");
    add("byte 127 in a name", &[0, 2, 0, 0, 0], &[root(0, 1)], b"a\x7f");
    add("byte 128 in a name", &[0, 2, 0, 0, 0], &[root(0, 1)], b"a\x80");
    add("bytes 33 and 126 in a name", &[0, 2, 0, 0, 0], &[root(0, 1)], b"!~");
    add("node 0 is a Pass", &[], &[[PASS, 0, 0, 1, 0, 0]], b"");
    add("node 0 is a Pass with a wrong child", &[], &[[PASS, 0, 0, 2, 0, 0], [PASS, 0, 0, 2, 0, 0]], b"");
    add("node 0 ends before M", &[], &[root(0, 1), [PASS, 0, 0, 2, 0, 0]], b"");
    add("node 0 has a child too few", &[], &[root(0, 2), [PASS, 0, 0, 2, 0, 0]], b"");
    add("node 0 has a child too many", &[], &[root(2, 2), [PASS, 0, 0, 2, 0, 0]], b"");
    add("a child count far above", &[], &[root(u32::MAX, 2), [PASS, 0, 0, 2, 0, 0]], b"");
    add("a leaf that ends late", &[], &[root(1, 3), [PASS, 0, 0, 3, 0, 0], [PASS, 0, 0, 3, 0, 0]], b"");
    add("a leaf that ends past M", &[], &[root(1, 2), [PASS, 0, 0, 3, 0, 0]], b"");
    add("a leaf that ends at itself", &[], &[root(1, 2), [PASS, 0, 0, 1, 0, 0]], b"");
    add("a Block in a Block", &[], &[root(1, 2), root(0, 2)], b"");
    add(
        "a Block in a Def's Block",
        &[0, 1, 0, 0, 0],
        &[root(1, 4), [DEF, 0, 1, 4, 0, 0], root(1, 4), root(0, 4)],
        b"x",
    );
    add("node 0 ends before an Expr", &[], &[root(1, 2), [PASS, 0, 0, 2, 0, 0], [EXPR, 0, 1, 4, 0, 0], lambda(4)], b"");
    add("an expression in a Block", &[], &[root(1, 2), [LAMBDA, 0, 0, 2, 0, 0]], b"");
    add("a Param in a Block", &[0, 1, 0, 0, 0], &[root(1, 2), [PARAM, 0, 0, 2, 0, 0]], b"x");
    add("a statement in an Expr", &[], &[root(1, 3), [EXPR, 0, 1, 3, 0, 0], [PASS, 0, 0, 3, 0, 0]], b"");
    add("a Block in an Expr", &[], &[root(1, 3), [EXPR, 0, 1, 3, 0, 0], root(0, 3)], b"");
    add("an If whose body is an expression", &[], &[root(1, 4), [IF, 0, 2, 4, 0, 0], lambda(3), lambda(4)], b"");
    add(
        "an If whose else is an expression",
        &[],
        &[root(1, 5), [IF, 0, 3, 5, 0, 0], lambda(3), root(0, 4), lambda(5)],
        b"",
    );
    let conditions = [root(1, 6), [IF, 0, 4, 6, 0, 0], lambda(3), root(0, 4), root(0, 5), root(0, 6)];
    add("an If whose elif condition is a Block", &[], &conditions, b"");
    add("an If whose condition is a Block", &[], &[root(1, 4), [IF, 0, 2, 4, 0, 0], root(0, 3), root(0, 4)], b"");
    add("a While whose body is an expression", &[], &[root(1, 4), [WHILE, 0, 2, 4, 0, 0], lambda(3), lambda(4)], b"");
    add(
        "a For whose iterable is a Block",
        &[0, 1, 0, 0, 0],
        &[root(1, 4), [FOR, 0, 2, 4, 0, 0], root(0, 3), root(0, 4)],
        b"x",
    );
    let def_shapes = [root(1, 4), [DEF, 0, 2, 4, 0, 0], root(0, 3), [PARAM, 0, 0, 4, 0, 0]];
    add("a Def whose Block comes first", &[0, 1, 0, 0, 0], &def_shapes, b"x");
    add("a Def of two Blocks", &[0, 1, 0, 0, 0], &[root(1, 4), [DEF, 0, 2, 4, 0, 0], root(0, 3), root(0, 4)], b"x");
    add(
        "a Def with an expression for a Param",
        &[0, 1, 0, 0, 0],
        &[root(1, 4), [DEF, 0, 2, 4, 0, 0], lambda(3), root(0, 4)],
        b"x",
    );
    add("a Def whose name is N", &[0, 1, 0, 0, 0], &[root(1, 3), [DEF, 1, 1, 3, 0, 0], root(0, 3)], b"x");
    let overlap = [root(1, 5), [BINARY, 0, 2, 5, 0, 0], [UNARY, 0, 1, 5, 0, 0], lambda(4), lambda(5)];
    add("a Binary in a Block with children that overlap", &[], &overlap, b"");
    let late = [root(1, 5), [EXPR, 0, 1, 5, 0, 0], [BINARY, 0, 2, 5, 0, 0], [UNARY, 1, 1, 5, 0, 0], lambda(5)];
    add("a Binary whose second child is its first's", &[], &late, b"");
    let past = [root(2, 5), [EXPR, 0, 1, 4, 0, 0], [UNARY, 1, 1, 5, 0, 0], lambda(4), [PASS, 0, 0, 5, 0, 0]];
    add("a child that ends behind its parent", &[], &past, b"");
    let six_seven = [root(2, 3), [EXPR, 0, 1, 2, 0, 0], [PASS, 1, 0, 3, 0, 0]];
    add("a 7 at node 1 and a 6 at node 2", &[], &six_seven, b"");
    let two_six = [root(2, 3), [PASS, 1, 0, 2, 0, 0], [PASS, 2, 0, 3, 0, 0]];
    add("6 at nodes 1 and 2", &[], &two_six, b"");

    // 7 behind 8: depth 65 at a low node, and a fault of nesting at a higher one.
    let mut deep: Vec<[u32; 6]> = vec![root(2, 67), [EXPR, 0, 1, 66, 0, 0]];
    deep.extend((2..65).map(|_| [LIST, 0, 1, 66, 0, 0]));
    deep.push(lambda(66));
    deep.push(lambda(67));
    add("8 at node 65 and 7 at node 0", &[], &deep, b"");
    let mut deep: Vec<[u32; 6]> = vec![root(2, 69), [EXPR, 0, 1, 66, 0, 0]];
    deep.extend((2..65).map(|_| [LIST, 0, 1, 66, 0, 0]));
    deep.extend([lambda(66), [EXPR, 0, 1, 69, 0, 0], lambda(68), lambda(69)].iter());
    add("8 at node 65 and 7 at node 66", &[], &deep, b"");
    list
}

/// Accepted programs and refusals whose sheets and messages lie on both sides of the tight rooms.
pub fn tight_list() -> List {
    let mut texts: Vec<String> = [
        "",
        "x = 1",
        "p = (1, [2.0])\nq = [2.0]",
        "p = (1, [2.0])\nqq = [2.0]",
        "p = (1, [2.0])\nq = [2.0]\nr = 1",
        "a = 1\nb = 2\nc = 3\nd = 4",
        "abcdef = 1\nb = 2\nc = 3\nd = 4",
        "abcdefg = 1\nb = 2\nc = 3\nd = 4",
        "abcdefgh = 1\nb = 2\nc = 3\nd = 4",
        "x = 1\nx = \"a\"",
        "x = 1\nx = None",
        "x = 1\nx = True",
        "x = 1\nx = 1.0",
        "x = \"a\"\nx = 1",
        "x = [1]\nx = 1",
        "break",
        "if 1: pass",
        "-[[1]]",
        "len()",
        "def a():\n  def b():\n    def c():\n      def d():\n        def e():\n          def f():\n            def g():\n              def h(): pass",
    ]
    .iter()
    .map(|text| text.to_string())
    .collect();
    // 23's message is 61 bytes and the name.
    for length in 5..12 {
        let name = "n".repeat(length);
        texts.push(format!("if True: {} = 1\nelse: {} = \"a\"", name, name));
    }
    // The frame's names alone would have room in all of these.
    for text in [
        "for i in [1]: pass",
        "a = 1\nb = 2\nc = 3\nfor abcdefg in u: pass",
        "a = 1\nb = 2\nc = 3\nfor abcdefgh in u: pass",
        "if True: (a, (b, c), d, e) = u",
    ] {
        texts.push(text.to_string());
    }
    // Second spans, with and without their messages.
    for text in [
        "x = u\nx = 1\nx = 2.0",
        "x = u\nx = 1\nx = (3, 4)",
        "for i in [1]: i = \"s\"",
        "for i in [1]: i = 2.0",
        "(x, x) = (1.0, \"s\")",
        "if True: nnnnnnnn = u\nelif True: nnnnnnnn = 1\nelse: nnnnnnnn = \"a\"",
        "if True: nnnnnnnnn = u\nelif True: nnnnnnnnn = 1\nelse: nnnnnnnnn = \"a\"",
    ] {
        texts.push(text.to_string());
    }
    let image = |text: &str| source::parse(text).expect("it is a program").image();
    let mut list: List = texts.into_iter().map(|text| (text.clone(), image(&text))).collect();
    // Neither sheet nor message is asked about: 14 comes before 10.
    for text in [
        "p = (1, [2.0])\nq = [2.0]\nr = t{1}",
        "p = (1, [2.0])\nq = t{2.0}",
        "x = [t{1}]\nx = (t{2}, 1.0)",
        "x = 1\nx = {2: t{3}}",
        "if True: nnnnnnnn = 1\nelse: nnnnnnnn = [t{}]",
    ] {
        list.push((text.to_string(), image(text)));
    }
    add_converted(&mut list);
    list
}

/// Writes the two lists, T's answers to them, plain and for the first strict too, and notes of what each image is about and who
/// judged it.
pub fn write(seed: u64, folder: &Path) -> Result<String, String> {
    let mut report = String::new();
    for (name, list, rooms) in [("", stored_list(seed), Rooms::default()), ("tight-", tight_list(), TIGHT)].iter() {
        let mut images: Vec<u8> = Vec::new();
        let mut answers: Vec<u8> = Vec::new();
        let mut notes = String::new();
        let mut too_large = 0;
        let mut codes: std::collections::BTreeMap<u32, usize> = std::collections::BTreeMap::new();
        for (number, (what, image)) in list.iter().enumerate() {
            let judged = judge::judge(image, Setting::Plain, *rooms);
            batch::write(&mut images, image).map_err(|e| e.to_string())?;
            answers.extend(judged.answer.line());
            answers.push(b'\n');
            if judged.engine == Engine::TooLarge {
                too_large += 1;
            }
            *codes.entry(judged.answer.code).or_insert(0) += 1;
            notes.push_str(&format!("{}\t{}\t{}\n", number, judged.engine.name(), what.replace('\n', "; ")));
        }
        let put = |file: &str, bytes: &[u8]| {
            let path = folder.join(format!("{}{}", name, file));
            fs::write(&path, bytes).map_err(|e| format!("{}: {}", path.display(), e))
        };
        put("images.batch", &images)?;
        put("answers.txt", &answers)?;
        put("notes.txt", notes.as_bytes())?;
        report.push_str(&format!(
            "{}images.batch: {} images, {} bytes; answers {} bytes; notes {} bytes; {} too large for T; rooms {} and {}\n  codes: {}\n",
            name,
            list.len(),
            images.len(),
            answers.len(),
            notes.len(),
            too_large,
            rooms.sheet,
            rooms.message,
            codes.iter().map(|(code, count)| format!("{}:{}", code, count)).collect::<Vec<String>>().join(" ")
        ));
    }
    report.push_str(&write_strict(seed, folder)?);
    Ok(report)
}

/// The strict answers to the first list.
fn write_strict(seed: u64, folder: &Path) -> Result<String, String> {
    let mut answers: Vec<u8> = Vec::new();
    let mut differ = 0;
    for (_, image) in stored_list(seed) {
        let line = judge::judge(&image, Setting::Strict, Rooms::default()).answer.line();
        if line != judge::judge(&image, Setting::Plain, Rooms::default()).answer.line() {
            differ += 1;
        }
        answers.extend(line);
        answers.push(b'\n');
    }
    let path = folder.join("strict-answers.txt");
    fs::write(&path, &answers).map_err(|e| format!("{}: {}", path.display(), e))?;
    Ok(format!("strict-answers.txt: {} bytes; {} answers differ from plain's\n", answers.len(), differ))
}

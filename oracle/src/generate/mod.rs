//! The generator: families of images, each image a function of the seed, the family and its number.

pub mod bound;
pub mod calls;
pub mod damage;
pub mod errors;
pub mod first;
pub mod grow;
pub mod limits;
pub mod soup;
pub mod treesets;

use crate::convert;
use crate::image::kind::*;
use crate::program::*;
use crate::random::Random;
use crate::source;
use grow::{Grower, Habits};

/// The families, with what they are for.
pub const FAMILIES: [(&str, &str); 21] = [
    ("well", "mostly accepted, of all sizes up to 2,048 nodes and 128 names"),
    ("errors", "aimed at each code 20 to 50 in turn"),
    ("small", "a few nodes over a few names, anything in them"),
    ("chaos", "anything, of middling size"),
    ("large", "near 2,048 nodes, with few errors or many dropped ones"),
    ("quirks", "the written list of quirks.txt, round and round"),
    ("merge", "Ifs in Ifs over few names: what is committed, and 23"),
    ("stray", "failing Defs in bodies that drop errors"),
    ("returns", "returns in all kinds of bodies"),
    ("dropped", "unpacking and errors in bodies that drop them"),
    ("calls", "every role, arity and argument of calls"),
    ("types", "operators, displays, indexing and unpacking over all types"),
    ("sheets", "many structured types, accepted"),
    ("deep", "nested and failing Defs around the ninth frame, and nodes around depth 64"),
    ("doubling", "shared tuples whose text doubles"),
    ("limits", "every limit from both sides, round and round"),
    ("names", "name records right and wrong: codes 4 and 5"),
    ("damaged", "copies of good images with one thing wrong: codes 1 to 8"),
    ("bound", "names that bodies alone bind, and targets of every form: what the sheet lists"),
    ("first", "few names assigned again and again: 25 and 23, and which node first made a type known"),
    (TREESETS, "TreeSets wherever an expression may stand, beside words of 30 that are no kind: 14"),
];

/// The only family of which well-formed images have TreeSets.
const TREESETS: &str = "treesets";

/// The written quirks: a title, and the program's text.
pub fn quirks() -> Vec<(&'static str, &'static str)> {
    written(include_str!("quirks.txt"))
}

/// What strict makes visible: the loop flag, and that a body's error comes at once.
pub fn strict() -> Vec<(&'static str, &'static str)> {
    written(include_str!("strict.txt"))
}

/// What the sheet lists besides the module frame's names, and what it does not.
pub fn listed() -> Vec<(&'static str, &'static str)> {
    written(include_str!("bound.txt"))
}

/// Which node first made a type known: document 02's first request, sentence by sentence, under the numbers of what
/// README.md says of it.
pub fn first_known() -> Vec<(&'static str, &'static str)> {
    written(include_str!("first.txt"))
}

/// Where TreeSets stand, which are retired.
pub fn retired() -> Vec<(&'static str, &'static str)> {
    written(include_str!("treesets.txt"))
}

fn written(texts: &'static str) -> Vec<(&'static str, &'static str)> {
    texts
        .split("---\n")
        .map(|part| {
            let (title, text) = part.split_at(part.find('\n').map_or(part.len(), |end| end + 1));
            (title.trim_start_matches('#').trim(), text)
        })
        .collect()
}

pub fn quirk(text: &str) -> Program {
    source::parse(text).unwrap_or_else(|why| panic!("{}\nin:\n{}", why, text))
}

thread_local! {
    // Made once: the families go round and round.
    static QUIRKS: Vec<Vec<u8>> = quirks().iter().map(|(_, text)| quirk(text).image()).collect();
    static LIMITS: Vec<(String, Vec<u8>)> = limits::images();
}

/// Image number `number` of a family: as it was made before TreeSets were retired, but for these, which are Sets now. What is
/// not well formed stays, and so do the TreeSets of the family that is made for them.
pub fn image(seed: u64, family: &str, number: u64) -> Vec<u8> {
    let made = former(seed, family, number);
    match convert::converted(&made) {
        Some(converted) if family != TREESETS => converted,
        _ => made,
    }
}

/// The same with TreeSets, as the stored list has them from before.
pub fn former(seed: u64, family: &str, number: u64) -> Vec<u8> {
    let mut random = Random::of(seed, family, number);
    match family {
        "well" => well(random).image(),
        "errors" => errors::program(number, random).image(),
        "small" => small(random).image(),
        "chaos" => chaos(random).image(),
        "large" => large(random).image(),
        "quirks" => QUIRKS.with(|all| all[number as usize % all.len()].clone()),
        "merge" => soup::program(random, soup::MERGE).image(),
        "stray" => soup::program(random, soup::STRAY).image(),
        "returns" => soup::program(random, soup::RETURNS).image(),
        "dropped" => soup::program(random, soup::DROPPED).image(),
        "calls" => calls::call_program(random).image(),
        "types" => calls::type_program(random).image(),
        "sheets" => sheets(random).image(),
        "deep" => deep(random).image(),
        "doubling" => limits::doubling(random).image(),
        "limits" => LIMITS.with(|all| all[number as usize % all.len()].1.clone()),
        "names" => limits::name_table(random),
        "damaged" => {
            let good = match random.below(4) {
                0 => well(random.clone()),
                1 => soup::program(random.clone(), soup::DROPPED),
                _ => small(random.clone()),
            };
            random.next();
            damage::damaged(&good.image(), number, &mut random)
        }
        "bound" => bound::program(random).image(),
        "first" => first::program(random).image(),
        TREESETS => treesets::image(number, random),
        other => panic!("no family {}", other),
    }
}

fn well(mut random: Random) -> Program {
    // Mostly small, now and then as large as an image can be.
    let nodes = match random.below(20) {
        0 => 2040,
        1 | 2 => random.within(300, 1000),
        3..=8 => random.within(60, 300),
        _ => random.within(4, 60),
    };
    let names = match random.below(10) {
        0 => 112,
        1..=3 => random.within(10, 60),
        _ => random.within(1, 8),
    };
    let habits = Habits { nodes, names, chaos: 0, nesting: 25, levels: 4, odd_roles: false };
    fitting(random, habits)
}

fn small(mut random: Random) -> Program {
    let chaos = *random.pick(&[0, 10, 40, 80]);
    let habits = Habits {
        nodes: random.within(1, 14),
        names: random.within(1, 3),
        chaos,
        nesting: 45,
        levels: 3,
        odd_roles: random.chance(50),
    };
    fitting(random, habits)
}

fn chaos(mut random: Random) -> Program {
    let chaos = *random.pick(&[4, 15, 50]);
    let habits = Habits {
        nodes: random.within(10, 200),
        names: random.within(2, 9),
        chaos,
        nesting: 40,
        levels: 5,
        odd_roles: random.chance(30),
    };
    let goes_on = random.chance(60);
    let program = fitting(random, habits);
    // Most errors would end it early: let it go on in a body that drops them.
    if goes_on {
        dropped_at_module(program)
    } else {
        program
    }
}

fn large(mut random: Random) -> Program {
    let chaos = *random.pick(&[0, 0, 10, 30]);
    let habits = Habits { nodes: 2040, names: 112, chaos, nesting: 20, levels: 5, odd_roles: false };
    let program = fitting(random, habits);
    if chaos > 0 {
        dropped_at_module(program)
    } else {
        program
    }
}

/// The same statements, but in an If at module level.
fn dropped_at_module(mut program: Program) -> Program {
    let mut body = std::mem::take(&mut program.body);
    // An If, a condition and a Block are added.
    while 4 + body.iter().map(Item::size).sum::<usize>() > crate::image::NODES as usize {
        body.pop();
    }
    program.body = vec![if_else(vec![(literal(BOOL), body)], None)];
    program
}

/// Names of structured types, built from literals and from each other in any order.
fn sheets(mut random: Random) -> Program {
    let mut program = Program::new();
    let count = random.within(1, *random.clone().pick(&[6, 20, 90]));
    let mut order: Vec<usize> = (0..count).collect();
    for i in (1..count).rev() {
        order.swap(i, random.below(i + 1));
    }
    let filter = program.role("filter", 2, 2, 2);
    let map = program.role("map", 2, 2, 2);
    let mut made: Vec<u32> = Vec::new();
    let mut body: Vec<Item> = Vec::new();
    for place in order {
        let name = program.name(&format!("n{:02}", place));
        let part = |random: &mut Random| match random.below(8) {
            0..=3 if !made.is_empty() => variable(*random.pick(&made)),
            4 => literal(random.below(5) as u32),
            5 => list(vec![literal(random.below(5) as u32)]),
            6 => tuple(vec![]),
            _ => literal(INT),
        };
        let value = match random.below(9) {
            0 | 1 => list(vec![part(&mut random)]),
            2 => dict(vec![part(&mut random), part(&mut random)]),
            3 => call(variable(filter), vec![lambda(), list(vec![part(&mut random)])]),
            4 => call(variable(map), vec![lambda(), literal(STRING)]),
            5 => part(&mut random),
            _ => tuple((0..random.below(5)).map(|_| part(&mut random)).collect()),
        };
        body.push(assign(variable(name), value));
        made.push(name);
    }
    program.body = body;
    program
}

/// A program that keeps the image's limits: one that outgrew them loses its last statements. Mostly without
/// names that it does not use.
pub fn fitting(mut random: Random, habits: Habits) -> Program {
    let pruned = random.chance(80);
    let mut program = Grower::new(random, habits).grow();
    while program.size() > crate::image::NODES as usize {
        program.body.pop();
    }
    if pruned {
        program.prune();
    }
    program
}

/// Defs inside each other and beside each other, failing or not, in bodies that drop errors or don't.
fn deep(mut random: Random) -> Program {
    let mut program = Program::new();
    let f = program.name("f");
    let x = program.name("x");
    if random.chance(30) {
        return deep_expression(random, program, x);
    }
    let depth = random.within(5, 9);
    let mut body = deep_body(&mut random, f, x, 0);
    for level in 0..depth {
        if random.chance(25) {
            let (condition, beside) = (literal(BOOL), deep_body(&mut random, f, x, level));
            body = vec![if_else(vec![(condition, body)], Some(beside))];
        }
        if random.chance(15) {
            body = vec![for_loop(x, list(vec![literal(INT)]), body)];
        }
        let mut around = deep_body(&mut random, f, x, level);
        around.push(def(f, &[x], body));
        if random.chance(30) {
            around.push(deep_fault(&mut random));
        }
        body = around;
    }
    if random.chance(50) {
        body = vec![if_else(vec![(literal(BOOL), body)], None)];
    }
    program.body = body;
    program
}

fn deep_fault(random: &mut Random) -> Item {
    match random.below(3) {
        0 => simple(BREAK),
        1 => expr(binary(0, literal(INT), literal(STRING))),
        _ => expr(unary(1, literal(STRING))),
    }
}

/// A few statements, among them failing Defs in an If.
fn deep_body(random: &mut Random, f: u32, x: u32, level: usize) -> Vec<Item> {
    let mut body = Vec::new();
    for _ in 0..random.below(3) {
        body.push(match random.below(5) {
            0 => assign(variable(x), literal(*random.pick(&[INT, STRING]))),
            1 => {
                let strays = random.within(1, 8);
                let failing = (0..strays).map(|_| def(f, &[x], vec![simple(BREAK)])).collect();
                if_else(vec![(literal(BOOL), failing)], None)
            }
            2 if level > 0 => returned(literal(*random.pick(&[INT, STRING]))),
            3 => while_loop(literal(BOOL), vec![def(f, &[], vec![deep_fault(random)])]),
            _ => simple(PASS),
        });
    }
    body
}

/// An expression or nest of statements that reaches about depth 64.
fn deep_expression(mut random: Random, mut program: Program, x: u32) -> Program {
    // Block, Expr and the innermost leaf are three of them.
    let wanted = random.within(60, 66);
    let mut inner = literal(*random.pick(&[BOOL, INT]));
    for _ in 0..wanted - 3 {
        inner = match random.below(5) {
            0 => unary(random.below(3) as u32, inner),
            1 => list(vec![inner]),
            2 => tuple(vec![literal(INT), inner]),
            3 => binary(12, literal(BOOL), inner),
            _ => attribute(inner),
        };
    }
    program.body = vec![assign(variable(x), inner)];
    program
}

//! Every limit from both sides, shared tuples, and tables of names.

use super::grow::odd_role;
use crate::image::kind::*;
use crate::program::*;
use crate::random::Random;

/// Images on both sides of each limit, with what they are about.
pub fn images() -> Vec<(String, Vec<u8>)> {
    let mut all: Vec<(String, Vec<u8>)> = Vec::new();
    let mut add = |what: &str, image: Vec<u8>| all.push((what.to_string(), image));

    let empty = Program::new().image();
    add("no bytes", Vec::new());
    add("31 bytes", empty[..31].to_vec());
    add("32 bytes", empty[..32].to_vec());
    add("one byte short", empty[..empty.len() - 1].to_vec());
    add("one byte more", [&empty[..], &[0]].concat());

    for count in [0, 1, 127, 128, 129].iter() {
        add(&format!("{} names", count), names(*count, 3).image());
        add(&format!("{} names, each assigned", count), assigned(names(*count, 3)).image());
    }
    for nodes in [1, 2, 2048, 2049].iter() {
        add(&format!("{} nodes", nodes), passes(nodes - 1).image());
    }
    add("0 nodes", lay_out(&[], &[], &[]));
    add("0 nodes, one name", lay_out(&[0, 1, 0, 0, 0], &[], b"x"));
    add("8,192 bytes of text", names(128, 64).image());
    add("8,192 bytes of text, each name assigned", assigned(names(128, 64)).image());
    let mut long = names(128, 64);
    long.names[5].text.push(b'!');
    add("8,193 bytes of text", long.image());
    add("8,193 bytes of text and no names", lay_out(&[], &[12, 0, 0, 1, 0, 0], &[b'x'; 8193]));
    add("8,192 bytes of text and no names", lay_out(&[], &[12, 0, 0, 1, 0, 0], &[b'x'; 8192]));
    for length in [1, 2, 63, 64, 65].iter() {
        let mut program = Program::new();
        let x = program.name(&"x".repeat(*length));
        program.body = vec![assign(variable(x), literal(INT))];
        add(&format!("a name of {} bytes", length), program.image());
    }
    let mut largest = names(128, 64);
    largest.body = passes(2047).body;
    let largest = largest.image();
    add("the largest image", largest.clone());
    add("the largest image and one byte", [&largest[..], &[0]].concat());

    for depth in [63, 64, 65, 66].iter() {
        let mut program = Program::new();
        let x = program.name("x");
        program.body = vec![assign(variable(x), nested(*depth - 2))];
        add(&format!("an expression of depth {}", depth), program.image());
        let mut program = Program::new();
        program.body = ifs(*depth);
        add(&format!("statements of depth {}", depth), program.image());
        let mut program = Program::new();
        // Depth is told at the lowest node, the shallow statement before it is not.
        program.body = vec![simple(PASS), expr(nested(*depth - 2)), expr(nested(70))];
        add(&format!("a second expression of depth {}", depth), program.image());
    }
    for count in 6..10 {
        add(&format!("{} nested Defs", count), defs(count, false).image());
        add(&format!("{} nested Defs in an If", count), defs(count, true).image());
        add(&format!("{} failing Defs side by side in an If", count), strays(count, IF).image());
        add(&format!("{} failing Defs side by side in a While", count), strays(count, WHILE).image());
        add(&format!("{} failing Defs side by side in a For", count), strays(count, FOR).image());
        add(&format!("{} nested Defs that fail, in an If", count), nested_strays(count).image());
    }
    for room in [1000, 1023, 1024, 1025, 1026].iter().copied() {
        add(&format!("a message of {} bytes", room), message_of(room).image());
        add(&format!("a message of {} bytes for +", room), sum_message_of(room).image());
    }
    for chain in [100, 600].iter() {
        add(&format!("types {} deep", chain), chained(*chain).image());
    }
    for p in [0, 1, 2, 9, 10, 2_147_483_647, 2_147_483_648, u32::MAX].iter() {
        let mut program = Program::new();
        let f = program.role("f", 4, *p, 0);
        program.body = vec![expr(call(variable(f), vec![literal(INT); 11]))];
        add(&format!("a function of {} arguments given 11", p), program.image());
        let mut program = Program::new();
        let f = program.role("zip", 2, *p, p / 2);
        program.body = vec![expr(call(variable(f), vec![literal(INT); 3]))];
        add(&format!("a builtin of {} to {} arguments given 3", p, p / 2), program.image());
        let mut program = Program::new();
        let f = program.role("zip", 1, *p, 0);
        program.body = vec![expr(call(variable(f), vec![literal(INT); 10]))];
        add(&format!("a builtin of exactly {} arguments given 10", p), program.image());
    }
    all
}

/// So many names of about so many bytes, none used.
fn names(count: usize, length: usize) -> Program {
    let mut program = Program::new();
    for i in 0..count {
        let text = format!("{:03}", i);
        program.name(&format!("{}{}", text, "n".repeat(length - text.len())));
    }
    program
}

/// Each name gets a type of its own.
fn assigned(mut program: Program) -> Program {
    let mut body: Vec<Item> = Vec::new();
    for name in 0..program.names.len() as u32 {
        let value = if name == 0 { list(vec![]) } else { tuple(vec![variable(name - 1)]) };
        body.push(assign(variable(name), value));
    }
    program.body = body;
    program
}

fn passes(count: usize) -> Program {
    let mut program = Program::new();
    program.body = vec![simple(PASS); count];
    program
}

/// An expression of that depth.
fn nested(depth: usize) -> Item {
    (1..depth).fold(literal(INT), |inner, _| list(vec![inner]))
}

/// Statements whose innermost node has that depth, the module's Block being the first.
fn ifs(depth: usize) -> Vec<Item> {
    let mut body = vec![simple(PASS)];
    let mut reached = 2;
    while reached + 2 <= depth {
        body = vec![if_else(vec![(literal(BOOL), body)], None)];
        reached += 2;
    }
    if reached < depth {
        body = vec![expr(literal(INT))];
        for _ in 0..(depth - 3) / 2 {
            body = vec![if_else(vec![(literal(BOOL), body)], None)];
        }
    }
    body
}

fn defs(count: usize, in_if: bool) -> Program {
    let mut program = Program::new();
    let (f, x) = (program.name("f"), program.name("x"));
    let mut body = vec![assign(variable(x), literal(INT))];
    for _ in 0..count {
        body = vec![def(f, &[x], body)];
    }
    program.body = if in_if { vec![if_else(vec![(literal(BOOL), body)], None)] } else { body };
    program
}

fn strays(count: usize, inside: u32) -> Program {
    let mut program = Program::new();
    let (f, x) = (program.name("f"), program.name("x"));
    let body: Vec<Item> = vec![def(f, &[x], vec![assign(variable(x), literal(STRING)), simple(BREAK)]); count];
    program.body = vec![match inside {
        IF => if_else(vec![(literal(BOOL), body)], None),
        WHILE => while_loop(literal(BOOL), body),
        _ => if_else(vec![(literal(BOOL), vec![for_loop(x, list(vec![]), body)])], None),
    }];
    program
}

fn nested_strays(count: usize) -> Program {
    let mut program = Program::new();
    let (f, x) = (program.name("f"), program.name("x"));
    let mut body = vec![assign(variable(x), literal(INT)), simple(BREAK)];
    for _ in 0..count {
        body = vec![def(f, &[], body)];
    }
    program.body = vec![if_else(vec![(literal(BOOL), body)], None)];
    program
}

/// A 34 whose message has exactly that many bytes.
fn message_of(length: usize) -> Program {
    // "TypeError: expected Int or Float, got " is 38 bytes, "Tuple([" and "])" are 9, ", " is 2.
    let mut left = length - 38 - 9;
    let mut parts = Vec::new();
    // "Int" and "Bool" with their commas are 5 and 6 bytes: 5 a + 6 b makes every larger number.
    left += 2;
    while left % 5 != 0 {
        parts.push(literal(BOOL));
        left -= 6;
    }
    parts.extend(vec![literal(INT); left / 5]);
    let mut program = Program::new();
    program.body = vec![expr(unary(1, tuple(parts)))];
    program
}

/// A 29 whose message has exactly that many bytes: "TypeError: unsupported operand types for +: " is 44, and
/// " and " 5.
fn sum_message_of(length: usize) -> Program {
    let mut program = message_of(length - 44 - 5 - "String".len() + 38);
    let wide = program.body[0].parts[0].parts[0].clone();
    program.body = vec![expr(binary(0, wide, literal(STRING)))];
    program
}

/// A type that many levels deep, built through names, and then refused.
fn chained(levels: usize) -> Program {
    let mut program = Program::new();
    let mut body: Vec<Item> = Vec::new();
    let mut last: Option<u32> = None;
    for i in 0..(levels + 49) / 50 {
        let name = program.name(&format!("t{:03}", i));
        let mut value = last.map_or_else(|| literal(INT), variable);
        for _ in 0..50.min(levels - 50 * i) {
            value = if i % 2 == 0 { list(vec![value]) } else { tuple(vec![value]) };
        }
        body.push(assign(variable(name), value));
        last = Some(name);
    }
    program.body = body;
    program
}

/// Tuples of tuples: `steps` times a name for a tuple of the last name twice or more often.
pub fn doubling(mut random: Random) -> Program {
    let steps = match random.below(6) {
        0 => random.within(60, 120),
        1 => random.within(29, 40),
        2 => random.within(17, 28),
        _ => random.within(1, 16),
    };
    let width = if random.chance(80) { 2 } else { random.within(1, 4) };
    let end = random.below(16);
    let seed = random.below(4);
    doubled(steps, width, seed, end)
}

pub fn doubled(steps: usize, width: usize, seed: usize, end: usize) -> Program {
    let mut program = Program::new();
    let name = |program: &mut Program, i: usize| program.name(&format!("t{:03}", i));
    let start = [literal(INT), tuple(vec![]), attribute(literal(INT)), list(vec![])][seed].clone();
    let first = name(&mut program, 0);
    let mut body = vec![assign(variable(first), start)];
    for i in 1..=steps {
        let (old, new) = (name(&mut program, i - 1), name(&mut program, i));
        // Dicts double too, but only tuples alone make lengths that are small again once they have wrapped.
        let value = match (end + i) % 7 {
            0 if width == 2 && end % 2 == 1 => dict(vec![variable(old), variable(old)]),
            _ => tuple(vec![variable(old); width]),
        };
        body.push(assign(variable(new), value));
    }
    let last = name(&mut program, steps);
    let len = program.role("len", 1, 1, 0);
    let t = || variable(last);
    let again = tuple(vec![t(), t()]);
    body.extend(match end {
        0 => vec![expr(binary(0, t(), literal(INT)))],
        1 => vec![expr(binary(6, again.clone(), again))],
        2 => vec![expr(binary(6, again, t()))],
        3 => vec![assign(t(), literal(INT))],
        4 => vec![assign(variable(first), t())],
        5 => vec![expr(unary(1, t()))],
        6 => vec![for_loop(first, t(), vec![assign(variable(first), literal(STRING))])],
        7 => vec![def(first, &[], vec![returned(t()), returned(literal(INT))])],
        8 => {
            let z = program.name("z");
            let (one, two) = (vec![assign(variable(z), t())], vec![assign(variable(z), again)]);
            vec![if_else(vec![(literal(BOOL), one)], Some(two))]
        }
        9 => vec![expr(index(list(vec![t()]), t()))],
        10 => vec![expr(index(dict(vec![t(), t()]), literal(INT)))],
        11 => vec![expr(call(variable(len), vec![t()])), expr(unary(0, t()))],
        12 => vec![if_else(vec![(literal(BOOL), vec![expr(unary(1, t()))])], None)],
        13 => vec![while_loop(literal(BOOL), vec![assign(variable(first), t())])],
        _ => vec![],
    });
    program.body = body;
    program.prune();
    program
}

/// Images whose name records are right or wrong in some way: codes 4 and 5.
pub fn name_table(mut random: Random) -> Vec<u8> {
    let texts = [
        "int", "float", "bool", "str", "len", "assert", "map", "filter", "range", "input", "print", "set", "treeset",
        "a", "b", "ab", "aa", "A", "~", "!", "integer", "map2", "fil",
    ];
    let mut chosen: Vec<Vec<u8>> = Vec::new();
    for _ in 0..random.within(0, 6) {
        chosen.push(random.pick(&texts).as_bytes().to_vec());
    }
    if random.chance(85) {
        chosen.sort();
    }
    if random.chance(85) {
        chosen.dedup();
    }
    if random.chance(10) && !chosen.is_empty() {
        let at = random.below(chosen.len());
        chosen[at] = match random.below(5) {
            0 => Vec::new(),
            1 => vec![b'z'; 64],
            2 => vec![b'z'; 65],
            3 => vec![b'q', *random.pick(&[0, 10, 32, 127, 128, 255])],
            _ => vec![*random.pick(&[32, 33, 126, 127])],
        };
    }
    let mut words: Vec<u32> = Vec::new();
    let mut area: Vec<u8> = Vec::new();
    for text in &chosen {
        let name = String::from_utf8_lossy(text).to_string();
        let (mut role, mut p, mut q) = match random.below(3) {
            0 => odd_role(&name, &mut random),
            1 => (0, 0, 0),
            _ => (random.below(5) as u32, random.below(3) as u32, random.below(3) as u32),
        };
        if random.chance(70) {
            match role {
                0 | 3 => {
                    p = 0;
                    q = 0;
                }
                1 | 4 => q = 0,
                _ => {}
            }
        }
        if random.chance(3) {
            role = *random.pick(&[5, 6, 255, u32::MAX]);
        }
        let start = if random.chance(3) { random.below(20) as u32 } else { area.len() as u32 };
        let length = if random.chance(3) { random.below(9) as u32 } else { text.len() as u32 };
        words.extend_from_slice(&[start, length, role, p, q]);
        area.extend_from_slice(text);
    }
    if random.chance(6) {
        area.extend_from_slice(b"zz");
    }
    if random.chance(4) {
        area.pop();
    }
    // One node too many now and then, to see that names come first.
    let nodes: &[u32] = if random.chance(20) { &[12, 0, 1, 1, 0, 0] } else { &[12, 0, 0, 1, 0, 0] };
    lay_out(&words, nodes, &area)
}

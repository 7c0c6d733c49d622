//! TreeSets, which are retired, wherever an expression may stand: where T looks and where it does not, in front of what is
//! refused and behind it. Beside them words that are 30 and no kind, which a converter must leave alone.

use super::{errors, soup};
use crate::image::{is_expression, kind::*, NODES};
use crate::program::*;
use crate::random::Random;

/// The number of the kind that is retired.
const THIRTY: usize = TREE_SET as usize;

/// About three in four are well formed and have TreeSets. One in twelve is damaged.
pub fn image(number: u64, mut random: Random) -> Vec<u8> {
    let mut program = base(number, &mut random);
    let share = *random.pick(&[0, 3, 10, 30, 60]);
    program.body.iter_mut().for_each(|item| sprinkle(item, share, &mut random));
    if share > 0 {
        for _ in 0..random.within(1, 3) {
            let placed = placed(&mut program, &mut random);
            let at = random.below(program.body.len() + 1);
            program.body.insert(at, placed);
        }
    }
    for _ in 0..random.below(4) {
        thirty(&mut program, &mut random);
    }
    while program.size() > NODES as usize {
        program.body.pop();
    }
    // Most errors end a program early: let many go on in a body that drops them.
    if random.chance(40) {
        program = super::dropped_at_module(program);
    }
    let image = program.image();
    if random.chance(8) {
        super::damage::damaged(&image, number, &mut random)
    } else {
        image
    }
}

/// A program of another family.
fn base(number: u64, random: &mut Random) -> Program {
    let inner = random.clone();
    random.next();
    match random.below(10) {
        0 => super::small(inner),
        1 => super::chaos(inner),
        2 => errors::program(number, inner),
        3 => soup::program(inner, soup::DROPPED),
        4 => soup::program(inner, soup::MERGE),
        5 => super::calls::call_program(inner),
        6 => super::calls::type_program(inner),
        7 => super::bound::program(inner),
        8 => super::deep(inner),
        _ => Program::new(),
    }
}

/// Of 100 expressions, so many become TreeSets or stand in one; those that were there become Sets before.
fn sprinkle(item: &mut Item, share: usize, random: &mut Random) {
    item.parts.iter_mut().for_each(|part| sprinkle(part, share, random));
    if item.kind == TREE_SET {
        item.kind = SET;
    }
    if !is_expression(item.kind) || !random.chance(share) {
        return;
    }
    let display = matches!(item.kind, LIST | TUPLE | SET);
    let inner = item.clone();
    *item = match random.below(6) {
        0..=2 if display => Item { kind: TREE_SET, ..inner },
        3 => tree_set(vec![]),
        4 => tree_set(vec![literal(INT), inner]),
        _ => tree_set(vec![inner]),
    };
}

/// A TreeSet, often in another.
fn tree(random: &mut Random) -> Item {
    match random.below(8) {
        0 | 1 => tree_set(vec![]),
        2 => tree_set(vec![tree(random)]),
        3 => tree_set(vec![set(vec![tree(random)]), literal(STRING)]),
        4 => tree_set(vec![unary(1, literal(STRING))]),
        _ => tree_set((0..random.below(4)).map(|_| literal(random.below(5) as u32)).collect()),
    }
}

/// A statement with a TreeSet at a place of some kind.
fn placed(program: &mut Program, random: &mut Random) -> Item {
    let (x, y, f, u) = (program.name("x"), program.name("y"), program.name("f"), program.name("u"));
    let (int, text) = (|| literal(INT), || literal(STRING));
    let inner = tree(random);
    match random.below(8) {
        0 => expr(unread(inner, program, random)),
        1 => assign(variable(x), unread(inner, program, random)),
        // In a target, which binds or does not.
        2 => {
            let target = match random.below(5) {
                0 => inner,
                1 => tuple(vec![variable(x), inner, variable(y)]),
                2 => index(variable(u), inner),
                3 => index(inner, int()),
                _ => attribute(inner),
            };
            assign(target, variable(u))
        }
        // In what is gone over or asked.
        3 => match random.below(4) {
            0 => for_loop(x, inner, vec![assign(variable(y), tree(random))]),
            1 => while_loop(inner, vec![simple(BREAK)]),
            2 => if_else(vec![(inner, vec![])], Some(vec![expr(tree(random))])),
            _ => if_else(vec![(literal(BOOL), vec![]), (unary(0, inner), vec![])], None),
        },
        // In a body, in front of an error or behind it.
        4 => {
            let mut body = vec![expr(binary(0, int(), text())), assign(variable(x), inner)];
            if random.chance(30) {
                body.reverse();
            }
            match random.below(5) {
                0 => if_else(vec![(literal(BOOL), vec![]), (literal(BOOL), body)], None),
                1 => while_loop(literal(BOOL), body),
                2 => for_loop(y, list(vec![int()]), body),
                3 => def(f, &[x], body),
                _ => if_else(vec![(literal(BOOL), vec![def(f, &[x], body)])], Some(vec![expr(tree(random))])),
            }
        }
        // Around the ninth frame.
        5 => {
            let mut body = vec![returned(inner)];
            for _ in 0..random.within(6, 8) {
                body = vec![def(f, &[y], body)];
            }
            body.remove(0)
        }
        6 => returned(inner),
        _ => {
            let part = match random.below(7) {
                0 => set(vec![int(), inner]),
                1 => dict(vec![inner, tree(random)]),
                2 => tuple(vec![text(), inner]),
                3 => list(vec![inner]),
                4 => call(variable(f), vec![inner]),
                5 => call(inner, vec![tree(random)]),
                _ => binary(random.below(14) as u32, inner, tree(random)),
            };
            assign(variable(y), part)
        }
    }
}

/// An expression that T leaves before it has looked at all of it.
fn unread(inner: Item, program: &mut Program, random: &mut Random) -> Item {
    let u = program.name("u");
    match random.below(6) {
        0 => list(vec![literal(INT), literal(STRING), inner]),
        1 => list(vec![list(vec![literal(INT), literal(BOOL), inner]), literal(INT), tree(random)]),
        2 => dict(vec![variable(u), variable(u), literal(INT), inner]),
        3 => call(variable(program.role("int", 2, 1, 3)), vec![literal(STRING), inner]),
        4 => call(variable(program.role("input", 2, 0, 2)), vec![literal(INT), inner]),
        _ => call(variable(program.role("zip", 1, 5, 0)), vec![inner]),
    }
}

/// A word of the image becomes 30 that is no kind.
fn thirty(program: &mut Program, random: &mut Random) {
    match random.below(8) {
        0 => program.body.iter_mut().for_each(|item| spanned(item, random)),
        // As many names, and one more, so that there is a name number 30.
        1 => more_names(program, THIRTY),
        2 => {
            more_names(program, random.within(THIRTY + 1, THIRTY + 9));
            let mut order: Vec<u32> = (0..program.names.len() as u32).collect();
            order.sort_by(|a, b| program.names[*a as usize].text.cmp(&program.names[*b as usize].text));
            program.body.push(expr(variable(order[THIRTY])));
        }
        // As many nodes, where there were fewer: the module's Block ends there.
        3 => {
            while program.size() < THIRTY {
                program.body.push(simple(PASS));
            }
        }
        // As many children.
        4 => {
            let kind = *random.pick(&[LIST, TUPLE, SET, DICT]);
            program.body.push(expr(Item::new(kind, 0, vec![literal(INT); THIRTY])));
        }
        // A name of as many bytes, in front of all others, so that the next starts there.
        5 => {
            program.name(&"!".repeat(THIRTY));
        }
        6 => {
            let g = program.role("g", 4, TREE_SET, 0);
            program.body.push(expr(call(variable(g), vec![literal(INT); *random.pick(&[THIRTY - 1, THIRTY])])));
        }
        _ => {
            program.role("zip", 2, TREE_SET, TREE_SET);
        }
    }
}

fn spanned(item: &mut Item, random: &mut Random) {
    item.parts.iter_mut().for_each(|part| spanned(part, random));
    let spans = [(TREE_SET, TREE_SET), (0, TREE_SET), (TREE_SET, SET), (SET, TREE_SET)];
    if random.chance(40) {
        item.span = Some(*random.pick(&spans));
    }
}

fn more_names(program: &mut Program, count: usize) {
    let mut next = 0;
    while program.names.len() < count {
        program.name(&format!("n{:02}", next));
        next += 1;
    }
}

//! Programs aimed at a typing code.

use super::grow::{Grower, Habits};
use crate::image::kind::*;
use crate::program::*;
use crate::random::Random;

/// The first and the last typing code.
pub const FIRST: u32 = 20;
pub const LAST: u32 = 50;

/// A program that is well but for a statement aimed at a code, which goes round with the number. The
/// statement stands at module level, in a For or in a Def, where its error is returned, or in an If or a
/// While, where it is dropped.
pub fn program(number: u64, mut random: Random) -> Program {
    let code = FIRST + (number % u64::from(LAST - FIRST + 1)) as u32;
    let habits = Habits {
        nodes: *random.pick(&[1, 10, 40, 120]),
        names: *random.pick(&[3, 3, 12]),
        chaos: 0,
        nesting: 25,
        levels: 3,
        odd_roles: false,
    };
    let mut grower = Grower::new(random, habits.clone());
    let before = grower.body(habits.nodes);
    let fault = aimed(code, &mut grower);
    let after = grower.body(habits.nodes / 2);
    let f = grower.program.name("f");
    let z = grower.program.name("z");
    let wrapped = match grower.random.below(8) {
        0 => vec![for_loop(z, list(vec![literal(INT)]), fault)],
        1 => vec![def(f, &[], fault)],
        2 => vec![if_else(vec![(literal(BOOL), fault)], None)],
        3 => vec![while_loop(literal(BOOL), fault)],
        4 => vec![if_else(vec![(literal(BOOL), vec![]), (literal(BOOL), vec![def(f, &[z], fault)])], Some(vec![]))],
        _ => fault,
    };
    let mut program = grower.program;
    program.body = before.into_iter().chain(wrapped).chain(after).collect();
    while program.size() > crate::image::NODES as usize {
        program.body.pop();
    }
    if number % 5 > 0 {
        program.prune();
    }
    program
}

/// Statements of which the last is refused with the code, if nothing before it is.
pub fn aimed(code: u32, grower: &mut Grower) -> Vec<Item> {
    let a = grower.program.name("_a");
    let b = grower.program.name("_b");
    let f = grower.program.name("_f");
    let mut role = |text: &str| {
        let usual = super::grow::REGISTRY.iter().find(|row| row.0 == text).expect("a builtin");
        let known = grower.program.names.iter().position(|name| name.text == text.as_bytes());
        variable(known.map_or_else(|| grower.program.role(usual.0, usual.1, usual.2, usual.3), |i| i as u32))
    };
    let int = || literal(INT);
    let text = || literal(STRING);
    match code {
        20 => vec![simple(BREAK)],
        21 => vec![simple(CONTINUE)],
        22 => {
            let (first, second) = differing(grower);
            vec![def(f, &[], vec![returned(first), returned(second)])]
        }
        23 => {
            let (first, second) = differing(grower);
            let mut body = vec![assign(variable(b), int()), assign(variable(a), first)];
            if grower.random.chance(50) {
                body.reverse();
            }
            let other = vec![assign(variable(a), second), assign(variable(b), text())];
            vec![if_else(vec![(literal(BOOL), body), (unary(0, literal(BOOL)), other)], None)]
        }
        24 => {
            let wrong = grower.random.pick(&[INT, BOOL, FLOAT, NONE]);
            vec![for_loop(a, literal(*wrong), vec![simple(PASS)])]
        }
        25 => {
            let (first, second) = differing(grower);
            vec![assign(variable(a), first), assign(variable(a), second)]
        }
        26 => {
            let parts = (0..grower.random.below(4)).map(|_| grower.anything(1)).collect();
            vec![assign(tuple(vec![variable(a); 4]), tuple(parts))]
        }
        27 => vec![assign(tuple(vec![variable(a)]), grower.random.pick(&[int(), text(), lambda()]).clone())],
        28 => {
            let targets = [int(), lambda(), list(vec![variable(a)]), unary(1, variable(a)), set(vec![])];
            vec![assign(grower.random.pick(&targets).clone(), int())]
        }
        29 => vec![expr(binary(0, int(), text()))],
        30 => vec![expr(binary(2, text(), literal(FLOAT)))],
        31 => {
            let op = grower.random.within(8, 11) as u32;
            vec![expr(binary(op, literal(BOOL), int()))]
        }
        32 => {
            let (first, second) = differing(grower);
            vec![expr(binary(grower.random.within(6, 7) as u32, first, second))]
        }
        33 => {
            let op = *grower.random.pick(&[1, 3, 4, 5]);
            vec![expr(binary(op, text(), int()))]
        }
        34 => {
            let op = grower.random.within(1, 2) as u32;
            vec![expr(unary(op, grower.random.pick(&[text(), literal(BOOL), list(vec![])]).clone()))]
        }
        35 => vec![expr(unary(0, grower.random.pick(&[text(), int(), tuple(vec![])]).clone()))],
        36 => {
            let wrong = grower.random.pick(&[int(), attribute(int()), lambda()]).clone();
            match grower.random.below(3) {
                0 => vec![while_loop(wrong, vec![])],
                1 => vec![if_else(vec![(literal(BOOL), vec![]), (wrong, vec![])], None)],
                _ => vec![if_else(vec![(wrong, vec![])], Some(vec![]))],
            }
        }
        37 => {
            let name = grower.random.pick(&["int", "map", "range", "input", "len"]);
            let args = vec![int(); 4];
            vec![expr(call(role(name), args))]
        }
        38 => {
            let g = grower.program.role("_g", 4, 2, 0);
            let count = *grower.random.pick(&[0usize, 1, 3]);
            vec![expr(call(variable(g), vec![int(); count]))]
        }
        39 => vec![expr(call(role("input"), vec![int()]))],
        40 => vec![expr(call(role("len"), vec![int()]))],
        41 => vec![expr(call(role("range"), vec![int(), text()]))],
        42 => vec![expr(call(role("map"), vec![int(), text()]))],
        43 => vec![expr(call(role("map"), vec![lambda(), tuple(vec![int()])]))],
        44 => vec![expr(call(role("filter"), vec![int(), text()]))],
        45 => vec![expr(call(role("filter"), vec![lambda(), dict(vec![int(), int()])]))],
        46 => vec![expr(index(list(vec![int()]), text()))],
        47 => vec![expr(index(dict(vec![int(), text()]), text()))],
        48 => vec![expr(index(tuple(vec![int(), text()]), literal(FLOAT)))],
        49 => vec![expr(index(text(), text()))],
        50 => vec![expr(index(grower.random.pick(&[int(), lambda(), literal(NONE)]).clone(), int()))],
        other => unreachable!("{} is no typing code", other),
    }
}

/// Two literals or lists of literals of different types, neither Unknown.
fn differing(grower: &mut Grower) -> (Item, Item) {
    let kinds = [INT, BOOL, STRING, NONE];
    let first = grower.random.below(kinds.len());
    let second = (first + grower.random.within(1, kinds.len() - 1)) % kinds.len();
    let (first, second) = (literal(kinds[first]), literal(kinds[second]));
    match grower.random.below(4) {
        0 => (list(vec![first]), list(vec![second])),
        1 => (list(vec![]), list(vec![second])),
        2 => (tuple(vec![first.clone(), second.clone()]), tuple(vec![second, first])),
        _ => (first, second),
    }
}

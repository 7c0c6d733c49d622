//! Calls with every role, arity and argument; operators, displays and indexing over every pair of types.

use super::grow::{odd_role, REGISTRY};
use crate::image::kind::*;
use crate::program::*;
use crate::random::Random;

/// Operands, one for each kind of type and some that differ inside.
pub const OPERANDS: usize = 21;

/// The operand of that number. `names` are a plain name that is never bound, and range, map and filter with
/// their usual roles.
pub fn operand(which: usize, names: [u32; 4]) -> Item {
    let [u, range, map, filter] = names;
    match which {
        0 => variable(u),
        1 => literal(INT),
        2 => literal(BOOL),
        3 => literal(STRING),
        4 => literal(FLOAT),
        5 => literal(NONE),
        6 => call(variable(range), vec![literal(INT)]),
        7 => lambda(),
        8 => list(vec![literal(INT)]),
        9 => list(vec![]),
        10 => dict(vec![literal(INT), literal(STRING)]),
        11 => dict(vec![]),
        12 => tuple(vec![literal(INT), literal(INT)]),
        13 => tuple(vec![]),
        14 => tuple(vec![literal(INT), literal(STRING)]),
        15 => call(variable(map), vec![lambda(), literal(STRING)]),
        16 => call(variable(filter), vec![lambda(), literal(STRING)]),
        17 => call(variable(filter), vec![lambda(), list(vec![literal(INT)])]),
        18 => list(vec![list(vec![literal(INT)])]),
        19 => dict(vec![literal(STRING), literal(INT)]),
        _ => tuple(vec![literal(INT)]),
    }
}

/// Names for `operand`, added to a program.
pub fn operand_names(program: &mut Program) -> [u32; 4] {
    [program.name("u"), program.role("range", 2, 1, 3), program.role("map", 2, 2, 2), program.role("filter", 2, 2, 2)]
}

/// A call of some builtin, function or plain name with any role that its text may have.
pub fn call_program(mut random: Random) -> Program {
    let mut program = Program::new();
    let names = operand_names(&mut program);
    let x = program.name("x");
    let known = *random.pick(&REGISTRY);
    let others = ["zip", "f", "integer", "printer", "le", "lens", "ma", "Len"];
    let text = if random.chance(80) { known.0 } else { *random.pick(&others) };
    let (role, p, q) = match random.below(4) {
        0 if text == known.0 => (known.1, known.2, known.3),
        _ => odd_role(text, &mut random),
    };
    let callee = program.role(text, role, p, q);
    let wanted = match role {
        1 | 4 => p as usize,
        2 if p <= q => random.within(p as usize, q.min(p.saturating_add(2)) as usize),
        _ => random.below(4),
    };
    let count = if wanted > 5 || random.chance(20) { random.below(5) } else { wanted };
    let args: Vec<Item> = (0..count)
        .map(|nth| match random.below(10) {
            // An error inside shows whether the argument was looked at.
            0 => unary(1, literal(STRING)),
            1 | 2 => operand(random.below(OPERANDS), names),
            _ if nth == 0 && (text == "map" || text == "filter") => lambda(),
            _ if text == "range" => literal(INT),
            _ => operand(random.below(OPERANDS), names),
        })
        .collect();
    let callee = match random.below(12) {
        0 => attribute(variable(callee)),
        1 => lambda(),
        2 => unary(1, literal(STRING)),
        _ => variable(callee),
    };
    program.body = vec![assign(variable(x), call(callee, args))];
    program.prune();
    if random.chance(40) {
        let body = std::mem::take(&mut program.body);
        program.body = vec![if_else(vec![(literal(BOOL), body)], None)];
    }
    program
}

/// Operators, displays, indexing and unpacking over any types, each bound to a name of its own in a body that
/// drops errors: what is left in the sheet tells them all.
pub fn type_program(mut random: Random) -> Program {
    let mut program = Program::new();
    let names = operand_names(&mut program);
    let count = random.within(1, 12);
    let mut body = Vec::new();
    for i in 0..count {
        let name = program.name(&format!("x{:02}", i));
        let any = |random: &mut Random| operand(random.below(OPERANDS), names);
        let value = match random.below(12) {
            0..=3 => binary(random.below(14) as u32, any(&mut random), any(&mut random)),
            4 => unary(random.below(3) as u32, any(&mut random)),
            5 | 6 => index(any(&mut random), any(&mut random)),
            7 => list((0..random.below(4)).map(|_| any(&mut random)).collect()),
            8 => {
                // Few types, so that keys and values agree now and then.
                let few = [0, 1, 3, 9];
                dict((0..2 * random.below(5)).map(|_| operand(*random.pick(&few), names)).collect())
            }
            9 => tuple((0..random.below(4)).map(|_| any(&mut random)).collect()),
            10 => {
                let few = [0, 1, 3];
                list((0..random.within(1, 5)).map(|_| operand(*random.pick(&few), names)).collect())
            }
            _ => any(&mut random),
        };
        let target = match random.below(8) {
            0 => {
                let second = program.name(&format!("y{:02}", i));
                tuple(vec![variable(name), variable(second)])
            }
            _ => variable(name),
        };
        body.push(if random.chance(12) {
            for_loop(name, value, vec![assign(variable(name), literal(INT))])
        } else {
            assign(target, value)
        });
    }
    program.body = if random.chance(75) { vec![if_else(vec![(literal(BOOL), body)], None)] } else { body };
    program.prune();
    program
}

/// All fourteen operators on one pair of operands, each into a name of its own.
pub fn operator_program(left: usize, right: usize) -> Program {
    let mut program = Program::new();
    let names = operand_names(&mut program);
    let (l, r) = (program.name("l"), program.name("r"));
    let body = (0..14)
        .map(|op| {
            let name = program.name(&format!("o{:02}", op));
            assign(variable(name), binary(op, variable(l), variable(r)))
        })
        .collect();
    program.body = vec![
        assign(variable(l), operand(left, names)),
        assign(variable(r), operand(right, names)),
        if_else(vec![(literal(BOOL), body)], None),
    ];
    program.prune();
    program
}

/// One operator on one pair of operands, its error returned.
pub fn operation(op: u32, left: usize, right: usize) -> Program {
    let mut program = Program::new();
    let names = operand_names(&mut program);
    program.body = vec![expr(binary(op, operand(left, names), operand(right, names)))];
    program.prune();
    program
}

/// One operator on one pair of operands, into a name: the sheet has the type that it gives, or the refusal's message the types of
/// its operands.
pub fn operation_kept(op: u32, left: usize, right: usize) -> Program {
    let mut program = Program::new();
    let names = operand_names(&mut program);
    let x = program.name("x");
    program.body = vec![assign(variable(x), binary(op, operand(left, names), operand(right, names)))];
    program.prune();
    program
}

/// Everything that takes one operand, each into a name of its own; `which` past the last wraps round.
pub fn operand_program(which: usize) -> Program {
    let mut program = Program::new();
    let names = operand_names(&mut program);
    let given = || operand(which % OPERANDS, names);
    let len = program.role("len", 1, 1, 0);
    let input = program.role("input", 2, 0, 1);
    let values = vec![
        given(),
        unary(0, given()),
        unary(1, given()),
        unary(2, given()),
        call(variable(len), vec![given()]),
        call(variable(input), vec![given()]),
        call(variable(names[1]), vec![given()]),
        call(variable(names[2]), vec![given(), literal(STRING)]),
        call(variable(names[2]), vec![lambda(), given()]),
        call(variable(names[3]), vec![given(), literal(STRING)]),
        call(variable(names[3]), vec![lambda(), given()]),
        index(given(), literal(INT)),
        index(given(), literal(STRING)),
        index(list(vec![literal(INT)]), given()),
        index(dict(vec![literal(INT), literal(INT)]), given()),
        index(tuple(vec![literal(INT)]), given()),
        index(literal(STRING), given()),
        list(vec![given(), given()]),
    ];
    let mut body: Vec<Item> = Vec::new();
    for (i, value) in values.into_iter().enumerate() {
        let name = program.name(&format!("v{:02}", i));
        body.push(assign(variable(name), value));
    }
    let (one, two, element) = (program.name("w1"), program.name("w2"), program.name("w3"));
    body.push(assign(tuple(vec![variable(one), variable(two)]), given()));
    // What a For's name gets shows in the return type that a later return has to meet.
    body.push(for_loop(element, given(), vec![returned(variable(element))]));
    for returned_type in [literal(INT), literal(STRING)].iter() {
        body.push(if_else(vec![(literal(BOOL), vec![returned(returned_type.clone()), def(one, &[], vec![])])], None));
    }
    body.push(if_else(vec![(given(), vec![assign(variable(element), literal(INT))])], None));
    program.body = vec![if_else(vec![(literal(BOOL), body)], None)];
    program
}

/// One of the things of `operand_program` alone, its error returned with a message.
pub fn operand_alone(which: usize, thing: usize) -> Program {
    let mut program = operand_program(which);
    let body = program.body[0].parts[1].parts.clone();
    program.body = vec![body[thing % body.len()].clone()];
    program.prune();
    program
}

/// How many things `operand_program` does.
pub fn things() -> usize {
    operand_program(0).body[0].parts[1].parts.len()
}

/// A For, returned or not, over an operand, with the element assigned to a name of another type.
pub fn element_program(which: usize, other: u32) -> Program {
    let mut program = Program::new();
    let names = operand_names(&mut program);
    let k = program.name("k");
    let body = vec![assign(variable(k), literal(other)), simple(if other == INT { BREAK } else { CONTINUE })];
    program.body = vec![for_loop(k, operand(which, names), body)];
    program.prune();
    program
}

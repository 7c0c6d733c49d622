//! Few names that are assigned again and again with few types, in all the ways that there are: 25 and 23, and which
//! node first made the old type known.

use crate::image::kind::*;
use crate::program::*;
use crate::random::Random;

/// How deep bodies stand in each other.
const LEVELS: usize = 4;

struct Knower {
    random: Random,
    names: Vec<u32>,
    /// A name that is a List, or not bound at all.
    many: u32,
    f: u32,
    range: u32,
    unknown: u32,
    /// Of 100 values, how many are of the type that clashes with the usual one.
    clashes: usize,
    left: usize,
}

/// A program in which most names stay Int, so that the walk comes far, and last assignments that ask for what is
/// known.
pub fn program(mut random: Random) -> Program {
    let mut program = Program::new();
    let count = *random.pick(&[1, 1, 2, 2, 3]);
    let names: Vec<u32> = ["a", "b", "c"][..count].iter().map(|text| program.name(text)).collect();
    let (f, unknown) = (program.name("f"), program.name("u"));
    let range = program.role("range", 2, 1, 3);
    let left = random.within(1, *random.clone().pick(&[4, 8, 16]));
    let clashes = *random.pick(&[2, 8, 20]);
    // Spans are carried unread: now and then any words.
    if random.chance(20) {
        program.spans = Spans::Any(random.next() as u32);
    }
    let many = program.name("p");
    let mut knower = Knower { random, names, many, f, range, unknown, clashes, left };
    if knower.random.chance(25) {
        program.body.push(assign(variable(many), list(vec![literal(INT)])));
    }
    for name in knower.names.clone() {
        if knower.random.chance(25) {
            program.body.push(assign(variable(name), literal(INT)));
        }
    }
    while knower.left > 0 {
        knower.left -= 1;
        let statement = knower.statement(0);
        program.body.push(statement);
    }
    for _ in 0..knower.random.within(0, 3) {
        let asked = knower.asking();
        program.body.push(asked);
    }
    program.prune();
    program
}

impl Knower {
    fn name(&mut self) -> u32 {
        *self.random.pick(&self.names)
    }

    /// Mostly Int or Unknown, so that branches agree more often than not.
    fn value(&mut self) -> Item {
        if self.random.chance(self.clashes) {
            return literal(STRING);
        }
        match self.random.below(10) {
            0..=5 => literal(INT),
            6 | 7 => variable(self.unknown),
            8 => variable(self.name()),
            _ => list(vec![literal(INT)]),
        }
    }

    fn body(&mut self, level: usize) -> Vec<Item> {
        let mut body = Vec::new();
        for _ in 0..self.random.within(0, 3) {
            if self.left == 0 {
                break;
            }
            self.left -= 1;
            body.push(self.statement(level));
        }
        body
    }

    /// An assignment of a type that nothing else has: 25 wherever the name is known.
    fn asking(&mut self) -> Item {
        let target = if self.random.chance(80) { variable(self.name()) } else { self.target(1) };
        let parts = target.parts.len();
        let value = if target.kind == TUPLE { list(vec![literal(FLOAT); parts]) } else { literal(FLOAT) };
        assign(target, value)
    }

    fn statement(&mut self, level: usize) -> Item {
        if level < LEVELS && self.random.chance(if level == 0 { 50 } else { 30 }) {
            return self.holding(level + 1);
        }
        match self.random.below(20) {
            0..=2 if level > 0 => self.asking(),
            3..=7 => self.unpacking(),
            8 if level > 0 => simple(BREAK),
            _ => assign(variable(self.name()), self.value()),
        }
    }

    fn target(&mut self, depth: usize) -> Item {
        if depth > 0 && self.random.chance(35) {
            return tuple((0..self.random.within(1, 3)).map(|_| self.target(depth - 1)).collect());
        }
        variable(self.name())
    }

    /// A value that a target can take: of a Tuple target a Tuple, a List or Unknown.
    fn fitting(&mut self, target: &Item) -> Item {
        if target.kind != TUPLE {
            return self.value();
        }
        match self.random.below(12) {
            0 | 1 => variable(self.unknown),
            2 | 3 if target.parts.iter().all(|part| part.kind != TUPLE) => {
                let part = self.value();
                list(vec![part; target.parts.len()])
            }
            _ => tuple(target.parts.iter().map(|part| self.fitting(part)).collect()),
        }
    }

    fn unpacking(&mut self) -> Item {
        let target = tuple((0..self.random.within(1, 3)).map(|_| self.target(1)).collect());
        let value = self.fitting(&target);
        assign(target, value)
    }

    fn iterable(&mut self) -> Item {
        match self.random.below(12) {
            0..=3 => list(vec![literal(INT)]),
            4 => list(vec![self.value()]),
            5 => tuple(vec![self.value(), literal(INT)]),
            6 => literal(STRING),
            7 => call(variable(self.range), vec![literal(INT)]),
            8 => list(vec![]),
            9 => variable(self.name()),
            10 => variable(self.many),
            _ => variable(self.unknown),
        }
    }

    fn holding(&mut self, level: usize) -> Item {
        match self.random.below(14) {
            0..=4 => {
                let mut arms = vec![(literal(BOOL), self.branch(level))];
                for _ in 0..*self.random.pick(&[0, 0, 1, 1, 2]) {
                    arms.push((literal(BOOL), self.branch(level)));
                }
                let last = if self.random.chance(60) { Some(self.branch(level)) } else { None };
                if_else(arms, last)
            }
            5 => while_loop(literal(BOOL), self.body(level)),
            6..=8 => {
                let name = self.name();
                let mut body = self.body(level);
                if self.random.chance(30) {
                    body.push(assign(variable(name), literal(FLOAT)));
                }
                for_loop(name, self.iterable(), body)
            }
            9 | 10 => self.shadows(),
            _ => self.definition(level, 10),
        }
    }

    /// A Def whose If knows one name by several nodes: its branches have the outer node, a stray frame's, or none.
    fn shadows(&mut self) -> Item {
        let name = self.name();
        let mut branches: Vec<Vec<Item>> = Vec::new();
        for _ in 0..self.random.within(1, 4) {
            let value = *self.random.pick(&[INT, INT, INT, INT, STRING, FLOAT]);
            branches.push(match self.random.below(8) {
                0..=3 => vec![def(self.f, &[name], vec![assign(variable(name), literal(value)), simple(BREAK)])],
                4 | 5 => vec![assign(variable(name), literal(INT))],
                6 => vec![assign(variable(name), variable(self.unknown))],
                _ => vec![],
            });
        }
        let last = if branches.len() > 1 && self.random.chance(60) { branches.pop() } else { None };
        let chosen = if_else(branches.into_iter().map(|body| (literal(BOOL), body)).collect(), last);
        let mut body = vec![chosen, assign(variable(name), literal(*self.random.pick(&[STRING, FLOAT])))];
        // In the newest frame, or found in an older one.
        if self.random.chance(30) {
            body.insert(0, assign(variable(name), literal(INT)));
        }
        if self.random.chance(20) {
            return for_loop(name, list(vec![literal(INT)]), body);
        }
        def(self.f, &[], body)
    }

    /// A branch assigns, does not, or leaves a stray frame behind.
    fn branch(&mut self, level: usize) -> Vec<Item> {
        let mut body = self.body(level);
        match self.random.below(10) {
            0..=3 => body.push(assign(variable(self.name()), self.value())),
            4 | 5 => body.push(self.definition(level, 90)),
            6 => body.push(self.unpacking()),
            _ => {}
        }
        body
    }

    /// A Def with names of the outside as parameters, of which so many in 100 fail.
    fn definition(&mut self, level: usize, failing: usize) -> Item {
        let params: Vec<u32> = (0..self.random.below(3)).map(|_| self.name()).collect();
        let mut body = self.body(level);
        if self.random.chance(60) {
            body.push(assign(variable(self.name()), self.value()));
        }
        if self.random.chance(failing) {
            body.push(simple(BREAK));
        } else if self.random.chance(40) {
            body.push(self.asking());
        }
        def(self.f, &params, body)
    }
}

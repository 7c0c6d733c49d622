//! Statements at random over a handful of names and literals, in bodies inside each other: what a merge, a
//! stray frame, a kept return type or a part-bound target does shows in the names that are left at the end.

use crate::image::kind::*;
use crate::program::*;
use crate::random::Random;

/// How often each kind of statement comes, relative to the others.
#[derive(Debug, Clone, Copy)]
pub struct Weights {
    pub assign: usize,
    pub unpack: usize,
    pub returned: usize,
    pub fault: usize,
    pub branch: usize,
    pub while_loop: usize,
    pub for_loop: usize,
    pub def: usize,
    /// Ifs whose branches assign several of the names, each with one of two types.
    pub clash: usize,
    /// Of 100 Defs, how many end in an error of their own.
    pub failing: usize,
}

pub const MERGE: Weights = Weights {
    assign: 60,
    unpack: 6,
    returned: 0,
    fault: 4,
    branch: 30,
    while_loop: 2,
    for_loop: 2,
    def: 4,
    clash: 22,
    failing: 70,
};
pub const STRAY: Weights = Weights {
    assign: 40,
    unpack: 6,
    returned: 2,
    fault: 4,
    branch: 14,
    while_loop: 4,
    for_loop: 6,
    def: 30,
    clash: 2,
    failing: 60,
};
pub const RETURNS: Weights = Weights {
    assign: 8,
    unpack: 0,
    returned: 50,
    fault: 6,
    branch: 22,
    while_loop: 8,
    for_loop: 8,
    def: 18,
    clash: 0,
    failing: 25,
};
pub const DROPPED: Weights = Weights {
    assign: 36,
    unpack: 22,
    returned: 5,
    fault: 12,
    branch: 12,
    while_loop: 5,
    for_loop: 8,
    def: 8,
    clash: 4,
    failing: 40,
};

struct Soup {
    random: Random,
    weights: Weights,
    names: Vec<u32>,
    f: u32,
    unknown: u32,
    left: usize,
}

/// A program of about so many statements. Most of it stands in an If at module level, where nothing ends it.
pub fn program(mut random: Random, weights: Weights) -> Program {
    let mut program = Program::new();
    let count = random.within(2, 4);
    let names: Vec<u32> = ["a", "b", "c", "d"][..count].iter().map(|text| program.name(text)).collect();
    let f = program.name("f");
    let unknown = program.name("u");
    let left = random.within(3, 40);
    let mut soup = Soup { random, weights, names, f, unknown, left };
    let mut body = Vec::new();
    for name in soup.names.clone() {
        if soup.random.chance(30) {
            body.push(assign(variable(name), soup.value()));
        }
    }
    while soup.left > 0 {
        let inner = soup.body(1);
        body.push(match soup.random.below(10) {
            0 => while_loop(soup.condition(0), inner),
            1 => for_loop(*soup.random.pick(&soup.names), soup.iterable(), inner),
            2 => def(soup.f, &[], inner),
            _ => soup.branches(inner, 0),
        });
    }
    if soup.random.chance(25) {
        body.push(soup.assignment());
    }
    program.body = body;
    program
}

impl Soup {
    fn name(&mut self) -> u32 {
        *self.random.pick(&self.names)
    }

    fn body(&mut self, level: usize) -> Vec<Item> {
        let count = self.random.within(0, 5);
        let mut body = Vec::new();
        for _ in 0..count {
            if self.left == 0 {
                break;
            }
            self.left -= 1;
            body.push(self.statement(level));
        }
        body
    }

    fn statement(&mut self, level: usize) -> Item {
        let w = self.weights;
        let nested = if level < 6 { [w.branch, w.while_loop, w.for_loop, w.def, w.clash] } else { [0; 5] };
        let plain = [w.assign, w.unpack, w.returned, w.fault];
        let total: usize = plain.iter().chain(&nested).sum();
        let mut draw = self.random.below(total.max(1));
        let mut kind = 0;
        for (i, weight) in plain.iter().chain(&nested).enumerate() {
            if draw < *weight {
                kind = i;
                break;
            }
            draw -= *weight;
        }
        match kind {
            1 => self.unpacking(),
            2 => returned(self.value()),
            3 => self.fault(),
            4 => {
                let first = self.body(level + 1);
                self.branches(first, level)
            }
            5 => while_loop(self.condition(level), self.body(level + 1)),
            6 => for_loop(self.name(), self.iterable(), self.body(level + 1)),
            7 => self.definition(level),
            8 => self.clash(),
            _ => self.assignment(),
        }
    }

    fn assignment(&mut self) -> Item {
        assign(variable(self.name()), self.value())
    }

    fn value(&mut self) -> Item {
        match self.random.below(14) {
            0..=3 => literal(INT),
            4..=6 => literal(STRING),
            7 => literal(FLOAT),
            8 => variable(self.unknown),
            9 | 10 => variable(self.name()),
            11 => list(vec![variable(self.name())]),
            12 => list(vec![]),
            _ => binary(0, variable(self.name()), literal(*self.random.pick(&[INT, STRING]))),
        }
    }

    fn unpacking(&mut self) -> Item {
        let count = self.random.within(0, 3);
        let targets = (0..count).map(|_| self.target(1)).collect();
        let value = match self.random.below(6) {
            0 => variable(self.unknown),
            1 => list(vec![self.value()]),
            2 => self.value(),
            _ => {
                let parts = if self.random.chance(85) { count } else { self.random.within(0, 3) };
                tuple((0..parts).map(|_| self.value()).collect())
            }
        };
        assign(tuple(targets), value)
    }

    fn target(&mut self, depth: usize) -> Item {
        match self.random.below(10) {
            0 => index(variable(self.name()), self.value()),
            1 => attribute(variable(self.name())),
            2 if depth > 0 => tuple((0..self.random.below(3)).map(|_| self.target(depth - 1)).collect()),
            3 => literal(INT),
            _ => variable(self.name()),
        }
    }

    fn fault(&mut self) -> Item {
        match self.random.below(5) {
            0 => simple(BREAK),
            1 => simple(CONTINUE),
            2 => expr(unary(1, literal(STRING))),
            3 => expr(binary(0, variable(self.name()), literal(INT))),
            _ => simple(PASS),
        }
    }

    /// Mostly true; sometimes one that the frames decide on. At module level an error would end it all.
    fn condition(&mut self, level: usize) -> Item {
        if level == 0 && self.random.chance(92) {
            return literal(BOOL);
        }
        match self.random.below(10) {
            0 => variable(self.unknown),
            1 => literal(INT),
            2 | 3 => {
                let other = literal(*self.random.pick(&[INT, STRING]));
                binary(6, variable(self.name()), other)
            }
            _ => literal(BOOL),
        }
    }

    fn iterable(&mut self) -> Item {
        match self.random.below(6) {
            0 => variable(self.unknown),
            1 => list(vec![self.value()]),
            2 => tuple(vec![self.value(), self.value()]),
            3 => literal(STRING),
            4 => dict(vec![self.value(), literal(INT)]),
            _ => variable(self.name()),
        }
    }

    fn branches(&mut self, first: Vec<Item>, level: usize) -> Item {
        let condition = if self.random.chance(90) { literal(BOOL) } else { self.condition(level) };
        let mut arms = vec![(condition, first)];
        for _ in 0..*self.random.pick(&[0, 0, 1, 1, 2]) {
            arms.push((self.condition(level), self.body(level + 1)));
        }
        let last = if self.random.chance(55) { Some(self.body(level + 1)) } else { None };
        if_else(arms, last)
    }

    fn clash(&mut self) -> Item {
        let count = self.random.within(2, 3);
        let mut bodies: Vec<Vec<Item>> = Vec::new();
        for _ in 0..count {
            let mut body = Vec::new();
            for name in self.names.clone() {
                if self.random.chance(70) {
                    let value = *self.random.pick(&[INT, INT, INT, STRING]);
                    body.push(assign(variable(name), literal(value)));
                }
            }
            // The order of assignments is not the order of names.
            if self.random.chance(50) {
                body.reverse();
            }
            bodies.push(body);
        }
        let last = if self.random.chance(60) { bodies.pop() } else { None };
        if_else(bodies.into_iter().map(|body| (literal(BOOL), body)).collect(), last)
    }

    fn definition(&mut self, level: usize) -> Item {
        let params: Vec<u32> = (0..self.random.below(3)).map(|_| self.name()).collect();
        let mut body = self.body(level + 1);
        if self.random.chance(self.weights.failing) {
            body.push(simple(BREAK));
        }
        def(self.f, &params, body)
    }
}

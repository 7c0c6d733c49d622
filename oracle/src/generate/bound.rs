//! Names that bodies alone bind, and targets of every form: what the sheet lists besides the module frame's names.

use crate::image::kind::*;
use crate::program::*;
use crate::random::Random;

/// How deep bodies stand in each other.
const LEVELS: usize = 5;

struct Binder {
    random: Random,
    /// Names that anything may bind.
    names: Vec<u32>,
    /// Names that are only read: objects, indexes, values, callees.
    read: Vec<u32>,
    f: u32,
    unknown: u32,
    /// Whether there are errors, where a body drops them.
    faulty: bool,
    left: usize,
}

/// Where a statement stands.
#[derive(Clone, Copy)]
struct Place {
    level: usize,
    in_loop: bool,
    /// In an If or a While, which drop errors in plain.
    dropped: bool,
}

/// A program that plain mostly accepts, and strict where it has no errors: what is known is Int alone, and all else Unknown.
pub fn program(mut random: Random) -> Program {
    let mut program = Program::new();
    let count = random.within(2, 6);
    let mut names: Vec<u32> = ["a", "b", "c", "d", "e", "g"][..count].iter().map(|text| program.name(text)).collect();
    if random.chance(20) {
        names.push(program.role("len", 1, 1, 0));
        names.push(program.role("h", 4, 1, 0));
    }
    let read = ["o", "p", "q"].iter().map(|text| program.name(text)).collect();
    let (f, unknown) = (program.name("f"), program.name("u"));
    let faulty = random.chance(60);
    let left = random.within(2, 16);
    let mut binder = Binder { random, names, read, f, unknown, faulty, left };
    let module = Place { level: 0, in_loop: false, dropped: false };
    while binder.left > 0 {
        binder.left -= 1;
        program.body.push(binder.statement(module));
    }
    program.prune();
    program
}

impl Binder {
    fn name(&mut self) -> u32 {
        *self.random.pick(&self.names)
    }

    /// A name that is read, and mostly never bound.
    fn object(&mut self) -> Item {
        let bound = self.faulty && self.random.chance(20);
        variable(*self.random.pick(if bound { &self.names } else { &self.read }))
    }

    fn body(&mut self, place: Place) -> Vec<Item> {
        let mut body = Vec::new();
        for _ in 0..self.random.within(0, 4) {
            if self.left == 0 {
                break;
            }
            self.left -= 1;
            body.push(self.statement(place));
        }
        body
    }

    fn statement(&mut self, place: Place) -> Item {
        if self.faulty && place.dropped && self.random.chance(25) {
            return self.fault(place);
        }
        let holds = place.level < LEVELS && self.random.chance(if place.level == 0 { 80 } else { 40 });
        if holds {
            return self.holding(place);
        }
        match self.random.below(12) {
            0 => expr(call(variable(self.f), vec![self.object()])),
            1 => expr(self.object()),
            2 => simple(CLASS),
            3 if place.in_loop => simple(*self.random.pick(&[BREAK, CONTINUE])),
            4 => returned(variable(self.unknown)),
            5..=7 => assign(variable(self.name()), self.value()),
            _ => {
                let target = self.target(3);
                let value = if self.random.chance(80) { variable(self.unknown) } else { list(vec![]) };
                assign(target, value)
            }
        }
    }

    fn value(&mut self) -> Item {
        match self.random.below(5) {
            0 | 1 => literal(INT),
            2 => self.object(),
            _ => variable(self.unknown),
        }
    }

    /// A target that is refused for no value that is Unknown.
    fn target(&mut self, depth: usize) -> Item {
        match self.random.below(8) {
            0 => index(self.object(), self.object()),
            1 => attribute(self.object()),
            2 => index(tuple(vec![self.object(), self.object()]), literal(INT)),
            3..=5 if depth > 0 => tuple((0..self.random.below(4)).map(|_| self.target(depth - 1)).collect()),
            _ => variable(self.name()),
        }
    }

    fn holding(&mut self, place: Place) -> Item {
        let inner = Place { level: place.level + 1, ..place };
        let dropping = Place { dropped: true, ..inner };
        match self.random.below(10) {
            0..=3 => {
                let mut arms = vec![(literal(BOOL), self.body(dropping))];
                for _ in 0..*self.random.pick(&[0, 0, 1, 2]) {
                    arms.push((literal(BOOL), self.body(dropping)));
                }
                let last = if self.random.chance(50) { Some(self.body(dropping)) } else { None };
                if_else(arms, last)
            }
            4 | 5 => while_loop(literal(BOOL), self.body(Place { in_loop: true, ..dropping })),
            6..=8 => {
                let through = match self.random.below(3) {
                    0 => list(vec![literal(INT)]),
                    1 => self.object(),
                    _ => variable(self.unknown),
                };
                for_loop(self.name(), through, self.body(Place { in_loop: true, ..inner }))
            }
            _ => self.definition(Place { in_loop: false, ..inner }),
        }
    }

    /// One that fails leaves its frame behind, where a body drops its error.
    fn definition(&mut self, inner: Place) -> Item {
        let params: Vec<u32> = (0..self.random.below(3)).map(|_| self.name()).collect();
        let mut body = self.body(inner);
        if self.faulty && inner.dropped && self.random.chance(60) {
            body.push(assign(variable(self.name()), literal(INT)));
            body.push(simple(BREAK));
        }
        def(self.f, &params, body)
    }

    /// What keeps a name from being bound, or a body from being entered.
    fn fault(&mut self, place: Place) -> Item {
        let inner = Place { level: place.level + 1, in_loop: true, ..place };
        let unknown = variable(self.unknown);
        match self.random.below(9) {
            0 => assign(list(vec![variable(self.name()), self.object()]), unknown),
            1 => assign(tuple(vec![variable(self.name()), list(vec![self.object()]), variable(self.name())]), unknown),
            2 => assign(call(variable(self.f), vec![self.object()]), unknown),
            3 => assign(tuple(vec![unary(1, self.object()), variable(self.name())]), unknown),
            4 => assign(self.target(2), binary(0, literal(INT), literal(STRING))),
            5 => assign(tuple(vec![variable(self.name()), variable(self.name())]), tuple(vec![literal(INT)])),
            6 => assign(variable(self.name()), literal(STRING)),
            7 if place.level < LEVELS => for_loop(self.name(), literal(INT), self.body(inner)),
            _ if place.level < LEVELS => {
                let arms = vec![(literal(BOOL), self.body(inner)), (literal(INT), self.body(inner))];
                if_else(arms, Some(self.body(inner)))
            }
            _ => simple(BREAK),
        }
    }
}

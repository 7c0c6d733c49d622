//! Random programs. The grower keeps a rough model of T's frames, so that it can write what T accepts; with
//! some `chaos` it writes anything instead.

use crate::image::kind::*;
use crate::program::*;
use crate::random::Random;

/// What the grower believes of a type.
#[derive(Debug, Clone, PartialEq)]
pub enum Shape {
    Unknown,
    Int,
    Bool,
    String,
    Float,
    NoneType,
    Range,
    Function,
    List(Box<Shape>),
    Dict(Box<Shape>, Box<Shape>),
    Tuple(Vec<Shape>),
    MapIter,
    FilterIter(Box<Shape>),
}

/// How to grow.
#[derive(Debug, Clone)]
pub struct Habits {
    /// About how many nodes.
    pub nodes: usize,
    /// How many plain names, besides builtins and functions.
    pub names: usize,
    /// Of 100 expressions and targets, how many are just anything.
    pub chaos: usize,
    /// Of 100 statements, how many hold others.
    pub nesting: usize,
    /// How deep statements may hold others.
    pub levels: usize,
    /// Builtins with their usual arity, or with any that the image's rules allow.
    pub odd_roles: bool,
}

pub struct Grower {
    pub random: Random,
    pub program: Program,
    habits: Habits,
    /// Nodes that may still be made.
    left: usize,
    plain: Vec<u32>,
    functions: Vec<(u32, usize)>,
    builtins: Vec<(&'static str, u32)>,
    frames: Vec<Vec<(u32, Shape)>>,
    returns: Option<Shape>,
    /// The level at which growing began is 0.
    level: usize,
    /// How many expressions the one that grows is inside of.
    inside: usize,
}

/// Chaos makes new shapes at every level: beyond this many, an expression is a leaf.
const INNERMOST: usize = 9;

/// The registry of builtins.rs, as name records: text, role, p, q.
pub const REGISTRY: [(&str, u32, u32, u32); 13] = [
    ("print", 3, 0, 0),
    ("input", 2, 0, 1),
    ("int", 1, 1, 0),
    ("bool", 1, 1, 0),
    ("str", 1, 1, 0),
    ("len", 1, 1, 0),
    ("range", 2, 1, 3),
    ("float", 1, 1, 0),
    ("assert", 1, 1, 0),
    ("map", 2, 2, 2),
    ("filter", 2, 2, 2),
    ("set", 2, 0, 1),
    ("treeset", 2, 0, 1),
];

impl Grower {
    pub fn new(mut random: Random, habits: Habits) -> Grower {
        let mut program = Program::new();
        let plain: Vec<u32> = (0..habits.names.max(1)).map(|i| program.name(&plain_text(i, &mut random))).collect();
        let mut functions = Vec::new();
        if habits.names >= 3 {
            for (i, text) in ["f", "go", "walk"].iter().enumerate() {
                let p = random.below(i + 2);
                functions.push((program.role(text, 4, p as u32, 0), p));
            }
        }
        let mut builtins = Vec::new();
        for (text, role, p, q) in REGISTRY.iter() {
            if habits.names < 3 && random.chance(60) {
                continue;
            }
            let (role, p, q) = if habits.odd_roles { odd_role(text, &mut random) } else { (*role, *p, *q) };
            builtins.push((*text, program.role(text, role, p, q)));
        }
        program.spans = match random.below(6) {
            0 => Spans::Same,
            1 => Spans::Any(random.next() as u32),
            _ => Spans::Apart,
        };
        let left = habits.nodes;
        Grower {
            random,
            program,
            habits,
            left,
            plain,
            functions,
            builtins,
            frames: vec![Vec::new()],
            returns: None,
            level: 0,
            inside: 0,
        }
    }

    /// Fills the program's body.
    pub fn grow(mut self) -> Program {
        let body = self.body(self.habits.nodes);
        self.program.body.extend(body);
        self.program
    }

    // ---- the model

    fn find(&self, name: u32) -> Option<&Shape> {
        let in_frame = |frame: &'_ Vec<(u32, Shape)>| frame.iter().position(|(n, _)| *n == name);
        self.frames.iter().rev().find_map(|frame| in_frame(frame).map(|i| &frame[i].1))
    }

    fn bind(&mut self, name: u32, shape: Shape) {
        let frame = self.frames.last_mut().expect("there is a frame");
        match frame.iter_mut().find(|(n, _)| *n == name) {
            Some(slot) => slot.1 = shape,
            None => frame.push((name, shape)),
        }
    }

    fn any_plain(&mut self) -> u32 {
        *self.random.pick(&self.plain)
    }

    // ---- statements

    /// Statements of about so many nodes.
    pub fn body(&mut self, nodes: usize) -> Vec<Item> {
        let mut statements = Vec::new();
        let mut used = 0;
        while used < nodes && self.left > 0 {
            let before = self.left;
            let statement = self.statement(nodes - used);
            used += statement.size();
            // The bodies inside have counted themselves already.
            self.left = before.saturating_sub(statement.size());
            statements.push(statement);
            if self.level > 0 && self.random.chance(12) {
                break;
            }
        }
        statements
    }

    pub fn statement(&mut self, nodes: usize) -> Item {
        if nodes >= 8 && self.level < self.habits.levels && self.random.chance(self.habits.nesting) {
            self.level += 1;
            let statement = self.holding(nodes);
            self.level -= 1;
            return statement;
        }
        match self.random.below(12) {
            0 => expr(self.anything(3)),
            1 => simple(if self.random.chance(70) { PASS } else { CLASS }),
            2 if self.frames.len() > 1 || self.level > 0 => self.return_statement(),
            3 if self.random.chance(self.habits.chaos) => simple(*self.random.pick(&[BREAK, CONTINUE])),
            4 if self.random.chance(40) => {
                let text = *self.random.pick(&["print", "assert", "int", "len"]);
                expr(self.builtin(text, 2))
            }
            _ => self.assignment(),
        }
    }

    fn return_statement(&mut self) -> Item {
        let shape = match &self.returns {
            Some(shape) if !self.random.chance(self.habits.chaos) => shape.clone(),
            _ => self.shape(1),
        };
        self.returns = Some(shape.clone());
        returned(self.of(&shape, 2))
    }

    fn assignment(&mut self) -> Item {
        if self.random.chance(14) {
            return self.unpacking();
        }
        if self.random.chance(self.habits.chaos / 4) {
            let target = self.anything(2);
            return assign(target, self.anything(2));
        }
        if self.random.chance(6) {
            let container = self.random.below(3);
            let target = match container {
                0 => attribute(self.anything(1)),
                1 => index(self.of(&Shape::List(Box::new(Shape::Int)), 1), self.of(&Shape::Int, 1)),
                _ => index(self.of(&Shape::Unknown, 1), self.anything(1)),
            };
            return assign(target, self.anything(2));
        }
        let name = self.any_plain();
        let chaos = self.random.chance(self.habits.chaos);
        let shape = match self.find(name) {
            Some(shape) if *shape != Shape::Unknown && !chaos => shape.clone(),
            _ => self.shape(2),
        };
        let value = if self.random.chance(8) { self.of(&Shape::Unknown, 2) } else { self.of(&shape, 3) };
        let known = self.find(name).map_or(false, |old| *old != Shape::Unknown);
        if !known {
            self.bind(name, shape);
        }
        assign(variable(name), value)
    }

    fn unpacking(&mut self) -> Item {
        let count = self.random.below(4);
        let names: Vec<u32> = (0..count).map(|_| self.any_plain()).collect();
        let mut shapes: Vec<Shape> = Vec::new();
        for name in &names {
            let shape = match self.find(*name) {
                Some(shape) if *shape != Shape::Unknown => shape.clone(),
                _ => self.shape(1),
            };
            self.bind(*name, shape.clone());
            shapes.push(shape);
        }
        let mut targets: Vec<Item> = names.iter().map(|name| variable(*name)).collect();
        if self.random.chance(self.habits.chaos) {
            targets.push(self.anything(1));
        }
        let value = match self.random.below(5) {
            0 => self.of(&Shape::Unknown, 2),
            1 if self.random.chance(self.habits.chaos) => self.anything(2),
            2 if shapes.iter().all(|shape| *shape == shapes[0]) && count > 0 => {
                self.of(&Shape::List(Box::new(shapes[0].clone())), 2)
            }
            _ => self.of(&Shape::Tuple(shapes), 2),
        };
        assign(tuple(targets), value)
    }

    /// If, While, For or Def.
    fn holding(&mut self, nodes: usize) -> Item {
        let room = nodes.min(self.left.max(8)) * self.random.within(2, 8) / 10;
        match self.random.below(10) {
            0..=4 => self.branches(room),
            5 => {
                let condition = self.condition();
                let kept = self.frames.clone();
                let body = self.body(room);
                self.frames = kept;
                while_loop(condition, body)
            }
            6 | 7 => {
                let (iterable, element) = self.iterable();
                let kept = self.frames.clone();
                let name = self.any_plain();
                self.bind(name, element);
                let mut body = self.body(room);
                if self.random.chance(15) {
                    body.push(simple(*self.random.pick(&[BREAK, CONTINUE])));
                }
                self.frames = kept;
                for_loop(name, iterable, body)
            }
            _ => self.definition(room),
        }
    }

    fn branches(&mut self, room: usize) -> Item {
        let count = 1 + self.random.below(3);
        let has_else = self.random.chance(50);
        let entry = self.frames.clone();
        let share = room / (count + 1) + 1;
        let mut arms = Vec::new();
        let mut after: Vec<Vec<(u32, Shape)>> = Vec::new();
        for _ in 0..count {
            self.frames = entry.clone();
            let condition = self.condition();
            let body = self.body(share);
            after.push(self.frames.last().expect("there is a frame").clone());
            arms.push((condition, body));
        }
        let mut last = None;
        if has_else {
            self.frames = entry.clone();
            last = Some(self.body(share));
            after.push(self.frames.last().expect("there is a frame").clone());
        }
        self.frames = entry;
        if self.agree(&after) || self.random.chance(self.habits.chaos) {
            if_else(arms, last)
        } else {
            simple(PASS)
        }
    }

    /// Merges the branches' newest frames into the model; false where they disagree.
    fn agree(&mut self, after: &[Vec<(u32, Shape)>]) -> bool {
        let base = self.frames.last().expect("there is a frame").clone();
        let mut merged: Vec<(u32, Shape)> = Vec::new();
        for (name, shape) in after.iter().flatten() {
            if *shape == Shape::Unknown || base.contains(&(*name, shape.clone())) {
                continue;
            }
            match merged.iter().find(|(n, _)| n == name) {
                Some((_, other)) if other != shape => return false,
                Some(_) => {}
                None => merged.push((*name, shape.clone())),
            }
        }
        for (name, shape) in merged {
            self.bind(name, shape);
        }
        true
    }

    fn definition(&mut self, room: usize) -> Item {
        let (name, params) = match self.functions.is_empty() {
            true => (self.any_plain(), self.random.below(3)),
            false => *self.random.pick(&self.functions),
        };
        let params: Vec<u32> = (0..params).map(|_| self.any_plain()).collect();
        let kept = self.frames.clone();
        self.frames.push(params.iter().map(|param| (*param, Shape::Unknown)).collect());
        let returns = self.returns.take();
        let mut body = self.body(room);
        if self.random.chance(40) {
            body.push(self.return_statement());
        }
        self.returns = returns;
        self.frames = kept;
        def(name, &params, body)
    }

    fn condition(&mut self) -> Item {
        if self.random.chance(self.habits.chaos / 3) {
            return self.anything(2);
        }
        self.of(&Shape::Bool, 2)
    }

    /// Something that a For goes through, and what its name gets.
    fn iterable(&mut self) -> (Item, Shape) {
        if self.random.chance(self.habits.chaos / 2) {
            return (self.anything(2), Shape::Unknown);
        }
        let inner = self.shape(1);
        let (shape, element) = match self.random.below(7) {
            0 | 1 => (Shape::List(Box::new(inner.clone())), inner),
            2 => (Shape::Dict(Box::new(inner.clone()), Box::new(Shape::Int)), inner),
            3 => (Shape::String, Shape::String),
            4 => (Shape::Tuple(vec![inner.clone(), inner.clone()]), inner),
            5 => (Shape::Unknown, Shape::Unknown),
            _ => (Shape::Range, Shape::Int),
        };
        (self.of(&shape, 2), element)
    }

    // ---- expressions

    pub fn shape(&mut self, depth: usize) -> Shape {
        if depth > 0 && self.random.chance(35) {
            let inner = |grower: &mut Grower| Box::new(grower.shape(depth - 1));
            return match self.random.below(6) {
                0 | 1 => Shape::List(inner(self)),
                2 => Shape::Dict(inner(self), inner(self)),
                3 => Shape::MapIter,
                4 => Shape::FilterIter(inner(self)),
                _ => Shape::Tuple((0..self.random.below(4)).map(|_| self.shape(depth - 1)).collect()),
            };
        }
        let plain = [
            Shape::Int,
            Shape::Int,
            Shape::Bool,
            Shape::String,
            Shape::String,
            Shape::Float,
            Shape::NoneType,
            Shape::Range,
            Shape::Function,
            Shape::Unknown,
        ];
        self.random.pick(&plain).clone()
    }

    /// An expression of any shape.
    pub fn anything(&mut self, depth: usize) -> Item {
        let shape = self.shape(2);
        self.of(&shape, depth)
    }

    fn named(&self, text: &str) -> Option<u32> {
        self.builtins.iter().find(|(known, _)| *known == text).map(|(_, name)| *name)
    }

    /// A call of that builtin with arguments as its registry entry wants them, or of any name if the program
    /// has no such builtin.
    pub fn builtin(&mut self, text: &str, depth: usize) -> Item {
        let name = match self.named(text) {
            Some(name) => name,
            None => return call(variable(self.any_plain()), vec![]),
        };
        let record = self.program.names[name as usize].clone();
        let count = match record.role {
            1 => record.p as usize,
            2 if record.p <= record.q => self.random.within(record.p as usize, record.q.min(record.p + 3) as usize),
            3 => self.random.below(4),
            _ => 1,
        };
        let count = count.min(6);
        let count = if self.random.chance(self.habits.chaos / 3) { self.random.below(4) } else { count };
        let args = (0..count)
            .map(|nth| {
                if self.random.chance(self.habits.chaos / 2) {
                    return self.anything(depth.saturating_sub(1));
                }
                match (text, nth) {
                    ("input", _) => self.of(&Shape::String, 1),
                    ("range", _) => self.of(&Shape::Int, 1),
                    ("len", 0) => self.of(&Shape::List(Box::new(Shape::Int)), 1),
                    ("map", 0) | ("filter", 0) => self.of(&Shape::Function, 0),
                    ("map", 1) | ("filter", 1) => self.of(&Shape::Range, 1),
                    _ => self.anything(depth.saturating_sub(1)),
                }
            })
            .collect();
        call(variable(name), args)
    }

    /// An expression that T should give this shape, unless chaos strikes.
    pub fn of(&mut self, shape: &Shape, depth: usize) -> Item {
        if self.inside >= INNERMOST {
            return self.leaf(shape);
        }
        self.inside += 1;
        let grown = self.grown(shape, depth);
        self.inside -= 1;
        grown
    }

    fn leaf(&mut self, shape: &Shape) -> Item {
        match shape {
            Shape::Int => literal(INT),
            Shape::Bool => literal(BOOL),
            Shape::String => literal(STRING),
            Shape::Float => literal(FLOAT),
            Shape::NoneType => literal(NONE),
            Shape::Tuple(_) => tuple(Vec::new()),
            Shape::List(_) => list(Vec::new()),
            Shape::Dict(..) => dict(Vec::new()),
            Shape::Function => lambda(),
            _ => variable(self.any_plain()),
        }
    }

    fn grown(&mut self, shape: &Shape, depth: usize) -> Item {
        if self.random.chance(self.habits.chaos / 2) {
            let other = self.shape(1);
            return self.plainly(&other, depth);
        }
        // A name of that shape, most readily for big ones.
        if self.random.chance(35) {
            let fitting: Vec<u32> = self.plain.iter().copied().filter(|name| self.find(*name) == Some(shape)).collect();
            if !fitting.is_empty() {
                return variable(*self.random.pick(&fitting));
            }
        }
        if depth == 0 || self.random.chance(30) {
            return self.plainly(shape, depth);
        }
        self.composed(shape, depth - 1)
    }

    /// The plainest expression of a shape.
    fn plainly(&mut self, shape: &Shape, depth: usize) -> Item {
        let less = depth.saturating_sub(1);
        match shape {
            Shape::Unknown => self.unknown(less),
            Shape::Int => literal(INT),
            Shape::Bool => literal(BOOL),
            Shape::String => literal(STRING),
            Shape::Float => literal(FLOAT),
            Shape::NoneType => literal(NONE),
            Shape::Range => self.builtin("range", less),
            Shape::Function => lambda(),
            Shape::List(inner) => {
                let count = if **inner == Shape::Unknown { self.random.below(2) } else { self.random.within(1, 3) };
                list((0..count).map(|_| self.of(inner, less)).collect())
            }
            Shape::Dict(key, value) => {
                let count = self.random.within(1, 2);
                dict((0..2 * count).map(|i| self.of(if i % 2 == 0 { key } else { value }, less)).collect())
            }
            Shape::Tuple(inner) => tuple(inner.iter().map(|part| self.of(part, less)).collect()),
            Shape::MapIter => self.builtin("map", less),
            Shape::FilterIter(inner) => match self.named("filter") {
                Some(name) => {
                    let through = self.of(&Shape::List(inner.clone()), less);
                    call(variable(name), vec![lambda(), through])
                }
                None => lambda(),
            },
        }
    }

    fn unknown(&mut self, depth: usize) -> Item {
        match self.random.below(8) {
            0 => attribute(self.anything(depth.min(1))),
            1 => set((0..self.random.below(3)).map(|_| self.anything(depth.min(1))).collect()),
            2 => tree_set((0..self.random.below(3)).map(|_| self.anything(depth.min(1))).collect()),
            3 if !self.functions.is_empty() => {
                let (name, params) = *self.random.pick(&self.functions);
                call(variable(name), (0..params).map(|_| self.anything(depth.min(1))).collect())
            }
            4 => call(
                attribute(self.anything(0)),
                (0..self.random.below(3)).map(|_| self.anything(depth.min(1))).collect(),
            ),
            5 => index(tuple(vec![literal(INT), literal(STRING)]), literal(INT)),
            _ => {
                let fresh: Vec<u32> = self
                    .plain
                    .iter()
                    .copied()
                    .filter(|name| self.find(*name).map_or(true, |shape| *shape == Shape::Unknown))
                    .collect();
                match fresh.is_empty() {
                    true => attribute(lambda()),
                    false => variable(*self.random.pick(&fresh)),
                }
            }
        }
    }

    /// Operators, calls and indexing that give a shape.
    fn composed(&mut self, shape: &Shape, depth: usize) -> Item {
        let listed = Shape::List(Box::new(shape.clone()));
        match (shape, self.random.below(6)) {
            (Shape::Int, 0) => {
                binary(*self.random.pick(&[0, 1, 2, 4, 5]), self.of(shape, depth), self.of(shape, depth))
            }
            (Shape::Int, 1) => unary(*self.random.pick(&[1, 2]), self.of(shape, depth)),
            (Shape::Int, 2) => self.builtin("len", depth),
            (Shape::Int, 3) => {
                binary(*self.random.pick(&[0, 1, 2]), self.of(shape, depth), self.of(&Shape::Unknown, depth))
            }
            (Shape::Float, 0) => binary(3, self.of(&Shape::Int, depth), self.of(&Shape::Int, depth)),
            (Shape::Float, 1) => {
                binary(*self.random.pick(&[0, 1, 2, 3, 4, 5]), self.of(&Shape::Int, depth), self.of(shape, depth))
            }
            (Shape::Float, 2) => unary(*self.random.pick(&[1, 2]), self.of(shape, depth)),
            (Shape::String, 0) => binary(0, self.of(shape, depth), self.of(shape, depth)),
            (Shape::String, 1) => binary(2, self.of(shape, depth), self.of(&Shape::Int, depth)),
            (Shape::String, 2) => self.builtin("input", depth),
            (Shape::String, 3) => index(self.of(shape, depth), self.of(&Shape::Int, depth)),
            (Shape::Bool, 0) => {
                let inner = self.random.pick(&[Shape::Int, Shape::Float, Shape::String]).clone();
                binary(self.random.within(8, 11) as u32, self.of(&inner, depth), self.of(&inner, depth))
            }
            (Shape::Bool, 1) => {
                let inner = self.shape(1);
                binary(self.random.within(6, 7) as u32, self.of(&inner, depth), self.of(&inner, depth))
            }
            (Shape::Bool, 2) => unary(0, self.of(shape, depth)),
            (Shape::Bool, 3) => binary(self.random.within(12, 13) as u32, self.anything(depth), self.anything(depth)),
            (Shape::Bool, 4) => unary(0, self.of(&Shape::Unknown, depth)),
            (_, 4) => index(self.of(&listed, depth), self.of(&Shape::Int, depth)),
            (_, 5) => {
                let key = self.shape(0);
                let dict = Shape::Dict(Box::new(key.clone()), Box::new(shape.clone()));
                index(self.of(&dict, depth), self.of(&key, depth))
            }
            _ => self.plainly(shape, depth + 1),
        }
    }
}

/// Texts of plain names: short ones, some that share beginnings, some with odd bytes, some long.
fn plain_text(i: usize, random: &mut Random) -> String {
    let letter = (b'a' + (i % 26) as u8) as char;
    let text = match (i / 26, random.below(12)) {
        (0, 0) => format!("{}!", letter),
        (0, 1) => format!("{}~{}", letter, "\\\"'#"),
        (0, 2) => letter.to_string().repeat(random.within(2, 64)),
        (0, _) => letter.to_string(),
        (n, _) => format!("{}{}", letter, n),
    };
    text
}

/// Any role that the image's rules allow a builtin of this text.
pub fn odd_role(text: &str, random: &mut Random) -> (u32, u32, u32) {
    let needed = match text {
        "int" | "float" | "bool" | "str" | "len" | "assert" => 1,
        "map" | "filter" => 2,
        _ => 0,
    };
    let large = [7, 255, 65_536, 0x8000_0000, u32::MAX];
    match random.below(8) {
        0 => (0, 0, 0),
        1 => (4, random.below(4) as u32, 0),
        2 if needed == 0 => (3, 0, 0),
        3 => (2, needed.max(1) + random.below(3) as u32, random.below(2) as u32),
        4 => (2, needed + random.below(2) as u32, *random.pick(&large)),
        5 => (1, *random.pick(&large), 0),
        6 => (1, needed + random.below(3) as u32, 0),
        _ => {
            let p = needed + random.below(2) as u32;
            (2, p, p + random.below(3) as u32)
        }
    }
}

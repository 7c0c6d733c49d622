//! All programs of a few nodes over two names.

use crate::image::kind::*;
use crate::program::*;

/// Pairs of names to run through: text, role, p, q.
pub const PAIRS: [[(&str, u32, u32, u32); 2]; 12] = [
    [("a", 0, 0, 0), ("b", 0, 0, 0)],
    [("f", 4, 1, 0), ("x", 0, 0, 0)],
    [("len", 1, 1, 0), ("x", 0, 0, 0)],
    [("map", 2, 2, 2), ("x", 0, 0, 0)],
    [("filter", 2, 2, 2), ("x", 0, 0, 0)],
    [("range", 2, 0, 3), ("x", 0, 0, 0)],
    [("print", 3, 0, 0), ("x", 0, 0, 0)],
    [("input", 2, 0, 2), ("x", 0, 0, 0)],
    [("int", 2, 1, 2), ("x", 0, 0, 0)],
    [("assert", 1, 1, 0), ("str", 1, 1, 0)],
    [("bool", 2, 1, 0), ("float", 1, 1, 0)],
    [("set", 2, 0, 1), ("x", 4, 0, 0)],
];

/// The expressions, statements and sequences of each size, made once and put together again and again.
pub struct All {
    expressions: Vec<Vec<Item>>,
    expression_lists: Vec<Vec<Vec<Item>>>,
    statements: Vec<Vec<Item>>,
    bodies: Vec<Vec<Vec<Item>>>,
}

/// All sequences of items whose sizes come to `total`.
fn sequences(items: &[Vec<Item>], known: &[Vec<Vec<Item>>], total: usize) -> Vec<Vec<Item>> {
    if total == 0 {
        return vec![Vec::new()];
    }
    let mut found = Vec::new();
    for first in 1..=total {
        for item in &items[first] {
            for rest in &known[total - first] {
                let mut sequence = vec![item.clone()];
                sequence.extend_from_slice(rest);
                found.push(sequence);
            }
        }
    }
    found
}

impl All {
    /// Everything of up to `nodes` nodes. The last size of statement sequences is left to `programs`.
    pub fn new(nodes: usize) -> All {
        let mut all = All {
            expressions: vec![Vec::new()],
            expression_lists: vec![vec![Vec::new()]],
            statements: vec![Vec::new()],
            bodies: vec![vec![Vec::new()]],
        };
        for size in 1..=nodes {
            let expressions = if size < nodes { all.expressions_of(size) } else { Vec::new() };
            all.expressions.push(expressions);
            let lists =
                if size + 1 < nodes { sequences(&all.expressions, &all.expression_lists, size) } else { Vec::new() };
            all.expression_lists.push(lists);
            let statements = all.statements_of(size);
            all.statements.push(statements);
            let bodies = if size < nodes { sequences(&all.statements, &all.bodies, size) } else { Vec::new() };
            all.bodies.push(bodies);
        }
        all
    }

    fn expressions_of(&self, size: usize) -> Vec<Item> {
        let mut found = Vec::new();
        if size == 1 {
            found.extend((0..5).map(literal));
            found.extend((0..2).map(variable));
            found.push(lambda());
            found.extend([LIST, DICT, TUPLE, SET, TREE_SET].iter().map(|kind| simple(*kind)));
            return found;
        }
        for inner in &self.expressions[size - 1] {
            found.extend((0..3).map(|op| unary(op, inner.clone())));
            found.push(attribute(inner.clone()));
        }
        for left_size in 1..size - 1 {
            for left in &self.expressions[left_size] {
                for right in &self.expressions[size - 1 - left_size] {
                    found.extend((0..14).map(|op| binary(op, left.clone(), right.clone())));
                    found.push(index(left.clone(), right.clone()));
                }
            }
        }
        for callee_size in 1..size {
            for callee in &self.expressions[callee_size] {
                for args in &self.expression_lists[size - 1 - callee_size] {
                    found.push(call(callee.clone(), args.clone()));
                }
            }
        }
        let lists = sequences(&self.expressions, &self.expression_lists, size - 1);
        for parts in lists {
            if parts.len() % 2 == 0 {
                found.push(dict(parts.clone()));
            }
            found.extend([LIST, TUPLE, SET, TREE_SET].iter().map(|kind| Item::new(*kind, 0, parts.clone())));
        }
        found
    }

    fn statements_of(&self, size: usize) -> Vec<Item> {
        let mut found = Vec::new();
        if size == 1 {
            found.extend([BREAK, CONTINUE, PASS, CLASS].iter().map(|kind| simple(*kind)));
            return found;
        }
        for value in &self.expressions[size - 1] {
            found.push(expr(value.clone()));
            found.push(returned(value.clone()));
        }
        for target_size in 1..size - 1 {
            for target in &self.expressions[target_size] {
                for value in &self.expressions[size - 1 - target_size] {
                    found.push(assign(target.clone(), value.clone()));
                }
            }
        }
        for condition_size in 1..size - 1 {
            for condition in &self.expressions[condition_size] {
                // The Block itself is a node.
                let left = size - 2 - condition_size;
                for body in &self.bodies[left] {
                    found.push(while_loop(condition.clone(), body.clone()));
                    found.extend((0..2).map(|name| for_loop(name, condition.clone(), body.clone())));
                }
                for rest in self.arms(left) {
                    let mut parts = vec![condition.clone()];
                    parts.extend(rest);
                    found.push(Item::new(IF, 0, parts));
                }
            }
        }
        for params in 0..size - 1 {
            for body in &self.bodies[size - 2 - params] {
                for choice in 0..1u32 << params {
                    let params: Vec<u32> = (0..params).map(|bit| choice >> bit & 1).collect();
                    found.extend((0..2).map(|name| def(name, &params, body.clone())));
                }
            }
        }
        found
    }

    /// What may stand behind an If's first condition: a Block of some of the nodes left, perhaps followed by
    /// an else Block or by further arms.
    fn arms(&self, left: usize) -> Vec<Vec<Item>> {
        let mut found = Vec::new();
        for body_size in 0..=left {
            for body in &self.bodies[body_size] {
                let first = block(body.clone());
                let rest = left - body_size;
                if rest == 0 {
                    found.push(vec![first]);
                    continue;
                }
                for last in &self.bodies[rest - 1] {
                    found.push(vec![first.clone(), block(last.clone())]);
                }
                for condition_size in 1..rest {
                    for condition in &self.expressions[condition_size] {
                        for more in self.arms(rest - 1 - condition_size) {
                            let mut parts = vec![first.clone(), condition.clone()];
                            parts.extend(more);
                            found.push(parts);
                        }
                    }
                }
            }
        }
        found
    }

    /// Calls `each` with every program of exactly `nodes` nodes besides the module's Block.
    pub fn programs(&self, nodes: usize, names: &[(&str, u32, u32, u32); 2], each: &mut dyn FnMut(&Program)) {
        let mut program = Program::new();
        for (text, role, p, q) in names.iter() {
            program.role(text, *role, *p, *q);
        }
        if nodes == 0 {
            each(&program);
            return;
        }
        for first_size in 1..=nodes {
            for first in &self.statements[first_size] {
                for rest in &self.bodies[nodes - first_size] {
                    program.body.clear();
                    program.body.push(first.clone());
                    program.body.extend_from_slice(rest);
                    each(&program);
                }
            }
        }
    }
}

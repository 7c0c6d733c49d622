//! Which names a module may bind, by the form of its statements: document 02's second request, over the tree that T takes.
//!
//! "From now on the sheet lists each name that an Assign or a For at module level may bind, through If, While and For bodies at
//! any depth, but not inside Def or Class, together with all names of the module frame. A listed name that the frame lacks is
//! Unknown. An Assign may bind the Variables that are its target or lie within it through Tuples alone, by form, even where an
//! error keeps one from being bound."
//!
//! T has no say in this: it hands out a frame, and the form says the rest.

use crate::parser::ast::{Expr, ExprS, Stmt, StmtS};
use crate::semantic::Tree;
use std::collections::HashMap;

/// Names with their types.
type Listed = HashMap<String, Tree>;

/// What the sheet lists for a module that T left with this frame.
pub fn listed(module: &[StmtS], frame: Listed) -> Listed {
    let mut listed = frame;
    block(module, &mut listed);
    listed
}

/// What a module or a body may bind.
fn block(statements: &[StmtS], listed: &mut Listed) {
    statements.iter().for_each(|(stmt, _)| statement(stmt, listed));
}

fn statement(stmt: &Stmt, listed: &mut Listed) {
    match stmt {
        Stmt::Assign { target, .. } => variables(target, listed),
        Stmt::If { then_block, elif_blocks, else_block, .. } => {
            block(then_block, listed);
            elif_blocks.iter().for_each(|(_, body)| block(body, listed));
            else_block.iter().for_each(|body| block(body, listed));
        }
        Stmt::While { body, .. } => block(body, listed),
        Stmt::For { var, body, .. } => {
            bound(var, listed);
            block(body, listed);
        }
        Stmt::Def { .. } | Stmt::Class { .. } => {}
        Stmt::Return(_) | Stmt::Expr(_) | Stmt::Break | Stmt::Continue | Stmt::Pass => {}
    }
}

/// The Variable that a target is, or those within it through Tuples alone.
fn variables((target, _): &ExprS, listed: &mut Listed) {
    match target {
        Expr::Variable(name) => bound(name, listed),
        Expr::Tuple(parts) => parts.iter().for_each(|part| variables(part, listed)),
        _ => {}
    }
}

/// A name that the frame has keeps its type.
fn bound(name: &str, listed: &mut Listed) {
    if !listed.contains_key(name) {
        listed.insert(name.to_string(), Tree::Unknown);
    }
}

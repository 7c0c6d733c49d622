//! T's `crate::semantic`: stand-ins for what T takes from it, T itself in three forms, each also with its dropped
//! results handed on (strict), and the hooks that the edited forms call.

use crate::types::Span;
use std::cell::Cell;
use std::collections::{HashMap, HashSet};

#[derive(Debug, Clone, PartialEq)]
pub struct SemanticError {
    pub message: String,
    pub span: Span,
}

pub type SemanticResult<T> = Result<T, SemanticError>;

/// What T knows of the program beforehand: functions with their number of parameters (role 4).
pub struct ProgramContext {
    pub functions: HashMap<String, usize>,
}

/// T, byte for byte.
#[allow(dead_code, clippy::all)]
pub mod as_is {
    include!(concat!(env!("OUT_DIR"), "/as_is.rs"));
}

/// T with its frames handed out, and an end at a ninth frame.
#[allow(dead_code, clippy::all)]
pub mod framed {
    include!(concat!(env!("OUT_DIR"), "/framed.rs"));
}

/// The same, merging names in byte order.
#[allow(dead_code, clippy::all)]
pub mod sorted {
    include!(concat!(env!("OUT_DIR"), "/sorted.rs"));
}

/// The three in strict: the results that T drops are handed on.
#[allow(dead_code, clippy::all)]
pub mod strict_as_is {
    include!(concat!(env!("OUT_DIR"), "/strict_as_is.rs"));
}

#[allow(dead_code, clippy::all)]
pub mod strict_framed {
    include!(concat!(env!("OUT_DIR"), "/strict_framed.rs"));
}

#[allow(dead_code, clippy::all)]
pub mod strict_sorted {
    include!(concat!(env!("OUT_DIR"), "/strict_sorted.rs"));
}

/// T's `Ty`, readable from outside.
#[derive(Debug, Clone, PartialEq)]
pub enum Tree {
    Int,
    Bool,
    String,
    Float,
    NoneType,
    Unknown,
    List(Box<Tree>),
    Dict(Box<Tree>, Box<Tree>),
    Tuple(Vec<Tree>),
    Range,
    Function,
    MapIter(Box<Tree>),
    FilterIter(Box<Tree>),
}

/// T's frames at the end of a program, the module's first.
pub type Frames = Vec<HashMap<String, Tree>>;

/// The frames that there may be, the module's among them.
pub const FRAMES: usize = 8;

/// Thrown through T's walk by a Def that needs a ninth frame: not even a body whose errors are dropped
/// stops it.
pub struct NinthFrame {
    pub node: usize,
}

/// Asked by a Def before it pushes its frame.
fn room_for_a_frame(frames: usize, def: &Span) {
    if frames >= FRAMES {
        // No panic hook runs, so nothing is printed.
        std::panic::resume_unwind(Box::new(NinthFrame { node: def.start }));
    }
}

thread_local! {
    /// How many names the last merge goes over. Merges do not nest.
    static MERGING: Cell<usize> = Cell::new(0);
    static ORDER_SHOWS: Cell<bool> = Cell::new(false);
}

fn in_byte_order(names: HashSet<String>) -> Vec<String> {
    MERGING.with(|merging| merging.set(names.len()));
    let mut sorted: Vec<String> = names.into_iter().collect();
    sorted.sort_unstable();
    sorted
}

/// Called where a merge ends in 23. With one name there is only one order; with two or more another order
/// may name another variable, or commit other names before.
fn merge_refused(span: Span) -> Span {
    if MERGING.with(|merging| merging.get()) >= 2 {
        ORDER_SHOWS.with(|shows| shows.set(true));
    }
    span
}

/// Whether the order of a merge can have shown since the last call.
pub fn take_order_shows() -> bool {
    ORDER_SHOWS.with(|shows| shows.replace(false))
}

//! T's `crate::parser`: only the tree, which is the given ast.rs itself.

#[allow(dead_code)]
pub mod ast {
    include!(concat!(env!("OUT_DIR"), "/ast.rs"));
}

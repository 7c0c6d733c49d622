//! T's `crate::vm`: only `Arity`, cut from the given type_def.rs.

pub mod type_def {
    include!(concat!(env!("OUT_DIR"), "/arity.rs"));
}

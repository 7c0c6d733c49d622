//! T's `crate::builtins`: `BuiltinFunction` is the given one; the registry is replaced by the name records
//! of the image under judgement.

use crate::image::{Name, Role};
use crate::vm::type_def::Arity;
use std::cell::RefCell;
use std::collections::{HashMap, HashSet};

#[allow(dead_code)]
mod given {
    use super::Arity;
    include!(concat!(env!("OUT_DIR"), "/builtin.rs"));
}
pub use given::BuiltinFunction;

thread_local! {
    static REGISTRY: RefCell<HashMap<String, BuiltinFunction>> = RefCell::new(HashMap::new());
    static TEXTS: RefCell<HashSet<&'static str>> = RefCell::new(HashSet::new());
}

/// From here on, on this thread, `lookup` answers from these names. Roles 1 to 3 are builtins.
pub fn register(names: &[Name]) {
    let builtins = names.iter().filter_map(|name| {
        let arity = match name.role {
            Role::Exactly(p) => Arity::Exact(p as usize),
            Role::Between(p, q) => Arity::Range(p as usize, q as usize),
            Role::Any => Arity::Variadic,
            Role::Plain | Role::Takes(_) => return None,
        };
        let builtin = BuiltinFunction { name: lasting(&name.text), arity, builtin_id: 0 };
        Some((name.text.clone(), builtin))
    });
    REGISTRY.with(|registry| *registry.borrow_mut() = builtins.collect());
}

/// T's `lookup` gives a reference into a static table; a copy serves the same uses.
pub fn lookup(name: &str) -> Option<BuiltinFunction> {
    REGISTRY.with(|registry| registry.borrow().get(name).copied())
}

/// A text that lives for ever, as a builtin's name does in T. Each distinct text is leaked once.
fn lasting(text: &str) -> &'static str {
    TEXTS.with(|texts| {
        let mut texts = texts.borrow_mut();
        if let Some(known) = texts.get(text) {
            return *known;
        }
        let leaked: &'static str = Box::leak(text.to_string().into_boxed_str());
        texts.insert(leaked);
        leaked
    })
}

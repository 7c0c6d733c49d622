//! T, unchanged, on one image, so many times: `t IMAGE N`. The tree is built once, before the first check, and what
//! the last check said is printed, so that it can be held against the other side's answer.
//!
//! The process as a whole is counted. The difference between N = 11 and N = 1 is ten checks and nothing else.

#[path = "../../oracle/src/builtins.rs"]
mod builtins;
#[allow(dead_code)]
#[path = "../../oracle/src/image.rs"]
mod image;
#[path = "../../oracle/src/parser.rs"]
mod parser;
#[allow(dead_code)]
#[path = "../../oracle/src/semantic.rs"]
mod semantic;
#[path = "../../oracle/src/tree.rs"]
mod tree;
#[path = "../../oracle/src/types.rs"]
mod types;
#[allow(dead_code)]
#[path = "../../oracle/src/vm.rs"]
mod vm;

use image::Role;
use semantic::{as_is::typecheck_program, ProgramContext};

/// Taken by the standard library instead of the system's: T's hash maps draw their keys from here, and with keys
/// that are drawn anew at each run no two counts would be equal. Each map still has keys of its own, as the
/// library counts them up.
///
/// # Safety
/// `buffer` must be writable for `length` bytes, as for the system's function.
#[no_mangle]
pub unsafe extern "C" fn getrandom(buffer: *mut u8, length: usize, _flags: u32) -> isize {
    for at in 0..length {
        *buffer.add(at) = (at as u8).wrapping_mul(37).wrapping_add(11);
    }
    length as isize
}

fn main() {
    let args: Vec<String> = std::env::args().collect();
    if args.len() != 3 {
        eprintln!("usage: t IMAGE N");
        std::process::exit(2);
    }
    let bytes = std::fs::read(&args[1]).expect("the image can be read");
    let times: u32 = args[2].parse().expect("N is a number");
    let image = match image::read(&bytes) {
        Ok(image) => image,
        Err(fault) => {
            println!("no tree: {} {}", fault.code, fault.place);
            return;
        }
    };
    let program = tree::program(&image);
    builtins::register(&image.names);
    let functions = image.names.iter().filter_map(|name| match name.role {
        Role::Takes(p) => Some((name.text.clone(), p as usize)),
        _ => None,
    });
    let context = ProgramContext { functions: functions.collect() };

    let mut last = Ok(());
    for _ in 0..times {
        // Read anew each time, so that no check can be taken for the one before.
        let program = unsafe { std::ptr::read_volatile(&&program) };
        last = typecheck_program(program, &context);
    }
    match last {
        Ok(()) => println!("accepted"),
        Err(error) => println!("refused {} {}", error.span.start, error.message),
    }
}

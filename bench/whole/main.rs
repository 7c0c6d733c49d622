//! The whole job in Rust, on one image, so many times: `whole IMAGE N`. A check starts from the image's bytes, as
//! ours does: the oracle's reader, its tree, T with its frames handed out, the names that the module may bind besides, and the
//! oracle's sheet writer. What the last check said is printed, in bench/t's form and then what T alone has no part in.
//!
//! The process as a whole is counted. The difference between N = 11 and N = 1 is ten checks and nothing else.

#[allow(dead_code)]
#[path = "../../oracle/src/answer.rs"]
mod answer;
#[path = "../../oracle/src/bound.rs"]
mod bound;
#[path = "../../oracle/src/builtins.rs"]
mod builtins;
#[allow(dead_code)]
#[path = "../../oracle/src/image.rs"]
mod image;
#[allow(dead_code)]
#[path = "../../oracle/src/judge.rs"]
mod judge;
#[allow(dead_code)]
#[path = "../../oracle/src/mistakes.rs"]
mod mistakes;
#[path = "../../oracle/src/parser.rs"]
mod parser;
#[allow(dead_code)]
#[path = "../../oracle/src/reference/mod.rs"]
mod reference;
#[allow(dead_code)]
#[path = "../../oracle/src/semantic.rs"]
mod semantic;
#[path = "../../oracle/src/sheet.rs"]
mod sheet;
#[path = "../../oracle/src/tree.rs"]
mod tree;
#[path = "../../oracle/src/types.rs"]
mod types;
#[allow(dead_code)]
#[path = "../../oracle/src/vm.rs"]
mod vm;

use answer::{Answer, MESSAGE_ROOM, SHEET_ROOM};
use judge::Outcome;

/// Taken by the standard library instead of the system's, as in bench/t, so that each run counts the same.
///
/// # Safety
/// `buffer` must be writable for `length` bytes, as for the system's function.
#[no_mangle]
pub unsafe extern "C" fn getrandom(buffer: *mut u8, length: usize, _flags: u32) -> isize {
    for at in 0..length {
        *buffer.add(at) = (at as u8).wrapping_mul(37).wrapping_add(11);
    }
    length as isize
}

/// T gives a text and no code. Which code a text stands for is looked up outside of what is counted.
const BY_ITS_TEXT: u32 = u32::MAX;

/// One check. T runs once, and nothing is copied that the answer does not need.
fn check(bytes: &[u8]) -> Answer {
    let image = match image::read(bytes) {
        Ok(image) => image,
        Err(fault) => return Answer::bare(fault.code, fault.place),
    };
    if let Some(node) = image.retired() {
        return Answer::bare(14, node);
    }
    let program = tree::program(&image);
    let context = judge::context(&image);
    match judge::outcome(|| semantic::framed::typecheck_program(&program, &context)) {
        Outcome::Accepted(mut frames) => {
            let sheet = sheet::sheet(&bound::listed(&program, frames.remove(0)));
            if sheet.len() > SHEET_ROOM {
                return Answer::bare(10, 0);
            }
            Answer { sheet, ..Answer::bare(0, 0) }
        }
        Outcome::Refused(error) => {
            let place = error.span.start;
            let mut message = error.message.into_bytes();
            if message.len() > MESSAGE_ROOM {
                message.clear();
            }
            let (span_start, span_end) = (image.nodes[place].span_start, image.nodes[place].span_end);
            Answer { span_start, span_end, message, ..Answer::bare(BY_ITS_TEXT, place as u32) }
        }
        Outcome::NinthFrame(node) => Answer::bare(9, node as u32),
    }
}

fn main() {
    let args: Vec<String> = std::env::args().collect();
    if args.len() != 3 {
        eprintln!("usage: whole IMAGE N");
        std::process::exit(2);
    }
    let bytes = std::fs::read(&args[1]).expect("the image can be read");
    let times: u32 = args[2].parse().expect("N is a number");

    let mut last = Answer::bare(0, 0);
    for _ in 0..times {
        // Read anew each time, so that no check can be taken for the one before.
        let bytes = unsafe { std::ptr::read_volatile(&&bytes) };
        last = check(bytes);
    }
    match last.code {
        0 => println!("accepted"),
        BY_ITS_TEXT => {
            last.code = judge::code_of(&last.message);
            println!("refused {} {}", last.place, String::from_utf8_lossy(&last.message));
        }
        code => println!("no tree: {} {}", code, last.place),
    }
    let sum = answer::fnv1a(&last.sheet);
    println!(
        "code {}, span {} to {}, sheet {} #{:016x}",
        last.code,
        last.span_start,
        last.span_end,
        last.sheet.len(),
        sum
    );
}

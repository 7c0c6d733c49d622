//! T as the judge of program images.

use crate::answer::{self, Answer, Rooms, Setting};
use crate::bound;
use crate::builtins;
use crate::image::{self, Image, Role};
use crate::parser::ast::StmtS;
use crate::reference;
use crate::semantic::{self, Frames, NinthFrame, ProgramContext, SemanticError, SemanticResult};
use crate::sheet;
use crate::tree;
use std::collections::BTreeMap;
use std::panic::{catch_unwind, AssertUnwindSafe};

/// Who gave an answer.
#[derive(Debug, Clone, Copy, PartialEq, Eq)]
pub enum Engine {
    /// Codes 1 to 8 and 14: the oracle's own reader of images. T has no say in these.
    Image,
    /// T byte for byte (in strict but for the results that it drops); the sheet comes from T with its frames handed out, which gave the same result.
    AsIs,
    /// T with merges in byte order: in this image the order of a merge shows.
    Sorted,
    /// T with an end at a ninth frame: T itself has as many frames as it likes.
    Ninth,
    /// T cannot hold the types of this image: document 01's rules decide alone, by the reference walk.
    TooLarge,
}

impl Engine {
    pub fn name(self) -> &'static str {
        match self {
            Engine::Image => "image",
            Engine::AsIs => "as-is",
            Engine::Sorted => "sorted",
            Engine::Ninth => "ninth",
            Engine::TooLarge => "too-large",
        }
    }
}

pub struct Judged {
    pub answer: Answer,
    pub engine: Engine,
}

/// T is not asked to copy more tree nodes than this. A node takes at most 32 bytes and about one allocation,
/// so that a run stays far below 1 GB even if nothing were freed, and takes well under a second.
const HEAVIEST: u64 = 1_500_000;

/// How a run of T ended.
#[derive(Debug, PartialEq)]
pub enum Outcome<T> {
    Accepted(T),
    Refused(SemanticError),
    NinthFrame(usize),
}

/// T's answer; or 14 where an image that is well formed has a TreeSet, of which T has no say since these are retired.
pub fn judge(bytes: &[u8], setting: Setting, rooms: Rooms) -> Judged {
    match image::read(bytes).ok().and_then(|image| image.retired()) {
        Some(node) => Judged { answer: Answer::bare(14, node), engine: Engine::Image },
        None => former(bytes, setting, rooms),
    }
}

/// T's answer as it was before TreeSets were retired; in strict, that of T with its dropped results handed on. T knows no
/// second span: where it answers 25 or 23, this is the reference walk's, and 0,0 for every other code.
pub fn former(bytes: &[u8], setting: Setting, rooms: Rooms) -> Judged {
    let image = match image::read(bytes) {
        Ok(image) => image,
        Err(fault) => return Judged { answer: Answer::bare(fault.code, fault.place), engine: Engine::Image },
    };
    let expected = reference::former(bytes, setting, rooms);
    if expected.weight > HEAVIEST {
        return Judged { answer: expected.answer, engine: Engine::TooLarge };
    }
    let program = tree::program(&image);
    let (outcome, engine) = run(&image, &program, setting);
    let mut answer = answer(&image, &program, outcome, rooms);
    if answer::has_second(answer.code) {
        answer.second = expected.answer.second;
    }
    Judged { answer, engine }
}

/// What T wants to know of an image beforehand; on this thread, builtins are this image's from here on.
pub fn context(image: &Image) -> ProgramContext {
    builtins::register(&image.names);
    let functions = image.names.iter().filter_map(|name| match name.role {
        Role::Takes(p) => Some((name.text.clone(), p as usize)),
        _ => None,
    });
    ProgramContext { functions: functions.collect() }
}

/// Runs T in its three forms, and holds them against each other wherever they must agree.
fn run(image: &Image, program: &[StmtS], setting: Setting) -> (Outcome<Frames>, Engine) {
    let context = context(image);
    semantic::take_order_shows();
    let sorted = outcome(|| match setting {
        Setting::Plain => semantic::sorted::typecheck_program(program, &context),
        Setting::Strict => semantic::strict_sorted::typecheck_program(program, &context),
    });
    if semantic::take_order_shows() {
        return (sorted, Engine::Sorted);
    }
    // Every merge so far could have gone in any order: the unsorted form does the same.
    let framed = outcome(|| match setting {
        Setting::Plain => semantic::framed::typecheck_program(program, &context),
        Setting::Strict => semantic::strict_framed::typecheck_program(program, &context),
    });
    assert_eq!(framed, sorted, "the order of a merge shows where it cannot");
    if let Outcome::NinthFrame(_) = framed {
        return (framed, Engine::Ninth);
    }
    let as_is = outcome(|| match setting {
        Setting::Plain => semantic::as_is::typecheck_program(program, &context),
        Setting::Strict => semantic::strict_as_is::typecheck_program(program, &context),
    });
    let same = match (&as_is, &framed) {
        (Outcome::Accepted(()), Outcome::Accepted(_)) => true,
        (Outcome::Refused(a), Outcome::Refused(b)) => a == b,
        _ => false,
    };
    assert!(same, "T as is and T with its frames handed out differ");
    (framed, Engine::AsIs)
}

/// What T as is says of an image, in so many runs, with how often: where the order of a merge shows, it need
/// not say the same each time. Nothing for an image that is refused, or that T cannot hold.
pub fn as_is_again(bytes: &[u8], runs: u64) -> BTreeMap<String, u64> {
    let mut said = BTreeMap::new();
    let image = match image::read(bytes) {
        Ok(image) if reference::former(bytes, Setting::Plain, Rooms::default()).weight <= HEAVIEST => image,
        _ => return said,
    };
    let program = tree::program(&image);
    let context = context(&image);
    for _ in 0..runs {
        let line = match semantic::as_is::typecheck_program(&program, &context) {
            Ok(()) => "accepted".to_string(),
            Err(error) => format!("{} at node {}", error.message, error.span.start),
        };
        *said.entry(line).or_insert(0) += 1;
    }
    said
}

pub fn outcome<T>(run: impl FnOnce() -> SemanticResult<T>) -> Outcome<T> {
    match catch_unwind(AssertUnwindSafe(run)) {
        Ok(Ok(value)) => Outcome::Accepted(value),
        Ok(Err(error)) => Outcome::Refused(error),
        Err(thrown) => match thrown.downcast::<NinthFrame>() {
            Ok(ninth) => Outcome::NinthFrame(ninth.node),
            // A panic of T's own: code 5 is there so that this cannot be.
            Err(other) => std::panic::resume_unwind(other),
        },
    }
}

fn answer(image: &Image, program: &[StmtS], outcome: Outcome<Frames>, rooms: Rooms) -> Answer {
    match outcome {
        Outcome::Accepted(mut frames) => {
            assert_eq!(frames.len(), 1, "an accepted program ends with exactly one frame");
            let sheet = sheet::sheet(&bound::listed(program, frames.remove(0)));
            if sheet.len() > rooms.sheet {
                return Answer::bare(10, 0);
            }
            Answer { sheet, ..Answer::bare(0, 0) }
        }
        Outcome::Refused(error) => {
            let node = image.nodes[error.span.start];
            let mut message = error.message.into_bytes();
            let code = code_of(&message);
            if message.len() > rooms.message {
                message.clear();
            }
            Answer {
                code,
                place: error.span.start as u32,
                span_start: node.span_start,
                span_end: node.span_end,
                second: (0, 0),
                sheet: Vec::new(),
                message,
            }
        }
        Outcome::NinthFrame(node) => Answer::bare(9, node as u32),
    }
}

/// Each typing code by how T's text for it begins and ends. A name has no spaces in it, so none can pass
/// for another text.
const TEXTS: [(u32, &str, &str); 31] = [
    (20, "SyntaxError: 'break' outside loop", ""),
    (21, "SyntaxError: 'continue' outside loop", ""),
    (22, "TypeError: inconsistent return types in function: ", ""),
    (23, "TypeError: variable '", "' has incompatible types across branches"),
    (24, "TypeError: type '", "' is not iterable"),
    (25, "TypeError: cannot assign value of type ", ""),
    (26, "TypeError: cannot unpack tuple of length ", " variables"),
    (27, "TypeError: cannot unpack non-iterable type ", ""),
    (28, "Invalid assignment target", ""),
    (29, "TypeError: unsupported operand types for +: ", ""),
    (30, "TypeError: unsupported operand types for *: ", ""),
    (31, "TypeError: cannot compare ", ""),
    (32, "TypeError: equality operands must have same type, got ", ""),
    (33, "TypeError: expected numeric types, got ", ""),
    (34, "TypeError: expected Int or Float, got ", ""),
    (35, "TypeError: expected Bool, got ", ""),
    (36, "TypeError: condition must be Bool", ""),
    (37, "ArityError: ", " given"),
    (38, "ArityError: function '", " were given"),
    (39, "TypeError: input() prompt must be a string, got ", ""),
    (40, "TypeError: object of type ", " has no len()"),
    (41, "TypeError: range() arguments must be integers, got ", ""),
    (42, "TypeError: map() argument 1 must be callable, got ", ""),
    (43, "TypeError: map() argument 2 must be iterable, got ", ""),
    (44, "TypeError: filter() argument 1 must be callable, got ", ""),
    (45, "TypeError: filter() argument 2 must be iterable, got ", ""),
    (46, "TypeError: list indices must be integers, not ", ""),
    (47, "TypeError: dictionary key type mismatch: expected ", ""),
    (48, "TypeError: tuple indices must be integers, not ", ""),
    (49, "TypeError: string indices must be integers, not ", ""),
    (50, "TypeError: type '", "' is not subscriptable"),
];

pub fn code_of(message: &[u8]) -> u32 {
    let fits = |(_, first, last): &&(u32, &str, &str)| {
        message.starts_with(first.as_bytes()) && message.ends_with(last.as_bytes())
    };
    // 38's text begins and ends as 37's does, and then some.
    let found: Vec<u32> = TEXTS.iter().filter(fits).map(|row| row.0).collect();
    match found[..] {
        [code] => code,
        [37, 38] => 38,
        _ => panic!("T says what no code stands for: {}", String::from_utf8_lossy(message)),
    }
}

//! Safe calls of Cablebirch, a proved script checker. What is proved is the two libraries that are linked; of this crate nothing is.
//!
//! A script loads unseen exactly when it is accepted and its type sheet equals the last approved sheet, byte for byte:
//!
//! ```no_run
//! # let (image, approved): (Vec<u8>, Vec<u8>) = (vec![], vec![]);
//! use cablebirch::{changes, load, show, Loading, Setting, CHANGES_MAX, MESSAGE_ROOM, SHEET_MAX, SHOW_MAX};
//! let (mut sheet, mut message) = (vec![0; SHEET_MAX], [0; MESSAGE_ROOM]);
//! match load(Setting::Strict, &image, &approved, &mut sheet, &mut message) {
//!     Loading::Loads { .. } => println!("loads unseen"),
//!     Loading::Look { sheet } => match changes(&approved, sheet, &mut vec![0; CHANGES_MAX]) {
//!         Ok(lines) => print!("someone must look at what changed:\n{}", lines),
//!         Err(_) => print!("no sheet is approved; the names:\n{}", show(sheet, &mut vec![0; SHOW_MAX]).unwrap()),
//!     },
//!     Loading::Refused(refusal) => println!("{}", refusal),
//! }
//! ```
//!
//! The functions keep no state: any number of threads may call them at once. They work on the caller's stack: [`check`] was seen to
//! need 198,688 bytes at most, [`load`] 198,704, [`read_sheet`] 89,760, [`write_sheet`] 89,872, [`show`] 124,032, [`changes`] 252,400,
//! [`steady`] 4,264 and [`convert`] 4,328, with a message buffer of more than [`MESSAGE_ROOM`] too (measured, not proved: `bench/stack`).

#![warn(missing_docs)]

use std::fmt;

/// No sheet is longer: with this much room, code 10 cannot come.
pub const SHEET_MAX: usize = 42_532;
/// No program image is longer: with this much room, code 15 cannot come.
pub const IMAGE_MAX: usize = 59_936;
/// No text of [`show`] is longer: with this much room, code 10 cannot come.
pub const SHOW_MAX: usize = 34_176;
/// No text of [`changes`] is longer: with this much room, code 10 cannot come.
pub const CHANGES_MAX: usize = 68_864;
/// The room for a message that the program `typecheck` has. A message that does not fit is left out whole.
pub const MESSAGE_ROOM: usize = 1_024;

/// The code for a TreeSet, which is retired: [`convert`] makes it a Set.
pub const RETIRED: u32 = 14;
/// The code for a name that would have different types by branch after an `if`.
pub const BRANCHES_DIFFER: u32 = 23;
/// The code for a name that gets a value of another type than it has.
pub const CANNOT_ASSIGN: u32 = 25;

/// What becomes of a typing error inside the body of an `if` or a `while`. What strict accepts, plain accepts with the same sheet.
#[derive(Debug, Clone, Copy, PartialEq, Eq)]
pub enum Setting {
    /// It is passed over.
    Plain = 0,
    /// It is the answer, as any other typing error.
    Strict = 1,
}

/// The answer to a program image.
#[derive(Debug, Clone, Copy, PartialEq, Eq)]
pub enum Answer<'a> {
    /// Code 0.
    Accepted {
        /// The type sheet: the front of the buffer that was lent for it. It lists each name that the script may assign outside functions and
        /// classes, loop names too.
        sheet: &'a [u8],
    },
    /// Every other code.
    Refused(Refusal<'a>),
}

/// Why an image was refused, and where.
#[derive(Debug, Clone, Copy, PartialEq, Eq)]
pub struct Refusal<'a> {
    /// 1 to 10, 14, or 20 to 50: see `docs/CODES.md`. Code 13, for a setting that is none, cannot come: a [`Setting`] is one.
    pub code: u32,
    /// Codes 4 and 5: a name's number; 6 to 9, 14 and 20 to 50: a node's number; else 0.
    pub place: usize,
    /// Codes 20 to 50: start and end of that node's span, as the image has them; else 0 and 0.
    pub span: (u32, u32),
    /// Codes 23 and 25, and no other: where the old type was first set, start and end as the image has the span. It is the name where it was
    /// assigned, or what a loop goes over if the loop binds the name.
    pub second: Option<(u32, u32)>,
    /// Codes 20 to 50: the message, the front of the buffer that was lent for it; empty if it did not fit, and for other codes.
    pub message: &'a [u8],
}

/// What the load rule says of a script.
#[derive(Debug, Clone, Copy, PartialEq, Eq)]
pub enum Loading<'a> {
    /// It is accepted and its sheet equals the approved one, byte for byte: it loads unseen.
    Loads {
        /// As [`Answer::Accepted`] has it.
        sheet: &'a [u8],
    },
    /// It is accepted with another sheet: someone must look at it.
    Look {
        /// As [`Answer::Accepted`] has it.
        sheet: &'a [u8],
    },
    /// It is not accepted.
    Refused(Refusal<'a>),
}

/// Whether a `def` stands anywhere inside an `if`.
#[derive(Debug, Clone, Copy, PartialEq, Eq)]
pub enum Steadiness {
    /// None does.
    Steady,
    /// One does. This is the first in program order.
    DefInIf {
        /// Its node's number.
        place: usize,
        /// Start and end of its span, as the image has them.
        span: (u32, u32),
    },
    /// The image is not well formed: code 1 to 8, as [`check`] refuses it under either setting.
    Refused(Refusal<'static>),
}

/// Why a sheet was not written again, or not told in words.
#[derive(Debug, Clone, Copy, PartialEq, Eq)]
pub enum SheetError {
    /// Code 10: the buffer is too short.
    TooShort,
    /// Code 12: the bytes are no type sheet.
    NoSheet,
}

/// Why a stored image was not converted.
#[derive(Debug, Clone, Copy, PartialEq, Eq)]
pub enum ConvertError {
    /// The image is not well formed: code 1 to 8, as [`check`] refuses it under either setting.
    Refused(Refusal<'static>),
    /// Code 15: the image is well formed, and the buffer is shorter.
    TooShort,
}

/// Judges a program image under a setting. An accepted one's sheet is written to the front of `sheet`, a typing error's message to
/// the front of `message`; no other byte of the two changes.
pub fn check<'a>(setting: Setting, image: &[u8], sheet: &'a mut [u8], message: &'a mut [u8]) -> Answer<'a> {
    // Safety: the pointers and lengths are those of slices, and the two that are written are borrowed by this call alone.
    let raw = unsafe {
        raw::cablebirch_check(
            setting as u32,
            image.as_ptr(),
            image.len(),
            sheet.as_mut_ptr(),
            sheet.len(),
            message.as_mut_ptr(),
            message.len(),
        )
    };
    if raw.code == 0 {
        return Answer::Accepted { sheet: &sheet[..raw.sheet_length] };
    }
    Answer::Refused(Refusal {
        code: raw.code,
        place: raw.place,
        span: (raw.span_start, raw.span_end),
        second: second(raw.code, raw.second_start, raw.second_end),
        message: &message[..raw.message_length],
    })
}

/// The second span of the codes that have one. It goes by the code: the image may have 0 and 0 there.
fn second(code: u32, start: u32, end: u32) -> Option<(u32, u32)> {
    matches!(code, BRANCHES_DIFFER | CANNOT_ASSIGN).then_some((start, end))
}

/// Whether these bytes are a type sheet, as a check writes it.
pub fn read_sheet(sheet: &[u8]) -> Result<(), SheetError> {
    // Safety: pointer and length are a slice's, and nothing is written.
    match unsafe { raw::cablebirch_read_sheet(sheet.as_ptr(), sheet.len()) } {
        0 => Ok(()),
        _ => Err(SheetError::NoSheet),
    }
}

/// Reads a sheet and writes it again to the front of `out`, which it hands back. On a refusal `out` is not touched.
pub fn write_sheet<'a>(sheet: &[u8], out: &'a mut [u8]) -> Result<&'a [u8], SheetError> {
    // Safety: the pointers and lengths are those of slices, and the one that is written is borrowed by this call alone.
    let raw = unsafe { raw::cablebirch_write_sheet(sheet.as_ptr(), sheet.len(), out.as_mut_ptr(), out.len()) };
    match raw.code {
        0 => Ok(&out[..raw.sheet_length]),
        10 => Err(SheetError::TooShort),
        _ => Err(SheetError::NoSheet),
    }
}

/// The load rule: judges an image as [`check`] does, with the same two buffers, and compares the sheet of an accepted one with the last
/// approved sheet. `approved` may be any bytes; what is no sheet equals none.
pub fn load<'a>(
    setting: Setting,
    image: &[u8],
    approved: &[u8],
    sheet: &'a mut [u8],
    message: &'a mut [u8],
) -> Loading<'a> {
    // Safety: the pointers and lengths are those of slices, and the two that are written are borrowed by this call alone.
    let raw = unsafe {
        raw::cablebirch_load(
            setting as u32,
            image.as_ptr(),
            image.len(),
            approved.as_ptr(),
            approved.len(),
            sheet.as_mut_ptr(),
            sheet.len(),
            message.as_mut_ptr(),
            message.len(),
        )
    };
    match raw.loading {
        0 => Loading::Loads { sheet: &sheet[..raw.sheet_length] },
        1 => Loading::Look { sheet: &sheet[..raw.sheet_length] },
        _ => Loading::Refused(Refusal {
            code: raw.code,
            place: raw.place,
            span: (raw.span_start, raw.span_end),
            second: second(raw.code, raw.second_start, raw.second_end),
            message: &message[..raw.message_length],
        }),
    }
}

/// The names of a sheet with their types, one line a name in byte order: `step: Int`. Types are in Rust's Debug form, `List(Int)`,
/// `Tuple([String, Int])`; one whose text is longer than 200 bytes is its outermost kind with dots, `Tuple(..)`. The text is the front of
/// `out`; on a refusal `out` is not touched.
pub fn show<'a>(sheet: &[u8], out: &'a mut [u8]) -> Result<&'a str, SheetError> {
    // Safety: the pointers and lengths are those of slices, and the one that is written is borrowed by this call alone.
    let raw = unsafe { raw::cablebirch_show(sheet.as_ptr(), sheet.len(), out.as_mut_ptr(), out.len()) };
    told(raw, out)
}

/// What changed from one sheet to another, one line a name that differs, in byte order: `+ mode: String`, `- laps: List(Int)`,
/// `~ step: Int -> Float`, with types as [`show`] has them. Empty exactly if the two sheets are equal byte for byte. The text is the front of
/// `out`; on a refusal `out` is not touched.
pub fn changes<'a>(old: &[u8], new: &[u8], out: &'a mut [u8]) -> Result<&'a str, SheetError> {
    // Safety: the pointers and lengths are those of slices, and the one that is written is borrowed by this call alone.
    let raw = unsafe {
        raw::cablebirch_changes(old.as_ptr(), old.len(), new.as_ptr(), new.len(), out.as_mut_ptr(), out.len())
    };
    told(raw, out)
}

/// Whether no `def` stands anywhere inside an `if`: at any depth, through loops and other defs, in any branch. A def that holds an `if` is no
/// matter.
///
/// What it is for: slots may be laid out while a script is read. Once a name's type is known after a module statement that was accepted, it
/// stays that type, with the place where it was first set, and it is the type in the sheet of the accepted script: in
/// [`Setting::Strict`] always, in [`Setting::Plain`] if the image is [`Steadiness::Steady`]. (Plain passes over errors inside an `if`, and a
/// def that fails there leaves its own variables behind.)
pub fn steady(image: &[u8]) -> Steadiness {
    // Safety: pointer and length are a slice's, and nothing is written.
    let raw = unsafe { raw::cablebirch_steady(image.as_ptr(), image.len()) };
    let (place, span) = (raw.place, (raw.span_start, raw.span_end));
    match (raw.steady, raw.code) {
        (1, _) => Steadiness::Steady,
        (_, 0) => Steadiness::DefInIf { place, span },
        (_, code) => Steadiness::Refused(Refusal { code, place, span, second: None, message: &[] }),
    }
}

/// Converts a stored image: each TreeSet (a node of kind 30) becomes a Set (29), and every other byte is the same. The converted image is
/// the front of `out` and as long as the image; on a refusal `out` is not touched. Nothing is typed: an image with typing errors is
/// converted too. One without TreeSets comes out as it is.
///
/// What it is for: TreeSets are retired, and [`check`] refuses an image that has one with code [`RETIRED`]. A check of the converted image
/// gives what a check of the old one gave before that: code, place, both spans, sheet and message, under either setting and with buffers of
/// any length. So an approved sheet stays approved.
pub fn convert<'a>(image: &[u8], out: &'a mut [u8]) -> Result<&'a [u8], ConvertError> {
    // Safety: the pointers and lengths are those of slices, and the one that is written is borrowed by this call alone.
    let raw = unsafe { raw::cablebirch_convert(image.as_ptr(), image.len(), out.as_mut_ptr(), out.len()) };
    let place = raw.place;
    match raw.code {
        0 => Ok(&out[..raw.length]),
        15 => Err(ConvertError::TooShort),
        code => Err(ConvertError::Refused(Refusal { code, place, span: (0, 0), second: None, message: &[] })),
    }
}

/// The text that was written to the front of `out`, or why none was.
fn told(raw: raw::RawWords, out: &[u8]) -> Result<&str, SheetError> {
    match raw.code {
        0 => Ok(std::str::from_utf8(&out[..raw.length]).expect("names and types are ASCII")),
        10 => Err(SheetError::TooShort),
        _ => Err(SheetError::NoSheet),
    }
}

/// The line that the program `typecheck` prints.
impl fmt::Display for Answer<'_> {
    fn fmt(&self, f: &mut fmt::Formatter<'_>) -> fmt::Result {
        match self {
            Answer::Accepted { sheet } => {
                let word = |at: usize| u32::from_le_bytes([0, 1, 2, 3].map(|i| sheet[4 * at + i]));
                write!(f, "accepted {} {} {}", word(5), word(1), sheet.len())
            }
            Answer::Refused(refusal) => refusal.fmt(f),
        }
    }
}

/// The line that the program `typecheck` prints; the second span is not in it.
impl fmt::Display for Refusal<'_> {
    fn fmt(&self, f: &mut fmt::Formatter<'_>) -> fmt::Result {
        let message = if self.message.is_empty() { "-".into() } else { String::from_utf8_lossy(self.message) };
        write!(f, "refused {} {} {} {} {}", self.code, self.place, self.span.0, self.span.1, message)
    }
}

impl fmt::Display for SheetError {
    fn fmt(&self, f: &mut fmt::Formatter<'_>) -> fmt::Result {
        f.write_str(match self {
            SheetError::TooShort => "the buffer is too short",
            SheetError::NoSheet => "not a type sheet",
        })
    }
}

impl std::error::Error for SheetError {}

impl fmt::Display for ConvertError {
    fn fmt(&self, f: &mut fmt::Formatter<'_>) -> fmt::Result {
        match self {
            ConvertError::Refused(refusal) => refusal.fmt(f),
            ConvertError::TooShort => f.write_str("the buffer is shorter than the image"),
        }
    }
}

impl std::error::Error for ConvertError {}

/// The libraries' own functions, as `include/cablebirch.h` has them.
mod raw {
    #[repr(C)]
    pub struct RawAnswer {
        pub code: u32,
        pub span_start: u32,
        pub span_end: u32,
        pub second_start: u32,
        pub second_end: u32,
        pub place: usize,
        pub sheet_length: usize,
        pub message_length: usize,
    }

    #[repr(C)]
    pub struct RawVerdict {
        pub loading: u32,
        pub code: u32,
        pub span_start: u32,
        pub span_end: u32,
        pub second_start: u32,
        pub second_end: u32,
        pub place: usize,
        pub sheet_length: usize,
        pub message_length: usize,
    }

    #[repr(C)]
    pub struct RawWords {
        pub code: u32,
        pub length: usize,
    }

    #[repr(C)]
    pub struct RawSteadiness {
        pub steady: u32,
        pub code: u32,
        pub span_start: u32,
        pub span_end: u32,
        pub place: usize,
    }

    #[repr(C)]
    pub struct RawConversion {
        pub code: u32,
        pub place: usize,
        pub length: usize,
    }

    extern "C" {
        pub fn cablebirch_check(
            setting: u32,
            image: *const u8,
            image_len: usize,
            sheet: *mut u8,
            sheet_len: usize,
            message: *mut u8,
            message_len: usize,
        ) -> RawAnswer;
        pub fn cablebirch_read_sheet(sheet: *const u8, len: usize) -> u32;
        pub fn cablebirch_write_sheet(sheet: *const u8, len: usize, out: *mut u8, out_len: usize) -> RawAnswer;
        pub fn cablebirch_load(
            setting: u32,
            image: *const u8,
            image_len: usize,
            approved: *const u8,
            approved_len: usize,
            sheet: *mut u8,
            sheet_len: usize,
            message: *mut u8,
            message_len: usize,
        ) -> RawVerdict;
        pub fn cablebirch_show(sheet: *const u8, len: usize, out: *mut u8, out_len: usize) -> RawWords;
        pub fn cablebirch_changes(
            old: *const u8,
            old_len: usize,
            new: *const u8,
            new_len: usize,
            out: *mut u8,
            out_len: usize,
        ) -> RawWords;
        pub fn cablebirch_steady(image: *const u8, image_len: usize) -> RawSteadiness;
        pub fn cablebirch_convert(image: *const u8, image_len: usize, out: *mut u8, out_len: usize) -> RawConversion;
    }
}

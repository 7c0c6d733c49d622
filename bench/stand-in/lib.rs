//! A stand-in for the archive, to try the harness with: the oracle's reference walk behind the archive's C interface.
//! It gives right answers, and its counts say nothing about our checker.

#[allow(dead_code)]
#[path = "../../oracle/src/answer.rs"]
mod answer;
#[allow(dead_code)]
#[path = "../../oracle/src/bound.rs"]
mod bound;
#[allow(dead_code)]
#[path = "../../oracle/src/builtins.rs"]
mod builtins;
#[allow(dead_code)]
#[path = "../../oracle/src/image.rs"]
mod image;
#[allow(dead_code)]
#[path = "../../oracle/src/judge.rs"]
mod judge;
#[allow(dead_code)]
#[path = "../../oracle/src/mistakes.rs"]
mod mistakes;
#[allow(dead_code)]
#[path = "../../oracle/src/parser.rs"]
mod parser;
#[allow(dead_code)]
#[path = "../../oracle/src/reference/mod.rs"]
mod reference;
#[allow(dead_code)]
#[path = "../../oracle/src/semantic.rs"]
mod semantic;
#[allow(dead_code)]
#[path = "../../oracle/src/sheet.rs"]
mod sheet;
#[allow(dead_code)]
#[path = "../../oracle/src/tree.rs"]
mod tree;
#[allow(dead_code)]
#[path = "../../oracle/src/types.rs"]
mod types;
#[allow(dead_code)]
#[path = "../../oracle/src/vm.rs"]
mod vm;

#[repr(C)]
pub struct CablebirchAnswer {
    code: u32,
    span_start: u32,
    span_end: u32,
    second_start: u32,
    second_end: u32,
    place: usize,
    sheet_length: usize,
    message_length: usize,
}

/// # Safety
/// Each pointer must be good for as many bytes as the length behind it says.
#[no_mangle]
pub unsafe extern "C" fn cablebirch_check(
    _plain: u32,
    image: *const u8,
    image_len: usize,
    sheet: *mut u8,
    sheet_len: usize,
    message: *mut u8,
    message_len: usize,
) -> CablebirchAnswer {
    let rooms = answer::Rooms { sheet: sheet_len, message: message_len };
    let bytes = std::slice::from_raw_parts(image, image_len);
    let told = reference::judge(bytes, answer::Setting::Plain, rooms, mistakes::Mind::SOUND).answer;
    std::ptr::copy_nonoverlapping(told.sheet.as_ptr(), sheet, told.sheet.len());
    std::ptr::copy_nonoverlapping(told.message.as_ptr(), message, told.message.len());
    CablebirchAnswer {
        code: told.code,
        place: told.place as usize,
        span_start: told.span_start,
        span_end: told.span_end,
        second_start: told.second.0,
        second_end: told.second.1,
        sheet_length: told.sheet.len(),
        message_length: told.message.len(),
    }
}

//! The setting's number, through the linked libraries' own functions: the crate's `Setting` lets only the two through.

// The crate is what links the libraries.
use cablebirch::{Setting, MESSAGE_ROOM, SHEET_MAX};
use std::fs;
use std::path::PathBuf;

/// As `include/cablebirch.h` has it.
#[repr(C)]
#[derive(Debug, PartialEq, Eq)]
struct RawAnswer {
    code: u32,
    span_start: u32,
    span_end: u32,
    second_start: u32,
    second_end: u32,
    place: usize,
    sheet_length: usize,
    message_length: usize,
}

/// As `include/cablebirch.h` has it.
#[repr(C)]
#[derive(Debug, PartialEq, Eq)]
struct RawVerdict {
    loading: u32,
    code: u32,
    span_start: u32,
    span_end: u32,
    second_start: u32,
    second_end: u32,
    place: usize,
    sheet_length: usize,
    message_length: usize,
}

extern "C" {
    fn cablebirch_check(
        setting: u32,
        image: *const u8,
        image_len: usize,
        sheet: *mut u8,
        sheet_len: usize,
        message: *mut u8,
        message_len: usize,
    ) -> RawAnswer;
    fn cablebirch_load(
        setting: u32,
        image: *const u8,
        image_len: usize,
        approved: *const u8,
        approved_len: usize,
        sheet: *mut u8,
        sheet_len: usize,
        message: *mut u8,
        message_len: usize,
    ) -> RawVerdict;
}

const NO_SETTING: u32 = 13;
const REFUSED: u32 = 2;

/// 256, 257 and 65536 are the two settings again to one who reads a part of the number.
const OTHERS: [u32; 6] = [2, 255, 256, 257, 65_536, u32::MAX];

fn checked(setting: u32, image: &[u8], sheet: &mut [u8], message: &mut [u8]) -> RawAnswer {
    // Safety: the pointers and lengths are those of slices, and the two that are written are borrowed by this call alone.
    unsafe {
        cablebirch_check(
            setting,
            image.as_ptr(),
            image.len(),
            sheet.as_mut_ptr(),
            sheet.len(),
            message.as_mut_ptr(),
            message.len(),
        )
    }
}

/// As `checked`, by the load rule.
fn loaded(setting: u32, image: &[u8], approved: &[u8], sheet: &mut [u8], message: &mut [u8]) -> RawVerdict {
    // Safety: as above.
    unsafe {
        cablebirch_load(
            setting,
            image.as_ptr(),
            image.len(),
            approved.as_ptr(),
            approved.len(),
            sheet.as_mut_ptr(),
            sheet.len(),
            message.as_mut_ptr(),
            message.len(),
        )
    }
}

fn file(name: &str) -> Vec<u8> {
    let folder = PathBuf::from(env!("CARGO_MANIFEST_DIR")).join("../../examples");
    fs::read(folder.join(name)).expect("the example's file can be read")
}

/// Images that get an answer of each kind: no image, accepted, and refused with a message.
fn images() -> Vec<Vec<u8>> {
    vec![vec![], file("bias.image"), file("race.image"), file("wet.image")]
}

#[test]
fn every_other_setting_is_refused_and_no_byte_changes() {
    for setting in OTHERS {
        for image in images() {
            let (mut sheet, mut message) = (vec![0xa5; SHEET_MAX], [0x5a; MESSAGE_ROOM]);
            let answer = checked(setting, &image, &mut sheet, &mut message);
            let refused = RawAnswer {
                code: NO_SETTING,
                span_start: 0,
                span_end: 0,
                second_start: 0,
                second_end: 0,
                place: 0,
                sheet_length: 0,
                message_length: 0,
            };
            assert_eq!(answer, refused, "{}", setting);
            assert!(sheet.iter().all(|b| *b == 0xa5), "{}", setting);
            assert!(message.iter().all(|b| *b == 0x5a), "{}", setting);
        }
    }
}

#[test]
fn no_other_setting_loads_and_no_byte_changes() {
    for setting in OTHERS {
        for image in images() {
            let (mut sheet, mut message) = (vec![0xa5; SHEET_MAX], [0x5a; MESSAGE_ROOM]);
            let verdict = loaded(setting, &image, &file("bias.sheet"), &mut sheet, &mut message);
            let refused = RawVerdict {
                loading: REFUSED,
                code: NO_SETTING,
                span_start: 0,
                span_end: 0,
                second_start: 0,
                second_end: 0,
                place: 0,
                sheet_length: 0,
                message_length: 0,
            };
            assert_eq!(verdict, refused, "{}", setting);
            assert!(sheet.iter().all(|b| *b == 0xa5), "{}", setting);
            assert!(message.iter().all(|b| *b == 0x5a), "{}", setting);
        }
    }
}

#[test]
fn the_two_settings_are_taken() {
    // By image: no image, bias, race, wet.
    for (setting, codes) in [(Setting::Plain, [1, 0, 0, 23]), (Setting::Strict, [1, 0, 25, 23])] {
        for (image, code) in images().iter().zip(codes) {
            let (mut sheet, mut message) = (vec![0; SHEET_MAX], [0; MESSAGE_ROOM]);
            assert_eq!(checked(setting as u32, image, &mut sheet, &mut message).code, code, "{:?}", setting);
        }
    }
}

//! The repository's examples, through the linked library.

use cablebirch::Setting::{self, Plain, Strict};
use cablebirch::{check, read_sheet, write_sheet, Answer, SheetError, MESSAGE_ROOM, SHEET_MAX};
use std::fs;
use std::path::PathBuf;

fn folder() -> PathBuf {
    PathBuf::from(env!("CARGO_MANIFEST_DIR")).join("../../examples")
}

fn file(name: &str) -> Vec<u8> {
    fs::read(folder().join(name)).expect("the example's file can be read")
}

/// The names of the examples.
fn names() -> Vec<String> {
    let entries = fs::read_dir(folder()).expect("the examples' folder can be read");
    let mut names: Vec<String> = entries
        .filter_map(|entry| entry.expect("an entry").file_name().into_string().ok())
        .filter_map(|name| name.strip_suffix(".image").map(String::from))
        .collect();
    names.sort();
    names
}

/// Each example under each setting.
fn cases() -> Vec<(Setting, String)> {
    names().into_iter().flat_map(|name| [(Plain, name.clone()), (Strict, name)]).collect()
}

/// The line that an example must give: a strict line of its own, where it has one and strict is asked for.
fn line_of(setting: Setting, name: &str) -> String {
    let strict = folder().join(name.to_string() + ".strict");
    let line = match setting {
        Strict if strict.exists() => fs::read(strict).expect("the strict line can be read"),
        _ => file(&(name.to_string() + ".line")),
    };
    String::from_utf8(line).expect("a line is ASCII")
}

#[test]
fn each_example_gives_its_line() {
    assert!(names().len() >= 11);
    for (setting, name) in cases() {
        let (mut sheet, mut message) = (vec![0; SHEET_MAX], [0; MESSAGE_ROOM]);
        let answer = check(setting, &file(&(name.clone() + ".image")), &mut sheet, &mut message);
        assert_eq!(format!("{}\n", answer), line_of(setting, &name), "{} {:?}", name, setting);
    }
}

#[test]
fn an_example_tells_where_the_old_type_was_first_set() {
    let mut places = 0;
    for (setting, name) in cases() {
        let (mut sheet, mut message) = (vec![0; SHEET_MAX], [0; MESSAGE_ROOM]);
        let refusal = match check(setting, &file(&(name.clone() + ".image")), &mut sheet, &mut message) {
            Answer::Accepted { .. } => continue,
            Answer::Refused(refusal) => refusal,
        };
        let told = refusal.second.map(|(start, end)| format!("first set here {} {}\n", start, end).into_bytes());
        let line = line_of(setting, &name);
        let first = line.starts_with("refused 25 ") || line.starts_with("refused 23 ");
        assert_eq!(told, first.then(|| file(&(name.clone() + ".first"))), "{} {:?}", name, setting);
        places += u32::from(first);
    }
    // dial, limit and wet in both settings, race in strict.
    assert_eq!(places, 7);
}

#[test]
fn an_accepted_example_gives_its_sheet_and_no_other_byte_changes() {
    for (setting, name) in cases() {
        let (mut sheet, mut message) = (vec![0xa5; SHEET_MAX], [0x5a; MESSAGE_ROOM]);
        let (mut sheet_length, mut message_length) = (0, 0);
        match check(setting, &file(&(name.clone() + ".image")), &mut sheet, &mut message) {
            Answer::Accepted { sheet } => {
                assert_eq!(sheet, file(&(name.clone() + ".sheet")), "{} {:?}", name, setting);
                sheet_length = sheet.len();
            }
            Answer::Refused(refusal) => message_length = refusal.message.len(),
        }
        assert!(sheet[sheet_length..].iter().all(|b| *b == 0xa5), "{} {:?}", name, setting);
        assert!(message[message_length..].iter().all(|b| *b == 0x5a), "{} {:?}", name, setting);
    }
}

#[test]
fn plain_passes_over_what_strict_returns() {
    let image = file("race.image");
    let (mut sheet, mut message) = (vec![0; SHEET_MAX], [0; MESSAGE_ROOM]);
    match check(Plain, &image, &mut sheet, &mut message) {
        Answer::Accepted { sheet } => assert_eq!(sheet, file("race.sheet")),
        Answer::Refused(refusal) => panic!("{}", refusal),
    }
    match check(Strict, &image, &mut sheet, &mut message) {
        Answer::Accepted { .. } => panic!("accepted"),
        Answer::Refused(refusal) => {
            // The span is the `step` in the branch, without its value.
            let script = String::from_utf8(file("race.py")).expect("a script is ASCII");
            let start = script.find("    step = 2.5").expect("the branch has it") as u32 + 4;
            assert_eq!((refusal.code, refusal.span), (25, (start, start + 4)));
            let first = script.find("step = 5").expect("the first step") as u32;
            assert_eq!(refusal.second, Some((first, first + 4)));
            assert_eq!(refusal.message, b"TypeError: cannot assign value of type Float to variable of type Int");
        }
    }
}

#[test]
fn the_edited_dial_step_does_not_load_unseen() {
    let approved = file("bias.sheet");
    for (name, unseen) in [("bias.image", true), ("bias-float.image", false)] {
        let (mut sheet, mut message) = (vec![0; SHEET_MAX], [0; MESSAGE_ROOM]);
        match check(Strict, &file(name), &mut sheet, &mut message) {
            Answer::Accepted { sheet } => assert_eq!(sheet == approved, unseen, "{}", name),
            Answer::Refused(refusal) => panic!("{}: {}", name, refusal),
        }
    }
}

#[test]
fn short_buffers() {
    let length = file("bias.sheet").len();
    let (mut sheet, mut message) = (vec![0xa5; length - 1], [0x5a; MESSAGE_ROOM]);
    for setting in [Plain, Strict] {
        let line = check(setting, &file("bias.image"), &mut sheet, &mut message).to_string();
        assert_eq!(line, "refused 10 0 0 0 -");
    }
    assert!(sheet.iter().all(|b| *b == 0xa5) && message.iter().all(|b| *b == 0x5a));

    // A message that does not fit is left out whole; the rest of the answer stays.
    let line = String::from_utf8(file("wet.line")).expect("a line is ASCII");
    let head = line.split(" TypeError").next().expect("a first part").to_string();
    let mut short = [0x5a; 5];
    for setting in [Plain, Strict] {
        assert_eq!(check(setting, &file("wet.image"), &mut [], &mut short).to_string(), format!("{} -", head));
    }
    assert_eq!(short, [0x5a; 5]);
}

#[test]
fn no_image() {
    for setting in [Plain, Strict] {
        assert_eq!(check(setting, &[], &mut [], &mut []).to_string(), "refused 1 0 0 0 -");
    }
}

#[test]
fn sheets_are_read_and_written_again() {
    for name in names() {
        let sheet = match fs::read(folder().join(name + ".sheet")) {
            Ok(sheet) => sheet,
            Err(_) => continue,
        };
        assert_eq!(read_sheet(&sheet), Ok(()));
        let mut out = vec![0xa5; SHEET_MAX];
        assert_eq!(write_sheet(&sheet, &mut out), Ok(&sheet[..]));
        assert!(out[sheet.len()..].iter().all(|b| *b == 0xa5));

        let mut short = vec![0xa5; sheet.len() - 1];
        assert_eq!(write_sheet(&sheet, &mut short), Err(SheetError::TooShort));
        assert!(short.iter().all(|b| *b == 0xa5));

        let cut = &sheet[..sheet.len() - 1];
        assert_eq!(read_sheet(cut), Err(SheetError::NoSheet));
        assert_eq!(write_sheet(cut, &mut short), Err(SheetError::NoSheet));
        assert!(short.iter().all(|b| *b == 0xa5));
    }
    assert_eq!(read_sheet(&[]), Err(SheetError::NoSheet));
}

//! Sheets in words: what `show` and `changes` tell of the examples' sheets, and of sheets made here.

use cablebirch::{changes, read_sheet, show, SheetError, CHANGES_MAX, SHOW_MAX};
use std::fs;
use std::path::PathBuf;

/// What a buffer holds before a call.
const PAINT: u8 = 0xa5;
/// A sheet's first word.
const VERSION: u32 = 1;
/// The bytes of a sheet's header, of a record and of an element.
const HEADER: usize = 40;
const RECORD: usize = 12;
const ELEMENT: usize = 4;
/// Types by their numbers in a sheet, and the kind of a Tuple.
const INT: u32 = 1;
const BOOL: u32 = 2;
const STRING: u32 = 3;
const FLOAT: u32 = 4;
const FIRST_STRUCTURED: u32 = 8;
const TUPLE: u32 = 10;
/// The most names of a sheet, the longest name, and the longest text of a type that is shown whole.
const MOST_NAMES: usize = 128;
const LONGEST_NAME: usize = 64;
const LONGEST_SHOWN: usize = 200;

const BIAS: &str = "bias: Int\nstep: Int\n";
const BIAS_FLOAT: &str = "bias: Int\nstep: Float\n";
const CORNERS: &str = "bias: Int\ncorner: Unknown\ncorners: Dict(String, Int)\nstep: Unknown\n";
const STINT: &str = "\
at: Int
corners: List(Tuple([String, Int]))
dial: Dict(String, Int)
far: FilterIter(Tuple([String, Int]))
fuel_step: Float
lap: Unknown
laps: Int
mean: Float
ready: Bool
report: String
start_bias: Int
status: String
total: Int
";

fn file(name: &str) -> Vec<u8> {
    let folder = PathBuf::from(env!("CARGO_MANIFEST_DIR")).join("../../examples");
    fs::read(folder.join(name)).expect("the example's file can be read")
}

/// Each example's sheet here, with its names in words.
fn shown() -> Vec<(Vec<u8>, &'static str)> {
    [("bias", BIAS), ("bias-float", BIAS_FLOAT), ("corners", CORNERS), ("stint", STINT)]
        .map(|(name, text)| (file(&(name.to_string() + ".sheet")), text))
        .into()
}

/// Two of the examples' sheets, with what changed from the first to the second.
fn changed() -> Vec<(Vec<u8>, Vec<u8>, &'static str)> {
    [
        ("bias", "bias-float", "~ step: Int -> Float\n"),
        ("bias-float", "bias", "~ step: Float -> Int\n"),
        ("bias", "corners", "+ corner: Unknown\n+ corners: Dict(String, Int)\n~ step: Int -> Unknown\n"),
        ("corners", "bias", "- corner: Unknown\n- corners: Dict(String, Int)\n~ step: Unknown -> Int\n"),
        ("race", "bias", "- rain: Int\n"),
        (
            "corners",
            "stint",
            "\
+ at: Int
- bias: Int
- corner: Unknown
~ corners: Dict(String, Int) -> List(Tuple([String, Int]))
+ dial: Dict(String, Int)
+ far: FilterIter(Tuple([String, Int]))
+ fuel_step: Float
+ lap: Unknown
+ laps: Int
+ mean: Float
+ ready: Bool
+ report: String
+ start_bias: Int
+ status: String
- step: Unknown
+ total: Int
",
        ),
    ]
    .map(|(old, new, text)| (file(&(old.to_string() + ".sheet")), file(&(new.to_string() + ".sheet")), text))
    .into()
}

/// A sheet whose names, in byte order, all have one type: a Tuple of these plain types.
fn sheet_of(names: &[String], parts: &[u32]) -> Vec<u8> {
    let texts = names.concat();
    let elements_at = HEADER + RECORD;
    let names_at = elements_at + ELEMENT * parts.len();
    let texts_at = names_at + RECORD * names.len();
    let counted = [1, HEADER, parts.len(), elements_at, names.len(), names_at, texts.len(), texts_at];
    let mut words: Vec<u32> = vec![VERSION];
    words.extend(counted.map(|n| n as u32));
    words.push((texts_at + texts.len()) as u32);
    words.extend([TUPLE, 0, parts.len() as u32]);
    words.extend(parts);
    let mut start = 0;
    for name in names {
        words.extend([start, name.len() as u32, FIRST_STRUCTURED]);
        start += name.len() as u32;
    }
    let mut sheet: Vec<u8> = words.iter().flat_map(|word| word.to_le_bytes()).collect();
    sheet.extend(texts.bytes());
    assert_eq!(read_sheet(&sheet), Ok(()));
    sheet
}

/// Plain types whose Tuple has a text of the longest length that is shown whole.
fn longest_shown() -> Vec<u32> {
    let mut parts = vec![INT; 37];
    parts.push(STRING);
    parts
}

/// The text of a Tuple of these plain types.
fn text_of(parts: &[u32]) -> String {
    let part = |number: &u32| ["Unknown", "Int", "Bool", "String", "Float"][*number as usize];
    format!("Tuple([{}])", parts.iter().map(part).collect::<Vec<_>>().join(", "))
}

/// As many names as a sheet may have, each as long as it may be.
fn longest_names(first: char) -> Vec<String> {
    (0..MOST_NAMES).map(|k| format!("{}{:0>width$}", first, k, width = LONGEST_NAME - 1)).collect()
}

/// Holds a call to a text: in a large room, in one that is exactly enough, and in one that is a byte short.
fn holds(text: &str, large: usize, call: impl Fn(&mut [u8]) -> Result<&str, SheetError>) {
    for room in [large, text.len()] {
        let mut out = vec![PAINT; room];
        assert_eq!(call(&mut out), Ok(text));
        assert_eq!(&out[..text.len()], text.as_bytes());
        assert!(out[text.len()..].iter().all(|b| *b == PAINT), "in {} bytes", room);
    }
    if !text.is_empty() {
        refuses(SheetError::TooShort, text.len() - 1, call);
    }
}

/// Holds a call to a refusal that touches no byte.
fn refuses(why: SheetError, room: usize, call: impl Fn(&mut [u8]) -> Result<&str, SheetError>) {
    let mut out = vec![PAINT; room];
    assert_eq!(call(&mut out), Err(why));
    assert!(out.iter().all(|b| *b == PAINT), "in {} bytes", room);
}

#[test]
fn the_names_of_each_example() {
    for (sheet, text) in shown() {
        holds(text, SHOW_MAX, |out| show(&sheet, out));
    }
}

#[test]
fn what_changed_between_examples() {
    for (old, new, text) in changed() {
        holds(text, CHANGES_MAX, |out| changes(&old, &new, out));
    }
}

#[test]
fn equal_sheets_have_no_changes() {
    for (sheet, _) in shown() {
        holds("", CHANGES_MAX, |out| changes(&sheet, &sheet, out));
    }
}

#[test]
fn what_is_no_sheet() {
    let (whole, _) = shown().remove(0);
    for none in [&whole[..whole.len() - 1], &[], &file("bias.image")] {
        for room in [0, 5, CHANGES_MAX] {
            refuses(SheetError::NoSheet, room, |out| show(none, out));
            refuses(SheetError::NoSheet, room, |out| changes(none, &whole, out));
            refuses(SheetError::NoSheet, room, |out| changes(&whole, none, out));
            refuses(SheetError::NoSheet, room, |out| changes(none, none, out));
        }
    }
}

#[test]
fn a_long_type_is_shown_with_dots() {
    let x = ["x".to_string()];
    let whole = longest_shown();
    assert_eq!(text_of(&whole).len(), LONGEST_SHOWN);
    let sheet = sheet_of(&x, &whole);
    holds(&format!("x: {}\n", text_of(&whole)), SHOW_MAX, |out| show(&sheet, out));

    // A Bool for an Int is one byte more, a Float for a Bool one more again. The two types differ, and look the same.
    let (mut long, mut longer) = (whole.clone(), whole);
    long[0] = BOOL;
    longer[0] = FLOAT;
    assert_eq!((text_of(&long).len(), text_of(&longer).len()), (LONGEST_SHOWN + 1, LONGEST_SHOWN + 2));
    let (long, longer) = (sheet_of(&x, &long), sheet_of(&x, &longer));
    holds("x: Tuple(..)\n", SHOW_MAX, |out| show(&long, out));
    holds("~ x: Tuple(..) -> Tuple(..)\n", CHANGES_MAX, |out| changes(&long, &longer, out));
    let shorter = format!("~ x: Tuple(..) -> {}\n", text_of(&longest_shown()));
    holds(&shorter, CHANGES_MAX, |out| changes(&long, &sheet, out));
}

#[test]
fn the_longest_texts() {
    let tuple = text_of(&longest_shown());
    let lines = |sign: &str, names: &[String]| -> String {
        names.iter().map(|name| format!("{}{}: {}\n", sign, name, tuple)).collect()
    };
    let (a, b) = (longest_names('a'), longest_names('b'));
    let (old, new) = (sheet_of(&a, &longest_shown()), sheet_of(&b, &longest_shown()));

    let text = lines("", &a);
    assert_eq!(text.len(), SHOW_MAX);
    holds(&text, SHOW_MAX, |out| show(&old, out));

    let text = lines("- ", &a) + &lines("+ ", &b);
    assert_eq!(text.len(), CHANGES_MAX);
    holds(&text, CHANGES_MAX, |out| changes(&old, &new, out));
}

//! The second span, on images made here: every number in an answer is another one, so that no field can be taken for another.

use cablebirch::Setting::{Plain, Strict};
use cablebirch::{check, load, Answer, Loading, Refusal, BRANCHES_DIFFER, CANNOT_ASSIGN, MESSAGE_ROOM, SHEET_MAX};

/// Words of an image, as document 01 has them.
const VERSION: u32 = 1;
const HEADER: usize = 32;
const NAME: usize = 20;
const NODE: usize = 24;
const ASSIGN: u32 = 5;
const EXPR: u32 = 6;
const IF: u32 = 8;
const FOR: u32 = 10;
const BLOCK: u32 = 12;
const LITERAL: u32 = 20;
const VARIABLE: u32 = 21;
const BINARY: u32 = 23;
const LIST: u32 = 26;
const BOOL: u32 = 0;
const INT: u32 = 1;
const STRING: u32 = 2;
/// The name's number, and the number of `+`.
const X: u32 = 0;
const PLUS: u32 = 0;

const SPANLESS: (u32, u32) = (0, 0);
/// Spans with a different number in each byte: the old type's place, and that of the refusal.
const FIRST: (u32, u32) = (0x0102_0304, 0x0506_0708);
const AT: (u32, u32) = (0x1112_1314, 0x1516_1718);
/// For nodes that no answer may point at.
const ELSEWHERE: (u32, u32) = (0x2122_2324, 0x2526_2728);

/// A node: kind, arg, children, end, span.
type Node = (u32, u32, u32, u32, (u32, u32));

/// The image of these nodes with the one name `x`.
fn image(nodes: &[Node]) -> Vec<u8> {
    let (nodes_at, text) = (HEADER + NAME, b"x");
    let text_at = nodes_at + NODE * nodes.len();
    let header = [1, HEADER, nodes.len(), nodes_at, text.len(), text_at, text_at + text.len()];
    let mut words = vec![VERSION];
    words.extend(header.map(|n| n as u32));
    words.extend([0, text.len() as u32, 0, 0, 0]);
    for (kind, arg, children, end, (from, to)) in nodes {
        words.extend([kind, arg, children, end, from, to]);
    }
    let mut image: Vec<u8> = words.iter().flat_map(|word| word.to_le_bytes()).collect();
    image.extend(text);
    image
}

/// `x = 1` and `x = "a"`, with the span of the first x.
fn assigned_twice(first: (u32, u32)) -> Vec<u8> {
    image(&[
        (BLOCK, 0, 2, 7, SPANLESS),
        (ASSIGN, 0, 2, 4, ELSEWHERE),
        (VARIABLE, X, 0, 3, first),
        (LITERAL, INT, 0, 4, ELSEWHERE),
        (ASSIGN, 0, 2, 7, ELSEWHERE),
        (VARIABLE, X, 0, 6, AT),
        (LITERAL, STRING, 0, 7, ELSEWHERE),
    ])
}

/// `if True: x = 1`, `else: x = "a"`.
fn branches() -> Vec<u8> {
    image(&[
        (BLOCK, 0, 1, 11, SPANLESS),
        (IF, 0, 3, 11, ELSEWHERE),
        (LITERAL, BOOL, 0, 3, AT),
        (BLOCK, 0, 1, 7, SPANLESS),
        (ASSIGN, 0, 2, 7, ELSEWHERE),
        (VARIABLE, X, 0, 6, FIRST),
        (LITERAL, INT, 0, 7, ELSEWHERE),
        (BLOCK, 0, 1, 11, SPANLESS),
        (ASSIGN, 0, 2, 11, ELSEWHERE),
        (VARIABLE, X, 0, 10, ELSEWHERE),
        (LITERAL, STRING, 0, 11, ELSEWHERE),
    ])
}

/// `for x in [1]: x = "a"`: the old type's place is the List.
fn looped() -> Vec<u8> {
    image(&[
        (BLOCK, 0, 1, 8, SPANLESS),
        (FOR, X, 2, 8, ELSEWHERE),
        (LIST, 0, 1, 4, FIRST),
        (LITERAL, INT, 0, 4, ELSEWHERE),
        (BLOCK, 0, 1, 8, SPANLESS),
        (ASSIGN, 0, 2, 8, ELSEWHERE),
        (VARIABLE, X, 0, 7, AT),
        (LITERAL, STRING, 0, 8, ELSEWHERE),
    ])
}

/// `1 + "a"`.
fn added() -> Vec<u8> {
    image(&[
        (BLOCK, 0, 1, 5, SPANLESS),
        (EXPR, 0, 1, 5, ELSEWHERE),
        (BINARY, PLUS, 2, 5, AT),
        (LITERAL, INT, 0, 4, ELSEWHERE),
        (LITERAL, STRING, 0, 5, ELSEWHERE),
    ])
}

const ASSIGNED: &str = "TypeError: cannot assign value of type String to variable of type Int";

/// Holds the refusal of an image, whole: by the check and by the load rule.
fn refuses(image: &[u8], must_be: Refusal) {
    for setting in [Plain, Strict] {
        let (mut sheet, mut message) = (vec![0; SHEET_MAX], [0; MESSAGE_ROOM]);
        assert_eq!(check(setting, image, &mut sheet, &mut message), Answer::Refused(must_be));
        let (mut sheet, mut message) = (vec![0; SHEET_MAX], [0; MESSAGE_ROOM]);
        assert_eq!(load(setting, image, &[], &mut sheet, &mut message), Loading::Refused(must_be));
    }
}

#[test]
fn a_name_that_gets_another_type() {
    let must_be =
        Refusal { code: CANNOT_ASSIGN, place: 5, span: AT, second: Some(FIRST), message: ASSIGNED.as_bytes() };
    refuses(&assigned_twice(FIRST), must_be);
    // The second span is unread: one of 0 and 0 is one.
    refuses(&assigned_twice(SPANLESS), Refusal { second: Some(SPANLESS), ..must_be });
}

#[test]
fn a_name_that_differs_by_branch() {
    let message = b"TypeError: variable 'x' has incompatible types across branches";
    refuses(&branches(), Refusal { code: BRANCHES_DIFFER, place: 2, span: AT, second: Some(FIRST), message });
}

#[test]
fn a_loop_name_is_known_since_what_the_loop_goes_over() {
    let message = ASSIGNED.as_bytes();
    refuses(&looped(), Refusal { code: CANNOT_ASSIGN, place: 6, span: AT, second: Some(FIRST), message });
}

#[test]
fn another_code_has_none() {
    let message = b"TypeError: unsupported operand types for +: Int and String";
    refuses(&added(), Refusal { code: 29, place: 2, span: AT, second: None, message });
    refuses(&[], Refusal { code: 1, place: 0, span: SPANLESS, second: None, message: b"" });
}

#[test]
fn a_message_without_room_leaves_both_spans() {
    let must_be = Refusal { code: CANNOT_ASSIGN, place: 5, span: AT, second: Some(FIRST), message: b"" };
    let image = assigned_twice(FIRST);
    assert_eq!(check(Plain, &image, &mut [], &mut []), Answer::Refused(must_be));
    assert_eq!(load(Plain, &image, &[], &mut [], &mut []), Loading::Refused(must_be));
}

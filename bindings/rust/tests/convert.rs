//! Stored images converted: the repository's example, and programs made here, each once with TreeSets and once with Sets in their place, so
//! that the second one is what must come of the first.

use cablebirch::Setting::{self, Plain, Strict};
use cablebirch::{
    check, convert, load, show, Answer, ConvertError, Loading, Refusal, BRANCHES_DIFFER, CANNOT_ASSIGN, IMAGE_MAX,
    MESSAGE_ROOM, RETIRED, SHEET_MAX, SHOW_MAX,
};
use made::*;
use std::fs;
use std::path::PathBuf;

mod made;

/// The codes of the ninth frame, of an assignment to what is no target, and of operands that cannot be added.
const NINTH_FRAME: u32 = 9;
const NO_TARGET: u32 = 28;
const CANNOT_ADD: u32 = 29;

/// The names by their numbers.
const F: u32 = 0;
const X: u32 = 1;
const Y: u32 = 2;
const TEXTS: [(&str, u32, u32); 3] = [("f", PLAIN_NAME, 0), ("x", PLAIN_NAME, 0), ("y", PLAIN_NAME, 0)];

/// What a room and the bytes around it hold before a call, and how many stand around it on each side.
const PAINT: u8 = 0xa5;
const AROUND: usize = 40;

/// As `include/cablebirch.h` has it.
#[repr(C)]
#[derive(Debug, PartialEq, Eq)]
struct RawConversion {
    code: u32,
    place: usize,
    length: usize,
}

extern "C" {
    fn cablebirch_convert(image: *const u8, image_len: usize, out: *mut u8, out_len: usize) -> RawConversion;
}

// ---- programs

fn literal(which: u32) -> Tree {
    Tree(LITERAL, which, vec![])
}

fn variable(name: u32) -> Tree {
    Tree(VARIABLE, name, vec![])
}

fn assign(target: Tree, value: Tree) -> Tree {
    Tree(ASSIGN, 0, vec![target, value])
}

fn expr(value: Tree) -> Tree {
    Tree(EXPR, 0, vec![value])
}

fn def(body: Vec<Tree>) -> Tree {
    Tree(DEF, F, vec![Tree(PARAM, X, vec![]), block(body)])
}

/// An if with a then and an else.
fn if_else(then: Vec<Tree>, otherwise: Vec<Tree>) -> Tree {
    Tree(IF, 0, vec![literal(BOOL), block(then), block(otherwise)])
}

/// `1 + "a"`.
fn wrong() -> Tree {
    Tree(BINARY, PLUS, vec![literal(INT), literal(STRING)])
}

/// A set of this kind, of numbers and texts by turns.
fn set(kind: u32, count: usize) -> Tree {
    Tree(kind, 0, [literal(INT), literal(STRING)].into_iter().cycle().take(count).collect())
}

/// So many sets, each in the one before, around a value.
fn in_sets(kind: u32, times: usize, value: Tree) -> Tree {
    (0..times).fold(value, |value, _| Tree(kind, 0, vec![value]))
}

/// A program in which the sets are of the kind given, and the codes that it has with Sets, in plain and in strict.
type Program = (fn(u32) -> Vec<Tree>, [u32; 2]);

const PROGRAMS: [Program; 17] = [
    (|_| vec![], [0, 0]),
    (|_| vec![assign(variable(X), literal(INT)), expr(variable(Y))], [0, 0]),
    (|kind| vec![assign(variable(X), set(kind, 0))], [0, 0]),
    (|kind| vec![assign(variable(X), set(kind, 3)), assign(variable(Y), set(kind, 1))], [0, 0]),
    // A Set beside it, before and behind.
    (|kind| [SET, kind, SET].map(|kind| assign(variable(X), set(kind, 2))).to_vec(), [0, 0]),
    // The module's Block, the Assign, the sets, and what is in the last one.
    (|kind| vec![assign(variable(X), in_sets(kind, DEEPEST - 3, literal(INT)))], [0, 0]),
    (everywhere, [0, 0]),
    // With mistakes: in a set, before it, behind it, and in a branch.
    (|kind| vec![expr(Tree(kind, 0, vec![literal(INT), wrong()]))], [CANNOT_ADD; 2]),
    (|kind| vec![expr(wrong()), expr(set(kind, 1))], [CANNOT_ADD; 2]),
    (|kind| vec![expr(set(kind, 1)), expr(wrong())], [CANNOT_ADD; 2]),
    (|kind| vec![if_else(vec![expr(wrong())], vec![expr(set(kind, 1))])], [0, CANNOT_ADD]),
    (|kind| vec![if_else(vec![expr(set(kind, 1)), expr(wrong())], vec![])], [0, CANNOT_ADD]),
    // A set as a target.
    (|kind| vec![assign(Tree(kind, 0, vec![variable(X)]), literal(INT))], [NO_TARGET; 2]),
    // Two with a second span.
    (
        |kind| {
            let y_is_set = assign(variable(Y), set(kind, 2));
            vec![assign(variable(X), literal(INT)), y_is_set, assign(variable(X), literal(STRING))]
        },
        [CANNOT_ASSIGN; 2],
    ),
    (
        |kind| {
            let branch = |which| vec![expr(set(kind, 1)), assign(variable(X), literal(which))];
            vec![if_else(branch(INT), branch(STRING))]
        },
        [BRANCHES_DIFFER; 2],
    ),
    // A ninth frame, the set inside it and behind it.
    (|kind| (0..8).fold(vec![expr(set(kind, 1))], |body, _| vec![def(body)]), [NINTH_FRAME; 2]),
    (|kind| [(0..8).fold(vec![], |body, _| vec![def(body)]), vec![expr(set(kind, 1))]].concat(), [NINTH_FRAME; 2]),
];

/// Sets wherever an expression may stand.
fn everywhere(kind: u32) -> Vec<Tree> {
    let part = || set(kind, 1);
    vec![
        def(vec![Tree(RETURN, 0, vec![part()])]),
        expr(Tree(CALL, 0, vec![variable(F), part()])),
        expr(Tree(CALL, 0, vec![part(), part()])),
        expr(Tree(LIST, 0, vec![literal(INT), part()])),
        expr(Tree(DICT, 0, vec![part(), part()])),
        expr(Tree(TUPLE, 0, vec![part(), Tree(TUPLE, 0, vec![part()])])),
        expr(Tree(INDEX, 0, vec![part(), part()])),
        expr(Tree(ATTRIBUTE, 0, vec![part()])),
        expr(Tree(BINARY, PLUS, vec![part(), part()])),
        Tree(WHILE, 0, vec![literal(BOOL), block(vec![expr(part())])]),
        Tree(FOR, X, vec![part(), block(vec![if_else(vec![expr(part())], vec![Tree(PASS, 0, vec![])])])]),
        assign(Tree(INDEX, 0, vec![variable(Y), part()]), part()),
        assign(Tree(TUPLE, 0, vec![variable(X), variable(Y)]), part()),
    ]
}

// ---- images

fn image(nodes: &[[u32; NODE]]) -> Vec<u8> {
    image_over(&TEXTS, nodes)
}

fn file(name: &str) -> Vec<u8> {
    let folder = PathBuf::from(env!("CARGO_MANIFEST_DIR")).join("../../examples");
    fs::read(folder.join(name)).expect("the example's file can be read")
}

// ---- what is held

/// Calls a function with a room of so many bytes, and hands out what it gives with the room and the bytes around it.
fn in_room<T>(length: usize, call: impl Fn(&mut [u8]) -> T) -> (T, Vec<u8>) {
    let mut bytes = vec![PAINT; AROUND + length + AROUND];
    let given = call(&mut bytes[AROUND..AROUND + length]);
    (given, bytes)
}

/// Holds what comes of an image in a room of so many bytes: by the crate, by the library's own function in every field, and in every byte.
fn holds(image: &[u8], room: usize, must_be: Result<&[u8], ConvertError>) {
    let (code, place) = match must_be {
        Ok(_) => (0, 0),
        Err(ConvertError::TooShort) => (15, 0),
        Err(ConvertError::Refused(refusal)) => (refusal.code, refusal.place),
    };
    let written = must_be.unwrap_or(&[]);
    let mut bytes = vec![PAINT; AROUND + room + AROUND];
    bytes[AROUND..AROUND + written.len()].copy_from_slice(written);

    let given = image.to_vec();
    let (raw, left) = in_room(room, |out| {
        // Safety: the pointers and lengths are those of slices, and the one that is written is borrowed by this call alone.
        unsafe { cablebirch_convert(given.as_ptr(), given.len(), out.as_mut_ptr(), out.len()) }
    });
    assert_eq!(raw, RawConversion { code, place, length: written.len() });
    assert!(left == bytes && given == image);

    let (said, left) = in_room(room, |out| convert(image, out).map(<[u8]>::to_vec));
    assert_eq!(said, must_be.map(<[u8]>::to_vec));
    assert!(left == bytes);
}

/// Holds what comes of a well-formed image: in rooms that are as long and longer, and in shorter ones.
fn converts(image: &[u8], must_be: &[u8]) {
    assert_eq!(image.len(), must_be.len());
    for more in [0, 1, WORD, IMAGE_MAX] {
        holds(image, image.len() + more, Ok(must_be));
        // What was converted is converted to itself.
        holds(must_be, image.len() + more, Ok(must_be));
    }
    for room in [0, 1, image.len() / 2, image.len() - 1] {
        holds(image, room, Err(ConvertError::TooShort));
    }
}

/// The refusal of an image that has a TreeSet here.
fn retired(place: usize) -> Answer<'static> {
    Answer::Refused(Refusal { code: RETIRED, place, span: (0, 0), second: None, message: &[] })
}

fn code_of(setting: Setting, image: &[u8]) -> u32 {
    match check(setting, image, &mut vec![0; SHEET_MAX], &mut [0; MESSAGE_ROOM]) {
        Answer::Accepted { .. } => 0,
        Answer::Refused(refusal) => refusal.code,
    }
}

// ---- the tests

#[test]
fn each_tree_set_becomes_a_set_and_no_other_byte_changes() {
    for (program, _) in PROGRAMS {
        converts(&image(&nodes(program(TREE_SET))), &image(&nodes(program(SET))));
    }
}

#[test]
fn the_check_says_14_of_the_old_one_and_of_the_new_one_what_it_says_with_sets() {
    for (at, (program, codes)) in PROGRAMS.iter().enumerate() {
        let all = nodes(program(TREE_SET));
        let old = image(&all);
        let mut out = vec![0; old.len()];
        let new = convert(&old, &mut out).expect("a well-formed image in a room of its length");
        assert!(new == image(&nodes(program(SET))), "program {}", at);
        for (setting, code) in [(Plain, codes[0]), (Strict, codes[1])] {
            assert_eq!(code_of(setting, new), code, "program {} {:?}", at, setting);
            let place = match all.iter().position(|node| node[KIND] == TREE_SET) {
                Some(place) => place,
                None => continue,
            };
            // Whatever rooms are lent: 14 touches neither.
            for (sheet_room, message_room) in [(SHEET_MAX, MESSAGE_ROOM), (10, 5), (0, 0)] {
                let (mut sheet, mut message) = (vec![PAINT; sheet_room], vec![PAINT; message_room]);
                assert_eq!(check(setting, &old, &mut sheet, &mut message), retired(place), "program {}", at);
                assert!(sheet.iter().chain(&message).all(|b| *b == PAINT), "program {}", at);
            }
        }
    }
}

#[test]
fn a_word_of_30_that_is_no_kind_stays() {
    // 31 names: the first has 30 bytes, so that the second starts at 30; it is a function of 30 arguments, and the last has the number 30.
    let last = TREE_SET;
    let name = |at: u32| match at {
        0 => ("a".repeat(30), PLAIN_NAME, 0),
        1 => ("b".to_string(), FUNCTION, 30),
        _ => (format!("n{:02}", at), PLAIN_NAME, 0),
    };
    let names: Vec<_> = (0..=last).map(name).collect();
    let program = |kind| {
        // Block, Assign, Variable, List, and 26 of its parts: the last one of these ends at 30.
        let list = Tree(LIST, 0, (0..30).map(|_| literal(INT)).collect());
        vec![assign(variable(last), list), expr(set(kind, 30)), expr(variable(last)), expr(set(kind, 0))]
    };
    let with_spans_of_30 = |kind| {
        let mut nodes = nodes(program(kind));
        for node in nodes.iter_mut().filter(|node| node[KIND] != BLOCK) {
            node[END + 1..].copy_from_slice(&[30, 0x1e1e_1e1e]);
        }
        image_over(&names, &nodes)
    };
    let (old, new) = (with_spans_of_30(TREE_SET), with_spans_of_30(SET));
    converts(&old, &new);
    // The places in a record where a word of 30 stands, of names and of nodes.
    let words: Vec<u32> = old.chunks_exact(WORD).map(|b| u32::from_le_bytes([b[0], b[1], b[2], b[3]])).collect();
    let (name_words, node_words) = words[HEADER..].split_at(NAME * names.len());
    let has_30 = |records: &[u32], size, at| records.chunks_exact(size).any(|record| record[at] == 30);
    assert_eq!([0, 1, 2, 3, 4].map(|at| has_30(name_words, NAME, at)), [true, true, false, true, false]);
    assert_eq!([0, 1, 2, 3, 4].map(|at| has_30(node_words, NODE, at)), [true; 5]);
    assert_eq!(old.iter().zip(&new).filter(|(a, b)| a != b).count(), 2);
}

#[test]
fn as_many_nodes_as_30() {
    // The header has a word of 30 too.
    let program = |kind| vec![expr(set(kind, 30 - 3))];
    assert_eq!(nodes(program(SET)).len(), 30);
    converts(&image(&nodes(program(TREE_SET))), &image(&nodes(program(SET))));
}

#[test]
fn the_longest_image() {
    let names: Vec<_> =
        (0..MOST_NAMES).map(|at| (format!("{:0width$}", at, width = LONGEST_NAME), PLAIN_NAME, 0)).collect();
    // Block and, for each two nodes more, a set without elements; the last has one.
    let program = |kind| {
        let mut sets: Vec<_> = (0..MOST_NODES / 2 - 1).map(|_| expr(set(kind, 0))).collect();
        sets.last_mut().expect("there are sets").2 = vec![set(kind, 1)];
        sets
    };
    let [old, new] = [TREE_SET, SET].map(|kind| image_over(&names, &nodes(program(kind))));
    assert_eq!(old.len(), IMAGE_MAX);
    converts(&old, &new);
    // The first set is the third node, in an Expr in the Block.
    assert_eq!(check(Plain, &old, &mut [], &mut []), retired(2));
    assert_eq!([Plain, Strict].map(|setting| code_of(setting, &new)), [0, 0]);
}

/// Bytes that are no image, by what is wrong with them; those that can hold TreeSets do.
fn no_images() -> Vec<(u32, Vec<u8>)> {
    let all = nodes(vec![expr(set(TREE_SET, 2)), def(vec![expr(set(TREE_SET, 0))])]);
    let good = image(&all);
    let with = |at: usize, word: u32| {
        let mut bytes = good.clone();
        bytes[WORD * at..WORD * (at + 1)].copy_from_slice(&word.to_le_bytes());
        bytes
    };
    let name_word = |name: u32, word: usize| HEADER + NAME * name as usize + word;
    let node_word = |node: usize, word: usize| HEADER + NAME * TEXTS.len() + NODE * node + word;
    let tree_set = all.iter().position(|node| node[KIND] == TREE_SET).expect("a TreeSet");
    let panicking = [("f", PLAIN_NAME, 0), ("len", ANY_COUNT, 0), ("x", PLAIN_NAME, 0)];
    vec![
        (1, vec![]),
        (1, good[..WORD * HEADER - 1].to_vec()),
        (1, with(0, VERSION + 1)),
        (2, with(NODE_COUNT, 0)),
        (3, good[..good.len() - 1].to_vec()),
        (3, [&good[..], &[0]].concat()),
        (4, with(name_word(X, TEXT_LENGTH), 0)),
        (5, image_over(&panicking, &all)),
        (6, with(node_word(all.len() - 1, KIND), u32::MAX)),
        // 30 in the lowest byte and in each other one.
        (6, with(node_word(tree_set, KIND), 0x1e1e_1e1e)),
        (6, with(node_word(tree_set, ARG), 1)),
        (7, with(node_word(tree_set, CHILDREN), 1)),
        // A TreeSet where a statement must stand.
        (7, image(&nodes(vec![set(TREE_SET, 0)]))),
        (8, image(&nodes(vec![expr(in_sets(TREE_SET, DEEPEST - 2, literal(INT)))]))),
    ]
}

#[test]
fn no_image_is_refused_as_the_check_does_before_its_room_is_looked_at() {
    for (code, bytes) in no_images() {
        let refusal = match check(Plain, &bytes, &mut [], &mut []) {
            Answer::Refused(refusal) => Refusal { message: &[], ..refusal },
            answer => panic!("{}: {}", code, answer),
        };
        assert_eq!((refusal.code, code_of(Strict, &bytes)), (code, code));
        for room in [0, bytes.len().saturating_sub(1), bytes.len(), IMAGE_MAX] {
            holds(&bytes, room, Err(ConvertError::Refused(refusal)));
        }
    }
}

#[test]
fn a_refusal_in_words() {
    let bytes = file("stored.image");
    let said = |image, room| convert(image, &mut vec![0; room]).expect_err("a refusal").to_string();
    assert_eq!(said(&bytes, bytes.len() - 1), "the buffer is shorter than the image");
    assert_eq!(said(&bytes[..bytes.len() - 1], bytes.len()), "refused 3 0 0 0 -");
}

#[test]
fn the_stored_example_loads_once_it_is_converted() {
    let (old, approved) = (file("stored.image"), file("stored.sheet"));
    let mut out = vec![0; IMAGE_MAX];
    let new = convert(&old, &mut out).expect("the example is well formed");
    converts(&old, new);
    for setting in [Plain, Strict] {
        let (mut sheet, mut message) = (vec![0; SHEET_MAX], [0; MESSAGE_ROOM]);
        match load(setting, &old, &approved, &mut sheet, &mut message) {
            Loading::Refused(refusal) => assert_eq!(Answer::Refused(refusal), retired(9)),
            loading => panic!("{:?}", loading),
        }
        let loading = load(setting, new, &approved, &mut sheet, &mut message);
        assert_eq!(loading, Loading::Loads { sheet: &approved });
    }
    let mut text = vec![0; SHOW_MAX];
    assert_eq!(show(&approved, &mut text), Ok("bias: Int\ndry: Unknown\nstep: Int\nwet: Unknown\n"));
}

#[test]
fn each_other_example_comes_out_as_it_is() {
    for name in ["bias", "bias-float", "corners", "dial", "limit", "race", "soft", "stint", "table", "wet"] {
        let image = file(&(name.to_string() + ".image"));
        converts(&image, &image);
    }
}

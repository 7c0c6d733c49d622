//! Whether a def stands inside an if: on the repository's examples, and on images made here, in which each node has a span of its own.

use cablebirch::Setting::{Plain, Strict};
use cablebirch::{check, show, steady, Answer, Steadiness, MESSAGE_ROOM, SHEET_MAX, SHOW_MAX};
use made::*;
use std::fs;
use std::path::PathBuf;

mod made;

/// The names by their numbers.
const F: u32 = 0;
const G: u32 = 1;
const X: u32 = 2;
const TEXTS: [(&str, u32, u32); 3] = [("f", PLAIN_NAME, 0), ("g", PLAIN_NAME, 0), ("x", PLAIN_NAME, 0)];

/// As `include/cablebirch.h` has it.
#[repr(C)]
#[derive(Debug, PartialEq, Eq)]
struct RawSteadiness {
    steady: u32,
    code: u32,
    span_start: u32,
    span_end: u32,
    place: usize,
}

extern "C" {
    fn cablebirch_steady(image: *const u8, image_len: usize) -> RawSteadiness;
}

fn pass() -> Tree {
    Tree(PASS, 0, vec![])
}

fn condition() -> Tree {
    Tree(LITERAL, BOOL, vec![])
}

fn assign(name: u32, literal: u32) -> Tree {
    Tree(ASSIGN, 0, vec![Tree(VARIABLE, name, vec![]), Tree(LITERAL, literal, vec![])])
}

fn def(name: u32, body: Vec<Tree>) -> Tree {
    Tree(DEF, name, vec![Tree(PARAM, X, vec![]), block(body)])
}

fn while_true(body: Vec<Tree>) -> Tree {
    Tree(WHILE, 0, vec![condition(), block(body)])
}

fn for_each(body: Vec<Tree>) -> Tree {
    Tree(FOR, X, vec![Tree(LIST, 0, vec![]), block(body)])
}

/// An if with its bodies: then, and one for each elif.
fn if_true(bodies: Vec<Vec<Tree>>) -> Tree {
    Tree(IF, 0, bodies.into_iter().flat_map(|body| [condition(), block(body)]).collect())
}

/// An if with a then and an else.
fn if_else(then: Vec<Tree>, otherwise: Vec<Tree>) -> Tree {
    Tree(IF, 0, vec![condition(), block(then), block(otherwise)])
}

/// So many ifs, each in the one before, around a body.
fn in_ifs(times: usize, body: Vec<Tree>) -> Vec<Tree> {
    (0..times).fold(body, |body, _| vec![if_true(vec![body])])
}

fn image(program: Vec<Tree>) -> Vec<u8> {
    image_over(&TEXTS, &nodes(program))
}

/// Holds what is said of an image: by the crate, and by the library's own function in every field.
fn holds(image: &[u8], must_be: Steadiness) {
    assert_eq!(steady(image), must_be);
    let (is_steady, code, (span_start, span_end), place) = match must_be {
        Steadiness::Steady => (1, 0, (0, 0), 0),
        Steadiness::DefInIf { place, span } => (0, 0, span, place),
        Steadiness::Refused(refusal) => (0, refusal.code, (0, 0), refusal.place),
    };
    // Safety: pointer and length are a slice's, and nothing is written.
    let raw = unsafe { cablebirch_steady(image.as_ptr(), image.len()) };
    assert_eq!(raw, RawSteadiness { steady: is_steady, code, span_start, span_end, place });
}

fn is_steady(program: Vec<Tree>) {
    holds(&image(program), Steadiness::Steady);
}

/// The def of this name is told.
fn tells(name: u32, program: Vec<Tree>) {
    let nodes = nodes(program);
    let is_told = |node: &[u32; NODE]| node[..2] == [DEF, name];
    let place = nodes.iter().position(is_told).expect("the program has the def");
    holds(&image_over(&TEXTS, &nodes), Steadiness::DefInIf { place, span: span_of(place) });
}

#[test]
fn no_def() {
    is_steady(vec![]);
    is_steady(vec![pass(), assign(X, INT)]);
    is_steady(vec![if_true(vec![vec![pass()], vec![while_true(vec![if_else(vec![], vec![pass()])])]])]);
}

#[test]
fn a_def_at_module_level() {
    is_steady(vec![def(F, vec![pass()])]);
    is_steady(vec![while_true(vec![def(F, vec![])]), for_each(vec![def(G, vec![def(F, vec![])])])]);
}

#[test]
fn a_def_in_each_branch() {
    tells(F, vec![if_true(vec![vec![def(F, vec![pass()])]])]);
    tells(F, vec![if_true(vec![vec![pass()], vec![def(F, vec![])]])]);
    tells(F, vec![if_true(vec![vec![pass()], vec![pass()], vec![pass(), def(F, vec![])]])]);
    tells(F, vec![if_else(vec![pass()], vec![def(F, vec![])])]);
}

#[test]
fn a_def_in_a_loop_in_an_if() {
    tells(F, vec![if_true(vec![vec![while_true(vec![def(F, vec![])])]])]);
    tells(F, vec![if_else(vec![], vec![for_each(vec![while_true(vec![pass(), def(F, vec![])])])])]);
}

#[test]
fn of_a_def_in_a_def_in_an_if_the_outer_one_is_told() {
    tells(F, vec![if_true(vec![vec![def(F, vec![def(G, vec![])])]])]);
}

#[test]
fn an_if_inside_a_def() {
    is_steady(vec![def(F, vec![if_else(vec![pass()], vec![while_true(vec![])])])]);
    // The inner def is inside the if, the outer one is not.
    tells(G, vec![def(F, vec![if_true(vec![vec![def(G, vec![])]])])]);
}

#[test]
fn a_def_behind_an_inner_if() {
    tells(F, vec![if_true(vec![vec![if_true(vec![vec![pass()]]), def(F, vec![])]])]);
    tells(F, vec![if_true(vec![vec![if_else(vec![], vec![])], vec![def(F, vec![])]])]);
}

#[test]
fn a_def_behind_an_if() {
    is_steady(vec![if_true(vec![vec![pass()]]), def(F, vec![])]);
    is_steady(vec![while_true(vec![if_else(vec![], vec![pass()]), def(F, vec![])])]);
    is_steady(vec![def(F, vec![if_true(vec![in_ifs(3, vec![])]), def(G, vec![])])]);
}

#[test]
fn of_two_the_first_is_told() {
    tells(F, vec![if_else(vec![def(F, vec![])], vec![def(G, vec![])])]);
    tells(F, vec![if_true(vec![vec![def(F, vec![]), def(G, vec![])]])]);
    tells(F, vec![if_true(vec![in_ifs(2, vec![def(F, vec![])])]), if_true(vec![vec![def(G, vec![])]])]);
    // G stands before it, but in no if.
    tells(F, vec![def(G, vec![]), if_true(vec![vec![def(F, vec![])]])]);
}

#[test]
fn at_the_deepest() {
    // An if and its Block are two levels, and so are a def and its own; the module's Block is the first.
    let levels = (DEEPEST - 1) / 2;
    is_steady(in_ifs(levels, vec![pass()]));
    tells(F, in_ifs(levels - 1, vec![def(F, vec![pass()])]));
    tells(F, in_ifs(levels - 1, vec![if_else(vec![], vec![]), def(F, vec![pass()])]));
}

/// Bytes that are no image, by what is wrong with them.
fn no_images() -> Vec<(u32, Vec<u8>)> {
    let program = || vec![def(F, vec![pass()]), if_true(vec![vec![def(G, vec![pass()])]])];
    let good = image(program());
    let with = |at: usize, word: u32| {
        let mut bytes = good.clone();
        bytes[WORD * at..WORD * (at + 1)].copy_from_slice(&word.to_le_bytes());
        bytes
    };
    let name_word = |name: u32, word: usize| HEADER + NAME * name as usize + word;
    let node_word = |node: usize, word: usize| HEADER + NAME * TEXTS.len() + NODE * node + word;
    let all = nodes(program());
    let inner_block = all.iter().rposition(|node| node[KIND] == BLOCK).expect("the inner def's Block");
    let panicking = [("f", PLAIN_NAME, 0), ("len", ANY_COUNT, 0), ("x", PLAIN_NAME, 0)];
    vec![
        (1, vec![]),
        (1, good[..WORD * HEADER - 1].to_vec()),
        (1, with(0, VERSION + 1)),
        (2, with(NODE_COUNT, 0)),
        (3, good[..good.len() - 1].to_vec()),
        (3, [&good[..], &[0]].concat()),
        (4, with(name_word(G, TEXT_LENGTH), 0)),
        (5, image_over(&panicking, &all)),
        (6, with(node_word(all.len() - 1, KIND), u32::MAX)),
        (7, with(node_word(inner_block, CHILDREN), 2)),
        (8, image(in_ifs(DEEPEST / 2, vec![def(F, vec![])]))),
    ]
}

#[test]
fn no_image() {
    for (code, bytes) in no_images() {
        for setting in [Plain, Strict] {
            match check(setting, &bytes, &mut [], &mut []) {
                Answer::Refused(refusal) if refusal.code == code => match steady(&bytes) {
                    Steadiness::Refused(same) => assert_eq!(same, refusal),
                    other => panic!("{}: {:?}", code, other),
                },
                answer => panic!("{}: {}", code, answer),
            }
        }
        holds(&bytes, steady(&bytes));
    }
}

#[test]
fn each_example_but_soft_is_steady() {
    let folder = PathBuf::from(env!("CARGO_MANIFEST_DIR")).join("../../examples");
    let file = |name: String| fs::read(folder.join(name)).expect("the example's file can be read");
    for name in ["bias", "bias-float", "corners", "dial", "limit", "race", "stint", "stored", "table", "wet"] {
        holds(&file(name.to_string() + ".image"), Steadiness::Steady);
    }
    // The span is the def, to the script's end but for the newline.
    let script = String::from_utf8(file("soft.py".to_string())).expect("a script is ASCII");
    let span = (script.find("def").expect("a def") as u32, script.trim_end().len() as u32);
    holds(&file("soft.image".to_string()), Steadiness::DefInIf { place: 13, span });
}

/// The names of an accepted program's sheet, in words.
fn sheet_of(program: Vec<Tree>) -> String {
    let (mut sheet, mut message) = (vec![0; SHEET_MAX], [0; MESSAGE_ROOM]);
    match check(Plain, &image(program), &mut sheet, &mut message) {
        Answer::Accepted { sheet } => show(sheet, &mut vec![0; SHOW_MAX]).expect("a check's sheet").to_string(),
        Answer::Refused(refusal) => panic!("{}", refusal),
    }
}

/// Document 01's run 11: in plain x is known as Int, and then is String, by a def that fails inside an if.
#[test]
fn what_is_known_may_change_where_a_def_stands_inside_an_if() {
    let added = || Tree(BINARY, PLUS, vec![Tree(LITERAL, INT, vec![]), Tree(LITERAL, STRING, vec![])]);
    let fails = || def(F, vec![assign(X, STRING), Tree(EXPR, 0, vec![added()])]);
    let program = || vec![assign(X, INT), if_true(vec![vec![fails()]])];
    assert_eq!(sheet_of(vec![assign(X, INT)]), "x: Int\n");
    assert_eq!(sheet_of(program()), "x: String\n");
    tells(F, program());
}

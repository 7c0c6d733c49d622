//! The load rule on the repository's examples.

use cablebirch::Setting::{self, Plain, Strict};
use cablebirch::{check, load, Answer, Loading, MESSAGE_ROOM, SHEET_MAX};
use std::fs;
use std::path::PathBuf;

/// What the two buffers hold before a call.
const SHEET_PAINT: u8 = 0xa5;
const MESSAGE_PAINT: u8 = 0x5a;

const EXAMPLES: [&str; 11] =
    ["bias", "bias-float", "corners", "dial", "limit", "race", "soft", "stint", "stored", "table", "wet"];

fn file(name: &str) -> Vec<u8> {
    let folder = PathBuf::from(env!("CARGO_MANIFEST_DIR")).join("../../examples");
    fs::read(folder.join(name)).expect("the example's file can be read")
}

fn image(name: &str) -> Vec<u8> {
    file(&(name.to_string() + ".image"))
}

/// What may stand as the approved sheet: sheets of examples, one cut short, one with a byte more, no bytes, and an image.
fn approved() -> Vec<Vec<u8>> {
    let bias = file("bias.sheet");
    let longer = [&bias[..], &[0]].concat();
    let sheets = ["bias-float.sheet", "corners.sheet", "race.sheet", "stint.sheet"].map(file);
    [vec![bias[..bias.len() - 1].to_vec(), bias, longer, vec![], image("bias")], sheets.to_vec()].concat()
}

/// The case alone: 0 loads, 1 look, 2 refused.
fn case(setting: Setting, name: &str, approved: &[u8]) -> u32 {
    let (mut sheet, mut message) = (vec![0; SHEET_MAX], [0; MESSAGE_ROOM]);
    match load(setting, &image(name), approved, &mut sheet, &mut message) {
        Loading::Loads { .. } => 0,
        Loading::Look { .. } => 1,
        Loading::Refused(_) => 2,
    }
}

#[test]
fn the_edited_dial_step_does_not_load_unseen() {
    for setting in [Plain, Strict] {
        assert_eq!(case(setting, "bias", &file("bias.sheet")), 0);
        assert_eq!(case(setting, "bias-float", &file("bias.sheet")), 1);
        assert_eq!(case(setting, "bias-float", &file("bias-float.sheet")), 0);
        assert_eq!(case(setting, "limit", &file("bias.sheet")), 2);
    }
}

#[test]
fn what_plain_loads_strict_may_refuse() {
    assert_eq!(case(Plain, "race", &file("race.sheet")), 0);
    assert_eq!(case(Strict, "race", &file("race.sheet")), 2);
}

#[test]
fn the_rule_on_each_example() {
    let mut cases = [0; 3];
    for setting in [Plain, Strict] {
        for name in EXAMPLES {
            for approved in approved() {
                let what = format!("{} {:?}, {} bytes approved", name, setting, approved.len());
                let (mut checked, mut said) = (vec![SHEET_PAINT; SHEET_MAX], [MESSAGE_PAINT; MESSAGE_ROOM]);
                let (mut sheet, mut message) = (checked.clone(), said);
                let answer = check(setting, &image(name), &mut checked, &mut said);
                let loading = load(setting, &image(name), &approved, &mut sheet, &mut message);
                let case = match (answer, loading) {
                    (Answer::Accepted { sheet: a }, Loading::Loads { sheet: b }) => {
                        assert!(a == b && a == approved, "{}", what);
                        0
                    }
                    (Answer::Accepted { sheet: a }, Loading::Look { sheet: b }) => {
                        assert!(a == b && a != approved, "{}", what);
                        1
                    }
                    (Answer::Refused(a), Loading::Refused(b)) => {
                        assert_eq!(a, b, "{}", what);
                        2
                    }
                    (answer, loading) => panic!("{}: {:?} and {:?}", what, answer, loading),
                };
                cases[case] += 1;
                // Both buffers are left as a check leaves them.
                assert!(checked == sheet && said == message, "{}", what);
            }
        }
    }
    // Five sheets are approved that an example has: each loads in both settings, but for race in strict. Five examples are refused in both
    // settings, race and soft in strict.
    let all = 2 * EXAMPLES.len() * approved().len();
    let (loads, refused) = (2 * 5 - 1, (2 * 5 + 2) * approved().len());
    assert_eq!(cases, [loads, all - loads - refused, refused]);
}

#[test]
fn short_buffers() {
    let approved = file("bias.sheet");
    for setting in [Plain, Strict] {
        let mut enough = vec![SHEET_PAINT; approved.len()];
        let loading = load(setting, &image("bias"), &approved, &mut enough, &mut []);
        assert_eq!(loading, Loading::Loads { sheet: &approved });

        let (mut short, mut message) = (vec![SHEET_PAINT; approved.len() - 1], [MESSAGE_PAINT; MESSAGE_ROOM]);
        match load(setting, &image("bias"), &approved, &mut short, &mut message) {
            Loading::Refused(refusal) => assert_eq!(refusal.to_string(), "refused 10 0 0 0 -"),
            loading => panic!("{:?}", loading),
        }
        assert!(short.iter().all(|b| *b == SHEET_PAINT) && message.iter().all(|b| *b == MESSAGE_PAINT));
    }
}

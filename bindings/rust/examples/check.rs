//! usage: check [plain | strict] IMAGE: prints the checker's line for a program image, in plain if no setting is named, and for codes
//! 23 and 25 where the old type was first set.

use cablebirch::{Answer, Refusal, Setting};

fn main() {
    let words: Vec<String> = std::env::args().skip(1).collect();
    let (setting, name) = match words.iter().map(String::as_str).collect::<Vec<_>>()[..] {
        [name] | ["plain", name] => (Setting::Plain, name),
        ["strict", name] => (Setting::Strict, name),
        _ => panic!("usage: check [plain | strict] IMAGE"),
    };
    let image = std::fs::read(name).expect("the image can be read");
    let (mut sheet, mut message) = (vec![0; cablebirch::SHEET_MAX], [0; cablebirch::MESSAGE_ROOM]);
    let answer = cablebirch::check(setting, &image, &mut sheet, &mut message);
    println!("{}", answer);
    if let Answer::Refused(Refusal { second: Some((start, end)), .. }) = answer {
        println!("first set here {} {}", start, end);
    }
}

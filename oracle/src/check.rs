//! Holding the reference walk against T.

use crate::answer::{has_second, Answer, Rooms, Setting};
use crate::convert;
use crate::exhaust::{All, PAIRS};
use crate::generate;
use crate::image::{self, kind::*};
use crate::judge::{self, Engine, Judged};
use crate::mistakes::Mind;
use crate::reference;
use crate::show;
use std::collections::BTreeMap;

/// What was seen.
#[derive(Default)]
pub struct Tally {
    pub images: u64,
    pub codes: BTreeMap<u32, u64>,
    pub engines: BTreeMap<&'static str, u64>,
    pub differences: u64,
}

/// How many differences are shown.
const SHOWN: u64 = 5;

impl Tally {
    /// Judges an image by T and by the reference, and shows the first differences. One with a TreeSet is judged as it was
    /// before these were retired too, and T's answer to the converted image must be that one.
    pub fn compare(&mut self, image: &[u8], setting: Setting, rooms: Rooms) -> Answer {
        let judged = judge::judge(image, setting, rooms);
        let other = reference::judge(image, setting, rooms, Mind::SOUND).answer;
        let retired = judged.answer.code == 14;
        let answer = self.hold(image, rooms, judged, &other);
        if !retired {
            return answer;
        }
        let other = reference::former(image, setting, rooms).answer;
        let former = self.hold(image, rooms, judge::former(image, setting, rooms), &other);
        let converted = convert::converted(image).expect("it is well formed");
        self.hold(&converted, rooms, judge::judge(&converted, setting, rooms), &former);
        former
    }

    fn hold(&mut self, image: &[u8], rooms: Rooms, judged: Judged, other: &Answer) -> Answer {
        self.images += 1;
        *self.codes.entry(judged.answer.code).or_insert(0) += 1;
        *self.engines.entry(judged.engine.name()).or_insert(0) += 1;
        // T knows no second span: all that can be asked of it is that a node has it which binds the name.
        let possible = !has_second(judged.answer.code) || binds_the_name(image, &judged.answer);
        if *other != judged.answer || !possible {
            self.differences += 1;
            if self.differences <= SHOWN {
                println!("difference, rooms {:?}{}:", rooms, if possible { "" } else { ", no such first node" });
                println!("  T         {}", String::from_utf8_lossy(&judged.answer.line()));
                println!("  reference {}", String::from_utf8_lossy(&other.line()));
                println!("{}", show::image(image));
            }
        }
        judged.answer
    }

    fn add(&mut self, other: &Tally) {
        self.images += other.images;
        self.differences += other.differences;
        for (code, count) in &other.codes {
            *self.codes.entry(*code).or_insert(0) += count;
        }
        for (engine, count) in &other.engines {
            *self.engines.entry(*engine).or_insert(0) += count;
        }
    }

    fn engines(&self) -> String {
        let all = [Engine::Image, Engine::AsIs, Engine::Sorted, Engine::Ninth, Engine::TooLarge];
        let count = |engine: &Engine| self.engines.get(engine.name()).copied().unwrap_or(0);
        all.iter().map(|engine| format!("{:>9}", count(engine))).collect()
    }

    pub fn codes(&self) -> String {
        self.codes.iter().map(|(code, count)| format!("{}:{}", code, count)).collect::<Vec<String>>().join(" ")
    }
}

/// Whether the second span of a 25 or 23 is that of a Variable by which an Assign may bind the name that the answer is
/// about, or of the iterable of a For of that name. If its message does not fit, a 23 does not tell its name.
fn binds_the_name(bytes: &[u8], answer: &Answer) -> bool {
    let image = image::read(bytes).expect("it was walked");
    let nodes = &image.nodes;
    let told = |name: usize| match answer.code {
        25 => nodes[answer.place as usize].arg as usize == name,
        _ => {
            let quoted = format!("'{}' has", image.names[name].text);
            answer.message.is_empty() || String::from_utf8_lossy(&answer.message).contains(&quoted)
        }
    };
    let fits =
        |node: usize, name: u32| (nodes[node].span_start, nodes[node].span_end) == answer.second && told(name as usize);
    (0..nodes.len()).any(|node| match nodes[node].kind {
        FOR => fits(node + 1, nodes[node].arg),
        ASSIGN => {
            // Everything but Tuples is passed by with what it holds.
            let mut at = node + 1;
            let end = nodes[at].end as usize;
            let mut found = false;
            while at < end {
                found |= nodes[at].kind == VARIABLE && fits(at, nodes[at].arg);
                at = if nodes[at].kind == TUPLE { at + 1 } else { nodes[at].end as usize };
            }
            found
        }
        _ => false,
    })
}

/// `count` images of each family, or of one. Every tenth is judged again in rooms that its sheet or message
/// just fits, and just doesn't.
pub fn check_reference(seed: u64, count: u64, only: Option<&str>, setting: Setting) -> bool {
    println!("{:10} {:>9}    image    as-is   sorted    ninth too-large differences", "family", "judged");
    let mut total = Tally::default();
    for (family, _) in generate::FAMILIES.iter().filter(|(name, _)| only.map_or(true, |only| only == *name)) {
        let mut tally = Tally::default();
        for number in 0..count {
            let image = generate::image(seed, family, number);
            let answer = tally.compare(&image, setting, Rooms::default());
            if number % 10 == 0 {
                for less in 0..2 {
                    let sheet = answer.sheet.len().saturating_sub(less);
                    let message = answer.message.len().saturating_sub(less);
                    tally.compare(&image, setting, Rooms { sheet, message });
                }
            }
        }
        println!("{:10} {:>9}{} {:>11}", family, tally.images, tally.engines(), tally.differences);
        total.add(&tally);
    }
    println!("{:10} {:>9}{} {:>11}", "all", total.images, total.engines(), total.differences);
    println!("codes: {}", total.codes());
    total.differences == 0
}

/// Every program of up to `nodes` nodes besides the module's Block, over each pair of names. One with a TreeSet has three
/// answers.
pub fn exhaust(nodes: usize, setting: Setting) -> bool {
    let all = All::new(nodes);
    let mut total = Tally::default();
    let mut programs = 0;
    for pair in PAIRS.iter() {
        let mut tally = Tally::default();
        let before = programs;
        for size in 0..=nodes {
            all.programs(size, pair, &mut |program| {
                tally.compare(&program.image(), setting, Rooms::default());
                programs += 1;
            });
        }
        println!("{} {:?}: {} programs, {} differences", pair[0].0, pair[1].0, programs - before, tally.differences);
        total.add(&tally);
    }
    println!(
        "all: {} programs, {} answers, {} differences; codes: {}",
        programs,
        total.images,
        total.differences,
        total.codes()
    );
    total.differences == 0
}

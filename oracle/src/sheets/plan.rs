//! What a sheet is to say, before it is written: from a program that is accepted, or made up.

use crate::answer::Setting;
use crate::generate;
use crate::mistakes::Mind;
use crate::random::Random;
use crate::reference::read::{self, Image, NameRecord};
use crate::reference::types::*;
use crate::reference::walk::{End, Walk};
use crate::reference::write;
use std::collections::BTreeMap;

/// A type table, and each name's type in it. Types may stand in any order and need not be reachable, as a check
/// leaves them.
#[derive(Clone)]
pub struct Plan {
    pub types: Types,
    pub names: BTreeMap<Vec<u8>, Ty>,
}

/// Most of what a reader takes.
pub const TYPES: usize = 2_048;
pub const ELEMENTS: usize = 2_047;
pub const NAMES: usize = 128;
pub const NAME_BYTES: usize = 64;

/// The first so many of the generator's families take turns. One that is added behind them does not change the stored sheets.
const FAMILIES: usize = 18;

impl Plan {
    pub fn new() -> Plan {
        Plan { types: Types::new(false), names: BTreeMap::new() }
    }

    /// Its sheet by the reference's writer, as far as `mind` gets it right. The writer takes a walk at its end, so
    /// it is given one: no program, only types and names.
    pub fn sheet(&self, mind: Mind) -> Vec<u8> {
        let record = |_| NameRecord { start: 0, length: 0, role: 0, p: 0, q: 0 };
        let image = Image {
            names: self.names.keys().map(record).collect(),
            texts: self.names.keys().cloned().collect(),
            nodes: Vec::new(),
        };
        let mut walk = Walk::new(&image, Setting::Plain, mind);
        walk.types = self.types.clone();
        write::sheet(&walk, self.names.values().copied().enumerate().collect(), mind)
    }

    /// The module frame at the end of a program; none if it is refused.
    pub fn of_program(image: &[u8]) -> Option<Plan> {
        let image = read::read(image, Mind::SOUND).ok()?;
        let mut walk = Walk::new(&image, Setting::Plain, Mind::SOUND);
        if !matches!(walk.program(), End::Done) {
            return None;
        }
        let module = image.texts.iter().zip(&walk.frames[0]);
        let names = module.filter_map(|(text, slot)| slot.map(|slot| (text.clone(), slot.t))).collect();
        Some(Plan { types: walk.types, names })
    }

    /// An accepted program's; families take turns, and one that has none soon gives its turn to the next.
    pub fn drawn(seed: u64, number: u64) -> Plan {
        let families = FAMILIES as u64;
        let mut family = number % families;
        loop {
            let first = (number / families) * 20;
            let mut images = (first..first + 20)
                .map(|number| generate::image(seed, generate::FAMILIES[family as usize].0, number))
                .filter_map(|image| Plan::of_program(&image));
            if let Some(plan) = images.next() {
                return plan;
            }
            family = (family + 1) % families;
        }
    }

    /// A name that is not there yet.
    fn fresh_name(&self, random: &mut Random, longest: usize) -> Vec<u8> {
        loop {
            let length = random.within(1, longest);
            // Mostly from few letters, so that names are prefixes of each other.
            let few = random.chance(60);
            let byte = |random: &mut Random| if few { *random.pick(b"!aA~") } else { random.within(33, 126) as u8 };
            let name: Vec<u8> = (0..length).map(|_| byte(random)).collect();
            if !self.names.contains_key(&name) {
                return name;
            }
        }
    }

    fn name(&mut self, random: &mut Random, t: Ty) {
        let longest = *random.pick(&[2, 3, 3, 6, 20, NAME_BYTES]);
        let name = self.fresh_name(random, longest);
        self.names.insert(name, t);
    }

    /// Any type there is, the newest more often.
    fn some_type(&self, random: &mut Random) -> Ty {
        let formed = self.types.formed() as usize;
        match random.below(3) {
            0 => random.below(8) as Ty,
            1 => random.below(8 + formed) as Ty,
            _ => (8 + formed - random.within(1, formed.clamp(1, 4))) as Ty,
        }
    }

    fn form_any(&mut self, random: &mut Random) {
        let (kind, count) = match random.below(9) {
            0 | 1 => (LIST, 1),
            2 | 3 => (DICT, 2),
            4 => (MAP_ITER, 1),
            5 => (FILTER_ITER, 1),
            _ => (TUPLE, random.below(5)),
        };
        let parts = (0..count).map(|_| self.some_type(random)).collect();
        self.types.form(kind, parts);
    }

    /// Any table, with any names over it: not all types are reachable, and none stands where the sheet puts it.
    pub fn table(random: &mut Random) -> Plan {
        let mut plan = Plan::new();
        let wanted = random.within(0, *random.clone().pick(&[4, 10, 10, 40]));
        for _ in 0..wanted {
            plan.form_any(random);
        }
        for _ in 0..random.within(1, *random.clone().pick(&[3, 6, 12])) {
            let t = plan.some_type(random);
            plan.name(random, t);
        }
        plan
    }

    /// Names over plain types, no names too.
    pub fn plain(random: &mut Random, number: u64) -> Plan {
        let mut plan = Plan::new();
        let count = [0, 1, 8, NAMES, random.within(2, 20)][number as usize % 5];
        for i in 0..count {
            plan.name(random, (i % 8) as Ty);
        }
        plan
    }

    /// One-part types in each other. No program makes a MapIter of anything but Unknown.
    pub fn chain(random: &mut Random, number: u64, wanted: usize) -> Plan {
        let mut plan = Plan::new();
        let mut t = random.below(8) as Ty;
        for _ in 0..wanted {
            let kind = if number % 2 == 0 { LIST } else { *random.pick(&[LIST, MAP_ITER, FILTER_ITER]) };
            t = plan.types.form(kind, vec![t]);
            if random.below(wanted) < 3 && plan.names.len() < 20 {
                plan.name(random, t);
            }
        }
        plan.name(random, t);
        plan
    }

    /// MapIter and FilterIter of each type there is.
    pub fn iters(random: &mut Random) -> Plan {
        let mut plan = Plan::table(random);
        for _ in 0..random.within(1, 8) {
            let part = plan.some_type(random);
            let t = plan.types.form(*random.pick(&[MAP_ITER, FILTER_ITER]), vec![part]);
            plan.name(random, t);
        }
        plan
    }

    /// Names of 64 bytes that differ in their last bytes only, up to 128.
    pub fn long_names(random: &mut Random, number: u64) -> Plan {
        let mut plan = Plan::table(random);
        plan.names.clear();
        let count = [NAMES, 1, 2, 12, NAMES - 1][number as usize % 5];
        for i in 0..count {
            let name = format!("{:~>1$}", format!("{:03}", i), NAME_BYTES).into_bytes();
            let t = plan.some_type(random);
            plan.names.insert(name, t);
        }
        plan
    }

    /// Tuples with `wanted` elements in all.
    pub fn wide(random: &mut Random, wanted: usize) -> Plan {
        let mut plan = Plan::new();
        let most = *random.pick(&[wanted, wanted / 2 + 1, 40]);
        let mut left = wanted;
        while left > 0 {
            let count = random.within(1, most).min(left);
            // The last element tells it from all before, so that each takes elements of its own.
            let formed = plan.types.formed();
            let mut parts: Vec<Ty> = (0..count).map(|_| plan.some_type(random)).collect();
            parts[count - 1] = if formed > 0 { 7 + formed } else { 1 };
            plan.types.form(TUPLE, parts);
            left -= count;
        }
        let last = 7 + plan.types.formed();
        plan.name(random, last);
        plan
    }

    /// The empty Tuple behind others, so that its p is not 0.
    pub fn empty_tuples(random: &mut Random) -> Plan {
        let mut plan = Plan::table(random);
        let empty = plan.types.form(TUPLE, Vec::new());
        for _ in 0..random.within(0, 3) {
            let mut parts: Vec<Ty> = (0..random.within(1, 3)).map(|_| plan.some_type(random)).collect();
            parts.insert(random.below(parts.len() + 1), empty);
            let t = plan.types.form(TUPLE, parts);
            plan.name(random, t);
        }
        // A first name in byte order that takes elements before the empty Tuple is met.
        let before: Vec<Ty> = (0..random.within(1, 4)).map(|_| random.below(8) as Ty).collect();
        let t = plan.types.form(TUPLE, before);
        plan.names.insert(b"!".to_vec(), t);
        plan.name(random, empty);
        plan
    }

    /// Types that share their parts: as trees they double with each step.
    pub fn shared(random: &mut Random, number: u64) -> Plan {
        let mut plan = Plan::new();
        let steps = [3, 12, 33, 65, 200, random.within(1, 20)][number as usize % 6];
        let mut t = random.below(8) as Ty;
        for _ in 0..steps {
            t = match random.below(3) {
                0 => plan.types.form(DICT, vec![t, t]),
                1 => plan.types.form(TUPLE, vec![t, random.below(8) as Ty, t]),
                _ => plan.types.form(TUPLE, vec![t, t]),
            };
            if random.chance(20) && plan.names.len() < 20 {
                plan.name(random, t);
            }
        }
        plan.name(random, t);
        plan
    }

    /// As much as there may be of everything: 42,532 bytes.
    pub fn full(random: &mut Random) -> Plan {
        let mut plan = Plan::new();
        let mut t = random.below(8) as Ty;
        let mut elements = ELEMENTS;
        for i in 0..TYPES {
            let left = TYPES - i;
            // Each has the one before for a part, so all are distinct and reachable.
            t = if left == 1 && elements > 0 {
                plan.types.form(TUPLE, vec![t; elements])
            } else if elements > 3 && random.chance(30) {
                let count = random.within(1, elements.min(3));
                elements -= count;
                plan.types.form(TUPLE, vec![t; count])
            } else {
                let (kind, parts) = *random.pick(&[(LIST, 1), (DICT, 2), (MAP_ITER, 1), (FILTER_ITER, 1)]);
                plan.types.form(kind, vec![t; parts])
            };
        }
        for i in 0..NAMES {
            let name = format!("{:!>1$}", format!("{:03}", i), NAME_BYTES).into_bytes();
            let some = if i == 0 { t } else { plan.some_type(random) };
            plan.names.insert(name, some);
        }
        plan
    }
}

//! Which names the sheet lists: document 02's second request, over the nodes.
//!
//! The sheet lists the module frame's names, and besides "each name that an Assign or a For at module level may bind, through If,
//! While and For bodies at any depth, but not inside Def or Class", as Unknown. "An Assign may bind the Variables that are its
//! target or lie within it through Tuples alone, by form, even where an error keeps one from being bound."

use super::types::*;
use super::walk::Walk;
use crate::answer::Setting;
use crate::mistakes::{Mind, Mistake, Mistake::*};

/// The names that the sheet lists, in its order, each with its type.
pub fn listed(walk: &Walk, mind: Mind) -> Vec<(usize, Ty)> {
    let mut form = Form { walk, mind, binds: vec![Bound::default(); walk.image.names.len()], level: 0 };
    let frame_only = mind.slips(FrameOnly) || (mind.slips(StrictFrameOnly) && walk.setting == Setting::Strict);
    if !frame_only {
        form.block(0);
    }
    let mut listed: Vec<(usize, Ty)> = Vec::new();
    for name in 0..form.binds.len() {
        let times = if mind.slips(ListedAgain) { form.binds[name].times.max(1) } else { 1 };
        listed.extend(form.slot(name).map(|t| vec![(name, t); times]).unwrap_or_default());
    }
    if mind.slips(AddedBehind) {
        // The sort keeps the order of those that are alike.
        listed.sort_by_key(|(name, _)| walk.frames[0][*name].is_none());
    }
    listed
}

/// What may bind a name.
#[derive(Clone, Default)]
struct Bound {
    /// How often something may.
    times: usize,
    /// Whether something in a body may.
    inside: bool,
}

struct Form<'a> {
    walk: &'a Walk<'a>,
    mind: Mind,
    /// For each name of the image.
    binds: Vec<Bound>,
    /// How many bodies the statement at hand stands in.
    level: usize,
}

impl Form<'_> {
    /// The type by which a name is listed, if it is: the module frame's, or Unknown where that lacks it.
    fn slot(&self, name: usize) -> Option<Ty> {
        let walk = self.walk;
        let special = walk.image.names[name].role != 0 && self.mind.slips(RolesUnlisted);
        let binds = (self.binds[name].times > 0 && !special) || self.mind.slips(AllNamesListed);
        match walk.frames[0][name].map(|slot| slot.t) {
            Some(_) if !binds && self.mind.slips(FrameUnlisted) => None,
            Some(_) if self.binds[name].inside && self.mind.slips(BodyForgets) => Some(UNKNOWN),
            Some(t) => Some(t),
            None if !binds => None,
            None if self.mind.slips(BodyTypeListed) => walk.met[name].or(Some(UNKNOWN)),
            None if self.mind.slips(AsWalked) => walk.met[name].map(|_| UNKNOWN),
            None => Some(UNKNOWN),
        }
    }

    fn bind(&mut self, name: usize) {
        // Only a reader's mistake lets a Def have a name that is none.
        if let Some(bound) = self.binds.get_mut(name) {
            bound.times += 1;
            bound.inside |= self.level > 0;
        }
    }

    fn block(&mut self, block: usize) {
        for statement in self.walk.children(block) {
            self.statement(statement);
            if self.mind.slips(DeadCodeMissed) && [1, 2, 7].contains(&self.walk.kind_of(statement)) {
                return;
            }
        }
    }

    fn body(&mut self, block: usize, missed: Mistake) {
        if self.mind.slips(missed) || (self.mind.slips(OneDeep) && self.level > 0) {
            return;
        }
        self.level += 1;
        self.block(block);
        self.level -= 1;
    }

    fn statement(&mut self, node: usize) {
        let parts = self.walk.children(node);
        if self.mind.slips(ReadNamesListed) {
            parts.iter().for_each(|part| self.every_variable(*part));
        }
        match self.walk.kind_of(node) {
            5 if self.mind.slips(WholeTargetListed) => self.every_variable(parts[0]),
            5 => self.target(parts[0], false),
            8 => {
                // A condition stands before each body but an else.
                for (number, arm) in parts.chunks(2).enumerate() {
                    let missed = match (number, arm.len()) {
                        (0, _) => ThenMissed,
                        (_, 2) => ElifMissed,
                        _ => ElseMissed,
                    };
                    self.body(arm[arm.len() - 1], missed);
                }
            }
            9 => self.body(parts[1], WhileMissed),
            10 => {
                if !self.mind.slips(LoopNameMissed) {
                    self.bind(self.walk.arg(node));
                }
                self.body(parts[1], ForBodyMissed);
            }
            11 => self.def(node, &parts),
            _ => {}
        }
    }

    /// A Def binds nothing: what is done here are mistakes.
    fn def(&mut self, node: usize, parts: &[usize]) {
        let (body, params) = parts.split_last().expect("a Def has a Block");
        if self.mind.slips(DefNamesListed) {
            self.bind(self.walk.arg(node));
        }
        if self.mind.slips(ParamsListed) {
            params.iter().for_each(|param| self.bind(self.walk.arg(*param)));
        }
        if self.mind.slips(DefsTakenIn) || (self.mind.slips(InnerDefsTakenIn) && self.level > 0) {
            self.block(*body);
        }
    }

    /// A target, or one inside another.
    fn target(&mut self, node: usize, inside: bool) {
        let parts = self.walk.children(node);
        match self.walk.kind_of(node) {
            21 => self.bind(self.walk.arg(node)),
            28 if self.mind.slips(TuplesMissed) => {}
            28 if self.mind.slips(NestedTuplesMissed) && inside => {}
            28 => self.targets(&parts),
            26 if self.mind.slips(ListTargetsTakenIn) => self.targets(&parts),
            25 if self.mind.slips(AttributeObjectListed) => self.target(parts[0], true),
            31 if self.mind.slips(IndexObjectListed) => self.target(parts[0], true),
            31 if self.mind.slips(IndexListed) => self.target(parts[1], true),
            _ => {}
        }
    }

    fn targets(&mut self, parts: &[usize]) {
        for part in parts {
            if self.mind.slips(RestOfTargetMissed) && ![21, 28].contains(&self.walk.kind_of(*part)) {
                return;
            }
            self.target(*part, true);
        }
    }

    /// Every Variable of an expression, a mistake.
    fn every_variable(&mut self, node: usize) {
        match self.walk.kind_of(node) {
            21 => self.bind(self.walk.arg(node)),
            20..=32 => self.walk.children(node).into_iter().for_each(|part| self.every_variable(part)),
            _ => {}
        }
    }
}

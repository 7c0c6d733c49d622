//! The walk over the statements.

use super::first::Beside;
use super::read::Image;
use super::types::*;
use crate::answer::Setting;
use crate::mistakes::{Mind, Mistake, Mistake::*};
use std::collections::HashMap;

/// What a message names, between its fixed words.
#[derive(Debug, Clone)]
pub enum Piece {
    Type(Ty),
    Text(Vec<u8>),
    Number(u64),
}

/// A typing refusal, 20 to 50.
#[derive(Debug, Clone)]
pub struct Refusal {
    pub code: u32,
    pub node: usize,
    pub pieces: Vec<Piece>,
    /// For 25 and 23 the node that first made the old type known.
    pub first: Option<usize>,
}

/// How the walk, or a part of it, ends.
pub enum End {
    Done,
    Refused(Refusal),
    /// A Def needs a ninth frame: nothing drops this.
    NinthFrame(usize),
}

/// What a frame holds of a name: a type, and the node that first made it known. Unknown has none.
#[derive(Debug, Clone, Copy)]
pub struct Slot {
    pub t: Ty,
    pub first: Option<usize>,
}

impl Slot {
    pub(super) const UNKNOWN: Slot = Slot { t: UNKNOWN, first: None };

    /// A type that this node makes known, unless it is Unknown.
    pub(super) fn new(t: Ty, node: usize) -> Slot {
        Slot { t, first: Some(node).filter(|_| t != UNKNOWN) }
    }
}

/// A slot for each name of the image: absent, or what it holds. Unknown is not absent.
type Frame = Vec<Option<Slot>>;
/// The newest frame last.
type Frames = Vec<Frame>;

pub(super) type Typed = Result<Ty, Refusal>;

/// The frames that there may be, the module's among them.
const FRAMES: usize = 8;

pub struct Walk<'a> {
    pub image: &'a Image,
    pub types: Types,
    pub frames: Frames,
    /// The type that each name was last given where the module's frame was the only one, copies of it too. Only mistakes ask for it.
    pub(super) met: Vec<Option<Ty>>,
    /// What is kept for mistakes about the second span.
    pub(super) beside: Beside,
    /// The return type of the Def, or of the module statement, that the walk is in.
    returns: Ty,
    /// Nodes of type trees that T would have copied by now. What it makes and prints is in proportion.
    pub weight: u64,
    pub(super) setting: Setting,
    pub(super) mind: Mind,
}

/// The bodies whose errors plain drops.
#[derive(Clone, Copy, PartialEq)]
enum Body {
    Then,
    Elif,
    Else,
    While,
}

pub(super) fn refuse<T>(code: u32, node: usize, pieces: Vec<Piece>) -> Result<T, Refusal> {
    Err(Refusal { code, node, pieces, first: None })
}

impl<'a> Walk<'a> {
    pub fn new(image: &'a Image, setting: Setting, mind: Mind) -> Walk<'a> {
        let module = vec![None; image.names.len()];
        Walk {
            image,
            types: Types::new(mind.slips(TupleBare)),
            met: vec![None; image.names.len()],
            beside: Beside::new(image.names.len()),
            frames: vec![module],
            returns: UNKNOWN,
            weight: 0,
            setting,
            mind,
        }
    }

    /// The module's statements, each with a return type afresh.
    pub fn program(&mut self) -> End {
        if self.mind.slips(NinthBeforehand) {
            if let Some(def) = self.def_nested_too_deep() {
                return End::NinthFrame(def);
            }
        }
        for statement in self.children(0) {
            if !self.mind.slips(ModuleReturnKept) {
                self.returns = UNKNOWN;
            }
            match self.statement(statement, false) {
                End::Done => {}
                end => return end,
            }
        }
        // Handing the module frame out copies it.
        self.spend_frames();
        End::Done
    }

    fn def_nested_too_deep(&self) -> Option<usize> {
        (0..self.image.nodes.len()).find(|node| self.kind_of(*node) == 11 && self.defs_around(*node) >= FRAMES - 1)
    }

    fn defs_around(&self, node: usize) -> usize {
        (0..node).filter(|outer| self.kind_of(*outer) == 11 && self.image.nodes[*outer].end as usize > node).count()
    }

    // ---- the tree

    pub(super) fn children(&self, node: usize) -> Vec<usize> {
        let mut at = node + 1;
        let mut found = Vec::new();
        for _ in 0..self.image.nodes[node].children {
            found.push(at);
            at = self.image.nodes[at].end as usize;
        }
        found
    }

    pub(super) fn kind_of(&self, node: usize) -> u32 {
        self.image.nodes[node].kind
    }

    pub(super) fn arg(&self, node: usize) -> usize {
        self.image.nodes[node].arg as usize
    }

    // ---- what T would spend

    fn spend(&mut self, t: Ty) {
        self.weight = self.weight.saturating_add(self.types.weight(t));
    }

    fn spend_frames(&mut self) {
        let all = self.frames.iter().flatten().flatten();
        let sum = all.fold(0u64, |sum, slot| sum.saturating_add(1).saturating_add(self.types.weight(slot.t)));
        self.weight = self.weight.saturating_add(sum);
    }

    // ---- frames

    pub(super) fn find(&self, name: usize) -> Option<Slot> {
        if self.mind.slips(LookupOutermostFirst) {
            return self.frames.iter().find_map(|frame| frame[name]);
        }
        if self.mind.slips(UnknownIsAbsent) {
            return self.frames.iter().rev().find_map(|frame| frame[name].filter(|slot| slot.t != UNKNOWN));
        }
        self.frames.iter().rev().find_map(|frame| frame[name])
    }

    pub(super) fn lookup(&mut self, name: usize) -> Ty {
        let t = self.find(name).map_or(UNKNOWN, |slot| slot.t);
        self.spend(t);
        t
    }

    pub(super) fn newest(&self) -> &Frame {
        self.frames.last().expect("the module's frame is never popped")
    }

    fn bind(&mut self, name: usize, slot: Slot) {
        // A known type always has a node, and Unknown none.
        assert!(self.mind != Mind::SOUND || (slot.t == UNKNOWN) == slot.first.is_none(), "{:?}", slot);
        self.spend(slot.t);
        if self.frames.len() == 1 {
            self.met[name] = Some(slot.t);
        }
        self.note_beside(name, slot);
        self.frames.last_mut().expect("the module's frame is never popped")[name] = Some(slot);
    }

    // ---- statements

    fn statement(&mut self, node: usize, in_loop: bool) -> End {
        let parts = self.children(node);
        match self.kind_of(node) {
            1 if !in_loop => ended(refuse(20, node, Vec::new())),
            2 if !in_loop => ended(refuse(21, node, Vec::new())),
            1..=4 => End::Done,
            5 => ended(self.assignment(node, &parts)),
            6 => ended(self.expression(parts[0]).map(|_| ())),
            7 => {
                let place = if self.mind.slips(ReturnAtStatement) { node } else { parts[0] };
                let returned = self.expression(parts[0]).and_then(|t| self.return_type(place, t));
                ended(returned)
            }
            8 => self.if_statement(node, &parts, in_loop),
            9 => {
                if let Err(refusal) = self.condition(node, parts[0]) {
                    return End::Refused(refusal);
                }
                let entry = self.snapshot();
                let beside = self.beside.clone();
                let flag = in_loop || !self.mind.slips(WhileHandsItsFlag);
                let end = self.dropping(parts[1], flag, Body::While);
                if !self.mind.slips(WhileCommits) {
                    self.frames = entry;
                    self.put_beside_back(beside, OneNodeWhile);
                }
                end
            }
            10 => self.for_statement(node, &parts),
            11 => self.def(node, &parts, in_loop),
            // Only a reader's mistake lets other kinds come here.
            _ => End::Done,
        }
    }

    fn for_statement(&mut self, node: usize, parts: &[usize]) -> End {
        let place = if self.mind.slips(IterableAtStatement) { node } else { parts[0] };
        let element = self.expression(parts[0]).and_then(|t| self.element(place, t));
        let element = match element {
            Ok(element) => element,
            Err(refusal) => return End::Refused(refusal),
        };
        let name = self.arg(node);
        let slot = self.loop_slot(node, parts[0], element);
        if self.mind.slips(ForNameCommits) {
            self.bind(name, slot);
        }
        let entry = self.snapshot();
        let beside = self.beside.clone();
        if self.mind.slips(ForNameChecked) {
            if let Err(refusal) = self.assign_name(parts[0], name, element) {
                return End::Refused(refusal);
            }
        } else {
            self.bind(name, slot);
        }
        let returns = self.returns;
        let flag = !self.mind.slips(ForSetsNoFlag);
        let end = if self.mind.slips(ForErrorDropped) {
            self.dropping(parts[1], flag, Body::While)
        } else {
            self.returning(parts[1], flag)
        };
        if self.mind.slips(ForReturnsForgotten) {
            self.returns = returns;
        }
        let failed = !matches!(end, End::Done);
        let kept = self.mind.slips(ForCommits) || (failed && self.mind.slips(ForKeepsStray));
        if !kept {
            self.frames = entry;
            self.put_beside_back(beside, OneNodeFor);
            self.keep_loop_node(name, slot);
        }
        end
    }

    /// A copy of all frames, as T makes one.
    fn snapshot(&mut self) -> Frames {
        self.spend_frames();
        self.frames.clone()
    }

    /// A body whose first error is returned.
    fn returning(&mut self, block: usize, in_loop: bool) -> End {
        for statement in self.children(block) {
            match self.statement(statement, in_loop) {
                End::Done => {}
                end => return end,
            }
        }
        End::Done
    }

    /// A body whose errors plain drops, statement by statement, so that what was done before an error stays;
    /// strict returns the first at once.
    fn dropping(&mut self, block: usize, in_loop: bool, body: Body) -> End {
        let (returned, stops, still_dropped) = match body {
            Body::Then => (IfErrorReturned, IfStopsAtError, ThenDropped),
            Body::Elif => (IfErrorReturned, IfStopsAtError, ElifDropped),
            Body::Else => (IfErrorReturned, IfStopsAtError, ElseDropped),
            Body::While => (WhileErrorReturned, WhileStopsAtError, WhileDropped),
        };
        let strict = self.setting == Setting::Strict && !self.mind.slips(still_dropped);
        let before = self.returns;
        let mut held = End::Done;
        for statement in self.children(block) {
            match self.statement(statement, in_loop) {
                End::Done => {}
                End::NinthFrame(_) if self.mind.slips(NinthDropped) => {}
                end @ End::NinthFrame(_) => return end,
                end @ End::Refused(Refusal { code: 14, .. }) if self.mind.slips(RetiredAsWalked) => return end,
                end if strict && self.mind.slips(LastErrorTold) => held = end,
                end if strict && self.mind.slips(BodyWalkedOn) => {
                    if matches!(held, End::Done) {
                        held = end;
                    }
                }
                end if strict || self.mind.slips(returned) => return end,
                End::Refused(_) if self.mind.slips(stops) => break,
                End::Refused(_) => {}
            }
        }
        if self.mind.slips(DroppedReturnsForgotten) {
            self.returns = before;
        }
        held
    }

    fn def(&mut self, node: usize, parts: &[usize], in_loop: bool) -> End {
        let most = match self.mind {
            Mind(Some(NinthAllowed)) => FRAMES + 1,
            Mind(Some(EighthRefused)) => FRAMES - 1,
            _ => FRAMES,
        };
        let there = if self.mind.slips(NinthByNesting) { 1 + self.defs_around(node) } else { self.frames.len() };
        if there >= most {
            return End::NinthFrame(node);
        }
        if self.mind.slips(DefBindsName) {
            self.bind(self.arg(node), Slot::new(FUNCTION, node));
        }
        let (body, params) = parts.split_last().expect("a Def has a Block");
        self.frames.push(vec![None; self.image.names.len()]);
        for param in params {
            if !self.mind.slips(ParamsAbsent) {
                let slot = self.param_slot(node, *param);
                self.bind(self.arg(*param), slot);
            }
        }
        let outer = self.returns;
        if !self.mind.slips(DefReturnShared) {
            self.returns = UNKNOWN;
        }
        let flag = in_loop && self.mind.slips(LoopFlagIntoDef);
        let end = if self.mind.slips(DefErrorDropped) {
            self.dropping(*body, flag, Body::While)
        } else {
            self.returning(*body, flag)
        };
        if !self.mind.slips(DefReturnLeaks) {
            self.returns = outer;
        }
        // A Def that fails never pops its frame.
        if matches!(end, End::Done) || self.mind.slips(PopFailedDef) {
            self.frames.pop();
        }
        end
    }

    fn if_statement(&mut self, node: usize, parts: &[usize], in_loop: bool) -> End {
        let entry = self.frames.clone();
        let beside = self.beside.clone();
        let returns = self.returns;
        let mut branches: Vec<Frames> = Vec::new();
        // Only a mistake keeps a body's error for later.
        let mut held: Option<End> = None;
        if self.mind.slips(ElifsFirst) {
            for arm in parts.chunks_exact(2) {
                if let Err(refusal) = self.condition(node, arm[0]) {
                    return End::Refused(refusal);
                }
            }
        }
        for (number, arm) in parts.chunks(2).enumerate() {
            let block = *arm.last().expect("chunks are not empty");
            // A condition stands before each body but an else, and is checked at the entry frames.
            if arm.len() == 2 {
                if self.mind.slips(ElifInBranch) {
                    self.frames = branches.last().unwrap_or(&entry).clone();
                }
                let stands = self.condition(node, arm[0]);
                self.frames = entry.clone();
                if let Err(refusal) = stands {
                    if self.mind.slips(FailedElifForgetsReturns) {
                        self.returns = returns;
                    }
                    return End::Refused(refusal);
                }
            }
            if self.mind.slips(BranchAfterBranch) {
                self.frames = branches.last().unwrap_or(&entry).clone();
            }
            self.spend_frames();
            self.spend_frames();
            let body = match (number, arm.len()) {
                (0, _) => Body::Then,
                (_, 2) => Body::Elif,
                _ => Body::Else,
            };
            if held.is_some() && self.mind.slips(ConditionsFirst) {
                continue;
            }
            let end = self.dropping(block, self.flag_for(body, in_loop), body);
            self.spend_frames();
            branches.push(std::mem::replace(&mut self.frames, entry.clone()));
            self.put_beside_back(beside.clone(), OneNodeIf);
            match end {
                End::Done => {}
                End::Refused(_) if self.mind.slips(LastBranchTold) => held = Some(end),
                End::Refused(_) if self.mind.slips(ConditionsFirst) || self.mind.slips(MergeFirst) => {
                    held = held.or(Some(end));
                }
                end => return end,
            }
        }
        if !self.mind.slips(MergeFirst) {
            if let Some(end) = held {
                return end;
            }
        }
        let place = match self.mind {
            Mind(Some(MergeAtIf)) => node,
            Mind(Some(MergeAtLast)) => parts[(parts.len() / 2 - 1) * 2],
            _ => parts[0],
        };
        match (ended(self.merge(node, place, &branches)), held) {
            (End::Done, Some(end)) => end,
            (end, _) => end,
        }
    }

    /// An If hands on the flag that it has.
    fn flag_for(&self, body: Body, in_loop: bool) -> bool {
        let clears = match body {
            Body::Elif => self.mind.slips(ElifClearsFlag),
            Body::Else => self.mind.slips(ElseClearsFlag),
            _ => false,
        };
        (in_loop && !self.mind.slips(IfClearsFlag) && !clears) || self.mind.slips(IfSetsFlag)
    }

    /// Names in byte order, which is the order of their numbers. `place` is where 23 is told of the If `node`.
    fn merge(&mut self, node: usize, place: usize, branches: &[Frames]) -> Result<(), Refusal> {
        let entry = self.frames.clone();
        let mut names: Vec<usize> = (0..self.image.names.len()).collect();
        if self.mind.slips(MergeReversed) {
            names.reverse();
        }
        for name in names {
            let merged = match self.merged(node, place, name, &entry, branches) {
                Ok(merged) => merged,
                Err(first) => {
                    if self.mind.slips(MergeUndone) {
                        self.frames = entry;
                    }
                    let pieces = vec![Piece::Text(self.image.texts[name].clone())];
                    return Err(Refusal { code: 23, node: place, pieces, first });
                }
            };
            // Without the check of an assignment: a stray frame can change a known type here.
            if let Some(slot) = merged {
                if self.mind.slips(MergeChecked) {
                    self.assign_name(place, name, slot.t)?;
                } else {
                    self.bind(name, slot);
                }
            }
        }
        Ok(())
    }

    /// What the branches which assign the name agree on, none where they know of none: the slot of the first of them
    /// that knows it. Where they disagree, the node of the first type found.
    fn merged(
        &mut self,
        node: usize,
        place: usize,
        name: usize,
        entry: &Frames,
        branches: &[Frames],
    ) -> Result<Option<Slot>, Option<usize>> {
        let mind = self.mind;
        let slot_of = |frames: &Frames| {
            if mind.slips(MergeAllFrames) {
                return frames.iter().rev().find_map(|frame| frame[name]);
            }
            frames.last().expect("there is a frame")[name]
        };
        let base = slot_of(entry);
        let mut merged: Option<Slot> = None;
        let mut assigning: Vec<Slot> = Vec::new();
        if mind.slips(MergeWithBase) {
            merged = base.filter(|slot| slot.t != UNKNOWN);
        }
        for branch in branches {
            let slot = match slot_of(branch) {
                Some(slot) if self.assigned(base, slot) => slot,
                _ => continue,
            };
            assigning.push(slot);
            let counts = slot.t != UNKNOWN || mind.slips(MergeUnknownDiffers);
            match merged {
                _ if !counts => {
                    if mind.slips(MergeUnknown) && merged.is_none() {
                        merged = Some(Slot::UNKNOWN);
                    }
                }
                Some(m) if m.t == UNKNOWN && mind.slips(MergeUnknown) => merged = Some(slot),
                Some(_) if mind.slips(MergeLastWins) => merged = Some(slot),
                Some(m) if !self.same(m.t, slot.t) => return Err(self.clash_first(place, base, m, slot)),
                Some(_) => {}
                None => merged = Some(slot),
            }
        }
        if mind.slips(MergeIfAll) && assigning.len() < branches.len() {
            return Ok(None);
        }
        let visible = entry.iter().rev().find_map(|frame| frame[name]);
        Ok(merged.map(|slot| self.merged_slot(slot, &assigning, base, visible, (node, place))))
    }

    /// Whether a branch that holds `slot` has assigned the name: by type alone.
    fn assigned(&self, base: Option<Slot>, slot: Slot) -> bool {
        let by_node = self.mind.slips(AssignedByNode) && base.and_then(|base| base.first) != slot.first;
        base.map(|base| base.t) != Some(slot.t) || self.mind.slips(MergeHeld) || by_node
    }

    /// Equal number means equal type.
    pub(super) fn same(&self, a: Ty, b: Ty) -> bool {
        a == b || (self.mind.slips(DeepUnknown) && self.compatible(a, b, &mut HashMap::new()))
    }

    /// Equal but for Unknown, at any depth: a mistake.
    fn compatible(&self, a: Ty, b: Ty, known: &mut HashMap<(Ty, Ty), bool>) -> bool {
        if a == b || a == UNKNOWN || b == UNKNOWN {
            return true;
        }
        if let Some(answer) = known.get(&(a, b)) {
            return *answer;
        }
        let (xs, ys) = (self.types.parts(a), self.types.parts(b));
        let alike = self.types.kind(a) == self.types.kind(b) && a >= LIST && xs.len() == ys.len();
        let answer = alike && xs.iter().zip(ys).all(|(x, y)| self.compatible(*x, *y, known));
        known.insert((a, b), answer);
        answer
    }

    /// The condition of the If or While `node`.
    fn condition(&mut self, node: usize, condition: usize) -> Result<(), Refusal> {
        let t = self.expression(condition)?;
        if t != BOOL && !(t == UNKNOWN && self.mind.slips(ConditionUnknown)) {
            let place = if self.mind.slips(ConditionAtStatement) { node } else { condition };
            return refuse(36, place, Vec::new());
        }
        Ok(())
    }

    fn return_type(&mut self, node: usize, t: Ty) -> Result<(), Refusal> {
        self.spend(t);
        self.spend(self.returns);
        self.spend(self.returns);
        if t == UNKNOWN && self.mind.slips(ReturnUnknownResets) {
            self.returns = UNKNOWN;
            return Ok(());
        }
        let old = self.returns;
        match self.agreed(old, t) {
            Some(both) => {
                self.returns = both;
                Ok(())
            }
            None => {
                if self.mind.slips(FailedReturnStays) {
                    self.returns = t;
                }
                refuse(22, node, self.pair(old, t, SwappedReturn))
            }
        }
    }

    /// Of an old and a new type: Unknown gives way, equal stays; none where they differ.
    fn agreed(&self, old: Ty, new: Ty) -> Option<Ty> {
        match (old, new) {
            (UNKNOWN, t) | (t, UNKNOWN) => Some(t),
            (a, b) if self.same(a, b) => Some(a),
            _ => None,
        }
    }

    /// Two types for a message, in the other order where that mistake is made.
    pub(super) fn pair(&self, first: Ty, second: Ty, swapped: Mistake) -> Vec<Piece> {
        if self.mind.slips(swapped) {
            vec![Piece::Type(second), Piece::Type(first)]
        } else {
            vec![Piece::Type(first), Piece::Type(second)]
        }
    }

    /// What a For's name gets.
    fn element(&mut self, node: usize, t: Ty) -> Typed {
        let parts = self.types.parts(t);
        match self.types.kind(t) {
            DICT if self.mind.slips(ForDictRefused) => refuse(24, node, vec![Piece::Type(t)]),
            TUPLE if self.mind.slips(ForTupleRefused) => refuse(24, node, vec![Piece::Type(t)]),
            MAP_ITER | FILTER_ITER if self.mind.slips(ForIteratorsUnknown) => Ok(UNKNOWN),
            DICT if self.mind.slips(ForDictGivesValue) => Ok(parts[1]),
            TUPLE if self.mind.slips(ForTupleGivesFirst) && !parts.is_empty() => Ok(parts[0]),
            RANGE => Ok(INT),
            STRING => Ok(STRING),
            UNKNOWN => Ok(UNKNOWN),
            LIST | DICT | MAP_ITER | FILTER_ITER => Ok(parts[0]),
            TUPLE => Ok(self.types.common(parts)),
            _ => refuse(24, node, vec![Piece::Type(t)]),
        }
    }

    // ---- assignment

    fn assignment(&mut self, node: usize, parts: &[usize]) -> Result<(), Refusal> {
        let (target, value) = (parts[0], parts[1]);
        if self.mind.slips(TargetBeforeValue) && [25, 31].contains(&self.kind_of(target)) {
            self.expression(target)?;
        }
        let t = self.expression(value)?;
        let entry = self.frames.clone();
        self.beside.assignment = [node, target, value];
        let assigned = self.assign(target, t);
        assigned.map_err(|mut refusal| {
            if self.mind.slips(TargetsUndone) {
                self.frames = entry;
            }
            let whole = (refusal.code == 25 && self.mind.slips(AssignAtWhole))
                || ([26, 27].contains(&refusal.code) && self.mind.slips(UnpackAtWhole));
            if whole {
                refusal.node = target;
            }
            if refusal.code == 28 && self.mind.slips(TargetAtStatement) {
                refusal.node = node;
            }
            refusal
        })
    }

    fn assign(&mut self, target: usize, t: Ty) -> Result<(), Refusal> {
        match self.kind_of(target) {
            21 => self.assign_name(target, self.arg(target), t),
            25 if self.mind.slips(AttributeTargetUnread) => Ok(()),
            31 if self.mind.slips(IndexTargetUnread) => Ok(()),
            25 | 31 => self.expression(target).map(|_| ()),
            28 => self.unpack(target, t),
            26 if self.mind.slips(ListTargetUnpacks) => self.unpack(target, t),
            _ => refuse(28, target, Vec::new()),
        }
    }

    fn assign_name(&mut self, node: usize, name: usize, t: Ty) -> Result<(), Refusal> {
        let found = if self.mind.slips(AssignInNewest) {
            self.newest()[name]
        } else {
            self.lookup(name);
            self.find(name)
        };
        let old = found.unwrap_or(Slot::UNKNOWN);
        if t == UNKNOWN && self.mind.slips(UnknownOverwrites) {
            self.bind(name, Slot::UNKNOWN);
            return Ok(());
        }
        let both = match self.agreed(old.t, t) {
            Some(both) => both,
            None => {
                let pieces = self.pair(t, old.t, SwappedAssign);
                let first = self.assign_first(node, name, old);
                return Err(Refusal { code: 25, node, pieces, first });
            }
        };
        // What was known keeps its node, in whatever frame it was found.
        let slot = if old.t == UNKNOWN { Slot::new(both, node) } else { Slot { t: both, first: old.first } };
        let slot = self.assigned_slot(slot, node, name, old, t);
        if self.mind.slips(AssignWhereFound) {
            if let Some(frame) = self.frames.iter_mut().rev().find(|frame| frame[name].is_some()) {
                frame[name] = Some(slot);
                return Ok(());
            }
        }
        self.bind(name, slot);
        Ok(())
    }

    fn unpack(&mut self, target: usize, t: Ty) -> Result<(), Refusal> {
        let targets = self.children(target);
        self.spend(t);
        let types = match self.types.kind(t) {
            UNKNOWN if self.mind.slips(UnknownUnpacksNot) => return refuse(27, target, vec![Piece::Type(t)]),
            STRING if self.mind.slips(StringUnpacks) => vec![STRING; targets.len()],
            DICT if self.mind.slips(DictUnpacks) => vec![self.types.parts(t)[0]; targets.len()],
            UNKNOWN => vec![UNKNOWN; targets.len()],
            LIST => vec![self.types.parts(t)[0]; targets.len()],
            TUPLE => self.types.parts(t).to_vec(),
            _ => return refuse(27, target, vec![Piece::Type(t)]),
        };
        let differ = types.len() != targets.len();
        let mut counts = vec![Piece::Number(types.len() as u64), Piece::Number(targets.len() as u64)];
        if self.mind.slips(SwappedUnpack) {
            counts.reverse();
        }
        if differ && !self.mind.slips(UnpackLengthLate) {
            return refuse(26, target, counts);
        }
        for (part, t) in targets.into_iter().zip(types) {
            self.spend(t);
            self.assign(part, t)?;
        }
        if differ {
            return refuse(26, target, counts);
        }
        Ok(())
    }
}

fn ended(result: Result<(), Refusal>) -> End {
    match result {
        Ok(()) => End::Done,
        Err(refusal) => End::Refused(refusal),
    }
}

//! Document 02's first request: the node that first made a type known, which 25 and 23 answer with.
//!
//! "A lookup shall give the type and the node that first made it known: the Variable assigned, or the iterable for a
//! loop name. Unknown has none; an equal or Unknown assignment keeps the old node; a merge takes the first assigning
//! branch, in program order, that knows it." The walk keeps the node in the slot, beside the type, so that it is copied
//! with the frames. What stands here are the few places where a node is chosen, each with the mistakes that can be made
//! there.

use super::types::*;
use super::walk::{Refusal, Slot, Walk};
use crate::answer::{has_second, Setting};
use crate::mistakes::{Mind, Mistake, Mistake::*};

/// What only mistakes need to know.
#[derive(Clone)]
pub struct Beside {
    /// The Assign that the walk is in, its target and its value.
    pub(super) assignment: [usize; 3],
    /// One node for each name, not one for each frame.
    nodes: Vec<Option<usize>>,
}

impl Beside {
    pub fn new(names: usize) -> Beside {
        Beside { assignment: [0; 3], nodes: vec![None; names] }
    }
}

impl Walk<'_> {
    // ---- a node for each name, beside the frames: a mistake

    pub(super) fn note_beside(&mut self, name: usize, slot: Slot) {
        let known = self.beside.nodes[name];
        if slot.first.is_some() && !(known.is_some() && self.mind.slips(OneNodeFirst)) {
            self.beside.nodes[name] = slot.first;
        }
    }

    /// What was noted before a body is put back behind it, unless that is forgotten.
    pub(super) fn put_beside_back(&mut self, before: Beside, forgotten: Mistake) {
        let never = self.mind.slips(OneNodeFirst) || self.mind.slips(OneNodeLatest);
        if !never && !self.mind.slips(forgotten) {
            self.beside = before;
        }
    }

    // ---- assignment

    /// What a name holds that the Variable `node` was assigned to with type `t`; rightly `slot`.
    pub(super) fn assigned_slot(&self, slot: Slot, node: usize, name: usize, old: Slot, t: Ty) -> Slot {
        let [assign, target, value] = self.beside.assignment;
        let known = old.t != UNKNOWN;
        let first = match self.mind {
            Mind(Some(FirstIsAssign)) if !known => Some(assign),
            Mind(Some(FirstIsWhole)) if !known => Some(target),
            Mind(Some(FirstIsValue)) if !known => Some(value),
            Mind(Some(FirstOfTuple)) if !known => Some(self.first_variable(target)),
            Mind(Some(EqualReplaces)) if known && t == old.t => Some(node),
            Mind(Some(UnknownReplaces)) if known && t == UNKNOWN => Some(node),
            Mind(Some(UnknownForgets)) if known => old.first.or(Some(node)).filter(|_| t != UNKNOWN),
            Mind(Some(DefCopyIsFirst)) if known && self.newest()[name].is_none() => Some(node),
            // Unknown must have no node: these keep one, and it stays when the type becomes known.
            Mind(Some(UnknownHasNode)) if !known => old.first.or(Some(node)),
            Mind(Some(LoopUnknownHasNode | LoopUnknownKeepsOld)) if !known => old.first.or(slot.first),
            Mind(Some(ParamHasNode | ParamAtDef | ParamKeepsOuter)) if !known => old.first.or(slot.first),
            Mind(Some(MergeFirstAssigning)) if !known => Some(node),
            _ => slot.first,
        };
        // Only the mistakes that are about it give Unknown a node.
        let gives_nodes = [
            UnknownHasNode,
            LoopUnknownHasNode,
            LoopUnknownKeepsOld,
            ParamHasNode,
            ParamAtDef,
            ParamKeepsOuter,
            MergeFirstAssigning,
        ];
        let keeps = slot.t != UNKNOWN || gives_nodes.iter().any(|mistake| self.mind.slips(*mistake));
        Slot { first: first.filter(|_| keeps), ..slot }
    }

    /// The first Variable of a target.
    fn first_variable(&self, target: usize) -> usize {
        (target..self.image.nodes.len()).find(|node| self.kind_of(*node) == 21).unwrap_or(target)
    }

    /// What 25 at `node` answers with; rightly the old slot's node.
    pub(super) fn assign_first(&mut self, node: usize, name: usize, old: Slot) -> Option<usize> {
        let oldest = self.frames.iter().find_map(|frame| frame[name].and_then(|slot| slot.first));
        let newest = self.newest()[name].and_then(|slot| slot.first);
        if self.mind.slips(FailedReplaces) {
            let frame = self.frames.iter_mut().rev().find(|frame| frame[name].is_some());
            frame.expect("the old type was found")[name] = Some(Slot { first: Some(node), ..old });
        }
        match self.mind {
            Mind(Some(FirstIsItself)) => Some(node),
            Mind(Some(NodeOfOldestFrame)) => oldest,
            Mind(Some(NodeOfNewestFrame)) => newest,
            Mind(Some(OneNodeFirst | OneNodeLatest | OneNodeWhile | OneNodeFor | OneNodeIf | OneNodeAllFrames)) => {
                self.beside.nodes[name]
            }
            _ => old.first,
        }
    }

    // ---- loop names and parameters

    /// What the name of the For `node` holds in its body; rightly the element type and the iterable, whatever the name
    /// held.
    pub(super) fn loop_slot(&self, node: usize, iterable: usize, element: Ty) -> Slot {
        let old = self.find(self.arg(node)).unwrap_or(Slot::UNKNOWN);
        let slot = Slot::new(element, iterable);
        let source = Some(iterable).filter(|node| self.kind_of(*node) == 21).and_then(|node| self.find(self.arg(node)));
        let first = match self.mind {
            Mind(Some(LoopUnknownHasNode)) => Some(iterable),
            Mind(Some(LoopUnknownKeepsOld)) if element == UNKNOWN => old.first,
            _ if element == UNKNOWN => None,
            Mind(Some(LoopAtFor)) => Some(node),
            Mind(Some(LoopAtElement)) => self.children(iterable).first().copied().or(slot.first),
            Mind(Some(LoopAtSource)) => source.and_then(|source| source.first).or(slot.first),
            Mind(Some(LoopKeepsEqual)) if element == old.t => old.first,
            _ => slot.first,
        };
        Slot { first, ..slot }
    }

    /// After a loop the old node is back; a mistake leaves the loop's.
    pub(super) fn keep_loop_node(&mut self, name: usize, of_loop: Slot) {
        if self.mind.slips(LoopNodeStays) {
            if let Some(slot) = self.frames.last_mut().and_then(|frame| frame[name].as_mut()) {
                slot.first = of_loop.first.filter(|_| slot.t == of_loop.t).or(slot.first);
            }
        }
    }

    /// What a parameter of the Def `node` holds; rightly Unknown, without a node.
    pub(super) fn param_slot(&self, node: usize, param: usize) -> Slot {
        let first = match self.mind {
            Mind(Some(ParamHasNode)) => Some(param),
            Mind(Some(ParamAtDef)) => Some(node),
            Mind(Some(ParamKeepsOuter)) => self.find(self.arg(param)).and_then(|slot| slot.first),
            _ => None,
        };
        Slot { first, ..Slot::UNKNOWN }
    }

    // ---- merge

    /// What is committed for a name; rightly `slot`, that of the first of the assigning branches that knows it. `base`
    /// is what the newest frame held before the If, `visible` what a lookup found there, and `at` the If and where 23
    /// would be told.
    pub(super) fn merged_slot(
        &self,
        slot: Slot,
        assigning: &[Slot],
        base: Option<Slot>,
        visible: Option<Slot>,
        at: (usize, usize),
    ) -> Slot {
        let known = || assigning.iter().filter(|slot| slot.t != UNKNOWN).filter_map(|slot| slot.first);
        let first = match self.mind {
            Mind(Some(MergeLowestNode)) => known().min(),
            Mind(Some(MergeHighestNode)) => known().max(),
            Mind(Some(MergeLastNode)) => known().last(),
            Mind(Some(MergeFirstAssigning)) => assigning.first().and_then(|slot| slot.first),
            Mind(Some(MergeNodeIsIf)) => Some(at.0),
            Mind(Some(MergeNodeIsCondition)) => Some(at.1),
            Mind(Some(MergeKeepsBase)) => base.and_then(|base| base.first).or(slot.first),
            Mind(Some(MergeKeepsEqual)) => visible.filter(|old| old.t == slot.t).map_or(slot.first, |old| old.first),
            _ => slot.first,
        };
        Slot { first, ..slot }
    }

    /// What 23 answers with; rightly the node of the first type found, as that branch has it.
    pub(super) fn clash_first(&self, place: usize, base: Option<Slot>, found: Slot, other: Slot) -> Option<usize> {
        match self.mind {
            Mind(Some(ClashAtSecond)) => other.first,
            Mind(Some(ClashAtCondition)) => Some(place),
            Mind(Some(ClashAtBase)) => base.and_then(|base| base.first).or(found.first),
            Mind(Some(ClashAtLowest)) => found.first.min(other.first),
            _ => found.first,
        }
    }
}

/// The second span of an answer: that of the first node, and 0,0 for every code but 25 and 23.
pub fn second_span(walk: &Walk, refusal: &Refusal, unwritten: bool, mind: Mind) -> (u32, u32) {
    let own = walk.image.nodes[refusal.node].span;
    let other_code = match mind {
        Mind(Some(ReturnHasSecond)) => refusal.code == 22,
        Mind(Some(UnpackHasSecond)) => refusal.code == 26,
        Mind(Some(OthersHaveSecond)) => !has_second(refusal.code),
        _ => false,
    };
    if other_code {
        return own;
    }
    let none = match mind {
        Mind(Some(AssignHasNone)) => refusal.code == 25,
        Mind(Some(ClashHasNone)) => refusal.code == 23,
        Mind(Some(StrictHasNone)) => walk.setting == Setting::Strict,
        Mind(Some(UnwrittenHasNone)) => unwritten,
        _ => false,
    };
    // Both codes name an old type, which is known; only a mistake lets it lack a node.
    assert!(mind != Mind::SOUND || refusal.first.is_some() == has_second(refusal.code), "code {}", refusal.code);
    let (start, end) = match refusal.first {
        Some(node) if !none && mind.slips(SecondIsPlace) => (node as u32, 0),
        Some(node) if !none => walk.image.nodes[node].span,
        _ => (0, 0),
    };
    if mind.slips(SecondExchanged) {
        return (end, start);
    }
    (start, end)
}

//! Code 14: TreeSets are retired. It is told at the lowest one of all nodes, after 8, and before anything of the walk.

use super::read::Image;
use crate::answer::{Answer, Setting};
use crate::mistakes::{Mind, Mistake::*};

/// The answer of an image with a TreeSet.
pub fn told(image: &Image, setting: Setting, mind: Mind) -> Option<Answer> {
    let passed = match mind {
        Mind(Some(RetiredPasses)) | Mind(Some(RetiredAsWalked)) | Mind(Some(RetiredDropped)) => true,
        Mind(Some(RetiredInStrict)) => setting == Setting::Plain,
        Mind(Some(RetiredInPlain)) => setting == Setting::Strict,
        _ => false,
    };
    if passed {
        return None;
    }
    let kinds = match mind {
        Mind(Some(SetsRetired)) => 29..=29,
        Mind(Some(SetsRetiredToo)) => 29..=30,
        _ => 30..=30,
    };
    let retired = |node: &usize| kinds.contains(&image.nodes[*node].kind);
    let mut all = 0..image.nodes.len();
    let node = if mind.slips(RetiredAtLast) { all.rfind(retired) } else { all.find(retired) }?;
    let place = if mind.slips(RetiredAtStatement) { statement_around(image, node) } else { node };
    let (span_start, span_end) = if mind.slips(RetiredSpan) { image.nodes[place].span } else { (0, 0) };
    Some(Answer { span_start, span_end, ..Answer::bare(14, place as u32) })
}

/// The innermost statement that holds an expression.
fn statement_around(image: &Image, node: usize) -> usize {
    let holds = |outer: &usize| image.nodes[*outer].kind <= 11 && image.nodes[*outer].end as usize > node;
    (0..node).rfind(holds).expect("an expression stands in a statement")
}

/// Whether this mistake has something of the walk come before 14.
pub fn comes_late(mind: Mind) -> bool {
    mind.slips(RetiredAfterNine) || mind.slips(RetiredAfterWalk) || mind.slips(RetiredAfterTen)
}

/// Whether the walk's answer is then the one to give.
pub fn yields_to(walked: &Answer, mind: Mind) -> bool {
    match walked.code {
        9 => mind.slips(RetiredAfterNine) || mind.slips(RetiredAfterWalk),
        20..=50 => mind.slips(RetiredAfterWalk),
        10 => mind.slips(RetiredAfterTen),
        _ => false,
    }
}

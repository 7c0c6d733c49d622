//! The oracle's own second reading of document 01, and of what document 02 changes in it: reader, walk, messages, the names
//! of the sheet and the sheet, over types that are numbers in a table, so that it can judge what T cannot hold. Written from
//! the documents and not from the modules beside it, which it is compared with.
//!
//! Each plausible mistake of `mistakes.rs` is a switch in here.

pub mod bound;
pub mod first;
pub mod read;
pub mod retired;
pub mod rules;
pub mod types;
pub mod walk;
pub mod write;

use crate::answer::{Answer, Rooms, Setting};
use crate::mistakes::Mind;
use read::Image;
use walk::{End, Refusal};

/// An answer, and what it would have cost T to find it.
pub struct Judged {
    pub answer: Answer,
    /// About how many nodes of type trees T copies on the way.
    pub weight: u64,
}

impl Judged {
    /// A refusal before the walk.
    fn unwalked(answer: Answer) -> Judged {
        Judged { answer, weight: 0 }
    }
}

/// Document 01's answer, in strict with the dropping removed, or document 02's 14, as far as `mind` gets it right.
pub fn judge(bytes: &[u8], setting: Setting, rooms: Rooms, mind: Mind) -> Judged {
    let image = match read::read(bytes, mind) {
        Ok(image) => image,
        Err((code, place)) => return Judged::unwalked(Answer::bare(code, place as u32)),
    };
    match retired::told(&image, setting, mind) {
        Some(told) if !retired::comes_late(mind) => Judged::unwalked(told),
        // What comes before 14 is a mistake's to say.
        Some(told) => {
            let walked = walked(&image, setting, rooms, mind);
            if retired::yields_to(&walked.answer, mind) {
                walked
            } else {
                Judged::unwalked(told)
            }
        }
        None => walked(&image, setting, rooms, mind),
    }
}

/// Document 01's answer, as it was before TreeSets were retired.
pub fn former(bytes: &[u8], setting: Setting, rooms: Rooms) -> Judged {
    match read::read(bytes, Mind::SOUND) {
        Ok(image) => walked(&image, setting, rooms, Mind::SOUND),
        Err((code, place)) => Judged::unwalked(Answer::bare(code, place as u32)),
    }
}

fn walked(image: &Image, setting: Setting, rooms: Rooms, mind: Mind) -> Judged {
    let mut walk = walk::Walk::new(image, setting, mind);
    let end = walk.program();
    let answer = match end {
        End::Done => write::accepted(&walk, rooms, mind),
        End::Refused(Refusal { code: 14, node, .. }) => Answer::bare(14, node as u32),
        End::Refused(refusal) => write::refused(&walk, &refusal, rooms, mind),
        End::NinthFrame(node) => write::ninth_frame(image, node, mind),
    };
    Judged { answer, weight: walk.weight }
}

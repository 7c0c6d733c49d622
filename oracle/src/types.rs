//! Stand-in for T's `crate::types`, which is not among the given files.
//!
//! T only carries spans about and never looks into one. So the oracle puts the NODE NUMBER into the span
//! (`node..node`): the span of an error then says which node it is, and the image's own span words are
//! reported for it. Two nodes with equal span words stay apart this way.

pub type Span = std::ops::Range<usize>;
pub type Spanned<T> = (T, Span);

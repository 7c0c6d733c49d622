//! Document 02's converter of stored images: each TreeSet becomes a Set, and all else stays byte for byte.

use crate::image::{self, kind::*, HEADER_BYTES, NAME_RECORD_BYTES, NODE_RECORD_BYTES};

/// The converted image. One that is refused with 1 to 8 has none.
pub fn converted(bytes: &[u8]) -> Option<Vec<u8>> {
    let image = image::read(bytes).ok()?;
    let nodes_at = HEADER_BYTES + NAME_RECORD_BYTES * image.names.len();
    let mut converted = bytes.to_vec();
    for (number, node) in image.nodes.iter().enumerate() {
        if node.kind == TREE_SET {
            let at = nodes_at + NODE_RECORD_BYTES * number;
            converted[at..at + 4].copy_from_slice(&SET.to_le_bytes());
        }
    }
    Some(converted)
}

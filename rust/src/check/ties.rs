//! "Ties in specified start now go by peripheral number, events after all actions, then position, then
//! node."

use crate::plan_file::Kind;

/// Whether the node is no action, and the peripheral of one that is.
pub type Turn = (bool, u8);

/// Where a node's kind puts it among nodes of equal specified start; the least comes first.
pub fn turn(kind: Kind) -> Turn {
    match kind {
        Kind::Action { peripheral, .. } => (false, peripheral),
        _ => (true, 0),
    }
}

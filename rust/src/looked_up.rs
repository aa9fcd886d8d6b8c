//! What a look-up hands back.

use crate::found::Found;
use std::fmt;

/// What a look-up of a [`Reader`](crate::Reader) hands back.
///
/// `Debug`, which goes to logs, prints neither.
#[derive(Clone, PartialEq, Eq, Hash)]
pub struct LookedUp {
    /// The contents of the block before the look-up, B bytes.
    pub contents: Vec<u8>,
    /// Where the block was found. That is for the owner of the store, not for
    /// its host, as [`Found`] says.
    pub found: Found,
}

/// Neither the contents nor where they were found, so that no log has them.
impl fmt::Debug for LookedUp {
    fn fmt(&self, f: &mut fmt::Formatter<'_>) -> fmt::Result {
        f.debug_struct("LookedUp").finish_non_exhaustive()
    }
}

//! Who holds the lock: what request 2 of document 02 adds to a lock conflict.

use crate::refusals::WireRefusal;
use crate::tables::Lock;

/// "the place of the first conflicting lock in the list as it then stands",
/// and that lock. The list has all files' locks in order of grant, without
/// those that this request releases, and behind them its own earlier ranges.
#[derive(Clone, Copy, Debug, PartialEq, Eq)]
pub struct Holder {
    /// From 0.
    pub place: usize,
    pub lock: Lock,
}

/// A command refused on the wire: why, and who is in the way if it is 1/33.
#[derive(Clone, Copy, Debug, PartialEq, Eq)]
pub struct Refused {
    pub why: WireRefusal,
    pub holder: Option<Holder>,
}

impl From<WireRefusal> for Refused {
    fn from(why: WireRefusal) -> Refused {
        Refused { why, holder: None }
    }
}

/// Refused so if there is a lock in the way: a lock conflict is the one refusal
/// that has a holder.
pub fn unless_held(holder: Option<Holder>, why: WireRefusal) -> Result<(), Refused> {
    match holder {
        Some(_) => Err(Refused { why, holder }),
        None => Ok(()),
    }
}

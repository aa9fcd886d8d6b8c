//! Where a look-up found its block.

use crate::refusal::UnknownNumber;
use std::fmt;

/// The levels of a partition at most.
const LEVELS: u8 = 8;

/// Where a look-up found its block: where it was when the request ceased to be
/// held by jobs of its partition, or was accepted if none held it. A
/// [`Reader`](crate::Reader) does all jobs before the next look-up, so that none
/// of its requests is held, unless it is told to
/// [leave jobs](crate::Reader::leave_jobs) or to let them
/// [gather](crate::Reader::gather_jobs). A block whose slot a job has read since
/// is found in its level until the job gives it a new place.
///
/// **It is for the owner of the store, not for its host.** It tells what the
/// commands hide: whether the block was ever asked for, and whether that was not
/// long ago. Nothing is sent for it. But whoever chooses by it what to look up
/// next, or whether, shows it: look-ups are hidden where they are chosen by what
/// the host is told too, and not by this.
///
/// It prints so that it may follow the word "found":
///
/// ```
/// use rinwolfedd::Found;
///
/// let all = [Found::Nowhere, Found::Cache, Found::Level(3)];
/// let text = all.map(|found| format!("found {found}"));
/// assert_eq!(text, ["found nowhere", "found in the cache", "found in level 3"]);
/// ```
#[derive(Clone, Copy, Debug, PartialEq, Eq, Hash, PartialOrd, Ord)]
pub enum Found {
    /// No look-up of it was collected before: its contents are zeros.
    Nowhere,
    /// In the eviction cache, where it waited for a rebuild to store it.
    Cache,
    /// In this level of its partition, 0 to L−1, and so at the host.
    Level(u8),
}

impl Found {
    /// The number by which the calls tell it: 0 for nowhere, 1 for the cache,
    /// and 2 more than the level.
    #[inline]
    #[must_use]
    pub const fn number(self) -> u8 {
        match self {
            Found::Nowhere => 0,
            Found::Cache => 1,
            // no store has levels that come to the end of the numbers
            Found::Level(level) => level.saturating_add(2),
        }
    }
}

impl TryFrom<u8> for Found {
    type Error = UnknownNumber;

    /// What has this number, 0 to 9: no store has a level above 7.
    #[inline]
    fn try_from(number: u8) -> Result<Found, UnknownNumber> {
        match number {
            0 => Ok(Found::Nowhere),
            1 => Ok(Found::Cache),
            _ if number - 2 < LEVELS => Ok(Found::Level(number - 2)),
            _ => Err(UnknownNumber::new(number)),
        }
    }
}

impl fmt::Display for Found {
    fn fmt(&self, f: &mut fmt::Formatter<'_>) -> fmt::Result {
        match self {
            Found::Nowhere => f.pad("nowhere"),
            Found::Cache => f.pad("in the cache"),
            Found::Level(level) => write!(f, "in level {level}"),
        }
    }
}

#[cfg(test)]
mod tests {
    use super::Found;

    #[test]
    fn numbers_and_places_are_one_to_one() {
        for number in 0..=255 {
            match Found::try_from(number) {
                Ok(found) => assert!(found.number() == number && number < 10),
                Err(other) => assert!(other.number() == number && number >= 10),
            }
        }
        let all = [Found::Nowhere, Found::Cache, Found::Level(0)];
        assert_eq!(all.map(Found::number), [0, 1, 2]);
        assert_eq!(Found::try_from(9), Ok(Found::Level(7)));
    }

    #[test]
    fn a_level_that_no_store_has_is_numbered_too() {
        assert_eq!(
            [8, 253, 255].map(|l| Found::Level(l).number()),
            [10, 255, 255]
        );
    }
}

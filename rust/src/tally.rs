//! Where the look-ups of a reader found their blocks.

use crate::found::Found;
use std::fmt;

/// How many look-ups of a [`Reader`](crate::Reader) found their block where:
/// nowhere, in the cache, in each level. [`Reader::tally`](crate::Reader::tally)
/// has it.
///
/// A look-up counts once its collect has handed out the contents. One that is
/// refused does not, nor one that fails before; one whose jobs fail after it
/// does.
///
/// ```
/// use rinwolfedd::{Error, MemoryHost, Reader, Shape};
///
/// let shape = Shape::hiding(64, 8)?;
/// let mut reader = Reader::open(shape, MemoryHost::new(shape, 1)?)?;
/// reader.write_all([[7; 8]; 40])?;
/// for block in [3, 3, 3, 17, 3] {
///     reader.read(block)?;
/// }
///
/// let tally = reader.tally();
/// assert_eq!((tally.total(), tally.nowhere()), (45, 40)); // each block's first
/// let from_levels: u64 = tally.levels().iter().sum();
/// assert_eq!(tally.cache() + from_levels, 5);
/// println!("{tally}"); // such as "45 look-ups: 40 found nowhere, 3 in the cache, 2 in level 1"
/// # Ok::<(), Error>(())
/// ```
///
/// **It is for the owner of the store, not for its host.** It tells what the
/// commands hide: how many different blocks were asked for, and how often one
/// that was asked for not long ago; further look-ups that are chosen by it show
/// it, as [`Found`] says. `Debug`, which goes to logs, prints no figure.
#[derive(Clone, PartialEq, Eq)]
pub struct Tally {
    nowhere: u64,
    cache: u64,
    levels: Vec<u64>,
}

impl Tally {
    /// No look-up yet, in a store with so many levels.
    pub(crate) fn new(levels: usize) -> Tally {
        Tally {
            nowhere: 0,
            cache: 0,
            levels: vec![0; levels],
        }
    }

    /// One look-up more, whose block was found there. A level is one of the
    /// store's.
    pub(crate) fn count(&mut self, found: Found) {
        *match found {
            Found::Nowhere => &mut self.nowhere,
            Found::Cache => &mut self.cache,
            Found::Level(level) => &mut self.levels[usize::from(level)],
        } += 1;
    }

    /// The look-ups of a block that was nowhere: the first ones, each of its
    /// block.
    #[must_use]
    pub const fn nowhere(&self) -> u64 {
        self.nowhere
    }

    /// The look-ups that were served from the eviction cache.
    #[must_use]
    pub const fn cache(&self) -> u64 {
        self.cache
    }

    /// The look-ups of a block that was stored in this level of its partition;
    /// 0 for a level that the store has not.
    #[must_use]
    pub fn level(&self, level: usize) -> u64 {
        self.levels.get(level).copied().unwrap_or(0)
    }

    /// Those of each level, 0 upward.
    #[must_use]
    pub fn levels(&self) -> &[u64] {
        &self.levels
    }

    /// The look-ups since an earlier tally of the same reader, as of a season.
    ///
    /// ```
    /// # use rinwolfedd::{Error, MemoryHost, Reader, Shape};
    /// # let shape = Shape::hiding(64, 8)?;
    /// # let mut reader = Reader::open(shape, MemoryHost::new(shape, 1)?)?;
    /// reader.write_all([[7; 8]; 40])?;
    /// let before = reader.tally().clone();
    /// reader.read(3)?;
    /// let season = reader.tally().since(&before);
    /// assert_eq!((season.total(), season.nowhere()), (1, 0));
    /// # Ok::<(), Error>(())
    /// ```
    #[must_use]
    pub fn since(&self, earlier: &Tally) -> Tally {
        let levels = self.levels.iter().enumerate();
        Tally {
            nowhere: self.nowhere.saturating_sub(earlier.nowhere),
            cache: self.cache.saturating_sub(earlier.cache),
            levels: levels
                .map(|(level, count)| count.saturating_sub(earlier.level(level)))
                .collect(),
        }
    }

    /// All look-ups.
    #[must_use]
    pub fn total(&self) -> u64 {
        self.nowhere + self.cache + self.levels.iter().sum::<u64>()
    }
}

/// In a line; a level in which nothing was found is left out.
impl fmt::Display for Tally {
    fn fmt(&self, f: &mut fmt::Formatter<'_>) -> fmt::Result {
        let (total, nowhere, cache) = (self.total(), self.nowhere, self.cache);
        let what = if total == 1 { "look-up" } else { "look-ups" };
        write!(
            f,
            "{total} {what}: {nowhere} found nowhere, {cache} in the cache"
        )?;
        let levels = self.levels.iter().enumerate();
        for (level, count) in levels.filter(|(_, count)| **count > 0) {
            write!(f, ", {count} in level {level}")?;
        }
        Ok(())
    }
}

/// How many levels, and no figure, so that no log has them.
impl fmt::Debug for Tally {
    fn fmt(&self, f: &mut fmt::Formatter<'_>) -> fmt::Result {
        f.debug_struct("Tally")
            .field("levels", &self.levels.len())
            .finish_non_exhaustive()
    }
}

#[cfg(test)]
mod tests {
    use super::Tally;
    use crate::found::Found;

    fn counted(all: &[Found]) -> Tally {
        let mut tally = Tally::new(3);
        all.iter().for_each(|found| tally.count(*found));
        tally
    }

    #[test]
    fn each_look_up_counts_where_its_block_was_found() {
        let [low, top] = [Found::Level(0), Found::Level(2)];
        let tally = counted(&[Found::Cache, top, Found::Nowhere, low, top, Found::Cache]);
        assert_eq!((tally.nowhere(), tally.cache(), tally.total()), (1, 2, 6));
        assert_eq!(tally.levels(), [1, 0, 2]);
        assert_eq!([0, 1, 2, 3].map(|level| tally.level(level)), [1, 0, 2, 0]);
    }

    #[test]
    fn what_was_counted_since_is_the_difference() {
        let all = [Found::Cache, Found::Nowhere, Found::Level(2), Found::Cache];
        let (before, after) = (counted(&all[..2]), counted(&all));
        assert_eq!(after.since(&before), counted(&all[2..]));
        assert_eq!(after.since(&counted(&[])), after);
        assert_eq!(before.since(&after), counted(&[]), "never below none");
    }

    #[test]
    fn a_tally_prints_in_a_line() {
        let none = "0 look-ups: 0 found nowhere, 0 in the cache";
        assert_eq!(counted(&[]).to_string(), none);
        let one = "1 look-up: 0 found nowhere, 0 in the cache, 1 in level 1";
        assert_eq!(counted(&[Found::Level(1)]).to_string(), one);
        let all = [
            Found::Level(2),
            Found::Nowhere,
            Found::Cache,
            Found::Level(0),
        ];
        let some = "4 look-ups: 1 found nowhere, 1 in the cache, 1 in level 0, 1 in level 2";
        assert_eq!(counted(&all).to_string(), some);
    }

    #[test]
    fn a_printed_tally_has_no_figures() {
        let text = format!("{:?}", counted(&[Found::Cache; 222]));
        assert_eq!(text, "Tally { levels: 3, .. }");
    }
}

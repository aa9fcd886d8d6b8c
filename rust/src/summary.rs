//! The figures of a store's page.

use crate::calls::LINE;
use std::fmt;

/// The characters of what a line is of, and those of each of its four figures.
const NAME: usize = 4;
const FIGURE: usize = 6;
const _: () = assert!(LINE == NAME + 4 * FIGURE + 1);

/// What the last line is of.
const ALL: &str = "all ";

/// The figures of one partition: a line of the store's page.
#[derive(Clone, Copy, PartialEq, Eq)]
pub struct Figures {
    counter: usize,
    stored: usize,
    waiting: usize,
    queued: usize,
}

impl Figures {
    /// The counter: bit ℓ of it says whether level ℓ is filled.
    #[must_use]
    pub const fn counter(&self) -> usize {
        self.counter
    }

    /// The blocks that are stored in its levels.
    #[must_use]
    pub const fn stored(&self) -> usize {
        self.stored
    }

    /// The blocks that wait for it in the eviction cache.
    #[must_use]
    pub const fn waiting(&self) -> usize {
        self.waiting
    }

    /// The queued jobs that rebuild it, one that has begun among them.
    #[must_use]
    pub const fn queued(&self) -> usize {
        self.queued
    }

    /// Those of a partition's line.
    fn of(partition: usize, line: &str) -> Option<Figures> {
        let (name, [counter, stored, waiting, queued]) = columns(line)?;
        (number(name)? == partition).then_some(Figures {
            counter,
            stored,
            waiting,
            queued,
        })
    }
}

/// No figure, as of a [`Summary`].
impl fmt::Debug for Figures {
    fn fmt(&self, f: &mut fmt::Formatter<'_>) -> fmt::Result {
        f.debug_struct("Figures").finish_non_exhaustive()
    }
}

/// How a store stands, in figures: its blocks, counted by their place, and its
/// queued jobs. [`Store::summary`](crate::Store::summary) and
/// [`Reader::summary`](crate::Reader::summary) have it.
///
/// It prints as the store's [page](crate::Store::page), the newline of the last
/// line included.
///
/// ```
/// use rinwolfedd::{Error, MemoryHost, Reader, Shape};
///
/// let shape = Shape::new(8, 2, 3, 4);
/// let mut reader = Reader::open(shape, MemoryHost::new(shape, 1)?)?;
/// reader.write_all([[7; 4]; 5])?;
///
/// let summary = reader.summary();
/// assert_eq!((summary.nowhere(), summary.queued()), (3, 0));
/// assert_eq!(summary.stored() + summary.waiting(), 5);
/// let fullest = summary.partitions().iter().map(|q| q.stored()).max();
/// assert!(fullest <= Some(4)); // 2^(L−1) blocks at most
///
/// assert_eq!(summary.to_string(), reader.page());
/// # Ok::<(), Error>(())
/// ```
///
/// **It is for the owner of the store, not for its host.** It tells what the
/// commands hide: how many different blocks were ever looked up, how many wait,
/// and for which partitions. `Debug`, which goes to logs, prints no figure.
#[derive(Clone, PartialEq, Eq)]
pub struct Summary {
    partitions: Vec<Figures>,
    nowhere: usize,
    stored: usize,
    waiting: usize,
}

impl Summary {
    /// The figures of each partition, 0 upward.
    #[must_use]
    pub fn partitions(&self) -> &[Figures] {
        &self.partitions
    }

    /// The blocks that are nowhere: no look-up of them was collected yet, and
    /// they read as zeros. With those [stored](Summary::stored) and
    /// [waiting](Summary::waiting) they are all N.
    #[must_use]
    pub const fn nowhere(&self) -> usize {
        self.nowhere
    }

    /// The blocks that are stored in a level of their partition.
    #[must_use]
    pub const fn stored(&self) -> usize {
        self.stored
    }

    /// The blocks that wait in the eviction cache, at most E.
    #[must_use]
    pub const fn waiting(&self) -> usize {
        self.waiting
    }

    /// The queued jobs, at most 64: the sum of a column, as the page's last line
    /// leaves them out.
    #[must_use]
    pub fn queued(&self) -> usize {
        self.partitions.iter().map(Figures::queued).sum()
    }

    /// The figures of a page, so that the proved text is their only source; none
    /// for a text that is no page.
    pub(crate) fn of(page: &str) -> Option<Summary> {
        let mut lines = page.split_inclusive('\n');
        let (ALL, [nowhere, stored, waiting]) = columns(lines.next_back()?)? else {
            return None;
        };
        let partitions = lines.enumerate().map(|(q, line)| Figures::of(q, line));
        Some(Summary {
            partitions: partitions.collect::<Option<_>>()?,
            nowhere,
            stored,
            waiting,
        })
    }
}

/// What a line is of, and its figures: all stand in fixed columns, and nothing
/// but blanks and the newline comes behind them.
fn columns<const COUNT: usize>(line: &str) -> Option<(&str, [usize; COUNT])> {
    let (name, rest) = line.split_at_checked(NAME)?;
    let mut figures = [0; COUNT];
    for (k, figure) in figures.iter_mut().enumerate() {
        *figure = number(rest.get(k * FIGURE..(k + 1) * FIGURE)?)?;
    }
    let end = rest.get(COUNT * FIGURE..)?.trim_start_matches(' ');
    (line.len() == LINE && end == "\n").then_some((name, figures))
}

/// A right-aligned number.
fn number(columns: &str) -> Option<usize> {
    columns.trim_start_matches(' ').parse().ok()
}

/// In the page's layout.
impl fmt::Display for Summary {
    fn fmt(&self, f: &mut fmt::Formatter<'_>) -> fmt::Result {
        for (partition, figures) in self.partitions.iter().enumerate() {
            let (counter, queued) = (figures.counter, figures.queued);
            let (stored, waiting) = (figures.stored, figures.waiting);
            write!(f, "{partition:NAME$}{counter:FIGURE$}{stored:FIGURE$}")?;
            writeln!(f, "{waiting:FIGURE$}{queued:FIGURE$}")?;
        }
        let (nowhere, stored, waiting) = (self.nowhere, self.stored, self.waiting);
        write!(f, "{ALL}{nowhere:FIGURE$}{stored:FIGURE$}")?;
        writeln!(f, "{waiting:FIGURE$}{:FIGURE$}", "")
    }
}

/// How many partitions, and no figure, so that no log has them.
impl fmt::Debug for Summary {
    fn fmt(&self, f: &mut fmt::Formatter<'_>) -> fmt::Result {
        f.debug_struct("Summary")
            .field("partitions", &self.partitions.len())
            .finish_non_exhaustive()
    }
}

#[cfg(test)]
mod tests {
    use super::Summary;

    const PAGE: &str = concat!(
        "   0   255  4000     7    64\n",
        "   1     0     0     0     0\n",
        "all     12  4000    84      \n",
    );

    #[test]
    fn a_page_is_taken_apart() {
        let summary = Summary::of(PAGE).unwrap();
        let [first, second] = summary.partitions() else {
            panic!("two partitions");
        };
        assert_eq!((first.counter(), first.stored()), (255, 4000));
        assert_eq!((first.waiting(), first.queued()), (7, 64));
        let nothing = [second.counter(), second.stored(), second.waiting()];
        assert_eq!((nothing, second.queued()), ([0; 3], 0));
        assert_eq!((summary.nowhere(), summary.stored()), (12, 4000));
        assert_eq!((summary.waiting(), summary.queued()), (84, 64));
    }

    #[test]
    fn a_summary_prints_as_the_page() {
        let widest = "   0999999999999999999999999\nall 999999999999999999      \n";
        for page in [PAGE, widest] {
            assert_eq!(Summary::of(page).unwrap().to_string(), page);
        }
    }

    #[test]
    fn a_text_that_is_no_page_has_no_figures() {
        let cut = PAGE.strip_suffix('\n').unwrap();
        let texts = [
            "",
            "\n",
            "all ",
            cut,
            &PAGE[1..],
            &PAGE[..58],                           // no last line
            &PAGE[29..],                           // partition 1 is not the first
            &PAGE.replace("all ", "any "),         // the last line is of something else
            &PAGE.replace("     0\n", "      \n"), // a figure is missing
            &PAGE.replace("   7", "seven"),
            &PAGE.replace("84   ", "84é  "), // a character of two bytes
            &PAGE.replace("84      ", "84     x"), // more than three figures
            &PAGE.replace("64\n", "64\t"),   // no newline
        ];
        for text in texts {
            assert!(Summary::of(text).is_none(), "{text}");
        }
    }

    #[test]
    fn a_printed_summary_has_no_figures() {
        let summary = Summary::of(PAGE).unwrap();
        assert_eq!(format!("{summary:?}"), "Summary { partitions: 2, .. }");
        let figures = format!("{:?}", summary.partitions()[0]);
        assert_eq!(figures, "Figures { .. }");
    }
}

//! For how many commands look-ups waited.

use std::fmt;

/// For how many commands look-ups waited: all that the reader sent meanwhile,
/// those of jobs among them.
#[derive(Clone, Copy, Debug, Default, PartialEq, Eq)]
pub struct Wait {
    look_ups: u64,
    commands: u64,
    most: u64,
}

impl Wait {
    fn count(&mut self, commands: u64) {
        self.look_ups += 1;
        self.commands += commands;
        self.most = self.most.max(commands);
    }

    /// The look-ups that are counted.
    #[must_use]
    pub const fn look_ups(&self) -> u64 {
        self.look_ups
    }

    /// The commands for which they waited together.
    #[must_use]
    pub const fn commands(&self) -> u64 {
        self.commands
    }

    /// The commands for which one waited at most.
    #[must_use]
    pub const fn most(&self) -> u64 {
        self.most
    }

    /// Those for which one waited on average; 0 if there was none.
    #[must_use]
    pub fn mean(&self) -> f64 {
        self.commands as f64 / self.look_ups.max(1) as f64
    }
}

/// In a line.
impl fmt::Display for Wait {
    fn fmt(&self, f: &mut fmt::Formatter<'_>) -> fmt::Result {
        let (mean, most) = (self.mean(), self.most);
        write!(f, "{mean:.1} commands on average, {most} at most")
    }
}

/// How long the look-ups of a [`Reader`](crate::Reader) took, in commands:
/// until it had the contents, and until it returned.
/// [`Reader::waits`](crate::Reader::waits) has it.
///
/// The two differ by the jobs that are run in between. A reader that leaves no
/// jobs runs both of a look-up then; one that leaves
/// [some](crate::Reader::leave_jobs) seldom has to run any, and one that lets them
/// [gather](crate::Reader::gather_jobs) runs many now and then. What is sent
/// between look-ups does not count; [`commands`](crate::Reader::commands) has it.
///
/// ```
/// use rinwolfedd::{Error, MemoryHost, Reader, Shape};
///
/// let shape = Shape::hiding(64, 8)?;
/// let mut reader = Reader::open(shape, MemoryHost::new(shape, 1)?)?;
/// reader.write_all([[7; 8]; 64])?;
/// let stored = reader.take_waits();
/// assert!(stored.returned().mean() > stored.contents().mean());
///
/// reader.leave_jobs(8);
/// for fish in [3, 17, 42] {
///     reader.read(fish)?;
///     reader.settle()?; // while the fish is looked at
/// }
/// let waits = reader.waits();
/// assert_eq!(waits.returned(), waits.contents());
/// println!("{}", waits.returned()); // such as "2.3 commands on average, 3 at most"
/// # Ok::<(), Error>(())
/// ```
///
/// It has nothing that the host does not see, too.
#[derive(Clone, Copy, Debug, Default, PartialEq, Eq)]
pub struct Waits {
    contents: Wait,
    returned: Wait,
}

impl Waits {
    /// A look-up that had the contents after so many commands, and returned after
    /// so many.
    pub(crate) fn count(&mut self, contents: u64, returned: u64) {
        self.contents.count(contents);
        self.returned.count(returned);
    }

    /// From the call until its request was collected: the contents are there.
    #[must_use]
    pub const fn contents(&self) -> Wait {
        self.contents
    }

    /// From the call until it returned.
    #[must_use]
    pub const fn returned(&self) -> Wait {
        self.returned
    }
}

#[cfg(test)]
mod tests {
    use super::Waits;

    #[test]
    fn each_look_up_counts() {
        let mut waits = Waits::default();
        assert_eq!(waits.returned().mean(), 0.0);
        for (contents, returned) in [(3, 20), (7, 7), (2, 6)] {
            waits.count(contents, returned);
        }
        let (contents, returned) = (waits.contents(), waits.returned());
        assert_eq!((contents.look_ups(), returned.look_ups()), (3, 3));
        assert_eq!((contents.commands(), returned.commands()), (12, 33));
        assert_eq!((contents.most(), returned.most()), (7, 20));
        let text = "11.0 commands on average, 20 at most";
        assert_eq!(returned.to_string(), text);
    }
}

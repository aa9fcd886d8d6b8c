//! Jobs that look-ups leave to be done later.

use super::Reader;
use crate::error::Error;
use crate::host::Host;
use std::io::Read;

/// The jobs with which a store accepts a request at most.
const MOST: usize = 62;

impl<H: Host, R: Read> Reader<H, R> {
    /// Lets look-ups leave up to so many jobs. Each then returns as soon as it
    /// has the contents, and runs jobs after that only while more are left. With
    /// 0, as a reader begins, a look-up runs both its jobs to the end. More than
    /// 62 are taken as 62, the most with which a store accepts a request.
    ///
    /// The jobs are most of what a look-up sends, and so its caller need not wait
    /// for them: they are done while nobody waits, all of them by
    /// [`settle`](Reader::settle) or a few commands at a time by
    /// [`advance`](Reader::advance).
    ///
    /// ```
    /// use rinwolfedd::{Error, MemoryHost, Reader, Shape};
    ///
    /// let shape = Shape::hiding(64, 8)?;
    /// let mut reader = Reader::open(shape, MemoryHost::new(shape, 1)?)?;
    /// reader.write_all([[7; 8]; 64])?;
    ///
    /// reader.leave_jobs(8); // those of four look-ups in a row
    /// for fish in [3, 17, 42, 8] {
    ///     assert_eq!(reader.read(fish)?.contents, [7; 8]);
    /// }
    /// assert!((1..=8).contains(&reader.jobs_left()));
    ///
    /// while reader.advance(20)? > 0 {
    ///     // between 20 commands and the next a program sees to its user
    /// }
    /// assert_eq!(reader.jobs_left(), 0);
    /// # Ok::<(), Error>(())
    /// ```
    ///
    /// The next look-up may come before that. It waits only for jobs that rebuild
    /// its own block's partition, and for those queued before them; beside the
    /// last of these it is served while the partition is rebuilt. So the more
    /// jobs are left, the more look-ups in a row return at once, and the longer an
    /// unlucky one waits. Twice as many as look-ups come in a row are a good
    /// choice. All jobs have to be run in the end: who never pauses waits for
    /// them. Those of one partition that are queued when the first of them begins
    /// run together and end at once, and so a look-up may leave fewer.
    /// [`waits`](Reader::waits) tells for how many commands look-ups waited.
    ///
    /// Look-ups hide their blocks as well as before: what is sent, and when,
    /// depends on what the host has seen, and never on the block. The host sees
    /// when jobs are run in between, too: let that not depend on contents, nor on
    /// where blocks were found. If the number falls, the next look-up runs the
    /// jobs that are too many.
    pub fn leave_jobs(&mut self, most: usize) {
        self.most_left = most.min(MOST);
        self.runs_to = self.most_left;
    }

    /// Lets jobs gather until so many are queued: the look-up that queues the last
    /// of them runs them all. Jobs of one partition that have gathered run
    /// together, and send fewer commands than one after the other: storage that is
    /// billed by the command costs less. With 2 or fewer each look-up runs its own
    /// two jobs, as a reader begins; more than 63 are taken as 63.
    /// [`commands`](Reader::commands) tells how many were sent.
    ///
    /// ```
    /// use rinwolfedd::{Error, MemoryHost, Reader, Shape};
    ///
    /// let shape = Shape::hiding(64, 8)?;
    /// let mut commands = Vec::new();
    /// for jobs in [0, 48] {
    ///     let mut reader = Reader::open(shape, MemoryHost::new(shape, 1)?)?;
    ///     reader.gather_jobs(jobs);
    ///     for look_up in 0..1000 {
    ///         reader.read(look_up * 7 % 64)?;
    ///     }
    ///     reader.settle()?;
    ///     commands.push(reader.commands());
    /// }
    /// assert!(commands[1] < commands[0]);
    /// # Ok::<(), Error>(())
    /// ```
    ///
    /// Until they run, look-ups are as those of a reader that
    /// [leaves jobs](Reader::leave_jobs), and hide their blocks as well: one whose
    /// block's partition has a job queued waits for the jobs up to that, which
    /// then run earlier. So few gather where there are few partitions, and where
    /// there are many, more have to gather before some are for the same one: the
    /// commands become fewer by a few in a hundred. The look-up that runs them all
    /// waits long; [`settle`](Reader::settle) and [`advance`](Reader::advance) run
    /// them while nobody waits. A reader leaves jobs or lets them gather, whichever
    /// it was told last.
    pub fn gather_jobs(&mut self, jobs: usize) {
        self.most_left = jobs.clamp(1, MOST + 1) - 1;
        self.runs_to = 0;
    }

    /// How many jobs are left to do, one that has begun among them.
    #[must_use]
    pub fn jobs_left(&self) -> usize {
        self.store.queued()
    }

    /// Runs all jobs that are left, and waits until the host has completed every
    /// command. Without any it does nothing.
    ///
    /// # Errors
    ///
    /// [`Error::Words`] if fewer words are there than the jobs may take; nothing
    /// was sent then, and the reader goes on. [`Error::Host`] and
    /// [`Error::NotRandom`] end the reader, as in a look-up:
    /// [`Error::Unfinished`] from then on.
    pub fn settle(&mut self) -> Result<(), Error> {
        self.run_left(u64::MAX)
    }

    /// Sends up to so many commands of jobs that are left, and hands back how many
    /// jobs are left then. It waits for the host only where no command can be
    /// sent; some may be outstanding when it returns.
    ///
    /// # Errors
    ///
    /// Those of [`settle`](Reader::settle); the words of all jobs that are left
    /// are asked for, however few commands are sent.
    pub fn advance(&mut self, commands: usize) -> Result<usize, Error> {
        self.run_left(commands as u64)?;
        Ok(self.jobs_left())
    }

    /// All words that the jobs may take are there before they are run.
    fn run_left(&mut self, commands: u64) -> Result<(), Error> {
        if self.unfinished {
            return Err(Error::Unfinished);
        }
        let words = self.words_of(self.store.queued());
        self.words.ready(words).map_err(Error::Words)?;
        let end = self.sent.saturating_add(commands);
        self.unfinished = true;
        while self.store.queued() > 0 && self.sent < end {
            self.step()?;
        }
        self.unfinished = false;
        Ok(())
    }
}

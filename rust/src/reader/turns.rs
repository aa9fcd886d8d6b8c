//! What a reader sends, and when: the reads of its request, and its jobs.
//!
//! Whatever is left for later, a look-up hides its block. Nothing here looks at
//! the block, at contents, at where it was found or at how far the store is with
//! it. What is done next depends on the numbers that calls answer and on how many
//! commands were sent and completed; how many jobs are queued follows from these,
//! as a collect queues two and the jobs of a run leave with its last write. What is
//! proved of hiding covers callers that choose each call by what was told before it.

use super::Reader;
use crate::command::Kind;
use crate::error::Error;
use crate::found::Found;
use crate::host::Host;
use crate::refusal::Refusal;
use crate::store::Request;
use std::io::Read;

/// The jobs that a collect queues.
const QUEUES: usize = 2;

/// The words that a job may pass over. With eight levels it passes over less than
/// a quarter of a word on average, and more than these less than once in 10^57
/// times; the two jobs of a look-up more than twice as many less than once in
/// 10^111.
const SPARE: usize = 32;

impl<H: Host, R: Read> Reader<H, R> {
    /// The words of so many jobs: an order of at most 2^L slots for each, and
    /// those that it may pass over. Jobs that run together draw no more orders than
    /// apart, and no longer ones.
    pub(super) fn words_of(&self, jobs: usize) -> usize {
        jobs * ((1 << self.shape().levels()) - 1 + SPARE)
    }

    /// One look-up; the contents before it go into the buffer. All words that it
    /// may take are there before it begins: two for the request, and those of
    /// every job that is queued and of the two that it queues.
    pub(super) fn look_up(
        &mut self,
        request: Request<'_>,
        before: &mut [u8],
    ) -> Result<Found, Error> {
        if self.unfinished {
            return Err(Error::Unfinished);
        }
        if before.len() != self.shape().bytes() {
            return Err(Refusal::BufferLength.into());
        }
        let most = 2 + self.words_of(self.store.queued() + QUEUES);
        self.words.ready(most).map_err(Error::Words)?;
        let start = self.sent;
        self.ask(request)?;
        self.unfinished = true;
        let found = self.fetch(before)?;
        self.tally.count(found);
        let contents = self.sent - start;
        if self.store.queued() > self.most_left {
            self.run_jobs(self.runs_to)?;
        }
        self.unfinished = false;
        self.waits.count(contents, self.sent - start);
        Ok(found)
    }

    /// Asks the store for the block. Where its cache has no place left, jobs that
    /// are left may make one, and it is asked again after each.
    fn ask(&mut self, request: Request<'_>) -> Result<(), Error> {
        let mut asked = self.request(request);
        while asked == Err(Refusal::CacheFull) && self.store.queued() > 0 {
            self.unfinished = true;
            self.run_jobs(self.store.queued() - 1)?;
            self.unfinished = false;
            asked = self.request(request);
        }
        Ok(asked?)
    }

    fn request(&mut self, request: Request<'_>) -> Result<(), Refusal> {
        let mut tape = self.words.tape();
        let asked = self.store.request(request, &mut tape);
        let used = tape.used();
        self.words.take(used);
        asked
    }

    /// Sends the request's reads and waits until it can be collected. They are at
    /// most L and go before jobs' commands, so that as many are sent at first: a
    /// request that no job holds is finished once these have completed. If it is
    /// not finished then, it was held, and the jobs are run as fast as the window
    /// lets them.
    fn fetch(&mut self, before: &mut [u8]) -> Result<Found, Error> {
        let mut ahead = self.shape().levels();
        loop {
            let sent = match ahead {
                0 => Err(Refusal::WindowFull),
                _ => self.send()?,
            };
            if sent.is_ok() {
                ahead -= 1;
                continue;
            }
            // without jobs all that is outstanding are its reads
            let alone = sent == Err(Refusal::NothingToSend) && self.store.queued() == 0;
            while alone && self.outstanding > 0 {
                self.complete()?;
            }
            if let Some(found) = self.collect(before)? {
                return Ok(found);
            }
            match (ahead, self.outstanding) {
                (0, 0) => ahead = usize::MAX,
                _ => self.complete()?,
            }
        }
    }

    /// Collects the request, if it is finished.
    fn collect(&mut self, before: &mut [u8]) -> Result<Option<Found>, Error> {
        match self.store.collect() {
            Ok((contents, found)) => {
                before.copy_from_slice(contents);
                Ok(Some(found))
            }
            Err(Refusal::NotFinished) => Ok(None),
            Err(refusal) => Err(Error::midway(refusal)),
        }
    }

    /// Runs jobs until at most so many are queued, and waits for the host only
    /// where no command can be sent. Those that run together leave at once.
    pub(super) fn run_jobs(&mut self, most: usize) -> Result<(), Error> {
        while self.store.queued() > most {
            self.step()?;
        }
        Ok(())
    }

    /// Sends a command, or waits for one to complete where none can be sent.
    pub(super) fn step(&mut self) -> Result<(), Error> {
        match self.send()? {
            Ok(()) => Ok(()),
            Err(_) => self.complete(),
        }
    }

    /// Sends the next command, unless the window is full or there is none.
    fn send(&mut self) -> Result<Result<(), Refusal>, Error> {
        let mut tape = self.words.tape();
        let turned = self.store.turn(&mut tape);
        let used = tape.used();
        self.words.take(used);
        match turned {
            Ok((command, bytes)) => {
                self.host.submit(command, bytes).map_err(Error::Host)?;
                self.outstanding += 1;
                self.sent += 1;
                Ok(Ok(()))
            }
            Err(refusal @ (Refusal::WindowFull | Refusal::NothingToSend)) => Ok(Err(refusal)),
            Err(Refusal::TooFewWords) => Err(Error::NotRandom),
            Err(refusal) => Err(Error::midway(refusal)),
        }
    }

    /// Waits until the host has completed a command. Were none outstanding, it
    /// would wait forever; the store has then one to send, or the request is
    /// finished.
    fn complete(&mut self) -> Result<(), Error> {
        if self.outstanding == 0 {
            return Err(Error::midway(Refusal::NothingToSend));
        }
        let command = self.host.next_completed(&mut self.arrived);
        let command = command.map_err(Error::Host)?;
        let bytes = match command.kind {
            Kind::Read => &self.arrived[..],
            Kind::Write => &[],
        };
        let completed = self.store.completion(command, bytes);
        completed.map_err(Error::midway)?;
        self.outstanding -= 1;
        Ok(())
    }
}

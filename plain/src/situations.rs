//! What may be met in look-ups while a partition is rebuilt (document 02, P4)
//! and when jobs of one partition run together (P7), so that sessions, tests
//! and tapes can say that they have it.

mod together;

pub use together::Before;

use crate::calls::{Ask, Call, Outcome, Store};
use crate::joined::joined;
use crate::state::{Command, Place, State, Step};

#[derive(Clone, Copy, Debug, PartialEq, Eq, PartialOrd, Ord)]
pub enum Situation {
    /// A request is released beside an undrawn job. Its block is in a source,
    /// in an unread slot.
    OwnUnread,
    /// In a source, and the job's read of its slot is outstanding.
    OwnOutstanding,
    /// In a source, and the job's read of its slot has completed.
    OwnCompleted,
    Waiting,
    Nowhere,
    /// In a filled level that is no source.
    Higher,
    /// At the release a source has no unread slot.
    SpentSource,
    /// At the release the lowest-numbered unread item of a source is another
    /// block than the wanted one, which is not there unread.
    OtherBlock,
    /// The request was held before.
    HeldBefore,
    /// A request is held at acceptance by two jobs of its partition, the first
    /// of them at the front and undrawn.
    HeldByTwo,
    /// The request reads a dummy of a level that is no source.
    HigherDummy,
    /// By the request's read that level has been read 2^l times.
    Worn,
    /// The request's read of a source is the job's first command.
    BeginsJob,
    /// A turn is answered 10 as the job draws its order after the collect.
    IdleTurn,
    /// A collect is answered 14, and only job reads that were sent before the
    /// release are awaited.
    AwaitsJob,
    /// A collect while job reads are outstanding that were sent later.
    CollectedFirst,
    /// The job chooses the collected block from the cache.
    ChosenAgain,
    /// A run of two jobs begins, or one of more.
    Two,
    Three,
    /// Other jobs stand between those of the run.
    Apart,
    /// More jobs are queued than bring the counter to 2^L − 1.
    Cut,
    /// All levels are filled, and the job begins alone though others are
    /// queued.
    Alone,
    /// A run of several jobs draws. It writes several levels, or stores blocks
    /// in several.
    SeveralWritten,
    SeveralStored,
    /// It has a source above a level that is not filled.
    SourceAbove,
    /// It takes several waiting blocks, or fewer than its jobs as there is no
    /// room for more that wait.
    SeveralTaken,
    RoomEnds,
    /// It ends, and a job of its partition that was queued later stays.
    LeftBehind,
    /// A held request is released as the run begins.
    ReleasedByRun,
    /// A request is released beside a run that has begun, and is collected
    /// while it reads.
    BesideRun,
    CollectedBesideRun,
    /// The run begins with its draw, so the request that its jobs hold stays
    /// held.
    HeldByDraw,
}

impl Situation {
    pub const ALL: [Situation; 32] = joined(&[&Situation::BESIDE, &Situation::TOGETHER]);

    /// In look-ups while a partition is rebuilt.
    pub const BESIDE: [Situation; 17] = joined(&[&Situation::AT_RELEASE, &Situation::OTHER]);

    /// When jobs run together.
    pub const TOGETHER: [Situation; 15] = [
        Situation::Two,
        Situation::Three,
        Situation::Apart,
        Situation::Cut,
        Situation::Alone,
        Situation::SeveralWritten,
        Situation::SeveralStored,
        Situation::SourceAbove,
        Situation::SeveralTaken,
        Situation::RoomEnds,
        Situation::LeftBehind,
        Situation::ReleasedByRun,
        Situation::BesideRun,
        Situation::CollectedBesideRun,
        Situation::HeldByDraw,
    ];

    /// At the release beside an undrawn job.
    pub const AT_RELEASE: [Situation; 8] = [
        Situation::OwnUnread,
        Situation::OwnOutstanding,
        Situation::OwnCompleted,
        Situation::Waiting,
        Situation::Nowhere,
        Situation::Higher,
        Situation::SpentSource,
        Situation::OtherBlock,
    ];

    /// Before and after it.
    pub const OTHER: [Situation; 9] = [
        Situation::HeldBefore,
        Situation::HeldByTwo,
        Situation::HigherDummy,
        Situation::Worn,
        Situation::BeginsJob,
        Situation::IdleTurn,
        Situation::AwaitsJob,
        Situation::CollectedFirst,
        Situation::ChosenAgain,
    ];
}

impl State {
    /// The partition of a released request beside an undrawn job.
    pub fn beside(&self) -> Option<usize> {
        let q = *self.queue.front()?;
        let beside = self.released_for(q).is_some() && self.is_undrawn(q);
        beside.then_some(q)
    }

    pub fn is_beside(&self) -> bool {
        self.beside().is_some()
    }

    /// The blocks of the partition that the front job is for.
    pub fn rebuilt(&self) -> Vec<usize> {
        let front = self.queue.front();
        let all = 0..self.shape.blocks;
        all.filter(|block| Some(&self.partition[*block]) == front)
            .collect()
    }

    /// The blocks for which a request would not be held.
    pub fn unheld(&self) -> Vec<usize> {
        let all = 0..self.shape.blocks;
        all.filter(|block| !self.holds(self.partition[*block]))
            .collect()
    }

    /// Whether a request for that partition would not be held, and the job has
    /// begun or reads nothing: then most is to be met.
    pub fn is_ripe(&self) -> bool {
        let starts = |q: &usize| self.begun > 0 || self.source_levels(*q).is_empty();
        let ripe = |q: &usize| starts(q) && !self.holds(*q);
        self.queue.front().is_some_and(ripe)
    }

    /// What is met when the request in hand was just released: nothing unless
    /// that was beside a job.
    pub fn met_at_release(&self) -> Vec<Situation> {
        let (Some(q), Some(request)) = (self.beside(), &self.request) else {
            return Vec::new();
        };
        let mut met = vec![self.own_situation(request.block)];
        let (sources, tables) = (self.source_levels(q), &self.levels[q]);
        if sources.iter().any(|level| tables[*level].is_spent()) {
            met.push(Situation::SpentSource);
        }
        let reads_other = |level: &usize| {
            let slot = self.slot_to_read(request.block, *level);
            let read = slot.and_then(|slot| tables[*level].block_at[slot]);
            read.is_some_and(|block| block != request.block)
        };
        if sources.iter().any(reads_other) {
            met.push(Situation::OtherBlock);
        }
        if self.begun > 1 {
            met.push(Situation::BesideRun);
        }
        met
    }

    fn own_situation(&self, block: usize) -> Situation {
        let p = self.partition[block];
        let Some((level, slot)) = self.own_slot(block) else {
            return match self.place[block] {
                Place::Nowhere => Situation::Nowhere,
                _ => Situation::Waiting,
            };
        };
        let own = |c: &Command| (c.partition, c.level, c.slot) == (p, level, slot);
        if !self.is_source(p, level) {
            Situation::Higher
        } else if !self.levels[p][level].read[slot] {
            Situation::OwnUnread
        } else if self.outstanding.iter().any(own) {
            Situation::OwnOutstanding
        } else {
            Situation::OwnCompleted
        }
    }
}

/// Whether a request is in hand that is not held.
pub fn is_released(store: &Store) -> bool {
    let request = store.state.as_ref().and_then(|s| s.request.as_ref());
    request.is_some_and(|request| !request.is_held())
}

/// Makes calls and notes what is met by them.
#[derive(Default)]
pub struct Watch {
    pub met: Vec<Situation>,
    /// The job reads outstanding when the request was released.
    of_job: Vec<Command>,
    /// The block collected last beside the front job.
    collected: Option<usize>,
}

impl Watch {
    pub fn call(&mut self, store: &mut Store, call: &Call) -> Outcome {
        let before = store.state.clone();
        let outcome = store.call(call);
        if let (Some(before), Some(after)) = (before, &store.state) {
            match outcome.number {
                0 => self.accepted(&before, call, after),
                number => self.refused(after, call, number),
            }
        }
        outcome
    }

    fn refused(&mut self, state: &State, call: &Call, number: u8) {
        let (Some(q), Some(request)) = (state.beside(), &state.request) else {
            return;
        };
        let sent = state.request_read().is_none();
        let job_reads = request.awaits.iter().all(|c| self.of_job.contains(c));
        match (&call.ask, number) {
            (Ask::Turn, 10) if !state.busy(q) => self.met.push(Situation::IdleTurn),
            (Ask::Collect, 14) if sent && job_reads => self.met.push(Situation::AwaitsJob),
            _ => {}
        }
    }

    fn accepted(&mut self, before: &State, call: &Call, after: &State) {
        let released = |s: &State| s.request.as_ref().is_some_and(|r| !r.is_held());
        let look = Before::look(before, &call.ask);
        self.met.extend(look.met(&call.ask, after));
        match call.ask {
            Ask::Request { block, .. } => self.request(after, block),
            Ask::Turn => self.turn(before, after),
            Ask::Collect => self.collect(before),
            _ => {}
        }
        if released(after) && !released(before) {
            self.met.extend(after.met_at_release());
            if after.beside().is_some() && before.request.is_some() {
                self.met.push(Situation::HeldBefore);
            }
            self.of_job = after
                .request
                .as_ref()
                .map_or(Vec::new(), |r| r.awaits.clone());
        }
        if before.queue.len() > after.queue.len() {
            self.collected = None;
        }
    }

    fn request(&mut self, after: &State, block: usize) {
        let p = after.partition[block];
        let held = after.request.as_ref().is_some_and(|r| r.is_held());
        if held && after.is_undrawn(p) && after.jobs(p) > 1 {
            self.met.push(Situation::HeldByTwo);
        }
    }

    fn turn(&mut self, before: &State, after: &State) {
        match (before.step(), before.beside(), &before.request) {
            (Some(Step::RequestRead(level)), Some(q), Some(request)) => {
                let there = before.own_slot(request.block).map(|(own, _)| own);
                if before.is_source(q, level) {
                    self.begins(before, after);
                } else if there != Some(level) {
                    self.met.push(Situation::HigherDummy);
                }
                let reads = after.levels[q][level].reads();
                if !before.is_source(q, level) && reads >= 1 << level {
                    self.met.push(Situation::Worn);
                }
            }
            (Some(Step::FirstWrite), _, _) => {
                let chosen = before.chosen(before.queue[0]);
                if self.collected.is_some_and(|block| chosen.contains(&block)) {
                    self.met.push(Situation::ChosenAgain);
                }
            }
            _ => {}
        }
    }

    fn begins(&mut self, before: &State, after: &State) {
        if after.begun > 0 && before.begun == 0 {
            self.met.push(Situation::BeginsJob);
        }
    }

    fn collect(&mut self, before: &State) {
        let (Some(q), Some(request)) = (before.beside(), &before.request) else {
            return;
        };
        if before.busy(q) {
            self.met.push(Situation::CollectedFirst);
        }
        self.collected = Some(request.block);
    }
}

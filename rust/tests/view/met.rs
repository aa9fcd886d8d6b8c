//! What occurs in look-ups while a partition is rebuilt (document 02, P4) and
//! when jobs of one partition run together (P7), so that tests can say that they
//! reach it.

mod together;

use super::{Request, View, slots};
use plain::calls::{Ask, Call, Outcome};
use plain::found::Found;
use plain::state::Command;
use std::fmt;

#[derive(Clone, Copy, Debug, PartialEq, Eq)]
pub enum Met {
    /// A request is released beside the only job for its partition, at the front
    /// and undrawn. Its block is in a source: its slot is unread,
    Unread,
    /// or the job's read of it is outstanding,
    Outstanding,
    /// or has completed.
    Completed,
    /// The block of such a request waits,
    Waiting,
    /// or is nowhere,
    Nowhere,
    /// or is in a level that is no source.
    Higher,
    /// At the release a source has no unread slot, and costs no read.
    Spent,
    /// The request's read is the job's first command.
    Begins,
    /// A turn is answered 10 because the order is drawn after the collect.
    Idle,
    /// A collect is answered 14 though of all that the request waits for only
    /// reads of the job are outstanding, sent before the release.
    AwaitsJob,
    /// A collect while reads of the job are outstanding, sent after the release.
    Overtakes,
    /// A job begins: two run together,
    Two,
    /// or more.
    More,
    /// Fewer run than are queued for their partition, as its counter cannot grow
    /// by more,
    Cut,
    /// or as all levels are filled.
    Alone,
    /// Orders of several levels are drawn.
    SeveralLevels,
    /// Several waiting blocks are taken.
    SeveralBlocks,
    /// A run of several jobs ends, and jobs for its partition that were queued
    /// later stay.
    LeftBehind,
    /// A held request is released as a run of several jobs begins.
    ReleasedByRun,
    /// A request is released at once beside such a run,
    BesideRun,
    /// and collected before the run draws its orders.
    CollectedBesideRun,
    /// A request is held beside such a job, as a level that is no source has been
    /// read 2^level times.
    Worn,
    /// A request is held and no job is queued.
    HeldByNone,
    /// A call that is accepted finds the front job begun with more jobs than are
    /// queued for its partition,
    Unqueued,
    /// and ends it.
    EndsUnqueued,
    /// The same of one that has begun with more jobs than may run together,
    Beyond,
    /// and ends it.
    EndsBeyond,
}

/// What calls leave; the others, from `Worn` on, are met in damaged states alone.
const LEFT_BY_CALLS: usize = Met::Worn as usize;
const ALL: usize = Met::EndsBeyond as usize + 1;
const NAMES: [&str; ALL] = [
    "unread",
    "outstanding",
    "completed",
    "waiting",
    "nowhere",
    "higher",
    "spent",
    "begins",
    "idle",
    "awaits job",
    "overtakes",
    "two",
    "more",
    "cut",
    "alone",
    "several levels",
    "several blocks",
    "left behind",
    "released by a run",
    "beside a run",
    "collected beside a run",
    "worn",
    "held by none",
    "unqueued",
    "ends unqueued",
    "beyond",
    "ends beyond",
];

/// How often each was met.
#[derive(Clone, Copy, Default, PartialEq, Eq)]
pub struct Counts([usize; ALL]);

impl Counts {
    pub fn add(&mut self, met: Vec<Met>) {
        met.into_iter().for_each(|met| self.0[met as usize] += 1);
    }

    /// The least of what calls leave, and of what they do not.
    pub fn least(&self) -> [usize; 2] {
        let (left, others) = self.0.split_at(LEFT_BY_CALLS);
        [left, others].map(|counts| counts.iter().copied().min().unwrap_or(0))
    }

    /// How often anything was met that no call leaves.
    pub fn damaged_only(&self) -> usize {
        self.0[LEFT_BY_CALLS..].iter().sum()
    }
}

impl fmt::Debug for Counts {
    fn fmt(&self, f: &mut fmt::Formatter<'_>) -> fmt::Result {
        let each = NAMES.iter().zip(self.0);
        let each: Vec<String> = each
            .map(|(name, count)| format!("{count} {name}"))
            .collect();
        f.write_str(&each.join(", "))
    }
}

impl View {
    /// The request in hand, if the only job for its partition is at the front and
    /// undrawn.
    fn request_beside(&self) -> Option<(usize, &Request)> {
        let request = self.request.as_ref()?;
        let q = self.partition[request.block];
        self.is_beside(q).then_some((q, request))
    }

    fn is_released(&self) -> bool {
        self.request.as_ref().is_some_and(|r| r.found.is_some())
    }

    /// Of a request that was just released beside a job: where its block is, and
    /// whether a source is spent.
    fn met_at_release(&self) -> Vec<Met> {
        let Some((q, request)) = self.request_beside() else {
            return Vec::new();
        };
        let spent = |level| (0..slots(level)).all(|slot| !self.is_unread(q, level, slot));
        let mut met = vec![self.own(q, request.block)];
        met.extend(self.sources(q).into_iter().any(spent).then_some(Met::Spent));
        met
    }

    fn own(&self, q: usize, block: usize) -> Met {
        let Some((level, slot)) = self.place[block] else {
            return match self.look_up(block) {
                Found::Nowhere => Met::Nowhere,
                _ => Met::Waiting,
            };
        };
        let reads = |c: &Command| (c.partition, c.level, c.slot) == (q, level, slot);
        if !self.is_source(q, level) {
            Met::Higher
        } else if self.is_unread(q, level, slot) {
            Met::Unread
        } else if self.outstanding.iter().any(reads) {
            Met::Outstanding
        } else {
            Met::Completed
        }
    }

    /// A held request that only a damaged state has.
    fn met_while_held(&self) -> Option<Met> {
        let held = self.request.as_ref().filter(|r| r.found.is_none())?;
        let q = self.partition[held.block];
        if self.queue.is_empty() {
            return Some(Met::HeldByNone);
        }
        (self.is_beside(q) && self.is_worn(q)).then_some(Met::Worn)
    }

    /// Whether the front job would draw its order, were no released request of
    /// its partition in hand.
    fn is_kept_from_drawing(&self) -> bool {
        let undrawn = self.queue.first().filter(|_| self.sent == 0);
        undrawn.is_some_and(|q| {
            let gathered = self.unread(*q).is_none() && !self.busy(*q);
            gathered && self.released_for(*q).is_some()
        })
    }
}

/// Notes what calls meet, one after the other.
#[derive(Clone, Default)]
pub struct Watch {
    /// What was outstanding when the request was released.
    of_job: Vec<Command>,
}

impl Watch {
    pub fn call(&mut self, before: &View, call: &Call, told: &Outcome, after: &View) -> Vec<Met> {
        let mut met: Vec<Met> = before.met_while_held().into_iter().collect();
        match (&call.ask, told.number) {
            (Ask::Turn, 0) => met.extend(begins(before, after).then_some(Met::Begins)),
            (Ask::Turn, 10) => met.extend(before.is_kept_from_drawing().then_some(Met::Idle)),
            (Ask::Collect, 0) => met.extend(overtakes(before).then_some(Met::Overtakes)),
            (Ask::Collect, 14) => met.extend(self.awaits_job(before).then_some(Met::AwaitsJob)),
            _ => {}
        }
        if told.number != 0 {
            return met;
        }
        met.extend(before.met_together(call, after));
        met.extend(before.met_unqueued(call, after));
        if after.is_released() && !before.is_released() {
            self.of_job.clone_from(&after.outstanding);
            met.extend(after.met_at_release());
        }
        met
    }

    fn awaits_job(&self, view: &View) -> bool {
        let beside = view.request_beside().filter(|(_, r)| r.found.is_some());
        let sent = beside.filter(|(_, r)| view.level_left(r).is_none());
        sent.is_some_and(|(_, r)| view.awaited(r).all(|c| self.of_job.contains(c)))
    }
}

/// Whether a turn sent a request's read, and that began the job.
fn begins(before: &View, after: &View) -> bool {
    let level = |view: &View| view.request.as_ref().map(|r| r.level);
    before.begun == 0 && after.begun > 0 && level(before) != level(after)
}

/// Whether the collected request leaves commands of its partition behind.
fn overtakes(before: &View) -> bool {
    before.request_beside().is_some_and(|(q, _)| before.busy(q))
}

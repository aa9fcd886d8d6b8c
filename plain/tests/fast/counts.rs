//! What the random calls reach, counted so that the comparison is known to
//! have it.

use plain::calls::{Ask, Outcome};
use plain::found::Found;
use plain::situations::{self, Situation};
use plain::state::{State, Step, WRITE};
use std::collections::BTreeMap;

/// What look-ups beside an undrawn job meet (document 02, P4), and jobs that run
/// together (P7).
#[derive(Clone, Copy, Debug, PartialEq, Eq, PartialOrd, Ord)]
pub enum Met {
    /// What the model tells of the state after the release, and of runs.
    Told(Situation),
    /// The request was released at acceptance, by the end of a job of another
    /// partition, or by the end or the beginning of its own.
    AtAcceptance,
    AfterOther,
    AfterOwn,
    /// The job has no source, or has read all of them.
    NoSource,
    AllSpent,
    /// The job has read the block of a read, or of a write.
    HasRead,
    HasReadForWrite,
    /// The request reads, in a source, its block, another one or a dummy.
    ReadsOwn,
    ReadsOther,
    ReadsDummy,
    /// Such a read is the last of the sources.
    LeavesNone,
    /// The job reads while the request is in hand.
    JobReads,
    /// Its reads have completed, and a turn is answered 10.
    NoDraw,
    /// A collect while reads of the job are outstanding.
    CollectedFirst,
    /// The job chooses the block collected beside it.
    ChosenAgain,
}

pub const ALL_MET: [Met; 23] = [
    Met::Told(Situation::OwnUnread),
    Met::Told(Situation::OwnOutstanding),
    Met::Told(Situation::OwnCompleted),
    Met::Told(Situation::Waiting),
    Met::Told(Situation::Nowhere),
    Met::Told(Situation::Higher),
    Met::Told(Situation::SpentSource),
    Met::Told(Situation::OtherBlock),
    Met::AtAcceptance,
    Met::AfterOther,
    Met::AfterOwn,
    Met::NoSource,
    Met::AllSpent,
    Met::HasRead,
    Met::HasReadForWrite,
    Met::ReadsOwn,
    Met::ReadsOther,
    Met::ReadsDummy,
    Met::LeavesNone,
    Met::JobReads,
    Met::NoDraw,
    Met::CollectedFirst,
    Met::ChosenAgain,
];

/// What is looked at before a call.
pub struct Before {
    step: Option<Step>,
    /// The partition of the front job, and the blocks that it would choose.
    front: Option<usize>,
    chosen: Vec<usize>,
    in_hand: Option<usize>,
    /// Whether the request in hand is beside the job.
    beside: bool,
    /// What tells whether jobs run together.
    together: situations::Before,
}

impl Before {
    pub fn look(state: &State, ask: &Ask) -> Before {
        let (step, front) = (state.step(), state.queue.front().copied());
        let draws = step == Some(Step::FirstWrite);
        Before {
            step,
            front,
            chosen: front
                .filter(|_| draws)
                .map_or(Vec::new(), |q| state.chosen(q)),
            in_hand: state.request.as_ref().map(|request| request.block),
            beside: state.beside().is_some(),
            together: situations::Before::look(state, ask),
        }
    }
}

#[derive(Default)]
pub struct Counts {
    /// How often each number was answered.
    pub numbers: [usize; 16],
    /// The most jobs queued, the rebuilds of a partition that stores all it
    /// may, and those of a partition with all levels filled.
    pub most_jobs: usize,
    pub full: usize,
    pub wraps: usize,
    /// The orders that passed words over, and the turns answered 3 though
    /// they were lent as many words as they make draws.
    pub passed: usize,
    pub unsettled: usize,
    /// How often a block was found nowhere, in the cache and in each level,
    /// and how often elsewhere than at acceptance.
    pub found: [usize; 10],
    pub moved: usize,
    accepted: Found,
    pub met: BTreeMap<Met, usize>,
    /// The block collected last beside the front job.
    collected: Option<usize>,
}

impl Counts {
    /// For another store.
    pub fn go_on(mut self) -> Counts {
        self.collected = None;
        self
    }

    /// Counts what a call reaches, given the state after it.
    pub fn call(&mut self, before: Before, ask: &Ask, outcome: &Outcome, state: &State) {
        self.numbers[usize::from(outcome.number)] += 1;
        self.most_jobs = self.most_jobs.max(state.queue.len());
        match ask {
            Ask::Turn if outcome.number == 10 => self.idle(&before, state),
            _ if outcome.number != 0 => {}
            Ask::Request { block, .. } => self.accepted = state.look_up(*block),
            Ask::Turn => self.turn(&before, outcome, state),
            Ask::Collect => self.collect(&before, outcome, state),
            _ => {}
        }
        if !before.beside && state.beside().is_some() {
            self.release(&before, state);
        }
        if outcome.number == 0 {
            let met = before.together.met(ask, state);
            met.into_iter().for_each(|met| self.add(Met::Told(met)));
        }
    }

    pub fn print(&self) {
        println!(
            "numbers {:?}, {} full, {} wraps",
            self.numbers, self.full, self.wraps
        );
        println!("found {:?}, {} moved", self.found, self.moved);
        println!(
            "words passed over in {} orders, {} not settled",
            self.passed, self.unsettled
        );
        for (met, times) in &self.met {
            println!("{times:>6} {met:?}");
        }
    }

    fn add(&mut self, met: Met) {
        *self.met.entry(met).or_default() += 1;
    }

    fn turn(&mut self, before: &Before, outcome: &Outcome, state: &State) {
        let (q, level) = (outcome.command.partition, outcome.command.level);
        match before.step {
            Some(Step::RequestRead(_)) if before.beside && state.is_source(q, level) => {
                let block = state.levels[q][level].block_at[outcome.command.slot];
                self.add(match block {
                    None => Met::ReadsDummy,
                    _ if block == before.in_hand => Met::ReadsOwn,
                    _ => Met::ReadsOther,
                });
                if state
                    .source_levels(q)
                    .into_iter()
                    .all(|source| state.levels[q][source].is_spent())
                {
                    self.add(Met::LeavesNone);
                }
            }
            Some(Step::JobRead(..)) if before.beside => self.add(Met::JobReads),
            Some(Step::FirstWrite) => {
                if self
                    .collected
                    .is_some_and(|block| before.chosen.contains(&block))
                {
                    self.add(Met::ChosenAgain);
                }
                self.collected = None;
            }
            _ => {}
        }
    }

    fn idle(&mut self, before: &Before, state: &State) {
        if before.beside && before.front.is_some_and(|q| !state.busy(q)) {
            self.add(Met::NoDraw);
        }
    }

    fn collect(&mut self, before: &Before, outcome: &Outcome, state: &State) {
        self.found[outcome.found.number()] += 1;
        self.moved += usize::from(outcome.found != self.accepted);
        if before.beside {
            self.collected = before.in_hand;
            if !state.outstanding.is_empty() {
                self.add(Met::CollectedFirst);
            }
        }
    }

    /// The call has released a request beside the front job.
    fn release(&mut self, before: &Before, state: &State) {
        let (Some(q), Some(request)) = (state.beside(), &state.request) else {
            return;
        };
        for situation in state.met_at_release() {
            self.add(Met::Told(situation));
        }
        self.add(match before.in_hand {
            None => Met::AtAcceptance,
            _ if before.front == Some(q) => Met::AfterOwn,
            _ => Met::AfterOther,
        });
        let sources = state.source_levels(q);
        if sources
            .iter()
            .all(|source| state.levels[q][*source].is_spent())
        {
            self.add(match sources[..] {
                [] => Met::NoSource,
                _ => Met::AllSpent,
            });
        }
        if state.was_read(request.block) {
            self.add(match request.kind {
                WRITE => Met::HasReadForWrite,
                _ => Met::HasRead,
            });
        }
    }
}

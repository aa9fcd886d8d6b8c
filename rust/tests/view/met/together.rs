//! What occurs when jobs of one partition run together (document 02, P7).

use super::super::View;
use super::Met;
use plain::calls::{Ask, Call};

impl View {
    /// What is met by a call to this state that was accepted and left the other
    /// one.
    pub fn met_together(&self, call: &Call, after: &View) -> Vec<Met> {
        let Some(q) = self.queue.first().copied() else {
            return Vec::new();
        };
        let run = self.begun > 1;
        let ends = self.begun > 0 && after.begun == 0;
        let met = match &call.ask {
            Ask::Turn => return self.met_by_turn(q, after),
            Ask::Request { .. } => (Met::BesideRun, run && after.is_released_for(q)),
            Ask::Collect => (Met::CollectedBesideRun, run && self.is_released_for(q)),
            Ask::Completion { .. } => (Met::LeftBehind, run && ends && after.jobs_for(q) > 0),
            _ => return Vec::new(),
        };
        those([met])
    }

    /// Whether the request in hand was released beside the front job, for q, whose
    /// orders are not drawn.
    fn is_released_for(&self, q: usize) -> bool {
        self.is_beside(q) && self.released_for(q).is_some()
    }

    fn met_by_turn(&self, q: usize, after: &View) -> Vec<Met> {
        let (jobs, begun) = (self.jobs_for(q), after.begun);
        let begins = self.begun == 0 && begun > 0;
        let draws = self.sent == 0 && after.sent == 1;
        let left = begins && begun < jobs;
        let taken = self.waiting.len() - after.waiting.len();
        let released = after.is_released_for(q) && !self.is_released_for(q);
        those([
            (Met::Two, begins && begun == 2),
            (Met::More, begins && begun > 2),
            (Met::Cut, left && !self.is_full(q)),
            (Met::Alone, left && self.is_full(q)),
            (Met::SeveralLevels, draws && self.targets(q).len() > 1),
            (Met::SeveralBlocks, draws && taken > 1),
            (Met::ReleasedByRun, begins && begun > 1 && released),
        ])
    }

    /// The same of a front job that has begun with more jobs than are queued for
    /// its partition, or than may run together, as no call leaves it.
    pub fn met_unqueued(&self, call: &Call, after: &View) -> Vec<Met> {
        let front = self.queue.first();
        let unqueued = front.is_some_and(|q| self.begun > self.jobs_for(*q));
        let beyond = front.is_some_and(|q| self.begun > self.joined(*q));
        let replaces = matches!(call.ask, Ask::Open(_) | Ask::Load(_) | Ask::Reload);
        let ends = matches!(call.ask, Ask::Completion { .. }) && after.begun == 0;
        those([
            (Met::Unqueued, unqueued && !replaces),
            (Met::EndsUnqueued, unqueued && ends),
            (Met::Beyond, beyond && !replaces),
            (Met::EndsBeyond, beyond && ends),
        ])
    }
}

/// Those that are the case.
fn those<const N: usize>(all: [(Met, bool); N]) -> Vec<Met> {
    let holds = all.into_iter().filter(|(_, holds)| *holds);
    holds.map(|(met, _)| met).collect()
}

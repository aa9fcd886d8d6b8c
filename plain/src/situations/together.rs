//! What is met when jobs of one partition run together (document 02, P7).

use super::Situation;
use crate::calls::Ask;
use crate::state::{State, Step};

/// What is looked at before a call.
pub struct Before {
    /// The partition of the front job, and for how many jobs it runs.
    front: Option<usize>,
    begun: usize,
    /// Whether the request in hand is held, and whether it is beside the job.
    held: bool,
    beside: bool,
    /// What is met if the call is a turn that draws.
    at_draw: Vec<Situation>,
}

impl Before {
    pub fn look(state: &State, ask: &Ask) -> Before {
        let front = state.queue.front().copied();
        let draws = *ask == Ask::Turn && state.step() == Some(Step::FirstWrite);
        let run = front.filter(|q| draws && state.run(*q) > 1);
        Before {
            front,
            begun: state.begun,
            held: state.request.as_ref().is_some_and(|r| r.is_held()),
            beside: state.is_beside(),
            at_draw: run.map_or(Vec::new(), |q| state.met_at_draw(q)),
        }
    }

    /// What is met by the call, which was accepted and left this state.
    pub fn met(self, ask: &Ask, after: &State) -> Vec<Situation> {
        let Some(q) = self.front else {
            return Vec::new();
        };
        let several = self.begun > 1;
        match ask {
            Ask::Turn if self.begun == 0 && after.begun > 0 => {
                let mut met = self.met_at_begin(q, after);
                met.extend(self.at_draw);
                met
            }
            Ask::Turn => self.at_draw,
            Ask::Completion { .. } => {
                let ended = several && after.begun == 0;
                those([(Situation::LeftBehind, ended && after.jobs(q) > 0)])
            }
            Ask::Collect => those([(Situation::CollectedBesideRun, several && self.beside)]),
            _ => Vec::new(),
        }
    }

    /// What is met as the front job begins. The turn leaves the queue and the
    /// counters as they were.
    fn met_at_begin(&self, q: usize, after: &State) -> Vec<Situation> {
        let (run, jobs) = (after.begun, after.jobs(q));
        let neighbours = after.queue.iter().take_while(|job| **job == q).count();
        let request = after.request.as_ref();
        let request = request.filter(|r| self.held && after.partition[r.block] == q);
        let stays_held = request.map(|r| r.is_held());
        those([
            (Situation::Two, run == 2),
            (Situation::Three, run > 2),
            (Situation::Apart, run > neighbours),
            (Situation::Cut, run < jobs && !after.is_full(q)),
            (Situation::Alone, run < jobs && after.is_full(q)),
            (Situation::ReleasedByRun, stays_held == Some(false)),
            (
                Situation::HeldByDraw,
                run > 1 && run == jobs && stays_held == Some(true),
            ),
        ])
    }
}

impl State {
    /// What is met as a run of several jobs draws its orders.
    fn met_at_draw(&self, q: usize) -> Vec<Situation> {
        let (written, sources) = (self.written_levels(q), self.source_levels(q));
        let chosen = self.chosen(q).len();
        let blocks = self.sourced(q).len() + chosen;
        let waits = |block: &usize| self.partition[*block] == q && self.is_waiting(*block);
        let waiting = (0..self.shape.blocks).filter(waits).count();
        let several = written.len() > 1;
        let above = |(index, level): (usize, &usize)| index < *level;
        those([
            (Situation::SeveralWritten, several),
            (
                Situation::SeveralStored,
                several && blocks > 1 << written[0],
            ),
            (
                Situation::SourceAbove,
                sources.iter().enumerate().any(above),
            ),
            (Situation::SeveralTaken, chosen > 1),
            (Situation::RoomEnds, chosen < waiting.min(self.run(q))),
        ])
    }
}

/// Those that are the case.
fn those<const N: usize>(all: [(Situation, bool); N]) -> Vec<Situation> {
    let holds = all.into_iter().filter(|(_, holds)| *holds);
    holds.map(|(met, _)| met).collect()
}

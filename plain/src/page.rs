//! The page on the state of the store (document 02, P1): a line for each
//! partition, and one for all. Blocks are counted by their place alone, so a
//! request in hand changes nothing; a begun job is still in the queue.

use crate::state::{Place, State};

/// The figures of a partition.
#[derive(Clone, Copy, Debug, Default)]
struct Row {
    counter: usize,
    stored: usize,
    waiting: usize,
    jobs: usize,
}

impl Row {
    fn line(&self, partition: usize) -> String {
        format!(
            "{partition:4}{:6}{:6}{:6}{:6}\n",
            self.counter, self.stored, self.waiting, self.jobs
        )
    }
}

pub fn page(state: &State) -> String {
    let rows = rows(state).into_iter().enumerate();
    let lines = rows.map(|(partition, row)| row.line(partition));
    lines.chain([last_line(state)]).collect()
}

/// One pass over the blocks and one over the queue, however many partitions
/// there are.
fn rows(state: &State) -> Vec<Row> {
    let counter = |counter: &usize| Row {
        counter: *counter,
        ..Row::default()
    };
    let mut rows: Vec<Row> = state.counter.iter().map(counter).collect();
    count_blocks(state, &mut rows);
    count_jobs(state, &mut rows);
    rows
}

fn count_blocks(state: &State, rows: &mut [Row]) {
    for (place, partition) in state.place.iter().zip(&state.partition) {
        match place {
            Place::Nowhere => {}
            Place::Waiting(_) => rows[*partition].waiting += 1,
            Place::Stored { .. } => rows[*partition].stored += 1,
        }
    }
}

fn count_jobs(state: &State, rows: &mut [Row]) {
    for partition in &state.queue {
        rows[*partition].jobs += 1;
    }
}

/// The blocks of the whole store. Each figure is counted, none is a
/// difference, so that it says something if the three add up to N.
fn last_line(state: &State) -> String {
    let nowhere = |place: &&Place| matches!(place, Place::Nowhere);
    let stored = |place: &&Place| matches!(place, Place::Stored { .. });
    let nowhere = state.place.iter().filter(nowhere).count();
    let stored = state.place.iter().filter(stored).count();
    let waiting = state.waiting();
    format!("all {nowhere:6}{stored:6}{waiting:6}{:6}\n", "")
}

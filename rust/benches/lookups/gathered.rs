//! How many commands look-ups send in all, with those of their jobs, if each runs
//! its own and if jobs gather until they are so many. They are counted and not
//! timed, from the same words and for the same blocks as in waits.rs.

use crate::waits::{LOOK_UPS, stored, wrapping};
use plain::lookups::SHAPES;
use plain::rng::Rng;
use plain::shape::Shape;
use rinwolfedd::{Error, Waits};

/// How many jobs gather; with 0 each look-up runs its own.
const JOBS: [usize; 5] = [0, 8, 16, 32, 63];

/// Look-ups with so many jobs gathered.
pub struct Gathered {
    pub shape: Shape,
    pub jobs: usize,
    /// All commands, divided by the look-ups.
    pub commands: f64,
    pub waits: Waits,
}

/// Stores every block, looks up until the counters have wrapped, and then makes
/// the look-ups that count. No job is left before them, nor after them.
fn gathered(shape: Shape, jobs: usize) -> Result<Gathered, Error> {
    let (mut reader, mut rng) = (stored(shape)?, Rng::new(2));
    reader.gather_jobs(jobs);
    for _ in 0..wrapping(shape) {
        reader.read(rng.below(shape.blocks))?;
    }
    reader.settle()?;
    reader.take_waits();
    let before = reader.commands();
    for _ in 0..LOOK_UPS {
        reader.read(rng.below(shape.blocks))?;
    }
    reader.settle()?;
    let commands = reader.commands() - before;
    Ok(Gathered {
        shape,
        jobs,
        commands: commands as f64 / LOOK_UPS as f64,
        waits: *reader.waits(),
    })
}

/// Those of all shapes that are timed.
pub fn all() -> Result<Vec<Gathered>, Error> {
    let each = |shape| JOBS.into_iter().map(move |jobs| gathered(shape, jobs));
    SHAPES.into_iter().flat_map(each).collect()
}

//! Whole look-ups through the reader, with its tape from the operating system
//! and W commands outstanding: microseconds each, with a host in memory and
//! with one in a file.

use plain::rng::Rng;
use plain::shape::Shape;
use rinwolfedd::{Error, FileHost, Host, MemoryHost, Reader};
use std::time::Instant;

/// The shape as readers and hosts take it.
pub fn linked(h: Shape) -> rinwolfedd::Shape {
    rinwolfedd::Shape::new(h.blocks, h.partitions, h.levels, h.bytes)
        .with_smaller_cache(h.places)
        .with_window(h.window)
}

/// Microseconds of a look-up.
pub struct Look {
    pub shape: Shape,
    pub memory: f64,
    pub file: f64,
}

/// Writes every block, then times look-ups of random blocks; the best of some
/// parts.
fn time(shape: Shape, host: impl Host) -> Result<f64, Error> {
    const PARTS: usize = 8;
    const LOOK_UPS: usize = 256;
    let mut reader = Reader::open(linked(shape), host)?;
    let contents = vec![1; shape.bytes];
    reader.write_all((0..shape.blocks).map(|_| &contents))?;
    let mut rng = Rng::new(1);
    let mut best = f64::INFINITY;
    for _ in 0..PARTS {
        let start = Instant::now();
        for _ in 0..LOOK_UPS {
            reader.read(rng.below(shape.blocks))?;
        }
        best = best.min(start.elapsed().as_secs_f64() * 1e6 / LOOK_UPS as f64);
    }
    Ok(best)
}

pub fn look(shape: Shape) -> Result<Look, Error> {
    let memory = time(shape, MemoryHost::new(linked(shape), 1)?)?;
    let name = format!("rinwolfedd-bench-{}", std::process::id());
    let path = std::env::temp_dir().join(name);
    let host = FileHost::create(&path, linked(shape)).map_err(Error::Host)?;
    let file = time(shape, host);
    let _ = std::fs::remove_file(&path);
    Ok(Look {
        shape,
        memory,
        file: file?,
    })
}

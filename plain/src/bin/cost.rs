//! What whole look-ups cost in the steady state. For each shape it prints the
//! commands per look-up, and the nanoseconds per look-up and per command with
//! a host in memory; then, per command, with a host that does nothing, which
//! leaves the client and about 3 ns of the loop around it.

use plain::fast::Store;
use plain::lookups::{Client, Host, LookUps, Measure, Memory, Nothing, SHAPES};
use plain::shape::Shape;
use std::process::ExitCode;

const SEED: u64 = 1;
const LOOK_UPS: usize = 8192;
const REPEATS: usize = 24;

/// Each repeat opens a store anew and makes the same look-ups.
fn best<C: Client, H: Host>(shape: Shape) -> Result<Measure, String> {
    let mut best: Option<Measure> = None;
    for _ in 0..REPEATS {
        let refused = |number| format!("refused with {number}");
        let mut look_ups = LookUps::<C, H>::open(shape, SEED).map_err(refused)?;
        look_ups.warm_up()?;
        let measure = look_ups.measure(LOOK_UPS).map_err(refused)?;
        best = Some(match best {
            None => measure,
            Some(best) => best.best(&measure),
        });
    }
    best.ok_or("no repeats".into())
}

fn line<C: Client>(name: &str, shape: Shape) -> Result<String, String> {
    let memory = best::<C, Memory>(shape)?;
    let nothing = best::<C, Nothing>(shape)?;
    let commands = memory.commands as f64;
    Ok(format!(
        "{name:<8} N={:<4} P={:<2} L={} B={:<3} {:>8.2} {:>10.1} {:>10.2} {:>10.2}",
        shape.blocks,
        shape.partitions,
        shape.levels,
        shape.bytes,
        commands / LOOK_UPS as f64,
        memory.nanoseconds() / LOOK_UPS as f64,
        memory.nanoseconds() / commands,
        nothing.nanoseconds() / commands,
    ))
}

fn main() -> ExitCode {
    println!("                                commands ns/look-up ns/command     client");
    for shape in SHAPES {
        match line::<Store>("fast", shape) {
            Ok(line) => println!("{line}"),
            Err(error) => {
                eprintln!("{error}");
                return ExitCode::FAILURE;
            }
        }
    }
    ExitCode::SUCCESS
}

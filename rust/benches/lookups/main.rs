//! What whole look-ups cost beside the plain implementation, in the same run:
//! for each shape the commands of a look-up, nanoseconds per command of both,
//! and their ratio; with a host in memory, and with one that does nothing. Then
//! for how many commands look-ups through the reader wait, how many they send in
//! all if jobs gather, what a page costs and how that grows with N and with P, and
//! what a save and a load cost.
//!
//! `cargo bench` prints the tables. `cargo bench -- --docs ../docs` also puts
//! them into MEASUREMENTS.md there, between its two marks, and writes the plot
//! measurements.svg. `cargo bench -- --waits` prints for how many commands
//! look-ups wait, `-- --gathered` how many they send if jobs gather, `-- --saves`
//! what a save and a load cost, and nothing else is done.

#[path = "../../tests/common/convert.rs"]
mod convert;
mod gathered;
mod pages;
mod plot;
mod proved;
mod reader;
mod report;
mod saves;
mod waits;

use plain::fast;
use plain::lookups::{Client, Host, LookUps, Measure, Memory, Nothing, SHAPES};
use plain::shape::Shape;
use proved::Proved;
use report::Measured;
use std::error::Error;
use std::path::Path;
use std::process::ExitCode;

const LOOK_UPS: usize = 2048;
const REPEATS: usize = 50;

/// N alone grows.
const GROWING: [Shape; 4] = [
    Shape::new(64, 64, 8, 64, 64, 32),
    Shape::new(256, 64, 8, 64, 256, 32),
    Shape::new(1024, 64, 8, 64, 1024, 32),
    Shape::new(4096, 64, 8, 64, 4096, 32),
];

/// Nanoseconds per command, or of a page.
#[derive(Clone, Copy)]
pub struct Times {
    pub proved: f64,
    pub plain: f64,
}

impl Times {
    pub fn ratio(&self) -> f64 {
        self.proved / self.plain
    }
}

pub struct Row {
    pub shape: Shape,
    /// Commands of a look-up, on average.
    pub commands: f64,
    /// Blocks that wait in the cache after a look-up, on average.
    pub waiting: f64,
    /// With a host in memory, and with one that does nothing.
    pub memory: Times,
    pub nothing: Times,
}

/// How many look-ups found their block where.
type Found = [u64; 10];

fn measure<C: Client, H: Host>(shape: Shape) -> (Measure, Found) {
    let mut look_ups = LookUps::<C, H>::open(shape, 1).expect("the shape is in bounds");
    look_ups
        .warm_up()
        .expect("the answers are those of an array");
    let measure = look_ups.measure(LOOK_UPS).expect("no look-up is refused");
    (measure, look_ups.found)
}

/// Times both, which take turns and find the blocks at the same places, and
/// counts the commands of a look-up.
fn compare<H: Host>(shape: Shape) -> (Times, f64) {
    let (mut proved, found) = measure::<Proved, H>(shape);
    let (mut plain, same) = measure::<fast::Store, H>(shape);
    assert_eq!(found, same);
    for _ in 1..REPEATS {
        proved = proved.best(&measure::<Proved, H>(shape).0);
        plain = plain.best(&measure::<fast::Store, H>(shape).0);
    }
    assert_eq!(proved.commands, plain.commands);
    let commands = proved.commands as f64;
    let times = Times {
        proved: proved.nanoseconds() / commands,
        plain: plain.nanoseconds() / commands,
    };
    (times, commands / LOOK_UPS as f64)
}

/// Blocks that wait after each of as many look-ups, on average.
fn waiting(shape: Shape) -> f64 {
    let mut look_ups = LookUps::<Proved, Nothing>::open(shape, 1).expect("the shape is in bounds");
    look_ups.warm_up().expect("no look-up is refused");
    let mut all = 0;
    for _ in 0..LOOK_UPS {
        look_ups.measure(1).expect("no look-up is refused");
        all += usize::from(look_ups.client.waiting());
    }
    all as f64 / LOOK_UPS as f64
}

fn row(shape: Shape) -> Row {
    let (memory, commands) = compare::<Memory>(shape);
    let (nothing, _) = compare::<Nothing>(shape);
    Row {
        shape,
        commands,
        waiting: waiting(shape),
        memory,
        nothing,
    }
}

/// The folder named after `--docs`.
fn docs() -> Option<String> {
    let mut arguments = std::env::args().skip_while(|argument| argument != "--docs");
    arguments.nth(1)
}

fn is_asked(name: &str) -> bool {
    std::env::args().any(|argument| argument == name)
}

fn run() -> Result<(), Box<dyn Error>> {
    if is_asked("--saves") {
        print!("{}", report::saves(&saves::all()));
        return Ok(());
    }
    if is_asked("--gathered") {
        print!("{}", report::gathered(&gathered::all()?));
        return Ok(());
    }
    if is_asked("--waits") {
        print!("{}", report::waits(&waits::all()?));
        return Ok(());
    }
    let measured = measure_all()?;
    let text = report::text(&measured);
    print!("{text}");
    if let Some(docs) = docs() {
        let docs = Path::new(&docs);
        report::put(&docs.join("MEASUREMENTS.md"), &text)?;
        std::fs::write(docs.join("measurements.svg"), plot::svg(&measured.shapes))?;
    }
    Ok(())
}

fn measure_all() -> Result<Measured, rinwolfedd::Error> {
    let looks: Result<_, _> = SHAPES.into_iter().map(reader::look).collect();
    Ok(Measured {
        streams: waits::all()?,
        gathered: gathered::all()?,
        shapes: SHAPES.into_iter().map(row).collect(),
        growing: GROWING.into_iter().map(row).collect(),
        looks: looks?,
        pages: pages::all()?,
        saves: saves::all(),
    })
}

fn main() -> ExitCode {
    match run() {
        Ok(()) => ExitCode::SUCCESS,
        Err(error) => {
            eprintln!("{error:?}");
            ExitCode::FAILURE
        }
    }
}

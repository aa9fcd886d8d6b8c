//! A store that is put away between two seasons and goes on in the next.
//!
//! Each run is a season: the weights of 500 fish, a block each, are looked up and
//! written in a file whose host does not learn whose. In the end the reader is
//! saved, and the machine may be shut down. The second of the three seasons shown
//! ends in a power cut before its save: the third is told so, and goes on from the
//! first.
//!
//! The client's file is the reader's secret, and does not belong where the host of
//! the slots is. Here both are in one folder, to be looked at.
//!
//! ```text
//! cargo run --offline --example seasons              three seasons in a temporary folder
//! cargo run --offline --example seasons -- FOLDER    one season, in a folder that stays
//! ```

use rinwolfedd::{FileHost, Progress, Reader, Resumed, Shape};
use std::error::Error;
use std::io::{self, Write};
use std::path::{Path, PathBuf};
use std::process::ExitCode;

/// The fish, a block each; block 0 has the season.
const FISH: usize = 500;
const BYTES: usize = 16;

type Told = Result<(), Box<dyn Error>>;

/// How a season ends.
#[derive(Clone, Copy, PartialEq, Eq)]
pub enum End {
    Saved,
    /// The power fails before the save.
    PowerCut,
}

/// The record of a fish: the season in which it was weighed, and its grams.
fn record(season: u64, grams: u64) -> [u8; BYTES] {
    let mut record = [0; BYTES];
    record[..8].copy_from_slice(&season.to_le_bytes());
    record[8..].copy_from_slice(&grams.to_le_bytes());
    record
}

fn numbers(record: &[u8]) -> (u64, u64) {
    let number = |bytes: &[u8]| u64::from_le_bytes(bytes.try_into().unwrap_or_default());
    (number(&record[..8]), number(&record[8..]))
}

/// The fish grow, some faster than others.
fn grams(fish: usize, season: u64) -> u64 {
    let rate = 40 + (fish as u64 * 7919) % 23;
    12 + rate * season * season
}

/// The files of a folder.
struct Files {
    slots: PathBuf,
    client: PathBuf,
}

impl Files {
    fn of(folder: &Path) -> Files {
        let [slots, client] = ["slots", "client"].map(|name| folder.join(name));
        Files { slots, client }
    }
}

/// The reader of the seasons before, or a new one for the first.
fn reader(files: &Files, out: &mut impl Write) -> Result<Reader<FileHost>, Box<dyn Error>> {
    let shape = Shape::hiding(FISH + 1, BYTES)?;
    if !files.client.exists() {
        let host = FileHost::create(&files.slots, shape)?;
        writeln!(out, "a new store: {shape}")?;
        return Ok(Reader::open(shape, host)?);
    }
    let host = FileHost::open(&files.slots, shape)?;
    let (reader, resumed) = Reader::load(&files.client, host)?;
    match resumed {
        Resumed::AsSaved => writeln!(out, "the store goes on as it was saved")?,
        Resumed::RolledBack { .. } => writeln!(out, "the last season was not saved: {resumed}")?,
    }
    Ok(reader)
}

/// One season: some fish are looked up and all of them weighed, and the reader is
/// saved.
pub fn season(folder: &Path, end: End, out: &mut impl Write) -> Told {
    let files = Files::of(folder);
    let mut reader = reader(&files, out)?;
    let (last, _) = numbers(&reader.read(0)?.contents);
    let season = last + 1;
    for fish in [17, 256, 500].into_iter().filter(|_| last > 0) {
        let (weighed, grams) = numbers(&reader.read(fish)?.contents);
        writeln!(out, "  fish {fish:>3} had {grams} g in season {weighed}")?;
    }
    let weighs = (1..=FISH).map(|fish| record(season, grams(fish, season)));
    let progress = Progress::to_stderr("weighing fish", FISH);
    let weighed = reader.write_from_with(1, weighs, progress.into_callback())?;
    reader.write(0, &record(season, 0))?;
    writeln!(out, "season {season}: {weighed} fish weighed")?;
    match end {
        End::PowerCut => writeln!(out, "and then the power fails")?,
        End::Saved => {
            let id = reader.save(&files.client)?;
            writeln!(out, "saved as {id}; the machine may be shut down")?;
        }
    }
    Ok(())
}

/// Three seasons, of which the second is lost and made again.
pub fn three(folder: &Path, out: &mut impl Write) -> Told {
    for end in [End::Saved, End::PowerCut, End::Saved] {
        season(folder, end, out)?;
        writeln!(out)?;
    }
    Ok(())
}

/// What failed, and why.
fn told(error: &dyn Error) -> String {
    let (mut told, mut cause) = (error.to_string(), error.source());
    while let Some(error) = cause {
        told = format!("{told}: {error}");
        cause = error.source();
    }
    told
}

fn main() -> ExitCode {
    let asked = std::env::args_os().nth(1).map(PathBuf::from);
    let name = format!("rinwolfedd-seasons-{}", std::process::id());
    let folder = std::env::temp_dir().join(name);
    let result = match &asked {
        Some(folder) => season(folder, End::Saved, &mut io::stdout()),
        None => std::fs::create_dir(&folder)
            .map_err(Box::from)
            .and_then(|()| three(&folder, &mut io::stdout())),
    };
    if asked.is_none() {
        let _ = std::fs::remove_dir_all(&folder);
    }
    match result {
        Ok(()) => ExitCode::SUCCESS,
        Err(error) => {
            eprintln!("{}", told(&*error));
            ExitCode::FAILURE
        }
    }
}

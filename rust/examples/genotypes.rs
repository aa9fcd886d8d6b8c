//! Genotypes of 4,096 salmon in a file, looked up without the file's host
//! learning whose.
//!
//! Each block is the record of one fish: who it is, and its genotypes at 1,904
//! SNPs, two bits each. The example stores them, looks two fish up, and shows
//! side by side the commands that the host saw of either look-up. Then it shows
//! for how many commands look-ups wait if jobs are run at once, and if they are
//! left for when nobody waits. In the end it shows the page of the store, and
//! where its look-ups found the fish; both are for the owner alone.
//!
//! The commands hide the fish; the bytes do not. This example does not seal
//! them, so whoever reads the file sees the records, and where each one goes. A
//! program that stores real ones puts a host that seals every write between the
//! reader and the file (see `rinwolfedd::Host`).
//!
//! ```text
//! cargo run --offline --example genotypes            in a temporary file
//! cargo run --offline --example genotypes -- PATH    in a new file, which stays
//! ```

use rinwolfedd::{Command, FileHost, Kind, Progress, Reader, Recorded};
use rinwolfedd::{Shape, Summary, Tally, Wait};
use std::error::Error;
use std::io::{self, Write};
use std::path::{Path, PathBuf};
use std::process::ExitCode;

/// The fish, a block each, and the bytes of a record.
const FISH: usize = 4096;
const BYTES: usize = 512;

/// A record's bytes before its genotypes: the name, sex, year class, family.
const HEAD: usize = 36;
const SNPS: usize = 4 * (BYTES - HEAD);

/// A small generator (splitmix64): the fish are made up, and the same each
/// time. What is hidden does not rest on it.
struct Rng(u64);

impl Rng {
    fn next(&mut self) -> u64 {
        self.0 = self.0.wrapping_add(0x9E37_79B9_7F4A_7C15);
        let mut z = self.0;
        z = (z ^ (z >> 30)).wrapping_mul(0xBF58_476D_1CE4_E5B9);
        z = (z ^ (z >> 27)).wrapping_mul(0x94D0_49BB_1331_11EB);
        z ^ (z >> 31)
    }

    fn chance(&mut self, percent: u64) -> bool {
        self.next() % 100 < percent
    }
}

/// How common allele B is at a SNP, in percent: from 5 to 50.
fn frequency(snp: usize) -> u64 {
    5 + Rng(snp as u64).next() % 46
}

/// The record of a fish. A genotype is how many alleles are B, 0 to 2, or 3
/// where the chip gave no call, which one in a hundred does.
fn record(fish: usize) -> Vec<u8> {
    let mut rng = Rng(1 << 32 | fish as u64);
    let name = format!("SSA-{}-{fish:05}", 2021 + fish % 4);
    let mut bytes = vec![0; BYTES];
    bytes[..name.len()].copy_from_slice(name.as_bytes());
    bytes[32] = b"FM"[(rng.next() % 2) as usize];
    bytes[33] = (21 + fish % 4) as u8;
    bytes[34..HEAD].copy_from_slice(&(fish as u16 / 16).to_le_bytes());
    for snp in 0..SNPS {
        let alleles = [(); 2].map(|()| u8::from(rng.chance(frequency(snp))));
        let missing = rng.chance(1);
        let genotype = if missing { 3 } else { alleles[0] + alleles[1] };
        bytes[HEAD + snp / 4] |= genotype << (2 * (snp % 4));
    }
    bytes
}

/// A record as a line: who the fish is, its call rate, its first genotypes.
fn described(record: &[u8]) -> String {
    let name = String::from_utf8_lossy(&record[..32]);
    let name = name.trim_end_matches('\0');
    let genotypes = (0..SNPS).map(|snp| record[HEAD + snp / 4] >> (2 * (snp % 4)) & 3);
    let genotypes: Vec<u8> = genotypes.collect();
    let calls = genotypes.iter().filter(|genotype| **genotype != 3).count();
    let some = |genotype: &u8| ["AA", "AB", "BB", "--"][usize::from(*genotype)];
    let first: Vec<&str> = genotypes[..10].iter().map(some).collect();
    let sex = if record[32] == b'F' { "female" } else { "male" };
    let family = u16::from_le_bytes([record[34], record[35]]);
    format!(
        "{name}, {sex}, family {family}, call rate {:.1} %: {} ..",
        100.0 * calls as f64 / SNPS as f64,
        first.join(" ")
    )
}

/// One line of two look-ups side by side. Only slots are seen, whoever's they
/// are.
fn beside(left: Option<&Command>, right: Option<&Command>) -> String {
    let text = |command: Option<&Command>| {
        command.map_or(String::new(), |c| {
            let kind = match c.kind {
                Kind::Read => "read ",
                Kind::Write => "write",
            };
            let (p, level, slot) = (c.partition, c.level, c.slot);
            format!("{kind} partition {p:>2} level {level} slot {slot:>3}")
        })
    };
    format!("  {:<40}{}", text(left), text(right))
        .trim_end()
        .into()
}

/// Shows the commands that the host saw of two look-ups, the long ones cut.
fn show(out: &mut impl Write, fish: [usize; 2], seen: &[Vec<Command>; 2]) -> io::Result<()> {
    const MOST: usize = 24;
    let [left, right] = seen;
    let title = |i: usize| format!("look-up of fish {} ({} commands)", fish[i], seen[i].len());
    writeln!(out, "\nThe commands that the host saw:\n")?;
    writeln!(out, "  {:<40}{}", title(0), title(1))?;
    let lines = left.len().max(right.len());
    for line in 0..lines.min(MOST) {
        writeln!(out, "{}", beside(left.get(line), right.get(line)))?;
    }
    if lines > MOST {
        writeln!(out, "  .. and {} lines more", lines - MOST)?;
    }
    writeln!(
        out,
        "\nPartitions and slots are drawn anew for each look-up; how many there\n\
         are comes from how full the partitions happen to be, not from the fish."
    )
}

/// Looks some fish up, each of which is looked at for a while, with so many jobs
/// left to be run meanwhile; tells for how many commands a look-up waits.
fn look_at(reader: &mut Store, fish: &[usize], left: usize) -> Result<Wait, Box<dyn Error>> {
    reader.leave_jobs(left);
    reader.take_waits();
    for &fish in fish {
        let contents = reader.read(fish)?.contents;
        assert_eq!(contents, record(fish), "the host brings what was written");
        reader.settle()?;
    }
    Ok(reader.waits().returned())
}

/// Shows for how many commands look-ups wait, with their jobs run at once and with
/// jobs left for when nobody waits.
fn show_waits(out: &mut impl Write, reader: &mut Store) -> Result<(), Box<dyn Error>> {
    let whole = look_at(reader, &[77, 1234, 2048, 5, 4001, 903, 17, 3210], 0)?;
    let left = look_at(reader, &[3, 2999, 512, 1234, 40, 3333, 1601, 77], 2)?;
    writeln!(
        out,
        "\nEight fish, one after the other. For each the reader waits\n"
    )?;
    let (now, later) = (
        "if it runs jobs at once:",
        "if they run while the fish is looked at:",
    );
    writeln!(out, "  {now:<40} {whole}\n  {later:<40} {left}")?;
    Ok(())
}

/// Shows the page of the store with its partitions cut, and says what its last
/// line does.
fn show_page(out: &mut impl Write, summary: &Summary) -> io::Result<()> {
    const MOST: usize = 4;
    let (page, partitions) = (summary.to_string(), summary.partitions().len());
    writeln!(
        out,
        "\nThe page of the store, to be pinned up where the host does not see it: of each\n\
         partition its counter, the fish stored and waiting, and the queued jobs.\n"
    )?;
    let cut = format!(".. and {} partitions more", partitions - MOST);
    let last = page.lines().skip(partitions);
    for line in page.lines().take(MOST).chain([cut.as_str()]).chain(last) {
        writeln!(out, "  {line}")?;
    }
    let (stored, waiting) = (summary.stored(), summary.waiting());
    writeln!(
        out,
        "\n{stored} fish are in the file, and {waiting} wait in the reader's cache."
    )
}

/// Shows where the look-ups found their fish: nowhere while the fish were stored,
/// as each was new then.
fn show_tally(out: &mut impl Write, tally: &Tally) -> io::Result<()> {
    writeln!(
        out,
        "\nWhere the look-ups found their fish, which is not for the host either:\n\n  {tally}"
    )
}

/// A store whose host is a file, and what that sees is noted.
type Store = Reader<Recorded<FileHost>>;

/// Stores the fish in a new file and looks some of them up.
pub fn run(path: &Path, out: &mut impl Write) -> Result<(), Box<dyn Error>> {
    let shape = Shape::hiding(FISH, BYTES)?;
    let host = FileHost::create(path, shape).map_err(|e| format!("{}: {e}", path.display()))?;
    let mut reader = Reader::open(shape, Recorded::new(host))?;
    let progress = Progress::to_stderr("storing fish", FISH);
    let stored = reader.write_all_with((0..FISH).map(record), progress.into_callback())?;
    let commands = reader.host_mut().take().len();
    writeln!(out, "{stored} fish stored with {commands} commands")?;

    let fish = [1234, 17];
    let mut seen = [Vec::new(), Vec::new()];
    for (fish, seen) in fish.into_iter().zip(&mut seen) {
        let contents = reader.read(fish)?.contents;
        assert_eq!(contents, record(fish), "the host brings what was written");
        writeln!(out, "fish {fish}: {}", described(&contents))?;
        *seen = reader.host_mut().take();
    }
    show(out, fish, &seen)?;
    show_waits(out, &mut reader)?;
    show_page(out, &reader.summary())?;
    show_tally(out, reader.tally())?;
    Ok(())
}

/// What failed, and why.
pub fn told(error: &dyn Error) -> String {
    let (mut told, mut cause) = (error.to_string(), error.source());
    while let Some(error) = cause {
        told = format!("{told}: {error}");
        cause = error.source();
    }
    told
}

fn main() -> ExitCode {
    let asked = std::env::args_os().nth(1).map(PathBuf::from);
    let name = format!("rinwolfedd-genotypes-{}", std::process::id());
    let path = asked
        .clone()
        .unwrap_or_else(|| std::env::temp_dir().join(name));
    let result = run(&path, &mut io::stdout());
    if asked.is_none() {
        let _ = std::fs::remove_file(&path);
    }
    match result {
        Ok(()) => ExitCode::SUCCESS,
        Err(error) => {
            eprintln!("{}", told(&*error));
            ExitCode::FAILURE
        }
    }
}

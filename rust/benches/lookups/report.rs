//! The tables, and their place in docs/MEASUREMENTS.md.

use crate::Row;
use crate::gathered::Gathered;
use crate::pages::{Page, Pages};
use crate::reader::Look;
use crate::saves::Saves;
use crate::waits::Stream;
use plain::shape::Shape;
use rinwolfedd::Waits;
use std::io;
use std::path::Path;

/// The lines between which the tables stand.
const BEGIN: &str = "<!-- written by cargo bench: begin -->\n";
const END: &str = "<!-- written by cargo bench: end -->\n";

/// The processor's name and how many cores there are.
fn machine() -> String {
    let info = std::fs::read_to_string("/proc/cpuinfo").unwrap_or_default();
    let line = info.lines().find(|line| line.starts_with("model name"));
    let name = line.and_then(|line| line.split(':').nth(1));
    let cores = std::thread::available_parallelism().map_or(1, |cores| cores.get());
    let name = name.unwrap_or("unknown processor").trim();
    let system = format!("{}, {}", std::env::consts::ARCH, std::env::consts::OS);
    format!("{name}, {cores} cores, {system}")
}

fn table(rows: &[Row]) -> String {
    let mut text = String::new();
    text += "| N | P | L | B | commands | waiting | memory: proved | plain | ratio | nothing: proved | plain | ratio |\n";
    text += "|--:|--:|--:|--:|--:|--:|--:|--:|--:|--:|--:|--:|\n";
    for row in rows {
        let (h, a, b) = (row.shape, row.memory, row.nothing);
        text += &format!(
            "| {} | {} | {} | {} | {:.1} | {:.1} | {:.1} | {:.1} | {:.2} | {:.1} | {:.1} | {:.2} |\n",
            h.blocks,
            h.partitions,
            h.levels,
            h.bytes,
            row.commands,
            row.waiting,
            a.proved,
            a.plain,
            a.ratio(),
            b.proved,
            b.plain,
            b.ratio(),
        );
    }
    text
}

/// How the ratio and the commands go from the first row to the last.
fn growth(rows: &[Row]) -> String {
    let (Some(first), Some(last)) = (rows.first(), rows.last()) else {
        return String::new();
    };
    format!(
        "From N = {} to N = {}: the ratio goes from {:.2} to {:.2} (host in memory) and from {:.2} to {:.2} (host that does nothing), the commands of a look-up from {:.1} to {:.1}.\n",
        first.shape.blocks,
        last.shape.blocks,
        first.memory.ratio(),
        last.memory.ratio(),
        first.nothing.ratio(),
        last.nothing.ratio(),
        first.commands,
        last.commands,
    )
}

/// Look-ups through the reader.
fn reader(looks: &[Look]) -> String {
    let mut text = String::from("| N | P | L | B | host in memory | host in a file |\n");
    text += "|--:|--:|--:|--:|--:|--:|\n";
    for look in looks {
        let h = look.shape;
        text += &format!(
            "| {} | {} | {} | {} | {:.1} | {:.1} |\n",
            h.blocks, h.partitions, h.levels, h.bytes, look.memory, look.file
        );
    }
    text
}

/// A row: a shape, two columns that are told, and for how many commands look-ups
/// waited.
fn waiting(h: Shape, told: &str, waits: &Waits) -> String {
    let (contents, returned) = (waits.contents(), waits.returned());
    format!(
        "| {} | {} | {} | {} | {told} | {:.1} | {} | {:.1} | {} |\n",
        h.blocks,
        h.partitions,
        h.levels,
        h.bytes,
        contents.mean(),
        contents.most(),
        returned.mean(),
        returned.most(),
    )
}

/// For how many commands look-ups wait.
pub fn waits(streams: &[Stream]) -> String {
    let mut text = String::new();
    text += "| N | P | L | B | jobs left | pause | contents: mean | most | return: mean | most |\n";
    text += "|--:|--:|--:|--:|--:|--:|--:|--:|--:|--:|\n";
    for stream in streams {
        let told = format!("{} | {}", stream.left, stream.pause);
        text += &waiting(stream.shape, &told, &stream.waits);
    }
    text
}

/// How many commands look-ups send in all, and for how many they wait, if jobs
/// gather.
pub fn gathered(all: &[Gathered]) -> String {
    let mut text = String::new();
    text += "| N | P | L | B | jobs gathered | commands | contents: mean | most | return: mean | most |\n";
    text += "|--:|--:|--:|--:|--:|--:|--:|--:|--:|--:|\n";
    for one in all {
        let told = format!("{} | {:.1}", one.jobs, one.commands);
        text += &waiting(one.shape, &told, &one.waits);
    }
    text
}

/// Pages in microseconds, and in nanoseconds for each block.
fn table_of_pages(pages: &[Page]) -> String {
    let mut text = String::new();
    text += "| N | P | L | B | proved | plain | ratio | ns per block | as text | as figures |\n";
    text += "|--:|--:|--:|--:|--:|--:|--:|--:|--:|--:|\n";
    for page in pages {
        let (h, times) = (page.shape, page.times);
        text += &format!(
            "| {} | {} | {} | {} | {:.2} | {:.2} | {:.2} | {:.1} | {:.2} | {:.2} |\n",
            h.blocks,
            h.partitions,
            h.levels,
            h.bytes,
            times.proved / 1e3,
            times.plain / 1e3,
            times.ratio(),
            times.proved / h.blocks as f64,
            page.text / 1e3,
            page.figures / 1e3,
        );
    }
    text
}

/// What one more of a number costs the proved page, from the first row to the
/// last.
fn one_more(pages: &[Page], name: &str, number: fn(&Shape) -> usize) -> String {
    let (Some(first), Some(last)) = (pages.first(), pages.last()) else {
        return String::new();
    };
    let more = number(&last.shape) - number(&first.shape);
    let each = (last.times.proved - first.times.proved) / more as f64;
    format!("A {name} more costs the proved page {each:.1} ns.\n")
}

fn pages(pages: &Pages) -> String {
    format!(
        "Pages, in microseconds each:\n\n{}\n\
         P alone grows; N = 1024, L = 8 and B = 64 throughout:\n\n{}\n{}\n\
         N alone grows; P = 64, L = 8 and B = 64 throughout:\n\n{}\n{}",
        table_of_pages(&pages.shapes),
        table_of_pages(&pages.partitions),
        one_more(&pages.partitions, "partition", |h| h.partitions),
        table_of_pages(&pages.blocks),
        one_more(&pages.blocks, "block", |h| h.blocks),
    )
}

/// Saves and loads in microseconds, beside a copy of as many bytes.
pub fn saves(all: &[Saves]) -> String {
    let mut text = String::new();
    text += "| N | P | L | B | waiting | form | copy | save | save / copy | load | load / copy | plain save | plain load |\n";
    text += "|--:|--:|--:|--:|--:|--:|--:|--:|--:|--:|--:|--:|--:|\n";
    for saves in all {
        let h = saves.shape;
        text += &format!(
            "| {} | {} | {} | {} | {} | {} | {:.2} | {:.2} | {:.1} | {:.2} | {:.1} | {:.1} | {:.1} |\n",
            h.blocks,
            h.partitions,
            h.levels,
            h.bytes,
            saves.waiting,
            saves.length,
            saves.copy / 1e3,
            saves.save / 1e3,
            saves.save / saves.copy,
            saves.load / 1e3,
            saves.load / saves.copy,
            saves.plain_save / 1e3,
            saves.plain_load / 1e3,
        );
    }
    text
}

/// All that is measured.
pub struct Measured {
    pub shapes: Vec<Row>,
    pub growing: Vec<Row>,
    pub looks: Vec<Look>,
    pub streams: Vec<Stream>,
    pub gathered: Vec<Gathered>,
    pub pages: Pages,
    pub saves: Vec<Saves>,
}

pub fn text(all: &Measured) -> String {
    format!(
        "Machine: {}.\n\n{}\n{}\nN alone grows; P = 64, L = 8 and B = 64 throughout:\n\n{}\n{}\n\
         Look-ups through the reader, in microseconds each:\n\n{}\n\
         Commands for which look-ups through the reader wait, of those asked one after the other:\n\n{}\n\
         Commands of a look-up through the reader, those of its jobs among them, if jobs gather:\n\n{}\n{}\n\
         Saves and loads, in microseconds each, of a store after look-ups and of the longest form:\n\n{}",
        machine(),
        table(&all.shapes),
        growth(&all.shapes),
        table(&all.growing),
        growth(&all.growing),
        reader(&all.looks),
        waits(&all.streams),
        gathered(&all.gathered),
        pages(&all.pages),
        saves(&all.saves),
    )
}

/// Puts the text between the file's marks.
pub fn put(path: &Path, text: &str) -> io::Result<()> {
    let all = std::fs::read_to_string(path)?;
    let parts = all
        .split_once(BEGIN)
        .and_then(|(before, rest)| Some((before, rest.split_once(END)?.1)));
    let Some((before, after)) = parts else {
        let what = format!("{} lacks the marks of the tables", path.display());
        return Err(io::Error::new(io::ErrorKind::InvalidData, what));
    };
    std::fs::write(path, format!("{before}{BEGIN}\n{text}\n{END}{after}"))
}

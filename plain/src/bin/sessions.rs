//! Writes random sessions with their outcomes for the proof checker, to the
//! directory named by the first argument. Among many seeds it chooses those
//! whose sessions tell the planted mistakes from the right rules: first by the
//! rules of document 01, then by where blocks are found (document 02, P2), by
//! which words draws pass over (P3), by look-ups while a partition is rebuilt
//! (P4) and by jobs of one partition that run together (P7). Of some it also
//! writes the reads told for each request (P6).

use plain::antt::{self, reads};
use plain::calls::Store;
use plain::choose::{Group, Kind, Plan, Session};
use plain::marks::{DRAW_MARKS, FOUND_MARKS, Mark};
use plain::mistakes::Mistake;
use plain::releases::{Case, Releases, Taken};
use plain::shape::Shape;
use plain::situations::Situation;
use plain::told;
use std::path::Path;
use std::process::ExitCode;

const PLANS: [Plan; 7] = [
    (Shape::new(1, 1, 1, 1, 1, 1), None, 44),
    (
        Shape::new(2, 2, 1, 2, 1, 2),
        Some(Shape::new(3, 1, 3, 1, 3, 2)),
        66,
    ),
    (Shape::new(2, 1, 2, 1, 1, 2), None, 60),
    (Shape::new(4, 2, 2, 1, 4, 2), None, 80),
    (Shape::new(3, 2, 2, 2, 2, 3), None, 80),
    (Shape::new(4, 1, 3, 1, 3, 3), None, 84),
    (Shape::new(8, 4, 2, 1, 8, 3), None, 70),
];

/// Those of the sessions for where blocks are found. Jobs that hold a request
/// and move its block to other levels are more than may be joined, which comes
/// late.
const FOUND_PLANS: [Plan; 2] = [
    (Shape::new(1, 2, 3, 1, 1, 3), None, 68),
    (Shape::new(3, 2, 2, 1, 3, 2), None, 74),
];

/// That of the session for draws: its orders have up to eight slots.
const DRAW_PLANS: [Plan; 1] = [(Shape::new(1, 1, 3, 1, 1, 3), None, 56)];

/// Those of the sessions for look-ups while a partition is rebuilt. Beside the
/// sources there is a higher level only if there are three.
const BESIDE_PLANS: [Plan; 3] = [
    (Shape::new(4, 1, 3, 1, 4, 3), None, 84),
    (Shape::new(4, 2, 2, 1, 4, 3), None, 70),
    (Shape::new(2, 2, 2, 1, 2, 2), None, 56),
];

/// Those of the sessions for jobs that run together. Several levels with blocks
/// need three levels; a full partition needs as many blocks as there may be.
const TOGETHER_PLANS: [Plan; 2] = [
    (Shape::new(4, 2, 2, 1, 4, 2), None, 76),
    (Shape::new(8, 2, 3, 1, 8, 3), None, 92),
];

const SEEDS: u64 = 3000;
/// Few sessions have all marks of draws, or many of look-ups beside rebuilds.
const MORE_SEEDS: u64 = 9000;
const MOST_SEEDS: u64 = 20_000;
const MOST_LINES: usize = 399;
/// The sessions whose reads are written.
const READ_SESSIONS: usize = 4;

/// What is to be met in these.
const CASES: [(Case, &str); 8] = [
    (Case::OwnInSource, "own slot in a source"),
    (Case::EarlyBlock, "another block of a source"),
    (Case::EarlyDummy, "dummy of a source"),
    (
        Case::OwnReadBefore,
        "block read by the job, another item read",
    ),
    (Case::OwnSpent, "block read by the job, no item unread"),
    (Case::Spent, "source with none unread"),
    (Case::OwnUnmarked, "own slot in another level"),
    (Case::Dummy, "dummy of another level"),
];

/// The numbers that have to occur; 7 needs 63 jobs queued.
const NUMBERS: [u8; 15] = [0, 1, 2, 3, 4, 5, 6, 8, 9, 10, 11, 12, 13, 14, 15];

fn groups() -> [Group; 5] {
    let first = Group {
        plans: &PLANS,
        kind: Kind::Any,
        seeds: SEEDS,
        mistakes: Mistake::BASE.to_vec(),
        marks: NUMBERS.map(Mark::Number).to_vec(),
    };
    let found = Group {
        plans: &FOUND_PLANS,
        kind: Kind::Any,
        seeds: MORE_SEEDS,
        mistakes: Mistake::FOUND.to_vec(),
        marks: FOUND_MARKS.to_vec(),
    };
    let draws = Group {
        plans: &DRAW_PLANS,
        kind: Kind::Any,
        seeds: MORE_SEEDS,
        mistakes: Mistake::DRAWS.to_vec(),
        marks: DRAW_MARKS.to_vec(),
    };
    let beside = Group {
        plans: &BESIDE_PLANS,
        kind: Kind::Beside,
        seeds: MOST_SEEDS,
        mistakes: Mistake::BESIDE.to_vec(),
        marks: Situation::BESIDE.map(Mark::Met).to_vec(),
    };
    let together = Group {
        plans: &TOGETHER_PLANS,
        kind: Kind::Together,
        seeds: MOST_SEEDS,
        mistakes: Mistake::TOGETHER.to_vec(),
        marks: Situation::TOGETHER.map(Mark::Met).to_vec(),
    };
    [first, found, draws, beside, together]
}

/// The sessions of all groups, one after the other.
fn choose() -> Result<Vec<Session>, String> {
    let mut all = Vec::new();
    for group in groups() {
        let chosen = group.choose(Vec::new());
        group.complete(&chosen)?;
        all.extend(chosen);
    }
    Ok(all)
}

/// The files' texts, each with as many sessions as its lines allow, and the
/// file's number of each session.
fn files(sessions: &[Session]) -> (Vec<String>, Vec<usize>) {
    let lines = |part: &str| part.lines().count();
    let mut files = vec![String::new()];
    let mut of = Vec::new();
    for (index, session) in sessions.iter().enumerate() {
        let name = format!("session{index}");
        let text = antt::session(&name, &session.calls, &session.outcomes);
        let last = files.len() - 1;
        if antt::HEADER_LINES + lines(&files[last]) + 1 + lines(&text) > MOST_LINES {
            files.push(String::new());
        }
        let last = files.len() - 1;
        files[last] += "\n";
        files[last] += &text;
        of.push(last);
    }
    let whole = |text: String| antt::header("sessions", &text) + &text;
    (files.into_iter().map(whole).collect(), of)
}

fn file_name(number: usize) -> String {
    let letter = ('A'..='Z').nth(number).unwrap_or('Z');
    format!("Sessions{letter}")
}

/// Which of the cases are met in the reads of a session.
fn cases(session: &Session) -> Vec<(Case, &'static str)> {
    let mut store = Store::new(Mistake::None);
    let mut releases = Releases::new(Taken::AtRelease);
    for call in &session.calls {
        let outcome = store.call(call);
        let told = releases.call(call, &outcome, store.state.as_ref());
        told.expect("the reads are those of the list");
    }
    let met = |(case, _): &(Case, &str)| releases.times.contains_key(case);
    CASES.into_iter().filter(met).collect()
}

/// The reads of some sessions in which those of every released request are
/// sent: one after the other that in which most is met that was not before.
fn read(sessions: &[Session], file_of: &[usize]) -> Result<Vec<reads::Told>, String> {
    let told = |number: usize| Some((number, told::reads(&sessions[number].calls)?));
    let mut left: Vec<_> = (0..sessions.len()).filter_map(told).collect();
    let mut unmet = CASES.to_vec();
    let mut chosen = Vec::new();
    while chosen.len() < READ_SESSIONS && !unmet.is_empty() && !left.is_empty() {
        let new = |number: usize| {
            let met = cases(&sessions[number]);
            met.iter().filter(|case| unmet.contains(case)).count()
        };
        let best = (0..left.len()).max_by_key(|at| new(left[*at].0));
        let (number, reads) = left.remove(best.unwrap_or(0));
        let met = cases(&sessions[number]);
        unmet.retain(|case| !met.contains(case));
        let words: Vec<&str> = met.iter().map(|(_, words)| *words).collect();
        chosen.push(reads::Told {
            number,
            file: file_name(file_of[number]),
            met: words.join("; "),
            reads,
        });
    }
    chosen.sort_by_key(|told| told.number);
    match unmet.is_empty() {
        true => Ok(chosen),
        false => Err(format!("not met in the reads: {unmet:?}")),
    }
}

fn print_told(sessions: &[Session]) {
    for (index, session) in sessions.iter().enumerate() {
        let Session { shape, calls, .. } = session;
        println!("session{index}: {} calls, {shape:?}", calls.len());
    }
    let saved = |mistake: &Mistake| Mistake::SAVED.contains(mistake);
    for mistake in Mistake::ALL.into_iter().filter(|m| !saved(m)) {
        let told = those(sessions, |session| session.told.contains(&mistake));
        println!("{mistake:?}: told by sessions {told:?}");
    }
    let met = Situation::ALL.map(Mark::Met);
    for mark in FOUND_MARKS.into_iter().chain(DRAW_MARKS).chain(met) {
        let marked = those(sessions, |session| session.marks.contains(&mark));
        let times = sessions
            .iter()
            .flat_map(|s| &s.marks)
            .filter(|m| **m == mark)
            .count();
        println!("{mark:?}: {times} times, in sessions {marked:?}");
    }
}

/// The numbers of the sessions of which this holds.
fn those(sessions: &[Session], holds: impl Fn(&Session) -> bool) -> Vec<usize> {
    let all = 0..sessions.len();
    all.filter(|index| holds(&sessions[*index])).collect()
}

fn write(directory: &str, sessions: &[Session]) -> Result<(), String> {
    let (texts, file_of) = files(sessions);
    for (number, text) in texts.iter().enumerate() {
        write_file(directory, &file_name(number), text)?;
    }
    let read = read(sessions, &file_of)?;
    write_file(directory, "Reads", &reads::text(&read))
}

fn write_file(directory: &str, name: &str, text: &str) -> Result<(), String> {
    let path = Path::new(directory).join(format!("{name}.antt"));
    let written = std::fs::write(&path, text);
    written.map_err(|error| format!("{}: {error}", path.display()))?;
    println!("{}: {} lines", path.display(), text.lines().count());
    Ok(())
}

fn main() -> ExitCode {
    let Some(directory) = std::env::args().nth(1) else {
        eprintln!("usage: sessions DIRECTORY");
        return ExitCode::FAILURE;
    };
    let done = choose().and_then(|sessions| {
        print_told(&sessions);
        write(&directory, &sessions)
    });
    match done {
        Ok(()) => ExitCode::SUCCESS,
        Err(error) => {
            eprintln!("{error}");
            ExitCode::FAILURE
        }
    }
}

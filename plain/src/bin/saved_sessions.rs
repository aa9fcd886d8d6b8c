//! Writes sessions with saves and loads (document 02, P5) with their outcomes
//! for the proof checker, to SessionsSaved.antt in the directory named by the
//! first argument. Some are made for what is seldom met; the others are chosen
//! among many seeds.

use plain::antt;
use plain::choose::{Group, Kind, Plan, Session};
use plain::marks::Mark;
use plain::mistakes::Mistake;
use plain::saves::Saved;
use plain::script::Script;
use plain::shape::Shape;
use std::path::Path;
use std::process::ExitCode;

const PLANS: [Plan; 3] = [
    (Shape::new(2, 2, 2, 1, 2, 2), None, 40),
    (
        Shape::new(4, 2, 2, 1, 3, 2),
        Some(Shape::new(2, 2, 1, 2, 2, 1)),
        24,
    ),
    (
        Shape::new(2, 1, 2, 2, 2, 2),
        Some(Shape::new(3, 1, 3, 1, 2, 2)),
        24,
    ),
];

const SEEDS: u64 = 12_000;

fn sessions() -> Result<Vec<Session>, String> {
    let group = Group {
        plans: &PLANS,
        kind: Kind::Saving,
        seeds: SEEDS,
        mistakes: Mistake::SAVED.to_vec(),
        marks: Saved::ALL.map(Mark::Saved).to_vec(),
    };
    let made = [Script::refusals(), Script::later(), Script::two_blocks()];
    let made = made.map(|script| Session::new(script.shape(), script, &Mistake::SAVED));
    let sessions = group.choose(made.into());
    group.complete(&sessions)?;
    Ok(sessions)
}

fn text(sessions: &[Session]) -> String {
    let texts = sessions.iter().enumerate().map(|(index, session)| {
        let name = format!("saved{index}");
        let text = antt::session(&name, &session.calls, &session.outcomes);
        format!("\n{text}")
    });
    let all: String = texts.collect();
    antt::header("saved_sessions", &all) + &all
}

/// The numbers of the sessions of which this holds.
fn those(sessions: &[Session], holds: impl Fn(&Session) -> bool) -> Vec<usize> {
    let all = 0..sessions.len();
    all.filter(|index| holds(&sessions[*index])).collect()
}

fn print_sessions(sessions: &[Session]) {
    for (index, session) in sessions.iter().enumerate() {
        let Session { shape, calls, .. } = session;
        println!("saved{index}: {} calls, {shape:?}", calls.len());
    }
}

fn print_told(sessions: &[Session]) {
    for mistake in Mistake::SAVED {
        let told = those(sessions, |session| session.told.contains(&mistake));
        println!("{mistake:?}: told by sessions {told:?}");
    }
}

fn print_met(sessions: &[Session]) {
    for mark in Saved::ALL.map(Mark::Saved) {
        let marked = those(sessions, |session| session.marks.contains(&mark));
        println!("{mark:?}: in sessions {marked:?}");
    }
}

fn write(directory: &str, text: &str) -> Result<(), String> {
    let path = Path::new(directory).join("SessionsSaved.antt");
    let written = std::fs::write(&path, text);
    written.map_err(|error| format!("{}: {error}", path.display()))?;
    println!("{}: {} lines", path.display(), text.lines().count());
    Ok(())
}

fn main() -> ExitCode {
    let Some(directory) = std::env::args().nth(1) else {
        eprintln!("usage: saved_sessions DIRECTORY");
        return ExitCode::FAILURE;
    };
    let done = sessions().and_then(|sessions| {
        print_sessions(&sessions);
        print_told(&sessions);
        print_met(&sessions);
        write(&directory, &text(&sessions))
    });
    match done {
        Ok(()) => ExitCode::SUCCESS,
        Err(error) => {
            eprintln!("{error}");
            ExitCode::FAILURE
        }
    }
}

//! Writes a random session to standard output: `sessions_in SEED LINES`.

use plain::random_session;
use std::io::{Write, stdout};
use std::process::ExitCode;

fn main() -> ExitCode {
    let numbers: Vec<u64> = std::env::args()
        .skip(1)
        .filter_map(|a| a.parse().ok())
        .collect();
    let [seed, length] = numbers[..] else {
        eprintln!("usage: sessions_in SEED LINES");
        return ExitCode::FAILURE;
    };
    let text = random_session::text(seed, length as usize);
    match stdout().write_all(&text) {
        Ok(()) => ExitCode::SUCCESS,
        Err(_) => ExitCode::FAILURE,
    }
}

//! The session program: lines on standard input, answers on standard output.

use plain::mistakes::Mistake;
use plain::session::{Session, run};
use std::io::{Write, stderr, stdin, stdout};
use std::process::ExitCode;

fn main() -> ExitCode {
    let mut session = Session::new(Mistake::None);
    match run(&mut session, stdin().lock(), stdout().lock()) {
        Ok(()) => ExitCode::SUCCESS,
        Err(error) => {
            let _ = writeln!(stderr(), "session: {error}");
            ExitCode::FAILURE
        }
    }
}

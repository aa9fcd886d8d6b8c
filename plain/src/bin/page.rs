//! The page program: a session on standard input, and at its end the page of
//! its store on standard output. The answers to the lines go nowhere.

use plain::mistakes::Mistake;
use plain::session::{Session, run};
use std::io::{Result, Write, sink, stdin, stdout};

fn main() -> Result<()> {
    let mut session = Session::new(Mistake::None);
    run(&mut session, stdin().lock(), sink())?;
    let mut output = stdout().lock();
    output.write_all(session.page().as_bytes())?;
    output.flush()
}

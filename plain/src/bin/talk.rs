//! Talks byte by byte with a session program, `talk session PROGRAM INPUT`, or
//! with a page program, `talk page PROGRAM INPUT`. Of a session each answer
//! must come after its line's newline and before anything more is sent; the
//! page must not come before the session's end. After a malformed line the
//! program has to end though its input stays open.

use plain::mistakes::Mistake;
use plain::session::Session;
use std::io::{BufRead, BufReader, Write};
use std::process::{Child, ChildStdin, Command, ExitCode, Stdio};
use std::sync::mpsc::{Receiver, RecvTimeoutError, channel};
use std::thread;
use std::time::Duration;

const PATIENCE: Duration = Duration::from_secs(5);
const BETWEEN_BYTES: Duration = Duration::from_millis(1);
/// How long an answer may try to come before its newline.
const BEFORE_NEWLINE: Duration = Duration::from_millis(10);

/// What the program prints of a session.
#[derive(Clone, Copy)]
enum Prints {
    Answers,
    Page,
}

impl Prints {
    /// The text after a line whose answer is this.
    fn after_line(self, answer: String) -> String {
        match self {
            Prints::Answers => answer,
            Prints::Page => String::new(),
        }
    }

    /// The text once the session has ended.
    fn at_end(self, session: &Session) -> String {
        match self {
            Prints::Answers => String::new(),
            Prints::Page => session.page(),
        }
    }
}

/// The program's output, line by line as it comes.
fn lines_of(child: &mut Child) -> Option<Receiver<Vec<u8>>> {
    let mut output = BufReader::new(child.stdout.take()?);
    let (sender, receiver) = channel();
    thread::spawn(move || {
        let mut line = Vec::new();
        while let Ok(1..) = output.read_until(b'\n', &mut line) {
            if sender.send(std::mem::take(&mut line)).is_err() {
                return;
            }
        }
    });
    Some(receiver)
}

fn send(input: &mut ChildStdin, line: &[u8]) -> Result<(), String> {
    for byte in line {
        let sent = input.write_all(&[*byte]).and_then(|()| input.flush());
        sent.map_err(|error| format!("the program doesn't read on: {error}"))?;
        thread::sleep(BETWEEN_BYTES);
    }
    Ok(())
}

/// The program prints these lines next.
fn expect(printed: &Receiver<Vec<u8>>, wanted: &str) -> Result<(), String> {
    for wanted in wanted.split_inclusive('\n') {
        match printed.recv_timeout(PATIENCE) {
            Ok(line) if line == wanted.as_bytes() => {}
            Ok(line) => return Err(format!("prints {:?}, not {wanted:?}", text(&line))),
            Err(_) => return Err(format!("doesn't print {wanted:?}")),
        }
    }
    Ok(())
}

fn expect_end(printed: &Receiver<Vec<u8>>, wanted: &str) -> Result<(), String> {
    expect(printed, wanted)?;
    match printed.recv_timeout(PATIENCE) {
        Err(RecvTimeoutError::Disconnected) => Ok(()),
        Err(RecvTimeoutError::Timeout) => Err("the program doesn't end".to_string()),
        Ok(line) => Err(format!("prints {:?} at its end", text(&line))),
    }
}

fn text(line: &[u8]) -> String {
    String::from_utf8_lossy(line).to_string()
}

/// Sends the lines; the input is closed at the end, or stays open if a
/// malformed line has to end the session.
fn talk(child: &mut Child, lines: &[u8], prints: Prints) -> Result<(), String> {
    let printed = lines_of(child).ok_or("no output")?;
    let mut input = child.stdin.take().ok_or("no input")?;
    let mut session = Session::new(Mistake::None);
    for line in lines.split_inclusive(|byte| *byte == b'\n') {
        let ended = line.strip_suffix(b"\n");
        let line = ended.unwrap_or(line);
        send(&mut input, line)?;
        if let Ok(early) = printed.recv_timeout(BEFORE_NEWLINE) {
            return Err(format!("prints {:?} before a newline", text(&early)));
        }
        if ended.is_none() {
            break;
        }
        send(&mut input, b"\n")?;
        let Some(answer) = session.line(line) else {
            return expect_end(&printed, &prints.at_end(&session));
        };
        expect(&printed, &prints.after_line(answer))?;
    }
    drop(input);
    expect_end(&printed, &prints.at_end(&session))
}

fn start(program: &str, input: &str, prints: Prints) -> Result<(), String> {
    let lines = std::fs::read(input).map_err(|error| format!("{input}: {error}"))?;
    let mut child = Command::new(program)
        .stdin(Stdio::piped())
        .stdout(Stdio::piped())
        .spawn()
        .map_err(|error| format!("{program}: {error}"))?;
    let done = talk(&mut child, &lines, prints);
    if done.is_err() {
        let _ = child.kill();
    }
    let _ = child.wait();
    done
}

fn main() -> ExitCode {
    let arguments: Vec<String> = std::env::args().skip(1).collect();
    let done = match arguments.as_slice() {
        [name, program, input] if name == "session" => start(program, input, Prints::Answers),
        [name, program, input] if name == "page" => start(program, input, Prints::Page),
        _ => Err("usage: talk session|page PROGRAM INPUT".to_string()),
    };
    match done {
        Ok(()) => ExitCode::SUCCESS,
        Err(error) => {
            eprintln!("talk: {error}");
            ExitCode::FAILURE
        }
    }
}

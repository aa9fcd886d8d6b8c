//! The session program of document 01, "A session, whole": lines in, answers
//! out, with a tape, a store and a host in memory.

use crate::calls::{Ask, Call, Outcome, Store};
use crate::form::longest;
use crate::host::Host;
use crate::mistakes::Mistake;
use crate::page::page;
use crate::shape::Shape;
use crate::situations::Watch;
use crate::state::{READ, State, WRITE};
use std::io::{BufRead, Read, Result, Write};

/// The words a T line has at most.
pub const MOST_WORDS: usize = 8192;
/// The pairs of hexadecimal digits that contents have at most.
pub const MOST_PAIRS: usize = 1024;
/// The longest well-formed line with its newline: T and 8,192 words of five
/// digits.
const LONGEST: u64 = 1 + 6 * MOST_WORDS as u64 + 1;

/// The blocks of the largest store that a session serves.
pub const MOST_BLOCKS: usize = 64;
/// The bytes in all slots of the largest store that a session serves.
pub const MOST_BYTES: usize = 16_384;

#[derive(Clone, Debug, PartialEq, Eq)]
pub enum Line {
    Tape(Vec<u16>),
    Open(Shape),
    Read(usize),
    Write(usize, Vec<u8>),
    Turn,
    Collect,
}

/// What a line without its newline says, or nothing if it is malformed.
pub fn parse(line: &[u8]) -> Option<Line> {
    let fields: Vec<&[u8]> = line.split(|byte| *byte == b' ').collect();
    match fields.as_slice() {
        [b"T", words @ ..] if words.len() <= MOST_WORDS => {
            let words: Option<Vec<u16>> = words.iter().map(|word| number(word)).collect();
            Some(Line::Tape(words?))
        }
        [b"O", n, p, l, b, e, w] => {
            let of = |field| number(field).map(usize::from);
            let shape = Shape::new(of(n)?, of(p)?, of(l)?, of(b)?, of(e)?, of(w)?);
            Some(Line::Open(shape))
        }
        [b"R", block] => Some(Line::Read(number(block)?.into())),
        [b"W", block, contents] => Some(Line::Write(number(block)?.into(), bytes(contents)?)),
        [b"t"] => Some(Line::Turn),
        [b"C"] => Some(Line::Collect),
        _ => None,
    }
}

/// Digits without a needless leading zero, at most 65,535.
fn number(field: &[u8]) -> Option<u16> {
    let leads = field.first() == Some(&b'0') && field.len() > 1;
    if leads || field.len() > 5 || !field.iter().all(u8::is_ascii_digit) {
        return None;
    }
    std::str::from_utf8(field).ok()?.parse().ok()
}

/// 1 to 1,024 pairs of lower-case hexadecimal digits.
fn bytes(field: &[u8]) -> Option<Vec<u8>> {
    let pairs = field.chunks_exact(2);
    let length = pairs.len();
    if !pairs.remainder().is_empty() || !(1..=MOST_PAIRS).contains(&length) {
        return None;
    }
    pairs
        .map(|pair| Some(16 * digit(pair[0])? + digit(pair[1])?))
        .collect()
}

fn digit(byte: u8) -> Option<u8> {
    match byte {
        b'0'..=b'9' => Some(byte - b'0'),
        b'a'..=b'f' => Some(byte - b'a' + 10),
        _ => None,
    }
}

pub fn hexadecimal(bytes: &[u8]) -> String {
    bytes.iter().map(|byte| format!("{byte:02x}")).collect()
}

pub fn is_served(shape: &Shape) -> bool {
    let slots = shape.partitions * ((2 << shape.levels) - 2);
    shape.blocks <= MOST_BLOCKS && slots * shape.bytes <= MOST_BYTES
}

pub struct Session {
    mistake: Mistake,
    /// Whether a line has been read, so that T comes too late.
    begun: bool,
    tape: Vec<u16>,
    /// How many words of the tape have been taken.
    taken: usize,
    store: Store,
    host: Host,
    /// Notes what is met, if anyone wants to know.
    pub watch: Option<Watch>,
}

impl Session {
    pub fn new(mistake: Mistake) -> Session {
        Session {
            mistake,
            begun: false,
            tape: Vec::new(),
            taken: 0,
            store: Store::new(mistake),
            host: Host::default(),
            watch: None,
        }
    }

    /// The store's state, once an O has been accepted.
    pub fn state(&self) -> Option<&State> {
        self.store.state.as_ref()
    }

    /// The page of the store, or no text before an O has been accepted.
    pub fn page(&self) -> String {
        self.state().map_or_else(String::new, page)
    }

    /// Saves the store and loads it, if it is at rest. The session prints no
    /// less and no other for it.
    pub fn reload(&mut self) -> bool {
        let at_rest = self.state().filter(|state| state.is_at_rest());
        let Some(shape) = at_rest.map(|state| state.shape) else {
            return false;
        };
        let ask = |ask| Call {
            ask,
            memory: shape.needed(),
            words: Vec::new(),
            buffer: longest(&shape),
        };
        let numbers = [Ask::Save, Ask::Reload].map(|one| self.store.call(&ask(one)).number);
        numbers == [0, 0]
    }

    /// The words left of the tape.
    pub fn left(&self) -> &[u16] {
        &self.tape[self.taken..]
    }

    /// The text printed for a line, or nothing if it is malformed and ends
    /// the session.
    pub fn line(&mut self, line: &[u8]) -> Option<String> {
        let first = !self.begun;
        self.begun = true;
        let ask = match parse(line)? {
            Line::Tape(words) if first => {
                self.tape = words;
                return Some(String::new());
            }
            Line::Tape(_) => return None,
            Line::Open(shape) => return Some(self.open(shape)),
            Line::Read(block) => request(READ, block, Vec::new()),
            Line::Write(block, contents) => request(WRITE, block, contents),
            Line::Turn => return Some(self.turn()),
            Line::Collect => Ask::Collect,
        };
        let outcome = self.call(ask);
        Some(match outcome.number {
            0 if outcome.bytes.is_empty() => "0\n".to_string(),
            0 => format!("0 {}\n", hexadecimal(&outcome.bytes)),
            number => format!("{number}\n"),
        })
    }

    /// A refused O leaves the session as it was.
    fn open(&mut self, shape: Shape) -> String {
        if shape.in_bounds() && !is_served(&shape) {
            return "2\n".to_string();
        }
        let mut store = Store::new(self.mistake);
        let memory = if shape.in_bounds() { shape.needed() } else { 0 };
        let outcome = store.call(&Call {
            ask: Ask::Open(shape),
            memory,
            words: self.left().to_vec(),
            buffer: 0,
        });
        if outcome.number == 0 {
            self.store = store;
            self.host = Host::default();
            self.taken += outcome.taken;
        }
        format!("{}\n", outcome.number)
    }

    /// A turn, then completion of its command.
    fn turn(&mut self) -> String {
        let outcome = self.call(Ask::Turn);
        if outcome.number != 0 {
            return format!("{}\n", outcome.number);
        }
        let sent = outcome.command;
        self.host.send(sent, outcome.bytes);
        let (command, bytes) = self.host.answer(0);
        self.host.done(command);
        let completed = self.call(Ask::Completion { command, bytes });
        assert_eq!(completed.number, 0, "{sent:?}");
        let kind = if sent.kind == READ { 'r' } else { 'w' };
        format!("0 {kind} {} {} {}\n", sent.partition, sent.level, sent.slot)
    }

    /// A call that is lent enough memory, buffers of B bytes and what is left
    /// of the tape.
    fn call(&mut self, ask: Ask) -> Outcome {
        let shape = self.state().map(|state| state.shape);
        let call = Call {
            ask,
            memory: shape.map_or(0, |shape| shape.needed()),
            words: self.left().to_vec(),
            buffer: shape.map_or(0, |shape| shape.bytes),
        };
        let outcome = match &mut self.watch {
            Some(watch) => watch.call(&mut self.store, &call),
            None => self.store.call(&call),
        };
        // A planted mistake may report more words than there are.
        self.taken = (self.taken + outcome.taken).min(self.tape.len());
        outcome
    }
}

fn request(kind: usize, block: usize, contents: Vec<u8>) -> Ask {
    Ask::Request {
        kind,
        block,
        contents,
    }
}

/// Answers each line before it reads on, until the input or the session ends.
pub fn run(session: &mut Session, mut input: impl BufRead, mut output: impl Write) -> Result<()> {
    let mut line = Vec::new();
    loop {
        line.clear();
        let mut limited = input.by_ref().take(LONGEST);
        limited.read_until(b'\n', &mut line)?;
        let ended = line.strip_suffix(b"\n");
        let Some(text) = ended.and_then(|line| session.line(line)) else {
            return Ok(());
        };
        output.write_all(text.as_bytes())?;
        output.flush()?;
    }
}

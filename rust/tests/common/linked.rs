//! The linked calls, made as the model's calls are: between canaries, with the
//! memory in place, and with what a refusal must leave watched.

use crate::convert;
use crate::lent::Lent;
use plain::calls::{Ask, Call, Outcome};
use plain::state::Command;
use rinwolfedd::calls::{self, Answer, STATE};

/// What the buffer lent to a call holds before it.
const BEFORE: u8 = 7;

/// The state and memory of one client, for calls one after the other.
pub struct Linked {
    pub state: Lent,
    pub memory: Lent,
    /// The form that the last call saved, or no bytes.
    saved: Vec<u8>,
}

impl Linked {
    /// A closed state, with as many bytes of memory as the calls will need.
    pub fn new(memory: usize) -> Linked {
        Linked {
            state: Lent::new(&[0; STATE]),
            memory: Lent::new(&vec![3; memory]),
            saved: Vec::new(),
        }
    }

    /// Makes one call on the first `call.memory` bytes, and answers what it
    /// reported with the buffer after it.
    pub fn call(&mut self, call: &Call) -> (Answer, Vec<u8>) {
        let saved = std::mem::take(&mut self.saved);
        let mut buffer = Lent::new(&vec![BEFORE; call.buffer]);
        let answer = match &call.ask {
            Ask::Save => {
                let (state, memory) = (self.state.bytes(), self.memory.bytes());
                calls::save(state, &memory[..call.memory], buffer.lend())
            }
            Ask::Load(form) => self.load(form, call.memory),
            Ask::Reload => self.load(&saved, call.memory),
            _ => self.draw(call, &mut buffer),
        };
        assert!(self.state.is_sound() && self.memory.is_sound() && buffer.is_sound());
        if call.ask == Ask::Save {
            self.saved = buffer.bytes()[..answer.length()].to_vec();
        }
        (answer, buffer.bytes().to_vec())
    }

    /// Loads a form that lies between canaries, too, and is only read.
    fn load(&mut self, form: &[u8], memory: usize) -> Answer {
        let lent = Lent::new(form);
        let (state, memory) = (self.state.lend(), self.memory.lend_first(memory));
        let answer = calls::load(state, memory, lent.bytes());
        assert!(lent.is_sound() && lent.bytes() == form);
        answer
    }

    /// One of the five calls of document 01.
    fn draw(&mut self, call: &Call, buffer: &mut Lent) -> Answer {
        let words = convert::tape(&call.words);
        let state = self.state.lend();
        let memory = self.memory.lend_first(call.memory);
        match &call.ask {
            Ask::Open(h) => calls::open(state, memory, convert::numbers(*h), words),
            Ask::Request {
                kind,
                block,
                contents,
            } => calls::request(state, memory, *kind, *block, contents, words),
            Ask::Turn => calls::turn(state, memory, words, buffer.lend()),
            Ask::Completion { command, bytes } => {
                let slot = [command.partition, command.level, command.slot];
                calls::completion(state, memory, command.kind, slot, bytes)
            }
            Ask::Collect => calls::collect(state, memory, buffer.lend()),
            Ask::Save | Ask::Load(_) | Ask::Reload => unreachable!("it is none of the five"),
        }
    }

    /// Makes the call and says where it departs from the model's outcome, or
    /// else the number and the command that it told. A save, and a call that is
    /// to be refused, must leave state and memory as they were, but for a refused
    /// open or load, which leaves a closed state; none may touch what it is not
    /// lent.
    pub fn compare(&mut self, call: &Call, outcome: &Outcome) -> Result<Outcome, String> {
        let keeps = outcome.number != 0 || call.ask == Ask::Save;
        let state = self.state.bytes().to_vec();
        let memory = match keeps {
            true => self.memory.bytes().to_vec(),
            false => Vec::new(),
        };
        let past = self.memory.bytes()[call.memory..].to_vec();
        let (answer, buffer) = self.call(call);
        let closes = matches!(call.ask, Ask::Open(_) | Ask::Load(_) | Ask::Reload);
        let kept = if closes { vec![0; STATE] } else { state };
        let all = [
            ("answer", same(answer, outcome)),
            ("buffer", buffer == filled(call, outcome)),
            ("unlent memory", self.memory.bytes()[call.memory..] == past),
            ("memory", !keeps || self.memory.bytes() == memory),
            ("state", !keeps || self.state.bytes() == kept),
        ];
        match all.iter().find(|(_, same)| !same) {
            None => Ok(Outcome {
                number: answer.number(),
                command: command(answer),
                ..Outcome::default()
            }),
            Some((what, _)) => Err(format!(
                "the {what} departs: {answer:?}, found {}, for {outcome:?}, after {call:?}",
                answer.found()
            )),
        }
    }
}

/// The answer is the outcome's in all its bits, and says so: number, words
/// taken or a form's length, command, and where a block was found. The bytes are
/// the buffer's to compare.
fn same(answer: Answer, outcome: &Outcome) -> bool {
    let (wanted, found) = (outcome.command, outcome.found.number());
    let length = outcome.taken + outcome.length; // one of them is 0
    let bits = usize::from(outcome.number)
        | wanted.kind << 5
        | wanted.partition << 7
        | wanted.level << 13
        | wanted.slot << 17
        | found << 28
        | length << 32;
    let told = usize::from(answer.found().number());
    let sent = command(answer);
    answer.bits() == bits as u64
        && (answer.number(), answer.length(), sent) == (outcome.number, length, wanted)
        && answer.taken() == length
        && told == found
}

/// The command of an answer as the model has it.
fn command(answer: Answer) -> Command {
    answer.command().map_or(Command::default(), |sent| Command {
        kind: sent.kind.number().into(),
        partition: sent.partition.into(),
        level: sent.level.into(),
        slot: sent.slot.into(),
    })
}

/// The buffer after a call by the model: what it hands out, at its start, and
/// else as it was.
fn filled(call: &Call, outcome: &Outcome) -> Vec<u8> {
    let mut filled = outcome.bytes.clone();
    filled.resize(filled.len().max(call.buffer), BEFORE);
    filled
}

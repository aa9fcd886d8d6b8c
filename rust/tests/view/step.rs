//! What the rules say of a call in every state that is in range.

use super::{Request, View, cells, slots};
use plain::calls::{Ask, Call, Draws, Outcome, ask};
use plain::found::Found;
use plain::shape::Shape;
use plain::state::{Command, READ, WRITE};

/// What a turn does next.
#[derive(Clone, Copy, Debug, PartialEq, Eq)]
enum Step {
    /// The request lacks an unread dummy.
    NoDummy,
    RequestRead(Command),
    JobRead(Command),
    /// The first write, for which the orders are drawn.
    Rebuild(Command),
    Write(Command),
}

/// The outcome of a call, and the state after it; a refusal leaves it as it was,
/// or closed if it is one of an open or a load. Without a state in range it is 2,
/// but for those. A load of what was just saved comes as the load of a form.
pub fn step(view: &mut Option<View>, call: &Call) -> Outcome {
    let mut bounds = Vec::new();
    let mut draws = Draws::new(&call.words, &mut bounds);
    let answer = match (&call.ask, &mut *view) {
        (Ask::Open(shape), _) => replaced(view, View::open(*shape, call.memory, &mut draws)),
        (Ask::Load(form), _) => replaced(view, View::load(form, call.memory)),
        (_, None) => Err(2),
        (_, Some(state)) if call.memory < state.shape.needed() => Err(2),
        (_, Some(state)) => state.call(call, &mut draws),
    };
    match answer {
        Ok((command, bytes, found)) => Outcome {
            number: 0,
            taken: draws.taken(),
            command,
            length: if call.ask == Ask::Save {
                bytes.len()
            } else {
                0
            },
            bytes,
            found,
        },
        Err(number) => Outcome {
            number,
            ..Outcome::default()
        },
    }
}

/// The state is another one, or closed.
fn replaced(view: &mut Option<View>, by: Result<View, u8>) -> Result<Handed, u8> {
    let number = by.as_ref().err().copied();
    *view = by.ok();
    number.map_or(Ok(Handed::default()), Err)
}

/// A command, what goes into the buffer, and where a block was found.
type Handed = (Command, Vec<u8>, Found);

impl View {
    fn open(shape: Shape, memory: usize, draws: &mut Draws) -> Result<View, u8> {
        ask(shape.in_bounds(), 1)?;
        ask(memory >= shape.needed(), 2)?;
        ask(draws.left() >= shape.blocks, 3)?;
        let n = shape.blocks;
        Ok(View {
            shape,
            partition: (0..n).map(|_| draws.below(shape.partitions)).collect(),
            place: vec![None; n],
            bytes: vec![vec![0; shape.bytes]; n],
            waiting: Vec::new(),
            counter: vec![0; shape.partitions],
            order: vec![0; cells(shape)],
            holds: vec![0; cells(shape)],
            mark: vec![0; cells(shape)],
            queue: Vec::new(),
            begun: 0,
            cursor: 0,
            sent: 0,
            outstanding: Vec::new(),
            request: None,
        })
    }

    /// After every accepted call a request is released that nothing holds.
    fn call(&mut self, call: &Call, draws: &mut Draws) -> Result<Handed, u8> {
        let handed = match &call.ask {
            Ask::Save => return Ok((Command::default(), self.save(call.buffer)?, Found::Nowhere)),
            Ask::Open(_) | Ask::Load(_) | Ask::Reload => unreachable!("they ask for no state"),
            Ask::Request {
                kind,
                block,
                contents,
            } => self.request(*kind, *block, contents, draws),
            Ask::Turn => self.turn(call.buffer, draws),
            Ask::Completion { command, bytes } => self.completion(*command, bytes),
            Ask::Collect => self.collect(call.buffer),
        }?;
        self.release();
        Ok(handed)
    }

    fn request(
        &mut self,
        kind: usize,
        block: usize,
        contents: &[u8],
        draws: &mut Draws,
    ) -> Result<Handed, u8> {
        ask((READ..=WRITE).contains(&kind), 2)?;
        ask(self.request.is_none(), 4)?;
        ask(block < self.shape.blocks, 5)?;
        let length = if kind == WRITE { self.shape.bytes } else { 0 };
        ask(contents.len() == length, 6)?;
        ask(self.queue.len() <= 62, 7)?;
        let room = self.waiting.len() < self.shape.places;
        ask(room || self.waiting.contains(&block), 8)?;
        ask(draws.left() >= 2, 3)?;
        self.request = Some(Request {
            kind,
            block,
            bytes: contents.to_vec(),
            next: draws.below(self.shape.partitions),
            evict: draws.below(self.shape.partitions),
            level: 0,
            found: None,
            awaits: 0,
        });
        Ok(Handed::default())
    }

    pub fn busy(&self, q: usize) -> bool {
        self.outstanding.iter().any(|c| c.partition == q)
    }

    fn decide(&self) -> Option<Step> {
        let request = self.request.as_ref().filter(|r| r.found.is_some());
        if let Some((r, level)) = request.and_then(|r| Some((r, self.level_left(r)?))) {
            let q = self.partition[r.block];
            let read = |slot| Step::RequestRead(command(READ, q, level, slot));
            let slot = self.slot_read(r.block, level);
            return Some(slot.map_or(Step::NoDummy, read));
        }
        let q = *self.queue.first()?;
        let write = self.writes(q).get(self.sent).copied();
        let write = write.map(|(level, slot)| command(WRITE, q, level, slot));
        if self.sent > 0 {
            return write.map(Step::Write);
        }
        match self.unread(q) {
            Some((level, slot)) => Some(Step::JobRead(command(READ, q, level, slot))),
            // the orders are drawn only after the request is collected
            None if self.busy(q) || self.released_for(q).is_some() => None,
            None => write.map(Step::Rebuild),
        }
    }

    fn turn(&mut self, buffer: usize, draws: &mut Draws) -> Result<Handed, u8> {
        ask(self.outstanding.len() < self.shape.window, 9)?;
        let step = self.decide().ok_or(10)?;
        let writes = matches!(step, Step::Rebuild(_) | Step::Write(_));
        ask(!writes || buffer == self.shape.bytes, 15)?;
        let sent = match step {
            Step::NoDummy => return Err(2),
            Step::RequestRead(c) => {
                self.pass_level(c);
                c
            }
            Step::JobRead(c) => {
                self.begun = self.joined(c.partition);
                self.cursor = slots(c.level) - 2 + c.slot + 1;
                c
            }
            Step::Rebuild(c) => {
                self.rebuild(c.partition, draws)?;
                c
            }
            Step::Write(c) => c,
        };
        self.outstanding.push(sent);
        let cell = self.cell(sent.partition, sent.level, sent.slot);
        if sent.kind == READ {
            self.mark[cell] = 0;
            return Ok((sent, Vec::new(), Found::Nowhere));
        }
        self.sent += 1;
        let held = self.holder(sent.partition, sent.level, sent.slot);
        let zeros = vec![0; self.shape.bytes];
        let bytes = held.map_or(zeros, |b| self.bytes[b].clone());
        Ok((sent, bytes, Found::Nowhere))
    }

    /// The request's read is the last outstanding command that it waits for, and
    /// a source's is a command of the job, too.
    fn pass_level(&mut self, read: Command) {
        if self.is_source(read.partition, read.level) {
            self.begun = self.joined(read.partition);
        }
        if let Some(request) = &mut self.request {
            request.level = read.level + 1;
            request.awaits = self.outstanding.len() + 1;
        }
    }

    fn completion(&mut self, command: Command, bytes: &[u8]) -> Result<Handed, u8> {
        ask((READ..=WRITE).contains(&command.kind), 2)?;
        let found = self.outstanding.iter().position(|c| *c == command);
        let index = found.ok_or(11)?;
        let length = if command.kind == READ {
            self.shape.bytes
        } else {
            0
        };
        ask(bytes.len() == length, 12)?;
        self.outstanding.remove(index);
        if let Some(request) = &mut self.request {
            request.awaits -= usize::from(index < request.awaits);
        }
        if command.kind == WRITE {
            self.finish_job();
        } else if let Some(block) = self.holder(command.partition, command.level, command.slot) {
            self.bytes[block] = bytes.to_vec();
        }
        Ok(Handed::default())
    }

    fn collect(&mut self, buffer: usize) -> Result<Handed, u8> {
        let request = self.request.clone().ok_or(13)?;
        let (b, p) = (request.block, self.partition[request.block]);
        let found = request.found.ok_or(14)?;
        ask(self.is_finished(&request), 14)?;
        ask(buffer == self.shape.bytes, 15)?;
        let before = self.contents(b);
        self.bytes[b] = match request.kind {
            WRITE => request.bytes,
            _ => before.clone(),
        };
        if let Some((level, slot)) = self.place[b].take() {
            let cell = self.cell(p, level, slot);
            self.holds[cell] = 0;
        }
        self.waiting.retain(|other| *other != b);
        self.waiting.push(b);
        self.partition[b] = request.next;
        self.queue.extend([p, request.evict]);
        self.request = None;
        Ok((Command::default(), before, found))
    }
}

fn command(kind: usize, partition: usize, level: usize, slot: usize) -> Command {
    Command {
        kind,
        partition,
        level,
        slot,
    }
}

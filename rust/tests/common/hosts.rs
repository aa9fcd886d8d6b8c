//! Hosts for tests: one that watches what is outstanding at another, and one
//! that completes in a fixed order.

use rinwolfedd::{Command, Host, Kind};
use std::collections::{HashMap, HashSet, VecDeque};
use std::io;

/// A slot: its partition, its level, and which it is.
type Place = (u8, u8, u16);

fn place(command: Command) -> Place {
    (command.partition, command.level, command.slot)
}

/// A host that watches what is outstanding at the host below.
pub struct Watched<H> {
    host: H,
    pub outstanding: HashSet<Place>,
    /// The most that were outstanding.
    pub most: usize,
    /// Completions that were not of the command submitted first.
    pub overtook: usize,
    submitted: Vec<Command>,
}

impl<H> Watched<H> {
    pub fn new(host: H) -> Watched<H> {
        Watched {
            host,
            outstanding: HashSet::new(),
            most: 0,
            overtook: 0,
            submitted: Vec::new(),
        }
    }
}

impl<H: Host> Host for Watched<H> {
    fn submit(&mut self, command: Command, bytes: &[u8]) -> io::Result<()> {
        assert!(self.outstanding.insert(place(command)), "two in one slot");
        self.most = self.most.max(self.outstanding.len());
        self.submitted.push(command);
        self.host.submit(command, bytes)
    }

    fn next_completed(&mut self, buffer: &mut [u8]) -> io::Result<Command> {
        let command = self.host.next_completed(buffer)?;
        assert!(self.outstanding.remove(&place(command)));
        self.overtook += usize::from(self.submitted[0] != command);
        self.submitted.retain(|submitted| *submitted != command);
        Ok(command)
    }
}

/// Which command a host completes first.
#[derive(Clone, Copy, PartialEq, Eq)]
pub enum First {
    Oldest,
    Newest,
}

/// A host in memory that completes commands in this order.
pub struct Ordered {
    first: First,
    kept: HashMap<Place, Vec<u8>>,
    outstanding: VecDeque<(Command, Vec<u8>)>,
    /// So many commands more are completed, and then none.
    pub left: usize,
}

impl Ordered {
    pub fn new(first: First) -> Ordered {
        Ordered {
            first,
            kept: HashMap::new(),
            outstanding: VecDeque::new(),
            left: usize::MAX,
        }
    }
}

impl Host for Ordered {
    fn submit(&mut self, command: Command, bytes: &[u8]) -> io::Result<()> {
        self.outstanding.push_back((command, bytes.to_vec()));
        Ok(())
    }

    fn next_completed(&mut self, buffer: &mut [u8]) -> io::Result<Command> {
        let left = self.left.checked_sub(1);
        self.left = left.ok_or(io::Error::other("the wire is cut"))?;
        let next = match self.first {
            First::Oldest => self.outstanding.pop_front(),
            First::Newest => self.outstanding.pop_back(),
        };
        let (command, bytes) = next.expect("a command is outstanding");
        match command.kind {
            Kind::Write => drop(self.kept.insert(place(command), bytes)),
            Kind::Read => buffer.copy_from_slice(&self.kept[&place(command)]),
        }
        Ok(command)
    }
}

//! An honest host in memory: what was written last to a slot is what a read
//! of it brings. The commands outstanding may be completed in any order.

use crate::state::{Command, WRITE};
use std::collections::HashMap;

#[derive(Clone, Debug, Default)]
pub struct Host {
    memory: HashMap<(usize, usize, usize), Vec<u8>>,
    /// Commands sent and not yet completed, with a write's bytes.
    pub pending: Vec<(Command, Vec<u8>)>,
}

impl Host {
    pub fn send(&mut self, command: Command, bytes: Vec<u8>) {
        self.pending.push((command, bytes));
    }

    /// The bytes with which a pending command completes.
    pub fn answer(&self, index: usize) -> (Command, Vec<u8>) {
        let command = self.pending[index].0;
        let slot = (command.partition, command.level, command.slot);
        match command.kind {
            WRITE => (command, Vec::new()),
            _ => (command, self.memory.get(&slot).cloned().unwrap_or_default()),
        }
    }

    /// The command has completed: a write's bytes now lie in its slot.
    pub fn done(&mut self, command: Command) {
        let Some(index) = self.pending.iter().position(|(c, _)| *c == command) else {
            return;
        };
        let (command, bytes) = self.pending.remove(index);
        if command.kind == WRITE {
            let slot = (command.partition, command.level, command.slot);
            self.memory.insert(slot, bytes);
        }
    }
}

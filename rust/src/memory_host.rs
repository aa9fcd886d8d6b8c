//! A host in memory.

use crate::command::{Command, Kind};
use crate::host::{Host, none_outstanding, still_outstanding, wrong};
use crate::refusal::Refusal;
use crate::saves::{NotResumed, Resumed, SaveId, Saves};
use crate::slots::Slots;
use std::collections::BTreeSet;
use std::fmt;
use std::io;

/// A host in memory that completes the submitted commands in random order. A
/// write's bytes are in their slot only when it completes. The seed decides
/// the order; it has no part in what is hidden.
///
/// It goes back to [saves](Saves) as a [`FileHost`](crate::FileHost) does, as long
/// as it is there, and has a copy of all slots for each that it can go back to.
#[derive(Clone)]
pub struct MemoryHost {
    slots: Slots,
    /// The bytes of all slots.
    kept: Vec<u8>,
    /// The commands submitted and not completed, with the bytes of writes.
    outstanding: Vec<(Command, Vec<u8>)>,
    seed: u64,
    /// The last save, and those prepared since.
    saves: Vec<Copied>,
}

/// What one save left.
#[derive(Clone)]
struct Copied {
    id: SaveId,
    /// The bytes of all slots.
    kept: Vec<u8>,
    /// Where the slots begin that were written after it and before the next.
    written: BTreeSet<usize>,
}

/// Not the bytes, which are many, and may be those of blocks.
impl fmt::Debug for MemoryHost {
    fn fmt(&self, f: &mut fmt::Formatter<'_>) -> fmt::Result {
        f.debug_struct("MemoryHost")
            .field("slots", &self.slots)
            .field("outstanding", &self.outstanding.len())
            .finish_non_exhaustive()
    }
}

impl MemoryHost {
    /// A host for stores of this shape, or for these [slots](Slots). All of
    /// them are zeros.
    ///
    /// # Errors
    ///
    /// [`Refusal::ShapeOutOfBounds`] if the shape is, or if the slots have more
    /// bytes than can be addressed.
    pub fn new(slots: impl Into<Slots>, seed: u64) -> Result<MemoryHost, Refusal> {
        let slots = slots.into();
        let length = slots.length().ok_or(Refusal::ShapeOutOfBounds)?;
        Ok(MemoryHost {
            slots,
            kept: vec![0; length],
            outstanding: Vec::new(),
            seed,
            saves: Vec::new(),
        })
    }

    /// A number below m, by the generator splitmix64.
    fn below(&mut self, m: usize) -> usize {
        self.seed = self.seed.wrapping_add(0x9E37_79B9_7F4A_7C15);
        let mut z = self.seed;
        z = (z ^ (z >> 30)).wrapping_mul(0xBF58_476D_1CE4_E5B9);
        z = (z ^ (z >> 27)).wrapping_mul(0x94D0_49BB_1331_11EB);
        ((z ^ (z >> 31)) % m as u64) as usize
    }
}

impl Host for MemoryHost {
    fn fits(&self, slots: Slots) -> io::Result<()> {
        self.slots.hold(slots)
    }

    fn submit(&mut self, command: Command, bytes: &[u8]) -> io::Result<()> {
        self.slots.submitted(command, bytes.len())?;
        self.outstanding.push((command, bytes.to_vec()));
        Ok(())
    }

    fn next_completed(&mut self, buffer: &mut [u8]) -> io::Result<Command> {
        if self.outstanding.is_empty() {
            return Err(none_outstanding());
        }
        let chosen = self.below(self.outstanding.len());
        let (command, bytes) = &self.outstanding[chosen];
        let command = *command;
        match command.kind {
            Kind::Write => {
                let at = self.slots.submitted(command, bytes.len())?;
                self.kept[at..at + bytes.len()].copy_from_slice(bytes);
                if let Some(last) = self.saves.last_mut() {
                    last.written.insert(at);
                }
            }
            // with a buffer of another length the command stays outstanding
            Kind::Read => {
                let at = self.slots.read(command, buffer.len())?;
                buffer.copy_from_slice(&self.kept[at..at + buffer.len()]);
            }
        }
        self.outstanding.swap_remove(chosen);
        Ok(command)
    }
}

impl Saves for MemoryHost {
    fn prepare(&mut self, id: SaveId) -> io::Result<()> {
        if !self.outstanding.is_empty() {
            return Err(still_outstanding());
        }
        if self.saves.iter().any(|save| save.id == id) {
            return Err(wrong(format!("there is a save {id} already")));
        }
        self.saves.push(Copied {
            id,
            kept: self.kept.clone(),
            written: BTreeSet::new(),
        });
        Ok(())
    }

    fn commit(&mut self, id: SaveId) -> io::Result<()> {
        if self.saves.first().is_some_and(|save| save.id == id) {
            return Ok(());
        }
        match self.saves.last() {
            Some(save) if save.id == id && save.written.is_empty() => {
                self.saves.drain(..self.saves.len() - 1);
                Ok(())
            }
            _ => Err(wrong(format!(
                "{id} is not the save that was just prepared"
            ))),
        }
    }

    fn resume(&mut self, id: SaveId) -> io::Result<Resumed> {
        let last = self.saves.first().ok_or(NotResumed::NeverSaved)?.id;
        let found = self.saves.iter().position(|save| save.id == id);
        let found = found.ok_or(NotResumed::OtherSave { asked: id, last })?;
        self.saves.drain(..found);
        let slots: BTreeSet<usize> = self.saves.drain(1..).flat_map(|s| s.written).collect();
        let save = &mut self.saves[0];
        let slots = &slots | &std::mem::take(&mut save.written);
        self.kept.copy_from_slice(&save.kept);
        self.outstanding.clear();
        match slots.len() {
            0 => Ok(Resumed::AsSaved),
            slots => Ok(Resumed::RolledBack { slots }),
        }
    }
}

//! The slots that a host keeps.

use crate::command::{Command, Kind};
use crate::host::wrong;
use crate::shape::Shape;
use std::io;

/// The slots of a store at its host, and how many bytes each takes there: those
/// of a block (B), or more where the bytes are sealed on their way.
///
/// A [`Shape`] stands for its slots of B bytes wherever slots are asked for. A
/// host that seals needs longer ones at the host below it
/// ([`Host`](crate::Host) says what sealing takes):
///
/// ```
/// use rinwolfedd::{MemoryHost, Shape, Slots};
///
/// let shape = Shape::hiding(64, 8)?;
/// let host = MemoryHost::new(shape, 1)?; // slots of 8 bytes
/// let below = MemoryHost::new(Slots::of(shape).with_bytes(8 + 28), 1)?;
/// # Ok::<(), rinwolfedd::Refusal>(())
/// ```
#[derive(Clone, Copy, Debug, PartialEq, Eq, Hash)]
pub struct Slots {
    shape: Shape,
    bytes: usize,
}

impl Slots {
    /// The slots of a shape, B bytes each.
    #[must_use]
    pub const fn of(shape: Shape) -> Slots {
        Slots {
            shape,
            bytes: shape.bytes(),
        }
    }

    /// The same slots with so many bytes each.
    #[must_use]
    pub const fn with_bytes(self, bytes: usize) -> Slots {
        Slots { bytes, ..self }
    }

    /// The shape whose slots they are.
    #[must_use]
    pub const fn shape(&self) -> Shape {
        self.shape
    }

    /// The bytes of one slot.
    #[must_use]
    pub const fn bytes(&self) -> usize {
        self.bytes
    }

    /// The bytes of all of them, or none for a shape out of bounds and for more
    /// bytes than a vector may have.
    pub(crate) fn length(&self) -> Option<usize> {
        let length = self.shape.slots()?.checked_mul(self.bytes)?;
        isize::try_from(length).is_ok().then_some(length)
    }

    /// Where a submitted command's slot begins, if there is one and a write has
    /// its bytes, a read none. These slots have a [length](Slots::length).
    pub(crate) fn submitted(&self, command: Command, length: usize) -> io::Result<usize> {
        let wanted = match command.kind {
            Kind::Read => 0,
            Kind::Write => self.bytes,
        };
        self.offset(command, length, wanted)
    }

    /// Where a completed read's slot begins, if the buffer is as long.
    pub(crate) fn read(&self, command: Command, length: usize) -> io::Result<usize> {
        self.offset(command, length, self.bytes)
    }

    fn offset(&self, command: Command, length: usize, wanted: usize) -> io::Result<usize> {
        let index = command
            .index_within(self.shape)
            .ok_or_else(|| wrong(format!("the host has no slot for {command}")))?;
        if length != wanted {
            let text = format!("{command} with {length} bytes, where {wanted} are asked for");
            return Err(wrong(text));
        }
        Ok(index * self.bytes)
    }

    /// Whether each of the other slots is one of these.
    pub(crate) fn hold(&self, other: Slots) -> io::Result<()> {
        let (has, wants) = (self.shape, other.shape);
        let each = has.partitions() >= wants.partitions() && has.levels() >= wants.levels();
        if each && self.bytes == other.bytes {
            return Ok(());
        }
        let told = |slots: Slots| {
            let (p, l) = (slots.shape.partitions(), slots.shape.levels());
            format!("{p} partitions of {l} levels, {} bytes a slot", slots.bytes)
        };
        let (has, wants) = (told(*self), told(other));
        Err(wrong(format!(
            "the host has {has}; the store needs {wants}"
        )))
    }
}

impl From<Shape> for Slots {
    fn from(shape: Shape) -> Slots {
        Slots::of(shape)
    }
}

#[cfg(test)]
mod tests {
    use super::Slots;
    use crate::shape::Shape;

    const SHAPE: Shape = Shape::new(8, 2, 3, 4);

    #[test]
    fn slots_are_as_long_as_asked_for() {
        assert_eq!(Slots::from(SHAPE), Slots::of(SHAPE));
        assert_eq!(Slots::of(SHAPE).length(), Some(28 * 4));
        let longer = Slots::of(SHAPE).with_bytes(600);
        assert_eq!((longer.bytes(), longer.shape()), (600, SHAPE));
        assert_eq!(longer.length(), Some(28 * 600));
        assert_eq!(longer.with_bytes(usize::MAX / 40).length(), None);
        assert_eq!(longer.with_bytes(usize::MAX).length(), None);
        assert_eq!(Slots::of(Shape::new(8, 3, 3, 4)).length(), None);
    }

    #[test]
    fn slots_hold_those_of_fewer_partitions_and_levels() {
        let slots = Slots::of(SHAPE);
        for (p, l) in [(2, 3), (1, 3), (2, 2)] {
            assert!(slots.hold(Shape::new(1, p, l, 4).into()).is_ok());
        }
        for shape in [Shape::new(8, 4, 3, 4), Shape::new(8, 2, 4, 4)] {
            assert!(slots.hold(shape.into()).is_err(), "{shape}");
        }
        for bytes in [3, 5] {
            assert!(slots.hold(slots.with_bytes(bytes)).is_err());
        }
        let told = slots.hold(slots.with_bytes(32)).unwrap_err().to_string();
        let wanted = "the host has 2 partitions of 3 levels, 4 bytes a slot; \
                      the store needs 2 partitions of 3 levels, 32 bytes a slot";
        assert_eq!(told, wanted);
    }
}

//! What the host is asked to do.

use crate::refusal::UnknownNumber;
use crate::shape::Shape;
use std::fmt;

/// Read or write.
#[derive(Clone, Copy, Debug, PartialEq, Eq, Hash, PartialOrd, Ord)]
#[repr(u8)]
pub enum Kind {
    /// The host brings the bytes of the slot.
    Read = 1,
    /// The host keeps the bytes in the slot.
    Write = 2,
}

impl Kind {
    /// The number by which the calls tell it: 1 or 2.
    #[inline]
    #[must_use]
    pub const fn number(self) -> u8 {
        self as u8
    }
}

impl TryFrom<u8> for Kind {
    type Error = UnknownNumber;

    /// The kind with this number, 1 or 2.
    #[inline]
    fn try_from(number: u8) -> Result<Kind, UnknownNumber> {
        match number {
            1 => Ok(Kind::Read),
            2 => Ok(Kind::Write),
            _ => Err(UnknownNumber::new(number)),
        }
    }
}

/// One command for the host: to read or write one slot of a level of a
/// partition. It prints as `r 3 0 1`. Commands are all that the host learns but
/// for the bytes beside them, which hide nothing until they are
/// [sealed](crate::Host#sealing).
#[derive(Clone, Copy, Debug, PartialEq, Eq, Hash, PartialOrd, Ord)]
pub struct Command {
    /// Read or write.
    pub kind: Kind,
    /// The partition, 0 to P−1.
    pub partition: u8,
    /// The level of the partition, 0 to L−1.
    pub level: u8,
    /// The slot of the level, 0 to 2^(level+1)−1.
    pub slot: u16,
}

impl Command {
    /// Where its slot stands among all slots of a store of this shape:
    /// partitions, levels and slots ascending. None if the shape has no such
    /// slot.
    #[must_use]
    pub fn index(&self, shape: Shape) -> Option<usize> {
        let within = shape.is_within_bounds();
        within.then(|| self.index_within(shape)).flatten()
    }

    /// The index in a shape that is known to be within bounds: to ask costs a
    /// call, which a host would make at each command.
    pub(crate) fn index_within(&self, shape: Shape) -> Option<usize> {
        let (partition, level) = (usize::from(self.partition), usize::from(self.level));
        let slot = usize::from(self.slot);
        if partition >= shape.partitions() || level >= shape.levels() {
            return None;
        }
        let first = (2 << level) - 2; // the slots of the levels below
        (slot < 2 << level).then_some(partition * ((2 << shape.levels()) - 2) + first + slot)
    }
}

impl fmt::Display for Command {
    fn fmt(&self, f: &mut fmt::Formatter<'_>) -> fmt::Result {
        let letter = match self.kind {
            Kind::Read => 'r',
            Kind::Write => 'w',
        };
        write!(
            f,
            "{letter} {} {} {}",
            self.partition, self.level, self.slot
        )
    }
}

#[cfg(test)]
mod tests {
    use super::{Command, Kind};
    use crate::shape::Shape;

    const SHAPE: Shape = Shape::new(8, 2, 3, 1);

    #[test]
    fn numbers_and_kinds_are_one_to_one() {
        for number in 0..=255 {
            match Kind::try_from(number) {
                Ok(kind) => assert_eq!(kind.number(), number),
                Err(other) => assert!(other.number() == number && ![1, 2].contains(&number)),
            }
        }
        assert_eq!(Kind::try_from(1), Ok(Kind::Read));
    }

    #[test]
    fn each_slot_has_an_index_of_its_own() {
        let mut next = 0;
        for partition in 0..=2 {
            for level in 0..=3 {
                for slot in 0..=16 {
                    let command = Command {
                        kind: Kind::Read,
                        partition,
                        level,
                        slot,
                    };
                    let exists = partition < 2 && level < 3 && slot < 2 << level;
                    let wanted = exists.then_some(next);
                    assert_eq!(command.index(SHAPE), wanted, "{command}");
                    assert_eq!(command.index_within(SHAPE), wanted, "{command}");
                    next += usize::from(exists);
                }
            }
        }
        assert_eq!(SHAPE.slots(), Some(next));
    }

    #[test]
    fn a_shape_out_of_bounds_has_no_index() {
        let command = Command {
            kind: Kind::Read,
            partition: 0,
            level: 0,
            slot: 0,
        };
        for shape in [Shape::new(8, 3, 3, 1), Shape::new(8, 2, usize::MAX, 1)] {
            assert_eq!(command.index(shape), None);
        }
    }
}

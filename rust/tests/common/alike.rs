//! Look-ups whose commands, but for their slots, do not depend on the block.

use crate::hosts::{First, Ordered};
use crate::shapes::shape;
use plain::rng::Rng;
use rinwolfedd::{Command, Kind, Reader, Recorded};

/// The kind, partition and level of commands.
fn but_for_slots(commands: &[Command]) -> Vec<(Kind, u8, u8)> {
    let each = commands.iter();
    each.map(|command| (command.kind, command.partition, command.level))
        .collect()
}

/// With one partition the commands but for their slots come from how full it is
/// and how many jobs are queued, and so does what a reader that was told this sends
/// when: look-ups of one block and of many, reads and writes, with other words, are
/// alike at every place, so many commands of jobs after each.
pub fn look_ups_are_alike(tell: impl Fn(&mut Reader<Recorded<Ordered>>), pause: usize) {
    let seen = [1, 2, 3].map(|seed| {
        let host = Recorded::new(Ordered::new(First::Oldest));
        let mut reader = Reader::open(shape(16, 1, 5, 2, 4), host).unwrap();
        tell(&mut reader);
        let mut rng = Rng::new(seed);
        for _ in 0..200 {
            match seed {
                1 => reader.read(5).unwrap(),
                2 => reader.write(rng.below(16), &[1; 2]).unwrap(),
                _ => reader.read(rng.below(16)).unwrap(),
            };
            reader.advance(pause).unwrap();
        }
        but_for_slots(reader.host().commands())
    });
    assert!(seen[0].len() > 1000 && seen[0] == seen[1] && seen[1] == seen[2]);
}

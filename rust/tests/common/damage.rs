//! Numbers that no call wrote, put into the bytes of a state and the tables of
//! its memory (docs/MEMORY.md).

use plain::rng::Rng;
use plain::shape::Shape;

/// A number that is small, near a bound, or any.
fn number(rng: &mut Rng, bound: usize) -> u16 {
    let any = match rng.below(8) {
        0 => rng.step() as usize,
        1 => bound,
        2 => bound + 1,
        3 => rng.below(4),
        _ => rng.below(bound + 1),
    };
    any as u16
}

/// What each number of the state may be at most; of jobs, and of those that run
/// together, often fewer.
fn bounds(shape: Shape, rng: &mut Rng) -> Vec<usize> {
    let (n, p, levels) = (shape.blocks, shape.partitions, shape.levels);
    let (places, window, slots) = (shape.places, shape.window, (2 << levels) - 2);
    let jobs = [4, 62, 64][rng.below(3)];
    let begun = [1, 3, (1 << levels) - 1, 64][rng.below(4)].min(64);
    let request = [2, n, p, p, levels, levels + 2, window];
    let rest = [jobs, begun, slots, slots, places, window];
    [&[4096, 64, 8, 512, n, 32][..], &request, &rest].concat()
}

/// Puts numbers into some of the state's; the shape's are seldom touched, as
/// little is in range after that.
pub fn damage_state(state: &mut [u8], shape: Shape, rng: &mut Rng) {
    let bounds = bounds(shape, rng);
    for _ in 0..1 + rng.below(3) {
        let k = if rng.chance(5) {
            rng.below(6)
        } else {
            6 + rng.below(bounds.len() - 6)
        };
        let value = number(rng, bounds[k]).to_le_bytes();
        state[4 * k..4 * k + 2].copy_from_slice(&value);
    }
}

/// No request is in hand, no command outstanding and no job begun, whatever else
/// the state says.
pub fn put_to_rest(state: &mut [u8]) {
    for k in [6, 14, 18] {
        state[4 * k..4 * k + 2].fill(0);
    }
}

fn put(memory: &mut [u8], at: usize, number: u16) {
    memory[2 * at..2 * at + 2].copy_from_slice(&number.to_le_bytes());
}

/// Puts numbers into some entries of one table or another, or any bytes
/// anywhere.
pub fn damage_memory(memory: &mut [u8], shape: Shape, rng: &mut Rng) {
    let (n, p, slots) = (shape.blocks, shape.partitions, 2 << shape.levels);
    let c = p * slots;
    let tables = [
        (0, 64, p),
        (64, 32, 64 + p),
        (96, 32, slots),
        (128, p, slots / 2),
        (192, n, p),
        (192 + n, n, slots),
        (192 + 2 * n, n, n),
        (192 + 3 * n, c, slots / 2),
        (192 + 3 * n + c, c, n),
        (192 + 3 * n + 2 * c, c, 1),
    ];
    if rng.chance(4) {
        let bytes = rng.bytes(memory.len());
        return memory.copy_from_slice(&bytes);
    }
    if rng.chance(25) {
        wear(memory, shape, rng);
    }
    if rng.chance(40) {
        let job = rng.below(p);
        put(memory, 1 + rng.below(2), job as u16); // one of those behind the front
    }
    for _ in 0..rng.below(10) {
        let (first, count, bound) = tables[rng.below(tables.len())];
        for _ in 0..1 + rng.below(4) {
            let value = number(rng, bound);
            put(memory, first + rng.below(count), value);
        }
    }
    for _ in 0..rng.below(4) {
        memory[rng.below(memory.len())] = rng.step() as u8;
    }
}

/// A level of the front job's partition counts as read about 2^level times,
/// which no call leaves of one that the job does not gather.
fn wear(memory: &mut [u8], shape: Shape, rng: &mut Rng) {
    let (level, slots) = (rng.below(shape.levels), 2 << shape.levels);
    let front = usize::from(u16::from_le_bytes([memory[0], memory[1]]));
    let mark = 192 + 3 * shape.blocks + 2 * shape.partitions * slots;
    let first = mark + front % shape.partitions * slots + (2 << level);
    let (read, turned) = ((1 << level) + rng.below(3) - 1, rng.below(2 << level));
    for slot in 0..2 << level {
        let unread = (slot + turned) % (2 << level) >= read;
        put(memory, first + slot, u16::from(unread));
    }
}

//! Random sessions as text. Most lines are well-formed and bring the store on;
//! the last ones may be damaged. The same seed and length give the same
//! session.

use crate::mistakes::Mistake;
use crate::rng::Rng;
use crate::session::{MOST_BYTES, MOST_WORDS, Session, hexadecimal};
use crate::shape::Shape;
use crate::state::State;

/// Partitions and levels of the largest stores; B is as large as is served.
const LARGEST: [(usize, usize); 10] = [
    (64, 1),
    (32, 2),
    (16, 3),
    (8, 4),
    (4, 5),
    (2, 6),
    (1, 7),
    (1, 8),
    (32, 8),
    (64, 7),
];

/// The lines from which on a session is long: it has the longest tape and
/// begins with the largest store that its seed chooses.
const LONG: usize = 1000;

/// A session of so many lines, and a few more if its end is damaged.
pub fn text(seed: u64, lines: usize) -> Vec<u8> {
    Maker::new(seed, lines).text
}

struct Maker {
    rng: Rng,
    session: Session,
    text: Vec<u8>,
    lines: usize,
    /// Whether requests follow each other with few turns, so that jobs queue.
    eager: bool,
}

impl Maker {
    /// A session up to its end; the seed also decides its kind.
    fn new(seed: u64, length: usize) -> Maker {
        let mut maker = Maker {
            rng: Rng::new(seed),
            session: Session::new(Mistake::None),
            text: Vec::new(),
            lines: 0,
            eager: false,
        };
        maker.eager = maker.rng.chance(30);
        maker.tape(length);
        if length >= LONG {
            let shape = maker.largest(seed as usize % LARGEST.len());
            maker.push(&open_line(&shape));
        }
        let opens = 1 + maker.rng.below(6);
        while maker.lines < length {
            let due = maker.session.state().is_none() || maker.rng.below(length) < opens;
            if due {
                maker.open();
            }
            maker.step();
        }
        if maker.rng.chance(75) {
            maker.damaged_end();
        }
        maker
    }

    fn push(&mut self, line: &str) {
        self.session.line(line.as_bytes());
        self.text.extend(line.as_bytes());
        self.text.push(b'\n');
        self.lines += 1;
    }

    /// Mostly the longest tape; a short session has a short one or none at
    /// times.
    fn tape(&mut self, length: usize) {
        let count = match self.rng.below(12) {
            0 if length < LONG => return,
            1 if length < LONG => self.rng.below(4),
            2 if length < LONG => self.rng.below(300),
            _ => MOST_WORDS,
        };
        let mut line = "T".to_string();
        for word in self.rng.tape(count) {
            line += &format!(" {word}");
        }
        self.push(&line);
        if length < LONG && self.rng.chance(8) {
            let line = std::mem::take(&mut self.text);
            self.text = self.damage(line);
        }
    }

    fn open(&mut self) {
        if self.rng.chance(30) {
            self.refused_open();
        }
        let shape = match self.rng.chance(50) {
            true => self.small(),
            false => self.any_largest(),
        };
        self.push(&open_line(&shape));
    }

    fn small(&mut self) -> Shape {
        let (p, l) = (1 << self.rng.below(3), 1 + self.rng.below(3));
        let most = (p << (l - 1)).min(8);
        // With as many blocks as may be, partitions are full now and then.
        let n = match self.rng.chance(40) {
            true => most,
            false => 1 + self.rng.below(most),
        };
        let (b, w) = (1 + self.rng.below(4), 1 + self.rng.below(3));
        Shape::new(n, p, l, b, 1 + self.rng.below(n), w)
    }

    fn any_largest(&mut self) -> Shape {
        let index = self.rng.below(LARGEST.len());
        self.largest(index)
    }

    fn largest(&mut self, index: usize) -> Shape {
        let (p, l) = LARGEST[index];
        let b = (MOST_BYTES / (p * ((2 << l) - 2))).min(512);
        let n = (p << (l - 1)).min(64);
        let e = if self.rng.chance(70) {
            n
        } else {
            1 + self.rng.below(n)
        };
        Shape::new(n, p, l, b, e, 1 + self.rng.below(32))
    }

    /// A shape out of bounds or larger than is served.
    fn refused_open(&mut self) {
        let mut shape = self.any_largest();
        match self.rng.below(8) {
            0 => shape.partitions = 3 * self.rng.below(2),
            1 => shape.blocks = shape.partitions * shape.capacity() + 1,
            2 => shape.levels = 9 * self.rng.below(2),
            3 => shape.places = shape.blocks + 1,
            4 => shape.window = 33 * self.rng.below(2),
            5 => shape.bytes = 512,
            6 => shape = Shape::new(65, 64, 2, 1, 1 + self.rng.below(65), 1),
            _ => shape.bytes += 1,
        }
        self.push(&open_line(&shape));
    }

    fn step(&mut self) {
        if self.rng.below(200) == 0 {
            self.eager = !self.eager;
        }
        if self.rng.chance(3) {
            return self.refused();
        }
        let Some(state) = self.session.state() else {
            return self.refused();
        };
        let finished = state.request.as_ref().map(|r| state.finished(r));
        let (queued, beside) = (!state.queue.is_empty(), state.is_beside());
        match finished {
            None if self.asks_beside(20) => self.request(),
            None if queued && !self.rng.chance(if self.eager { 98 } else { 30 }) => self.turns(),
            None => self.request(),
            Some(true) if self.rng.chance(if self.eager { 98 } else { 70 }) => self.push("C"),
            Some(false) if self.rng.chance(if beside { 20 } else { 5 }) => self.push("C"),
            Some(_) => self.turns(),
        }
    }

    /// Turns in a burst, one more than there are commands now and then.
    fn turns(&mut self) {
        let most = if self.eager { 3 } else { 24 };
        for _ in 0..1 + self.rng.below(most) {
            let sends = self.session.state().is_some_and(|s| s.step().is_some());
            if !sends && !self.rng.chance(10) || self.asks_beside(10) {
                return;
            }
            self.push("t");
        }
    }

    /// Whether this is, in so many of a hundred cases, a time to ask for a block
    /// whose partition is rebuilt.
    fn asks_beside(&mut self, percent: usize) -> bool {
        let ripe = |state: &State| state.request.is_none() && state.is_ripe();
        self.session.state().is_some_and(ripe) && self.rng.chance(percent)
    }

    fn request(&mut self) {
        let Some(state) = self.session.state() else {
            return;
        };
        let (n, bytes) = (state.shape.blocks, state.shape.bytes);
        let (free, rebuilt) = (free_blocks(state), state.rebuilt());
        let block = if !rebuilt.is_empty() && self.asks_beside(60) {
            rebuilt[self.rng.below(rebuilt.len())]
        } else if self.eager && !free.is_empty() {
            free[self.rng.below(free.len())]
        } else {
            self.rng.below(n)
        };
        if self.rng.chance(50) {
            return self.push(&format!("R {block}"));
        }
        let contents = hexadecimal(&self.rng.contents(bytes));
        self.push(&format!("W {block} {contents}"));
    }

    /// A line that is mostly refused.
    fn refused(&mut self) {
        let shape = self.session.state().map(|state| state.shape);
        let (n, b) = shape.map_or((1, 1), |shape| (shape.blocks, shape.bytes));
        let block = self.rng.below(n);
        match self.rng.below(7) {
            0 => {
                let beyond = n + self.rng.below(3);
                self.push(&format!("R {beyond}"));
            }
            1 => {
                let contents = hexadecimal(&self.rng.bytes(b + 1));
                self.push(&format!("W {block} {contents}"));
            }
            2 => {
                let contents = hexadecimal(&self.rng.contents(b));
                self.push(&format!("W {block} {contents}"));
            }
            3 => self.refused_open(),
            4 => self.push("C"),
            5 => self.push("t"),
            _ => self.push(&format!("R {block}")),
        }
    }

    /// Lines with random damage, most of which end the session, and then some
    /// that nobody should read.
    fn damaged_end(&mut self) {
        for _ in 0..3 {
            let start = self.text.len();
            match self.rng.below(4) {
                0 => self.open(),
                1 => self.request(),
                2 => self.refused(),
                _ => self.step(),
            }
            let line = self.text.split_off(start);
            let line = self.damage(line);
            self.text.extend(line);
        }
        if self.rng.chance(50) {
            self.text.extend(b"C\nt\nR 0\n");
        }
    }

    fn damage(&mut self, mut line: Vec<u8>) -> Vec<u8> {
        if line.is_empty() {
            return line;
        }
        let at = self.rng.below(line.len().min(40));
        let odd = b" \t\r\n\0 0099aAfFgG:/@`xRtCTW+-\xff,";
        let byte = odd[self.rng.below(odd.len())];
        match self.rng.below(6) {
            0 => line.insert(at, byte),
            1 => line[at] = byte,
            2 => drop(line.remove(at)),
            3 => line.truncate(at),
            4 => line.insert(line.len() - 1, byte),
            _ => line.insert(at, line[at]),
        }
        line
    }
}

fn open_line(shape: &Shape) -> String {
    let Shape {
        blocks,
        partitions,
        levels,
        bytes,
        places,
        window,
    } = shape;
    format!("O {blocks} {partitions} {levels} {bytes} {places} {window}")
}

/// The blocks whose partition has no job queued.
fn free_blocks(state: &State) -> Vec<usize> {
    (0..state.shape.blocks)
        .filter(|block| !state.queue.contains(&state.partition[*block]))
        .collect()
}

//! A small deterministic generator (splitmix64), so that every run of the
//! programs and tests makes the same choices.

use crate::draws::{WIDTH, limit};

#[derive(Clone, Debug)]
pub struct Rng(u64);

impl Rng {
    pub fn new(seed: u64) -> Rng {
        Rng(seed)
    }

    pub fn step(&mut self) -> u64 {
        self.0 = self.0.wrapping_add(0x9E37_79B9_7F4A_7C15);
        let mut z = self.0;
        z = (z ^ (z >> 30)).wrapping_mul(0xBF58_476D_1CE4_E5B9);
        z = (z ^ (z >> 27)).wrapping_mul(0x94D0_49BB_1331_11EB);
        z ^ (z >> 31)
    }

    /// A number below m; the bias of the remainder does not matter here.
    pub fn below(&mut self, m: usize) -> usize {
        (self.step() % m as u64) as usize
    }

    /// True in about so many of a hundred cases.
    pub fn chance(&mut self, percent: usize) -> bool {
        self.below(100) < percent
    }

    pub fn words(&mut self, count: usize) -> Vec<u16> {
        (0..count).map(|_| self.step() as u16).collect()
    }

    /// Words of a tape, some of them as high as those that draws pass over.
    pub fn tape(&mut self, count: usize) -> Vec<u16> {
        (0..count).map(|_| self.word()).collect()
    }

    /// Draws of orders pass over none but the last words, and the more of them
    /// do the nearer a word is to the end.
    fn word(&mut self) -> u16 {
        if !self.chance(20) {
            return self.step() as u16;
        }
        let from_end = self.below(512) >> self.below(10);
        u16::MAX - from_end as u16
    }

    /// Words that settle draws below these bounds, the last draw by the last
    /// word. Some draws pass words over first.
    pub fn settling(&mut self, bounds: impl IntoIterator<Item = usize>) -> Vec<u16> {
        let mut words = Vec::new();
        for m in bounds {
            let limit = limit(m, WIDTH);
            let passed = (1 << WIDTH) - limit;
            while passed > 0 && self.chance(20) {
                let above = if self.chance(50) {
                    0
                } else {
                    self.below(passed)
                };
                words.push((limit + above) as u16);
            }
            let taken = match self.chance(10) {
                true => limit - 1,
                false => self.below(limit),
            };
            words.push(taken as u16);
        }
        words
    }

    pub fn bytes(&mut self, count: usize) -> Vec<u8> {
        (0..count).map(|_| self.step() as u8).collect()
    }

    /// Bytes other than zero, so that they differ from a dummy's.
    pub fn contents(&mut self, count: usize) -> Vec<u8> {
        (0..count).map(|_| 1 + self.below(255) as u8).collect()
    }
}

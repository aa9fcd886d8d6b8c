//! A sum that tells bytes from damaged ones.

/// The sum of all bytes added so far, and of their lengths. Another value of one
/// word always has another sum; other changes go unnoticed once in 2^64 times,
/// unless somebody makes them on purpose: it is no seal.
#[derive(Clone, Copy, Debug)]
pub(crate) struct Sum(u64);

impl Sum {
    pub(crate) const fn new(seed: u64) -> Sum {
        Sum(seed)
    }

    /// Adds these bytes and their length.
    pub(crate) fn add(mut self, bytes: &[u8]) -> Sum {
        for part in bytes.chunks(8) {
            let mut word = [0; 8];
            word[..part.len()].copy_from_slice(part);
            self = self.add_number(u64::from_le_bytes(word));
        }
        self.add_number(bytes.len() as u64)
    }

    /// Adds a number, by a step of the generator splitmix64. The step has an
    /// inverse: two sums that differ stay different while the same is added to
    /// them.
    pub(crate) const fn add_number(self, number: u64) -> Sum {
        let mut z = (self.0 ^ number).wrapping_add(0x9E37_79B9_7F4A_7C15);
        z = (z ^ (z >> 30)).wrapping_mul(0xBF58_476D_1CE4_E5B9);
        z = (z ^ (z >> 27)).wrapping_mul(0x94D0_49BB_1331_11EB);
        Sum(z ^ (z >> 31))
    }

    pub(crate) const fn value(self) -> u64 {
        self.0
    }
}

#[cfg(test)]
mod tests {
    use super::Sum;
    use std::collections::HashSet;

    fn sum(bytes: &[u8]) -> u64 {
        Sum::new(1).add(bytes).value()
    }

    /// Every change of one byte, every shorter text, zeros of every length.
    #[test]
    fn other_bytes_have_another_sum() {
        let text: Vec<u8> = (1..41).collect();
        let mut sums = HashSet::from([sum(&text)]);
        let mut all = 1;
        for at in 0..text.len() {
            let mut other = text.clone();
            for change in 1..=255 {
                other[at] = text[at] ^ change;
                assert!(sums.insert(sum(&other)));
            }
            assert!(sums.insert(sum(&text[..at])));
            assert!(sums.insert(sum(&vec![0; at + 1])));
            all += 257;
        }
        assert_eq!(sums.len(), all);
    }

    #[test]
    fn where_one_text_ends_counts() {
        let apart = |at: usize| {
            let (first, second) = b"genotypes".split_at(at);
            Sum::new(1).add(first).add(second).value()
        };
        let sums: HashSet<u64> = (0..=9).map(apart).collect();
        assert_eq!(sums.len(), 10);
        assert_ne!(Sum::new(2).value(), Sum::new(1).value());
    }
}

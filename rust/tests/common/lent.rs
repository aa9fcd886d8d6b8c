//! Bytes that are lent between canaries.

/// The canaries on either side.
const SIDE: usize = 64;
const CANARY: u8 = 0xA5;

pub struct Lent {
    all: Vec<u8>,
    len: usize,
}

impl Lent {
    pub fn new(bytes: &[u8]) -> Lent {
        let mut all = vec![CANARY; SIDE];
        all.extend_from_slice(bytes);
        all.extend_from_slice(&[CANARY; SIDE]);
        Lent {
            all,
            len: bytes.len(),
        }
    }

    pub fn lend(&mut self) -> &mut [u8] {
        self.lend_first(self.len)
    }

    /// Lends the first bytes only; those after them are for the lender to
    /// watch.
    pub fn lend_first(&mut self, len: usize) -> &mut [u8] {
        &mut self.all[SIDE..SIDE + self.len][..len]
    }

    pub fn bytes(&self) -> &[u8] {
        &self.all[SIDE..SIDE + self.len]
    }

    /// The canaries are as they were.
    pub fn is_sound(&self) -> bool {
        let outside = self.all[..SIDE].iter().chain(&self.all[SIDE + self.len..]);
        outside.copied().all(|byte| byte == CANARY)
    }
}

//! Blocks and their sums: 508 bytes of the payload, and then the sum modulo
//! 2^32 of their 127 words and of the block's number.

use super::{BLOCK, BODY};
use crate::mistakes::Mistake;

/// The sum of a block with these words.
pub fn sum(words: impl IntoIterator<Item = u32>, number: u32) -> u32 {
    words.into_iter().fold(number, u32::wrapping_add)
}

fn words(body: &[u8]) -> impl Iterator<Item = u32> {
    let (words, _) = body.as_chunks();
    words.iter().map(|word| u32::from_le_bytes(*word))
}

fn block_sum(body: &[u8], index: usize, mistake: Mistake) -> [u8; 4] {
    let number = match mistake {
        Mistake::SumWithoutNumber => 0,
        _ => index as u32,
    };
    sum(words(body), number).to_le_bytes()
}

/// The payload in blocks, of which the last is filled up with zeros.
pub fn in_blocks(payload: &[u8], mistake: Mistake) -> Vec<u8> {
    let mut form = Vec::with_capacity(payload.len().div_ceil(BODY) * BLOCK);
    for (index, part) in payload.chunks(BODY).enumerate() {
        let mut body = part.to_vec();
        body.resize(BODY, 0);
        let sum = block_sum(&body, index, mistake);
        form.extend(body);
        form.extend(sum);
    }
    form
}

/// The payload in these blocks, with the zeros at its end.
pub fn out_of_blocks(form: &[u8]) -> Vec<u8> {
    let bodies = form.chunks(BLOCK).map(|block| &block[..BODY]);
    bodies.collect::<Vec<_>>().concat()
}

/// Whether these are blocks, one at least, each with its sum.
pub fn are_blocks(form: &[u8], mistake: Mistake) -> bool {
    let right = |(index, block): (usize, &[u8])| {
        let (body, sum) = block.split_at(BODY);
        block_sum(body, index, mistake) == sum
    };
    is_length(form.len()) && form.chunks(BLOCK).enumerate().all(right)
}

pub fn is_length(length: usize) -> bool {
    length > 0 && length.is_multiple_of(BLOCK)
}

/// Puts the right sum into each whole block.
pub fn make_right(form: &mut [u8]) {
    for (index, block) in form.chunks_exact_mut(BLOCK).enumerate() {
        let sum = block_sum(&block[..BODY], index, Mistake::None);
        block[BODY..].copy_from_slice(&sum);
    }
}
